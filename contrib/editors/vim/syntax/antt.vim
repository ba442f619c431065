" Definitions and proofs of Rattle (.antt), also inside the clauses of .rt files.
if exists('b:current_syntax')
  finish
endif

syntax keyword anttKeyword abbrev pub data record module mod use open where
syntax keyword anttKeyword let in if then else of by with rewrite as
syntax keyword anttConstant true false refl absurd Some None
syntax keyword anttSort Type Unit Bool List Option Result
syntax match anttSort /ℕ/
syntax match anttNumber /\<\d\+\>/
syntax match anttType /\<\u\w*\>/
syntax match anttOperator /[λ→×≡≢≤<>=+*^∷↔∀∃⊎¬]\|&&\|||\|++/
syntax match anttDefinition /\%(^\s*\%(abbrev\s\+\)\?\%(pub\s\+\)\?\)\@<=\l\w*\ze\s*:\%(\s\|$\)/
syntax region anttString start=/"/ skip=/\\./ end=/"/ oneline
syntax match anttComment /--.*$/ contains=anttTodo,@Spell
syntax keyword anttTodo contained TODO FIXME

highlight default link anttKeyword Keyword
highlight default link anttConstant Constant
highlight default link anttSort Type
highlight default link anttType Type
highlight default link anttNumber Number
highlight default link anttOperator Operator
highlight default link anttDefinition Function
highlight default link anttString String
highlight default link anttComment Comment
highlight default link anttTodo Todo

let b:current_syntax = 'antt'
