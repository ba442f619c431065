" Rattle (.rt): Rust, with the clauses of contracts in the language of .antt files.
if exists('b:current_syntax')
  finish
endif
runtime! syntax/rust.vim
unlet! b:current_syntax
syntax include @rattleLogic syntax/antt.vim
unlet! b:current_syntax

" ghost use .., and any other. A later match that begins at the same word goes before it.
syntax match rattleGhost /\<ghost\>\%(\s\+invariant\>\)\?/
" ghost NAME: { .. }, ghost invariant = { .. }
syntax match rattleHead /\<ghost\s\+\h\w*\s*[:=]\ze\s*{/
      \ contains=rattleGhost nextgroup=rattleLogicBlock skipwhite
" requires { .. }, ensures NAME { .. }
syntax match rattleHead /\<\%(requires\|ensures\)\*\?\%(\s\+\h\w*\)\?\ze\s*{/
      \ contains=rattleClause nextgroup=rattleLogicBlock skipwhite
syntax match rattleClause contained /\<\%(requires\|ensures\)\>\*\?/

syntax region rattleLogicBlock matchgroup=rattleBrace start=/{/ end=/}/ contained
      \ contains=@rattleLogic,rattleNested
syntax region rattleNested start=/{/ end=/}/ contained transparent
      \ contains=@rattleLogic,rattleNested

highlight default link rattleHead Identifier
highlight default link rattleClause Statement
highlight default link rattleGhost Statement
highlight default link rattleBrace Delimiter

let b:current_syntax = 'rattle'
