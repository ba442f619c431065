"""The definitions that contracts cite, with what the text of each names, for the scripts that list
them.
"""
import os
import re

HOME = os.path.dirname(os.path.dirname(os.path.abspath(__file__)))
BEGINS = re.compile(r"(?:(?:abbrev|unfoldable|opaque) pub|pub (?:record|data|law)) (\S+)")
# What may occur between a definition and its comment.
PASSED = re.compile(r"(infix[lr]?|prefix|postfix) ")
USE = re.compile(r"use ([\w.]+?)(?:\.\{([^}]*)\})?(?: as (\w+))?$")
# What is around several definitions: parameters that they share, or that they name each other.
MODULE = re.compile(r"module _ .* where$")
MUTUAL = re.compile(r"abbrev mutual$")
MEMBER = re.compile(r"  pub (\S+) :")
TOKEN = re.compile(r'"(?:\\.|[^"\\])*"|\[\]|[(){}\[\];,]|[^\s(){}\[\];,"]+')
WORD = re.compile(r"[^\W\d][\w']*$")
LITERALS = ("true", "false")


def crates():
    """The names of the crates, lowest first."""
    with open(f"{HOME}/crates.txt", encoding="utf-8") as file:
        lines = [line.partition("#")[0] for line in file]
    return [line.partition(":")[0].split()[0] for line in lines if ":" in line]


def files(crate):
    """The files of definitions, in the order in which the crate names them."""
    folder = f"{HOME}/crates/{crate}/specs"
    if not os.path.isfile(f"{folder}/Lib.antt"):
        return []
    with open(f"{folder}/Lib.antt", encoding="utf-8") as file:
        names = re.findall(r"(?m)^(?:pub )?mod (\w+)", file.read())
    return [f"{folder}/{name}.antt" for name in names]


def short(path):
    """The path below the folder of the crates."""
    return os.path.relpath(path, f"{HOME}/crates")


class Definition:
    """A definition: its place, the comment above it, its text, and the module around it, if any."""

    def __init__(self, spec, line, name, comment, module):
        self.spec, self.line, self.name = spec, line, name
        self.comment, self.module, self.lines = comment, module, []

    def where(self):
        return f"crates/{short(self.spec.path)}:{self.line}"

    def print(self):
        """Prints it with its comment, and with what is around it."""
        above, around = self.comment, [self.module] if self.module else []
        above = above + around if is_mutual(self.module) else around + above
        print("\n".join([*above, *self.lines]))

    def full_name(self):
        """The crate, the file and the name."""
        crate, _, file = short(self.spec.path).split("/")
        return f"{crate}.{file.removesuffix('.antt')}.{self.name}"

    def length(self):
        """How many lines of its text are no comments."""
        return sum(not line.lstrip().startswith("--") for line in self.lines)

    def constructors(self):
        """What the values of a `data` are made by."""
        if not self.lines[0].lstrip().startswith("pub data"):
            return []
        return re.findall(r"(?m)^ +(\w+) :", "\n".join(self.lines[1:]))

    def parts(self):
        """Its signature and its equations, or the whole of it if it has none, as tokens."""
        pad = len(self.lines[0]) - len(self.lines[0].lstrip())
        found = []
        for line in self.lines:
            text = line.partition("--")[0]
            begins = len(line) - len(line.lstrip()) == pad and not line.strip().startswith("}")
            if begins and text.strip() and not PASSED.match(text.strip()):
                found.append([])
            if found:
                found[-1] += TOKEN.findall(text)
        return found

    def names(self):
        """The names that its text uses and does not bind itself, in order of their occurrence."""
        around = TOKEN.findall(self.module or "")
        bound, found = set(), Text(around, set()).names()
        bound |= binders(around)
        for part in self.parts():
            found += Text(part, bound).names()
        return list(dict.fromkeys(found))


def is_mutual(module):
    return bool(module and MUTUAL.match(module))


def binders(tokens):
    """What the parameters of a module bind, and their types, which are found beside it."""
    return {each for each in tokens if WORD.match(each)}


class Text:
    """A signature or an equation, as tokens, and what is bound around it."""

    def __init__(self, tokens, bound):
        self.tokens, self.bound = tokens, set(bound)
        self.depth, self.field = [], None

    def names(self):
        found = []
        at = self.head(found)
        while at < len(self.tokens):
            at = self.step(at, found)
        return found

    def head(self, found):
        """Passes what begins a signature, or the patterns of an equation, which bind names."""
        tokens = self.tokens
        if tokens[:1] == ["module"] or tokens[2:3] == [":"] and tokens[0] == "pub":
            return 2
        if tokens[:2] in (["pub", "record"], ["pub", "data"], ["pub", "law"]) or (
            tokens[1:2] == ["pub"] and tokens[0] in ("abbrev", "unfoldable", "opaque")
        ):
            return 3
        depth = 0
        for at, token in enumerate(tokens):
            depth += {"(": 1, "{": 1, ")": -1, "}": -1}.get(token, 0)
            if token == "=" and not depth:
                for each in tokens[:at]:
                    if WORD.match(each) and each[0].islower() and each not in LITERALS:
                        self.bound.add(each)
                    elif not WORD.match(each) or each not in self.bound:
                        found.append(each)
                return at + 1
        return 0

    def step(self, at, found):
        """Passes what is here, and returns where to go on."""
        tokens, token = self.tokens, self.tokens[at]
        following = tokens[at + 1] if at + 1 < len(tokens) else ""
        if token in ("(", "{"):
            self.depth.append(token)
            end = at + 1
            while end < len(tokens) and WORD.match(tokens[end]):
                end += 1
            if end > at + 1 and tokens[end] == ":":
                self.bound |= set(tokens[at + 1 : end])
                return end + 1
        elif token in (")", "}"):
            self.depth.pop()
        elif token == "λ":
            end = at + 1
            while not tokens[end].endswith("."):
                if tokens[end] == ":":
                    # A binder with its type, in brackets.
                    return at + 1
                end += 1
            self.bound |= {each.rstrip(".") for each in tokens[at + 1 : end + 1]}
            return end + 1
        elif token == "pub":
            # A field, which the fields after it may name.
            self.bound |= {self.field} - {None}
            self.field = following
            return at + 2
        elif token == "let":
            self.bound.add(following)
        elif following == "←":
            self.bound.add(token)
        elif following == "=" and "{" in self.depth:
            pass
        elif not token.startswith((".", '"')) and not token[0].isdigit():
            first, _, rest = token.partition(".")
            if first not in self.bound:
                found.append(f"{first}.{rest}" if rest else first)
        return at + 1


class Spec:
    """A file of definitions: what it is about, what it imports, and its definitions."""

    def __init__(self, path):
        self.path = path
        with open(path, encoding="utf-8") as file:
            self.lines = file.read().splitlines()
        about = self.lines[: next(i for i, line in enumerate(self.lines) if line[:2] != "--")]
        self.about = said(about)
        self.imported, self.aliases = {}, {}
        self.definitions, self.names = [], None
        self.read()

    def read(self):
        """Finds the imports and the definitions."""
        comment, between, shared, module, current, use = [], [], [], None, None, None
        for number, line in enumerate(self.lines, 1):
            text = line.strip()
            if not line.startswith(" ") and text and not text.startswith("--"):
                module = None
            if use is not None or line.startswith("use "):
                use = f"{use or ''}{text}"
                if "{" in use and "}" not in use:
                    continue
                self.add_import(USE.match(use))
                use = None
            elif MODULE.match(text):
                module, current, comment = line, None, []
            elif MUTUAL.match(text):
                module, current, shared, comment = line, None, comment, []
            elif not text or text.startswith("--"):
                comment = comment + [line] if text and not text.startswith("-- ----") else []
                between.append(line)
            elif PASSED.match(text):
                between.append(line)
            elif begins := BEGINS.match(text) or (is_mutual(module) and MEMBER.match(line)):
                fixed = [each for each in between if PASSED.match(each.strip())]
                first = number - len(comment) - len(fixed)
                if is_mutual(module):
                    # One comment, above all of them.
                    comment = comment or shared
                current = Definition(self, first, begins[1], comment, module)
                current.lines = fixed + [line]
                self.definitions.append(current)
                comment, between = [], []
            else:
                # The rest of a definition, or a lemma, before which there is an empty line.
                if current and "" not in between:
                    current.lines += between + [line]
                else:
                    current = None
                comment, between = [], []

    def length(self):
        """How many lines are neither empty nor comments nor imports."""
        texts = [line.strip() for line in self.lines if not line.startswith("use ")]
        return sum(bool(text) and not text.startswith("--") for text in texts)

    def add_import(self, use):
        path, names, alias = use[1], use[2], use[3]
        if names is None:
            self.aliases[alias or path.rpartition(".")[2]] = path
            return
        for each in filter(None, map(str.strip, names.split(","))):
            name, _, called = each.partition(" as ")
            self.imported[called or name] = (path, name)

    def own(self, name):
        """Its definition of this name, or that whose values this constructor makes."""
        if self.names is None:
            self.names = {}
            for each in self.definitions:
                for its in (each.name, *each.name.split("◌"), *each.constructors()):
                    self.names.setdefault(its, each)
        return self.names.get(name)


def said(lines):
    """What comment lines say, in one line."""
    return " ".join(line.strip()[2:].strip() for line in lines)


class Specs:
    """The files of all crates, and what their texts name."""

    def __init__(self):
        self.crates, self.files = crates(), {}
        for crate in self.crates:
            for path in files(crate):
                file = os.path.basename(path).removesuffix(".antt")
                self.files[crate, file] = Spec(path)

    def definitions(self):
        return [each for spec in self.files.values() for each in spec.definitions]

    def called(self, name):
        """The definitions of this name, which may begin with its file, and that with its crate."""
        parts = name.split(".")
        return [d for d in self.definitions() if d.full_name().split(".")[-len(parts) :] == parts]

    def find(self, spec, name):
        """What the name is in this file: a definition, or a name of other sources with its path."""
        if own := spec.own(name):
            return own
        first, _, rest = name.partition(".")
        if rest and first in spec.aliases:
            return self.opened(spec.aliases[first], rest.partition(".")[0])
        for imported, target in spec.imported.items():
            if first == imported or first in imported.split("◌"):
                return self.opened(*target)
        return None

    def opened(self, path, name):
        """What this path has by this name."""
        parts = path.split(".")
        spec = self.files.get((parts[1], parts[3])) if len(parts) > 3 else None
        return (spec and spec.own(name)) or (path, name)

    def uses(self, definition):
        """What the text of the definition names: definitions, and names of other sources."""
        names = definition.names()
        if "do" in names:
            names.append("◌>>=◌")
        found = [self.find(definition.spec, name) for name in names]
        return [each for each in dict.fromkeys(found) if each and each is not definition]
