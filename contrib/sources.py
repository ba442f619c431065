"""The calls of the crates, with their contracts and bodies, for the scripts that list them."""
import glob
import os
import re

HOME = os.path.dirname(os.path.dirname(os.path.abspath(__file__)))
TESTS = re.compile(r"_tests$|fedi_rows$")
OPENS = re.compile(r"(?m)^(?:pub )?(?P<kind>impl|trait)\b(?P<rest>[^{]*)\{|^\}")
FN = re.compile(
    r"(?m)^(?P<test>#\[test\]\n)?(?P<pad> {4})?(?P<open>pub )?(?:pub\(\w+\) )?"
    r"(?:const |unsafe )*fn (?P<name>\w+)"
)
LITERAL = re.compile(r"""//[^\n]*|(")(?:\\.|[^"\\])*"|'(?:\\[^']+|[^'\\])'""", re.DOTALL)
CLAUSE = re.compile(r"\s*(?P<kind>requires|ensures|decreases)\s*(?P<name>\w*)\s*(?=\{)")

# docs/REFUSALS.md. A table of calls begins below the name of its crate. Each row has a call and its
# file, how it refuses, the clauses that say why, and those that say what stays.
TABLE = os.path.join(HOME, "docs/REFUSALS.md")
TITLE = re.compile(r"^## (\w+)$")
ROW = re.compile(r"^\| `([\w:]+)` \((\w+)\) \| (.*) \| (.*) \| (.*) \|$")
NAMED = re.compile(r"`(\w+)`")


class Call:
    """A function, a method of a type, or a method of a trait."""

    def __init__(self, crate, file, name):
        self.crate, self.file, self.name = crate, file, name
        # Whether its crate hands it out, whether it implements a trait, and whether it is a test.
        self.is_public = self.implements = self.is_test = False
        # What it is given, its result, its clauses by their names, and its body.
        self.given, self.result, self.clauses, self.body = "", "", {}, ""

    def key(self):
        return self.crate, self.file, self.name

    def where(self):
        return f"{self.crate}/{self.file} {self.name}"


def bare(text):
    """The text without comments, and with empty strings and characters."""
    return LITERAL.sub(lambda found: found[1] * 2 if found[1] else "", text)


def balanced(text, at):
    """The end of what the bracket here opens."""
    depth = 0
    while True:
        depth += {"{": 1, "}": -1}.get(text[at], 0)
        at += 1
        if not depth:
            return at


def header(text, at):
    """The end of the parameters and the result that begin here."""
    depth = 0
    while True:
        if text[at] in "([":
            depth += 1
        elif text[at] in ")]":
            depth -= 1
        elif not depth and (
            text[at] in "{;" or re.match(r"\s(?:requires|ensures|decreases)\b", text[at:])
        ):
            return at
        at += 1


def parameters(head):
    """The end of the parameters in what follows the name of a function."""
    depth, angles = 0, 0
    for at, sign in enumerate(head):
        if sign == "(":
            depth += 1
        elif sign == ")":
            depth -= 1
            if not depth and not angles:
                return at + 1
        elif sign == "<":
            angles += 1
        elif sign == ">" and head[at - 1] != "-":
            angles -= 1
    return len(head)


def owner_of(place):
    """The type or the trait of an `impl` or a `trait`, and whether the one implements the other."""
    rest = place["rest"].strip()
    if place["kind"] == "impl":
        rest = re.sub(r"^<[^{]*?>(?= +\w)", "", rest).strip()
        parts = re.split(r"\bfor\b(?! *<)", rest)
        return re.search(r"\w+", parts[-1])[0], len(parts) > 1
    return re.search(r"\w+", rest)[0], False


def calls_in(path, names):
    """The calls of this file, whose crate hands out these names."""
    with open(path, encoding="utf-8") as file:
        text = bare(file.read())
    crate, _, file = os.path.relpath(path, f"{HOME}/crates").split("/")
    places = [*OPENS.finditer(text)]
    for found in FN.finditer(text):
        before = [place for place in places if place.start() < found.start()]
        call = Call(crate, file.removesuffix(".rt"), found["name"])
        call.is_test, call.is_public = bool(found["test"]), bool(found["open"])
        if found["pad"]:
            if not before or not before[-1]["kind"]:
                continue
            owner, call.implements = owner_of(before[-1])
            call.name = f"{owner}::{call.name}"
            call.is_public = (
                owner in names
                and (call.is_public or before[-1]["kind"] == "trait")
                and not call.implements
            )
        else:
            call.is_public = call.is_public and call.name in names
        at = header(text, found.end())
        head = " ".join(text[found.end() : at].split())
        given = parameters(head)
        call.given, result = head[:given], head[given:].strip().removeprefix("->").strip()
        call.result = re.sub(r"(?:^| )where .*", "", result)
        while clause := CLAUSE.match(text, at):
            at = balanced(text, clause.end())
            if clause["kind"] == "ensures":
                call.clauses[clause["name"] or "ensures"] = " ".join(
                    text[clause.end() : at].split()
                )
        body = re.match(r"\s*\{", text[at:])
        if body:
            call.body = text[at : balanced(text, at + body.end() - 1)]
        yield call


def exported(folder):
    """The names that a crate hands out."""
    try:
        with open(f"{folder}/src/lib.rt", encoding="utf-8") as file:
            text = bare(file.read())
    except FileNotFoundError:
        return set()
    names = set(re.findall(r"(?m)^pub (?:fn|struct|enum|trait) (\w+)", text))
    for path in re.findall(r"(?m)^pub use ([^;]+);", text):
        names |= set(re.findall(r"\w+", path.partition("{")[2] or path.rpartition("::")[2]))
    return names


def all_calls():
    """The calls of all crates."""
    for folder in sorted(glob.glob(f"{HOME}/crates/*")):
        names = exported(folder)
        for path in sorted(glob.glob(f"{folder}/src/*.rt")):
            yield from calls_in(path, names)


def public_calls():
    """The public calls of the crates of the program that have a result."""
    return [
        call
        for call in all_calls()
        if call.is_public and call.result and not TESTS.search(call.crate)
    ]


def variants():
    """The variants of each public enum, by its name."""
    found = {}
    for path in glob.glob(f"{HOME}/crates/*/src/*.rt"):
        with open(path, encoding="utf-8") as file:
            text = bare(file.read())
        for enum in re.finditer(r"(?m)^pub enum (\w+)[^{]*\{", text):
            inside = text[enum.end() - 1 : balanced(text, enum.end() - 1)]
            found[enum[1]] = re.findall(r"(?m)^ {4}(\w+)", inside)
    return found


def rows():
    """The rows of docs/REFUSALS.md, as their keys, how they refuse, and the clauses that they name: why, and
    all.
    """
    crate = None
    with open(TABLE, encoding="utf-8") as file:
        for line in map(str.strip, file):
            if title := TITLE.match(line):
                crate = title[1]
            elif row := ROW.match(line):
                why = NAMED.findall(row[4])
                yield (f"fedi_{crate}", row[2], row[1]), (row[3], why, why + NAMED.findall(row[5]))
