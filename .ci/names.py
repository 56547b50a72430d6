#!/usr/bin/env python3
"""Looks up each name of docs/proved.tsv: definitions in their files, contracts with their clauses, edits, tests; and those of three
documents in plain words, each of which is a definition, a crate, or a word of the code.

A promise has a clause at least that its function ensures, and each clause that it names stands in each of its contracts: as a
clause's label, or as a definition, or a part of a value, of which a clause speaks. No other line lacks its names either. A test's
module is one that its crate has, and a step of a script is one that the script takes. Prints the names that don't exist. The last
line is `N passed, M failed`, a kind of lines or a document each."""

import functools
import glob
import os
import re
import sys

TOP = os.path.dirname(os.path.dirname(os.path.abspath(__file__)))
CRATES = f"{TOP}/crates"
# Stored rows and stored command lines, by the ends of their names.
STORED = {".row": f"{TOP}/examples/rows", ".words": f"{TOP}/examples/words"}
# What stands before the name that a file of definitions gives to something.
DEFINED = r"(?:abbrev |unfoldable )?pub (?:record |data )?"


def text_of(path):
    with open(path, encoding="utf-8") as file:
        return file.read()


def sources(crate):
    """The crate's Rattle files, by their module's path: `state::tests` for src/state/tests.rt, and "" for the root."""
    found = {}
    for at, _, files in os.walk(f"{CRATES}/{crate}/src"):
        for name in files:
            path = os.path.join(at, name)
            module = os.path.relpath(path, f"{CRATES}/{crate}/src")[: -len(".rt")].replace(os.sep, "::")
            found["" if module in ("lib", "main") else module] = text_of(path)
    return found


def words(cell):
    return re.findall(r"`([^`]+)`", cell)


def lacks_definition(names, where):
    file = f"{CRATES}/{where[0]}"
    text = text_of(file) if os.path.isfile(file) else ""
    return [it for it in names if not re.search(rf"^\s*{DEFINED}{it}\b", text, re.M)]


def impl_of(text, kind):
    """What stands in the impl blocks of a type, up to the brace that ends each at the margin."""
    return "\n".join(re.findall(rf"^impl(?:<[^\n]*?>)? {kind}\b[^\n]*\{{\n(.*?)^\}}", text, re.M | re.S))


def contract_of(name):
    """What stands between a public function's name and its body; None where there isn't one such function."""
    crate, *kind, function = name.split("::")
    texts = sources(crate).values()
    places = [impl_of(it, kind[0]) for it in texts] if kind else list(texts)
    # A brace that ends a line begins a body, and that of a function with clauses stands on a line of its own.
    head = rf"pub (?:extern \"C\" )?fn {function}\b((?:(?! \{{\n).)*?)\n\s*\{{(?:\n|\}})"
    found = [it for place in places for it in re.findall(head, place, re.S)]
    return found[0] if len(found) == 1 else None


def is_defined(name):
    return any(re.search(rf"^\s*{DEFINED}{name}\b", it, re.M) for it in definitions())


@functools.cache
def definitions():
    """The texts of all files of definitions."""
    return [text_of(it) for it in sorted(glob.glob(f"{CRATES}/*/specs/**/*.antt", recursive=True))]


def cites(contract, clause, kinds="ensures|requires"):
    """Whether a contract has a clause of this label, or one that speaks of this definition or of this part of a value."""
    found = re.split(r"^\s*(ensures|requires)\b", contract, flags=re.M)
    clauses = [text for kind, text in zip(found[1::2], found[2::2]) if re.fullmatch(kinds, kind)]
    if any(re.match(rf" {clause} \{{|.*\.{clause}\b", it, re.S) for it in clauses):
        return True
    return is_defined(clause) and any(re.search(rf"\b{clause}\b", it) for it in clauses)


def lacks_contract(names, clauses):
    lost = []
    for name in names:
        contract = contract_of(name)
        if contract is None:
            lost.append(name)
            continue
        lost += [f"{it} in {name}" for it in clauses if not cites(contract, it)]
        if not any(cites(contract, it, "ensures") for it in clauses):
            lost.append(f"clause that {name} ensures")
    return lost


def lacks_edit(names, _):
    return [it for it in names if not os.path.isfile(f"{CRATES}/{it.replace('/', '/must-fail/')}.edit")]


def is_reached(texts, module):
    """Whether each module on the way to this one is named by the one above it."""
    steps = range(len(module))
    return all(re.search(rf"^\s*(?:pub )?mod {module[at]};", texts.get("::".join(module[:at]), ""), re.M) for at in steps)


def lacks_test(names, _):
    """A test is a function of a crate, a stored row or command line, or a step of one of the gate's scripts."""
    lost = []
    for name in names:
        folder = STORED.get(os.path.splitext(name)[1])
        if folder:
            lost += [] if os.path.isfile(f"{folder}/{name}") else [name]
            continue
        crate, *module, function = name.split("::")
        if crate.endswith(".py"):
            script = f"{TOP}/.ci/{crate}"
            text = text_of(script) if os.path.isfile(script) else ""
            lost += [] if f"\ndef {function}(" in text and len(re.findall(rf"\b{function}\b", text)) > 1 else [name]
            continue
        texts = sources(crate)
        text = texts.get("::".join(module), "") if is_reached(texts, module) else ""
        if not re.search(rf"#\[test\]\n(?:\s*//[^\n]*\n)*\s*fn {function}\(", text):
            lost.append(name)
    return lost


@functools.cache
def code_words():
    """The words of the crates' code and of the gate's programs in C, and the crates themselves."""
    crates = os.listdir(CRATES)
    texts = [file for it in crates for file in sources(it).values()] + [text_of(it) for it in glob.glob(f"{TOP}/.ci/*.c")]
    return {*crates, *(word for it in texts for word in re.findall(r"\w+", it))}


def lost_in(document):
    """The names in a document that are neither defined nor of the code, by their last part, and the files that aren't there."""
    text = text_of(f"{TOP}/docs/{document}")
    files = {os.path.basename(it) for part in ("specs", "proofs") for it in glob.glob(f"{CRATES}/*/{part}/**/*.antt", recursive=True)}
    paths = [it for it in words(text) if re.fullmatch(r"[A-Za-z_]\w*(::[A-Za-z_]\w*)*", it)]
    names = [it for it in paths if it.split("::")[-1] not in code_words() and not is_defined(it.split("::")[-1])]
    return sorted({*names, *(it for it in words(text) if it.endswith(".antt") and "/" not in it and it not in files)})


DOCUMENTS = ("ARCHITECTURE.md", "DEFINITIONS.md", "PROVED.md")
LINES = f"{TOP}/docs/proved.tsv"
HEADS = ["kind", "statement", "names", "where"]
# What a line of each kind lacks; and whether it says where its names are.
KINDS = {
    "definition": (lacks_definition, True),
    "promise": (lacks_contract, True),
    "wrong body": (lacks_edit, False),
    "row": (lacks_test, False),
}


def lacks(kind, names, where):
    look, is_placed = KINDS[kind]
    empty = [head for head, cells, wanted in (("names", names, True), ("where", where, is_placed)) if wanted and not cells]
    return [f"word under {it}" for it in empty] or look(names, where)


def main():
    lines = [line.split("\t") for line in text_of(LINES).splitlines()]
    bad = [number for number, line in enumerate(lines, 1) if len(line) not in (3, 4) or line[0] not in {*KINDS, "kind"}]
    lost = {"a line": [f"line {number} of a kind" for number in bad] + ([] if lines[:1] == [HEADS] else [f"first line {HEADS}"])}
    for kind, statement, names, *where in [line for number, line in enumerate(lines, 1) if number > 1 and number not in bad]:
        lost.setdefault(kind, []).extend(f"{it} ({statement})" for it in lacks(kind, names.split(), " ".join(where).split()))
    lost |= {kind: ["line"] for kind in KINDS if kind not in lost}
    for kind, names in lost.items():
        for name in names:
            print(f"docs/proved.tsv, {kind}: there is no {name}")
    undefined = {it: lost_in(it) for it in DOCUMENTS}
    for document, names in undefined.items():
        for name in names:
            print(f"docs/{document}: there is no {name}")
    failed = sum(bool(it) for it in [*lost.values(), *undefined.values()])
    print(f"{len(lost) + len(undefined) - failed} passed, {failed} failed")
    return 1 if failed else 0


if __name__ == "__main__":
    sys.exit(main())
