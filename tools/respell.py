#!/usr/bin/env python3
"""Spells the repository's own definitions and lemmas in snake case, and its own types in camel case.

usage: tools/respell.py [--report] [FOLDER]

Run it once, at the top of the repository (or give that folder), after Rattle's port.py. It collects each name with a dash that a
file of specs/ or a lemma file of proofs/ declares, and writes it with underscores wherever a text of a crate means it: in .antt
files, in the clauses and `ghost use` lines of .rt files, and between backticks of their comments. A name that a file imports from
a library, a name behind a library's module, strings and plain comments stay. It says which names would fall together in a file and
leaves those; with --report it writes nothing.
"""
import os
import re
import sys
from collections import defaultdict

NAME = r'[^\s(){}.;,@"«»\[\]]+'
DECLARED = re.compile(rf"^( *)((?:(?:pub|abbrev|unfoldable|data|record|mutual) +)*)({NAME})(?: \{{[^{{}}\n]*\}})*(?: \([^()\n]*\))* :(?= |$)", re.M)
USE = re.compile(rf"\buse +([^\s;{{]+)(\{{[^}}]*\}})?(?: as ({NAME}))?")
TOKEN = re.compile(rf'--[^\n]*|"(?:[^"\\]|\\.)*"|{NAME}')
RUST = re.compile(r'//[^\n]*|"(?:[^"\\]|\\.)*"|[A-Za-z_][\w\'₀]*(?:-[\w\'₀]+)+')
ALIAS = re.compile(r"\bas ([a-z][\w'₀]*(?:-[\w'₀]+)+)")
TICKED = re.compile(rf"`({NAME})`")
# Names of which another spelling says more.
OTHER = {
    "getD-member": "get_or_member", "member-getD": "member_get_or", "getD-inside": "get_or_inside", "getD-behind": "get_or_behind",
    "getD-padded": "get_or_padded", "getD-from": "get_or_from", "getD-table": "get_or_table",
    # a constant of the code has the plain spelling
    "QUEUE-WORDS": "QUEUE_WORD_COUNT",
}


def spelled(name):
    if name in OTHER:
        return OTHER[name]
    if name[0].isupper() and not name.isupper() and not re.fullmatch(r"[A-Z0-9-]+", name):
        return "".join(part[:1].upper() + part[1:] for part in name.split("-"))
    return re.sub(r"(?<=[a-z0-9])D(?=-|_|$)", "_d", name).replace("-", "_")


def texts(top):
    for crate in sorted(os.listdir(os.path.join(top, "crates"))):
        for folder, dirs, files in os.walk(os.path.join(top, "crates", crate)):
            dirs[:] = sorted(d for d in dirs if d not in ("out", "must-fail"))
            for file in sorted(files):
                if file.endswith((".antt", ".rt")):
                    yield os.path.join(folder, file)


def is_walk(path):
    """Whether a file is of one function's proof, whose names Rattle gives: it lies in a folder below proofs/."""
    folder, file = os.path.split(path)
    return file in ("Proof.antt", "Answers.antt", "Invariants.antt") and os.path.basename(folder) not in ("specs", "proofs")


def is_ours(path):
    return path.startswith("Rattle.") and not re.match(r"Rattle\.(std|core|std_\w+)\.", path)


def declared_in(paths):
    found = set()
    for path in paths:
        with open(path, encoding="utf-8") as it:
            text = it.read()
        if not is_walk(path):
            found.update(alias for line in re.findall(r"\buse [^;\n]*", text) for alias in ALIAS.findall(line))
            if path.endswith(".antt"):
                found.update(m[3] for m in DECLARED.finditer(text))
    return {name for name in found if "-" in name and not name.startswith("-")}


def theirs_in(text):
    """The names that a text imports from a library, and the modules of a library that it names."""
    names, modules = set(), set()
    for path, items, alias in USE.findall(text):
        path = path.rstrip(".")
        if is_ours(path):
            continue
        if items:
            names.update(w for item in items.strip("{}").split(",") for w in item.split())
        else:
            modules.add(alias or path.split(".")[-1])
    return names, modules


class Speller:
    def __init__(self, declared):
        self.new = {name: spelled(name) for name in declared}
        self.clash = defaultdict(set)

    def turned(self, path, text):
        names, modules = theirs_in(text)
        table = {old: new for old, new in self.new.items() if old not in names}
        plain = set(RUST.findall(text)) if path.endswith(".rt") else set(TOKEN.findall(text))
        words = set(re.findall(r"[\w'₀]+", text)) if path.endswith(".rt") else plain
        for old in [it for it in table if it in plain]:
            if table[old] in words:
                self.clash[old].add(path)

        def word(m):
            it = m[0]
            if it.startswith('"'):
                return it
            if it.startswith(("--", "//")):
                return TICKED.sub(lambda t: "`" + table.get(t[1], t[1]) + "`", it)
            behind = re.search(rf"({NAME})\.$", text[max(0, m.start() - 80) : m.start()])
            if behind and behind[1] in modules:
                return it
            return table.get(it, it)

        return (RUST if path.endswith(".rt") else TOKEN).sub(word, text)


def main(argv):
    report = "--report" in argv
    rest = [it for it in argv if it != "--report"]
    top = rest[0] if rest else "."
    paths = list(texts(top))
    speller = Speller(declared_in(paths))
    by_new = defaultdict(set)
    for old, new in speller.new.items():
        by_new[new].add(old)
    for new, olds in sorted(by_new.items()):
        if len(olds) > 1:
            print("together:", new, sorted(olds))
    turned = {}
    for path in paths:
        with open(path, encoding="utf-8") as it:
            text = it.read()
        new = speller.turned(path, text)
        if new != text:
            turned[path] = new
    for old, where in sorted(speller.clash.items()):
        print("clash:", old, "->", speller.new[old], "in", ", ".join(sorted(os.path.relpath(p, top) for p in where)[:6]), len(where))
    print(f"respell: {len(speller.new)} names, {len(turned)} files")
    if not report:
        for path, text in turned.items():
            with open(path, "w", encoding="utf-8") as it:
                it.write(text)


if __name__ == "__main__":
    main(sys.argv[1:])
