"""Brings names in backquotes of the documents to the spelling of the crates: hyphens became underscores.

Usage: python3 tools/respell_documents.py [CHECKS], at the top, where CHECKS is the program of checks/ (else scripts/checks builds it). It goes by what
`checks names` complains of: a name that is not declared where a document says, and one that is cited with its file nowhere. A name is changed where its new
spelling is declared in some file of the crates, and in all of that document. Excerpts of antt are taken anew from their files: the paragraph that declares the same name.
It prints what is left.
"""

import re
import subprocess
import sys
from pathlib import Path

CHECKS = sys.argv[1] if len(sys.argv) > 1 else "scripts/checks"
NOT_THERE = re.compile(r"^(\S+\.md):\d+: `([^`\n]+)` (?:is not declared in (\S+)\.|is cited with its file nowhere\.)$")


def words():
    """All names of the crates' own texts."""
    found = set()
    for part in ("src", "specs", "proofs", "must-fail"):
        for file in Path("crates").glob(f"*/{part}/**/*"):
            if file.is_file():
                found |= set(re.findall(r"[^\s(){}\[\],;:.`]+", file.read_text(encoding="utf-8")))
                found.add(file.stem)
    for file in Path("wrong").glob("*/*.edit"):
        found.add(file.stem)
    return found


def complaints():
    ran = subprocess.run([CHECKS, "names"], capture_output=True, text=True)
    return [line for line in (ran.stdout + ran.stderr).splitlines() if line.strip()]


def excerpt(block):
    """The excerpt of a file's text that stands for an older one: from the line that declares the same name to the next empty one."""
    head, first = block.split("\n")[:2]
    lines = Path(head.removeprefix("-- ").strip()).read_text(encoding="utf-8").split("\n")
    words = first.split()
    name = next(it for it in words if it not in ("pub", "unfoldable", "abbrev", "record", "data")).replace("-", "_")
    at = next((i for i, it in enumerate(lines) if name in it.split()[:4] and not it.startswith(("--", " "))), None)
    if at is None:
        print(f"{head}: no declaration of {name}")
        return block
    end = next((i for i in range(at, len(lines)) if not lines[i].strip()), len(lines))
    return "\n".join([head, *lines[at:end]]) + "\n"


def main():
    known, changed = words(), 0
    todo = {}
    for line in complaints():
        told = NOT_THERE.match(line)
        if told:
            todo.setdefault(told[1], set()).add(told[2])
    for document, names in sorted(todo.items()):
        text = Path(document).read_text(encoding="utf-8")
        for name in sorted(names, key=len, reverse=True):
            # `Owner.field` and `Owner::method` are looked up by their last part
            new = name.replace("-", "_")
            last = re.split(r"::|\.", new)[-1]
            if new != name and last in known:
                changed += text.count(f"`{name}`")
                text = text.replace(f"`{name}`", f"`{new}`")
        Path(document).write_text(text, encoding="utf-8")
    # Documents that `checks names` doesn't read, but not the notes of landings, which tell of what was.
    for document in [Path(it) for it in ("README.md", "CONTRIBUTING.md", "tests/README.md")] + sorted(Path("docs").glob("*.md")):
        text = document.read_text(encoding="utf-8")
        for name in sorted(set(re.findall(r"`([A-Za-z0-9_]+(?:-[A-Za-z0-9_]+)+)`", text)), key=len, reverse=True):
            new = name.replace("-", "_")
            if new in known and name not in known:
                print(f"{document}: `{name}` is now `{new}`")
                changed += text.count(f"`{name}`")
                text = text.replace(f"`{name}`", f"`{new}`")
        document.write_text(text, encoding="utf-8")
        new = re.sub(r"(?s)(?<=```antt\n)(-- .*?\n)(?=```\n)", lambda it: excerpt(it[1]), text)
        if new != text:
            print(f"{document}: excerpts taken anew")
            document.write_text(new, encoding="utf-8")
    print(f"{changed} names changed; what is left:")
    print("\n".join(complaints()))


main()
