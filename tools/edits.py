#!/usr/bin/env python3
"""Brings the wrong programs, crates/*/must-fail/*.edit and wrong/*/*.edit, over to the respelled text of the crates.

usage: tools/edits.py [--write] [--from COMMIT] [PATH..]    says what each edit of COMMIT becomes; --write writes it
       tools/edits.py --check [PATH..]                      says which edits do not fit today's text

An edit replaces texts in lines of a file. Each of these lines is found in COMMIT (a2757f12, the last one with the older
spelling) and, by the lines around it, in today's file. The line with the replacement is spelled as port.py and
respell.py spell; that is right where the line without it, spelled so, is today's line. Of the two spelled lines an edit
keeps the spelled old text where that stands once, or else what differs. A library's name that a new text needs and that
today's file lacks joins an import. What the script can't do it tells as `left:`; such an edit is brought over by hand,
and stays as it is. Run it at the top of the repository; PATHs leave the other edits alone.
"""
import difflib
import glob
import os
import re
import subprocess
import sys

sys.dont_write_bytecode = True
from respell import ALIAS, DECLARED, spelled

LANDED = "a2757f12"
PRELUDE = "Rattle.std.specs.Prelude."
TOKEN = re.compile(r"«[^»]*»|[(){};,\[\]@.]|[^\s(){};,\[\]@.«»]+|\s+")
# What is no argument: an operator, a sign, a keyword.
NO_ARGUMENT = re.compile(r"[→=:×∷≡≤<>+*/%^|&~↔∈-]+|in|let|λ|when|pub|record|[(.;,{}\[\]@]|\s+")
OTHER = {"getElem?": "get_elem?", "getD": "get_or", "the-variants": "TheVariants"}
# Names of the Prelude that a new text may need without an import of its own.
PLAIN = {"eqb", "ltb", "leb", "take", "drop", "map", "length", "replicate", "suc"}


def git(*words):
    return subprocess.run(["git", *words], capture_output=True, text=True, check=True).stdout


def read(path):
    with open(path, encoding="utf-8") as it:
        return it.read()


class Speller:
    def __init__(self, commit):
        """Takes every name with a dash that a file of the commit declares."""
        hits = git("grep", "-hE", " : ?| :$|\\bas ", commit, "--", "crates/*.antt", "crates/*.rt")
        found = {m[3] for m in DECLARED.finditer(hits)} | set(ALIAS.findall(hits))
        self.names = {name: spelled(name) for name in found if "-" in name.strip("-")} | OTHER

    def word(self, word):
        if word in self.names:
            return self.names[word]
        word = re.sub(r"^_([^\w\s]+)_$", r"◌\1◌", word.strip("«»"))
        return re.sub("^List·(?=Memᴰ|Permᴰ)", "", word).replace("Rattle·", "Rattle.").replace("′", "'")

    def line(self, text):
        """A line of a specification in today's spelling, with its projections written tight."""
        tokens = [self.word(it) for it in TOKEN.findall(re.sub(r"(Rattle·\w+)·specs\.specs", r"\1.specs", text))]
        return "".join(tokens if re.match(r"\s*(--|(pub )?use )", text) else tight(tokens))


def argument(tokens, at):
    """Where the argument begins that ends at a place: a name or a group, and what is projected from it; or None."""
    if at < 0 or NO_ARGUMENT.fullmatch(tokens[at]):
        return None
    depth = (tokens[at] == ")") + 0
    while depth and at:
        at -= 1
        depth += (tokens[at] == ")") - (tokens[at] == "(")
    if depth:
        return None
    return argument(tokens, at - 2) if at >= 2 and tokens[at - 1] == "." and not tokens[at - 2].isspace() else at


def tight(tokens):
    """`f x .g` as `(f x).g`, `x .g` as `x.g`, and `(x .g)` as `x.g`."""

    def projects(at):
        return at + 2 < len(tokens) and tokens[at].isspace() and tokens[at + 1] == "." and not tokens[at + 2].isspace()

    at = 0
    while at < len(tokens):
        start = last = argument(tokens, at - 1) if projects(at) else None
        if start is None:
            at += 1
            continue
        while start > 1 and tokens[start - 1].isspace() and argument(tokens, start - 2) is not None:
            start = argument(tokens, start - 2)
        made = tokens[start:at] if start == last else ["(", *tokens[start:at], ")"]
        while projects(at):
            made += tokens[at + 1 : at + 3]
            at += 3
        if start and tokens[start - 1] == "(" and tokens[at : at + 1] == [")"]:
            start, at = start - 1, at + 1
        tokens[start:at] = made
        at = start + len(made)
    return tokens


class Edit:
    """What a file of an edit says: its lines in front, and its replacements, each a file, an old and a new text."""

    def __init__(self, path, text):
        self.path, self.crate, self.head, self.pairs, file, old = path, path.split("/")[1], [], [], "", ""
        for line in text.split("\n"):
            if line.startswith("file: "):
                file = line[6:].strip()
            elif line.startswith("old: "):
                old = line[5:]
            elif line.startswith("new:"):
                self.pairs.append((file, old, line[4:].removeprefix(" ")))
            elif line.startswith("#"):
                self.head.append(line)

    def text(self):
        lines, last = list(self.head), None
        for file, old, new in self.pairs:
            lines += [f"file: {file}"] * (file != last) + [f"old: {old}", f"new: {new}".rstrip(" ")]
            last = file
        return "\n".join(lines) + "\n"

    def faults(self):
        """Why the edit doesn't fit today's crates."""
        texts = {}
        for file, old, new in self.pairs:
            path = f"crates/{self.crate}/{file}"
            text = texts.get(path) or (read(path) if os.path.isfile(path) else "")
            if text.count(old) != 1:
                yield f"{text.count(old)} times in {path}: {old}"
            elif old == new:
                yield f"it changes nothing: {old}"
            texts[path] = text.replace(old, new)
        yield from [] if self.pairs else ["it has no replacement"]


class Lines:
    """A file's lines in the commit and today, as an edit makes them, and where today's are that are spelled alike."""

    def __init__(self, commit, spell, path):
        self.spell, self.old, self.now = spell, git("show", f"{commit}:{path}").split("\n"), read(path).split("\n")
        alike = difflib.SequenceMatcher(None, [spell(it) for it in self.old], self.now, False).get_matching_blocks()
        self.place = {a + i: b + i for a, b, n in alike for i in range(n)}


def imported(line):
    m = re.match(r"(?:pub |ghost )*use [^{]*\{([^}]*)\}", line)
    return {it.strip() for it in m[1].split(",")} if m else set()


def cut(line, wanted, text):
    """The least part of a line, by words and standing once in the text, whose change gives the wanted line."""
    a, b = TOKEN.findall(line), TOKEN.findall(wanted)
    least = min(len(a), len(b))
    i = next((k for k in range(least) if a[k] != b[k]), least)
    j = next((k for k in range(least - i) if a[-1 - k] != b[-1 - k]), least - i)
    while (i or j) and (i + j == len(a) or text.count("".join(a[i : len(a) - j])) != 1):
        i, j = max(i - 1, 0), max(j - 1, 0)
    return "".join(a[i : len(a) - j]), "".join(b[i : len(b) - j])


class Porter:
    def __init__(self, commit):
        self.commit, self.speller = commit, Speller(commit)

    def turned(self, edit):
        """The edit in today's spelling, and what is left to do by hand."""
        to, left, files, needs = Edit(edit.path, ""), [], {}, {}
        to.head = [self.head(edit, it) for it in edit.head]
        for file, old, new in edit.pairs:
            path, spell = f"crates/{edit.crate}/{file}", self.speller.line if file.endswith(".antt") else str
            if not os.path.exists(path):
                left.append(f"there is no {path} today")
                continue
            at = files.get(path) or files.setdefault(path, Lines(self.commit, spell, path))
            found = [k for k, line in enumerate(at.old) if old in line]
            if len(found) != 1:
                left.append(f"not once in {path} of {self.commit}: {old}")
                continue
            k, line = found[0], at.old[found[0]]
            at.old[k] = line.replace(old, new)
            if file.endswith(".antt") and re.match(r"(pub )?use ", line):
                library = re.match(r"(?:pub )?use ([^{]*)", spell(line))[1]
                library = library if library.startswith("Rattle.") else PRELUDE
                for name in sorted(imported(spell(at.old[k])) - imported(spell(line))):
                    needs.setdefault((file, library), []).append(name)
                continue
            if k not in at.place or at.now[at.place[k]] != spell(line):
                left.append(f"no such line in {path} today: {spell(line).strip()}")
                continue
            before = "\n".join(at.now)
            at.now[at.place[k]] = spell(at.old[k])
            pair = (spell(old), spell(new))
            if before.count(pair[0]) != 1 or before.replace(*pair) != "\n".join(at.now):
                pair = cut(spell(line), spell(at.old[k]), before)
            to.pairs.append((file, *pair))
            if file.endswith(".antt"):
                known = set(TOKEN.findall(before)).union(*needs.values())
                needs.setdefault((file, PRELUDE), []).extend(sorted(PLAIN & set(TOKEN.findall(pair[1])) - known))
        for (file, library), names in reversed(needs.items()):
            text = read(f"crates/{edit.crate}/{file}")
            have = {it for line in text.split("\n") for it in imported(line)}
            first = re.findall(rf"^use {re.escape(library)}\{{([^\s,}}]+)", text, re.M)
            new = [it for it in dict.fromkeys(names) if it not in have]
            if new and len(first) != 1:
                left.append(f"{file} has to import {new} from {library}")
            elif new:
                place = next((i for i, pair in enumerate(to.pairs) if pair[0] == file), len(to.pairs))
                old = f"use {library}{{{first[0]}"
                to.pairs.insert(place, (file, old, f"use {library}{{{', '.join(new)}, {first[0]}"))
        return to, left + list(to.faults())

    def head(self, edit, line):
        """A comment: a definition's and a lemma's name as it is spelled today. Goals of a proof stay."""
        of_specs = edit.pairs and edit.pairs[0][0].startswith("specs/")
        if line.startswith("# refused at:") and "Proof.antt" not in line or line.startswith("# wrong:") and of_specs:
            return re.sub(r"[^\s,;:`.]+", lambda m: self.speller.names.get(m[0], m[0]), line)
        return line


def main(argv):
    paths = [it for it in argv if it.endswith(".edit")]
    if "--check" in argv:
        paths = paths or sorted(glob.glob("crates/*/must-fail/*.edit") + glob.glob("wrong/*/*.edit"))
        bad = [f"{path}: {it}" for path in paths for it in Edit(path, read(path)).faults()]
        print("\n".join([*bad, f"edits: {len(paths)}, and {len(bad)} faults"]))
        return bool(bad)
    commit = argv[argv.index("--from") + 1] if "--from" in argv else LANDED
    porter, count = Porter(commit), 0
    listed = git("ls-tree", "-r", "--name-only", commit, "crates", "wrong").split("\n")
    for path in paths or [it for it in listed if re.fullmatch(r"(crates/\w+/must-fail|wrong/\w+)/[^/]+\.edit", it)]:
        old = Edit(path, git("show", f"{commit}:{path}"))
        new, left = porter.turned(old)
        changed = (new.head, new.pairs) != (old.head, old.pairs)
        if left:
            print("\n".join(f"left: {path}: {it}" for it in left))
        elif "--write" in argv:
            with open(path, "w", encoding="utf-8") as it:
                it.write(new.text() if changed else git("show", f"{commit}:{path}"))
        elif changed:
            print(f"{path}\n{new.text()}")
        count += changed and not left
    print(f"edits: {count} have another text")
    return 0


if __name__ == "__main__":
    sys.exit(main(sys.argv[1:]))
