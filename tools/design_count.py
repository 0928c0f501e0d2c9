#!/usr/bin/env python3
"""Counts the places of each point of docs/DESIGN-PASS.md in crates/*/src.

usage: tools/design_count.py [COMMIT] [--list [POINT]]    of COMMIT, or of the files as they lie; --list names each

A place is a declaration, a loop or a parameter that a pattern below finds; comments do not count. Twins are named by
hand (PAIRS, BY_VALUE): a pair counts while both of its sides stand and neither calls the other, or what is named
behind "=" has not come in their place.
"""
import glob
import re
import subprocess
import sys

# What a function requires, without the word and its braces.
REQUIRES = re.compile(r"requires \{(.*?)\}\s*(?=requires|ensures|\{)", re.S)
# A function's name and its parameters.
FUNCTION = re.compile(r"\bfn (\w+)[^{]*?\(([^{]*?)\)(?: ->|\s*\n| \{)", re.M | re.S)


def files(commit):
    """Yields the path and the text of each source file, without its comments."""
    if commit:
        names = git("ls-tree", "-r", "--name-only", commit, "crates").split("\n")
        paths = [it for it in names if "/src/" in it and it.endswith(".rt")]
        texts = ((it, git("show", f"{commit}:{it}")) for it in paths)
    else:
        paths = sorted(glob.glob("crates/*/src/**/*.rt", recursive=True))
        texts = ((it, open(it, encoding="utf-8").read()) for it in paths)
    for path, text in texts:
        yield path[len("crates/"):], re.sub(r"//.*", "", text)


def git(*words):
    return subprocess.run(["git", *words], capture_output=True, text=True, check=True).stdout


def found(path, text, pattern, name=None):
    """A place for each match of a pattern: its line and what it is."""
    for it in re.finditer(pattern, text, re.M | re.S):
        line = text[: it.start()].count("\n") + 1
        yield f"{path}:{line} {name or it[1]}"


def parameters(path, text, pattern):
    """A place for each parameter of a function that a pattern finds by its name and type."""
    for it in FUNCTION.finditer(text):
        for name in re.findall(pattern, it[2]):
            yield f"{path}:{text[: it.start()].count(chr(10)) + 1} {it[1]}({name})"


def crate(path):
    return path.split("/")[0]


def own_options(path, text):
    """Enums of two or three variants, of which one has fields and another is bare or a refusal."""
    for it in re.finditer(r"^(?:pub(?:\(crate\))? )?enum (\w+) \{\n(.*?)^\}", text, re.M | re.S):
        variants = [v.strip().rstrip(",") for v in it[2].split("\n") if v.strip()]
        payload = [v for v in variants if "(" in v]
        absent = [v for v in variants if "(" not in v or re.match(r"Refused|Bad", v)]
        if len(variants) <= 3 and payload and absent and len(payload) + len(absent) > 1:
            yield f"{path}:{text[: it.start()].count(chr(10)) + 1} enum {it[1]}"


def flags(path, text):
    """Fields that say by a flag or a number whether the others mean something; a struct for C is no such place."""
    for it in re.finditer(r"((?:^#\[[^\n]*\n)*)^(?:pub(?:\(crate\))? )?struct (\w+) \{\n(.*?)^\}", text, re.M | re.S):
        if "repr(C)" in it[1]:
            continue
        for field in re.findall(r"\b(fine|ok|found): bool|\b(refusal): u32", it[3]):
            yield f"{path}:{text[: it.start()].count(chr(10)) + 1} {it[2]}.{field[0] or field[1]}"


def codes(path, text):
    """Numbers that stand for a kind, an edition or a refusal, in functions that C does not call."""
    if crate(path) in ("exports", "exports_c", "tried"):
        return
    yield from parameters(path, text, r"\b(kind|edition|refusal): (?:&mut )?u(?:8|32)")


def loops(path, text):
    """Loops that count by hand: a `while`, or a `loop` whose body moves a place or a count on."""
    yield from found(path, text, r"^ *(while) ")
    yield from found(path, text, r"^ *(loop) \{")


def by_hand(path, text):
    """Equality, conversion and printing that functions of the repository spell out."""
    names = r"is_same\w*|same_\w+|\w*_number|number|number_of\w*|kind_by|edition_by|wide|size|put_number|count_digits"
    yield from found(path, text, rf"^ *(?:pub(?:\(crate\))? )?fn ({names})\(")


def steps(path, text):
    """Parameters of type bool that choose which of two things a function does."""
    if crate(path) in ("exports_c", "tried"):
        return
    yield from parameters(path, text, r"\b(\w+): bool")


def lengths(path, text):
    """Buffers with a length or a count beside them, and arrays that one index goes through together."""
    yield from found(path, text, r"^ *(?:pub )?(count|used|board_used|defaults_used): (?:u32|usize),$")
    yield from found(path, text, r"\bfn \w+[^{]*?\b(used): usize")
    yield from found(path, text, r"(links: &(?:mut )?\[u16; LINKS\])")


def travelling(path, text):
    """Functions that take two or more of the survey's tables, and those of an image that take form parts."""
    for it in FUNCTION.finditer(text):
        tables = re.findall(r"\b(words|links|heads|owed|left): &", it[2])
        if crate(path) == "survey" and len(tables) > 2:
            yield f"{path}:{text[: it.start()].count(chr(10)) + 1} {it[1]}({', '.join(tables)})"
        if re.search(r"input: &\[u8\],\s*from: usize,\s*to: usize", it[2]):
            yield f"{path}:{text[: it.start()].count(chr(10)) + 1} {it[1]}(input, from, to)"
        if re.search(r"output: &mut \[u8\],\s*at: usize", it[2]):
            yield f"{path}:{text[: it.start()].count(chr(10)) + 1} {it[1]}(output, at)"


def facts(texts):
    """What three or more functions of a crate require, a fact each."""
    for home in sorted({crate(it) for it in texts}):
        asked = {}
        for path, text in texts.items():
            clauses = REQUIRES.findall(text) if crate(path) == home else []
            for clause in clauses:
                for fact in {squeezed(it) for it in clause.split(" × ")}:
                    asked[fact] = asked.get(fact, 0) + 1
        yield from (f"{home} {fact}, by {number} functions" for fact, number in sorted(asked.items()) if number > 2)


def squeezed(fact):
    """A fact on one line, without the brackets around it and without the point in time of what it is about."""
    fact = re.sub(r"\.(old|new|now)\b", "", " ".join(fact.split()))
    while fact.startswith("(") and fact.endswith(")") and fact.count("(") == fact.count(")"):
        fact = fact[1:-1]
    return fact


# Twins: the functions or constants of each side, by crate and name.
BY_VALUE = {
    "holding": "claim claim_again claim_first free_all open clear_permissions sweep",
    "allocation": "allocate allocate_array allocate_wide grant book/booked reallocate exchange release drop_claim",
    "queries": "remaining can_release object_range write_object lend span_of list_block",
    "queue": "send/send_in_place receive/receive_in_place",
    "heap": "perform",
}
PAIRS = {
    "rounding": "first_unit/second_unit FIRST_POWERS/SECOND_POWERS",
    "layout": "read_u16/read_u32=read read_pair/read_quad write_u16/write_u32=write write_pair/write_quad",
    "accounts": "charged/refunded charge/refund=change_quota charge/words:charge refund/words:refund "
    "remaining/words:remaining spent/words:spent hold_at/words:hold_at put_hold/words:put_hold drop_hold/words:drop_hold "
    "drop_holds/words:drop_holds left_permissions/words:left_permissions "
    "clear_permissions/words:clear_permissions with_last_serial/words:set_last_serial open/words:open",
    "words": "charge/refund=change_remainder put_quotas/put_holds quotas_of/holds_of",
    "survey": "grant_in/statistics:grant_in is_live/holding:counted walk/walk_frames used_end/one_down "
    "failed/lost survey/check_in_frames=begin",
    "writer": "make_free/make_unquarantined=join_neighbours",
    "image": "read_pair/read_quad form_1/form_2 read_entries/read_records write_entries/write_records",
    "comparison": "find_unlike/find_like is_same_quota/is_same_record find_quota/find_record "
    "from_quota/from_record with_second/pair_of",
    "report": "put_part/settings:put_value",
    "settings": "last_version/nth_entry last_in/nth_in last_in/find_in",
    "statistics": "no_statistics/no_quota_statistics",
    "results": "AmountResult/HandleResult",
    "allocation": "shorter/comparison:least allocate_wide/reallocate=admitted",
    "image_model": "WriteAnswer/framing:FrameAnswer",
}


def declared(texts):
    """The names that each crate declares, each as often as it does."""
    names = {}
    for path, text in texts.items():
        hits = re.findall(r"^ *(?:pub(?:\(crate\))? )?(?:extern \"C\" )?(?:fn|const|struct|enum) (\w+)", text, re.M)
        names.setdefault(crate(path), []).extend(hits)
    return names


def twins(texts):
    names = declared(texts)

    def stands(home, name):
        home, name = name.split(":") if ":" in name else (home, name)
        return name in names.get(home, [])

    for home, pairs in PAIRS.items():
        for pair in pairs.split():
            pair, _, instead = pair.partition("=")
            if all(stands(home, name) for name in pair.split("/")) and not (instead and stands(home, instead)):
                yield f"{home} {pair}"
    for home, calls in BY_VALUE.items():
        for call in calls.split():
            both = call.split("/")
            if wraps(texts, home, both):
                continue
            if len(both) == 2 and all(stands(home, it) for it in both):
                yield f"{home} {call}, by value and in place"
            elif len(both) == 1 and names.get(home, []).count(call) > 1:
                yield f"{home} {call}, by value and in place"
    for name in names.get("exports_c", []):
        if name in names.get("exports", []):
            yield f"exports and exports_c, {name}"


def wraps(texts, home, both):
    """Whether one side of a call makes words of its accounts and calls the other."""
    for path, text in texts.items():
        if crate(path) == home:
            for body in re.findall(rf"^pub fn {both[0]}\b.*?^}}", text, re.M | re.S):
                made = ("words::words_of(accounts)", "places::words_of(queue)", f"crate::{both[0]}(heap, &mut words")
                if any(it in body for it in made):
                    return True
    return False


POINTS = {
    "1a own enums of the shape of Option or Result": own_options,
    "1b a flag or a number beside a value": flags,
    "1c numbers for kinds and refusals": codes,
    "3 loops that count by hand": loops,
    "4 equality, conversion and printing by hand": by_hand,
    "5a parameters that travel together": travelling,
    "6 buffers with a length beside them": lengths,
    "7 a bool that chooses the step": steps,
}


def main():
    words = sys.argv[1:]
    listed = "--list" in words
    point = words[words.index("--list") + 1] if listed and words.index("--list") + 1 < len(words) else ""
    commit = next((it for it in words if not it.startswith("--") and it != point), None)
    texts = dict(files(commit))
    places = {name: [it for path, text in texts.items() for it in find(path, text)] for name, find in POINTS.items()}
    places["2 twins"] = list(twins(texts))
    places["5b facts that three or more functions require"] = list(facts(texts))
    for name in sorted(places):
        print(f"{len(places[name]):4}  {name}")
        if listed and name.startswith(point):
            print("".join(f"      {it}\n" for it in places[name]), end="")


if __name__ == "__main__":
    main()
