#!/usr/bin/env python3
"""Spells the repository's own definitions and lemmas in snake case: first-due becomes first_due.

Run once, at the top of the repository. A name counts as the repository's own where a file of specs/ or proofs/ declares it:
a definition, a lemma, a record's field or a constructor. It goes by words: in specs/ and proofs/ it reads whole files, in
src/ only clauses, ghost items and their imports. So functions of src/, inputs and outputs keep their names.
It stops, and writes nothing, where two names would fall together.
"""

import glob
import re
import sys

NAME = r"[^\s(){}\[\],;:@\"`.|]+"
DECLARED = re.compile(r"^\s*(?:unfoldable |abbrev )?(?:pub )?(?:record |data )?(" + NAME + r")(?: \([^)]*\))* :(?= )")
FUNCTION = re.compile(r"\bfn (\w+)")
# How the goals begin that the checker names.
GOALS = ("returns-", "loop-", "invariant-", "decreases-", "slice-bounds-", "slice_bounds-")


def read(path):
    with open(path, encoding="utf-8") as f:
        return f.read()


def sources():
    return sorted(glob.glob("crates/*/specs/**/*.antt", recursive=True) + glob.glob("crates/*/proofs/**/*.antt", recursive=True))


def declared(text):
    """The names that a file declares, at its top or within a module, a record or a data type."""
    return {m.group(1) for m in map(DECLARED.match, text.splitlines()) if m}


def renamings():
    names = set()
    for path in sources():
        names |= declared(read(path))
    own = {n for n in names if "-" in n and not n.startswith(GOALS)}
    return names, {n: n.replace("-", "_") for n in own}


def fallen(names, to):
    """The names that two of the old ones would share."""
    new = list(to.values())
    return sorted(n for n in set(new) if n in names or new.count(n) > 1)


def clauses(text):
    """Whether each line of a source file is a clause, a ghost item or an import of one."""
    return [bool(re.match(r"\s*(ghost|ensures|requires)\b", line)) for line in text.splitlines()]


def rewrite(path, turn):
    """Writes what turn makes of a file's text, if that is another text."""
    text = read(path)
    new = turn(text)
    if new != text:
        with open(path, "w", encoding="utf-8") as f:
            f.write(new)


def main():
    names, to = renamings()
    if not to:
        print("no name of the repository's own has a dash")
        return 0
    both = fallen(names, to)
    if both:
        print("these would fall together: " + ", ".join(both), file=sys.stderr)
        return 1
    edge = r"[^\s(){}\[\],;:@\"`.|λ]"
    pattern = re.compile("(?<!" + edge + ")(?:" + "|".join(map(re.escape, sorted(to, key=len, reverse=True))) + ")(?!" + edge + ")")

    def respelled(text):
        return pattern.sub(lambda m: to[m.group(0)], text)

    def respelled_clauses(text):
        lines = text.split("\n")
        return "\n".join(respelled(l) if c else l for l, c in zip(lines, clauses(text) + [False]))

    for path in sources():
        rewrite(path, respelled)
    functions = set()
    for path in sorted(glob.glob("crates/*/src/**/*.rt", recursive=True)):
        functions |= set(FUNCTION.findall(read(path)))
        rewrite(path, respelled_clauses)
    for old in sorted(to):
        print(f"{old} {to[old]}" + (" (a function of src/ has that name too)" if to[old] in functions else ""))
    return 0


if __name__ == "__main__":
    raise SystemExit(main())
