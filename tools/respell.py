#!/usr/bin/env python3
"""Brings the repository's own definitions and lemmas to the spelling that this Rattle's library has.

usage: python3 tools/respell.py [--list]     at the top of the repository, once, after port.py

A name that specs/ or a file of lemmas of proofs/ declares, with a capital inside or with a dash, is respelled wherever it stands
in a .rt or .antt file of crates/: words are in snake case, and a dash stays only where it joins the names of two definitions, as in
`length-drop`. Names of types and facts begin with a capital and stay. So do the names that Rattle makes for goals, in the folders of
functions below proofs/. --list prints the table and writes nothing. It stops where two names would fall together.
"""
import glob
import re
import sys

LETTER = r"[\w'\-₀-₉₊]"
# lemmas that would fall together with the definition that they are about
GIVEN = {
    "all-asserted": "all_asserted_lem",
    "all-denied": "all_denied_lem",
    "and-then": "and_then_lem",
    "at-end": "at_end_lem",
    "clear-by": "clear_by_lem",
    "from-header": "from_header_lem",
    "from-line": "from_line_lem",
    "same_number": "same_number_lem",
    "true-at": "true_at_lem",
}

# names in which a part that is a definition's name too is a plain word
PLAIN = """
at-token bare-last clear-parts clear-some combine-last combine-opposed combined-resolves counted-within decimal-number
decimal-solid decimal-some decimal-written first-clause first-line first-token made-names made-refused names-point
none-filed none-joined none-noted plain-denotes point-size reading-body reading-line reading-points rest-member
run-some some-member token-number token-over tokens-placed tokens-words words-none writes-none
""".split()


def files(pattern):
    return sorted(glob.glob(pattern, recursive=True))


def lemma_files():
    """specs/, and the files right in proofs/: folders of proofs/ hold goals, whose names Rattle makes."""
    return files("crates/*/specs/*.antt") + files("crates/*/proofs/*.antt")


def declared(paths):
    """The names that the files declare: definitions, lemmas, fields, constructors and parts under `where`."""
    names = set()
    for path in paths:
        for line in open(path, encoding="utf-8").read().split("\n"):
            if line.lstrip().startswith(("--", "use ", "unfolding ")):
                continue
            m = re.match(r"\s*(?:(?:abbrev|unfoldable|pub|data|record|ruleset)\s+)*(" + LETTER + r"+)\s*(?:[({].*)?:\s", line)
            if m:
                names.add(m.group(1))
    return names


def snake(word):
    """The word in snake case, but for the capital that it begins with."""
    return re.sub(r"(?<=[a-z0-9])([A-Z])", lambda m: "_" + m.group(1).lower(), word)


def respelled(name, definitions):
    if name in GIVEN:
        return GIVEN[name]
    if name[0].isupper():
        return name
    parts = [snake(p) for p in name.split("-")]
    if any(p[:1].isupper() for p in parts):
        return name
    for cut in range(1, len(parts)) if name not in PLAIN else ():
        if "_".join(parts[:cut]) in definitions and "_".join(parts[cut:]) in definitions:
            return "_".join(parts[:cut]) + "-" + "_".join(parts[cut:])
    return "_".join(parts)


def table():
    names = declared(lemma_files())
    definitions = {snake(n).replace("-", "_") for n in declared(files("crates/*/specs/*.antt"))} | {"length", "take", "drop", "append", "map"}
    made = {n: respelled(n, definitions) for n in names}
    taken = {}
    for old, new in made.items():
        taken.setdefault(new, []).append(old)
    together = [sorted(olds) for olds in taken.values() if len(olds) > 1]
    if together:
        sys.exit("respell: these fall together: " + "; ".join(", ".join(o) for o in together))
    return {o: n for o, n in made.items() if o != n}


def main():
    changes = table()
    if "--list" in sys.argv[1:]:
        for old in sorted(changes):
            print(old, changes[old])
        return
    token = re.compile("(?<!" + LETTER + ")(" + "|".join(re.escape(n) for n in sorted(changes, key=len, reverse=True)) + ")(?!" + LETTER + ")")
    for path in files("crates/**/*.rt") + files("crates/**/*.antt"):
        text = open(path, encoding="utf-8").read()
        new = token.sub(lambda m: changes[m.group(1)], text)
        if new != text:
            open(path, "w", encoding="utf-8").write(new)


if __name__ == "__main__":
    main()
