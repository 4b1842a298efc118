#!/usr/bin/env python3
"""Brings this repository's own definitions and lemmas to today's spelling: words in snake case.

    tools/respell.py        at the top of a checkout, once, right after the kit's port.py

It was run once when the repository came to a newer Rattle, and is kept so that the move can be made again.

A definition, a lemma, a record's field or a constructor of specs/ or proofs/ that was written in camel case or with
dashes (`writeAnswer`, `begins-after`) is written with underscores (`write_answer`, `begins_after`). Facts and types keep
their capital, names that Rattle makes (goals, invariants, measures) are left alone, and so are functions of src/,
strings, inputs and outputs. In README and docs/ a name between backticks follows.
"""
import os
import re

# Two names that would fall together: the lemma takes another one. And the library's getD is get_or today.
OTHERWISE = {
    "far_byte": "byte_of_far",
    "small-byte": "byte_of_small",
    "getD-cut": "get_or_cut",
    "getD-each": "get_or_each",
    "getD-seen": "get_or_seen",
    "cleanDatum": "clean_datum",
}

# Names that the kit's port.py has turned in the code, and that pages still have in the old spelling.
PAGES = """
added-more agrees-from at-each atMost back-more begins-cases bodyOf code-is codeIn dataOf digit-lt digits-same each-set
far-some from-row head-first head-never high-byte key-more key-split length-cut length-seen made-of no-end no-room
none-seen number-at numberOf one-place pairOf put-next put-two read-ok rest-of round-trip row-from same-first set-front
size-is size-of split-from take-behind take-min take-none textOf told-none too-many written-count
""".split()

# a name of antt: what stands between white space, brackets and the few marks that end one
EDGE = r"\s(){};,.\[\]`"
TOKEN = re.compile(rf"[^{EDGE}]+")
SIGNATURE = re.compile(rf"^\s*(?:(?:abbrev|unfoldable|pub|data|record)\s+)*([^{EDGE}:]+)(?:\s+[({{].*?)?\s+:(?:\s+(.*))?$")


def files(*endings):
    for top in ("crates", "docs"):
        for folder, dirs, names in os.walk(top):
            dirs[:] = sorted(d for d in dirs if d != "out")
            for name in sorted(names):
                if name.endswith(endings):
                    yield os.path.join(folder, name)
    if "README.md".endswith(endings):
        yield "README.md"


def snake(name):
    name = re.sub(r"(?<=[a-z0-9])([A-Z])", lambda m: "_" + m.group(1).lower(), name)
    return name.replace("-", "_")


def made_by_rattle(path, said):
    return os.path.basename(path) in ("Answers.antt", "Invariants.antt") and re.match(r"goal\b", said or "goal")


def table():
    found = {"cleanDatum": OTHERWISE["cleanDatum"]}
    taken = set()
    for path in files(".antt"):
        with open(path, encoding="utf-8") as text:
            for line in text:
                m = SIGNATURE.match(line.rstrip("\n"))
                if not m or line.lstrip().startswith("--"):
                    continue
                name, said = m.groups()
                taken.add(name)
                if name in OTHERWISE:
                    found[name] = OTHERWISE[name]
                elif re.match(r"[a-z]", name) and re.search(r"[A-Z-]", name) and not made_by_rattle(path, said):
                    found[name] = snake(name)
    for old, new in found.items():
        others = [o for o, n in found.items() if n == new and o != old]
        if others or (new in taken and new not in found):
            raise SystemExit(f"respell: {old} and {others or new} fall together as {new}")
    return found


def respell(text, names):
    return TOKEN.sub(lambda m: names.get(m.group(0), m.group(0)), text)


def turn_code(path, names):
    with open(path, encoding="utf-8") as f:
        lines = f.read().split("\n")
    comment = "//" if path.endswith(".rt") else "--"
    camel = {o: n for o, n in names.items() if "-" not in o}
    done = [respell(line, camel if line.lstrip().startswith(comment) else names) for line in lines]
    return "\n".join(done)


def turn_page(path, names):
    with open(path, encoding="utf-8") as f:
        text = f.read()
    return re.sub(r"`[^`\n]+`", lambda m: respell(m.group(0), names), text)


def main():
    names = table()
    pages = names | {name: snake(name) for name in PAGES}
    for path in files(".antt", ".rt", ".md"):
        new = turn_page(path, pages) if path.endswith(".md") else turn_code(path, names)
        with open(path, encoding="utf-8") as f:
            old = f.read()
        if new != old:
            with open(path, "w", encoding="utf-8") as f:
                f.write(new)
    for old in sorted(names):
        print(f"{old} {names[old]}")


if __name__ == "__main__":
    main()
