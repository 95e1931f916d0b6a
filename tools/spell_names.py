#!/usr/bin/env python3
"""Spells the repository's own definitions and lemmas as the kit spells its own: words in snake case, facts and types in camel case.

usage: python3 tools/spell_names.py    at the top of the repository, after the kit's own script for older repositories

A name counts as ours if a file of specs/ or proofs/ declares it. Names of functions in src/, generated names of goals,
strings, and words in prose keep their spelling. Names that would fall together are printed, and nothing is then changed.
"""
import glob
import os
import re
import sys

# where the mere change of dashes would leave an older word, or two names would fall together
TABLE = {
    "nth-getD": "nth_get_or",
    "nth-valueOr": "nth_unwrap_or",
    "Gives-way": "GivesWayAt",
}
NAME = r"[^\s(){}\[\];,.:`\"@]+"
SIGNATURE = re.compile(r"^\s*((?:abbrev |pub |unfoldable )*)(" + NAME + r"(?: " + NAME + r")*)\s+:(?:\s|$)")
DECLARED = re.compile(r"^\s*(?:pub )?(?:record|data) (" + NAME + r")")
BOUND = re.compile(r"\blet (" + NAME + r") (?::|=)")
BINDER = re.compile(r"[({](" + NAME + r"(?: " + NAME + r")*) :")
GENERATED = ("Answers.antt", "Invariants.antt", "Choices.antt", "Proof.antt")


def files(ending):
    return sorted(
        p
        for e in ending
        for p in glob.glob("crates/*/**/*" + e, recursive=True)
        if "/out/" not in p
    )


def declared(path):
    """The names that a file declares; in a file of answers only local ones."""
    names = set()
    answers = os.path.basename(path) in GENERATED
    for line in open(path, encoding="utf-8"):
        if line.lstrip().startswith(("--", "use ", "mod ", "pub mod ")):
            continue
        for m in BOUND.finditer(line):
            names.add(m.group(1))
        for m in BINDER.finditer(line):
            names.update(m.group(1).split(" "))
        if answers and not line.startswith(" "):
            continue
        m = DECLARED.match(line)
        if m and not line.lstrip().startswith("record {"):
            names.add(m.group(1))
            continue
        m = SIGNATURE.match(line)
        if m:
            names.update(m.group(2).split(" "))
    return names


def spelled(name):
    if name in TABLE:
        return TABLE[name]
    if name[0].isupper():
        return "".join(w[0].upper() + w[1:] for w in name.split("-"))
    return name.replace("-", "_")


def main():
    own = set()
    for p in files((".antt",)):
        own |= declared(p)
    new = {n: spelled(n) for n in own if re.search(r"\w-\w", n)}
    clash = sorted(
        (n, k) for n, k in new.items() if k in own or list(new.values()).count(k) > 1
    )
    if clash:
        sys.exit("these fall together: " + ", ".join(f"{n} with {k}" for n, k in clash))
    token = re.compile(r"(?<![^\s(){}\[\];,.:`λ→@])(" + NAME + r")")

    def word(m):
        return new.get(m.group(1), m.group(1))

    def header(m):
        """The list of words that heads a file: the column of meanings stays where it was."""
        names = token.sub(word, m.group(2))
        gap = max(2, len(m.group(3)) + len(m.group(2)) - len(names)) if len(m.group(3)) > 1 else 1
        return m.group(1) + names + " " * gap

    def antt(line):
        code, dash, comment = re.match(r"^(.*?)((?:^|(?<=\s))--(?=\s|$).*)?$", line).group(1), "", ""
        rest = line[len(code):]
        rest = re.sub(r"^(--   )((?:" + NAME + r", )*" + NAME + r")( +)", header, rest)
        rest = re.sub(r"`([^`]+)`", lambda m: "`" + token.sub(word, m.group(1)) + "`", rest)
        return token.sub(word, code) + rest

    def rt(line):
        parts = re.split(r"(\"(?:[^\"\\]|\\.)*\"|//.*$)", line)
        for i, p in enumerate(parts):
            if p.startswith("//"):
                parts[i] = re.sub(r"`([^`]+)`", lambda m: "`" + token.sub(word, m.group(1)) + "`", p)
            elif not p.startswith('"'):
                parts[i] = token.sub(word, p)
        return "".join(parts)

    changed = 0
    for p in files((".antt", ".rt", ".edit")):
        text = open(p, encoding="utf-8").read()
        turn = antt if p.endswith(".antt") else rt
        out = "\n".join(turn(l) for l in text.split("\n"))
        if out != text:
            open(p, "w", encoding="utf-8").write(out)
            changed += 1
    for n in sorted(new):
        print(n, "->", new[n])
    print(f"{len(new)} names, {changed} files")


main()
