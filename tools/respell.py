#!/usr/bin/env python3
"""Respells the repository's own definitions and lemmas as today's Rattle spells names.

usage: python3 tools/respell.py        at the top, once, on files as they stood before

Functions, fields, constructors, lemmas and variables in snake case (`route-of` to `route_of`), facts and types in camel
case (`Keeps-history` to `KeepsHistory`). Names that Rattle makes (goals, steps of an answer) and names of its library stay.
"""

import os
import re
import sys

SPECIAL = {"notAbove": "not_above", "not-above": "pair_not_above", "is-looped": "IsLooped", "P-lengths": "p_lengths", "Gives-up": "gives_up"}
# variables of patterns, and names that an import gives
BOUND = "are-arrivals are-charges are-in cap-same filled-a filled-c first-no no-gain none-too not-held not-refused same-a same-c unfit-checks z-in z-most"
# an identifier that does not stand inside a longer one
TOKEN = re.compile(r"(?<![\w'\-])[A-Za-z][\w']*(?:-[\w']+)*(?![\w'\-])")
DECLARED = re.compile(r"(?m)^\s*(?:abbrev pub |abbrev |unfoldable pub |unfoldable |pub data |pub record |data |record |pub )?([^\s:(){}\[\],;]+)\s*(?:(?:[({][^)}]*[)}]\s*)*):\s")


def files(ending):
    for folder, dirs, names in os.walk("crates"):
        dirs[:] = sorted(d for d in dirs if d not in ("out", "must-fail", "data"))
        for name in sorted(names):
            if name.endswith(ending):
                yield os.path.join(folder, name)


def read(path):
    with open(path, encoding="utf-8") as f:
        return f.read()


def plain(text):
    return "\n".join(line for line in text.split("\n") if not line.lstrip().startswith("-- "))


def declared_names():
    """The names that the files declare or bind, and those that Rattle makes."""
    own, made = set(BOUND.split()) | set(SPECIAL), set()
    for path in files(".antt"):
        text = plain(read(path))
        made.update(re.findall(r"\bgoal\.([^\s(){}\[\],;.]+)", text))
        for group in re.findall(r"\bGoals\.\{([^}]*)\}", text):
            made.update(name.strip() for name in group.split(","))
        own.update(DECLARED.findall(text))
        own.update(re.findall(r"\b(?:data|record) ([^\s:(){}\[\],;]+)", text))
        own.update(re.findall(r"\blet ([^\s:(){}\[\],;=]+)\s*[:=]", text))
        for group in re.findall(r"[({]([^\s:(){}\[\],;=][^:(){}\[\],;=]*)\s*:\s", text):
            own.update(group.split())
        for group in re.findall(r"λ ([^.]*?)\.\s", text):
            own.update(re.findall(r"[^\s(){},:]+", group))
    for path in files(".rt"):
        for line in read(path).split("\n"):
            if line.startswith("ghost use "):
                own.update(re.findall(r" as ([^\s{},;]+)", line))
    return own, made


def respelled(name):
    if name in SPECIAL:
        return SPECIAL[name]
    if name[0].isupper():
        return "".join(part[:1].upper() + part[1:] for part in name.split("-"))
    return name.replace("-", "_")


def table():
    own, made = declared_names()
    names = {n for n in own - made if TOKEN.fullmatch(n) and ("-" in n or n in SPECIAL)}
    new = {n: respelled(n) for n in names}
    together = [n for n in names if n != "Gives-up" and (new[n] in own or sum(new[m] == new[n] for m in new if m != "Gives-up") > 1)]
    return new, together


def turned(text, new, answer):
    def one(match):
        name = match.group(0)
        if name not in new or answer and re.search(r"\b[cwl]\.$", text[: match.start()]):
            return name
        return new[name]

    return TOKEN.sub(one, text)


def turn_antt(path, new):
    answer = os.path.basename(path) in ("Answers.antt", "Invariants.antt", "Proof.antt")
    lines = []
    for line in read(path).split("\n"):
        if line.lstrip().startswith("-- "):
            # prose: facts by name, and what stands in backticks
            line = re.sub(r"`[^`]*`", lambda m: turned(m.group(0), new, False), line)
            facts = {n: to for n, to in new.items() if n[0].isupper() or n in SPECIAL}
            lines.append(turned(line, facts, False))
        else:
            lines.append(turned(line, new, answer))
    return "\n".join(lines)


def turn_rt(path, new):
    lines = []
    for line in read(path).split("\n"):
        if line.lstrip().startswith("//") or not re.match(r"\s*(ghost|requires|ensures|#\[)", line) and '"' in line:
            lines.append(line)
        else:
            lines.append(turned(line, new, False))
    return "\n".join(lines)


def main():
    new, together = table()
    if together:
        print("these would fall together: " + " ".join(sorted(together)))
        return 1
    for ending, turn in ((".antt", turn_antt), (".rt", turn_rt)):
        for path in files(ending):
            text = turn(path, new)
            if text != read(path):
                with open(path, "w", encoding="utf-8") as f:
                    f.write(text)
    print("respelled names: %d" % len(new))
    return 0


if __name__ == "__main__":
    sys.exit(main())
