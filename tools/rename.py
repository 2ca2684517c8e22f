#!/usr/bin/env python3
"""Spells the repository's own definitions and lemmas as today's Rattle does, once, after port.py.

usage: python3 tools/rename.py [--list]     at the top of the repository

A word with hyphens gets underscores (leg-record: leg_record), a type with hyphens is written in one (No-worse: NoWorse).
Turned are the .antt files, and of the .rt files the contracts and the ghost items alone: code, strings and comments stay.
The names that the check makes for goals and places have hyphens and keep them: in the proof files of a function a name is
turned only where specs/, a lemma file, a contract or the file itself declares it. So do names that a file takes from the kit.
--list writes each name with what it becomes, and those that fall together with a name that stands already, and changes nothing.
"""

import os
import re
import sys

# an identifier with a hyphen inside it, and what is before it
NAME = re.compile(r"(?<![\w'\-◌])([^\W\d_][\w']*(?:-[\w']+)+)(?![\w'\-◌])")
WORD = re.compile(r"[^\W\d][\w']*")
CLAUSE = re.compile(r"^\s*(requires|ensures|ghost|decreases|invariant)\b")
FIELD = re.compile(r"^\s+pub ([^\W\d_][\w']*(?:-[\w']+)+) :")
# names that a file takes from a crate
TAKEN = re.compile(r"^\s*(?:ghost )?use (?:Rattle\.)?(\w+)\.[\w.'+]*\{([^}]*)\}", re.M)
# a lemma in a function's proof file, and no answer
LEMMA = re.compile(r"^(?:pub |abbrev pub |abbrev )?([^\W\d_][\w']*(?:-[\w']+)+) :(?! goal\.)")


def new_name(name):
    if name[0].isupper():
        first, *rest = name.split("-")
        return first + "".join(part[0].upper() + part[1:] for part in rest)
    return name.replace("-", "_")


def files():
    for folder, dirs, names in os.walk("crates"):
        dirs[:] = sorted(d for d in dirs if d != "out")
        for name in sorted(names):
            if name.endswith((".antt", ".rt")):
                yield os.path.join(folder, name)


def of_kit(its):
    """The names that a file takes from the kit."""
    own = set(os.listdir("crates"))
    taken = set()
    for crate, names in TAKEN.findall("".join(part for _, part in its)):
        if crate not in own:
            taken |= {name.split(" as ")[-1].strip() for name in names.split(",")}
    return taken


def of_function(path):
    words = path.split("/")
    return words[2] == "proofs" and len(words) > 4


def parts(path, text):
    """The text in parts: (whether names in it may be turned, the part)."""
    for line in text.splitlines(keepends=True):
        if path.endswith(".antt"):
            at = re.search(r"(?:^|\s)--(?:\s|$)", line)
            cut = at.start() if at else len(line)
            yield True, line[:cut]
            yield False, line[cut:]
        else:
            yield bool(CLAUSE.match(line)), line


def main():
    texts = {}
    for path in files():
        with open(path, encoding="utf-8") as f:
            texts[path] = list(parts(path, f.read()))
    own, fields = {}, set()
    kit = {path: of_kit(its) for path, its in texts.items()}
    for path, its in texts.items():
        if of_function(path):
            continue
        for may, part in its:
            if may:
                for name in set(NAME.findall(part)) - kit[path]:
                    own.setdefault(name, set()).add(path.split("/")[1])
                fields |= set(FIELD.findall(part))
    turned, standing = {}, set()
    for path, its in texts.items():
        here = set()
        if of_function(path):
            for may, part in its:
                here |= set(LEMMA.findall(part)) if may else set()

        def turn(match):
            if match[1] in kit[path]:
                return match[1]
            name, before = match[1], match.string[max(0, match.start() - 5) : match.start()]
            if of_function(path):
                if before.endswith("goal.") or (name not in own and name not in here):
                    return name
                if before.endswith(".") and name not in fields:
                    return name
                if match.start() == 0 and name not in here:
                    return name
            turned.setdefault(name, set()).add(path.split("/")[1])
            return new_name(name)

        out = []
        for may, part in its:
            if may:
                standing |= set(WORD.findall(NAME.sub(" ", part)))
                part = NAME.sub(turn, part)
            out.append(part)
        if "--list" not in sys.argv:
            with open(path, "w", encoding="utf-8") as f:
                f.write("".join(out))
    if "--list" in sys.argv:
        to = {}
        for name in sorted(turned):
            to.setdefault(new_name(name), []).append(name)
        for name in sorted(turned):
            again = new_name(name) in standing or len(to[new_name(name)]) > 1
            print(("together: " if again else "") + f"{name}: {new_name(name)}  ({', '.join(sorted(turned[name]))})")


main()
