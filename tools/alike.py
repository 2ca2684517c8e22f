#!/usr/bin/env python3
"""Functions of the crates' sources that are alike, and parameters that travel together.

  tools/alike.py [COMMIT]               pairs of functions whose texts, with names and numbers left out, are alike
  tools/alike.py --parameters [COMMIT]  sets of two or more parameters that three or more functions take

Without a commit the files of the checkout are read.
"""
import difflib
import itertools
import re
import subprocess
import sys

ALIKE = 0.85
SHORTEST = 20
HANDED_ON = {"self", "heap", "rt", "f", "standard", "book", "quantity"}


def sources(commit):
    command = ["git", "ls-tree", "-r", "--name-only", commit] if commit else ["git", "ls-files"]
    names = subprocess.run(command, capture_output=True, text=True, check=True).stdout.split()
    for name in names:
        if re.fullmatch(r"crates/\w+/src/.*\.rt", name):
            if commit:
                shown = subprocess.run(["git", "show", f"{commit}:{name}"], capture_output=True, text=True, check=True)
                yield name, shown.stdout
            else:
                yield name, open(name).read()


def functions(name, text):
    """The place, the parameters and the body of each function that has a body."""
    for found in re.finditer(r"^( *)(?:pub(?:\(\w+\))? )?fn (\w+)(.*?)^\1\{\n(.*?)^\1\}|^( *)(?:pub(?:\(\w+\))? )?fn (\w+)([^\n]*)\{\n(.*?)^\5\}", text, re.M | re.S):
        title = found[2] or found[6]
        head = found[3] if found[2] else found[7]
        body = found[4] if found[2] else found[8]
        taken = head[head.find("(") + 1:]
        yield f"{name}:{title}", re.findall(r"(?:mut )?(\w+): ", taken[:taken.find(")")]), body


def bare(body):
    """The words of a body, with names and numbers left out."""
    body = re.sub(r"//[^\n]*|\"[^\"\n]*\"", "", body)
    body = re.sub(r"\b(?!let\b|if\b|else\b|match\b|for\b|in\b|return\b|mut\b|Some\b|None\b|Ok\b|Err\b)[A-Za-z_]\w*", "x", body)
    return re.findall(r"[a-zA-Z]+|[^\s\w]", re.sub(r"\b[0-9][\w.]*", "0", body))


def main(arguments):
    parameters = "--parameters" in arguments
    commits = [a for a in arguments if not a.startswith("--")]
    found = [f for name, text in sources(commits[0] if commits else None) for f in functions(name, text)]
    if parameters:
        sets = {}
        for place, taken, _ in found:
            names = sorted(set(taken) - HANDED_ON)
            for size in range(2, len(names) + 1):
                for together in itertools.combinations(names, size):
                    sets.setdefault(together, []).append(place)
        for together, places in sorted(sets.items(), key=lambda s: -len(s[1])):
            if len(places) >= 3:
                print(len(places), ", ".join(together), "|", " ".join(places))
        return
    bodies = [(place, bare(body)) for place, _, body in found]
    for (a, x), (b, y) in itertools.combinations([f for f in bodies if len(f[1]) >= SHORTEST], 2):
        if difflib.SequenceMatcher(None, x, y, autojunk=False).ratio() >= ALIKE:
            print(a, b)


main(sys.argv[1:])
