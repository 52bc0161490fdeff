#!/usr/bin/env python3
"""Brings the repository's own names in specs/ and proofs/ to the kit's spelling.

usage: python3 tools/respell.py          rewrites the files below crates/, once, after the kit's port.py
       python3 tools/respell.py --list   prints the old and new names and what falls together, and writes nothing

A word is in snake case, a type or a fact in camel case. Names that the checker makes (goals, steps, invariants) stay; so do code,
comments but for quoted names, and strings.
"""

import os
import re
import sys

ROOT = os.path.join(os.path.dirname(os.path.dirname(os.path.realpath(__file__))), "crates")
# names that the checker makes, in the proof folders of functions
MADE = re.compile(r"^(returns|loop|invariant|decreases|overflow|bounds|in|then|else|page-preserved)\b|requires(-|$)|^slice-bounds|-(preserved|init|smaller)$")
NAME = r"[^\s(){}\[\]:;,.|\"`]+"
DEFINED = re.compile(r"^[ ]*((?:(?:abbrev|pub|unfoldable|data|record)[ ]+)*)(" + NAME + r")[ ]*(?:\{[^}]*\}[ ]*|\([^)]*\)[ ]*)*:[ ]", re.M)
# names of the library's own making inside ours
WORDS = {"getD-slots": "get_or_slots", "putMid-record": "put_mid_record", "integerOf": "integer_of", "naturalOf": "natural_of",
         "spelledOf": "spelled_of", "takesOf": "takes_of", "isEdited": "is_edited", "isResumed": "is_resumed", "isSettled": "is_settled"}


def files(*ends):
    for folder, dirs, names in os.walk(ROOT):
        dirs[:] = sorted(d for d in dirs if d != "out")
        for name in sorted(names):
            if name.endswith(ends):
                yield os.path.join(folder, name)


def text_of(path):
    with open(path, encoding="utf-8") as f:
        return f.read()


def respelled(name):
    if name in WORDS:
        return WORDS[name]
    if name[0].isupper():
        head, *rest = name.split("-")
        return head + "".join(w[0].upper() + w[1:] for w in rest)
    return name.replace("-", "_")


def own_names():
    found = {}
    for path in files(".antt"):
        parts = os.path.relpath(path, ROOT).split(os.sep)
        made_folder = parts[1] == "proofs" and len(parts) > 3
        for m in DEFINED.finditer(re.sub(r"--.*", "", text_of(path))):
            name = m.group(2)
            if "-" not in name or not re.match(r"^[A-Za-z]", name):
                continue
            if made_folder and MADE.search(name):
                continue
            found[name] = respelled(name)
    for name, word in WORDS.items():
        found[name] = word
    return found


def main():
    names = own_names()
    taken = {}
    for path in files(".antt", ".rt"):
        for word in re.findall(NAME, text_of(path)):
            taken.setdefault(word, set()).add(os.path.relpath(path, ROOT))
    by_new = {}
    for name, new in names.items():
        by_new.setdefault(new, []).append(name)
    if "--list" in sys.argv:
        for name in sorted(names):
            print(f"{name} -> {names[name]}")
        for new, olds in sorted(by_new.items()):
            if len(olds) > 1:
                print(f"falls together: {new}: {' '.join(sorted(olds))}")
            if new in taken:
                print(f"taken: {new}: {' '.join(sorted(taken[new]))}")
        return
    one = re.compile("(?<![^\\s(){}\\[\\]:;,.|\"`])(" + "|".join(re.escape(n) for n in sorted(names, key=len, reverse=True)) + ")(?![^\\s(){}\\[\\]:;,.|\"`])")
    swap = lambda t: one.sub(lambda m: names[m.group(1)], t)
    for path in files(".antt", ".rt"):
        mark = "--" if path.endswith(".antt") else "//"
        out = []
        for line in text_of(path).split("\n"):
            at = line.find(mark)
            if mark == "--" and at > 0 and line[at - 1] not in " \t":
                at = -1
            code, note = (line, "") if at < 0 else (line[:at], line[at:])
            note = re.sub(r"`[^`]*`", lambda m: swap(m.group(0)), note)
            out.append(swap(code) + note)
        new = "\n".join(out)
        if new != text_of(path):
            with open(path, "w", encoding="utf-8") as f:
                f.write(new)


main()
