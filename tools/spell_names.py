#!/usr/bin/env python3
"""Spells the names that this repository's specs/ and proofs/ declare as today's Rattle does.

usage: python3 tools/spell_names.py [--check]     at the top of the repository, after /opt/rattle/port/port.py

A definition, a lemma, a field or a constructor whose name has a dash gets underscores, as link-code: link_code.
A type or a fact, whose name begins with a capital, gets upper camel case, as Kcss-yes: KcssYes.
What Rattle makes keeps its name: a goal that an answer is declared at, and in answers and invariants the first word behind
goal, c, w, l and g.
A name that would then be that of a function in a file of src/ that cites it gets _lem behind it.
Functions of src/, exported names, strings, inputs and outputs stay. --check writes nothing and lists the names.
It stops, and writes nothing, where a new name would meet another one in some file.
"""

import os
import re
import sys

WORD = re.compile(r"[^\s(){}\[\].;,@\"«»`:'|]+'*")
DECLARED = [
    re.compile(r"(?m)^(?:abbrev |unfoldable )?(?:pub )?(?:ruleset )?([A-Za-z][\w-]*'*)(?: \{[^{}\n]*\})* :(?= |\n)([^\n]*)"),
    re.compile(r"(?m)^ +(?:abbrev |unfoldable )?(?:pub )?([A-Za-z][\w-]*'*) :(?= |\n)([^\n]*)"),
    re.compile(r"(?m)^(?:pub )?(?:data|record) ([A-Za-z][\w-]*'*)(?=[ \n])()"),
    re.compile(r"(?m)^(?:pub )?ruleset ([A-Za-z][\w-]*'*)(?=[ \n])()"),
]
GOAL = re.compile(r"^ ?\(?(?:goal|goals|need|given)\.")
HEADS = {"goal", "c", "w", "l", "g"}
QUIET = re.compile(r'b?"(?:[^"\\]|\\.)*"|b?\'(?:[^\'\\]|\\.)\'', re.S)


def texts(root):
    for folder, dirs, files in os.walk(os.path.join(root, "crates")):
        dirs[:] = sorted(d for d in dirs if d != "out")
        for f in sorted(files):
            if f.endswith((".rt", ".antt", ".edit")):
                yield os.path.join(folder, f)
    for folder in ("", "docs"):
        for f in sorted(os.listdir(os.path.join(root, folder))):
            if f.endswith(".md") and not f.startswith("PORT"):
                yield os.path.join(root, folder, f)


# Names that are also those of functions: item-byte at some commits only, the others are filled in by main.
CALLED = {"item-byte"}
# Names whose new spelling stands in a file already, but only behind a dot, as the field of another record.
APART = {"first-id", "second-id"}


def spelled(name):
    if name[0].isupper():
        return "".join(p[:1].upper() + p[1:] for p in re.split("[-_]", name))
    return name.replace("-", "_") + ("_lem" if name in CALLED else "")


def call_same(paths, names):
    """The names that would be those of functions in files of src/ that cite them."""
    for p, t in paths.items():
        if p.endswith(".rt"):
            functions = set(re.findall(r"\bfn (\w+)", t))
            cited = set(WORD.findall(t))
            CALLED.update(n for n in names if n in cited and spelled(n) in functions)


def declared(paths):
    """The names to turn, and for each file the goals that it answers."""
    mine, goals, every = set(), {}, {}
    for p, t in paths.items():
        if not p.endswith(".antt"):
            continue
        for pattern in DECLARED:
            for m in pattern.finditer(t):
                if GOAL.match(m.group(2)):
                    goals.setdefault(p, set()).add(m.group(1))
                    continue
                every.setdefault(m.group(1), set()).add(p)
                if "-" in m.group(1) or m.group(1)[0].isupper() and "_" in m.group(1):
                    mine.add(m.group(1))
    return mine, goals, every


def turned(path, text, names, goals):
    at = {m.start(): m.end() for m in QUIET.finditer(text)} if path.endswith(".rt") else {}
    spans = None
    if path.endswith(".md"):
        spans = [(m.start(), m.end()) for m in re.finditer(r"`[^`\n]+`", text)]
    quiet = sorted(at.items())
    answers = os.path.basename(path) in ("Answers.antt", "Invariants.antt", "Choices.antt")
    out, last, met = [], 0, set()
    for m in WORD.finditer(text):
        w = m.group()
        if w not in names or any(a <= m.start() < b for a, b in quiet):
            continue
        if spans is not None and not any(a <= m.start() < b for a, b in spans):
            continue
        head = re.search(r"([^\s(){}\[\].;,@\"«»`]+)\.$", text[max(0, m.start() - 40) : m.start()])
        before = text[max(0, m.start() - 60) : m.start()]
        if answers and head and head.group(1) in HEADS and not before[: -len(head.group(0))].endswith("."):
            continue
        if w in goals.get(path, ()):
            continue
        out += [text[last : m.start()], spelled(w)]
        last = m.end()
        met.add(w)
    return "".join(out) + text[last:], met


def main():
    root = os.getcwd()
    paths = {}
    for p in texts(root):
        with open(p, encoding="utf-8") as f:
            paths[p] = f.read()
    mine, goals, every = declared(paths)
    call_same(paths, mine)
    if "--check" in sys.argv:
        for n in sorted(mine):
            print(n, spelled(n))
    bad = []
    new = {}
    for n in sorted(mine):
        if spelled(n) in new:
            bad.append(f"{n} and {new[spelled(n)]} both become {spelled(n)}")
        new[spelled(n)] = n
    wrote = 0
    for p, t in paths.items():
        now, met = turned(p, t, mine, goals)
        words = set(WORD.findall(re.sub(r"\bproofs\.\w+", "", t)))
        for n in met - APART:
            if spelled(n) in words:
                bad.append(f"{os.path.relpath(p, root)}: {n} becomes {spelled(n)}, which stands there")
        paths[p] = (t, now)
    for n in sorted(mine):
        if spelled(n) in every:
            print(f"look: {n} becomes {spelled(n)}, which is declared elsewhere")
    if bad:
        print("\n".join(bad))
        if "--check" not in sys.argv:
            raise SystemExit(1)
    for p, (t, now) in paths.items():
        if t != now:
            wrote += 1
            if "--check" not in sys.argv:
                with open(p, "w", encoding="utf-8") as f:
                    f.write(now)
    print(f"{len(mine)} names, {wrote} files")


main()
