"""Lists the places in crates/*/src where older forms may stand, a list for each point of docs/DESIGN-PASS.md.

python3 tools/count_places.py [--list]   counts (with --list: each place) in the checkout that it is run in."""
import glob
import re
import sys
from collections import Counter, defaultdict

SOURCES = sorted(glob.glob("crates/*/src/*.rt"))
PROOFS = sorted(glob.glob("crates/*/proofs/**/*.antt", recursive=True))


def is_code(line):
    return not line.lstrip().startswith("//")


def lines_with(pattern):
    """Each line of code that the pattern is found in, as file:line."""
    found = []
    for name in SOURCES:
        for number, line in enumerate(open(name), 1):
            if is_code(line) and re.search(pattern, line):
                found.append(f"{name}:{number}: {line.strip()}")
    return found


def signatures():
    """Each function with its parameters, as file, name, [parameter]."""
    for name in SOURCES:
        text = open(name).read()
        for match in re.finditer(r"\bfn (\w+)(?:<[^(]*>)?\(([^{]*?)\)\s*(?:->|\n|\{|requires|ensures)", text, re.S):
            parts = [" ".join(p.split()) for p in re.split(r",(?![^<]*>)", match.group(2))]
            yield name, match.group(1), [p for p in parts if ":" in p and "self" not in p.split(":")[0]]


def travelling():
    """Pairs of parameters, each of one name and type, that stand together in three functions or more."""
    together = defaultdict(list)
    for name, function, parameters in signatures():
        named = sorted(set(parameters))
        for i, first in enumerate(named):
            for second in named[i + 1:]:
                together[first, second].append(f"{name}:{function}")
    return [f"({a}), ({b}): {len(fs)} functions" for (a, b), fs in sorted(together.items()) if len(fs) >= 3]


def repeated():
    """Clauses that stand word for word in three contracts or more of one crate."""
    clauses = Counter()
    for name in SOURCES:
        for match in re.finditer(r"(?:requires|ensures)(?: \w+)? (\{.*\})", open(name).read()):
            clauses[name.split("/")[1], match.group(1)] += 1
    return [f"{crate}: {count} times {clause}" for (crate, clause), count in sorted(clauses.items()) if count >= 3]


def loops_alike():
    """Functions of one file whose bodies are the same loop but for names: a `for` with one call in it."""
    shapes = defaultdict(list)
    for name in SOURCES:
        for match in re.finditer(r"fn (\w+)[^{]*?(?:\{[^{}]*\}[^{]*?)*\n\{\n(.*?)\n\}", open(name).read(), re.S):
            body = match.group(2)
            if "for " in body and len(body.splitlines()) <= 8:
                shapes[name, re.sub(r"\b[a-z_]\w*\b|\b\d+\b", "_", body).count("\n")].append(match.group(1))
    return [f"{name}: {', '.join(fs)}" for (name, _), fs in sorted(shapes.items()) if len(fs) >= 2]


POINTS = [
    ("1a own enums", lines_with(r"^\s*(pub(\(crate\))? )?enum ")),
    ("1b flags in structs", lines_with(r"^\s*(pub )?\w+: bool,")),
    ("1c numbers for kinds and refusals", lines_with(r"fn \w*(number|kind|layer)\w*\(.*u8|kind_number: u8|-> u8\b|\bkind: u8")),
    ("2 functions that are one loop", loops_alike()),
    ("3 loops by hand", lines_with(r"\bwhile\b|\bloop \{|\bfor \w+ in [\w(].*\.\.|>= [\w.]+\.len\(\)|\+= 1;")),
    ("4a equality and conversion", lines_with(r"fn (same|number|from_number|kind_number|code_limit)\(|impl.* From<|\.(process|tag|number|value) == ")),
    ("4b casts", lines_with(r"\bas (u8|u16|u32|u64|usize)\b")),
    ("4c printing", lines_with(r"\bfn push_\w+|fn words\(|fn name\(")),
    ("5a parameters that travel together", travelling()),
    ("5b clauses that repeat", repeated()),
    ("6 arrays, indices and lengths", lines_with(r"\[\w+; \w+\]|rest\[\d|\w+\[\d+\]|_at: usize|index: usize")),
    ("7 functions passed or chosen", lines_with(r"\bfn\(|\bdyn\b|\bFn(Mut|Once)?\b|\bimpl Fn")),
]


def main():
    for title, found in POINTS:
        print(f"{title}: {len(found)}")
        if "--list" in sys.argv:
            for place in found:
                print("   ", place)
    answers = [f for f in PROOFS if f.endswith("Answers.antt")]
    others = [f for f in PROOFS if not f.endswith(("Answers.antt", "Invariants.antt"))]
    print(f"8 answer files: {len(answers)}, {sum(len(open(f).readlines()) for f in answers)} lines;",
          f"lemma files: {len(others)}, {sum(len(open(f).readlines()) for f in others)} lines")


main()
