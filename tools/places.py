"""Lists places of the source that an older form of the language may have left, by point, and how many there are.

    python3 tools/places.py          the counts
    python3 tools/places.py 4        the counts, and the places of point 4

A place that it lists is one to look at: docs/DESIGN-PASS.md says what became of each.
"""

import collections
import glob
import os
import re
import sys

TOP = os.path.dirname(os.path.dirname(os.path.abspath(__file__)))
CLAUSE = re.compile(r"\s*(requires|ensures)\s+(?:\w+\s+)?\{(.*)\};?\s*$")


def sources():
    for path in sorted(glob.glob(TOP + "/crates/*/src/**/*.rt", recursive=True)):
        with open(path) as file:
            yield os.path.relpath(path, TOP + "/crates"), file.read().split("\n")


def lines(pattern):
    """Lines that fit, the rows of the constant table aside."""
    found = []
    for path, text in sources():
        for number, line in enumerate(text, 1):
            if re.search(pattern, line) and not line.lstrip().startswith("//"):
                found.append(f"{path}:{number}: {line.strip()}")
    return found


def functions():
    """Each function with its file, its parameters and its clauses."""
    for path, text in sources():
        whole = "\n".join(text)
        for head in re.finditer(r"\bfn (\w+)(?:<[^(]*>)?\(([^)]*)\)([^{;]*(?:\{.*\}\n[^{;]*)*)", whole):
            name = head.group(1)
            clauses = []
            for line in head.group(3).split("\n"):
                fits = CLAUSE.match(line)
                if fits:
                    clauses.append((fits.group(1), fits.group(2).strip()))
            yield path, name, head.group(2), clauses


def same_names():
    """Functions and types that stand under one name in more than one place, tests aside."""
    at = collections.defaultdict(list)
    for path, text in sources():
        if path.startswith(("trials", "readings")):
            continue
        for line in text:
            fits = re.match(r"\s*(?:pub(?:\(crate\))? )?(fn|struct|enum|const) (\w+)", line)
            if fits:
                at[fits.group(1) + " " + fits.group(2)].append(path)
    return [f"{name}: {', '.join(paths)}" for name, paths in sorted(at.items()) if len(paths) > 1]


def same_clauses():
    """Clauses that stand in three or more functions."""
    at = collections.defaultdict(list)
    for path, name, _, clauses in functions():
        for clause in clauses:
            at[clause].append(f"{path} {name}")
    rows = sorted((-len(where), kind, text) for (kind, text), where in at.items() if len(where) > 2)
    return [f"{-count} times: {kind} {{ {text} }}" for count, kind, text in rows]


def together():
    """Two parameters, by name and type, that stand together in three or more functions."""
    at = collections.Counter()
    for path, _, parameters, _ in functions():
        if path.startswith(("trials", "readings")):
            continue
        names = sorted({p.strip() for p in parameters.split(",") if ":" in p})
        at.update((a, b) for i, a in enumerate(names) for b in names[i + 1:])
    return [f"{count} times: {a}, {b}" for (a, b), count in sorted(at.items(), key=lambda x: -x[1]) if count > 2]


def proofs(pattern):
    found = []
    for path in sorted(glob.glob(TOP + "/crates/*/proofs/**/*.antt", recursive=True)):
        with open(path) as file:
            for number, line in enumerate(file, 1):
                if re.match(pattern, line):
                    found.append(f"{os.path.relpath(path, TOP + '/crates')}:{number}: {line.strip()}")
    return found


POINTS = {
    1: [
        ("arms by hand on an Option or a Result", lambda: lines(r"^\s*(Ok|Err|Some|None)\b.*=>")),
        ("arms that give a number", lambda: lines(r"=> \d+,?$")),
        ("own enums", lambda: lines(r"^\s*(pub(\(crate\))? )?enum ")),
        ("flags: fields and parameters that are a bool", lambda: lines(r"\w: bool\b")),
    ],
    2: [("names of functions and types that stand more than once", same_names)],
    3: [
        ("loops", lambda: lines(r"^\s*(for|while|loop)\b.*\{$")),
        ("numbers counted up by hand", lambda: lines(r"\+= |: [\w.]+ \+ (1|\w+),$")),
    ],
    4: [
        ("casts by `as`", lambda: lines(r"\bas (u8|u16|u32|u64|usize)\b")),
        ("bytes of a word by arithmetic", lambda: lines(r"(/|%|\*) 256\b|\b256 \*")),
        ("a smaller number by `if`", lambda: lines(r"if (\w+) < (\w+) \{ .*\} else \{")),
        ("records of zeros written out", lambda: lines(r"(Needle|Course)\(0\),?$|(place|before): 0,$")),
        ("conversions and printing of this repository's own", lambda: lines(r"^impl.*\b(From<.*>|TryFrom<.*>|Display|Debug|PartialEq|Ord|Clone) for ")),
    ],
    5: [("clauses in three or more functions", same_clauses), ("parameters that stand together in three or more functions", together)],
    6: [("slices, arrays and vectors in types and parameters", lambda: lines(r": (&('\w+ )?(mut )?)?\[.*\]|: Vec<"))],
    7: [("matches", lambda: lines(r"\bmatch "))],
    8: [
        ("answers", lambda: proofs(r"pub [\w-]+ : goal\.")),
        ("lemmas and definitions of proof files", lambda: proofs(r"\s*(pub |abbrev |private )*[\w'-]+ : ")),
    ],
}


def main():
    wanted = {int(word) for word in sys.argv[1:]}
    for point, parts in POINTS.items():
        for what, find in parts:
            found = find()
            print(f"{point}. {what}: {len(found)}")
            if point in wanted:
                for row in found:
                    print("   " + row)


main()
