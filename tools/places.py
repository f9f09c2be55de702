#!/usr/bin/env python3
"""Lists, by point, the places in crates/*/src that are written in an older
form, or may be: what docs/DESIGN-PASS.md counts.

    python3 tools/places.py [FOLDER] [POINT]

FOLDER is the top of a checkout (here if left out), POINT a number from 1 to 8.
It goes by text, so each line is a place to look at and no verdict. Tests
(`#[cfg(test)]` and tests.rs) are left out.
"""
import collections
import glob
import itertools
import os
import re
import sys


def sources(top):
    """Each source file without its tests, as (name, numbered lines)."""
    for path in sorted(glob.glob(os.path.join(top, "crates/*/src/**/*.rt"), recursive=True)):
        if os.path.basename(path) == "tests.rt":
            continue
        text = open(path).read()
        text = re.split(r"^#\[cfg\(test\)\]\nmod tests \{", text, flags=re.M)[0]
        yield os.path.relpath(path, top), list(enumerate(text.split("\n"), 1))


LINES = {
    1: [
        ("an enum: has it the shape of Option or Result?", r"^(pub(\(crate\))? )?enum "),
        ("an Option in a struct: a flag beside a value?", r"^    (pub(\(crate\))? )?\w+: Option<"),
        ("an Option of an Option", r"Option<Option<"),
        ("an enum's number, byte or name by hand", r"fn (number|byte)\("),
        ("a number that means nothing", r"\(\) -> u8"),
    ],
    3: [
        ("a while", r"\bwhile\b"),
        ("a for over numbers", r"\bfor \w+ in [^{]*\.\."),
        ("an exchange of two entries by hand", r"let moved = "),
    ],
    4: [
        ("a widening cast", r"(\)|\w) as u(32|64)\b"),
        ("Option or Result taken apart to be made again", r"(None => None|Err\(_\) => None|Ok\(\(\)\) => Ok\(\(\)\)|Err\(_\) => false|None => (over|sum|limit|cost|best)\b|Some\(word\) => word)"),
        ("a conversion or an order by hand", r"fn (at|sign_of|verb_of|kind_of|no_later|lesser|least_cost|number|byte|fault_line)\("),
        ("an error made anew by hand", r"Err\(AllocError\)|Err\(ReadError::AtFault\("),
        ("fields taken out one by one to be printed", r"let (\w+) = \w+\.\1(\.number\(\))?;"),
    ],
    6: [
        ("an array of a fixed size in a struct or a constant", r"^\s*(pub )?(const )?\w+: \[\w+; "),
        ("a length or a count beside", r"^    (pub(\(crate\))? )?(len|count): "),
        ("rows of numbers side by side", r"^    (pub(\(crate\))? )?\w+: (Vec<u32>|&'a \[u32\]),"),
    ],
    7: [
        ("one step after the other by hand", r"if let Some\(place\) = self"),
        ("a function as a value", r"\bfn\(|dyn |Box<"),
    ],
}


def by_lines(top, point):
    for what, pattern in LINES[point]:
        found = [
            (name, number, line.strip())
            for name, lines in sources(top)
            for number, line in lines
            if re.search(pattern, line) and "ghost" not in line and not line.strip().startswith("//")
        ]
        print(f"-- {what}: {len(found)}")
        for name, number, line in found:
            print(f"   {name}:{number}: {line}")


def functions(top):
    """Each function: its file, name, parameters and clauses."""
    for name, lines in sources(top):
        text = "\n".join(line for _, line in lines)
        for match in re.finditer(r"\bfn (\w+)(<[^(]*>)?\(", text):
            depth, at = 1, match.end()
            while depth and at < len(text):
                depth += {"(": 1, ")": -1}.get(text[at], 0)
                at += 1
            head = text[at:]
            head = head[: re.search(r"^\s*\{", head, flags=re.M).start()] if re.search(r"^\s*\{", head, flags=re.M) else head
            parameters = [p.strip() for p in re.split(r",\s*(?![^<]*>)", text[match.end() : at - 1]) if p.strip()]
            clauses = re.findall(r"^\s*(?:requires|ensures)\s*\w*\s*\{(.*)\}\s*$", head, flags=re.M)
            yield name, match.group(1), parameters, [c.strip() for c in clauses]


def repeated(top):
    facts, groups = collections.defaultdict(list), collections.defaultdict(list)
    for name, function, parameters, clauses in functions(top):
        for clause in clauses:
            facts[(name.split("/")[1], clause)].append(function)
        for count in (2, 3, 4, 5):
            for group in itertools.combinations([p for p in parameters if "self" not in p], count):
                groups[(name.split("/")[1], group)].append(function)
    print("-- a clause in three contracts or more")
    for (crate, clause), where in sorted(facts.items()):
        if len(where) >= 3:
            print(f"   {crate}: {{ {clause} }}: {len(where)}: {' '.join(where)}")
    print("-- parameters that travel together in three functions or more (the largest groups)")
    large = {key: where for key, where in groups.items() if len(where) >= 3}
    for (crate, group), where in sorted(large.items()):
        if not any(c == crate and set(group) < set(g) and set(where) <= set(w) for (c, g), w in large.items()):
            print(f"   {crate}: {', '.join(group)}: {len(where)}: {' '.join(where)}")


def twins(top):
    """Functions of one crate whose bodies are alike but for names."""
    shapes = collections.defaultdict(list)
    for name, lines in sources(top):
        text = "\n".join(line for _, line in lines)
        for match in re.finditer(r"^( *)(?:pub(?:\(crate\))? )?fn (\w+)[^;]*?\n\1\{\n(.*?)\n\1\}", text, flags=re.M | re.S):
            body = re.sub(r"//[^\n]*", "", match.group(3))
            shape = re.sub(r"\s+", " ", re.sub(r"\b[A-Za-z_]\w*\b", "x", re.sub(r"\b\d+\b", "0", body)))
            if len(shape) > 40:
                shapes[shape].append(f"{name}:{match.group(2)}")
    print("-- functions of one shape")
    for shape, where in sorted(shapes.items(), key=lambda item: item[1]):
        if len(where) > 1:
            print(f"   {len(where)}: {' '.join(where)}")


def proofs(top):
    for kind in ("Answers", "Invariants", ""):
        files = [
            path
            for path in glob.glob(os.path.join(top, "crates/*/proofs/**/*.antt"), recursive=True)
            if (os.path.basename(path) == kind + ".antt" if kind else os.path.basename(path)[:-5] not in ("Answers", "Invariants"))
        ]
        count = sum(len(open(path).read().split("\n")) - 1 for path in files)
        print(f"-- {kind or 'lemmas'}: {len(files)} files, {count} lines")


def main():
    arguments = sys.argv[1:]
    points = [int(a) for a in arguments if a.isdigit()] or range(1, 9)
    top = next((a for a in arguments if not a.isdigit()), ".")
    for point in points:
        print(f"point {point}")
        if point in LINES:
            by_lines(top, point)
        elif point == 2:
            twins(top)
        elif point == 5:
            repeated(top)
        else:
            proofs(top)


if __name__ == "__main__":
    main()
