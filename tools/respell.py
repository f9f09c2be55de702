#!/usr/bin/env python3
"""Respells the repository's own definitions, fields and lemmas as today's Rattle spells names: words in snake case, types in camel case.

usage: python3 tools/respell.py            at the top of the repository, once, after the toolchain's port.py

It has been run, in the commit that docs/PORT.md names second, and is kept so that the step can be repeated there. Do not run it again.

Which names are the repository's own is read from the declarations of specs/ and proofs/. A name with a dash, or a word with a capital inside, is
turned wherever it stands as a name: in .antt files, in .rt files and in must-fail edits, but not in strings, nor in comments outside backquotes.
Names that Rattle makes for goals (a signature `name : goal.name`) and names of the library are left. It says where two names fall together in one
file: only a definition and a function of the code, or the folder of a function's proof, may.
"""

import os
import re
import sys

NAME = r"[^\W\d][\w']*(?:-[\w']+)*"
TOKEN = re.compile(r"(?<![\w'-])(" + NAME + r")(?![\w'-])")
HEAD = re.compile(r"^\s*(?:(?:abbrev|unfoldable|pub|data|record)\s+)*(" + NAME + r")(?=\s*:(?:\s|$)|\s+[({])")
SEVERAL = re.compile(r"^\s*(?!pub )(" + NAME + r"(?:\s+" + NAME + r")+)\s+:\s+[A-Z]\w*$")
BLOCK = re.compile(r"^\s*(?:pub\s+)?(?:record|data)\s+(" + NAME + r")")
OURS = {"course", "blank", "layers", "table", "tableblank", "raster", "text", "reader", "report", "rank", "queue", "wish", "measured", "planner",
        "session", "outcome"}
# Variables of statements in specs/ and of lemmas, which no declaration names.
LOCAL = ["cost-row", "wish-row", "was-refused", "low-n", "sign-of", "no-first", "next-is", "queue-is", "at-is", "best-is", "to-is",
         "no-back", "r-is", "this-number"]


# Names that would fall together with another one.
OTHERWISE = {"rows-of": "table_rows", "digitValue": "std_digit_value"}


def files(ends):
    for folder, dirs, names in os.walk("crates"):
        dirs[:] = sorted(d for d in dirs if d != "out")
        for name in sorted(names):
            if name.endswith(ends):
                yield os.path.join(folder, name)


def read(path):
    with open(path, encoding="utf-8") as it:
        return it.read()


def bare(text):
    """The text without comments and strings."""
    return re.sub(r'"[^"\n]*"|(?m:(?:^|(?<=\s))--(?=\s|$)[^\n]*)', " ", text)


def wanted(name):
    return "-" in name or (name[0].islower() and re.search(r"[a-z][A-Z]", name))


def declared():
    names, types = set(), set()
    for path in files(".antt"):
        for line in bare(read(path)).splitlines():
            block = BLOCK.match(line)
            if block:
                names.add(block.group(1))
                types.add(block.group(1))
                continue
            several = SEVERAL.match(line)
            if several:
                names.update(several.group(1).split())
            head = HEAD.match(line)
            if not head or re.search(r":\s*goal\.", line) or line.lstrip().startswith(("let ", "use ")):
                continue
            names.add(head.group(1))
            if head.group(1)[0].isupper() and re.search(r"Type 0\s*$", line):
                types.add(head.group(1))
    return names, types


def imported():
    """Names that come from the library."""
    names = set()
    for path in files((".antt", ".rt")):
        for m in re.finditer(r"\buse ([\w.+]+)\.\{([^}]*)\}", bare(read(path))):
            first = m.group(1).split(".")
            if first[0] == "Rattle" and len(first) > 1 and first[1] in OURS:
                continue
            names.update(x.split(" as ")[0].strip() for x in m.group(2).split(","))
    return names


def respelled(name, types):
    if name in types:
        return "".join(p[:1].upper() + p[1:] for p in name.split("-"))
    parts = re.sub(r"([a-z])([A-Z])", lambda m: m.group(1) + "_" + m.group(2).lower(), name) if name[0].islower() and "-" not in name else name
    return parts.replace("-", "_")


def turn(text, table, path):
    put = lambda t: TOKEN.sub(lambda m: table.get(m.group(1), m.group(1)), t)
    quoted = lambda t: re.sub(r"`[^`\n]*`", lambda m: put(m.group(0)), t)
    comment = r"//[^\n]*" if path.endswith(".rt") else r"(?m:(?:^|(?<=\s))--(?=\s|$)[^\n]*)"
    out, at = [], 0
    for m in re.finditer(r'"(?:[^"\\\n]|\\.)*"|' + comment, text):
        out.append(put(text[at : m.start()]))
        out.append(m.group(0) if m.group(0).startswith('"') else quoted(m.group(0)))
        at = m.end()
    return "".join(out) + put(text[at:])


def main():
    names, types = declared()
    library = imported()
    table = {}
    for name in sorted(names | set(LOCAL)):
        if wanted(name) and name not in library:
            table[name] = respelled(name, types)
    table.update(OTHERWISE)
    for path in files((".antt", ".rt")):
        seen = {}
        for m in TOKEN.finditer(bare(read(path))):
            new = table.get(m.group(1), m.group(1))
            if seen.setdefault(new, m.group(1)) != m.group(1):
                print(f"{path}: {seen[new]} and {m.group(1)} fall together as {new}")
                seen[new] = m.group(1)
    for path in files((".antt", ".rt", ".edit")):
        text = read(path)
        new = turn(text, table, path)
        if new != text and "--show" not in sys.argv:
            with open(path, "w", encoding="utf-8") as it:
                it.write(new)
    for name in sorted(table):
        print(name, table[name], sep="\t")
    return 0


raise SystemExit(main())
