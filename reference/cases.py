"""Writes the stored trial texts and what is expected of each.

    python3 reference/cases.py

writes crates/trials/stdin and stdout, crates/carve/stdin and stdout, and
prints how many texts there are of each kind. It is the same every time.

A case is (kind, text, expected). Where `expected` is not None it was
worked out by hand from the rules, and carve.py must agree with it. In the
lists of strings below a `^` stands before the mark at fault; it is taken
out of the text, and where it stood is the place.
"""

import pathlib
import random
import sys
from collections import Counter

import carve
import texts

SEED = 20_241
RANDOM_CASES = 300
ROOT = pathlib.Path(__file__).resolve().parent.parent

WORKED = b"""\
(last 4 (start 0) (goal 3))
(from 0 (1 30) (2 50))
(from 1 (3 60))
(from 2 (3 20))
(from 3)
(estimates 40 10 20 0)
(ratio 3 2)
(work 1)
(work 2)
(show)
(ratio 1 1)
(work 5)
(route)
(work 70000)
"""

HEAD = "(last 3 (start 0) (goal 2))\n"
STATES = "(from 0 (1 5) (2 9))\n(from 1 (2 4))\n(from 2)\n"
ESTIMATES = "(estimates 9 4 0)\n"
TABLE = HEAD + STATES + ESTIMATES
ORDERS = "(ratio 3 2)\n(work 5)\n(ceiling 9)\n(show)\n(route)\n"
SMALL = (TABLE + ORDERS).encode()
LEAST = b"(last 2 (start 0) (goal 1))\n(from 0)\n(from 1)\n(estimates 0 0)\n"


def marked(kind, fault, string):
    """A case whose fault is before the `^` of the string."""
    place = string.index("^")
    text = string.replace("^", "", 1).encode("latin-1")
    return kind, text, f"fault {fault} {place}"


def accepted(kind, text, cuts, orders, states):
    """A case of a text that is accepted."""
    return kind, text, f"ok {states} {cuts} {orders}"


# Whole documents.


def whole_documents():
    """Accepted texts of every form."""
    kind = "accepted, small"
    yield accepted(kind, WORKED, 4, 8, 4)
    yield accepted(kind, SMALL, 3, 5, 3)
    yield accepted(kind, TABLE.encode(), 3, 0, 3)
    yield accepted(kind, LEAST, 0, 0, 2)
    yield accepted(kind, LEAST + b"(route)\n" * 9, 0, 9, 2)
    yield accepted(kind, LEAST + b"(ratio 0 0)\n", 0, 1, 2)
    yield accepted(kind, LEAST + b"(ratio 9999999 9999999)\n", 0, 1, 2)
    yield accepted(kind, LEAST + b"(work 0)\n", 0, 1, 2)
    yield accepted(kind, LEAST + b"(work 9999999)\n", 0, 1, 2)
    yield accepted(kind, LEAST + b"(ceiling 0)\n", 0, 1, 2)
    yield accepted(kind, LEAST + b"(ceiling 9999999)\n", 0, 1, 2)


# Every byte in some places.


def swept_bytes():
    """Every byte alone, in a number's place, in a word, after the end."""
    for value in range(256):
        byte = bytes((value,))
        yield "byte alone", byte, expected_alone(value)
        yield "byte for a number", b"(last " + byte, expected_number(value)
        yield "byte in a word", b"(la" + byte + b"x", "fault 2 3 1"
        yield "byte after the end", LEAST + byte, expected_after(value)


def in_the_set(value):
    """Whether a byte is of the set."""
    return value in texts.USUAL_BYTES


def expected_alone(value):
    """The verdict on a text of one byte."""
    if value == ord("("):
        return "fault 2 3 1"
    return "fault 2 3 0" if in_the_set(value) else "fault 1 1 0"


def expected_number(value):
    """The verdict on `(last ` and one byte."""
    if value in b"0123456789":
        return "fault 2 3 7"
    return "fault 2 3 6" if in_the_set(value) else "fault 1 1 6"


def expected_after(value):
    """The verdict on a whole document and one byte."""
    end = len(LEAST)
    if value == ord("("):
        return f"fault 2 3 {end + 1}"
    return f"fault {'2 3' if in_the_set(value) else '1 1'} {end}"


# Every place of one document.


def swept_places():
    """Every prefix, deletion and duplication of the small document."""
    for place in range(len(SMALL)):
        byte = SMALL[place:place + 1]
        before, after = SMALL[:place], SMALL[place + 1:]
        yield "prefix", before, None
        yield "byte deleted", before + after, None
        yield "byte doubled", before + byte + byte + after, None


# Layer 1.

OUTSIDE = (
    "^\x00", "^\t(last 3", "(^Last 3", "(last ^-3", "(last 3^\r\n",
    "(last 3^.5 (start 0)", "(last 3^\t(start", "^\xef\xbb\xbf" + TABLE,
    "(last 3 (start 0) (goal 2))^\r\n", HEAD + "^;", HEAD + "(from 0^,",
    HEAD + "(from 0 ^[1 5]", HEAD + "(from 0 (1 ^+5)",
    TABLE + "^#", TABLE + "(work ^-1)\n", TABLE + "(work 1^_000)\n",
    TABLE + "(show^\xff)\n", TABLE + ORDERS + "^\x1a",
    "(last 3 (start 0) (goal 2))^\xa0\n",
    "(last 1234^\xff5678 (start",
)

BAD_NUMBERS = (
    "(last ^00 ", "(last ^03 (start 0)", "(last ^10000000 (start 0)",
    "(last ^99999999999999999999 (start 0)", "(last ^12345678a",
    "(last ^0000000 ", "(last ^0000003a", "(last 3 (start ^00) (goal 2))",
    "(last 3 (start 0) (goal ^02))\n",
    HEAD + "(from ^00 (1 5)", HEAD + "(from 0 (^01 5)",
    HEAD + "(from 0 (1 ^05)", HEAD + "(from 0 (1 ^10000000)",
    HEAD + STATES + "(estimates ^09 4 0)\n",
    HEAD + STATES + "(estimates 9 4 ^00)\n",
    TABLE + "(work ^00)\n", TABLE + "(work ^05)\n",
    TABLE + "(work ^12345678)\n", TABLE + "(ratio ^03 2)\n",
    TABLE + "(ratio 3 ^02)\n", TABLE + "(ceiling ^10000000)\n",
)

BAD_NUMBERS_UNWANTED = (
    "^00", "^12345678", "^012(last", "(^00", "(^12345678 ", "(last^03",
    "(last 3 ^05", "(last 3 (start 0)^10000000",
    "(last 3 (start 0) (goal 2))^00\n", HEAD + "^01", HEAD + "(from^00)",
    HEAD + "(from 0 ^01)", TABLE + "(show^00)\n", TABLE + "(work 5)^00\n",
    TABLE + "^00\n", TABLE + "(work^05)\n",
)

# Layer 2: a mark not wanted.

FIRST_LINE = (
    "^", "^\n", "^ ", "^)", "^a", "^1", "^ (last 3", "^last 3", "(^",
    "(^(", "(^)", "(^ last 3", "(^3", "(^lasts 3",
    "(^las 3", "(last^3", "(^from 0)",
    "(^start 0)", "(^estimates 0 0)\n", "(^show)\n", "(^alast 3",
    "(last^", "(last^(start", "(last^)", "(last^\n", "(last ^",
    "(last ^ 3", "(last ^(start 0)", "(last ^)", "(last ^a3", "(last ^\n",
    "(last 3^", "(last 3^a (start", "(last 3^(start", "(last 3^)",
    "(last 3^\n", "(last 3 ^", "(last 3 ^ (start", "(last 3 ^start",
    "(last 3 ^4 (start", "(last 3 ^)", "(last 3 (^", "(last 3 (^goal 2)",
    "(last 3 (^ start", "(last 3 (^0)", "(last 3 (^starts 0)",
    "(last 3 (start^)", "(last 3 (start^0)", "(last 3 (start ^)",
    "(last 3 (start ^ 0)", "(last 3 (start ^a)", "(last 3 (start 0^ )",
    "(last 3 (start 0^ 1)", "(last 3 (start 0^a)", "(last 3 (start 0^(",
    "(last 3 (start 0)^)", "(last 3 (start 0)^(goal 2))\n",
    "(last 3 (start 0) ^ (goal", "(last 3 (start 0) ^goal 2))\n",
    "(last 3 (start 0) (^start 2))\n", "(last 3 (start 0) (^last 3",
    "(last 3 (start 0) (goal^2))\n", "(last 3 (start 0) (goal ^))\n",
    "(last 3 (start 0) (goal 2^\n", "(last 3 (start 0) (goal 2^ ))\n",
    "(last 3 (start 0) (goal 2)^", "(last 3 (start 0) (goal 2)^\n",
    "(last 3 (start 0) (goal 2)^ )\n", "(last 3 (start 0) (goal 2))^",
    "(last 3 (start 0) (goal 2))^ \n", "(last 3 (start 0) (goal 2))^)\n",
    "(last 3 (start 0) (goal 2))^(from 0)", "(last 3 (^goal 2) (start 0))\n",
)

STATE_LINES = (
    "^", "^\n" + STATES, "^ " + STATES, "^from 0)\n", "(^form 0)\n",
    "(^last 3", "(^froma 0)\n", "(from^)\n", "(from^0)\n", "(from ^)\n",
    "(from ^a)\n", "(from ^1)\n", "(from ^3)\n", "(from ^9999999)\n",
    "(from ^(1 5))\n", "(from 0^", "(from 0^a)\n", "(from 0^\n",
    "(from 0^(1 5))\n", "(from 0 ^)\n", "(from 0 ^ (1 5))\n",
    "(from 0 ^1 5)\n", "(from 0 ^a)\n", "(from 0 (^))\n",
    "(from 0 (^ 1 5))\n", "(from 0 (^a 5))\n", "(from 0 (^(1 5)))\n",
    "(from 0 (1^))\n", "(from 0 (1^a 5))\n", "(from 0 (1 ^))\n",
    "(from 0 (1 ^ 5))\n", "(from 0 (1 ^a))\n", "(from 0 (1 5^ ))\n",
    "(from 0 (1 5^ 6))\n", "(from 0 (1 5^a))\n", "(from 0 (1 5^\n",
    "(from 0 (1 5)^", "(from 0 (1 5)^(2 9))\n", "(from 0 (1 5) ^)\n",
    "(from 0 (1 5) ^ (2 9))\n", "(from 0 (1 5) ^2 9)\n",
    "(from 0 (1 5)^\n", "(from 0 (1 5)^a)\n", "(from 0 (1 5)^5)\n",
    "(from 0 (1 5))^ \n", "(from 0 (1 5))^)\n", "(from 0 (1 5))^(from 1)\n",
    "(from 0)^", "(from 0)\n^", "(from 0)\n^\n(from 1)\n",
    "(from 0)\n(from ^0)\n", "(from 0)\n(from ^2)\n",
    "(from 0)\n(from 1)\n(from ^1)\n", "(^estimates 9 4 0)\n",
    "(from 0)\n(from 1)\n(^estimates 9 4 0)\n",
    "(from 0)\n(from 1)\n(from 2)\n(^from 3)\n", "(^show)\n",
    "(from 0)\n(^route)\n", "(from 0)\n(from 1)\n(^work 5)\n",
)

ESTIMATE_LINES = (
    "^", "^\n" + ESTIMATES, "^ ", "^estimates 9 4 0)\n",
    "(^estimate 9 4 0)\n", "(^estimatess 9 4 0)\n", "(^show)\n",
    "(^ratio 3 2)\n", "(^work 5)\n", "(^ceiling 9)\n", "(^route)\n",
    "(estimates^)\n", "(estimates^9 4 0)\n", "(estimates ^)\n",
    "(estimates ^ 9 4 0)\n", "(estimates ^(9) 4 0)\n", "(estimates ^a)\n",
    "(estimates 9^)\n", "(estimates 9 4^)\n", "(estimates 9 4^\n",
    "(estimates 9 4 ^)\n", "(estimates 9 ^ 4 0)\n",
    "(estimates 9^a 4 0)\n", "(estimates 9 4 0^ 0)\n",
    "(estimates 9 4 0^ )\n", "(estimates 9 4 0^ 00)\n",
    "(estimates 9 4 0^ \xff", "(estimates 9 4 0^a)\n",
    "(estimates 9 4 0^(", "(estimates 9 4 0^\n", "(estimates 9 4 0^",
    "(estimates 9 4 0)^", "(estimates 9 4 0)^ \n",
    "(estimates 9 4 0)^(show)\n", "(estimates 9 4 0)^)\n",
)

ORDER_LINES = (
    "^\n", "^ ", "^)", "^show\n", "^5\n", "(^)\n", "(^(show))\n", "(^5)\n",
    "(^ show)\n", "(^stop)\n", "(^shows)\n", "(^sho)\n", "(^works 5)\n",
    "(^last 3", "(^from 3)\n", "(^start 0)\n", "(^goal 2)\n",
    "(^estimates 9 4 0)\n", "(^ceil 9)\n", "(^routes)\n", "(^rati 3 2)\n",
    "(ratio^)\n", "(ratio ^)\n", "(ratio 3^)\n", "(ratio 3 ^)\n",
    "(ratio 3 2^ 1)\n", "(ratio^3 2)\n", "(ratio 3 ^ 2)\n",
    "(ratio ^a 2)\n", "(ratio 3 ^a)\n", "(ratio 3 2^a)\n",
    "(ratio ^(3 2))\n", "(ratio 3 2^\n", "(ratio 3 2)^", "(ratio 3 2^ )\n",
    "(work^)\n", "(work ^)\n", "(work 5^ 6)\n", "(work^5)\n",
    "(work ^ 5)\n", "(work ^a)\n", "(work 5^a)\n", "(work ^(5))\n",
    "(work 5^\n", "(work 5)^", "(work 5^ )\n",
    "(ceiling^)\n", "(ceiling ^)\n", "(ceiling 9^ 9)\n", "(ceiling^9)\n",
    "(ceiling ^ 9)\n", "(ceiling ^a)\n", "(ceiling 9^a)\n",
    "(ceiling 9^\n", "(ceiling 9)^",
    "(show^ )\n", "(show^ 1)\n", "(show^5)\n", "(show^\n", "(show^(",
    "(show)^", "(show)^ \n", "(show)^)\n", "(show)^(show)\n",
    "(route^ )\n", "(route^ 1)\n", "(route^5)\n", "(route^\n",
    "(route)^", "(route)^ ", "(show)\n^\n", "(show)\n^\n(route)\n",
    "(show)\n(route)\n^\n", "(show)\n^ (route)\n", "(show)\n(^",
    "(work 5)\n(work 5)^6\n",
)

# The reader does not look past the mark in hand.

NOT_AHEAD = (
    "(^lost\xff 3", "(^lost 00", "^a\xff", "^)\xff", "(^)00", "^1\xff",
    "(last^)\xff", HEAD + "(from ^1\xff", HEAD + "(from ^1 \xff",
    TABLE + "(^stop\xff", TABLE + "(^stop 00)\n", TABLE + "(show^ 00)\n",
    TABLE + "(show^\n\xff", HEAD + STATES + "(estimates 9 4^)\xff",
)


def line_by_line():
    """The lists above, each string in its place of a document."""
    yield from (marked("layer 1, byte", "1 1", s) for s in OUTSIDE)
    yield from (marked("layer 1, number", "1 2", s) for s in BAD_NUMBERS)
    for string in BAD_NUMBERS_UNWANTED:
        yield marked("layer 1, number", "1 2", string)
    lists = (
        ("first line", "", FIRST_LINE),
        ("state lines", HEAD, STATE_LINES),
        ("estimates line", HEAD + STATES, ESTIMATE_LINES),
        ("order lines", TABLE, ORDER_LINES),
        ("no look ahead", "", NOT_AHEAD),
    )
    for kind, before, strings in lists:
        for string in strings:
            yield marked(kind, "2 3", before + string)


# The number of states.


def numbers_of_states():
    """N inside and outside its limits."""
    kind = "number of states"
    ends = "(start 0) (goal 1))"
    for number in (0, 1, 1025, 65536, 9_999_999):
        line = f"(last {number} {ends}"
        for after in ("", "\n", "(from 0)\n", "\xff", "00"):
            text = f"{line}\n{after}".encode("latin-1")
            yield kind, text, "fault 3 5 0"
        yield marked(kind, "2 3", line + "^")
        yield marked(kind, "2 3", line + "^ \n")
        yield marked(kind, "1 1", line + "^\xff\n")
        yield marked(kind, "1 2", f"(last {number} (start ^00) (goal 1))\n")
        yield marked(kind, "2 3", f"(last {number} (start 0) (^gaol 1))\n")
    yield kind, b"(last 1 (start 7) (goal 7))\n", "fault 3 5 0"
    for number in (2, 3, 1024):
        yield marked(kind, "2 3", f"(last {number} {ends}\n^")
        yield marked(kind, "1 1", f"(last {number} {ends}\n^\xff")
    yield marked(kind, "2 3", "(last 2 (start 9) (goal 9))\n^")


# Layer 3.

# Entries 0 to 2 are of state 0, then 2 of each, and entry 9 of state 4.
TARGETS = (1, 2, 3, 2, 4, 3, 4, 0, 4, 0)
COSTS = (10, 20, 30, 10, 40, 10, 30, 5, 20, 1)
FIRSTS = (0, 3, 5, 7, 9, 10)
DISTANCES = (50, 40, 30, 20, 0)


def changed(row, changes):
    """A row with some of its numbers changed."""
    return [changes.get(place, number) for place, number in enumerate(row)]


def table(start=0, goal=4, targets=None, costs=None, estimates=None):
    """The text of the table above with changes: {place: number}."""
    pairs = list(zip(
        changed(TARGETS, targets or {}), changed(COSTS, costs or {}),
    ))
    cuts = [pairs[a:b] for a, b in zip(FIRSTS, FIRSTS[1:])]
    numbers = changed(DISTANCES, estimates or {})
    return texts.Plan(5, start, goal, cuts, numbers, ["(show)"]).text()


NONE = {0: 0, 1: 0, 2: 0, 3: 0, 4: 0}

ENDS = (
    table(start=5), table(start=9_999_999), table(goal=5), table(start=4),
    table(goal=9_999_999), table(goal=0), table(start=5, goal=5),
    table(start=5, goal=6), table(start=2, goal=2),
)

BAD_TARGETS = (
    (0, {0: 5}), (0, {0: 0}), (0, {0: 9_999_999}), (1, {0: 2}),
    (1, {0: 3}), (1, {1: 1}), (1, {1: 0}), (1, {1: 5}), (2, {1: 3}),
    (2, {2: 2}), (2, {2: 1}), (2, {2: 0}), (2, {2: 5}), (3, {3: 1}),
    (4, {3: 4}), (4, {4: 1}), (4, {4: 2}), (4, {4: 0}), (4, {4: 5}),
    (5, {5: 2}), (6, {5: 4}), (6, {6: 3}), (6, {6: 1}), (7, {7: 3}),
    (8, {8: 3}), (8, {8: 0}), (8, {8: 1024}), (9, {9: 4}), (9, {9: 5}),
    (9, {9: 9_999_999}), (0, {0: 5, 9: 5}), (4, {4: 2, 8: 0}),
    (3, {3: 9, 4: 9}),
)

BAD_COSTS = (
    (0, {0: 0}), (0, {0: 1001}), (0, {0: 9_999_999}), (4, {4: 0}),
    (4, {4: 1001}), (9, {9: 0}), (9, {9: 1001}), (9, {9: 9_999_999}),
    (0, {0: 0, 9: 1001}), (3, {3: 1001, 4: 0}), (8, {8: 0, 9: 0}),
)

BAD_ESTIMATES = (
    (0, 4, {0: 1_023_001}), (2, 4, {2: 1_023_001}), (3, 4, {3: 9_999_999}),
    (4, 4, {4: 1}), (4, 4, {4: 1_023_001}), (4, 4, {4: 1_023_000}),
    (2, 2, {}), (1, 1, {}), (0, 4, {0: 1_023_001, 4: 1}),
    (3, 4, {3: 1_023_001, 4: 1}), (1, 1, {3: 1_023_001}),
)

INCONSISTENT = (
    (0, {}, {0: 51}), (0, {}, {0: 1_023_000}), (0, {0: 9}, {}),
    (1, {1: 19}, {}), (2, {2: 29}, {}), (3, {3: 9}, {}), (3, {}, {1: 41}),
    (4, {4: 39}, {}), (5, {}, {2: 31, 0: 0, 1: 0}), (5, {5: 9}, {}),
    (6, {6: 29}, {}), (8, {8: 19}, {}), (8, {8: 1}, {}),
    (0, {}, {0: 51, 3: 21}), (4, {4: 1, 6: 1, 8: 1}, {}),
)


def table_checks():
    """Each check at first, middle and last places."""
    yield "table, accepted", table(), "ok 5 10 1"
    for text in ENDS:
        yield "table, ends", text, "fault 3 6 0"
    for place, change in BAD_TARGETS:
        yield "table, target", table(targets=change), f"fault 3 7 {place}"
    for place, change in BAD_COSTS:
        yield "table, cost", table(costs=change), f"fault 3 8 {place}"
    for place, goal, change in BAD_ESTIMATES:
        text = table(start=0, goal=goal, estimates=change)
        yield "table, estimate", text, f"fault 3 9 {place}"
    for place, costs, estimates in INCONSISTENT:
        text = table(costs=costs, estimates=estimates)
        yield "table, consistency", text, f"fault 3 10 {place}"


def table_limits():
    """The greatest and least costs and estimates, and the last entry."""
    kind = "table, limits"
    for cost in (1, 1000):
        for entry in (0, 4, 9):
            text = table(costs={entry: cost}, estimates=NONE)
            yield kind, text, "ok 5 10 1"
    apart = "(last 2 (start 0) (goal 1))\n(from 0)\n(from 1)\n"
    for estimate, expected in (
        (1_022_999, "ok 2 0 0"), (1_023_000, "ok 2 0 0"),
        (1_023_001, "fault 3 9 0"), (9_999_999, "fault 3 9 0"),
    ):
        text = f"{apart}(estimates {estimate} 0)\n".encode()
        yield kind, text, expected
    for cost, estimate, expected in (
        (5, 5, "ok 2 1 0"), (5, 6, "fault 3 10 0"), (1000, 1000, "ok 2 1 0"),
        (1000, 1001, "fault 3 10 0"), (1, 0, "ok 2 1 0"),
    ):
        plan = texts.Plan(2, 1, 0, [[], [(0, cost)]], [0, estimate])
        yield kind, plan.text(), expected
    cuts = [[], [(0, 5)], [(0, 20), (1, 5)]]
    yield kind, texts.Plan(3, 2, 0, cuts, [0, 5, 10]).text(), "ok 3 3 0"
    yield kind, texts.Plan(3, 2, 0, cuts, [0, 5, 11]).text(), "fault 3 10 2"


def table_orders():
    """Two causes at once: the smallest is told, whatever the places."""
    target, cost, estimate, edge = {8: 0}, {3: 0}, {1: 1_023_001}, {0: 51}
    pairs = (
        ("6 0", table(start=5, targets=target)),
        ("6 0", table(start=5, costs=cost)),
        ("6 0", table(start=5, estimates=estimate)),
        ("6 0", table(start=5, estimates=edge)),
        ("6 0", table(goal=0)),
        ("7 8", table(targets=target, costs=cost)),
        ("7 8", table(targets=target, costs={8: 0})),
        ("7 8", table(targets=target, estimates=estimate)),
        ("7 8", table(targets=target, estimates=edge)),
        ("8 3", table(costs=cost, estimates=estimate)),
        ("8 9", table(costs={9: 0}, estimates=estimate)),
        ("8 9", table(costs={9: 1001}, estimates=edge)),
        ("8 3", table(costs=cost)),
        ("9 1", table(estimates=estimate)),
        ("9 4", table(estimates={0: 51, 4: 1})),
        ("9 3", table(estimates={0: 51, 3: 1_023_001})),
        ("6 0", table(5, 5, target, cost, estimate)),
        ("7 8", table(0, 4, target, cost, estimate)),
    )
    for fault, text in pairs:
        yield "table, two causes", text, f"fault 3 {fault}"


def table_after_forms():
    """A bad table is told only when layers 1 and 2 have nothing."""
    kind = "table, and layers before"
    for text in (table(start=5), table(targets={0: 0}), table(costs={9: 0})):
        end = len(text)
        yield kind, text + b"\n", f"fault 2 3 {end}"
        yield kind, text + b"\xff", f"fault 1 1 {end}"
        yield kind, text + b"(work 00)\n", f"fault 1 2 {end + 6}"
        yield kind, text[:-1], f"fault 2 3 {end - 1}"


# Large texts.


def long_texts():
    """Texts near and over the greatest length."""
    kind = "large, length"
    full = texts.padded(SMALL, 60_000)
    yield kind, full, f"ok 3 3 {full.count(b'(') - 10}"
    over = texts.padded(SMALL, 60_001)
    yield kind, over, "fault 2 4 60000"
    yield kind, over[:-1], "fault 2 3 60000"
    yield kind, full[:-1] + b"\xff", "fault 1 1 59999"
    yield kind, b"\0" * 60_500, "fault 2 4 60000"
    yield kind, b"1" * 5_000, "fault 1 2 0"
    yield kind, b"a" * 5_000, "fault 2 3 0"
    yield kind, b"(last " + b"9" * 5_000, "fault 1 2 6"


def crowded_texts():
    """Texts with the most cuts, and with one more."""
    kind = "large, cuts"
    full = texts.crowded_plan(8_192)
    yield kind, full.text(), "ok 97 8192 0"
    full.cuts[-1][-1] = (full.cuts[-1][-1][0], 0)
    yield kind, full.text(), "fault 3 8 8191"
    over = texts.crowded_plan(8_193).text()
    place = over.rindex(b"(", 0, over.index(b"(estimates"))
    yield kind, over, f"fault 2 4 {place}"
    yield kind, over[:place + 1], f"fault 2 4 {place}"
    yield kind, over[:place] + b"a", f"fault 2 3 {place}"
    yield kind, texts.padded(over, 60_001), "fault 2 4 60000"


def wide_texts():
    """Texts with the most states, and with one more."""
    kind = "large, states"
    wide = texts.wide_plan()
    whole = wide.text()
    yield kind, whole, "ok 1024 1 0"
    yield kind, texts.wide_plan(1_025).text(), "fault 3 5 0"
    wide.estimates[1_022] = 1_001
    yield kind, wide.text(), "fault 3 10 0"
    lost = whole.replace(b"(from 1023)\n", b"")
    yield kind, lost, f"fault 2 3 {lost.index(b'estimates')}"


# Random texts.


def random_cases():
    """Mutations of random small documents, and random bad tables."""
    rng = random.Random(SEED)
    for _ in range(RANDOM_CASES):
        text = texts.random_plan(rng, 5).text()
        yield "random mutation", texts.mutate(rng, text), None
    for _ in range(RANDOM_CASES // 3):
        yield "random bad table", texts.random_bad_plan(rng).text(), None


SECTIONS = (
    whole_documents, swept_bytes, swept_places, line_by_line,
    numbers_of_states, table_checks, table_limits, table_orders,
    table_after_forms, random_cases, wide_texts, crowded_texts, long_texts,
)


def judged_cases():
    """Every case with its verdict; a disagreement ends the program."""
    for section in SECTIONS:
        for kind, text, expected in section():
            verdict = carve.verdict(text)
            if expected not in (None, verdict):
                sys.exit(f"{kind}: {expected} by hand, {verdict} by carve.py"
                         f" for {text[:300]!r}")
            yield kind, text, verdict


def frame(text):
    """A text as it stands in crates/trials/stdin."""
    return b"%d\n%s\n" % (len(text), text)


def store(folder, given, expected):
    """Writes the two files of one crate."""
    place = ROOT / "crates" / folder
    place.mkdir(parents=True, exist_ok=True)
    (place / "stdin").write_bytes(given)
    (place / "stdout").write_bytes(expected.encode())
    print(f"crates/{folder}/stdin {len(given)} bytes")


def main():
    """Writes the files and prints the counts."""
    cases = list(judged_cases())
    for kind, count in Counter(kind for kind, _, _ in cases).items():
        print(f"{count:5} {kind}")
    print(f"{len(cases):5} in all")
    given = b"".join(frame(text) for _, text, _ in cases)
    store("trials", given, "".join(v + "\n" for _, _, v in cases))
    store("carve", WORKED, carve.answer(WORKED))


if __name__ == "__main__":
    main()
