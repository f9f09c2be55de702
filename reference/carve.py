"""A second implementation of carve, from the rules in docs/FORMAT.md.

It reads a text from standard input and prints either the one line
`fault LAYER CAUSE PLACE` or a line for each order of the text.
"""

import sys
from typing import NamedTuple

import planner

MOST_BYTES = 60_000
MOST_DIGITS = 7
MOST_CUTS = 8_192
LEAST_STATES = 2
MOST_STATES = 1_024
LEAST_COST = 1
MOST_COST = 1_000
MOST_ESTIMATE = 1_023_000

MARKS, FORMS, TABLE = 1, 2, 3

OUTSIDE_THE_SET = 1
BAD_NUMBER = 2
NOT_WANTED = 3
TOO_LONG = 4
BAD_SHAPE = 5
BAD_ENDS = 6
BAD_TARGET = 7
BAD_COST = 8
BAD_ESTIMATE = 9
INCONSISTENT = 10

SIGNS = b"() \n"
LETTERS = b"abcdefghijklmnopqrstuvwxyz"
DIGITS = b"0123456789"

# The numbers that follow the word of each order.
ORDERS = {b"ratio": 2, b"work": 1, b"ceiling": 1, b"show": 0, b"route": 0}


class Fault(Exception):
    """Where and why a text is refused."""

    def __init__(self, layer, cause, place):
        super().__init__(f"fault {layer} {cause} {place}")


class Mark(NamedTuple):
    """A mark of the text: `kind` is a sign, "word", "number" or "end"."""

    kind: str
    place: int
    body: bytes


class Table(NamedTuple):
    """The states, the cuts of all states in one row, and the estimates."""

    states: int
    start: int
    goal: int
    firsts: list
    targets: list
    costs: list
    estimates: list


class Document(NamedTuple):
    """What an accepted text holds."""

    table: Table
    orders: list


# Layer 1: marks.


def run_of(text, place, members):
    """The longest run of bytes of `members` that begins at `place`."""
    end = place
    while end < len(text) and text[end] in members:
        end += 1
    return text[place:end]


def well_written(digits):
    """Whether a run of digits is a number of the format."""
    if len(digits) > MOST_DIGITS:
        return False
    return digits == b"0" or digits[:1] != b"0"


def mark_at(text, place):
    """The mark that begins at `place`, or a fault of layer 1."""
    if place == len(text):
        return Mark("end", place, b"")
    byte = text[place]
    if byte in SIGNS:
        return Mark(chr(byte), place, text[place:place + 1])
    if byte in LETTERS:
        return Mark("word", place, run_of(text, place, LETTERS))
    if byte not in DIGITS:
        raise Fault(MARKS, OUTSIDE_THE_SET, place)
    digits = run_of(text, place, DIGITS)
    if not well_written(digits):
        raise Fault(MARKS, BAD_NUMBER, place)
    return Mark("number", place, digits)


# Layer 2: forms.


def not_wanted(mark):
    """The fault of a mark that has no business where it stands."""
    return Fault(FORMS, NOT_WANTED, mark.place)


class Reader:
    """Takes one mark after another and never looks past the one in hand."""

    def __init__(self, text):
        self.text = text
        self.place = 0

    def look(self):
        """The mark in hand, left where it is."""
        return mark_at(self.text, self.place)

    def take(self, *kinds):
        """Takes the mark in hand, which must be of one of `kinds`."""
        mark = self.look()
        if mark.kind not in kinds:
            raise not_wanted(mark)
        self.place += len(mark.body)
        return mark

    def word(self, *wanted):
        """Takes a word, which must be one of `wanted`."""
        mark = self.take("word")
        if mark.body not in wanted:
            raise not_wanted(mark)
        return mark.body

    def number(self):
        """Takes a number and gives its value."""
        return int(self.take("number").body)

    def open(self, *wanted):
        """Takes an opening bracket and the word after it."""
        self.take("(")
        return self.word(*wanted)

    def spaced_number(self):
        """Takes a space and a number."""
        self.take(" ")
        return self.number()

    def close_line(self):
        """Takes a closing bracket and a line feed."""
        self.take(")")
        self.take("\n")


def read_end(reader, name):
    """Reads ` (start S)` or ` (goal G)`."""
    reader.take(" ")
    reader.open(name)
    state = reader.spaced_number()
    reader.take(")")
    return state


def read_first_line(reader):
    """Reads `(last N (start S) (goal G))` with its line feed."""
    reader.open(b"last")
    states = reader.spaced_number()
    start = read_end(reader, b"start")
    goal = read_end(reader, b"goal")
    reader.close_line()
    if not LEAST_STATES <= states <= MOST_STATES:
        raise Fault(TABLE, BAD_SHAPE, 0)
    return states, start, goal


def read_cut(reader, targets, costs):
    """Reads `(T C)`, unless the rows are full."""
    bracket = reader.take("(")
    if len(targets) == MOST_CUTS:
        raise Fault(FORMS, TOO_LONG, bracket.place)
    target = reader.number()
    cost = reader.spaced_number()
    reader.take(")")
    targets.append(target)
    costs.append(cost)


def read_state(reader, state, targets, costs):
    """Reads the line `(from U (T C) ..)` of one state."""
    reader.open(b"from")
    reader.take(" ")
    mark = reader.take("number")
    if int(mark.body) != state:
        raise not_wanted(mark)
    while reader.take(" ", ")").kind == " ":
        read_cut(reader, targets, costs)
    reader.take("\n")


def read_estimates(reader, states):
    """Reads `(estimates H H ..)` with a number for each state."""
    reader.open(b"estimates")
    estimates = [reader.spaced_number() for _ in range(states)]
    reader.close_line()
    return estimates


def read_order(reader):
    """Reads the line of one order."""
    word = reader.open(*ORDERS)
    numbers = [reader.spaced_number() for _ in range(ORDERS[word])]
    reader.close_line()
    return word.decode(), numbers


def read_document(text):
    """Reads a whole text: layers 1 and 2, and the number of states."""
    if len(text) > MOST_BYTES:
        raise Fault(FORMS, TOO_LONG, MOST_BYTES)
    reader = Reader(text)
    states, start, goal = read_first_line(reader)
    firsts, targets, costs = [0], [], []
    for state in range(states):
        read_state(reader, state, targets, costs)
        firsts.append(len(targets))
    estimates = read_estimates(reader, states)
    orders = []
    while reader.look().kind != "end":
        orders.append(read_order(reader))
    table = Table(states, start, goal, firsts, targets, costs, estimates)
    return Document(table, orders)


# Layer 3: the table's checks. Each gives the bad places, least first.


def entries(table):
    """Every entry with its state, in order: pairs (entry, state)."""
    for state in range(table.states):
        for entry in range(table.firsts[state], table.firsts[state + 1]):
            yield entry, state


def falls(row):
    """Whether some number of the row is less than the one before it."""
    return any(after < before for before, after in zip(row, row[1:]))


def bad_shape(table):
    """Cause 5."""
    firsts, targets = table.firsts, table.targets
    good = (
        LEAST_STATES <= table.states <= MOST_STATES
        and len(firsts) == table.states + 1
        and firsts[0] == 0
        and not falls(firsts)
        and firsts[-1] == len(targets) == len(table.costs)
        and len(targets) <= MOST_CUTS
    )
    if not good:
        yield 0


def bad_ends(table):
    """Cause 6."""
    start, goal = table.start, table.goal
    if start >= table.states or goal >= table.states or start == goal:
        yield 0


def bad_targets(table):
    """Cause 7."""
    targets = table.targets
    for entry, state in entries(table):
        target = targets[entry]
        follows = entry > table.firsts[state]
        if target >= table.states or target == state:
            yield entry
        elif follows and target <= targets[entry - 1]:
            yield entry


def bad_costs(table):
    """Cause 8."""
    for entry, cost in enumerate(table.costs):
        if not LEAST_COST <= cost <= MOST_COST:
            yield entry


def bad_estimates(table):
    """Cause 9."""
    for state, estimate in enumerate(table.estimates):
        if estimate > MOST_ESTIMATE:
            yield state
        elif state == table.goal and estimate != 0:
            yield state


def inconsistent_entries(table):
    """Cause 10."""
    estimates = table.estimates
    for entry, state in entries(table):
        onward = table.costs[entry] + estimates[table.targets[entry]]
        if estimates[state] > onward:
            yield entry


CHECKS = (
    (BAD_SHAPE, bad_shape),
    (BAD_ENDS, bad_ends),
    (BAD_TARGET, bad_targets),
    (BAD_COST, bad_costs),
    (BAD_ESTIMATE, bad_estimates),
    (INCONSISTENT, inconsistent_entries),
)


def check_table(table):
    """Raises the fault of the smallest cause at its least place."""
    for cause, bad_places in CHECKS:
        for place in bad_places(table):
            raise Fault(TABLE, cause, place)


# Answers.


def judge(text):
    """The document that a text holds, or a fault."""
    document = read_document(text)
    check_table(document.table)
    return document


def answer(text):
    """What carve prints for a text."""
    try:
        document = judge(text)
        lines = list(planner.answers(document.table, document.orders))
    except Fault as fault:
        lines = [str(fault)]
    return "".join(line + "\n" for line in lines)


def verdict(text):
    """The answer in one line: the fault, or `ok STATES CUTS ORDERS`."""
    try:
        document = judge(text)
    except Fault as fault:
        return str(fault)
    table = document.table
    return f"ok {table.states} {len(table.targets)} {len(document.orders)}"


def main():
    """Reads no more than decides, and prints the answer."""
    try:
        text = sys.stdin.buffer.read(MOST_BYTES + 1)
        sys.stdout.write(answer(text))
        sys.stdout.flush()
    except OSError as error:
        print(error.strerror, file=sys.stderr)
        return 1
    return 0


if __name__ == "__main__":
    sys.exit(main())
