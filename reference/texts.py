"""Texts for trials: documents, documents with bad tables, mutations."""

import re
from dataclasses import dataclass, field

MOST_ESTIMATE = 1_023_000
MOST_STATES = 1_024
FAR = 10**9

SIGNS = b"()" + b" \n"
USUAL_BYTES = SIGNS + b"0123456789" + b"abcdefghijklmnopqrstuvwxyz"
MARK = re.compile(rb"[a-z]+|[0-9]+|[() \n]")
NUMBER = re.compile(rb"[0-9]+")
STRANGE_MARKS = (
    b"(", b")", b" ", b"\n", b"0", b"1", b"7", b"00", b"01", b"9999999",
    b"10000000", b"last", b"start", b"goal", b"from", b"estimates",
    b"ratio", b"work", b"ceiling", b"show", b"route", b"a", b"worked",
    b"A", b"-", b"\t", b"\r", b"\0", b"\xff",
)
STRANGE_NUMBERS = (
    b"0", b"1", b"2", b"00", b"01", b"007", b"1000", b"1001", b"1024",
    b"1025", b"1023000", b"1023001", b"9999999", b"10000000", b"",
)


@dataclass
class Plan:
    """A document before it is written down; it may be a wrong one."""

    states: int
    start: int
    goal: int
    cuts: list = field(default_factory=list)
    estimates: list = field(default_factory=list)
    orders: list = field(default_factory=list)

    def text(self):
        """The plan as a text of the format."""
        ends = f"(start {self.start}) (goal {self.goal})"
        lines = [f"(last {self.states} {ends})"]
        for state, row in enumerate(self.cuts):
            cuts = "".join(f" ({target} {cost})" for target, cost in row)
            lines.append(f"(from {state}{cuts})")
        row = " ".join(map(str, self.estimates))
        lines.append(f"(estimates {row})")
        lines.extend(self.orders)
        return "".join(line + "\n" for line in lines).encode()


# Good documents.


def distances(cuts, goal):
    """The cost of a cheapest route from each state to the goal."""
    known = [FAR] * len(cuts)
    known[goal] = 0
    changed = True
    while changed:
        changed = False
        for state, row in enumerate(cuts):
            for target, cost in row:
                if cost + known[target] < known[state]:
                    known[state] = cost + known[target]
                    changed = True
    return known


def random_estimates(rng, cuts, goal):
    """Estimates that pass the checks: a share of the true distances."""
    share = rng.choice((0, 1, 5, 9, 10, 10, 10))
    known = [min(cost, MOST_ESTIMATE) for cost in distances(cuts, goal)]
    return [cost * share // 10 for cost in known]


def random_cost(rng):
    """A cost, often at one of its limits."""
    return rng.choice((1, 1000, rng.randint(1, 9), rng.randint(1, 1000)))


def random_cuts(rng, states, most):
    """A row of cuts for each state, `most` at most in each."""
    rows = []
    for state in range(states):
        others = [target for target in range(states) if target != state]
        count = min(rng.randint(0, most), len(others))
        targets = sorted(rng.sample(others, count))
        rows.append([(target, random_cost(rng)) for target in targets])
    return rows


def random_order(rng):
    """One order in its form."""
    small = rng.randint(0, 20)
    return rng.choice((
        f"(ratio {small} {rng.randint(0, 9)})",
        f"(work {small})",
        f"(work {rng.randint(0, 9_999_999)})",
        f"(ceiling {rng.randint(0, 2000)})",
        "(show)",
        "(route)",
    ))


def random_plan(rng, most_states=7):
    """A plan that passes every check."""
    states = rng.randint(2, most_states)
    start, goal = rng.sample(range(states), 2)
    cuts = random_cuts(rng, states, 3)
    estimates = random_estimates(rng, cuts, goal)
    orders = [random_order(rng) for _ in range(rng.randint(0, 4))]
    return Plan(states, start, goal, cuts, estimates, orders)


# Searches: documents whose orders the planner carries out.


def random_call(rng):
    """One order that is refused now and then."""
    q = rng.randint(1, 9)
    return rng.choice((
        f"(ratio {rng.randint(q, 3 * q)} {q})",
        f"(ratio {rng.choice((1, 1000, 1001))} {rng.randint(0, 2)})",
        f"(work {rng.randint(0, 3)})",
        f"(work {rng.randint(0, 40)})",
        f"(work {rng.choice((65535, 65536))})",
        f"(ceiling {rng.randint(0, 3000)})",
        "(show)",
        "(route)",
    ))


def random_search(rng):
    """A larger plan with many orders, told of at their end."""
    states = rng.randint(2, 30)
    start, goal = rng.sample(range(states), 2)
    cuts = random_cuts(rng, states, rng.randint(1, 6))
    estimates = random_estimates(rng, cuts, goal)
    orders = [random_call(rng) for _ in range(rng.randint(1, 15))]
    orders += ["(show)", "(route)"]
    return Plan(states, start, goal, cuts, estimates, orders)


# Bad tables.


def random_entry(rng, plan):
    """A row of cuts and an index in it, or None when there is no cut."""
    rows = [row for row in plan.cuts if row]
    if not rows:
        return None
    row = rng.choice(rows)
    return row, rng.randrange(len(row))


def break_states(rng, plan):
    """Another number of states than there are lines."""
    plan.states = rng.choice((
        0, 1, plan.states - 1, plan.states + 1, 1024, 1025, 9_999_999,
    ))


def break_ends(rng, plan):
    """A start or goal that is no state, or equal ones."""
    wrong = rng.choice((plan.states, plan.states + 1, 9_999_999))
    kind = rng.randrange(3)
    if kind == 0:
        plan.start = wrong
    elif kind == 1:
        plan.goal = wrong
    else:
        plan.start = plan.goal


def break_target(rng, plan):
    """A target that may be no state, its own state or out of order."""
    entry = random_entry(rng, plan)
    if entry:
        row, index = entry
        wrong = rng.choice((
            rng.randrange(len(plan.cuts)), plan.states, 9_999_999, row[0][0],
            plan.cuts.index(row),
        ))
        row[index] = (wrong, row[index][1])


def break_cost(rng, plan):
    """A cost at or past its limits."""
    entry = random_entry(rng, plan)
    if entry:
        row, index = entry
        cost = rng.choice((0, 1, 1000, 1001, 9_999_999))
        row[index] = (row[index][0], cost)


def break_estimate(rng, plan):
    """An estimate changed by a little or by much."""
    state = rng.randrange(len(plan.estimates))
    plan.estimates[state] = rng.choice((
        plan.estimates[state] + 1, 0, 1, 1_022_999, 1_023_000, 1_023_001,
        9_999_999,
    ))


def break_count(rng, plan):
    """One estimate or one line of cuts too few or too many."""
    row = rng.choice((plan.estimates, plan.cuts))
    if rng.random() < 0.5:
        row.pop()
    else:
        row.append(row[-1])


BREAKS = (
    break_states, break_ends, break_target, break_target, break_cost,
    break_cost, break_estimate, break_estimate, break_count,
)


def random_bad_plan(rng):
    """A plan with one to three things altered, most often for the worse."""
    plan = random_plan(rng)
    for _ in range(rng.randint(1, 3)):
        rng.choice(BREAKS)(rng, plan)
        if not plan.estimates or not plan.cuts:
            break
    return plan


# Mutations of a text.


def random_byte(rng):
    """A byte, most often of the set."""
    if rng.random() < 0.8:
        return bytes((rng.choice(USUAL_BYTES),))
    return bytes((rng.randrange(256),))


def replace_byte(rng, text):
    """Another byte in place of one."""
    place = rng.randrange(len(text))
    return text[:place] + random_byte(rng) + text[place + 1:]


def insert_byte(rng, text):
    """One byte more."""
    place = rng.randint(0, len(text))
    return text[:place] + random_byte(rng) + text[place:]


def delete_byte(rng, text):
    """One byte less."""
    place = rng.randrange(len(text))
    return text[:place] + text[place + 1:]


def swap_bytes(rng, text):
    """Two neighbours change places."""
    place = rng.randint(1, len(text))
    pair = text[place - 1:place + 1]
    return text[:place - 1] + pair[::-1] + text[place + 1:]


def truncate(rng, text):
    """The text up to some place."""
    return text[:rng.randrange(len(text))]


def duplicate_line(rng, text):
    """A line stands twice."""
    lines = text.splitlines(keepends=True)
    place = rng.randrange(len(lines))
    return b"".join(lines[:place + 1] + lines[place:])


def delete_line(rng, text):
    """A line is lost."""
    lines = text.splitlines(keepends=True)
    del lines[rng.randrange(len(lines))]
    return b"".join(lines)


def replace_match(rng, text, pattern, choices):
    """Another string in place of one that matches the pattern."""
    matches = list(pattern.finditer(text))
    if not matches:
        return text
    match = rng.choice(matches)
    return text[:match.start()] + rng.choice(choices) + text[match.end():]


def replace_mark(rng, text):
    """Another mark in place of one."""
    return replace_match(rng, text, MARK, STRANGE_MARKS)


def replace_number(rng, text):
    """Another number in place of one."""
    return replace_match(rng, text, NUMBER, STRANGE_NUMBERS)


MUTATIONS = (
    replace_byte, insert_byte, delete_byte, swap_bytes, truncate,
    duplicate_line, delete_line, replace_mark, replace_number,
)


def mutate(rng, text):
    """The text with one to three mutations."""
    for _ in range(rng.choice((1, 1, 1, 2, 3))):
        if text:
            text = rng.choice(MUTATIONS)(rng, text)
    return text


# Large texts.


def padded(text, length):
    """A document lengthened to `length` bytes by orders at its end.

    The gap must be 14 bytes or more, or none.
    """
    gap = length - len(text)
    count, rest = divmod(gap, 7)
    if rest:
        count -= 1 if rest > 1 else 2
    orders = b"(show)\n" * count
    left = gap - len(orders)
    if left:
        orders += b"(work " + b"1" * (left - 8) + b")\n"
    return text + orders


def crowded_plan(cuts, states=97):
    """A plan with `cuts` cuts of cost 1, and every estimate 0."""
    share, rest = divmod(cuts, states)
    rows = []
    for state in range(states):
        others = [target for target in range(states) if target != state]
        count = share + (1 if state < rest else 0)
        rows.append([(target, 1) for target in others[:count]])
    return Plan(states, 0, states - 1, rows, [0] * states)


def wide_plan(states=MOST_STATES):
    """A plan with many states and a single cut, from the last but one."""
    rows = [[] for _ in range(states)]
    rows[states - 2] = [(states - 1, 1000)]
    return Plan(states, 0, states - 1, rows, [0] * states)


def random_large_text(rng):
    """A text near one of the limits, sometimes mutated."""
    kind = rng.randrange(3)
    if kind == 0:
        text = padded(random_plan(rng).text(), rng.randint(59_997, 60_003))
    elif kind == 1:
        text = crowded_plan(rng.randint(8_190, 8_195)).text()
    else:
        text = wide_plan(rng.randint(1_022, 1_026)).text()
    if rng.random() < 0.5:
        text = mutate(rng, text)
    return text
