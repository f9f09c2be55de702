"""The machine of docs/SEARCH.md, under the wish quick, over one table.

Written from the rules of that page, and not from the code. It keeps every
number exactly and looks at every state in every move, so it is slow.
"""

from fractions import Fraction

FIRST_CEILING = 1_023_000
MOST_BUDGET = 65_535
MOST_RATIO = 1_000

BAD_RATIO = 13
BUDGET_TOO_LARGE = 18
NO_ROUTE = 31
CEILING_RAISED = 36


class Refused(Exception):
    """A refused call, by its number. It alters nothing."""


class Last:
    """A clamped last: the start is open, and nothing stands yet."""

    def __init__(self, table):
        self.table = table
        self.open = {table.start: (0, None)}
        self.closed = {}
        self.standing = None
        self.ceiling = FIRST_CEILING
        self.p = self.q = 1
        self.floor = 0
        self.moves = 0
        self.raise_floor()

    def limit(self):
        """Only a route that costs less than this is still looked for."""
        over = self.ceiling + 1
        return over if self.standing is None else min(over, self.standing[1])

    def live(self):
        """The live states: each with its g and its sum."""
        limit = self.limit()
        for state, (g, _) in self.open.items():
            total = g + self.table.estimates[state]
            if total < limit:
                yield state, g, total

    def raise_floor(self):
        sums = [total for _, _, total in self.live()]
        self.floor = max(self.floor, min([self.limit()] + sums))

    def rank(self, state, g):
        """Less is earlier: the larger quotient, then the smaller state."""
        over = max(self.limit() - g, 0)
        under = self.table.estimates[state]
        if under == 0:
            return 0, Fraction(0), state
        return 1, -Fraction(over, under), state

    def chain(self, state):
        states = []
        while state is not None:
            states.append(state)
            state = (self.open.get(state) or self.closed[state])[1]
        return states[::-1]

    def cuts(self, state):
        first, end = self.table.firsts[state], self.table.firsts[state + 1]
        return list(zip(self.table.targets[first:end], self.table.costs[first:end]))

    def arrive(self, states):
        costs = (dict(self.cuts(u))[v] for u, v in zip(states, states[1:]))
        self.standing = states, sum(costs)

    def move(self):
        live = list(self.live())
        least = min(total for _, _, total in live)
        focal = [(s, g) for s, g, total in live if total * self.q <= self.p * least]
        state, g = min(focal, key=lambda pair: self.rank(*pair))
        self.closed[state] = self.open.pop(state)
        self.moves += 1
        for target, cost in self.cuts(state):
            reached = g + cost
            if reached + self.table.estimates[target] >= self.limit():
                continue
            if target == self.table.goal:
                self.arrive(self.chain(state) + [target])
                continue
            seen = self.open.get(target) or self.closed.get(target)
            if seen is None or reached < seen[0]:
                self.closed.pop(target, None)
                self.open[target] = reached, state
        self.raise_floor()

    def word(self):
        if self.floor >= self.limit():
            return "done"
        if self.standing is not None:
            cost = self.standing[1]
            if cost <= self.ceiling and cost * self.q <= self.p * self.floor:
                return "met"
        return None

    # The calls: what each answers, as carve prints it behind the order's name.

    def work(self, budget):
        if budget > MOST_BUDGET:
            raise Refused(BUDGET_TOO_LARGE)
        made = 0
        while True:
            word = self.word() or ("spent" if made == budget else None)
            if word:
                return f"{word} {made}"
            self.move()
            made += 1

    def ratio(self, p, q):
        if not 1 <= q <= p <= MOST_RATIO:
            raise Refused(BAD_RATIO)
        self.p, self.q = p, q
        return "ok"

    def ceiling_at(self, ceiling):
        if ceiling > self.ceiling:
            raise Refused(CEILING_RAISED)
        self.ceiling = ceiling
        self.raise_floor()
        return "ok"

    def show(self):
        cost = "none" if self.standing is None else self.standing[1]
        return f"{cost} {self.floor} {self.moves}"

    def route(self):
        if self.standing is None:
            raise Refused(NO_ROUTE)
        states, cost = self.standing
        return " ".join(map(str, [cost, self.floor, *states]))


def answers(table, orders):
    """The line of each order, where these are carried out in turn."""
    last = Last(table)
    calls = {
        "ratio": last.ratio,
        "work": last.work,
        "ceiling": last.ceiling_at,
        "show": last.show,
        "route": last.route,
    }
    for name, numbers in orders:
        try:
            yield f"{name} {calls[name](*numbers)}"
        except Refused as refused:
            yield f"{name} refused {refused}"
