"""Makes what the example program `piles` is to print, from the rules alone.

Run it from the repository's root: python3 reference/piles.py > crates/piles/stdout
"""

# The worked table: cuts of each state as (target, cost), and the estimates.
TABLE = {
    "cuts": [[(1, 30), (2, 50)], [(3, 60)], [(3, 20)], []],
    "estimates": [40, 10, 20, 0],
    "start": 0,
    "goal": 3,
}

# A raster: width, bytes, start and goal; some cells are knots; estimates are rounded down to multiples of a step.
WIDTH = 4
BYTES = [2, 9, 2, 2, 2, 2, 0, 2, 3, 2, 2, 2]
START = 0
GOAL = 3
KNOTS = [5]
STEP = 4


def raster_places(cell):
    """The four places of a cell, up, right, down and left: a pair, or None."""
    line, column = divmod(cell, WIDTH)
    height = len(BYTES) // WIDTH
    places = []
    for down, right in ((-1, 0), (0, 1), (1, 0), (0, -1)):
        to_line, to_column = line + down, column + right
        if not (0 <= to_line < height and 0 <= to_column < WIDTH):
            places.append(None)
            continue
        to = to_line * WIDTH + to_column
        places.append((to, BYTES[to]) if BYTES[to] else None)
    return places


def raster_estimate(cell):
    line, column = divmod(cell, WIDTH)
    goal_line, goal_column = divmod(GOAL, WIDTH)
    least = min(byte for byte in BYTES if byte)
    return (abs(line - goal_line) + abs(column - goal_column)) * least


def without_knots(places):
    return [None if place and place[0] in KNOTS else place for place in places]


def show(name, start, goal, places, estimates):
    print(f"{name}: {len(estimates)} states, from {start} to {goal}")
    for state, estimate in enumerate(estimates):
        print(f"state {state} estimate {estimate}")
        for number, place in enumerate(places[state]):
            print(f"  place {number} empty" if place is None else f"  place {number} to {place[0]} at {place[1]}")


def main():
    show("table", TABLE["start"], TABLE["goal"], TABLE["cuts"], TABLE["estimates"])
    cells = range(len(BYTES))
    show("raster", START, GOAL, [raster_places(c) for c in cells], [raster_estimate(c) for c in cells])
    show(
        "rounding over knots over raster",
        START,
        GOAL,
        [without_knots(raster_places(c)) for c in cells],
        [raster_estimate(c) // STEP * STEP for c in cells],
    )


main()
