"""Compares a carve program with carve.py on many random texts.

    python3 reference/compare.py BINARY COUNT [SEED]

runs BINARY on COUNT texts and compares what it prints, and its exit
status, with the answer of carve.py. It prints how many agreed and the
first disagreement, and ends with status 1 if there was any.
"""

import random
import subprocess
import sys

import carve
import texts

SECONDS = 60
SHOWN = 400


def random_text(rng):
    """A text and its kind: one in a hundred is large."""
    draw = rng.randrange(100)
    if draw == 0:
        return "large text", texts.random_large_text(rng)
    if draw < 10:
        return "good document", texts.random_plan(rng).text()
    if draw < 40:
        return "search", texts.random_search(rng).text()
    if draw < 55:
        return "bad table", texts.random_bad_plan(rng).text()
    if draw < 65:
        text = texts.random_bad_plan(rng).text()
        return "bad table, mutated", texts.mutate(rng, text)
    text = texts.random_plan(rng).text()
    return "mutation", texts.mutate(rng, text)


def run(binary, text):
    """What the program prints for a text, and its exit status."""
    done = subprocess.run(
        [binary], input=text, capture_output=True, timeout=SECONDS,
        check=False,
    )
    return done.stdout, done.returncode


def tell(kind, text, expected, got, status):
    """Prints a disagreement."""
    print(f"disagreement on a {kind} of {len(text)} bytes:")
    print(f"  text     {text[:SHOWN]!r}")
    print(f"  expected {expected[:SHOWN]!r}, status 0")
    print(f"  got      {got[:SHOWN]!r}, status {status}")


def compare(binary, count, rng):
    """The number of texts on which the program and carve.py agree."""
    agreed = 0
    told = False
    for _ in range(count):
        kind, text = random_text(rng)
        expected = carve.answer(text).encode()
        got, status = run(binary, text)
        if (got, status) == (expected, 0):
            agreed += 1
        elif not told:
            tell(kind, text, expected, got, status)
            told = True
    return agreed


def main(arguments):
    """Reads the arguments and compares."""
    if len(arguments) not in (2, 3):
        sys.exit("usage: compare.py BINARY COUNT [SEED]")
    binary, count = arguments[0], int(arguments[1])
    seed = int(arguments[2]) if len(arguments) == 3 else 1
    agreed = compare(binary, count, random.Random(seed))
    print(f"{agreed} of {count} agreed")
    return 0 if agreed == count else 1


if __name__ == "__main__":
    sys.exit(main(sys.argv[1:]))
