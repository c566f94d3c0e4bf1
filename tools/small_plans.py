#!/usr/bin/env python3
"""Every small plan for the bench, reckoned from the customer's words alone: plain, slow, unproved.

  tools/small_plans.py                       prints what `every_small_plan` must print
  tools/small_plans.py --against PROGRAM     compares the program's output with it, byte for byte

"Each plan for two drones named a and b, with locations 0 to 2, one to three stops each and times up to 4, that the conductor would accept without a site text." The plan check is document 01's. Point 14 leaves it alone:
"the box of point 9 keeps to `plan=1`", whose legs are of one, and times that rise at all rise by that.
"""
import subprocess
import sys
from itertools import product


def routes():
    """Ordered by length, then by locations from the first stop on, then by times."""
    return [(places, times) for n in (1, 2, 3) for places in product(range(3), repeat=n) for times in product(range(5), repeat=n)]


def flies(route):
    """Stop 0 has time 0, times strictly rise, neighbouring stops have different locations."""
    places, times = route
    return times[0] == 0 and all(a < b for a, b in zip(times, times[1:])) and all(a != b for a, b in zip(places, places[1:]))


def occupied(route, horizon=8):
    """The locations held at each timestep: from a stop's time to the next stop's, both included; the last for ever."""
    places, times = route
    ends = times[1:] + (horizon,)
    return {(place, step) for place, start, end in zip(places, times, ends) for step in range(start, end + 1)}


def text(plan):
    lines = ["plan=1", "agents=2"]
    for name, (places, times) in zip("ab", plan):
        lines += ["name=" + name, "stops=%d" % len(places)] + ["go=%d@%d" % stop for stop in zip(places, times)]
    return "\n".join(lines + ["end=plan"]) + "\n"


def every_plan():
    """By the first drone's route, then the second's. A route that fails by itself is in no plan."""
    good = [(route, occupied(route)) for route in routes() if flies(route)]
    return [(a, b) for a, held in good for b, others in good if not held & others]


def main():
    output = "".join(text(plan) for plan in every_plan()).encode()
    if sys.argv[1:2] == ["--against"]:
        same = subprocess.run(sys.argv[2:3], stdout=subprocess.PIPE, check=True).stdout == output
        print("%d plans, %d bytes: %s" % (len(every_plan()), len(output), "the same" if same else "different"))
        sys.exit(not same)
    sys.stdout.buffer.write(output)


main()
