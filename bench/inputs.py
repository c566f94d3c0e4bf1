#!/usr/bin/env python3
"""Large inputs of `field` for measuring: bench/inputs.py STOPS [DRONES [FORM]] prints one with 64 drones, or as many as are asked for, of STOPS stops each; in form 2 with legs of many lengths.

In every eight stops there is one crossing that thirty-two drones pass, each some time after the one before. Where the first crossing can be turned between two neighbouring drones it is turned, so that
the test of a cycle has work to do; then come grants and arrivals of every drone in turn, and costs, until the input is full."""
import sys

INPUT = 131072


def routes(stops, drones):
    for d in range(drones):
        route = []
        for k in range(stops):
            crossing, rest = divmod(k, 8)
            shared = rest == 4 and k < stops - 1
            route.append((crossing + d // 32 * 8 if shared else 100 + 32 * d + k, 0 if k == 0 else 2000 * crossing + 3 * d + (801 if rest == 5 else 200 * rest)))
        yield route


def dependencies(plan):
    """The pairs of visits of one location, the earlier first, in the order of the table."""
    visits = [(d, s, l, t) for d, route in enumerate(plan) for s, (l, t) in enumerate(route)]
    return [(a, b) for a in visits for b in visits if a[0] != b[0] and a[2] == b[2] and a[3] < b[3]]


def leg(route, k):
    """Of one to sixty rounds, or as many as the time rises by."""
    return min(1 + 37 * (route[k][0] + k) % 60, route[k][1] - route[k - 1][1]) if k else 0


def main(stops, drones=64, form=1):
    plan = list(routes(stops, drones))
    text = "plan=%d\nagents=%d\n" % (form, drones)
    for d, route in enumerate(plan):
        text += "name=survey-quad-%d\nstops=%d\n" % (d, stops)
        text += "".join("go=%d@%d" % visit + ("@%d" % leg(route, k) if form == 2 else "") + "\n" for k, visit in enumerate(route))
    text += "end=plan\n"
    for w, (a, b) in enumerate(dependencies(plan)):
        if a[1] == 4 and a[0] % 2 == 0 and b[0] == a[0] + 1:
            text += "turn=%d\n" % w
    d = 0
    while True:
        more = "grant=%d\narrive=%d\n" % (d, d) + ("cost=0\n" if d == drones - 1 else "")
        if len(text) + len(more) > INPUT:
            return text
        text += more
        d = (d + 1) % drones


if __name__ == "__main__":
    if not 2 <= len(sys.argv) <= 4:
        sys.exit(__doc__)
    sys.stdout.write(main(*map(int, sys.argv[1:])))
