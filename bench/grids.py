#!/usr/bin/env python3
"""The cheapest directions on plans like those of the papers: bench/grids.py LIBRARY [PLANS [SEED]] prints the tables of docs/BEST-ORDER.md. LIBRARY is the shared library of bindings/python/conductor.py.

A grid of 32 by 32 with a tenth of its cells blocked, other ones for each plan; starts and goals at random, no two alike. The drones are planned one after the other, each on the shortest way in time that
meets nobody planned before it, as document 01 has it: a drone is in a cell from when it comes there to when it comes to the next, both included, and in its last cell for ever. Where one finds no way, the
drones are planned anew in another order. The plan is flown in rounds through the conductor. At a random moment before half of them, or from the first round on, one drone in ten stands still for 10 to 20
rounds, while the others go on as far as they may; when all may go again, the cheapest directions are asked for, with as large a budget as may be. Where that is too small (37), the drones fly on and it is
asked again every FLY_ON rounds."""
import heapq
import os
import random
import statistics
import sys
import time

sys.path.insert(0, os.path.join(os.path.dirname(os.path.abspath(__file__)), "../bindings/python"))
from conductor import DEPENDENCIES, STOPS, Conductor, Refused

SIDE, BLOCKED, SIZES, BUDGET, FLY_ON = 32, 0.1, (10, 20, 30, 40, 50, 64), 100000, 5
LATEST, ORDERS, KEPT = 256, 20, 4  # the last timestep, the orders that are tried, and how long the start of a drone that is not planned yet is kept free


def grid(rng):
    """The free cells, each with its free neighbours."""
    cells = list(range(SIDE * SIDE))
    free = set(cells) - set(rng.sample(cells, int(BLOCKED * len(cells))))
    beside = lambda c: [n for n, inside in ((c - SIDE, True), (c + SIDE, True), (c - 1, c % SIDE > 0), (c + 1, c % SIDE < SIDE - 1)) if inside and n in free]
    return {c: beside(c) for c in free}


def distances(cells, goal):
    """How many steps it is to the goal from each cell from which there is a way."""
    far, steps, edge = {goal: 0}, 0, {goal}
    while edge:
        steps, edge = steps + 1, {n for c in edge for n in cells[c]} - far.keys()
        far.update(dict.fromkeys(edge, steps))
    return far


class Held:
    """Which cells are held when: at timesteps, and for ever from one on."""

    def __init__(self):
        self.times, self.ends = {}, {}

    def free(self, cell, t):
        return t not in self.times.get(cell, ()) and t < self.ends.get(cell, LATEST)

    def free_for_ever(self, cell, t):
        return cell not in self.ends and all(other < t for other in self.times.get(cell, ()))

    def hold(self, route):
        for (cell, begin), (_, end) in zip(route, route[1:]):
            self.times.setdefault(cell, set()).update(range(begin, end + 1))
        self.ends[route[-1][0]] = route[-1][1]


def way(cells, far, start, goal, held, kept):
    """The soonest way to the goal as stops with their times, or None. `kept` has the cells that are kept free for a while."""
    before, left = {(start, 0): None}, [(far[start], 0, start)]
    while left:
        _, late, cell = heapq.heappop(left)
        t = -late
        if cell == goal and held.free_for_ever(cell, t):
            return stops(before, (cell, t))
        if t + 1 == LATEST or not held.free(cell, t + 1):
            continue  # it is here when it comes to the next cell, and here where it waits
        for n in [cell] + cells[cell]:
            if (n, t + 1) not in before and (n == cell or held.free(n, t + 1)) and not (n in kept and t + 1 <= KEPT):
                before[n, t + 1] = cell, t
                heapq.heappush(left, (t + 1 + far[n], -t - 1, n))
    return None


def stops(before, at):
    """The visits that lead to one: waiting makes no stop."""
    route = []
    while at:
        if route and route[-1][0] == at[0]:
            route[-1] = at
        else:
            route.append(at)
        at = before[at]
    return route[::-1]


def planned(rng, drones):
    """Routes without collision, and how many grids and orders were given up before."""
    given_up = 0
    while True:
        cells = grid(rng)
        starts, goals = rng.sample(sorted(cells), drones), rng.sample(sorted(cells), drones)
        far = [distances(cells, goal) for goal in goals]
        if any(start not in f for start, f in zip(starts, far)):
            given_up += 1
            continue
        for _ in range(ORDERS):
            order, held, routes = rng.sample(range(drones), drones), Held(), {}
            for i, d in enumerate(order):
                routes[d] = way(cells, far[d], starts[d], goals[d], held, {starts[e] for e in order[i + 1 :]})
                if routes[d] is None:
                    break
                held.hold(routes[d])
            else:
                return [routes[d] for d in range(drones)], given_up
            given_up += 1


def text(routes):
    lines = ["plan=1", "agents=%d" % len(routes)]
    for d, route in enumerate(routes):
        lines += ["name=survey-quad-%d" % d, "stops=%d" % len(route)] + ["go=%d@%d" % stop for stop in route]
    return "".join(line + "\n" for line in lines + ["end=plan"]).encode()


def play(field, held=()):
    """One round: who may go at its start, and is not held, comes to its next stop."""
    going = [d for d in range(field.drone_count[0]) if d not in held and field.visited[d] + 1 < field.stop_counts[d] and granted(field, d)]
    for d in going:
        field.arrive(d)


def granted(field, d):
    try:
        field.grant(d)
    except Refused:
        return False
    return True


def delayed(rng, field, early):
    """The flight until the delays are over."""
    for _ in range(0 if early else rng.randrange(field.rounds() // 2)):
        play(field)
    flying = [d for d in range(field.drone_count[0]) if field.visited[d] + 1 < field.stop_counts[d]]
    late = {d: rng.randint(10, 20) for d in rng.sample(flying, min(len(flying), max(1, field.drone_count[0] // 10)))}
    for t in range(max(late.values())):
        play(field, {d for d, rounds in late.items() if t < rounds})


def asked(field):
    """The cost now, what is found (or None), and the milliseconds of this thread that it took."""
    cost, begin = field.cost(), time.thread_time()
    try:
        best = field.best_order(BUDGET)
    except Refused as refused:
        if refused.number != 37:
            raise
        best = None
    return cost, best, 1000 * (time.thread_time() - begin)


def later(field):
    """After a 37: the rounds until it fits, with the cost then and what is found then."""
    rounds = 0
    while True:
        for _ in range(FLY_ON):
            play(field)
        rounds += FLY_ON
        cost, best, _ = asked(field)
        if best is not None:
            return rounds, cost, best


def applied(field, cost, best):
    """The list does what is said of it."""
    if best.turns:
        assert field.preview_all(best.turns) == best.cost - cost
        field.turn_all(best.turns)
    assert field.cost() == best.cost


def flight(rng, library, drones, early):
    """One plan, flown: what was seen, by name; None where the plan is over a limit."""
    routes, given_up = planned(rng, drones)
    field = Conductor(library)
    try:
        field.read(text(routes))
    except Refused as refused:
        assert refused.number in (6, 11), refused
        return None
    seen = {"stops": sum(map(len, routes)), "dependencies": field.dependency_count[0], "given up": given_up}
    delayed(rng, field, early)
    cost, best, took = asked(field)
    seen.update(cost=cost, ms=took, entered=BUDGET if best is None else best.count, fits=best is not None)
    if best is None:
        rounds, cost, best = later(field)
        seen["rounds"] = rounds
    seen["percent"], seen["gain"] = 100 * (cost - best.cost) / cost if cost else 0, cost - best.cost
    applied(field, cost, best)
    return seen


def both(words, measures, values):
    """Two measures of the values, or a stroke where there are none."""
    return words % tuple(measure(values) for measure in measures) if values else "-"


def row(drones, seen, over):
    """A line of what fits the budget, and one of what does not."""
    fit, rest = [s for s in seen if s["fits"]], [s for s in seen if not s["fits"]]
    of = lambda key, which: [s[key] for s in which]
    measures, means = (statistics.median, max), lambda which: both("%.1f %%, %.1f", [lambda _: statistics.mean(of("percent", which)), lambda _: statistics.mean(of("gain", which))], which)
    first = [drones, over, "%d" % statistics.median(of("stops", seen)), "%d" % statistics.median(of("dependencies", seen)), "%d of %d" % (len(fit), len(seen))]
    first += [both("%d, %d", measures, of("entered", fit)), both("%.2f, %.1f", measures, of("ms", fit)), means(fit), both("%d", [statistics.mean], of("cost", fit)), "%d of %d" % (of("gain", fit).count(0), len(fit))]
    second = [drones, "%d of %d" % (len(rest), len(seen)), both("%.0f, %.0f", measures, of("ms", rest)), both("%d, %d", measures, of("rounds", rest)) if rest else "-", means(rest), "%d of %d" % (of("gain", rest).count(0), len(rest))]
    return tuple("| " + " | ".join(map(str, cells)) + " |" for cells in (first, second))


def tables(library, plans, seed, early):
    rows, began = [], time.time()
    for drones in SIZES:
        rng, seen, over = random.Random(seed * 1000 + drones), [], 0
        while len(seen) < plans:
            found = flight(rng, library, drones, early)
            if found is None:
                over += 1
            else:
                seen.append(found)
        rows.append(row(drones, seen, over))
        print("%d drones: %d plans, %d over a limit, %d grids or orders given up, %.0f s" % (drones, plans, over, sum(s["given up"] for s in seen), time.time() - began), file=sys.stderr)
    print("\nDelays %s: seed %d, %d plans of each size, budget %d\n" % ("from the first round on" if early else "at a random moment", seed, plans, BUDGET))
    print("| drones | over a limit | stops | dependencies | the full walk fits | entered: median, largest | milliseconds: median, largest | the cost falls by, rounds | of a cost of | nothing to gain |")
    print("|---|---|---|---|---|---|---|---|---|---|")
    print("\n".join(first for first, _ in rows))
    print("\n| drones | 37 | milliseconds: median, largest | rounds flown until it fits: median, most | the cost falls by then, rounds | nothing to gain |")
    print("|---|---|---|---|---|---|")
    print("\n".join(second for _, second in rows))


def main(library, plans=100, seed=1):
    for early in (False, True):
        tables(library, plans, seed, early)


if __name__ == "__main__":
    if not 2 <= len(sys.argv) <= 4:
        sys.exit(__doc__)
    main(sys.argv[1], *map(int, sys.argv[2:]))
