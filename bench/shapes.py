#!/usr/bin/env python3
"""Plans that are ugly to read or to fly: bench/shapes.py SHAPE DRONES STOPS [LEGS] prints one, STOPS being those of all drones together. With LEGS it is a plan with leg lengths, all of so many rounds
or, with `any`, of one to sixty; its times are drawn out to rise by them. bench/shapes.py --site SITE prints the text of a site, over whose locations the shapes `at_site` and `all_at_site` go. Without
arguments it lists the shapes and the sites."""
import random
import sys

LOCATIONS, DEPENDENCIES, LONGEST, TIME, PAIRS, FIRST = 65536, 2048, 60, 1000000, 256, 1000
FULL = 4096


def shares(drones, stops):
    """How many stops each drone has."""
    return [stops // drones + (d < stops % drones) for d in range(drones)]


def deep(stops):
    """All locations, those of one tree of first stops after each other, for as many trees as stops (crates/plan/specs/Sharing.antt, `root_of`)."""
    return sorted(range(LOCATIONS), key=lambda l: ((l + l // stops * 17) % stops, l))


def fro(drones, stops):
    """taken: drone 0 goes to and fro between two locations, the others stand still"""
    yield [(s % 2, s) for s in range(stops - drones + 1)]
    for d in range(1, drones):
        yield [(1 + d, 0)]


def fro_each(drones, stops):
    """taken: each drone goes to and fro between two locations of its own"""
    for d, m in enumerate(shares(drones, stops)):
        yield [(2 * d + s % 2, s) for s in range(m)]


def windows(drones, stops, order=lambda d, drones: d, last=lambda d, drones: d):
    """11: all go to and fro between the same two locations, one drone after the other, the lowest first"""
    for d, m in enumerate(shares(drones, stops)):
        start = order(d, drones) * (stops // drones + 2)
        route = [(2 + d, 0)] + [(s % 2, start + s) for s in range(1, m - 1)] + [(2 + drones + last(d, drones), start + m)]
        yield route[:m]


def windows_back(drones, stops):
    """11: the same, the highest drone first, so that no stop of the lower drones is the first of a dependency"""
    return windows(drones, stops, order=lambda d, drones: drones - 1 - d)


def last_pair(drones, stops):
    """10: the same as `windows`, but the last two drones end at one location: the pair that is found after all others"""
    return windows(drones, stops, last=lambda d, drones: min(d, drones - 2))


def last_pair_back(drones, stops):
    """10: the same as `windows_back`, but the last two drones end at one location"""
    return windows(drones, stops, order=lambda d, drones: drones - 1 - d, last=lambda d, drones: min(d, drones - 2))


def crowded(drones, stops, times=1):
    """taken: as many dependencies as fit, all drones passing each crossing; every location lies deep in its tree, and the lines are long"""
    pairs = drones * (drones - 1) // 2 * times * times
    crossings = min(DEPENDENCIES // pairs, (stops // drones - 2) // (2 * times)) if pairs else 0
    places = [l for l in deep(stops) if l >= 10000]
    wide = places[crossings:]
    for d, m in enumerate(shares(drones, stops)):
        own = iter(wide[d * (stops // drones + 1):])
        route = [(next(own), 0)]
        for c in range(crossings):
            for k in range(times):
                route += [(places[c], 100000 + (c * drones + d) * 4 * times + 4 * k), (next(own), 100000 + (c * drones + d) * 4 * times + 4 * k + 2)]
        for s in range(len(route), m):
            route.append((next(own), 900000 + s))
        yield route[:m]


def crowded_twice(drones, stops):
    """taken: the same, each drone passing each crossing twice"""
    return crowded(drones, stops, times=2)


def crowded_fro(drones, stops):
    """taken: as many dependencies as fit; besides, each drone goes to and fro between two locations of its own"""
    for d, route in enumerate(crowded(drones, stops)):
        own = [l for l, t in route[:1]] + [20 + d]
        yield [(own[s % 2], t) if t >= 900000 else (l, t) for s, (l, t) in enumerate(route)]


def one_queue(drones, stops):
    """taken: everybody in one queue, each drone coming to where the one before it is at its last stop but one: every leg is on the longest chain"""
    start = 0
    for d, m in enumerate(shares(drones, stops)):
        places = [10000 + d * (stops // drones + 1) + s for s in range(m)]
        places[1:2] = [d] if d else places[1:2]
        places[m - 2] = d + 1
        yield [(l, start + s if s else 0) for s, l in enumerate(places)]
        start += m + 1


def woven(drones, stops, most=FULL):
    """taken: every second stop at one of some crossings, at random, in the order in which the drones come there when each goes on at random as it may: nearly as many dependencies as fit"""
    rng, each = random.Random(1), stops // drones
    visits = drones * ((each - 1) // 2)
    crossings = max(2, visits * visits * (drones - 1) * 11 // (drones * 20 * most))
    places = [[rng.randrange(crossings) if s % 2 and s < each - 1 else 1000 + d * each + s for s in range(each)] for d in range(drones)]
    routes, held, left, time = [[(route[0], 0)] for route in places], {}, {}, 0
    while any(len(route) < each for route in routes):
        time += 1
        for d in rng.sample(range(drones), drones):
            at, k = routes[d][-1][0], len(routes[d])
            if k == each or routes[d][-1][1] == time or rng.random() < 1 / 3:
                continue
            to = places[d][k]
            if held.get(to, d) == d and left.get(to, 0) < time:
                held.pop(at, None), left.update({at: time}), held.update({to: d}), routes[d].append((to, time))
    return routes


def woven_less(drones, stops):
    """taken: the same with an eighth of the dependencies"""
    return woven(drones, stops, most=FULL // 8)


def deep_pairs(drones, stops):
    """taken: pairs of drones that cross once, then two long routes through the same crossings in opposite order, the second drone after the first: what is turned below is looked at again for each choice of the pairs"""
    pairs = (drones - 2) // 2
    each = (stops - 8 * pairs) // 2
    for d in range(2 * pairs):
        yield [(20000 + d, 0), (500 + d // 2, 2 + 4 * (d % 2)), (21000 + d, 3 + 4 * (d % 2)), (22000 + d, 4 + 4 * (d % 2))]
    for d in range(2):
        place = lambda s: 1000 + (s if d == 0 else each - 1 - s) if s % 2 == (1 if d == 0 else (each - 2) % 2) and 0 < s < each - 1 else 30000 + d * each + s
        yield [(place(s), s and s + d * (each + 4)) for s in range(each)]


def two_woven(drones, stops):
    """taken: two drones with all the stops, every second one at a crossing at random; the others stand still. Of all that trying has found the longest to search"""
    return woven(2, stops - (drones - 2), most=FULL) + [[(40000 + d, 0)] for d in range(2, drones)]


def two_long(drones, stops):
    """taken: two drones with all the stops, which pass many crossings in the same order, one behind the other; the others stand still"""
    each = (stops - (drones - 2)) // 2
    for d in range(2):
        yield [(20000 + d, 0)] + [(1000 + c, 3 * d + 1 + c) for c in range(each - 2)] + [(21000 + d, 3 * d + each)]
    for d in range(2, drones):
        yield [(30000 + d, 0)]


def at_site(drones, stops, there=8):
    """taken at every site and without: eight stops of each drone at the site's locations, four on from those of the one before, one drone after the other"""
    start = 0
    for d, m in enumerate(shares(drones, stops)):
        places = [20000 + d] + [FIRST + (4 * d + s) % (PAIRS + 1) for s in range(min(there, m - 2))]
        places += [30000 + d * (stops // drones + 1) + s for s in range(m - len(places))]
        yield [(l, start + s if s else 0) for s, l in enumerate(places)]
        start += m + 2


def all_at_site(drones, stops):
    """11 at every site and without: the same with all stops there but each drone's first and last"""
    return at_site(drones, stops, there=stops)


def all_near(drones, stops, order=lambda d, drones: d):
    """11 at the site `all`: all stops but each drone's first and last at its 23 locations, one drone after the other, the lowest first"""
    for d, m in enumerate(shares(drones, stops)):
        start = order(d, drones) * (stops // drones + 2)
        route = [(20000 + d, 0)] + [(FIRST + (7 * d + s) % 23, start + s) for s in range(1, m - 1)] + [(22000 + d, start + m - 1)]
        yield route[:m]


def all_near_back(drones, stops):
    """11 at the site `all`: the same, the highest drone first: the plan check's longest walk that trying has found"""
    return all_near(drones, stops, order=lambda d, drones: drones - 1 - d)


def near_fro(drones, stops):
    """taken at the site `two` and without: drone 0 passes one location twice, then drone 1 goes to and fro between the two that are near it; the others stand still"""
    yield [(20000, 0), (FIRST, 1), (20001, 2), (FIRST, 3), (20002, 4)]
    yield [(30000, 0)] + [(FIRST + 1 + s % 2, 10 + s) for s in range(1, stops - 5 - (drones - 2))]
    for d in range(2, drones):
        yield [(40000 + d, 0)]


SHAPES = [fro, fro_each, windows, windows_back, last_pair, last_pair_back, crowded, crowded_twice, crowded_fro, one_queue, woven, woven_less, two_woven, deep_pairs, two_long, at_site, all_at_site, all_near, all_near_back, near_fro]

SITES = {
    "row": ("256 pairs in a row", [(i, i + 1) for i in range(PAIRS)]),
    "star": ("one location near 256 others", [(0, i + 1) for i in range(PAIRS)]),
    "all": ("all pairs among 23 locations", [(i, j) for i in range(23) for j in range(i + 1, 23)]),
    "two": ("one location near two others", [(0, 1), (0, 2)]),
    "apart": ("256 pairs of which no two share a location", [(2 * i, 2 * i + 1) for i in range(PAIRS)]),
}


def site_text(pairs):
    lines = ["site=1", "pairs=%d" % len(pairs)] + ["near=%d,%d" % (FIRST + a, FIRST + b) for a, b in pairs] + ["end=site"]
    return "".join(line + "\n" for line in lines)


def with_legs(plan, rounds):
    """The routes with a leg at each stop, and times so far apart that each rises by its leg, as far as that can be."""
    plan, rng = list(plan), random.Random(1)
    pace = min(LONGEST, TIME // max(time for route in plan for _, time in route))
    legs = lambda rise: min(rise, rng.randint(1, LONGEST) if rounds == "any" else int(rounds))
    return [[(place, pace * time, legs(pace * (time - route[k - 1][1])) if k else 0) for k, (place, time) in enumerate(route)] for route in plan]


def text(plan):
    plan = list(plan)
    lines = ["plan=%d" % (len(plan[0][0]) - 1), "agents=%d" % len(plan)]
    for d, route in enumerate(plan):
        lines += ["name=survey-quad-of-field-%02d" % d, "stops=%d" % len(route)] + ["go=" + "@".join(map(str, visit)) for visit in route]
    return "".join(line + "\n" for line in lines + ["end=plan"])


if __name__ == "__main__":
    known = {shape.__name__: shape for shape in SHAPES}
    if len(sys.argv) == 3 and sys.argv[1] == "--site" and sys.argv[2] in SITES:
        sys.stdout.write(site_text(SITES[sys.argv[2]][1]))
        sys.exit()
    if not 4 <= len(sys.argv) <= 5 or sys.argv[1] not in known:
        sys.exit("\n".join([__doc__] + ["%-15s %s" % (name, shape.__doc__) for name, shape in known.items()] + ["--site %-8s %s" % (name, words) for name, (words, _) in SITES.items()]))
    plan = known[sys.argv[1]](int(sys.argv[2]), int(sys.argv[3]))
    sys.stdout.write(text(with_legs(plan, sys.argv[4]) if len(sys.argv) == 5 else plan))
