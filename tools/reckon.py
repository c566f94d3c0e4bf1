#!/usr/bin/env python3
"""An independent reckoning of the program `field`, written from documents 01 and 02 alone: plain, slow, unproved.

  tools/reckon.py < INPUT            prints what `field` must print
  tools/reckon.py --site FILE < INPUT
                                     the same where the plan is read with the site text in FILE, which `field` never does
  tools/reckon.py --against PROGRAM [COUNT [SEED]]
                                     makes COUNT inputs, valid and damaged, and those at the limits of the text and of the input, and compares the program's output with the reckoning
  tools/reckon.py --sites PROGRAM [COUNT [SEED]]
                                     the same where each plan is read with a site text, valid or damaged, in a file that is the program's argument: for another reckoning, not for `field`
  tools/reckon.py --joins PROGRAM [COUNT [SEED]]
                                     the same of two plans joined, which `field` never does either: the program's arguments are `--join EAST SITE WEST SITE`, files with a plan and the calls before the
                                     join, each with the file of its site text or `-`; its input are the calls on the joined plan, and it prints `join=` with the number and what goes with it
  tools/reckon.py --best PROGRAM [COUNT [SEED]]
                                     the same of the cheapest directions after the calls: the program's arguments are `--best BUDGET DRONES SITE`, the drones that are withdrawn after the calls, with commas,
                                     or `-`, and the file of the site text or `-`; after the calls it prints `best=` with the number and what goes with it: cost, count and the dependencies to turn, or
                                     with 37 the count
  tools/reckon.py --full [LEG]       prints an input of full size: 64 drones of 32 stops, 3,968 dependencies, call lines up to 131,072 bytes; with legs of so many rounds, in form 2

A stop is a location, a time and the leg into it.
"""
import random
import re
import subprocess
import sys
import tempfile
import time
from collections import namedtuple

TEXT, DRONES, STOPS, NAME, LOCATION, TIME, LEG, DEPENDENCIES, PAIRS, INPUT = 65536, 64, 2048, 24, 65535, 1000000, 60, 4096, 256, 131072
BUFFER = INPUT // 2  # the input is read in two buffers
FEW = 300  # rounds that are soon played
BUDGET = 100000
LETTERS = set(b"abcdefghijklmnopqrstuvwxyzABCDEFGHIJKLMNOPQRSTUVWXYZ0123456789-")


class Refused(Exception):
    """The number, and what goes with it: the offset of a line, or two drones and their stops."""

    def __init__(self, number, *values):
        self.number, self.values = number, values


def number(field):
    """A decimal of one to seven digits without sign or leading zero."""
    if not 1 <= len(field) <= 7 or any(not 48 <= b <= 57 for b in field) or (len(field) > 1 and field[0] == 48):
        raise Refused(2)
    return int(field)


class Lines:
    def __init__(self, text):
        self.text, self.at, self.start = text, 0, 0

    def next(self, key):
        end, self.start = self.text.find(b"\n", self.at), self.at
        if end < 0 or not self.text[self.at:end].startswith(key):
            raise Refused(2)
        body = self.text[self.at + len(key):end]
        self.at = end + 1
        return body


def within(n, low, high):
    if not low <= n <= high:
        raise Refused(4)
    return n


def stop(body, form, first):
    """The numbers of a `go=` line: two in form 1, where a leg is of one, three in form 2; the leg into a drone's first stop is 0. That all are numbers comes before the range of any."""
    numbers = [number(field) for field in body.split(b"@")]
    if len(numbers) != form + 1:
        raise Refused(2)
    place, time, leg = numbers if form == 2 else numbers + [0 if first else 1]
    return within(place, 0, LOCATION), within(time, 0, TIME), within(leg, 0, 0) if first else within(leg, 1, LEG)


def read(text):
    """The routes of a plan text, or its refusal, with the offset of its line."""
    if len(text) > TEXT:
        raise Refused(1, TEXT)
    lines = Lines(text)
    try:
        return routes_in(lines)
    except Refused as refused:
        raise Refused(refused.number, lines.start)


def routes_in(lines):
    form = {b"1": 1, b"2": 2}.get(lines.next(b"plan="))
    if not form:
        raise Refused(2)
    drones = within(number(lines.next(b"agents=")), 1, DRONES)
    names, routes, total = [], [], 0
    for _ in range(drones):
        name = lines.next(b"name=")
        if not 1 <= len(name) <= NAME or any(b not in LETTERS for b in name):
            raise Refused(3)
        if name.lower() in names:
            raise Refused(5)
        names.append(name.lower())
        stops = within(number(lines.next(b"stops=")), 1, STOPS)
        total += stops
        if total > STOPS:
            raise Refused(6)
        routes.append([stop(lines.next(b"go="), form, k == 0) for k in range(stops)])
    if lines.next(b"end=plan") != b"" or lines.at != len(lines.text):
        raise Refused(2)
    return routes


def near_line(body, before):
    """The pair of a `near=` line: both are numbers, then both are locations, the first is below the second, and the pair is above all before it."""
    numbers = [number(field) for field in body.split(b",")]
    if len(numbers) != 2:
        raise Refused(2)
    low, high = (within(n, 0, LOCATION) for n in numbers)
    if low >= high or any((low, high) <= pair for pair in before):
        raise Refused(4)
    return low, high


def read_site(text):
    """The pairs of a site text, or its refusal: 13 where a plan text's would be 2, 14 where it would be 4."""
    lines, pairs = Lines(text), []
    try:
        if lines.next(b"site=") != b"1":
            raise Refused(2)
        for _ in range(within(number(lines.next(b"pairs=")), 0, PAIRS)):
            pairs.append(near_line(lines.next(b"near="), pairs))
        if lines.next(b"end=site") != b"" or lines.at != len(text):
            raise Refused(2)
    except Refused as refused:
        raise Refused({2: 13, 4: 14}[refused.number])
    return pairs


def check(routes, pairs=()):
    """The dependencies, or 7 to 12. Visits of different drones meet where their locations are equal or a pair names both."""
    for route in routes:
        for k, (place, time, leg) in enumerate(route):
            if k == 0:
                if time != 0:
                    raise Refused(7)
            elif time <= route[k - 1][1]:
                raise Refused(8)
            elif time < route[k - 1][1] + leg:
                raise Refused(12)
            elif place == route[k - 1][0]:
                raise Refused(9)
    visits = [(d, k, place, time, route[k + 1][1] if k + 1 < len(route) else float("inf")) for d, route in enumerate(routes) for k, (place, time, _) in enumerate(route)]
    by_place, places = {}, {}
    for v in visits:
        by_place.setdefault(v[2], []).append(v)
        places[v[2]] = [v[2]]
    for low, high in pairs:
        places.setdefault(low, []).append(high)
        places.setdefault(high, []).append(low)
    waits = []
    for a in visits:
        met = [b for place in places[a[2]] for b in by_place.get(place, []) if b[0] != a[0]]
        collided = [b[:2] for b in met if a[0] < b[0] and a[3] <= b[4] and b[3] <= a[4]]
        if collided:
            raise Refused(10, *a[:2], *min(collided))
        waits += [a[:2] + b[:2] for b in met if a[3] < b[3]]
    if len(waits) > DEPENDENCIES:
        raise Refused(11)
    return sorted(waits)


class Field:
    def __init__(self, routes, dependencies):
        self.last = [len(r) - 1 for r in routes]
        self.legs = [[leg for _, _, leg in r] for r in routes]
        self.dependencies = dependencies
        self.place = [0] * len(routes)
        self.under_way = [False] * len(routes)
        self.turned = [False] * len(dependencies)

    def in_force(self, w, turned):
        a, s, b, k = self.dependencies[w]
        return (b, k, a, s) if turned[w] else (a, s, b, k)

    def unmet(self, d, place):
        """The dependencies into the drone's next stop whose awaited stop is not visited."""
        for w in range(len(self.dependencies)):
            a, s, b, k = self.in_force(w, self.turned)
            if b == d and k == place[d] + 1 and place[a] < s + 1:
                yield w

    def entered(self, d, k):
        return k <= self.place[d] or (self.under_way[d] and k == self.place[d] + 1)

    def grant(self, d):
        if d >= len(self.last):
            return "20"
        if self.place[d] >= self.last[d]:
            return "21"
        if self.under_way[d]:
            return "22"
        for w in self.unmet(d, self.place):
            return "23:%d" % w
        self.under_way[d] = True
        return "0"

    def arrive(self, d):
        if d >= len(self.last):
            return "20"
        if not self.under_way[d]:
            return "24"
        self.place[d] += 1
        self.under_way[d] = False
        return "0"

    def awaits(self, turned):
        """The stops that each stop awaits, its own drone's stop before it included."""
        awaits = {(d, k): {(d, k - 1)} if k else set() for d, last in enumerate(self.last) for k in range(last + 1)}
        for w in range(len(self.dependencies)):
            a, s, b, k = self.in_force(w, turned)
            awaits[(b, k)].add((a, s + 1))
        return awaits

    def cyclic(self, turned):
        """Stops are removed once nothing that they await is left."""
        awaits = self.awaits(turned)
        while True:
            free = [v for v, before in awaits.items() if not before]
            if not free:
                return bool(awaits)
            for v in free:
                del awaits[v]
            for before in awaits.values():
                before.difference_update(free)

    def turn(self, w):
        if w >= len(self.dependencies):
            return "30"
        a, s, b, k = self.dependencies[w]
        if s == 0 or k == self.last[b]:
            return "31"
        first, first_stop, _, _ = self.in_force(w, self.turned)
        if self.entered(first, first_stop):
            return "32"
        turned = self.turned[:]
        turned[w] = not turned[w]
        if self.cyclic(turned):
            return "34"
        self.turned = turned
        return "0"

    def played(self):
        """The cost by play: a drone whose next stop has all awaited stops visited at the round's start flies one round more, and visits the stop when its leg is full."""
        place, flown, total = self.place[:], [0] * len(self.last), 0
        while True:
            left = [d for d, last in enumerate(self.last) if place[d] < last]
            if not left:
                return total
            total += len(left)
            goers = [d for d in left if not any(True for _ in self.unmet(d, place))]
            for d in goers:
                flown[d] += 1
                if flown[d] == self.legs[d][place[d] + 1]:
                    place[d], flown[d] = place[d] + 1, 0

    def cost(self, _):
        """A stop is reached LEG rounds after the last stop it awaits; what was visited before, at round 0. Rounds are put down again and again until none changes. Where few legs are left, a play must
        say the same."""
        awaits = {stop: before for stop, before in self.awaits(self.turned).items() if stop[1] > self.place[stop[0]]}
        reached, changed = {}, True
        while changed:
            changed = False
            for (d, k), before in awaits.items():
                after = max(reached.get(stop, 0) for stop in before) + self.legs[d][k]
                if reached.get((d, k)) != after:
                    reached[d, k], changed = after, True
        total = sum(reached.get((d, last), 0) for d, last in enumerate(self.last))
        if sum(self.legs[d][k] for d, k in awaits) <= FEW:
            assert total == self.played()
        return str(total)


def plan_length(data):
    """The bytes through the first line `end=plan`, or all if there is none."""
    at = 0
    while not data.startswith(b"end=plan\n", at):
        at = data.find(b"\n", at) + 1
        if at == 0:
            return len(data)
    return at + len(b"end=plan\n")


def planned(text, site):
    """The field of a plan text, read with a site text or without, and the pairs that are near."""
    pairs = [] if site is None else read_site(site)
    routes = read(text)
    return Field(routes, check(routes, pairs)), pairs


def called(field, data):
    """What is printed of call lines."""
    calls = {b"grant": field.grant, b"arrive": field.arrive, b"turn": field.turn, b"cost": field.cost}
    out, at = [], 0
    while at < len(data):
        end = data.find(b"\n", at)
        key, sep, digits = data[at:end].partition(b"=") if end >= 0 else (b"", b"", b"")
        if key not in calls or not sep:
            return b"".join(out) + b"call=2\n"
        try:
            n = number(digits)
        except Refused:
            return b"".join(out) + b"call=2\n"
        if n > (0 if key == b"cost" else 65535):
            return b"".join(out) + b"call=4\n"
        out.append(key + b"=" + calls[key](n).encode() + b"\n")
        at = end + 1
    return b"".join(out) + b"end=calls\n"


def reckon(data, site=None):
    if len(data) > INPUT:
        return b"plan=1\n"
    at = plan_length(data)
    try:
        field, _ = planned(data[:at], site)
    except Refused as refused:
        return b"plan=%d\n" % refused.number
    return b"plan=0\n" + called(field, data[at:])


def joined_text(first, second):
    """The drones of one text and then those of the other. It is of form 2 if either is, and what is of form 1 then has legs of one, and 0 at each drone's first stop."""
    form, lines = max(first[5:6], second[5:6]), []
    for text in (first, second):
        own = text.split(b"\n")[2:-2]
        for before, line in zip([b""] + own, own):
            leg = b"" if text[5:6] == form or not line.startswith(b"go=") else b"@0" if before.startswith(b"stops=") else b"@1"
            lines.append(line + leg + b"\n")
    drones = sum(line.startswith(b"name=") for line in lines)
    return b"plan=%s\nagents=%d\n%send=plan\n" % (form, drones, b"".join(lines))


def join(first, second):
    """The field of two plans joined, each of them a plan text with the calls made on it, and its site text or none. Both are read, neither has started, and the same pairs are near, or it is 40 or 16; then
    the joined text is read."""
    fields, texts, sites = [], [], []
    for data, site in (first, second):
        at = plan_length(data)
        try:
            field, pairs = planned(data[:at], site)
        except Refused:
            raise Refused(40)
        called(field, data[at:])
        fields.append(field), texts.append(data[:at]), sites.append(pairs)
    if any(any(field.place) or any(field.under_way) or any(field.turned) for field in fields) or sites[0] != sites[1]:
        raise Refused(16)
    routes = read(joined_text(*texts))
    return Field(routes, check(routes, sites[0]))


def reckon_join(data, first, second):
    try:
        field = join(first, second)
    except Refused as refused:
        return b"join=%d%s\n" % (refused.number, b":" * bool(refused.values) + b",".join(b"%d" % n for n in refused.values))
    return b"join=0\n" + called(field, data)


# ---- the cheapest directions

Best = namedtuple("Best", "budget home site")


class Choices:
    """The choices of directions from where the drones are. Those that are carried home wait for nobody, nobody waits for them, and they cost nothing."""

    def __init__(self, field, home):
        self.field, self.flying = field, [d for d in range(len(field.last)) if d not in home]
        self.closed, self.open = [], []
        for w, (a, s, b, k) in enumerate(field.dependencies):
            first, first_stop, second, second_stop = field.in_force(w, field.turned)
            if a in home or b in home:
                continue
            left, turned = ((first, first_stop + 1), (second, second_stop)), ((second, second_stop + 1), (first, first_stop))
            if s == 0 or k == field.last[b] or field.entered(first, first_stop):
                self.closed.append(left)
            else:
                self.open.append((w, left, turned))

    def cost(self, turned):
        """Of the choice that turns the dependencies with True and leaves those with False, the others left out. A stop is put down once all that it awaits is, with the round in which it is reached; where
        some never are, there is a cycle, and no cost."""
        waits = self.closed + [self.open[i][2 if way else 1] for i, way in enumerate(turned)]
        followers, missing, rounds = {}, {}, {}
        for d in self.flying:
            waits = waits + [((d, k), (d, k + 1)) for k in range(self.field.last[d])]
            missing.update(((d, k), 0) for k in range(self.field.last[d] + 1))
        for before, after in waits:
            followers.setdefault(before, []).append(after)
            missing[after] += 1
        ready, latest = [stop for stop, n in missing.items() if n == 0], {}
        while ready:
            stop = ready.pop()
            d, k = stop
            rounds[stop] = 0 if k <= self.field.place[d] else latest.get(stop, 0) + self.field.legs[d][k]
            for after in followers.get(stop, ()):
                latest[after] = max(latest.get(after, 0), rounds[stop])
                missing[after] -= 1
                if missing[after] == 0:
                    ready.append(after)
        return sum(rounds[d, self.field.last[d]] for d in self.flying) if len(rounds) == len(missing) else None

    def walk(self, budget):
        """The least cost, the count and the list; or None for more choices than the budget. The choices to come stand on a pile, the next one on top."""
        best, list_, count, pile = None, None, 0, [()]
        while pile:
            choice = pile.pop()
            cost = self.cost(choice)
            if cost is None or (best is not None and cost >= best):
                continue
            if count == budget:
                return None
            count += 1
            if len(choice) < len(self.open):
                pile += [choice + (True,), choice + (False,)]
            else:
                best, list_ = cost, [w for (w, _, _), way in zip(self.open, choice) if way]
        return best, count, list_


def best_line(field, budget, home):
    if not 1 <= budget <= BUDGET:
        return b"best=38\n"
    found = Choices(field, home).walk(budget)
    if found is None:
        return b"best=37:%d\n" % budget
    cost, count, list_ = found
    return b"best=0:%s\n" % b",".join(b"%d" % n for n in [cost, count, *list_])


def reckon_best(data, asked):
    at = plan_length(data)
    try:
        field, _ = planned(data[:at], asked.site)
    except Refused as refused:
        return b"plan=%d\nbest=40\n" % refused.number
    printed = called(field, data[at:])
    return b"plan=0\n" + printed + best_line(field, asked.budget, asked.home)


# ---- inputs of our own

def with_legs(rng, routes):
    """The routes with legs, mostly such as the times rise by; these may be drawn out, so that long legs fit, which changes nothing in who meets whom."""
    latest = max(time for route in routes for _, time in route)
    pace, longest = rng.choice([n for n in (1, 1, 5, LEG) if n * latest <= TIME]), rng.choice([1, 4, LEG])

    def leg(rise):
        fits = max(1, min(rise, longest))
        return min(rise + 1, LEG) if rng.random() < 0.003 else rng.choice([fits, rng.randint(1, fits)])

    return [[(place, pace * time, leg(pace * (time - route[k - 1][1])) if k else 0) for k, (place, time) in enumerate(route)] for route in routes]


def spoiled(rng, routes):
    """Some of 8, 12 and 9 at one stop."""
    d = rng.randrange(len(routes))
    if len(routes[d]) > 1:
        k = rng.randrange(1, len(routes[d]))
        (before, earlier, _), (place, time, leg) = routes[d][k - 1], routes[d][k]
        routes[d][k] = (rng.choice([before, place]), rng.choice([earlier, earlier + leg - 1, earlier + leg, time]), leg)


def plan(rng):
    """Routes over few locations; a stop that would collide is put off or left out."""
    drones = rng.choice([1, 2, 2, 3, 4, 6, 12]) if rng.random() < 0.98 else rng.choice([32, 33, 64, 65])
    places = rng.choice([3, 6, 10, 40])
    spans, routes = [], []
    for d in range(drones):
        route, time = [], 0
        for k in range(rng.randint(1, rng.choice([3, 6, 12]))):
            place = rng.randrange(places) if k else 100 + d
            if route and place == route[-1][0]:
                continue
            route.append((place, time))
            time += rng.randint(1, 9)
        while route:
            mine = [(p, t, route[k + 1][1] if k + 1 < len(route) else float("inf")) for k, (p, t) in enumerate(route)]
            clash = [k for k, (p, t, e) in enumerate(mine) if any(p == q and t <= f and u <= e for q, u, f in spans)]
            if not clash or rng.random() < 0.01:
                break
            k = clash[0]
            if k and rng.random() < 0.7:
                shift = rng.randint(1, 30)
                route = route[:k] + [(p, t + shift) for p, t in route[k:]]
            else:
                route = route[:max(k, 1)] if k else route[:1]
            if max(t for _, t in route) > 2000:
                route = route[:1]
        spans += [(p, t, route[k + 1][1] if k + 1 < len(route) else float("inf")) for k, (p, t) in enumerate(route)]
        routes.append(route)
    return routes


def text_of(rng, routes, first=0):
    """In form 1 of routes without legs, in form 2 of those with them. The names are numbered from some number on, and now and then one is not, unless there is no `rng`."""
    form = len(routes[0][0]) - 1
    lines = ["plan=%d" % form, "agents=%d" % len(routes)]
    for d, route in enumerate(routes, first):
        lines += ["name=survey-quad-east-%d" % d if rng is None or rng.random() < 0.98 else "name=survey", "stops=%d" % len(route)]
        lines += ["go=" + "@".join(map(str, stop)) for stop in route]
    return "\n".join(lines + ["end=plan", ""]).encode()


def spelled(rng, data):
    """Some of the names with capitals."""
    return re.sub(rb"name=([^\n]*)", lambda m: b"name=" + rng.choice([m[1], m[1], m[1].upper(), m[1].title()]), data)


def calls_of(rng, routes):
    lines = []
    for _ in range(rng.randint(0, 80)):
        kind = rng.choice(["grant", "grant", "grant", "arrive", "arrive", "turn", "cost"])
        lines.append("%s=%d" % (kind, 0 if kind == "cost" else rng.randrange(12) if kind == "turn" else rng.randrange(len(routes) + (rng.random() < 0.1))))
    if rng.random() < 0.1:
        lines.append(rng.choice(["grant=65536", "cost=1", "grant=01", "Grant=0", "turn=", "cost=0 ", "grant=99999999"]))
    return "".join(line + "\n" for line in lines).encode()


def other_line(rng, line):
    """A `go=` line with a number less, a number more or another leg."""
    numbers = line.split(b"@")
    return b"@".join(numbers[:rng.randint(1, len(numbers))] + [rng.choice([b"0", b"1", b"2", b"59", b"60", b"61", b"256", b"01", b"", b"9999999"])] * rng.randint(0, 1))


def damaged(rng, data):
    if rng.random() < 0.3:
        lines = data.split(b"\n")
        k = rng.choice([0] + [k for k, line in enumerate(lines) if line.startswith(b"go=")])
        lines[k] = rng.choice([b"plan=1", b"plan=2", b"plan=3", b"plan=12"]) if k == 0 else other_line(rng, lines[k])
        return b"\n".join(lines)
    data = bytearray(data)
    for _ in range(rng.randint(1, 2)):
        i = rng.randrange(len(data))
        what = rng.randrange(4)
        if what == 0:
            del data[i]
        elif what == 1:
            data[i] = rng.choice(b"0123456789=@\na-zAZ[ ")
        elif what == 2:
            data.insert(i, rng.choice(b"0123456789=@\na-z"))
        else:
            del data[i:]
        if not data:
            break
    return bytes(data)


def site_of(rng, routes):
    """A site text with some pairs of locations that the routes go to, mostly such that nobody collides, and some others."""
    visited, pairs = sorted({stop[0] for route in routes for stop in route}), set()
    with_legs_of_some = [[stop if len(stop) == 3 else stop + (int(k > 0),) for k, stop in enumerate(route)] for route in routes]
    for _ in range(rng.choice([0, 1, 2, 4, 12])):
        more = pairs | {tuple(sorted(rng.sample(visited, 2)))} if len(visited) > 1 else pairs
        try:
            check(with_legs_of_some, sorted(more))
        except Refused:
            if rng.random() < 0.9:
                continue
        pairs = more
    for _ in range(rng.choice([0, 0, 3, PAIRS, PAIRS + 1])):
        if len(pairs) < PAIRS or rng.random() < 0.5:
            low = rng.randint(1000, LOCATION - 1)
            pairs.add((low, rng.randint(low + 1, LOCATION)))
    return "".join(["site=1\npairs=%d\n" % len(pairs)] + ["near=%d,%d\n" % pair for pair in sorted(pairs)] + ["end=site\n"]).encode()


def other_site(rng, site):
    """A line of the site text is left out, doubled, moved or has other numbers; or bytes are damaged, or nothing is left."""
    if rng.random() < 0.1:
        return b""
    if rng.random() < 0.3:
        return damaged(rng, site)
    lines = site.split(b"\n")[:-1]
    k = rng.randrange(len(lines))
    if lines[k].startswith(b"near="):
        low, high = map(int, lines[k][5:].split(b","))
        numbers = [low, high, low + 1, high - 1, 0, LOCATION, LOCATION + 1, 9999999, 10000000]
        other = b"near=" + b",".join(b"%s%d" % (b"0" * (rng.random() < 0.1), rng.choice(numbers)) for _ in range(rng.choice([1, 2, 2, 2, 2, 2, 2, 3])))
    else:
        other = rng.choice([b"site=1", b"site=2", b"pairs=0", b"pairs=1", b"pairs=256", b"pairs=257", b"pairs=10000000", b"near=1,2", b"end=site", b"end=plan", b""])
    what = rng.randrange(5)
    if what == 0:
        lines.insert(k, other)
    elif what == 1:
        del lines[k]
    elif what == 2:
        lines[k - 1], lines[k] = lines[k], lines[k - 1]
    else:
        lines[k] = other
    return b"".join(line + b"\n" for line in lines)


def full(leg=None):
    """Four locations that half of the drones cross, and four for the other half, each drone three timesteps after the one before; its other stops are its own."""
    routes = []
    for d in range(DRONES):
        route = []
        for k in range(STOPS // DRONES):
            crossing, rest = divmod(k, 8)
            visit = (crossing + d // 32 * 8 if rest == 4 else 100 + 32 * d + k, 0 if k == 0 else 2000 * crossing + 3 * d + (801 if rest == 5 else 200 * rest))
            # a leg of at most one where a drone leaves a crossing as soon as it has come
            route.append(visit if leg is None else visit + (0 if k == 0 else 1 if rest == 5 else leg,))
        routes.append(route)
    data = text_of(random.Random(0), routes).replace(b"name=survey\n", b"name=survey-quad\n")
    d = 0
    while True:
        more = b"grant=%d\narrive=%d\n" % (d, d) + (b"cost=0\n" if d == DRONES - 1 else b"")
        if len(data) + len(more) > INPUT:
            return data
        data += more
        d = (d + 1) % DRONES


def filled(data, length, *lines):
    """The data and lines of two lengths, one byte apart, until the length is met exactly."""
    more = length - len(data)
    longer = more % len(lines[0])
    return data + lines[0] * (more // len(lines[0]) - longer) + lines[1] * longer


def limits(rng):
    """Inputs at the limits of the input and of the text, one and three bytes past them and twice as long: valid calls after a plan, the last of them cut, a plan without its end, and bytes that are
    nothing. Then inputs that go from one buffer to the next within a line, at each of its bytes: a call, and the end of a plan."""
    routes = [[(1, 0), (5, 1), (2, 2)], [(3, 0), (5, 4), (4, 5)]]
    taken = text_of(rng, routes)
    begun = taken[: -len(b"end=plan\n")]
    for before in range(10):
        yield filled(taken, BUFFER - before, b"cost=0\n", b"grant=9\n") + b"grant=0\narrive=0\ngrant=0\ncost=0\narrive=0\ngrant=1\n"
        yield filled(taken, BUFFER - before, b"cost=0\n", b"grant=9\n") + b"turn=0\ncost=0\ngrant=x\n"
        yield filled(begun, BUFFER - before, b"go=6@9\n", b"go=66@9\n") + b"end=plan\ncost=0\n"
        yield filled(begun, BUFFER - before, b"a" * 7, b"a" * 8) + b"end=plan\n"
    for length in sorted({n for limit in (TEXT, INPUT) for n in (limit - 1, limit, limit + 1, limit + 3, 2 * limit + 1)}):
        calls = filled(taken, length, b"cost=0\n", b"grant=9\n")
        yield calls
        yield calls[:-1]
        yield calls[:-1] + b"0"
        yield filled(begun, length, b"go=6@9\n", b"go=66@9\n")
        yield filled(begun, length - len(b"end=plan\n"), b"go=6@9\n", b"go=66@9\n") + b"end=plan\n"
        yield b"\n" * length
        yield b"a" * length


def printed(program, data, pieces, besides):
    """What the program prints; the input comes in so many pieces, as from a slow sender. Besides it may have a site text in a file that is its argument, or the files of two plans and their site texts, or
    what is asked of the cheapest directions."""
    if besides is not None:
        with tempfile.TemporaryDirectory() as folder:
            words = [program] if isinstance(besides, bytes) else [program, "--join"]
            if isinstance(besides, Best):
                words = [program, "--best", str(besides.budget), ",".join(map(str, besides.home)) or "-"]
            for i, content in enumerate(texts_of(besides)):
                words.append("-" if content is None else "%s/%d" % (folder, i))
                if content is not None:
                    with open(words[-1], "wb") as file:
                        file.write(content)
            return subprocess.run(words, input=data, capture_output=True).stdout
    if pieces == 1:
        return subprocess.run([program], input=data, capture_output=True).stdout
    with subprocess.Popen([program], stdin=subprocess.PIPE, stdout=subprocess.PIPE) as run:
        try:
            for i in range(pieces):
                run.stdin.write(data[i * len(data) // pieces : (i + 1) * len(data) // pieces])
                run.stdin.flush()
                time.sleep(0.002)
        except BrokenPipeError:
            pass
        return run.communicate()[0]


def texts_of(besides):
    """The texts that come with an input in files of their own."""
    if besides is None:
        return []
    return [besides] if isinstance(besides, bytes) else [besides.site] if isinstance(besides, Best) else besides[0] + besides[1]


def reckoned(data, besides):
    if isinstance(besides, Best):
        return reckon_best(data, besides)
    return reckon(data, besides) if besides is None or isinstance(besides, bytes) else reckon_join(data, *besides)


def plan_with_calls(rng):
    """The routes of a plan of either form, and the input: its text and calls, sometimes damaged."""
    routes = plan(rng)
    if rng.random() < 0.5:
        routes = with_legs(rng, routes)
        if rng.random() < 0.05:
            spoiled(rng, routes)
    data = spelled(rng, text_of(rng, routes)) + calls_of(rng, routes)
    return routes, damaged(rng, data) if rng.random() < 0.3 else data


def inputs(rng, count):
    """Those at the limits, whole and in pieces; then plans with calls, some of them damaged. No site texts."""
    for data in limits(rng):
        yield data, 1, None
        yield data, 3, None
    for _ in range(count):
        yield plan_with_calls(rng)[1], 1, None


def inputs_at_sites(rng, count):
    """Plans with calls, some of them damaged, and a site text with each, which may be damaged too; then a text too long with a site text, whole and damaged."""
    site = b""
    for _ in range(count):
        routes, data = plan_with_calls(rng)
        site = site_of(rng, routes)
        yield data, 1, site if rng.random() < 0.6 else other_site(rng, site)
    for _ in range(10):
        yield b"\n" * (TEXT + 1), 1, rng.choice([site, other_site(rng, site)])


def before_the_join(rng, routes, first, site):
    """A plan for a join: its text with a few calls, if any, and its site text."""
    data = spelled(rng, text_of(rng, routes, first))
    if rng.random() < 0.15:
        data += b"".join(rng.choice([b"grant=%d\n", b"grant=%d\narrive=%d\n", b"turn=%d\n", b"turn=%d\nturn=%d\n"]).replace(b"%d", b"%d" % rng.randrange(3)) for _ in range(rng.randint(1, 2)))
    return damaged(rng, data) if rng.random() < 0.05 else data, site


def long_routes(first, stops):
    """Drones of so many stops, each between two locations of its own, in long lines."""
    return [[(20000 + 2 * d + k % 2, 800000 + 60 * k if k else 0) for k in range(n)] for d, n in enumerate(stops, first)]


def crossing_routes(first, drones, crossings):
    """Drones that pass the same crossings one after the other."""
    return [[(200 + d, 0)] + [stop for c in range(crossings) for stop in ((c, 1 + 1000 * c + 3 * d), (100 + d, 2 + 1000 * c + 3 * d))] for d in range(first, first + drones)]


def joins_at_the_limits():
    """Drones, stops, texts and dependencies at the limits, one past them and far past them, in all forms."""
    sizes = [([1] * 32, [1] * 32), ([1] * 33, [1] * 32), ([1] * 64, [1]), ([32] * 32, [32] * 32), ([32] * 32, [32] * 31 + [33]), ([2048], [1]), ([1], [2048]), ([1, 1, 2040], [3, 4]), ([2048], [2048])]
    both = [(long_routes(0, first), long_routes(len(first), second)) for first, second in sizes]
    both += [(crossing_routes(0, 32, crossings), crossing_routes(32, 32, crossings)) for crossings in (2, 3)]
    legs = lambda routes: [[stop + (1 if k else 0,) for k, stop in enumerate(route)] for route in routes]
    for first, second in both:
        for forms in ((1, 1), (1, 2), (2, 1), (2, 2)):
            yield [text_of(None, legs(routes) if form == 2 else routes, at) for form, routes, at in zip(forms, (first, second), (0, len(first)))]


def inputs_of_joins(rng, count):
    """One plan's drones in two plans, in forms of their own, mostly with the same site text, and calls on the joined plan; then those at the limits."""
    for _ in range(count):
        routes = plan(rng)
        while not 2 <= len(routes) <= DRONES:
            routes = plan(rng)
        site = site_of(rng, routes) if rng.random() < 0.5 else None
        other = rng.choice([None, b"site=1\npairs=0\nend=site\n", site_of(rng, routes)]) if rng.random() < 0.15 else site
        pace, here = rng.choice([1, 5]), rng.randint(1, len(routes) - 1)
        drawn_out = [[(place, pace * time) for place, time in route] for route in routes]
        parts = [part if rng.random() < 0.5 else [[stop + (rng.randint(1, pace) if k else 0,) for k, stop in enumerate(route)] for route in part] for part in (drawn_out[:here], drawn_out[here:])]
        first = here if rng.random() < 0.9 else here - 1
        yield calls_of(rng, routes), 1, (before_the_join(rng, parts[0], 0, site), before_the_join(rng, parts[1], first, other))
    for first, second in joins_at_the_limits():
        yield b"cost=0\ngrant=0\n", 1, ((first, None), (second, None))


def crossed(rng):
    """Routes with legs or without, mostly such that some dependencies can be turned."""
    wanted = rng.choice([0, 2, 4, 8])
    while True:
        routes = plan(rng)
        try:
            waits = check([[stop + (int(k > 0),) for k, stop in enumerate(route)] for route in routes])
        except Refused:
            continue
        if sum(s > 0 and k + 1 < len(routes[b]) for _, s, b, k in waits) >= wanted:
            return with_legs(rng, routes) if rng.random() < 0.5 else routes


def inputs_of_best(rng, count):
    """Plans with a few calls, seldom damaged, sometimes at a site, and then the cheapest directions: within few choices, within just as many as there are, one less, and budgets out of range."""
    for _ in range(count):
        routes = crossed(rng)
        lines = calls_of(rng, routes).split(b"\n")[: rng.choice([0, 4, 15, 80])]
        data = text_of(None, routes) + b"".join(line + b"\n" for line in lines if line)
        data = damaged(rng, data) if rng.random() < 0.03 else data
        site = site_of(rng, routes) if rng.random() < 0.3 else None
        home = sorted(d for d in range(len(routes)) if rng.random() < 0.1) if rng.random() < 0.3 else []
        exact = re.search(rb"best=0:\d+,(\d+)", reckon_best(data, Best(60, home, site)))
        budgets = [int(exact[1]), int(exact[1]) - 1, int(exact[1]) + 1, BUDGET] if exact else [1, 5, 60, 150]
        yield data, 1, Best(rng.choice(budgets) if rng.random() < 0.8 else rng.choice([0, 1, 2, 3, 10, BUDGET + 1]), home, site)


def shown(data):
    """The data, or the ends of it where it is long."""
    text = data.decode("latin1")
    return text if len(text) < 4000 else "%s\n.. %d bytes ..\n%s" % (text[:400], len(text) - 800, text[-400:])


def against(program, count, seed, inputs):
    seen, i = {}, -1
    for i, (data, pieces, besides) in enumerate(inputs(random.Random(seed), count)):
        got, want = printed(program, data, pieces, besides), reckoned(data, besides)
        if got != want:
            words = "".join("with\n%s--- " % shown(text) for text in texts_of(besides) if text is not None)
            words += "asked %d %s " % besides[:2] if isinstance(besides, Best) else ""
            sys.exit("input %d of seed %d, %d bytes, %sdiffers:\n%s--- printed\n%s--- reckoned\n%s" % (i, seed, len(data), words, shown(data), shown(got), shown(want)))
        for line in want.split(b"\n"):
            key = line.split(b":")[0] if not line.startswith(b"cost") else b"cost"
            seen[key] = seen.get(key, 0) + 1
    print("%d inputs agree, %d of them at the limits; lines seen: %s" % (i + 1, i + 1 - count, ", ".join("%s %d" % (k.decode(), n) for k, n in sorted(seen.items()) if k)))


if __name__ == "__main__":
    kinds = {"--against": inputs, "--sites": inputs_at_sites, "--joins": inputs_of_joins, "--best": inputs_of_best}
    if len(sys.argv) > 2 and sys.argv[1] in kinds:
        made = kinds[sys.argv[1]]
        against(sys.argv[2], int(sys.argv[3]) if len(sys.argv) > 3 else 1000, int(sys.argv[4]) if len(sys.argv) > 4 else 1, made)
    elif len(sys.argv) == 3 and sys.argv[1] == "--site":
        with open(sys.argv[2], "rb") as file:
            sys.stdout.buffer.write(reckon(sys.stdin.buffer.read(INPUT + 1), file.read()))
    elif sys.argv[1:2] == ["--full"] and len(sys.argv) <= 3:
        sys.stdout.buffer.write(full(*map(int, sys.argv[2:])))
    elif len(sys.argv) == 1:
        sys.stdout.buffer.write(reckon(sys.stdin.buffer.read(INPUT + 1)))
    else:
        sys.exit(__doc__)
