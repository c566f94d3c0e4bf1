#!/usr/bin/env python3
"""`conductor run` beside the independent reckoning of tools/reckon.py: run_reckoned.py PROGRAM COUNT [SEED].

The program answers `field`'s lines as `field` does, but for one thing: it answers each line as it comes, so it cannot know that an input will be longer than 131,072 bytes; it has no such limit. The reckoning is
asked without it. After each plan that is taken, further calls are made that `field` does not have; these are reckoned here from the customer's words, over the reckoning's own field.
"""
import concurrent.futures
import importlib.util
import os
import random
import subprocess
import sys

ROOT = os.path.join(os.path.dirname(os.path.abspath(__file__)), "..", "..", "..")


def loaded():
    spec = importlib.util.spec_from_file_location("reckon", os.path.join(ROOT, "tools", "reckon.py"))
    module = importlib.util.module_from_spec(spec)
    spec.loader.exec_module(module)
    return module


reckon = loaded()
LIMIT = reckon.INPUT


def turns(field, listed):
    """36; 30 to 32 as the list is walked; 34 last. None if it would be done."""
    if not listed or any(a >= b for a, b in zip(listed, listed[1:])):
        return "36"
    for w in listed:
        if w >= len(field.dependencies):
            return "30"
        a, s, b, k = field.dependencies[w]
        if s == 0 or k == field.last[b]:
            return "31"
        first, stop, _, _ = field.in_force(w, field.turned)
        if field.entered(first, stop):
            return "32"
    turned = [flag != (w in listed) for w, flag in enumerate(field.turned)]
    return "34" if field.cyclic(turned) else turned


def preview(field, listed):
    outcome = turns(field, listed)
    if isinstance(outcome, str):
        return outcome
    now, before = int(field.cost(0)), field.turned
    field.turned = outcome
    after = int(field.cost(0))
    field.turned = before
    return "0:%d" % (after - now)


def turn_all(field, listed):
    outcome = turns(field, listed)
    if isinstance(outcome, str):
        return outcome
    field.turned = outcome
    return "0"


def rounds(field):
    """By play: the rounds until everybody stands at its last stop."""
    place, flown, total = field.place[:], [0] * len(field.last), 0
    while any(place[d] < last for d, last in enumerate(field.last)):
        total += 1
        goers = [d for d, last in enumerate(field.last) if place[d] < last and not any(True for _ in field.unmet(d, place))]
        for d in goers:
            flown[d] += 1
            if flown[d] == field.legs[d][place[d] + 1]:
                place[d], flown[d] = place[d] + 1, 0
    return total


def press(field, reported):
    if reported is not None:
        answer = field.arrive(reported)
        if answer != "0":
            return answer
    return "0:" + ",".join(str(d) for d in range(len(field.last)) if field.grant(d) == "0")


def best(field, budget):
    """Every choice in order, depth first, as the customer's words have it; only for a few dependencies."""
    if not 1 <= budget <= 100000:
        return "38"
    free = [w for w in range(len(field.dependencies)) if turns(field, [w]) in ("34",) or not isinstance(turns(field, [w]), str)]
    state = {"count": 0, "least": None, "choice": None}
    before = field.turned, field.dependencies

    def cost_of(chosen):
        """The cost with the undecided ones left out, or None where there is a cycle."""
        kept = [w for w in range(len(before[1])) if w not in free or w in chosen]
        field.dependencies = [before[1][w] for w in kept]
        field.turned = [before[0][w] != chosen.get(w, False) for w in kept]
        try:
            return None if field.cyclic(field.turned) else int(field.cost(0))
        finally:
            field.turned, field.dependencies = before

    def enter(depth, chosen):
        cost = cost_of(chosen)
        if cost is None or (state["least"] is not None and cost >= state["least"]):
            return
        state["count"] += 1
        if state["count"] > budget:
            raise OverflowError
        if depth == len(free):
            state["least"], state["choice"] = cost, [w for w in free if chosen[w]]
            return
        for turned in (False, True):
            enter(depth + 1, {**chosen, free[depth]: turned})

    try:
        enter(0, {})
    except OverflowError:
        return "37:%d" % budget
    return "0:%d:%d:%s" % (state["least"], state["count"], ",".join(map(str, state["choice"])))


def more_calls(rng, field):
    """Calls that `field` does not have, and their answers."""
    lines, out = [], []
    few = len(field.dependencies)
    legs = sum(sum(route) for route in field.legs)
    for _ in range(rng.randint(0, 12)):
        kind = rng.choice(["preview", "previews", "turns", "rounds", "press", "best", "turn", "grant"])
        listed = sorted(rng.sample(range(few + 2), min(few + 2, rng.randint(0, 4))))
        if rng.random() < 0.1:
            rng.shuffle(listed)
        some, drone = rng.randrange(few + 1), rng.randrange(len(field.last) + 1)
        if kind == "preview":
            line, answer = "preview=%d" % some, preview(field, [some])
        elif kind in ("previews", "turns"):
            line = "%s=%s" % (kind, ",".join(map(str, listed)))
            answer = preview(field, listed) if kind == "previews" else turn_all(field, listed)
        elif kind == "rounds":
            if legs > 600:
                continue
            line, answer = "rounds=0", str(rounds(field))
        elif kind == "press":
            reported = rng.choice([None, drone])
            line, answer = "press=%s" % ("none" if reported is None else reported), press(field, reported)
        elif kind == "best":
            if few > 4 or legs > 200:
                continue
            budget = rng.choice([0, 1, 2, 5, 100, 100000, 100001])
            line, answer = "best=%d" % budget, best(field, budget)
        elif kind == "turn":
            line, answer = "turn=%d" % some, field.turn(some)
        else:
            line, answer = "grant=%d" % drone, field.grant(drone)
        lines.append(line + "\n")
        out.append("%s=%s\n" % (line.split("=")[0], answer))
    return "".join(lines).encode(), "".join(out).encode()


def reckoned(data, rng):
    """The input with further calls, and what is to be printed."""
    at = reckon.plan_length(data)
    try:
        field, _ = reckon.planned(data[:at], None)
    except reckon.Refused as refused:
        return data, b"plan=%d\n" % refused.number
    out = b"plan=0\n" + reckon.called(field, data[at:])
    if rng is None or not out.endswith(b"end=calls\n"):
        return data, out
    lines, answers = more_calls(rng, field)
    return data + lines, out[: -len(b"end=calls\n")] + answers + b"end=calls\n"


def part(program, seed, count, at_limits):
    """Compares one part of the inputs; the lines that were seen."""
    reckon.INPUT = 1 << 40
    rng, seen, done = random.Random(seed), {}, 0
    own = [(data, None) for data in limits(random.Random(seed))] if at_limits else []
    for data, more in own + [(reckon.plan_with_calls(rng)[1], rng) for _ in range(count)]:
        data, want = reckoned(data, more)
        got = subprocess.run([program, "run", "-", "--quiet"], input=data, stdout=subprocess.PIPE).stdout
        if got != want:
            raise AssertionError("seed %d, input %d differs:\n%s--- printed\n%s--- reckoned\n%s" % (seed, done, data.decode("latin1")[:4000], got.decode("latin1")[-2000:], want.decode("latin1")[-2000:]))
        done += 1
        for line in want.split(b"\n"):
            key, _, answer = line.partition(b"=")
            kind = key + b"=" + (b"" if key in (b"cost", b"rounds") else answer.split(b":")[0])
            seen[kind] = seen.get(kind, 0) + 1
    return done, seen


def limits(rng):
    """Those at the limits of the text; an input may be as long as it likes."""
    reckon.INPUT = LIMIT
    inputs = list(reckon.limits(rng))
    reckon.INPUT = 1 << 40
    return inputs


def main():
    program, count = sys.argv[1], int(sys.argv[2])
    seed = int(sys.argv[3]) if len(sys.argv) > 3 else 1
    parts = 20
    with concurrent.futures.ProcessPoolExecutor(2) as pool:
        jobs = [pool.submit(part, program, seed * 1000 + i, count // parts, i == 0) for i in range(parts)]
        done, seen = 0, {}
        for job in jobs:
            some, kinds = job.result()
            done += some
            for kind, n in kinds.items():
                seen[kind] = seen.get(kind, 0) + n
    print("%d inputs agree; lines seen: %s" % (done, ", ".join("%s %d" % (k.decode(), n) for k, n in sorted(seen.items()) if k.strip(b"="))))


if __name__ == "__main__":
    main()
