#!/usr/bin/env python3
"""Two builds of bench/calls beside each other, run turn and turn about: bench/beside.py BEFORE NOW [TURNS [REPEATS]].

For each plan and call the best time of all turns, in microseconds: now, and in brackets how many times that before. Then each call with its times added up and where it fares worst, and the stack of
both. `bench/run --beside ARCHIVE` builds the two and runs it."""
import subprocess
import sys


def measured(program, repeats, times, stacks):
    for line in subprocess.run([program, str(repeats)], capture_output=True, text=True, check=True).stdout.splitlines():
        kind, *words = line.split("\t")
        if kind == "time":
            shape, call, took, number = words
            times[shape, call] = min(times.get((shape, call), (1e18, number)), (float(took), number))
        elif kind == "stack":
            stacks[words[0]] = max(stacks.get(words[0], 0), int(words[1]))


def main(before, now, turns=5, repeats=40):
    times, stacks = ({}, {}), ({}, {})
    for turn in range(turns):
        for which in (0, 1) if turn % 2 == 0 else (1, 0):
            measured((before, now)[which], repeats, times[which], stacks[which])
    print("microseconds now (times those before), best of %d in %d turns" % (repeats, turns))
    shapes = list(dict.fromkeys(shape for shape, _ in times[1]))
    for shape in shapes:
        words = []
        for (_, call), (took, number) in ((key, value) for key, value in times[1].items() if key[0] == shape):
            was = times[0].get((shape, call))
            other = "" if was is None or was[1] == number else ", was refused by %s" % was[1] if was[1] != "0" else ", was accepted"
            words.append("%s %.1f (%s%s%s)" % (call, took, "new" if was is None else "%.2f" % (took / was[0]), other, "" if number == "0" else "; %s" % number))
        print("%s | %s" % (shape, " ".join(words)))
    print("%-14s %12s %12s %7s %8s   where it fares worst" % ("all plans", "before", "now", "times", "at worst"))
    for call in dict.fromkeys(call for _, call in times[1]):
        both = [(times[0][key][0], times[1][key][0], key[0]) for key in times[1] if key[1] == call and key in times[0]]
        if both:
            was, took = sum(b for b, _, _ in both), sum(n for _, n, _ in both)
            worst = max(both, key=lambda row: row[1] / row[0])
            print("%-14s %12.1f %12.1f %7.2f %8.2f   %s: %.1f, before %.1f" % (call, was, took, took / was, worst[1] / worst[0], " ".join(worst[2].split()), worst[1], worst[0]))
    print("bytes of stack, the most seen: before, now")
    for call in stacks[1]:
        print("  %-14s %7s %7d" % (call, stacks[0].get(call, ""), stacks[1][call]))


if __name__ == "__main__":
    if not 3 <= len(sys.argv) <= 5:
        sys.exit(__doc__)
    main(sys.argv[1], sys.argv[2], *map(int, sys.argv[3:]))
