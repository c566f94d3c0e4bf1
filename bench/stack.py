"""Writes the table of each call's stack into bindings/c/conductor.h, from the lines that bench/calls prints with a number of repeats: stack.py < LINES. bench/run --stack measures and writes it."""
import re
import sys

path = "bindings/c/conductor.h"
header = open(path).read()
measured = dict(line.split("\t")[1:] for line in sys.stdin.read().splitlines() if line.startswith("stack\t"))
calls = [name for name in re.findall(r"\bconductor_(\w+)\((?:const )?(?:conductor_tables \*|size_t number, void)", header) if name in measured]
shown = ["%-11s %7s" % (name, format(int(measured[name]), ",")) for name in calls]
rows = ["    ".join(shown[i : i + 5]) for i in range(0, len(shown), 5)]
large = [name for name in calls if int(measured[name]) > 112 * 1024]
# 32 KiB to spare, in steps of 50
wants = (max((int(measured[name]) for name in large), default=0) // 1024 + 32) // 50 * 50 + 50
closing = " * These are measured and no proof bounds them: leave room. 128 KiB are enough for every call%s.\n" % (" but %s, for which %d are" % (" and ".join(large), wants) if large else "")
begin, end = " * bench/calls.c (", " *\n * SAVE AND RESTORE."
at = header.index("\n *\n", header.index(begin)) + 4
open(path, "w").write(header[:at] + "".join(" *     %s\n" % row for row in rows) + " *\n" + closing + header[header.index(end) :])
