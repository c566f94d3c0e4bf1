"""Shows a plan: python -m conductor PLAN

PLAN is a file with a plan text, or - for standard input. Before the plan there may be a site text, and after it call lines (grant=0, arrive=0, withdraw=0, turn=0, turn=0,1 for a list), which are made
first; a call that is refused is told on standard error.
"""
from __future__ import annotations

import sys
from typing import Iterator

from . import Conductor, Drone, InForce, Refused


def split_after(text: str, line: str) -> tuple[str, str]:
    """What stands before the end of a line, and what after it; all before it, where there is no such line."""
    end = text.find(line)
    return (text, "") if end < 0 else (text[: end + len(line)], text[end + len(line) :])


def make(field: Conductor, line: str) -> None:
    """Makes the call of a line."""
    key, _, value = line.partition("=")
    calls = {"grant": field.grant, "arrive": field.arrive, "withdraw": field.withdraw, "turn": field.turn}
    if key not in calls or not all(number.isdecimal() for number in value.split(",")):
        raise ValueError("no call line")
    numbers = [int(number) for number in value.split(",")]
    if len(numbers) == 1:
        calls[key](numbers[0])
    elif key == "turn":
        field.turn_all(numbers)
    else:
        raise ValueError("no call line")


def state(drone: Drone, waits: list[InForce]) -> str:
    """What a drone does, and for whom it waits."""
    if drone.withdrawn:
        return "carried home"
    if drone.finished:
        return "at its last stop"
    if drone.under_way:
        return "under way to %d" % drone.stops[drone.visited + 1].location
    held = [d for d in waits if not d.met and (d.waits.drone, d.waits.stop) == (drone.number, drone.visited + 1)]
    if held:
        return "waits at %d for %s" % (held[0].waits.location, ", ".join("%s (dependency %d)" % (d.first.name, d.number) for d in held))
    return "may go to %d" % drone.stops[drone.visited + 1].location


def shown(field: Conductor) -> Iterator[str]:
    """The plan, a line for each drone and each dependency."""
    drones, waits = field.drones(), field.in_force()
    met = sum(d.met for d in waits)
    turned = sum(d.turned for d in waits)
    yield "%d drones, %d dependencies (%d met, %d turned); cost %d, %d rounds to fly" % (len(drones), len(waits), met, turned, field.cost(), field.rounds())
    wide = max(len(drone.name) for drone in drones)
    for drone in drones:
        route = ["%s%d@%d" % ("*" if k == drone.visited else "", stop.location, stop.time) for k, stop in enumerate(drone.stops)]
        yield "%3d  %-*s  %s; %s" % (drone.number, wide, drone.name, state(drone, waits), " ".join(route))
    for d in waits:
        marks = [mark for mark, on in (("met", d.met), ("turned", d.turned), ("fixed", d.fixed)) if on]
        at = "%d" % d.first.location if d.first.location == d.waits.location else "%d, %d" % (d.first.location, d.waits.location)
        yield "%5d: at %s %s goes before %s%s" % (d.number, at, d.first.name, d.waits.name, " (%s)" % ", ".join(marks) if marks else "")


def main(words: list[str]) -> int:
    if len(words) != 1 or words[0] in ("-h", "--help"):
        print(__doc__, end="", file=sys.stderr)
        return 2
    try:
        text = sys.stdin.read() if words[0] == "-" else open(words[0], encoding="utf-8").read()
    except OSError as wrong:
        print("no plan: %s" % wrong, file=sys.stderr)
        return 1
    site, text = split_after(text, "\nend=site\n") if text.startswith("site=") else ("", text)
    plan, calls = split_after(text, "\nend=plan\n")
    field = Conductor()
    try:
        field.read_site(site.encode(), plan.encode()) if site else field.read(plan.encode())
    except Refused as refused:
        print("no plan: %s" % refused, file=sys.stderr)
        return 1
    for line in calls.splitlines():
        try:
            make(field, line)
        except (Refused, ValueError) as wrong:
            print("%s: %s" % (line, wrong), file=sys.stderr)
    print("\n".join(shown(field)))
    return 0


if __name__ == "__main__":
    sys.exit(main(sys.argv[1:]))
