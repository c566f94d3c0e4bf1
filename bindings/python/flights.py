"""Flight Q, also with legs, at sites with near crossings, by two planners and with its cheapest directions, and flight P through the Python class, numbers of every size, and two threads at once: python3 flights.py LIBRARY. Prints how many statements held."""
import sys
from threading import Barrier, Thread

from conductor import BUDGET, COST, DEPENDENCIES, DRONES, LEG, PAIRS, STOPS, TEXT, Conductor, InForce, NotRestored, Refused, Stop, Visit, meaning

Q = b"plan=1\nagents=2\nname=survey-quad-east-1\nstops=4\ngo=1@0\ngo=6@1\ngo=5@2\ngo=2@3\nname=survey-quad-east-2\nstops=3\ngo=3@0\ngo=5@4\ngo=4@5\nend=plan\n"
LEGS = b"plan=2\nagents=2\nname=survey-quad-east-1\nstops=4\ngo=1@0@0\ngo=6@1@1\ngo=5@4@3\ngo=2@5@1\nname=survey-quad-east-2\nstops=3\ngo=3@0@0\ngo=5@6@1\ngo=4@7@1\nend=plan\n"
P = b"plan=1\nagents=2\nname=a\nstops=4\ngo=10@0\ngo=20@1\ngo=30@2\ngo=40@3\nname=b\nstops=4\ngo=11@0\ngo=20@3\ngo=30@4\ngo=41@5\nend=plan\n"
END = b"end=plan\n"
HEAD, *LINES = Q[: -len(END)].split(b"name=")
EAST, WEST = (HEAD.replace(b"agents=2", b"agents=1") + b"name=" + lines + END for lines in LINES)  # Q's drones, each in a plan of its own
TABLES = ("drone_count", "dependency_count", "form", "names", "stop_counts", "locations", "times", "legs", "visited", "drone_flags", "dependencies", "pairs")
held, TRIES = 0, 200


def holds(got, want):
    global held
    if got != want:
        sys.exit("got %r, not %r" % (got, want))
    held += 1


def refusal(call, *words):
    try:
        call(*words)
    except Refused as refused:
        return refused.number, str(refused)
    return 0, ""


def told(number, words=""):
    """The number and the words of a refusal, with what goes with it."""
    return number, "refused with %d: %s%s" % (number, meaning(number), words)


def error(call, *words):
    try:
        call(*words)
    except (TypeError, ValueError) as wrong:
        return type(wrong)
    return None


def lookup(call, *words):
    try:
        call(*words)
    except LookupError:
        return True
    return False


def many_stops():
    """Drones 0 and 1 cross at their stops 1, which is dependency 0; the stops of thirty more make the calls long."""
    text = "plan=1\nagents=32\nname=a\nstops=3\ngo=1@0\ngo=9@1\ngo=2@2\nname=b\nstops=3\ngo=3@0\ngo=9@4\ngo=4@5\n"
    for d in range(30):
        text += "name=survey-%d\nstops=33\n" % d + "".join("go=%d@%d\n" % (100 + 33 * d + s if s % 8 != 4 else 10 + s, s * 100 + (s > 0) * d * 3000) for s in range(33))
    return text.encode() + b"end=plan\n"


def at_once(*calls):
    """Each call in a thread of its own, all begun at once: which were accepted."""
    begin, accepted = Barrier(len(calls)), []

    def made(call, number):
        begin.wait()
        if refusal(call, number)[0] == 0:
            accepted.append(call)

    threads = [Thread(target=made, args=words) for words in calls]
    [thread.start() for thread in threads]
    [thread.join() for thread in threads]
    return len(accepted)


def planned(text, site=None):
    """A conductor that has read a plan."""
    conductor = Conductor(sys.argv[1])
    conductor.read(text) if site is None else conductor.read_site(site, text)
    return conductor


def alone(first, drones, stops=1):
    """One with drones that meet nobody, numbered from some one on; the lines of their stops are all of one length but for each first."""
    text = "plan=1\nagents=%d\n" % drones
    for d in range(first, first + drones):
        text += "name=d%d\nstops=%d\n" % (d, stops) + "".join("go=%d@%d\n" % (20000 + 2 * d + k % 2, k and 900000 + k) for k in range(stops))
    return planned(text.encode() + END)


def after(conductor, *calls):
    """The conductor after calls, each a name and its words."""
    for name, *words in calls:
        getattr(conductor, name)(*words)
    return conductor


def tables(conductor):
    return [bytes(getattr(conductor, table)) for table in TABLES]


field = Conductor(sys.argv[1])
holds(refusal(field.cost)[0], 40)
field.read(Q)
holds((field.cost(), field.rounds(), field.preview(0)), (8, 5, -2))
holds(refusal(field.grant, 1), told(23, ", dependency 0"))
field.turn(0)
holds((field.cost(), field.dependencies[0].flags), (6, 1))
field.grant(1), field.grant(0), field.arrive(1)
holds(refusal(field.arrive, 1)[0], 24)
holds((list(field.visited[:2]), list(field.drone_flags[:2])), ([0, 1], [1, 0]))
holds(field.press(0), [1])
holds(field.write(), Q)
field.read(Q)
field.withdraw(0)
holds((field.cost(), field.rounds(), list(field.drone_flags[:2])), (2, 2, [2, 0]))
holds((refusal(field.grant, 0)[0], refusal(field.withdraw, 0)[0], refusal(field.withdraw, 2)[0], refusal(field.turn, 0)[0], refusal(field.press, 0)[0]), (25, 25, 20, 35, 25))
holds((field.press(), list(field.drone_flags[:2])), ([1], [2, 1]))
field.read(P)
holds((refusal(field.turn, 0)[0], refusal(field.turn, 1)[0], field.preview_all([0, 1])), (34, 34, 0))
field.turn_all([0, 1])
holds((field.cost(), refusal(field.turn_all, [])[0]), (8, 36))
holds(refusal(field.read, Q.replace(b"5@4", b"5@3")), told(10, ", drone 0, stop 2, other drone 1, other stop 1"))
holds(refusal(field.read, b"plan=1\nagents=0\n"), told(4, ", offset 7"))
holds((len(field.small_plan(377)) > 0, refusal(field.small_plan, 378)[0]), (True, 15))

# a leg of three rounds into drone 0's stop 2; plans are written in the form in which they were read
field.read(Q)
holds((field.form[0], list(field.legs[:8]), LEG * DRONES * (STOPS - DRONES)), (1, [0, 1, 1, 1, 0, 1, 1, 0], COST))
field.read(LEGS)
holds((field.form[0], list(field.legs[:8]), list(field.times[:7])), (2, [0, 1, 3, 1, 0, 1, 1, 0], [0, 1, 4, 5, 0, 6, 7]))
holds((field.cost(), field.rounds(), field.preview(0), field.write()), (12, 7, -4, LEGS))
field.grant(0)
holds((field.cost(), field.rounds()), (12, 7))
for line, number, words in (
    (b"go=6@3@3", 12, ", drone 0, stop 2"),
    (b"go=6@1@3", 8, ", drone 0, stop 2"),
    (b"go=6@4@3", 9, ", drone 0, stop 2"),
    (b"go=5@4@61", 4, ", offset 66"),
    (b"go=5@4@0", 4, ", offset 66"),
    (b"go=5@4", 2, ", offset 66"),
):
    holds(refusal(field.read, LEGS.replace(b"go=5@4@3", line)), told(number, words))
    holds((field.form[0], any(field.legs), refusal(field.cost)[0]), (0, False, 40))

# 5 and 6 near: drone 1 waits at 5 for both of drone 0's stops there, and the two are turned as a list alone; the refusals of a site text, before and after those of the plan
site = b"site=1\npairs=2\nnear=5,6\nnear=7,65535\nend=site\n"
field.read_site(site, Q)
holds((field.dependency_count[0], field.near_pairs(), list(field.pairs[:6])), (2, [(5, 6), (7, 65535)], [5, 6, 7, 65535, 0, 0]))
holds((field.cost(), refusal(field.turn, 0)[0], refusal(field.turn, 1)[0], field.preview_all([0, 1])), (8, 34, 34, -1))
field.turn_all([0, 1])
holds((field.cost(), field.write()), (7, Q))
holds((refusal(field.read_site, site, b" " * (TEXT + 1)), field.near_pairs(), field.cost()), (told(1, ", offset 65536"), [(5, 6), (7, 65535)], 7))
for text, number, words in (
    (b"", 13, ", offset in the site text 0"),
    (site[:-1], 13, ", offset in the site text 37"),
    (site.replace(b"pairs=2", b"pairs=1"), 13, ", offset in the site text 24"),
    (site.replace(b"pairs=2", b"pairs=257"), 14, ", offset in the site text 7"),
    (site.replace(b"near=5,6", b"near=6,5"), 14, ", offset in the site text 15"),
    (site.replace(b"near=7,65535", b"near=5,6"), 14, ", offset in the site text 24"),
    (site.replace(b"near=7,65535", b"near=7,65536"), 14, ", offset in the site text 24"),
    (site.replace(b"near=5,6", b"near=1,3"), 10, ", drone 0, stop 0, other drone 1, other stop 0"),
):
    field.read_site(site, Q)
    holds(refusal(field.read_site, text, Q), told(number, words))
    holds((any(field.pairs), refusal(field.cost)[0]), (False, 40))
    holds(refusal(field.read_site, text, b" " * (TEXT + 1))[0], number if number > 12 else 1)
field.read_site(b"site=1\npairs=256\n" + b"".join(b"near=%d,%d\n" % (a, 9999 - a) for a in range(1000, 1000 + PAIRS)) + b"end=site\n", Q)
holds((len(field.near_pairs()), field.dependency_count[0]), (PAIRS, 1))
field.read(Q)
holds((field.near_pairs(), any(field.pairs), field.dependency_count[0]), ([], False, 1))

# Q's drones planned apart and joined; the joins that are refused, with the joined text's offsets and the joined plan's drones
east, west = planned(EAST), planned(WEST)
both = east.join(west)
holds((tables(both) == tables(planned(Q)), both.write(), both.cost(), both.preview(0), refusal(both.grant, 1)[0]), (True, Q, 8, -2, 23))
holds((tables(east) == tables(planned(EAST)), tables(west) == tables(planned(WEST))), (True, True))
both.turn(0)
holds((both.cost(), east.cost(), list(both.near_pairs())), (6, 3, []))
holds((both.lock is east.lock, west.join(east).write()), (False, HEAD + b"name=" + LINES[1] + b"name=" + LINES[0] + END))
for first, second, number, words in (
    (east, east, 5, ", offset in the joined text 76"),
    (east, planned(WEST.replace(b"name=survey-quad-east-2", b"name=SURVEY-QUAD-EAST-1")), 5, ", offset in the joined text 76"),
    (alone(0, 33), alone(33, 32), 4, ", offset in the joined text 7"),
    (alone(0, 1, STOPS), alone(1, 1), 6, ", offset in the joined text %d" % (16 + 8 + 11 + (STOPS - 1) * 16 + 11 + 8)),
    (alone(0, 1, STOPS), alone(1, 1, STOPS), 1, ", offset in the joined text 65536"),
    (planned(b"plan=1\nagents=2\nname=a\nstops=1\ngo=9@0\nname=b\nstops=2\ngo=8@0\ngo=5@5\nend=plan\n"), west, 10, ", drone 1, stop 1, other drone 2, other stop 1"),
    (after(planned(EAST), ("grant", 0)), west, 16, ""),
    (east, after(planned(WEST), ("grant", 0), ("arrive", 0)), 16, ""),
    (east, after(planned(WEST), ("withdraw", 0)), 16, ""),
    (after(planned(P), ("turn_all", [0, 1])), west, 16, ""),
    (planned(EAST, site), west, 16, ""),
    (planned(EAST, site), planned(WEST, site.replace(b"near=5,6", b"near=5,7")), 16, ""),
    (east, Conductor(sys.argv[1]), 40, ""),
):
    before = tables(first), tables(second)
    holds(refusal(first.join, second), told(number, words))
    holds((tables(first), tables(second)), before)
holds(tables(planned(EAST, site).join(planned(WEST, site))) == tables(planned(Q, site)), True)
holds(tables(planned(EAST, b"site=1\npairs=0\nend=site\n").join(west)) == tables(planned(Q)), True)
holds((alone(0, 32).join(alone(32, 32)).drone_count[0], tables(after(planned(P), ("turn_all", [0, 1]), ("turn_all", [0, 1])).join(west)) == tables(planned(P).join(west))), (64, True))
form_2 = east.join(planned(b"plan=2\nagents=1\nname=far\nstops=3\ngo=71@0@0\ngo=72@60@60\ngo=73@63@3\nend=plan\n"))
holds((form_2.form[0], list(form_2.legs[:8])), (2, [0, 1, 1, 1, 0, 60, 3, 0]))
holds((error(east.join, None), error(east.join, Q)), (TypeError, TypeError))

# drones, stops and dependencies by name; who waits for whom
field.read(Q)
east1, east2 = field.drones()
holds((east1.name, east2.name, east1.stops[2], east2.stops), ("survey-quad-east-1", "survey-quad-east-2", Stop(5, 2, 1), (Stop(3, 0, 0), Stop(5, 4, 1), Stop(4, 5, 1))))
holds((field.drone("Survey-Quad-East-2"), field.drone(1), east1.finished, east1.holds), (east2, east2, False, (1,)))
holds((lookup(field.drone, "east"), lookup(field.drone, 2), lookup(field.drone, -1)), (True, True, True))
holds(field.in_force(), [InForce(0, Visit(0, "survey-quad-east-1", 2, 5), Visit(1, "survey-quad-east-2", 1, 5), False, False, False)])
field.turn(0), field.grant(1)
(waits,) = field.in_force()
holds((waits.first.name, waits.waits.name, waits.turned, waits.met, field.drone(1).under_way, field.drone(1).holds), ("survey-quad-east-2", "survey-quad-east-1", True, False, True, (3, 5)))
field.arrive(1), field.grant(1), field.arrive(1)
holds((field.in_force()[0].met, field.drone(1).finished), (True, True))
holds((Conductor(sys.argv[1]).drones(), Conductor(sys.argv[1]).in_force()), ([], []))

# saved and restored; what is not whole, of another layout, or not sound
saved = field.save()
holds((len(saved), tables(Conductor.restore(saved, sys.argv[1])) == tables(field)), (50000, True))
for wrong in (b"", saved[1:], saved + b"\0", bytes([2]) + saved[1:], saved[:4] + b"\1" + saved[5:]):
    holds(error(Conductor.restore, wrong, sys.argv[1]), NotRestored)
holds((refusal(Conductor.restore, saved[:8] + b"\0" * 49992, sys.argv[1])[0], refusal(Conductor.restore, saved[:8] + b"\1" + saved[9:], sys.argv[1])[0]), (40, 40))
holds((meaning(23), meaning(0), meaning(33)), ("the drone must wait", "", ""))

# the cheapest directions of Q, of P and of three at one crossing, where four orders cost 14; the list goes through the turn of a list
THREE = b"plan=1\nagents=3\nname=a\nstops=4\ngo=1@0\ngo=2@1\ngo=9@2\ngo=3@3\nname=b\nstops=3\ngo=11@0\ngo=9@5\ngo=13@6\nname=c\nstops=5\ngo=21@0\ngo=9@8\ngo=23@9\ngo=24@10\ngo=25@11\nend=plan\n"
for text, at, want in ((Q, None, (6, [0], 3)), (P, None, (8, [], 3)), (THREE, None, (14, [1, 2], 8)), (LEGS, None, (8, [0], 3)), (Q, site, (7, [0, 1], 5))):
    field = planned(text, at)
    before, cost, best = tables(field), field.cost(), field.best_order()
    holds((best, best.cost, best.turns, best.count), (want, *want))
    holds((field.best_order(best.count), refusal(field.best_order, best.count - 1)), (best, told(37, ", choices entered %d" % (best.count - 1))))
    holds(([refusal(field.best_order, n)[0] for n in (0, BUDGET + 1, 2**64, 2**64 + 1)], tables(field)), ([38] * 4, before))
    if best.turns:
        holds(field.preview_all(best.turns), best.cost - cost)
        field.turn_all(best.turns)
    holds((field.cost(), field.best_order().turns), (best.cost, []))
field.withdraw(0)
holds((field.best_order(1), refusal(Conductor(sys.argv[1]).best_order, 0)[0], DEPENDENCIES), ((2, [], 1), 40, 4096))
holds((error(field.best_order, -1), error(field.best_order, 1.0), error(field.best_order, None)), (ValueError, TypeError, TypeError))

# a number that does not fit is refused as one that is out of range, and is none of those that it would wrap to
field.read(Q)
for much in (2, 65536, 2**32, 2**64 - 1, 2**64, 2**64 + 1, 2**200):
    holds((refusal(field.grant, much)[0], refusal(field.arrive, much)[0], refusal(field.withdraw, much)[0], refusal(field.press, much)[0]), (20, 20, 20, 20))
    holds((refusal(field.turn, much)[0], refusal(field.preview, much)[0]), (30, 30))
    holds((refusal(field.turn_all, [much])[0], refusal(field.preview_all, [0, much])[0], refusal(field.turn_all, [much, much + 1])[0]), (30, 30, 30))
    holds((refusal(field.turn_all, [much, 0])[0], refusal(field.preview_all, [much, much])[0]), (36, 36))
holds([refusal(field.small_plan, much)[0] for much in (378, 2**64, 2**64 + 1)], [15, 15, 15])
for call in (field.grant, field.arrive, field.withdraw, field.press, field.turn, field.preview, field.small_plan):
    holds((error(call, -1), error(call, 1.0), error(call, "1")), (ValueError, TypeError, TypeError))
for call in (field.turn_all, field.preview_all):
    holds((error(call, [0, -1]), error(call, [0.0]), error(call, 0)), (ValueError, TypeError, TypeError))
holds((error(field.read, "plan=1"), error(field.read, 5), error(field.grant, None)), (TypeError, TypeError, TypeError))
holds((error(field.read_site, "site=1", Q), error(field.read_site, site, "plan=1"), error(field.read_site, None, Q)), (TypeError, TypeError, TypeError))
holds((list(field.visited[:2]), list(field.drone_flags[:2]), field.dependencies[0].flags), ([0, 0], [0, 0], 0))

# as many drones as there may be, and one more
many = [b"plan=1\nagents=%d\n" % n + b"".join(b"name=d%d\nstops=2\ngo=%d@0\ngo=%d@1\n" % (d, d, 1000 + d) for d in range(n)) + b"end=plan\n" for n in (DRONES, DRONES + 1)]
field.read(many[0])
holds((field.cost(), field.press(), field.press(63), refusal(field.press, 64)[0]), (64, list(range(64)), [], 20))
holds((refusal(field.read, many[1]), refusal(field.read, b" " * (TEXT + 1))), (told(4, ", offset 7"), told(1, ", offset 65536")))

# the records' fields, each with a value of its own
field.read(b"plan=1\nagents=3\nname=a\nstops=2\ngo=1@0\ngo=2@1\nname=b\nstops=4\ngo=3@0\ngo=4@1\ngo=5@2\ngo=6@3\nname=c\nstops=5\ngo=7@0\ngo=8@1\ngo=9@2\ngo=4@9\ngo=10@11\nend=plan\n")
record = field.dependencies[0]
holds((field.drone_count[0], field.dependency_count[0], record.first_drone, record.first_stop, record.second_drone, record.second_stop), (3, 1, 1, 1, 2, 3))

# a grant and the turn that would keep that drone waiting, from two threads: one of the two is accepted, and the tables are sound after it
text = many_stops()
for _ in range(TRIES):
    field.read(text)
    holds(at_once((field.grant, 0), (field.turn, 0)), 1)
    holds(refusal(field.cost)[0], 0)
# while one thread reads the plan again and again, another finds it whole
reader = Thread(target=lambda: [field.read(text) for _ in range(TRIES)])
reader.start()
while reader.is_alive():
    holds(refusal(field.cost)[0], 0)
# two are joined either way round from two threads, again and again: neither waits for ever for the other
with_legs = planned(LEGS.replace(b"east", b"west").replace(b"go=", b"go=9"))
for _ in range(TRIES):
    holds(at_once((field.join, with_legs), (with_legs.join, field)), 2)
with field.lock:
    waiting = Thread(target=field.cost)
    waiting.start()
    waiting.join(0.05)
    holds((waiting.is_alive(), field.rounds() > 0), (True, True))
waiting.join()
print("%d statements hold" % held)
