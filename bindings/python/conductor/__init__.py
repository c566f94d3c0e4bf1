"""The field conductor for Python: the proved calls that keep crop-survey drones from meeting at a crossing.

  import conductor
  field = conductor.Conductor()
  field.read(b"plan=1\\nagents=2\\nname=east\\n ... end=plan\\n")
  field.grant(field.drone("east").number)

A call returns what it is asked for and raises Refused otherwise, with the number, its meaning in words and what goes with it. bindings/c/conductor.h says what each call is refused by, docs/REFUSALS.md
what to do about each number.

A number may be any integer from 0. One that is too large for the library names no drone, no dependency and no small plan, and is refused as such (20, 30, 15); a negative number is a
ValueError, and what is no integer a TypeError.

Several threads may use one Conductor: its calls are made one at a time, and a join holds the locks of both. Who wants several calls, or entries of several tables, to belong together holds its lock
meanwhile:

  with field.lock:
      if field.preview(3) < 0:
          field.turn(3)

The shared library is the wheel's own (`pip wheel bindings/python` makes one), or the one that CONDUCTOR_LIBRARY names, or that is given to Conductor. By hand it is made of the archive:

  gcc -shared -o libconductor.so -Wl,--whole-archive crates/board/out/libboard.a -Wl,--no-whole-archive
"""
from __future__ import annotations

import os
import struct
from ctypes import CDLL, Array, Structure, c_int64, c_size_t, c_uint8, c_uint16, c_uint32, memmove, sizeof, string_at
from dataclasses import dataclass
from operator import index
from threading import RLock
from typing import Any, Iterable, Mapping, NamedTuple, Sequence, SupportsIndex, TypeVar, Union

__version__ = "0.2.0"
__all__ = ["BUDGET", "COST", "DEPENDENCIES", "DRONES", "LAYOUT", "LEG", "MEANINGS", "NAME", "PAIRS", "STOPS", "TEXT", "BestOrder", "Conductor", "Dependency", "Drone", "InForce", "NotRestored", "Refused", "Stop", "Visit", "meaning"]

DRONES, NAME, STOPS, DEPENDENCIES, PAIRS, TEXT, LEG, COST, BUDGET = 64, 24, 2048, 4096, 256, 65536, 60, 7618560, 100000
LAYOUT = 1  # of the bytes that `save` gives; they are those that C and Rust save too

MEANINGS: Mapping[int, str] = {
    1: "the text is longer than 65,536 bytes",
    2: "a line is malformed, out of order, missing or surplus",
    3: "a name is not 1 to 24 letters, digits and hyphens",
    4: "a number is outside its range",
    5: "a name is that of an earlier drone",
    6: "the stops of all drones are more than 2,048",
    7: "a drone's first stop is not at time 0",
    8: "a stop's time is not after that of the stop before it",
    9: "a stop has the location of the stop before it",
    10: "two drones collide",
    11: "the plan has more than 4,096 dependencies",
    12: "the time rises by less than the leg",
    13: "a line of the site text is malformed, out of order, missing or surplus",
    14: "a number of the site text is outside its range, or a pair is not in order",
    15: "there is no small plan of this number",
    16: "a plan to be joined has started, has a turned dependency or a withdrawn drone, or the near pairs differ",
    20: "there is no such drone",
    21: "the drone stands at its last stop",
    22: "the drone is already under way",
    23: "the drone must wait",
    24: "the drone is not under way",
    25: "the drone is withdrawn",
    30: "there is no such dependency",
    31: "the dependency is fixed: it begins at a first stop or ends at a last one",
    32: "the drone that goes first has already entered the crossing",
    34: "drones would wait for each other in a ring",
    35: "a drone of the dependency is withdrawn",
    36: "the list is empty or does not rise",
    37: "there are more choices than the budget",
    38: "the budget is not 1 to 100,000",
    40: "the tables hold no accepted plan",
    41: "a table is below its full size",
    42: "the buffer is shorter than the text",
}


def meaning(number: int) -> str:
    """What a refusal's number means, in the words of the pilots' page; an empty text for 0 and for a number that no call answers."""
    return MEANINGS.get(number, "")


Bytes = Union[bytes, bytearray, memoryview]


class Dependency(Structure):
    """Planned first drone and its stop, planned second drone and its stop; flags: 1 turned, 2 fixed."""

    first_stop: int
    second_stop: int
    first_drone: int
    second_drone: int
    flags: int
    reserved: int
    _fields_ = [("first_stop", c_uint16), ("second_stop", c_uint16), ("first_drone", c_uint8), ("second_drone", c_uint8), ("flags", c_uint8), ("reserved", c_uint8)]


class Answer(Structure):
    """Number 0: done, and the detail is what was asked for."""

    number: int
    detail: int
    _fields_ = [("number", c_size_t), ("detail", c_size_t)]


class ChangeAnswer(Structure):
    """Number 0: the turn would be done, and the change is the cost after it less the cost now."""

    number: int
    change: int
    _fields_ = [("number", c_size_t), ("change", c_int64)]


class OrderAnswer(Structure):
    """Number 0: the least cost, how many dependencies are to be turned for it, and how many choices were entered."""

    number: int
    cost: int
    length: int
    count: int
    _fields_ = [(name, c_size_t) for name in ("number", "cost", "length", "count")]


class ReadAnswer(Structure):
    """Number 0: taken; otherwise the number comes with an offset, or with a drone and its stop, or with two of each."""

    number: int
    offset: int
    drone: int
    stop: int
    other_drone: int
    other_stop: int
    _fields_ = [(name, c_size_t) for name in ("number", "offset", "drone", "stop", "other_drone", "other_stop")]


AnyAnswer = TypeVar("AnyAnswer", Answer, ChangeAnswer, OrderAnswer, ReadAnswer)
Carried = Mapping[int, Mapping[str, str]]

# what goes with a refusal: the fields of its answer, and what each is; of a join the offset is in the joined plan's own text
CARRIED: Carried = {
    **dict.fromkeys(range(1, 7), {"offset": "offset"}),
    **dict.fromkeys(range(7, 10), {"drone": "drone", "stop": "stop"}),
    10: {"drone": "drone", "stop": "stop", "other_drone": "other drone", "other_stop": "other stop"},
    12: {"drone": "drone", "stop": "stop"},
    13: {"offset": "offset in the site text"},
    14: {"offset": "offset in the site text"},
    23: {"detail": "dependency"},
    37: {"count": "choices entered"},
}
CARRIED_BY_JOIN: Carried = {**CARRIED, **dict.fromkeys((1, 4, 5, 6), {"offset": "offset in the joined text"})}


class Refused(Exception):
    """A call that was refused: its number, what that means in words, and what goes with it by name."""

    number: int
    meaning: str
    values: dict[str, int]

    def __init__(self, answer: Answer | ChangeAnswer | OrderAnswer | ReadAnswer, carried: Carried = CARRIED) -> None:
        self.number = answer.number
        self.meaning = meaning(self.number)
        self.values = {what: getattr(answer, field) for field, what in carried.get(answer.number, {}).items()}
        super().__init__("refused with %d: %s" % (self.number, self.meaning) + "".join(", %s %d" % item for item in self.values.items()))


class BestOrder(NamedTuple):
    """The least cost, the dependencies to turn for it, rising, and how many choices were entered."""

    cost: int
    turns: list[int]
    count: int  # type: ignore[assignment]  # a tuple's own `count` gives way


class NotRestored(ValueError):
    """Saved bytes that are not whole, or are of another layout."""


@dataclass(frozen=True)
class Stop:
    """One stop of a route: the crossing, its planned timestep, and the rounds of the leg into it (0 at stop 0, elsewhere 1 in a plan of form 1 and 1 to LEG in one of form 2)."""

    location: int
    time: int
    leg: int


@dataclass(frozen=True)
class Drone:
    """A drone with its route and its progress; `visited` is its last visited stop, 0 at first."""

    number: int
    name: str
    stops: tuple[Stop, ...]
    visited: int
    under_way: bool
    withdrawn: bool

    @property
    def finished(self) -> bool:
        """Whether it stands at its last stop."""
        return self.visited + 1 >= len(self.stops)

    @property
    def holds(self) -> tuple[int, ...]:
        """The locations that it holds: that of its last visited stop and, when it is under way, the next one too. A withdrawn drone holds none."""
        end = self.visited if self.withdrawn else self.visited + 1 + self.under_way
        return tuple(stop.location for stop in self.stops[self.visited : end])


@dataclass(frozen=True)
class Visit:
    """A stop of a drone, which is given by its number and by its name."""

    drone: int
    name: str
    stop: int
    location: int


@dataclass(frozen=True)
class InForce:
    """A dependency in the order now in force: the drone of `waits` may enter its stop only after the drone of `first` has visited the stop after that one. It is met once that was so, or a drone of it is
    withdrawn."""

    number: int
    first: Visit
    waits: Visit
    turned: bool
    fixed: bool
    met: bool


def _taken(answer: AnyAnswer, carried: Carried = CARRIED) -> AnyAnswer:
    if answer.number:
        raise Refused(answer, carried)
    return answer


def _whole(n: SupportsIndex) -> int:
    n = index(n)
    if n < 0:
        raise ValueError("%d is negative" % n)
    return n


def _number(n: SupportsIndex) -> c_size_t:
    """A number as the library takes it: where it does not fit, the greatest that does, which is out of range as the number itself is."""
    return c_size_t(min(_whole(n), c_size_t(-1).value))


def _bytes(text: Bytes) -> tuple[Any, ...]:
    text = bytes(memoryview(text))
    return (c_uint8 * len(text)).from_buffer_copy(text), c_size_t(len(text))


def _list(numbers: Iterable[SupportsIndex]) -> tuple[Any, ...]:
    """A list as the library takes it, in 16 bits. A rising list is refused at its first number that does not fit, if not before; what comes after that one is left out."""
    whole = [_whole(n) for n in numbers]
    if all(a < b for a, b in zip(whole, whole[1:])):
        whole = whole[: sum(n < 65535 for n in whole) + 1]
    return (c_uint16 * len(whole))(*(min(n, 65535) for n in whole)), c_size_t(len(whole))


def _size(table: Array[Any]) -> int:
    return sizeof(table)


def _library(given: str | os.PathLike[str] | CDLL | None) -> CDLL:
    if isinstance(given, CDLL):
        return given
    beside = os.path.join(os.path.dirname(os.path.abspath(__file__)), "libconductor.so")
    path = os.fspath(given) if given is not None else os.environ.get("CONDUCTOR_LIBRARY", beside)
    if given is None and not os.path.exists(path):
        raise OSError("there is no %s: install the wheel (pip wheel bindings/python), or name the shared library by CONDUCTOR_LIBRARY" % path)
    return CDLL(path)


class Conductor:
    """Owns its tables, all at full size, and the lock that is held over each call: the interpreter's own lock is not, while the library works.

    The form is that of the plan's first line, 1 or 2, and 0 where there is no plan; a plan is written in the form in which it was read. A leg is that into the stop, in rounds: 0 at each drone's
    stop 0, elsewhere 1 in a plan of form 1 and 1 to LEG in one of form 2. The pairs are those of the site text with which the plan was read, two numbers for each of up to PAIRS, the lower first, and
    zeros after them. No cost is above COST, and no preview further from 0."""

    def __init__(self, library: str | os.PathLike[str] | CDLL | None = None) -> None:
        """Without a library, that of the wheel, or the one that CONDUCTOR_LIBRARY names."""
        self._library, self.lock = _library(library), RLock()
        self.drone_count: Array[c_uint16] = (c_uint16 * 1)()
        self.dependency_count: Array[c_uint16] = (c_uint16 * 1)()
        self.form: Array[c_uint8] = (c_uint8 * 1)()
        self.names: Array[c_uint8] = (c_uint8 * (DRONES * NAME))()
        self.stop_counts: Array[c_uint16] = (c_uint16 * DRONES)()
        self.locations: Array[c_uint16] = (c_uint16 * STOPS)()
        self.times: Array[c_uint32] = (c_uint32 * STOPS)()
        self.legs: Array[c_uint8] = (c_uint8 * STOPS)()
        self.visited: Array[c_uint16] = (c_uint16 * DRONES)()
        self.drone_flags: Array[c_uint8] = (c_uint8 * DRONES)()
        self.dependencies: Array[Dependency] = (Dependency * DEPENDENCIES)()
        self.pairs: Array[c_uint16] = (c_uint16 * (2 * PAIRS))()

    def _tables(self) -> list[Any]:
        plan: tuple[Array[Any], ...] = (self.drone_count, self.dependency_count, self.form, self.names, self.stop_counts, self.locations, self.times, self.legs)
        return [word for table in (*plan, self.visited, self.drone_flags, self.dependencies, self.pairs) for word in (table, c_size_t(len(table)))]

    def _call(self, name: str, answer: type[AnyAnswer], after: Sequence[Any] = (), before: Sequence[Any] = ()) -> AnyAnswer:
        call = getattr(self._library, name)
        call.restype = answer
        with self.lock:
            answered: AnyAnswer = call(*before, *self._tables(), *after)
        return _taken(answered)

    def read(self, text: Bytes) -> None:
        """Reads a plan text without a site text: visits meet where their locations are equal."""
        self._call("conductor_lent_read", ReadAnswer, before=_bytes(text))

    def read_site(self, site: Bytes, text: Bytes) -> None:
        """Reads a plan text with a site text, which lists the pairs of locations that are near: visits of different drones meet where their locations are equal or near."""
        self._call("conductor_lent_read_site", ReadAnswer, before=_bytes(site) + _bytes(text))

    def join(self, other: Conductor) -> Conductor:
        """A new conductor with both plans made into one: this one's drones come first, then the other's, and times are kept. Neither plan may have started, both must have been read with the same near
        pairs, and neither changes. 16 where either has started, has a turned dependency or a withdrawn drone, or the near pairs differ, 40 where either holds no plan; what else is refused is refused as the joined plan's own text would be, with that text's offsets and the joined plan's drones."""
        if not isinstance(other, Conductor):
            raise TypeError("a Conductor is joined with a Conductor")
        joined, call = Conductor(self._library), self._library.conductor_lent_join
        call.restype = ReadAnswer
        # both locks, and always in one order, so that two threads that join the same two the other way round do not wait for each other
        first, second = sorted((self, other), key=id)
        with first.lock, second.lock:
            answered: ReadAnswer = call(*self._tables(), *other._tables(), *joined._tables())
        _taken(answered, CARRIED_BY_JOIN)
        return joined

    def near_pairs(self) -> list[tuple[int, int]]:
        """The pairs of locations that are near, as the site text lists them."""
        with self.lock:
            return [(a, b) for a, b in zip(self.pairs[::2], self.pairs[1::2]) if b]

    def write(self) -> bytes:
        """The plan's text in the form in which it was read, names in small letters and without its site text."""
        buffer = (c_uint8 * TEXT)()
        return bytes(buffer[: self._call("conductor_lent_write", Answer, before=(buffer, c_size_t(TEXT))).detail])

    def grant(self, drone: SupportsIndex) -> None:
        """The drone becomes under way to its next stop."""
        self._call("conductor_lent_grant", Answer, [_number(drone)])

    def arrive(self, drone: SupportsIndex) -> None:
        """The drone has come to its next stop."""
        self._call("conductor_lent_arrive", Answer, [_number(drone)])

    def withdraw(self, drone: SupportsIndex) -> None:
        """The drone is carried home: it holds nothing, costs nothing and nobody waits for it any more. Nothing but a reading takes that back."""
        self._call("conductor_lent_withdraw", Answer, [_number(drone)])

    def turn(self, dependency: SupportsIndex) -> None:
        """The order of a dependency's two drones is turned round."""
        self._call("conductor_lent_turn", Answer, [_number(dependency)])

    def turn_all(self, dependencies: Iterable[SupportsIndex]) -> None:
        """A strictly rising list of dependencies is turned all at once."""
        self._call("conductor_lent_turn_all", Answer, _list(dependencies))

    def preview(self, dependency: SupportsIndex) -> int:
        """By how much a turn would change the cost (less is better); refused as the turn would be. Nothing changes."""
        return self._call("conductor_lent_preview", ChangeAnswer, [_number(dependency)]).change

    def preview_all(self, dependencies: Iterable[SupportsIndex]) -> int:
        """The same of a list."""
        return self._call("conductor_lent_preview_all", ChangeAnswer, _list(dependencies)).change

    def cost(self) -> int:
        """The drones' remaining rounds, added up, at most COST."""
        return self._call("conductor_lent_cost", Answer).detail

    def rounds(self) -> int:
        """The undelayed rounds until every drone stands at its last stop."""
        return self._call("conductor_lent_rounds", Answer).detail

    def best_order(self, budget: SupportsIndex = BUDGET) -> BestOrder:
        """The cheapest directions: the turns, if there are any, are for turn_all, and the cost is then that of the plan. The search enters at most so many choices, 1 to BUDGET (38); 37 where the full walk
        would enter more. Nothing is turned by it."""
        turns = (c_uint16 * DEPENDENCIES)()
        answer = self._call("conductor_lent_best_order", OrderAnswer, [turns, c_size_t(DEPENDENCIES), _number(budget)])
        return BestOrder(answer.cost, turns[: answer.length], answer.count)

    def press(self, reported: SupportsIndex | None = None) -> list[int]:
        """One press of the handset: takes the arrival that was reported, if one was, then grants every drone that may go. The granted drones, rising."""
        report = [c_size_t(0), c_size_t(0)] if reported is None else [c_size_t(1), _number(reported)]
        bits = self._call("conductor_lent_press", Answer, report).detail
        return [d for d in range(DRONES) if bits >> d & 1]

    def small_plan(self, number: SupportsIndex) -> bytes:
        """A small plan for the bench by its number, 0 to 377."""
        buffer, call = (c_uint8 * TEXT)(), self._library.conductor_lent_small_plan
        call.restype = Answer
        answered: Answer = call(_number(number), buffer, c_size_t(TEXT))
        return bytes(buffer[: _taken(answered).detail])

    def _drone(self, number: int) -> Drone:
        at, counts = sum(self.stop_counts[:number]), self.stop_counts
        to = at + counts[number]
        stops = tuple(Stop(*stop) for stop in zip(self.locations[at:to], self.times[at:to], self.legs[at:to]))
        name = bytes(self.names[number * NAME : (number + 1) * NAME]).rstrip(b"\0").decode("ascii", "replace")
        return Drone(number, name, stops, self.visited[number], bool(self.drone_flags[number] & 1), bool(self.drone_flags[number] & 2))

    def drones(self) -> list[Drone]:
        """The drones in the plan's order, with their routes and progress; none without a plan."""
        with self.lock:
            return [self._drone(number) for number in range(self.drone_count[0])]

    def drone(self, which: str | SupportsIndex) -> Drone:
        """A drone by its name, in capitals or small letters, or by its number; a LookupError where there is none."""
        drones = self.drones()
        if isinstance(which, str):
            for drone in drones:
                if drone.name == which.lower():
                    return drone
            raise LookupError("there is no drone %s" % which)
        if index(which) not in range(len(drones)):
            raise LookupError("there is no drone %d" % index(which))
        return drones[index(which)]

    def in_force(self) -> list[InForce]:
        """The dependencies in the order now in force, each with its drones' names, and whether it is met."""
        with self.lock:
            drones = self.drones()
            records = [(d.first_drone, d.first_stop, d.second_drone, d.second_stop, d.flags) for d in self.dependencies[: self.dependency_count[0]]]

        def visit(drone: int, stop: int) -> Visit:
            return Visit(drone, drones[drone].name, stop, drones[drone].stops[stop].location)

        told = []
        for number, (a, at, b, bt, flags) in enumerate(records):
            planned, other = visit(a, at), visit(b, bt)
            first, waits = (other, planned) if flags & 1 else (planned, other)
            met = drones[first.drone].visited > first.stop or drones[a].withdrawn or drones[b].withdrawn
            told.append(InForce(number, first, waits, bool(flags & 1), bool(flags & 2), met))
        return told

    def save(self) -> bytes:
        """The plan and its progress as plain bytes, which C and Rust read too: the layout and the length of the tables, in 32 bits each, and then the tables."""
        with self.lock:
            tables = b"".join(string_at(table, _size(table)) + b"\0" * gap for table, gap in self._saved())
        return struct.pack("<II", LAYOUT, len(tables)) + tables

    @classmethod
    def restore(cls, saved: Bytes, library: str | os.PathLike[str] | CDLL | None = None) -> Conductor:
        """A conductor that goes on from what was saved. Bytes without an accepted plan and a possible progress are refused by 40, bytes that are not whole or of another layout are NotRestored."""
        restored, given = cls(library), bytes(memoryview(saved))
        length = sum(_size(table) + gap for table, gap in restored._saved())
        if len(given) != 8 + length:
            raise NotRestored("these are not %d saved bytes" % (8 + length))
        if struct.unpack_from("<II", given) != (LAYOUT, length):
            raise NotRestored("the saved bytes are of layout %d and length %d, and not %d and %d" % (*struct.unpack_from("<II", given), LAYOUT, length))
        at = 8
        for table, gap in restored._saved():
            memmove(table, given[at : at + _size(table)], _size(table))
            at += _size(table) + gap
        restored.cost()
        return restored

    def _saved(self) -> list[tuple[Array[Any], int]]:
        """The tables in the order of C's conductor_tables, each with the bytes after it that are nobody's."""
        until_form: list[Array[Any]] = [self.drone_count, self.dependency_count, self.stop_counts, self.locations, self.visited, self.times, self.names, self.legs, self.drone_flags]
        return [(table, 0) for table in until_form] + [(self.form, 1), (self.dependencies, 0), (self.pairs, 2)]
