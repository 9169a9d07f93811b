#!/usr/bin/env python3
"""Cases for the model, worked out by hand; its swaps and joins against a search; and the generator."""

from __future__ import annotations

import subprocess
import sys
import unittest
from collections.abc import Callable
from pathlib import Path
from random import Random
from typing import Any

from bruteforce import Search, possible_proofs
from cases import Case, CaseTest
from generate import generate
from nets import Event, Marking, Net, encode_set
from sheetbench import Bench, Server, split_lines
from systems import Layer, Number, Refusal, System
from test_terms import random_terms

PROGRAM = Path(__file__).resolve().parent / "sheetbench.py"
SESSIONS = Path(__file__).resolve().parent.parent / "sessions"

ZERO = "0000000000000000"
C0 = "0000000000000001"  # condition 0 holds
C1 = "0000000000000002"
C01 = "0000000000000003"
C63 = "8000000000000000"

# Event 0 goes from condition 0 to 1 and has name 01; event 1 goes back and has
# co-name 41.
TO = "01" + C0 + C1
BACK = "41" + C1 + C0
TO_AND_BACK = "A002000002" + TO + BACK
ONLY_TO = "A002000001" + TO
SWAPPED = "A002000002" + BACK + TO
NO_EVENTS = "A002000000"
OPEN = "B000" + C0

FRAME_CASES: list[Case] = [
    ("an empty line is a frame of no bytes", [], "", "01010000"),
    ("no such call", [], "B8", "01010000"),
    ("no such call behind the last", [], "BA0000", "01010000"),
    ("digits are read before the call", [], "FF0G", "01010001"),
    ("a bad digit in the first half of a byte", [], "B000G0", "01010002"),
    ("a carriage return is a bad digit", [], "B500\r", "01010002"),
    ("a blank is a bad digit", [], " B500", "01010000"),
    ("odd number of digits", [], "B5000", "01010002"),
    ("a bad digit precedes oddness", [], "XB500", "01010000"),
    ("missing sheet number", [], "B5", "01010001"),
    ("missing sheet number of an open", [], "B0", "01010001"),
    ("extra byte", [], "B50000", "01010002"),
    ("an extra byte precedes a wrong sheet", [], "B50400", "01010002"),
    ("missing numbers of a swap", [], "B2", "01010001"),
    ("missing place of a swap", [], "B200", "01010002"),
    ("extra byte of a swap", [], "B2000100", "01010003"),
    ("missing numbers of a join", [], "B4", "01010001"),
    ("missing second sheet of a join", [], "B4FF", "01010002"),
    ("extra byte of a join", [], "B4000100", "01010003"),
    ("1,024 bytes are allowed", [NO_EVENTS], "B000" + 1022 * "00", "04040008"),
    ("1,025 bytes are not", [], "B000" + 1023 * "00", "01010400"),
    ("half a byte too long", [], "B000" + 1022 * "00" + "0", "01010400"),
    ("a bad last digit in time", [], "B000" + 2043 * "0" + "G00", "010103FF"),
    ("a bad digit too late to be seen", [], 2048 * "0" + "0G", "01010400"),
    ("lower case is read, capitals are written", [NO_EVENTS, "b000" + C63], "b300", "0A020000"),
]

SETUP_CASES: list[Case] = [
    ("no events", [], "A002000000", "00"),
    ("two events", [], TO_AND_BACK, "00"),
    ("the call byte alone", [], "A0", "01010001"),
    ("wrong kind, though bytes are missing", [], "A003", "02010001"),
    ("wrong kind, though bytes are extra", [], "A00300000000", "02010001"),
    ("missing count of pairs", [], "A002", "01010002"),
    ("missing bytes precede pairs", [], "A00201AA", "01010004"),
    ("missing count of masked names", [], "A00200", "01010003"),
    ("missing count of events", [], "A0020000", "01010004"),
    ("missing event", [], "A002000002" + TO, "01010016"),
    ("extra byte", [], "A00200000000", "01010005"),
    ("an extra byte precedes a bad event", [], "A00200000140" + C0 + C1 + "00", "01010016"),
    ("48 events", [], "A002000030" + 48 * TO, "00"),
    ("49 events", [], "A002000031" + 49 * TO, "02010004"),
    ("40 is no action", [], "A00200000140" + C0 + C1, "02010005"),
    ("80 is no action", [], "A00200000180" + C0 + C1, "02010005"),
    ("3F and 7F are actions", [], "A0020000023F" + C0 + C1 + "7F" + C0 + C1, "00"),
    ("empty before-set", [], "A00200000101" + ZERO + C1, "02010005"),
    ("empty after-set of the second event", [], "A002000002" + TO + "01" + C0 + ZERO, "02010016"),
    ("sets that overlap", [], "A00200000100" + C01 + C1, "02010005"),
    ("a refused setup leaves the system", [TO_AND_BACK, OPEN, "A0020001CC00"], "B10000", "00" + C1),
]

SHEET_CASES: list[Case] = [
    ("open", [NO_EVENTS], OPEN, "00"),
    ("no such sheet", [], "B004" + C0, "03020001"),
    ("no such sheet precedes a wrong state", [], "B0FF", "03020001"),
    ("no state: no bytes", [NO_EVENTS], "B000", "04040000"),
    ("no state: seven bytes", [NO_EVENTS], "B000" + 7 * "00", "04040007"),
    ("no state: nine bytes", [NO_EVENTS], "B000" + 9 * "00", "04040008"),
    ("add to a blank sheet", [TO_AND_BACK], "B10000", "03020001"),
    ("add", [TO_AND_BACK, OPEN], "B10000", "00" + C1),
    ("add where the other conditions stay", [TO_AND_BACK, "B0008000000000000001"], "B10000", "008000000000000002"),
    ("the before-set does not hold", [TO_AND_BACK, OPEN], "B10001", "06040000"),
    ("some of the after-set holds", [TO_AND_BACK, "B000" + C01], "B10000", "06040000"),
    ("no step: no bytes", [TO_AND_BACK, OPEN], "B100", "05040000"),
    ("no step: two events only", [TO_AND_BACK, OPEN], "B10002", "05040000"),
    ("no step: more than an event", [TO_AND_BACK, OPEN], "B1000000", "05040001"),
    ("no step: more than no event", [TO_AND_BACK, OPEN], "B1000200", "05040000"),
    ("no events", [NO_EVENTS, OPEN], "B10000", "05040000"),
    ("32 steps", [TO_AND_BACK, OPEN] + 15 * ["B10000", "B10001"] + ["B10000"], "B10001", "00" + C0),
    ("33 steps", [TO_AND_BACK, OPEN] + 16 * ["B10000", "B10001"], "B10000", "09020020"),
    ("a full sheet precedes a wrong step", [TO_AND_BACK, OPEN] + 16 * ["B10000", "B10001"], "B100", "09020020"),
    ("withdraw", [TO_AND_BACK, OPEN, "B10000"], "B300", "00" + C0),
    ("nothing to withdraw", [TO_AND_BACK, OPEN], "B300", "0A020000"),
    ("opening drops the steps", [TO_AND_BACK, OPEN, "B10000", OPEN], "B300", "0A020000"),
    ("a refused open leaves the steps", [TO_AND_BACK, OPEN, "B10000", "B000"], "B300", "00" + C0),
    ("a refused add leaves the steps", [TO_AND_BACK, OPEN, "B10000", "B10000"], "B300", "00" + C0),
    ("release a blank sheet", [], "B500", "03020001"),
    ("release", [NO_EVENTS, OPEN], "B500", "00"),
    ("release twice", [NO_EVENTS, OPEN, "B500"], "B500", "03020001"),
    ("open a released sheet", [NO_EVENTS, OPEN, "B500"], OPEN, "03020001"),
    ("add to a released sheet", [TO_AND_BACK, OPEN, "B500"], "B10000", "03020001"),
    ("reopen an open sheet", [NO_EVENTS, OPEN], "B600", "03020001"),
    ("reopen and go on", [TO_AND_BACK, OPEN, "B500", "B600"], "B10000", "00" + C1),
    ("print an open sheet", [NO_EVENTS, OPEN], "B700", "03020001"),
    ("print no steps", [NO_EVENTS, "B003" + C63, "B503"], "B703", "0000" + C63 + " " + C63),
    (
        "print two steps",
        [TO_AND_BACK, OPEN, "B10000", "B10001", "B500"],
        "B700",
        "0002" + C0 + " 0100 4101 " + C0,
    ),
    (
        "print with the labels of the present system",
        [TO_AND_BACK, OPEN, "B10000", "B500", "A00200000100" + C0 + C1],
        "B700",
        "0001" + C0 + " 0000 " + C1,
    ),
]

TWO_STEPS = [TO_AND_BACK, OPEN, "B10000", "B10001"]

REPLAY_CASES: list[Case] = [
    ("the first step is no event now", [*TWO_STEPS, "A002000000"], "B10000", "1002000105040000"),
    ("the second step is no event now", [*TWO_STEPS, ONLY_TO], "B300", "1002000205040000"),
    ("the first step is not possible now", [*TWO_STEPS, SWAPPED], "B500", "1002000106040000"),
    ("a stopped replay precedes a wrong step", [*TWO_STEPS, ONLY_TO], "B100", "1002000205040000"),
    (
        "a stopped replay precedes a full sheet",
        [TO_AND_BACK, OPEN] + 16 * ["B10000", "B10001"] + [ONLY_TO],
        "B10000",
        "1002000205040000",
    ),
    ("a wrong standing precedes a stopped replay", [*TWO_STEPS, ONLY_TO], "B700", "03020001"),
    ("print", [*TWO_STEPS, "B500", ONLY_TO], "B700", "1002000205040000"),
    ("reopen", [*TWO_STEPS, "B500", ONLY_TO], "B600", "1002000205040000"),
    ("opening does not replay", [*TWO_STEPS, ONLY_TO], OPEN, "00"),
    ("other sheets go on", [*TWO_STEPS, "B001" + C0, ONLY_TO], "B10100", "00" + C1),
    ("a stopped sheet is kept", [*TWO_STEPS, ONLY_TO, "B300", TO_AND_BACK], "B300", "00" + C1),
]

# Four pairs of conditions, 0 and 1, 2 and 3, 4 and 5, 6 and 7. Events 0 to 3 go
# from the first to the second of each, 4 to 7 back. Event 8 goes from condition
# 0 to 8 instead of 1, event 9 is event 0 again, event 10 goes from 1 and 3 to 0
# and 2.
PAIRS = [(1, 2), (4, 8), (16, 32), (64, 128), (2, 1), (8, 4), (32, 16), (128, 64), (1, 256), (1, 2), (10, 5)]
FOUR_PAIRS = "A00200000B" + "".join(f"01{before:016X}{after:016X}" for before, after in PAIRS)
FIRSTS = "0000000000000055"  # the first condition of each pair holds
OTHER_FIRSTS = "0000000000000255"


def opened(number: int, *steps: int, start: str = FIRSTS) -> list[str]:
    """The frames that open a sheet and add the steps."""
    return [f"B0{number:02X}" + start] + [f"B1{number:02X}{step:02X}" for step in steps]


def there_and_back(event: int, count: int) -> list[int]:
    return [event + 4 * (i % 2) for i in range(count)]


def on_two_sheets(one: list[int], other: list[int]) -> list[str]:
    return [FOUR_PAIRS, *opened(0, *one), *opened(1, *other)]


SWAP_CASES: list[Case] = [
    ("the first two of three", [FOUR_PAIRS, *opened(0, 0, 1, 2)], "B20001", "00"),
    ("the last two of three", [FOUR_PAIRS, *opened(0, 0, 1, 2)], "B20002", "00"),
    (
        "what a swap leaves",
        [FOUR_PAIRS, *opened(0, 0, 1, 2), "B20001", "B20002", "B500"],
        "B700",
        "0003" + FIRSTS + " 0101 0102 0100 000000000000006A",
    ),
    ("a blank sheet", [], "B20001", "03020001"),
    ("a released sheet", [FOUR_PAIRS, *opened(0, 0, 1), "B500"], "B20001", "03020001"),
    ("no such sheet", [], "B20401", "03020001"),
    ("place 0", [FOUR_PAIRS, *opened(0, 0, 1)], "B20000", "0A020000"),
    ("the last step has no next", [FOUR_PAIRS, *opened(0, 0, 1)], "B20002", "0A020002"),
    ("past the last step", [FOUR_PAIRS, *opened(0, 0, 1)], "B20003", "0A020003"),
    ("far past the last step", [FOUR_PAIRS, *opened(0, 0, 1)], "B200FF", "0A0200FF"),
    ("a sheet without steps", [FOUR_PAIRS, *opened(0)], "B20001", "0A020001"),
    ("there and back", [FOUR_PAIRS, *opened(0, 1, 0, 4)], "B20002", "0B020002"),
    ("a common condition", [FOUR_PAIRS, *opened(0, 0, 1, 10)], "B20002", "0B020002"),
    ("32 steps", [FOUR_PAIRS, *opened(0, *there_and_back(0, 31), 1)], "B2001F", "00"),
    ("32 steps have no 33rd", [FOUR_PAIRS, *opened(0, *there_and_back(0, 31), 1)], "B20020", "0A020020"),
    ("a stopped replay precedes place 0", [FOUR_PAIRS, *opened(0, 0, 1), ONLY_TO], "B20000", "1002000205040000"),
    ("a stopped replay precedes place 255", [FOUR_PAIRS, *opened(0, 0, 1), ONLY_TO], "B200FF", "1002000205040000"),
    ("a refused swap leaves the steps", [FOUR_PAIRS, *opened(0, 0, 4), "B20001"], "B300", "000000000000000056"),
]

JOIN_CASES: list[Case] = [
    ("nothing shared", on_two_sheets([0], [1]), "B40001", "000200"),
    (
        "new steps come last",
        [*on_two_sheets([0, 1], [2, 1, 3]), "B40001", "B500"],
        "B700",
        "0004" + FIRSTS + " 0100 0101 0102 0103 00000000000000AA",
    ),
    (
        "the sheet that is joined stays",
        [*on_two_sheets([0, 1], [2, 1]), "B40001", "B501"],
        "B701",
        "0002" + FIRSTS + " 0102 0101 0000000000000069",
    ),
    ("shared in another order", on_two_sheets([0, 1, 2], [2, 1, 0]), "B40001", "000303"),
    ("some shared", on_two_sheets([0, 1, 2], [1, 3, 0]), "B40001", "000402"),
    ("an event shared twice", on_two_sheets([0, 4, 0], [0, 4, 0, 4]), "B40001", "000403"),
    ("without steps", on_two_sheets([], []), "B40001", "000000"),
    ("into a sheet without steps", on_two_sheets([], [0, 1]), "B40001", "000200"),
    ("of a sheet without steps", on_two_sheets([0, 1], []), "B40001", "000200"),
    ("with itself", [FOUR_PAIRS, *opened(0, 0, 1, 4)], "B40000", "000303"),
    ("a full sheet with itself", [FOUR_PAIRS, *opened(0, *there_and_back(0, 32))], "B40000", "002020"),
    ("a released sheet joined", [*on_two_sheets([0], [1]), "B501"], "B40001", "000200"),
    ("blank and blank", [], "B40001", "03020001"),
    ("into a blank sheet", [FOUR_PAIRS, *opened(1, 0)], "B40001", "03020001"),
    ("into a released sheet", [*on_two_sheets([0], [1]), "B500"], "B40001", "03020001"),
    ("a released sheet with itself", [FOUR_PAIRS, *opened(0, 0), "B500"], "B40000", "03020001"),
    ("into no sheet", [FOUR_PAIRS, *opened(0, 0)], "B40400", "03020001"),
    ("of a blank sheet", [FOUR_PAIRS, *opened(0, 0)], "B40001", "03020002"),
    ("of no sheet", [FOUR_PAIRS, *opened(0, 0)], "B40004", "03020002"),
    ("the first sheet precedes the second", [], "B40009", "03020001"),
    ("a stopped replay of the first", [*on_two_sheets([1], [0]), ONLY_TO], "B40001", "1002000105040000"),
    ("a stopped replay of the second", [*on_two_sheets([0], [0, 1]), ONLY_TO], "B40001", "1002000205040000"),
    ("the first replay precedes the second", [*on_two_sheets([0, 1], [1]), ONLY_TO], "B40001", "1002000205040000"),
    ("a standing precedes a stopped replay", [FOUR_PAIRS, *opened(0, 1), ONLY_TO], "B40001", "03020002"),
    ("starts differ", [FOUR_PAIRS, *opened(0, 0), *opened(1, 0, start=OTHER_FIRSTS)], "B40001", "0D020000"),
    (
        "a stopped replay precedes starts",
        [FOUR_PAIRS, *opened(0, 0), *opened(1, 1, start=OTHER_FIRSTS), ONLY_TO],
        "B40001",
        "1002000105040000",
    ),
    ("starts precede a conflict", [FOUR_PAIRS, *opened(0, 0), *opened(1, 8, start=OTHER_FIRSTS)], "B40001", "0D020000"),
    ("a conflict at step 1", on_two_sheets([0], [8]), "B40001", "0E020001"),
    ("a conflict at step 3", on_two_sheets([1, 0], [1, 2, 8]), "B40001", "0E020003"),
    ("a conflict behind passed steps", on_two_sheets([1, 2, 0], [3, 8]), "B40001", "0E020002"),
    ("equal events of two numbers conflict", on_two_sheets([0], [9]), "B40001", "0E020001"),
    ("one went on, the other took another way", on_two_sheets([0, 1, 10], [0, 1, 5]), "B40001", "0E020003"),
    ("one went on, the other only began", on_two_sheets([0, 1, 10], [1]), "B40001", "000301"),
    ("one only began, the other went on", on_two_sheets([1], [0, 1, 10]), "B40001", "000301"),
    (
        "a conflict leaves the steps",
        [*on_two_sheets([1, 0], [1, 2, 8]), "B40001", "B500"],
        "B700",
        "0002" + FIRSTS + " 0101 0100 000000000000005A",
    ),
    ("31 steps", on_two_sheets(there_and_back(0, 16), there_and_back(1, 15)), "B40001", "001F00"),
    ("32 steps", on_two_sheets(there_and_back(0, 16), there_and_back(1, 16)), "B40001", "002000"),
    ("33 steps", on_two_sheets(there_and_back(0, 16), there_and_back(1, 17)), "B40001", "0F020021"),
    ("64 steps", on_two_sheets(there_and_back(0, 32), there_and_back(1, 32)), "B40001", "0F020040"),
    (
        "32 steps with shared ones",
        on_two_sheets([2, *there_and_back(0, 16)], [*there_and_back(1, 15), 2]),
        "B40001",
        "002001",
    ),
    (
        "a conflict precedes a joined length",
        on_two_sheets([*there_and_back(0, 20), 2, 3], [*there_and_back(1, 20), 8]),
        "B40001",
        "0E020015",
    ),
    (
        "a joined length leaves the steps",
        [*on_two_sheets(there_and_back(0, 16), there_and_back(1, 17)), "B40001"],
        "B300",
        "000000000000000056",
    ),
]


class NoStates(Net):
    """A net that takes nothing for a state."""

    def state(self, data: bytes) -> Marking:
        raise Refusal(Number.STATE, Layer.SYSTEM, 2)


class ModelTest(CaseTest):
    def test_frames(self) -> None:
        self.check(FRAME_CASES)

    def test_setups(self) -> None:
        self.check(SETUP_CASES)

    def test_sheets(self) -> None:
        self.check(SHEET_CASES)

    def test_replays(self) -> None:
        self.check(REPLAY_CASES)

    def test_swaps(self) -> None:
        self.check(SWAP_CASES)

    def test_joins(self) -> None:
        self.check(JOIN_CASES)

    def test_start_that_is_no_state_now(self) -> None:
        bench = Bench(Net([Event(1, frozenset([0]), frozenset([1]))]))
        bench.open(0, bytes.fromhex(C0))
        bench.add(0, b"\x00")
        bench.system = NoStates()
        with self.assertRaises(Refusal) as caught:
            bench.release(0)
        self.assertEqual(caught.exception.encode().hex(), "1002000004040002")


Mark = tuple[bool, Marking]
Marked = tuple[bool, int]


class MarkedNet(System[Mark, Marked]):
    """A net in which the first step of a run bears a mark, and a step that becomes the second loses it.

    So what is left of a step is not always the step itself. A state says
    whether a marked step comes next.
    """

    MARK = b"\xFF"

    def __init__(self, net: Net) -> None:
        self.net = net

    def state(self, data: bytes) -> Mark:
        marked = data.startswith(self.MARK)
        return marked, self.net.state(data.removeprefix(self.MARK))

    def step(self, data: bytes) -> Marked:
        marked = data.startswith(self.MARK)
        return marked, self.net.step(data.removeprefix(self.MARK))

    def label(self, step: Marked) -> int:
        return self.net.label(step[1])

    def next(self, state: Mark, step: Marked) -> Mark:
        if state[0] != step[0]:
            raise Refusal(Number.IMPOSSIBLE, Layer.SYSTEM, 0)
        return False, self.net.next(state[1], step[1])

    def encode_state(self, state: Mark) -> bytes:
        return (self.MARK if state[0] else b"") + self.net.encode_state(state[1])

    def encode_step(self, step: Marked) -> bytes:
        return (self.MARK if step[0] else b"") + self.net.encode_step(step[1])

    def independent(self, one: Marked, other: Marked) -> bool:
        return one[0] == other[0] and self.net.independent(one[1], other[1])

    def residual(self, step: Marked, after: Marked) -> Marked:
        return False, step[1]

    def back(self, first: Marked, second: Marked) -> Marked | None:
        if second[0] or not self.net.independent(first[1], second[1]):
            return None
        return first[0], second[1]


def small_net(random: Random) -> tuple[Net, Marking]:
    """Tokens, each with three conditions of its own to go round, and events that move one or two of them."""
    homes = [range(3 * i, 3 * i + 3) for i in range(random.choice((2, 3)))]
    events = []
    for _ in range(random.randrange(6, 16)):
        moves = [random.sample(home, 2) for home in random.sample(homes, random.choice((1, 1, 2)))]
        events.append(Event(0, frozenset(before for before, _ in moves), frozenset(after for _, after in moves)))
    return Net(events), frozenset(random.choice(home) for home in homes)


class Trial:
    """Two runs from one start in a small system, on sheets 0 and 1 of a bench."""

    def __init__(
        self, random: Random, system: System[Any, Any], start: Any, possible: Callable[[Any], list[Any]]
    ) -> None:
        self.random = random
        self.system = system
        self.start = start
        self.possible = possible
        self.search: Search[Any, Any] = Search(system, possible)
        self.one = self.random_run((), random.choice((1, 2, 3, 4, 4)))
        order = random.choice(sorted(self.search.orders(self.one), key=self.encoded))
        kept = order[: random.choice((0, 1, 2, 3))]
        self.other = self.random_run(kept, random.randrange(5 - len(kept)))

    def encoded(self, steps: tuple[Any, ...]) -> list[bytes]:
        return [self.system.encode_step(step) for step in steps]

    def random_run(self, steps: tuple[Any, ...], more: int) -> tuple[Any, ...]:
        for _ in range(more):
            possible = self.possible(self.search.end(self.start, steps))
            if possible:
                steps += (self.random.choice(possible),)
        return steps

    def bench(self) -> Bench[Any, Any]:
        bench = Bench(self.system)
        for number, steps in enumerate((self.one, self.other)):
            bench.open(number, self.system.encode_state(self.start))
            for step in steps:
                bench.add(number, self.system.encode_step(step))
        return bench

    def steps(self, bench: Bench[Any, Any], number: int) -> tuple[Any, ...]:
        return tuple(bench.replay(bench.sheets[number]).steps)


def one_of(system: System[Any, Any], steps: list[Any]) -> Callable[[Any], list[Any]]:
    """Which of these steps are possible in a state."""

    def possible(state: Any) -> list[Any]:
        found = []
        for step in steps:
            try:
                system.next(state, step)
            except Refusal:
                continue
            found.append(step)
        return found

    return possible


def net_trial(random: Random) -> Trial:
    net, marking = small_net(random)
    return Trial(random, net, marking, one_of(net, list(range(len(net.events)))))


def marked_trial(random: Random) -> Trial:
    net, marking = small_net(random)
    steps = [(mark, step) for mark in (False, True) for step in range(len(net.events))]
    marked = MarkedNet(net)
    return Trial(random, marked, (True, marking), one_of(marked, steps))


def terms_trial(random: Random) -> Trial:
    terms, term = random_terms(random, random.choice((8, 10, 12)))
    return Trial(random, terms, term, lambda state: possible_proofs(terms, state))


class SearchTest(unittest.TestCase):
    """Joins and swaps against what a search finds."""

    # Each kind with the number of its trials.
    KINDS = {net_trial: 400, marked_trial: 400, terms_trial: 200}

    def trials(self, kind: Callable[[Random], Trial]) -> list[Trial]:
        return [kind(Random(seed)) for seed in range(self.KINDS[kind])]

    def joined(self, trial: Trial, number: int, other: int) -> tuple[Any, ...] | int:
        """The steps after a join, or the place of the conflict."""
        bench = trial.bench()
        lengths = len(trial.one) + len(trial.other)
        try:
            length, shared = bench.join(number, other)
        except Refusal as refusal:
            self.assertEqual(refusal.number, Number.CONFLICT)
            return refusal.place
        steps = trial.steps(bench, number)
        self.assertEqual((length, shared), (len(steps), lengths - len(steps)))
        return steps

    def check_join(self, trial: Trial) -> int | None:
        """The place of the conflict, if there is one."""
        search = trial.search
        joined = self.joined(trial, 0, 1)
        conflict = search.conflict(trial.start, trial.one, trial.other)
        if isinstance(joined, int):
            self.assertEqual(joined, conflict)
            self.assertIsInstance(self.joined(trial, 1, 0), int)
            return joined
        self.assertIsNone(conflict)
        self.assertEqual(joined[: len(trial.one)], trial.one)
        self.assertTrue(search.extends(joined, trial.other))
        for orders in search.common_extensions(trial.start, trial.one, trial.other):
            self.assertTrue(any(order[: len(joined)] == joined for order in orders))
        opposite = self.joined(trial, 1, 0)
        assert isinstance(opposite, tuple)
        self.assertEqual(search.end(trial.start, opposite), search.end(trial.start, joined))
        return None

    def test_joins(self) -> None:
        for kind in self.KINDS:
            conflicts = set()
            for seed, trial in enumerate(self.trials(kind)):
                with self.subTest(kind=kind.__name__, seed=seed):
                    conflicts.add(self.check_join(trial))
            self.assertEqual(conflicts, {None, 1, 2, 3, 4})

    def test_joins_with_itself(self) -> None:
        for kind in self.KINDS:
            for trial in self.trials(kind):
                bench = trial.bench()
                length = len(trial.one)
                self.assertEqual(bench.join(0, 0), (length, length))
                self.assertEqual(trial.steps(bench, 0), trial.one)

    def check_swap(self, trial: Trial, place: int) -> bool:
        """Says whether the swap is accepted."""
        bench = trial.bench()
        first, second = trial.one[place - 1 : place + 1]
        try:
            bench.swap(0, place)
        except Refusal as refusal:
            self.assertEqual((refusal.number, refusal.place), (Number.DEPENDENT, place))
            self.assertIsNone(trial.system.back(first, second))
            return False
        steps = trial.steps(bench, 0)
        self.assertIn(steps, list(trial.search.exchanges(trial.one)))
        self.assertEqual(steps[: place - 1] + steps[place + 1 :], trial.one[: place - 1] + trial.one[place + 1 :])
        self.assertEqual(trial.search.end(trial.start, steps), trial.search.end(trial.start, trial.one))
        self.assertTrue(trial.search.extends(steps, trial.one))
        self.assertTrue(trial.search.extends(trial.one, steps))
        return True

    def test_swaps(self) -> None:
        for kind in self.KINDS:
            answers = set()
            for seed, trial in enumerate(self.trials(kind)):
                for place in range(1, len(trial.one)):
                    with self.subTest(kind=kind.__name__, seed=seed, place=place):
                        answers.add(self.check_swap(trial, place))
            self.assertEqual(answers, {False, True})

    def test_search_by_hand(self) -> None:
        """Events 0, 1 and 2 are independent of each other; event 3 shuts event 0 out."""
        moves = [(0, 1), (2, 3), (4, 5), (0, 6)]
        net = Net([Event(0, frozenset([before]), frozenset([after])) for before, after in moves])
        start = frozenset([0, 2, 4])
        search = Search(net, lambda marking: [s for s in range(4) if net.events[s].is_possible(marking)])
        self.assertEqual(len(search.orders((0, 1, 2))), 6)
        self.assertEqual(search.orders((1, 3)), {(1, 3), (3, 1)})
        self.assertTrue(search.extends((0, 1, 2), (2, 0)))
        self.assertFalse(search.extends((0, 1), (2,)))
        self.assertFalse(search.extends((0, 1), (0, 1, 2)))
        self.assertIsNone(search.conflict(start, (0, 1), (2, 1)))
        self.assertEqual(len(search.common_extensions(start, (0, 1), (2, 1))), 1)
        self.assertEqual(search.conflict(start, (0, 1), (1, 2, 3)), 3)
        self.assertEqual(search.conflict(start, (1, 2, 3), (0, 1)), 1)

    def test_marked_by_hand(self) -> None:
        """The second step loses its mark, in a join and in a swap."""
        net = Net([Event(0, frozenset([0]), frozenset([1])), Event(0, frozenset([2]), frozenset([3]))])
        bench = Bench(MarkedNet(net))
        for number in (0, 1):
            bench.open(number, b"\xFF" + encode_set((0, 2)))
            bench.add(number, bytes([0xFF, number]))
        self.assertEqual(bench.join(0, 1), (2, 0))
        self.assertEqual(bench.sheets[0].steps, [b"\xFF\x00", b"\x01"])
        bench.swap(0, 1)
        self.assertEqual(bench.sheets[0].steps, [b"\xFF\x01", b"\x00"])
        self.assertEqual(bench.join(0, 1), (2, 1))


class ProgramTest(unittest.TestCase):
    CASES = [
        ("empty input", b"", b""),
        ("one line end", b"\n", b"01010000\n"),
        ("a last line without its line end", b"B500\nB8", b"03020001\n01010000\n"),
        ("bytes outside ASCII", b"\xff\n", b"01010000\n"),
    ]

    def test_program(self) -> None:
        for why, data, output in self.CASES:
            with self.subTest(why):
                result = subprocess.run([sys.executable, PROGRAM], input=data, stdout=subprocess.PIPE, check=True)
                self.assertEqual(result.stdout, output)


    def test_stored_sessions(self) -> None:
        inputs = sorted(SESSIONS.glob("*.in"))
        self.assertTrue(inputs)
        for path in inputs:
            with self.subTest(path.name):
                server = Server()
                found = b"".join(server.answer(line) for line in split_lines(path.read_bytes()))
                self.assertEqual(found, path.with_suffix(".out").read_bytes())


class GeneratorTest(unittest.TestCase):
    def test_same_seed_same_session(self) -> None:
        self.assertEqual(generate(5, 300), generate(5, 300))
        self.assertNotEqual(generate(5, 300), generate(6, 300))

    def test_number_of_frames(self) -> None:
        for frames in (0, 1, 2, 57):
            for seed in range(10):
                self.assertEqual(len(split_lines(generate(seed, frames))), frames)


if __name__ == "__main__":
    unittest.main()
