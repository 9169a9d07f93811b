#!/usr/bin/env python3
"""Times a program and the model on the same inputs.

These are a long random session of all calls, joins of long runs, calls on
sheets of different lengths, and calls on long terms.
"""

from __future__ import annotations

import argparse
import subprocess
import sys
import time
from collections import Counter
from collections.abc import Callable, Iterable
from dataclasses import dataclass
from pathlib import Path

from draw_nets import setup_frame
from draw_terms import behind, chain, choices
from draw_terms import setup_frame as terms_setup
from drawing import ADD, CALLS, JOIN, LOOK, OPEN, PRINT, RELEASE, SWAP, WITHDRAW, Layers
from generate import generate_session
from nets import CONDITIONS, Event, encode_set
from terms import Act, Both, Call, ChooseRight, Nil, OnLeft, OnRight, Parallel, Prefix, Proof, Term

MODEL = [sys.executable, str(Path(__file__).resolve().parent / "sheetbench.py")]
SEED = 1
FRAMES = 200_000
SESSION_FRAMES = 10_000
JOINS = 2_000
# How often a call on a long term is made, and one on a sheet of some length.
PROGRAM_CALLS = 4_000
MODEL_CALLS = 400
PROGRAM_LENGTH_CALLS = 5_000
MODEL_LENGTH_CALLS = 20
TERM_BYTES = (64, 128, 256)
STEP_BYTES = (16, 32, 64)
LENGTHS = (0, 4, 8, 16, 24, 31)


def benchmark_input() -> tuple[bytes, int]:
    """One session over and over, and the number of its frames in all.

    No sheet is left released at its end, so that it can begin anew.
    """
    session = generate_session(SEED, SESSION_FRAMES, wrong_moves=False)
    session.settle()
    repeats = round(FRAMES / len(session.lines))
    data = b"".join(line + b"\n" for line in session.lines)
    return data * repeats, len(session.lines) * repeats


def timed_run(command: list[str], data: bytes) -> tuple[bytes, float]:
    begin = time.perf_counter()
    result = subprocess.run(command, input=data, stdout=subprocess.PIPE, check=True)
    return result.stdout, time.perf_counter() - begin


# Joins

# Events 0 to 31 go from an even condition to the next, each for itself. Event 32
# goes back from condition 1 to 0, event 33 from 3 to 2, and event 34 from
# condition 0 to 3 instead of 1.
SOURCES = range(0, CONDITIONS, 2)
MOVES = [*((c, c + 1) for c in SOURCES), (1, 0), (3, 2), (0, 3)]
SETUP = setup_frame([Event(0, frozenset([before]), frozenset([after])) for before, after in MOVES])
START = encode_set(SOURCES)


def opened(number: int, steps: Iterable[int]) -> list[bytes]:
    """The frames that open a sheet and add the steps."""
    return [bytes([OPEN, number]) + START] + [bytes([ADD, number, step]) for step in steps]


def there_and_back(there: int, back: int, count: int) -> list[int]:
    return [(there, back)[i % 2] for i in range(count)]


@dataclass
class JoinCase:
    """Runs for the sheets 0 and 1, of which 1 is joined into 0 again and again.

    Before each join sheet 0 is opened anew and gets its steps from sheet 2,
    by a join too, since a join may change it.
    """

    name: str
    one: Iterable[int]
    other: Iterable[int]

    def frames(self, joins: int) -> list[bytes]:
        """So many openings of sheet 0, each with the join."""
        return self.before() + joins * [*self.renewal(), bytes([JOIN, 0, 1])]

    def frames_without(self, joins: int) -> list[bytes]:
        """The same without the joins."""
        return self.before() + joins * self.renewal()

    def before(self) -> list[bytes]:
        return [SETUP, *opened(2, self.one), *opened(1, self.other)]

    def renewal(self) -> list[bytes]:
        return [*opened(0, ()), bytes([JOIN, 0, 2])]


JOIN_CASES = (
    JoinCase("16 steps, the same in the opposite order", range(16), range(15, -1, -1)),
    JoinCase("32 steps, the same in the opposite order", range(32), range(31, -1, -1)),
    JoinCase("16 steps, 16 others", range(16), range(16, 32)),
    JoinCase("32 steps, 32 others: too long", there_and_back(0, 32, 32), there_and_back(1, 33, 32)),
    JoinCase("32 steps, 31 others and a conflict", there_and_back(0, 32, 32), [*there_and_back(1, 33, 30), 2, 34]),
)


def encode_frames(frames: list[bytes]) -> bytes:
    return b"".join(frame.hex().upper().encode("ascii") + b"\n" for frame in frames)


def join_seconds(command: list[str], case: JoinCase) -> tuple[bytes, float]:
    """The output with the joins, and the time that a join takes."""
    output, seconds = timed_run(command, encode_frames(case.frames(JOINS)))
    _, seconds_without = timed_run(command, encode_frames(case.frames_without(JOINS)))
    return output, (seconds - seconds_without) / JOINS


# A call over and over


@dataclass
class CallFrames:
    """The frames before, those that are repeated with the call, and those of them without it."""

    before: list[bytes]
    repeated: list[bytes]
    without: list[bytes]


def call_seconds(command: list[str], call: CallFrames, times: int) -> tuple[bytes, float]:
    """The output with the call, and the time that it takes."""
    output, seconds = timed_run(command, encode_frames(call.before + times * call.repeated))
    _, seconds_without = timed_run(command, encode_frames(call.before + times * call.without))
    return output, (seconds - seconds_without) / times


# Calls on sheets of different lengths


@dataclass
class LengthCase:
    """A system, a start, and 32 steps that are possible in it in any order."""

    name: str
    setup: bytes
    start: bytes
    steps: list[bytes]

    def sheet(self, number: int, steps: Iterable[bytes]) -> list[bytes]:
        return [bytes([OPEN, number]) + self.start] + [bytes([ADD, number]) + step for step in steps]

    def calls(self, length: int) -> dict[str, CallFrames]:
        """Each call on sheet 0, which has so many steps; those that there are at this length.

        Where the call changes the sheet, it is first made anew each time, by a
        join of sheet 2 into one without steps.
        """
        steps = self.steps[:length]
        begin = [self.setup, *self.sheet(0, steps), *self.sheet(1, reversed(steps)), *self.sheet(2, steps)]
        renewal = [*self.sheet(0, ()), bytes([JOIN, 0, 2])]
        next_step = bytes([ADD, 0]) + self.steps[length]
        found = {
            "add": CallFrames(begin, [*renewal, next_step], renewal),
            "join": CallFrames(begin, [bytes([JOIN, 0, 1])], []),
            "look": CallFrames(begin, [bytes([LOOK, 0, length // 2])], []),
            "print": CallFrames([*begin, bytes([RELEASE, 0])], [bytes([PRINT, 0])], []),
        }
        if length > 1:
            found["swap"] = CallFrames(begin, [bytes([SWAP, 0, 1])], [])
            found["withdraw"] = CallFrames(begin, [*renewal, bytes([WITHDRAW, 0])], renewal)
        return found


def length_cases() -> list[LengthCase]:
    layers = Layers(bytes(range(1, 17)), bytes(range(0x20, 0x28)))
    events = [Event(index % 8 + 1, frozenset([c]), frozenset([c + 1])) for index, c in enumerate(SOURCES)]
    numbers = [bytes([number]) for number in range(len(events))]
    tree, proofs = tree_of_prefixes(5)
    return [
        LengthCase("net", setup_frame(events), START, numbers),
        LengthCase("net under 8 pairs and 8 masked names", setup_frame(events, layers), START, numbers),
        LengthCase("terms", terms_setup([]), tree.encoded, proofs),
        LengthCase("terms under 8 pairs and 8 masked names", terms_setup([], layers), tree.encoded, proofs),
    ]


def tree_of_prefixes(depth: int) -> tuple[Term, list[bytes]]:
    """Prefixes side by side, two at each node for so many levels, and the step of each."""
    if depth == 0:
        return Prefix(0x01, Nil()), [Act(0x01).encoded]
    below, steps = tree_of_prefixes(depth - 1)
    return Parallel(below, below), [node + step for node in (b"\x11", b"\x12") for step in steps]


# Calls on long terms


@dataclass
class TermCase:
    """A start, and two independent steps of it; the second is also what is left of it after the first."""

    name: str
    start: Term
    first: Proof
    second: Proof
    second_later: Proof
    bodies: tuple[Term, ...] = (Nil(),)

    def calls(self) -> dict[str, CallFrames]:
        start, first, second = (tree.encoded for tree in (self.start, self.first, self.second))
        begin = [terms_setup([body.encoded for body in self.bodies])]
        opening = [bytes([OPEN, 0]) + start]
        adding = [*opening, bytes([ADD, 0]) + first]
        both = [*adding, bytes([ADD, 0]) + self.second_later.encoded]
        beside = [bytes([OPEN, 1]) + start, bytes([ADD, 1]) + second]
        return {
            "open": CallFrames(begin, opening, []),
            "look": CallFrames([*begin, *opening], [bytes([LOOK, 0, 0])], []),
            "add": CallFrames(begin, adding, opening),
            "withdraw": CallFrames(begin, [*adding, bytes([WITHDRAW, 0])], adding),
            "swap": CallFrames(begin + both, [bytes([SWAP, 0, 1])], []),
            "join": CallFrames(begin + beside, [*adding, bytes([JOIN, 0, 1])], adding),
            "print": CallFrames(begin + both + [bytes([RELEASE, 0])], [bytes([PRINT, 0])], []),
        }


def two_ends(length: int) -> Parallel:
    """Two prefixes side by side, in just so many bytes, at least 7."""
    first = max(1, (length - 5) // 4)
    second = length - 2 - 2 * first
    return Parallel(chain([0x01] * first, Nil()), of_length(second, 0x02))


def of_length(length: int, action: int) -> Term:
    """A chain of just so many bytes; one of an even number ends with a call."""
    return chain([action] * ((length - 1) // 2), Nil() if length % 2 else Call(0))


def nested_case(
    name: str, size: int, side: type, wrap: Callable[[Term], Term], vanishes: bool, most_depth: int = 61
) -> TermCase:
    """Two prefixes side by side below as many nodes as a step has room for, or as are wanted."""
    depth = min((size - 8) // 2, most_depth)
    start: Term = two_ends(size - 2 * depth)
    for _ in range(depth):
        start = wrap(start)
    outer = [side] * depth
    first, second = behind([*outer, OnLeft], Act(0x01)), behind([*outer, OnRight], Act(0x02))
    later = OnRight(Act(0x02)) if vanishes else second
    return TermCase(f"{name}, {size} bytes", start, first, second, later)


def meeting_case(size: int, most_depth: int = 28, deeper: int = 0) -> TermCase:
    """Two sides, each with prefixes below many nodes, the right one below so many more: a meeting, and a step beside one of its ends."""
    depth = min((size // 2 - 8) // 2, most_depth)
    sides: list[Term] = []
    ends: list[Proof] = []
    for action, rest, nodes in ((0x01, size // 2 - 1, depth), (0x41, size - size // 2, depth + deeper)):
        side: Term = Parallel(Prefix(action, Nil()), of_length(rest - 2 * nodes - 4, 0x02))
        for _ in range(nodes):
            side = Parallel(Nil(), side)
        sides.append(side)
        ends.append(behind([*[OnRight] * nodes, OnLeft], Act(action)))
    beside = OnLeft(behind([*[OnRight] * depth, OnRight], Act(0x02)))
    return TermCase(f"meetings, {size} bytes", Parallel(sides[0], sides[1]), Both(ends[0], ends[1]), beside, beside)


def unfolding_case(size: int) -> TermCase:
    """A call that is unfolded at each node on the way, and grows to about so many bytes."""
    depth = min((size - 4) // 4, 61)
    body = Parallel(Prefix(0x01, Nil()), Call(0))
    first = behind([OnRight] * depth + [OnLeft], Act(0x01))
    second = behind([OnLeft], Act(0x01))
    return TermCase(f"calls unfolded to {4 * depth + 4} bytes", Call(0), first, second, second, (body,))


def term_cases() -> list[TermCase]:
    found = []
    for size in TERM_BYTES:
        found += [
            nested_case("parallels nested to the right", size, OnRight, lambda term: Parallel(Nil(), term), False),
            nested_case("parallels nested to the left", size, OnLeft, lambda term: Parallel(term, Nil()), False),
            nested_case("choices nested to the right", size, ChooseRight, lambda term: choices(1, term), True),
            meeting_case(size),
            unfolding_case(size),
        ]
    return found


def flat_case(depth: int) -> TermCase:
    """A balanced tree of prefixes side by side, two at each node for so many levels, and the steps of its two ends."""
    tree, _ = tree_of_prefixes(depth)
    first, second = behind([OnLeft] * depth, Act(0x01)), behind([OnRight] * depth, Act(0x01))
    return TermCase(f"flat, {len(tree.encoded)} bytes", tree, first, second, second)


def question_cases() -> dict[str, list[TermCase]]:
    """Terms and steps of chosen lengths: by the bytes of the state, and by those of the step in a state of 256 bytes."""

    def to_the_right(size: int, depth: int) -> TermCase:
        return nested_case("nested", size, OnRight, lambda term: Parallel(Nil(), term), False, depth)

    # a step is two bytes longer than the nodes around its prefix; a meeting has two prefixes and a node more
    return {
        "state": [*map(flat_case, (4, 5, 6)), *(to_the_right(size, 13) for size in TERM_BYTES)],
        "step": [
            *(meeting_case(256, size // 2 - 4, 1) for size in STEP_BYTES),
            *(to_the_right(256, size - 3) for size in STEP_BYTES),
        ],
    }


# Reports; each says whether the outputs are the same


def report_session(program: list[str]) -> bool:
    data, frames = benchmark_input()
    output, seconds = timed_run(program, data)
    model_output, model_seconds = timed_run(MODEL, data)
    print(f"frames:  {frames}, {shares(data)}")
    print(f"program: {frames / seconds:,.0f} frames per second ({seconds:.2f} s)")
    print(f"model:   {frames / model_seconds:,.0f} frames per second ({model_seconds:.2f} s)")
    print(f"ratio:   {model_seconds / seconds:.1f}")
    if output != model_output:
        print("the outputs differ")
    return output == model_output


def shares(data: bytes) -> str:
    """How many of the frames make each call, in percent."""
    lines = [line.upper() for line in data.splitlines()]
    heads = Counter(line[:2] for line in lines)
    pairs = sum(line.startswith(b"A0") and line[4:6] != b"00" for line in lines)
    calls = [f"{call:02X} {100 * heads[b'%02X' % call] / len(lines):.1f} %" for call in CALLS]
    return ", ".join([*calls, f"setups with pairs {100 * pairs / len(lines):.1f} %"])


def report_join(program: list[str], case: JoinCase) -> bool:
    output, seconds = join_seconds(program, case)
    model_output, model_seconds = join_seconds(MODEL, case)
    if output != model_output:
        print(f"join, {case.name}: the outputs differ")
        return False
    answer = output.split(b"\n")[-2].decode("ascii")
    times = f"program {1e6 * seconds:,.1f} µs, model {1e6 * model_seconds:,.1f} µs"
    print(f"join, {case.name}: answer {answer}, {times}")
    return True


def report_term(program: list[str], case: TermCase) -> bool:
    same = True
    times = []
    for call, frames in case.calls().items():
        output, seconds = call_seconds(program, frames, PROGRAM_CALLS)
        model_output, model_seconds = call_seconds(MODEL, frames, MODEL_CALLS)
        times.append(f"{call} {1e6 * seconds:,.1f} ({1e6 * model_seconds:,.0f})")
        refused = [line for line in model_output.splitlines() if line[:2] in (b"01", b"05", b"06", b"08", b"0B", b"0C")]
        if not output.startswith(model_output):
            times.append("the outputs differ")
            same = False
        assert call == "print" or not refused, refused[0]
    print(f"{case.name}, in µs (the model's): {', '.join(times)}")
    return same


def report_lengths(program: list[str], case: LengthCase) -> bool:
    """A table of the time that each call takes the program, with a column for each length."""
    same = True
    rows: dict[str, list[str]] = {}
    for column, length in enumerate(LENGTHS):
        for call, frames in case.calls(length).items():
            output, seconds = call_seconds(program, frames, PROGRAM_LENGTH_CALLS)
            model_output, _ = timed_run(MODEL, encode_frames(frames.before + MODEL_LENGTH_CALLS * frames.repeated))
            rows.setdefault(call, [""] * len(LENGTHS))[column] = f"{1e6 * seconds:,.1f}"
            refused = [line for line in model_output.splitlines() if not line.startswith(b"00")]
            assert call == "print" or not refused, refused[0]
            same = same and output.startswith(model_output)
    print(f"{case.name}, in µs, on a sheet with so many steps:")
    for name, cells in (("steps", map(str, LENGTHS)), *sorted(rows.items())):
        print(f"{name:>8}" + "".join(f"{cell:>10}" for cell in cells))
    if not same:
        print("the outputs differ")
    return same


def main() -> int:
    parser = argparse.ArgumentParser(description=__doc__)
    parser.add_argument("program", type=Path, metavar="PROGRAM")
    program = [str(parser.parse_args().program.resolve())]
    same = [report_session(program), *(report_join(program, case) for case in JOIN_CASES)]
    same += [report_lengths(program, case) for case in length_cases()]
    same += [report_term(program, case) for case in term_cases()]
    return 0 if all(same) else 1


if __name__ == "__main__":
    sys.exit(main())
