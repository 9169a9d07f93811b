#!/usr/bin/env python3
"""A model of sheetbench: four run sheets over a transition system.

Reads one frame a line in hexadecimal from standard input and writes the
answers to standard output. Written for plainness, not for speed: a marking is
a set of conditions, a term a tree, and every call replays its sheet from the
start. The systems are in modules of their own; the bench knows of them what
is in systems.py.
"""

from __future__ import annotations

import re
import sys
from collections.abc import Sequence
from dataclasses import dataclass, field
from enum import Enum, auto
from typing import Any, Generic

from layers import Mask, layered
from nets import EVENT_BYTES, Event, Net
from systems import E, Layer, Number, Refusal, S, System, is_name
from terms import Misfit, Terms, decode_body

MOST_FRAME_BYTES = 1024
SHEETS = 4
MOST_STEPS = 32
MOST_EVENTS = 48
MOST_DEFINITIONS = 16
MOST_PAIRS = 8
MOST_MASKED = 8
KIND_TERMS = 0x01
KIND_NET = 0x02
DONE = b"\x00"


# Joining


class Conflict(Exception):
    """Two steps that are neither equal nor independent."""


def carry(system: System[S, E], step: E, run: list[E]) -> tuple[list[E], list[E]]:
    """What is left of a step after a run, in a list of one or none, and what is left of the run after the step."""
    passed: list[E] = []
    for place, met in enumerate(run):
        if step == met:
            return [], passed + run[place + 1 :]
        if not system.independent(step, met):
            raise Conflict
        step, met = system.residual(step, met), system.residual(met, step)
        passed.append(met)
    return [step], passed


# The bench


class Standing(Enum):
    BLANK = auto()
    OPEN = auto()
    RELEASED = auto()


@dataclass
class Sheet:
    """A start state and steps as they were written, and the sheet's standing."""

    standing: Standing = Standing.BLANK
    start: bytes = b""
    steps: list[bytes] = field(default_factory=list)


@dataclass
class Run(Generic[S, E]):
    """A replayed sheet: its steps and the states before, between and after them."""

    states: list[S]
    steps: list[E]

    @property
    def end(self) -> S:
        return self.states[-1]


@dataclass
class Printout:
    start: bytes
    steps: list[tuple[int, bytes]]
    end: bytes


class Bench(Generic[S, E]):
    """The run sheets, and the system they are replayed in."""

    def __init__(self, system: System[S, E]) -> None:
        self.system = system
        self.sheets = [Sheet() for _ in range(SHEETS)]

    def sheet(self, number: int, *standings: Standing, place: int = 1) -> Sheet:
        """The numbered sheet, if its standing is one of those given; place is that of the number in the frame."""
        if number >= SHEETS or self.sheets[number].standing not in standings:
            raise Refusal(Number.SHEET, Layer.BENCH, place)
        return self.sheets[number]

    def replay(self, sheet: Sheet) -> Run[S, E]:
        """The run of the sheet in the present system."""
        place = 0
        try:
            run = Run([self.system.state(sheet.start)], [])
            for place, data in enumerate(sheet.steps, start=1):
                [step] = self.system.given(data)
                run.states.append(self.system.follow(run.end, step))
                run.steps.append(step)
        except Refusal as beneath:
            raise Refusal(Number.REPLAY, Layer.BENCH, place, beneath) from None
        return run

    def open(self, number: int, start: bytes) -> None:
        sheet = self.sheet(number, Standing.BLANK, Standing.OPEN)
        self.system.state(start)
        sheet.standing = Standing.OPEN
        sheet.start = start
        sheet.steps = []

    def add(self, number: int, data: bytes) -> bytes:
        """Adds a step at the end and returns the new end state."""
        sheet = self.sheet(number, Standing.OPEN)
        run = self.replay(sheet)
        if len(sheet.steps) >= MOST_STEPS:
            raise Refusal(Number.FULL, Layer.BENCH, MOST_STEPS)
        [step] = self.system.given(data)
        end = self.system.follow(run.end, step)
        sheet.steps.append(data)
        return self.system.encode_state(end)

    def swap(self, number: int, place: int) -> None:
        """Exchanges the step with this place, from 1, and the one behind it."""
        sheet = self.sheet(number, Standing.OPEN)
        run = self.replay(sheet)
        if place == 0 or place + 1 > len(sheet.steps):
            raise Refusal(Number.ABSENT, Layer.BENCH, place)
        first, second = run.steps[place - 1 : place + 1]
        moved = self.system.back(first, second)
        if moved is None:
            raise Refusal(Number.DEPENDENT, Layer.BENCH, place)
        exchanged = [self.system.answer_step(step) for step in (moved, self.system.residual(first, moved))]
        self.system.follow(run.states[place - 1], moved)
        sheet.steps[place - 1 : place + 1] = exchanged

    def withdraw(self, number: int) -> bytes:
        """Takes the last step away and returns the end state that is left."""
        sheet = self.sheet(number, Standing.OPEN)
        run = self.replay(sheet)
        if not sheet.steps:
            raise Refusal(Number.ABSENT, Layer.BENCH, 0)
        sheet.steps.pop()
        return self.system.encode_state(run.states[-2])

    def join(self, number: int, other_number: int) -> tuple[int, int]:
        """Joins another sheet into a sheet; returns the new length and the number of shared steps."""
        sheet = self.sheet(number, Standing.OPEN)
        other = self.sheet(other_number, Standing.OPEN, Standing.RELEASED, place=2)
        run = self.replay(sheet)
        other_run = self.replay(other)
        if sheet.start != other.start:
            raise Refusal(Number.STARTS, Layer.BENCH, 0)
        survivors = self.carry_all(other_run.steps, run.steps)
        length = len(run.steps) + len(survivors)
        if length > MOST_STEPS:
            raise Refusal(Number.LENGTH, Layer.BENCH, length)
        shared = len(run.steps) + len(other_run.steps) - length
        end = run.end
        for step in survivors:
            end = self.system.follow(end, step)
        sheet.steps = sheet.steps + [self.system.encode_step(step) for step in survivors]
        return length, shared

    def carry_all(self, steps: list[E], run: list[E]) -> list[E]:
        """What is left of the steps, each carried through what the earlier ones left of the run."""
        survivors: list[E] = []
        for place, step in enumerate(steps, start=1):
            try:
                left, run = carry(self.system, step, run)
            except Conflict:
                raise Refusal(Number.CONFLICT, Layer.BENCH, place) from None
            survivors += left
        return survivors

    def release(self, number: int) -> None:
        sheet = self.sheet(number, Standing.OPEN)
        self.replay(sheet)
        sheet.standing = Standing.RELEASED

    def reopen(self, number: int) -> None:
        sheet = self.sheet(number, Standing.RELEASED)
        self.replay(sheet)
        sheet.standing = Standing.OPEN

    def print(self, number: int) -> Printout:
        sheet = self.sheet(number, Standing.RELEASED)
        run = self.replay(sheet)
        labels = [self.system.label(step) for step in run.steps]
        steps = list(zip(labels, sheet.steps))
        return Printout(sheet.start, steps, self.system.encode_state(run.end))

    def look(self, number: int, count: int) -> bytes:
        """The state after so many of the first steps."""
        sheet = self.sheet(number, Standing.OPEN, Standing.RELEASED)
        run = self.replay(sheet)
        if count > len(sheet.steps):
            raise Refusal(Number.ABSENT, Layer.BENCH, count)
        return self.system.encode_state(run.states[count])


# Frames

BAD_DIGIT = re.compile(rb"[^0-9A-Fa-f]")


def frame_refusal(place: int) -> Refusal:
    return Refusal(Number.FRAME, Layer.FRAME, place)


def setup_refusal(place: int) -> Refusal:
    return Refusal(Number.SETUP, Layer.FRAME, place)


def decode_line(line: bytes) -> bytes:
    """The bytes of a frame, from its line without the line end."""
    most_digits = 2 * MOST_FRAME_BYTES
    bad = BAD_DIGIT.search(line[:most_digits])
    if bad:
        raise frame_refusal(bad.start() // 2)
    if len(line) > most_digits:
        raise frame_refusal(MOST_FRAME_BYTES)
    if len(line) % 2 == 1:
        raise frame_refusal(len(line) // 2)
    return bytes.fromhex(line.decode("ascii"))


@dataclass
class Row:
    """Some bytes of a frame; place is that of the first."""

    place: int
    data: bytes


@dataclass
class Table:
    """Rows behind a count byte; place is that of the count."""

    place: int
    rows: list[Row]


class Reader:
    """Takes a frame apart from front to back."""

    def __init__(self, frame: bytes) -> None:
        self.frame = frame
        self.place = 0

    def take(self, count: int) -> bytes:
        if self.place + count > len(self.frame):
            raise frame_refusal(len(self.frame))
        taken = self.frame[self.place : self.place + count]
        self.place += count
        return taken

    def byte(self) -> int:
        return self.take(1)[0]

    def rest(self) -> bytes:
        return self.take(len(self.frame) - self.place)

    def row(self, width: int | None) -> Row:
        """A row of this width; where none is given, the row begins with a byte that says it."""
        width = self.byte() if width is None else width
        return Row(self.place, self.take(width))

    def table(self, width: int | None = None) -> Table:
        place = self.place
        count = self.byte()
        return Table(place, [self.row(width) for _ in range(count)])

    def finish(self) -> None:
        if self.place < len(self.frame):
            raise frame_refusal(self.place)

    def last(self, count: int) -> bytes:
        """The bytes that are left, which are just so many."""
        taken = self.take(count)
        self.finish()
        return taken


@dataclass
class Layout:
    """The parts of a setup frame, whatever is in them."""

    kind: int
    pairs: Table
    masked: Table
    rest: Table


def read_layout(reader: Reader) -> Layout:
    """Takes a setup frame apart whose first byte has been read."""
    kind_place = reader.place
    kind = reader.byte()
    if kind not in (KIND_TERMS, KIND_NET):
        raise setup_refusal(kind_place)
    pairs = reader.table(2)
    masked = reader.table(1)
    rest = reader.table() if kind == KIND_TERMS else reader.table(EVENT_BYTES)
    reader.finish()
    return Layout(kind, pairs, masked, rest)


def read_setup(layout: Layout) -> Mask[Any, Any]:
    """The system of a setup; its rules are asked in the order of the frame."""
    pairs = read_pairs(layout.pairs)
    masked = read_masked(layout.masked)
    return layered(read_terms(layout.rest) if layout.kind == KIND_TERMS else read_net(layout.rest), pairs, masked)


def rows_of(table: Table, most: int) -> Sequence[Row]:
    """The rows of a table of at most so many."""
    if len(table.rows) > most:
        raise setup_refusal(table.place)
    return table.rows


def read_pairs(table: Table) -> dict[int, int]:
    pairs: dict[int, int] = {}
    for row in rows_of(table, MOST_PAIRS):
        source, target = row.data
        if not is_name(source) or source in pairs:
            raise setup_refusal(row.place)
        if not is_name(target):
            raise setup_refusal(row.place + 1)
        pairs[source] = target
    return pairs


def read_masked(table: Table) -> list[int]:
    names = []
    for row in rows_of(table, MOST_MASKED):
        if not is_name(row.data[0]):
            raise setup_refusal(row.place)
        names.append(row.data[0])
    return names


def read_terms(table: Table) -> Terms:
    bodies = []
    for row in rows_of(table, MOST_DEFINITIONS):
        try:
            bodies.append(decode_body(row.data, len(table.rows)))
        except Misfit as misfit:
            raise setup_refusal(row.place + misfit.place) from None
    return Terms(bodies)


def read_net(table: Table) -> Net:
    events = []
    for row in rows_of(table, MOST_EVENTS):
        event = Event.decode(row.data)
        if not event.is_sound():
            raise setup_refusal(row.place)
        events.append(event)
    return Net(events)


class Server:
    """Answers frames, one line each."""

    def __init__(self) -> None:
        self.bench: Bench[Any, Any] = Bench(layered(Terms()))

    def answer(self, line: bytes) -> bytes:
        """The answer to a line without its line end; all its lines have theirs."""
        try:
            parts = self.perform(decode_line(line))
        except Refusal as refusal:
            parts = [refusal.encode()]
        return b"".join(part.hex().upper().encode("ascii") + b"\n" for part in parts)

    def perform(self, frame: bytes) -> list[bytes]:
        """Does the call of a frame and returns the lines of its answer."""
        bench = self.bench
        reader = Reader(frame)
        match reader.byte():
            case 0xA0:
                bench.system = read_setup(read_layout(reader))
                return [DONE]
            case 0xB0:
                number, start = reader.byte(), reader.rest()
                bench.open(number, start)
                return [DONE]
            case 0xB1:
                number, step = reader.byte(), reader.rest()
                return [DONE + bench.add(number, step)]
            case 0xB2:
                bench.swap(*reader.last(2))
                return [DONE]
            case 0xB3:
                return [DONE + bench.withdraw(*reader.last(1))]
            case 0xB4:
                return [DONE + bytes(bench.join(*reader.last(2)))]
            case 0xB5:
                bench.release(*reader.last(1))
                return [DONE]
            case 0xB6:
                bench.reopen(*reader.last(1))
                return [DONE]
            case 0xB7:
                return print_lines(bench.print(*reader.last(1)))
            case 0xB9:
                return [DONE + bench.look(*reader.last(2))]
            case _:
                raise frame_refusal(0)


def print_lines(printout: Printout) -> list[bytes]:
    first = DONE + bytes([len(printout.steps)]) + printout.start
    steps = [bytes([label]) + step for label, step in printout.steps]
    return [first, *steps, printout.end]


def split_lines(data: bytes) -> list[bytes]:
    """The lines of an input; a last line needs no line end."""
    lines = data.split(b"\n")
    if not lines[-1]:
        lines.pop()
    return lines


def main() -> None:
    server = Server()
    for line in sys.stdin.buffer:
        sys.stdout.buffer.write(server.answer(line.removesuffix(b"\n")))


if __name__ == "__main__":
    main()
