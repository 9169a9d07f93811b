#!/usr/bin/env python3
"""Random sessions for sheetbench, each from a seed.

A session runs the model as it goes, so that most of its steps are possible
and most of its wrong frames are wrong in one chosen way.
"""

from __future__ import annotations

import argparse
import sys
from collections.abc import Callable
from random import Random
from typing import Any, TypeVar

from draw_layers import (
    NAMES,
    altered_layers,
    bad_setup,
    chained,
    hide,
    pairs_between,
    random_layers,
    rename,
    rename_to_masked,
)
from draw_nets import (
    STOPPING_ALTERATIONS,
    NetDraws,
    event_between,
    full_net,
    long_ring_net,
    random_conditions,
    random_net,
    ring_events,
    rings_net,
    tangled_net,
    tokens_net,
    too_many_events,
)
from draw_nets import setup_frame as net_setup
from draw_terms import (
    Family,
    TermDraws,
    behind,
    chain,
    choices,
    chosen_terms,
    crowding_terms,
    filler,
    growing_terms,
    looping_terms,
    nested_terms,
    random_terms,
    term_of_a_marking,
    workshop_terms,
)
from draw_terms import setup_frame as terms_setup
from drawing import (
    ADD,
    CALLS,
    JOIN,
    LOOK,
    OPEN,
    PRINT,
    RELEASE,
    REOPEN,
    SETUP,
    SWAP,
    WITHDRAW,
    Draws,
    Layers,
    layers_of,
    random_action,
)
from layers import Mask
from nets import CONDITIONS, Event, Net, decode_set, encode_set
from sheetbench import (
    KIND_TERMS,
    MOST_DEFINITIONS,
    MOST_FRAME_BYTES,
    MOST_MASKED,
    MOST_PAIRS,
    MOST_STEPS,
    SHEETS,
    Server,
    Sheet,
    Standing,
)
from systems import CO, MOST_STATE_BYTES, MOST_STEP_BYTES, SILENT, Refusal, name_of
from terms import Act, Call, ChooseLeft, ChooseRight, Nil, OnLeft, OnRight, Parallel, Prefix, Sum, Terms

REPLAYING_CALLS = (ADD, SWAP, WITHDRAW, JOIN, RELEASE, REOPEN, PRINT, LOOK)
NO_CALLS = (0x00, 0x9F, 0xA1, 0xAF, 0xB8, 0xBA, 0xC0, 0xFF)
DIGITS = b"0123456789ABCDEF"
# Neighbours of the digits in ASCII, blanks, and bytes outside ASCII.
NO_DIGITS = (b"G", b"g", b"/", b":", b"@", b"`", b" ", b"\r", b"\t", b"x", b"-", b"\0", b"\x7f", b"\xc3", b"\xff")
EDGE_BYTES = (b"00", b"01", b"02", b"03", b"04", b"08", b"09", b"3F", b"40", b"41", b"7F", b"80", b"FF")
MOST_DIGITS = 2 * MOST_FRAME_BYTES


def call_needs(call: int) -> tuple[Standing, ...]:
    """The standings in which a sheet takes the call."""
    if call == OPEN:
        return (Standing.BLANK, Standing.OPEN)
    if call in (REOPEN, PRINT):
        return (Standing.RELEASED,)
    if call == LOOK:
        return (Standing.OPEN, Standing.RELEASED)
    return (Standing.OPEN,)


# Lines that are spoiled


def random_digits(random: Random, count: int) -> bytes:
    return bytes(random.choices(DIGITS, k=count))


def mixed_case(random: Random, line: bytes) -> bytes:
    lower = line.lower()
    return bytes(random.choice(both) for both in zip(line, lower))


def drop_byte(random: Random, line: bytes) -> bytes:
    place = 2 * random.randrange(len(line) // 2)
    return line[:place] + line[place + 2 :]


def cut_line(random: Random, line: bytes) -> bytes:
    return line[: 2 * random.randrange(len(line) // 2)]


def insert_byte(random: Random, line: bytes) -> bytes:
    place = 2 * random.randrange(len(line) // 2 + 1)
    return line[:place] + random_digits(random, 2) + line[place:]


def double_byte(random: Random, line: bytes) -> bytes:
    place = 2 * random.randrange(len(line) // 2)
    return line[: place + 2] + line[place:]


def append_bytes(random: Random, line: bytes) -> bytes:
    return line + random_digits(random, 2 * random.choice((1, 1, 2, 5)))


def flip_byte(random: Random, line: bytes) -> bytes:
    place = 2 * random.randrange(len(line) // 2)
    return line[:place] + random_digits(random, 2) + line[place + 2 :]


def edge_byte(random: Random, line: bytes) -> bytes:
    """A byte near the front becomes one at the ends of names, actions, counts or numbers of sheets."""
    place = 2 * random.randrange(min(len(line) // 2, 24))
    return line[:place] + random.choice(EDGE_BYTES) + line[place + 2 :]


def bad_digit(random: Random, line: bytes) -> bytes:
    spoiled = line
    for _ in range(random.choice((1, 1, 1, 2))):
        place = random.randrange(len(line))
        spoiled = spoiled[:place] + random.choice(NO_DIGITS) + spoiled[place + 1 :]
    return spoiled


def insert_bad_digit(random: Random, line: bytes) -> bytes:
    """A bad digit more, often at an end, as a blank or carriage return might be."""
    place = random.choice((0, len(line), len(line), random.randrange(len(line))))
    return line[:place] + random.choice(NO_DIGITS) + line[place:]


def odd_digits(random: Random, line: bytes) -> bytes:
    place = random.randrange(len(line))
    if random.random() < 0.5:
        return line[:place] + line[place + 1 :]
    return line[:place] + random_digits(random, 1) + line[place:]


MUTATIONS = (
    drop_byte,
    cut_line,
    insert_byte,
    double_byte,
    append_bytes,
    edge_byte,
    edge_byte,
    flip_byte,
    flip_byte,
    bad_digit,
    bad_digit,
    insert_bad_digit,
    odd_digits,
    odd_digits,
    mixed_case,
)


D = TypeVar("D", bound=Draws[Any])


class Session:
    """A session as far as it has been generated, with the model beside it."""

    def __init__(self, seed: int) -> None:
        self.random = Random(seed)
        self.server = Server()
        self.lines: list[bytes] = []
        # For each sheet a system in which it replays.
        self.homes: dict[int, Draws[Any]] = {}
        self.starts: list[bytes] = []
        self.draws: Draws[Any] = TermDraws(self.random, Terms())

    # The state of the bench

    @property
    def system(self) -> Mask[Any, Any]:
        return self.server.bench.system

    def sheet(self, number: int) -> Sheet:
        return self.server.bench.sheets[number]

    def with_standing(self, *standings: Standing) -> list[int]:
        return [n for n in range(SHEETS) if self.sheet(n).standing in standings]

    def end(self, number: int) -> Any:
        """The end state of a sheet, or None where its replay is stopped."""
        try:
            return self.server.bench.replay(self.sheet(number)).end
        except Refusal:
            return None

    # Sending

    def send_line(self, line: bytes) -> bool:
        """Adds a line; says whether its call is accepted."""
        self.lines.append(line)
        accepted = self.server.answer(line).startswith(b"00")
        if accepted and line[:2].upper() == b"A0":
            self.draws = draws_over(self.random, self.system)
        if accepted and line[:2].upper() in (b"B0", b"B1", b"B2", b"B4"):
            self.homes[int(line[2:4], 16)] = self.draws
        return accepted

    def send(self, *parts: int | bytes) -> bool:
        frame = b"".join(bytes([p]) if isinstance(p, int) else p for p in parts)
        line = frame.hex().upper().encode("ascii")
        if self.random.random() < 0.05:
            line = line.lower()
        return self.send_line(line)

    # Choosing

    def any_sheet(self) -> int:
        return self.random.randrange(SHEETS)

    def sheet_for(self, call: int) -> int:
        """A sheet that takes the call, if there is one."""
        return self.random.choice(self.with_standing(*call_needs(call)) or range(SHEETS))

    def possible_steps(self, number: int) -> list[bytes]:
        """Steps that are possible at the end of a sheet: all, or some of many."""
        end = self.end(number)
        return [] if end is None else [step for step in self.draws.possible_steps(end) if self.is_shown(step)]

    def possible_step(self, number: int) -> bytes | None:
        end = self.end(number)
        for _ in range(0 if end is None else 4):
            step = self.draws.possible_step(end)
            if step is None or self.is_shown(step):
                return step
        return None

    def is_shown(self, step: bytes) -> bool:
        return not self.system.is_masked(self.system.step(step))

    def labels(self, number: int) -> list[int]:
        """The system's own labels of the steps of a sheet, as far as it replays."""
        try:
            return [self.system.bottom.label(step) for step in self.system.given(*self.sheet(number).steps)]
        except Refusal:
            return []

    def names(self, number: int) -> list[int]:
        """The names of the system's own labels on a sheet; where there are none, others."""
        found = [name for name in map(name_of, self.labels(number)) if name is not None]
        return found or self.draws.names() or [0x01]

    def some_step(self, number: int) -> bytes:
        """A step for this sheet, possible or not."""
        return self.draws.some_step(self.end(number) if number < SHEETS else None)

    def swap_places(self, number: int) -> list[int]:
        """The places at which the steps of a sheet can be swapped."""
        try:
            steps = self.server.bench.replay(self.sheet(number)).steps
        except Refusal:
            return []
        back = self.system.back
        return [place for place in range(1, len(steps)) if back(*steps[place - 1 : place + 1]) is not None]

    def some_place(self, number: int) -> int:
        """A place for a swap, mostly one that works."""
        places = self.swap_places(number)
        return self.random.choice(places) if places and self.random.random() < 0.8 else self.wrong_place(number)

    def wrong_place(self, number: int) -> int:
        """A place at which the steps of a sheet cannot be swapped."""
        length = len(self.sheet(number).steps)
        outside = self.random.choice((0, length, length + 1, 0xFF, self.random.randrange(length, 256)))
        inside = sorted(set(range(1, length)) - set(self.swap_places(number)))
        return self.random.choice(inside) if inside and self.random.random() < 0.5 else outside

    def with_steps(self, call: int, least: int) -> int:
        """A sheet that takes the call and has so many steps, if there is one."""
        found = [n for n in self.with_standing(*call_needs(call)) if len(self.sheet(n).steps) >= least]
        return self.random.choice(found) if found else self.sheet_for(call)

    def likely_frame(self) -> bytes:
        """A frame of any call that may well be accepted."""
        call = self.random.choice((*CALLS, SETUP, SETUP))
        if call == SETUP:
            return (self.draws if self.random.random() < 0.7 else self.any_system()).setup()
        number = self.sheet_for(call)
        head = bytes([call, number])
        if call == OPEN:
            return head + self.draws.good_state()
        if call == ADD:
            return head + (self.possible_step(number) or self.some_step(number))
        if call == SWAP:
            return head + bytes([self.some_place(number)])
        if call == JOIN:
            return head + bytes([self.any_sheet()])
        if call == LOOK:
            return head + bytes([self.some_count(number)])
        return head

    # Moves of good sense

    def send_setup(self, draws: Draws[Any]) -> None:
        if self.send(draws.setup()):
            self.draws = draws

    def any_system(self) -> Draws[Any]:
        """A new system of either kind."""
        # most of what is only over one kind is over terms
        if self.random.random() < 0.35:
            return self.terms_like()
        return self.net_of(random_net(self.random))

    def dressed(self, draws: D) -> D:
        """The system, often under layers."""
        if self.random.random() < 0.55:
            return draws
        return draws.under(random_layers(self.random, draws.names()))

    def net_of(self, events: list[Event]) -> NetDraws:
        return self.dressed(NetDraws(self.random, Net(events)))

    def terms_of(self, bodies: list[Any]) -> TermDraws:
        return self.dressed(TermDraws(self.random, Terms(bodies)))

    def terms_like(self, family: Callable[[Random], Family] | None = None) -> TermDraws:
        return self.dressed(random_terms(self.random, family))

    def free(self, number: int) -> None:
        """Reopens a released sheet, in a system where it replays."""
        if self.sheet(number).standing is Standing.RELEASED:
            if self.end(number) is None:
                self.send_setup(self.homes[number])
            self.send(REOPEN, number)

    def settle(self) -> None:
        """Leaves no sheet released."""
        for number in range(SHEETS):
            self.free(number)

    def new_system(self) -> None:
        for number in self.with_standing(Standing.RELEASED):
            if self.random.random() < 0.8:
                self.free(number)
        self.send_setup(self.any_system())
        for number in self.random.sample(range(SHEETS), self.random.choice((1, 2, 3, 4, 4))):
            self.send(OPEN, number, self.draws.good_state())

    def alter_system(self) -> None:
        """Changes the system below the sheets, tries them, and often changes it back."""
        random = self.random
        old = self.draws
        used = [n for n in range(SHEETS) if self.sheet(n).steps]
        number = random.choice(used) if used else self.any_sheet()
        if random.random() < 0.45:
            altered = old.under(altered_layers(random, old.layers, self.names(number)))
        else:
            altered = old.altered(self.sheet(number).start, self.sheet(number).steps)
        if altered is None:
            self.new_system()
            return
        if random.random() < 0.1:
            altered = altered.under(altered_layers(random, old.layers, self.names(number)))
        self.send_setup(altered)
        for _ in range(random.randrange(1, 7)):
            self.probe(number if used and random.random() < 0.4 else None)
        if random.random() < 0.8:
            self.send_setup(old)

    def change_kind(self) -> None:
        """Puts terms in the place of a net or a net in the place of terms, under sheets, and tries them.

        The sheets' states may be terms and markings both.
        """
        random = self.random
        self.settle()
        one, other = random.sample(range(SHEETS), 2)
        both = term_of_a_marking(random)
        marked, free = (sorted(conditions) for conditions in self.sides_of(both))
        net = full_net(random)[: random.choice((0, 3, 20, 30))]
        net += [event_between(random, random.sample(marked, 1), random.sample(free, 1)) for _ in range(3)]
        loops = chain([random_action(random)], Call(0))
        systems: list[Draws[Any]] = [self.net_of(random.sample(net, len(net))), self.terms_of([loops, Nil()])]
        if random.random() < 0.5:
            systems.reverse()
        for system in systems:
            self.send_setup(system)
            self.send(OPEN, one, both if random.random() < 0.7 else system.good_state())
            self.send(OPEN, other, both if random.random() < 0.3 else system.good_state())
            for number in (one, other):
                self.add_possible(number, random.choice((1, 2, 5)))
                if random.random() < 0.3:
                    self.send(RELEASE, number)
            self.send_setup(systems[1 - systems.index(system)])
            for _ in range(random.choice((2, 4))):
                self.probe(random.choice((one, other)))
            self.settle()

    def sides_of(self, marking: bytes) -> tuple[set[int], set[int]]:
        """The conditions that hold in a marking, and the others."""
        holding = set(decode_set(marking))
        return holding, set(range(CONDITIONS)) - holding

    def hidden(self, draws: D, action: int) -> D:
        """The system under a mask that hides this one of its own labels, if it has a name."""
        name = name_of(action)
        return draws if name is None else draws.under(hide(self.random, draws.layers, [name]))

    def stop_at_depth(self) -> None:
        """A long run, and nets that stop its replay at different steps."""
        random = self.random
        self.settle()
        events = long_ring_net(random)
        whole = self.net_of(events)
        self.send_setup(whole)
        number = self.any_sheet()
        self.send(OPEN, number, encode_set(events[0].before))
        length = random.choice((MOST_STEPS, MOST_STEPS, random.randrange(1, MOST_STEPS + 1)))
        for index in range(length):
            self.send(ADD, number, index)
        if random.random() < 0.5:
            self.send(RELEASE, number)
        for index in (length - 1, random.randrange(length), random.randrange(length)):
            altered = whole.with_events(random.choice(STOPPING_ALTERATIONS)(random, events, index))
            hidden = self.hidden(whole, events[index].action)
            both = self.hidden(altered, events[random.choice((index, random.randrange(length)))].action)
            self.send_setup(random.choice((altered, altered, hidden, hidden, both, both)))
            self.probe(number)
            self.probe(number)
        self.send_setup(whole)
        self.probe(number)

    def stop_terms_at_depth(self) -> None:
        """A long run through all definitions, and others that stop its replay at different steps."""
        random = self.random
        self.settle()
        names = random.sample(NAMES, MOST_STEPS)
        actions = [random.choice((name, CO + name)) if random.random() < 0.95 else SILENT for name in names]

        def bodies(changed: int = -1, tail: Any = None) -> list[Any]:
            """Definitions of two actions each; one changed, or with another term behind it."""
            shown = [action if place != changed else 0x2A + (action == 0x2A) for place, action in enumerate(actions)]
            found = []
            for index in range(MOST_DEFINITIONS):
                following: Any = Call((index + 1) % MOST_DEFINITIONS)
                if tail is not None and changed // 2 == index:
                    following = tail
                found.append(chain(shown[2 * index : 2 * index + 2], following))
            return found

        whole = self.terms_of(bodies())
        self.send_setup(whole)
        number = self.any_sheet()
        beside = filler(random.choice((1, 39, 61)))
        self.send(OPEN, number, Parallel(Call(0), beside).encoded)
        length = random.choice((MOST_STEPS, MOST_STEPS, random.randrange(1, MOST_STEPS + 1)))
        for action in actions[:length]:
            self.send(ADD, number, OnLeft(Act(action)).encoded)
        if random.random() < 0.5:
            self.send(RELEASE, number)
        for place in (length - 1, random.randrange(length), random.randrange(length)):
            long = filler(random.choice((200, 240, 250))) if random.random() < 0.6 else None
            altered = whole.with_bodies(bodies(place, long))
            hidden = self.hidden(random.choice((altered, whole)), actions[place - place % 2 if long else place])
            self.send_setup(random.choice((altered, altered, altered, hidden)))
            for _ in range(4):
                self.probe(number)
        self.send_setup(whole)
        self.probe(number)

    def probe(self, number: int | None = None) -> None:
        """A call that replays a sheet, mostly one in the right standing for it."""
        call = self.random.choice(REPLAYING_CALLS)
        if number is not None:
            standing = self.sheet(number).standing
            call = self.random.choice([c for c in REPLAYING_CALLS if standing in call_needs(c)])
        elif self.random.random() < 0.85:
            number = self.sheet_for(call)
        else:
            number = self.any_sheet()
        if call == ADD:
            step = self.draws.wrong_step() if self.random.random() < 0.2 else self.some_step(number)
            self.send(call, number, step)
        elif call == SWAP:
            self.send(call, number, self.some_place(number))
        elif call == LOOK:
            self.send(call, number, self.some_count(number))
        elif call == JOIN and self.random.random() < 0.5:
            self.send(call, self.sheet_for(call), number)
        elif call == JOIN:
            self.send(call, number, self.any_sheet())
        else:
            self.send(call, number)

    def mend(self) -> None:
        """Goes back to a system in which some stopped sheet replays."""
        stopped = [n for n in self.homes if self.end(n) is None]
        if stopped:
            self.send_setup(self.homes[self.random.choice(stopped)])

    def climb(self) -> None:
        """Adds possible steps, sometimes until the sheet is full and one more."""
        number = self.sheet_for(ADD)
        if self.sheet(number).standing is not Standing.OPEN:
            self.free(number)
        for _ in range(self.random.choice((1, 2, 4, 8, MOST_STEPS + 1, MOST_STEPS + 1))):
            step = self.possible_step(number)
            if step is None:
                break
            if len(self.sheet(number).steps) == MOST_STEPS:
                self.overfill(number, step)
                break
            self.send(ADD, number, step)
        else:
            return
        if self.random.random() < 0.4:
            self.send(OPEN, number, self.draws.good_state())

    def overfill(self, number: int, step: bytes) -> None:
        """Adds to a full sheet a step that is possible, impossible or none."""
        self.send(ADD, number, step)
        hidden = self.draws.hidden_step()
        others = (self.some_step(number), self.draws.wrong_step())
        self.send(ADD, number, hidden or self.random.choice(others))
        if self.random.random() < 0.5:
            self.send(WITHDRAW, number)
            self.send(ADD, number, self.possible_step(number) or step)
        if self.random.random() < 0.5:
            self.send(RELEASE, number)
            self.send(PRINT, number)
        self.send(LOOK, number, self.some_count(number))

    def add_some(self) -> None:
        number = self.sheet_for(ADD)
        self.send(ADD, number, self.some_step(number))

    def withdraw(self) -> None:
        """Takes steps away, sometimes beyond the last."""
        number = self.with_steps(WITHDRAW, least=1) if self.random.random() < 0.8 else self.sheet_for(WITHDRAW)
        for _ in range(self.random.choice((1, 1, 2, 5, MOST_STEPS + 1))):
            if not self.send(WITHDRAW, number):
                break

    def open(self) -> None:
        self.send(OPEN, self.sheet_for(OPEN), self.draws.good_state())

    def release(self) -> None:
        number = self.sheet_for(RELEASE)
        self.send(RELEASE, number)
        if self.random.random() < 0.7:
            self.send(PRINT, number)
        if self.random.random() < 0.4:
            self.send(REOPEN, number)

    def print(self) -> None:
        self.send(PRINT, self.sheet_for(PRINT))

    def reopen(self) -> None:
        self.send(REOPEN, self.sheet_for(REOPEN))

    # Looks and layers

    def some_count(self, number: int) -> int:
        """A number of steps to look at: none, some, all, or more than there are."""
        length = len(self.sheet(number).steps) if number < SHEETS else 0
        inside = self.random.randrange(length + 1)
        return self.random.choice((0, inside, inside, length, length + 1, 0xFF, self.random.randrange(length, 256)))

    def look(self) -> None:
        number = self.with_steps(LOOK, least=self.random.choice((0, 1, 2, MOST_STEPS)))
        for _ in range(self.random.choice((1, 2, 4))):
            self.send(LOOK, number, self.some_count(number))

    def add_hidden(self) -> None:
        """Masks a name of what may come next, or nearly, and adds steps that have it, possible or not, and others."""
        number = self.sheet_for(ADD)
        step = self.possible_step(number)
        old = self.draws
        name = name_of(self.system.bottom.label(self.system.step(step))) if step is not None else None
        if name is not None:
            layers = self.random.choice((hide, hide, chained, rename_to_masked))(self.random, old.layers, [name])
            self.send_setup(old.under(layers))
        for added in (step, self.draws.hidden_step(), self.possible_step(number)):
            if added is not None:
                self.send(ADD, number, added)
        if self.random.random() < 0.7:
            self.send_setup(old)

    def relabel(self) -> None:
        """Prints a sheet under one renaming after another."""
        number = self.with_steps(LOOK, least=self.random.choice((1, 3)))
        if self.sheet(number).standing is Standing.OPEN:
            self.send(RELEASE, number)
        old = self.draws
        for _ in range(self.random.choice((1, 2))):
            layers = self.draws.layers
            for _ in range(self.random.choice((1, 1, 2, 4))):
                layers = rename(self.random, layers, self.names(number))
            self.send_setup(self.draws.under(layers))
            self.send(PRINT, number)
        if self.random.random() < 0.5:
            self.send_setup(old)
        if self.random.random() < 0.5:
            self.send(REOPEN, number)

    # Single calls, for measuring: no sheet is left released, and the sheets 0 and 2 have one start, 1 and 3 another

    def begin(self, draws: Draws[Any]) -> None:
        self.send_setup(draws.under(random_layers(self.random, draws.names())))
        self.starts = [max((self.draws.lively_state() for _ in range(4)), key=len) for _ in range(2)]
        for number in range(SHEETS):
            self.begin_anew(number)

    def begin_anew(self, number: int) -> None:
        self.send(OPEN, number, self.starts[number % 2])

    def add_one(self) -> None:
        number = self.any_sheet()
        tries = (self.possible_step(number) for _ in range(8))
        step = next((step for step in tries if step is not None), None)
        if step is None or len(self.sheet(number).steps) == MOST_STEPS:
            self.begin_anew(number)
        else:
            self.send(ADD, number, step)

    def look_inside(self) -> None:
        number = self.any_sheet()
        self.send(LOOK, number, self.random.randrange(len(self.sheet(number).steps) + 1))

    def swap_one(self) -> None:
        number = self.with_steps(SWAP, least=2)
        self.send(SWAP, number, self.some_place(number))

    def withdraw_one(self) -> None:
        self.send(WITHDRAW, self.with_steps(WITHDRAW, least=1))

    def join_other(self) -> None:
        number = self.any_sheet()
        self.send(JOIN, number, (number + 2) % SHEETS)

    def show(self) -> None:
        number = self.any_sheet()
        for call in (RELEASE, PRINT, REOPEN):
            self.send(call, number)

    def open_again(self) -> None:
        self.begin_anew(self.any_sheet())

    # Swaps and joins

    def swap(self) -> None:
        number = self.with_steps(SWAP, least=2)
        for _ in range(self.random.choice((1, 1, 2, 5))):
            self.send(SWAP, number, self.some_place(number))

    def swap_in_vain(self) -> None:
        number = self.with_steps(SWAP, least=self.random.choice((0, 2)))
        self.send(SWAP, number, self.wrong_place(number))

    def join(self) -> None:
        """Joins any two sheets, or a sheet with itself."""
        number = self.with_steps(JOIN, least=1)
        self.send(JOIN, number, number if self.random.random() < 0.2 else self.any_sheet())

    def open_two(self) -> tuple[int, int]:
        """Two sheets, neither of them released."""
        one, other = self.random.sample(range(SHEETS), 2)
        self.free(one)
        self.free(other)
        return one, other

    def copy(self, source: int, target: int) -> None:
        """Gives a sheet the start and the steps of another, by a join or by adding."""
        sheet = self.sheet(source)
        self.send(OPEN, target, sheet.start)
        if self.random.random() < 0.5:
            self.send(JOIN, target, source)
        else:
            for step in list(sheet.steps):
                self.send(ADD, target, step)

    def shuffle(self, number: int, count: int) -> None:
        for _ in range(count):
            places = self.swap_places(number)
            if places:
                self.send(SWAP, number, self.random.choice(places))

    def add_possible(self, number: int, count: int) -> None:
        for _ in range(count):
            step = self.possible_step(number)
            if step is not None:
                self.send(ADD, number, step)

    def add_rival(self, number: int, other: int) -> None:
        """Adds a step that is neither the last step of the other sheet nor independent of it."""
        for last in self.sheet(other).steps[-1:]:
            rivals = [step for step in self.possible_steps(number) if self.is_rival(step, last)]
            if rivals:
                self.send(ADD, number, self.random.choice(rivals))

    def is_rival(self, step: bytes, other: bytes) -> bool:
        """Whether two steps are neither the same nor independent, nor long past each other."""
        try:
            return step != other and not self.system.independent(self.system.step(step), self.system.step(other))
        except Refusal:
            return False

    def part_and_join(self) -> None:
        """Two sheets begin with the same steps in different orders, go on each on its own, and are joined."""
        random = self.random
        one, other = self.open_two()
        if random.random() < 0.7:
            self.send_setup(self.system_for_joins())
        self.send(OPEN, one, self.draws.lively_state())
        self.add_possible(one, random.choice((0, 0, 0, 1, 2, 3, 4, 5, 6, 8, 12)))
        self.copy(one, other)
        self.shuffle(other, random.choice((0, 1, 3, 6)))
        self.add_possible(one, random.choice((0, 1, 1, 2, 4)))
        self.add_possible(other, random.choice((0, 1, 1, 2, 4)))
        if random.random() < 0.5:
            self.add_rival(other, one)
            self.add_possible(other, random.choice((0, 1)))
        if random.random() < 0.3:
            self.send(RELEASE, other)
        elif random.random() < 0.3:
            self.send(JOIN, other, one)
        self.send(JOIN, one, other)
        self.after_join(one, other)

    def system_for_joins(self) -> Draws[Any]:
        random = self.random
        if random.random() < 0.5:
            families = (chosen_terms, chosen_terms, chosen_terms, nested_terms, looping_terms, crowding_terms)
            return self.terms_like(random.choice(families))
        return self.net_of(random.choice((rings_net, tokens_net, tokens_net, tangled_net))(random))

    def after_join(self, one: int, other: int) -> None:
        """Looks at what a join has left."""
        chance = self.random.random()
        if chance < 0.2:
            self.send(JOIN, one, other)
        elif chance < 0.4:
            self.shuffle(one, 2)
        elif chance < 0.5:
            self.send(WITHDRAW, one)
            self.send(JOIN, one, other)
        if self.random.random() < 0.6:
            self.send(RELEASE, one)
            self.send(PRINT, one)

    def join_near_limit(self) -> None:
        """Two runs with about as many steps in all as a sheet takes.

        They do not get in each other's way, but perhaps with a last step.
        """
        random = self.random
        one, other = self.open_two()
        own, others, shared = self.steps_near_limit()
        conditions = random_conditions(random, 13)
        rings = [ring_events(random, conditions[i : i + 4]) for i in (0, 4, 8)]
        starts = [ring[0].before for ring in rings]
        rival = event_between(random, conditions[:1], conditions[12:])
        self.send_setup(self.net_of([event for ring in rings for event in ring] + [rival]))
        for number, ring, count in ((one, 0, own), (other, 1, others)):
            self.send(OPEN, number, encode_set(set().union(*starts)))
            self.walk_rings(number, random.sample([ring] * count + [2] * shared, count + shared))
        if random.random() < 0.4:
            self.send(ADD, other, 12)
        self.send(JOIN, one, other)
        self.after_join(one, other)

    def steps_near_limit(self) -> tuple[int, int, int]:
        """How many steps two runs have each of their own, and share, with about as many in all as a sheet takes."""
        random = self.random
        near = range(MOST_STEPS - 1, MOST_STEPS + 2)
        total = random.choice((*near, random.randrange(MOST_STEPS, 2 * MOST_STEPS + 1)))
        least, most = max(0, total - MOST_STEPS), min(MOST_STEPS, total)
        shared = random.choice((0, random.randrange(most - least + 1)))
        own = random.randrange(least, most - shared + 1)
        return own, total - shared - own, shared

    def walk_rings(self, number: int, rings: list[int]) -> None:
        """Adds the next event of each of these rings of four."""
        for place, ring in enumerate(rings):
            self.send(ADD, number, 4 * ring + rings[:place].count(ring) % 4)

    def join_terms_near_limit(self) -> None:
        """The same over three loops side by side, behind choices that the first step makes."""
        random = self.random
        one, other = self.open_two()
        own, others, shared = self.steps_near_limit()
        actions = [random_action(random) for _ in range(3)]
        depth = random.choice((0, 0, 1, 5, 20))
        self.send_setup(self.terms_of([chain([action], Call(i)) for i, action in enumerate(actions)]))
        places = ((OnLeft,), (OnRight, OnLeft), (OnRight, OnRight))
        start = choices(depth, Parallel(Call(0), Parallel(Call(1), Call(2)))).encoded
        for number, loop, count in ((one, 0, own), (other, 1, others)):
            self.send(OPEN, number, start)
            for index, side in enumerate(random.sample([loop] * count + [2] * shared, count + shared)):
                outer = (ChooseRight,) * (depth if index == 0 else 0)
                self.send(ADD, number, behind((*outer, *places[side]), Act(actions[side])).encoded)
        if random.random() < 0.3:
            self.send(ADD, other, behind(places[0], Act(actions[0])).encoded)
        self.send(JOIN, one, other)
        self.after_join(one, other)

    def swap_long(self) -> None:
        """A swap whose answered step is about as long as a step may be, or longer."""
        random = self.random
        number = self.any_sheet()
        self.free(number)
        goal = random.choice((*range(MOST_STEP_BYTES - 3, MOST_STEP_BYTES + 4), random.randrange(MOST_STEP_BYTES, 120)))
        # the first step is `first` choices and 3 bytes more, the second `second` and 4 more, the answer both
        first = random.randrange(max(0, goal - 64), min(60, goal - 5) + 1)
        second = min(goal - 5 - first, 59)
        unguarded = random.random() < 0.5
        if unguarded:
            sides = Parallel(Prefix(0x01, Nil()), Call(1))
            self.send_setup(self.terms_of([Sum(sides, Call(0)), Sum(Prefix(0x02, Nil()), Call(1))]))
            self.send(OPEN, number, Call(0).encoded)
            one, two = [ChooseRight] * first + [ChooseLeft, OnLeft], [ChooseRight] * second + [ChooseLeft]
        else:
            self.send_setup(self.terms_of([]))
            start = choices(first, Parallel(Prefix(0x01, Nil()), choices(second, Prefix(0x02, Nil()))))
            self.send(OPEN, number, start.encoded)
            one, two = [ChooseRight] * first + [OnLeft], [ChooseRight] * second
        self.send(ADD, number, behind(one, Act(0x01)).encoded)
        self.send(ADD, number, behind([OnRight, *two], Act(0x02)).encoded)
        self.send(SWAP, number, 1)
        if random.random() < 0.5:
            self.send(SWAP, number, 1)
        self.send(WITHDRAW, number)

    def grow_on_two_sheets(self) -> None:
        """Two steps of which each makes a state longer, joined; perhaps behind many others, or before a conflict."""
        random = self.random
        one, other = self.open_two()
        goal = random.choice((*range(MOST_STATE_BYTES - 2, MOST_STATE_BYTES + 4), 300, 400))
        beside = len(Parallel(Call(2), Call(3)).encoded) + 2
        half = (goal - beside) // 2
        long = [Prefix(0x01, filler(half)), Prefix(0x02, filler(goal - beside - half))]
        loops = [Prefix(0x03, Call(2)), Sum(Prefix(0x04, Call(3)), Prefix(0x05, Call(3)))]
        self.send_setup(self.terms_of([*long, *loops]))
        start = Parallel(Parallel(Call(0), Call(1)), Parallel(Call(2), Call(3)))
        conflict = random.random() < 0.3
        most = 0 if conflict else random.choice((0, 0, 2, MOST_STEPS - 1))
        rounds = (OnRight(OnLeft(Act(0x03))), OnRight(OnRight(ChooseLeft(Act(0x04)))))
        grow = (OnLeft(OnLeft(Act(0x01))), OnLeft(OnRight(Act(0x02))))
        for number, around, step in zip((one, other), rounds, grow):
            self.send(OPEN, number, start.encoded)
            for _ in range(random.randrange(most // 2, most + 1)):
                self.send(ADD, number, around.encoded)
            self.send(ADD, number, step.encoded)
        if conflict:
            self.send(ADD, one, rounds[1].encoded)
            self.send(ADD, other, OnRight(OnRight(ChooseRight(Act(0x05)))).encoded)
        self.send(JOIN, one, other)
        self.after_join(one, other)

    def swap_to_a_long_state(self) -> None:
        """The first step ends a long term, the second begins one: exchanged, both are there.

        Perhaps both steps are behind choices, and the second is then too long as well.
        """
        random = self.random
        number = self.any_sheet()
        self.free(number)
        goal = random.choice((*range(MOST_STATE_BYTES - 2, MOST_STATE_BYTES + 4), 300, 340))
        made, own = random.choice(((0, 0), (0, 0), (2, 3), (40, 20), (41, 20), (42, 20), (44, 19)))
        left = min(goal // 2, MOST_STATE_BYTES - 9 - 2 * made)
        right = goal - left - 5
        self.send_setup(self.terms_of([choices(own, Prefix(0x02, filler(right)))]))
        start = choices(made, Parallel(Sum(filler(left), Prefix(0x03, Nil())), Call(0)))
        self.send(OPEN, number, start.encoded)
        self.send(ADD, number, behind([ChooseRight] * made + [OnLeft, ChooseRight], Act(0x03)).encoded)
        self.send(ADD, number, behind([OnRight] + [ChooseRight] * own, Act(0x02)).encoded)
        self.send(SWAP, number, 1)
        self.send(WITHDRAW, number)

    def over_terms(self) -> int:
        """Opens a sheet in terms, the present ones or new, and returns its number."""
        number = self.any_sheet()
        self.free(number)
        if not isinstance(self.draws, TermDraws) or self.random.random() < 0.5:
            self.send_setup(self.terms_like())
        self.send(OPEN, number, self.draws.lively_state())
        return number

    def wrong_steps_over_terms(self) -> None:
        """Strings that are no proofs, improper proofs, and proofs that do not fit, or only in part."""
        number = self.over_terms()
        if self.random.random() < 0.3:
            self.send_setup(self.hidden(self.draws, 0x01))
        elif self.random.random() < 0.5:
            self.send_setup(self.draws.under(Layers(bytes([0x03, 0x01, 0x02, 0x01]))))
        for _ in range(self.random.choice((4, 8, 12))):
            wrong = self.random.random() < 0.7
            self.send(ADD, number, self.draws.wrong_step() if wrong else self.some_step(number))

    def wrong_starts_over_terms(self) -> None:
        number = self.over_terms()
        for _ in range(self.random.choice((2, 4, 8))):
            self.send(OPEN, number, self.draws.wrong_state())

    def deep_step(self) -> None:
        """A step through a call that comes again and again, about as long as a step may be."""
        random = self.random
        number = self.any_sheet()
        self.free(number)
        own = chain([0x01], Nil())
        node, left, right = random.choice(((Sum, ChooseLeft, ChooseRight), (Parallel, OnLeft, OnRight)))
        depth = random.choice((*range(MOST_STEP_BYTES - 5, MOST_STEP_BYTES), random.randrange(MOST_STEP_BYTES)))
        count = random.choice((1, 2))
        self.send_setup(self.terms_of([node(own, Call((number + 1) % count)) for number in range(count)]))
        self.send(OPEN, number, Call(0).encoded)
        self.send(ADD, number, behind([right] * depth + [left], Act(0x01)).encoded)
        turn = random.randrange(depth + 1)
        wrong = [right] * turn + [OnLeft if right is ChooseRight else ChooseLeft] + [right] * (depth - turn)
        self.send(ADD, number, behind(wrong, Act(0x01)).encoded[:MOST_STEP_BYTES])
        self.send(ADD, number, behind([right] * random.randrange(60) + [left], Act(0x02)).encoded)
        self.send(ADD, number, behind([right] * random.randrange(10) + [left], Act(0x01)).encoded)

    def grow(self) -> None:
        """Steps that make a state long, and longer than it may be."""
        number = self.any_sheet()
        self.free(number)
        self.send_setup(self.terms_like(self.random.choice((growing_terms, crowding_terms))))
        if self.random.random() < 0.3:
            self.send_setup(self.hidden(self.draws, 0x01))
        self.send(OPEN, number, self.draws.lively_state())
        self.send(ADD, number, OnLeft(Act(0x01)).encoded)
        self.add_possible(number, self.random.choice((1, 3, 6)))

    def join_in_vain(self) -> None:
        """A join of which one sheet, or both, cannot be used."""
        random = self.random
        no_sheet = random.choice((SHEETS, SHEETS + 1, 0x80, 0xFF))
        not_open = random.choice(self.with_standing(Standing.BLANK, Standing.RELEASED) or [no_sheet])
        blank = random.choice(self.with_standing(Standing.BLANK) or [no_sheet])
        number, other = self.sheet_for(JOIN), self.any_sheet()
        self.send(JOIN, *random.choice((
            (no_sheet, other),
            (not_open, other),
            (not_open, not_open),
            (number, no_sheet),
            (number, blank),
            (not_open, blank),
        )))

    def try_blank(self) -> None:
        """Swaps and joins while most sheets are blank."""
        self.send(OPEN, self.any_sheet(), self.draws.good_state())
        for number in self.random.sample(range(SHEETS), SHEETS):
            self.send(JOIN, self.sheet_for(JOIN), number)
            self.send(JOIN, number, self.any_sheet())
            self.send(SWAP, number, 1)
            self.send(LOOK, number, self.some_count(number))

    # Moves that are mostly refused

    def open_wrong_state(self) -> None:
        number = self.sheet_for(OPEN) if self.random.random() < 0.8 else self.any_sheet()
        self.send(OPEN, number, self.draws.wrong_state())

    def add_wrong_step(self) -> None:
        number = self.sheet_for(ADD) if self.random.random() < 0.8 else self.any_sheet()
        self.send(ADD, number, self.draws.wrong_step())

    def wrong_standing(self) -> None:
        call = self.random.choice(CALLS[1:])
        others = [n for n in range(SHEETS) if self.sheet(n).standing not in call_needs(call)]
        self.send_to(call, self.random.choice(others or range(SHEETS)))

    def no_sheet(self) -> None:
        number = self.random.choice((SHEETS, SHEETS + 1, 0x80, 0xFF, self.random.randrange(SHEETS, 256)))
        self.send_to(self.random.choice(CALLS[1:]), number)

    def send_to(self, call: int, number: int) -> None:
        """The call for this sheet, with a good or a wrong argument if it takes one."""
        rest = b""
        if call == OPEN:
            rest = self.random.choice((self.draws.good_state, self.draws.wrong_state))()
        elif call == ADD:
            rest = self.random.choice((self.some_step(number), self.draws.wrong_step()))
        elif call == SWAP:
            rest = bytes([self.random.randrange(MOST_STEPS)])
        elif call == JOIN:
            rest = bytes([self.any_sheet()])
        elif call == LOOK:
            rest = bytes([self.some_count(number)])
        extra = self.random.randbytes(1) if self.random.random() < 0.1 else b""
        self.send(call, number, rest, extra)

    def bad_setup(self) -> None:
        draws = self.draws if self.random.random() < 0.5 else self.any_system()
        for _ in range(self.random.choice((2, 4, 6))):
            self.send(bad_setup(self.random, draws))

    def bare_call(self) -> None:
        """A call with no more bytes, or with one or two that may be too few or too many."""
        self.send(self.random.choice(CALLS), *self.random.choices(range(SHEETS), k=self.random.choice((0, 0, 1, 2))))

    def no_call(self) -> None:
        call = self.random.choice((*NO_CALLS, self.random.randrange(256)))
        self.send(call, self.random.choice((b"", bytes([self.any_sheet()]), self.random.randbytes(10))))

    def mutated(self) -> None:
        line = self.likely_frame().hex().upper().encode("ascii")
        for _ in range(self.random.choice((1, 1, 1, 2))):
            if line:
                line = self.random.choice(MUTATIONS)(self.random, line)
        self.send_line(line)

    def empty_line(self) -> None:
        self.send_line(b"")

    def longest_frame(self) -> None:
        """A frame of just as many bytes as are allowed."""
        random = self.random
        heads = (
            bytes([OPEN, self.sheet_for(OPEN)]),
            bytes([ADD, self.sheet_for(ADD)]) + self.draws.some_step(),
            bytes([RELEASE, self.any_sheet()]),
            bytes([SETUP, KIND_TERMS]),
            bytes([SETUP, 0x03]),
            bytes([random.choice(NO_CALLS)]),
            net_setup(too_many_events(random, full_net(random)), Layers(masked=random.randbytes(8))),
            net_setup(full_net(random), Layers(masked=random.randbytes(203))),
            net_setup(full_net(random)[:20], Layers(random.randbytes(510), random.randbytes(169))),
            net_setup(full_net(random)),
            terms_setup([filler(255).encoded] * 3 + [filler(250).encoded]),
            terms_setup([filler(255).encoded] * 3 + [filler(226).encoded], full_layers(random)),
        )
        head = random.choice(heads)
        self.send(head, random.randbytes(MOST_FRAME_BYTES - len(head)))

    def long_line(self) -> None:
        """A line about the longest allowed, or much longer; it may have bad digits."""
        random = self.random
        start = self.likely_frame().hex().upper().encode("ascii")
        count = random.choice((
            *range(MOST_DIGITS - 2, MOST_DIGITS + 5),
            MOST_DIGITS + 2,
            2 * MOST_DIGITS,
            3 * MOST_DIGITS + 1,
            random.randrange(MOST_DIGITS, 10 * MOST_DIGITS),
        ))
        line = bytearray((start + random_digits(random, count))[:count])
        chance = random.random()
        if chance < 0.2:
            line[random.randrange(MOST_DIGITS - 2)] = random.choice(NO_DIGITS)[0]
        elif chance < 0.3:
            line[MOST_DIGITS - 3] = random.choice(NO_DIGITS)[0]
        elif chance < 0.6:
            line[-1] = random.choice(NO_DIGITS)[0]
        self.send_line(bytes(line))

    def very_long_line(self) -> None:
        self.send_line(random_digits(self.random, 200_000 + self.random.randrange(2)))


def full_layers(random: Random) -> Layers:
    """As many pairs and names as there may be."""
    return Layers(pairs_between(random, (), MOST_PAIRS), bytes(random.choices(NAMES, k=MOST_MASKED)))


def draws_over(random: Random, system: Mask[Any, Any]) -> Draws[Any]:
    """Draws over a system as a setup has made it."""
    bottom = system.bottom
    draws = NetDraws(random, bottom) if isinstance(bottom, Net) else TermDraws(random, bottom)
    return draws.under(layers_of(system))


GOOD_MOVES: dict[Callable[[Session], None], int] = {
    Session.new_system: 50,
    Session.alter_system: 70,
    Session.change_kind: 8,
    Session.stop_at_depth: 6,
    Session.stop_terms_at_depth: 16,
    Session.mend: 40,
    Session.climb: 110,
    Session.add_some: 100,
    Session.withdraw: 60,
    Session.open: 30,
    Session.release: 60,
    Session.print: 50,
    Session.look: 70,
    Session.add_hidden: 40,
    Session.relabel: 30,
    Session.reopen: 80,
    Session.probe: 60,
    Session.swap: 60,
    Session.swap_in_vain: 30,
    Session.join: 60,
    Session.part_and_join: 120,
    Session.join_near_limit: 14,
    Session.join_terms_near_limit: 8,
    Session.swap_long: 15,
    Session.grow_on_two_sheets: 15,
    Session.swap_to_a_long_state: 15,
    Session.grow: 40,
    Session.deep_step: 12,
}

WRONG_MOVES: dict[Callable[[Session], None], int] = {
    Session.open_wrong_state: 40,
    Session.add_wrong_step: 60,
    Session.wrong_steps_over_terms: 40,
    Session.wrong_starts_over_terms: 20,
    Session.wrong_standing: 40,
    Session.no_sheet: 30,
    Session.join_in_vain: 30,
    Session.bad_setup: 110,
    Session.bare_call: 25,
    Session.no_call: 30,
    Session.mutated: 160,
    Session.empty_line: 8,
    Session.longest_frame: 15,
    Session.long_line: 15,
    Session.very_long_line: 1,
}


def generate_session(seed: int, frames: int, wrong_moves: bool = True) -> Session:
    """A session of at least so many frames."""
    session = Session(seed)
    moves = GOOD_MOVES | WRONG_MOVES if wrong_moves else GOOD_MOVES
    choices, weights = list(moves), list(moves.values())
    # Half of the sessions begin before any setup, and half with blank sheets.
    if session.random.random() < 0.5:
        session.try_blank()
    if session.random.random() < 0.5:
        session.new_system()
    while len(session.lines) < frames:
        session.random.choices(choices, weights)[0](session)
    return session


# What generate_mixed draws, and how often.
MIXED_MOVES: dict[Callable[[Session], None], int] = {
    Session.add_one: 470,
    Session.look_inside: 130,
    Session.swap_one: 130,
    Session.withdraw_one: 75,
    Session.join_other: 50,
    Session.show: 37,
    Session.open_again: 33,
}


def generate_mixed(seed: int, frames: int) -> bytes:
    """So many frames for measuring: over terms, and a net for a quarter of them, each under pairs and masked names; nearly all are accepted."""
    session = Session(seed)
    random = session.random
    moves, weights = list(MIXED_MOVES), list(MIXED_MOVES.values())
    systems: list[Callable[[], Draws[Any]]] = [
        lambda: random_terms(random, workshop_terms),
        lambda: random_terms(random, workshop_terms),
        lambda: NetDraws(random, Net(tokens_net(random))),
        lambda: random_terms(random, workshop_terms),
    ]
    for part, system in enumerate(systems, 1):
        session.begin(system())
        while len(session.lines) < frames * part // len(systems):
            random.choices(moves, weights)[0](session)
    return b"".join(line.upper() + b"\n" for line in session.lines[:frames])


def generate(seed: int, frames: int) -> bytes:
    """A session of just so many frames; its last line may lack its line end."""
    session = generate_session(seed, frames)
    lines = session.lines[:frames]
    data = b"".join(line + b"\n" for line in lines)
    # An empty last line is a line only with its line end.
    if lines and lines[-1] and session.random.random() < 0.5:
        data = data.removesuffix(b"\n")
    return data


def main() -> None:
    parser = argparse.ArgumentParser(description="Writes a random session to standard output.")
    parser.add_argument("seed", type=int, metavar="SEED")
    parser.add_argument("frames", type=int, metavar="FRAMES")
    parser.add_argument("--mixed", action="store_true", help="nearly all frames are accepted, for measuring")
    given = parser.parse_args()
    sys.stdout.buffer.write((generate_mixed if given.mixed else generate)(given.seed, given.frames))


if __name__ == "__main__":
    main()
