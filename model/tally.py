"""What has occurred in the answers of a comparison, and what should have."""

from __future__ import annotations

from collections import Counter, defaultdict
from collections.abc import Iterator
from dataclasses import dataclass, field, replace
from os.path import commonprefix
from typing import Any

from drawing import ADD, CALLS, JOIN, LOOK, OPEN, PRINT, RELEASE, REOPEN, SETUP, SWAP, WITHDRAW
from nets import Net
from replays import beneath
from sheetbench import KIND_NET, MOST_STEPS, SHEETS, Bench, Server, Standing, decode_line
from systems import Number, Refusal
from tally_layers import KINDS, LAYER_HAPPENINGS, kind_of, names_under_layers
from tally_setups import FAULTS, SETUP_HAPPENINGS, names_of_setup
from tally_terms import TERM_HAPPENINGS, names_over_terms

NAMES = ("setup", "open", "add", "swap", "withdraw", "join", "release", "reopen", "print", "look")
CALL_NAMES = dict(zip(CALLS, NAMES))
# What each call can be refused by.
REFUSED_BY = {
    SETUP: (1, 2),
    OPEN: (1, 3, 4),
    ADD: (1, 3, 5, 6, 7, 8, 9, 16),
    SWAP: (1, 3, 8, 10, 11, 12, 16),
    WITHDRAW: (1, 3, 10, 16),
    JOIN: (1, 3, 8, 13, 14, 15, 16),
    RELEASE: (1, 3, 16),
    REOPEN: (1, 3, 16),
    PRINT: (1, 3, 16),
    LOOK: (1, 3, 10, 16),
}
# What can stop a replay.
BENEATH = (4, 5, 6, 7, 8)
# At how many different places some things must have occurred.
LEAST_PLACES = {
    "refusal 1": 20,
    "refusal 2": 40,
    "refusal 3": 2,
    "refusal 4": 20,
    "refusal 5": 20,
    "refusal 6": 20,
    "refusal 8": 20,
    "refusal 10": 100,
    "refusal 11": 10,
    "refusal 12": 10,
    "refusal 14": 10,
    "refusal 15": 10,
    "refusal 16": 30,
    "setup refused by 1": 100,
    "swap refused by 10": 40,
    "look refused by 10": 40,
    "replay stopped by 5": 10,
    "replay stopped by 6": 20,
    "replay stopped by 7": 20,
    "replay stopped by 8": 10,
    **{f"setup refused for {fault}": places for fault, places in zip(FAULTS, (1, 8, 7, 8, 6, 10, 10, 40))},
}
HOW_MANY_STEPS = ("0 steps", "some steps", "all steps", "one step too many", "255 steps", "other steps past the last")
GENERAL_HAPPENINGS = (
    *(f"{call} {'of' if call == 'setup' else 'over'} {kind}" for call in CALL_NAMES.values() for kind in KINDS),
    *(f"refusal {number}" for number in range(1, 17)),
    *(f"{CALL_NAMES[call]} refused by {number}" for call, numbers in REFUSED_BY.items() for number in numbers),
    *(f"replay stopped by {number}" for number in BENEATH),
    *(f"{CALL_NAMES[call]} stopped by {beneath}" for call in CALLS if 16 in REFUSED_BY[call] for beneath in BENEATH),
)
# What must have happened, and how often.
HAPPENINGS = (
    *GENERAL_HAPPENINGS,
    f"print of {MOST_STEPS} steps",
    "print of the same steps with other labels",
    "look that lacks bytes",
    "look with bytes too many",
    "look at no sheet",
    "look at a blank sheet",
    "look at a stopped sheet",
    "look at more steps than a stopped sheet has",
    "look at the steps before the one that stops the sheet",
    *(f"look at {steps} of {sheet}" for steps in HOW_MANY_STEPS for sheet in ("an open sheet", "a released sheet")),
    "look at 0 steps of a sheet without steps",
    "look at 1 step of a sheet without steps",
    f"look at {MOST_STEPS} steps",
    f"look at {MOST_STEPS + 1} steps of a full sheet",
    "swap that lacks bytes",
    "swap with bytes too many",
    "swap on no sheet",
    "swap on a blank sheet",
    "swap on a released sheet",
    "swap on a stopped sheet",
    "swap of step 0",
    "swap of the last step",
    "swap past the last step",
    "swap of dependent steps",
    "swap of the first two steps",
    "swap of two steps between others",
    "swap of the last two steps",
    "join that lacks bytes",
    "join with bytes too many",
    "join into no sheet",
    "join into a blank sheet",
    "join into a released sheet",
    "join of no sheet",
    "join of a blank sheet",
    "join of two sheets that cannot be joined",
    "join into a stopped sheet",
    "join of a stopped sheet",
    "join of two stopped sheets",
    "join of different starts",
    *(f"join with a conflict at step {place}" for place in range(1, 7)),
    "join with a conflict of equal events",
    "join with a conflict behind too many steps",
    f"join to {MOST_STEPS - 1} steps",
    f"join to {MOST_STEPS} steps",
    f"join refused for {MOST_STEPS + 1} steps",
    "join refused for still more steps",
    "join with itself",
    "join of a released sheet",
    "join of a sheet without steps",
    "join into a sheet without steps",
    "join that shares nothing",
    "join that shares some",
    "join that shares all",
    "join that shares in another order",
    *TERM_HAPPENINGS,
    *SETUP_HAPPENINGS,
    *LAYER_HAPPENINGS,
)
LEAST_TIMES = 5


@dataclass
class Happening:
    """A call, its answer, and the bench before it."""

    frame: bytes
    answer: bytes
    bench: Bench[Any, Any]

    @property
    def refused(self) -> int:
        return self.answer[0]

    @property
    def place(self) -> int:
        return int.from_bytes(self.answer[2:4], "big")

    @property
    def call(self) -> str:
        return CALL_NAMES[self.frame[0]]

    def names(self) -> Iterator[str]:
        yield from self.general_names()
        if self.frame[0] == SETUP:
            yield from names_of_setup(self.bench, self.frame, self.answer)
        if len(self.frame) < 2:
            return
        yield from names_over_terms(self.bench, self.frame, self.answer)
        if self.frame[0] != SETUP:
            yield from names_under_layers(self.bench, self.frame, self.answer)
        if self.frame[0] in (SWAP, JOIN):
            yield from self.two_step_names()
        elif self.frame[0] == LOOK:
            yield from self.look_names()
        elif self.frame[0] == PRINT and not self.refused:
            yield f"print of {self.answer[1]} steps"

    def general_names(self) -> Iterator[str]:
        if self.refused:
            yield f"refusal {self.refused}"
            yield f"{self.call} refused by {self.refused}"
        elif self.frame[0] == SETUP:
            yield f"setup of {'a net' if self.frame[1] == KIND_NET else 'terms'}"
        else:
            yield f"{self.call} over {kind_of(self.bench.system)}"
        if self.refused == Number.REPLAY:
            yield f"replay stopped by {self.answer[4]}"
            yield f"{self.call} stopped by {self.answer[4]}"

    def look_names(self) -> Iterator[str]:
        if len(self.frame) != 3:
            yield f"look {'that lacks bytes' if len(self.frame) < 3 else 'with bytes too many'}"
            return
        number, count = self.frame[1:]
        if self.refused == Number.SHEET:
            yield f"look at {self.sheet_name(number)}"
            return
        sheet = self.bench.sheets[number]
        length = len(sheet.steps)
        if self.refused == Number.REPLAY:
            yield "look at a stopped sheet"
            if count > length:
                yield "look at more steps than a stopped sheet has"
            elif count < self.place:
                yield "look at the steps before the one that stops the sheet"
            return
        yield f"look at {how_many(count, length)} of {self.sheet_name(number)}"
        if not length and count < 2:
            yield f"look at {count} step{'' if count else 's'} of a sheet without steps"
        if length == MOST_STEPS <= count:
            yield f"look at {count} steps{'' if count == length else ' of a full sheet'}"

    def two_step_names(self) -> Iterator[str]:
        """What happens in a swap or a join, over any system."""
        call = "swap" if self.frame[0] == SWAP else "join"
        if len(self.frame) < 3:
            yield f"{call} that lacks bytes"
        elif len(self.frame) > 3:
            yield f"{call} with bytes too many"
        elif call == "swap":
            yield self.swap_name(*self.frame[1:])
        elif self.refused:
            yield from self.refused_join_names(*self.frame[1:])
        else:
            yield from self.join_names(*self.frame[1:])

    def sheet_name(self, number: int) -> str:
        if number >= SHEETS:
            return "no sheet"
        standing = self.bench.sheets[number].standing.name.lower()
        return f"{'an' if standing == 'open' else 'a'} {standing} sheet"

    def is_stopped(self, number: int) -> bool:
        return beneath(self.bench, self.bench.sheets[number]) is not None

    def swap_name(self, number: int, place: int) -> str:
        if self.refused == Number.SHEET:
            return f"swap on {self.sheet_name(number)}"
        if self.refused == Number.REPLAY:
            return "swap on a stopped sheet"
        if self.refused == Number.DEPENDENT:
            return "swap of dependent steps"
        if self.refused in (Number.LONG_STEP, Number.LONG_STATE):
            return "swap that comes to something too long"
        beyond = place - len(self.bench.sheets[number].steps)
        if self.refused and place:
            return "swap past the last step" if beyond > 0 else "swap of the last step"
        if place <= 1:
            return "swap of the first two steps" if place else "swap of step 0"
        return "swap of the last two steps" if beyond == -1 else "swap of two steps between others"

    def refused_join_names(self, number: int, other: int) -> Iterator[str]:
        if self.refused == Number.SHEET:
            yield self.unusable_name(number, other)
        elif self.refused == Number.REPLAY:
            yield self.stopped_name(number, other)
        elif self.refused == Number.CONFLICT:
            yield f"join with a conflict at step {self.place}"
            yield from self.conflict_names(number, other)
        elif self.refused == Number.LENGTH:
            more = f"{self.place}" if self.place == MOST_STEPS + 1 else "still more"
            yield f"join refused for {more} steps"
        elif self.refused == Number.LONG_STATE:
            yield "join that comes to a state too long"
        else:
            yield "join of different starts"

    def unusable_name(self, number: int, other: int) -> str:
        if self.place == 2:
            return f"join of {self.sheet_name(other)}"
        if other >= SHEETS or self.bench.sheets[other].standing is Standing.BLANK:
            return "join of two sheets that cannot be joined"
        return f"join into {self.sheet_name(number)}"

    def stopped_name(self, number: int, other: int) -> str:
        if not self.is_stopped(number):
            return "join of a stopped sheet"
        return "join of two stopped sheets" if self.is_stopped(other) else "join into a stopped sheet"

    def conflict_names(self, number: int, other: int) -> Iterator[str]:
        one, two = (self.bench.replay(self.bench.sheets[n]).steps for n in (number, other))
        step = two[self.place - 1]
        system = self.bench.system.bottom
        if isinstance(system, Net) and any(system.events[met] == system.events[step] for met in one if met != step):
            yield "join with a conflict of equal events"
        if len(one) + len(self.bench.carry_all(two[: self.place - 1], one)) > MOST_STEPS:
            yield "join with a conflict behind too many steps"

    def join_names(self, number: int, other: int) -> Iterator[str]:
        one, two = self.bench.sheets[number], self.bench.sheets[other]
        length, shared = self.answer[1:]
        yield f"join to {length} steps"
        if two.standing is Standing.RELEASED:
            yield "join of a released sheet"
        if not two.steps:
            yield "join of a sheet without steps"
        elif not one.steps:
            yield "join into a sheet without steps"
        elif number == other:
            yield "join with itself"
        else:
            much = "nothing" if not shared else "some" if shared < len(two.steps) else "all"
            yield f"join that shares {much}"
            if shared > len(commonprefix([one.steps, two.steps])):
                yield "join that shares in another order"


def how_many(count: int, length: int) -> str:
    """What a look at so many of so many steps is one of."""
    if count == length:
        return "all steps" if count else "0 steps"
    if count == length + 1:
        return "one step too many"
    if count < length:
        return "some steps" if count else "0 steps"
    return "255 steps" if count == 0xFF else "other steps past the last"


class Watch:
    """A server, and what happens in its answers."""

    def __init__(self) -> None:
        self.server = Server()
        # The labels with which a start and steps were printed last.
        self.printed: dict[tuple[bytes, ...], list[bytes]] = {}

    def answer(self, line: bytes) -> tuple[bytes, list[str]]:
        """The answer to a line, and what happens there."""
        before = Bench(self.server.bench.system)
        before.sheets = [replace(sheet, steps=list(sheet.steps)) for sheet in self.server.bench.sheets]
        answer = self.server.answer(line)
        first, *others = [bytes.fromhex(part.decode("ascii")) for part in answer.splitlines()]
        try:
            frame = decode_line(line)
        except Refusal:
            frame = b""
        if frame[:1] not in (bytes([call]) for call in CALLS):
            return answer, [f"refusal {first[0]}"]
        names = list(Happening(frame, first, before).names())
        if others:
            names += self.print_names(first[2:], others[:-1])
        return answer, names

    def print_names(self, start: bytes, lines: list[bytes]) -> Iterator[str]:
        labels = [line[:1] for line in lines]
        steps = (start, *(line[1:] for line in lines))
        if self.printed.get(steps, labels) != labels:
            yield "print of the same steps with other labels"
        self.printed[steps] = labels


@dataclass
class Tally:
    """What has happened in the answers, how often, and at how many places."""

    times: Counter[str] = field(default_factory=Counter)
    places: dict[str, set[int]] = field(default_factory=lambda: defaultdict(set))

    def count(self, answer: bytes, names: list[str]) -> None:
        self.times.update(set(names))
        if not answer.startswith(b"00"):
            place = int(answer[4:8], 16)
            for name in LEAST_PLACES.keys() & set(names):
                self.places[name].add(place)

    def show(self, everything: bool) -> None:
        """Says how often each thing has happened, or only the general ones and the rarest."""
        for name in HAPPENINGS if everything else GENERAL_HAPPENINGS:
            places = f" at {len(self.places[name])} places" if name in LEAST_PLACES else ""
            print(f"{name}: {self.times[name]}{places}")
        rarest = min(HAPPENINGS, key=lambda name: self.times[name])
        print(f"{len(HAPPENINGS)} things were to happen; the rarest happened {self.times[rarest]} times: {rarest}")

    def lacks(self) -> Iterator[str]:
        """What should have happened and has not, or too seldom."""
        for name in HAPPENINGS:
            if self.times[name] < LEAST_TIMES:
                yield f"{name}: {self.times[name]} times, fewer than {LEAST_TIMES}"
        for name, least in LEAST_PLACES.items():
            if len(self.places[name]) < least:
                yield f"{name}: at {len(self.places[name])} places, fewer than {least}"
