"""Names for what happens over terms, or between terms and nets."""

from __future__ import annotations

from collections.abc import Iterator
from typing import Any

from drawing import ADD, JOIN, OPEN, SETUP, SWAP
from nets import Net
from replays import stopped_sheet
from sheetbench import (
    KIND_TERMS,
    MOST_DEFINITIONS,
    MOST_STEPS,
    Bench,
    Layout,
    carry,
)
from systems import MOST_STATE_BYTES, MOST_STEP_BYTES, Layer, Number
from tally_setups import layout_of
from terms import (
    Both,
    Call,
    ChooseLeft,
    ChooseRight,
    Misfit,
    OnLeft,
    OnRight,
    Parallel,
    Proof,
    Restriction,
    Sum,
    Term,
    Terms,
    Under,
    decode_body,
    decode_proof,
    decode_term,
    is_improper,
    parts,
)

DEPTHS = range(9)
# What must have happened over terms.
TERM_HAPPENINGS = (
    f"setup of {MOST_DEFINITIONS} definitions",
    "setup of a body of 255 bytes",
    "setup of terms in place of a net",
    "setup of a net in place of terms",
    "setup refused for too many definitions",
    "setup refused for an empty body",
    "setup refused for a body that begins with a call",
    "setup refused for a body that ends too early",
    "setup refused for a body with bytes too many",
    "setup refused for a call of no definition",
    "setup refused for another byte of a body",
    "start of 255 bytes or more",
    "start too long",
    "start with a fault, and too long",
    "start that ends too early",
    "start with bytes too many",
    "start with a call of no definition",
    "start with a call without definitions",
    "step of 64 bytes",
    "step too long",
    "step with a fault, and too long",
    "improper step, and too long",
    "step that ends too early",
    "step with bytes too many",
    *(f"improper {node} at depth {depth}" for node in ("meeting", "restriction") for depth in DEPTHS),
    "improper node at a greater depth",
    "improper node behind a part without one",
    "step that fits nowhere",
    "step that fits in part",
    "step of which only a second part does not fit",
    "step through an unguarded call",
    "step through definitions that call each other unguarded",
    "step through a definition that calls itself unguarded",
    "step beside a call that stays",
    "meeting in a choice in a restriction",
    "meeting in a restriction in a choice",
    f"state of {MOST_STATE_BYTES} bytes",
    f"step refused for a state of {MOST_STATE_BYTES + 1} bytes",
    "step refused for a longer state",
    "step refused for a state of more than 500 bytes",
    "swap of two sides",
    "swap of a side and a meeting",
    "swap of two meetings",
    "swap in a choice, which is put back",
    "swap in a restriction",
    "swap to a step of 64 bytes",
    f"swap refused for a step of {MOST_STEP_BYTES + 1} bytes",
    "swap refused for a longer step",
    "swap refused for a state too long",
    "swap refused for a step too long before a state too long",
    "swap of dependent proofs",
    "join of terms that drops a choice",
    "join of terms that shares some",
    "join of terms that shares in a choice",
    f"join of terms to {MOST_STEPS} steps",
    f"join of terms refused for {MOST_STEPS + 1} steps",
    "join of terms with a conflict",
    "join of terms with a conflict of equal labels",
    "join refused for a state too long",
    "join refused for too many steps before a state too long",
    "join refused for a conflict before a state too long",
    *(f"terms stopped in terms by refusal {number}" for number in (4, 6, 8)),
    *(f"a net's sheet stopped in terms by refusal {number}" for number in (4, 5)),
    *(f"terms stopped in a net by refusal {number}" for number in (4, 5)),
)


def names_over_terms(bench: Bench[Any, Any], frame: bytes, answer: bytes) -> Iterator[str]:
    """What happens in a call whose frame has its bytes; the bench is as it was before."""
    call, refused = frame[0], answer[0]
    if call == SETUP:
        yield from setup_names(bench, frame, answer)
    elif refused == Number.REPLAY:
        yield from stop_names(bench, frame, answer)
    elif isinstance(bench.system.bottom, Terms) and refused not in (Number.FRAME, Number.SHEET):
        terms = Talk(bench, bench.system.bottom, frame, answer)
        if call == OPEN:
            yield from terms.open_names()
        elif call == ADD:
            yield from terms.add_names()
        elif call == SWAP:
            yield from terms.swap_names()
        elif call == JOIN:
            yield from terms.join_names()


# Setups


def setup_names(bench: Bench[Any, Any], frame: bytes, answer: bytes) -> Iterator[str]:
    layout = layout_of(frame)
    if layout is None:
        return
    to_terms = layout.kind == KIND_TERMS
    rows = layout.rest.rows
    place = int.from_bytes(answer[2:4], "big")
    if answer[0] == 0:
        used = any(sheet.start for sheet in bench.sheets)
        if used and to_terms and isinstance(bench.system.bottom, Net):
            yield "setup of terms in place of a net"
        if used and not to_terms and isinstance(bench.system.bottom, Terms):
            yield "setup of a net in place of terms"
        if to_terms and len(rows) == MOST_DEFINITIONS:
            yield f"setup of {MOST_DEFINITIONS} definitions"
        if to_terms and any(len(row.data) == 255 for row in rows):
            yield "setup of a body of 255 bytes"
    elif to_terms and place >= layout.rest.place:
        fault = "too many definitions" if place == layout.rest.place else body_fault(layout, place)
        yield f"setup refused for {fault}"


def body_fault(layout: Layout, place: int) -> str:
    for row in layout.rest.rows:
        if row.place <= place <= row.place + len(row.data):
            try:
                decode_body(row.data, len(layout.rest.rows))
            except Misfit:
                return one_fault(row.data, place - row.place)
    raise ValueError(place)


def one_fault(body: bytes, place: int) -> str:
    """What is wrong at a place of a body."""
    if not body:
        return "an empty body"
    if place == 0 and body[0] == 0x05:
        return "a body that begins with a call"
    if place == len(body):
        return "a body that ends too early"
    if is_whole(body[:place]):
        return "a body with bytes too many"
    return "a call of no definition" if is_number(body, place) else "another byte of a body"


def is_whole(data: bytes) -> bool:
    """Whether this is a term, over as many definitions as one likes."""
    return fault_place(data) is None


def is_number(data: bytes, place: int) -> bool:
    """Whether the byte at this place would fit, were there more definitions."""
    found = fault_place(data)
    return found is None or found > place


def fault_place(data: bytes) -> int | None:
    try:
        decode_term(data, 256)
    except Misfit as misfit:
        return misfit.place
    return None


# Replays that are stopped


def stop_names(bench: Bench[Any, Any], frame: bytes, answer: bytes) -> Iterator[str]:
    if answer[5] != Layer.SYSTEM:
        return
    sheet = stopped_sheet(bench, frame)
    beneath = answer[4]
    born_in_net = len(sheet.start) == 8 and all(len(step) == 1 for step in sheet.steps)
    born_in_terms = any(len(step) > 1 for step in sheet.steps)
    over_terms = isinstance(bench.system.bottom, Terms)
    if over_terms and born_in_net:
        yield f"a net's sheet stopped in terms by refusal {beneath}"
    elif over_terms:
        yield f"terms stopped in terms by refusal {beneath}"
    elif born_in_terms or len(sheet.start) != 8:
        yield f"terms stopped in a net by refusal {beneath}"


# Calls over terms


class Talk:
    """A call on a bench over terms, and its answer."""

    def __init__(self, bench: Bench[Any, Any], terms: Terms, frame: bytes, answer: bytes) -> None:
        self.bench = bench
        self.terms = terms
        self.frame = frame
        self.refused = answer[0]
        self.place = int.from_bytes(answer[2:4], "big")
        self.answer = answer

    def open_names(self) -> Iterator[str]:
        start = self.frame[2:]
        if not self.refused:
            if len(start) >= MOST_STATE_BYTES - 1:
                yield "start of 255 bytes or more"
        elif self.place == MOST_STATE_BYTES:
            yield "start too long"
        elif len(start) > MOST_STATE_BYTES:
            yield "start with a fault, and too long"
        elif self.place == len(start):
            yield "start that ends too early"
        elif is_whole(start[: self.place]):
            yield "start with bytes too many"
        elif is_number(start, self.place):
            yield f"start with a call {'of no definition' if self.terms.bodies else 'without definitions'}"

    def add_names(self) -> Iterator[str]:
        step = self.frame[2:]
        if self.refused == Number.STEP:
            yield from self.bad_step_names(step)
        elif self.refused in (Number.IMPOSSIBLE, Number.LONG_STATE) or not self.refused:
            run = self.bench.replay(self.bench.sheets[self.frame[1]])
            yield from self.step_names(run.end, self.terms.step(step))

    def bad_step_names(self, step: bytes) -> Iterator[str]:
        try:
            proof = decode_proof(step)
        except Misfit:
            proof = None
        if len(step) > MOST_STEP_BYTES:
            yield "step too long" if self.place == MOST_STEP_BYTES else "step with a fault, and too long"
            if proof is not None and any(is_improper(node) for node, _, _ in nodes(proof)):
                yield "improper step, and too long"
        elif proof is not None:
            yield from improper_names(proof, self.place)
        elif self.place == len(step):
            yield "step that ends too early"
        elif is_proof(step[: self.place]):
            yield "step with bytes too many"

    def step_names(self, state: Term, step: Proof) -> Iterator[str]:
        if self.refused == Number.IMPOSSIBLE:
            yield "step that fits in part" if self.place else "step that fits nowhere"
            if any(isinstance(n, Both) and p[1][1] <= self.place for n, _, p in nodes(step) if len(p) == 2):
                yield "step of which only a second part does not fit"
            return
        if self.refused == Number.LONG_STATE:
            exact = self.place == MOST_STATE_BYTES + 1
            yield f"step refused for a {f'state of {self.place} bytes' if exact else 'longer state'}"
            if self.place > 500:
                yield "step refused for a state of more than 500 bytes"
        if len(self.answer) == 1 + MOST_STATE_BYTES:
            yield f"state of {MOST_STATE_BYTES} bytes"
        if len(step.encoded) == MOST_STEP_BYTES:
            yield "step of 64 bytes"
        for calls, stays in self.calls(state, step, []):
            if len(calls) > 1:
                yield "step through an unguarded call"
            if len(set(calls)) > 1:
                yield "step through definitions that call each other unguarded"
            if len(set(calls)) < len(calls):
                yield "step through a definition that calls itself unguarded"
            if stays:
                yield "step beside a call that stays"
        yield from shape_names(step, ())

    def calls(self, term: Term, step: Proof, above: list[int]) -> Iterator[tuple[list[int], bool]]:
        """The definitions that are unfolded on the way to each act of a step, and whether a call beside it stays."""
        if isinstance(term, Call):
            above = [*above, term.number]
        match self.terms.unfolded(term), step:
            case Parallel(p, q), OnLeft(t):
                yield [], isinstance(q, Call)
                yield from self.calls(p, t, above)
            case Parallel(p, q), OnRight(t):
                yield [], isinstance(p, Call)
                yield from self.calls(q, t, above)
            case Parallel(p, q), Both(t, u):
                yield from self.calls(p, t, above)
                yield from self.calls(q, u, above)
            case (Sum(p, _), ChooseLeft(t)) | (Sum(_, p), ChooseRight(t)) | (Restriction(_, p), Under(_, t)):
                yield from self.calls(p, t, above)
            case _:
                yield above, False

    def swap_names(self) -> Iterator[str]:
        number, place = self.frame[1:3]
        if self.refused == Number.LONG_STEP:
            exact = self.place == MOST_STEP_BYTES + 1
            yield f"swap refused for a {f'step of {self.place} bytes' if exact else 'longer step'}"
            run = self.bench.replay(self.bench.sheets[number])
            moved = self.terms.back(*run.steps[place - 1 : place + 1])
            if moved is not None and self.grows_too_long(run.states[place - 1], [moved]):
                yield "swap refused for a step too long before a state too long"
        elif self.refused == Number.LONG_STATE:
            yield "swap refused for a state too long"
        elif self.refused == Number.DEPENDENT:
            yield "swap of dependent proofs"
        elif not self.refused:
            first, second = self.bench.replay(self.bench.sheets[number]).steps[place - 1 : place + 1]
            moved = self.terms.back(first, second)
            assert moved is not None
            if len(moved.encoded) == MOST_STEP_BYTES:
                yield "swap to a step of 64 bytes"
            yield from meeting_names(first, moved)

    def grows_too_long(self, state: Term, steps: list[Proof]) -> bool:
        """Whether these steps lead to a state that is too long."""
        for step in steps:
            state = self.terms.next(state, step)
            if len(state.encoded) > MOST_STATE_BYTES:
                return True
        return False

    def join_names(self) -> Iterator[str]:
        runs = [self.bench.replay(self.bench.sheets[number]) for number in self.frame[1:3]]
        one, other = (run.steps for run in runs)
        if self.refused == Number.CONFLICT:
            yield "join of terms with a conflict"
            step = other[self.place - 1]
            if any(self.terms.label(met) == self.terms.label(step) and met != step for met in one):
                yield "join of terms with a conflict of equal labels"
            if self.grows_too_long(runs[0].end, self.bench.carry_all(other[: self.place - 1], one)):
                yield "join refused for a conflict before a state too long"
        elif self.refused == Number.LENGTH:
            if self.place == MOST_STEPS + 1:
                yield f"join of terms refused for {self.place} steps"
            if self.grows_too_long(runs[0].end, self.bench.carry_all(other, one)):
                yield "join refused for too many steps before a state too long"
        elif self.refused == Number.LONG_STATE:
            yield "join refused for a state too long"
        elif not self.refused:
            length, shared = self.answer[1:]
            if length == MOST_STEPS:
                yield f"join of terms to {length} steps"
            if 0 < shared < len(other):
                yield "join of terms that shares some"
                if any(has_choice(step) for step in one) and any(has_choice(step) for step in other):
                    yield "join of terms that shares in a choice"
            if self.drops_choice(one, other):
                yield "join of terms that drops a choice"

    def drops_choice(self, one: list[Proof], other: list[Proof]) -> bool:
        """Whether a step of the other run is shorter where it has come behind the one."""
        for step in other:
            left, one = carry(self.terms, step, one)
            if any(len(survivor.encoded) < len(step.encoded) for survivor in left):
                return True
        return False


# Shapes of proofs


def nodes(proof: Proof, place: int = 0, depth: int = 0) -> Iterator[tuple[Proof, int, list[tuple[Proof, int]]]]:
    """All nodes of a proof, each with its depth and with its parts and their places."""
    below = parts(proof, place)
    yield proof, depth, below
    for part, part_place in below:
        yield from nodes(part, part_place, depth + 1)


def is_proof(data: bytes) -> bool:
    try:
        decode_proof(data)
    except Misfit:
        return False
    return True


def improper_names(proof: Proof, place: int) -> Iterator[str]:
    for node, depth, own_place, behind_part in placed(proof, 0, 0, False):
        if own_place == place:
            kind = "meeting" if isinstance(node, Both) else "restriction"
            yield f"improper {kind} at depth {depth}" if depth in DEPTHS else "improper node at a greater depth"
            if behind_part:
                yield "improper node behind a part without one"


def placed(proof: Proof, place: int, depth: int, behind_part: bool) -> Iterator[tuple[Proof, int, int, bool]]:
    """All nodes with their depth, their place, and whether they are in the second part of some meeting."""
    yield proof, depth, place, behind_part
    for index, (part, part_place) in enumerate(parts(proof, place)):
        yield from placed(part, part_place, depth + 1, behind_part or index == 1)


def shape_names(proof: Proof, above: tuple[str, ...]) -> Iterator[str]:
    if isinstance(proof, Both):
        if "choice" in above and "restriction" in above[: above.index("choice")]:
            yield "meeting in a choice in a restriction"
        if "restriction" in above and "choice" in above[: above.index("restriction")]:
            yield "meeting in a restriction in a choice"
    if isinstance(proof, (ChooseLeft, ChooseRight)):
        above = (*above, "choice")
    elif isinstance(proof, Under):
        above = (*above, "restriction")
    for part, _ in parts(proof, 0):
        yield from shape_names(part, above)


def has_choice(proof: Proof) -> bool:
    return any(isinstance(node, (ChooseLeft, ChooseRight)) for node, _, _ in nodes(proof))


def meeting_names(one: Proof, other: Proof) -> Iterator[str]:
    """By which rules two independent steps are so."""
    match one, other:
        case (OnLeft(), OnRight()) | (OnRight(), OnLeft()):
            yield "swap of two sides"
        case (OnLeft(t), Both(u, _)) | (Both(t, _), OnLeft(u)) | (OnRight(t), Both(_, u)) | (Both(_, t), OnRight(u)):
            yield "swap of a side and a meeting"
            yield from meeting_names(t, u)
        case Both(t, u), Both(v, w):
            yield "swap of two meetings"
            yield from meeting_names(t, v)
            yield from meeting_names(u, w)
        case (ChooseLeft(t), ChooseLeft(u)) | (ChooseRight(t), ChooseRight(u)):
            yield "swap in a choice, which is put back"
            yield from meeting_names(t, u)
        case Under(_, t), Under(_, u):
            yield "swap in a restriction"
            yield from meeting_names(t, u)
        case (OnLeft(t), OnLeft(u)) | (OnRight(t), OnRight(u)):
            yield from meeting_names(t, u)
