"""Terms of CCS: a state is a term, a step the proof of a step, both as trees.

The rules are written as they are read: a function for each, and in it a case
for each kind of node.
"""

from __future__ import annotations

import sys
from collections.abc import Callable, Sequence
from dataclasses import dataclass
from functools import cached_property

from systems import (
    CO,
    MOST_STATE_BYTES,
    MOST_STEP_BYTES,
    SILENT,
    Layer,
    Number,
    Refusal,
    System,
    is_action,
    is_name,
    name_of,
)

# A tree can be some hundreds of nodes deep, each a few calls.
sys.setrecursionlimit(20_000)


def complementary(one: int, other: int) -> bool:
    return one != SILENT and other != SILENT and abs(one - other) == CO


class Tree:
    """A node with all below it. Two are the same where their bytes are."""

    @cached_property
    def encoded(self) -> bytes:
        return self.encode()

    def encode(self) -> bytes:
        raise NotImplementedError

    def __eq__(self, other: object) -> bool:
        return isinstance(other, Tree) and self.encoded == other.encoded

    def __hash__(self) -> int:
        return hash(self.encoded)


# Terms


class Term(Tree):
    """A state."""


@dataclass(frozen=True, eq=False)
class Nil(Term):
    def encode(self) -> bytes:
        return b"\x00"


@dataclass(frozen=True, eq=False)
class Prefix(Term):
    action: int
    then: Term

    def encode(self) -> bytes:
        return bytes([0x01, self.action]) + self.then.encoded


@dataclass(frozen=True, eq=False)
class Parallel(Term):
    left: Term
    right: Term

    def encode(self) -> bytes:
        return b"\x02" + self.left.encoded + self.right.encoded


@dataclass(frozen=True, eq=False)
class Sum(Term):
    left: Term
    right: Term

    def encode(self) -> bytes:
        return b"\x03" + self.left.encoded + self.right.encoded


@dataclass(frozen=True, eq=False)
class Restriction(Term):
    name: int
    inner: Term

    def encode(self) -> bytes:
        return bytes([0x04, self.name]) + self.inner.encoded


@dataclass(frozen=True, eq=False)
class Call(Term):
    number: int

    def encode(self) -> bytes:
        return bytes([0x05, self.number])


# Proofs


class Proof(Tree):
    """How a step comes about."""


@dataclass(frozen=True, eq=False)
class Act(Proof):
    action: int

    def encode(self) -> bytes:
        return bytes([0x10, self.action])


@dataclass(frozen=True, eq=False)
class OnLeft(Proof):
    part: Proof

    def encode(self) -> bytes:
        return b"\x11" + self.part.encoded


@dataclass(frozen=True, eq=False)
class OnRight(Proof):
    part: Proof

    def encode(self) -> bytes:
        return b"\x12" + self.part.encoded


@dataclass(frozen=True, eq=False)
class Both(Proof):
    left: Proof
    right: Proof

    def encode(self) -> bytes:
        return b"\x13" + self.left.encoded + self.right.encoded


@dataclass(frozen=True, eq=False)
class ChooseLeft(Proof):
    part: Proof

    def encode(self) -> bytes:
        return b"\x14" + self.part.encoded


@dataclass(frozen=True, eq=False)
class ChooseRight(Proof):
    part: Proof

    def encode(self) -> bytes:
        return b"\x15" + self.part.encoded


@dataclass(frozen=True, eq=False)
class Under(Proof):
    name: int
    part: Proof

    def encode(self) -> bytes:
        return bytes([0x16, self.name]) + self.part.encoded


# Reading


class Misfit(Exception):
    """A string is not what was to be read; place is that of the first byte that does not fit."""

    def __init__(self, place: int) -> None:
        super().__init__(place)
        self.place = place


class Source:
    """The bytes of a string, from front to back."""

    def __init__(self, data: bytes) -> None:
        self.data = data
        self.place = 0

    def byte(self, fits: Callable[[int], bool]) -> int:
        if self.place == len(self.data) or not fits(self.data[self.place]):
            raise Misfit(self.place)
        self.place += 1
        return self.data[self.place - 1]

    def finish(self) -> None:
        if self.place < len(self.data):
            raise Misfit(self.place)


def read_term(source: Source, definitions: int) -> Term:
    """The term that comes next; its calls are of so many definitions."""
    match source.byte(lambda kind: kind <= 0x04 or (kind == 0x05 and definitions > 0)):
        case 0x00:
            return Nil()
        case 0x01:
            return Prefix(source.byte(is_action), read_term(source, definitions))
        case 0x02:
            return Parallel(read_term(source, definitions), read_term(source, definitions))
        case 0x03:
            return Sum(read_term(source, definitions), read_term(source, definitions))
        case 0x04:
            return Restriction(source.byte(is_name), read_term(source, definitions))
        case _:
            return Call(source.byte(lambda number: number < definitions))


def read_proof(source: Source) -> Proof:
    match source.byte(lambda kind: 0x10 <= kind <= 0x16):
        case 0x10:
            return Act(source.byte(is_action))
        case 0x11:
            return OnLeft(read_proof(source))
        case 0x12:
            return OnRight(read_proof(source))
        case 0x13:
            return Both(read_proof(source), read_proof(source))
        case 0x14:
            return ChooseLeft(read_proof(source))
        case 0x15:
            return ChooseRight(read_proof(source))
        case _:
            return Under(source.byte(is_name), read_proof(source))


def decode_term(data: bytes, definitions: int) -> Term:
    """The term that these bytes are; a misfit where they are none."""
    source = Source(data)
    term = read_term(source, definitions)
    source.finish()
    return term


def decode_proof(data: bytes) -> Proof:
    source = Source(data)
    proof = read_proof(source)
    source.finish()
    return proof


def decode_body(data: bytes, definitions: int) -> Term:
    """The body of a definition: a term that is no call itself."""
    if data.startswith(b"\x05"):
        raise Misfit(0)
    return decode_term(data, definitions)


# Labels and propriety


def label(proof: Proof) -> int:
    match proof:
        case Act(action):
            return action
        case Both():
            return SILENT
        case OnLeft(part) | OnRight(part) | ChooseLeft(part) | ChooseRight(part) | Under(_, part):
            return label(part)
    raise TypeError(proof)


def is_improper(proof: Proof) -> bool:
    """Whether the first node of the proof is improper, whatever is below it."""
    match proof:
        case Both(left, right):
            return not complementary(label(left), label(right))
        case Under(name, part):
            return name_of(label(part)) == name
    return False


def first_improper(proof: Proof, place: int = 0) -> int | None:
    """The place of the first improper node, where the proof has its own first byte at the given place."""
    if is_improper(proof):
        return place
    for part, part_place in parts(proof, place):
        found = first_improper(part, part_place)
        if found is not None:
            return found
    return None


def parts(proof: Proof, place: int) -> list[tuple[Proof, int]]:
    """The parts of a proof, each with the place of its first byte."""
    match proof:
        case OnLeft(part) | OnRight(part) | ChooseLeft(part) | ChooseRight(part):
            return [(part, place + 1)]
        case Under(_, part):
            return [(part, place + 2)]
        case Both(left, right):
            return [(left, place + 1), (right, place + 1 + len(left.encoded))]
    return []


# Independence


def left_after(proof: Proof, other: Proof) -> Proof | None:
    """What is left of a proof after another; None where the two are dependent."""
    match proof, other:
        case (OnLeft(), OnRight()) | (OnRight(), OnLeft()):
            return proof
        case (OnLeft(t), OnLeft(u)) | (OnLeft(t), Both(u, _)):
            return around(OnLeft, left_after(t, u))
        case (OnRight(t), OnRight(u)) | (OnRight(t), Both(_, u)):
            return around(OnRight, left_after(t, u))
        case Both(t, u), OnLeft(v):
            return around(Both, left_after(t, v), u)
        case Both(t, u), OnRight(v):
            return around(Both, t, left_after(u, v))
        case Both(t, u), Both(v, w):
            return around(Both, left_after(t, v), left_after(u, w))
        case (ChooseLeft(t), ChooseLeft(u)) | (ChooseRight(t), ChooseRight(u)):
            return left_after(t, u)
        case Under(n, t), Under(m, u) if n == m:
            return around(lambda part: Under(n, part), left_after(t, u))
    return None


def before(first: Proof, second: Proof) -> Proof | None:
    """The proof of which the second is left after the first; None where there is none."""
    match first, second:
        case (OnLeft(), OnRight()) | (OnRight(), OnLeft()):
            return second
        case (OnLeft(t), OnLeft(u)) | (Both(t, _), OnLeft(u)):
            return around(OnLeft, before(t, u))
        case (OnRight(t), OnRight(u)) | (Both(_, t), OnRight(u)):
            return around(OnRight, before(t, u))
        case OnLeft(t), Both(u, v):
            return around(Both, before(t, u), v)
        case OnRight(t), Both(u, v):
            return around(Both, u, before(t, v))
        case Both(t, u), Both(v, w):
            return around(Both, before(t, v), before(u, w))
        case ChooseLeft(t), _:
            return around(ChooseLeft, before(t, second))
        case ChooseRight(t), _:
            return around(ChooseRight, before(t, second))
        case Under(n, t), Under(m, u) if n == m:
            return around(lambda part: Under(n, part), before(t, u))
    return None


def around(node: Callable[..., Proof], *inner: Proof | None) -> Proof | None:
    """The node around its parts, if there are all of them."""
    return None if any(part is None for part in inner) else node(*inner)


# The system


class Terms(System[Term, Proof]):
    """Terms over definitions, whose bodies are terms over the same definitions and no calls."""

    def __init__(self, bodies: Sequence[Term] = ()) -> None:
        self.bodies = tuple(bodies)

    def state(self, data: bytes) -> Term:
        try:
            term = decode_term(data[:MOST_STATE_BYTES], len(self.bodies))
        except Misfit as misfit:
            raise Refusal(Number.STATE, Layer.SYSTEM, misfit.place) from None
        if len(data) > MOST_STATE_BYTES:
            raise Refusal(Number.STATE, Layer.SYSTEM, MOST_STATE_BYTES)
        return term

    def step(self, data: bytes) -> Proof:
        try:
            proof = decode_proof(data[:MOST_STEP_BYTES])
        except Misfit as misfit:
            raise Refusal(Number.STEP, Layer.SYSTEM, misfit.place) from None
        if len(data) > MOST_STEP_BYTES:
            raise Refusal(Number.STEP, Layer.SYSTEM, MOST_STEP_BYTES)
        improper = first_improper(proof)
        if improper is not None:
            raise Refusal(Number.STEP, Layer.SYSTEM, improper)
        return proof

    def label(self, step: Proof) -> int:
        return label(step)

    def next(self, state: Term, step: Proof) -> Term:
        return self.after(state, step, 0)

    def unfolded(self, term: Term) -> Term:
        """The term, or the body that it calls."""
        return self.bodies[term.number] if isinstance(term, Call) else term

    def after(self, term: Term, proof: Proof, place: int) -> Term:
        """What the term becomes by a proof whose first byte has this place in the step."""
        match proof, self.unfolded(term):
            case Act(action), Prefix(shown, then) if action == shown:
                return then
            case OnLeft(t), Parallel(p, q):
                return Parallel(self.after(p, t, place + 1), q)
            case OnRight(u), Parallel(p, q):
                return Parallel(p, self.after(q, u, place + 1))
            case Both(t, u), Parallel(p, q):
                left = self.after(p, t, place + 1)
                return Parallel(left, self.after(q, u, place + 1 + len(t.encoded)))
            case ChooseLeft(t), Sum(p, _):
                return self.after(p, t, place + 1)
            case ChooseRight(u), Sum(_, q):
                return self.after(q, u, place + 1)
            case Under(name, t), Restriction(kept, p) if name == kept:
                return Restriction(name, self.after(p, t, place + 2))
        raise Refusal(Number.IMPOSSIBLE, Layer.SYSTEM, place)

    def encode_state(self, state: Term) -> bytes:
        return state.encoded

    def encode_step(self, step: Proof) -> bytes:
        return step.encoded

    def independent(self, one: Proof, other: Proof) -> bool:
        return left_after(one, other) is not None

    def residual(self, step: Proof, after: Proof) -> Proof:
        left = left_after(step, after)
        assert left is not None
        return left

    def back(self, first: Proof, second: Proof) -> Proof | None:
        return before(first, second)
