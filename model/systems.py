"""What the bench knows of a transition system, and the refusals of all parts."""

from __future__ import annotations

from abc import ABC, abstractmethod
from dataclasses import dataclass
from enum import IntEnum
from typing import Generic, TypeVar

MOST_STATE_BYTES = 256
MOST_STEP_BYTES = 64
# What the two bytes of a place can tell.
MOST_PLACE = 0xFFFF


# Actions

SILENT = 0x00
# From a name to its co-name.
CO = 0x40


def is_action(byte: int) -> bool:
    """Silent, a name or a co-name."""
    return byte == SILENT or is_name(byte) or is_name(byte - CO)


def is_name(byte: int) -> bool:
    return 0x01 <= byte <= 0x3F


def name_of(action: int) -> int | None:
    """The name of a name or co-name; the silent action has none."""
    return None if action == SILENT else action % CO


# Refusals


class Layer(IntEnum):
    """The part of the program that refuses."""

    FRAME = 1
    BENCH = 2
    MASK = 3
    SYSTEM = 4


class Number(IntEnum):
    """What a refusal is about."""

    FRAME = 1
    SETUP = 2
    SHEET = 3
    STATE = 4
    STEP = 5
    IMPOSSIBLE = 6
    MASKED = 7
    LONG_STATE = 8
    FULL = 9
    ABSENT = 10
    DEPENDENT = 11
    LONG_STEP = 12
    STARTS = 13
    CONFLICT = 14
    LENGTH = 15
    REPLAY = 16


@dataclass(eq=False)
class Refusal(Exception):
    """A call that is turned down; it has changed nothing."""

    number: Number
    layer: Layer
    place: int
    beneath: Refusal | None = None

    def encode(self) -> bytes:
        own = bytes([self.number, self.layer]) + min(self.place, MOST_PLACE).to_bytes(2, "big")
        return own + (self.beneath.encode() if self.beneath else b"")


# Systems

S = TypeVar("S")
E = TypeVar("E")


class System(ABC, Generic[S, E]):
    """A transition system whose states (S) and steps (E) are written as bytes.

    Two steps are equal exactly where their bytes are. What is read is within
    the limits; what follows, and what is left, has none. The methods at the
    end answer within the limits.
    """

    @abstractmethod
    def state(self, data: bytes) -> S:
        """The state written as these bytes; refuses with STATE."""

    @abstractmethod
    def step(self, data: bytes) -> E:
        """The step written as these bytes; refuses with STEP."""

    @abstractmethod
    def label(self, step: E) -> int:
        """The action byte of the step."""

    @abstractmethod
    def next(self, state: S, step: E) -> S:
        """The state after the step; refuses with IMPOSSIBLE."""

    @abstractmethod
    def encode_state(self, state: S) -> bytes:
        """The bytes of the state."""

    @abstractmethod
    def encode_step(self, step: E) -> bytes:
        """The bytes of the step."""

    @abstractmethod
    def independent(self, one: E, other: E) -> bool:
        """Whether the two can be exchanged; no step is independent of itself."""

    @abstractmethod
    def residual(self, step: E, after: E) -> E:
        """What is left of a step after one that is independent of it."""

    @abstractmethod
    def back(self, first: E, second: E) -> E | None:
        """The step, independent of the first, of which the second is left after it; None where there is none."""

    def is_masked(self, step: E) -> bool:
        """Whether a mask hides the step, which then is none."""
        return False

    @property
    def bottom(self) -> System[S, E]:
        """The system below all layers."""
        return self

    def given(self, *strings: bytes) -> list[E]:
        """The steps written as these bytes; refuses with STEP for any of them, then with MASKED."""
        steps = [self.step(data) for data in strings]
        if any(self.is_masked(step) for step in steps):
            raise Refusal(Number.MASKED, Layer.MASK, 0)
        return steps

    def follow(self, state: S, step: E) -> S:
        """The state after the step, if it is not too long; refuses with IMPOSSIBLE and LONG_STATE."""
        after = self.next(state, step)
        needed = len(self.encode_state(after))
        if needed > MOST_STATE_BYTES:
            raise Refusal(Number.LONG_STATE, Layer.SYSTEM, needed)
        return after

    def answer_step(self, step: E) -> bytes:
        """The bytes of a step that is an answer, if it is not too long; refuses with LONG_STEP."""
        data = self.encode_step(step)
        if len(data) > MOST_STEP_BYTES:
            raise Refusal(Number.LONG_STEP, Layer.SYSTEM, len(data))
        return data
