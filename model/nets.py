"""Condition/event nets: a marking is a set of conditions, a step the number of an event."""

from __future__ import annotations

from collections.abc import Iterable, Sequence
from dataclasses import dataclass

from systems import Layer, Number, Refusal, System, is_action

CONDITIONS = 64
SET_BYTES = CONDITIONS // 8
EVENT_BYTES = 1 + 2 * SET_BYTES

Marking = frozenset[int]


def decode_set(data: bytes) -> Marking:
    """The conditions whose bits are set in a big-endian number."""
    number = int.from_bytes(data, "big")
    return frozenset(c for c in range(CONDITIONS) if number >> c & 1)


def encode_set(conditions: Iterable[int]) -> bytes:
    return sum(1 << c for c in conditions).to_bytes(SET_BYTES, "big")


@dataclass(frozen=True)
class Event:
    action: int
    before: Marking
    after: Marking

    @staticmethod
    def decode(data: bytes) -> Event:
        before, after = data[1 : 1 + SET_BYTES], data[1 + SET_BYTES :]
        return Event(data[0], decode_set(before), decode_set(after))

    def encode(self) -> bytes:
        return bytes([self.action]) + encode_set(self.before) + encode_set(self.after)

    def is_sound(self) -> bool:
        return (
            is_action(self.action)
            and bool(self.before)
            and bool(self.after)
            and self.before.isdisjoint(self.after)
        )

    def is_possible(self, marking: Marking) -> bool:
        return self.before <= marking and self.after.isdisjoint(marking)

    @property
    def conditions(self) -> Marking:
        return self.before | self.after


class Net(System[Marking, int]):
    """A condition/event net; a step is the number of its event."""

    def __init__(self, events: Sequence[Event] = ()) -> None:
        self.events = tuple(events)

    def state(self, data: bytes) -> Marking:
        if len(data) != SET_BYTES:
            raise Refusal(Number.STATE, Layer.SYSTEM, min(len(data), SET_BYTES))
        return decode_set(data)

    def step(self, data: bytes) -> int:
        if not data or data[0] >= len(self.events):
            raise Refusal(Number.STEP, Layer.SYSTEM, 0)
        if len(data) > 1:
            raise Refusal(Number.STEP, Layer.SYSTEM, 1)
        return data[0]

    def label(self, step: int) -> int:
        return self.events[step].action

    def next(self, state: Marking, step: int) -> Marking:
        event = self.events[step]
        if not event.is_possible(state):
            raise Refusal(Number.IMPOSSIBLE, Layer.SYSTEM, 0)
        return (state - event.before) | event.after

    def encode_state(self, state: Marking) -> bytes:
        return encode_set(state)

    def encode_step(self, step: int) -> bytes:
        return bytes([step])

    def independent(self, one: int, other: int) -> bool:
        return self.events[one].conditions.isdisjoint(self.events[other].conditions)

    def residual(self, step: int, after: int) -> int:
        return step

    def back(self, first: int, second: int) -> int | None:
        return second if self.independent(first, second) else None
