"""The questions to a step system, as they are put from outside: in byte strings, with refusals in their order."""

from __future__ import annotations

from systems import E, S, System


def label(system: System[S, E], step: bytes) -> int:
    [given] = system.given(step)
    return system.label(given)


def next_state(system: System[S, E], state: bytes, step: bytes) -> bytes:
    [given] = system.given(step)
    return system.encode_state(system.follow(system.state(state), given))


def independent(system: System[S, E], one: bytes, other: bytes) -> bool:
    return system.independent(*system.given(one, other))


def residual(system: System[S, E], step: bytes, after: bytes) -> bytes | None:
    """What is left of a step after another; None where they are dependent."""
    one, other = system.given(step, after)
    return system.answer_step(system.residual(one, other)) if system.independent(one, other) else None


def back(system: System[S, E], first: bytes, second: bytes) -> bytes | None:
    """The step, independent of the first, of which the second is left after it; None where there is none."""
    moved = system.back(*system.given(first, second))
    return None if moved is None else system.answer_step(moved)
