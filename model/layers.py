"""Layers over a step system: a renaming of labels, and a mask over names."""

from __future__ import annotations

from collections.abc import Iterable, Mapping

from systems import E, S, System, name_of


class Over(System[S, E]):
    """A layer that passes every question on to the system that it holds."""

    def __init__(self, inner: System[S, E]) -> None:
        self.inner = inner

    @property
    def bottom(self) -> System[S, E]:
        return self.inner.bottom

    def state(self, data: bytes) -> S:
        return self.inner.state(data)

    def step(self, data: bytes) -> E:
        return self.inner.step(data)

    def is_masked(self, step: E) -> bool:
        return self.inner.is_masked(step)

    def label(self, step: E) -> int:
        return self.inner.label(step)

    def next(self, state: S, step: E) -> S:
        return self.inner.next(state, step)

    def encode_state(self, state: S) -> bytes:
        return self.inner.encode_state(state)

    def encode_step(self, step: E) -> bytes:
        return self.inner.encode_step(step)

    def independent(self, one: E, other: E) -> bool:
        return self.inner.independent(one, other)

    def residual(self, step: E, after: E) -> E:
        return self.inner.residual(step, after)

    def back(self, first: E, second: E) -> E | None:
        return self.inner.back(first, second)


class Renaming(Over[S, E]):
    """Shows other names in the labels; each is looked up once."""

    def __init__(self, inner: System[S, E], pairs: Mapping[int, int]) -> None:
        super().__init__(inner)
        self.pairs = dict(pairs)

    def label(self, step: E) -> int:
        action = self.inner.label(step)
        name = name_of(action)
        return action if name is None else action - name + self.pairs.get(name, name)


class Mask(Over[S, E]):
    """Hides the steps whose labels have one of these names."""

    def __init__(self, inner: System[S, E], names: Iterable[int]) -> None:
        super().__init__(inner)
        self.names = tuple(names)

    def is_masked(self, step: E) -> bool:
        return self.inner.is_masked(step) or name_of(self.inner.label(step)) in self.names


def layered(system: System[S, E], pairs: Mapping[int, int] = {}, masked: Iterable[int] = ()) -> Mask[S, E]:
    """The system under a renaming under a mask."""
    return Mask(Renaming(system, pairs), masked)
