"""What the generator draws over a system of any kind: states, steps, and other systems in its place."""

from __future__ import annotations

from abc import ABC, abstractmethod
from collections.abc import Mapping
from copy import copy
from dataclasses import dataclass
from random import Random
from typing import Any, Generic, Self, TypeVar

from layers import Mask, Renaming
from systems import CO, System, name_of

SETUP, OPEN, ADD, SWAP, WITHDRAW, JOIN, RELEASE, REOPEN, PRINT, LOOK = 0xA0, *range(0xB0, 0xB8), 0xB9
CALLS = (SETUP, OPEN, ADD, SWAP, WITHDRAW, JOIN, RELEASE, REOPEN, PRINT, LOOK)
NO_ACTIONS = (0x40, 0x80, 0x81, 0xBF, 0xC1, 0xFF)

Y = TypeVar("Y", bound=System[Any, Any])


@dataclass(frozen=True)
class Layers:
    """Pairs of names, and masked names, as a setup has them."""

    pairs: bytes = b""
    masked: bytes = b""

    @property
    def renamed(self) -> Mapping[int, int]:
        return dict(zip(self.pairs[::2], self.pairs[1::2]))

    def shown(self, action: int) -> int | None:
        """The name that the mask sees for an action."""
        name = name_of(action)
        return None if name is None else self.renamed.get(name, name)

    def hides(self, action: int) -> bool:
        return self.shown(action) in set(self.masked)

    def hidden_names(self) -> list[int]:
        """The names of the system's own labels that the mask hides."""
        return [name for name in range(1, CO) if self.hides(name)]


def layers_of(system: Mask[Any, Any]) -> Layers:
    """The layers of a system as a setup has made it."""
    renaming = system.inner
    assert isinstance(renaming, Renaming)
    return Layers(bytes(byte for pair in renaming.pairs.items() for byte in pair), bytes(system.names))


def frame_of_setup(kind: int, rows: list[bytes], layers: Layers = Layers()) -> bytes:
    """The setup with these layers and definitions with their lengths, or events."""
    pairs = bytes([len(layers.pairs) // 2]) + layers.pairs
    masked = bytes([len(layers.masked)]) + layers.masked
    return bytes([SETUP, kind]) + pairs + masked + bytes([len(rows)]) + b"".join(rows)


def random_action(random: Random) -> int:
    """Any action, with the ends of their ranges often."""
    if random.random() < 0.3:
        return random.choice((0x00, 0x01, 0x3F, 0x41, 0x7F))
    return random.choice((random.randrange(0x01, 0x40), random.randrange(0x41, 0x80)))


class Draws(ABC, Generic[Y]):
    """A system, and what is drawn over it."""

    kind: int

    def __init__(self, random: Random, system: Y, layers: Layers = Layers()) -> None:
        self.random = random
        self.system = system
        self.layers = layers

    def under(self, layers: Layers) -> Self:
        """The same under other layers."""
        found = copy(self)
        found.layers = layers
        return found

    def setup(self) -> bytes:
        """The frame that sets the system up."""
        return frame_of_setup(self.kind, self.rows(), self.layers)

    @abstractmethod
    def rows(self) -> list[bytes]:
        """The definitions with their lengths, or the events."""

    @abstractmethod
    def bad_rows(self) -> list[bytes]:
        """The same, mostly with a fault."""

    @abstractmethod
    def names(self) -> list[int]:
        """Names that steps of the system have."""

    @abstractmethod
    def hidden_step(self) -> bytes | None:
        """A step that the mask hides, if there is one, possible or not."""

    @abstractmethod
    def good_state(self) -> bytes:
        """A state in which something is often possible."""

    @abstractmethod
    def lively_state(self) -> bytes:
        """A state in which much is possible, also such as shuts each other out."""

    @abstractmethod
    def wrong_state(self) -> bytes:
        """A string that is mostly no state."""

    @abstractmethod
    def possible_steps(self, state: Any) -> list[bytes]:
        """Steps that are possible in a state: all, or where there are many, some."""

    def possible_step(self, state: Any) -> bytes | None:
        """One of them."""
        steps = self.possible_steps(state)
        return self.random.choice(steps) if steps else None

    @abstractmethod
    def some_step(self, state: Any = None) -> bytes:
        """A step, possible in the state or not."""

    @abstractmethod
    def wrong_step(self) -> bytes:
        """A string that is mostly no step."""

    @abstractmethod
    def altered(self, start: bytes, steps: list[bytes]) -> Draws[Y] | None:
        """The system changed in a way that may stop the replay of a sheet; None where it cannot be."""
