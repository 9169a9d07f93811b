"""What the generator draws of layers, and setups that are refused."""

from __future__ import annotations

from collections.abc import Callable, Sequence
from random import Random
from typing import Any

from drawing import Draws, Layers, frame_of_setup
from sheetbench import MOST_FRAME_BYTES, MOST_MASKED, MOST_PAIRS
from systems import CO

NAMES = range(1, CO)
NO_NAMES = (0x00, 0x40, 0x41, 0x7F, 0x80, 0xFF)
MOST_COUNT = 255


# Layers that are accepted


def random_name(random: Random, used: Sequence[int]) -> int:
    """One of the names that are used, mostly; else any, with the ends of their range often."""
    chance = random.random()
    if used and chance < 0.65:
        return random.choice(used)
    return random.choice((0x01, 0x3F)) if chance < 0.8 else random.choice(NAMES)


def pairs_between(random: Random, used: Sequence[int], count: int) -> bytes:
    """So many pairs from different names."""
    pairs: dict[int, int] = {}
    while len(pairs) < count:
        source = random_name(random, used) if random.random() < 0.7 else random.choice(NAMES)
        # also to itself, to a name that is renamed too, and twice to one name
        target = random.choice((random_name(random, used), random_name(random, [*pairs, *pairs.values()]), source))
        pairs.setdefault(source, target if random.random() < 0.9 else random.choice(NAMES))
    return bytes(byte for pair in pairs.items() for byte in pair)


def random_count(random: Random, most: int) -> int:
    return random.choice((0, 1, 1, 2, 3, most, random.randrange(most + 1)))


def random_layers(random: Random, used: Sequence[int]) -> Layers:
    """Layers over a system with these names; the mask often hides none of them."""
    pairs = pairs_between(random, used, random_count(random, MOST_PAIRS))
    if len(used) > 1 and random.random() < 0.2:
        one, other = random.sample(used, 2)
        pairs = bytes([one, other, other, one])
    layers = Layers(pairs)
    shown = {layers.shown(name) for name in used}
    others = [name for name in NAMES if name not in shown] or NAMES
    among = used if random.random() < 0.3 else ()
    count = random_count(random, MOST_MASKED)
    masked = [random_name(random, among) if among else random.choice(others) for _ in range(count)]
    if masked and random.random() < 0.2:
        masked[-1] = masked[0]
    return Layers(pairs, bytes(masked))


# Layers in the place of others, aimed at the names of some labels


def hide(random: Random, layers: Layers, used: Sequence[int]) -> Layers:
    """One of the names is masked."""
    name = layers.shown(random.choice(used))
    assert name is not None
    masked = [*layers.masked[: MOST_MASKED - 1], name]
    return Layers(layers.pairs, bytes(random.sample(masked, len(masked))))


def rename(random: Random, layers: Layers, used: Sequence[int]) -> Layers:
    """One of the names is shown otherwise than before, sometimes as one that is masked."""
    name = random.choice(used)
    pairs = {source: target for source, target in layers.renamed.items() if source != name}
    kept = list(pairs.items())[: MOST_PAIRS - 1]
    target = random.choice((*layers.masked, *used, 0x01, 0x3F, random.choice(NAMES), random.choice(NAMES)))
    kept.insert(random.randrange(len(kept) + 1), (name, target))
    return Layers(bytes(byte for pair in kept for byte in pair), layers.masked)


def chained(random: Random, layers: Layers, used: Sequence[int]) -> Layers:
    """One of the names would be masked, were its new name looked up once more."""
    name = random.choice(used)
    others = [other for other in (*used, *random.sample(NAMES, 3)) if other != name]
    between, last = random.sample(others, 2)
    return Layers(bytes([name, between, between, last]), bytes([last]))


def rename_to_masked(random: Random, layers: Layers, used: Sequence[int]) -> Layers:
    """One of the names is shown as one that is masked."""
    name = random.choice(used)
    target = random.choice([other for other in NAMES if other != name])
    return Layers(bytes([name, target]), bytes([target]))


def drop_pairs(random: Random, layers: Layers, used: Sequence[int]) -> Layers:
    return Layers(b"", layers.masked)


def drop_mask(random: Random, layers: Layers, used: Sequence[int]) -> Layers:
    return Layers(layers.pairs, b"")


def other_layers(random: Random, layers: Layers, used: Sequence[int]) -> Layers:
    return random_layers(random, used)


ALTERATIONS: dict[Callable[[Random, Layers, Sequence[int]], Layers], int] = {
    hide: 8,
    rename: 6,
    chained: 2,
    rename_to_masked: 2,
    drop_pairs: 1,
    drop_mask: 1,
    other_layers: 2,
}


def altered_layers(random: Random, layers: Layers, used: Sequence[int]) -> Layers:
    return random.choices(list(ALTERATIONS), list(ALTERATIONS.values()))[0](random, layers, used)


# Layers with faults


def any_pairs(random: Random, layers: Layers) -> bytes:
    """The pairs, or others; at least one."""
    if layers.pairs and random.random() < 0.75:
        return layers.pairs
    return pairs_between(random, (), random.choice((MOST_PAIRS, random.randrange(1, MOST_PAIRS + 1))))


def any_masked(random: Random, layers: Layers) -> bytes:
    if layers.masked and random.random() < 0.75:
        return layers.masked
    return bytes(random.choices(NAMES, k=random.choice((MOST_MASKED, random.randrange(1, MOST_MASKED + 1)))))


def with_byte(data: bytes, place: int, byte: int) -> bytes:
    return data[:place] + bytes([byte]) + data[place + 1 :]


def too_many_pairs(random: Random, layers: Layers) -> Layers:
    count = random.choice((MOST_PAIRS + 1, MOST_PAIRS + 1, MOST_PAIRS + 2, 40, MOST_COUNT))
    different = pairs_between(random, (), min(count, 40))
    return Layers((different + random.randbytes(2 * MOST_COUNT))[: 2 * count], layers.masked)


def with_bad_to(random: Random, pairs: bytes, pair: int) -> bytes:
    return with_byte(pairs, 2 * pair + 1, random.choice(NO_NAMES))


def bad_from(random: Random, layers: Layers) -> Layers:
    """A from-name that is none, perhaps with a to-name that is none either."""
    pairs = any_pairs(random, layers)
    pair = random.randrange(len(pairs) // 2)
    pairs = with_byte(pairs, 2 * pair, random.choice(NO_NAMES))
    return Layers(with_bad_to(random, pairs, pair) if random.random() < 0.2 else pairs, layers.masked)


def bad_to(random: Random, layers: Layers) -> Layers:
    pairs = any_pairs(random, layers)
    return Layers(with_bad_to(random, pairs, random.randrange(len(pairs) // 2)), layers.masked)


def from_twice(random: Random, layers: Layers) -> Layers:
    """A from-name given twice, perhaps the second time with a to-name that is none."""
    pairs = any_pairs(random, layers)
    if len(pairs) == 2:
        pairs *= 2
    earlier, later = sorted(random.sample(range(len(pairs) // 2), 2))
    pairs = with_byte(pairs, 2 * later, pairs[2 * earlier])
    return Layers(with_bad_to(random, pairs, later) if random.random() < 0.2 else pairs, layers.masked)


def too_many_masked(random: Random, layers: Layers) -> Layers:
    count = random.choice((MOST_MASKED + 1, MOST_MASKED + 1, MOST_MASKED + 2, 100, MOST_COUNT))
    return Layers(layers.pairs, bytes(random.choices(NAMES, k=count)))


def bad_masked(random: Random, layers: Layers) -> Layers:
    masked = any_masked(random, layers)
    return Layers(layers.pairs, with_byte(masked, random.randrange(len(masked)), random.choice(NO_NAMES)))


LAYER_FAULTS = (too_many_pairs, bad_from, bad_to, from_twice, from_twice, too_many_masked, bad_masked, bad_masked)


# Frames with faults


def wrong_kind(random: Random, frame: bytes) -> bytes:
    """A kind that there is not, perhaps with missing or extra bytes."""
    frame = with_byte(frame, 1, random.choice((0x00, 0x03, 0x04, 0x81, 0x82, random.randrange(3, 256))))
    return random.choice((lambda: frame, lambda: cut_off(random, frame), lambda: extended(random, frame)))()


def cut_off(random: Random, frame: bytes) -> bytes:
    """Bytes are missing; often only the last ones, or most of them."""
    last = len(frame) - 1
    return frame[: random.choice((random.randint(1, last), last, random.randint(1, min(11, last))))]


def extended(random: Random, frame: bytes) -> bytes:
    return frame + random.randbytes(random.choice((1, 1, 2, 17)))


def other_count(random: Random, frame: bytes) -> bytes:
    """One of the counts is not that of what follows."""
    masked = 3 + 2 * frame[2]
    place = random.choice((2, masked, masked + 1 + frame[masked]))
    return with_byte(frame, place, random.choice((0, max(0, frame[place] - 1), min(255, frame[place] + 1), 0x80, 0xFF)))


def bad_setup(random: Random, draws: Draws[Any]) -> bytes:
    """A setup frame, mostly of this system, that is mostly refused: for faults in one part or in several."""
    layers, rows = draws.layers, draws.rows()
    if random.random() < 0.6:
        layers = random_layers(random, draws.names())
    count = random.choice((0, 0, 1, 1, 2, 3))
    for _ in range(count):
        layers = random.choice(LAYER_FAULTS)(random, layers)
    if not count or random.random() < 0.4:
        rows = draws.bad_rows()
    frame = frame_of_setup(draws.kind, rows, layers)
    while len(frame) > MOST_FRAME_BYTES and random.random() < 0.99 and rows:
        rows = rows[:-1]
        frame = frame_of_setup(draws.kind, rows, layers)
    if random.random() < 0.35:
        frame = random.choice((wrong_kind, cut_off, extended, other_count))(random, frame)
    return frame
