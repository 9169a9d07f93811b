"""Names for what happens in setups: their layers, and what they are refused for."""

from __future__ import annotations

from collections.abc import Iterator
from typing import Any

from drawing import SETUP, Layers
from nets import Event
from replays import beneath
from sheetbench import (
    KIND_NET,
    KIND_TERMS,
    MOST_DEFINITIONS,
    MOST_EVENTS,
    MOST_FRAME_BYTES,
    MOST_MASKED,
    MOST_PAIRS,
    Bench,
    Layout,
    Reader,
    Standing,
    Table,
    read_layout,
    read_setup,
)
from systems import Number, Refusal, is_name
from terms import Misfit, decode_body

NO_NAMES = (0x00, 0x40, 0x41, 0x7F, 0xFF)
FROM, TWICE, TO = "a from-name that is none", "a from-name given twice", "a to-name that is none"
MASKED_NAME, ROW = "a masked name that is none", "a definition or event"
TOO_MANY_PAIRS, TOO_MANY_NAMES, TOO_MANY_ROWS = "too many pairs", "too many names", "too many definitions or events"
# What a setup is refused for, in the order of the frame.
FAULTS = (TOO_MANY_PAIRS, FROM, TWICE, TO, TOO_MANY_NAMES, MASKED_NAME, TOO_MANY_ROWS, ROW)
PAIR_FAULTS = (FROM, TWICE, TO)
# What must have happened in setups.
SETUP_HAPPENINGS = (
    *(f"setup of {kind} with {what}" for kind in ("terms", "a net") for what in ("pairs", "names", "pairs and names")),
    f"setup with {MOST_PAIRS} pairs",
    f"setup with {MOST_MASKED} names",
    "setup with as many pairs and names as there may be",
    "setup with a to-name twice",
    "setup with a masked name twice",
    "setup with a pair from a name to itself",
    "setup with a to-name that is a from-name too",
    "setup with two names for each other",
    *(f"setup with {name:02X} {use}" for use in ("from", "to", "masked") for name in (0x01, 0x3F)),
    f"setup of {MOST_FRAME_BYTES} bytes with layers",
    "setup that changes only the pairs, under sheets",
    "setup that changes only the mask, under sheets",
    "setup that stops a sheet by its mask",
    "setup that takes the mask from a sheet, which replays",
    *(f"setup refused for {fault}" for fault in FAULTS),
    *(f"setup refused for {one} before {other}" for i, one in enumerate(FAULTS) for other in FAULTS[i + 1 :]),
    *(f"setup refused for {one} before {other}" for i, one in enumerate(PAIR_FAULTS) for other in PAIR_FAULTS[:i]),
    *(f"setup refused for {fault}: {byte:02X}" for fault in (FROM, TO, MASKED_NAME) for byte in NO_NAMES),
    *(f"setup refused for {fault}, with {TO}" for fault in (FROM, TWICE)),
    *(f"setup refused at pair {number}" for number in range(1, MOST_PAIRS + 1)),
    *(f"setup refused at name {number}" for number in range(1, MOST_MASKED + 1)),
    *(f"setup refused for {count} {rows}" for rows in ("pairs", "names") for count in (9, 10, 255)),
    *(f"setup refused for {fault} behind layers" for fault in (TOO_MANY_ROWS, ROW)),
    *(f"setup that lacks bytes of its {part}" for part in ("pairs", "names", "definitions", "events")),
    *(f"setup that lacks bytes, with {fault}" for fault in (TOO_MANY_PAIRS, FROM, TOO_MANY_NAMES)),
    *(f"setup with bytes too many and {fault}" for fault in FAULTS),
    "setup of a wrong kind",
    "setup of a wrong kind that is laid out as neither kind",
)


def layout_of(frame: bytes) -> Layout | None:
    """The parts of a setup frame; None where it is laid out otherwise."""
    reader = Reader(frame)
    reader.byte()
    try:
        return read_layout(reader)
    except Refusal:
        return None


def names_of_setup(bench: Bench[Any, Any], frame: bytes, answer: bytes) -> Iterator[str]:
    """What happens in a setup whose frame has its first bytes; the bench is as it was before."""
    refused, place = answer[0], int.from_bytes(answer[2:4], "big")
    layout = layout_of(frame)
    if layout is None and refused == Number.SETUP:
        yield "setup of a wrong kind"
        if not any(layout_of(bytes([SETUP, kind]) + frame[2:]) for kind in (KIND_TERMS, KIND_NET)):
            yield "setup of a wrong kind that is laid out as neither kind"
    elif layout is None and place == len(frame):
        yield from short_names(frame)
    elif layout is None:
        cut = layout_of(frame[:place])
        assert cut is not None
        yield from (f"setup with bytes too many and {fault}" for fault in {fault for _, fault in faults(cut)})
    elif refused:
        yield from refused_names(layout, frame, place)
    else:
        yield from accepted_names(layout, len(frame))
        yield from change_names(bench, layout)


# Setups that are refused


def faults(layout: Layout) -> list[tuple[int, str]]:
    """All faults of a setup with their places, in the order of the frame."""
    found = [*pair_faults(layout.pairs), *masked_faults(layout.masked)]
    found += body_faults(layout.rest) if layout.kind == KIND_TERMS else event_faults(layout.rest)
    return sorted(found)


def pair_faults(table: Table) -> Iterator[tuple[int, str]]:
    if len(table.rows) > MOST_PAIRS:
        yield table.place, TOO_MANY_PAIRS
    earlier: list[int] = []
    for row in table.rows:
        source, target = row.data
        if not is_name(source):
            yield row.place, FROM
        elif source in earlier:
            yield row.place, TWICE
        if not is_name(target):
            yield row.place + 1, TO
        earlier.append(source)


def masked_faults(table: Table) -> Iterator[tuple[int, str]]:
    if len(table.rows) > MOST_MASKED:
        yield table.place, TOO_MANY_NAMES
    yield from ((row.place, MASKED_NAME) for row in table.rows if not is_name(row.data[0]))


def body_faults(table: Table) -> Iterator[tuple[int, str]]:
    if len(table.rows) > MOST_DEFINITIONS:
        yield table.place, TOO_MANY_ROWS
    for row in table.rows:
        try:
            decode_body(row.data, len(table.rows))
        except Misfit as misfit:
            yield row.place + misfit.place, ROW


def event_faults(table: Table) -> Iterator[tuple[int, str]]:
    if len(table.rows) > MOST_EVENTS:
        yield table.place, TOO_MANY_ROWS
    yield from ((row.place, ROW) for row in table.rows if not Event.decode(row.data).is_sound())


def refused_names(layout: Layout, frame: bytes, place: int) -> Iterator[str]:
    (first_place, first), *others = faults(layout)
    assert first_place == place
    yield f"setup refused for {first}"
    yield from (f"setup refused for {first} before {other}" for other in {other for _, other in others} - {first})
    if first in (FROM, TO, MASKED_NAME):
        yield f"setup refused for {first}: {frame[place]:02X}"
    if first in (FROM, TWICE) and (place + 1, TO) in others:
        yield f"setup refused for {first}, with {TO}"
    if first in PAIR_FAULTS:
        yield f"setup refused at pair {(place - layout.pairs.place + 1) // 2}"
    if first == MASKED_NAME:
        yield f"setup refused at name {place - layout.masked.place}"
    if first == TOO_MANY_PAIRS:
        yield f"setup refused for {frame[place]} pairs"
    if first == TOO_MANY_NAMES:
        yield f"setup refused for {frame[place]} names"
    if first in (TOO_MANY_ROWS, ROW) and layout.pairs.rows and layout.masked.rows:
        yield f"setup refused for {first} behind layers"


def short_names(frame: bytes) -> Iterator[str]:
    """Where a setup ends that lacks bytes, and what is wrong before that."""
    reader = Reader(frame)
    part = "pairs"
    if len(frame) > 3 and frame[2] > MOST_PAIRS:
        yield f"setup that lacks bytes, with {TOO_MANY_PAIRS}"
    if len(frame) > 3 and frame[2] and not is_name(frame[3]):
        yield f"setup that lacks bytes, with {FROM}"
    try:
        reader.take(2)
        reader.table(2)
        part = "names"
        if reader.place < len(frame) and frame[reader.place] > MOST_MASKED:
            yield f"setup that lacks bytes, with {TOO_MANY_NAMES}"
        reader.table(1)
        part = "definitions" if frame[1] == KIND_TERMS else "events"
    except Refusal:
        pass
    yield f"setup that lacks bytes of its {part}"


# Setups that are accepted


def accepted_names(layout: Layout, length: int) -> Iterator[str]:
    layers = Layers(*(b"".join(row.data for row in table.rows) for table in (layout.pairs, layout.masked)))
    pairs, masked = layers.renamed, layers.masked
    what = " and ".join(name for name, rows in (("pairs", pairs), ("names", masked)) if rows)
    if not what:
        return
    yield f"setup of {'terms' if layout.kind == KIND_TERMS else 'a net'} with {what}"
    if length == MOST_FRAME_BYTES:
        yield f"setup of {length} bytes with layers"
    if len(pairs) == MOST_PAIRS:
        yield f"setup with {MOST_PAIRS} pairs"
    if len(masked) == MOST_MASKED:
        yield f"setup with {MOST_MASKED} names"
        if len(pairs) == MOST_PAIRS:
            yield "setup with as many pairs and names as there may be"
    if len(set(pairs.values())) < len(pairs):
        yield "setup with a to-name twice"
    if len(set(masked)) < len(masked):
        yield "setup with a masked name twice"
    if any(source == target for source, target in pairs.items()):
        yield "setup with a pair from a name to itself"
    if any(target in pairs and target != source for source, target in pairs.items()):
        yield "setup with a to-name that is a from-name too"
    if any(pairs.get(target) == source != target for source, target in pairs.items()):
        yield "setup with two names for each other"
    for use, names in (("from", pairs.keys()), ("to", pairs.values()), ("masked", masked)):
        yield from (f"setup with {name:02X} {use}" for name in (0x01, 0x3F) if name in names)


def change_names(bench: Bench[Any, Any], layout: Layout) -> Iterator[str]:
    """What changes for the sheets that have steps."""
    old, new = bench.system, read_setup(layout)
    used = [sheet for sheet in bench.sheets if sheet.standing is not Standing.BLANK and sheet.steps]
    if used and type(old.bottom) is type(new.bottom) and vars(old.bottom) == vars(new.bottom):
        pairs_stay, mask_stays = old.inner.pairs == new.inner.pairs, old.names == new.names
        if mask_stays and not pairs_stay:
            yield "setup that changes only the pairs, under sheets"
        if pairs_stay and not mask_stays:
            yield "setup that changes only the mask, under sheets"
    changes = {(beneath(bench, sheet), beneath(Bench(new), sheet)) for sheet in used}
    if (None, Number.MASKED) in changes:
        yield "setup that stops a sheet by its mask"
    if (Number.MASKED, None) in changes:
        yield "setup that takes the mask from a sheet, which replays"
