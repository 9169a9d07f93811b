"""Which sheets a call replays, and what stops them."""

from __future__ import annotations

from typing import Any

from drawing import JOIN
from sheetbench import SHEETS, Bench, Sheet
from systems import Number, Refusal


def named_sheets(bench: Bench[Any, Any], frame: bytes) -> list[Sheet]:
    """The sheets that a call names, as far as there are such sheets."""
    numbers = frame[1:3] if frame[0] == JOIN else frame[1:2]
    return [bench.sheets[number] for number in numbers if number < SHEETS]


def beneath(bench: Bench[Any, Any], sheet: Sheet) -> Number | None:
    """The number of the refusal that stops the replay of a sheet, if any does."""
    try:
        bench.replay(sheet)
    except Refusal as refusal:
        assert refusal.beneath is not None
        return refusal.beneath.number
    return None


def stopped_sheet(bench: Bench[Any, Any], frame: bytes) -> Sheet:
    """The first sheet that a call names and that does not replay."""
    return next(sheet for sheet in named_sheets(bench, frame) if beneath(bench, sheet))
