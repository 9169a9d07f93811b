"""Names for what happens under layers: in adds, prints, swaps, joins, and replays that a mask stops."""

from __future__ import annotations

from collections.abc import Iterator
from typing import Any

from drawing import ADD, JOIN, PRINT, SWAP, layers_of
from nets import Net
from replays import beneath, named_sheets, stopped_sheet
from sheetbench import MOST_STEPS, SHEETS, Bench, Sheet
from systems import MOST_STATE_BYTES, Number, Refusal, System, is_name, name_of
from tally_terms import nodes, placed
from terms import SILENT, Both, Misfit, Proof, Under, complementary, decode_proof, label

BETWEEN = "between the first step and the last"
KINDS = ("terms", "a net")
# What must have happened under layers over terms and over nets.
OVER_BOTH = (
    "add refused for a masked name",
    "add refused for a masked co-name",
    "add refused for a masked step that is not possible",
    "add refused for a step renamed to a masked name",
    "add of a step renamed away from a masked name",
    "add of a step that two pairs would rename to a masked name",
    "add of a silent step under a mask",
    "swap under pairs and a mask",
    "join under pairs and a mask",
    "print of a renamed name",
    "print of a renamed co-name",
    "print of a name that is not renamed, under pairs",
    "print of a silent label under pairs",
    "print of a name that two pairs would rename",
    "print of two names as one",
    "mask that stops a sheet at step 1",
    f"mask that stops a sheet {BETWEEN}",
    "mask that stops a sheet at its last step",
    "mask that stops a sheet at a step that is not possible",
    "mask that hides a step behind one that stops the sheet otherwise",
)
# What must have happened under layers.
LAYER_HAPPENINGS = (
    *(f"{name}, over {kind}" for name in OVER_BOTH for kind in KINDS),
    "add refused for a masked step to a state too long",
    "add of a masked step to a full sheet",
    "add of an improper step with a masked name",
    "add of a step under a restriction of the name that it shows",
    "improper restriction of a name that is renamed",
    "improper meeting of labels that are shown as a name and its co-name",
    f"mask that stops a sheet at step {MOST_STEPS}",
    "mask that stops a sheet at a step to a state too long",
    # steps of terms are steps over all terms
    "mask that stops a sheet before a step that is none, over a net",
    "join into a sheet stopped by a mask, of one stopped otherwise",
    "join into a sheet stopped otherwise, of one stopped by a mask",
)


def kind_of(system: System[Any, Any]) -> str:
    return "a net" if isinstance(system.bottom, Net) else "terms"


def names_under_layers(bench: Bench[Any, Any], frame: bytes, answer: bytes) -> Iterator[str]:
    """What happens in a call that is not a setup and whose frame has its bytes; the bench is as it was before."""
    call = LayeredCall(bench, frame, answer)
    if call.refused == Number.REPLAY:
        yield from call.stop_names()
    elif call.refused in (Number.FRAME, Number.SHEET):
        return
    elif frame[0] == ADD:
        yield from call.add_names()
    elif frame[0] == PRINT:
        yield from call.print_names()
    elif frame[0] in (SWAP, JOIN) and not call.refused and call.layers.pairs and call.layers.masked:
        yield call.over_kind(f"{'swap' if frame[0] == SWAP else 'join'} under pairs and a mask")


class LayeredCall:
    """A call on a bench, and its answer."""

    def __init__(self, bench: Bench[Any, Any], frame: bytes, answer: bytes) -> None:
        self.bench = bench
        self.frame = frame
        self.answer = answer
        self.refused = answer[0]
        self.place = int.from_bytes(answer[2:4], "big")
        self.bottom = bench.system.bottom
        self.layers = layers_of(bench.system)
        self.sheet = bench.sheets[frame[1]] if frame[1] < SHEETS else Sheet()

    def over_kind(self, name: str) -> str:
        return f"{name}, over {kind_of(self.bottom)}"

    def trouble(self, state: Any, step: Any) -> str | None:
        """What would be wrong with a step in a state, were there no mask."""
        try:
            after = self.bottom.next(state, step)
        except Refusal:
            return "that is not possible"
        return "to a state too long" if len(self.bottom.encode_state(after)) > MOST_STATE_BYTES else None

    # Adds

    def add_names(self) -> Iterator[str]:
        data = self.frame[2:]
        if self.refused == Number.STEP:
            yield from self.improper_names(data)
            return
        try:
            step = self.bottom.step(data)
        except Refusal:
            return
        own = self.bottom.label(step)
        if self.refused == Number.FULL and self.layers.hides(own):
            yield "add of a masked step to a full sheet"
        elif self.refused == Number.MASKED:
            yield from self.masked_names(step, own)
        elif not self.refused:
            yield from self.shown_names(step, own)

    def masked_names(self, step: Any, own: int) -> Iterator[str]:
        yield self.over_kind(f"add refused for a masked {'name' if is_name(own) else 'co-name'}")
        if name_of(own) not in self.layers.masked:
            yield self.over_kind("add refused for a step renamed to a masked name")
        trouble = self.trouble(self.bench.replay(self.sheet).end, step)
        if trouble == "that is not possible":
            yield self.over_kind(f"add refused for a masked step {trouble}")
        elif trouble:
            yield f"add refused for a masked step {trouble}"

    def shown_names(self, step: Any, own: int) -> Iterator[str]:
        if own == SILENT:
            if self.layers.masked:
                yield self.over_kind("add of a silent step under a mask")
            return
        shown = self.layers.shown(own)
        if name_of(own) in self.layers.masked:
            yield self.over_kind("add of a step renamed away from a masked name")
        if self.twice_renamed(own) in set(self.layers.masked):
            yield self.over_kind("add of a step that two pairs would rename to a masked name")
        if isinstance(step, Proof) and any(isinstance(n, Under) and n.name == shown for n, _, _ in nodes(step)):
            yield "add of a step under a restriction of the name that it shows"

    def twice_renamed(self, own: int) -> int | None:
        """The name after two pairs, where it is another than after one."""
        shown = self.layers.shown(own)
        renamed = self.layers.renamed
        return renamed[shown] if name_of(own) in renamed and renamed.get(shown, shown) != shown else None

    def improper_names(self, data: bytes) -> Iterator[str]:
        try:
            proof = decode_proof(data)
        except Misfit:
            return
        if self.layers.hides(label(proof)):
            yield "add of an improper step with a masked name"
        for node, _, place, _ in placed(proof, 0, 0, False):
            if place == self.place and isinstance(node, Under) and self.layers.shown(node.name) != node.name:
                yield "improper restriction of a name that is renamed"
            if place == self.place and isinstance(node, Both):
                if complementary(*(self.bench.system.label(part) for part in (node.left, node.right))):
                    yield "improper meeting of labels that are shown as a name and its co-name"

    # Prints

    def print_names(self) -> Iterator[str]:
        renamed = self.layers.renamed
        own_labels = {self.bottom.label(step) for step in self.bench.replay(self.sheet).steps}
        names = {name_of(own) for own in own_labels if own != SILENT}
        found = set()
        for own in own_labels:
            name, shown = name_of(own), self.layers.shown(own)
            if own == SILENT:
                found.add("a silent label under pairs")
            elif name not in renamed:
                found.add("a name that is not renamed, under pairs")
            elif shown != name:
                found.add(f"a renamed {'name' if is_name(own) else 'co-name'}")
            if self.twice_renamed(own) is not None:
                found.add("a name that two pairs would rename")
        if len({self.layers.shown(name) for name in names if name}) < len(names):
            found.add("two names as one")
        yield from (self.over_kind(f"print of {what}") for what in found if renamed)

    # Replays that are stopped

    def stop_names(self) -> Iterator[str]:
        sheet = stopped_sheet(self.bench, self.frame)
        masked = self.answer[4] == Number.MASKED
        later = [self.reads(data) for data in sheet.steps[self.place :]]
        if masked:
            yield from self.mask_names(sheet)
            if None in later:
                yield self.over_kind("mask that stops a sheet before a step that is none")
        elif self.place and any(step is not None and self.bench.system.is_masked(step) for step in later):
            yield self.over_kind("mask that hides a step behind one that stops the sheet otherwise")
        if self.frame[0] == JOIN and sheet is self.sheet:
            other = beneath(self.bench, named_sheets(self.bench, self.frame)[1])
            if other is not None and masked != (other == Number.MASKED):
                how = ("by a mask, of one stopped otherwise", "otherwise, of one stopped by a mask")
                yield f"join into a sheet stopped {how[0] if masked else how[1]}"

    def reads(self, data: bytes) -> Any:
        """The step of these bytes; None where they are none."""
        try:
            return self.bottom.step(data)
        except Refusal:
            return None

    def mask_names(self, sheet: Sheet) -> Iterator[str]:
        last = len(sheet.steps)
        where = "step 1" if self.place == 1 else "its last step" if self.place == last else None
        yield self.over_kind(f"mask that stops a sheet {f'at {where}' if where else BETWEEN}")
        if self.place == MOST_STEPS:
            yield f"mask that stops a sheet at step {MOST_STEPS}"
        before = self.bench.replay(Sheet(sheet.standing, sheet.start, sheet.steps[: self.place - 1])).end
        trouble = self.trouble(before, self.bottom.step(sheet.steps[self.place - 1]))
        if trouble == "that is not possible":
            yield self.over_kind(f"mask that stops a sheet at a step {trouble}")
        elif trouble:
            yield f"mask that stops a sheet at a step {trouble}"
