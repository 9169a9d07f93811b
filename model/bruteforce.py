"""The steps of terms; exchanges, extension and conflict by search, straight from what the words mean.

Nothing here carries a step through a run, so it can judge what does. It is
for small runs only: a run of n steps can have n! orders.
"""

from __future__ import annotations

from collections.abc import Callable, Iterable, Iterator
from dataclasses import dataclass
from typing import Generic

from systems import E, S, System
from terms import (
    Act,
    Both,
    ChooseLeft,
    ChooseRight,
    OnLeft,
    OnRight,
    Parallel,
    Prefix,
    Proof,
    Restriction,
    Sum,
    Term,
    Terms,
    Under,
    is_improper,
)


def possible_proofs(terms: Terms, term: Term) -> list[Proof]:
    """All steps that are possible in a term whose calls are guarded: no body comes to a call but behind a prefix."""
    match terms.unfolded(term):
        case Prefix(action, _):
            return [Act(action)]
        case Sum(left, right):
            first = [ChooseLeft(proof) for proof in possible_proofs(terms, left)]
            return first + [ChooseRight(proof) for proof in possible_proofs(terms, right)]
        case Parallel(left, right):
            lefts, rights = possible_proofs(terms, left), possible_proofs(terms, right)
            meetings = [Both(one, other) for one in lefts for other in rights]
            alone = [*map(OnLeft, lefts), *map(OnRight, rights)]
            return alone + [proof for proof in meetings if not is_improper(proof)]
        case Restriction(name, inner):
            shown = [Under(name, proof) for proof in possible_proofs(terms, inner)]
            return [proof for proof in shown if not is_improper(proof)]
    return []


@dataclass
class Search(Generic[S, E]):
    """A system, and which of its steps are possible in a state."""

    system: System[S, E]
    possible: Callable[[S], Iterable[E]]

    def end(self, start: S, steps: tuple[E, ...]) -> S:
        """The end of a run; refuses with IMPOSSIBLE where it is none."""
        state = start
        for step in steps:
            state = self.system.next(state, step)
        return state

    def exchanges(self, steps: tuple[E, ...]) -> Iterator[tuple[E, ...]]:
        """The steps after each exchange of two independent neighbours."""
        for place in range(len(steps) - 1):
            first, second = steps[place : place + 2]
            moved = self.system.back(first, second)
            if moved is not None:
                yield steps[:place] + (moved, self.system.residual(first, moved)) + steps[place + 2 :]

    def orders(self, steps: tuple[E, ...]) -> set[tuple[E, ...]]:
        """What any number of exchanges makes of the steps."""
        found = {steps}
        new = [steps]
        while new:
            for order in self.exchanges(new.pop()):
                if order not in found:
                    found.add(order)
                    new.append(order)
        return found

    def extends(self, longer: tuple[E, ...], shorter: tuple[E, ...]) -> bool:
        """Whether a run extends another from the same start."""
        return any(order[: len(shorter)] == shorter for order in self.orders(longer))

    def extensions(self, start: S, steps: tuple[E, ...], more: int) -> Iterator[set[tuple[E, ...]]]:
        """The runs that extend a run by at most so many steps, each as the set of its orders.

        One order of each begins with the steps of the run, so it is enough to
        go on from these.
        """
        new = [steps]
        for _ in range(more + 1):
            seen: set[tuple[E, ...]] = set()
            reached: list[tuple[E, ...]] = []
            for run in new:
                if run not in seen:
                    orders = self.orders(run)
                    yield orders
                    seen |= orders
                    reached.append(run)
            new = [run + (step,) for run in reached for step in self.possible(self.end(start, run))]

    def common_extensions(self, start: S, one: tuple[E, ...], other: tuple[E, ...]) -> list[set[tuple[E, ...]]]:
        """The runs that extend both runs and have no more steps than the two together, each as the set of its orders.

        If any run extends both, one of these does. For take a run that does
        and has steps that belong to neither, in an order that begins with the
        one. Behind the last of these steps there are only steps of the other.
        In an order that begins with the other it stands behind them, so it has
        been exchanged with each. It can be exchanged with each in the first
        order too, and be left out at the end.
        """
        return [
            orders
            for orders in self.extensions(start, one, len(other))
            if any(order[: len(other)] == other for order in orders)
        ]

    def conflict(self, start: S, one: tuple[E, ...], other: tuple[E, ...]) -> int | None:
        """The least number of first steps of the other such that no run extends the one and them, if there is one."""
        for count in range(len(other) + 1):
            if not self.common_extensions(start, one, other[:count]):
                return count
        return None
