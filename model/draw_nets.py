"""What the generator draws over nets."""

from __future__ import annotations

from collections.abc import Callable
from dataclasses import replace
from random import Random
from typing import Any

from drawing import NO_ACTIONS, Draws, Layers, frame_of_setup, random_action
from nets import CONDITIONS, EVENT_BYTES, SET_BYTES, Event, Marking, Net, encode_set
from sheetbench import KIND_NET, MOST_EVENTS, MOST_FRAME_BYTES, MOST_STEPS
from systems import name_of

MOST_EVENTS_IN_A_FRAME = (MOST_FRAME_BYTES - 5) // EVENT_BYTES


def setup_frame(events: list[Event], layers: Layers = Layers()) -> bytes:
    return frame_of_setup(KIND_NET, [event.encode() for event in events], layers)


# Nets


def random_conditions(random: Random, count: int) -> list[int]:
    """Different conditions, with both ends often among them."""
    conditions = random.sample(range(1, CONDITIONS - 1), min(count, CONDITIONS - 2))
    if random.random() < 0.5:
        conditions[0] = 0
    if random.random() < 0.5:
        conditions[-1] = CONDITIONS - 1
    return conditions


def event_between(random: Random, before: list[int], after: list[int]) -> Event:
    return Event(random_action(random), frozenset(before), frozenset(after))


def ring_events(random: Random, ring: list[int]) -> list[Event]:
    """One event from each condition of the ring to the next."""
    nexts = ring[1:] + ring[:1]
    return [event_between(random, [c], [following]) for c, following in zip(ring, nexts)]


def ring_net(random: Random) -> list[Event]:
    size = random.choice((2, 3, 5, 8, 20, 40, MOST_EVENTS))
    return ring_events(random, random_conditions(random, size))


def long_ring_net(random: Random) -> list[Event]:
    """A ring in which no event comes twice in a full sheet."""
    size = random.choice((MOST_STEPS, MOST_STEPS + 1, MOST_EVENTS))
    return ring_events(random, random_conditions(random, size))


def rings_net(random: Random) -> list[Event]:
    """A few small rings side by side."""
    conditions = random_conditions(random, 12)
    events = []
    while conditions:
        size = min(len(conditions), random.choice((2, 3, 4)))
        ring, conditions = conditions[:size], conditions[size:]
        if size > 1:
            events += ring_events(random, ring)
    return events


def tokens_net(random: Random) -> list[Event]:
    """Tokens, each with a few conditions of its own to go round, and events that move one or two of them.

    Some events come twice, with two numbers.
    """
    conditions = random_conditions(random, 20)
    homes = []
    while len(conditions) > 1 and len(homes) < 6:
        size = random.choice((2, 3, 4))
        homes.append(conditions[:size])
        conditions = conditions[size:]
    events = []
    for _ in range(random.choice((6, 12, 20, 30))):
        moves = [random.sample(home, 2) for home in random.sample(homes, random.choice((1, 1, 1, 2)))]
        events.append(event_between(random, [before for before, _ in moves], [after for _, after in moves]))
    return events + random.sample(events, random.choice((0, 3, 6)))


def tangled_net(random: Random) -> list[Event]:
    """Small disjoint sets over few conditions; some events have their reverse."""
    conditions = random_conditions(random, random.randrange(3, 9))
    events = []
    for _ in range(random.choice((1, 4, 10, 20))):
        drawn = random.sample(conditions, random.randrange(2, min(5, len(conditions) + 1)))
        cut = random.randrange(1, len(drawn))
        events.append(event_between(random, drawn[:cut], drawn[cut:]))
        if random.random() < 0.6:
            events.append(event_between(random, drawn[cut:], drawn[:cut]))
    return events


def wide_net(random: Random) -> list[Event]:
    """Sets that share out most or all of the conditions, there and back."""
    events = []
    for _ in range(random.randrange(1, 4)):
        drawn = random.sample(range(CONDITIONS), random.choice((40, CONDITIONS - 1, CONDITIONS)))
        cut = random.randrange(1, len(drawn))
        events.append(event_between(random, drawn[:cut], drawn[cut:]))
        events.append(event_between(random, drawn[cut:], drawn[:cut]))
    return events


def full_net(random: Random) -> list[Event]:
    """As many events as there may be."""
    events: list[Event] = []
    while len(events) < MOST_EVENTS:
        events += tangled_net(random)
    return events[:MOST_EVENTS]


def empty_net(random: Random) -> list[Event]:
    return []


NETS: dict[Callable[[Random], list[Event]], int] = {
    ring_net: 8,
    rings_net: 6,
    tokens_net: 8,
    tangled_net: 8,
    wide_net: 3,
    full_net: 3,
    empty_net: 1,
}


def random_net(random: Random) -> list[Event]:
    return random.choices(list(NETS), list(NETS.values()))[0](random)


# Alterations of a net, aimed at one of its events


def cut_off(random: Random, events: list[Event], index: int) -> list[Event]:
    """The event and those behind it are no events any more."""
    return events[:index]


def replace_sets(random: Random, events: list[Event], index: int) -> list[Event]:
    """The event gets other sets."""
    drawn = random.sample(range(CONDITIONS), 2)
    event = replace(events[index], before=frozenset(drawn[:1]), after=frozenset(drawn[1:]))
    return events[:index] + [event] + events[index + 1 :]


def reverse_event(random: Random, events: list[Event], index: int) -> list[Event]:
    old = events[index]
    event = replace(old, before=old.after, after=old.before)
    return events[:index] + [event] + events[index + 1 :]


def widen_event(random: Random, events: list[Event], index: int) -> list[Event]:
    """The event takes in one more condition, before or after."""
    old = events[index]
    free = sorted(set(range(CONDITIONS)) - old.before - old.after)
    if not free:
        return events
    extra = {random.choice(free)}
    if random.random() < 0.5:
        event = replace(old, before=old.before | extra)
    else:
        event = replace(old, after=old.after | extra)
    return events[:index] + [event] + events[index + 1 :]


def change_actions(random: Random, events: list[Event], index: int) -> list[Event]:
    """Only the labels change."""
    return [replace(event, action=random_action(random)) for event in events]


def permute_events(random: Random, events: list[Event], index: int) -> list[Event]:
    return random.sample(events, len(events))


def append_events(random: Random, events: list[Event], index: int) -> list[Event]:
    return (events + tangled_net(random))[:MOST_EVENTS]


ALTERATIONS = {
    cut_off: 4,
    replace_sets: 3,
    reverse_event: 3,
    widen_event: 3,
    change_actions: 2,
    permute_events: 2,
    append_events: 1,
}


# Those by which the event ceases to be possible where it was, or to be one
STOPPING_ALTERATIONS = (cut_off, replace_sets, reverse_event, widen_event)


# Events of which setups are refused


def too_many_events(random: Random, events: list[Event]) -> list[Event]:
    most = MOST_EVENTS_IN_A_FRAME
    count = random.choice((MOST_EVENTS + 1, most, random.randrange(MOST_EVENTS + 1, most + 1)))
    while len(events) < count:
        events = events + tangled_net(random)
    if random.random() < 0.3:
        events[random.randrange(count)] = spoil_event(random, events[0])
    return events[:count]


def spoil_event(random: Random, event: Event) -> Event:
    """The event with one or more rules broken."""
    nothing: Marking = frozenset()
    either = event.before | event.after
    return random.choice((
        replace(event, action=random.choice(NO_ACTIONS)),
        replace(event, action=random.choice((0x40, random.randrange(0x80, 0x100)))),
        replace(event, before=nothing),
        replace(event, after=nothing),
        replace(event, before=nothing, after=nothing),
        replace(event, before=either),
        replace(event, after=either),
        replace(event, before=event.after),
        replace(event, action=0x40, before=nothing),
    ))


def bad_events(random: Random, events: list[Event]) -> list[Event]:
    """One or several events that break rules."""
    events = list(events) or tangled_net(random)
    for index in random.sample(range(len(events)), min(len(events), random.choice((1, 1, 2, 3)))):
        events[index] = spoil_event(random, events[index])
    return events


# Over a net


class NetDraws(Draws[Net]):
    kind = KIND_NET

    @property
    def events(self) -> list[Event]:
        return list(self.system.events)

    def with_events(self, events: list[Event]) -> NetDraws:
        """Another net under the same layers."""
        return NetDraws(self.random, Net(events), self.layers)

    def rows(self) -> list[bytes]:
        return [event.encode() for event in self.events]

    def bad_rows(self) -> list[bytes]:
        events = random_net(self.random) if self.random.random() < 0.5 else self.events
        bad = self.random.choice((bad_events, bad_events, too_many_events))(self.random, events)
        return [event.encode() for event in bad]

    def names(self) -> list[int]:
        names = {name_of(event.action) for event in self.events}
        return sorted(name for name in names if name is not None)

    def hidden_step(self) -> bytes | None:
        hidden = [i for i, event in enumerate(self.events) if self.layers.hides(event.action)]
        return bytes([self.random.choice(hidden)]) if hidden else None

    def good_state(self) -> bytes:
        random = self.random
        marking: set[int] = set()
        used = sorted(set().union(*(e.before | e.after for e in self.events)))
        chance = random.random()
        if self.events and chance < 0.35:
            marking |= random.choice(self.events).before
        elif self.events and chance < 0.5:
            marking |= self.events[0].before
        elif chance < 0.9:
            marking |= {c for c in used if random.random() < 0.5}
        elif chance < 0.93:
            marking |= set(range(CONDITIONS))
        if random.random() < 0.3:
            marking |= {c for c in range(CONDITIONS) if c not in used and random.random() < 0.5}
        return encode_set(marking)

    def lively_state(self) -> bytes:
        hold: set[int] = set()
        free: set[int] = set()
        for event in self.random.sample(self.events, len(self.events)):
            if event.before.isdisjoint(free) and event.after.isdisjoint(hold):
                hold |= event.before
                free |= event.after
        return encode_set(hold)

    def wrong_state(self) -> bytes:
        lengths = (*range(SET_BYTES), *range(SET_BYTES + 1, 14), 255, 256, 257, 300, MOST_FRAME_BYTES - 2)
        return self.random.randbytes(self.random.choice(lengths))

    def possible_steps(self, state: Marking) -> list[bytes]:
        return [bytes([i]) for i, event in enumerate(self.events) if event.is_possible(state)]

    def some_step(self, state: Any = None) -> bytes:
        return bytes([self.random.randrange(len(self.events))]) if self.events else b"\x00"

    def wrong_step(self) -> bytes:
        random = self.random
        beyond = bytes([random.choice((len(self.events), len(self.events) + 1, 0x80, 0xFF))])
        more = random.randbytes(random.choice((1, 1, 2, 8, 100, MOST_FRAME_BYTES - 3)))
        return random.choice((b"", beyond, beyond, beyond + more, self.some_step() + more, self.some_step() + more))

    def altered(self, start: bytes, steps: list[bytes]) -> NetDraws | None:
        random = self.random
        used = list(dict.fromkeys(step[0] for step in steps))
        if not self.events or not used:
            return None
        aim = random.choice((random.choice(used), used[-1]))
        if aim >= len(self.events):
            aim = random.randrange(len(self.events))
        alteration = random.choices(list(ALTERATIONS), list(ALTERATIONS.values()))[0]
        return self.with_events(alteration(random, self.events, aim))
