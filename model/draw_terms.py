"""What the generator draws over terms."""

from __future__ import annotations

from collections.abc import Callable, Sequence
from functools import reduce
from random import Random
from typing import Any

from drawing import NO_ACTIONS, Draws, Layers, frame_of_setup, random_action
from sheetbench import KIND_TERMS, MOST_DEFINITIONS, MOST_FRAME_BYTES
from systems import CO, MOST_STATE_BYTES, MOST_STEP_BYTES, SILENT, name_of
from terms import (
    Act,
    Both,
    Call,
    ChooseLeft,
    ChooseRight,
    Misfit,
    Nil,
    OnLeft,
    OnRight,
    Parallel,
    Prefix,
    Proof,
    Restriction,
    Sum,
    Term,
    Terms,
    Under,
    decode_body,
    decode_proof,
    is_improper,
    label,
)

MOST_BODY_BYTES = 255
# The kinds of nodes of a proof that have one part and nothing else.
ONE_PART = (OnLeft, OnRight, ChooseLeft, ChooseRight)


def with_length(body: bytes) -> bytes:
    return bytes([len(body)]) + body


def setup_frame(bodies: Sequence[bytes], layers: Layers = Layers()) -> bytes:
    return frame_of_setup(KIND_TERMS, [with_length(body) for body in bodies], layers)


def co(action: int) -> int:
    """The action that meets it."""
    return action ^ CO if action != SILENT else SILENT


# Terms


def chain(actions: Sequence[int], end: Term) -> Term:
    return reduce(lambda then, action: Prefix(action, then), reversed(actions), end)


def filler(length: int, action: int = 0x3F) -> Term:
    """A term of just so many bytes, at least one; one of an even number calls definition 0."""
    end: Term = Nil() if length % 2 else Call(0)
    return chain([action] * ((length - 1) // 2), end)


def choices(count: int, end: Term) -> Term:
    """The term as the right branch of so many choices."""
    return reduce(lambda inner, _: Sum(Nil(), inner), range(count), end)


def behind(nodes: Sequence[type], proof: Proof) -> Proof:
    """The proof below nodes of one part, the outermost first."""
    return reduce(lambda inner, node: node(inner), reversed(nodes), proof)


class TermMaker:
    """Draws terms over a few actions and a number of definitions."""

    def __init__(self, random: Random, definitions: int) -> None:
        self.random = random
        self.definitions = definitions
        names = random.choice(((0x01, 0x02), (0x01, 0x3F), (0x01,), (random.randrange(0x01, 0x40), 0x02, 0x03)))
        self.names = names
        self.actions = [*names, *(co(name) for name in names), *names, SILENT]

    def action(self) -> int:
        return self.random.choice(self.actions) if self.random.random() < 0.97 else random_action(self.random)

    def name(self) -> int:
        return self.random.choice(self.names) if self.random.random() < 0.9 else self.random.randrange(0x01, 0x40)

    def leaf(self) -> Term:
        if self.definitions and self.random.random() < 0.7:
            return Call(self.random.randrange(self.definitions))
        return Nil()

    def term(self, nodes: int) -> Term:
        """A term of about so many nodes."""
        random = self.random
        if nodes <= 1:
            return self.leaf()
        chance = random.random()
        if chance < 0.35 or nodes == 2:
            return Prefix(self.action(), self.term(nodes - 1))
        if chance < 0.45:
            return Restriction(self.name(), self.term(nodes - 1))
        cut = random.randrange(1, nodes - 1)
        node = Sum if chance < 0.65 else Parallel
        return node(self.term(cut), self.term(nodes - 1 - cut))

    def body(self, nodes: int) -> Term:
        """A term that is no call."""
        return self.term(max(nodes, 2))

    def sides(self) -> Term:
        """Two sides that can meet, perhaps each more than once, and perhaps each behind a choice."""
        random = self.random
        actions = [self.action() for _ in range(random.choice((1, 1, 2, 3)))]
        sides = [chain(actions, self.leaf()), chain([co(action) for action in actions], self.leaf())]
        if random.random() < 0.5:
            sides = [self.beside(side) if random.random() < 0.5 else side for side in sides]
        random.shuffle(sides)
        return Parallel(*sides)

    def beside(self, term: Term) -> Term:
        """A choice or a parallel term with this one in it."""
        node = self.random.choice((Sum, Sum, Parallel))
        other = self.term(self.random.choice((1, 2, 3)))
        return node(term, other) if self.random.random() < 0.5 else node(other, term)

    def nested(self, depth: int) -> Term:
        """Sides that can meet, inside choices, restrictions and parallel terms."""
        term = self.sides()
        for _ in range(depth):
            term = Restriction(self.name(), term) if self.random.random() < 0.35 else self.beside(term)
        return term


# Families of definitions, each with a start that goes with them

Family = tuple[list[Term], Term]


def nested_terms(random: Random) -> Family:
    """Handshakes inside choices inside restrictions, and the other way round."""
    count = random.choice((0, 0, 1, 3))
    maker = TermMaker(random, count)
    bodies = [maker.nested(random.randrange(3)) for _ in range(count)]
    return bodies, maker.nested(random.choice((1, 2, 3, 4, 6, 10)))


def chosen_terms(random: Random) -> Family:
    """Several sides in a branch of choices whose other branches do little, so that runs go on side by side in it.

    Each side has its match among others, with which it can meet.
    """
    count = random.choice((1, 2, 4))
    maker = TermMaker(random, count)
    bodies: list[Term] = [chain([maker.action()], Call(index)) for index in range(count)]
    actions = [maker.action() for _ in range(random.choice((1, 2, 3, 4)))]
    if random.random() < 0.5:
        actions = [action or maker.name() for action in actions]
    ones = [chain([action], maker.leaf()) for action in actions]
    others = [chain([co(action)], maker.leaf()) for action in actions]
    if random.random() < 0.3:
        ones.append(Call(random.randrange(count)))
    core: Term = Parallel(reduce(Parallel, ones), reduce(Parallel, others))
    for _ in range(random.choice((1, 1, 2, 3, 5))):
        chance = random.random()
        if chance < 0.5:
            idle = random.choice((Nil(), Nil(), Prefix(0x3C, Nil())))
            core = Sum(idle, core) if random.random() < 0.5 else Sum(core, idle)
        elif chance < 0.75:
            core = Restriction(random.choice((0x3D, 0x3E, maker.name())), core)
        else:
            core = Parallel(core, maker.leaf()) if random.random() < 0.5 else Parallel(maker.leaf(), core)
    return bodies, core


def looping_terms(random: Random) -> Family:
    """Definitions that go round, each by itself or from one to the next, side by side."""
    count = random.choice((1, 2, 3, 4, MOST_DEFINITIONS))
    maker = TermMaker(random, count)
    round_trip = random.random() < 0.4
    bodies = []
    for number in range(count):
        actions = [maker.action() for _ in range(random.choice((1, 1, 2, 3)))]
        bodies.append(chain(actions, Call((number + 1) % count if round_trip else number)))
    sides = [Call(random.randrange(count)) for _ in range(random.choice((1, 2, 2, 3, 4, 6)))]
    start = reduce(lambda one, other: Parallel(one, other) if random.random() < 0.5 else Parallel(other, one), sides)
    if random.random() < 0.3:
        start = Restriction(maker.name(), start)
    return bodies, start


def crowding_terms(random: Random) -> Family:
    """Definitions that call themselves or each other with no prefix before the call."""
    count = random.choice((1, 1, 2, 3))
    maker = TermMaker(random, count)
    bodies: list[Term] = []
    for number in range(count):
        call = Call((number + random.choice((0, 1))) % count)
        own = chain([maker.action() for _ in range(random.choice((1, 1, 2)))], maker.leaf())
        node = random.choice((Parallel, Parallel, Sum))
        body: Term = node(own, call) if random.random() < 0.7 else node(call, own)
        if random.random() < 0.2:
            body = Restriction(maker.name(), body)
        bodies.append(body)
    start: Term = Call(random.randrange(count))
    if random.random() < 0.4:
        start = Parallel(start, Call(random.randrange(count)))
    return bodies, start


def workshop_terms(random: Random) -> Family:
    """Machines side by side, two and two under a restriction, that go round for ever and meet each other."""
    names = random.sample(range(0x01, 0x40), 6)
    bodies: list[Term] = []
    for number in range(6):
        inner, outer = names[number // 2], random.choice(names[3:])
        meets = inner if number % 2 else co(inner)
        round_trip = chain([meets, outer], Call(number))
        bodies.append(Sum(round_trip, Prefix(random.choice(names[3:]), Call(number))))
    pairs = [Restriction(names[pair], Parallel(Call(2 * pair), Call(2 * pair + 1))) for pair in range(3)]
    beside = [chain(random.sample(names[3:], 2), Nil()) for _ in range(4)]
    start = Restriction(random.choice(names[:3]), Parallel(Parallel(pairs[0], beside[0]), Parallel(pairs[1], Parallel(beside[1], pairs[2]))))
    return bodies, Parallel(Parallel(beside[2], start), beside[3])


def growing_terms(random: Random) -> Family:
    """A definition that becomes a long term, beside terms that nearly fill a state."""
    tail = random.choice((20, 60, 100, 120, 180, 240, 253))
    bodies: list[Term] = [Prefix(0x01, filler(tail))]
    if random.random() < 0.5:
        bodies.append(Parallel(Call(1), Prefix(0x02, filler(random.randrange(1, 200)))))
    goal = random.choice((MOST_STATE_BYTES, *range(MOST_STATE_BYTES - 2, MOST_STATE_BYTES + 4), 300, 400, 500))
    other = min(goal - 1 - tail, MOST_STATE_BYTES - 3)
    beside = filler(other) if other > 0 else Call(len(bodies) - 1)
    if random.random() < 0.3:
        beside = Call(len(bodies) - 1)
    start: Term = Parallel(Call(0), beside)
    return bodies, start


def random_definitions(random: Random) -> Family:
    count = random.choice((1, 2, 4, 8, MOST_DEFINITIONS))
    maker = TermMaker(random, count)
    bodies = [maker.body(random.choice((1, 2, 3, 6, 12))) for _ in range(count)]
    return bodies, maker.term(random.choice((1, 3, 8, 20, 60)))


def no_definitions(random: Random) -> Family:
    return [], TermMaker(random, 0).term(random.choice((1, 2, 5, 12, 30)))


FAMILIES: dict[Callable[[Random], Family], int] = {
    nested_terms: 10,
    chosen_terms: 8,
    looping_terms: 8,
    crowding_terms: 6,
    growing_terms: 5,
    random_definitions: 4,
    no_definitions: 3,
}


def random_terms(random: Random, family: Callable[[Random], Family] | None = None) -> TermDraws:
    family = family or random.choices(list(FAMILIES), list(FAMILIES.values()))[0]
    bodies, start = family(random)
    return TermDraws(random, Terms(bodies), start)


# Steps


class Walk:
    """Looks for a step of a term at random; gives up after so many nodes."""

    def __init__(self, random: Random, terms: Terms, fuel: int) -> None:
        self.random = random
        self.terms = terms
        self.fuel = fuel

    def step(self, term: Term, depth: int, wanted: int | None = None) -> Proof | None:
        """A possible step with the wanted label, if any is, of at most so deep."""
        self.fuel -= 1
        if self.fuel < 0 or depth <= 0:
            return None
        match self.terms.unfolded(term):
            case Prefix(action, _) if wanted in (None, action):
                return Act(action)
            case Sum(left, right):
                return self.either([(ChooseLeft, left), (ChooseRight, right)], depth, wanted)
            case Restriction(name, inner) if wanted is None or name_of(wanted) != name:
                for _ in range(3):
                    part = self.step(inner, depth - 1, wanted)
                    if part is not None and not is_improper(Under(name, part)):
                        return Under(name, part)
            case Parallel(left, right):
                if wanted in (None, SILENT) and self.random.random() < 0.5:
                    meeting = self.meeting(left, right, depth)
                    if meeting is not None:
                        return meeting
                return self.either([(OnLeft, left), (OnRight, right)], depth, wanted)
        return None

    def either(self, sides: list[tuple[type, Term]], depth: int, wanted: int | None) -> Proof | None:
        self.random.shuffle(sides)
        for node, term in sides:
            part = self.step(term, depth - 1, wanted)
            if part is not None:
                return node(part)
        return None

    def meeting(self, left: Term, right: Term, depth: int) -> Proof | None:
        for _ in range(3):
            one = self.step(left, depth - 1)
            if one is not None and label(one) != SILENT:
                other = self.step(right, depth - 1, co(label(one)))
                if other is not None:
                    return Both(one, other)
        return None


def random_proof(random: Random, nodes: int) -> Proof:
    """A proof of about so many nodes, proper or not."""
    if nodes <= 1:
        return Act(random.choice((0x00, 0x01, 0x01, 0x41, 0x41, 0x02, 0x42, random_action(random))))
    chance = random.random()
    if chance < 0.25 and nodes > 2:
        cut = random.randrange(1, nodes - 1)
        return Both(random_proof(random, cut), random_proof(random, nodes - 1 - cut))
    part = random_proof(random, nodes - 1)
    if chance < 0.45:
        return Under(random.choice((0x01, 0x02, 0x03, random.randrange(0x01, 0x40))), part)
    return random.choice(ONE_PART)(part)


def outer_nodes(random: Random, count: int) -> list[type]:
    return [random.choice(ONE_PART) for _ in range(count)]


def improper_proof(random: Random) -> Proof:
    """A proof with an improper node at any depth, sometimes behind another part, or around another improper node."""
    action = random.choice((0x01, 0x41, 0x00, 0x02))
    inner = behind(outer_nodes(random, random.choice((0, 0, 1, 2, 5))), Act(action))
    if random.random() < 0.7 and action != SILENT:
        improper: Proof = Under(action % CO, inner)
    else:
        other = Act(random.choice((action, SILENT, 0x03, 0x43)))
        improper = Both(inner, other) if random.random() < 0.5 else Both(other, inner)
    room = MOST_STEP_BYTES - len(improper.encoded)
    proof = improper
    for _ in range(random.choice((random.randrange(3), random.randrange(10), random.randrange(room + 1)))):
        silent = label(proof) == SILENT and random.random() < 0.9
        if silent or len(proof.encoded) + 4 >= MOST_STEP_BYTES or random.random() < 0.6:
            proof = random.choice(ONE_PART)(proof)
        elif random.random() < 0.5:
            proof = Under(0x3E, proof)
        else:
            met = Act(co(label(proof)))
            proof = Both(proof, met) if random.random() < 0.3 else Both(met, proof)
    return proof


def turned(random: Random, proof: Proof) -> Proof:
    """The proof with the last second part of its meetings in another place; the same if it has no meeting."""
    match proof:
        case Both(left, right):
            inner = turned(random, right)
            if inner == right:
                inner = behind(outer_nodes(random, random.choice((1, 2))), Act(label(right)))
            return Both(left, inner)
        case OnLeft(part) | OnRight(part) | ChooseLeft(part) | ChooseRight(part):
            return type(proof)(turned(random, part))
        case Under(name, part):
            return Under(name, turned(random, part))
    return proof


def spoil_bytes(random: Random, data: bytes, alphabet: Sequence[int]) -> bytes:
    """The string cut, lengthened, or with a byte changed."""
    chance = random.random()
    place = random.randrange(len(data) + 1)
    if chance < 0.25:
        return data[:place]
    if chance < 0.5:
        return data + bytes(random.choices(alphabet, k=random.choice((1, 1, 2, 20))))
    if chance < 0.6:
        return data[:place] + bytes([random.choice(alphabet)]) + data[place:]
    return data[:place] + bytes([random.choice((*alphabet, *NO_ACTIONS))]) + data[place + 1 :]


def near_limit(random: Random, limit: int, begin: Callable[[], bytes], end: bytes) -> bytes:
    """A string of about so many bytes that begins as it is drawn, perhaps with a fault near the limit."""
    near = range(limit - 2, limit + 4)
    length = random.choice((*near, limit + 40, MOST_FRAME_BYTES - 2, random.randrange(limit, 1000)))
    data = bytearray()
    while len(data) < length - len(end):
        data += begin()
    data = data[: max(0, length - len(end))] + end
    if random.random() < 0.3:
        place = random.choice((*range(limit - 2, limit + 2), random.randrange(limit)))
        data[place : place + 1] = bytes([random.choice(NO_ACTIONS)])
    return bytes(data[: MOST_FRAME_BYTES - 2])


# Definitions of which setups are refused


def wrong_length(random: Random, bodies: list[bytes]) -> list[bytes]:
    """A body's length is not that of the body, so what follows is read otherwise."""
    first, *rest = [with_length(body) for body in bodies or [b"\x00"]]
    length = max(0, min(MOST_BODY_BYTES, first[0] + random.choice((-2, -1, -1, 1, 1, 2))))
    return [bytes([length]) + first[1:], *rest]


def too_many_definitions(random: Random, bodies: list[bytes]) -> list[bytes]:
    count = random.choice((MOST_DEFINITIONS + 1, MOST_DEFINITIONS + 2, 100, 255))
    short = [body for body in bodies if len(body) < 4][:MOST_DEFINITIONS]
    others = random.choice(([b"\x00"], [b"\x00", b"\x06"]))
    return [with_length(body) for body in (short + random.choices(others, k=count))[:count]]


def bad_body(random: Random, body: bytes, count: int) -> bytes:
    """The body with a fault."""
    alphabet = (0x00, 0x01, 0x02, 0x03, 0x04, 0x05, 0x06, 0x40, 0x10)
    chance = random.random()
    if chance < 0.15:
        return bytes([0x05, random.randrange(count + 1)])
    if chance < 0.25:
        return b""
    if chance < 0.35:
        return b"\x01\x01\x05" + bytes([random.choice((count, count + 1, 0xFF))])
    if chance < 0.4:
        return b"\x05"
    return spoil_bytes(random, body, alphabet)[:MOST_BODY_BYTES]


def bad_bodies(random: Random, bodies: list[bytes]) -> list[bytes]:
    bodies = list(bodies) or [b"\x00"]
    for index in random.sample(range(len(bodies)), min(len(bodies), random.choice((1, 1, 2)))):
        bodies[index] = bad_body(random, bodies[index], len(bodies))
    return [with_length(body) for body in bodies]


BAD_ROWS = (wrong_length, too_many_definitions, bad_bodies, bad_bodies, bad_bodies)


def prefix_names(term: Term) -> set[int]:
    """The names of the actions in a term."""
    match term:
        case Prefix(action, then):
            name = name_of(action)
            return prefix_names(then) | (set() if name is None else {name})
        case Parallel(left, right) | Sum(left, right):
            return prefix_names(left) | prefix_names(right)
        case Restriction(_, inner):
            return prefix_names(inner)
    return set()


# Over terms


class TermDraws(Draws[Terms]):
    kind = KIND_TERMS

    def __init__(
        self, random: Random, system: Terms, start: Term | None = None, layers: Layers = Layers()
    ) -> None:
        super().__init__(random, system, layers)
        self.start = start
        self.maker = TermMaker(random, len(system.bodies))

    @property
    def bodies(self) -> list[bytes]:
        return [body.encoded for body in self.system.bodies]

    def with_bodies(self, bodies: list[Term]) -> TermDraws:
        """Other definitions under the same layers."""
        return TermDraws(self.random, Terms(bodies), self.start, self.layers)

    def rows(self) -> list[bytes]:
        return [with_length(body) for body in self.bodies]

    def bad_rows(self) -> list[bytes]:
        bodies = random_terms(self.random).bodies if self.random.random() < 0.5 else self.bodies
        return self.random.choice(BAD_ROWS)(self.random, bodies)

    def names(self) -> list[int]:
        shown = [*self.system.bodies, *([self.start] if self.start else [])]
        return sorted(set(self.maker.names).union(*map(prefix_names, shown)))

    def hidden_step(self) -> bytes | None:
        names = self.layers.hidden_names()
        if not names:
            return None
        action = self.random.choice(names) + self.random.choice((0, CO))
        return behind(outer_nodes(self.random, self.random.choice((0, 0, 1, 2))), Act(action)).encoded

    def within(self, draw: Callable[[], Term]) -> bytes:
        """A term that is not too long."""
        for _ in range(5):
            data = draw().encoded
            if len(data) <= MOST_STATE_BYTES:
                return data
        return b"\x00"

    def good_state(self) -> bytes:
        random = self.random
        chance = random.random()
        if self.start is not None and chance < 0.6:
            return self.within(lambda: self.start)
        if chance < 0.75:
            return self.within(lambda: self.maker.nested(random.randrange(8)))
        if chance < 0.97:
            return self.within(lambda: self.maker.term(random.choice((1, 2, 4, 8, 20, 50))))
        length = random.choice((MOST_STATE_BYTES - 1, MOST_STATE_BYTES if self.bodies else 1))
        return filler(length).encoded

    def lively_state(self) -> bytes:
        if self.start is not None and self.random.random() < 0.8:
            return self.within(lambda: self.start)
        return self.within(lambda: self.maker.nested(self.random.randrange(6)))

    def wrong_state(self) -> bytes:
        random = self.random
        chance = random.random()
        alphabet = (0x00, 0x01, 0x02, 0x03, 0x04, 0x05, 0x06, 0x10, len(self.bodies))
        if chance < 0.1:
            return b""
        if chance < 0.2:
            return b"\x05" + bytes([random.choice((len(self.bodies), len(self.bodies) + 1, 0xFF))])
        if chance < 0.65:
            return spoil_bytes(random, self.good_state(), alphabet)
        if chance < 0.75:
            return random.randbytes(random.choice((1, 8, 9, 300)))
        begin = random.choice((b"\x02", b"\x03", b"\x01\x01", b"\x04\x01", b"\x02\x00", b"\x03\x05\x00"))
        end = random.choice((b"", b"\x00", b"\x05", b"\x05\x00", b"\x01", b"\x05\xff\x00", b"\x00\x00"))
        return near_limit(random, MOST_STATE_BYTES, lambda: begin, end)

    def possible_steps(self, state: Term) -> list[bytes]:
        found = (self.possible_step(state) for _ in range(8))
        return list(dict.fromkeys(step for step in found if step is not None))

    def possible_step(self, state: Term) -> bytes | None:
        random = self.random
        for _ in range(3):
            depth = random.choice((6, 12, 12, 30, MOST_STEP_BYTES - 1))
            proof = Walk(random, self.system, 150).step(state, depth)
            if proof is not None and len(proof.encoded) <= MOST_STEP_BYTES:
                return proof.encoded
        return None

    def some_step(self, state: Any = None) -> bytes:
        random = self.random
        chance = random.random()
        if isinstance(state, Term) and chance < 0.8:
            step = self.possible_step(state)
            if step is not None and chance < 0.35:
                return step
            if step is not None:
                return self.changed(step)
        return random_proof(random, random.choice((1, 2, 3, 5, 8))).encoded[:MOST_STEP_BYTES]

    def changed(self, step: bytes) -> bytes:
        """The step with a byte changed such that it still is a proof, mostly; or with its last meeting turned."""
        random = self.random
        if random.random() < 0.3:
            return turned(random, decode_proof(step)).encoded[:MOST_STEP_BYTES]
        for _ in range(6):
            place = random.randrange(len(step))
            byte = random.choice((0x10, 0x11, 0x12, 0x14, 0x15, 0x01, 0x02, 0x41, 0x42))
            data = step[:place] + bytes([byte]) + step[place + 1 :]
            try:
                decode_proof(data)
            except Misfit:
                continue
            return data
        return step

    def wrong_step(self) -> bytes:
        random = self.random
        chance = random.random()
        if chance < 0.1:
            return b""
        if chance < 0.4:
            return improper_proof(random).encoded
        if chance < 0.45:
            long = behind(outer_nodes(random, MOST_STEP_BYTES), improper_proof(random)).encoded
            return long[: MOST_FRAME_BYTES - 2]
        if chance < 0.75:
            good = random_proof(random, random.choice((1, 2, 4, 8))).encoded
            return spoil_bytes(random, good, (0x10, 0x11, 0x13, 0x16, 0x17, 0x0F, 0x00, 0x01))
        if chance < 0.8:
            return random.randbytes(random.choice((1, 2, 8, 100)))
        nodes = (b"\x11", b"\x12", b"\x14", b"\x15", b"\x13", b"\x16\x01", b"\x13\x10\x01")
        begin = random.choice((*nodes, b""))
        end = random.choice((b"", b"\x10", b"\x10\x01", b"\x10\x01", b"\x10\x01\x00", b"\x10\x40"))
        return near_limit(random, MOST_STEP_BYTES, lambda: begin or random.choice(nodes), end)

    def altered(self, start: bytes, steps: list[bytes]) -> TermDraws | None:
        random = self.random
        bodies = list(self.system.bodies)
        if not bodies:
            return None
        index = random.randrange(len(bodies))
        chance = random.random()
        if chance < 0.25:
            bodies = self.cut(bodies, random.choice((0, index)))
        elif chance < 0.45:
            bodies[index] = self.maker.body(random.choice((2, 4, 8)))
        elif chance < 0.65:
            bodies[index] = self.other_action(bodies[index])
        elif chance < 0.85:
            bodies[index] = self.longer(bodies[index])
        else:
            random.shuffle(bodies)
        found = self.with_bodies(bodies)
        return found if len(found.setup()) <= MOST_FRAME_BYTES else None

    def cut(self, bodies: list[Term], count: int) -> list[Term]:
        """The first so many bodies, those of them left out that call others."""
        kept = []
        for body in bodies[:count]:
            try:
                kept.append(decode_body(body.encoded, count))
            except Misfit:
                kept.append(Nil())
        return kept

    def other_action(self, body: Term) -> Term:
        """The body with an action changed, if it has one."""
        data = bytearray(body.encoded)
        for place in self.random.sample(range(len(data)), len(data)):
            before, data[place] = data[place], self.random.choice((0x07, 0x47, 0x00))
            try:
                return decode_body(bytes(data), len(self.bodies))
            except Misfit:
                data[place] = before
        return body

    def longer(self, body: Term) -> Term:
        """The body with its ends made long, as long as it can be."""
        room = MOST_BODY_BYTES - len(body.encoded)
        extra = self.random.choice((100, 200, 240, 250))
        return self.with_last(body, filler(extra)) if 0 < extra < room else body

    def with_last(self, term: Term, last: Term) -> Term:
        """The term with another one in place of its last leaf."""
        match term:
            case Prefix(action, then):
                return Prefix(action, self.with_last(then, last))
            case Parallel(left, right):
                return Parallel(left, self.with_last(right, last))
            case Sum(left, right):
                return Sum(left, self.with_last(right, last))
            case Restriction(name, inner):
                return Restriction(name, self.with_last(inner, last))
        return last


# States and systems for both kinds


def term_of_a_marking(random: Random) -> bytes:
    """A term of eight bytes; it calls definition 0."""
    a, b, c = (random.choice((0x01, 0x02, 0x41)) for _ in range(3))
    return random.choice((
        bytes([0x01, a, 0x01, b, 0x01, c, 0x05, 0x00]),
        bytes([0x02, 0x01, a, 0x00, 0x01, b, 0x05, 0x00]),
        bytes([0x03, 0x01, a, 0x00, 0x01, b, 0x05, 0x00]),
        bytes([0x04, 0x03, 0x01, a, 0x01, b, 0x05, 0x00]),
        bytes([0x02, 0x05, 0x00, 0x02, 0x05, 0x00, 0x05, 0x00]),
    ))
