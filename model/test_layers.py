#!/usr/bin/env python3
"""Cases of layers and looks worked out by hand, and the laws of layers tried on small terms and nets."""

from __future__ import annotations

import unittest
from collections.abc import Callable, Iterator
from itertools import product
from random import Random
from typing import Any

import questions
from bruteforce import possible_proofs
from cases import Case, CaseTest
from layers import Mask, Renaming, layered
from nets import Event, Net, encode_set
from systems import CO, SILENT, Refusal, System, is_action, is_name, name_of
from terms import Terms
from test_model import BACK, C0, C1, C01, OPEN, TO, TO_AND_BACK, small_net
from test_terms import all_proofs, all_terms, flat, random_terms


def table(rows: list[str]) -> str:
    return f"{len(rows):02X}" + "".join(rows)


def setup(kind: str, pairs: str = "", masked: str = "", rest: list[str] | None = None) -> str:
    """A setup with these pairs and names, both divided by blanks, and definitions with their lengths, or events."""
    return "A0" + kind + table(pairs.split()) + table(masked.split()) + table(rest or [])


def net(pairs: str = "", masked: str = "", events: list[str] | None = None) -> str:
    return setup("02", pairs, masked, events or [TO, BACK])


def terms(pairs: str = "", masked: str = "", bodies: list[str] | None = None) -> str:
    return setup("01", pairs, masked, bodies)


# A definition of 255 bytes: it shows 01 and becomes a term of 253 bytes.
LONG_BODY = "FF" + 127 * "0101" + "00"
EIGHT_PAIRS = "0102 0203 0304 0401 0506 0607 0708 0805"
EIGHT_NAMES = "0A 0B 0C 0D 0E 0F 10 11"
NO_EVENT = "40" + C0 + C1

SETUP_CASES: list[Case] = [
    ("a pair", [], net("0102"), "00"),
    ("a pair, of terms", [], terms("0102"), "00"),
    ("a masked name", [], net("", "01"), "00"),
    ("a masked name, of terms", [], terms("", "01"), "00"),
    ("the ends of names", [], net("013F 3F01", "01 3F"), "00"),
    ("8 pairs and 8 names", [], net(EIGHT_PAIRS, EIGHT_NAMES), "00"),
    ("a pair from a name to itself", [], net("0101"), "00"),
    ("a to-name twice", [], net("0103 0203"), "00"),
    ("a masked name twice", [], net("", "01 01"), "00"),
    ("a masked name eight times", [], net("", 8 * "01 "), "00"),
    ("no kind", [], "A0", "01010001"),
    ("kind 0", [], "A000", "02010001"),
    ("a wrong kind precedes missing bytes of pairs", [], "A00309", "02010001"),
    ("a wrong kind precedes extra bytes", [], setup("03", "4040") + "00", "02010001"),
    ("missing count of pairs", [], "A001", "01010002"),
    ("missing pair", [], "A00102", "01010003"),
    ("missing half of a pair", [], "A001020102" + "03", "01010006"),
    ("missing count of names behind pairs", [], "A001010102", "01010005"),
    ("missing name", [], "A00101010202" + "03", "01010007"),
    ("missing count of definitions behind names", [], "A0010101020103", "01010007"),
    ("missing bytes precede 9 pairs", [], "A00209" + 8 * "0102", "01010013"),
    ("missing count of names precedes 9 pairs", [], "A00209" + 9 * "0102", "01010015"),
    ("missing bytes precede 9 names", [], "A0020009" + 8 * "01", "0101000C"),
    ("missing bytes precede a pair of no names", [], "A002014040", "01010005"),
    ("an extra byte precedes 9 pairs", [], "A00209" + 9 * "0102" + "0000" + "FF", "01010017"),
    ("an extra byte precedes a pair of no names", [], "A00101404000" + "0000", "01010007"),
    ("an extra byte precedes 9 names", [], "A0010009" + 9 * "01" + "0000", "0101000E"),
    ("9 pairs", [], net(EIGHT_PAIRS + " 0901"), "02010002"),
    ("9 pairs precede a from that is no name", [], net("4001 " + EIGHT_PAIRS), "02010002"),
    ("255 pairs", [], terms(255 * "0102 "), "02010002"),
    ("128 pairs of no names", [], terms(128 * "FFFF "), "02010002"),
    *((f"from {byte}", [], net(byte + "01"), "02010003") for byte in ("00", "40", "41", "7F", "80", "FF")),
    *((f"to {byte}", [], net("01" + byte), "02010004") for byte in ("00", "40", "41", "7F", "80", "FF")),
    ("neither from nor to", [], net("4141"), "02010003"),
    ("a from twice", [], net("0102 0103"), "02010005"),
    ("the same pair twice", [], net("0102 0102"), "02010005"),
    ("a from twice, with others between", [], net("0102 0203 0304 0101"), "02010009"),
    ("a from twice precedes its to", [], net("0102 0140"), "02010005"),
    ("a to precedes a from twice", [], net("0140 0101"), "02010004"),
    ("a from that is a to before", [], net("0102 0201"), "00"),
    ("the eighth from is no name", [], net(EIGHT_PAIRS[:-4] + "4001"), "02010011"),
    ("the eighth from is the seventh", [], net(EIGHT_PAIRS[:-4] + "0701"), "02010011"),
    ("the eighth to is no name", [], net(EIGHT_PAIRS[:-4] + "0841"), "02010012"),
    ("9 names", [], net("", EIGHT_NAMES + " 12"), "02010003"),
    ("9 names behind a pair", [], net("0102", EIGHT_NAMES + " 12"), "02010005"),
    ("9 names behind 8 pairs", [], net(EIGHT_PAIRS, EIGHT_NAMES + " 12"), "02010013"),
    ("9 equal names", [], net("", 9 * "01 "), "02010003"),
    ("9 names precede one that is none", [], net("", 9 * "40 "), "02010003"),
    ("255 names", [], terms("", 255 * "01 "), "02010003"),
    *((f"masked {byte}", [], net("", byte), "02010004") for byte in ("00", "40", "41", "7F", "80", "FF")),
    ("the second masked is no name", [], net("", "01 41 40"), "02010005"),
    ("the eighth masked is no name", [], net("", EIGHT_NAMES[:-2] + "40"), "0201000B"),
    ("a masked name behind pairs", [], net("0102 0201", "01 00"), "02010009"),
    ("a pair precedes 9 names", [], net("0102 0202 0241", 9 * "01 "), "02010007"),
    ("a pair precedes a masked name", [], net("0140", "40"), "02010004"),
    ("9 pairs precede 9 names", [], net(9 * "0102 ", 9 * "01 "), "02010002"),
    ("a masked name precedes 17 definitions", [], terms("", "00", 17 * ["0100"]), "02010004"),
    ("9 names precede a body", [], terms("", 9 * "01 ", ["0106"]), "02010003"),
    ("a pair precedes an event", [], net("0100", "", [NO_EVENT]), "02010004"),
    ("17 definitions behind layers", [], terms("0102", "03", 17 * ["0106"]), "02010007"),
    ("49 events behind layers", [], net("0102", "03", 49 * [TO]), "02010007"),
    ("a body behind layers", [], terms("0102", "03", ["0106"]), "02010009"),
    ("a second body behind layers", [], terms("0102", "03", ["0100", "020000"]), "0201000C"),
    ("an event behind layers", [], net("0102", "03", [NO_EVENT]), "02010008"),
    ("a second event behind 8 pairs and 8 names", [], net(EIGHT_PAIRS, EIGHT_NAMES, [TO, NO_EVENT]), "0201002E"),
    ("an action that is none, though it is masked and renamed", [], net("0102", "02", ["40" + C0 + C1]), "02010008"),
    ("a refused setup leaves the layers", [net("0102", "02"), OPEN, net("0102 0102")], "B10000", "07030000"),
    ("a refused setup leaves sheets", [TO_AND_BACK, OPEN, "B10000", net("", "01 40")], "B300", "00" + C0),
    ("a setup drops the layers before", [net("0102", "02"), TO_AND_BACK, OPEN], "B10000", "00" + C1),
]

# Event 2 is silent and goes from condition 0 to 1 as event 0 does.
SILENT_TOO = [TO, BACK, "00" + C0 + C1]
RUN = [OPEN, "B10000", "B10001"]
RELEASED = [*RUN, "B500"]

MASK_CASES: list[Case] = [
    ("a masked name", [net("", "01"), OPEN], "B10000", "07030000"),
    ("another name", [net("", "02 3F"), OPEN], "B10000", "00" + C1),
    ("the last of eight names", [net("", "02 03 04 05 06 07 08 01"), OPEN], "B10000", "07030000"),
    ("a name twice", [net("", "01 01"), OPEN], "B10000", "07030000"),
    ("a co-name has its name", [net("", "01"), "B000" + C1], "B10001", "07030000"),
    ("the silent label is never masked", [net("", "01 02 3F", SILENT_TOO), OPEN], "B10002", "00" + C1),
    ("a masked step precedes one that is not possible", [net("", "01"), OPEN], "B10001", "07030000"),
    ("a string that is no event precedes the mask", [net("", "01"), OPEN], "B10002", "05040000"),
    ("a string that is more than an event precedes the mask", [net("", "01"), OPEN], "B1000000", "05040001"),
    ("a blank sheet precedes the mask", [net("", "01")], "B10000", "03020001"),
    ("a refused add leaves the steps", [net("", "01", SILENT_TOO), OPEN, "B10002", "B10001"], "B300", "00" + C0),
    (
        "a full sheet precedes the mask",
        [net("", "05", [TO, BACK, "05" + C0 + C1]), OPEN, *16 * ["B10000", "B10001"]],
        "B10002",
        "09020020",
    ),
    ("a name of terms", [terms("", "01"), "B000010100"], "B1001001", "07030000"),
    ("a co-name of terms", [terms("", "01"), "B000014100"], "B1001041", "07030000"),
    ("a name on a side", [terms("", "01"), "B00002010100014100"], "B100121041", "07030000"),
    ("a name under a restriction of another", [terms("", "01"), "B0000402010100"], "B10016021001", "07030000"),
    ("a meeting is silent", [terms("", "01"), "B00002010100014100"], "B1001310011041", "00020000"),
    ("a masked step of terms that is not possible", [terms("", "01"), "B00000"], "B1001001", "07030000"),
    ("an improper step precedes the mask", [terms("", "01"), "B000010100"], "B10016011001", "05040000"),
    ("a string that is no proof precedes the mask", [terms("", "01"), "B000010100"], "B100100100", "05040002"),
    (
        "the mask precedes a state too long",
        [terms("", "01", [LONG_BODY]), "B000020500010100"],
        "B100111001",
        "07030000",
    ),
    (
        "a state too long, where another name is masked",
        [terms("", "02", [LONG_BODY]), "B000020500010100"],
        "B100111001",
        "08040101",
    ),
]

RENAMING_CASES: list[Case] = [
    ("a name and its co-name", [net("0102"), *RELEASED], "B700", "0002" + C0 + " 0200 4201 " + C0),
    ("another name", [net("0203"), *RELEASED], "B700", "0002" + C0 + " 0100 4101 " + C0),
    ("to the last name", [net("013F"), *RELEASED], "B700", "0002" + C0 + " 3F00 7F01 " + C0),
    ("a name to itself", [net("0101"), *RELEASED], "B700", "0002" + C0 + " 0100 4101 " + C0),
    ("pairs do not chain", [net("0102 0203"), *RELEASED], "B700", "0002" + C0 + " 0200 4201 " + C0),
    ("nor in the other order", [net("0203 0102"), *RELEASED], "B700", "0002" + C0 + " 0200 4201 " + C0),
    (
        "two names for each other",
        [net("0102 0201", "", [TO, "42" + C1 + C0]), *RELEASED],
        "B700",
        "0002" + C0 + " 0200 4101 " + C0,
    ),
    (
        "two names become one",
        [net("0103 0203", "", [TO, "42" + C1 + C0]), *RELEASED],
        "B700",
        "0002" + C0 + " 0300 4301 " + C0,
    ),
    (
        "the silent label stays",
        [net("0102", "", SILENT_TOO), OPEN, "B10002", "B500"],
        "B700",
        "0001" + C0 + " 0002 " + C1,
    ),
    (
        "labels are those of the present renaming",
        [net("0102"), *RELEASED, net("0103")],
        "B700",
        "0002" + C0 + " 0300 4301 " + C0,
    ),
    ("not possible", [net("0102"), OPEN], "B10001", "06040000"),
    ("no event", [net("0102"), OPEN], "B10002", "05040000"),
    ("the mask sees the new name", [net("0102", "02"), OPEN], "B10000", "07030000"),
    ("the mask does not see the old name", [net("0102", "01"), OPEN], "B10000", "00" + C1),
    ("the mask sees a name that pairs have looked up once", [net("0102 0203", "03"), OPEN], "B10000", "00" + C1),
    ("and sees it as a co-name", [net("0102", "02"), "B000" + C1], "B10001", "07030000"),
    (
        "a restriction sees the terms' own label",
        [terms("0102"), "B0000402010100"],
        "B10016021001",
        "00040200",
    ),
    ("a restriction of the old name", [terms("0102"), "B0000401010100"], "B10016011001", "05040000"),
    (
        "a label that is restricted where it is shown",
        [terms("0102"), "B0000402010100", "B10016021001", "B500"],
        "B700",
        "00010402010100 0216021001 040200",
    ),
    ("a meeting of the terms' own labels", [terms("0102"), "B00002010100014100"], "B1001310011041", "00020000"),
    ("a meeting only of shown labels", [terms("0301"), "B00002010300014100"], "B1001310031041", "05040000"),
    ("a prefix has the term's own action", [terms("0102"), "B000010100"], "B1001002", "06040000"),
]

# A join of two sheets that have gone on with one branch of a choice.
CHOICE = "0301030002010100010200"
CHOICE_SESSION = [
    "A001000000",
    "B000" + CHOICE,
    "B10015111001",
    "B001" + CHOICE,
    "B10115121002",
    "B40001",
    "B500",
    "B700",
]
MASKED_02 = "A00100010200"

REPLAY_CASES: list[Case] = [
    ("the setup is accepted", CHOICE_SESSION, MASKED_02, "00"),
    ("the refusal of the mask, whole", [*CHOICE_SESSION, MASKED_02], "B301", "1002000107030000"),
    ("behind a step that is not masked", [*CHOICE_SESSION, MASKED_02], "B700", "1002000207030000"),
    ("a mask that hides nothing of the sheet", [*CHOICE_SESSION, "A00100010300"], "B301", "00" + CHOICE),
    ("a name renamed into a masked one", [*CHOICE_SESSION, terms("0205", "05")], "B301", "1002000107030000"),
    ("a name renamed away from a masked one", [*CHOICE_SESSION, terms("0205", "02")], "B301", "00" + CHOICE),
    ("add", [TO_AND_BACK, *RUN, net("", "01")], "B10000", "1002000107030000"),
    ("add of no step", [TO_AND_BACK, *RUN, net("", "01")], "B100", "1002000107030000"),
    ("swap", [TO_AND_BACK, *RUN, net("", "01")], "B20001", "1002000107030000"),
    ("swap of step 0", [TO_AND_BACK, *RUN, net("", "01")], "B20000", "1002000107030000"),
    ("withdraw", [TO_AND_BACK, *RUN, net("", "01")], "B300", "1002000107030000"),
    ("release", [TO_AND_BACK, *RUN, net("", "01")], "B500", "1002000107030000"),
    ("reopen", [TO_AND_BACK, *RELEASED, net("", "01")], "B600", "1002000107030000"),
    ("print", [TO_AND_BACK, *RELEASED, net("", "01")], "B700", "1002000107030000"),
    ("look", [TO_AND_BACK, *RUN, net("", "01")], "B90000", "1002000107030000"),
    ("look past the length", [TO_AND_BACK, *RUN, net("", "01")], "B900FF", "1002000107030000"),
    ("join into", [TO_AND_BACK, *RUN, "B001" + C0, net("", "01")], "B40001", "1002000107030000"),
    ("join of", [TO_AND_BACK, *RUN, "B001" + C0, net("", "01")], "B40100", "1002000107030000"),
    ("open tests no replay", [TO_AND_BACK, *RUN, net("", "01")], OPEN, "00"),
    ("no mask again", [TO_AND_BACK, *RUN, net("", "01"), "B300", TO_AND_BACK], "B300", "00" + C1),
    (
        "a masked step of the first sheet precedes one of the second that is no event",
        [net("", "", SILENT_TOO), *RUN, "B001" + C0, "B10102", net("", "01")],
        "B40001",
        "1002000107030000",
    ),
    (
        "a step that is no event of the first sheet precedes a masked one of the second",
        [net("", "", SILENT_TOO), *RUN, "B001" + C0, "B10102", net("", "01")],
        "B40100",
        "1002000105040000",
    ),
    (
        "a masked step precedes a later one that is no event",
        [net("", "", [*SILENT_TOO, "05" + C1 + C0]), OPEN, "B10000", "B10003", net("", "01")],
        "B300",
        "1002000107030000",
    ),
    (
        "a step that is no event precedes a later masked one",
        [net("", "", SILENT_TOO), OPEN, "B10002", "B10001", net("", "01")],
        "B300",
        "1002000105040000",
    ),
    (
        "a masked step that would not be possible",
        [TO_AND_BACK, *RUN, net("", "01", ["01" + C1 + C0, BACK])],
        "B300",
        "1002000107030000",
    ),
    (
        "a masked step of terms that would lead to a state too long",
        [terms("", "", ["03010100"]), "B000020500010100", "B100111001", terms("", "01", [LONG_BODY])],
        "B300",
        "1002000107030000",
    ),
    ("a start that is no state precedes the mask", [TO_AND_BACK, *RUN, terms("", "01")], "B300", "1002000004040001"),
]

LOOK_CASES: list[Case] = [
    ("no number of a sheet", [], "B9", "01010001"),
    ("no number of steps", [], "B900", "01010002"),
    ("no number of steps of no sheet", [], "B904", "01010002"),
    ("an extra byte", [], "B9000000", "01010003"),
    ("an extra byte of no sheet", [], "B9FF0000", "01010003"),
    ("no such sheet", [], "B90400", "03020001"),
    ("a blank sheet", [], "B90000", "03020001"),
    ("0 steps", [TO_AND_BACK, *RUN], "B90000", "00" + C0),
    ("1 step", [TO_AND_BACK, *RUN], "B90001", "00" + C1),
    ("all steps", [TO_AND_BACK, *RUN], "B90002", "00" + C0),
    ("one more", [TO_AND_BACK, *RUN], "B90003", "0A020003"),
    ("255 steps", [TO_AND_BACK, *RUN], "B900FF", "0A0200FF"),
    ("0 of no steps", [TO_AND_BACK, "B000" + C01], "B90000", "00" + C01),
    ("1 of no steps", [TO_AND_BACK, "B000" + C01], "B90001", "0A020001"),
    ("a released sheet", [TO_AND_BACK, *RELEASED], "B90001", "00" + C1),
    ("past a released sheet", [TO_AND_BACK, *RELEASED], "B90003", "0A020003"),
    ("32 steps", [TO_AND_BACK, OPEN, *16 * ["B10000", "B10001"]], "B90020", "00" + C0),
    ("33 steps", [TO_AND_BACK, OPEN, *16 * ["B10000", "B10001"]], "B90021", "0A020021"),
    ("a step that was withdrawn", [TO_AND_BACK, *RUN, "B300"], "B90002", "0A020002"),
    ("a step past the end leaves the steps", [TO_AND_BACK, *RUN, "B900FF"], "B300", "00" + C1),
    ("a look leaves the steps", [TO_AND_BACK, *RUN, "B90000"], "B300", "00" + C1),
    ("a look leaves a released sheet", [TO_AND_BACK, *RELEASED, "B90000"], "B700", "0002" + C0 + " 0100 4101 " + C0),
    ("the whole sheet is replayed", [TO_AND_BACK, *RUN, net("", "", [TO])], "B90000", "1002000205040000"),
    ("its start too", [TO_AND_BACK, OPEN, "A001000000"], "B90000", "1002000004040001"),
    ("a replay precedes the number", [TO_AND_BACK, *RUN, net("", "", [TO])], "B900FF", "1002000205040000"),
    ("another system, other states", [TO_AND_BACK, *RUN, net("0102", "01")], "B90001", "00" + C1),
    ("terms before a step", [*CHOICE_SESSION], "B90000", "00" + CHOICE),
    ("terms between steps", [*CHOICE_SESSION], "B90001", "000200010200"),
    ("terms after all steps", [*CHOICE_SESSION], "B90002", "00020000"),
]


class CasesTest(CaseTest):
    def test_setups(self) -> None:
        self.check(SETUP_CASES)

    def test_masks(self) -> None:
        self.check(MASK_CASES)

    def test_renamings(self) -> None:
        self.check(RENAMING_CASES)

    def test_replays(self) -> None:
        self.check(REPLAY_CASES)

    def test_looks(self) -> None:
        self.check(LOOK_CASES)


# Questions in byte strings


def told(question: Callable[..., Any], *given: Any) -> Any:
    """The answer to a question, or the bytes of its refusal in hexadecimal."""
    try:
        return question(*given)
    except Refusal as refusal:
        return refusal.encode().hex().upper()


NO_STEP, MASKED = "05040000", "07030000"


class QuestionsTest(unittest.TestCase):
    """Refusals of questions in their order: 5, 7, 4, 6, 8, 12, and 5 of both steps before 7 of either."""

    # Events 0 and 1 are masked, 2 and 3 are not; 0 and 1 are independent of each other, and so are 2 and 3.
    moves = [(1, 0, 1), (2, 2, 3), (3, 0, 1), (4, 2, 3)]
    net = Mask(Net([Event(name, frozenset([before]), frozenset([after])) for name, before, after in moves]), [1, 2])
    terms = Mask(Terms(), [1])
    none, first, second, third, fourth = (bytes([number]) for number in (9, 0, 1, 2, 3))
    two_step_questions = (questions.independent, questions.residual, questions.back)

    def test_one_step(self) -> None:
        for step, refusal in ((self.none, NO_STEP), (self.first, MASKED), (b"\x00\x00", "05040001")):
            self.assertEqual(told(questions.label, self.net, step), refusal)
            for state in (bytes(8), bytes(7), encode_set([0])):
                self.assertEqual(told(questions.next_state, self.net, state, step), refusal)

    def test_states(self) -> None:
        self.assertEqual(told(questions.next_state, self.net, bytes(7), self.third), "04040007")
        self.assertEqual(told(questions.next_state, self.net, bytes(8), self.third), "06040000")
        self.assertEqual(told(questions.next_state, self.net, encode_set([0]), self.third), encode_set([1]))

    def test_two_steps(self) -> None:
        for question in self.two_step_questions:
            for one, other, refusal in (
                (self.none, self.first, NO_STEP),
                (self.first, self.none, NO_STEP),
                (self.first, b"\x02\x00", "05040001"),
                (self.none, b"\x02\x00", NO_STEP),
                (b"\x02\x00", self.none, "05040001"),
                (self.first, self.second, MASKED),
                (self.first, self.fourth, MASKED),
                (self.third, self.second, MASKED),
            ):
                with self.subTest(question=question.__name__, one=one, other=other):
                    self.assertEqual(told(question, self.net, one, other), refusal)

    def test_answers(self) -> None:
        self.assertTrue(questions.independent(self.net, self.third, self.fourth))
        self.assertEqual(questions.residual(self.net, self.third, self.fourth), self.third)
        self.assertEqual(questions.back(self.net, self.third, self.fourth), self.fourth)
        self.assertFalse(questions.independent(self.net, self.third, self.third))
        self.assertIsNone(questions.residual(self.net, self.third, self.third))
        self.assertIsNone(questions.back(self.net, self.third, self.third))

    def test_terms(self) -> None:
        """An improper second step precedes a masked first one, and a masked step an answer too long."""
        masked, improper = bytes.fromhex("111001"), bytes.fromhex("1216021002")
        deep = bytes([0x15] * 61) + bytes.fromhex("111002")
        long = b"\x12" + bytes([0x15] * 60) + bytes.fromhex("1002")
        for question in self.two_step_questions:
            self.assertEqual(told(question, self.terms, masked, improper), "05040001")
            self.assertEqual(told(question, self.terms, improper, masked), "05040001")
            self.assertEqual(told(question, self.terms, masked, b"\x12\x10\x02"), MASKED)
        self.assertEqual(told(questions.back, self.terms, deep, long), "0C04007C")
        self.assertEqual(told(questions.back, self.terms, deep, long[:-1] + b"\x01"), MASKED)


# Laws


def possible(question: Callable[..., Any], *given: Any) -> Any:
    """The answer to a question; None where it is refused."""
    try:
        return question(*given)
    except Refusal:
        return None


class LawsTest(unittest.TestCase):
    """What a layer shows of a system, and the laws of step systems under layers, on small terms and nets."""

    proofs = [proof.encoded for proof in flat(all_proofs([0x00, 0x01, 0x41, 0x02], [1], 3))]
    layers: list[tuple[dict[int, int], list[int]]] = [
        ({}, [1]),
        ({1: 2}, [2]),
        ({1: 2, 2: 1}, [1]),
        ({1: 3, 2: 3}, []),
        ({1: 2, 2: 3}, [3, 3, 4]),
        ({}, []),
    ]

    def systems(self) -> Iterator[tuple[System[Any, Any], list[bytes], dict[int, int], list[int]]]:
        """Systems with their steps, and layers for them."""
        events, _ = small_net(Random(1))
        named = Net([Event((0, 1, 2, 65, 66)[i % 5], e.before, e.after) for i, e in enumerate(events.events)])
        numbers = [bytes([number]) for number in range(len(named.events) + 1)]
        for pairs, masked in self.layers:
            yield Terms(), self.proofs, pairs, masked
            yield named, numbers, pairs, masked

    def test_names(self) -> None:
        """An action is silent, a name, or a co-name, which has the name that it is called after."""
        names = list(range(0x01, 0x40))
        self.assertEqual([byte for byte in range(256) if is_name(byte)], names)
        self.assertEqual([byte for byte in range(256) if is_action(byte)], [SILENT, *names, *(CO + n for n in names)])
        self.assertIsNone(name_of(SILENT))
        for name in names:
            self.assertEqual((name_of(name), name_of(CO + name)), (name, name))

    def test_renaming(self) -> None:
        """A renaming refuses what its system refuses, and changes labels only, as the pairs say."""
        for system, steps, pairs, _ in self.systems():
            renaming = Renaming(system, pairs)
            table = {SILENT: SILENT}
            for name in range(0x01, 0x40):
                table[name] = pairs.get(name, name)
                table[CO + name] = CO + table[name]
            for step in steps:
                own = told(questions.label, system, step)
                self.assertEqual(told(questions.label, renaming, step), table[own] if isinstance(own, int) else own)
            self.check_same(system, renaming, steps)

    def test_mask(self) -> None:
        """A mask refuses the steps with its names, and all else is as in its system."""
        for system, steps, _, masked in self.systems():
            mask = Mask(system, masked)
            hidden = {name + co for name in masked for co in (0, CO)}
            shown = []
            for step in steps:
                own = told(questions.label, system, step)
                self.assertEqual(told(questions.label, mask, step), MASKED if own in hidden else own)
                if own not in hidden:
                    shown.append(step)
            self.check_same(system, mask, shown)

    def check_same(self, system: System[Any, Any], layer: System[Any, Any], steps: list[bytes]) -> None:
        """The layer answers all questions but that for labels as its system does."""
        random = Random(len(steps))
        states = [term.encoded for term in flat(all_terms([0x01, 0x41], [1], 4))]
        states += [encode_set(random.sample(range(9), 3)) for _ in range(50)]
        for _ in range(800):
            one, other, state = random.choice(steps), random.choice(steps), random.choice(states)
            for question in QuestionsTest.two_step_questions:
                self.assertEqual(told(question, layer, one, other), told(question, system, one, other))
            given = (state, one)
            self.assertEqual(told(questions.next_state, layer, *given), told(questions.next_state, system, *given))

    def test_pairs(self) -> None:
        """Independence is symmetric; what is left is a step with the label and no longer; back undoes it."""
        for system, steps, pairs, masked in self.systems():
            layer = layered(system, pairs, masked)
            shown = [step for step in steps if possible(questions.label, layer, step) is not None]
            for one, other in product(shown, repeat=2):
                left = questions.residual(layer, one, other)
                self.assertEqual(left is None, questions.residual(layer, other, one) is None)
                if left is not None:
                    self.assertNotEqual(one, other)
                    self.assertEqual(questions.label(layer, left), questions.label(layer, one))
                    self.assertLessEqual(len(left), len(one))
                    self.assertEqual(questions.back(layer, other, left), one)
                origin = possible(questions.back, layer, one, other)
                if origin is not None:
                    self.assertEqual(questions.residual(layer, origin, one), other)

    def test_diamonds(self) -> None:
        """Two independent steps that are shown can follow each other either way, with one end."""
        found = hidden = 0
        for seed in range(300):
            random = Random(seed)
            terms, term = random_terms(random, random.randrange(8, 14))
            layer = layered(terms, *random.choice(self.layers))
            steps = [proof.encoded for proof in possible_proofs(terms, term)]
            shown = [step for step in steps if possible(questions.label, layer, step) is not None]
            hidden += len(steps) - len(shown)
            for one, other in product(shown, repeat=2):
                left = questions.residual(layer, one, other)
                if left is not None:
                    ends = {self.end(layer, term.encoded, one, questions.residual(layer, other, one))}
                    ends.add(self.end(layer, term.encoded, other, left))
                    self.assertEqual(len(ends), 1)
                    found += 1
        self.assertGreater(found, 100)
        self.assertGreater(hidden, 100)

    def end(self, system: System[Any, Any], state: bytes, *steps: bytes) -> bytes:
        for step in steps:
            state = questions.next_state(system, state, step)
        return state


if __name__ == "__main__":
    unittest.main()
