#!/usr/bin/env python3
"""Cases of terms worked out by hand, and the laws of terms tried on all small terms and proofs."""

from __future__ import annotations

import unittest
from collections.abc import Iterator
from itertools import product
from random import Random

from bruteforce import possible_proofs
from cases import Case, CaseTest
from nets import Event, Net, decode_set, encode_set
from systems import Number, Refusal
from terms import (
    Act,
    Both,
    Call,
    ChooseLeft,
    ChooseRight,
    Misfit,
    Nil,
    OnLeft,
    OnRight,
    Parallel,
    Prefix,
    Proof,
    Restriction,
    Sum,
    Term,
    Terms,
    Under,
    before,
    decode_body,
    decode_proof,
    decode_term,
    is_improper,
    label,
    left_after,
)

NO_DEFINITIONS = "A001000000"


def setup(*bodies: str) -> str:
    """The setup with these bodies."""
    parts = [f"{len(body) // 2:02X}" + body for body in (body.replace(" ", "") for body in bodies)]
    return f"A0010000{len(parts):02X}" + "".join(parts)


# Definition 0 shows 01 again and again.
LOOP = setup("0101 0500")
# Definition 0 has any number of 01 side by side, and shows one of them.
CROWD = setup("02 010100 0500")
# The longest body: it shows 01 and becomes a term of 253 bytes.
LONG = setup(127 * "0101" + "00")

SETUP_CASES: list[Case] = [
    ("no definitions", [], NO_DEFINITIONS, "00"),
    ("a definition", [], "A0010000010100", "00"),
    ("the kind alone", [], "A001", "01010002"),
    ("missing count of masked names", [], "A00100", "01010003"),
    ("missing count of definitions", [], "A0010000", "01010004"),
    ("missing length of a body", [], "A0010000020100", "01010007"),
    ("missing bytes of a body", [], "A001000001050101", "01010008"),
    ("missing bytes precede a fault in the body", [], "A001000001050140", "01010008"),
    ("extra byte", [], "A001000001010000", "01010007"),
    ("an extra byte precedes a fault in the body", [], "A001000001010500", "01010007"),
    ("16 definitions", [], "A001000010" + 16 * "0100", "00"),
    ("17 definitions", [], "A001000011" + 17 * "0100", "02010004"),
    ("255 definitions", [], "A0010000FF" + 255 * "0100", "02010004"),
    ("17 definitions precede a fault in a body", [], "A001000011" + 17 * "0105", "02010004"),
    ("missing bytes precede 17 definitions", [], "A001000011" + 16 * "0100", "01010025"),
    ("a body that begins with a call", [], setup("0500"), "02010006"),
    ("a body that is half a call", [], setup("05"), "02010006"),
    ("a second body that begins with a call", [], setup("00", "0500"), "02010008"),
    ("an empty body", [], setup(""), "02010006"),
    ("an empty body before another", [], setup("", "00"), "02010006"),
    ("a body that ends too early", [], setup("0101"), "02010008"),
    ("a body that ends too early before another", [], setup("020000", "02 00", "00"), "0201000C"),
    ("a body that ends in a call", [], setup("0101 05"), "02010009"),
    ("a body that goes on too long", [], setup("0000"), "02010007"),
    ("a body that is no term", [], setup("06"), "02010006"),
    ("an action that is none in a body", [], setup("014000"), "02010007"),
    ("a co-name kept in a body", [], setup("044100"), "02010007"),
    ("the silent action kept in a body", [], setup("040000"), "02010007"),
    ("a call of no definition", [], setup("0101 0501"), "02010009"),
    ("a call of no definition in the last of two", [], setup("0101 0501", "0101 0502"), "0201000E"),
    ("the first of two faults", [], setup("014000", "0500"), "02010007"),
    ("definitions that call each other", [], setup("0101 0501", "0102 0500"), "00"),
    ("definitions that call themselves unguarded", [], setup("02 0500 0500"), "00"),
    ("the longest body", [], LONG, "00"),
    ("definitions up to the longest frame", [], setup(*3 * [127 * "0101" + "00"], 124 * "0101" + "0500"), "00"),
    ("a refused setup leaves the system", [LOOP, "B0000500", setup("0500")], "B1001001", "000500"),
    ("a net after terms", ["B00000", "A002000000"], "B500", "1002000004040001"),
    ("terms after a net", ["A002000000", "B000" + 16 * "0", NO_DEFINITIONS], "B500", "1002000004040001"),
]

STATE_CASES: list[Case] = [
    ("nil before a setup", [], "B00000", "00"),
    ("no bytes", [], "B000", "04040000"),
    ("no term", [], "B00006", "04040000"),
    ("a prefix of nothing", [], "B00001", "04040001"),
    ("a prefix of no action", [], "B000014000", "04040001"),
    ("a prefix of another action that is none", [], "B000018000", "04040001"),
    ("a prefix and no term", [], "B000017F", "04040002"),
    ("a parallel term and its first part", [], "B0000200", "04040002"),
    ("a sum and its first part", [], "B00003010100", "04040004"),
    ("the silent action kept", [], "B000040000", "04040001"),
    ("a co-name kept", [], "B000044100", "04040001"),
    ("a name kept", [], "B000043F00", "00"),
    ("more than a term", [], "B0000000", "04040001"),
    ("a call without definitions", [], "B0000500", "04040000"),
    ("half a call without definitions", [], "B00005", "04040000"),
    ("a call without definitions behind a prefix", [], "B00001010500", "04040002"),
    ("a call", [LOOP], "B0000500", "00"),
    ("half a call", [LOOP], "B00005", "04040001"),
    ("a call of no definition", [LOOP], "B0000501", "04040001"),
    ("more than a call", [LOOP], "B000050000", "04040002"),
    ("255 bytes", [], "B000" + 127 * "0101" + "00", "00"),
    ("256 bytes", [LOOP], "B000" + 127 * "0101" + "0500", "00"),
    ("257 bytes", [], "B000" + 128 * "0101" + "00", "04040100"),
    ("256 bytes that begin a term", [], "B000" + 256 * "02", "04040100"),
    ("300 bytes that begin a term", [], "B000" + 300 * "02", "04040100"),
    ("the longest frame that begins a term", [], "B000" + 1022 * "02", "04040100"),
    ("a term of 256 bytes and one more", [LOOP], "B000" + 127 * "0101" + "050000", "04040100"),
    ("a term of 255 bytes and one more", [], "B000" + 127 * "0101" + "0000", "040400FF"),
    ("a fault in the last byte before the limit", [], "B000" + 127 * "0101" + "01" + "40" + 99 * "00", "040400FF"),
    ("a fault in the first byte past the limit", [], "B000" + 128 * "0101" + "06", "04040100"),
    ("half a call before the limit", [LOOP], "B000" + 126 * "0101" + "02020005", "04040100"),
    ("a call across the limit", [LOOP], "B000" + 126 * "0101" + "0202000500", "04040100"),
    ("a call of no definition across the limit", [LOOP], "B000" + 126 * "0101" + "0202000505", "04040100"),
    ("a call of no definition before the limit", [LOOP], "B000" + 126 * "0101" + "0200050500", "040400FF"),
    ("a call without definitions before the limit", [], "B000" + 126 * "0101" + "0202000500", "040400FF"),
]

OPEN = ["B000010100"]

STEP_CASES: list[Case] = [
    ("no bytes", OPEN, "B100", "05040000"),
    ("no proof", OPEN, "B1000F", "05040000"),
    ("no proof, above the last", OPEN, "B10017", "05040000"),
    ("an act of nothing", OPEN, "B10010", "05040001"),
    ("an act of no action", OPEN, "B1001040", "05040001"),
    ("a side and nothing", OPEN, "B10011", "05040001"),
    ("a restriction of the silent action", OPEN, "B100160010", "05040001"),
    ("a restriction of a co-name", OPEN, "B10016411001", "05040001"),
    ("a meeting with its first part", OPEN, "B100131001", "05040003"),
    ("more than a proof", OPEN, "B100100100", "05040002"),
    ("64 bytes", OPEN, "B100" + 62 * "11" + "1001", "06040000"),
    ("65 bytes", OPEN, "B100" + 63 * "11" + "1001", "05040040"),
    ("64 bytes that begin a proof", OPEN, "B100" + 64 * "11", "05040040"),
    ("the longest frame that begins a proof", OPEN, "B100" + 1022 * "11", "05040040"),
    ("a proof of 64 bytes and one more", OPEN, "B100" + 62 * "11" + "100100", "05040040"),
    ("a proof of 63 bytes and one more", OPEN, "B100" + 61 * "11" + "100100", "0504003F"),
    ("a fault in the last byte before the limit", OPEN, "B100" + 63 * "11" + "17" + "11", "0504003F"),
    ("a fault before the limit in a long string", OPEN, "B100111117" + 99 * "11", "05040002"),
    ("a fault precedes an improper node", OPEN, "B10016011001FF", "05040004"),
    ("the limit precedes an improper node", OPEN, "B1001601" + 61 * "11" + "1001", "05040040"),
    ("an improper proof of 64 bytes", OPEN, "B1001601" + 60 * "11" + "1001", "05040000"),
    ("a name kept by its restriction", OPEN, "B10016011001", "05040000"),
    ("a co-name kept by its restriction", OPEN, "B10016011041", "05040000"),
    ("another name under a restriction", OPEN, "B10016021001", "06040000"),
    ("the silent action under a restriction", OPEN, "B10016011000", "06040000"),
    ("a meeting of a name and another", OPEN, "B1001310011002", "05040000"),
    ("a meeting of a name and itself", OPEN, "B1001310011001", "05040000"),
    ("a meeting of silent actions", OPEN, "B1001310001000", "05040000"),
    ("a meeting of a name and another's co-name", OPEN, "B1001310011042", "05040000"),
    ("a meeting of a co-name and its name", OPEN, "B1001310411001", "06040000"),
    ("an improper meeting is silent", OPEN, "B100160113" + "10011001", "05040002"),
    ("a meeting shows nothing to another", OPEN, "B1001313100110411001", "05040000"),
    ("an improper part of a proper meeting, the second", OPEN, "B100131001" + "16011041", "05040003"),
    ("an improper part behind a longer one", OPEN, "B10013111110011516011041", "05040006"),
    ("the first of two improper parts", OPEN, "B10013160110011601" + "1041", "05040001"),
    ("the outer of two improper nodes", OPEN, "B100160116011001", "05040000"),
    ("an improper node under a proper one", OPEN, "B100160216011001", "05040002"),
    ("an improper node in a choice on a side", OPEN, "B1001114151216031043", "05040004"),
    ("an improper step precedes one that is not possible", OPEN, "B10012" + "16011001", "05040001"),
    ("a full sheet precedes a wrong step", [LOOP, "B0000500"] + 32 * ["B1001001"], "B100", "09020020"),
]

NEXT_CASES: list[Case] = [
    ("a prefix", OPEN, "B1001001", "0000"),
    ("another action", OPEN, "B1001002", "06040000"),
    ("the co-name", OPEN, "B1001041", "06040000"),
    ("nil does nothing", ["B00000"], "B1001001", "06040000"),
    ("the left side", ["B00002010100014100"], "B100111001", "000200014100"),
    ("the right side", ["B00002010100014100"], "B100121041", "000201010000"),
    ("both sides", ["B00002010100014100"], "B1001310011041", "00020000"),
    ("no step of the left side", ["B00002010100014100"], "B100111041", "06040001"),
    ("no step of the right side in a meeting", ["B00002010100014100"], "B1001310031043", "06040001"),
    ("only the right part of a meeting does not fit", ["B00002010100010200"], "B1001310011041", "06040003"),
    ("a meeting in a sum", ["B00003010100014100"], "B1001310011041", "06040000"),
    ("the left choice", ["B00003010100014100"], "B100141001", "0000"),
    ("the right choice", ["B00003010100010200"], "B100151002", "0000"),
    ("a choice in a parallel term", ["B00002010100014100"], "B100141001", "06040000"),
    ("a choice drops the other branch", ["B0000301030002010100010200"], "B10015111001", "000200010200"),
    ("a restriction stays", ["B000040202010100010200"], "B1001602111001", "000402020001" + "0200"),
    ("a restriction of another name", ["B0000402010100"], "B10016031001", "06040000"),
    ("a step without the restriction", ["B0000402010100"], "B1001001", "06040000"),
    ("a meeting under a restriction", ["B000040102010100014100"], "B10016011310011041", "000401020000"),
    ("the node under a restriction is told", ["B000040102010100014100"], "B10016011310021042", "06040003"),
    ("a call", [LOOP, "B0000500"], "B1001001", "000500"),
    ("a call that does not move", [LOOP, "B0000205000500"], "B100111001", "000205000500"),
    ("a node that does not fit a body", [LOOP, "B0000500"], "B1001002", "06040000"),
    (
        "a body that calls itself unguarded",
        [CROWD, "B0000500"],
        "B100121211" + "1001",
        "000201010002010100020005" + "00",
    ),
    (
        "definitions that call each other",
        [setup("03 010100 0501", "02 0102 0500 0500"), "B0000500"],
        "B1001512151110" + "02",
        "0002" + "0102" + "0500" + "02" + "0500" + "0500",
    ),
    (
        "a body that only calls itself does nothing",
        [setup("03 0500 0500"), "B0000500"],
        "B100" + 62 * "15" + "1001",
        "0604003E",
    ),
    ("256 bytes follow", [LONG, "B0000205000500"], "B100111001", "0002" + 126 * "0101" + "00" + "0500"),
    ("257 bytes follow", [LONG, "B000020500010100"], "B100111001", "08040101"),
    ("507 bytes follow", [LONG, "B0000205000500", "B100111001"], "B100121001", "080401FB"),
    ("a state too long leaves the sheet", [LONG, "B000020500010100", "B100111001"], "B300", "0A020000"),
    (
        "each part unfolds its own body",
        [setup("02 0500 0101" + 120 * "0102" + "00"), "B0000500"],
        "B100" + 61 * "11" + "121001",
        f"0804{61 * 244 + 1 + 2 + 241:04X}",
    ),
]

REPLAY_CASES: list[Case] = [
    ("the start calls no definition now", [LOOP, "B0000500", NO_DEFINITIONS], "B500", "1002000004040000"),
    ("the start calls another definition", [LOOP, "B0000500", "B1001001", setup("010200")], "B500", "1002000106040000"),
    (
        "the second step is not possible now",
        [LOOP, "B0000500", "B1001001", "B1001001", setup("010100")],
        "B300",
        "1002000206040000",
    ),
    ("a state is too long now", [LOOP, "B000020500010100", "B100111001", LONG], "B300", "1002000108040101"),
    (
        "a net's start that is a term, and its step, which is no proof",
        ["A00200000100" + "01" * 6 + "0500" + "0000000000000002", "B000" + "01" * 6 + "0500", "B10000", LOOP],
        "B500",
        "1002000105040000",
    ),
]


def behind_choices(first: int, second: int) -> list[str]:
    """Two sides behind so many choices, the second side behind more; a step of the one, then one of the other."""
    start = first * "0300" + "02010100" + second * "0300" + "010200"
    return ["B000" + start, "B100" + first * "15" + "111001", "B10012" + second * "15" + "1002"]


SWAP_CASES: list[Case] = [
    ("two sides", ["B00002010100010200", "B100111001", "B100121002"], "B20001", "00"),
    ("a choice is put back", ["B0000301030002010100010200", "B10015111001", "B100121002"], "B20001", "00"),
    (
        "what a swap in a choice leaves",
        ["B0000301030002010100010200", "B10015111001", "B100121002", "B20001", "B500"],
        "B700",
        "00020301030002010100010200 0215121002 01111001 020000",
    ),
    ("one after the other", ["B00001010102" + "00", "B1001001", "B1001002"], "B20001", "0B020001"),
    (
        "a meeting and what it leads to",
        ["B0000201010103000141" + "00", "B1001310011041", "B100111003"],
        "B20001",
        "0B020001",
    ),
    (
        "a meeting and a step beside its end",
        ["B00002020101000102000141" + "00", "B1001311" + "10011041", "B10011121002"],
        "B20001",
        "00",
    ),
    ("64 bytes of an answer", behind_choices(41, 20), "B20001", "00"),
    ("65 bytes of an answer", behind_choices(42, 20), "B20001", "0C040041"),
    ("the longest answer in a state without calls", behind_choices(61, 60), "B20001", "0C04007C"),
    (
        "an answer too long leaves the steps",
        [*behind_choices(42, 20), "B20001"],
        "B300",
        "000200" + 20 * "0300" + "010200",
    ),
    (
        "a long state on the way",
        [LONG, "B0000203010100" + 20 * "0102" + "000500", "B10011141001", "B100121001"],
        "B20001",
        f"0804{1 + 4 + 41 + 253:04X}",
    ),
    (
        "a step too long precedes a long state",
        [
            setup(20 * "0300" + "0102" + 65 * "0103" + "00"),
            "B000" + 42 * "0300" + "0203010400" + 62 * "0103" + "00" + "0500",
            "B100" + 42 * "15" + "11141004",
            "B10012" + 20 * "15" + "1002",
        ],
        "B20001",
        "0C040041",
    ),
    (
        "a long state behind 41 choices, where the step is not too long",
        [
            setup(20 * "0300" + "0102" + 65 * "0103" + "00"),
            "B000" + 41 * "0300" + "0203010400" + 62 * "0103" + "00" + "0500",
            "B100" + 41 * "15" + "11141004",
            "B10012" + 20 * "15" + "1002",
        ],
        "B20001",
        f"0804{1 + 1 + 3 + 125 + 131:04X}",
    ),
    (
        "a swap refused for a long state leaves the steps",
        [LONG, "B0000203010100" + 20 * "0102" + "000500", "B10011141001", "B100121001", "B20001"],
        "B300",
        "0002000500",
    ),
]

JOIN_CASES: list[Case] = [
    (
        "nothing shared in a choice",
        ["B0000301030002010100010200", "B10015111001", "B0010301030002010100010200", "B10115121002"],
        "B40001",
        "000200",
    ),
    (
        "the joined sheet drops the choice",
        ["B0000301030002010100010200", "B10015111001", "B0010301030002010100010200", "B10115121002", "B40001", "B500"],
        "B700",
        "00020301030002010100010200 0115111001 02121002 020000",
    ),
    (
        "different choices",
        ["B00003010100010200", "B100141001", "B00103010100010200", "B101151002"],
        "B40001",
        "0E020001",
    ),
    (
        "equal labels are not the same step",
        ["B00003010100010100", "B100141001", "B00103010100010100", "B101151001"],
        "B40001",
        "0E020001",
    ),
    (
        "a meeting and one of its ends",
        ["B00002010100014100", "B1001310011041", "B00102010100014100", "B101111001"],
        "B40001",
        "0E020001",
    ),
    ("starts that mean the same", [setup("010100"), "B0000500", "B001010100"], "B40001", "0D020000"),
    (
        "a state too long",
        [setup("0101" + 90 * "0102" + "00"), "B0000205000500", "B100111001", "B0010205000500", "B101121001"],
        "B40001",
        f"0804{1 + 2 * 181:04X}",
    ),
    (
        "a join refused for a long state leaves the steps",
        [setup("0101" + 90 * "0102" + "00"), "B0000205000500", "B100111001", "B0010205000500", "B101121001", "B40001"],
        "B300",
        "000205000500",
    ),
    (
        "a state too long before the end, which is not",
        [
            setup("0101" + 90 * "0102" + "00", "0101 03" + 90 * "0102" + "00 010300"),
            "B0000205000501",
            "B100111001",
            "B0010205000501",
            "B101121001",
            "B10112151003",
        ],
        "B40001",
        f"0804{1 + 181 + 185:04X}",
    ),
    (
        "a conflict precedes a long state",
        [
            setup("0101" + 90 * "0102" + "00"),
            "B000020205000500" + "03010300010400",
            "B10011111001",
            "B100121" + "41003",
            "B001020205000500" + "03010300010400",
            "B10111121001",
            "B101121" + "51004",
        ],
        "B40001",
        "0E020002",
    ),
    (
        "a joined length precedes a long state",
        [
            setup("0101" + 60 * "0102" + "00", "0103 0501"),
            "B00002020500050002" + "05010501",
            "B10011111001",
            *16 * ["B10012111003"],
            "B00102020500050002" + "05010501",
            "B10111121001",
            *16 * ["B10112121003"],
        ],
        "B40001",
        "0F020022",
    ),
    (
        "32 steps",
        [LOOP, "B0000205000500", *16 * ["B100111001"], "B0010205000500", *16 * ["B101121001"]],
        "B40001",
        "002000",
    ),
    (
        "33 steps",
        [LOOP, "B0000205000500", *16 * ["B100111001"], "B0010205000500", *17 * ["B101121001"]],
        "B40001",
        "0F020021",
    ),
]


class CasesTest(CaseTest):
    def test_setups(self) -> None:
        self.check(SETUP_CASES)

    def test_states(self) -> None:
        self.check(STATE_CASES)

    def test_steps(self) -> None:
        self.check(STEP_CASES)

    def test_next(self) -> None:
        self.check(NEXT_CASES)

    def test_replays(self) -> None:
        self.check(REPLAY_CASES)

    def test_swaps(self) -> None:
        self.check(SWAP_CASES)

    def test_joins(self) -> None:
        self.check(JOIN_CASES)


class QuestionsTest(unittest.TestCase):
    """Questions to the systems, without a bench."""

    terms = Terms()

    def proof(self, text: str) -> Proof:
        return self.terms.step(bytes.fromhex(text))

    def left(self, one: str, other: str) -> str | None:
        left = left_after(self.proof(one), self.proof(other))
        return None if left is None else left.encoded.hex()

    def test_worked_questions(self) -> None:
        self.assertEqual(self.left("15121002", "15111001"), "121002")
        back = self.terms.back(self.proof("15111001"), self.proof("121002"))
        assert back is not None
        self.assertEqual(back.encoded.hex(), "15121002")
        self.assertIsNone(self.left("141003", "15111001"))
        meeting = self.proof("1310011041")
        after = self.terms.next(self.terms.state(bytes.fromhex("02010100014100")), meeting)
        self.assertEqual((after.encoded.hex(), self.terms.label(meeting)), ("020000", 0x00))
        self.assertIsNone(self.left("1310011041", "111001"))
        self.assertEqual(self.left("13151110011041", "1115121002"), "131110011041")
        with self.assertRaises(Refusal) as caught:
            self.proof("16011001")
        self.assertEqual((caught.exception.number, caught.exception.place), (Number.STEP, 0))
        net = Net([Event(0, frozenset([0]), frozenset([1]))])
        self.assertEqual(encode_set(net.next(decode_set(bytes([5])), 0)), bytes([0] * 7 + [6]))

    LEFT = [
        ("111001", "121002", "111001"),
        ("111001", "111001", None),
        ("11111001", "11121002", "11111001"),
        ("1115111001", "1115121002", "11111001"),
        ("111001", "1310021042", None),
        ("11111001", "131210021042", "11111001"),
        ("131210021042", "11111001", "131210021042"),
        ("12111001", "131002121042", "12111001"),
        ("12111001", "131002111042", None),
        ("13111001111041", "13121002121042", "13111001111041"),
        ("131110011041", "131210021042", None),
        ("131511100114111041", "131512100214121042", "13111001111041"),
        ("141001", "141001", None),
        ("141001", "151001", None),
        ("14111001", "14121002", "111001"),
        ("1603111001", "1603121002", "1603111001"),
        ("1603111001", "1604121002", None),
        ("1603111001", "121002", None),
        ("1601151310031043", "160115111002", None),
        ("16011513111003111043", "16011511121002", "160113111003111043"),
    ]

    def test_left(self) -> None:
        for one, other, expected in self.LEFT:
            with self.subTest(one=one, other=other):
                self.assertEqual(self.left(one, other), expected)


def all_proofs(actions: list[int], names: list[int], nodes: int) -> list[list[Proof]]:
    """All steps over these actions and names, listed by their number of nodes."""
    found: list[list[Proof]] = [[], [Act(action) for action in actions]]
    for count in range(2, nodes + 1):
        new: list[Proof] = []
        for part in found[count - 1]:
            new += [OnLeft(part), OnRight(part), ChooseLeft(part), ChooseRight(part)]
            new += [Under(name, part) for name in names]
        for size in range(1, count - 1):
            new += [Both(one, other) for one, other in product(found[size], found[count - 1 - size])]
        found.append([proof for proof in new if not is_improper(proof)])
    return found


def all_terms(actions: list[int], names: list[int], nodes: int) -> list[list[Term]]:
    found: list[list[Term]] = [[], [Nil()]]
    for count in range(2, nodes + 1):
        new: list[Term] = []
        for inner in found[count - 1]:
            new += [Prefix(action, inner) for action in actions]
            new += [Restriction(name, inner) for name in names]
        for size in range(1, count - 1):
            for left, right in product(found[size], found[count - 1 - size]):
                new += [Parallel(left, right), Sum(left, right)]
        found.append(new)
    return found


def flat(lists: list[list]) -> list:
    return [item for items in lists for item in items]


def random_term(random: Random, nodes: int, definitions: int = 0, guarded: bool = True) -> Term:
    """A term of about so many nodes; where it has to be guarded, a call stands behind a prefix."""
    if nodes <= 1:
        return Call(random.randrange(definitions)) if definitions and not guarded and random.random() < 0.6 else Nil()
    chance = random.random()
    if chance < 0.4 or nodes == 2:
        action = random.choice((0x00, 0x01, 0x01, 0x41, 0x41, 0x02, 0x42))
        return Prefix(action, random_term(random, nodes - 1, definitions, guarded=False))
    if chance < 0.5:
        return Restriction(random.choice((1, 2)), random_term(random, nodes - 1, definitions, guarded))
    node = Sum if chance < 0.65 else Parallel
    cut = random.randrange(1, nodes - 1) if nodes > 2 else 1
    left, right = (random_term(random, size, definitions, guarded) for size in (cut, nodes - 1 - cut))
    return node(left, right)


def random_terms(random: Random, nodes: int) -> tuple[Terms, Term]:
    """A term over some definitions with guarded calls."""
    count = random.choice((0, 1, 2))
    bodies = [random_term(random, random.choice((2, 4, 6)), count) for _ in range(count)]
    return Terms(bodies), random_term(random, nodes, count, guarded=False)


class LawsTest(unittest.TestCase):
    """The laws of independence, on all small proofs and in all small terms."""

    actions = [0x00, 0x01, 0x41]
    proofs = flat(all_proofs(actions, [1, 2], 3))
    small = flat(all_terms([0x01, 0x41], [1], 7))

    def independent_pairs(self) -> Iterator[tuple[Proof, Proof]]:
        for one, other in product(self.proofs, repeat=2):
            if left_after(one, other) is not None:
                yield one, other

    def test_pairs(self) -> None:
        """Independence is symmetric; what is left is a step with the same label and no longer; back undoes it."""
        for one, other in product(self.proofs, repeat=2):
            left = left_after(one, other)
            self.assertEqual(left is None, left_after(other, one) is None)
            if left is not None:
                self.assertNotEqual(one, other)
                self.assertEqual(Terms().step(left.encoded), left)
                self.assertEqual(label(left), label(one))
                self.assertLessEqual(len(left.encoded), len(one.encoded))
                self.assertEqual(before(other, left), one)
            origin = before(one, other)
            if origin is not None:
                self.assertEqual(left_after(origin, one), other)

    def test_triples(self) -> None:
        """What is left of two of three, each after the other, does not depend on the way; and what comes before."""
        found = 0
        others: dict[Proof, list[Proof]] = {}
        for one, other in self.independent_pairs():
            others.setdefault(one, []).append(other)
        random = Random(1)
        for x, beside in others.items():
            for y, w in product(random.sample(beside, min(len(beside), 20)), repeat=2):
                left_y, left_w = left_after(y, x), left_after(w, x)
                assert left_y is not None and left_w is not None
                self.assertEqual(left_after(left_w, left_y) is None, left_after(w, y) is None)
                if left_after(w, y) is not None:
                    one_way = left_after(left_w, left_y)
                    other_way = left_after(left_after(w, y), left_after(x, y))
                    self.assertEqual(one_way, other_way)
                    found += 1
        self.assertGreater(found, 1000)

    def check_diamonds(self, terms: Terms, term: Term) -> int:
        """Two independent steps of a term can follow each other either way, with one end; says how many there are."""
        steps = possible_proofs(terms, term)
        found = 0
        for one, other in product(steps, repeat=2):
            left = left_after(one, other)
            if left is not None:
                ends = [
                    terms.next(terms.next(term, other), left),
                    terms.next(terms.next(term, one), left_after(other, one)),
                ]
                self.assertEqual(ends[0], ends[1])
                found += 1
        for one in steps:
            after = terms.next(term, one)
            for other in possible_proofs(terms, after):
                origin = before(one, other)
                if origin is not None:
                    self.assertIn(origin, steps)
        return found

    def test_diamonds_of_all_small_terms(self) -> None:
        self.assertGreater(sum(self.check_diamonds(Terms(), term) for term in self.small), 300)

    def test_diamonds_of_random_terms(self) -> None:
        found = 0
        for seed in range(400):
            random = Random(seed)
            found += self.check_diamonds(*random_terms(random, random.randrange(8, 16)))
        self.assertGreater(found, 500)

    def test_first_that_does_not_fit(self) -> None:
        """Exactly the steps that are listed are possible; another one fails at a node that is one."""
        terms = flat(all_terms([0x01, 0x41], [1], 5))
        for term in terms:
            possible = set(possible_proofs(Terms(), term))
            for proof in self.proofs:
                try:
                    Terms().next(term, proof)
                except Refusal as refusal:
                    self.assertNotIn(proof, possible)
                    self.assertEqual(refusal.number, Number.IMPOSSIBLE)
                    self.assertLess(refusal.place, len(proof.encoded))
                else:
                    self.assertIn(proof, possible)


class PlacesTest(unittest.TestCase):
    """The places of strings that are no terms or proofs, against lists of all beginnings."""

    def beginnings(self, nodes: dict[bytes, int], length: int) -> tuple[list[set[bytes]], list[set[bytes]]]:
        """The whole strings and the beginnings of each length up to this one.

        The nodes are given by their bytes, each with the number of its parts.
        """
        whole: list[set[bytes]] = [set() for _ in range(length + 1)]
        begun: list[set[bytes]] = [set() for _ in range(length + 1)]
        for size in range(length + 1):
            for head, count in nodes.items():
                if size < len(head):
                    begun[size].add(head[:size])
                elif count == 0 and size == len(head):
                    whole[size].add(head)
                elif count == 1:
                    whole[size] |= {head + part for part in whole[size - len(head)]}
                    begun[size] |= {head + part for part in begun[size - len(head)]}
                elif count == 2:
                    rest = size - len(head)
                    for cut in range(rest + 1):
                        whole[size] |= {head + a + b for a in whole[cut] for b in whole[rest - cut]}
                        begun[size] |= {head + a + b for a in whole[cut] for b in begun[rest - cut]}
                    begun[size] |= {head + part for part in begun[rest]}
        return whole, begun

    def check(self, nodes: dict[bytes, int], alphabet: bytes, length: int, decode) -> None:
        whole, begun = self.beginnings(nodes, length)
        for size in range(length + 1):
            for letters in product(alphabet, repeat=size):
                data = bytes(letters)
                place = next(
                    k for k in range(size, -1, -1) if data[:k] in begun[k] or data[:k] in whole[k]
                )
                try:
                    decode(data)
                except Misfit as misfit:
                    self.assertNotIn(data, whole[size])
                    self.assertEqual(misfit.place, place)
                else:
                    self.assertIn(data, whole[size])

    TERM_NODES = {b"\x00": 0, b"\x02": 2, b"\x03": 2}
    TERM_NODES |= {bytes([0x01, action]): 1 for action in range(6)}
    TERM_NODES |= {bytes([0x04, name]): 1 for name in range(1, 6)}

    def test_terms_without_definitions(self) -> None:
        self.check(self.TERM_NODES, bytes([0, 1, 2, 4, 5, 0x40]), 5, lambda data: decode_term(data, 0))

    def test_terms_with_a_definition(self) -> None:
        nodes = self.TERM_NODES | {b"\x05\x00": 0}
        self.check(nodes, bytes([0, 1, 2, 4, 5, 0x40]), 5, lambda data: decode_term(data, 1))

    def test_bodies(self) -> None:
        """A body is a term that does not begin with a call, so only its beginnings without one count."""
        for size in range(5):
            for letters in product(bytes([0, 1, 2, 5]), repeat=size):
                data = bytes(letters)
                found = []
                for decode in (decode_term, decode_body):
                    try:
                        decode(data, 1)
                        found.append(None)
                    except Misfit as misfit:
                        found.append(misfit.place)
                self.assertEqual(found[1], 0 if data[:1] == b"\x05" else found[0])

    def test_proofs(self) -> None:
        nodes = {bytes([0x10, a]): 0 for a in (0x00, 0x01, 0x10, 0x11, 0x13, 0x16)}
        nodes |= {bytes([kind]): 1 for kind in (0x11, 0x12, 0x14, 0x15)} | {b"\x13": 2}
        nodes |= {bytes([0x16, n]): 1 for n in (0x01, 0x10, 0x11, 0x13, 0x16)}
        self.check(nodes, bytes([0x00, 0x01, 0x10, 0x11, 0x13, 0x16]), 5, decode_proof)


if __name__ == "__main__":
    unittest.main()
