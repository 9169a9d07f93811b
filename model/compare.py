#!/usr/bin/env python3
"""Feeds the same sessions to a program and to the model and compares the answers.

Without a program it feeds them to the model alone, and tells what occurred.
"""

from __future__ import annotations

import argparse
import subprocess
import sys
from collections.abc import Iterator
from dataclasses import dataclass
from pathlib import Path

from generate import generate
from sheetbench import split_lines
from tally import Tally, Watch

DEFAULT_SEEDS = tuple(range(1, 17))
DEFAULT_FRAMES = 6000
PROGRAM_SECONDS = 60
SHOWN = 300

# Inputs at the ends of what an input can be.
EDGES = (
    b"",
    b"\n",
    b"\n\n\n",
    b"B00000",
    b"B00000\n",
    b"B00000\r\nB500\r\n",
    b"B0000000000000000001\n",
    b" ",
    b"0",
    b"B500\n\nB5",
    b"\xff\xfe\n\x00\n",
    b"00" * 1024,
    b"00" * 1025,
    b"0" * 1_000_000,
)


@dataclass
class Difference:
    """The first frame of a session that is answered differently."""

    frame: int
    line: bytes
    expected: bytes
    found: bytes


def run_program(program: Path, data: bytes) -> tuple[bytes, str]:
    """The output of the program, and what is wrong with how it ended, if anything."""
    try:
        result = subprocess.run([program], input=data, capture_output=True, timeout=PROGRAM_SECONDS)
    except OSError as error:
        return b"", f"could not be run: {error}"
    except subprocess.TimeoutExpired as expired:
        return expired.stdout or b"", f"did not end within {PROGRAM_SECONDS} seconds"
    if result.returncode != 0:
        return result.stdout, f"ended with status {result.returncode}: {shorten(result.stderr)}"
    return result.stdout, ""


def first_difference(lines: list[bytes], answers: list[bytes], output: bytes) -> Difference | None:
    offset = 0
    for index, (line, answer) in enumerate(zip(lines, answers)):
        found = output[offset : offset + len(answer)]
        if found != answer:
            # Whole lines, as many as there should be.
            found = b"\n".join(output[offset:].split(b"\n")[: answer.count(b"\n")])
            return Difference(index, line, answer, found)
        offset += len(answer)
    if offset < len(output):
        return Difference(len(lines), b"", b"", output[offset:])
    return None


def shorten(data: bytes) -> str:
    text = repr(data)[1:]
    return text if len(text) <= SHOWN else f"{text[:SHOWN]}... ({len(data)} bytes)"


def compare_session(program: Path | None, name: str, data: bytes, tally: Tally) -> tuple[int, bool]:
    """The number of frames answered alike, and whether all is well."""
    lines = split_lines(data)
    watch = Watch()
    answered = [watch.answer(line) for line in lines]
    answers = [answer for answer, _ in answered]
    output, ending = run_program(program, data) if program else (b"".join(answers), "")
    difference = first_difference(lines, answers, output)
    passed = difference.frame if difference else len(lines)
    for answer, names in answered[:passed]:
        tally.count(answer, names)
    if difference:
        print(f"{name}, frame {difference.frame} (from 0)")
        print(f"frame:   {shorten(difference.line)}")
        print(f"model:   {shorten(difference.expected)}")
        print(f"program: {shorten(difference.found)}")
    if ending:
        print(f"{name}: the program {ending}")
    return passed, not difference and not ending


def sessions(seeds: list[int], frames: int) -> Iterator[tuple[str, bytes]]:
    for number, data in enumerate(EDGES):
        yield f"edge {number}", data
    for seed in seeds:
        yield f"seed {seed}", generate(seed, frames)


def compare(program: Path | None, seeds: list[int], frames: int, everything: bool) -> bool:
    tally = Tally()
    passed = 0
    for name, data in sessions(seeds, frames):
        alike, well = compare_session(program, name, data, tally)
        passed += alike
        if not well:
            print(f"{passed} passed, 1 failed")
            return False
    tally.show(everything)
    lacks = list(tally.lacks())
    for lack in lacks:
        print(lack)
    print(f"{passed} passed, {len(lacks)} failed")
    return not lacks


def seed_list(text: str) -> list[int]:
    return [int(part) for part in text.split(",")]


def main() -> int:
    parser = argparse.ArgumentParser(description=__doc__)
    parser.add_argument("program", type=Path, nargs="?", metavar="PROGRAM")
    parser.add_argument("--frames", type=int, default=DEFAULT_FRAMES, metavar="N", help="frames for each seed")
    parser.add_argument("--seeds", type=seed_list, default=list(DEFAULT_SEEDS), metavar="A,B,..")
    parser.add_argument("--all", action="store_true", help="tell of all things how often they happened")
    arguments = parser.parse_args()
    program = arguments.program.resolve() if arguments.program else None
    return 0 if compare(program, arguments.seeds, arguments.frames, arguments.all) else 1


if __name__ == "__main__":
    sys.exit(main())
