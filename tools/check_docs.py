"""Runs every example of the documents through the second program, and through a program that is given.

check_docs.py [PROGRAM]

A fenced block `session` starts a new server, and `session continued` goes on with the last one. A line `FRAME > ANSWER`
has the first line of the answer, and lines below it the others; `repeat N` .. `end` repeats the lines between.
In running text an example is written as `FRAME` → `ANSWER`.
"""
import re
import subprocess
import sys
from collections.abc import Callable
from pathlib import Path

ROOT = Path(__file__).resolve().parent.parent
sys.path.insert(0, str(ROOT / "model"))
from sheetbench import Server, split_lines  # noqa: E402

FENCE = re.compile(r"^```(\S[^\n]*)\n(.*?)^```$", re.M | re.S)
INLINE = re.compile(r"`([0-9A-Fa-fG]*)` → `([0-9A-F]+)`")

# A frame and the lines of its answer.
Case = tuple[str, list[str]]
# From an input to its output.
Answers = Callable[[bytes], bytes]


def repeated(lines: list[str]) -> list[str]:
    """The lines with each `repeat N` .. `end` written out."""
    out: list[str] = []
    at = 0
    while at < len(lines):
        if lines[at].startswith("repeat "):
            end = lines.index("end", at)
            out += int(lines[at].split()[1]) * lines[at + 1 : end]
            at = end + 1
        else:
            out.append(lines[at])
            at += 1
    return out


def cases(body: str) -> list[Case]:
    """The frames of a block, each with the lines of its answer."""
    found: list[Case] = []
    for line in repeated(body.splitlines()):
        if line.startswith("> "):
            found.append(("", [line[2:]]))
        elif " > " in line:
            frame, answer = line.split(" > ")
            found.append((frame.replace("\\r", "\r"), [answer]))
        else:
            found[-1][1].append(line)
    return found


def sessions(text: str) -> list[list[Case]]:
    """The examples of a document, those of one session together."""
    found: list[list[Case]] = []
    for info, body in FENCE.findall(text):
        if info == "session":
            found.append([])
        if info.startswith("session"):
            found[-1] += cases(body)
    return found + [[(frame, [answer])] for frame, answer in INLINE.findall(text)]


def model(data: bytes) -> bytes:
    server = Server()
    return b"".join(server.answer(line) for line in split_lines(data))


def program(path: str) -> Answers:
    return lambda data: subprocess.run([path], input=data, stdout=subprocess.PIPE, check=True, timeout=60).stdout


def first_wrong(session: list[Case], answers: Answers) -> str:
    """The first frame of a session that is answered otherwise, with both answers; empty where there is none."""
    lines = answers("".join(frame + "\n" for frame, _ in session).encode()).decode().splitlines()
    for frame, expected in session:
        found, lines = lines[: len(expected)], lines[len(expected) :]
        if found != expected:
            return f"{frame!r}: the document has {expected}, but it is {found}"
    return f"more output than the document has: {lines}" if lines else ""


def check(path: Path, name: str, answers: Answers) -> tuple[int, int]:
    """How many examples a document has, and in how many of its sessions one is wrong."""
    found = sessions(path.read_text(encoding="utf-8"))
    wrong = [fault for session in found if (fault := first_wrong(session, answers))]
    for fault in wrong:
        print(f"{path.name}, {name}: {fault}")
    return sum(len(session) for session in found), len(wrong)


def main() -> int:
    checked = {"the model": model} | {given: program(given) for given in sys.argv[1:2]}
    paths = [*sorted((ROOT / "docs").glob("*.md")), ROOT / "README.md"]
    counts = [check(path, name, answers) for name, answers in checked.items() for path in paths]
    total, wrong = sum(n for n, _ in counts), sum(w for _, w in counts)
    print(f"examples of the documents: {total}, wrong: {wrong}")
    return 1 if wrong or not total else 0


if __name__ == "__main__":
    sys.exit(main())
