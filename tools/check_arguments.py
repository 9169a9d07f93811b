"""Looks at what the program does with arguments: what it prints, its status, and that it reads nothing.

check_arguments.py PROGRAM

1. `--help` tells in a screen what is read and written, and its example is true.
2. `--version` tells the program's version and the kit's line.
3. Any other argument, or one more, is an error that names it, with status 2.
"""
import os
import re
import subprocess
import sys

FRAME = b"B00000\n"
# Arguments, and what is told of them.
WRONG = [
    ([b"-h"], 'unexpected argument "-h"'),
    ([b"--hepl"], 'unexpected argument "--hepl"'),
    ([b"--HELP"], 'unexpected argument "--HELP"'),
    ([b""], 'unexpected argument ""'),
    ([b"sessions/handover.in"], 'unexpected argument "sessions/handover.in"'),
    ([b"--help", b"--help"], 'unexpected argument "--help"'),
    ([b"--version", b"more"], 'unexpected argument "more"'),
    ([b'a\n\xff"'], 'unexpected argument "a\\n\\xff\\""'),
    ([b"x" * 64], f'unexpected argument "{"x" * 64}"'),
    ([b"x" * 65], "unexpected argument of more than 64 bytes"),
]
EXAMPLE = re.compile(r"^ +([0-9A-F]+) +([0-9A-F]+)$", re.M)


def given(program: str, words: list[bytes]) -> tuple[int, str, str, bool]:
    """The status, both outputs, and whether a frame on standard input is there still."""
    reads, writes = os.pipe()
    with open(writes, "wb") as frames:
        frames.write(FRAME)
    with open(reads, "rb", buffering=0) as left:
        run = subprocess.run([program, *words], stdin=left, capture_output=True, timeout=60, check=False)
        return run.returncode, run.stdout.decode(), run.stderr.decode(), left.read() == FRAME


def helps(program: str) -> bool:
    status, text, errors, is_unread = given(program, [b"--help"])
    example = EXAMPLE.findall(text)
    answers = subprocess.run([program], input="".join(frame + "\n" for frame, _ in example), capture_output=True, text=True, timeout=60, check=False)
    is_true = bool(example) and answers.stdout.split() == [answer for _, answer in example]
    is_a_screen = len(text.splitlines()) <= 24 and max(map(len, text.splitlines()), default=0) <= 80
    return (status, errors) == (0, "") and is_unread and is_true and is_a_screen


def tells_its_version(program: str) -> bool:
    kit = subprocess.run(["rt", "version"], capture_output=True, text=True, check=True).stdout
    status, text, errors, is_unread = given(program, [b"--version"])
    first, _, rest = text.partition("\n")
    return (status, errors) == (0, "") and is_unread and re.fullmatch(r"sheetbench \d+(\.\d+)+", first) is not None and rest == kit


def refuses_others(program: str) -> bool:
    for words, told in WRONG:
        found = given(program, words)
        if found != (2, "", f"sheetbench: {told}; see sheetbench --help\n", True):
            print(f"{words}: status {found[0]}, output {found[1]!r}, errors {found[2]!r}, input {'left' if found[3] else 'read'}")
            return False
    return True


def main() -> int:
    program = os.path.abspath(sys.argv[1])
    failed = [test.__name__ for test in (helps, tells_its_version, refuses_others) if not test(program)]
    print(f"arguments: {'as promised' if not failed else 'FAILED ' + ', '.join(failed)}")
    return 1 if failed else 0


if __name__ == "__main__":
    sys.exit(main())
