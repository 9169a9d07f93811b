"""Looks at how the program reads and writes: what no contract can say.

check_stream.py PROGRAM

1. A client that writes one frame and waits gets its answer before it writes more.
2. Many frames in a pipe do not cost a system call each.
3. A line of any length is answered in constant memory.
"""
import os
import select
import subprocess
import sys
from pathlib import Path

FRAMES = 200_000
LONG = 64 << 20


def start(program: str) -> subprocess.Popen[bytes]:
    return subprocess.Popen([program], stdin=subprocess.PIPE, stdout=subprocess.PIPE, bufsize=0)


def reply(run: subprocess.Popen[bytes], seconds: float) -> bytes:
    """What the program has written by now, or within the time."""
    ready, _, _ = select.select([run.stdout], [], [], seconds)
    return os.read(run.stdout.fileno(), 1 << 16) if ready else b""


def value(pid: int, file: str, key: str) -> int:
    """A number from /proc."""
    for line in Path(f"/proc/{pid}/{file}").read_text().splitlines():
        if line.startswith(key + ":"):
            return int(line.split()[1])
    raise KeyError(key)


def answers_at_once(program: str) -> bool:
    with start(program) as run:
        run.stdin.write(b"B00000\n")
        first = reply(run, 10)
        run.stdin.write(b"B3")
        early = reply(run, 0.2)
        run.stdin.write(b"00\n")
        second = reply(run, 10)
        run.stdin.close()
        return (first, early, second) == (b"00\n", b"", b"0A020000\n")


def few_calls(program: str) -> bool:
    with start(program) as run:
        lines = b"B00000\n" * 1000
        for _ in range(FRAMES // 1000):
            run.stdin.write(lines)
            got = b""
            while len(got) < 3000:
                got += reply(run, 10)
        calls = value(run.pid, "io", "syscr") + value(run.pid, "io", "syscw")
        run.stdin.close()
        print(f"{FRAMES} frames: {calls} reads and writes")
        return calls < FRAMES // 50


def constant_memory(program: str) -> bool:
    with start(program) as run:
        block = b"0" * (1 << 20)
        for _ in range(LONG >> 20):
            run.stdin.write(block)
        run.stdin.write(b"\n")
        answer = reply(run, 10)
        peak = value(run.pid, "status", "VmHWM")
        run.stdin.close()
        print(f"a line of {LONG} characters: at most {peak} KiB of memory")
        return answer == b"01010400\n" and peak < 8192


def main() -> int:
    program = os.path.abspath(sys.argv[1])
    failed = [test.__name__ for test in (answers_at_once, few_calls, constant_memory) if not test(program)]
    print(f"streams: {'as promised' if not failed else 'FAILED ' + ', '.join(failed)}")
    return 1 if failed else 0


if __name__ == "__main__":
    sys.exit(main())
