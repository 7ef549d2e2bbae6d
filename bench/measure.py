"""Runs the built program on an input file and tells what it cost."""
import os
import sys
import time
from pathlib import Path

ROOT = Path(__file__).resolve().parent.parent
PROGRAM = ROOT / "crates/exchange/out/exchange"


class Cost:
    """User and system seconds, wall seconds, and the greatest resident memory in MiB of one run."""

    def __init__(self, user, system, wall, memory):
        self.user, self.system, self.wall, self.memory = user, system, wall, memory

    def __str__(self):
        return f"user {self.user:6.2f} s  system {self.system:6.2f} s  wall {self.wall:6.2f} s  memory {self.memory:7.1f} MiB"


def run(path, words=("run",), output=os.devnull):
    """One run with the file as standard input. The program must end with status 0."""
    if not PROGRAM.exists():
        sys.exit(f"{PROGRAM} is not built: run ./exchange once")
    start = time.monotonic()
    pid = os.fork()
    if pid == 0:
        source, sink = os.open(path, os.O_RDONLY), os.open(output, os.O_WRONLY | os.O_CREAT | os.O_TRUNC)
        os.dup2(source, 0)
        os.dup2(sink, 1)
        os.execv(PROGRAM, ["exchange", *words])
    _, status, usage = os.wait4(pid, 0)
    if status != 0:
        sys.exit(f"the program ended with status {os.waitstatus_to_exitcode(status)}")
    return Cost(usage.ru_utime, usage.ru_stime, time.monotonic() - start, usage.ru_maxrss / 1024)


def best(path, times=5, **more):
    """The run with the least user time of several, since other work on the machine only adds to it."""
    return min((run(path, **more) for _ in range(times)), key=lambda cost: cost.user)


def write_lines(path, lines):
    """Writes the lines to the file and gives their number and the file's size in MiB."""
    count = 0
    with open(path, "w") as file:
        for line in lines:
            file.write(line)
            file.write("\n")
            count += 1
    return count, os.path.getsize(path) / 2**20
