"""Runs of a program: seconds, greatest memory in KiB, and what it wrote.

The system begins the figure of memory with the most that the process had which starts the program; so a small one stands between."""
import os, subprocess, sys
from typing import NamedTuple

BETWEEN = """
import os, sys, time
figures = int(sys.argv[1])
os.set_inheritable(figures, False)
start = time.perf_counter()
child = os.posix_spawnp(sys.argv[2], sys.argv[2:], os.environ)
_, status, used = os.wait4(child, 0)
found = time.perf_counter() - start, used.ru_utime + used.ru_stime, used.ru_maxrss
os.write(figures, b"%d %r %r %d" % (os.waitstatus_to_exitcode(status), found[0], found[1], found[2]))
"""


class Spent(NamedTuple):
    status: int
    seconds: float
    processor: float
    kilobytes: int


class Begun:
    """A program that runs; it is given the files of `more`."""

    def __init__(self, words, **more):
        self.figures, figures = os.pipe()
        self.child = subprocess.Popen([sys.executable, "-S", "-c", BETWEEN, str(figures), *map(str, words)], pass_fds=[figures], **more)
        os.close(figures)

    def ended(self):
        """What it spent, when it has ended."""
        self.child.wait()
        with open(self.figures, "rb") as figures:
            status, seconds, processor, kilobytes = figures.read().split()
        return Spent(int(status), float(seconds), float(processor), int(kilobytes))


def timed(words):
    """The seconds, the KiB and the output of a run that ends with 0."""
    run = Begun(words, stdout=subprocess.PIPE, stderr=subprocess.DEVNULL)
    text = run.child.stdout.read()
    spent = run.ended()
    assert spent.status == 0, spent
    return spent.seconds, spent.kilobytes, text
