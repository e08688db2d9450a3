"""What the scripts here share that time the program `avalanche` itself: its runs, and the lines of their figures."""
import filecmp
import os
import random
import subprocess
import sys
import time

TOP = os.path.dirname(os.path.dirname(os.path.abspath(__file__)))
PROGRAM = os.path.join(TOP, "crates", "avalanche_cli", "out", "avalanche_cli")
ROUNDS = 3
MIB = 2**20


def build_where_needed():
    with open(os.path.join(TOP, "examples", "abc.stream"), "rb") as stream:
        subprocess.run([os.path.join(TOP, "avalanche"), "fetch"], stdin=stream, stdout=subprocess.DEVNULL, check=True)


def random_file(path, mib):
    """Writes a file of random bytes, the same in each run, a MiB at a time: so this process stays small, and with it the
    peaks of the programs that it starts."""
    numbers = random.Random(1)
    with open(path, "wb") as file:
        for _ in range(mib):
            file.write(numbers.randbytes(MIB))


def run(command, source, target):
    """Wall seconds, processor seconds and peak bytes of a command from one file to another."""
    with open(source, "rb") as stdin, open(target, "wb") as stdout:
        start = time.monotonic()
        child = subprocess.Popen(command, stdin=stdin, stdout=stdout)
        _, status, usage = os.wait4(child.pid, 0)
        wall = time.monotonic() - start
    child.returncode = os.waitstatus_to_exitcode(status)
    if child.returncode != 0:
        sys.exit(f"{command} ended with status {child.returncode}")
    return wall, usage.ru_utime + usage.ru_stime, usage.ru_maxrss * 1024


def fastest(command, source, target):
    """The figures of the fastest of a few runs."""
    return min(run(command, source, target) for _ in range(ROUNDS))


def expect_same(left, right):
    if not filecmp.cmp(left, right, shallow=False):
        sys.exit("another file was fetched")


def beside(source, target):
    """The figures of `cat` and of `sha256sum` of the same bytes."""
    return {"cat": fastest(["cat"], source, target), "sha256": fastest(["sha256sum"], source, target)}


def head(title, to):
    """The heading of a table whose ratios are to what has these names."""
    print(title)
    print(f"{'':20} {'seconds':>8} {'cpu':>8} {'MiB':>8}" + "".join(f" {'to ' + name:>10} {'cpu to it':>10}" for name in to))


def line(name, figures, plain):
    """A line of that table; `plain` has the figures that the ratios are to, by name."""
    wall, processor, peak = figures
    ratios = "".join(f" {wall / its[0]:10.2f} {processor / its[1]:10.2f}" for its in plain.values())
    print(f"{name:20} {wall:8.3f} {processor:8.3f} {peak / MIB:8.1f}{ratios}")
