"""What the parts of bench/run share: how a figure is taken, and how a table of them is printed."""
import os
import re
import subprocess
import sys

ROOT = os.path.dirname(os.path.dirname(os.path.abspath(__file__)))


def run(*words, **more):
    return subprocess.run(words, check=True, text=True, capture_output=True, cwd=ROOT, **more)


def side(name):
    return f"{ROOT}/bench/target/release/{name}"


def least(rounds, commands):
    """The first number that each command prints, the least of some rounds. The commands take turns, so that what slows the machine for a while
    slows them all."""
    printed = [[int(run(*words).stdout.split()[0]) for words in commands] for _ in range(rounds)]
    return [min(numbers) for numbers in zip(*printed)]


def counted(*words):
    """The instructions that a command takes."""
    told = run("valgrind", "--tool=callgrind", "--callgrind-out-file=/dev/null", *words).stderr
    return int(re.search(r"I\s+refs:\s+([\d,]+)", told).group(1).replace(",", ""))


def without_driver(figures):
    """The figures of the sides, less that of the driver alone, which comes first."""
    return [figure - figures[0] for figure in figures[1:]]


def heading(what, figures, ratios):
    print(f"{what:<44}", *(f"{name:>10}" for name in figures), *(f"{name:>16}" for name in ratios))


def row(what, figures, digits=0):
    """The figures, and the ratios of all but the last to it, of which it hands back the largest."""
    ratios = [figure / figures[-1] for figure in figures[:-1]]
    line(what, figures, digits, *(f"{ratio:>16.2f}" for ratio in ratios))
    return max(ratios)


def line(what, figures, digits, *more):
    print(f"{what:<44}", *(f"{figure:>10.{digits}f}" for figure in figures), *more, flush=True)


def fail_if(failed, words):
    if failed:
        sys.exit(words)
