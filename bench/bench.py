#!/usr/bin/env python3
"""Times `swiper decode` on inputs of many sizes, and prints a table.

    python3 bench/bench.py [--against PROGRAM] [--program PROGRAM] [--maker PROGRAM] [--runs N]
                           [--only TEXT] [--keep FOLDER]

Each input is made from a number and decoded several times; the table has the least time of the runs
and the greatest memory of them. `--against` names a second decoder that takes the same words. It is
run on the same inputs, the two by turns, so that both meet the same load. `--maker` names a program
that makes the inputs by its command `make`; without it `generator.py` makes them by the same rule.
A run whose words a program doesn't take is left out.
"""

import argparse
import os
import pathlib
import platform
import shlex
import subprocess
import sys
import tempfile
import time
from dataclasses import dataclass

import generator

HERE = pathlib.Path(__file__).resolve().parent
PROGRAM = HERE.parent / "crates" / "swiper" / "out" / "swiper"
SEED = 7
# the status of a run whose words weren't accepted
USAGE = 1


@dataclass(frozen=True)
class Size:
    distance: int
    patches: int
    slots: int

    def __str__(self):
        return f"d{self.distance} p{self.patches} s{self.slots}"


# distances beside each other, and patches beside each other
SIZES = [Size(distance, 4, 400) for distance in (3, 5, 7, 9, 11)]
SIZES += [Size(5, patches, 200) for patches in (1, 4, 16, 64)]

PLANS = ["sliding", "parallel"]
WORKERS = [1, 2, 4]
HEAD = [
    "input", "plan", "workers", "windows", "detectors", "defects/window", "program", "seconds", "MiB",
]


@dataclass
class Run:
    seconds: float
    kib: int
    summary: dict
    status: int


def decode(program, options, path):
    """Runs a decoder once on an input."""
    with open(path, "rb") as source, tempfile.TemporaryFile() as out:
        start = time.perf_counter()
        child = subprocess.Popen(
            [*program, "decode", *options],
            stdin=source, stdout=out, stderr=subprocess.DEVNULL,
        )
        _, status, used = os.wait4(child.pid, 0)
        seconds = time.perf_counter() - start
        child.returncode = os.waitstatus_to_exitcode(status)
        out.seek(0)
        return Run(seconds, used.ru_maxrss, summary_of(out.read()), child.returncode)


def summary_of(output):
    """The numbers of the line `summary windows W done D defects N edges E weight X`."""
    for line in reversed(output.decode("ascii", "replace").splitlines()):
        words = line.split()
        if words[:1] == ["summary"]:
            return dict(zip(words[1::2], map(int, words[2::2])))
    return {}


def options_of(plan, workers):
    """The words for a plan and a number of workers, without those that say what holds anyway."""
    return ([] if plan == "sliding" else ["--plan", plan]) + ["--workers", str(workers)]


def takes(program, options, path):
    """The words as the program takes them: a program without workers takes no number of them."""
    for words in (options, [w for w in options if w != "--workers" and not w.isdigit()]):
        if decode(program, words, path).status != USAGE:
            return words
    return None


def make(size, folder, maker):
    """Makes the input of a size."""
    path = pathlib.Path(folder) / (str(size).replace(" ", "-") + ".txt")
    if path.exists():
        return path
    if maker is None:
        with open(path, "w", encoding="ascii") as out:
            generator.write(out, generator.Made(size.distance, size.patches, size.slots), SEED)
        return path
    words = ["--distance", size.distance, "--patches", size.patches, "--slots", size.slots]
    with open(path, "wb") as out:
        words = [*maker, "make", *map(str, words), "--seed", str(SEED)]
        subprocess.run(words, stdout=out, check=True)
    return path


def measure(programs, options, path, runs):
    """The runs of each program, one after another."""
    taken = [takes(program, options, path) for program in programs]
    found = [[] for _ in programs]
    for _ in range(runs):
        for program, words, list_ in zip(programs, taken, found):
            if words is not None:
                list_.append(decode(program, words, path))
    return [(words, list_) for words, list_ in zip(taken, found)]


def line_of(size, plan, workers, name, runs):
    """A line of the table, or why there is none."""
    last = runs[-1]
    if last.status != 0:
        return [str(size), plan, str(workers), "-", "-", "-", name, f"status {last.status}", "-"]
    windows, defects = last.summary["windows"], last.summary["defects"]
    detectors = generator.Made(size.distance, size.patches, size.slots).detectors()
    return [
        str(size), plan, str(workers), str(windows), str(detectors), f"{defects / windows:.1f}",
        name, f"{min(run.seconds for run in runs):.3f}",
        f"{max(run.kib for run in runs) / 1024:.0f}",
    ]


def show(line, widths):
    print("| " + " | ".join(cell.ljust(width) for cell, width in zip(line, widths)) + " |")
    sys.stdout.flush()


def table(args, programs, folder):
    widths = [max(len(head), 10) for head in HEAD]
    show(HEAD, widths)
    show(["-" * width for width in widths], widths)
    for size in SIZES:
        if args.only not in str(size):
            continue
        path = make(size, folder, args.maker)
        for plan in PLANS:
            done = set()
            for workers in WORKERS:
                options = options_of(plan, workers)
                for name, (words, runs) in zip(
                    programs, measure(programs.values(), options, path, args.runs)
                ):
                    # a program without workers is shown once
                    key = name, tuple(words or ())
                    if words is None or key in done:
                        continue
                    done.add(key)
                    has_workers = "--workers" in words
                    show(line_of(size, plan, workers if has_workers else "-", name, runs), widths)


def main():
    parser = argparse.ArgumentParser(description=__doc__.splitlines()[0])
    parser.add_argument("--program", type=shlex.split, default=[str(PROGRAM)])
    parser.add_argument("--against", type=shlex.split, help="a second decoder, with its first words")
    parser.add_argument("--maker", type=shlex.split, help="the program that makes the inputs")
    parser.add_argument("--runs", type=int, default=5)
    parser.add_argument("--only", default="", help="the inputs whose name has this text, as 'd11'")
    parser.add_argument("--keep", help="a folder for the inputs; those that are there are used")
    args = parser.parse_args()
    programs = {"swiper": args.program}
    if args.against:
        programs["against"] = args.against
    for program in programs.values():
        if not os.access(program[0], os.X_OK):
            sys.exit(f"{program[0]} isn't there: build it first")
    print(f"{platform.machine()}, {os.cpu_count()} processors, least of {args.runs} runs\n")
    if args.keep:
        os.makedirs(args.keep, exist_ok=True)
        table(args, programs, args.keep)
        return
    with tempfile.TemporaryDirectory() as folder:
        table(args, programs, folder)


if __name__ == "__main__":
    main()
