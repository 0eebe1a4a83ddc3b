#!/usr/bin/env python3
"""Times what follows the rows of `swiper decode`, beside another decoder that takes the same words.

    python3 bench/matching.py --against "PROGRAM decode --engine lemon --no-share"
                              [--program PROGRAM] [--instructions] [--slots N] [--runs N]
                              [--distances 5,7,9,11] [--rates 1000,200,100,50]

The inputs are four patches made from the number 7 by `generator.py`, with one error in so many. Of
each the least processor time of the runs is taken, and that of the same schedule without an error
is taken from it. With `--instructions` valgrind counts instructions in place of times, which other
work on the machine doesn't change. The weights that the two find have to be the same.
"""

import argparse
import os
import pathlib
import re
import shlex
import subprocess
import sys
import tempfile

import generator

HERE = pathlib.Path(__file__).resolve().parent
PROGRAM = HERE.parent / "crates" / "swiper" / "out" / "swiper"
SEED = 7
# so seldom that no error happens
NEVER = 4_000_000_000


def make(folder, distance, slots, rate):
    """Makes an input with one error in `rate`."""
    path = pathlib.Path(folder) / f"{distance}.{rate}"
    made = generator.Made(distance, 4, slots)
    with open(path, "w", encoding="ascii") as out:
        generator.write(out, made, SEED, rate)
    return path


def weight_of(output):
    """The last number of the summary."""
    lines = [line for line in output.split(b"\n") if line.startswith(b"summary")]
    return int(lines[-1].split()[-1])


def milliseconds(words, path):
    """Processor time of a run, and the weight that it found."""
    with open(path, "rb") as source, tempfile.TemporaryFile() as out:
        child = subprocess.Popen(words, stdin=source, stdout=out, stderr=subprocess.DEVNULL)
        _, _, used = os.wait4(child.pid, 0)
        out.seek(0)
        return 1000 * (used.ru_utime + used.ru_stime), weight_of(out.read())


def instructions(words, path):
    """Millions of instructions of a run, and the weight that it found."""
    counted = ["valgrind", "--tool=callgrind", "--callgrind-out-file=/dev/null", *words]
    with open(path, "rb") as source:
        run = subprocess.run(counted, stdin=source, capture_output=True, check=True)
    found = re.search(rb"Collected : (\d+)", run.stderr)
    return int(found.group(1)) / 1e6, weight_of(run.stdout)


def least(measure, words, path, runs):
    """The least of some runs."""
    return min(measure(words, path) for _ in range(runs))


def main():
    parser = argparse.ArgumentParser(description=__doc__.splitlines()[0])
    parser.add_argument("--against", required=True)
    parser.add_argument("--program", default=str(PROGRAM))
    parser.add_argument("--instructions", action="store_true")
    parser.add_argument("--slots", type=int, default=200)
    parser.add_argument("--runs", type=int, default=5)
    parser.add_argument("--distances", default="5,7,9,11")
    parser.add_argument("--rates", default="1000,200,100,50")
    args = parser.parse_args()
    measure, runs = (instructions, 1) if args.instructions else (milliseconds, args.runs)
    programs = [[args.program, "decode"], shlex.split(args.against)]
    print("| distance | one error in | whole run | difference | the other's |\n|---|---|---|---|---|")
    with tempfile.TemporaryDirectory() as folder:
        for distance in map(int, args.distances.split(",")):
            quiet = make(folder, distance, args.slots, NEVER)
            without = [least(measure, words, quiet, runs)[0] for words in programs]
            for rate in map(int, args.rates.split(",")):
                path = make(folder, distance, args.slots, rate)
                found = [least(measure, words, path, runs) for words in programs]
                if found[0][1] != found[1][1]:
                    sys.exit(f"distance {distance}, one in {rate}: the weights differ")
                own, other = (run[0] - base for run, base in zip(found, without))
                print(f"| {distance} | {rate} | {found[0][0]:.1f} | {own:.1f} | {other:.1f} |")
                sys.stdout.flush()


if __name__ == "__main__":
    main()
