#!/usr/bin/env python3
"""Measures how soon a release stands after the last row that it waits for.

    python3 bench/reaction.py [--runs N] [--program PROGRAM]

Two patches of distance 5 are merged, and an operation in slot 21 waits for the merge, its seam and a
read: all of them are ready with the row of slot 20. The rows up to slot 19 are written, the program
comes to rest, the row of slot 20 is written, and the clock runs from then until the line of the
release was read. The milliseconds are those of the least, the middle and the greatest run.
"""

import argparse
import statistics
import subprocess
import time

HEADER = """swiper 1
distance 5
weights 10 10
patch a 0 0
patch b 0 1
init a z 0
init b x 0
merge m a b 10 5
read ra a z 20
cond c b 21 m m.seam ra
read rb b x 39
rounds
"""
# how many bits the rows have, and in how many slots
WIDTHS = [(48, 10), (54, 5), (53, 1), (48, 4), (49, 1), (24, 18), (25, 1)]
# the row that the release waits for
READY = 20
REST = 0.1
WORKERS = (1, 2, 4)


def rows():
    return ["0" * width for width, count in WIDTHS for _ in range(count)]


def reaction(program, workers):
    """The milliseconds of one run."""
    lines = rows()
    run = subprocess.Popen(
        [program, "decode", "--workers", str(workers)],
        stdin=subprocess.PIPE, stdout=subprocess.PIPE, bufsize=0,
    )
    run.stdin.write((HEADER + "".join(f"{row}\n" for row in lines[:READY])).encode())
    time.sleep(REST)
    last = f"{lines[READY]}\n".encode()
    begin = time.perf_counter()
    run.stdin.write(last)
    line = run.stdout.readline()
    end = time.perf_counter()
    assert line == b"release c 0\n", line
    run.stdin.write("".join(f"{row}\n" for row in lines[READY + 1:]).encode())
    run.stdin.close()
    run.stdout.read()
    assert run.wait() == 0, run.returncode
    return 1000 * (end - begin)


def main():
    parser = argparse.ArgumentParser(description=__doc__.splitlines()[0])
    parser.add_argument("--runs", type=int, default=50)
    parser.add_argument("--program", default="crates/swiper/out/swiper")
    options = parser.parse_args()
    print("workers  least  middle  greatest")
    for workers in WORKERS:
        times = [reaction(options.program, workers) for _ in range(options.runs)]
        print(f"{workers:7}  {min(times):5.2f}  {statistics.median(times):6.2f}  {max(times):8.2f}")


if __name__ == "__main__":
    main()
