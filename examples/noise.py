#!/usr/bin/env python3
"""Prints an input for swiper: a header, and rows in which errors happen at random.

    python3 examples/noise.py HEADER RATE [SEED] > input.txt

HEADER is a file that begins with a header; what stands after its line `rounds` is left out. Each error of
the schedule happens by itself with the probability RATE (0.001, say). Without errors all bits are 0, which
is one of the records that an ideal machine may give. Which bits an error changes is asked of the program
schedule_tables, so build it before: (cd crates/schedule_tables && rt run < ../../examples/stacked.sheet)
"""
import random
import re
import subprocess
import sys
from pathlib import Path

TABLES = Path(__file__).parent.parent / "crates/schedule_tables/out/schedule_tables"


def header_of(path):
    lines = []
    for line in Path(path).read_text().splitlines():
        lines.append(line)
        if line.split() == ["rounds"]:
            return lines
    sys.exit(f"{path} has no line `rounds`")


def ask(header, *questions):
    if not TABLES.exists():
        sys.exit("schedule_tables isn't built yet: (cd crates/schedule_tables && "
                 "rt run < ../../examples/stacked.sheet)")
    sheet = "\n".join(["schedule it", *header, *questions, "end", ""])
    answer = subprocess.run([TABLES], input=sheet, capture_output=True, text=True).stdout
    if "refused" in answer:
        sys.exit(answer.splitlines()[-1])
    return answer


def rows_of(header, rate, draws):
    answer = ask(header, "widths", "counts")
    rows = []
    for first, last, width in re.findall(r"^slots (\d+) to (\d+) width (\d+)", answer, re.M):
        rows += [[0] * int(width) for _ in range(int(first), int(last) + 1)]
    count = int(re.search(r"^counts errors (\d+)", answer, re.M).group(1))
    happened = [number for number in range(count) if draws.random() < rate]
    questions = [f"flips {number} {number}" for number in happened]
    for slot, place in re.findall(r"(\d+):(\d+)", ask(header, *questions)):
        rows[int(slot)][int(place)] ^= 1
    return rows


def main(path, rate, seed="0"):
    header = header_of(path)
    rows = rows_of(header, float(rate), random.Random(seed))
    for line in header:
        print(line)
    for row in rows:
        print("".join(map(str, row)))


if __name__ == "__main__":
    if len(sys.argv) not in (3, 4):
        sys.exit(__doc__)
    main(*sys.argv[1:])
