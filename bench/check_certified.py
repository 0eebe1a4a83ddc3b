#!/usr/bin/env python3
"""Checks the log that `swiper decode --certify` printed of an input.

    python3 bench/check_certified.py [--plan KIND] [--commit N] [--buffer N] INPUT OUTPUT

INPUT is the schedule with its rows and OUTPUT what the program put. Nothing is taken from the
program but the log: the windows are those of `bench/plans.py`, the distances are searched for anew,
and what is asked of a log is asked as plainly as docs/FORMATS.md says it.

- Slots arrive in order. A window is committed once, after its last slot and after the windows that
  it depends on, and of its whole set it keeps the edges that it owns.
- The boundary of the whole set in the window is just the defects that are left there.
- For every two members their numbers, with those of the sets that hold one of the two, come to no
  more than twice their distance; and all numbers together come to twice the weight of the whole
  set. So no set of the window's edges with this boundary weighs less.
- A bit that is released is the exclusive or of the corrected results that it is made of.

It prints how many steps and commits there are and ends with status 0, or it prints the first line of
the log that is wrong, with what is wrong, and ends with status 1. A commit without a certificate is
wrong too.
"""

import argparse
import heapq
import itertools
import pathlib
import re
import sys

import plans

MOST = 2**32 - 1
LABEL = re.compile(r"[A-Za-z0-9_]{1,16}")
NUMBER = re.compile(r"0|[1-9][0-9]{0,9}")
SIGNED = re.compile(r"0|-?[1-9][0-9]{0,17}")
POSITIVE = re.compile(r"[1-9][0-9]{0,17}")


class Wrong(Exception):
    """What is wrong with a line."""


def demand(holds, text):
    if not holds:
        raise Wrong(text)


def number(word):
    demand(NUMBER.fullmatch(word) and int(word) <= MOST, f"{word} is no number of a log")
    return int(word)


def ascending(words):
    """Numbers that ascend."""
    numbers = [number(word) for word in words]
    demand(all(a < b for a, b in itertools.pairwise(numbers)), "numbers don't ascend")
    return numbers


def ascends(words, form):
    demand(all(form.fullmatch(word) for word in words), "a number of another form")
    return [int(word) for word in words]


class Certificate:
    """The lines after a commit: the whole set, and what shows it least."""

    def __init__(self):
        self.whole, self.vertex, self.sets = None, None, []

    def add(self, kind, words):
        if kind == "whole":
            demand(self.whole is None, "a second whole set")
            self.whole = ascending(words)
        elif kind == "vertex":
            demand(self.whole is not None and self.vertex is None, "numbers out of their place")
            self.vertex = ascends(words, SIGNED)
        else:
            demand(self.vertex is not None, "a set without numbers before it")
            demand(len(words) % 2 == 0 and words, "a set of an even number of members")
            self.sets.append((ascends(words[:1], POSITIVE)[0], ascending(words[1:])))
            demand(len(self.sets) <= len(self.vertex), "more sets than numbers")


class Window:
    """A window as a problem: its detectors, its edges and distances over them."""

    def __init__(self, plan, w):
        self.plan, self.seen, self.own = plan, set(plan.reached[w]), plan.own[w]
        # of each detector, and of the place of all free ends, the ways on
        self.ways = {v: [] for v in [*self.seen, None]}
        for e in self.own:
            ends = sorted(plan.edges[e][0] & self.seen) + [None]
            one, other = ends[0], ends[1]
            self.ways[one].append((other, plan.weights[e]))
            self.ways[other].append((one, plan.weights[e]))

    def boundary(self, edges):
        odd = set()
        for e in edges:
            odd ^= self.plan.edges[e][0] & self.seen
        return odd

    def distances(self, start):
        """The least weight of a walk to each place; one may go through the free ends."""
        found, queue, tie = {}, [(0, 0, start)], itertools.count(1)
        while queue:
            weight, _, at = heapq.heappop(queue)
            if at in found:
                continue
            found[at] = weight
            for to, more in self.ways[at]:
                if to not in found:
                    heapq.heappush(queue, (weight + more, next(tie), to))
        return found

    def check(self, defects, cert):
        """Whether the certificate shows its whole set least of those that explain the defects."""
        demand(cert.vertex is not None, "no certificate")
        demand(set(cert.whole) <= set(self.own), "an edge that isn't the window's")
        demand(self.boundary(cert.whole) == defects, "the whole set doesn't explain the defects")
        members = sorted(defects) + [None] * (len(defects) % 2)
        demand(len(cert.vertex) == len(members), f"numbers of {len(members)} members are due")
        for _, places in cert.sets:
            demand(places[-1] < len(members), "a member past the last")
        of = [{k for k, (_, places) in enumerate(cert.sets) if i in places}
              for i in range(len(members))]
        for i, start in enumerate(members):
            away = self.distances(start)
            for j in range(i):
                apart = sum(cert.sets[k][0] for k in of[i] ^ of[j])
                sum_ = cert.vertex[i] + cert.vertex[j] + apart
                most = 2 * away[members[j]]
                demand(sum_ <= most, f"members {j} and {i} have {sum_}, and twice their distance is {most}")
        total = sum(cert.vertex) + sum(n for n, _ in cert.sets)
        weight = sum(self.plan.weights[e] for e in cert.whole)
        demand(total == 2 * weight, f"all numbers are {total}, and twice the weight is {2 * weight}")


class Log:
    """The steps so far."""

    def __init__(self, plan, schedule, rows):
        self.plan, self.schedule, self.rows = plan, schedule, rows
        self.labels = dict(schedule.conds)
        self.arrived, self.kept, self.released = 0, {}, {}
        self.steps = 0

    def bit(self, bits):
        return sum(self.rows[bit] for bit in bits) % 2

    def arrive(self, words):
        demand(len(words) == 1 and number(words[0]) == self.arrived, "another slot is due")
        demand(self.arrived <= max(slot for slot, _, _ in self.rows), "no such slot")
        self.arrived += 1

    def commit(self, words, cert):
        plan = self.plan
        demand(words, "no window")
        w, kept = number(words[0]), ascending(words[1:])
        demand(w < len(plan.cells), "no such window")
        demand(w not in self.kept, "committed before")
        demand(plan.last[w] < self.arrived, "its last slot hasn't arrived")
        demand(all(x in self.kept for x in plan.deps[w]), "a window that it depends on isn't committed")
        demand(cert.whole is not None, "no whole set")
        demand(kept == [e for e in cert.whole if plan.owner[e] == w], "kept is another part")
        defects = {v for v in plan.reached[w] if self.bit(plan.detectors[v][2])}
        for x in plan.deps[w]:
            for e in self.kept[x]:
                defects ^= plan.edges[e][0] & set(plan.reached[w])
        Window(plan, w).check(defects, cert)
        self.kept[w] = kept

    def release(self, words):
        demand(len(words) == 2 and words[0] in self.labels, "no such operation")
        demand(words[0] not in self.released, "released before")
        op = next(op for op in self.plan.ops if op["label"] == words[0])
        demand(all(w in self.kept for w in op["needs"]), "a window that it needs isn't committed")
        bit = 0
        for name in self.labels[words[0]]:
            bits, slot = self.plan.observables[name]
            demand(slot < self.arrived, "a result that it needs hasn't arrived")
            bit ^= self.bit(bits)
            for kept in self.kept.values():
                bit ^= sum(name in self.plan.edges[e][1] for e in kept) % 2
        demand(words[1] == str(bit), f"its bit is {bit}")
        self.released[words[0]] = bit


def grouped(lines):
    """The steps with their lines' numbers, and of each commit its certificate."""
    steps = []
    for at, line in lines:
        kind, *words = line.split(" ")
        try:
            if kind in ("whole", "vertex", "set"):
                demand(steps and steps[-1][1] == "commit", "no commit stands before it")
                steps[-1][3].add(kind, words)
            else:
                demand(kind in ("arrive", "commit", "released"), "no line of a log")
                steps.append((at, kind, words, Certificate()))
        except Wrong as wrong:
            raise Wrong(f"line {at}: {wrong}") from wrong
    return steps


def log_of(output):
    """The lines of the log with their numbers, without the first and the last."""
    lines = list(enumerate(output.split("\n"), 1))
    starts = [at for at, line in lines if line == "log 1 certified"]
    demand(len(starts) == 1, "there is no line `log 1 certified`")
    demand(all(line.startswith("release ") for _, line in lines[: starts[0] - 1]),
           "something else than a release stands before the log")
    for at, line in lines[starts[0]:]:
        if line == "end log":
            return lines[starts[0] : at - 1]
    raise Wrong("there is no line `end log`")


def check(options, text, output):
    header, body = text.split("rounds\n", 1)
    schedule = plans.parse(header)
    layout = plans.Layout(schedule)
    rows = {}
    for t, row in enumerate(body.splitlines()):
        bits = [(t, "q", q) for q in sorted(layout.reads(t))]
        bits += [(t, "c", corner) for corner in sorted(layout.checks(t))]
        rows.update((bit, int(c)) for bit, c in zip(bits, row, strict=True))
    commit = schedule.distance + 1 if options.commit is None else options.commit
    buffer = schedule.distance if options.buffer is None else options.buffer
    log = Log(plans.windows_of(schedule, options.plan, commit, buffer), schedule, rows)
    steps = grouped(log_of(output))
    for at, kind, words, cert in steps:
        try:
            if kind == "arrive":
                log.arrive(words)
            elif kind == "commit":
                log.commit(words, cert)
            else:
                log.release(words)
        except Wrong as wrong:
            raise Wrong(f"line {at}: {wrong}") from wrong
    return f"{len(steps)} steps, {len(log.kept)} commits, each shown least"


def main():
    parser = argparse.ArgumentParser(description=__doc__.splitlines()[0])
    parser.add_argument("--plan", choices=("sliding", "parallel"), default="sliding")
    parser.add_argument("--commit", type=int)
    parser.add_argument("--buffer", type=int)
    parser.add_argument("input", type=pathlib.Path)
    parser.add_argument("output", type=pathlib.Path)
    options = parser.parse_args()
    try:
        print(check(options, options.input.read_text("ascii"), options.output.read_text("ascii")))
    except Wrong as wrong:
        print(wrong)
        sys.exit(1)


if __name__ == "__main__":
    main()
