#!/usr/bin/env python3
"""Prints the plan of a schedule, as `swiper plan` has to print it.

    python3 bench/plans.py [--plan KIND] [--commit N] [--buffer N] < SCHEDULE

It is worked out from the rules of docs/FORMATS.md, one after another and as plainly as they are said,
and shares nothing with the program: regions, bits, detectors, errors, edges, cells, windows. The
schedule has to be one that is accepted; nothing of it is checked. Its cost grows with the square of
what it is given, so it is for small schedules.

`--cases N` prints N cases for `crates/swiper_cases/stdin` in place of a plan: schedules drawn from
the number `--seed`, each with its words and the line that is expected.
"""

import argparse
import json
import random
import sys
from collections import defaultdict
from dataclasses import dataclass, field


@dataclass
class Patch:
    row: int
    col: int
    basis: str = ""
    init: int = 0
    read_basis: str = ""
    read: int = 0


@dataclass
class Schedule:
    distance: int = 0
    # of errors on qubits and of readouts, and of outcomes of checks
    weights: tuple = (0, 0)
    patches: dict = field(default_factory=dict)
    # label, two patches' names, first slot, number of slots
    merges: list = field(default_factory=list)
    # label and patch's name
    reads: list = field(default_factory=list)
    # label, names of observables
    conds: list = field(default_factory=list)
    # names of observables in the order of their lines
    observables: list = field(default_factory=list)


def parse(text):
    s = Schedule()
    for line in text.splitlines():
        words = line.split()
        if not words or line.startswith("#"):
            continue
        kind, *rest = words
        if kind == "distance":
            s.distance = int(rest[0])
        elif kind == "weights":
            s.weights = int(rest[0]), int(rest[1])
        elif kind == "patch":
            s.patches[rest[0]] = Patch(int(rest[1]), int(rest[2]))
        elif kind == "init":
            s.patches[rest[0]].basis, s.patches[rest[0]].init = rest[1], int(rest[2])
        elif kind == "merge":
            s.merges.append((rest[0], rest[1], rest[2], int(rest[3]), int(rest[4])))
            s.observables += [rest[0], rest[0] + ".seam"]
        elif kind == "read":
            patch = s.patches[rest[1]]
            patch.read_basis, patch.read = rest[2], int(rest[3])
            s.reads.append((rest[0], rest[1]))
            s.observables.append(rest[0])
        elif kind == "cond":
            s.conds.append((rest[0], rest[3:]))
        elif kind == "rounds":
            break
    return s


# ---- the layout


class Region:
    """A rectangle: its qubits, and its checks with their supports."""

    def __init__(self, row, col, height, width):
        self.row, self.col, self.height, self.width = row, col, height, width
        self.qubits = {
            (y, x) for y in range(row, row + height) for x in range(col, col + width)
        }
        self.checks = {}
        for i in range(row, row + height + 1):
            for j in range(col, col + width + 1):
                if self.has_check(i, j):
                    cover = {(i - 1, j - 1), (i - 1, j), (i, j - 1), (i, j)}
                    self.checks[i, j] = cover & self.qubits

    def has_check(self, i, j):
        within_rows = self.row < i < self.row + self.height
        within_cols = self.col < j < self.col + self.width
        if within_rows and within_cols:
            return True
        if within_cols:
            return (i + j) % 2 == 1
        if within_rows:
            return (i + j) % 2 == 0
        return False


def kind_of(corner):
    return "z" if sum(corner) % 2 == 0 else "x"


class Layout:
    """What is active and what is read in each slot of a schedule."""

    def __init__(self, s):
        self.schedule = s
        self.pitch = s.distance + 1
        self.last = max(patch.read for patch in s.patches.values())
        self.alone = {name: self.patch_region(patch) for name, patch in s.patches.items()}
        # region, seam's qubits, basis of the seam's readout
        self.merged = [self.merge_region(merge) for merge in s.merges]

    def origin(self, patch):
        return patch.row * self.pitch, patch.col * self.pitch

    def patch_region(self, patch):
        return Region(*self.origin(patch), self.schedule.distance, self.schedule.distance)

    def merge_region(self, merge):
        d = self.schedule.distance
        one, two = (self.schedule.patches[name] for name in merge[1:3])
        if one.row == two.row:
            first = one if one.col < two.col else two
            y, x = self.origin(first)
            seam = {(y + k, x + d) for k in range(d)}
            return Region(y, x, d, 2 * d + 1), seam, "z"
        first = one if one.row < two.row else two
        y, x = self.origin(first)
        seam = {(y + d, x + k) for k in range(d)}
        return Region(y, x, 2 * d + 1, d), seam, "x"

    def regions(self, t):
        merging = [m for m in range(len(self.merged)) if self.runs(m, t)]
        taken = {name for m in merging for name in self.schedule.merges[m][1:3]}
        found = [self.merged[m][0] for m in merging]
        for name, patch in self.schedule.patches.items():
            if patch.init <= t < patch.read and name not in taken:
                found.append(self.alone[name])
        return found

    def runs(self, m, t):
        _, _, _, slot, count = self.schedule.merges[m]
        return slot <= t < slot + count

    def split(self, m):
        return self.schedule.merges[m][3] + self.schedule.merges[m][4]

    def checks(self, t):
        found = {}
        if t >= 0:
            for region in self.regions(t):
                found.update(region.checks)
        return found

    def qubits(self, t):
        return {q for region in self.regions(t) for q in region.qubits}

    def reads(self, t):
        """The qubits that are read in a slot, each with its basis."""
        found = {}
        for name, patch in self.schedule.patches.items():
            if patch.read == t:
                found.update({q: patch.read_basis for q in self.alone[name].qubits})
        for m, (_, seam, basis) in enumerate(self.merged):
            if self.split(m) == t:
                found.update({q: basis for q in seam})
        return found


# ---- detectors and observables, each by the bits of which it is the parity
#
# A bit is (slot, "c", corner) or (slot, "q", qubit).


def detectors_of(layout):
    """The detectors in their order: slot, corner, bits."""
    found = []
    for t in range(layout.last + 1):
        now, before = layout.checks(t), layout.checks(t - 1)
        reads = layout.reads(t)
        here = {}
        for corner, support in now.items():
            if corner in before:
                bits = {(t, "c", corner), (t - 1, "c", corner)}
                gone = before[corner] - support
                bits |= {(t, "q", q) for q in gone if q in reads}
                here[corner] = bits
        for name, patch in layout.schedule.patches.items():
            region = layout.alone[name]
            for corner, support in region.checks.items():
                if patch.init == t and corner not in before and kind_of(corner) == patch.basis:
                    here[corner] = {(t, "c", corner)}
                if patch.read == t and kind_of(corner) == patch.read_basis:
                    here[corner] = {(t - 1, "c", corner)} | {(t, "q", q) for q in support}
        found += [(t, corner, here[corner]) for corner in sorted(here)]
    return found


def observables_of(layout):
    """The bits of each observable, and the slot that they are in."""
    s = layout.schedule
    found = {}
    for m, (label, one, two, slot, _) in enumerate(s.merges):
        region, seam, _ = layout.merged[m]
        own = set(region.checks) - set(layout.alone[one].checks) - set(layout.alone[two].checks)
        kind = "x" if s.patches[one].row == s.patches[two].row else "z"
        found[label] = {(slot, "c", corner) for corner in own if kind_of(corner) == kind}, slot
        split = layout.split(m)
        found[label + ".seam"] = {(split, "q", min(seam))}, split
    for label, name in s.reads:
        patch, region = s.patches[name], layout.alone[name]
        if patch.read_basis == "z":
            line = {(y, x) for y, x in region.qubits if y == region.row}
        else:
            line = {(y, x) for y, x in region.qubits if x == region.col}
        found[label] = {(patch.read, "q", q) for q in line}, patch.read
    return found


# ---- errors and edges


def mechanisms_of(layout):
    """Of each error, in their order, the weight and the bits that it changes."""
    space_weight, time_weight = layout.schedule.weights
    reads = [layout.reads(t) for t in range(layout.last + 1)]
    checks = [layout.checks(t) for t in range(layout.last + 1)]
    # for each slot the checks that have a qubit
    having = [defaultdict(list) for _ in checks]
    for seen, here in zip(having, checks):
        for corner, support in here.items():
            for q in support:
                seen[q].append(corner)

    def space(q, t, basis):
        """An error on a qubit that checks of this basis see: up to its next readout after the slot."""
        end = next((r for r in range(t + 1, layout.last + 1) if q in reads[r]), layout.last)
        bits = {
            (u, "c", corner) for u in range(t, end + 1) for corner in having[u][q]
            if kind_of(corner) == basis
        }
        if reads[end].get(q) == basis:
            bits.add((end, "q", q))
        return bits

    for t in range(layout.last + 1):
        for q in sorted(reads[t]):
            yield space_weight, {(t, "q", q)}
        for basis in "zx":
            for q in sorted(layout.qubits(t)):
                yield space_weight, space(q, t, basis)
        for corner in sorted(checks[t]):
            yield time_weight, {(t, "c", corner)}


def odd(bits, by_bit):
    """Those that have an odd number of the bits."""
    found = set()
    for bit in bits:
        found ^= by_bit[bit]
    return found


def edges_of(layout, detectors, observables):
    """The edges: the detectors and the observables that each flips; and their weights."""
    of_detectors, of_observables = defaultdict(set), defaultdict(set)
    for number, (_, _, bits) in enumerate(detectors):
        for bit in bits:
            of_detectors[bit] ^= {number}
    for label, (bits, _) in observables.items():
        for bit in bits:
            of_observables[bit] ^= {label}
    found, weights = [], []
    for weight, bits in mechanisms_of(layout):
        ends = odd(bits, of_detectors)
        if ends:
            assert len(ends) <= 2
            found.append((ends, odd(bits, of_observables)))
            weights.append(weight)
    return found, weights


# ---- windows


@dataclass
class Plan:
    """The windows of a schedule, by their lists of numbers."""

    detectors: list
    observables: dict
    edges: list
    weights: list
    # of each detector the window in whose cell it is, and of each edge the window that owns it
    home: list
    owner: list
    # the cells, and of each window the detectors that it looks at, its edges, the windows that it
    # depends on and its last slot
    cells: list = field(default_factory=list)
    reached: list = field(default_factory=list)
    own: list = field(default_factory=list)
    deps: list = field(default_factory=list)
    last: list = field(default_factory=list)
    # of each condition its label, the windows that it needs and its ready round
    ops: list = field(default_factory=list)


def windows_of(s, kind, commit, buffer):
    layout = Layout(s)
    detectors, observables = detectors_of(layout), observables_of(layout)
    edges, weights = edges_of(layout, detectors, observables)

    def cell(v):
        slot, (i, j), _ = detectors[v]
        return slot // commit, i // layout.pitch, j // layout.pitch

    def rank(c):
        block, row, col = c
        if kind == "sliding":
            return c
        return block % 2, (row + col) % 2, block, row, col

    cells = sorted({cell(v) for v in range(len(detectors))}, key=rank)
    number = {c: w for w, c in enumerate(cells)}
    home = [number[cell(v)] for v in range(len(detectors))]
    near = defaultdict(set)
    for ends, _ in edges:
        for v in ends:
            near[v] |= ends - {v}
    owner = [min(home[v] for v in ends) for ends, _ in edges]

    plan = Plan(detectors, observables, edges, weights, home, owner, cells)
    deps, last = plan.deps, plan.last
    for w in range(len(cells)):
        reached = {v for v in range(len(detectors)) if home[v] == w}
        front = reached
        for _ in range(buffer):
            front = {u for v in front for u in near[v] if home[u] >= w} - reached
            reached |= front
            if not front:
                break
        seen = [e for e, (ends, _) in enumerate(edges) if ends & reached]
        own = [e for e in seen if min(home[v] for v in edges[e][0]) >= w]
        deps.append(sorted({owner[e] for e in seen if owner[e] < w}))
        last.append(max(detectors[v][0] for v in reached))
        plan.reached.append(sorted(reached))
        plan.own.append(own)

    def ancestors(w, found):
        for x in deps[w]:
            if x not in found:
                found.add(x)
                ancestors(x, found)
        return found

    for label, names in s.conds:
        needs = sorted({
            owner[e] for e, (_, mask) in enumerate(edges) if len(mask & set(names)) % 2 == 1
        })
        waits = set(needs)
        for w in needs:
            ancestors(w, waits)
        ready = max([observables[name][1] for name in names] + [last[w] for w in waits])
        plan.ops.append({"label": label, "needs": needs, "ready": ready})
    return plan


def plan_of(s, kind, commit, buffer):
    """The plan's line."""
    plan = windows_of(s, kind, commit, buffer)
    windows = [
        {
            "block": block, "col": col, "deps": plan.deps[w], "detectors": len(plan.reached[w]),
            "edges": len(plan.own[w]), "last": plan.last[w], "number": w,
            "owned": plan.owner.count(w), "row": row,
        }
        for w, (block, row, col) in enumerate(plan.cells)
    ]
    line = {
        "detectors": len(plan.detectors), "edges": len(plan.edges), "ops": plan.ops,
        "windows": windows,
    }
    return json.dumps(line, sort_keys=True, separators=(",", ":"))


# ---- schedules from a number


def drawn(rng, number):
    """A schedule with up to five patches, each with a life of its own, merged here and there."""
    d = 5 if number % 7 == 3 else 3
    rows, cols = rng.choice([(1, 1), (1, 2), (2, 1), (2, 2), (1, 3), (3, 1), (2, 3)])
    top, left = rng.randrange(0, 14 - rows), rng.randrange(0, 14 - cols)
    tiles = [(top + y, left + x) for y in range(rows) for x in range(cols)]
    rng.shuffle(tiles)
    tiles = tiles[:5]
    names = [f"{'abcde'[k]}{k}" for k in range(len(tiles))]
    at = dict(zip(names, tiles))
    length = rng.randrange(4, 9)
    init = {name: rng.randrange(0, 3) for name in names}
    read = {name: init[name] + length + rng.randrange(0, 4) for name in names}
    lines = ["swiper 1", f"distance {d}", f"weights {rng.randrange(1, 9)} {rng.randrange(1, 9)}"]
    lines += [f"patch {name} {at[name][0]} {at[name][1]}" for name in names]
    lines += [f"init {name} {rng.choice('zx')} {init[name]}" for name in names]
    observables, busy = [], {name: init[name] for name in names}
    for one in names:
        for two in names:
            if abs(at[one][0] - at[two][0]) + abs(at[one][1] - at[two][1]) != 1 or one > two:
                continue
            slot, count = max(busy[one], busy[two]) + 1, rng.randrange(1, 4)
            if slot + count < min(read[one], read[two]) and rng.random() < 0.8:
                label = f"m{len(observables)}"
                pair = [one, two] if rng.random() < 0.5 else [two, one]
                lines.append(f"merge {label} {pair[0]} {pair[1]} {slot} {count}")
                observables += [(label, slot), (label + ".seam", slot + count)]
                busy[one] = busy[two] = slot + count
    for name in names:
        lines.append(f"read r{name} {name} {rng.choice('zx')} {read[name]}")
        observables.append((f"r{name}", read[name]))
    return lines, names, read, observables


def case_of(rng, number):
    """A case: its lines, or nothing where its condition would come too early."""
    lines, names, read, observables = drawn(rng, number)
    kind = "parallel" if number % 2 else "sliding"
    words, sizes = ["plan"], {}
    if kind == "parallel" or rng.random() < 0.3:
        words += ["--plan", kind]
    d = int(lines[1].split()[1])
    if rng.random() < 0.8:
        sizes["commit"] = rng.randrange(1, 4)
        words += ["--commit", str(sizes["commit"])]
    if rng.random() < 0.8:
        sizes["buffer"] = rng.randrange(0, 4)
        words += ["--buffer", str(sizes["buffer"])]
    commit, buffer = sizes.get("commit", d + 1), sizes.get("buffer", d)
    chosen = [label for label, _ in rng.sample(observables, min(len(observables), rng.randrange(1, 4)))]
    name = max(names, key=lambda each: read[each])
    for with_cond in (True, False):
        cond = [f"cond op {name} {read[name]} " + " ".join(chosen)] if with_cond else []
        text = "\n".join(lines + cond + ["rounds"]) + "\n"
        found = plan_of(parse(text), kind, commit, buffer)
        ops = json.loads(found)["ops"]
        if not ops or ops[0]["ready"] < read[name]:
            break
    shown = [f"case plan: drawn, number {number}", "words " + " ".join(words), "input"]
    shown += text.splitlines() + ["expect", f"status 0 took {len(text)}", "| " + found, "end", ""]
    return shown


def main():
    parser = argparse.ArgumentParser(description=__doc__.splitlines()[0])
    parser.add_argument("--plan", choices=["sliding", "parallel"], default="sliding")
    parser.add_argument("--commit", type=int)
    parser.add_argument("--buffer", type=int)
    parser.add_argument("--cases", type=int, help="print so many cases")
    parser.add_argument("--seed", type=int, default=1)
    args = parser.parse_args()
    if args.cases is not None:
        rng = random.Random(args.seed)
        for number in range(args.cases):
            print("\n".join(case_of(rng, number)))
        return
    s = parse(sys.stdin.read())
    commit = s.distance + 1 if args.commit is None else args.commit
    buffer = s.distance if args.buffer is None else args.buffer
    print(plan_of(s, args.plan, commit, buffer))


if __name__ == "__main__":
    main()
