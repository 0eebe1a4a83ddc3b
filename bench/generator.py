"""Makes an input for `swiper decode` from a number.

The schedule has its patches side by side, eight in a row of tiles, all prepared and read in basis z.
Patches 2i and 2i+1 are merged for `distance` slots, where there is time for it, and a condition of
patch 2i waits for the merge's two results. One random word is drawn for each error of the schedule,
in the order of their numbers; where the word is divisible by `rate`, the error happens.

    python3 bench/generator.py --distance 3 --patches 2 --slots 400 --seed 7 > INPUT
"""

import argparse
import sys

RATE = 200


class Words:
    """Words of 32 bits: the generator PCG XSH RR 64/32."""

    MULTIPLIER = 6364136223846793005
    MASK = (1 << 64) - 1

    def __init__(self, seed, stream):
        self.increment = (stream << 1 | 1) & self.MASK
        self.state = (seed + self.increment) & self.MASK
        self.step()

    def step(self):
        self.state = (self.state * self.MULTIPLIER + self.increment) & self.MASK

    def next(self):
        state = self.state
        self.step()
        word = ((state >> 18 ^ state) >> 27) & 0xFFFFFFFF
        turn = state >> 59
        return (word >> turn | word << (32 - turn)) & 0xFFFFFFFF


class Region:
    """A rectangle of qubits with its checks, each with its support."""

    def __init__(self, row, col, height, width):
        rows, cols = range(row, row + height), range(col, col + width)
        self.qubits = [(y, x) for y in rows for x in cols]
        has = set(self.qubits)
        self.checks = {}
        for i in range(row, row + height + 1):
            for j in range(col, col + width + 1):
                if self.is_check(i, j, row, col, height, width):
                    round_it = [(i - 1, j - 1), (i - 1, j), (i, j - 1), (i, j)]
                    self.checks[i, j] = [q for q in round_it if q in has]

    @staticmethod
    def is_check(i, j, row, col, height, width):
        inner_row = row < i < row + height
        inner_col = col < j < col + width
        if inner_row and inner_col:
            return True
        if inner_col:
            return (i + j) % 2 == 1
        if inner_row:
            return (i + j) % 2 == 0
        return False


class Made:
    """A made schedule: its header, and what is measured in each slot."""

    def __init__(self, distance, patches, slots):
        self.distance, self.patches, self.slots = distance, patches, slots
        pairs = range(patches // 2)
        self.start, self.split = distance + 1, 2 * distance + 1
        self.merges = pairs if self.split < slots - 1 else range(0)
        self.conds = pairs if 5 * distance + 6 <= slots else range(0)
        pitch = distance + 1
        self.origins = [(k // 8 * pitch, k % 8 * pitch) for k in range(patches)]
        self.alone = [Region(y, x, distance, distance) for y, x in self.origins]
        self.merged = [
            Region(*self.origins[2 * i], distance, 2 * distance + 1) for i in self.merges
        ]

    def header(self):
        lines = ["swiper 1", f"distance {self.distance}", "weights 10 10"]
        lines += [f"patch p{k} {k // 8} {k % 8}" for k in range(self.patches)]
        lines += [f"init p{k} z 0" for k in range(self.patches)]
        lines += [
            f"merge m{i} p{2 * i} p{2 * i + 1} {self.start} {self.distance}" for i in self.merges
        ]
        lines += [f"read r{k} p{k} z {self.slots - 1}" for k in range(self.patches)]
        at = 5 * (self.distance + 1)
        lines += [f"cond c{i} p{2 * i} {at} m{i} m{i}.seam" for i in self.conds]
        return "".join(line + "\n" for line in lines + ["rounds"])

    def regions(self, slot):
        """The regions that are active in a slot."""
        if slot == self.slots - 1:
            return []
        if not self.start <= slot < self.split:
            return self.alone
        return self.merged + self.alone[2 * len(self.merged):]

    def reads(self, slot):
        """The qubits that are read in a slot, by row and column."""
        if slot == self.slots - 1:
            return sorted(q for region in self.alone for q in region.qubits)
        if slot != self.split:
            return []
        d = self.distance
        seams = [
            (y + down, x + d) for y, x in self.origins[:2 * len(self.merges):2] for down in range(d)
        ]
        return sorted(seams)

    def checks(self, slot):
        """The checks of a slot, each with its support, by row and column."""
        found = {}
        for region in self.regions(slot):
            found.update(region.checks)
        return sorted(found.items())

    def detectors(self):
        """How many detectors the schedule has."""
        quiet = len(self.checks(0))
        of_z = sum(1 for corner, _ in self.checks(0) if sum(corner) % 2 == 0)
        total = of_z + quiet * (self.slots - 2) + of_z
        if self.merges:
            merged = len(self.checks(self.start))
            total += (merged - quiet) * (self.distance - 1)
        return total


def plans(made):
    """What is measured in each slot; slots that are alike share it."""
    kept = {}
    for slot in range(made.slots):
        key = (slot == made.slots - 1, slot == made.split, made.start <= slot < made.split)
        if key not in kept:
            qubits = sorted(q for region in made.regions(slot) for q in region.qubits)
            kept[key] = made.reads(slot), qubits, made.checks(slot)
        yield kept[key]


def rows(made, seed, rate=RATE):
    """The rows of all slots, as texts."""
    words = Words(seed, 1)
    # the X and the Z errors that stand on qubits
    errors = {basis: {} for basis in "XZ"}
    for reads, qubits, checks in plans(made):
        bits = []
        for q in reads:
            hit = words.next() % rate == 0
            bits.append(errors["X"].pop(q, False) ^ hit)
            errors["Z"].pop(q, None)
        for basis in "XZ":
            stands = errors[basis]
            for q in qubits:
                if words.next() % rate == 0:
                    stands[q] = not stands.get(q, False)
        for (i, j), support in checks:
            # an even corner's check is a product of Z, which sees X errors
            stands = errors["X" if (i + j) % 2 == 0 else "Z"]
            odd = words.next() % rate == 0
            for q in support:
                odd ^= stands.get(q, False)
            bits.append(odd)
        yield "".join("1" if bit else "0" for bit in bits) + "\n"


def write(out, made, seed, rate=RATE):
    out.write(made.header())
    for row in rows(made, seed, rate):
        out.write(row)


def main():
    parser = argparse.ArgumentParser(description=__doc__.splitlines()[0])
    for name in ["distance", "patches", "slots", "seed"]:
        parser.add_argument("--" + name, type=int, required=True)
    parser.add_argument("--rate", type=int, default=RATE, help="one error in so many happens")
    args = parser.parse_args()
    made = Made(args.distance, args.patches, args.slots)
    write(sys.stdout, made, args.seed, args.rate)


if __name__ == "__main__":
    main()
