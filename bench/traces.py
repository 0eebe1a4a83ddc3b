#!/usr/bin/env python3
"""Prints what `swiper decode --workers 1` has to print of an input.

    python3 bench/traces.py [--plan KIND] [--commit N] [--buffer N] [--predict P] [--retries N]
        [--trace] [--certify] < INPUT

It plays the decoder that guesses, turn by turn, from the rules of docs/FORMATS.md, and shares nothing
with the program: the windows are those of `bench/plans.py`, each turn is looked for by trying all of
them in their order, and a least set is found by trying all sets of edges, the lighter ones first. It
is for small inputs with few defects, and it ends where two least sets commit different edges, since
either may be chosen. The input has to be a good one. With `--certify` the whole least sets have to
be the same, and no window may have more than two members: then each has just half of what the two
numbers come to, since the search gives to both alike.

`--case NAME` prints a case for `crates/swiper_cases/stdin` in place of the output: the input is read
from `--from TEXT`, whose lines are those of a text there, and then from standard input.
"""

import argparse
import sys
from collections import Counter

import plans
from generator import Words


def places_of(plan, x, w):
    """The detectors of window w that are ends of an edge of window x, ascending."""
    seen = set(plan.reached[w])
    ends = {v for e, owner in enumerate(plan.owner) if owner == x for v in plan.edges[e][0]}
    return sorted(seen & ends)


class Predictor:
    """Guesses a bit by the kind of predictor that its word names."""

    def __init__(self, word):
        self.word = word

    def guess(self, source, place, value, linked):
        if self.word == "zero":
            return False
        if self.word == "near":
            return value and linked
        seed = int(self.word.removeprefix("seed:"))
        return Words(seed, source * 2**32 + place).next() % 2 == 1


class Ticket:
    """A claim of a window: for each dependency the bits, and the ticket whose result they are."""

    def __init__(self, number, window):
        self.number, self.window = number, window
        # source: (bits, ticket's number or None for a guess)
        self.links = {}
        self.kept = None
        # with certificates, what stands after its commit
        self.shown = []


class Decoder:
    def __init__(self, plan, schedule, predictor, retries, certify):
        self.plan, self.predictor, self.retries = plan, predictor, retries
        self.certify = certify
        self.labels = list(plan.observables)
        self.windows = range(len(plan.cells))
        self.places = {
            (x, w): places_of(plan, x, w) for w in self.windows for x in plan.deps[w]
        }
        self.ops = [
            (label, names, next(op for op in plan.ops if op["label"] == label)["needs"])
            for label, names in schedule.conds
        ]
        self.rows = {}
        self.arrived = 0
        self.tickets = []
        self.running = {}  # of a window that isn't waiting its ticket's number
        self.done = set()
        self.poisons = Counter()
        self.released = {}
        self.log, self.trace, self.counts = [], [], Counter()

    # ---- values

    def bit(self, bits):
        return sum(self.rows[bit] for bit in bits) % 2 == 1

    def value(self, v):
        return self.bit(self.plan.detectors[v][2])

    def has_arrived(self, v):
        return self.plan.detectors[v][0] < self.arrived

    def kept(self):
        return [e for w in sorted(self.done) for e in self.tickets[self.running[w]].kept]

    def flip(self, label):
        return sum(label in self.plan.edges[e][1] for e in self.kept()) % 2 == 1

    def flips(self, x, w):
        """What the result of window x flips of its places with window w."""
        kept = self.tickets[self.running[x]].kept
        return [
            sum(v in self.plan.edges[e][0] for e in kept) % 2 == 1 for v in self.places[x, w]
        ]

    # ---- phases

    def stands(self, number):
        """Whether the ticket is that of a held or committed window."""
        ticket = self.tickets[number]
        return self.running.get(ticket.window) == number and ticket.kept is not None

    def pending(self):
        """The windows that are running or held, ascending."""
        return sorted(w for w in self.running if w not in self.done)

    # ---- events

    def arrive(self):
        self.say(f"arrive {self.arrived}", f"arrive {self.arrived}")
        self.arrived += 1

    def say(self, trace, log=None):
        self.trace.append(trace)
        if log is not None:
            self.log.append(log)

    def give_up(self, w):
        del self.running[w]
        self.poisons[w] += 1

    def drop(self):
        for w in self.pending():
            links = self.tickets[self.running[w]].links.values()
            if any(k is not None and not self.stands(k) for _, k in links):
                self.say(f"drop {w}")
                self.counts["dropped"] += 1
                self.give_up(w)
                return True
        return False

    def compare(self):
        for w in self.pending():
            links = self.tickets[self.running[w]].links
            for x in sorted(links):
                bits, number = links[x]
                if number is not None or x not in self.running:
                    continue
                if not self.stands(self.running[x]):
                    continue
                if bits == self.flips(x, w):
                    self.say(f"verify {x} {w}")
                    links[x] = bits, self.running[x]
                else:
                    self.say(f"poison {x} {w}")
                    self.counts["poisoned"] += 1
                    self.give_up(w)
                return True
        return False

    def commit(self):
        for w in self.pending():
            ticket = self.tickets[self.running[w]]
            based = all(
                k is not None and self.stands(k) and self.tickets[k].window in self.done
                for _, k in ticket.links.values()
            )
            if ticket.kept is not None and based:
                line = " ".join(["commit", str(w)] + [str(e) for e in ticket.kept])
                self.say(line, line)
                self.log += ticket.shown
                self.done.add(w)
                return True
        return False

    def release(self):
        for label, names, needs in self.ops:
            slots = [self.plan.observables[name][1] for name in names]
            if label in self.released or not set(needs) <= self.done:
                continue
            if any(slot >= self.arrived for slot in slots):
                continue
            raw = [self.bit(self.plan.observables[name][0]) for name in names]
            bit = (sum(raw) + sum(self.flip(name) for name in names)) % 2
            self.released[label] = bit
            self.say(f"release {label} {bit}", f"released {label} {bit}")
            return True
        return False

    def claim(self):
        for w in self.windows:
            deps = self.plan.deps[w]
            if w in self.running or self.plan.last[w] >= self.arrived:
                continue
            if self.poisons[w] >= self.retries and not set(deps) <= self.done:
                continue
            ticket = Ticket(len(self.tickets), w)
            words = ["claim", str(ticket.number), str(w)]
            for x in deps:
                if x in self.running and self.stands(self.running[x]):
                    ticket.links[x] = self.flips(x, w), self.running[x]
                    words.append(f"{x}={self.running[x]}")
                else:
                    bits = [self.guess(x, v) for v in self.places[x, w]]
                    ticket.links[x] = bits, None
                    words.append(f"{x}?" + "".join(str(int(b)) for b in bits))
                    self.counts["guessed"] += 1
            self.say(" ".join(words))
            self.counts["claims"] += 1
            self.tickets.append(ticket)
            self.running[w] = ticket.number
            ticket.kept = self.solve(ticket)
            self.say(f"hold {ticket.number}")
            return True
        return False

    def guess(self, x, v):
        def is_defect(u):
            return self.plan.home[u] == x and self.has_arrived(u) and self.value(u)

        linked = any(
            v in ends and any(is_defect(u) for u in ends)
            for e, (ends, _) in enumerate(self.plan.edges) if self.plan.owner[e] == x
        )
        return self.predictor.guess(x, v, self.value(v), linked)

    def work(self):
        while any(turn() for turn in (
            self.drop, self.compare, self.commit, self.release, self.claim
        )):
            pass

    # ---- least sets

    def solve(self, ticket):
        w = ticket.window
        seen = set(self.plan.reached[w])
        defects = {v for v in seen if self.value(v)}
        for x, (bits, _) in ticket.links.items():
            defects ^= {v for v, bit in zip(self.places[x, w], bits) if bit}
        at = {v: [e for e in self.plan.own[w] if v in self.plan.edges[e][0]] for v in seen}
        for bound in range(200):
            found = set()
            self.search(seen, at, frozenset(defects), frozenset(), bound, found)
            if found:
                kept = {tuple(sorted(e for e in s if self.plan.owner[e] == w)) for s in found}
                assert len(kept) == 1, f"window {w} may commit any of {kept}"
                if self.certify:
                    ticket.shown = self.certified(w, defects, found)
                return list(kept.pop())
        raise AssertionError("a window is too heavy")

    def certified(self, w, defects, found):
        """The lines after the window's commit."""
        assert len(found) == 1, f"window {w} may have any of {found}"
        assert len(defects) <= 2, f"window {w} has more than two members"
        whole = sorted(next(iter(found)))
        weight = sum(self.plan.weights[e] for e in whole)
        members = len(defects) + len(defects) % 2
        return [
            " ".join(["whole"] + [str(e) for e in whole]),
            " ".join(["vertex"] + [str(weight)] * members),
        ]

    def search(self, seen, at, defects, used, left, found):
        """The sets of just this further weight that explain the defects."""
        if not defects:
            if left == 0:
                found.add(used)
            return
        for e in at[min(defects)]:
            if e not in used and self.plan.weights[e] <= left:
                self.search(
                    seen, at, defects ^ (self.plan.edges[e][0] & seen), used | {e},
                    left - self.plan.weights[e], found,
                )


def played(text, options):
    """The lines that are put, and after how many rows each release was."""
    header, rows = text.split("rounds\n", 1)
    schedule = plans.parse(header)
    layout = plans.Layout(schedule)
    commit = schedule.distance + 1 if options.commit is None else options.commit
    buffer = schedule.distance if options.buffer is None else options.buffer
    plan = plans.windows_of(schedule, options.plan, commit, buffer)
    predictor = Predictor(options.predict)
    decoder = Decoder(plan, schedule, predictor, options.retries, options.certify)
    releases = []
    for t, row in enumerate(rows.splitlines()):
        bits = [(t, "q", q) for q in sorted(layout.reads(t))]
        bits += [(t, "c", corner) for corner in sorted(layout.checks(t))]
        assert len(bits) == len(row), f"row {t} has {len(bits)} bits"
        decoder.rows.update((bit, int(c)) for bit, c in zip(bits, row))
        before = len(decoder.released)
        decoder.arrive()
        decoder.work()
        given = list(decoder.released.items())[before:]
        releases += [f"release {label} {bit}" for label, bit in given]
    return releases + output(decoder, plan, options)


def output(decoder, plan, options):
    lines = ["log 1 certified" if options.certify else "log 1"] + decoder.log + ["end log"]
    if options.trace:
        names = ["claims", "guessed", "poisoned", "dropped", "stale"]
        counts = " ".join(f"{name} {decoder.counts[name]}" for name in names)
        lines += ["trace 1"] + decoder.trace + [f"counts {counts}", "end trace"]
    for label in decoder.labels:
        raw, flip = decoder.bit(plan.observables[label][0]), decoder.flip(label)
        lines.append(f"frame {label} {int(raw)} {int(flip)} {int(raw ^ flip)}")
    defects = sum(decoder.value(v) for v in range(len(plan.detectors)))
    kept = decoder.kept()
    lines.append(
        f"summary windows {len(plan.cells)} done {len(decoder.done)} defects {defects} "
        f"edges {len(kept)} weight {sum(plan.weights[e] for e in kept)}"
    )
    return lines


def main():
    parser = argparse.ArgumentParser(description=__doc__.splitlines()[0])
    parser.add_argument("--plan", choices=("sliding", "parallel"), default="sliding")
    parser.add_argument("--commit", type=int)
    parser.add_argument("--buffer", type=int)
    parser.add_argument("--predict", default="near")
    parser.add_argument("--retries", type=int, default=1)
    parser.add_argument("--trace", action="store_true")
    parser.add_argument("--certify", action="store_true")
    parser.add_argument("--case", metavar="NAME")
    parser.add_argument("--from", dest="text", metavar="TEXT")
    options = parser.parse_args()
    text = sys.stdin.read()
    lines = played(text, options)
    if options.case is None:
        print("\n".join(lines))
        return
    words = ["decode"]
    for name in ("plan", "commit", "buffer", "predict", "retries"):
        if f"--{name}" in sys.argv:
            words += [f"--{name}", str(getattr(options, name))]
    words += ["--trace"] * options.trace + ["--certify"] * options.certify
    header, rows = text.split("rounds\n", 1)
    print(f"case {options.case}\nwords {' '.join(words)}\nfrom {options.text}\ninput")
    print(rows, end="")
    print(f"expect\nstatus 0 took {len(text)}")
    print("\n".join(f"| {line}" for line in lines))
    print("end\n")


if __name__ == "__main__":
    main()
