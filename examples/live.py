"""Runs a schedule live: sends its rows one by one, and waits for each release before its slot's row.

    python3 examples/live.py examples/teleport.txt [PROGRAM WORD ..]

The program is crates/swiper/out/swiper decode where no other is given. Before the row of slot t is
sent, the line of each condition of slot t or earlier has to have come; the script ends with
status 1 where one doesn't come within ten seconds. After each row it waits for lines that come sooner
than they have to, until a twentieth of a second brings none.
"""
import os
import select
import subprocess
import sys
import time

PATIENCE = 10.0
GLANCE = 0.05


class Lines:
    """The whole lines that a pipe has given so far."""

    def __init__(self, pipe):
        self.pipe = pipe.fileno()
        self.rest = b""

    def within(self, seconds):
        """The lines of the first bytes that come within so many seconds; none after the end."""
        ready, _, _ = select.select([self.pipe], [], [], max(seconds, 0))
        if not ready:
            return []
        more = os.read(self.pipe, 65536)
        if not more:
            return []
        self.rest += more
        *whole, self.rest = self.rest.split(b"\n")
        return [line.decode() for line in whole]

    def to_the_end(self):
        """All further lines."""
        text = self.rest
        while more := os.read(self.pipe, 65536):
            text += more
        return text.decode().splitlines()


def split(path):
    """The header's lines, up to `rounds`, and the rows."""
    with open(path, encoding="ascii") as file:
        lines = file.read().splitlines()
    end = lines.index("rounds") + 1
    return lines[:end], lines[end:]


def slots_of_conditions(header):
    """The slot of each condition, by its label."""
    fields = [line.split() for line in header]
    return {f[1]: int(f[3]) for f in fields if f[:1] == ["cond"]}


def note(released, lines):
    """Prints the lines, and notes the labels that are released in them."""
    for line in lines:
        print(f"          <- {line}")
        word, *rest = line.split()
        if word == "release":
            released.add(rest[0])


def send(program, line):
    """Sends a line; to a program that has ended it is lost."""
    try:
        program.stdin.write(line.encode() + b"\n")
        program.stdin.flush()
    except BrokenPipeError:
        pass


def play(program, header, rows):
    """Sends header and rows; false where a release doesn't come in time."""
    answers = Lines(program.stdout)
    slots = slots_of_conditions(header)
    released = set()
    for line in header:
        send(program, line)
    for slot, row in enumerate(rows):
        due = {label for label, its in slots.items() if its <= slot}
        stop = time.monotonic() + PATIENCE
        while not due <= released:
            if program.poll() is not None or time.monotonic() > stop:
                print(f"slot {slot}: no release of {sorted(due - released)}")
                return False
            note(released, answers.within(stop - time.monotonic()))
        print(f"slot {slot:4} -> {row}")
        send(program, row)
        while lines := answers.within(GLANCE):
            note(released, lines)
    finish(program, answers)
    return True


def finish(program, answers):
    """Ends the input, and prints what is said at the end."""
    program.stdin.close()
    for line in answers.to_the_end():
        print(f"          <- {line}")


def main():
    if len(sys.argv) < 2:
        sys.exit(__doc__)
    words = sys.argv[2:] or ["crates/swiper/out/swiper", "decode"]
    header, rows = split(sys.argv[1])
    try:
        program = subprocess.Popen(words, stdin=subprocess.PIPE, stdout=subprocess.PIPE)
    except FileNotFoundError:
        sys.exit(f"{words[0]} isn't there: build it as README.md says")
    if not play(program, header, rows):
        program.kill()
        return 1
    return program.wait()


if __name__ == "__main__":
    sys.exit(main())
