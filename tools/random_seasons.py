#!/usr/bin/env python3
"""Runs random seasons through a built seasonbook and through seasonbook.py, and compares every byte.

    python3 tools/random_seasons.py crates/seasonbook/out/seasonbook 0 1000

The two numbers are the first seed and the one behind the last. A season on which the two differ is printed by its seed, and
written to /tmp/season.SEED. Some seasons ask for tables that no memory holds; the program then fails, as it should.
"""
import collections
import random
import subprocess
import sys

import seasonbook

JUNK = ["x", "-1", "+3", "1.5", "0x10", "\x00", "\xff", "\x0b", "255", "256", "65535", "65536"]
JUNK += ["4294967295", "4294967296", "18446744073709551615", "18446744073709551616", "9" * 40]
STRAYS = ["bogus 1 2", "#only", "", "\x0b", "row 1 48 1 1 5", "terms 2 1 5", "tables 1 1 1", "TERMS"]
PRIMARY = 101
SUPPLIERS = [PRIMARY, 102, 103, 1, 65_535]
# the methods of a site of so many places, and their balance places
METHODS = {2: [1, 1, 2, 3], 3: [4, 5], 4: [4, 6, 7]}
LAST_OF = {1: 1, 2: 1, 5: 2, 7: 3}
PERCENTAGES = {1: 0, 5: 1, 7: 2}


class Writer:
    """Writes one random season: mostly sound calls, with all that can be wrong in between."""

    def __init__(self, seed):
        self.random = random.Random(seed)
        self.lines = []
        self.places = self.pick([2, 2, 2, 3, 3, 4, 5, 8])
        self.days = self.pick([1, 2, 2, 3, 3, 5, 62])
        self.used_days = min(self.days, self.pick([1, 2, 3, 4]))
        self.capacity = self.pick([0, 5, 60, 1_000, 9_999_999])

    def pick(self, choices):
        return self.random.choice(choices)

    def chance(self, of):
        return self.random.random() < of

    def below(self, end):
        return self.random.randrange(end)

    def spoil(self, words):
        """Takes a word away, adds one, or puts junk in its place."""
        at = self.below(len(words))
        way = self.below(3)
        words[at : at + (way != 1)] = [] if way == 0 else [self.pick(JUNK)]

    def line(self, *values):
        words = [("0" * self.pick([1, 5, 30]) if self.chance(0.01) else "") + str(value) for value in values]
        words[0] = str(values[0])
        if self.chance(0.03):
            self.spoil(words)
        text = self.pick([" ", "\t", ""]) if self.chance(0.1) else ""
        text += "".join(word + self.pick([" "] * 5 + ["  ", "\t", " \r "]) for word in words)
        self.lines.append(text + (self.pick(["#", "# note", "#register 0 0 1"]) if self.chance(0.1) else ""))

    def day(self):
        return self.pick([self.below(self.used_days)] * 9 + [self.days - 1, self.days])

    def period(self):
        return self.pick([1 + self.below(48)] * 9 + [0, 1, 48, 49])

    def place(self):
        return self.pick([self.below(self.places)] * 12 + [self.places, self.places - 1])

    def moment(self, day):
        gate = seasonbook.gate(day)
        return self.pick([0, gate, gate, gate + 1, 2**32 - 1] if self.chance(0.4) else [gate - 1 - self.below(1_380)])

    def sender(self):
        return self.pick([PRIMARY] * 6 + SUPPLIERS + [0])

    def sound_row(self):
        method = self.pick(METHODS.get(self.places, [4, 6]))
        balance = LAST_OF.get(method, self.below(self.places) if method in (3, 4) else 1 + self.below(self.places - 1))
        most = self.capacity // self.places
        nominations = [self.pick([0, self.below(min(most, 50) + 1), self.below(most + 1)]) for _ in range(self.places)]
        if method in PERCENTAGES:
            nominations[PERCENTAGES[method]] = self.pick([7_000, 5_000, 1, 10_000, self.below(10_001)])
        nominations[balance] = 0
        if self.chance(0.05):
            nominations[self.below(self.places)] = self.pick([9_999_999, 10_000_000, 10_001, self.capacity + 1])
        return method, balance, nominations

    def row(self):
        since = self.pick([1, 1, 1, 0, 1 + self.below(48)]) if self.chance(0.5) else 1
        until = self.pick([48, 48, 48, 49, 1 + self.below(48)])
        if self.chance(0.7):
            method, balance, nominations = self.sound_row()
        else:
            method, balance = self.below(9), self.below(self.places + 1)
            nominations = [self.pick([0, 5, self.below(10_001)]) for _ in range(self.below(self.places + 2))]
        if self.chance(0.03):
            nominations = (nominations + [0] * 9)[: self.pick([8, 9])]
        self.line("row", since, until, method, balance, *nominations)

    def register(self, place=None):
        place = self.place() if place is None else place
        self.line("register", place, self.day(), 0 if self.chance(0.03) else self.pick(SUPPLIERS))

    def schedule(self):
        day = self.day()
        self.line("schedule", self.sender(), day, self.moment(day))
        for _ in range(self.pick([0, 1, 1, 1, 2, 3])):
            self.row()
            if self.chance(0.1):
                self.lines.append(self.pick(["", "   ", "# c", "\t#row 1", "rows 1 2", "row", "Row 1 48 1 1 1"]))

    def readings(self, day):
        count = self.pick([48] * 8 + [0, 1, 47, 49, 1 + self.below(48)])
        quality = self.pick([0, 1, 1, 2, 2, 3]) if self.chance(0.3) else 2
        figures = [self.pick([0, 0, 9, 20, 30, 5_000, self.below(100), 9_999_999]) for _ in range(count)]
        self.line("readings", day, quality, *figures)

    def reading(self):
        kwh = self.pick([0, 20, 30, self.below(200), 9_999_999, 10_000_000])
        self.line("reading", self.day(), self.period(), self.pick([0, 1, 2, 2, 2, 2, 3]), kwh)

    def end(self):
        day = self.day()
        self.line("end", self.sender(), day, self.moment(day))

    def issue(self):
        self.line("issue", self.day(), self.pick([0, 1, 1, 1, 1, 2, 3] if self.chance(0.5) else [1]))

    def statement(self):
        count = self.pick([0, 1, 2, self.below(100), 4_096, 4_097])
        self.line("statement", self.pick([0, 0, 1, self.below(200), 5_000]), count)

    def open(self):
        if self.chance(0.05):
            self.lines.append(self.pick(["issue 0 1", "tables 1 2 3", "row 1 48 1 1 7000", "nothing"]))
        places = self.pick([0, 1, 9, 255]) if self.chance(0.01) else self.places
        days = self.pick([0, 63]) if self.chance(0.01) else self.days
        self.line("terms", places, days, 10_000_000 if self.chance(0.01) else self.capacity)
        if self.chance(0.3):
            holders, rows = self.pick([0, 1, 2, self.places, 20]), self.pick([0, 47, 48, 95, 96, 200])
            self.line("tables", holders, rows, self.pick([0, 1, 10, 100, 500, 48 * self.places]))

    def any_call(self):
        calls = [self.register, self.schedule, self.schedule, self.reading, self.issue, self.issue, self.statement]
        calls += [lambda: self.readings(self.day())] * 2
        calls += [lambda: self.line("volume", self.day(), self.period(), self.place())]
        calls += [self.end if self.chance(0.4) else self.issue]
        calls += [lambda: self.lines.append(self.pick(STRAYS)) if self.chance(0.2) else self.register()]
        self.pick(calls)()

    def season(self):
        self.open()
        for place in range(self.places):
            if self.chance(0.95):
                self.line("register", place, 0, self.pick(SUPPLIERS) if place else PRIMARY)
        for _ in range(self.pick([1, 5, 15, 40])):
            self.any_call()
        day = self.below(self.used_days)
        for run in 1, 2, 1:
            self.readings(day)
            self.line("issue", day, run)
            self.register()
        return "\n".join(self.lines).encode("latin-1") + (b"\n" if self.chance(0.7) else b"")


def main():
    program, first, behind = sys.argv[1], int(sys.argv[2]), int(sys.argv[3])
    differing, without_memory, met = 0, 0, collections.Counter()
    for seed in range(first, behind):
        data = Writer(seed).season()
        for quiet in False, True:
            ran = subprocess.run([program] + ["--quiet"] * quiet, input=data, capture_output=True)
            if ran.returncode == 1 and b"memory allocation failed" in ran.stderr and not ran.stdout:
                without_memory += 1
            elif ran.stdout != seasonbook.season(data, quiet) or ran.returncode != 0 or ran.stderr:
                differing += 1
                print(f"seed {seed}{' quietly' * quiet}: the two differ")
                with open(f"/tmp/season.{seed}", "wb") as file:
                    file.write(data)
        met.update(line.split()[2] for line in ran.stdout.decode("latin-1").split("\n") if " refused " in line)
    refusals = ", ".join(f"{number} ({times})" for number, times in sorted(met.items(), key=lambda pair: int(pair[0])))
    print(f"seasons {behind - first}, each run twice; differing {differing}, without memory {without_memory}")
    print(f"refusals met: {refusals}")
    sys.exit(differing > 0)


if __name__ == "__main__":
    main()
