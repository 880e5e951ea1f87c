#!/usr/bin/env python3
"""What the program seasonbook must print for the season on standard input, worked out without it.

    python3 tools/seasonbook.py [--quiet] < SEASON

It follows docs/SEASONBOOK.md, docs/BOOK.md and docs/REFUSALS.md, and keeps maps where the book has tables. A table that is
lent always fits here, and holds what calls wrote, so the refusals 11, 12 and 13 cannot be met.
"""
import struct
import sys

from splitting import MAX_KWH, PERIODS, split
from words import Faulty, end, lines_of, number, numbers

MAX_RECORDS = 4_096
DAY_OF_PERIODS = range(1, PERIODS + 1)


class Refused(Exception):
    def __init__(self, number, spot):
        super().__init__(f"refused {number} {spot}")


def refuse(number, spot, is_wrong):
    if is_wrong:
        raise Refused(number, spot)


def gate(day):
    return 1_440 * day + 1_380


def header(kind, count):
    return b"SSM" + struct.pack(">HBH", 1, kind, count)


def latest(entries, subject, day):
    """The entry of the subject with the latest day not after the given one, from a map by subject and day."""
    days = [on for of, on in entries if of == subject and on <= day]
    return entries[subject, max(days)] if days else None


class Book:
    """Each call answers what is printed behind `ok`, and the lines under it."""

    def __init__(self, places, days, capacity):
        refuse(7, 1, not 2 <= places <= 8)
        refuse(7, 2, not 1 <= days <= 62)
        refuse(7, 3, capacity > MAX_KWH)
        self.places, self.days, self.capacity = places, days, capacity
        self.room = (512, PERIODS * days, 65_536)
        self.holders, self.rows, self.readings, self.issued = {}, {}, {}, {}
        self.journal, self.end_day, self.closed = [], None, set()
        self.was_split = {}

    def has_ended(self, day):
        return self.end_day is not None and day >= self.end_day

    def register(self, place, day, supplier):
        refuse(8, 1, place >= self.places)
        refuse(8, 2, day >= self.days)
        refuse(8, 3, supplier == 0)
        needed = len(self.holders | {(place, day): supplier})
        refuse(21, needed, needed > self.room[0])
        self.holders[place, day] = supplier
        return "", []

    def shares(self, row, period, kwh):
        method, balance, nominations = row
        if any(nominations[self.places :]):
            return None
        return split(method, self.capacity, nominations[: self.places], balance, period, kwh)

    def schedule(self, sender, day, moment, rows):
        refuse(8, 1, sender == 0)
        refuse(8, 2, day >= self.days)
        for period in DAY_OF_PERIODS:
            refuse(9, period, self.shares(rows[period], period, 0) is None)
        refuse(10, gate(day), moment > gate(day))
        refuse(14, day, latest(self.holders, 0, day) != sender)
        refuse(15, self.end_day, self.has_ended(day))
        put = self.rows | {(period, day): rows[period] for period in DAY_OF_PERIODS}
        refuse(21, len(put), len(put) > self.room[1])
        self.rows = put
        return (header(4, 1) + struct.pack(">HHI", day, sender, moment)).hex(), []

    def reading(self, day, period, quality, kwh):
        refuse(8, 1, day >= self.days)
        refuse(8, 2, period not in DAY_OF_PERIODS)
        refuse(8, 3, quality not in (1, 2))
        refuse(8, 4, kwh > MAX_KWH)
        refuse(16, day, day in self.closed)
        refuse(17, period, quality == 1 and self.readings.get((day, period), (0, 0))[0] == 2)
        self.readings[day, period] = quality, kwh
        return "", []

    def end(self, sender, day, moment):
        refuse(8, 1, sender == 0)
        refuse(8, 2, day >= self.days)
        refuse(10, gate(day), moment > gate(day))
        refuse(14, day, latest(self.holders, 0, day) != sender)
        refuse(15, self.end_day, self.end_day is not None)
        self.end_day = day
        return "", []

    def slots(self, day):
        """What each place is to have in each period: its holder, or 0, and its share."""
        ended = self.has_ended(day)
        for period in DAY_OF_PERIODS:
            kwh = self.readings[day, period][1]
            row = None if ended else latest(self.rows, period, day)
            shares = self.shares(row, period, kwh) if row else [kwh] + [0] * (self.places - 1)
            for place in range(self.places):
                is_held = place == 0 or not ended
                yield period, place, latest(self.holders, place, day) if is_held else 0, shares[place]

    def issue(self, day, run):
        refuse(8, 1, day >= self.days)
        refuse(8, 2, run not in (1, 2))
        refuse(16, day, day in self.closed)
        for period in DAY_OF_PERIODS:
            refuse(18, period, (day, period) not in self.readings)
        for place in range(1 if self.has_ended(day) else self.places):
            refuse(19, place, latest(self.holders, place, day) is None)
        lines, slots = [], {}
        for period, place, holder, share in self.slots(day):
            supplier, volume = self.issued.get((day, period, place), (0, 0))
            sent = [(holder, share - volume)] if supplier == holder else [(supplier, -volume), (holder, share)]
            lines += [(day, period, place, to, run, kwh) for to, kwh in sent if kwh != 0]
            slots[day, period, place] = holder, share
        needed = len(self.journal) + len(lines)
        refuse(20, needed, needed > self.room[2])
        self.journal += lines
        self.issued |= slots
        self.was_split |= {(day, period): self.readings[day, period][1] for period in DAY_OF_PERIODS}
        if run == 2:
            self.closed.add(day)
        return str(len(lines)), ["  " + " ".join(map(str, line)) for line in lines]

    def volume(self, day, period, place):
        refuse(8, 1, day >= self.days)
        refuse(8, 2, period not in DAY_OF_PERIODS)
        refuse(8, 3, place >= self.places)
        supplier, volume = self.issued.get((day, period, place), (0, 0))
        return f"{max(volume, 0)} {max(-volume, 0)}" if supplier else "none", []

    def statement(self, first, count):
        refuse(8, 1, first > len(self.journal))
        refuse(8, 2, count > min(MAX_RECORDS, len(self.journal) - first))
        lines = self.journal[first : first + count]
        return (header(3, count) + b"".join(struct.pack(">HBBHBi", *line) for line in lines)).hex(), []

    def tables(self):
        """The two tables at the end."""
        yield from ["", "DAY PERIOD KWH LINES"]
        for (day, period), kwh in sorted(self.was_split.items()):
            lines = sum(line[5] for line in self.journal if line[:2] == (day, period))
            yield f"{day} {period} {kwh} {lines} {'agrees' if lines == kwh else 'differs'}"
        yield from ["", "SUPPLIER KWH"]
        for supplier in sorted({line[3] for line in self.journal}):
            yield f"{supplier} {sum(line[5] for line in self.journal if line[3] == supplier)}"


# the widths of the numbers of each line, in bits; a row and readings have more words after them
WIDTHS = {
    b"terms": [8, 16, 32],
    b"tables": [64, 64, 64],
    b"register": [8, 16, 16],
    b"schedule": [16, 16, 32],
    b"row": [8, 8, 8, 8],
    b"reading": [16, 8, 8, 32],
    b"readings": [16, 8],
    b"end": [16, 16, 32],
    b"issue": [16, 8],
    b"volume": [16, 8, 8],
    b"statement": [64, 64],
}


def given(words):
    """The numbers of a line."""
    name = words[0]
    if name not in WIDTHS:
        raise Faulty("unknown word")
    values = numbers(words, 2, WIDTHS[name])
    first = len(values) + 2
    fewest, most = {b"row": (0, 8), b"readings": (1, PERIODS)}.get(name, (0, 0))
    last = max(first + fewest, min(first + most, len(words) + 1))
    values += [number(words, at, 32) for at in range(first, last)]
    end(words, first + most - 1)
    if name == b"row" and not 1 <= values[0] <= values[1] <= PERIODS:
        raise Faulty("the periods are not within 1 to 48 in order")
    return values


class Season:
    def __init__(self, quiet):
        self.quiet, self.said = quiet, []
        self.book, self.calls, self.has_tables = None, 0, False
        # sender, day, moment and rows of a schedule whose rows may still go on
        self.open = None

    def call(self, call, *values):
        self.calls += 1
        try:
            answer, lines = call(*values)
        except Refused as refusal:
            self.said.append(f"{self.calls} {refusal}")
            return
        if not self.quiet:
            self.said += [f"{self.calls} ok {answer}".rstrip(), *lines]

    def close(self):
        if self.open:
            values, self.open = self.open, None
            self.call(self.book.schedule, *values)

    def line(self, words):
        name = words[0]
        if name != b"row":
            self.close()
        elif not self.open:
            raise Faulty("a row outside a schedule")
        values = given(words)
        if name == b"terms":
            if self.book:
                raise Faulty("terms stand once")
            self.book = Book(*values)
        elif not self.book:
            raise Faulty("a call before terms")
        elif name == b"tables":
            if self.has_tables or self.calls:
                raise Faulty("tables stand once, before the first call")
            self.has_tables, self.book.room = True, values
        elif name == b"schedule":
            self.open = *values, {period: (0, 0, [0] * 8) for period in DAY_OF_PERIODS}
        elif name == b"row":
            since, until, method, balance, *nominations = values
            row = method, balance, nominations + [0] * (8 - len(nominations))
            self.open[3].update({period: row for period in range(since, until + 1)})
        elif name == b"readings":
            day, quality, *figures = values
            for period, kwh in enumerate(figures, 1):
                self.call(self.book.reading, day, period, quality, kwh)
        else:
            self.call(getattr(self.book, name.decode()), *values)

    def run(self, data):
        for at, words in lines_of(data):
            try:
                self.line(words)
            except Faulty as fault:
                self.said.append(f"line {at}: {fault}")
            except Refused as refusal:
                return self.said + [f"terms {refusal}"]
        self.close()
        return self.said + list((self.book or Book(2, 1, 0)).tables())


def season(data, quiet=False):
    return "".join(line + "\n" for line in Season(quiet).run(data)).encode()


if __name__ == "__main__":
    sys.stdout.buffer.write(season(sys.stdin.buffer.read(), "--quiet" in sys.argv[1:]))
