#!/usr/bin/env python3
"""What the program halfhours must print for the table on standard input, worked out without it.

    python3 tools/halfhours.py < crates/halfhours/stdin | cmp - crates/halfhours/stdout
"""
import sys

from splitting import MAX_KWH, PERIODS, split
from words import Faulty, end, lines_of, number


def answer(words):
    period = number(words, 1, 8)
    if not 1 <= period <= PERIODS:
        raise Faulty("the period is outside 1 to 48")
    kwh = number(words, 2, 32)
    if kwh > MAX_KWH:
        raise Faulty(f"the energy is above {MAX_KWH} kWh")
    method, capacity, balance = number(words, 3, 8), number(words, 4, 32), number(words, 5, 8)
    last = max(6, min(21, len(words)))
    nominations = [number(words, at, 32) for at in range(6, last + 1)]
    end(words, last)
    shares = split(method, capacity, nominations, balance, period, kwh)
    said = "unlawful" if shares is None else " ".join(map(str, shares))
    return shares is not None, f"{period} {kwh}: {said}"


def main():
    lawful = unlawful = malformed = 0
    for at, words in lines_of(sys.stdin.buffer.read()):
        try:
            is_lawful, text = answer(words)
            lawful, unlawful = lawful + is_lawful, unlawful + (not is_lawful)
        except Faulty as fault:
            malformed += 1
            text = f"line {at}: {fault}"
        print(text)
    print(f"split {lawful}, unlawful {unlawful}, malformed {malformed}, differing 0")


if __name__ == "__main__":
    main()
