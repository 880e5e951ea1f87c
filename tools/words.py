"""Lines, words and numbers of the texts that the programs read."""


class Faulty(Exception):
    """A line that says nothing that can be used; its text says why."""


def words_of(line):
    uncommented = line.split(b"#")[0]
    return uncommented.replace(b"\t", b" ").replace(b"\r", b" ").split(b" ")


def lines_of(data):
    """Each line with a word, and its number."""
    lines = data.split(b"\n")
    for number, line in enumerate(lines, 1):
        words = [word for word in words_of(line) if word]
        if words:
            yield number, words


def number(words, at, bits):
    """The number at a word, counted from 1."""
    if at > len(words):
        raise Faulty(f"word {at} is missing")
    word = words[at - 1]
    if any(digit not in b"0123456789" for digit in word):
        raise Faulty(f"word {at} is not a decimal number")
    value = int(word.lstrip(b"0")[:21] or b"0")
    if value >= 1 << bits:
        raise Faulty(f"word {at} is too large")
    return value


def numbers(words, first, widths):
    return [number(words, at, bits) for at, bits in enumerate(widths, first)]


def end(words, last):
    if len(words) > last:
        raise Faulty(f"word {last + 1} is one too many")
