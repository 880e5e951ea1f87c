"""The rules of splitting, written down once more in plain Python, from docs/RULES.md alone."""

MAX_KWH = 9_999_999
PERIODS = 48


def nearest(hundredths, kwh, period):
    """So many hundredths of a percent of the kWh; a half goes up in an odd period, down in an even one."""
    whole, rest = divmod(hundredths * kwh, 10_000)
    up = rest > 5_000 or (rest == 5_000 and period % 2 == 1)
    return whole + up


def percentage(row, period, kwh):
    nominations, balance, _ = row
    if len(nominations) != 2 or balance != 1 or nominations[0] > 10_000:
        return None
    part = nearest(nominations[0], kwh, period)
    return [part, kwh - part]


def capped_block(row, period, kwh):
    nominations, balance, _ = row
    if len(nominations) != 2 or balance != 1:
        return None
    part = min(nominations[0], kwh)
    return [part, kwh - part]


def blocks(least, most):
    def shares(row, period, kwh):
        nominations, balance, capacity = row
        if not least <= len(nominations) <= most or sum(nominations) > capacity:
            return None
        return [kwh - sum(nominations) if place == balance else own for place, own in enumerate(nominations)]

    return shares


def first_block(below):
    def shares(row, period, kwh):
        nominations, balance, capacity = row
        if len(nominations) < 3 or balance < 1:
            return None
        part = min(nominations[0], kwh)
        rest = below((nominations[1:], balance - 1, capacity), period, kwh - part)
        return rest and [part] + rest

    return shares


METHODS = {
    1: percentage,
    2: capped_block,
    3: blocks(2, 2),
    4: blocks(3, 8),
    5: first_block(percentage),
    6: first_block(blocks(3, 8)),
    7: first_block(first_block(percentage)),
}


def split(method, capacity, nominations, balance, period, kwh):
    """The share of each place, or None where the row is unlawful."""
    if method not in METHODS or balance >= len(nominations) or nominations[balance] != 0:
        return None
    if any(nomination > MAX_KWH for nomination in nominations):
        return None
    return METHODS[method]((nominations, balance, capacity), period, kwh)
