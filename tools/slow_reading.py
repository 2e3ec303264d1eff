#!/usr/bin/env python3
"""A slow reading of carwatch's input, written from the documents alone.

It keeps the whole history of a car and answers every row by the definition of
its window: no memory of a window, no aging, no marks. `slow_reading.py FILE`
(or standard input) prints what carwatch has to print. `--literal` asks each
tick of each window one by one; without it the ticks of a window that are yes
are counted by the difference of two prefix counts.
"""

import sys
from itertools import accumulate, groupby

DAY = 864_000
MEMORIES = 64
STRETCHES = 32
RECORD = 12


class Refused(Exception):
    def __init__(self, number, place):
        super().__init__(number, place)
        self.number, self.place = number, place


def number(data):
    return int.from_bytes(data, "big")


# ---- the input's parts -------------------------------------------------------


def parts(data):
    """The cars that came whole, the table's bytes that came, the pieces of the records."""
    count = data[0] if data else 0
    listed = data[1 : 1 + 2 * count]
    cars = [number(listed[i : i + 2]) for i in range(0, len(listed) - 1, 2)]
    rest = data[1 + 2 * count :]
    size = 8 + 16 * rest[4] if len(rest) >= 8 else 8
    records = rest[size:]
    pieces = [records[i : i + RECORD] for i in range(0, len(records), RECORD)]
    return cars, rest[:size], pieces


# ---- tables ------------------------------------------------------------------

# Which of number, left, right and window a letter uses; the greatest number.
USES = {
    "P": (31, False, False, False),
    "N": (0, True, False, False),
    "A": (0, True, True, False),
    "O": (0, True, True, False),
    "D": (0, True, False, True),
    "B": (0, True, False, True),
    "S": (0, True, True, True),
    "R": (15, True, False, False),
}


class Row:
    """A row as it lies in the table; left and right are row numbers."""

    def __init__(self, data):
        self.letter = chr(data[0])
        self.number, self.left, self.right, self.next = data[1:5]
        self.zeros = data[5:8]
        self.a, self.b = number(data[8:12]), number(data[12:16])


def admitted(a, b):
    return 1 + (b - 1) // (b - a + 2) <= STRETCHES


def judge_row(place, row, chain, row_count):
    """Raises the first refusal of the row; `chain` maps the rows taken before it."""
    if row.letter not in USES:
        raise Refused(4, place)
    top, left, right, timed = USES[row.letter]
    unused = [row.left] * (not left) + [row.right] * (not right)
    unused += [row.a, row.b] * (not timed)
    if row.number > top or any(unused) or any(row.zeros):
        raise Refused(5, place)
    for used, operand in ((left, row.left), (right, row.right)):
        if used and (operand not in chain or chain[operand].letter == "R"):
            raise Refused(6, place)
    if timed and not row.a < row.b <= DAY:
        raise Refused(7, place)
    if row.letter == "R" and any(
        r.letter == "R" and r.number == row.number for r in chain.values()
    ):
        raise Refused(8, place)
    if timed and not admitted(row.a, row.b):
        raise Refused(9, place)
    if row.next > row_count or row.next == place or row.next in chain:
        raise Refused(10, place)


def read_table(data):
    """The rows of the chain by their numbers, in the chain's order."""
    if len(data) < 8:
        raise Refused(1, 0)
    if data[:4] != b"LWRT":
        raise Refused(2, 0)
    row_count, first = data[4], data[5]
    if not 1 <= row_count <= 64 or not 1 <= first <= row_count or any(data[6:8]):
        raise Refused(3, 0)
    if len(data) != 8 + 16 * row_count:
        raise Refused(1, 0)
    chain = {}
    place = first
    while place != 0:
        row = Row(data[8 + 16 * (place - 1) : 8 + 16 * place])
        judge_row(place, row, chain, row_count)
        chain[place] = row
        place = row.next
    if not any(row.letter == "R" for row in chain.values()):
        raise Refused(11, 0)
    return chain


def judge_cars(cars):
    if not 1 <= len(cars) <= 32:
        raise Refused(12, 0)
    for i, car in enumerate(cars):
        if car == 0 or car in cars[:i]:
            raise Refused(12, i + 1)


def timed_rows(chain):
    return sum(row.letter in "DBS" for row in chain.values())


def set_up(cars, table):
    chain = read_table(table)
    judge_cars(cars)
    if len(cars) * timed_rows(chain) > MEMORIES:
        raise Refused(13, 0)
    return chain


# ---- records -----------------------------------------------------------------


def judge_record(piece, cars, running):
    """The letter, car, length and word of a record that can be taken."""
    if len(piece) != RECORD:
        raise Refused(14, 0)
    letter = chr(piece[0])
    if letter not in "RIE":
        raise Refused(15, 0)
    car, length, word = number(piece[2:4]), number(piece[4:8]), number(piece[8:12])
    if piece[1] != 0:
        raise Refused(16, 1)
    if car == 0:
        raise Refused(16, 2)
    if not (1 <= length <= DAY if letter == "I" else length == 0):
        raise Refused(16, 4)
    if letter != "I" and word != 0:
        raise Refused(16, 8)
    if car not in cars:
        raise Refused(17, car)
    if letter != "R" and car not in running:
        raise Refused(18, car)
    return letter, car, length, word


# ---- the meaning of rows over a whole history ----------------------------------


def some(yes, lows, highs, literal):
    """At each tick t: is `yes` at some tick from lows[t] to highs[t]?"""
    if literal:
        return [any(yes[u] for u in range(lo, hi + 1)) for lo, hi in zip(lows, highs)]
    before = list(accumulate(yes, initial=0))  # before[k]: how many yes below tick k
    return [lo <= hi and before[hi + 1] > before[lo] for lo, hi in zip(lows, highs)]


def window(row, ticks):
    """The first and last tick of the window at each tick; none where first > last."""
    lows = [0] * min(row.b, ticks) + list(range(0, max(0, ticks - row.b)))
    return lows, range(-row.a, ticks - row.a)


def unbroken_from(yes):
    """At each tick t the least u such that `yes` is yes from u to t (t + 1 for none)."""
    starts, start = [], 0
    for t, on in enumerate(yes):
        if not on:
            start = t + 1
        starts.append(start)
    return starts


def read_row(row, read, words, literal):
    """The row at each tick of the history `words`, by SEMANTICS.md."""
    left, right = read.get(row.left), read.get(row.right)
    if row.letter == "P":
        return [word >> row.number & 1 == 1 for word in words]
    if row.letter == "N":
        return [not f for f in left]
    if row.letter == "A":
        return [f and g for f, g in zip(left, right)]
    if row.letter == "O":
        return [f or g for f, g in zip(left, right)]
    if row.letter == "R":
        return left
    lows, highs = window(row, len(words))
    if row.letter == "D":
        return some(left, lows, highs, literal)
    if row.letter == "B":
        return [not v for v in some([not f for f in left], lows, highs, literal)]
    lows = [max(lo, start) for lo, start in zip(lows, unbroken_from(left))]
    return some(right, lows, highs, literal)


def verdict_words(chain, words, literal=False):
    """The verdict word of each tick of a history."""
    read = {}
    verdicts = [0] * len(words)
    for place, row in chain.items():
        read[place] = read_row(row, read, words, literal)
        if row.letter == "R":
            bit = 1 << row.number
            verdicts = [v | bit if on else v for v, on in zip(verdicts, read[place])]
    return verdicts


# ---- the whole output ----------------------------------------------------------


class History:
    """The ticks of a car since its restart, and where its records' notes go."""

    def __init__(self, car):
        self.car = car
        self.words = []
        self.cuts = []  # (line number of the output, first tick, tick after the last)

    def take(self, line, word, length):
        start = len(self.words)
        self.words.extend([word] * length)
        self.cuts.append((line, start, start + length))

    def write_notes(self, chain, lines, literal):
        verdicts = verdict_words(chain, self.words, literal)
        for line, start, end in self.cuts:
            for word, run in groupby(verdicts[start:end]):
                lines[line].append(f"V {self.car} {word} {sum(1 for _ in run)}")


def feed(piece, cars, running, lines):
    """Takes one piece; replies the history that it closes, if any."""
    lines.append([])
    try:
        letter, car, length, word = judge_record(piece, cars, running)
    except Refused as no:
        lines[-1].append(f"X {no.number} {no.place}")
        return None
    if letter == "I":
        running[car].take(len(lines) - 1, word, length)
        return None
    lines[-1].append(f"K {car}")
    closed = running.pop(car, None)
    if letter == "R":
        running[car] = History(car)
    return closed


def reading(data, literal=False):
    """The lines that carwatch has to print for these bytes."""
    cars, table, pieces = parts(data)
    try:
        chain = set_up(cars, table)
    except Refused as no:
        return [f"X {no.number} {no.place}"]
    rules = sum(row.letter == "R" for row in chain.values())
    lines = [[f"T {len(chain)} {rules} {timed_rows(chain)}"]]
    running = {}
    for piece in pieces:
        closed = feed(piece, cars, running, lines)
        if closed is not None:
            closed.write_notes(chain, lines, literal)
    for history in running.values():
        history.write_notes(chain, lines, literal)
    return [line for group in lines for line in group]


def main():
    names = [word for word in sys.argv[1:] if word != "--literal"]
    data = open(names[0], "rb").read() if names else sys.stdin.buffer.read()
    print("\n".join(reading(data, "--literal" in sys.argv)))


if __name__ == "__main__":
    main()
