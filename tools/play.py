#!/usr/bin/env python3
"""Plays random inputs through carwatch and through the slow reading, and compares.

    tools/play.py COUNT [SEED] [PROGRAM]

The inputs follow from the seed alone. It stops at the first difference, keeps
that input in played.bin and names the first line that differs.
"""

import random
import subprocess
import sys
from collections import Counter
from pathlib import Path

import slow_reading

ROOT = Path(__file__).resolve().parent.parent
PROGRAM = ROOT / "crates" / "carwatch" / "out" / "carwatch"
KEPT = ROOT / "played.bin"


def two(n):
    return n.to_bytes(2, "big")


def four(n):
    return n.to_bytes(4, "big")


def record(letter, car, length=0, word=0):
    return letter.encode() + b"\0" + two(car) + four(length) + four(word)


# ---- tables ------------------------------------------------------------------


def some_window(dice, reach):
    """A window that clock pairs admit."""
    while True:
        b = dice.choice([1, 2, 3, 5, 8, dice.randint(1, reach), reach])
        a = dice.choice([0, b - 1, b // 2, dice.randrange(b)])
        if slow_reading.admitted(a, b):
            return a, b


class Table:
    """Rows along a chain, in a shuffled order of their numbers."""

    def __init__(self, dice, timed, rules, reach):
        self.dice, self.reach = dice, reach
        self.rows = []  # letter, number, left, right, a, b; operands are places
        self.windows = []
        self.usable = []
        for bit in dice.sample(range(4), dice.randint(1, 3)):
            self.add("P", bit)
        for _ in range(timed):
            for _ in range(dice.choice([0, 0, 1, 2])):
                self.add(dice.choice("NAOP"))
            self.add(dice.choice("DBS"))
        for rule in dice.sample(range(16), rules):
            self.add("R", rule)
        self.numbers = dice.sample(range(1, len(self.rows) + 1 + dice.choice([0, 0, 2])), len(self.rows))

    def operand(self):
        """Mostly one of the last rows, so that timed rows nest."""
        return self.dice.choice(self.usable[-3:] if self.dice.random() < 0.7 else self.usable)

    def add(self, letter, number=None):
        if number is None:
            number = self.dice.randrange(4) if letter == "P" else 0
        left = self.operand() if letter != "P" else None
        right = self.operand() if letter in "AOS" else None
        a, b = some_window(self.dice, self.reach) if letter in "DBS" else (0, 0)
        if letter in "DBS":
            self.windows.append((a, b))
        if letter != "R":
            self.usable.append(len(self.rows))
        self.rows.append((letter, number, left, right, a, b))

    def data(self):
        count = max(self.numbers)
        slots = [self.dice.randbytes(16) for _ in range(count)]
        for place, (letter, number, left, right, a, b) in enumerate(self.rows):
            later = self.numbers[place + 1] if place + 1 < len(self.rows) else 0
            named = [0 if p is None else self.numbers[p] for p in (left, right)]
            head = letter.encode() + bytes([number, *named, later, 0, 0, 0])
            slots[self.numbers[place] - 1] = head + four(a) + four(b)
        return b"LWRT" + bytes([count, self.numbers[0], 0, 0]) + b"".join(slots)


def damaged(dice, data):
    """One to three bytes altered, mostly to a small value or a letter that stands for something."""
    data = bytearray(data)
    for _ in range(dice.randint(1, 3)):
        value = dice.choice([0, 1, 2, 3, 5, 64, 65, 255, *b"PNAODBSR", dice.randrange(256)])
        data[dice.randrange(len(data))] = value
    return bytes(data)


# ---- records -----------------------------------------------------------------


def some_length(dice, windows, most):
    """Lengths at and beside the windows' bounds and widths, and any."""
    lengths = [1, 1, 2, dice.randint(1, 10), dice.randint(1, most)]
    for a, b in windows:
        lengths += [b - a, b - a + dice.choice([-1, 1, 2]), a + dice.choice([-1, 0, 1]), b + dice.choice([-1, 0, 1])]
    return min(max(1, dice.choice(lengths)), most)


def some_records(dice, cars, windows, ticks, most, damage):
    """Records of several cars in a mixed order, of so many ticks in all."""
    pieces = [record("R", car) for car in cars if dice.random() < 0.9]
    words = dice.choice([[0, 1], [0, 1, 2, 3], list(range(16)), [0, 1, 0xFFFFFFFE, 0xFFFFFFFF]])
    left = ticks
    while left > 0:
        car = dice.choice(cars)
        what = dice.random()
        if what < 0.012:
            pieces.append(record("R", car))
        elif what < 0.015:
            pieces.append(record("E", car))
        elif what < 0.015 + damage:
            pieces.append(damaged_record(dice, car))
        else:
            length = some_length(dice, windows, most)
            pieces.append(record("I", car, length, dice.choice(words)))
            left -= length
        left -= 1 if what < 0.015 + damage else 0
    return pieces


def damaged_record(dice, car):
    return dice.choice(
        [
            record("V", car, 1, 1),
            record("V", 0, 0, 1 << 16),
            record("I", car, 0, 1),
            record("I", car, dice.choice([864_001, 1 << 31, (1 << 32) - 1]), 1),
            record("I", 0, 1, 1),
            record("I", dice.randint(1, 65_535), 1, 1),
            record("R", dice.randint(0, 65_535)),
            record("R", car, 1),
            record("E", car, 0, 1),
            record("X", car),
            damaged(dice, record("I", car, 3, 1)),
        ]
    )


# ---- whole inputs --------------------------------------------------------------


def whole(cars, table, pieces):
    return bytes([len(cars) & 255]) + b"".join(map(two, cars)) + table + b"".join(pieces)


def sound_input(dice, ticks, reach, most, damage=0.0, timed=None):
    timed = dice.randint(0, 6) if timed is None else timed
    table = Table(dice, timed, dice.randint(1, 4), reach)
    limit = min(32, slow_reading.MEMORIES // max(1, timed))
    cars = dice.sample(range(1, 65_536), dice.choice([1, 2, 3, limit]) if limit > 3 else 1)
    pieces = some_records(dice, cars, table.windows, ticks, most, damage)
    return cars, table.data(), pieces


def short(dice):
    return whole(*sound_input(dice, 400, 20, 40))


def nested(dice):
    return whole(*sound_input(dice, 1_500, 120, 200, 0.0, dice.randint(4, 12)))


def damaged_records(dice):
    data = whole(*sound_input(dice, 300, 20, 40, 0.3))
    return data[: len(data) - dice.choice([0, 0, 1, 5, 11])]


def damaged_table(dice):
    cars, table, pieces = sound_input(dice, 60, 20, 40)
    return whole(cars, damaged(dice, table), pieces)


def wrong_rows(dice):
    """A table with one wrong rule, window, operand or next."""
    table = Table(dice, dice.randint(1, 4), dice.randint(1, 3), 20)
    how = dice.choice(["rule twice", "no rule", "window", "operand", "next"])
    at = dice.randrange(len(table.rows))
    if how == "rule twice":
        table.rows[-1] = table.rows[-1][:1] + (dice.randrange(3),) + table.rows[-1][2:]
        table.rows.append(table.rows[-1])
        table.numbers.append(max(table.numbers) + 1)
    elif how == "no rule":
        table.rows = [row for row in table.rows if row[0] != "R"]
    elif how == "window":
        timed = [i for i, row in enumerate(table.rows) if row[0] in "DBS"]
        wrong = [(96, 97), (95, 96), (863_999, 864_000), (0, 864_001), (3, 3), (4, 3), (0, 864_000)]
        at = dice.choice(timed)
        table.rows[at] = table.rows[at][:4] + dice.choice(wrong)
    data = bytearray(table.data())
    if how in ("operand", "next"):
        byte = {"operand": dice.choice([2, 3]), "next": 4}[how]
        data[8 + 16 * (table.numbers[at] - 1) + byte] = dice.randint(0, data[4] + 1)
    cars = dice.sample(range(1, 65_536), dice.choice([1, 4, 16]))
    return whole(cars, bytes(data), some_records(dice, cars, table.windows, 60, 40, 0.0))


def damaged_cars(dice):
    cars, table, pieces = sound_input(dice, 60, 20, 40)
    how = dice.randrange(4)
    if how == 0:
        cars.insert(dice.randrange(len(cars) + 1), dice.choice([0, dice.choice(cars)]))
    elif how == 1:
        cars = []
    elif how == 2:
        cars = dice.sample(range(1, 65_536), dice.randint(30, 40))
    else:
        cars = dice.sample(range(1, 65_536), dice.randint(20, 32))
    return whole(cars, table, pieces)


def cut_off(dice):
    data = short(dice)
    return data[: dice.choice([0, 1, 2, dice.randrange(60), dice.randrange(len(data))])]


def long_history(dice):
    ticks = dice.choice([20_000, 50_000, 120_000])
    return whole(*sound_input(dice, ticks, dice.choice([100, 3_000, 20_000]), ticks // 8))


def whole_days(dice):
    """Records of up to a day, and windows that reach as far."""
    return whole(*sound_input(dice, 1_200_000, slow_reading.DAY, slow_reading.DAY, 0.0, dice.randint(1, 2)))


KINDS = [short] * 6 + [nested] * 4 + [damaged_records] * 3 + [damaged_table] * 2
KINDS += [wrong_rows] * 4
KINDS += [damaged_cars, cut_off, long_history]
KINDS = KINDS * 3 + [whole_days]


# ---- playing -------------------------------------------------------------------


def first_difference(ours, theirs):
    for i in range(max(len(ours), len(theirs))):
        mine = ours[i] if i < len(ours) else "(no line)"
        other = theirs[i] if i < len(theirs) else "(no line)"
        if mine != other:
            return f"line {i + 1}: slow reading `{mine}`, program `{other}`"
    return None


def expected(kind, data):
    lines = slow_reading.reading(data)
    if kind is short and slow_reading.reading(data, literal=True) != lines:
        raise SystemExit("the slow reading differs from its own literal form")
    return lines


def play(count, seed, program):
    seen = Counter()
    for i in range(count):
        dice = random.Random(f"{seed}/{i}")
        kind = dice.choice(KINDS)
        data = kind(dice)
        ours = expected(kind, data)
        run = subprocess.run([program], input=data, capture_output=True)
        theirs = run.stdout.decode(errors="replace").splitlines()
        difference = first_difference(ours, theirs)
        if difference is None and run.returncode != 0:
            difference = f"the program ended with status {run.returncode}"
        if difference is not None:
            KEPT.write_bytes(data)
            print(f"input {i} of seed {seed} ({kind.__name__}), kept in {KEPT.relative_to(ROOT)}")
            print(difference)
            return 1
        seen.update(tally(ours))
    print(f"{count} inputs of seed {seed}: no difference")
    print(", ".join(f"{name} {seen[name]}" for name in sorted(seen)))
    return 0


def tally(lines):
    """What was seen: the lines' letters, and refusals by number."""
    for line in lines:
        words = line.split()
        yield f"X{int(words[1]):02}" if words[0] == "X" else words[0]


def main():
    if len(sys.argv) < 2:
        raise SystemExit(__doc__)
    seed = sys.argv[2] if len(sys.argv) > 2 else "1"
    program = sys.argv[3] if len(sys.argv) > 3 else str(PROGRAM)
    sys.exit(play(int(sys.argv[1]), seed, program))


if __name__ == "__main__":
    main()
