#!/usr/bin/env python3
"""Writes the input of carwatch for a measurement: as many cars as asked, a table of twelve rows of which four are
timed, and records of all cars mixed, each of inputs with up to so many ticks. The same numbers give the same bytes.

usage: generate.py RECORDS CARS [seed [ticks]] > input
"""
import random
import struct
import sys


def row(letter, number, left, right, after, a=0, b=0):
    return struct.pack(">cBBBB3xII", letter.encode(), number, left, right, after, a, b)


# three inputs, four timed rows, an and, an or, three rules
ROWS = [
    ("P", 0, 0, 0, 0, 0),
    ("P", 1, 0, 0, 0, 0),
    ("P", 2, 0, 0, 0, 0),
    ("D", 0, 1, 0, 2, 40),
    ("B", 0, 2, 0, 0, 25),
    ("S", 0, 2, 3, 1, 60),
    ("D", 0, 3, 0, 7, 80),
    ("A", 0, 4, 5, 0, 0),
    ("O", 0, 6, 7, 0, 0),
    ("R", 0, 4, 0, 0, 0),
    ("R", 1, 8, 0, 0, 0),
    ("R", 2, 9, 0, 0, 0),
]


def table():
    head = b"LWRT" + bytes([len(ROWS), 1, 0, 0])
    rows = [
        row(letter, number, left, right, i + 2 if i + 1 < len(ROWS) else 0, a, b)
        for i, (letter, number, left, right, a, b) in enumerate(ROWS)
    ]
    return head + b"".join(rows)


def record(letter, car, ticks, word):
    return struct.pack(">cxHII", letter.encode(), car, ticks, word)


def records(count, cars, chance, ticks):
    out = [record("R", car, 0, 0) for car in cars][:count]
    while len(out) < count:
        car = chance.choice(cars)
        kind = chance.random()
        if kind < 0.001:
            out.append(record("E", car, 0, 0))
            out.append(record("R", car, 0, 0))
        elif kind < 0.002:
            out.append(record("I", 60_000, 1, 0))
        else:
            out.append(record("I", car, chance.randint(1, ticks), chance.getrandbits(3)))
    return out[:count]


def main():
    count, size = int(sys.argv[1]), int(sys.argv[2])
    chance = random.Random(int(sys.argv[3]) if len(sys.argv) > 3 else 1)
    ticks = int(sys.argv[4]) if len(sys.argv) > 4 else 30
    cars = [37 * i + 1 for i in range(size)]
    out = sys.stdout.buffer
    out.write(bytes([size]) + b"".join(struct.pack(">H", car) for car in cars))
    out.write(table())
    out.write(b"".join(records(count, cars, chance, ticks)))


main()
