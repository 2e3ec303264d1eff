#!/usr/bin/env python3
"""Writes the fixed cases of carwatch: each crate's stdin, and the stdout that the slow reading gives."""

import random

import play
import slow_reading


def long(dice):
    return play.whole(*play.sound_input(dice, 300_000, 20_000, 30_000, 0.0, dice.randint(3, 6)))


def nested(dice):
    return play.whole(*play.sound_input(dice, 3_000, 60, 40, 0.0, dice.randint(8, 16)))


def damaged(dice):
    data = play.whole(*play.sound_input(dice, 400, 20, 40, 0.35, dice.randint(1, 4)))
    return data[: -dice.choice([1, 5, 11])]


# The seeds were chosen for wide and deeply nested windows, many verdict words and many refusals.
CASES = [("carwatch_long", long, 356), ("carwatch_nested", nested, 524), ("carwatch_damaged", damaged, 3)]


def main():
    for name, make, seed in CASES:
        data = make(random.Random(f"{name}/{seed}"))
        folder = play.ROOT / "crates" / name
        (folder / "stdin").write_bytes(data)
        (folder / "stdout").write_text("\n".join(slow_reading.reading(data)) + "\n")


if __name__ == "__main__":
    main()
