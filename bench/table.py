#!/usr/bin/env python3
"""Measures and prints one table: carwatch beside the same job in plain Rust, what a record costs by its number of ticks,
the calls of the window memories, and what the last gate run here took (gate.log). The programs have to be
built before (`make bench` does both).
"""
import os
import re
import subprocess
import sys
import tempfile
import time

ROOT = os.path.dirname(os.path.dirname(os.path.abspath(__file__)))
RECORDS = 200_000
CARS = 16
RUNS = 5


def row(what, case, figure):
    print(f"| {what} | {case} | {figure} |", flush=True)


def built(program):
    return f"{ROOT}/crates/{program}/out/{program}"


def read_rows(program):
    """The rows of the table that one of our measuring programs prints, without its two heading lines."""
    text = subprocess.run([built(program), "run"], check=True, capture_output=True, text=True).stdout
    return [[cell.strip() for cell in line.strip().strip("|").split("|")] for line in text.splitlines()[2:]]


def generated(folder, ticks):
    path = f"{folder}/{ticks}"
    with open(path, "wb") as out:
        words = [sys.executable, f"{ROOT}/bench/generate.py", str(RECORDS), str(CARS), "1", str(ticks)]
        subprocess.run(words, check=True, stdout=out)
    return path


def best(program, path, output):
    """The least seconds of some runs of a program on an input."""
    least = None
    for _ in range(RUNS):
        with open(path, "rb") as given, open(output, "wb") as out:
            began = time.perf_counter()
            subprocess.run([program], stdin=given, stdout=out, check=True)
            took = time.perf_counter() - began
        least = took if least is None else min(least, took)
    return least


def same(one, other):
    with open(one, "rb") as a, open(other, "rb") as b:
        return a.read() == b.read()


def carwatch(folder):
    plain = f"{folder}/plain"
    subprocess.run(["rustc", "-O", "-o", plain, f"{ROOT}/bench/plain/carwatch.rs"], check=True)
    for ticks in (30, 3_000, 300_000):
        path = generated(folder, ticks)
        ours = best(built("carwatch"), path, f"{folder}/ours")
        theirs = best(plain, path, f"{folder}/theirs")
        if not same(f"{folder}/ours", f"{folder}/theirs"):
            sys.exit("bench: carwatch and plain Rust print different lines")
        case = f"{RECORDS:,} records of up to {ticks:,} ticks, {CARS} cars"
        row("carwatch", case, f"{RECORDS / ours:,.0f} records a second")
        row("the same in plain Rust", case, f"{RECORDS / theirs:,.0f} records a second")
        row("carwatch to plain Rust", case, f"{ours / theirs:.2f} times as long")


def engine():
    for kind, ticks, nanoseconds, *_ in read_rows("engine_bench"):
        row("engine, one record, four timed rows", f"{kind}, {int(ticks):,} ticks", f"{nanoseconds} ns")


def memories():
    for kind, window, take, run, look, count, *_ in read_rows("memory_bench"):
        a, b = (f"{int(end):,}" for end in window.split(" to "))
        row("window memory", f"{kind}, {a} to {b}", f"take {take}, run {run}, look {look}, count {count} ns")


def gate():
    """How long the last gate run here took, and what rt says that it did; it keeps what earlier runs passed."""
    path = f"{ROOT}/gate.log"
    if not os.path.exists(path):
        row("gate", "all crates", "no run here yet (make test)")
        return
    with open(path) as log:
        text = log.read()
    done = re.search(r"^rt: ok(.*)$", text, re.M)
    whole = re.search(r"^gate: (.*)$", text, re.M)
    row("gate", done[1].strip(" :;,") if done else "not passed", whole[1] if whole else "not ended")


def main():
    print("| Measured | Case | Figure |")
    print("|---|---|---|")
    with tempfile.TemporaryDirectory() as folder:
        carwatch(folder)
    engine()
    memories()
    gate()


main()
