#!/usr/bin/env python3
"""Docks and shows accepted facts that are chosen to be dear, with the real program: each load at N facts and at 4 N.

A load that takes linear time, or a little more, grows 4 to 5 times; quadratic time would grow 16 times. A load fails if it grows
more than 7 times, or if the larger one takes more than 2 seconds for each 100,000 facts. Times are the least of three runs.
usage: loads.py [--facts N] [NAME..]      N: 25000 if left out; NAME: loads whose names begin so
"""
import os
import pathlib
import random
import resource
import struct
import subprocess
import sys
import tempfile

HERE = pathlib.Path(__file__).resolve().parent
PROGRAM = HERE.parent / "crates/ldar_cli/out/ldar_cli"
DAY = 19_773   # 2024-02-20
FIRST = 18_276  # 2020-01-15
GROWTH, SECONDS, RUNS = 7, 2.0, 3
# Below this many seconds the start of the program counts for more than the load.
LEAST = 0.05


def head(kind, day, minute):
    return struct.pack(">BHH", kind, day, minute)


def unit(number=1):
    return head(1, FIRST, 0) + struct.pack(">BB12s", number, 0, b"CRUDE")


def component(number, kind=1, service=1, of=1):
    """A component of unit 1: kind 1 is a valve and 2 a pump; service 1 is gas and 2 light liquid."""
    return head(2, FIRST, 0) + struct.pack(">HBBBBBBBB", number, of, kind, 0, 0, service, 0, 0, 1)


def class_fact(number, day, minute, designation=0, plan=0, month=1):
    return head(3, day, minute) + struct.pack(">HBBBB", number, 1, designation, plan, month)


def election(day, mode):
    return head(5, day, 0) + struct.pack(">BBH", 1, mode, day - 91)


def shutdown(day, days=1):
    return head(6, day, 0) + struct.pack(">BH", 1, days)


def calibration(day, minute=300, gas=500, instrument=1):
    return head(7, day, minute) + struct.pack(">HI", instrument, gas)


def precision(day, minute=60, instrument=1):
    return head(8, day, minute) + struct.pack(">HIIII", instrument, 500, 500, 500, 500)


def drift(day, minute, value=440, instrument=1):
    return head(9, day, minute) + struct.pack(">HIIII", instrument, 500, value, value, value)


def reading(number, day, minute, ppm=20, instrument=1):
    return head(10, day, minute) + struct.pack(">HHHBII", number, instrument, 1, 1, ppm, 0)


def look(number, day, minute, state):
    return head(11, day, minute) + struct.pack(">HB", number, state)


def attempt(number, day, minute):
    return head(12, day, minute) + struct.pack(">HB", number, 0)


def delay(number, day, minute, ground, expected=DAY + 400):
    return head(13, day, minute) + struct.pack(">HBHH", number, ground, 9, expected)


def batch(handheld, number, facts):
    return struct.pack(">BHIH", 0x42, handheld, number, len(facts)) + b"".join(facts)


def batches(handheld, facts, size=512, reverse=False):
    """Facts in batches of up to 512, numbered from 1."""
    parts = [batch(handheld, 1 + at // size, facts[at:at + size]) for at in range(0, len(facts), size)]
    return b"".join(reversed(parts) if reverse else parts)


def register(*more, valves=1):
    return batches(0, [unit(), *(component(n) for n in range(1, valves + 1)), *more])


def office(facts, first=1_000_000):
    """Facts of the office itself, behind its register."""
    return b"".join(batch(0, first + at // 512, facts[at:at + 512]) for at in range(0, len(facts), 512))


READY = [precision(DAY - 10), calibration(DAY, 0)]
SHUFFLED = random.Random(7)


def drifts(n):
    return register() + batches(2, READY + [reading(1, DAY, 600) for _ in range(n // 2)] + [drift(DAY, 700) for _ in range(n // 2)])


def gases(n):
    facts = [precision(DAY - 10)] + [calibration(DAY, 300, 999_999) for _ in range(n // 2)] + [reading(1, DAY, 600) for _ in range(n // 2)]
    return register() + batches(2, facts)


def classes(n):
    days = [FIRST + i % 1_400 for i in range(n)]
    SHUFFLED.shuffle(days)
    return register() + office([class_fact(1, day, i % 1_440) for i, day in enumerate(days)])


def difficult(n):
    facts = [class_fact(1 + i % 500, FIRST + i % 1_400, i % 1_440, 3, 0, 1) for i in range(n)]
    return register(valves=20_000) + office(facts)


def delays(n):
    facts = READY + [reading(1, DAY, 600, 700)] + [delay(1, DAY + 1, i % 1_440, 1) for i in range(n)]
    return register() + batches(2, facts)


def looks(n):
    return register(component(9, 2, 2)) + batches(2, [look(9, FIRST + i % 1_400, i % 1_440, i % 3) for i in range(n)])


def elections(n):
    """Each of a first day of a quarter of unit 1, whose quarters begin in April, July, October and January."""
    days = [18_353, 18_444, 18_536, 18_628, 18_718, 18_809, 18_901, 18_993]
    return register() + office([election(days[i % 8], (0, 1, 3)[i % 3]) for i in range(n)])


def last_first(n):
    facts = READY + [reading(1 + i % 50, DAY - i % 8, i % 1_440) for i in range(n)]
    return register(valves=50) + batches(2, facts, reverse=True)


def precisions(n):
    facts = READY + [reading(1 + i % 50, DAY - i % 8, i % 1_440) for i in range(n)]
    return register(valves=50) + batches(2, facts) + batch(3, 1, [precision(DAY - i % 90, i) for i in range(512)])


def one_instrument(n):
    count = min(n, 59_999)
    return register(valves=count) + batches(2, READY + [reading(1 + i % count, DAY, 600) for i in range(n)])


def shutdowns(n):
    facts = READY + [reading(1, DAY, 600, 700), delay(1, DAY + 1, 0, 1)]
    return register() + batches(2, facts) + office([shutdown(DAY + 2 + i % 300) for i in range(n)])


def leaks(n):
    pairs = [f for i in range(n // 2) for f in (reading(1, DAY, i % 1_440, 700), attempt(1, DAY, i % 1_440))]
    return register() + batches(2, READY + pairs)


def single_batches(n):
    numbers = list(range(1, n + 1))
    SHUFFLED.shuffle(numbers)
    return register() + b"".join(batch(2 + number % 60_000, number, [calibration(DAY, number % 1_440)]) for number in numbers)


def calibrations(n):
    facts = [f for i in range(n // 2) for f in (calibration(DAY, i % 1_440), reading(1, DAY, i % 1_440))]
    return register() + batches(2, [precision(DAY - 10)] + facts)


def one_day(n):
    """Readings of one day, with calibrations and failed drift assessments before and after each of them."""
    facts = [f for i in range(n // 4) for f in (
        calibration(DAY, i % 1_440), reading(1, DAY, i % 1_440), drift(DAY, i % 1_440, 440 - i % 7), reading(2, DAY, i % 1_440, 490))]
    return register(valves=2) + batches(2, [precision(DAY - 10)] + facts)


LOADS = {
    "drifts": (drifts, "percent 1 16 2024-03-31"),
    "one day": (one_day, "percent 1 16 2024-03-31"),
    "gases": (gases, "percent 1 16 2024-03-31"),
    "classes": (classes, "due 1 2024-02-28"),
    "difficult": (difficult, "tags 1 2024-02-28"),
    "delays": (delays, "delays 1 2024-03-31"),
    "looks": (looks, "due 1 2024-02-28"),
    "elections": (elections, "percent 1 16 2024-03-31"),
    "last first": (last_first, "due 1 2024-02-28"),
    "precisions": (precisions, "percent 1 16 2024-03-31"),
    "one instrument": (one_instrument, "percent 1 16 2024-03-31"),
    "shutdowns": (shutdowns, "tags 1 2024-12-31"),
    "leaks": (leaks, "tags 1 2024-03-31"),
    "single batches": (single_batches, "tags 1 2024-03-31"),
    "calibrations": (calibrations, "percent 1 16 2024-03-31"),
}


def seconds(words, given=None):
    """The processor seconds of a run, which has to end with status 0, and its output."""
    before = resource.getrusage(resource.RUSAGE_CHILDREN)
    with open(given or os.devnull, "rb") as source:
        ran = subprocess.run([PROGRAM, *words], stdin=source, stdout=subprocess.PIPE, check=True)
    after = resource.getrusage(resource.RUSAGE_CHILDREN)
    return after.ru_utime + after.ru_stime - before.ru_utime - before.ru_stime, ran.stdout


def measured(make, view, n, folder):
    """The least seconds of a dock of the load, and of an opening that shows the view."""
    source, journal = f"{folder}/batches", f"{folder}/journal"
    pathlib.Path(source).write_bytes(make(n))
    docked, shown = [], []
    for _ in range(RUNS):
        pathlib.Path(journal).unlink(missing_ok=True)
        seconds([journal, "init"])
        took, lines = seconds([journal, "dock"], source)
        refused = [line for line in lines.splitlines() if not line.startswith(b"receipt ")]
        if refused:
            sys.exit(f"not a receipt: {refused[0].decode()}")
        docked.append(took)
        shown.append(seconds([journal, "show", *view.split()])[0])
    return min(docked), min(shown)


def main():
    words = sys.argv[1:]
    n = int(words[1]) if words[:1] == ["--facts"] else 25_000
    names = words[2:] if words[:1] == ["--facts"] else words
    failed = 0
    print(f"{'load':16} {'facts':>8} {'dock':>8} {'show':>8}   {'facts':>8} {'dock':>8} {'show':>8}   grown")
    with tempfile.TemporaryDirectory() as folder:
        for name, (make, view) in LOADS.items():
            if names and not any(name.startswith(it) for it in names):
                continue
            small, large = measured(make, view, n, folder), measured(make, view, 4 * n, folder)
            grown = max(b / max(a, LEAST) for a, b in zip(small, large))
            is_good = grown <= GROWTH and max(large) <= SECONDS * max(1, 4 * n / 100_000)
            failed += not is_good
            print(f"{name:16} {n:8} {small[0]:8.3f} {small[1]:8.3f}   {4 * n:8} {large[0]:8.3f} {large[1]:8.3f}   {grown:5.1f}"
                  f"{'' if is_good else '   TOO DEAR'}", flush=True)
    sys.exit(f"{failed} loads are too dear" if failed else 0)


main()
