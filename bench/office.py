#!/usr/bin/env python3
"""Measures the program over a journal file: opening it, the percent and due views of a unit of 20,000 valves, and keeping batches,
beside a plain Rust program (office.rs) that makes the same writes and syncs.

Journals of FACTS facts are made, in batches of 512 facts and of one: the unit and its valves, and then readings, every 510 of them after a
precision test and a calibration of their instrument. A view's time is that of a run that opens and shows, less that of one that only opens.
16,000 batches of one fact are piped into a journal of a million facts, and 1,000 are sent one at a time, each after the line of the one
before; the same number of writes and syncs in a loop is timed too. Shows the minimum processor time of some runs, taken in turn, and for
batches the elapsed time; the memory is a run's peak, less that of a run over an empty journal.
rustc must be on the path. usage: office.py [FACTS..]    1000000 2000000 4000000 8000000 by default
"""
import datetime
import os
import pathlib
import resource
import shutil
import struct
import subprocess
import sys
import tempfile
import time

SIZES = [int(word) for word in sys.argv[1:] if word.isdigit()] or [1_000_000, 2_000_000, 4_000_000, 8_000_000]
RUNS = 3

here = pathlib.Path(__file__).parent
ldar = here.parent / "ldar"
program = here.parent / "crates/ldar_cli/out/ldar_cli"

BEGIN = 18_276
VALVES = 20_000
FIRST_DAY = 19_000


def facts_of(count):
    """That many facts: the handheld of each, and its bytes."""
    yield 0, struct.pack(">BHHBB12s", 1, BEGIN, 0, 1, 0, b"CRUDE")
    for valve in range(1, VALVES + 1):
        yield 0, struct.pack(">BHHHBBBBBBBB", 2, BEGIN, 0, valve, 1, 1, 0, 0, 1, 0, 0, valve % 3 + 1)
    for place in range(count - VALVES - 1):
        group, index = divmod(place, 512)
        day, instrument = FIRST_DAY + group // 2, group % 200 + 1
        if index == 0:
            yield instrument, struct.pack(">BHHHIIII", 8, day, 0, instrument, 500, 500, 500, 500)
        elif index == 1:
            yield instrument, struct.pack(">BHHHI", 7, day, 1, instrument, 500)
        else:
            ppm = 700 if place % 997 == 0 else place % 499
            yield instrument, struct.pack(">BHHHHHBII", 10, day, index, place % VALVES + 1, instrument, 1, 1, ppm, 2)


def last_day(count):
    return FIRST_DAY + max(0, count - VALVES - 2) // 512 // 2


def journal(path, count, most):
    """A journal of that many facts, in batches of at most that size, one batch a frame."""
    with open(path, "wb") as file:
        file.write(b"LDARJNL1" + bytes(8))
        number = 0
        held, facts = None, []

        def put():
            nonlocal number
            if facts:
                payload = struct.pack(">BHIH", 66, held, number, len(facts)) + b"".join(facts)
                file.write(struct.pack(">BI", 1, len(payload)) + payload)
                number += 1
                facts.clear()

        for handheld, fact in facts_of(count) if count else ():
            if handheld != held or len(facts) == most:
                put()
                held = handheld
            facts.append(fact)
        put()
        file.write(b"\0")


def calibrations(count):
    """That many batches of one calibration, of a handheld that no other batch has."""
    return b"".join(struct.pack(">BHIHBHHHI", 66, 9_999, number, 1, 7, 19_773, number % 1_440, 1, 500) for number in range(count))


def timed(words, given=b""):
    """The processor time and elapsed time of a run in seconds, and the output."""
    before, began = resource.getrusage(resource.RUSAGE_CHILDREN), time.monotonic()
    told = subprocess.run(list(map(str, words)), check=True, input=given, stdout=subprocess.PIPE).stdout
    passed, after = time.monotonic() - began, resource.getrusage(resource.RUSAGE_CHILDREN)
    return after.ru_utime + after.ru_stime - before.ru_utime - before.ru_stime, passed, told


def memory_of(words):
    """The peak resident memory of a run in bytes."""
    # By /usr/bin/time, since a child of this process would count this process's own memory as its own.
    told = subprocess.run(["/usr/bin/time", "-f", "%M", *map(str, words)], check=True, stdin=subprocess.DEVNULL,
                          stdout=subprocess.DEVNULL, stderr=subprocess.PIPE, text=True)
    return int(told.stderr.split()[-1]) * 1024


def least(programs, words, given=b""):
    """For each program the minimum processor and elapsed time of some runs in turn; their output must be the same."""
    best = [[float("inf")] * 2 for _ in programs]
    for _ in range(RUNS):
        said = []
        for program, times in zip(programs, best):
            took, passed, told = timed([program, *words], given)
            times[0], times[1] = min(times[0], took), min(times[1], passed)
            said.append(told)
        if len(set(said)) > 1:
            sys.exit(f"they answer otherwise: {[told[:200] for told in said]}")
    return best


def day_text(day):
    return str(datetime.date(1970, 1, 1) + datetime.timedelta(day))


def words_of(work, count):
    """The words of a view on the last day of that many facts."""
    day = day_text(last_day(count))
    first = 2020 * 12 + 3  # the unit's first quarter begins in April 2020: its startup is 2020-01-15
    quarter = (int(day[:4]) * 12 + int(day[5:7]) - 1 - first) // 3 + 1
    return {"check": ["check"], "percent": ["show", "percent", 1, quarter, day], "due": ["show", "due", 1, day]}[work]


def opened(programs, folder):
    """Opening and views, by size."""
    path, empty = folder / "journal", folder / "empty"
    journal(empty, 0, 1)
    bases = [memory_of([it, empty, "check"]) for it in programs]
    print(f"{'facts':>8} {'a batch':>8} {'':8} {'ours s':>8} {'Rust s':>8} {'ratio':>6} {'growth':>7} {'Rust':>7} {'B a fact':>9} {'Rust':>9}", flush=True)
    before = {}
    for facts in SIZES:
        for most in (512, 1):
            journal(path, facts, most)
            opening = least(programs, [path, "check"])
            for work in ("check", "percent", "due"):
                words = [path, *words_of(work, facts)]
                both = opening if work == "check" else least(programs, words)
                ours, plain = (took[0] - (0 if work == "check" else base[0]) for took, base in zip(both, opening))
                memory = [(memory_of([it, *words]) - base) / facts for it, base in zip(programs, bases)]
                old = before.get((work, most))
                growth = ("", "") if old is None else tuple(f"{now / was:.2f}" for now, was in zip((ours, plain), old))
                before[work, most] = (ours, plain)
                print(f"{facts:8} {most:8} {work:8} {ours:8.3f} {plain:8.3f} {ours / plain:6.2f} {growth[0]:>7} {growth[1]:>7}"
                      f" {memory[0]:9.0f} {memory[1]:9.0f}", flush=True)


def one_at_a_time(words, batches):
    """The elapsed time from the first batch to the last line, each batch sent after the line of the one before, and the processor time."""
    with subprocess.Popen(list(map(str, words)), stdin=subprocess.PIPE, stdout=subprocess.PIPE) as process:
        process.stdin.write(batches[0])
        process.stdin.flush()
        told = [process.stdout.readline()]
        spent = lambda: int(pathlib.Path(f"/proc/{process.pid}/schedstat").read_text().split()[0]) / 1e9
        began, before = time.monotonic(), spent()
        for batch in batches[1:]:
            process.stdin.write(batch)
            process.stdin.flush()
            told.append(process.stdout.readline())
        passed, took = time.monotonic() - began, spent() - before
        process.stdin.close()
    return took, passed, b"".join(told)


def loop(path, frames, size):
    """The elapsed time of only the writes and syncs of that many frames of that many bytes."""
    with open(path, "r+b", buffering=0) as file:
        file.seek(0, 2)
        at, frame = file.tell() - 1, bytes(size + 5)
        began = time.monotonic()
        for _ in range(frames):
            os.pwrite(file.fileno(), frame, at + 1)
            os.fsync(file.fileno())
            os.pwrite(file.fileno(), b"\1", at)
            os.fsync(file.fileno())
            at += 5 + size
        return time.monotonic() - began


def frames_of(path):
    """The number of frames of a journal, and their mean length without the 5 bytes before them."""
    data = path.read_bytes()
    at, frames = 16, 0
    while data[at]:
        at += 5 + int.from_bytes(data[at + 1 : at + 5], "big")
        frames += 1
    return frames, (at - 16) // max(frames, 1) - 5


def docked(programs, folder):
    """Batches that are added to a journal of a million facts."""
    whole, path = folder / "whole", folder / "journal"
    journal(whole, 1_000_000, 512)
    base = least(programs, [whole, "check"])
    print(f"{'batches':>8} {'':12} {'ours ms':>8} {'Rust ms':>8} {'ratio':>6}   time that passed: ms a batch, ours and Rust, and the loop's; ours to the loop")
    for count, piped in ((16_000, True), (1_000, False)):
        given, best, alone = calibrations(count), [[float("inf")] * 2 for _ in programs], float("inf")
        one = len(given) // count
        for _ in range(RUNS):
            said = []
            for it, times in zip(programs, best):
                shutil.copyfile(whole, path)
                words = [it, path, "dock"]
                took, passed, told = timed(words, given) if piped else one_at_a_time(words, [given[at : at + one] for at in range(0, len(given), one)])
                times[0], times[1] = min(times[0], took), min(times[1], passed)
                said.append(told)
            if len(set(said)) > 1:
                sys.exit("they answer otherwise")
            shutil.copyfile(whole, path)
            alone = min(alone, loop(path, count // 16 if piped else count, one * (16 if piped else 1)))
        ours, plain = ((took[0] - opening[0] * piped) * 1e3 for took, opening in zip(best, base))
        passed = [(took[1] - opening[1] * piped) * 1e3 / count for took, opening in zip(best, base)]
        print(f"{count:8} {'piped' if piped else 'one by one':12} {ours:8.1f} {plain:8.1f} {ours / plain:6.2f}"
              f"   {passed[0]:.4f} {passed[1]:.4f} {alone * 1e3 / count:.4f}; {passed[0] * count / alone / 1e3:.2f}", flush=True)


def main():
    subprocess.run([ldar, ":memory:", "init"], check=True)
    with tempfile.TemporaryDirectory() as name:
        folder = pathlib.Path(name)
        rust = folder / "rust"
        subprocess.run(["rustc", "-O", "-A", "dead_code", "--edition", "2021", "-o", rust, here / "office.rs"], check=True)
        docked((program, rust), folder)
        opened((program, rust), folder)


if __name__ == "__main__":
    main()
