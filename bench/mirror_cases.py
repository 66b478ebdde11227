#!/usr/bin/env python3
"""Takes the answers of an office in every bad way, with the real program, until the mirror has all of them.

orders  the answers of seven batches in each of their 5,040 orders, in two runs: each answer is lost, comes once, or comes twice, by
        another of the 2,187 ways for each order. With answers of one batch; and each seventh order with longer ones that overlap
stops   a kill, a disk error and a full disk at each system call of a run of `mirror`, and each piece of memory refused
chain   a mirror of a mirror of a mirror, while the first office goes on; and the commands of docs/MIRROR.md
cuts    answers cut after each byte; a batch of another history; an answer that comes byte by byte

What each run prints is compared with a plain mirror below. Then all answers come again, and the mirror must have the first
office's `check` line, answers and views.
usage: mirror_cases.py [orders] [stops] [chain] [cuts]      without words: all, in some minutes
"""
import concurrent.futures
import functools
import itertools
import os
import random
import re
import resource
import subprocess
import sys
import tempfile
import time

import fault_cases
from cases import HERE, PROGRAM, case, ended, has, held, ldar
from desk_kit import batch, unit_fact, valve_fact

EMPTY = b"LDARJNL1" + bytes(9)
DAY, START = 19_773, 19_737  # 2024-02-20 and 2024-01-15
VIEWS = [f"show {it}".split() for it in ("due 1 2024-03-31", "tags 1 2024-03-31", "route 1 2024-03-31 2", "report 1 1 2024-04-30")]


# ---- the first office

def calibration(minute):
    return b"\7" + DAY.to_bytes(2, "big") + minute.to_bytes(2, "big") + b"\0\1" + (500).to_bytes(4, "big")


def reading(component, minute, ppm):
    return (b"\12" + b"".join(it.to_bytes(2, "big") for it in (DAY, minute, component, 1, 3)) + b"\1" + ppm.to_bytes(4, "big") + bytes(4))


# Each batch but the second needs an earlier one: in another order the office would deny it.
BATCHES = [
    batch(0, 1, [unit_fact(1, START, "CRUDE"), *(valve_fact(it, 1, START) for it in (1, 2, 3))]),
    batch(7, 1, [b"\10" + DAY.to_bytes(2, "big") + bytes([0, 60, 0, 1]) + (500).to_bytes(4, "big") * 4, calibration(300)]),
    batch(7, 2, [reading(1, 600, 700), reading(2, 601, 20), reading(3, 602, 499)]),
    batch(0, 2, [valve_fact(4, 1, DAY)]),
    batch(8, 1, [reading(4, 610, 20)]),
    batch(7, 3, [b"\14" + DAY.to_bytes(2, "big") + (700).to_bytes(2, "big") + b"\0\1\1"]),
    batch(7, 4, [reading(1, 720, 30)]),
]


def answer(start, batches):
    """An answer with these batches, which come after so many others (docs/MIRROR.md)."""
    return b"M" + start.to_bytes(4, "big") + bytes([len(batches)]) + b"".join(batches)


class First:
    """The first office, and what its mirrors must have in the end."""

    def __init__(self, batches):
        with open("first", "wb") as file:
            file.write(EMPTY)
        lines = ldar("first", "dock", given=b"".join(batches))[1].splitlines()
        case("the first office keeps its batches", sum(it.startswith(b"receipt ") for it in lines), len(batches))
        self.whole = [answer(at, batches[at : at + 16]) for at in range(0, len(batches), 16)]
        self.line, self.answers = ldar("first", "check")[1], ldar("first", "offer", "0")[1]
        case("and offers them", self.answers == b"".join(self.whole), True)
        self.views = [ldar("first", *it) for it in VIEWS]
        self.kept = f"journal {len(batches)} batches ".encode()

    def wrong_in(self, mirror, with_views=False):
        """What a mirror lacks after all answers came again, if anything."""
        status, lines = ldar(mirror, "mirror", given=self.answers)
        if status or not lines.endswith(f"mirrored {self.kept.split()[1].decode()}\n".encode()):
            return f"all answers again: status {status}, {lines}"
        found = ldar(mirror, "check")[1]
        if found != self.line:
            return f"{found}, not {self.line}"
        if ldar(mirror, "offer", "0")[1] != self.answers:
            return "its answers differ"
        return "its views differ" if with_views and [ldar(mirror, *it) for it in VIEWS] != self.views else None


def taken(has_now, answers):
    """What a plain mirror prints for answers, each given by the number of batches before it and its own, and how many it has then."""
    lines = []
    for start, count in answers:
        if start > has_now:
            lines.append(f"gap {start} {has_now}\n")
            continue
        has_now = max(has_now, start + count)
        lines.append(f"mirrored {has_now}\n")
    return "".join(lines).encode(), has_now


# ---- orders

def lossy(number, order, most):
    """Answers in an order as two runs: each lost, once or twice, by the digits of the number, and with one batch or at most so many."""
    chance = random.Random(number)
    times = [number // 3**place % 3 for place in range(len(order))]
    answers = [(start, min(chance.randint(1, most), len(BATCHES) - start)) for start in order]
    came = [it for it, count in zip(answers, times) if count]
    for it, count in zip(answers, times):
        if count == 2:
            came.insert(chance.randint(0, len(came)), it)
    cut = chance.randint(0, len(came))
    return came[:cut], came[cut:]


def after_order(first, folder, most, number, order):
    """What is wrong after answers in an order, if anything."""
    mirror = f"{folder}/{number}"
    with open(mirror, "wb") as file:
        file.write(EMPTY)
    has_now = 0
    for answers in lossy(number, order, most):
        given = b"".join(answer(start, BATCHES[start : start + count]) for start, count in answers)
        lines, has_now = taken(has_now, answers)
        got = ldar(mirror, "mirror", given=given)
        if got != (0, lines):
            return f"order {order}, answers {answers}: {got}, not {lines}"
    why = first.wrong_in(mirror)
    os.remove(mirror)
    return why and f"order {order}: {why}"


def orders():
    first = First(BATCHES)
    every = list(enumerate(itertools.permutations(range(len(BATCHES)))))
    with concurrent.futures.ThreadPoolExecutor(len(os.sched_getaffinity(0))) as lanes:
        for most, what, some in ((1, "answers of one batch", every), (4, "longer answers that overlap", every[::7])):
            one = functools.partial(after_order, first, os.getcwd(), most)
            wrong = [it for it in lanes.map(lambda it, one=one: one(*it), some) if it]
            case(f"{what} in {len(some):,} orders, lost and doubled: {len(wrong)} wrong", wrong[:5], [])


# ---- stops

def stops():
    """Whatever goes wrong while answers are taken, what was printed is kept, the journal opens, and all answers again make it whole."""
    first = First(BATCHES)
    parts = [answer(at, [it]) for at, it in enumerate(BATCHES)]
    with open("base", "wb") as file:
        file.write(EMPTY)
    ldar("base", "mirror", given=parts[0])
    given = b"".join(parts)
    if has("strace", "no system call of a mirror was made to fail"):
        fresh()
        calls = fault_cases.calls_of(["mirror", "mirror"], given, b"")
        for what in fault_cases.FAULTS:
            # (a wrong answer to brk or mmap is none of the kernel's, and the loader falls over it; want of memory is below)
            some = [it for it in calls if what == "signal=KILL" or it[0] not in ("brk", "mmap")]
            wrong = [after_stop(first, f"{name} {number}", lambda: fault_cases.with_fault(name, number, what, ["mirror", "mirror"], given))
                     for name, number, _ in some]
            case(f"a mirror with {what} at each of {len(some)} calls", [it for it in wrong if it], [])
    library = fault_cases.shim()
    if library:
        refusing = lambda number: fault_cases.refusing(library, number, ["mirror", "mirror"], given)
        fresh()
        _, asked = refusing(0)
        wrong = [after_stop(first, f"piece {number}", lambda: refusing(number)[0]) for number in range(1, asked + 1)]
        case(f"a mirror with each of {asked} pieces of memory refused", (asked > 0, [it for it in wrong if it]), (True, []))


def fresh():
    """The mirror with the first batch only."""
    with open("mirror", "wb") as file:
        file.write(held("base"))


LINES = [b"mirrored %d" % it for it in range(1, 8)] + [b"gap %d %d" % it for it in itertools.product(range(1, 7), repeat=2)] + [b"disk fault", b"memory"]
# As docs/ldar.1 has them; 127 is of a program that could not be loaded, and a signal's number is negative.
ENDS = (0, 3, 4, 5, 6, 127, -9)


def after_stop(first, where, run):
    """What is wrong with the mirror after a run that something stopped, if anything."""
    fresh()
    status, text = run()
    *lines, begun = text.split(b"\n")
    told = max([int(it.split()[1]) for it in lines if it.startswith(b"mirrored ")], default=1)
    ran, found = ldar("mirror", "check")
    if status not in ENDS or not set(lines) <= set(LINES) or not any(it.startswith(begun) for it in LINES):
        return f"{where}: status {status} with {text}"
    if ran or not told <= int(found.split()[1]) <= len(BATCHES):
        return f"{where}: {lines}, and then {found} with status {ran}"
    if ldar("mirror", "offer", "0")[1] != answer(0, BATCHES[: int(found.split()[1])]):
        return f"{where}: it does not have the first batches of the first office"
    why = first.wrong_in("mirror", with_views=True)
    return why and f"{where}: {why}"


# ---- a mirror of a mirror

def chain():
    more = [batch(9, number, [calibration(number)]) for number in range(1, 40)]
    first = First(BATCHES)
    names = ["second", "third", "fourth"]
    for it in names:
        with open(it, "wb") as file:
            file.write(EMPTY)
    case("a mirror of nothing has nothing to offer", ldar("second", "offer", "0"), (0, b""))
    for source, mirror in zip(["first", *names], names):
        # (the answer is taken only in part at first, and comes again whole)
        ldar(mirror, "mirror", given=ldar(source, "offer", "0")[1][:100])
        ldar(mirror, "mirror", given=answer(0, BATCHES[:2]))
        case(f"the {mirror} has all that the {source} offers", ldar(mirror, "mirror", given=ldar(source, "offer", "2")[1]), (0, b"mirrored 7\n"))
    for it in names:
        case(f"the {it}: all answers again", first.wrong_in(it, with_views=True), None)
    ldar("first", "dock", given=b"".join(more))
    with open("docs.sh", "w", encoding="utf-8") as file:
        file.write(documented())
    for source, mirror in zip(["first", *names], names):
        ran = subprocess.run(["sh", "docs.sh", source, mirror], capture_output=True)
        lines = b"mirrored 23\nmirrored 39\nmirrored 46\n"
        case(f"the command of docs/MIRROR.md, from the {source} to the {mirror}", (ran.returncode, ran.stdout, ran.stderr), (0, lines, b""))
    checked = [ldar(it, "check") for it in ["first", *names]]
    case("four offices: `check`", checked[1:], checked[:1] * 3)
    offered = [ldar(it, "offer", "0") for it in ["first", *names]]
    case("four offices: answers are the same", [it == offered[0] for it in offered], [True] * 4)
    case("after the last batch", ldar("fourth", "offer", "46"), (0, b""))
    case("after more batches than there are", ldar("fourth", "offer", "47"), (11, b""))


def documented():
    """The line by which docs/MIRROR.md takes what is new, for a first office $1 and a mirror $2."""
    with open(f"{HERE}/docs/MIRROR.md", encoding="utf-8") as file:
        line = re.search(r"^ +(held=.*ldar M check.*ldar A offer.*)$", file.read(), re.M)[1]
    for name, place in (("A", '"$1"'), ("M", '"$2"')):
        line = line.replace(f"ldar {name} ", f"{PROGRAM} {place} ")
    return line + "\n"


# ---- cuts

def cuts():
    first = First(BATCHES)
    parts = [answer(0, BATCHES[:3]), answer(3, BATCHES[3:])]
    given, borders = b"".join(parts), [0, len(parts[0]), sum(map(len, parts))]
    wrong = []
    for length in range(len(given) + 1):
        with open("mirror", "wb") as file:
            file.write(EMPTY)
        whole = [it for it in borders if it <= length]
        left = length - whole[-1]
        has_now = (0, 3, 7)[len(whole) - 1]
        wanted = 8 if left else 0, b"".join((b"mirrored 3\n", b"mirrored 7\n")[: len(whole) - 1]), f"input cut: {left} bytes left\n".encode() if left else b""
        ran = subprocess.run([PROGRAM, "mirror", "mirror"], input=given[:length], capture_output=True)
        if (ran.returncode, ran.stdout, ran.stderr) != wanted:
            wrong.append(f"{length} bytes: {ran.returncode} {ran.stdout} {ran.stderr}, not {wanted}")
        if int(ldar("mirror", "check")[1].split()[1]) != has_now:
            wrong.append(f"{length} bytes: not {has_now} batches")
        why = first.wrong_in("mirror")
        if why:
            wrong.append(f"{length} bytes: {why}")
    case(f"two answers of {len(given)} bytes, cut after each: {len(wrong)} wrong", wrong[:5], [])
    strangers(first)
    byte_by_byte()


def strangers(first):
    """A batch of another history ends the run, and changes nothing."""
    other = batch(7, 2, [reading(1, 600, 701)])
    for index in (1, 2, 3):
        batches = [*BATCHES[2 - (index - 1) : 2], other, BATCHES[3]]
        with open("mirror", "wb") as file:
            file.write(EMPTY)
        ldar("mirror", "mirror", given=answer(0, BATCHES[:4]))
        kept = held("mirror")
        ran = subprocess.run([PROGRAM, "mirror", "mirror"], input=answer(3 - index, batches) + first.answers, capture_output=True)
        case(f"another batch in place {index}", (ran.returncode, ran.stdout, ran.stderr, held("mirror") == kept), (11, b"", f"stranger {index}\n".encode(), True))
    case("then all answers again", first.wrong_in("mirror", with_views=True), None)


def byte_by_byte():
    """An answer that comes byte by byte is not read again from its beginning: twice the bytes take about twice the time."""
    library = fault_cases.shim()
    if not library:
        return
    took = []
    for count in (4, 8, 16):
        given = answer(0, [batch(7, number, [calibration(number)] * 512) for number in range(count)])
        with open("slow", "wb") as file:
            file.write(EMPTY)
        before = resource.getrusage(resource.RUSAGE_CHILDREN)
        said = ldar("slow", "mirror", given=given, env={**os.environ, "LD_PRELOAD": library, "ONE_BYTE": "1"})
        after = resource.getrusage(resource.RUSAGE_CHILDREN)
        took.append(after.ru_utime + after.ru_stime - before.ru_utime - before.ru_stime)
        case(f"an answer of {len(given):,} bytes that comes byte by byte", said, (0, f"mirrored {count}\n".encode()))
    print(f"       in {', '.join(f'{it:.2f}' for it in took)} seconds")
    case("twice the bytes take at most three times as long", all(b <= 3 * a for a, b in zip(took, took[1:])), True)


PARTS = {"orders": orders, "stops": stops, "chain": chain, "cuts": cuts}


def main():
    # A file in memory makes the syncs of some 50,000 runs quick; the system calls are the same.
    where = "/dev/shm" if os.access("/dev/shm", os.W_OK) else None
    with tempfile.TemporaryDirectory(dir=where) as folder:
        for name in sys.argv[1:] or PARTS:
            os.chdir(tempfile.mkdtemp(dir=folder))
            began = time.monotonic()
            PARTS[name]()
            print(f"       {name}: {time.monotonic() - began:.0f} seconds", flush=True)
        os.chdir(HERE)
    ended()


main()
