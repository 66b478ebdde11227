#!/usr/bin/env python3
"""Measures the opening of a journal by the real program, beside a plain Rust program (journal.rs).

Journals of FACTS facts are made, in batches of one fact and of 512, and opened by `dock` with an empty input. Shows the
minimum processor time of some runs taken in turn, and the memory.
rt and rustc must be on the path. usage: journal.py [--beside PROGRAM] [FACTS..]
FACTS: 100000 200000 400000 by default. PROGRAM: another build of ldar, for example of an earlier commit, measured in the same run.
"""
import pathlib
import resource
import struct
import subprocess
import sys
import tempfile

WORDS = sys.argv[1:]
BESIDE = pathlib.Path(WORDS[1]).resolve() if WORDS[:1] == ["--beside"] else None
SIZES = [int(word) for word in (WORDS[2:] if BESIDE else WORDS)] or [100_000, 200_000, 400_000]
RUNS = 15

here = pathlib.Path(__file__).parent
ldar = here.parent / "ldar"


def batch(number, count):
    """A batch of calibrations, a minute apart."""
    facts = b"".join(struct.pack(">BHHHI", 7, 19_773 + i // 1440, i % 1440, 1, 500) for i in range(count))
    return struct.pack(">BHIH", 66, 7, number, count) + facts


def journal(path, facts, count):
    """A journal of that many facts, in batches of count, one batch a frame."""
    with open(path, "wb") as file:
        file.write(b"LDARJNL1" + bytes(8))
        for number in range(facts // count):
            payload = batch(number, count)
            file.write(struct.pack(">BI", 1, len(payload)) + payload)
        file.write(b"\0")


def processor_time(words):
    """The processor time in seconds of a run."""
    before = resource.getrusage(resource.RUSAGE_CHILDREN)
    subprocess.run(words, check=True, stdin=subprocess.DEVNULL, stdout=subprocess.DEVNULL)
    after = resource.getrusage(resource.RUSAGE_CHILDREN)
    return after.ru_utime + after.ru_stime - before.ru_utime - before.ru_stime


def memory_of(words):
    """The peak resident memory of a run in KiB."""
    # By /usr/bin/time, since a child of this process would count this process's own memory as its own.
    told = subprocess.run(["/usr/bin/time", "-f", "%M", *words], check=True, stdin=subprocess.DEVNULL,
                          stdout=subprocess.DEVNULL, stderr=subprocess.PIPE, text=True)
    return int(told.stderr.split()[-1])


def measured(commands):
    """For each of the commands the minimum processor time of some runs, taken in turn, and the memory."""
    best = {name: float("inf") for name in commands}
    for _ in range(RUNS):
        for name, words in commands.items():
            best[name] = min(best[name], processor_time(words))
    return {name: (best[name], memory_of(words)) for name, words in commands.items()}


def main():
    subprocess.run([ldar, ":memory:", "init"], check=True)
    program = here.parent / "crates/ldar_cli/out/ldar_cli"
    with tempfile.TemporaryDirectory() as folder:
        rust = pathlib.Path(folder) / "rust"
        subprocess.run(["rustc", "-O", "--edition", "2021", "-o", rust, here / "journal.rs"], check=True)
        empty = pathlib.Path(folder) / "empty"
        journal(empty, 0, 1)
        programs = [("ours", [program], ["dock"])] + ([("other", [BESIDE], ["dock"])] if BESIDE else []) + [("Rust", [rust], [])]
        bases = {name: memory_of([*before, empty, *after]) for name, before, after in programs}
        print(f"{'facts':>8} {'a batch':>8}" + "".join(f" {name + ' s':>9} {'ratio':>6} {'B a fact':>9}" for name, _, _ in programs))
        for facts in SIZES:
            for count in (1, 512):
                path = pathlib.Path(folder) / "journal"
                journal(path, facts, count)
                told = measured({name: [*before, path, *after] for name, before, after in programs})
                plain = told["Rust"][0]
                print(f"{facts:8} {count:8}" + "".join(
                    f" {took:9.3f} {took / plain:6.2f} {(memory - bases[name]) * 1024 / (facts // count * count):9.0f}"
                    for name, (took, memory) in told.items()))


main()
