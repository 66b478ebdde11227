#!/usr/bin/env python3
"""Measures the reading of batches by ldar_facts, beside a plain Rust program (batches.rs) that reads the same bytes.

FACTS facts are read in batches of 512 from memory, PASSES times, once with all kinds in turn and once as readings alone.
Each pass reads them twice: one caller of the reader sums them and another counts them, since a reader with one caller is
inlined into it. The program crates/facts_bench is proved and built first, so rt and rustc must be on the path.
usage: batches.py [FACTS [PASSES]]     1000000 20 if left out
       batches.py --write FACTS        writes the batches of all kinds to standard output
"""
import pathlib
import resource
import subprocess
import sys
import tempfile

RUNS = 5

here = pathlib.Path(__file__).parent
crate = here.parent / "crates/facts_bench"


def number(width, value):
    return value.to_bytes(width, "big")


def body(kind, i):
    """The fields of the kind after day and minute, in their widths; i makes them differ."""
    component, unit, instrument, ppm = number(2, 1 + i % 60_000), number(1, 1 + i % 64), number(2, 1 + i % 200), number(4, i % 1_000_000)
    gas, later = number(4, 1 + i % 999_999), number(2, 13_879 + i % 33_603)
    plain = bytes([1 + i % 5, 0, 0, 1 + i % 3])
    unsafe = bytes([1 + i % 2, 2, 1 + i % 60, 1 + i % 3])
    name = f"UNIT-{i % 64}".encode().ljust(12, b"\0")
    return {
        1: unit + bytes([i % 2]) + name,
        2: component + unit + bytes([1 + i % 4, 0, i % 2]) + plain,
        3: component + unsafe,
        4: component,
        5: unit + bytes([(0, 1, 3)[i % 3]]) + later,
        6: unit + number(2, 1 + i % 366),
        7: instrument + gas,
        8: instrument + gas + ppm * 3,
        9: instrument + gas + ppm * 3,
        10: component + instrument + number(2, i % 50) + bytes([1 + i % 2]) + ppm + number(4, i % 10),
        11: component + bytes([i % 3]),
        12: component + bytes([i % 2]),
        13: component + bytes([i % 6]) + number(2, i % 50) + later,
        14: component,
        15: component + bytes([1 + i % 2, i % 2]),
    }[kind]


ALL_KINDS = range(1, 16)
READINGS = (10,)


def fact(i, kinds):
    kind = kinds[i % len(kinds)]
    return bytes([kind]) + number(2, 13_879 + i // 1_440 % 33_603) + number(2, i % 1_440) + body(kind, i)


def batches(facts, kinds):
    for first in range(0, facts, 512):
        count = min(512, facts - first)
        yield b"\x42" + number(2, 7) + number(4, first // 512) + number(2, count)
        yield from (fact(i, kinds) for i in range(first, first + count))


def seconds(program, path, passes):
    """The minimum processor time of a few runs, and the output."""
    best, told = None, None
    for _ in range(RUNS):
        before = resource.getrusage(resource.RUSAGE_CHILDREN)
        told = subprocess.run([program, "read", path, str(passes)], check=True, stdout=subprocess.PIPE, text=True).stdout
        after = resource.getrusage(resource.RUSAGE_CHILDREN)
        took = after.ru_utime + after.ru_stime - before.ru_utime - before.ru_stime
        best = took if best is None else min(best, took)
    return best, told


def main():
    facts, passes = (int(word) for word in (sys.argv[1:] + ["1000000", "20"][len(sys.argv) - 1:]))
    subprocess.run(["rt", "run", "--", "none", "key", "attempts", "1"], cwd=crate, check=True, stdout=subprocess.DEVNULL, stderr=subprocess.DEVNULL)
    with tempfile.TemporaryDirectory() as folder:
        rust = pathlib.Path(folder) / "rust"
        subprocess.run(["rustc", "-O", "--edition", "2021", "-o", rust, here / "batches.rs"], check=True)
        for name, kinds in (("all kinds", ALL_KINDS), ("readings", READINGS)):
            measure(folder, rust, name, facts, kinds, passes)


def measure(folder, rust, name, facts, kinds, passes):
    path = pathlib.Path(folder) / "batches"
    data = b"".join(batches(facts, kinds))
    path.write_bytes(data)
    print(f"{name}: {facts} facts in {len(data)} bytes, {passes} times by two callers")
    print(f"{'':6} {'facts a second':>15} {'MB a second':>12}")
    tolds, tooks = [], []
    for name, program in (("ours", crate / "out/facts_bench"), ("Rust", rust)):
        loaded, _ = seconds(program, path, 0)
        took, told = seconds(program, path, passes)
        each = (took - loaded) / passes / 2
        tolds.append(told)
        tooks.append(each)
        print(f"{name:6} {facts / each:15,.0f} {len(data) / each / 1e6:12.1f}")
    print(f"ours takes {tooks[0] / tooks[1]:.2f} times as long")
    if tolds[0] != tolds[1]:
        print("they read otherwise:", *tolds)


if sys.argv[1:2] == ["--write"]:
    sys.stdout.buffer.write(b"".join(batches(int(sys.argv[2]), ALL_KINDS)))
else:
    main()
