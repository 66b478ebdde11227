#!/usr/bin/env python3
"""Measures the rule's functions on the life of a component: its events, its spans, its marks of all quarters and its
duties; an instrument that is calibrated each day, or all day, routes, and a repair that is delayed again and again. The yardstick
is a plain Rust program with the same functions (law.rs).

Each row is measured for a size and for twice that size, with half as many components if there are many: so the number of facts
is the same, and the processor's caches hold as much of them. The time for making the lives is subtracted. The sums over the
answers, which both programs must agree on, are included: of the marks, each pass adds that of one quarter. The program
crates/law_bench is proved and built first, so rt and rustc must be on the path.
usage: law.py [RUNS [PART]]            nanoseconds of processor time; 15 runs by default
       law.py instructions [PART]      the instructions that valgrind counts, once; other work on the machine does not matter
With a PART only the rows whose names contain it are measured.
"""
import pathlib
import re
import resource
import statistics
import subprocess
import sys
import tempfile

IS_COUNTED = sys.argv[1:2] == ["instructions"]
PART = sys.argv[2] if len(sys.argv) > 2 else ""
RUNS = 1 if IS_COUNTED else int(sys.argv[1]) if len(sys.argv) > 1 else 15
# Counting is some fifty times as slow as running, and needs no long run.
PASSES_FOR_ONE_COUNTED = 200 if IS_COUNTED else 1
# With fewer, the time of a run of many components is lost in that of making them.
LEAST_PASSES = 1 if IS_COUNTED else 200

here = pathlib.Path(__file__).parent
crate = here.parent / "crates/law_bench"

# the row's name, the history or call, and the components and their facts, or the size and the passes
LIVES = (
    ("valve, 16 years, 200 events", "valve", 1, 200),
    ("pump, 16 years, 1,000 events", "pump", 1, 1_000),
    ("20,000 valves, 12 months", "year", 20_000, 12),
    ("a leak nobody repairs", "unrepaired", 1, 200),
    ("a batch of 505 leaks", "batch", 1, 505),
    ("1,000 drips of a year", "drips", 1, 1_000),
)
OTHERS = (
    ("instrument, a calibration a day", "instrument", 5_840, 800),
    ("a reading of it", "fit", 5_840, 100),
    ("a reading of a day, 256 calibrations", "day", 256, 2_000),
    ("routes by 40,000 duties", "routes", 40_000, 50),
    ("repair, 400 delays", "repair", 400, 50_000),
)


def rows():
    """For each row its name, the words for a size and for some passes, the size, the passes and the calls of a pass."""
    for shown, history, components, facts in LIVES:
        lives = lambda size, components=components, facts=facts: max(1, components * facts // size)
        for call in ("events", "spans", "marks", "duties"):
            # A pump is counted in no quarter, so that making its marks takes some tens of nanoseconds.
            is_counted_nowhere = call == "marks" and history in ("pump", "drips")
            calls = 1_000_000 if is_counted_nowhere else 40_000 if call == "duties" else 4_000_000 // facts
            passes = max(LEAST_PASSES, calls // components)
            words = lambda size, passes, call=call, history=history, lives=lives: (call, history, lives(size), size, passes)
            yield f"{shown}: {call}", words, facts, passes, lives
    for shown, call, size, passes in OTHERS:
        words = lambda size, passes, call=call: (call, size, passes)
        yield shown, words, size, passes, lambda size, call=call: size if call in ("fit", "day") else 1


def timed(program, words):
    """The processor time of a run in nanoseconds, and the output."""
    before = resource.getrusage(resource.RUSAGE_CHILDREN)
    told = subprocess.run([program, *map(str, words)], check=True, stdout=subprocess.PIPE, text=True).stdout
    after = resource.getrusage(resource.RUSAGE_CHILDREN)
    return (after.ru_utime + after.ru_stime - before.ru_utime - before.ru_stime) * 1e9, told


def counted(program, words):
    """The instructions of a run, and the output."""
    count = ["valgrind", "--tool=callgrind", "--callgrind-out-file=/dev/null", program]
    told = subprocess.run([*count, *map(str, words)], check=True, stdout=subprocess.PIPE, stderr=subprocess.PIPE, text=True)
    return int(re.search(r"Collected : (\d+)", told.stderr)[1]), told.stdout


def measured(programs, words, sizes, calls):
    """For each size and each program the time of a call: run after run, the sizes and programs in turn. The minimum time for
    making the lives is subtracted."""
    taken = counted if IS_COUNTED else timed
    took = {(size, program): ([], []) for size, _ in sizes for program in programs}
    for _ in range(RUNS):
        for size, passes in sizes:
            told = []
            for program in programs:
                making, all_calls = took[size, program]
                making.append(taken(program, words(size, 0))[0])
                some, said = taken(program, words(size, passes))
                all_calls.append(some)
                told.append(said)
            if len(set(told)) > 1:
                sys.exit(f"they answer otherwise: {told}")

    def a_call(size, passes, program):
        making, all_calls = took[size, program]
        return [(some - min(making)) / passes / calls(size) for some in all_calls]

    return [[a_call(size, passes, program) for program in programs] for size, passes in sizes]


def main():
    sought = [row for row in rows() if PART in row[0]]
    if not sought:
        sys.exit(f"no row has {PART!r} in its name")
    subprocess.run(["rt", "run", "--", "repair", "1", "1"], cwd=crate, check=True, stdout=subprocess.DEVNULL, stderr=subprocess.DEVNULL)
    with tempfile.TemporaryDirectory() as folder:
        rust = pathlib.Path(folder) / "rust"
        subprocess.run(["rustc", "-O", "--edition", "2021", "-o", rust, here / "law.rs"], check=True)
        programs = (crate / "out/law_bench", rust)
        unit = "instructions" if IS_COUNTED else "ns"
        print(f"{unit + ' a call: least, and ratios':40} {'ours':>10} {'Rust':>10} {'ratio':>6} {'median':>6} {'twice':>6} {'Rust':>6}")
        for shown, words, size, passes, calls in sought:
            passes = max(1, passes // PASSES_FOR_ONE_COUNTED)
            # The double size in half the passes.
            once, twice = measured(programs, words, ((size, passes), (2 * size, max(1, passes // 2))), calls)
            ours, plain = map(min, once)
            middle = statistics.median(mine / other for mine, other in zip(*once))
            growth = [min(more) / min(few) for more, few in zip(twice, once)]
            print(f"{shown:40} {ours:10.0f} {plain:10.0f} {ours / plain:6.2f} {middle:6.2f} {growth[0]:6.2f} {growth[1]:6.2f}", flush=True)


main()
