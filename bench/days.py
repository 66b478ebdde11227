#!/usr/bin/env python3
"""Measures calls of ldar_days, in nanoseconds each, beside jiff's calls and a plain Rust program (days.rs).

The program crates/ldar_days_table is proved and built first, so rt and rustc must be on the path.
usage: days.py [PASSES]     how often each of the 32,873 startup days is used, 1,000 by default
"""
import pathlib
import resource
import subprocess
import sys
import tempfile

PASSES = int(sys.argv[1]) if len(sys.argv) > 1 else 1_000
CALLS = PASSES * (46_751 - 13_879 + 1)
RUNS = 5

here = pathlib.Path(__file__).parent
crate = here.parent / "crates/ldar_days_table"


def seconds(program, call):
    """The minimum processor time of a few runs, less that of the bare loop in the same program."""
    def once(name):
        before = resource.getrusage(resource.RUSAGE_CHILDREN).ru_utime
        subprocess.run([program, name, str(PASSES)], check=True, stdout=subprocess.DEVNULL)
        return resource.getrusage(resource.RUSAGE_CHILDREN).ru_utime - before

    return min(once(call) for _ in range(RUNS)) - min(once("none") for _ in range(RUNS))


def nanoseconds(program, call):
    return f"{seconds(program, call) / CALLS * 1e9:8.1f}"


subprocess.run(["rt", "run", "--", "none", "1"], cwd=crate, check=True, stdout=subprocess.DEVNULL, stderr=subprocess.DEVNULL)
with tempfile.TemporaryDirectory() as folder:
    rust = pathlib.Path(folder) / "days"
    subprocess.run(["rustc", "-O", "-o", rust, here / "days.rs"], check=True)
    ours = crate / "out/ldar_days_table"
    print(f"{'ns a call':12} {'ours':>8} {'jiff':>8} {'Rust':>8}")
    for call in ["month", "plus_months", "quarter_of"]:
        by_jiff = "" if call == "quarter_of" else nanoseconds(ours, call + "_by_jiff")
        print(f"{call:12} {nanoseconds(ours, call)} {by_jiff:>8} {nanoseconds(rust, call)}")
