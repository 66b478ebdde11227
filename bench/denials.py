#!/usr/bin/env python3
"""Measures batch_rules: the verdicts on readings and their calibrations over a register of 20,000 valves, and on an
import of 60,000 valves of which every 35th is difficult to monitor, beside a plain Rust program of the same rules
(denials.rs).

All are in batches of 512. The time for making the facts is subtracted, and in an import that for entering them. The
program crates/denials_bench is proved and built first, so rt and rustc must be on the path.
usage: denials.py [READINGS]     8000000 if left out
"""
import pathlib
import resource
import subprocess
import sys
import tempfile

READINGS = int(sys.argv[1]) if len(sys.argv) > 1 else 8_000_000
RUNS = 3

here = pathlib.Path(__file__).parent
crate = here.parent / "crates/denials_bench"


def measured(program, *words):
    """The minimum processor time of a few runs, and the output."""
    best = None
    for _ in range(RUNS):
        before = resource.getrusage(resource.RUSAGE_CHILDREN)
        told = subprocess.run([program, *words], check=True, stdout=subprocess.PIPE, text=True).stdout
        after = resource.getrusage(resource.RUSAGE_CHILDREN)
        took = after.ru_utime + after.ru_stime - before.ru_utime - before.ru_stime
        best = took if best is None else min(best, took)
    return best, told


def main():
    subprocess.run(["rt", "run", "--", "none", "import", "1"], cwd=crate, check=True, stdout=subprocess.DEVNULL, stderr=subprocess.DEVNULL)
    with tempfile.TemporaryDirectory() as folder:
        rust = pathlib.Path(folder) / "rust"
        subprocess.run(["rustc", "-O", "-A", "dead_code", "--edition", "2021", "-o", rust, here / "denials.rs"], check=True)
        print(f"{'verdicts, ns a fact':24} {'ours':>8} {'Rust':>8} {'ratio':>6}")
        for sort, facts, without in (("readings", READINGS, "none"), ("import", 60_000, "insert")):
            took = []
            for program in (crate / "out/denials_bench", rust):
                least, _ = measured(program, without, sort, str(facts))
                most, told = measured(program, "judge", sort, str(facts))
                took.append(((most - least) / facts * 1e9, told))
            print(f"{facts:<10} {sort:13} {took[0][0]:8.0f} {took[1][0]:8.0f} {took[0][0] / took[1][0]:6.2f}")
            if took[0][1] != took[1][1]:
                print("they judge otherwise:", took[0][1], took[1][1])


main()
