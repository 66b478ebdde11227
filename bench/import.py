#!/usr/bin/env python3
"""Measures the import of components from CSV to receipts by the real program, beside a plain Rust program (import.rs) and beside
the writes and syncs of the same frames in a loop.

A file of COUNT components of process unit 1 is made, and imported into a journal that has the unit. Shows the minimum processor
and elapsed time of some runs taken in turn. Both must print the same receipts and leave the same journal.
rt and rustc must be on the path. usage: import.py [COUNT..]
COUNT: 15000 30000 60000 by default.
"""
import pathlib
import resource
import shutil
import subprocess
import sys
import tempfile
import time

from office import loop

SIZES = [int(word) for word in sys.argv[1:]] or [15_000, 30_000, 60_000]
RUNS = 9

here = pathlib.Path(__file__).parent
ldar = here.parent / "ldar"

COLUMNS = "component,unit,kind,service,designation,plan,month,monomer,replaces,begin"
UNIT = '[[unit]]\nnumber = 1\nname = "CRUDE"\nstartup = "2020-01-15"\nolder = false\n'


def components(count):
    """A file of that many: mostly valves, every tenth a pump, and every fiftieth a valve that is difficult to monitor."""
    rows = [COLUMNS]
    for number in range(1, count + 1):
        kind = "pump" if number % 10 == 0 else "valve"
        service = "light" if number % 2 else "gas" if kind == "valve" else "light"
        designation = "difficult" if number % 50 == 1 else "none"
        rows.append(f"{number},1,{kind},{service},{designation},0,{number % 3 + 1},0,0,20{20 + number % 4}-{number % 12 + 1:02}-15")
    return "\n".join(rows) + "\n"


def taken(words, text):
    """The processor time and elapsed time in seconds of a run with this input, and its output."""
    before, began = resource.getrusage(resource.RUSAGE_CHILDREN), time.perf_counter()
    printed = subprocess.run(words, check=True, input=text, stdout=subprocess.PIPE).stdout
    ended, after = time.perf_counter(), resource.getrusage(resource.RUSAGE_CHILDREN)
    return after.ru_utime + after.ru_stime - before.ru_utime - before.ru_stime, ended - began, printed


def main():
    subprocess.run([ldar, ":memory:", "init"], check=True)
    program = here.parent / "crates/ldar_cli/out/ldar_cli"
    with tempfile.TemporaryDirectory() as folder:
        rust, entered, journal = (pathlib.Path(folder) / name for name in ("rust", "entered", "journal"))
        subprocess.run(["rustc", "-O", "--edition", "2021", "-o", rust, here / "import.rs"], check=True)
        subprocess.run([program, entered, "init"], check=True)
        subprocess.run([program, entered, "import", "1", "units"], check=True, input=UNIT.encode(), stdout=subprocess.DEVNULL)
        commands = {"ours": [program, journal, "import", "2", "components"], "Rust": [rust, journal, "2"]}
        print(f"{'components':>10} {'ours s':>8} {'Rust s':>8} {'ratio':>6} {'ours wall s':>12} {'Rust wall s':>12} {'loop wall s':>12}")
        for count in SIZES:
            text = components(count).encode()
            best = {name: (float("inf"), float("inf")) for name in commands}
            left = {}
            for _ in range(RUNS):
                for name, words in commands.items():
                    shutil.copyfile(entered, journal)
                    processor, wall, printed = taken(words, text)
                    best[name] = (min(best[name][0], processor), min(best[name][1], wall))
                    left[name] = (printed, journal.read_bytes())
            if left["ours"] != left["Rust"]:
                sys.exit("the two differ")
            (ours, our_wall), (plain, plain_wall) = best["ours"], best["Rust"]
            # Each line is the receipt of a batch, which has a frame of its own.
            frames = left["ours"][0].count(b"\n")
            size = (len(left["ours"][1]) - entered.stat().st_size) // frames
            alone = float("inf")
            for _ in range(RUNS):
                shutil.copyfile(entered, journal)
                alone = min(alone, loop(journal, frames, size))
            print(f"{count:10} {ours:8.3f} {plain:8.3f} {ours / plain:6.2f} {our_wall:12.3f} {plain_wall:12.3f} {alone:12.3f}", flush=True)


main()
