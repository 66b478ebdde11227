#!/usr/bin/env python3
"""Measures fact_store: facts of 20,000 components that come in key order, in reverse and shuffled, and each component's
list read, beside a plain Rust program of the same job (store.rs). They are put into their lists one by one, or listed at
once when all have come, or late: a half of them when it has come, and then the other half at once.

Attempts stand in the list of their component; readings also in that of one of 200 instruments. What making the facts
takes is left out. The program crates/facts_bench is proved and built first, so rt and rustc have to be on the path.
usage: store.py [FACTS]     1000000 if left out
"""
import pathlib
import resource
import subprocess
import sys
import tempfile

FACTS = int(sys.argv[1]) if len(sys.argv) > 1 else 1_000_000
RUNS = 3
READS = 20
ROWS = [(way, order) for way in ([], ["listed"], ["late"]) for order in ("key", "reverse", "shuffled")]

here = pathlib.Path(__file__).parent
crate = here.parent / "crates/facts_bench"


def measured(program, words):
    """The least processor time of a few runs, the greatest resident memory in bytes, and what was printed."""
    best = None
    for _ in range(RUNS):
        before = resource.getrusage(resource.RUSAGE_CHILDREN)
        subprocess.run([program, *words], check=True, stdout=subprocess.DEVNULL)
        after = resource.getrusage(resource.RUSAGE_CHILDREN)
        took = after.ru_utime + after.ru_stime - before.ru_utime - before.ru_stime
        best = took if best is None else min(best, took)
    # By /usr/bin/time, since a child of this process would count this process's own memory as its own.
    told = subprocess.run(["/usr/bin/time", "-f", "%M", program, *words], check=True, stdout=subprocess.PIPE,
                          stderr=subprocess.PIPE, text=True)
    return best, int(told.stderr.split()[-1]) * 1024, told.stdout


def figures(program, way, order, sort):
    """Nanoseconds a fact to insert and to read again, bytes a fact, and what was read."""
    words = [order, sort, str(FACTS)]
    make, made, _ = measured(program, ["none", *words])
    insert, kept, _ = measured(program, [*way, "0", *words])
    read, _, told = measured(program, [*way, str(READS), *words])
    return (insert - make) / FACTS * 1e9, (read - insert) / READS / FACTS * 1e9, (kept - made) / FACTS, told


def main():
    subprocess.run(["rt", "run", "--", "none", "key", "attempts", "1"], cwd=crate, check=True, stdout=subprocess.DEVNULL, stderr=subprocess.DEVNULL)
    with tempfile.TemporaryDirectory() as folder:
        rust = pathlib.Path(folder) / "rust"
        subprocess.run(["rustc", "-O", "--edition", "2021", "-o", rust, here / "store.rs"], check=True)
        print(f"{FACTS} facts                    insert, ns a fact         list, ns a fact    bytes a fact")
        print(f"{'':28} {'ours':>6} {'Rust':>8} {'ratio':>6} {'ours':>8} {'Rust':>8} {'ours':>8} {'Rust':>6}")
        for sort in ("attempts", "readings"):
            for way, order in ROWS:
                insert, listed, kept, told = figures(crate / "out/facts_bench", way, order, sort)
                plain, plain_listed, plain_kept, plain_told = figures(rust, way, order, sort)
                print(f"{sort:9}{order:9}{' '.join(way) or 'one by one':10} {insert:6.0f} {plain:8.0f} {insert / plain:6.2f} {listed:8.0f} {plain_listed:8.0f} "
                      f"{kept:8.0f} {plain_kept:6.0f}")
                if told != plain_told:
                    print("they read otherwise:", told, plain_told)


main()
