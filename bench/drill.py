#!/usr/bin/env python3
"""Measures `ldar JOURNAL drill 1 SIZE` beside a plain Rust program of the same drill (drill.rs): it keeps what a view made from view to view,
judges each batch, and writes and syncs a journal in the same way.

Both begin with an empty file, in turn. Shows medians of the elapsed time and of the processor time, and the elapsed time of only the same writes
and syncs in a loop. The text and the journal must be the same. Wanted: plain Rust's elapsed time at most, and 520 batches at 20,000 valves.
rustc must be on the path. usage: drill.py [SIZE [RUNS]]    20000 5 by default
"""
import pathlib
import subprocess
import sys
import tempfile

import medians
from office import frames_of, ldar, loop, program, timed

SIZE = int(sys.argv[1]) if len(sys.argv) > 1 else 20_000
RUNS = int(sys.argv[2]) if len(sys.argv) > 2 else 5


def main():
    subprocess.run([ldar, ":memory:", "init"], check=True)
    with tempfile.TemporaryDirectory() as name:
        folder = pathlib.Path(name)
        rust = medians.compiled("drill.rs", folder)
        texts, journals = {}, {}

        def drilled(it):
            path = folder / "journal"
            path.write_bytes(b"")
            took, passed, text = timed([it, path, "drill", 1, SIZE])
            texts[it], journals[it] = text, path.read_bytes()
            return passed, took

        def alone():
            path = folder / "empty"
            path.write_bytes(b"LDARJNL1" + bytes(9))
            return (loop(path, *frames_of(folder / "journal")),)

        ours, plain, writes = medians.in_turn(RUNS, lambda: drilled(program), lambda: drilled(rust), alone)
        medians.same(list(texts.values()))
        medians.same(list(journals.values()), "they write otherwise")
        print(texts[program].decode(), end="")
        counts = texts[program].decode().splitlines()[1]
        if SIZE == 20_000 and counts != "batches 520 facts 260025":
            sys.exit(f"wanted batches 520 facts 260025, found {counts}")
        for what, place in (("elapsed", 0), ("processor time", 1)):
            ratio = ours[place] / plain[place]
            print(f"{what}, s: ours {ours[place]:.3f}, Rust {plain[place]:.3f}, ratio {ratio:.2f}")
            medians.row(f"drill 1 {SIZE}: {what}, s", f"{ours[place]:.2f}", f"{plain[place]:.2f}", ratio)
        print(f"the same writes and syncs in a loop, s: {writes[0]:.3f}; ours {ours[0] / writes[0]:.2f} times, Rust {plain[0] / writes[0]:.2f} times")
        medians.row("the same, elapsed, against the same writes and syncs in a loop", f"{ours[0]:.2f}", f"{writes[0]:.2f}", ours[0] / writes[0])
        medians.wanted("a drill's elapsed time beside plain Rust's", 1.0, round(ours[0] / plain[0], 2), " times")
    medians.ended()


main()
