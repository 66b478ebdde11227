#!/usr/bin/env python3
"""Measures a mirror of a journal of a million facts, in batches of 512 (see office.py): `offer 0`, and `mirror` on what it writes.

Beside the elapsed time of `mirror` that of only the writes and syncs of its own frames in a loop is shown, which it may be 1.3 times of; medians
of runs in turn. The mirror's `check` line and its answers must be the first office's.
usage: mirror.py [FACTS]    1000000 by default
"""
import pathlib
import subprocess
import sys
import tempfile

import medians
from office import RUNS, frames_of, journal, ldar, loop, program, timed

FACTS = int(sys.argv[1]) if len(sys.argv) > 1 else 1_000_000
MOST = 1.3


def main():
    subprocess.run([ldar, ":memory:", "init"], check=True)
    with tempfile.TemporaryDirectory() as name:
        folder = pathlib.Path(name)
        first, second, empty = folder / "first", folder / "second", folder / "empty"
        journal(first, FACTS, 512)
        frames, _ = frames_of(first)
        answers = {}

        def offered():
            _, passed, answers[first] = timed([program, first, "offer", "0"])
            return (passed,)

        def mirrored():
            second.unlink(missing_ok=True)
            subprocess.run([program, second, "init"], check=True)
            _, passed, lines = timed([program, second, "mirror"], answers[first])
            if lines.decode().splitlines()[-1] != f"mirrored {frames}":
                sys.exit("not all batches are mirrored")
            medians.same([timed([program, it, "check"])[2] for it in (first, second)], "the mirror differs")
            medians.same([answers[first], timed([program, second, "offer", "0"])[2]], "the mirror differs")
            return (passed,)

        def alone():
            empty.write_bytes(b"LDARJNL1" + bytes(9))
            return (loop(empty, *frames_of(second)),)

        (offering,), (mirroring,), (writes,) = medians.in_turn(RUNS, offered, mirrored, alone)
        print(f"{frames} batches, {len(answers[first])} bytes: offer {offering * 1000:.0f} ms, mirror {mirroring * 1000:.0f} ms, "
              f"the writes and syncs of its {frames_of(second)[0]} frames alone {writes * 1000:.0f} ms")
        medians.row(f"`offer 0` of {FACTS:,} facts, s", f"{offering:.2f}", "")
        medians.row("`mirror` of them, elapsed, against the writes and syncs of its frames in a loop, s", f"{mirroring:.2f}", f"{writes:.2f} (the loop)", mirroring / writes)
        medians.wanted("mirroring, beside the same writes and syncs", MOST, mirroring / writes, " times")
    medians.ended()


if __name__ == "__main__":
    main()
