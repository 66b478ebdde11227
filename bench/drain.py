#!/usr/bin/env python3
"""Measures `ldar JOURNAL drain` beside a plain Rust program (office.rs, with requests.rs) that reads the same requests by hand.

Over a journal of a million facts (see office.py): 200 requests of the percent view of one day; 16,000 batches of one fact and 400 of
512 readings, piped; and the writes and syncs of the same frames in a loop. Shows the minimum of some runs, taken in turn: processor time
less that of a run without requests, and for batches the elapsed time.

Over a journal of 200,000 facts: rounds of one `POST /sync` of one reading and one `GET /percent`, beside a plain Rust office that keeps
what its views made (serve.rs), and the writes and syncs of the same frames in a loop. Shows medians of runs in turn, less those of a run with
the one view. Wanted: at most 1.3 times the loop's time.
rustc must be on the path. usage: drain.py [requests] [rounds [ROUNDS [RUNS]]]    without words: both, 10000 rounds, 3 runs
"""
import json
import pathlib
import shutil
import struct
import subprocess
import sys
import tempfile

import medians
from office import RUNS, VALVES, day_text, here, journal, last_day, ldar, loop, program, timed, words_of

FACTS = 1_000_000


def get(path):
    return f"GET {path} HTTP/1.1\r\nHost: office\r\n\r\n".encode()


def post(batch):
    body = json.dumps(batch).encode()
    return b"POST /sync HTTP/1.1\r\nHost: office\r\nContent-Type: application/json\r\nContent-Length: %d\r\n\r\n" % len(body) + body


def calibration(number):
    return post({"handheld": 9_999, "number": number, "facts": [{"kind": "calibration", "day": "2024-02-20", "minute": number % 1_440, "instrument": 1, "gas": 500}]})


def readings(number):
    facts = [{"kind": "reading", "day": day_text(last_day(FACTS)), "minute": place, "component": (number * 512 + place) % VALVES + 1, "instrument": 1, "operator": 1,
              "purpose": "routine", "ppm": place % 499, "background": 2} for place in range(512)]
    return post({"handheld": 9_998, "number": number, "facts": facts})


def reading(place, facts):
    """The request with one late reading, by an instrument that is calibrated on its day; one in a hundred is a leak."""
    day = day_text(last_day(facts) - 1)
    fact = {"kind": "reading", "day": day, "minute": place % 1_440, "component": place % VALVES + 1, "instrument": 1, "operator": 1,
            "purpose": "routine", "ppm": 700 if place % 100 == 0 else place % 499, "background": 2}
    return post({"handheld": 9_997, "number": place + 1, "facts": [fact]})


def prepare(path, facts):
    """Adds a batch to a journal that tests instrument 1 on the day of those readings."""
    day = last_day(facts) - 1
    payload = struct.pack(">BHIH", 66, 9_997, 0, 2) + struct.pack(">BHHHIIII", 8, day, 0, 1, 500, 500, 500, 500) + struct.pack(">BHHHI", 7, day, 0, 1, 500)
    path.write_bytes(path.read_bytes()[:-1] + struct.pack(">BI", 1, len(payload)) + payload + b"\0")


def rounds(count, runs, facts=200_000):
    """Rounds of one reading and one view, in one run that stays open."""
    with tempfile.TemporaryDirectory() as name:
        folder = pathlib.Path(name)
        whole, path = folder / "whole", folder / "journal"
        journal(whole, facts, 512)
        rust = medians.compiled("serve.rs", folder)
        _, _, unit, quarter, day = map(str, words_of("percent", facts))
        view = get(f"/percent/{unit}/{quarter}/{day}")
        prepare(whole, facts)
        given, texts = view + b"".join(reading(place, facts) + view for place in range(count)), {}

        def drained(it):
            shutil.copyfile(whole, path)
            began, base, _ = timed([it, path, "drain"], view)
            took, passed, texts[it] = timed([it, path, "drain"], given)
            return passed - base, took - began

        def alone():
            shutil.copyfile(whole, path)
            return (loop(path, count, 9 + 20),)

        ours, plain, writes = medians.in_turn(runs, lambda: drained(program), lambda: drained(rust), alone)
        medians.same(list(texts.values()))
        views = len({it for it in texts[program].split(b"\r\n\r\n") if it.startswith(b"percent ")})
        print(f"{count} rounds on {facts} facts, {views} different views, ms a round: ours {ours[0] / count * 1e3:.3f}, Rust {plain[0] / count * 1e3:.3f}, "
              f"the loop {writes[0] / count * 1e3:.3f}")
        print(f"processor time, us a round: ours {ours[1] / count * 1e6:.1f}, Rust {plain[1] / count * 1e6:.1f}, ratio {ours[1] / plain[1]:.2f}")
        medians.row(f"{count:,} rounds of one reading and one percent view over HTTP, elapsed, against the same writes and syncs in a loop, ms a round",
                    f"{ours[0] / count * 1e3:.3f}", f"{writes[0] / count * 1e3:.3f} (the loop)", ours[0] / writes[0])
        medians.row("the same, beside plain Rust", f"{ours[0] / count * 1e3:.3f}", f"{plain[0] / count * 1e3:.3f}", ours[0] / plain[0])
        medians.row("the same, processor time, µs a round", f"{ours[1] / count * 1e6:.1f}", f"{plain[1] / count * 1e6:.1f}", ours[1] / plain[1])
        medians.wanted("rounds of one reading and one view, beside the same writes and syncs", 1.3, ours[0] / writes[0], " times")
    medians.ended()


def requests():
    """Views and batches over a journal of a million facts."""
    with tempfile.TemporaryDirectory() as name:
        folder = pathlib.Path(name)
        rust, whole, path = folder / "rust", folder / "whole", folder / "journal"
        subprocess.run(["rustc", "-O", "-A", "dead_code", "--edition", "2021", "-o", rust, here / "office.rs"], check=True)
        journal(whole, FACTS, 512)
        _, _, unit, quarter, day = map(str, words_of("percent", FACTS))
        view = get(f"/percent/{unit}/{quarter}/{day}")
        work = [("1 percent view", view, 0, 0), ("200 percent views", view * 200, 0, 0),
                ("16,000 batches of 1", b"".join(map(calibration, range(16_000))), 1_000, 16 * 20),
                ("400 batches of 512", b"".join(map(readings, range(400))), 25, 16 * (9 + 512 * 20))]
        print(f"{'':20} {'ours ms':>9} {'Rust ms':>9} {'ratio':>6}   time that passed, ms, and the loop's; ours to the loop")
        base = None
        for shown, given, frames, size in [("nothing", b"", 0, 0), *work]:
            best, alone = [[float("inf")] * 2 for _ in range(2)], float("inf")
            for _ in range(RUNS):
                said = []
                for it, times in zip((program, rust), best):
                    shutil.copyfile(whole, path)
                    took, passed, told = timed([it, path, "drain"], given)
                    times[0], times[1] = min(times[0], took), min(times[1], passed)
                    said.append(told)
                if len(set(said)) > 1:
                    sys.exit(f"they answer otherwise: {[it[:300] for it in said]}")
                if frames:
                    shutil.copyfile(whole, path)
                    alone = min(alone, loop(path, frames, size))
            if base is None:
                base = best
                continue
            ours, plain = ((took[0] - opening[0]) * 1e3 for took, opening in zip(best, base))
            passed = [(took[1] - opening[1]) * 1e3 for took, opening in zip(best, base)]
            beside = f" {alone * 1e3:.1f}; {passed[0] / alone / 1e3:.2f}" if frames else ""
            print(f"{shown:20} {ours:9.1f} {plain:9.1f} {ours / plain:6.2f}   {passed[0]:.1f} {passed[1]:.1f}{beside}", flush=True)


def main():
    words = sys.argv[1:] or ["requests", "rounds"]
    subprocess.run([ldar, ":memory:", "init"], check=True)
    numbers = [int(word) for word in words if word.isdigit()]
    if "requests" in words:
        requests()
    if "rounds" in words:
        rounds(*(numbers + [10_000, RUNS][len(numbers):]))


if __name__ == "__main__":
    main()
