#!/usr/bin/env python3
"""Measures office_views: what the views of a process unit of 20,000 valves take, with monthly readings by 40 handhelds, beside a plain Rust
office that shows the same and keeps the same from view to view (views.rs).

Each program adopts its facts and is then asked, line by line; the two tell the length and a sum of each text, which have to be the same.

first views    the due list of a unit with one valve, for which the facts are listed; then each view of the large unit, once: processor time
again          each of them once more, with nothing adopted between
rounds         one late reading, and a view; on one day, and on two to four days in turn
late           so many batches of so many late readings, and the due list of the unit with one valve
memory         what is resident with all views asked, and what the views keep: what grew after the facts were listed
in the program the same facts in a journal, asked over HTTP by `drain`, which stays open: rounds of one reading and one percent view on one to
               four days, beside the plain office of serve.rs; and the resident memory with all views asked

Shows medians of runs in turn; each begins with new processes. Wanted: a round in microseconds (below 1,000) and below a hundredth of the first
view; at 8,000,000 facts at most 1.0 GB with all views asked, and at most 40 bytes a fact that the views keep.
The program crates/views_bench is proved and built first, so rt and rustc have to be on the path, and /proc has to tell of processes.
usage: views.py [bench] [program] [FACTS ..]     both parts, 1000000 8000000 if left out
"""
import datetime
import pathlib
import shutil
import subprocess
import sys
import tempfile

import medians
from drain import get, post
from office import VALVES, day_text, journal, last_day, ldar, program, words_of

SIZES = [int(word) for word in sys.argv[1:] if word.isdigit()] or [1_000_000, 8_000_000]
RUNS = 3
ROUNDS = 1_000
MEGABYTE = 1e6
VIEWS = ("percent", "due", "tags", "delays", "report", "route")
STEPS = {"lists, by the due list of one valve": ["other"]}
STEPS |= {f"first {view}": [view] for view in VIEWS} | {f"{view} again": [view] for view in VIEWS}
for view, days in (("percent", 1), ("percent", 2), ("percent", 3), ("percent", 4)):
    STEPS[f"rounds on {days}"] = [f"rounds {days} {days} {view}", f"rounds {ROUNDS} {days} {view}"]
for view in ("due", "tags", "report"):
    STEPS[f"{view} rounds"] = [f"rounds {ROUNDS // 20} 1 {view}"]
for batches, readings in ((1, 512), (40, 512)):
    STEPS[f"late {batches} x {readings}"] = [f"late {readings}"] * batches + ["other"]
# Readings that come late are among the facts, since an office takes 8,000,000 and no more.
LATE = sum(int(line.split()[1]) for lines in STEPS.values() for line in lines if line.startswith(("late ", "rounds ")))

here = pathlib.Path(__file__).parent
crate = here.parent / "crates/views_bench"


class Process:
    """A running program, whose processor time and memory are read."""

    def __init__(self, words):
        self.process = subprocess.Popen(list(map(str, words)), stdin=subprocess.PIPE, stdout=subprocess.PIPE)

    def time(self):
        """The processor time so far, in seconds."""
        return int(pathlib.Path(f"/proc/{self.process.pid}/schedstat").read_text().split()[0]) / 1e9

    def memory(self, name):
        """The resident memory in bytes: now, or at most so far."""
        for line in pathlib.Path(f"/proc/{self.process.pid}/status").read_text().splitlines():
            if line.startswith(name):
                return int(line.split()[1]) * 1024
        raise ValueError(name)

    def send(self, given):
        self.process.stdin.write(given)
        self.process.stdin.flush()

    def close(self):
        self.process.stdin.close()
        self.process.wait()


class Office(Process):
    """A program that adopted its facts."""

    def __init__(self, it, facts):
        super().__init__([it, facts])
        self.said = [self.process.stdout.readline()]

    def ask(self, lines):
        """The processor time of some lines."""
        before = self.time()
        for line in lines:
            self.send(f"{line}\n".encode())
            self.said.append(self.process.stdout.readline())
        return self.time() - before


def asked(it, facts, answers):
    """The figures of a new process: of adopting, of each step, and of memory."""
    office = Office(it, facts - LATE)
    figures, listed, warm = [office.time()], None, 0
    for step, lines in STEPS.items():
        # On days in turn the days are asked once before.
        for line in lines[:-1] if step.startswith("rounds on ") else ():
            office.ask([line])
        figures.append(office.ask(lines[-1:] if step.startswith("rounds on ") else lines))
        if listed is None:
            listed = office.memory("VmRSS")
        if step == f"{VIEWS[-1]} again":
            warm = office.memory("VmRSS")
    figures += [listed, warm, office.memory("VmHWM")]
    answers[it] = office.said
    office.close()
    return tuple(figures)


def measure(ours, rust, facts):
    """The rows of one number of facts."""
    answers = {}
    both = medians.in_turn(RUNS, lambda: asked(ours, facts, answers), lambda: asked(rust, facts, answers))
    medians.same([answers[ours], answers[rust]])
    names = ["adopted", *STEPS]
    took = [dict(zip(names, figures)) for figures in both]
    print(f"{facts} facts{'':24} {'ours':>12} {'Rust':>12} {'ratio':>6}")

    def show(name, what, ratio, unit, scale, shown):
        mine, other = (it[name] / ratio * scale for it in took)
        print(f"{name:36} {mine:12.1f} {other:12.1f} {mine / other:6.2f}  {unit}", flush=True)
        medians.row(f"{what}, {facts:,} facts, {unit}", format(mine, shown), format(other, shown), mine / other)

    show("adopted", "judging and adopting (plain Rust judges nothing)", 1, "ms", 1e3, ".0f")
    for name in STEPS:
        if name.startswith("rounds on "):
            days = name.split()[-1]
            show(name, f"one late reading, then percent on {days} day{'s' if days > '1' else ''} in turn", ROUNDS, "µs", 1e6, ".1f")
        elif name.endswith(" rounds"):
            show(name, f"one late reading, then {name.split()[0]}", ROUNDS // 20, "µs", 1e6, ".0f")
        elif name.startswith("late "):
            show(name, f"{name[5:]} late readings, then the due list of a unit of one valve", 1, "ms", 1e3, ".1f")
        else:
            show(name, f"view of 20,000 valves: {name}", 1, "ms", 1e3, ".2f")
    (listed, warm, most), others = both[0][-3:], both[1][-3:]
    kept, its = ((it[-2] - it[-3]) / facts for it in both)
    print(f"memory, MB: lists made {listed / MEGABYTE:.0f} {others[0] / MEGABYTE:.0f}, all views asked {warm / MEGABYTE:.0f} {others[1] / MEGABYTE:.0f}, "
          f"at most {most / MEGABYTE:.0f} {others[2] / MEGABYTE:.0f}; kept, bytes a fact: {kept:.1f} {its:.1f}")
    medians.row(f"resident with every view asked, {facts:,} facts, MB", f"{warm / MEGABYTE:.0f}", f"{others[1] / MEGABYTE:.0f}", warm / others[1])
    medians.row(f"kept summaries, {facts:,} facts, bytes a fact", f"{kept:.1f}", f"{its:.1f}", kept / its)
    for days in "1234":
        a_round = took[0][f"rounds on {days}"] / ROUNDS * 1e6
        medians.wanted(f"one late reading and percent on {days} days in turn, of {facts:,} facts", 1_000, a_round, " µs")
        medians.wanted("the same, in parts of the first view", 0.01, a_round / took[0]["first percent"] / 1e6)
    medians.wanted(f"what views keep of {facts:,} facts", 40, kept, " bytes a fact")
    if facts >= 8_000_000:
        medians.wanted("resident with all views asked", 1_000, most / MEGABYTE, " MB")


# ---- in the program

class Drain(Process):
    """A program that answers HTTP requests on its input."""

    def response(self):
        head = b""
        while not head.endswith(b"\r\n\r\n"):
            line = self.process.stdout.readline()
            if not line:
                sys.exit(f"it ended: {head}")
            head += line
        length = next(line for line in head.split(b"\r\n") if line.startswith(b"Content-Length: "))
        return head.split(b"\r\n")[0] + b" " + self.process.stdout.read(int(length.split()[1]))

    def ask(self, request):
        self.send(request)
        return self.response()


def late_reading(number):
    fact = {"kind": "reading", "day": day_text(last_day(VALVES + 2)), "minute": number % 1_440, "component": number % VALVES + 1, "instrument": 1, "operator": 1,
            "purpose": "routine", "ppm": number % 499, "background": 2}
    return post({"handheld": 9_996, "number": number, "facts": [fact]})


def days_in_turn(facts):
    """The requests of the percent view: of the last day, and of that day in the quarters before."""
    day = last_day(facts)
    found = []
    for turn in range(4):
        it = datetime.date(1970, 1, 1) + datetime.timedelta(day - 91 * turn)
        found.append(get(f"/percent/1/{(it.year * 12 + it.month - 1 - 2020 * 12 - 3) // 3 + 1}/{it}"))
    return found


def drained(it, whole, path, facts, rounds, answers):
    """The figures of a run that stays open: opening with the first view, and a round on one to four days; then the memory."""
    shutil.copyfile(whole, path)
    office, said, number = Drain([it, path, "drain"]), [], 0
    views = days_in_turn(facts)
    said.append(office.ask(views[0]))
    figures = [office.time()]
    for days in range(1, 5):
        for view in views[:days]:
            said.append(office.ask(view))
        before = office.time()
        for turn in range(rounds):
            number += 1
            said += [office.ask(late_reading(number)), office.ask(views[turn % days])]
        figures.append(office.time() - before)
    before = office.time()
    for _ in range(rounds):
        number += 1
        said.append(office.ask(late_reading(number)))
    figures.append(office.time() - before)
    answers[it] = said
    if it == program:
        _, _, unit, quarter, day = map(str, words_of("percent", facts))
        for words in (f"due/{unit}/{day}", f"tags/{unit}/{day}", f"delays/{unit}/{day}", f"route/{unit}/{day}/50", f"report/{unit}/{(int(quarter) + 1) // 2}/{day}"):
            if not office.ask(get("/" + words)).startswith(b"HTTP/1.1 200"):
                sys.exit(f"no view {words}")
    figures += [office.memory("VmRSS"), office.memory("VmHWM")]
    office.close()
    return tuple(figures)


def in_the_program(facts, rounds):
    with tempfile.TemporaryDirectory() as name:
        folder, answers = pathlib.Path(name), {}
        whole, path, rust = folder / "whole", folder / "journal", medians.compiled("serve.rs", folder)
        journal(whole, facts - 6 * rounds, 512)
        both = medians.in_turn(RUNS, *(lambda it=it: drained(it, whole, path, facts - 6 * rounds, rounds, answers) for it in (program, rust)))
        medians.same([answers[program], answers[rust]])
        (ours, plain) = both
        print(f"over HTTP, {facts} facts: opening and the first view, s: {ours[0]:.2f} {plain[0]:.2f}")
        medians.row(f"`drain` over {facts:,} facts: opening and the first percent view, s", f"{ours[0]:.2f}", f"{plain[0]:.2f}", ours[0] / plain[0])
        for days in range(1, 5):
            # A round less its batch alone, which has the write, the syncs and the reading of the request.
            (a, b), (c, d) = ((it[days] / rounds * 1e6, (it[days] - it[5]) / rounds * 1e6) for it in both)
            print(f"a round on {days} days, processor time, us: {a:.1f} {c:.1f}; more than its batch alone: {b:.1f} {d:.1f}")
            medians.row(f"the same: one late reading and percent on {days} days in turn, processor time, µs", f"{a:.0f}", f"{c:.0f}", a / c)
        print(f"resident, MB: all views asked {ours[-2] / MEGABYTE:.0f} (plain Rust, percent alone {plain[-2] / MEGABYTE:.0f}), at most {ours[-1] / MEGABYTE:.0f} {plain[-1] / MEGABYTE:.0f}")
        medians.row(f"the same: resident at most, every view asked (plain Rust: percent alone), MB", f"{ours[-1] / MEGABYTE:.0f}", f"{plain[-1] / MEGABYTE:.0f}", ours[-1] / plain[-1])
        if facts >= 8_000_000:
            medians.wanted("the program's resident memory with all views asked, batches of 512", 1_000, ours[-1] / MEGABYTE, " MB")


def main():
    parts = [word for word in sys.argv[1:] if not word.isdigit()] or ["bench", "program"]
    if "bench" in parts:
        subprocess.run(["rt", "run"], cwd=crate, check=True, stdin=subprocess.DEVNULL, stdout=subprocess.DEVNULL, stderr=subprocess.DEVNULL)
        with tempfile.TemporaryDirectory() as folder:
            rust = medians.compiled("views.rs", folder)
            for facts in SIZES:
                measure(crate / "out/views_bench", rust, facts)
    if "program" in parts:
        subprocess.run([ldar, ":memory:", "init"], check=True)
        for facts in SIZES:
            in_the_program(facts, ROUNDS // 5)
    medians.ended()


main()
