#!/usr/bin/env python3
"""Runs the real program on generated and mutated inputs, several at a time, and compares it with plain programs.

`dock` and the opening of journals are predicted whole: each line, the status, the note and the place in it, by a reader of bytes
below and by bench/rule_model.py. `drain` and `import` are held to the forms of their answers, and to the journal that they leave.
An input that shows something wrong is kept in bench/corpus/, and all of that folder is run first. It needs gcc, for fork_server.c.
usage: fuzz.py [--seconds N] [--seed N]      60 seconds and a seed of the clock if left out
"""
import collections
import concurrent.futures
import contextlib
import multiprocessing
import os
import pathlib
import random
import re
import struct
import subprocess
import sys
import tempfile
import time

HERE = pathlib.Path(__file__).resolve().parent
sys.path.insert(0, str(HERE))
import rule_model

PROGRAM = HERE.parent / "crates/ldar_cli/out/ldar_cli"
CORPUS = HERE / "corpus"
# In memory a sync is quick; the system calls are the same.
WHERE = "/dev/shm" if os.access("/dev/shm", os.W_OK) else None
DAYS, NONE_OR_DAY = [(13_879, 47_481)], [(0, 0), (13_879, 47_481)]
TYPES, SERVICES = ("valve", "pump", "compressor", "relief"), ("gas", "light", "heavy", "vacuum", "under300")
DESIGNATIONS, STATES = ("none", "nde", "unsafe", "difficult"), ("dry", "drips", "leak")
GROUNDS, SORTS, PURPOSES = ("none", "a", "b", "c", "d", "e"), ("sensor", "evidence"), ("routine", "follow")
FLAG, COMPONENT, UNIT, ALL_2 = [(0, 1)], [(1, 60_000)], [(1, 64)], [(0, 65_535)]
CLASS = [("service", 1, [(1, 5)]), ("designation", 1, [(0, 3)]), ("plan", 1, None), ("month", 1, [(1, 3)])]
TEST = [("instrument", 2, [(1, 65_535)]), ("value", 4, [(1, 999_999)])] + [(f"reading{i}", 4, [(0, 999_999)]) for i in range(3)]
KINDS = {
    1: ("unit", [("unit", 1, UNIT), ("older", 1, FLAG), ("name", 12, "name")]),
    2: ("component", [("component", 2, COMPONENT), ("unit", 1, UNIT), ("type", 1, [(1, 4)]), ("monomer", 1, FLAG), ("replaces", 1, FLAG)] + CLASS),
    3: ("class", [("component", 2, COMPONENT)] + CLASS),
    4: ("retire", [("component", 2, COMPONENT)]),
    5: ("election", [("unit", 1, UNIT), ("mode", 1, [(0, 1), (3, 3)]), ("notified", 2, DAYS)]),
    6: ("shutdown", [("unit", 1, UNIT), ("days", 2, [(1, 366)])]),
    7: ("calibration", [("instrument", 2, [(1, 65_535)]), ("gas", 4, [(1, 999_999)])]),
    8: ("precision", TEST),
    9: ("drift", TEST),
    10: ("reading", [("component", 2, COMPONENT), ("instrument", 2, ALL_2), ("operator", 2, ALL_2), ("purpose", 1, [(1, 2)]),
                     ("ppm", 4, [(0, 999_999)]), ("background", 4, [(0, 999_999)])]),
    11: ("visual", [("component", 2, COMPONENT), ("state", 1, [(0, 2)])]),
    12: ("attempt", [("component", 2, COMPONENT), ("complete", 1, FLAG)]),
    13: ("delay", [("component", 2, COMPONENT), ("ground", 1, [(0, 5)]), ("signer", 2, ALL_2), ("expected", 2, NONE_OR_DAY)]),
    14: ("release", [("component", 2, COMPONENT)]),
    15: ("indication", [("component", 2, COMPONENT), ("sort", 1, [(1, 2)]), ("present", 1, FLAG)]),
}
NAME_BYTES = b"ABCDEFGHIJKLMNOPQRSTUVWXYZ0123456789-"


# ---- batches of bytes


class Short(Exception):
    pass


class Bad(Exception):
    pass


class Reader:
    """Reads numbers from bytes, and says where the first byte is with which nothing can go on."""

    def __init__(self, data, at):
        self.data, self.at = data, at

    def number(self, width, ranges):
        value = 0
        for i in range(width):
            if self.at >= len(self.data):
                raise Short
            value = value * 256 + self.data[self.at]
            rest = 256 ** (width - 1 - i)
            if not any(value * rest <= high and low <= value * rest + rest - 1 for low, high in ranges):
                raise Bad(self.at)
            self.at += 1
        return value

    def name(self):
        text = b""
        for i in range(12):
            if self.at >= len(self.data):
                raise Short
            byte = self.data[self.at]
            is_ended = len(text) < i
            if not (byte == 0 and i > 0) and not (byte in NAME_BYTES and byte != 0 and not is_ended):
                raise Bad(self.at)
            if byte:
                text += bytes([byte])
            self.at += 1
        return text.decode()

    def fact(self):
        kind, fields = KINDS[self.number(1, [(1, 15)])]
        f = {"kind": kind, "day": self.number(2, DAYS), "minute": self.number(2, [(0, 1_439)])}
        for name, width, ranges in fields:
            if ranges == "name":
                f[name] = self.name()
            elif ranges is None:
                f[name] = self.number(width, [(1, 60)] if f["designation"] == 2 else [(0, 0)])
            else:
                f[name] = self.number(width, ranges)
        return in_words(f)

    def batch(self):
        self.number(1, [(0x42, 0x42)])
        handheld, number = self.number(2, ALL_2), self.number(4, [(0, 2 ** 32 - 1)])
        count = self.number(2, [(1, 512)])
        return {"handheld": handheld, "number": number, "facts": [self.fact() for _ in range(count)]}


def in_words(f):
    """A fact with the words and values that rule_model.py reads."""
    for name, words, first in (("type", TYPES, 1), ("state", STATES, 0), ("ground", GROUNDS, 0), ("sort", SORTS, 1), ("purpose", PURPOSES, 1)):
        if name in f:
            f[name] = words[f[name] - first]
    for name in ("older", "monomer", "replaces", "complete", "present"):
        if name in f:
            f[name] = bool(f[name])
    if "service" in f:
        f["class"] = {"service": SERVICES[f.pop("service") - 1], "designation": DESIGNATIONS[f.pop("designation")],
                      "plan": f.pop("plan"), "month": f.pop("month")}
    if "reading0" in f:
        f["readings"] = tuple(f.pop(f"reading{i}") for i in range(3))
    if f["kind"] == "delay":
        f["expected"] = f["expected"] or None
    return f


PARAGRAPHS = dict(enumerate((
    "60.486a(e)(1)", "60.482-1a(d)", "60.482-1a(e)", "60.486a(a)(3)", "60.482-2a(a)(2)", "60.482-3a(f)", "60.482-4a(b)", "60.482-8a(a)",
    "60.482-9a(c)", "60.482-9a(d)", "60.482-9a(e)", "60.486a(c)(6)", "60.486a(c)(7)", "60.487a(d)", "60.482-7a(h)(2)(ii)",
    "P1", "P2", "P3", "P4", "P5", "P6"), 1))


class Office:
    """What the program keeps: its batches in order, each identity's position and content."""

    def __init__(self):
        self.history, self.positions = [], {}

    def reply(self, batch, content):
        identity = batch["handheld"], batch["number"]
        if identity in self.positions:
            position, kept = self.positions[identity]
            return f"receipt {identity[0]} {identity[1]} {position}" if kept == content else f"conflict {position}"
        denied = rule_model.denial(self.history, batch)
        if denied:
            return f"denied {denied[0]} {denied[1]} {PARAGRAPHS[denied[1]]}"
        self.history.append(batch)
        self.positions[identity] = len(self.history), content
        return f"receipt {identity[0]} {identity[1]} {len(self.history)}"

    def counts(self):
        return f"journal {len(self.history)} batches {sum(len(it['facts']) for it in self.history)} facts\n"


def docked(office, data):
    """The lines, the status and the note of a dock."""
    lines, at = [], 0
    while at < len(data):
        reader = Reader(data, at)
        try:
            batch = reader.batch()
        except Short:
            return lines, 8, f"input cut: {len(data) - at} bytes left\n"
        except Bad as bad:
            return lines, 8, f"bad input at {bad.args[0]}\n"
        lines.append(office.reply(batch, bytes(data[at:reader.at])))
        at = reader.at
    return lines, 0, ""


def opened(image):
    """The office that a journal opens to, or the note of why it does not open."""
    if len(image) < 16 or image[:16] != b"LDARJNL1" + bytes(8):
        return None, "not a journal\n"
    at, seen, batches = 16, set(), []
    while True:
        if at >= len(image):
            return None, f"damaged journal at {at}\n"
        if image[at] != 1:
            break
        end = at + 5 + int.from_bytes(image[at + 1:at + 5], "big")
        frame = []
        try:
            if not at + 5 < end <= len(image) or end - at - 5 > 188_560:
                raise Short
            reader = Reader(image[:end], at + 5)
            while reader.at < end:
                start, batch = reader.at, reader.batch()
                frame.append((batch, bytes(image[start:reader.at])))
                if (batch["handheld"], batch["number"]) in seen or len(frame) > 16:
                    raise Short
                seen.add((batch["handheld"], batch["number"]))
        except (Short, Bad):
            return None, f"damaged journal at {at}\n"
        batches += frame
        at = end
    office = Office()
    for position, (batch, content) in enumerate(batches, 1):
        denied = rule_model.denial(office.history, batch)
        if denied:
            return None, f"unruly batch {position} {denied[1]}\n"
        office.reply(batch, content)
    return office, ""


# ---- inputs


def spelled(rng, kind=None):
    """The bytes of a fact, its fields drawn from few values so that facts meet."""
    kind = kind or rng.choice((1, 2, 2, 2, 3, 4, 5, 6, 7, 7, 8, 9, 10, 10, 10, 11, 12, 12, 13, 14, 15))
    _, fields = KINDS[kind]
    data = struct.pack(">BHH", kind, rng.choice((18_276, 19_740, 19_773, 19_774, 19_780, 19_905)), rng.choice((0, 300, 600, 615, 900)))
    designation = rng.choice((0, 0, 0, 1, 2, 3))
    for name, width, ranges in fields:
        if ranges == "name":
            data += b"CRUDE".ljust(12, b"\0")
            continue
        few = {"component": (1, 2, 3), "unit": (1, 1, 2), "instrument": (0, 1, 1) if kind == 10 else (1,), "operator": (0, 1, 1),
               "value": (500,), "gas": (500, 2_500, 2_501), "ppm": (20, 440, 499, 500, 700), "plan": (6,) if designation == 2 else (0,),
               "designation": (designation,), "notified": (18_276, 19_740), "expected": (0, 19_905), "days": (1, 14)}
        values = few.get(name) or (rng.choice((440, 450, 500)),) if name.startswith("reading") else few.get(name)
        if values is None:
            low, high = rng.choice(ranges)
            values = (rng.randint(low, high),)
        data += rng.choice(values).to_bytes(width, "big")
    return data


def batch_bytes(rng, handheld=None, number=None):
    facts = [spelled(rng) for _ in range(rng.choice((1, 1, 2, 3, 8)))]
    handheld = rng.choice((0, 0, 1, 7)) if handheld is None else handheld
    return struct.pack(">BHIH", 0x42, handheld, rng.randint(1, 6) if number is None else number, len(facts)) + b"".join(facts)


REGISTER = struct.pack(">BHIH", 0x42, 0, 1, 4) + bytes.fromhex("01 4764 0000 01 00") + b"CRUDE".ljust(12, b"\0") + b"".join(
    struct.pack(">BHHHBBBBBBBB", 2, 18_276, 0, n, 1, kind, 0, 0, service, 0, 0, 1) for n, kind, service in ((1, 1, 1), (2, 2, 2), (3, 3, 1)))


def mutated(rng, data):
    data = bytearray(data)
    for _ in range(rng.choice((0, 0, 1, 1, 2, 5))):
        if not data:
            break
        at = rng.randrange(len(data))
        what = rng.randrange(6)
        if what == 0:
            data[at] ^= 1 << rng.randrange(8)
        elif what == 1:
            data[at] = rng.choice((0, 1, 255, 0x42, rng.randrange(256)))
        elif what == 2:
            del data[at:at + rng.choice((1, 2, 20))]
        elif what == 3:
            data[at:at] = bytes(rng.choice((1, 3))) if rng.random() < 0.5 else data[at:at + 20]
        elif what == 4:
            del data[at:]
        else:
            data += data[at:at + 60]
    return bytes(data)


def batches_input(rng):
    return mutated(rng, (REGISTER if rng.random() < 0.8 else b"") + b"".join(batch_bytes(rng) for _ in range(rng.randrange(6))))


def journal_input(rng):
    payloads, number = [REGISTER], 100
    for _ in range(rng.randrange(4)):
        payload = b""
        for _ in range(rng.choice((1, 1, 2, 16, 17))):
            number += rng.choice((0, 1, 1, 1, 1, 1))
            payload += batch_bytes(rng, rng.choice((0, 7)), number)
        payloads.append(payload)
    image = b"LDARJNL1" + bytes(8) + b"".join(b"\1" + len(it).to_bytes(4, "big") + it for it in payloads) + b"\0"
    return mutated(rng, image + rng.choice((b"", b"", b"left behind")))


JSON_FACTS = ('{"kind":"calibration","day":"2024-02-20","minute":600,"instrument":1,"gas":500}', '{"kind":"retire","day":"2024-02-20","minute":0,"component":1}',
              '{"kind":"attempt","day":"2024-02-22","minute":1,"component":1,"complete":true}', '{"kind":"release","day":"2024-02-22","minute":1,"component":1}')
PATHS = ("/due/1/2024-02-20", "/tags/1/2024-02-20", "/delays/1/2024-02-20", "/route/1/2024-02-20/2", "/percent/1/16/2024-03-31", "/report/1/8/2024-03-31",
         "/due/256/x", "/nothing", "/sync")


def request_input(rng):
    data = b""
    for _ in range(rng.randrange(5)):
        if rng.random() < 0.5:
            data += f"GET {rng.choice(PATHS)} HTTP/1.{rng.choice((1, 1, 1, 0))}\r\nHost: office\r\n\r\n".encode()
        else:
            facts = ",".join(rng.choice(JSON_FACTS) for _ in range(rng.randint(1, 3)))
            body = f'{{"handheld":{rng.choice((0, 7, 65_536))},"number":{rng.randint(1, 4)},"facts":[{facts}]}}'
            data += f"POST /sync HTTP/1.1\r\nContent-Length: {len(body)}\r\n\r\n{body}".encode()
    return mutated(rng, data)


TABLES = (HERE.parent / "docs/units.toml", HERE.parent / "docs/components.csv")


def table_input(rng, sort):
    return mutated(rng, TABLES[sort].read_bytes())


# ---- runs


Ran = collections.namedtuple("Ran", "returncode stdout stderr")


# The program's buffers of up to 8 MB would take longest: they come in pages of 2 MB, where the machine has them.
TUNABLES = "glibc.malloc.hugetlb=1:glibc.malloc.mmap_threshold=1073741824:glibc.malloc.top_pad=16777216"


class Program:
    """The program in this folder, with the file `journal`. For each command it is loaded once, and a copy of it runs each time."""

    def __init__(self, preloaded):
        self.preloaded, self.loaded = preloaded, {}

    def run(self, *words, given=b""):
        if words not in self.loaded:
            env = {"LD_PRELOAD": self.preloaded, "GLIBC_TUNABLES": TUNABLES}
            self.loaded[words] = subprocess.Popen([PROGRAM, "journal", *words], env=env, bufsize=0, stdin=subprocess.PIPE, stdout=subprocess.PIPE)
        put("in", given)
        it = self.loaded[words]
        it.stdin.write(b".")
        status = os.waitstatus_to_exitcode(struct.unpack("i", it.stdout.read(4))[0])
        return Ran(status, held("out"), held("note"))

    def stop(self):
        for it in self.loaded.values():
            it.stdin.close()
            it.stdout.close()
            it.wait()


@contextlib.contextmanager
def loaded():
    """The program, in a new folder that is the current one."""
    with tempfile.TemporaryDirectory(dir=WHERE) as folder:
        os.chdir(folder)
        preloaded = f"{folder}/fork_server.so"
        subprocess.run(["gcc", "-O1", "-shared", "-fPIC", "-o", preloaded, HERE / "fork_server.c"], check=True)
        program = Program(preloaded)
        try:
            yield program
        finally:
            program.stop()
            os.chdir(HERE)


def put(name, data):
    with open(name, "wb", buffering=0) as file:
        file.write(data)


def held(name):
    with open(name, "rb", buffering=0) as file:
        return file.read()


EMPTY, WITH_REGISTER = (b"LDARJNL1" + bytes(8) + it + b"\0" for it in (b"", b"\1" + len(REGISTER).to_bytes(4, "big") + REGISTER))


def tried_dock(program, data):
    put("journal", EMPTY)
    office = Office()
    lines, status, note = docked(office, data)
    ran = program.run("dock", given=data)
    if (ran.returncode, ran.stderr.decode()) != (status, note) or ran.stdout.decode().splitlines() != lines:
        return f"dock: {ran.returncode} {ran.stderr} {ran.stdout}, not {status} {note!r} {lines}"
    again = program.run("check")
    return None if again == (0, office.counts().encode(), b"") else f"check: {again}, not {office.counts()!r}"


def tried_open(program, data):
    put("journal", data)
    office, note = opened(data)
    ran = program.run("check")
    want = (0, office.counts(), "") if office else (7, "", note)
    got = ran.returncode, ran.stdout.decode(), ran.stderr.decode()
    if got != want:
        return f"check: {got}, not {want}"
    return None if held("journal") == data else "check changed the journal"


RESPONSE = re.compile(rb"HTTP/1\.1 (200|400|404|405|409|411|413|414|417|422|431|500|501|503|505|507) [A-Za-z -]+\r\nContent-Type: text/plain\r\n"
                      rb"Content-Length: (\d+)\r\n(?:Allow: (?:GET|POST)\r\n)?(?:Connection: close\r\n)?\r\n")
NOTE = re.compile(r"|input cut: \d+ bytes left\n|bad input at \d+\n|bad row \d+\n|conflict \d+\n|denied \d+ \d+ \S+\n|input too large\n")


def are_responses(said):
    while said:
        found = RESPONSE.match(said)
        if not found:
            return False
        said = said[found.end() + int(found[2]):]
    return True


def tried_drain(program, data):
    put("journal", WITH_REGISTER)
    ran = program.run("drain", given=data)
    if ran.returncode not in (0, 8) or not NOTE.fullmatch(ran.stderr.decode()) or not are_responses(ran.stdout):
        return f"drain: {ran.returncode} {ran.stderr} {ran.stdout}"
    if (ran.returncode == 0) != (ran.stderr == b""):
        return f"drain: {ran.returncode} {ran.stderr}"
    return receipted_stand(program, ran.stdout)


def tried_import(program, data, sort):
    put("journal", EMPTY)
    ran = program.run("import", "1", ("units", "components")[sort], given=data)
    if ran.returncode not in (0, 8, 11) or not NOTE.fullmatch(ran.stderr.decode()) or (ran.returncode == 0) != (ran.stderr == b""):
        return f"import: {ran.returncode} {ran.stderr} {ran.stdout}"
    return receipted_stand(program, ran.stdout)


def receipted_stand(program, said):
    """The journal opens, and has each position that was receipted."""
    positions = [int(it) for it in re.findall(rb"receipt \d+ \d+ (\d+)\n", said)]
    again = program.run("check")
    found = re.fullmatch(rb"journal (\d+) batches \d+ facts\n", again.stdout)
    if not found or int(found[1]) < max(positions, default=0):
        return f"check: {again.returncode} {again.stdout} after {positions}"
    return None


TRIES = {"dock": tried_dock, "open": tried_open, "drain": tried_drain, "units": lambda p, d: tried_import(p, d, 0),
         "components": lambda p, d: tried_import(p, d, 1)}
MAKERS = {"dock": batches_input, "open": journal_input, "drain": request_input, "units": lambda rng: table_input(rng, 0),
          "components": lambda rng: table_input(rng, 1)}


def worker(seed, until):
    """Tries inputs until the time is up. Returns how many of each kind, and what was wrong."""
    rng, counts, wrong = random.Random(seed), collections.Counter(), []
    with loaded() as program:
        while time.time() < until and len(wrong) < 3:
            what = rng.choice(("dock", "dock", "open", "open", "drain", "units", "components"))
            data = MAKERS[what](rng)
            why = TRIES[what](program, data)
            counts[what] += 1
            if why:
                wrong.append((what, data, why))
    return counts, wrong


def main():
    words = dict(zip(sys.argv[1::2], sys.argv[2::2]))
    seconds, seed = int(words.get("--seconds", 60)), int(words.get("--seed", time.time()))
    CORPUS.mkdir(exist_ok=True)
    with loaded() as program:
        for file in sorted(CORPUS.iterdir()):
            why = TRIES[file.name.split("-")[0]](program, file.read_bytes())
            if why:
                sys.exit(f"{file}: {why}")
    lanes, until, counts, found = len(os.sched_getaffinity(0)), time.time() + seconds, collections.Counter(), 0
    with concurrent.futures.ProcessPoolExecutor(lanes, multiprocessing.get_context("fork")) as pool:
        for tries, wrong in pool.map(worker, range(seed, seed + lanes), [until] * lanes):
            counts += tries
            for what, data, why in wrong:
                found += 1
                (CORPUS / f"{what}-{seed}-{found}").write_bytes(data)
                print(f"{what}-{seed}-{found}: {why}")
    kinds = ", ".join(f"{count:,} {what}" for what, count in sorted(counts.items()))
    print(f"{counts.total():,} inputs ({kinds}) by seed {seed} in {seconds} seconds, {found} wrong")
    sys.exit(1 if found else 0)


main()
