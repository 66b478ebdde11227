#!/usr/bin/env python3
"""Talks to `ldar JOURNAL serve PORT WORKERS` over real sockets.

mix     64 connections side by side: handhelds that sync, desks that ask, and clients that stay silent, send garbage, close half, send
        262,145 bytes, send a byte a second, take no answers, or leave. Every good client is answered, every receipt is at its position
        afterwards, the others are let go in time, and no worker is lost
ends    too many open files end a worker, and the others go on; the statuses of words and files that are not in order
kills   the process is ended at random under load, by SIGKILL and SIGTERM in turn: nothing receipted is missing
faults  the same, while each few writes and syncs fail (faults.c)
speed   syncs and views of one day a second with 1, 2, 4 and 8 workers, and the time from connecting to the answer while others sync (50th
        and 99th of 100), beside a plain Rust server of the same protocol with a mutex (serve.rs), and beside the same writes and syncs in a
        loop by one thread, of which the syncs may take 1.3 times; medians of three runs in turn, of COUNT requests each
room    what a room costs with nobody waiting: the processor time in user mode of COUNT views on one connection of one worker, beside
        that of `drain`, which has no room; reading and writing the requests is in both, and plain Rust shows what the socket adds

usage: bench/serve.py [mix] [ends] [kills [TIMES]] [faults [TIMES]] [speed [COUNT]] [room [COUNT]]
       without words: all, with 100 kills, 2,000 requests for speed and 500,000 for the room"""
import itertools
import json
import multiprocessing
import os
import random
import resource
import signal
import socket
import struct
import subprocess
import sys
import tempfile
import threading
import time

import cases
import medians
from cases import BENCH, HERE, LDAR, PROGRAM, case, has
from office import loop

DAY = "2024-02-20"
SILENCE, WHOLE = 30, 60
VIEWS = [["due", "2", DAY], ["tags", "2", DAY], ["delays", "2", DAY], ["route", "2", DAY, "3"], ["percent", "2", "1", DAY], ["report", "2", "1", DAY]]


# ---- the office, and its clients

class Office:
    """A running server. Its first line says that it listens."""

    def __init__(self, journal, workers, env=(), program=PROGRAM):
        with socket.create_server(("127.0.0.1", 0)) as free:
            self.port = free.getsockname()[1]
        self.process = subprocess.Popen([program, journal, "serve", str(self.port), str(workers)], stdin=subprocess.DEVNULL, stdout=subprocess.DEVNULL,
                                        stderr=subprocess.PIPE, env={**os.environ, **dict(env)})
        self.first_line = self.process.stderr.readline().decode()
        self.listens = self.first_line == f"listening on 127.0.0.1:{self.port}, workers: {workers}\n"

    def most_files(self, count):
        resource.prlimit(self.process.pid, resource.RLIMIT_NOFILE, (count, count))

    def end(self, by=signal.SIGTERM):
        """Ends the process; its status, and what it noted after the first line."""
        self.process.send_signal(by)
        return self.ended()

    def ended(self):
        notes = self.process.stderr.read().decode()
        self.process.stderr.close()
        return self.process.wait(60), notes


class Ended(Exception):
    """The office ended the connection before the whole response."""


class Line:
    """A connection to an office."""

    def __init__(self, port):
        self.socket = socket.create_connection(("127.0.0.1", port), timeout=300)
        self.socket.setsockopt(socket.IPPROTO_TCP, socket.TCP_NODELAY, 1)
        self.came = b""

    def __enter__(self):
        return self

    def __exit__(self, *_):
        self.socket.close()

    def send(self, request):
        try:
            self.socket.sendall(request)
        except ConnectionError as error:
            raise Ended from error

    def more(self):
        try:
            return self.socket.recv(65_536)
        except ConnectionError as error:
            raise Ended from error

    def until(self, is_there):
        while not is_there():
            piece = self.more()
            if not piece:
                raise Ended
            self.came += piece

    def response(self):
        """The status and the body of the next response."""
        self.until(lambda: b"\r\n\r\n" in self.came)
        head, _, rest = self.came.partition(b"\r\n\r\n")
        fields = dict(line.split(b": ", 1) for line in head.split(b"\r\n")[1:])
        length = int(fields[b"Content-Length"])
        self.until(lambda: len(self.came) >= len(head) + 4 + length)
        body, self.came = self.came[len(head) + 4 :][:length], self.came[len(head) + 4 + length :]
        return int(head.split(b" ")[1]), body.decode()

    def ask(self, request):
        self.send(request)
        return self.response()

    def is_at_end(self):
        """Whether nothing more comes."""
        try:
            return not self.came and self.more() == b""
        except Ended:
            return False


def post(body, *fields):
    return b"\r\n".join([b"POST /sync HTTP/1.1", b"Host: office", b"Content-Length: %d" % len(body), *fields, b"", body])


def get(words, *fields):
    return b"\r\n".join([b"GET /" + "/".join(words).encode() + b" HTTP/1.1", b"Host: office", *fields, b"", b""])


def sync(handheld, number):
    """The request with one calibration."""
    fact = {"kind": "calibration", "day": DAY, "minute": number % 1_440, "instrument": 1, "gas": 500}
    return post(json.dumps({"handheld": handheld, "number": number, "facts": [fact]}).encode())


def in_bytes(handheld, number):
    """The same batch, as dock reads it."""
    return struct.pack(">BHIHBHHHI", 0x42, handheld, number, 1, 7, 19_773, number % 1_440, 1, 500)


class Handheld:
    """A handheld that sends one batch after the other. It keeps each until it is receipted."""

    def __init__(self, name):
        self.name, self.next, self.receipts, self.faults = name, 1, {}, 0

    def take(self, number, response):
        """Takes the response to a batch; whether it was receipted."""
        status, body = response
        if (status, body) == (503, "disk fault\n"):
            self.faults += 1
            return False
        words = body.split()
        if status != 200 or words[:3] != ["receipt", str(self.name), str(number)]:
            raise AssertionError(f"batch {number} of handheld {self.name}: {status} {body}")
        if self.receipts.setdefault(number, int(words[3])) != int(words[3]):
            raise AssertionError(f"batch {number} of handheld {self.name} has two positions: {self.receipts[number]}, {words[3]}")
        return True

    def sync_on(self, line):
        """Sends the next batch over a connection."""
        if self.take(self.next, line.ask(sync(self.name, self.next))):
            self.next += 1

    def sync_many(self, line, count):
        """Sends some batches before it reads the first response."""
        line.send(b"".join(sync(self.name, self.next + it) for it in range(count)))
        for _ in range(count):
            self.take(self.next, line.response())
            self.next += 1


def made(journal):
    """A journal with the register of the documents."""
    if os.path.exists(journal):
        os.remove(journal)
    subprocess.run([PROGRAM, journal, "init"], check=True)
    for words, file in ((("1", "units"), "units.toml"), (("2", "components"), "components.csv")):
        with open(f"{HERE}/docs/{file}", "rb") as given:
            subprocess.run([PROGRAM, journal, "import", *words], stdin=given, check=True, capture_output=True)
    return journal


def misplaced(journal, handhelds):
    """The receipted batches that are not kept at their positions: each is sent again, and must get the same receipt."""
    sent = [(it.name, number, position) for it in handhelds for number, position in it.receipts.items()]
    ran = subprocess.run([PROGRAM, journal, "dock"], input=b"".join(in_bytes(name, number) for name, number, _ in sent), capture_output=True)
    wanted = [f"receipt {name} {number} {position}" for name, number, position in sent]
    lines = ran.stdout.decode().splitlines()
    return [pair for pair in itertools.zip_longest(wanted, lines) if pair[0] != pair[1]]


def kept(journal):
    """The number of batches in a journal."""
    return int(subprocess.run([PROGRAM, journal, "check"], capture_output=True, text=True, check=True).stdout.split()[1])


# ---- the mix

def handheld(office, name, _shown):
    it = Handheld(name)
    for stretch in range(6):
        with Line(office.port) as line:
            if stretch % 3 == 2:
                it.sync_many(line, 25)
                it.next -= 5  # the last five once more
                it.sync_many(line, 5)
            else:
                for _ in range(25):
                    it.sync_on(line)
    return it


def desk(office, name, shown):
    for stretch in range(6):
        with Line(office.port) as line:
            for number, words in enumerate(VIEWS):
                is_last = stretch % 2 and number + 1 == len(VIEWS)
                if line.ask(get(words, *[b"Connection: close"] * is_last)) != (200, shown[number]):
                    return False
            if stretch % 2 and not line.is_at_end():
                return False
    return True


def silent(office, name, shown):
    """Says nothing more after one request, or stops within the next."""
    with Line(office.port) as line:
        line.ask(get(VIEWS[4]))
        began = time.monotonic()
        line.send([b"", b"GET /due/2/2024-02-20 HT", sync(1, 1)[:-5]][name % 3])
        line.is_at_end()
        return time.monotonic() - began


def slow(office, name, shown):
    """Sends a byte a second after one request."""
    with Line(office.port) as line:
        line.ask(get(VIEWS[4]))
        began = time.monotonic()
        line.socket.settimeout(1)
        for byte in get(VIEWS[0] * 40):
            try:
                line.send(bytes([byte]))
                if not line.more():
                    break
            except TimeoutError:
                pass
            except Ended:
                break
        return time.monotonic() - began


def untaken(office, name, shown):
    """Asks for more than the buffers of the system hold, and takes nothing for longer than it is waited for."""
    given, sent = get(VIEWS[5]) * 200_000, 0
    with socket.socket() as it:
        it.setsockopt(socket.SOL_SOCKET, socket.SO_RCVBUF, 4_096)
        it.settimeout(300)
        it.connect(("127.0.0.1", office.port))
        it.send(get(VIEWS[5]))
        response = len(it.recv(4_096))
        it.setblocking(False)
        until = time.monotonic() + WHOLE + SILENCE + 10
        while time.monotonic() < until:
            try:
                sent += it.send(given[sent:sent + 65_536])
            except BlockingIOError:
                time.sleep(0.1)
            except OSError:
                break
        it.settimeout(10)
        taken = 0
        try:
            while piece := it.recv(65_536):
                taken += len(piece)
        except OSError:
            pass
        return 0 < taken < sent // len(get(VIEWS[5])) * response


def garbage(office, name, shown):
    kind = name % 4
    given = [random.randbytes(300) + b"\r\n\r\n", b"\0" * 9_000, b"GET /due/2/2024-02-20 HTTP/1.1\r\nHost" + b"x" * 8_192, b"{}\r\n\r\n"][kind]
    with Line(office.port) as line:
        status, _ = line.ask(given)
        return status in (400, 431, 505) and line.is_at_end()


def half(office, name, shown):
    """Closes its sending half after a request, or within one."""
    with Line(office.port) as line:
        if name % 2:
            line.send(get(VIEWS[0]))
            line.socket.shutdown(socket.SHUT_WR)
            return line.response() == (200, shown[0]) and line.is_at_end()
        line.send(get(VIEWS[0]) + sync(1, 1)[:-5])
        line.socket.shutdown(socket.SHUT_WR)
        return line.response() == (200, shown[0]) and line.is_at_end()


def too_large(office, name, shown):
    with Line(office.port) as line:
        line.send(get(VIEWS[0]) + post(b" " * 262_145))
        return line.response() == (200, shown[0]) and line.response()[0] == 413 and line.is_at_end()


def leaver(office, name, shown):
    """Resets its connection at once, within a request, or before its answers."""
    for given in (b"", sync(1, 1)[:40], get(VIEWS[0]), get(VIEWS[5]) * 100):
        with Line(office.port) as line:
            line.send(given)
            line.socket.setsockopt(socket.SOL_SOCKET, socket.SO_LINGER, struct.pack("ii", 1, 0))
    return True


ROLES = [(handheld, 26), (desk, 12), (silent, 6), (slow, 3), (untaken, 2), (garbage, 4), (half, 4), (too_large, 4), (leaver, 3)]


def together(calls):
    """The results of calls that are made side by side."""
    results = [None] * len(calls)

    def run(place, call):
        try:
            results[place] = call()
        except Exception as error:  # each is shown
            results[place] = error

    threads = [threading.Thread(target=run, args=it) for it in enumerate(calls)]
    for it in threads:
        it.start()
    for it in threads:
        it.join()
    return results


def all_answer(office, workers):
    """Whether each worker answers a connection while the others have one too."""
    lines = [Line(office.port) for _ in range(workers)]
    said = together([lambda line=line: line.ask(get(VIEWS[0]))[0] for line in lines])
    for line in lines:
        line.socket.close()
    return said == [200] * workers


def mix(folder, workers):
    journal = made(f"{folder}/mix.journal")
    shown = [subprocess.run([PROGRAM, journal, "show", *words], capture_output=True, text=True, check=True).stdout for words in VIEWS]
    office = Office(journal, workers)
    case(f"{workers} workers: the first line says that it listens", office.listens, True)
    names = {role: range(start, start + count) for (role, count), start in zip(ROLES, itertools.accumulate([100, *(count for _, count in ROLES)]))}
    results = together([lambda role=role, name=name: role(office, name, shown) for role in names for name in names[role]])
    by = dict(zip(names, (list(itertools.islice(it, count)) for it, (_, count) in zip(itertools.repeat(iter(results)), ROLES))))
    handhelds = [it for it in by[handheld] if isinstance(it, Handheld)]
    case("handhelds whose batches are all receipted", [len(it.receipts) if isinstance(it, Handheld) else it for it in by[handheld]], [150] * 26)
    for role in (desk, untaken, garbage, half, too_large, leaver):
        case(f"each {role.__name__}", by[role], [True] * len(by[role]))
    for role, seconds in ((silent, SILENCE), (slow, WHOLE)):
        case(f"each {role.__name__} is let go in time", [it if isinstance(it, Exception) or not abs(it - seconds) < 5 else True for it in by[role]], [True] * len(by[role]))
    case("no worker is lost", all_answer(office, workers), True)
    case("SIGTERM ends it, with no further note", office.end(), (-signal.SIGTERM, ""))
    case("receipted batches that are not at their positions", misplaced(journal, handhelds), [])
    case("batches kept", kept(journal), 2 + sum(len(it.receipts) for it in handhelds))


# ---- how it ends

def ends(folder):
    """Each worker needs a descriptor for its connection. One that has none ends by an error of its front, and the others go on."""
    journal = made(f"{folder}/ends.journal")
    office = Office(journal, 4)
    with Line(office.port) as line:
        line.ask(get(VIEWS[4]))
        files = len(os.listdir(f"/proc/{office.process.pid}/fd")) - 1
    office.most_files(files + 2)
    case("four workers answer side by side", all_answer(office, 4), True)
    time.sleep(0.5)
    lines = [Line(office.port) for _ in range(2)]
    case("two of them go on, two find too many open files", [line.ask(get(VIEWS[4]))[0] for line in lines], [200, 200])
    with Line(office.port) as late:
        late.send(get(VIEWS[4]))
        late.socket.settimeout(1)
        try:
            late.response()
            case("a third connection waits", False, True)
        except TimeoutError:
            lines.pop().socket.close()
            case("a third connection waits for one of them", late.response()[0], 200)
        office.most_files(files)
    lines.pop().socket.close()
    case("none is left", office.ended(), (12, "front fault\n"))
    with socket.create_server(("127.0.0.1", 0)) as taken:
        port = str(taken.getsockname()[1])
        ran = subprocess.run([PROGRAM, journal, "serve", port, "2"], capture_output=True, text=True)
        case("a port that another program has", (ran.returncode, ran.stdout, ran.stderr.splitlines()[-1:]), (12, "", ["front fault"]))
    for words in (["0", "1"], ["65536", "1"], ["080", "1"], ["8080", "0"], ["8080", "65"], ["8080"], ["8080", "1", "1"], ["8080", "-1"]):
        ran = subprocess.run([PROGRAM, journal, "serve", *words], capture_output=True, text=True)
        case(f"serve {' '.join(words)}", (ran.returncode, ran.stdout, ran.stderr.count("\n")), (2, "", 1))
    with open(f"{folder}/no.journal", "wb") as file:
        file.write(b"x" * 20)
    for path, status in ((f"{folder}/no.journal", 7), (folder, 5)):
        office = Office(path, 2)
        case(f"a file that does not open, status {status}", (office.listens, office.ended()[0]), (True, status))


# ---- ended at random

def under_load(port, handhelds, answered):
    """Handhelds that sync until the office ends. The event is set once one was answered."""

    def sync_on(it):
        while True:
            try:
                with Line(port) as line:
                    for _ in range(random.randrange(1, 40)):
                        it.sync_on(line)
                        answered.set()
            except (Ended, OSError):
                return

    return [threading.Thread(target=sync_on, args=(it,)) for it in handhelds]


def kills(folder, times, failing=None):
    """Ends the office at random, by SIGKILL and SIGTERM in turn; with disk errors if an environment makes them."""
    journal, handhelds, lost, unopened = made(f"{folder}/kills.journal"), [Handheld(it) for it in range(1, 17)], [], 0
    for number in range(times):
        office = Office(journal, 8, failing(number) if failing else ())
        if not office.listens:
            sys.exit(f"it does not listen: {office.first_line}")
        answered = threading.Event()
        threads = under_load(office.port, handhelds, answered)
        for it in threads:
            it.start()
        answered.wait(5)
        time.sleep(random.uniform(0, 0.3))
        status, _ = office.end((signal.SIGKILL, signal.SIGTERM)[number % 2])
        unopened += status > 0
        for it in threads:
            it.join()
        lost += misplaced(journal, handhelds)
    count, faults = sum(len(it.receipts) for it in handhelds), sum(it.faults for it in handhelds)
    how = f"{faults} answers of a disk fault, {unopened} openings failed, " if failing else ""
    case(f"{times} ends under load, {how}{count} receipts; missing or at another position", lost, [])


def faulty(folder, times):
    if not has("gcc", "no disk errors were made under load"):
        return
    library = os.path.abspath(f"{folder}/faults.so")
    subprocess.run(["gcc", "-O1", "-shared", "-fPIC", "-o", library, os.path.join(BENCH, "faults.c")], check=True)
    kills(folder, times, lambda number: {"LD_PRELOAD": library, "FAILING": str(random.randrange(5, 60))})


# ---- speed

def sender(port, name, count):
    """Sends batches over one connection, one after the other."""
    it = Handheld(name)
    with Line(port) as line:
        for _ in range(count):
            it.sync_on(line)


def asker(port, name, count):
    with Line(port) as line:
        for _ in range(count):
            line.ask(get(VIEWS[4]))


def timed(client, port, workers, count):
    """The elapsed time of so many clients, each a process, that share a number of requests."""
    ready = multiprocessing.Barrier(workers + 1)

    def run(name):
        ready.wait()
        client(port, name, count // workers)

    running = [multiprocessing.Process(target=run, args=(it,)) for it in range(1, workers + 1)]
    for it in running:
        it.start()
    ready.wait()
    began = time.monotonic()
    for it in running:
        it.join()
    return time.monotonic() - began


def answer_times(port, count):
    """The times from connecting to the whole answer, in order."""
    times = []
    for _ in range(count):
        began = time.monotonic()
        with Line(port) as line:
            line.ask(get(VIEWS[4], b"Connection: close"))
        times.append(time.monotonic() - began)
    return sorted(times)


def times_under_load(journal, workers, program, count):
    """The times from connecting to the whole answer, in order, while so many clients sync and one worker is free for a connection."""
    office = Office(made(journal), workers + 1, program=program)
    load = [multiprocessing.Process(target=sender, args=(office.port, it, 1_000_000)) for it in range(1, workers + 1)]
    for it in load:
        it.start()
    time.sleep(0.3)
    times = answer_times(office.port, count)
    for it in load:
        it.kill()
        it.join()
    office.end()
    return times


def speed(folder, count):
    journal, plain = f"{folder}/speed.journal", medians.compiled("serve.rs", folder)

    def served(program, workers):
        office = Office(made(journal), workers, program=program)
        synced = timed(sender, office.port, workers, count)
        asked = timed(asker, office.port, workers, count)
        office.end()
        times = times_under_load(journal, workers, program, count // 4)
        return synced, asked, times[len(times) // 2], times[len(times) * 99 // 100]

    print(f"{'workers':>7} {'':5} {'syncs a second':>15} {'its time to the loop':>21} {'views a second':>15} {'connect to answer, ms: 50th':>28} {'99th':>8}")
    for workers in (1, 2, 4, 8):
        *both, (alone,) = medians.in_turn(3, lambda: served(PROGRAM, workers), lambda: served(plain, workers), lambda: (loop(made(journal), count, 20),))
        for name, (synced, asked, half, most) in zip(("ours", "Rust"), both):
            print(f"{workers:7} {name:5} {count / synced:15,.0f} {synced / alone:21.2f} {count / asked:15,.0f} {half * 1e3:28.2f} {most * 1e3:8.2f}", flush=True)
        ours, rust = both
        medians.row(f"{workers} workers: syncs a second (the loop: {count / alone:,.0f})", f"{count / ours[0]:,.0f}", f"{count / rust[0]:,.0f}", ours[0] / rust[0])
        medians.row("the same, time against the same writes and syncs in a loop by one thread", "", "", ours[0] / alone)
        medians.row("the same: views of one day a second", f"{count / ours[1]:,.0f}", f"{count / rust[1]:,.0f}", ours[1] / rust[1])
        medians.row("the same: connecting to answer while others sync, ms, 50th of 100", f"{ours[2] * 1e3:.2f}", f"{rust[2] * 1e3:.2f}", ours[2] / rust[2])
        medians.row("the same, 99th of 100", f"{ours[3] * 1e3:.2f}", f"{rust[3] * 1e3:.2f}", ours[3] / rust[3])
        medians.wanted(f"syncs with {workers} workers, beside the same writes and syncs by one thread", 1.3, ours[0] / alone, " times")


# ---- what a room costs

def user_time(run):
    """The processor time in user mode of the processes that a call starts and ends."""
    before = resource.getrusage(resource.RUSAGE_CHILDREN).ru_utime
    run()
    return resource.getrusage(resource.RUSAGE_CHILDREN).ru_utime - before


def piped_to_one(program, journal, count):
    """Sends views over one connection, as fast as they are taken, and reads the answers."""
    office = Office(journal, 1, program=program)
    with Line(office.port) as line:
        asking = threading.Thread(target=line.send, args=(get(VIEWS[4]) * count,))
        asking.start()
        for _ in range(count):
            line.response()
        asking.join()
    office.end()


def room(folder, count):
    journal, plain = made(f"{folder}/room.journal"), medians.compiled("serve.rs", folder)

    def drained(program, count):
        return user_time(lambda: subprocess.run([program, journal, "drain"], input=get(VIEWS[4]) * count, check=True, stdout=subprocess.DEVNULL))

    def served(program, count):
        return user_time(lambda: piped_to_one(program, journal, count))

    works = [lambda way=way, program=program: ((way(program, count) - way(program, 1)) / count * 1e6,) for program in (PROGRAM, plain) for way in (served, drained)]
    (through,), (direct,), (locked,), (alone,) = medians.in_turn(3, *works)
    print(f"user time of a view, us: through a room {through:.2f}, by drain {direct:.2f}; plain Rust: under a mutex {locked:.2f}, by drain {alone:.2f}, "
          f"ratio {locked / alone:.2f}, which has the socket's share")
    medians.row("a view over one connection of one worker, user time, µs (beside `drain`, which has no room)", f"{through:.2f}", f"{direct:.2f} (drain)", through / direct)
    medians.row("the same in plain Rust, with a mutex", f"{locked:.2f}", f"{alone:.2f} (drain)", locked / alone)
    medians.wanted("a view through a room, beside one without", 1.1, through / direct, " times")


def main():
    words = sys.argv[1:] or ["mix", "ends", "kills", "faults", "speed", "room"]
    subprocess.run([LDAR, ":memory:", "init"], check=True)
    with tempfile.TemporaryDirectory(dir=os.environ.get("TMPDIR", HERE)) as folder:
        for word, after in itertools.zip_longest(words, words[1:], fillvalue=""):
            number = int(after) if after.isdigit() else None
            if word == "mix":
                mix(folder, 64)
                mix(folder, 8)
            elif word == "ends":
                ends(folder)
            elif word == "kills":
                kills(folder, number or 100)
            elif word == "faults":
                faulty(folder, number or 100)
            elif word == "speed":
                speed(folder, number or 2_000)
            elif word == "room":
                room(folder, number or 500_000)
            elif not word.isdigit():
                sys.exit(__doc__)
    if {"speed", "room"} & set(words):
        medians.print_rows()
    cases.failed.extend(medians.unmet)
    cases.ended()


main()
