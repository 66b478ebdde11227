#!/usr/bin/env python3
"""Runs the real program through what goes wrong outside it; the list below is tested only here.

Each case checks the exit status, and that an existing journal still opens to what was receipted. Cases that need root, strace or
gcc are skipped with a message if there is none.

usage: bench/hard_cases.py"""
import os
import struct
import subprocess
import sys
import tempfile
import time

import fault_cases
from cases import HEADER, HERE, IS_ROOT, LDAR, NOBODY, PROGRAM, batch, case, docked, ended, has, held, ldar, made, pass_over, receipted, run

ONLY_HERE = """\
The types for real files and streams promise only their error counts, and the gate tests them on three files (two disks on one
file, two syncs in a row, a file that cannot be written). Only this script tests:
- closed, full and non-blocking streams, a reader that left, a root folder without /dev and /proc
- two processes on one journal; read-only journals; folders, links, full disks, odd words
- a journal with the maximum number of facts
- the order of the system calls, and which folder is synced
- each system call of an init and of a dock failing, and the program killed at each
- signals, transfers of one byte, each allocation refused, and the bytes that are written again after a failed sync"""

# Process unit 2 from 2024-01-15, with valve 30 in gas service.
VALVE = bytes.fromhex("42 0000 00000002 0002 01 4d19 0000 02 00 434f4b4552 00000000000000 02 4d19 0000 001e 02 01 00 00 01 00 00 01")

AS_NOBODY = {"user": NOBODY, "group": NOBODY, "extra_groups": []} if IS_ROOT else {}


def streams():
    made("unit.journal")
    case("standard output closed", run('"$LDAR" unit.journal dock >&-', batch(1))[0], 4)
    case("its batch stands", docked("unit.journal", 1), (0, receipted(1)))
    case("standard input closed", run('"$LDAR" unit.journal dock <&-')[0], 3)
    case("standard input and output closed", run('"$LDAR" unit.journal dock <&- >&-')[0], 3)
    case("all streams closed, so that nothing can be noted", run('"$LDAR" unit.journal dock <&- >&- 2>&-')[0], 4)
    case("standard error closed", run('"$LDAR" unit.journal dock 2>&-', batch(1)), (0, receipted(1)))
    case("a folder as standard input", run('"$LDAR" unit.journal dock </')[0], 3)
    case("a full standard output", run('"$LDAR" unit.journal dock >/dev/full', batch(2))[0], 4)
    case("its batch stands", docked("unit.journal", 2), (0, receipted(2)))
    case("a reader that left", reader_left(batch(3)), 4)
    case("its batch stands", docked("unit.journal", 3), (0, receipted(3)))
    case("the journal's size", os.path.getsize("unit.journal"), 17 + 3 * 25)


def reader_left(given):
    """The exit status of a dock whose output is a pipe without a reader."""
    reads, writes = os.pipe()
    os.close(reads)
    try:
        return subprocess.run([LDAR, "unit.journal", "dock"], input=given, stdout=writes, stderr=subprocess.DEVNULL).returncode
    finally:
        os.close(writes)


def not_blocking():
    """Non-blocking streams that have, or take, nothing now."""
    made("unit.journal")
    reads, writes = os.pipe()
    os.set_blocking(reads, False)
    started = subprocess.Popen([PROGRAM, "unit.journal", "dock"], stdin=reads, stdout=subprocess.PIPE)
    os.close(reads)
    for piece in (batch(1)[:5], batch(1)[5:]):
        time.sleep(0.2)
        os.write(writes, piece)
    time.sleep(0.2)
    is_waiting = started.poll() is None
    os.close(writes)
    case("a standard input that is not blocking is waited for", (is_waiting, *ended_with(started)), (True, 0, receipted(1)))
    reads, writes = os.pipe()
    os.set_blocking(writes, False)
    stuffed = filled(writes)
    started = subprocess.Popen([PROGRAM, "unit.journal", "dock"], stdin=subprocess.PIPE, stdout=writes)
    os.close(writes)
    started.stdin.write(batch(2))
    started.stdin.close()
    time.sleep(0.3)
    is_waiting = started.poll() is None
    with os.fdopen(reads, "rb") as pipe:
        text = pipe.read()[stuffed:]
    case("a full standard output that is not blocking is waited for", (is_waiting, started.wait(), text), (True, 0, receipted(2)))


def filled(writes):
    """Fills a pipe, and returns how many bytes it took."""
    total = 0
    for size in (4096, 1):
        try:
            while True:
                total += os.write(writes, bytes(size))
        except BlockingIOError:
            pass
    return total


def ended_with(started):
    text = started.stdout.read()
    return started.wait(), text


def two_programs():
    """One journal and two processes: the second is refused at once, whatever its command."""
    made("unit.journal")
    first = subprocess.Popen([LDAR, "unit.journal", "dock"], stdin=subprocess.PIPE, stdout=subprocess.PIPE)
    until_locked("unit.journal")
    start = time.monotonic()
    for word, given in [("dock", batch(1)), ("dock", b""), ("init", b"")]:
        case(f"{word} with {len(given)} bytes beside another program", ldar("unit.journal", word, given=given), (5, b""))
    os.symlink("unit.journal", "other.name")
    case("by another name", docked("other.name", 1), (5, b""))
    case("refused at once", time.monotonic() - start < 2, True)
    first.stdin.write(batch(2))
    first.stdin.close()
    case("the first goes on", ended_with(first), (0, receipted(2, 1)))
    case("then the next one has it", docked("unit.journal", 1), (0, receipted(1, 2)))
    killed = subprocess.Popen([LDAR, "unit.journal", "dock"], stdin=subprocess.PIPE)
    until_locked("unit.journal")
    killed.kill()
    killed.wait()
    case("a killed one holds nothing", docked("unit.journal", 2), (0, receipted(2, 1)))


def until_locked(path):
    """Waits until some process has locked the file."""
    place = f":{os.stat(path).st_ino} "
    deadline = time.monotonic() + 10
    while time.monotonic() < deadline:
        with open("/proc/locks") as locks:
            if any("FLOCK" in line and place in line for line in locks):
                return
        time.sleep(0.01)
    case("the journal is locked", False, True)


def paths():
    case("a journal in no folder", run('"$LDAR" missing/unit.journal init')[0], 5)
    case("a journal where nothing can be made", run('"$LDAR" /proc/unit.journal init')[0], 5)
    case("a folder as journal", run('"$LDAR" . dock')[0], 5)
    case("a device that is not empty", run('"$LDAR" /dev/full init')[0], 9)
    case("no journal yet", run('"$LDAR" new.journal dock', batch(1))[0], 7)
    case("an empty file was made", os.path.getsize("new.journal"), 0)
    os.makedirs(b"no \xff text")
    case("in a folder whose name is no text", run('"$LDAR" unit.journal init', cwd=b"no \xff text")[0], 0)
    os.symlink("loop.journal", "loop.journal")
    case("a link that leads to itself", run('"$LDAR" loop.journal init')[0], 5)


def reading_alone():
    """A read-only journal: what is kept is shown, and a new batch is a disk error."""
    made("unit.journal", 1)
    kept = held("unit.journal")
    os.chmod("unit.journal", 0o444)
    read_only("that may not be written", "unit.journal", kept, **AS_NOBODY)
    os.makedirs("shut")
    os.rename("unit.journal", "shut/unit.journal")
    os.chmod("shut", 0o711)
    if IS_ROOT:
        case("in a folder that may not be read", ldar("shut/unit.journal", "dock", **AS_NOBODY), (5, b""))
    os.chmod("shut", 0o755)
    if mounted("--bind", "shut", "shut"):
        try:
            subprocess.run(["mount", "-o", "remount,ro,bind", "shut"], check=True)
            read_only("on a file system that may not be written", "shut/unit.journal", kept)
        finally:
            subprocess.run(["umount", "shut"])


def read_only(what, path, kept, **who):
    case(f"a journal {what}, opened", ldar(path, "dock", **who), (0, b""))
    case("a batch that is kept", docked(path, 1, **who), (0, receipted(1)))
    case("another batch with its number", ldar(path, "dock", given=batch(1, limit=501), **who), (0, b"conflict 1\n"))
    case("a new batch", docked(path, 2, **who), (0, b"disk fault\n"))
    case("init", ldar(path, "init", **who), (9, b""))
    case("no byte has changed", held(path) == kept, True)


def mounted(*words):
    """Mounts something, or reports that nothing can be mounted."""
    if IS_ROOT and subprocess.run(["mount", *words], capture_output=True).returncode == 0:
        return True
    pass_over("nothing can be mounted here: a file system that is full, or that may not be written, was not tried")
    return False


def views():
    """Views of a journal, and what does not exist; the journal does not change."""
    made("unit.journal", 1)
    kept = held("unit.journal")
    case("the counts", ldar("unit.journal", "check"), (0, b"journal 1 batches 1 facts\n"))
    case("a unit that was not entered", noted("unit.journal", "show", "due", "2", "2024-02-20"), (11, b"", b"no such unit\n"))
    case("no byte has changed", held("unit.journal") == kept, True)
    case("a unit with a valve", ldar("unit.journal", "dock", given=VALVE), (0, b"receipt 0 2 2\n"))
    due = b"due 2 2024-02-20\n30 monthly 2024-02-29 open\nend 1\n"
    case("what is due", ldar("unit.journal", "show", "due", "2", "2024-02-20"), (0, due))
    case("the same over HTTP", ldar("unit.journal", "drain", given=b"GET /due/2/2024-02-20 HTTP/1.1\r\nHost: office\r\n\r\n"), (0, answered(due)))
    case("a full output", run('"$LDAR" unit.journal show due 2 2024-02-20 >/dev/full')[0], 4)
    case("a day that is none", noted("unit.journal", "show", "due", "2", "2024-02-30"), (2, b"", b"usage: ldar JOURNAL COMMAND\n"))


def answered(body):
    """The response with this text."""
    return b"HTTP/1.1 200 OK\r\nContent-Type: text/plain\r\nContent-Length: %d\r\n\r\n" % len(body) + body


def notes():
    """The notes on standard error."""
    made("unit.journal", 1)
    case("a cut input", noted("unit.journal", "dock", given=batch(2)[:19]), (8, b"", b"input cut: 19 bytes left\n"))
    case("a wrong byte behind a batch", noted("unit.journal", "dock", given=batch(1) + b"C"), (8, receipted(1), b"bad input at 20\n"))
    case("a journal that stands", noted("unit.journal", "init"), (9, b"", b"not empty\n"))
    with open("short", "wb") as file:
        file.write(b"LDARJ")
    case("what is no journal", noted("short", "check"), (7, b"", b"not a journal\n"))
    with open("damaged.journal", "wb") as file:
        file.write(held("unit.journal").replace(b"B", b"C"))
    case("a damaged journal", noted("damaged.journal", "check"), (7, b"", b"damaged journal at 16\n"))
    case("no journal", noted("missing/unit.journal", "init"), (5, b"", b"disk fault\n"))


def noted(*words, given=b""):
    """The status, output and note of a run."""
    done = subprocess.run([PROGRAM, *words], input=given, capture_output=True)
    return done.returncode, done.stdout, done.stderr


def words():
    case("no word", run('"$LDAR"')[0], 2)
    case("no command", run('"$LDAR" unit.journal')[0], 2)
    case("an unknown command", run('"$LDAR" unmade.journal undock')[0], 2)
    case("a word too many", run('"$LDAR" unmade.journal dock x')[0], 2)
    case("a word that is no text", run('"$LDAR" unmade.journal "$(printf "\\377")"')[0], 2)
    case("no file was made", os.path.exists("unmade.journal"), False)
    status, text = run('"$LDAR" --help')
    case("the help", (status, text.startswith(b"usage: ldar JOURNAL COMMAND")), (0, True))
    case("the version", run('"$LDAR" --version')[0], 0)
    case("the help to a full output", run('"$LDAR" --help >/dev/full')[0], 4)


def full_disk():
    made("small.journal")
    kept = 0
    while True:
        status, line = run('ulimit -f 1; "$LDAR" small.journal dock', batch(kept + 1))
        if line != receipted(kept + 1):
            break
        kept += 1
    case("a file at its size limit", (status, line), (0, b"disk fault\n"))
    case("what was receipted stands", docked("small.journal", kept), (0, receipted(kept)))
    case("with room again", docked("small.journal", kept + 1), (0, receipted(kept + 1)))
    os.mkdir("small")
    if not mounted("-t", "tmpfs", "-o", "size=4k", "none", "small"):
        return
    try:
        made("small/unit.journal")
        ends = [docked("small/unit.journal", number) for number in range(1, 400)]
        kept = ends.index((0, b"disk fault\n"))
        case("a full file system", sorted(set(ends[kept:])), [(0, b"disk fault\n")])
        case("before it was full", ends[:kept], [(0, receipted(number)) for number in range(1, kept + 1)])
        case("what was receipted stands", docked("small/unit.journal", kept), (0, receipted(kept)))
    finally:
        subprocess.run(["umount", "small"])


def full_journal():
    """8,000,000 facts, in batches of 512 and frames of 16 batches."""
    start = time.monotonic()
    with open("full.journal", "wb") as file:
        file.write(HEADER)
        facts = batch(0, 512)[9:]
        numbers = list(range(1, 8_000_000 // 512 + 1))
        for at in range(0, len(numbers), 16):
            frame = b"".join(struct.pack(">BHIH", 0x42, 7, number, 512) + facts for number in numbers[at : at + 16])
            file.write(struct.pack(">BI", 1, len(frame)) + frame)
        file.write(b"\0")
    print(f"       a journal of {os.path.getsize('full.journal'):,} bytes was made in {time.monotonic() - start:.1f} seconds")
    kept = held("full.journal")
    for name, given, wanted in [
        ("one fact too many", batch(20_000), b"full 8000001\n"),
        ("512 facts too many", batch(20_000, 512), b"full 8000512\n"),
        ("a batch that is kept", batch(15_625, 512), receipted(15_625)),
        ("another batch with a kept number", batch(1), b"conflict 1\n"),
    ]:
        start = time.monotonic()
        case(f"a full journal, {name}", ldar("full.journal", "dock", given=given), (0, wanted))
        print(f"       in {time.monotonic() - start:.2f} seconds")
    case("no byte has changed", held("full.journal") == kept, True)
    with open("full.journal", "r+b") as file:
        # Without its last batch there is room for 512 facts.
        file.truncate(len(kept) - 1 - frame_of_last(kept))
        file.seek(0, os.SEEK_END)
        file.write(b"\0")
    case("with room for one frame", ldar("full.journal", "dock", given=batch(20_000, 512)), (0, receipted(20_000, 15_617)))
    os.remove("full.journal")


def frame_of_last(kept):
    """The number of bytes of the last frame: 15,625 batches leave 9 for it."""
    return 5 + 9 * len(batch(1, 512))


def bare_root():
    """A root folder with only the program and its libraries: no /dev/null, no /proc."""
    if not IS_ROOT or not has("ldd", "a bare root folder was not tried"):
        return pass_over("only root can change its root folder: a bare one was not tried") if not IS_ROOT else None
    os.mkdir("bare")
    os.chmod("bare", 0o755)
    libraries = [word for word in run(f"ldd {PROGRAM}")[1].decode().split() if word.startswith("/")]
    for path in [PROGRAM, *libraries]:
        to = "bare" + (path if path != PROGRAM else "/ldar")
        os.makedirs(os.path.dirname(to), exist_ok=True)
        with open(to, "wb") as file:
            file.write(held(path))
        os.chmod(to, 0o755)
    for name, mode in [("a bare root", None), ("a root with /dev/null and no /proc", 0o666)]:
        if mode:
            os.mkdir("bare/dev")
            os.mknod("bare/dev/null", 0o020000 | mode, os.makedev(1, 3))
        with_closed(name)
    # If nothing can replace a closed stream, nothing is opened.
    os.chmod("bare", 0o711)
    os.remove("bare/dev/null")
    os.remove("bare/unit.journal")
    for closed, status in [([0], 3), ([1], 4), ([2], 4)]:
        case(f"a root that may not be read, {closed} closed", in_bare(closed, "unit.journal", "init", who=NOBODY)[0], status)
    case("nothing was made", os.path.exists("bare/unit.journal"), False)


def with_closed(name):
    made("bare/unit.journal")
    for number, (closed, wanted) in enumerate([([1], 4), ([1, 2], 4), ([0, 1], 3), ([0, 1, 2], 4), ([0], 3), ([2], 0), ([], 0)], 1):
        status, text = in_bare(closed, "unit.journal", "dock", given=batch(number))
        case(f"{name}, {closed} closed", (status, text), (wanted, b"" if wanted else receipted(number, os.path.getsize("bare/unit.journal") // 25)))
        case("the journal opens", (held("bare/unit.journal")[:16] == HEADER, ldar("bare/unit.journal", "dock")), (True, (0, b"")))
    os.remove("bare/unit.journal")
    case(f"{name}, a journal is made with all closed", in_bare([0, 1, 2], "unit.journal", "init")[0], 0)
    case("it is whole", held("bare/unit.journal") == HEADER + b"\0", True)


def in_bare(closed, *words, given=b"", who=0):
    """Runs the program in the bare root folder with these descriptors closed."""

    def before():
        os.chroot("bare")
        os.chdir("/")
        os.setgroups([])
        os.setgid(who)
        os.setuid(who)
        for descriptor in closed:
            os.close(descriptor)

    done = subprocess.run(["/ldar", *words], input=given, capture_output=True, preexec_fn=before)
    return done.returncode, done.stdout


def main():
    if run('"$LDAR" :memory: init')[0] != 0:
        sys.exit("the program was not built")
    print(ONLY_HERE)
    with tempfile.TemporaryDirectory() as folder:
        os.chmod(folder, 0o755)
        parts = [streams, not_blocking, two_programs, paths, reading_alone, views, notes, words, full_disk, full_journal, bare_root]
        for part in [*parts, *fault_cases.PARTS]:
            os.chdir(tempfile.mkdtemp(dir=folder))
            os.chmod(".", 0o755)
            name = part.__name__.replace("_", " ")
            print(f"== {name}", flush=True)
            try:
                part()
            except (OSError, ValueError, LookupError, StopIteration) as why:
                case(f"{name} ended", repr(why), None)
        os.chdir(HERE)
    ended()


main()
