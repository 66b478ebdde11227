"""The cases of hard_cases.py that look at system calls, by strace, or stand between the program and the C library, by faults.c.

strace lists the calls in order, makes one of them fail, or kills the program at it. A sync that fails twice cannot be
observed on the program, whose commands end at the first error: the crate's own test of its files is run instead, if it was built."""
import concurrent.futures
import functools
import os
import re
import shutil
import subprocess
import tempfile

import filing
import rows
from cases import BENCH, HEADER, HERE, PROGRAM, batch, case, docked, has, held, ldar, made, pass_over, receipted

TESTS = os.path.join(HERE, "crates", "ldar_cli", "out", "ldar_cli_tests")
RUNNER = "rattle-test"
EMPTY = HEADER + b"\0"


def traced(words, given=b"", calls="pread64,pwrite64,fsync,fdatasync,write,flock", **more):
    """The calls of a run, each with its file's name (after the last slash) and the place in the file."""
    subprocess.run(["strace", "-f", "-y", "-s", "0", "-o", "trace", "-e", f"trace={calls}", *words], input=given, capture_output=True, **more)
    with open("trace", errors="replace") as file:
        return file.read()


def steps(words, given=b""):
    """The locks, reads, writes, syncs, replies and notes of a run of the program, in order; consecutive reads are listed once."""
    found = []
    for name, file, path, rest in re.findall(r"(\w+)\((\d+)<([^>]*)>(.*)", traced([PROGRAM, *words], given)):
        on = os.path.basename(path)
        place = re.search(r', (\d+), (\d+)\) += \d+', rest)
        if name == "pwrite64" and place:
            found.append(f"write {place[1]} at {place[2]} of {on}")
        elif name in ("fsync", "fdatasync"):
            found.append(f"sync {on}")
        elif name == "flock":
            found.append(f"lock {on}")
        elif name == "write":
            found.append("note" if file == "2" else "reply")
        elif name == "pread64" and ".so" not in on and found[-1:] != [f"read {on}"]:
            found.append(f"read {on}")
    return found


def order_of_calls():
    """What is written and synced, and that a receipt is printed after the last sync."""
    if not has("strace", "the order of the system calls was not seen"):
        return
    os.makedirs("site/unit")
    os.makedirs("links")
    opened = ["lock j", "sync j", "sync unit", "read j"]
    is_made = ["lock j", "read j", "write 17 at 0 of j", "sync j", "sync unit"]
    is_added = [*opened, "write 25 at 17 of j", "sync j", "write 1 at 16 of j", "sync j", "reply"]
    case("init", steps(["site/unit/j", "init"]), is_made)
    case("a new batch", steps(["site/unit/j", "dock"], batch(1)), is_added)
    case("a batch that is kept", steps(["site/unit/j", "dock"], batch(1)), [*opened, "reply"])
    case("an empty input", steps(["site/unit/j", "dock"]), opened)
    case("init where a journal stands", steps(["site/unit/j", "init"]), ["lock j", "read j", "note"])
    os.symlink("../site/unit/j", "links/link")
    case("behind a link", steps(["links/link", "dock"]), opened)
    os.symlink("../site/unit/k", "links/loose")
    case("made behind a link", steps(["links/loose", "init"]), [it.replace(" j", " k") for it in is_made])
    open("site/unit/j", "w").close()
    case("init of a file that another program made", steps(["site/unit/j", "init"]), is_made)
    os.chdir("site/unit")
    case("in the folder itself", steps(["j", "dock"]), opened)
    case("words that are no command", steps(["j", "undock"], batch(2)), ["note"])


def calls_of(words, given, answered):
    """Each system call of a run after the program's start: its name, its number among those of that name, and how the run may end if it
    fails, for calls on the journal, its folder or a stream. An error after the input was read is a reply, and an error of a later read of
    the input leaves the replies printed."""
    is_docking, counts, found, said = False, {}, [], b""
    for name, file, path in re.findall(r"(?m)^\d+ +(\w+)\((?:(\d+)<([^>]*)>)?", traced([PROGRAM, *words], given, "all")):
        counts[name] = counts.get(name, 0) + 1
        is_disk = name in ("flock", "pread64", "pwrite64", "fsync") and ".so" not in path
        is_docking = is_docking or (name, file) == ("read", "0")
        of_disk = (0, b"disk fault\n") if is_docking else (5, b"")
        wanted = of_disk if is_disk else (3, said) if (name, file) == ("read", "0") else (4, b"") if (name, file) == ("write", "1") else None
        said = answered if (name, file) == ("write", "1") else said
        if name not in ("execve", "exit_group"):
            found.append((name, counts[name], wanted))
    return found


def with_fault(name, number, what, words, given):
    inject = f"inject={name}:{what}:when={number}"
    return ldar(*words, given=given, before=["strace", "-f", "-o", "/dev/null", "-e", f"trace={name}", "-e", inject])


FAULTS = ["error=EIO", "error=ENOSPC", "signal=KILL"]


def each_call(run_name, words, given, answered, wrong_with):
    """Tries each error at each call of a run, and reports what is wrong afterwards."""
    calls = calls_of(words, given, answered)
    for what in FAULTS:
        wrong = []
        for name, number, wanted in calls:
            got, why = wrong_with(name, number, what)
            if why:
                wrong.append(f"{name} {number}: {why}")
            elif wanted is not None and what != "signal=KILL" and got != wanted:
                wrong.append(f"{name} {number}: {got}, not {wanted}")
        case(f"{run_name} with {what} at each of {len(calls)} calls", wrong, [])


def each_call_of_init():
    """Whatever goes wrong while a journal is made, it is complete or the next init makes it."""
    if has("strace", "no system call of a journal's making was made to fail"):
        each_call("init", ["unit.journal", "init"], b"", b"", wrong_init)


def wrong_init(name, number, what):
    """How an init ended with this error, and what is wrong afterwards, if anything."""
    if os.path.exists("unit.journal"):
        os.remove("unit.journal")
    status, text = with_fault(name, number, what, ["unit.journal", "init"], b"")
    left = held("unit.journal") if os.path.exists("unit.journal") else b""
    if status == 0 and left != EMPTY or text or left not in (b"", EMPTY):
        return (status, text), f"status {status} left {left!r}"
    again = ldar("unit.journal", "init")[0]
    if again != (9 if left else 0):
        return (status, text), f"init again answers {again}"
    return (status, text), None if docked("unit.journal", 1) == (0, receipted(1)) else "no batch is docked"


def each_call_of_a_dock():
    """Whatever goes wrong while a batch is docked, what was receipted is kept, and the batch is receipted when it is sent again."""
    if not has("strace", "no system call of a dock was made to fail"):
        return
    for run_name, number in [("a dock", 2), ("a dock of a batch that is kept", 1)]:
        shutil.copy(made("base.journal", 1), "unit.journal")
        each_call(run_name, ["unit.journal", "dock"], batch(number), receipted(number), lambda *fault: wrong_dock(number, *fault))


def wrong_dock(docks, name, number, what):
    """How the dock of a batch ended with this error, and what is wrong afterwards, if anything."""
    shutil.copy("base.journal", "unit.journal")
    status, text = with_fault(name, number, what, ["unit.journal", "dock"], batch(docks))
    return (status, text), wrong_behind(status, text, docks)


def wrong_behind(status, text, docks=2):
    """What is wrong after a dock into a journal with batch 1, if anything."""
    told = [receipted(docks), b"disk fault\n"]
    if status == 0 and text not in told or text not in [b"", *told]:
        return f"status {status} with {text!r}"
    size = os.path.getsize("unit.journal")
    if docked("unit.journal", 1) != (0, receipted(1)):
        return "batch 1 is lost"
    if docked("unit.journal", 2) != (0, receipted(2)):
        return "batch 2 is not docked"
    if text == receipted(2) and docks == 2 and os.path.getsize("unit.journal") != size:
        return "batch 2 was receipted and lost"
    return None


def interrupted():
    """A signal at the first of each of these calls changes nothing."""
    if not has("strace", "no call was interrupted"):
        return
    for name, on in [(it, "unit.journal>") for it in ("openat", "flock", "pread64", "pwrite64", "fsync")] + [("read", "(0<"), ("write", "(1<")]:
        shutil.copy(made("base.journal", 1), "unit.journal")
        lines = traced([PROGRAM, "unit.journal", "dock"], batch(2), name).splitlines()
        number = next(at for at, line in enumerate(lines, 1) if on in line)
        shutil.copy("base.journal", "unit.journal")
        got = with_fault(name, number, "error=EINTR", ["unit.journal", "dock"], batch(2))
        case(f"a signal at the first {name}", (got, wrong_behind(*got)), ((0, receipted(2)), None))


def shim():
    """faults.c as a library, or nothing if there is no compiler."""
    if not has("gcc", "transfers of one byte and want of memory were not tried"):
        return None
    to = os.path.abspath("faults.so")
    subprocess.run(["gcc", "-O1", "-shared", "-fPIC", "-o", to, os.path.join(BENCH, "faults.c")], check=True)
    return to


def one_byte_at_a_time():
    library = shim()
    if not library:
        return
    env = {**os.environ, "LD_PRELOAD": library, "ONE_BYTE": "1"}
    case("init", ldar("unit.journal", "init", env=env), (0, b""))
    case("it is whole", held("unit.journal") == EMPTY, True)
    case("a new batch", docked("unit.journal", 1, env=env), (0, receipted(1)))
    case("the longest batch", ldar("unit.journal", "dock", given=batch(2, 512), env=env), (0, receipted(2)))
    case("a batch that is kept", docked("unit.journal", 1, env=env), (0, receipted(1)))
    case("the journal's size", os.path.getsize("unit.journal"), 17 + 25 + 5 + len(batch(2, 512)))


def each_piece_of_memory():
    """Refuses each allocation of a run in turn: the status is 6, or the batch is answered so, and nothing receipted is lost."""
    library = shim()
    if not library:
        return
    made("base.journal", 1)
    os.symlink("unit.journal", "link")
    runs = [("a new batch", ["unit.journal", "dock"], batch(2)), ("a batch that is kept", ["unit.journal", "dock"], batch(1)),
            ("the longest batch", ["unit.journal", "dock"], batch(3, 512)), ("an empty input", ["unit.journal", "dock"], b""),
            ("init where a journal stands", ["unit.journal", "init"], b""), ("behind a link", ["link", "dock"], b""),
            ("a word too many", ["unit.journal", "dock", "init"], batch(2)), ("in memory", [":memory:", "init"], b"")]
    for name, words, given in runs:
        shutil.copy("base.journal", "unit.journal")
        plain, asked = refusing(library, 0, words, given)
        ends, wrong = set(), []
        for number in range(1, asked + 1):
            shutil.copy("base.journal", "unit.journal")
            got, _ = refusing(library, number, words, given)
            ends.add(got[0])
            if got not in (plain, (6, b""), (0, b"memory\n")):
                wrong.append((number, got))
            if docked("unit.journal", 1) != (0, receipted(1)) or docked("unit.journal", 2)[0] != 0:
                wrong.append((number, "the journal does not open"))
        # A disk in memory fails where it may not grow, and a file's where there is no room for the full path behind a link.
        wrong = [it for it in wrong if not (name in ("behind a link", "in memory") and it[1] == (5, b""))]
        case(f"{name}, with each of {asked} pieces of memory refused", (asked > 0, 6 in ends, wrong), (True, True, []))
    case("no file was made of a word", os.path.exists("dock"), False)


SYNC = (b'POST /sync HTTP/1.1\r\nHost: office\r\nContent-Length: 116\r\n\r\n{"handheld":7,"number":12,"facts":'
        b'[{"kind":"calibration","day":"2024-02-20","minute":600,"instrument":1,"gas":500}]}')
PERCENT = b"GET /percent/1/16/2024-03-31 HTTP/1.1\r\nHost: office\r\n\r\n"
NO_MEMORY = b"HTTP/1.1 507 Insufficient Storage\r\nContent-Type: text/plain\r\nContent-Length: 7\r\n\r\nmemory\n"
UNITS = b'[[unit]]\nnumber = 1\nname = "CRUDE"\nstartup = "2020-01-15"\nolder = false\n'
VALVES = (b"component,unit,kind,service,designation,plan,month,monomer,replaces,begin\n"
          b"1,1,valve,gas,none,0,1,0,0,2020-01-15\n2,1,valve,light,none,0,1,0,0,2020-01-15\n")
FILE = ["file", "1", "8", "2024-03-31"]


def runs_of_rows():
    """The name of a run, what is docked or done before it, its words and its input."""
    base = b"".join(map(rows.spelled, rows.BASE))
    batches = {name: [rows.spelled(it) for it in those] for name, those, *_ in rows.OTHERS}
    leak = batches["LATE_LEAK"]
    leaked = [(["dock"], base + b"".join(leak))]
    overdue = [(["dock"], filing.OVERDUE)]
    return [
        ("a first batch", [], ["dock"], batch(12)),
        ("a batch and a view over HTTP", [(["dock"], base)], ["drain"], SYNC + PERCENT),
        ("a late leak", [(["dock"], base + b"".join(leak[:-1]))], ["dock"], leak[-1]),
        ("the duties after it", leaked, ["show", "due", "2", "2024-09-10"], b""),
        ("the tags after it", leaked, ["show", "tags", "2", "2024-09-10"], b""),
        ("three batches in one frame", [], ["dock"], batch(12) + batch(13) + batch(14)),
        ("a report that is filed", overdue, FILE, b""),
        ("a report that is filed already", [*overdue, (FILE, b"")], FILE, b""),
        ("a report that is amended", [*overdue, (FILE, b""), (["dock"], filing.IN_TIME)], FILE, b""),
        ("an import of a process unit", [], ["import", "1", "units"], UNITS),
        ("an import of valves", [(["import", "1", "units"], UNITS)], ["import", "2", "components"], VALVES),
    ]


JOURNALS = ("unit.journal", "unit.journal.filed")


def replies(words, text):
    """The lines of a run that keeps batches, the answers of one that speaks HTTP, and the whole text of any other."""
    if words[0] in ("dock", "import"):
        return text.splitlines(True)
    return [b"HTTP/" + it for it in text.split(b"HTTP/")[1:]] if words[0] == "drain" else [text] * bool(text)


def is_fair(words, got, plain):
    """Whether a run ended as it does with ample memory, but that any reply may be that memory ran out, or it ended so."""
    said, wanted = replies(words, got[1]), replies(words, plain[1])
    return (got[0] == plain[0] and len(said) == len(wanted) or got[0] == 6 and len(said) <= len(wanted)) and all(
        one in (other, b"memory\n", NO_MEMORY) for one, other in zip(said, wanted))


def each_piece_of_memory_of_rows():
    """Refuses each allocation of a run in turn: it ends as without, or by want of memory, and the same run ends well afterwards."""
    library = shim()
    if not library:
        return
    for name, before, words, given in runs_of_rows():
        with tempfile.TemporaryDirectory(dir=".") as kept, concurrent.futures.ThreadPoolExecutor(len(os.sched_getaffinity(0))) as lanes:
            for earlier, more in [(["init"], b""), *before]:
                ldar("unit.journal", *earlier, given=more, cwd=kept)
            one = functools.partial(with_refusal, library, kept, ["unit.journal", *words], given)
            (plain, asked), again = one(0)
            tried = list(lanes.map(one, range(1, asked + 1)))
        wrong = [(number, got, later) for number, ((got, _), later) in enumerate(tried, 1)
                 if not is_fair(words, got, plain) or later not in (plain, again)]
        case(f"{name}, with each of {asked} pieces of memory refused", (asked > 0, 6 in [it[0][0][0] for it in tried], wrong), (True, True, []))


def with_refusal(library, kept, words, given, number):
    """How a run over a copy of these files ended with the allocation of this number refused, and how the same run ended then."""
    with tempfile.TemporaryDirectory(dir=".") as folder:
        for it in JOURNALS:
            if os.path.exists(f"{kept}/{it}"):
                shutil.copy(f"{kept}/{it}", folder)
        return refusing(library, number, words, given, cwd=folder), ldar(*words, given=given, cwd=folder)


def refusing(library, number, words, given, cwd="."):
    """How a run ended with the allocation of this number refused, and how many it made."""
    command = ["sh", "-c", 'exec "$@" 9>counted', "", "env", f"LD_PRELOAD={library}", f"REFUSED={number}", PROGRAM, *words]
    done = subprocess.run(command, input=given, capture_output=True, cwd=cwd)
    return (done.returncode, done.stdout), int(held(f"{cwd}/counted") or 0)


def synced_behind_a_failed_sync():
    """After a failed sync, what was written since the last good one is read and written again before the next sync."""
    runner = shutil.which(RUNNER) or os.path.join(os.path.dirname(os.path.realpath(shutil.which("rt") or "/")), RUNNER)
    if not has("strace", "a sync behind one that failed was not tried"):
        return
    if not os.path.exists(TESTS) or not os.path.exists(runner):
        return pass_over("no tests are built here (rt test in crates/ldar_cli builds them): a sync behind one that failed was not tried")
    again = {1: ["read 10 at 0", "write 10 at 0", "sync"], 4: ["read 11 at 12", "write 11 at 12", "sync"], 2: ["sync"]}
    for number, wanted in again.items():
        inject = f"inject=fsync:error=EIO:when={number}"
        words = ["-e", inject, runner, "--filter", "a_file_is_synced_again", TESTS]
        text = traced(words, calls="pread64,pwrite64,fsync", env={**os.environ, "TMPDIR": os.getcwd()})
        found = file_steps(text)
        behind = found[found.index("sync failed") + 1 :][:3] if "sync failed" in found else found
        case(f"sync {number} fails, and then", behind, wanted)


def file_steps(text):
    """The reads, writes and syncs of the test's file, but for reads of nothing, and the syncs of its folder that failed."""
    found = []
    for name, path, rest in re.findall(r"(\w+)\(\d+<([^>]*)>(.*)", text):
        place = re.search(r", (\d+), (\d+)\) += [1-9]", rest)
        if name == "fsync" and "EIO" in rest:
            found.append("sync failed")
        elif name == "fsync" and "synced." in path:
            found.append("sync")
        elif place and "synced." in path:
            found.append(f"{name[1:-2]} {place[1]} at {place[2]}")
    return found


PARTS = [order_of_calls, each_call_of_init, each_call_of_a_dock, interrupted, one_byte_at_a_time, each_piece_of_memory, each_piece_of_memory_of_rows,
         synced_behind_a_failed_sync]
