#!/usr/bin/env python3
"""Files reports with the real program over a journal at a path, each command in a run of its own. Only this script tests that what is
on file is there in the next run, in a table that SQLite itself reads, and what is refused.

The one valve of a process unit leaked on 2024-02-20, and its repair of 2024-03-07 came a day too late; so the report of its eighth
half counts one leak in March that was not repaired in time. A late reading shows that it was. Both reports are filed, and they
differ only in that number.

usage: bench/filing.py"""
import fcntl
import os
import resource
import sqlite3
import subprocess
import sys
import tempfile

from cases import HERE, IS_ROOT, LDAR, NOBODY, PROGRAM, case, ended, held, ldar, pass_over, run

JOURNAL = "unit.journal"
FILED = JOURNAL + ".filed"
REPORT = ("1", "8", "2024-03-31")
LATE_IN_MARCH = 5 * 6 + 1  # month 6, column 2, of 36 numbers of four bytes

CALIBRATION = "012c 0001 000001f4"
OVERDUE = bytes.fromhex(
    # the register: process unit 1 from 2020-01-15 with valve 1 in gas service
    "42 0000 00000001 0002 01 4764 0000 01 00 435255444500000000000000 02 4764 0000 0001 01 01 00 00 01 00 00 01"
    # a precision test on 2024-01-02
    "42 0001 00000001 0001 08 4d0c 003c 0001 000001f4 000001f4 000001f4 000001f4"
    # 620 ppm on 2024-02-20, an attempt two days later, and 20 ppm on 2024-03-07
    f"42 0002 00000001 0005 07 4d3d {CALIBRATION} 0a 4d3d 0267 0001 0001 0001 01 0000026c 00000000 0c 4d3f 0258 0001 01"
    f"07 4d4d {CALIBRATION} 0a 4d4d 0258 0001 0001 0001 01 00000014 00000000"
)
# 20 ppm on 2024-03-06, the last day for the repair
IN_TIME = bytes.fromhex(f"42 0002 00000002 0002 07 4d4c {CALIBRATION} 0a 4d4c 0258 0001 0001 0001 01 00000014 00000000")

AS_NOBODY = {"user": NOBODY, "group": NOBODY, "extra_groups": []} if IS_ROOT else {}


def filed(*words, journal=JOURNAL, **more):
    """A run of `file`: its status, output and note."""
    done = subprocess.run([PROGRAM, journal, "file", *(words or REPORT)], stdin=subprocess.DEVNULL, capture_output=True, **more)
    return done.returncode, done.stdout.decode(), done.stderr.decode()


def amended(*words, journal=JOURNAL, **more):
    """A run of `amended`: its status, output and note."""
    done = subprocess.run([PROGRAM, journal, "amended", *words], stdin=subprocess.DEVNULL, capture_output=True, **more)
    return done.returncode, done.stdout.decode(), done.stderr.decode()


FIRST = (0, "filed 1 8 1\n", "")
SAME = (11, "", "same as revision 1\n")
SECOND = (0, "filed 1 8 2\n", "")
FAULT = (10, "", "filing fault\n")


def overdue():
    ldar(JOURNAL, "init")
    case("the repair that was late is docked", ldar(JOURNAL, "dock", given=OVERDUE), (0, b"receipt 0 1 1\nreceipt 1 1 2\nreceipt 2 1 3\n"))


def in_time():
    case("the late batch is docked", ldar(JOURNAL, "dock", given=IN_TIME), (0, b"receipt 2 2 4\n"))


def table(query, *values):
    """What SQLite itself reads in the file. Its changes stay."""
    with sqlite3.connect(FILED) as connection:
        rows = connection.execute(query, values).fetchall()
    connection.close()
    return rows


def revisions():
    """For each row the unit, half, revision, day, and the number of late repairs in March."""
    rows = table("SELECT unit, half, revision, day, months, delays, stops FROM filed ORDER BY unit, half, revision")
    return [(*row[:4], int.from_bytes(row[4][4 * LATE_IN_MARCH :][:4], "big"), len(row[4]), row[5], row[6]) for row in rows]


def row(revision, late):
    return 1, 8, revision, 19_813, late, 144, b"", b""


def each_in_a_run_of_its_own():
    overdue()
    for words in (["show", "report", *REPORT], ["show", "due", "1", "2024-03-31"], ["check"]):
        case(f"{words[0]} {words[-1]} ends well", ldar(JOURNAL, *words)[0], 0)
    case("a revision when there is no file", amended("1", "8", "1", "2"), (11, "", "no such revision 1\n"))
    case("and makes no file beside the journal", sorted(os.listdir()), [JOURNAL])
    kept = held(JOURNAL)
    case("the first report", filed(), FIRST)
    case("the same again", filed(), SAME)
    case("no such unit", filed("9", *REPORT[1:]), (11, "", "no such unit\n"))
    case("no such half", filed("1", "0", REPORT[2]), (11, "", "no such half\n"))
    case("the journal is as it was", held(JOURNAL) == kept, True)
    in_time()
    case("the report that is amended", filed(), SECOND)
    case("the same again", filed(), (11, "", "same as revision 2\n"))
    case("another half", filed("1", "7", REPORT[2]), (0, "filed 1 7 1\n", ""))
    compared()
    case("the report that is shown", ldar(JOURNAL, "show", "report", *REPORT)[1].splitlines()[6][:20], b"2024-03 valves 0 0 p")


def compared():
    """The two revisions, each comparison in a run of its own, first without the journal and then beside a locked one."""
    kept = held(JOURNAL)
    os.rename(JOURNAL, "elsewhere")
    for name, words, wanted in (
        ("what the second revision amends", ("1", "8", "1", "2"), (0, "amended 1 8 1 2\nmonth 6 column 2 from 1 to 0\nend 1\n", "")),
        ("the other way round", ("1", "8", "2", "1"), (0, "amended 1 8 2 1\nmonth 6 column 2 from 0 to 1\nend 1\n", "")),
        ("a revision beside itself", ("1", "8", "2", "2"), (0, "amended 1 8 2 2\nend 0\n", "")),
        ("a revision that is not on file", ("1", "8", "1", "3"), (11, "", "no such revision 3\n")),
        ("two that are not", ("1", "8", "4", "3"), (11, "", "no such revision 4\n")),
        ("a revision of the other half", ("1", "7", "1", "2"), (11, "", "no such revision 2\n")),
        ("a revision 0", ("1", "8", "0", "1"), (2, "", "usage: ldar JOURNAL COMMAND\n")),
    ):
        case(name, amended(*words), wanted)
    case("no journal is made", os.path.exists(JOURNAL), False)
    os.rename("elsewhere", JOURNAL)
    with open(JOURNAL, "r+b") as journal:
        fcntl.flock(journal, fcntl.LOCK_EX)
        fcntl.lockf(journal, fcntl.LOCK_EX)
        case("beside a journal that another program has locked", amended("1", "8", "2", "2")[0], 0)
    case("the journal is as it was", held(JOURNAL) == kept, True)


def read_by_sqlite():
    overdue()
    case("the first report", filed(), FIRST)
    in_time()
    case("the report that is amended", filed(), SECOND)
    case("SQLite finds no fault in the file", table("PRAGMA integrity_check"), [("ok",)])
    case("both revisions stand in the table", revisions(), [row(1, 1), row(2, 0)])
    case("the program goes on behind it", filed(), (11, "", "same as revision 2\n"))
    table("UPDATE filed SET months = x'00' WHERE revision = 2")
    case("a row that does not read back", filed(), FAULT)
    case("compared with the first revision", amended("1", "8", "1", "2"), FAULT)
    table("DELETE FROM filed WHERE revision = 2")
    case("a row that is gone", filed(), SECOND)
    case("is on file again", revisions(), [row(1, 1), row(2, 0)])


def stays(name, got):
    """A filing error, after which the file is as before: only the first revision, and the journal is untouched."""
    case(name, got, FAULT)


def refused():
    overdue()
    case("the first report", filed(), FIRST)
    in_time()
    kept = held(JOURNAL)
    held_by_another()
    read_only()
    too_large()
    case("the first revision alone is on file", revisions(), [row(1, 1)])
    case("the journal is as it was", held(JOURNAL) == kept, True)
    case("and the second is filed then", filed(), SECOND)
    case("both revisions stand in the table", revisions(), [row(1, 1), row(2, 0)])


def held_by_another():
    """The file locked as SQLite locks it, and by a transaction of SQLite itself."""
    with open(FILED, "r+b") as file:
        fcntl.lockf(file, fcntl.LOCK_EX | fcntl.LOCK_NB, 512, 1 << 30)
        stays("a file that another program has locked", filed())
    connection = sqlite3.connect(FILED, isolation_level=None)
    connection.execute("BEGIN EXCLUSIVE")
    connection.execute("SELECT * FROM filed").fetchall()
    stays("a file that SQLite has open for writing", filed())
    connection.execute("ROLLBACK")
    connection.close()


def read_only():
    os.chmod(FILED, 0o444)
    os.chmod(JOURNAL, 0o444)
    stays("a file that may not be written", filed(**AS_NOBODY))
    os.chmod(FILED, 0o644)
    os.chmod(JOURNAL, 0o644)


def too_large():
    """No file may grow, so the table cannot: the limit is an error and not a signal, since ./ldar ignores the signal."""
    command = '"$LDAR" unit.journal file 1 8 2024-03-31'
    stays("a file that may not grow", run_limited(command))


def run_limited(command):
    limit = lambda: resource.setrlimit(resource.RLIMIT_FSIZE, (0, 0))
    done = subprocess.run(["sh", "-c", command], stdin=subprocess.DEVNULL, capture_output=True, preexec_fn=limit, env={**os.environ, "LDAR": LDAR})
    return done.returncode, done.stdout.decode(), done.stderr.decode()


def no_database():
    overdue()
    text = b"This is no database, and it is longer than the header of one, which has a hundred bytes. It is a text of some words."
    for name, content in (("a text in the place of the file", text), ("its first bytes", text[:7])):
        with open(FILED, "wb") as file:
            file.write(content)
        case(name, filed(), FAULT)
        case("is left as it was", held(FILED), content)
        os.remove(FILED)
    for beside in (FILED + "-wal", FILED + "-journal"):
        if os.path.exists(beside):
            os.remove(beside)
    os.mkdir(FILED)
    case("a folder in its place", filed(), FAULT)
    os.rmdir(FILED)
    os.symlink(FILED, FILED)
    case("a link that leads to itself", filed(), FAULT)
    os.remove(FILED)
    case("an empty place", filed(), FIRST)


def shut_folder():
    """A folder in which the file cannot be made, with a journal that can be read."""
    overdue()
    os.chmod(JOURNAL, 0o444)
    os.chmod(".", 0o555)
    stays("a folder where no file can be made", filed(**AS_NOBODY))
    os.chmod(".", 0o755)
    case("no file was made", os.path.exists(FILED), False)


def no_journal():
    with open(JOURNAL, "wb") as file:
        file.write(b"no journal")
    case("a path that holds no journal", filed(), (7, "", "not a journal\n"))
    case("no file was made", os.listdir(), [JOURNAL])
    case("words that are no command", filed("1", "8", "2024-02-30", journal="other"), (2, "", "usage: ldar JOURNAL COMMAND\n"))
    case("none of them made a file", os.listdir(), [JOURNAL])
    case("a revision beside a path that holds no journal", amended("1", "8", "1", "1"), (11, "", "no such revision 1\n"))
    case("made no file", os.listdir(), [JOURNAL])
    case("a revision in memory", amended("1", "8", "1", "1", journal=":memory:"), (11, "", "no such revision 1\n"))
    case("in memory", filed(journal=":memory:")[0], 7)


def main():
    if run('"$LDAR" :memory: init')[0] != 0:
        sys.exit("the program was not built")
    print(__doc__.split("\n\n")[1])
    with tempfile.TemporaryDirectory() as folder:
        os.chmod(folder, 0o755)
        if not IS_ROOT:
            pass_over("not root, so what may not be written is tried as this user alone")
        for part in (each_in_a_run_of_its_own, read_by_sqlite, refused, no_database, shut_folder, no_journal):
            os.chdir(tempfile.mkdtemp(dir=folder))
            os.chmod(".", 0o755)
            print(f"== {part.__name__.replace('_', ' ')}", flush=True)
            part()
        os.chdir(HERE)
    ended()


if __name__ == "__main__":
    main()
