"""What the scripts of cases share: the program, its batches, and the report of each case."""
import os
import shutil
import struct
import subprocess
import sys

HERE = os.path.dirname(os.path.dirname(os.path.abspath(__file__)))
BENCH = os.path.join(HERE, "bench")
LDAR = os.path.join(HERE, "ldar")
PROGRAM = os.path.join(HERE, "crates", "ldar_cli", "out", "ldar_cli")
NOBODY = 65534
IS_ROOT = os.geteuid() == 0
HEADER = b"LDARJNL1" + bytes(8)

failed = []
passed_over = []


def batch(number, count=1, limit=500):
    """Handheld 7: so many calibrations on 2024-02-20 at 10:00, instrument 1, in parts per million."""
    fact = struct.pack(">BHHHI", 7, 19_773, 600, 1, limit)
    return struct.pack(">BHIH", 0x42, 7, number, count) + fact * count


def receipted(number, position=None):
    """The line of a receipt of handheld 7."""
    return f"receipt 7 {number} {position or number}\n".encode()


def run(command, given=b"", **more):
    """Runs a command line of the shell; LDAR names the program. Its status, and what it printed."""
    done = subprocess.run(["sh", "-c", command], input=given, capture_output=True, env={**os.environ, "LDAR": LDAR}, **more)
    return done.returncode, done.stdout


def ldar(*words, given=b"", before=(), **more):
    """Runs the program with these words, after the words of a prefix."""
    done = subprocess.run([*before, PROGRAM, *words], input=given, stdout=subprocess.PIPE, stderr=subprocess.DEVNULL, **more)
    return done.returncode, done.stdout


def docked(journal, number, **more):
    return ldar(journal, "dock", given=batch(number), **more)


def made(journal, *numbers):
    """Makes a journal anew, with these batches."""
    if os.path.exists(journal):
        os.remove(journal)
    ldar(journal, "init")
    for number in numbers:
        docked(journal, number)
    return journal


def held(path):
    with open(path, "rb") as file:
        return file.read()


def case(name, got, wanted):
    good = got == wanted
    print(f"{'ok    ' if good else 'FAILED'} {name}: {got}" + ("" if good else f", not {wanted}"), flush=True)
    if not good:
        failed.append(name)


def has(tool, what):
    """Whether a tool is installed. If not, prints what is skipped."""
    if shutil.which(tool):
        return True
    pass_over(f"no {tool} here: {what}")
    return False


def pass_over(why):
    passed_over.append(why)
    print(f"       {why}", flush=True)


def ended():
    print(f"{len(failed)} failed; {len(passed_over)} groups were not tried here" + (": " + "; ".join(failed) if failed else ""))
    sys.exit(1 if failed else 0)
