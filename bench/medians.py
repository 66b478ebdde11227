"""Runs in turn, their medians, what was wanted of them, and rows for docs/MEASUREMENTS.md: shared by scripts that measure."""
import pathlib
import statistics
import subprocess
import sys

here = pathlib.Path(__file__).parent
unmet = []
rows = []


def in_turn(runs, *works):
    """For each work the medians of the numbers that it returns, run after run, the works in turn."""
    took = [[] for _ in works]
    for _ in range(runs):
        for figures, work in zip(took, works):
            figures.append(work())
    return [tuple(map(statistics.median, zip(*figures))) for figures in took]


def same(answers, what="they answer otherwise"):
    """Ends the script if answers that must be the same are not."""
    if any(answer != answers[0] for answer in answers):
        sys.exit(f"{what}: {[answer[:300] for answer in answers]}")


def wanted(what, most, found, unit=""):
    """Says what was wanted and what was found."""
    is_met = found <= most
    if not is_met:
        unmet.append(what)
    print(f"{what}: wanted at most {most:,}{unit}, found {found:,.2f}{unit}{'' if is_met else ': NOT MET'}", flush=True)


def row(what, ours, plain, ratio=None):
    """Keeps a row of the table of measurements."""
    rows.append((what, ours, plain, "" if ratio is None else f"{ratio:.2f}"))


def compiled(source, folder):
    """The program of a plain Rust source."""
    program = pathlib.Path(folder) / pathlib.Path(source).stem
    subprocess.run(["rustc", "-O", "-A", "dead_code", "--edition", "2021", "-o", program, here / source], check=True)
    return program


def print_rows():
    """Prints the rows of the table."""
    commit = subprocess.run(["git", "rev-parse", "--short=8", "HEAD"], cwd=here, capture_output=True, text=True).stdout.strip()
    script = pathlib.Path(sys.argv[0]).name
    print("rows for docs/MEASUREMENTS.md:")
    for what, ours, plain, ratio in rows:
        print(f"| {what} | {script} | {ours} | {plain} | {ratio} | {commit} |")


def ended():
    """Prints the rows, and ends with status 1 if something wanted was not found."""
    print_rows()
    if unmet:
        sys.exit(f"{len(unmet)} not met")
