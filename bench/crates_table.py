#!/usr/bin/env python3
"""Writes the table of crates in docs/ARCHITECTURE.md from crates.txt and the `//!` lines of each crate.

    bench/crates_table.py           writes the table between its two marks
    bench/crates_table.py --check   changes nothing; exit status 1 if the table is not the one that would be written

A row has the crate, the first paragraph of its `//!` lines, and the crates it rests on: those of this repository that no other
of them already rests on, and those of the toolchain. Crates come lowest first, otherwise in the order of crates.txt. The
longest chain of crates follows the table.
"""
import pathlib
import re
import sys

TOP = pathlib.Path(__file__).resolve().parent.parent
PAGE = TOP / "docs" / "ARCHITECTURE.md"
BEGIN, END = "<!-- crates: written by bench/crates_table.py -->", "<!-- end of crates -->"


def crates():
    """The crates of crates.txt with what each rests on, in order."""
    found = {}
    for line in (TOP / "crates.txt").read_text(encoding="utf-8").split("\n"):
        line = line.split("#")[0].strip()
        if line:
            head, _, below = line.partition(":")
            found[head.split()[0]] = below.split()
    return found


def lowest_first(all_crates):
    order = []

    def visit(name):
        if name in all_crates and name not in order:
            for each in all_crates[name]:
                visit(each)
            order.append(name)

    for name in all_crates:
        visit(name)
    return order


def below(all_crates, name):
    """All crates of the repository that a crate rests on, directly or not."""
    found = set()
    for each in all_crates[name]:
        if each in all_crates:
            found |= {each} | below(all_crates, each)
    return found


def longest_chain(all_crates):
    """A longest chain of crates, lowest first, each resting on the one before."""
    chains = {}
    for name in lowest_first(all_crates):
        lower = [chains[each] for each in all_crates[name] if each in all_crates]
        chains[name] = max(lower, key=len, default=[]) + [name]
    return max(chains.values(), key=len)


def purpose(name):
    """The first paragraph of a crate's `//!` lines."""
    source = TOP / "crates" / name / "src"
    root = source / "lib.rt" if (source / "lib.rt").exists() else source / "main.rt"
    words = []
    for line in root.read_text(encoding="utf-8").split("\n"):
        if not line.startswith("//!") or line.strip() == "//!":
            break
        words.append(line[3:].strip())
    return " ".join(words).replace("|", "\\|")


def table():
    all_crates = crates()
    lines = ["| crate | what it holds | rests on |", "|---|---|---|"]
    for name in lowest_first(all_crates):
        direct = [each for each in all_crates[name] if each in all_crates]
        implied = set().union(*(below(all_crates, each) for each in direct)) if direct else set()
        ours = [f"`{each}`" for each in direct if each not in implied]
        theirs = [each for each in all_crates[name] if each not in all_crates]
        lines.append(f"| `{name}` | {purpose(name)} | {', '.join(ours + theirs)} |")
    chain = longest_chain(all_crates)
    return "\n".join(lines) + f"\n\nThe longest chain has {len(chain)} crates: {', '.join(f'`{each}`' for each in chain)}."


def main():
    text = PAGE.read_text(encoding="utf-8")
    marks = re.compile(re.escape(BEGIN) + r".*?" + re.escape(END), re.S)
    if len(marks.findall(text)) != 1:
        print(f"docs/ARCHITECTURE.md needs the two marks once: {BEGIN} and {END}")
        return 1
    wanted = marks.sub(lambda _: f"{BEGIN}\n{table()}\n{END}", text)
    if sys.argv[1:] == ["--check"]:
        if wanted != text:
            old = set(text.split("\n"))
            print("the table of crates in docs/ARCHITECTURE.md is not that of crates.txt and the //! lines;")
            print("bench/crates_table.py writes it. Lines that differ:")
            for line in wanted.split("\n"):
                if line not in old:
                    print(line)
            return 1
        print(f"crates: {len(crates())} in the table")
        return 0
    PAGE.write_text(wanted, encoding="utf-8")
    return 0


if __name__ == "__main__":
    sys.exit(main())
