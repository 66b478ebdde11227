#!/usr/bin/env python3
"""Runs the commands of README.md and compares what they print with what the page shows.

    bench/readme.py          checks; exit status 1 if something differs
    bench/readme.py --write  puts what was printed into the page's console blocks

- each line `$ COMMAND` of a console block, in one new folder that has docs/ and ./ldar, and the lines that it prints
- the block of commands: each of its lines must be a line of `./ldar --help`, in the same order
- the toolchain's line must be that of `rt version`, each file that the page links to or names must exist, and the page has
  at most 1,200 words
"""
import pathlib
import re
import subprocess
import sys
import tempfile

TOP = pathlib.Path(__file__).resolve().parent.parent
PAGE = TOP / "README.md"
MOST_WORDS = 1200
CONSOLE = re.compile(r"^```console\n(.*?)^```$", re.M | re.S)
failed = []


def check(what, is_so, shown=""):
    print(f"{'ok  ' if is_so else 'NOT '} {what}{'' if is_so else ': ' + shown}")
    if not is_so:
        failed.append(what)


def ran(command, folder):
    return subprocess.run(["sh", "-c", command], cwd=folder, capture_output=True, text=True)


def console(block, folder):
    """Runs the commands of a block, compares what they print, and returns the block with what they printed."""
    printed = []
    for part in re.split(r"^\$ ", block, flags=re.M)[1:]:
        command, _, wanted = part.partition("\n")
        it = ran(command, folder)
        check(f"$ {command}", it.returncode == 0 and it.stdout == wanted, f"status {it.returncode}: {it.stdout}{it.stderr}")
        printed.append(f"$ {command}\n{it.stdout}")
    return "".join(printed)


def main():
    text = PAGE.read_text(encoding="utf-8")
    with tempfile.TemporaryDirectory() as name:
        folder = pathlib.Path(name)
        (folder / "docs").symlink_to(TOP / "docs")
        (folder / "ldar").write_text(f'#!/bin/sh\nexec "{TOP}/ldar" "$@"\n', encoding="utf-8")
        (folder / "ldar").chmod(0o755)
        subprocess.run([TOP / "ldar", ":memory:", "init"], check=True)
        seen = CONSOLE.sub(lambda it: f"```console\n{console(it.group(1), folder)}```", text)
        if sys.argv[1:] == ["--write"]:
            PAGE.write_text(seen, encoding="utf-8")
        shown = ran("./ldar --help", folder).stdout.split("\n")
    at = 0
    for line in filter(None, re.search(r"^```text\n(.*?)^```$", text, re.M | re.S)[1].split("\n")):
        found = shown.index(line, at) if line in shown[at:] else None
        check(f"--help has: {line}", found is not None, "it does not, or not in this order")
        at = at if found is None else found + 1
    version = subprocess.run(["rt", "version"], capture_output=True, text=True, check=True).stdout.strip()
    check("the toolchain's line", f"`{version}`" in text, version)
    for path in re.findall(r"\]\(([^)#]+)\)", text) + re.findall(r"`((?:\./|bench/|\.ci/)[\w./]+)`", text):
        check(f"there is {path}", (TOP / path).exists(), "no such file")
    words = len(text.split())
    check(f"at most {MOST_WORDS} words", words <= MOST_WORDS, f"{words}")
    print(f"{len(failed)} differ")
    return 1 if failed else 0


if __name__ == "__main__":
    sys.exit(main())
