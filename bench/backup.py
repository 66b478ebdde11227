#!/usr/bin/env python3
"""Copies a journal again and again while batches are docked into it, and opens each copy.

A copy has to open, and to hold each batch that was receipted before the copying began. A copy reads forwards, and the program opens
the gate of a frame only once the frame behind it is written: so whoever reads an open gate reads the whole frame after it.
usage: backup.py [COPIES]      COPIES: 1000 if left out
"""
import itertools
import os
import pathlib
import re
import struct
import subprocess
import sys
import tempfile
import threading
import time

HERE = pathlib.Path(__file__).resolve().parent
PROGRAM = str(HERE.parent / "crates/ldar_cli/out/ldar_cli")
COPIES = int(sys.argv[1]) if len(sys.argv) > 1 else 1_000
# A copy of one byte a read is as slow as a copy can be; a large piece is as fast.
PIECES = (1, 7, 64, 4_096, 1_048_576)
LARGE = PIECES[-1]
# How many batches are sent while a copy is made, so that the journal stays small enough for a thousand of them.
SENT = 100
SAID = re.compile(rb"journal (\d+) batches (\d+) facts\n")


def batch(number):
    """A batch of handheld 7 with 1 to 12 calibrations."""
    facts = b"".join(struct.pack(">BHHHI", 7, 19_773, minute, 1, 500) for minute in range(1 + number % 12))
    return struct.pack(">BHIH", 0x42, 7, number, 1 + number % 12) + facts


class Office:
    """A program that docks batches, some for each copy, and how many it has receipted."""

    def __init__(self, journal):
        self.sent, self.receipts, self.goes_on, self.wanted = 0, 0, True, threading.Semaphore(0)
        self.ran = subprocess.Popen([PROGRAM, journal, "dock"], stdin=subprocess.PIPE, stdout=subprocess.PIPE)
        self.threads = [threading.Thread(target=it, daemon=True) for it in (self.send, self.count)]
        for it in self.threads:
            it.start()

    def send(self):
        while self.wanted.acquire() and self.goes_on:
            self.sent += 1
            self.ran.stdin.write(batch(self.sent))
            if self.sent % 3 == 0:
                self.ran.stdin.flush()
        self.ran.stdin.close()

    def count(self):
        for line in self.ran.stdout:
            self.receipts += line.startswith(b"receipt 7 ")

    def send_more(self):
        """Lets batches be sent, and waits for the receipt of one of them."""
        before = self.receipts
        self.wanted.release(SENT)
        until = time.time() + 20
        while self.receipts == before and time.time() < until:
            time.sleep(0.0001)

    def stop(self):
        self.goes_on = False
        self.wanted.release()
        for it in self.threads:
            it.join()
        return self.ran.wait()


def copied(journal, to, piece):
    """Copies the file forwards to its end. Small pieces are read from 2,000 bytes before the end on, where something happens; after
    4,000 of them the rest is read in large ones, since the journal grows meanwhile."""
    source = os.open(journal, os.O_RDONLY)
    try:
        with open(to, "wb") as target:
            if piece < 4_096:
                target.write(os.pread(source, max(0, os.fstat(source).st_size - 2_000), 0))
            for n in itertools.count():
                got = os.pread(source, piece if n < 4_000 else LARGE, target.tell())
                if not got:
                    return
                target.write(got)
    finally:
        os.close(source)


def main():
    with tempfile.TemporaryDirectory() as folder:
        copy_in(folder)


def copy_in(folder):
    journal, copy = f"{folder}/journal", f"{folder}/copy"
    subprocess.run([PROGRAM, journal, "init"], check=True)
    office = Office(journal)
    least, busy = 0, 0
    for n in range(COPIES):
        office.send_more()
        before = office.receipts
        copied(journal, copy, PIECES[n % len(PIECES)])
        busy += office.receipts > before
        ran = subprocess.run([PROGRAM, copy, "check"], stdout=subprocess.PIPE, stderr=subprocess.PIPE)
        said = SAID.fullmatch(ran.stdout)
        if ran.returncode != 0 or not said:
            sys.exit(f"copy {n} does not open: status {ran.returncode}, {ran.stderr.decode()}")
        if int(said[1]) < before:
            sys.exit(f"copy {n} has {said[1].decode()} batches, and {before} were receipted before it began")
        least = before
    status = office.stop()
    ran = subprocess.run([PROGRAM, journal, "check"], stdout=subprocess.PIPE, check=True)
    if status != 0 or office.receipts != office.sent or int(SAID.fullmatch(ran.stdout)[1]) != office.sent:
        sys.exit(f"{office.sent} batches were sent, {office.receipts} receipted, and the journal has {ran.stdout.decode()}")
    print(f"{COPIES} copies open, each with what was receipted before it began; {least} batches before the last, "
          f"and {busy} copies were made while batches were receipted")


main()
