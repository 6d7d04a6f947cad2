#!/usr/bin/env python3
"""The program report_captures against the report from the words (check.py): each cause of 24, an empty file, a message of 65,535 bytes, 1,000,000 and 1,000,001
messages, random files, and input that comes by a pipe in pieces of 1, 7 and 65,536 bytes, and of any size; progress on standard error where that is a terminal,
and nowhere else. The program is target/bin/report_captures."""

import os
import pty
import random
import subprocess
import sys
import threading

from check import OUT, report
from make import message, random_message, record

PROGRAM = OUT.parent.parent / "target" / "bin" / "report_captures"
GOOD = record(message(b"\x33\x04\0\0\x0e\x10\xff"))
EMPTY = b"\1\0\0"


def printed(file, sizes=None):
    """What the program prints, of a file that is lent in pieces of these sizes, again and again."""
    read, write = os.pipe()

    def lend():
        at, k = 0, 0
        with os.fdopen(write, "wb", buffering=0) as pipe:
            while at < len(file):
                size = sizes[k % len(sizes)] if sizes else len(file)
                pipe.write(file[at:at + size])
                at, k = at + size, k + 1

    thread = threading.Thread(target=lend)
    thread.start()
    out = subprocess.run([PROGRAM], stdin=read, stdout=subprocess.PIPE, check=True).stdout
    os.close(read)
    thread.join()
    return out.decode()


def progress():
    """Progress is told on a terminal, whose line is empty at the end; a file or a pipe gets none. The report is the same."""
    file = GOOD * 3000
    ours, theirs = pty.openpty()
    shown = subprocess.run([PROGRAM], input=file, stdout=subprocess.PIPE, stderr=theirs, check=True).stdout.decode()
    os.close(theirs)
    told = b""
    try:
        while more := os.read(ours, 65536):
            told += more
    except OSError:  # the terminal is closed
        pass
    os.close(ours)
    silent = subprocess.run([PROGRAM], input=file, capture_output=True, check=True)
    lines = [line for line in told.split(b"\r") if line.strip()]
    if shown != report(file) or silent.stdout.decode() != shown or silent.stderr != b"":
        sys.exit("captures: the report changes where progress is told, or a pipe is told of it")
    if lines[-1] != b"%d bytes read" % len(file) or not told.endswith(b"\r") or told.split(b"\r")[-2].strip():
        sys.exit(f"captures: progress is {told!r}")


def cases():
    stored = (OUT / "stdin").read_bytes()
    for sizes in (None, [1], [7], [65536], [1, 7, 997]):
        yield f"the stored file, pieces of {sizes or 'any size'}", stored, sizes
    yield "an empty file", b"", None
    yield "another tag, first", b"\2" + GOOD, None
    yield "another tag, later", GOOD + b"\0" + GOOD, [1]
    for n in (1, 2, 3, 4, 100, len(GOOD) - 1):
        yield f"a record cut short behind {n} bytes", GOOD + GOOD[:n], [7]
    yield "a message of 65,535 bytes", record(bytes(65535)) + GOOD, [65536]
    yield "the same, cut short", record(b"\1" * 65535)[:-1], [65536]
    yield "1,473 and 1,472 bytes", record(bytes(1473)) + record(message(b"\xff".ljust(1232, b"\0"))), [997]
    yield "1,000,000 messages", EMPTY * 1000000, None
    yield "message 1,000,001", EMPTY * 1000001, None
    rng = random.Random(24)
    for k in range(60):
        file = b"".join(record(random_message(rng)) for _ in range(rng.randrange(40)))
        if rng.random() < 0.5 and file:
            at = rng.randrange(len(file))
            file = file[:at] + bytes([rng.randrange(256)]) + file[at + 1:]
        yield f"random file {k}", file[:rng.randrange(len(file) + 1)] if rng.random() < 0.3 else file, [rng.randrange(1, 5000) for _ in range(9)]


if __name__ == "__main__":
    count = 0
    for name, file, sizes in cases():
        wanted, got = report(file), printed(file, sizes)
        if wanted != got:
            sys.exit(f"captures: {name}: expected\n{wanted}printed\n{got}")
        count += 1
    progress()
    print(f"captures: {count} files are reported as the second reader does")
