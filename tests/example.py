"""Runs example/main.c, built with the static library, on exchanges of document 01 and compares every byte it sends: from cells
that begin with the factory's settings, from saved cells, and from saved ones that are spoilt.

Usage: example.py PROGRAM REFUSED. Frames are written here anew, from document 01's section "Frames on the wire". REFUSED is built
with a factory sheet that is out of range (18), and must say so and end with status 2.
"""
import os
import subprocess
import sys
import tempfile

PROBE_1 = "B4 03 01 01 01"
PROBE_2 = "B4 03 01 01 02"
AVERAGE = "B4 03 01 02 01"
RATE = "B4 03 01 02 02"


def frame(address, data):
    content = bytes([address]) + data
    content += bytes([255 - sum(content) % 256])
    return b"\x10\x02" + content.replace(b"\x10", b"\x10\x10") + b"\x10\x03"


# A form of cells (docs/FORMATS.md): words and marks.
def form(*cells):
    return b"".join(word.to_bytes(4, "big") + bytes([mark]) for word, mark in cells)


# Noise, a frame for another box, and stray 10h just before the next one (document 02, section 2).
OTHERS = b"\x00\x10\x03" + frame(7, bytes.fromhex("B400")) + b"\x10\x10"

# Requests and replies, as document 01 gives them for the bench tree; the read with its status byte (PDI 5.4). Average begins with
# the 4 of the factory sheet.
EXCHANGES = [
    ("B4 00", "55"),
    ("B4 01 01", "B4 01 01 02 00 42 6F 78 00"),
    (
        "B4 02 01 02 02",
        "B4 02 01 02 02 02 00000000 00000001 0003 1080 52 61 74 65 00 53 6C 6F 77 00 46 61 73 74 00",
    ),
    (PROBE_1, PROBE_1 + "01 00000834"),
    (PROBE_2, "58"),
    (AVERAGE, AVERAGE + "01 00000004"),
    ("B4 04 01 02 01 00 00000040", "B4 04 01 02 01 00 00000040 01"),
    (AVERAGE, AVERAGE + "01 00000040"),
    ("B4 04 01 02 01 00 00000041", "B4 04 01 02 01 00 00000041 00"),
    (AVERAGE, AVERAGE + "01 00000040"),
    ("B4 04 01 02 02 00 00000002", "B4 04 01 02 02 00 00000002 00"),
    ("B4 04 01 02 03 00 00000000", "B4 04 01 02 03 00 00000000 02"),
    (
        "B4 05 01 01 01 00 00000000",
        "B4 05 01 01 01 00 00000000 00 52 65 61 64 20 6F 6E 6C 79 00",
    ),
    ("B4 04 01 02 01 00 000000", "54"),
    ("B4 03 01 03 01", "54"),
    ("B4 06", "59"),
]
BEGUN_TOLD = b"restart\nnot a request\nno node 1.3\n"
BEGUN = [(OTHERS, request, reply) for request, reply in EXCHANGES]

# Saved when both probes were ready and the settings were not those that cells begin with.
SAVED = form((1999, 1), (8500, 1), (64, 0), (1, 0), (0, 0))

# The settings are back. A probe is not, until 64 samples (one with each byte) made a new reading: each request has 11 bytes, so
# that the fifth one ends with the 64th byte.
RESTORED = [
    (b"", PROBE_1, "58"),
    (b"", PROBE_2, "58"),
    (b"", AVERAGE, AVERAGE + "01 00000040"),
    (b"", RATE, RATE + "01 00000001"),
    (bytes(9), PROBE_1, "58"),
    (b"", PROBE_1, PROBE_1 + "01 00000834"),
    (b"", PROBE_2, "58"),
]

# Nothing of spoilt cells is used, and the program begins where there are none.
AFRESH = [(b"", PROBE_1, PROBE_1 + "01 00000834"), (b"", AVERAGE, AVERAGE + "01 00000004"), (b"", RATE, RATE + "01 00000000")]

# Requests that are answered with 54, and the line that is told of each (document 02, section 7): for 15 the part of the path that
# no node has, for 16 the path and the index; for 11, which has no part to tell, that it is no request.
LOST = [
    ("B4 01 01 03 05", "no node 1.3"),
    ("B4 03 01 03 05 01", "no node 1.3"),
    ("B4 01 02 01", "no node 2"),
    ("B4 01 FF", "no node 255"),
    ("B4 02 02 01", "no node 2"),
    ("B4 03 01 01 01 01", "no node 1.1.1"),
    ("B4 04 01 02 FF 10 01 00 01020304", "no node 1.2.255"),
    ("B4 05 10 01 00 00000000", "no node 16"),
    ("B4 01" + "01" * 16, "no node 1.1.1"),
    ("B4 03" + "01" * 15 + "02 03", "no node 1.1.1"),
    ("B4 02 01 01", "no property 1.1"),
    ("B4 02 01 02 04", "no property 1.2.4"),
    ("B4 03 01 02 09", "no property 1.2.9"),
    ("B4 03 01 01 FF", "no property 1.1.255"),
    ("B4 04 01 02 09 00 01020304", "no property 1.2.9"),
    ("B4 04 01 02 09 00 00000000", "no property 1.2.9"),
    ("B4 05 01 01 03 00 00000100", "no property 1.1.3"),
    ("B4 01 02 00", "not a request"),
    ("B4 03 02 00", "not a request"),
    ("B4 04 01 03 01 00 000000", "not a request"),
    ("B4 01" + "02" * 17, "not a request"),
]
MISSED = [(b"", request, "54") for request, _ in LOST] + [(b"", AVERAGE, AVERAGE + "01 00000004")]
MISSED_TOLD = "".join(line + "\n" for _, line in LOST).encode()

RUNS = [
    ("begun", None, BEGUN, BEGUN_TOLD),
    ("begun, for paths", None, MISSED, MISSED_TOLD),
    ("restored", SAVED, RESTORED, b""),
    ("with a mark of 2", SAVED[:4] + b"\x02" + SAVED[5:], AFRESH, b""),
    ("a byte short", SAVED[:-1], AFRESH, b""),
    ("in no file", b"", AFRESH, b""),
]


def is_answered(program, saved, exchanges, told):
    sent = b"".join(before + frame(0, bytes.fromhex(request)) for before, request, _ in exchanges)
    expected = b"".join(frame(0, bytes.fromhex(reply)) for _, _, reply in exchanges)
    with tempfile.TemporaryDirectory() as folder:
        name = os.path.join(folder, "cells")
        if saved:
            with open(name, "wb") as file:
                file.write(saved)
        command = [program] if saved is None else [program, name]
        run = subprocess.run(command, input=sent, capture_output=True, check=False)
    if run.returncode == 0 and run.stdout == expected and run.stderr == told:
        return True
    print("sent    ", run.stdout.hex(" "))
    print("expected", expected.hex(" "))
    print(f"ended with {run.returncode}, told {run.stderr}")
    return False


def is_refused(program):
    run = subprocess.run([program], input=frame(0, bytes.fromhex("B400")), capture_output=True, check=False)
    return run.returncode == 2 and run.stdout == b"" and run.stderr == b"factory sheet: 18\n"


def main():
    failed = 0
    if not is_refused(sys.argv[2]):
        print("example: a factory sheet out of range is not refused")
        failed += 1
    for name, saved, exchanges, told in RUNS:
        if not is_answered(sys.argv[1], saved, exchanges, told):
            print(f"example: cells {name}: failed")
            failed += 1
    print(f"example: {sum(len(exchanges) for _, _, exchanges, _ in RUNS)} exchanges in {len(RUNS)} runs, {failed} failed")
    return 1 if failed else 0


sys.exit(main())
