"""Runs example/buslink.c, built with the static library, and compares all that it prints with frames and indicators worked out from
document 02, section 5, and source 000, chapter 4, here and in cases.py.

Usage: buslink.py PROGRAM [ROUNDS]
"""
import os
import random
import re
import subprocess
import sys
import tempfile

import cases

STATIONS = [(base, sub) for base in range(1, 9) for sub in range(1, 6)]
TYPES = range(2, 10)
# Eight digits of an identifier, and up to 64 bytes of data.
FRAME = re.compile(r"([0-9A-Fa-f]{8})#((?:[0-9A-Fa-f]{2}){0,64})")

# Where a value, ten times the word or the word itself, goes beyond 24, 31 or 32 bits.
LIMITS = [0, 838860, 1677721, 2**23 - 1, 2**24, 2**31 // 10, 2**32 // 10, 2**31 - 1, 2**32 - 1]


def identifier(station, kind):
    return cases.bus_identifier(*station, kind)


# A reading is a number, or None for an open probe.
def indicator(p, reading):
    return cases.indicator(p, (reading or 0) % 2**32, reading is not None)


# Fifteen indicators and four zeros, eight bytes to a frame.
def frames(tree, station, readings):
    live = [p for p in tree.properties if p[4] & 0x2000]
    shown = [indicator(p, reading) for p, reading in zip(live, readings + [None] * len(live))]
    data = b"".join(shown[:15]).ljust(64, b"\0")
    return [f"{identifier(station, kind):08X}#{data[8 * kind - 16 : 8 * kind - 8].hex().upper()}" for kind in TYPES]


# The lines that a station prints, and the number that it ends with: 0, or 20 for a frame of its own that has not eight bytes.
def received(station, lines):
    own, out = {identifier(station, kind): kind for kind in TYPES}, ""
    for line in lines:
        found = FRAME.fullmatch((line.split() or [""])[-1])
        kind = found and own.get(int(found[1], 16))
        if not kind:
            continue
        data = bytes.fromhex(found[2])
        if len(data) != 8:
            return 20, out
        for number, part in ((2 * kind - 3, data[:4]), (2 * kind - 2, data[4:])):
            if number <= 15 and part[3] & 0xC0 == 0x80:
                value = int.from_bytes(part[:3], "little", signed=True)
                out += f"indicator={number} value={value} format={part[3] & 7}\n"
    return 0, out


class Program:
    def __init__(self, name, folder):
        self.name, self.tree, self.runs = name, os.path.join(folder, "tree"), 0

    def run(self, words, given=b""):
        self.runs += 1
        return subprocess.run([self.name, *words], input=given, capture_output=True, check=False)

    def compare(self, words, given, status, printed, told):
        ran = self.run(words, given)
        if (ran.returncode, ran.stdout.decode(), ran.stderr.decode()) == (status, printed, told):
            return
        print(f"buslink: {words}, given {given[:400]}")
        print(f"ended with {ran.returncode}, told {ran.stderr}, printed\n{ran.stdout.decode()}expected\n{printed}")
        sys.exit("buslink: the program and the rules differ")

    # A form of a tree, a station, readings: the frames, or the number of a refusal.
    def send(self, form, station, readings, number, printed=""):
        with open(self.tree, "wb") as file:
            file.write(form)
        words = ["-" if reading is None else str(reading) for reading in readings]
        told = f"refused={number}\n" if number else ""
        self.compare([self.tree, *map(str, station), *words], b"", 2 if number else 0, printed, told)

    def receive(self, station, lines, end="\n"):
        number, printed = received(station, lines)
        told = f"refused={number}\n" if number else ""
        given = "".join(line + end for line in lines).encode()
        self.compare(["receive", *map(str, station)], given, 2 if number else 0, printed, told)


# Document 02's frame; and with both probes, below zero, and too large for 24 bits.
def on_bench(program):
    tree = cases.bench()
    sent = frames(tree, (1, 2), [2100, None])
    assert sent[0] == "15550202#0852008200000002" and set(line[9:] for line in sent[1:]) == {"0" * 16}
    assert received((1, 2), sent) == (0, "indicator=1 value=21000 format=2\n")
    for station in STATIONS:
        for readings in ([2100, None], [2100], [], [-1, 838860], [838861, -838860], [None, -838861]):
            lines = frames(tree, station, readings)
            program.send(tree.form(), station, readings, 0, "".join(line + "\n" for line in lines))
    for station in [(0, 1), (9, 1), (1, 0), (8, 6), (255, 255)]:
        program.send(tree.form(), station, [2100], 19)
        program.compare(["receive", *map(str, station)], b"", 2, "", "refused=19\n")


# What is no tree, whatever the station and the readings; a step code that means nothing among it.
def on_broken(program):
    form, coded = cases.bench().form(), cases.CODED["live 12"]().form()
    for broken in (b"", form[:-1], form + b"\0", form[1:], bytes(27331), bytes(300000), form + bytes(30000), coded):
        program.send(broken, (1, 2), [2100], 1)
        program.send(broken, (9, 9), [], 1)


def draw_property():
    attribute, kind = random.choice([0x2001] * 6 + [3, 2, 1, 0]), random.choice([1, 1, 2])
    others = [0, 0x1080, 0x0B00, 0x7078] + [0x0C00, 0x7F78] * (kind == 2)
    fmt = random.randrange(8) + random.choice([0, 0x8000]) + random.choice(others)
    return 0, kind, 0, 0, attribute, fmt, b"", [b""], 0, 0


def draw_reading():
    number = random.choice(LIMITS + [random.randrange(2**32), random.randrange(2 ** random.randrange(1, 33))])
    number = random.choice([1, -1]) * (number + random.choice([-1, 0, 1]))
    return random.choice([None, number]) if -(2**31) <= number < 2**32 else None


def draw():
    tree = cases.Tree([(0, b"Box")], [draw_property() for _ in range(random.choice([0, 1, 2, 5, 15, 20, 30, 128]))])
    live = sum(p[4] & 0x2000 > 0 for p in tree.properties)
    count = random.choice([live, live, random.randrange(live + 1)])
    return tree, random.choice(STATIONS), [draw_reading() for _ in range(count)]


# What else a log has: other identifiers, remote frames, frames with more data, comments.
def noise():
    other = random.choice([0x15550002, 0x15550A02, 0x05550202, 0x95550202, 0x15560202, 0, random.randrange(2**32)])
    words = ["", "#", "202#0852008200000002", "15550202#R", "15550202##10852008200000002", "15550202", "15550202#0",
             "15550202#08520082000000", "#0852008200000002", "X5550202#0852008200000002", "15550202#085200820000000G",
             f"{other:08X}#0852008200000082", "15550202#0852008200000082 .", "15550202:0852008200000082", "1" * 5000,
             "15550202#" + "82" * 65, "15550202#" + "82" * 5000]
    return random.choice(words)


# As candump -L writes a line, or the frame alone.
def logged(frame):
    return random.choice([frame, frame.lower(), f"(1755000000.000001) can0 {frame}", f"  can0\t{frame} "])


def drawn_frame(station):
    data = bytearray(random.randbytes(8))
    for at in (3, 7):
        data[at] = data[at] % 64 + random.choice([0x00, 0x40, 0x80, 0x80, 0xC0])
    return f"{identifier(station, 2) + 0x100 * random.randrange(-1, 9):08X}#{data.hex().upper()}"


def on_drawn(program):
    tree, station, readings = draw()
    lines = frames(tree, station, readings)
    program.send(tree.form(), station, readings, 0, "".join(line + "\n" for line in lines))
    program.receive(station, lines)
    program.receive(random.choice(STATIONS), lines)
    log = lines + [drawn_frame(random.choice([station, random.choice(STATIONS)])) for _ in range(20)]
    log = [logged(line) for line in log] + [noise().replace("15550202", random.choice(lines)[:8]) for _ in range(10)]
    random.shuffle(log)
    program.receive(station, log, random.choice(["\n", "\r\n"]))


# A frame of the station's own that has not eight bytes ends the reading; what was printed stays.
def on_lengths(program):
    good = "15550202#0852008200000002"
    for size in list(range(8)) + list(range(9, 65)):
        program.receive((1, 2), [good, "15550202#" + "AB" * size, good])
        program.receive((1, 3), [good, "15550202#" + "AB" * size, good])
    program.compare(["receive", "1", "2"], good.encode(), 0, "indicator=1 value=21000 format=2\n", "")


# Command lines that make no sense: 1, and nothing printed.
def on_misuse(program):
    form = cases.bench().form()
    with open(program.tree, "wb") as file:
        file.write(form)
    tree = program.tree
    for words in ([], [tree], [tree, "1"], ["receive", "1"], ["receive", "1", "2", "3"], [tree, "1", "x"], [tree, "256", "1"],
                  [tree, "", "1"], [tree, "1", "2", "21.00"], [tree, "1", "2", "4294967296"], [tree, "1", "2", "-2147483649"],
                  [tree, "1", "2", "+5"], [tree, "1", "2", " 5"], [tree, "1", "2", "--5"], [tree, "1", "2", ""],
                  [tree, "1", "2", "9" * 40], [tree, "1", "2", "1", "2", "3"], [tree + ".none", "1", "2"]):
        ran = program.run(words)
        if (ran.returncode, ran.stdout) != (1, b"") or not ran.stderr:
            sys.exit(f"buslink: {words} ended with {ran.returncode}, printed {ran.stdout}, told {ran.stderr}")


def main(name, rounds):
    random.seed(1)
    with tempfile.TemporaryDirectory() as folder:
        program = Program(name, folder)
        on_bench(program)
        on_broken(program)
        for _ in range(rounds):
            on_drawn(program)
        on_lengths(program)
        on_misuse(program)
    print(f"buslink: {program.runs} runs: same")


main(sys.argv[1], int(sys.argv[2]) if len(sys.argv) > 2 else 100)
