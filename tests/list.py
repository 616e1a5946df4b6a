"""Runs the program `list` on trees made at random, on broken ones, and on trees fed in pieces, and compares all that it prints with
the listing of tests/cases.py.

Usage: list.py PROGRAM [ROUNDS]        (crates/list/out/list, after rt run in crates/list)
"""
import random
import subprocess
import sys
import time

import cases

LONGEST = 27330


# 01, The tree.
def is_sound(tree):
    depth = []
    for place, (parent, _) in enumerate(tree.nodes):
        if parent >= max(place, 1):
            return False
        depth.append(depth[parent] + 1 if place else 1)
    names = [name for _, name in tree.nodes] + [p[6] for p in tree.properties]
    named = all(len(name) <= 23 and is_plain(name) for name in names)
    return named and max(depth) <= 16 and all(p[0] < len(tree.nodes) and is_property(p) for p in tree.properties)


def is_plain(text):
    return all(0x20 <= c <= 0x7E for c in text)


def is_property(p):
    _, kind, least, most, attribute, fmt, _, texts, _, _ = p
    ranges = {1: cases.signed(least, fmt) <= cases.signed(most, fmt), 2: least == 0 and most <= 15}
    live = not attribute & 0x2000 or attribute & 3 == 1
    numbers = ranges.get(kind, False) and cases.is_stepped(p)
    return numbers and live and all(map(is_plain, texts)) and sum(len(text) + 1 for text in texts) <= 160


# docs/FORMATS.md: the sound tree that bytes stand for, None where there is none. A tree has one form alone.
def read(form):
    if not 2 <= len(form) <= LONGEST or not 1 <= form[0] <= 64 or form[1] > 128:
        return None
    records = 2 + 3 * form[0]
    texts = iter(form[records + 16 * form[1] :].split(b"\0"))
    number = lambda at, size: int.from_bytes(form[at : at + size], "big")
    try:
        tree = cases.Tree([(form[2 + 3 * k], next(texts)) for k in range(form[0])], [])
        for at in range(records, records + 16 * form[1], 16):
            kind, most = form[at + 1], number(at + 6, 4)
            own = [next(texts) for _ in range(1 + (most + 1 if kind == 2 else 1))]
            p = (form[at], kind, number(at + 2, 4), most, number(at + 10, 2), number(at + 12, 2), own[0], own[1:], 0, 0)
            tree.properties.append(p)
    except (StopIteration, IndexError):
        return None
    return tree if tree.form() == form and is_sound(tree) else None


def expected(form):
    tree = read(form)
    return b"answer=1\n" if tree is None else cases.listing(tree)


def text(most):
    length = random.choice([0, most, random.randrange(most + 1), random.randrange(9)])
    return bytes(random.choice([0x3D, 0x20, 0x7E, random.randrange(0x20, 0x7F)]) for _ in range(min(length, most)))


# Any format; of type 1 with a step code that means something.
def draw_format(kind):
    code = random.randrange(16 if kind == 2 else len(cases.STEPS))
    return random.randrange(0x10000) & 0xF0FF | code << 8


def draw_property(nodes):
    kind = random.choice([1, 2])
    most = random.randrange(16) if kind == 2 else 0
    attribute, fmt = random.choice([0x2001, 3, 2, 1, 0, 0xD000]), draw_format(kind)
    return random.randrange(nodes), kind, 0, most, attribute, fmt, text(23), [text(9) for _ in range(most + 1)], 0, 0


# A node hangs below the one before it, below the device, or below any earlier one.
def draw():
    tree, depth = cases.Tree([(0, text(23))], []), [1]
    shape = random.choice([lambda place: place - 1, lambda place: 0, random.randrange])
    for place in range(1, random.choice([1, 2, 5, 12, 30, 64])):
        parent = shape(place)
        parent = parent if depth[parent] < 16 else 0
        depth.append(depth[parent] + 1)
        tree.nodes.append((parent, text(23)))
    for _ in range(random.choice([0, 1, 3, 10, 128])):
        tree.properties.append(draw_property(random.choice([1, len(tree.nodes)])))
    return tree


# 64 nodes down to depth 16, by the tenth child at some levels, and 128 properties; every text as long as it may be.
def largest():
    tree, last = cases.Tree([(0, b"n" * 23)], []), 0
    for count in [10, 1, 10, 1, 1, 10, 1, 1, 1, 10, 1, 1, 1, 1, 10]:
        tree.nodes += [(last, b"n" * 23)] * count
        last = len(tree.nodes) - 1
    tree.nodes += [(0, b"n" * 23)] * (64 - len(tree.nodes))
    options = [b"o" * 9] * 16
    tree.properties += [(last if k < 100 else k % 64, 2, 0, 15, 3, 0x1080, b"l" * 23, options, 0, 0) for k in range(128)]
    return tree


def broken(form):
    at = random.randrange(len(form))
    yield form[:-1]
    yield form[:at]
    yield form + b"\0"
    yield form + bytes([random.randrange(256)])
    for byte in (random.randrange(256), form[at] ^ 1, form[at] ^ 0x80, 0, 0x3D):
        yield form[:at] + bytes([byte]) + form[at + 1 :]


# Few enough to be given all: the bench tree cut everywhere, and each byte of it changed to some others.
def of_bench():
    form = cases.bench().form()
    for at in range(len(form)):
        yield form[:at]
        for byte in (form[at] ^ 1, (form[at] + 0x10) % 256):
            yield form[:at] + bytes([byte]) + form[at + 1 :]


# The bench tree with each step code in each of its properties: Rate alone, which is of type 2, may have any.
def of_codes():
    for place in range(5):
        for code in range(16):
            tree = cases.bench()
            p = tree.properties[place]
            tree.properties[place] = (*p[:5], p[5] & 0xF0FF | code << 8, *p[6:])
            assert (read(tree.form()) is None) == (code >= 12 and place != 3)
            yield tree.form()


def too_long(form):
    yield form + b"\0"
    yield form + b"A"
    yield from (bytes(LONGEST + 1), bytes(300000), form + form)


def run(program, form):
    return subprocess.run([program], input=form, capture_output=True, check=False)


# The same, a few bytes at a time, the second piece when the first was surely read. What is too long may not be read to its end.
def run_in_pieces(program, form):
    with subprocess.Popen([program], stdin=subprocess.PIPE, stdout=subprocess.PIPE, stderr=subprocess.PIPE, bufsize=0) as started:
        rest = form
        while rest:
            size = random.choice([1, 2, 7, 100] if len(form) < 1000 else [1, 1000, 4096, 5000])
            try:
                started.stdin.write(rest[:size])
            except BrokenPipeError:
                break
            time.sleep(0.03 if rest == form else 0.001)
            rest = rest[size:]
        out, told = started.communicate()
    return subprocess.CompletedProcess([program], started.returncode, out, told)


def compare(way, program, form):
    ran = way(program, form)
    if (ran.returncode, ran.stdout, ran.stderr) != (0, expected(form), b""):
        print(f"list: of {len(form)} bytes: {form[:400].hex(' ')}")
        print(f"list: status {ran.returncode}, printed {ran.stdout[:400]}, told {ran.stderr}")
        sys.exit("list: the program and the rules differ")


def main(program, rounds):
    random.seed(1)
    full = largest().form()
    assert len(full) == LONGEST and read(full) is not None
    forms = [b"", cases.bench().form(), cases.penko().form(), full, *of_bench(), *of_codes(), *broken(full), *too_long(full)]
    for _ in range(rounds):
        form = draw().form()
        assert read(form) is not None
        forms += [form, *broken(form)]
    for form in forms:
        compare(run, program, form)
    pieces = forms[:4] + [*too_long(full)] + random.sample(forms, 20)
    for form in pieces:
        compare(run_in_pieces, program, form)
    sound = sum(read(form) is not None for form in forms)
    print(f"list: {len(forms)} inputs, {sound} of them sound, and {len(pieces)} in pieces: same")


main(sys.argv[1], int(sys.argv[2]) if len(sys.argv) > 2 else 30)
