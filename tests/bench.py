"""Runs the bench program on streams made at random, compares every line with the rules of tests/cases.py, and sees that every number
that the program can give was met.

Usage: bench.py PROGRAM [ROUNDS]        (crates/bench/out/bench, after rt run in crates/bench)
"""
import random
import subprocess
import sys

import cases


def expected(stream):
    tree, reader, out = cases.bench(), [False, False, b""], "address=0\n"
    for b in stream:
        number, payload = cases.feed(reader, 0, bytes([b]))
        if number == 255:
            continue
        reply = b""
        if number == 0:
            number, data = cases.serve(tree, True, payload)
            reply = cases.frame(0, data)
        out += f"answer={number}\nreply={reply.hex().upper()}\n"
    return out.encode()


# A request for a node or a property that may not be there (document 02, section 7).
def lookup():
    path = bytes(random.choice([1, 1, 1, 2, 3]) for _ in range(random.choice([1, 1, 2, 2, 2, 3, 4, 16])))
    op = random.randrange(1, 6)
    index = bytes([random.choice([1, 2, 3, 4, 129, 255])]) if op > 1 else b""
    return bytes([0xB4, op]) + path + index + (bytes(4) + bytes([random.randrange(80)]) if op > 3 else b"")


def stream(rounds):
    requests = [d for _, call, *args in cases.CASES if call in ("data", "twice") for d in args if 0 < len(d) <= 256]
    out = b""
    for _ in range(random.randrange(1, rounds)):
        kind = random.random()
        if kind < 0.6:
            out += b"\x10" * random.choice([0, 0, 1, 2, 5])
            out += cases.frame(random.choice([0, 0, 0, 0, 5]), random.choice([random.choice(requests), lookup()]))
        elif kind < 0.8:
            out += bytes(random.choice([0x10, 2, 3, 0, 0xB4, 255]) for _ in range(random.randrange(12)))
        elif kind < 0.9:
            out += b"\x10\x02" + bytes(random.randrange(250, 270)) + b"\x10\x03"
        else:
            out += cases.frame(0, bytes(random.randrange(256) for _ in range(random.randrange(1, 257))))
    return out


random.seed(1)
met = set()
for k in range(int(sys.argv[2]) if len(sys.argv) > 2 else 30):
    given = stream(2000 if k < 5 else 60)
    wanted = expected(given)
    got = subprocess.run([sys.argv[1]], input=given, capture_output=True, check=True).stdout
    if got != wanted:
        sys.exit(f"stream {k}: the program and the rules differ")
    met.update(line for line in wanted.splitlines() if line.startswith(b"answer="))
unmet = {b"answer=%d" % number for number in (0, 3, 4, 5, 6, 7, 10, 11, 12, 13, 15, 16)} - met
if unmet:
    sys.exit(f"bench: never met: {sorted(unmet)}")
print("bench: same")
