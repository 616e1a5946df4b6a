"""The second program of document 01: what crates/cases must print, worked out anew from documents 01, 02 and 003; and what
crates/list must print of the bench tree.

Usage: cases.py write      writes the files of crates/cases: stdin, the cases; stdout, the expected lines; and those of
                           crates/list: stdin, the bench tree's form; stdout, its listing
       cases.py check      says whether the files there are these, byte for byte
Nothing here was taken from a program's output. Each case: name, call, arguments; the answer is worked out by the rules below,
and `SAYS` holds the answers that the documents print in full, which the rules are compared with.

A line of stdin has five fields with `|` between them: the name of the case, then four in hex with capital letters.

    name|numbers|string|tree|lent

The numbers are 12 bytes: kind, room for the output (two bytes), size of what is lent (two bytes), address, mark, index, value
(four bytes), each high byte first. Lent are cells or a stream state; where the field is empty, they are as the line before left
them. `CALLS` has the kinds, and crates/calls/src says what each does with its numbers. What a kind does not need is 0 or empty.
A case that has two lines of stdout has two of stdin.
"""
import pathlib
import re
import sys

H = bytes.fromhex


# 01, Frames on the wire.
def double(bs):
    return b"".join(b"\x10\x10" if b == 0x10 else bytes([b]) for b in bs)


def frame(address, data):
    content = bytes([address]) + data
    content += bytes([255 - sum(content) % 256])
    return b"\x10\x02" + double(content) + b"\x10\x03"


def size(data):
    return 4 if len(data) == 0 else 5 if len(data) > 256 else 0


def judge(address, content):
    if len(content) < 3:
        return 4, b""
    if len(content) > 258:
        return 5, b""
    if sum(content) % 256 != 255:
        return 6, b""
    if content[0] != address:
        return 7, b""
    return 0, content[1:-1]


def string(address, s):
    if s[:2] != b"\x10\x02":
        return 2, b""
    content, i = b"", 2
    while i < len(s):
        pair = s[i : i + 2]
        if pair == b"\x10\x03":
            return judge(address, content) if i + 2 == len(s) else (3, b"")
        if pair == b"\x10\x10":
            content, i = content + b"\x10", i + 2
        elif s[i] == 0x10:
            return 3, b""
        else:
            content, i = content + s[i : i + 1], i + 1
    return 3, b""


def datagram(s):
    if s[:4] != bytes(4):
        return 2, b""
    return size(s[4:]), s[4:] if size(s[4:]) == 0 else b""


# 01, The stream; 02, section 2. The reader is [inside, a 10h waits, content].
def feed(reader, address, bs):
    for b in bs:
        inside, waits, content = reader
        if not waits and b == 0x10:
            reader[1] = True
        elif not inside:
            reader[:] = [waits and b == 0x02, b == 0x10, b""]
        elif waits and b == 0x03:
            reader[:] = [False, False, b""]
            return judge(address, content)
        elif waits and b == 0x02:
            reader[:] = [True, False, b""]
        elif waits and b != 0x10:
            reader[:] = [False, False, b""]
            return 3, b""
        elif len(content) == 258:
            reader[:] = [False, False, b""]
            return 5, b""
        else:
            reader[:] = [True, False, content + bytes([b])]
    return 255, b""


# 01, Requests and replies. A request: op, path, index, value.
def request(d):
    if d[0] != 0xB4:
        return 10, None
    if len(d) == 1:
        return 11, None
    op, rest = d[1], d[2:]
    if op > 5:
        return 10, None
    if op == 0:
        return (0, (0, b"", 0, 0)) if rest == b"" else (11, None)
    if op in (4, 5):
        if len(rest) < 5 or rest[-5] != 0:
            return 11, None
        rest, value = rest[:-5], int.from_bytes(rest[-4:], "big")
    else:
        value = 0
    path, index = (rest, 0) if op == 1 else (rest[:-1], rest[-1] if rest else 0)
    if not 1 <= len(path) <= 16 or 0 in path or (op != 1 and index == 0):
        return 11, None
    return 0, (op, path, index, value)


def written(op, path, index, value):
    if op > 5:
        return 10, b""
    empty = [path == b"", index == 0, value == 0]
    good = 1 <= len(path) <= 16 and 0 not in path
    allowed = {0: all(empty), 1: good and empty[1] and empty[2]}.get(op, good and not empty[1] and (op > 3 or empty[2]))
    if not allowed:
        return 11, b""
    d = bytes([0xB4, op]) + path + (bytes([index]) if op > 1 else b"") + (b"\0" + value.to_bytes(4, "big") if op > 3 else b"")
    return 0, d


# 01, The tree. A node: parent, name. A property: node, type, min, max, attribute, format, label, texts, word, ready.
class Tree:
    def __init__(self, nodes, properties):
        self.nodes, self.properties = nodes, properties
        self.cells = [[p[8], p[9]] for p in properties]

    def children(self, n):
        return [i for i, (parent, _) in enumerate(self.nodes) if i > 0 and parent == n]

    def owned(self, n):
        return [i for i, p in enumerate(self.properties) if p[0] == n]

    def find(self, path):
        if path[0] != 1:
            return None
        n = 0
        for b in path[1:]:
            if b > len(self.children(n)):
                return None
            n = self.children(n)[b - 1]
        return n

    # 02, section 7: how long the shortest front part of a path is that no node has.
    def missing(self, path):
        return min(k for k in range(1, len(path) + 1) if self.find(path[:k]) is None)

    def form(self):
        out, at = bytes([len(self.nodes), len(self.properties)]), 2 + 3 * len(self.nodes) + 16 * len(self.properties)
        texts = b""
        for parent, name in self.nodes:
            out += bytes([parent]) + (at + len(texts)).to_bytes(2, "big")
            texts += name + b"\0"
        for node, kind, least, most, attribute, fmt, label, options, _, _ in self.properties:
            out += bytes([node, kind]) + least.to_bytes(4, "big") + most.to_bytes(4, "big") + attribute.to_bytes(2, "big")
            out += fmt.to_bytes(2, "big") + (at + len(texts)).to_bytes(2, "big")
            texts += b"".join(t + b"\0" for t in [label] + options)
        return out + texts

    def cell_bytes(self):
        return b"".join(w.to_bytes(4, "big") + bytes([r]) for w, r in self.cells)


def signed(x, fmt):
    return x - 2**32 if fmt >> 15 and x >> 31 else x


# The range rule: whether a property's word is signed, which number it is, and whether a number lies in the range.
def is_signed(p):
    return p[1] == 1 and p[5] >> 15 == 1


def number_of(p, word):
    return signed(word, p[5]) if is_signed(p) else word


def in_range(p, number):
    if p[1] == 1 and p[2] == p[3] == 0:
        return -(2**31) <= number < 2**31 if is_signed(p) else 0 <= number < 2**32
    return number_of(p, p[2]) <= number <= number_of(p, p[3])


# 02, section 6: what the step codes mean. One that means nothing breaks the tree, in type 1 alone: type 2 has no step.
STEPS = [1, 2, 5, 10, 20, 50, 100, 200, 500, 1000, 2000, 5000]


def is_stepped(p):
    return p[1] != 1 or p[5] >> 8 & 15 < len(STEPS)


def is_broken(tree):
    return not all(map(is_stepped, tree.properties))


# Whether a number is so many whole steps from min, which is 0 where there is no range.
def on_step(p, number):
    return p[1] != 1 or (number - number_of(p, p[2])) % STEPS[p[5] >> 8 & 15] == 0


def may_hold(p, number):
    return in_range(p, number) and on_step(p, number)


def serve(tree, host, d):
    if is_broken(tree):
        return 1, b""
    if size(d):
        return size(d), b""
    if not host:
        return 9, b"\x57"
    number, asked = request(d)
    if number:
        return number, b"\x59" if number == 10 else b"\x54"
    op, path, index, value = asked
    if op == 0:
        return 0, b"\x55"
    n = tree.find(path)
    if n is None:
        return 15, b"\x54"
    if op > 1 and index > len(tree.owned(n)):
        return 16, b"\x54"
    if op == 1:
        return 0, d + bytes([len(tree.children(n)), len(tree.owned(n))]) + tree.nodes[n][1] + b"\0"
    place = tree.owned(n)[index - 1]
    p, cell = tree.properties[place], tree.cells[place]
    _, kind, least, most, attribute, fmt, label, options, _, _ = p
    reads, writes, live = attribute & 1, attribute & 2, attribute & 0x2000
    if op == 2:
        numbers = bytes([kind]) + least.to_bytes(4, "big") + most.to_bytes(4, "big") + attribute.to_bytes(2, "big") + fmt.to_bytes(2, "big")
        return 0, d + numbers + b"".join(t + b"\0" for t in [label] + options)
    if op == 3:
        # 003, 5.4: status 01 is OK.
        return (0, d + b"\x01" + cell[0].to_bytes(4, "big")) if reads and (not live or cell[1]) else (12, b"\x58")
    if not writes:
        number, save, text = 13, 0, b"Read only"
    elif not reads:
        number, save, text = 0, 2, b""
    elif not in_range(p, number_of(p, value)):
        number, save, text = 13, 0, b"Range"
    elif not on_step(p, number_of(p, value)):
        number, save, text = 13, 0, b"Step"
    else:
        cell[0] = value
        number, save, text = 0, 1, b""
    return number, d + bytes([save]) + (text + b"\0" if op == 5 else b"")


# What is told beside the number and the reply: the place of an action to be taken, or 255; the length that 15 tells, or 0.
NOTHING = bytes([255, 0])


def told(tree, d, number, reply):
    if number not in (0, 15):
        return NOTHING
    op, path, index, _ = request(d)[1]
    if number == 15:
        return bytes([255, tree.missing(path)])
    taken = op in (4, 5) and reply[len(d)] == 2
    return bytes([tree.owned(tree.find(path))[index - 1], 0]) if taken else NOTHING


# 01, Bench tree and its cases.
def bench():
    probe = lambda name, word, ready: (1, 1, 0, 0, 0x2001, 0x8002, name, [b"C"], word, ready)
    return Tree(
        [(0, b"Box"), (0, b"Live"), (0, b"Setup")],
        [probe(b"Probe 1", 2100, 1), probe(b"Probe 2", 8500, 0), (2, 1, 1, 64, 3, 0, b"Average", [b""], 4, 0),
         (2, 2, 0, 1, 3, 0x1080, b"Rate", [b"Slow", b"Fast"], 0, 0), (2, 1, 0, 0, 2, 0, b"Restart", [b""], 0, 0)],
    )


# 02, section 1: the lines of a node, of its properties, and of all below it.
def listing(tree, node=0, path=b"1"):
    owned, below = tree.owned(node), tree.children(node)
    out = b"path=%b\nname=%b\nchildren=%d\nproperties=%d\n" % (path, tree.nodes[node][1], len(below), len(owned))
    for index, place in enumerate(owned, 1):
        kind, label = tree.properties[place][1], tree.properties[place][6]
        out += b"path=%b\nindex=%d\nlabel=%b\ntype=%d\n" % (path, index, label, kind)
    for number, child in enumerate(below, 1):
        out += listing(tree, child, b"%b.%d" % (path, number))
    return out


# 02, section 3. A setting: place, property.
def settings(tree):
    return [(place, p) for place, p in enumerate(tree.properties) if p[4] & 3 == 3]


def is_writable(tree):
    labels = [p[6] for _, p in settings(tree)]
    return len(set(labels)) == len(labels) and not any(b"=" in label for label in labels)


# The records that a frame is received into: no two bytes in a row are alike.
RECORDS = bytes((37 * k + 11) % 256 for k in range(60))


def indicator(p, word, ready):
    """02, section 5: what a probe sends."""
    code = p[5] % 8
    value = number_of(p, word) * (1 if code == 7 else 10)
    if not ready:
        return bytes([0, 0, 0, code])
    if not -(1 << 23) <= value < 1 << 23:
        return bytes([0, 0, 0, 0xC0 | code])
    return (value % (1 << 24)).to_bytes(3, "little") + bytes([0x80 | code])


def bus_identifier(base, sub, kind):
    """000, 4.2; 0 where there is none."""
    stations = [(b, s) for b in range(1, 9) for s in range(1, 6)]
    if (base, sub) not in stations or kind not in range(2, 10):
        return 0
    return 0x15550001 + (kind << 8) + stations.index((base, sub))


def bus_data(tree, kind):
    """000, 4.3: the eight bytes of a type."""
    probes = [indicator(p, *cell) for p, cell in zip(tree.properties, tree.cells) if p[4] & 0x2000]
    sent = (probes + [bytes(4)] * 15)[:15] + [bytes(4)]
    return sent[2 * kind - 4] + sent[2 * kind - 3]


def bus_receive(records, base, sub, received, data):
    """The number, the records afterwards and the mask of the usable ones."""
    kinds = [kind for kind in range(2, 10) if received and bus_identifier(base, sub, kind) == received]
    if len(records) != 60 or not kinds or len(data) != 8:
        return 1 if len(records) != 60 else 20 if kinds else 19, records, 0
    usable = 0
    for place in range(2 * kinds[0] - 4, min(2 * kinds[0] - 2, 15)):
        four = data[4 * (place % 2) :][:4]
        records = records[: 4 * place] + four + records[4 * place + 4 :]
        usable += (four[3] & 0xC0 == 0x80) << place
    return 0, records, usable


def taken_apart(four):
    """000, 4.10: value as a word, status, format."""
    return int.from_bytes(four[:3], "little", signed=True).to_bytes(4, "big", signed=True) + bytes([four[3] & 0xF8, four[3] & 7])


def sheet(tree):
    """The number and the sheet: 1, 17, 18 or 0."""
    if is_broken(tree):
        return 1, b""
    numbers = [number_of(p, tree.cells[place][0]) for place, p in settings(tree)]
    if not is_writable(tree):
        return 17, b""
    if not all(may_hold(p, number) for (_, p), number in zip(settings(tree), numbers)):
        return 18, b""
    return 0, b"".join(b"%b=%d\n" % (p[6], number) for (_, p), number in zip(settings(tree), numbers))


def load(tree, text):
    """The number of a sheet that is read: 1, 17, 18 or 0. With 0 the cells have its numbers."""
    if is_broken(tree):
        return 1
    line = lambda p: re.escape(p[6]) + (b"=(0|-?[1-9][0-9]*)\n" if is_signed(p) else b"=(0|[1-9][0-9]*)\n")
    found = re.fullmatch(b"".join(line(p) for _, p in settings(tree)), text)
    if not is_writable(tree) or found is None:
        return 17
    numbers = [int(number) for number in found.groups()]
    if not all(may_hold(p, number) for (_, p), number in zip(settings(tree), numbers)):
        return 18
    for (place, _), number in zip(settings(tree), numbers):
        tree.cells[place][0] = number % 2**32
    return 0


# Signed settings, with and without a range; one of type 2 whose format has bit 15; a probe and an action whose labels a setting
# could not have.
def cold():
    return Tree(
        [(0, b"Cold")],
        [(0, 1, 0, 0, 3, 0x8001, b"Offset", [b"C"], 2**32 - 5, 0), (0, 1, 2**32 - 40, 125, 3, 0x8000, b"Alarm", [b"C"], 2**32 - 40, 0),
         (0, 1, 0, 0, 0x2001, 0x8000, b"Alarm", [b"C"], 77, 1), (0, 1, 1, 64, 3, 0x8000, b"", [b""], 64, 0),
         (0, 1, 0, 0, 2, 0, b"Reset=all", [b""], 9, 0), (0, 2, 0, 1, 3, 0x9080, b"Mode", [b"a", b"b"], 1, 1),
         (0, 1, 0, 0, 3, 0, b"Serial", [b""], 2**32 - 1, 0)],
    )


# 02, section 5: probes at and beyond 24 bits, signed and not, with a setting between them: the least value that ten times fits, a raw one
# that is one too low, an unsigned word that would be negative, and a word of type 2, which has no sign whatever its format.
def extremes():
    probe = lambda word, kind, form, options: (0, kind, 0, len(options) - 1, 0x2001, form, b"", options, word, 1)
    return Tree(
        [(0, b"")],
        [probe(2**32 - 838860, 1, 0x8000, [b""]), (0, 1, 0, 9, 3, 0, b"", [b""], 1, 0), probe(2**32 - 8388609, 1, 0x8007, [b""]),
         probe(2**31, 1, 0x0003, [b""]), probe(2**32 - 1, 2, 0x8007, [b"a", b"b"])],
    )


# The bench tree, Rate with another label, Average with another word.
def altered(label=b"Rate", word=4):
    tree = bench()
    tree.properties[3] = (*tree.properties[3][:6], label, *tree.properties[3][7:])
    tree.cells[2][0] = word
    return tree


# 01, Wrong builds: a setting with min and max 0, of type 1 and of type 2, and one that is signed.
def limits():
    return Tree([(0, b"Box")], [(0, 1, 0, 0, 3, 0, b"Free", [b""], 0, 0), (0, 2, 0, 0, 3, 0, b"One", [b"Only"], 0, 0),
                                (0, 1, 0xFFFFFFFE, 2, 3, 0x8000, b"Signed", [b""], 0, 0)])


# 003, section 5: as much of PENKO's 1020 as its examples name, each at the path that is printed there.
def penko():
    nodes = [(0, b"1020")]

    def add(parent, count):
        nodes.extend((parent, b"") for _ in range(count))
        return list(range(len(nodes) - count, len(nodes)))

    top = add(0, 6)
    live, setup, control = add(top[0], 10), add(top[2], 10), add(top[5], 1)
    nodes[live[9]] = (top[0], b"Totals")
    add(live[9], 4)
    indicator = add(live[2], 2)
    calibration = add(setup[1], 2)
    weight = add(calibration[1], 1)
    points = add(weight[0], 3)
    output, settings, zero = add(setup[4], 1), add(setup[9], 1), add(control[0], 1)
    flag = lambda word: (indicator[1], 1, 0, 0, 0x2001, 0, b"", [b""], word, 1)
    properties = [
        (live[9], 1, 0, 0, 3, 0, b"", [b""], 0, 0),
        (indicator[0], 1, 0, 0, 0x2001, 0xC003, b"Weigher", [b"Kg"], 0x33C, 1),
        *[flag(0)] * 8, flag(1),
        (settings[0], 2, 0, 1, 3, 0x1080, b"Layout", [b"Ticket", b"Line"], 0, 0),
        (output[0], 1, 0, 0, 3, 0, b"Setpoint", [b""], 0, 0),
        (zero[0], 1, 0, 0, 2, 0, b"Set", [b""], 0, 0),
        (zero[0], 1, 0, 0, 2, 0, b"Reset", [b""], 0, 0),
        (points[2], 1, 0, 99999, 3, 0, b"Add", [b""], 0, 0),
    ]
    return Tree(nodes, properties)


# 02, section 6: a tree of one property, "A".
def single(kind, least, most, attribute, fmt, word=0):
    options = [b""] * (most + 1 if kind == 2 else 1)
    return Tree([(0, b"")], [(0, kind, least % 2**32, most % 2**32, attribute, fmt, b"A", options, word % 2**32, 1)])


# Two settings in steps of 5, 0 to 20 and 1 to 21.
def pair():
    setting = lambda label, least, word: (0, 1, least, least + 20, 3, 0x0200, label, [b""], word, 0)
    return Tree([(0, b"")], [setting(b"A", 0, 10), setting(b"B", 1, 11)])


# -7 to 7 in steps of 5: -7, -2, 3. 1 to 64 in steps of 10: 1, 11, .. 61. No range, in steps of 5, signed and not. The widest range, an
# action, a property with read alone and a live one, in steps of 5000. Type 2 with codes for 5 and for nothing.
STEPPED = {
    "gap": lambda word=3: single(1, -7, 7, 3, 0x8200, word),
    "rise": lambda word=61: single(1, 1, 64, 3, 0x0300, word),
    "offset": lambda word=-10: single(1, 0, 0, 3, 0x8200, word),
    "total": lambda word=2**32 - 1: single(1, 0, 0, 3, 0x0200, word),
    "widest": lambda: single(1, -(2**31), 2**31 - 1, 3, 0x8B00),
    "go": lambda: single(1, 0, 10000, 2, 0x0B00),
    "meter": lambda: single(1, 0, 10000, 1, 0x0B00, 7),
    "level": lambda: single(1, 0, 0, 0x2001, 0x8B00, 5000),
    "mode_2": lambda: single(2, 0, 3, 3, 0x0280),
    "mode_12": lambda: single(2, 0, 3, 3, 0x0C80),
    "mode_15": lambda: single(2, 0, 3, 3, 0x8F80),
    "rise_stored": lambda: STEPPED["rise"](4),
}

# Properties of type 1 with each step code.
SORTS = {"setting": 3, "live": 0x2001, "action": 2, "read alone": 1}
CODED = {
    f"{sort} {code}": lambda attribute=attribute, code=code: single(1, 0, 0, attribute, code << 8)
    for sort, attribute in SORTS.items() for code in range(16)
}


# 02, section 7: nodes as in the bench tree, without properties; and sixteen nodes, each below the one before.
def nodes():
    return Tree([(0, b"")] * 3, [])


def chain():
    return Tree([(max(place - 1, 0), b"") for place in range(16)], [])


def to_single(op, value):
    """A write to the one property."""
    return bytes([0xB4, op, 1, 1, 0]) + (value % 2**32).to_bytes(4, "big")


READ_SINGLE = H("B4030101")


PING = frame(0, H("B400"))
LONG_STRING = b"\x10\x02" + bytes(296) + b"\x10\x03"
# Its data holds 10 02, and what stands behind that, up to the end of the frame, is a good content too: that of PING.
FALSE_FRAME = frame(0, H("EE100200B400"))

CASES = [
    # 01, Bench tree and its cases: the three that are not marked.
    ("01/address 10h", "write_frame", 0x10, H("B400")),
    ("01/10 02 10 03", "read_frame", 0, H("10021003")),
    ("01/10 02 00 10 10 03", "read_frame", 0, H("100200101003")),
    ("01/10 02 10 03 fed", "feed", 0, H("10021003")),
    # 01, Wrong builds.
    ("wrong/10 10 03 in data", "feed", 0, frame(0, H("B4011003"))),
    ("wrong/10 10 03 in data", "read_frame", 0, frame(0, H("B4011003"))),
    ("wrong/sum of doubled", "write_frame", 0, H("10101010")),
    ("wrong/checksum 10h", "write_frame", 0x3B, H("B400")),
    ("wrong/checksum 10h", "read_frame", 0x3B, H("10023BB40010101003")),
    ("wrong/checksum 10h", "read_frame", 0x3B, H("10023BB400101003")),
    ("wrong/last zero", "data", H("B4040102030000000000")),
    ("wrong/last zero", "data", H("B4040102020000000000")),
    ("wrong/0 to 0", "limits", H("B40401010000000005")),
    ("wrong/0 to 0, listed", "limits", H("B40401020000000001")),
    ("wrong/signed", "limits", H("B404010300FFFFFFFF")),
    ("wrong/signed", "limits", H("B40501030000000003")),
    ("wrong/old word", "data", H("B4040101020000000001")),
    ("wrong/4 stays", "twice", H("B4040102010000000041"), H("B403010201")),
    ("wrong/40h stored", "twice", H("B4040102010000000040"), H("B403010201")),
    # 01, Frames and the stream: every number of each call.
    ("write_frame/8", "write_frame_no_room", 0, H("B400")),
    ("write_frame/4", "write_frame", 0, b""),
    ("write_frame/5", "write_frame", 0, bytes(257)),
    ("read_frame/0", "read_frame", 0, PING),
    ("read_frame/8", "read_frame_no_room", 0, b""),
    ("read_frame/2", "read_frame", 0, H("10")),
    ("read_frame/3", "read_frame", 0, PING + b"\0"),
    ("read_frame/4", "read_frame", 0, H("100200FF1003")),
    ("read_frame/5", "read_frame", 0, LONG_STRING),
    ("read_frame/6", "read_frame", 0, H("100200B4004C1003")),
    ("read_frame/7", "read_frame", 1, PING),
    ("datagram/0", "datagram", H("00000000B400")),
    ("datagram/2", "datagram", H("000000")),
    ("datagram/2", "datagram", H("00000100B400")),
    ("datagram/4", "datagram", H("00000000")),
    ("datagram/5", "datagram", bytes(261)),
    ("write_datagram/0", "write_datagram", H("55")),
    ("write_datagram/0 of 256", "write_datagram", b"\x10" * 256),
    ("write_datagram/8", "write_datagram_no_room", b""),
    ("write_datagram/4", "write_datagram", b""),
    ("write_datagram/5", "write_datagram", bytes(257)),
    ("feed/0", "feed", 0, H("FF") + PING),
    ("feed/1", "feed_unsound", 0, PING),
    ("feed/8", "feed_no_room", 0, PING),
    ("feed/3", "feed", 0, H("1002001005")),
    ("feed/5", "feed", 0, LONG_STRING),
    ("feed/6", "feed", 0, H("100200B4004C1003")),
    ("feed/7", "feed", 1, PING),
    ("feed/255", "feed", 0, PING[:-1]),
    ("feed/afresh", "feed", 0, H("1002FFFF") + PING),
    ("feed/in two", "feed_twice", 0, PING[:-1], H("03")),
    ("feed/in two", "feed_twice", 0, H("1002001005"), PING),
    # 02, section 2: what opens a frame, and what does not.
    ("stray/one", "feed", 0, b"\x10" + PING),
    ("stray/noise and one", "feed", 0, H("FF10") + PING),
    ("stray/a run", "feed", 0, b"\x10" * 5 + PING),
    ("stray/cut behind the first", "feed_twice", 0, H("10"), PING),
    ("stray/cut before 02", "feed_twice", 0, H("1010"), PING[1:]),
    ("stray/behind a frame", "feed_twice", 0, PING, H("1010") + PING),
    ("stray/10 10 00 02", "feed", 0, H("101000") + PING[1:]),
    ("stray/10 10 03", "feed_twice", 0, H("101003"), PING),
    ("stray/10 10 02 inside", "feed", 0, frame(0, H("1002"))),
    ("stray/259th byte", "feed_twice", 0, b"\x10\x02" + bytes(258) + H("1010"), PING[1:]),
    ("stray/the rest of a dropped frame", "feed_twice", 0, H("1002001005"), FALSE_FRAME[3:]),
    ("stray/a whole string", "read_frame", 0, b"\x10" + PING),
    ("stray/a whole string", "serial", 0, b"\x10" + PING),
    # 01, Requests: read and written out.
    ("read_serial/0", "read_serial", 0, PING),
    ("read_serial/0", "read_serial", 7, frame(7, H("B40501100200FFFF0001"))),
    ("read_serial/2", "read_serial", 0, b""),
    ("read_serial/3", "read_serial", 0, H("100200101003")),
    ("read_serial/4", "read_serial", 0, H("10021003")),
    ("read_serial/5", "read_serial", 0, LONG_STRING),
    ("read_serial/6", "read_serial", 0, H("100200B4004C1003")),
    ("read_serial/7", "read_serial", 1, PING),
    ("read_serial/10", "read_serial", 0, frame(0, H("B406"))),
    ("read_serial/11", "read_serial", 0, frame(0, H("B4010100"))),
    ("read_udp/0", "read_udp", bytes(4) + H("B403010101")),
    ("read_udp/2", "read_udp", H("000000")),
    ("read_udp/4", "read_udp", bytes(4)),
    ("read_udp/5", "read_udp", bytes(261)),
    ("read_udp/10", "read_udp", bytes(5)),
    ("read_udp/11", "read_udp", bytes(4) + H("B4")),
    ("write_serial/0", "write_serial", 0x10, 4, H("0110"), 16, 0x10000010),
    ("write_serial/8", "write_serial_no_room", 0, 9, b"", 0, 0),
    ("write_serial/10", "write_serial", 0, 6, b"", 0, 0),
    ("write_serial/11", "write_serial", 0, 1, H("0100"), 0, 0),
    ("write_udp/0", "write_udp", 3, H("0101"), 1, 0),
    ("write_udp/8", "write_udp_no_room", 9, b"", 0, 0),
    ("write_udp/10", "write_udp", 6, b"", 0, 0),
    ("write_udp/11", "write_udp", 3, H("0101"), 1, 5),
    # 01, Serving: every number of each transport.
    ("serve_data/0", "data", H("B400")),
    ("serve_data/0 op 1", "data", H("B40101")),
    ("serve_data/0 op 2", "data", H("B402010202")),
    ("serve_data/0 op 3", "data", H("B403010101")),
    ("serve_data/0 op 5", "data", H("B4050102020000000001")),
    ("serve_data/1", "data_unsound", H("B400")),
    ("serve_data/8", "data_no_room", H("B400")),
    ("serve_data/4", "data", b""),
    ("serve_data/5", "data", bytes(257)),
    ("serve_data/9", "data_off", H("FF")),
    ("serve_data/10", "data", H("B406")),
    ("serve_data/11", "data", H("B40401020100000000")),
    ("serve_data/15", "data", H("B403010301")),
    ("serve_data/16", "nodes", H("B4030101")),
    ("serve_data/12", "data", H("B403010102")),
    ("serve_data/12 action", "data", H("B403010203")),
    ("serve_data/13", "data", H("B4050101010000000000")),
    ("serve_data/13 range", "data", H("B4050102010000000000")),
    ("serve_serial/0", "serial", 0, frame(0, H("B402010202"))),
    ("serve_serial/0", "serial", 0x10, frame(0x10, H("B400"))),
    ("serve_serial/1", "serial_unsound", 0, PING),
    ("serve_serial/8", "serial_no_room", 0, PING),
    ("serve_serial/2", "serial", 0, H("B400")),
    ("serve_serial/3", "serial", 0, H("100200101003")),
    ("serve_serial/4", "serial", 0, H("10021003")),
    ("serve_serial/5", "serial", 0, LONG_STRING),
    ("serve_serial/6", "serial", 0, H("100200B4004C1003")),
    ("serve_serial/7", "serial", 1, PING),
    ("serve_serial/9", "serial_off", 0, PING),
    ("serve_serial/10", "serial", 0, frame(0, H("FF"))),
    ("serve_serial/11", "serial", 0, frame(0, H("B4"))),
    ("serve_serial/15", "serial_nodes", 0x10, frame(0x10, H("B4010103"))),
    ("serve_serial/16", "serial_nodes", 0, frame(0, H("B402010201"))),
    ("serve_serial/12", "serial", 0, frame(0, H("B403010102"))),
    ("serve_serial/13", "serial", 0, frame(0, H("B4040102010000000041"))),
    ("serve_udp/0", "udp", bytes(4) + H("B403010101")),
    ("serve_udp/1", "udp_unsound", bytes(4) + H("B400")),
    ("serve_udp/8", "udp_no_room", bytes(4) + H("B400")),
    ("serve_udp/2", "udp", H("000000")),
    ("serve_udp/4", "udp", bytes(4)),
    ("serve_udp/5", "udp", bytes(261)),
    ("serve_udp/9", "udp_off", bytes(4) + H("B400")),
    ("serve_udp/10", "udp", bytes(4) + H("B4FF01")),
    ("serve_udp/11", "udp_nodes", bytes(4) + H("B4010200")),
    ("serve_udp/15", "udp", bytes(4) + H("B40102")),
    ("serve_udp/16", "udp_nodes", bytes(4) + H("B403010102")),
    ("serve_udp/12", "udp", bytes(4) + H("B403010102")),
    ("serve_udp/13", "udp", bytes(4) + H("B4050101010000000000")),
    ("post/0", "post", 1, 2150, 1),
    ("post/0 not ready", "post", 0, 8500, 0),
    ("post/1", "post_unsound", 1, 2150, 1),
    ("post/14 no cell", "post", 5, 1, 1),
    ("post/14 not live", "post", 2, 1, 1),
    # House: cells restored, and a reading asked for by place.
    ("restore/0", "restore", H("B403010101")),
    ("restore/0 setting", "restore", H("B403010201")),
    ("restore/1", "restore_unsound"),
    ("reading/0", "reading", 0),
    ("reading/0 setting", "reading", 2),
    ("reading/12", "reading", 1),
    ("reading/12 action", "reading", 4),
    # 02, section 1: listings, with just the room that they take and with a byte less.
    ("list/0", "list"),
    ("list/0 1020", "list_penko"),
    ("list/1", "list_unsound"),
    ("list/8", "list_no_room"),
    # 02, section 5: frames sent and received, and indicators asked for.
    ("bus/0", "bus_send", 1, 2, 2),
    ("bus/0 no probes", "bus_send", 8, 5, 8),
    ("bus/0 type 9", "bus_send", 3, 1, 9),
    ("bus/0 signed, raw, beyond", "bus_send_extremes", 2, 5, 2),
    ("bus/0 unsigned, beyond", "bus_send_extremes", 2, 5, 3),
    ("bus/1", "bus_send_unsound", 9, 2, 2),
    ("bus/8 before 19", "bus_send_no_room", 9, 2, 2),
    ("bus/19 base 9", "bus_send", 9, 2, 2),
    ("bus/19 8-6", "bus_send", 8, 6, 9),
    ("bus/19 type 1", "bus_send", 1, 2, 1),
    ("bus/19 type 10", "bus_send", 1, 2, 10),
    ("receive/0", "bus_receive", 1, 2, 0x15550202, bytes.fromhex("0852008200000002")),
    ("receive/0 ERROR, and all status bits", "bus_receive", 2, 4, 0x15550809, bytes.fromhex("000080C0FFFFFFBF")),
    ("receive/0 type 9", "bus_receive", 8, 5, 0x15550928, bytes.fromhex("FFFF7F8FFFFFFF8F")),
    ("receive/1", "bus_receive_unsound", 1, 2, 0x15550202, bytes(7)),
    ("receive/19 another station", "bus_receive", 1, 3, 0x15550202, bytes(7)),
    ("receive/19 type 1", "bus_receive", 1, 2, 0x15550102, bytes(8)),
    ("receive/19 a bit above", "bus_receive", 1, 2, 0x35550202, bytes(8)),
    ("receive/20", "bus_receive", 1, 2, 0x15550202, bytes(9)),
    ("ask/0", "bus_ask", 1),
    ("ask/0 the last", "bus_ask", 15),
    ("ask/1", "bus_ask_unsound", 16),
    ("ask/19 0", "bus_ask", 0),
    ("ask/19 16", "bus_ask", 16),
    # 02, section 3: sheets, with just the room that they take and with a byte less.
    ("sheet/0", "sheet"),
    ("sheet/0 signed", "sheet_cold"),
    ("sheet/1", "sheet_unsound"),
    ("sheet/17 = in a label", "sheet_equals"),
    ("sheet/17 equal labels before 18", "sheet_same"),
    ("sheet/18", "sheet_outside"),
    ("sheet/8", "sheet_no_room"),
    ("load/0", "load", b"Average=64\nRate=1\n"),
    ("load/0 over a word out of range", "load_outside", b"Average=1\nRate=0\n"),
    ("load/0 written again", "load_cold_back", b"Offset=-2147483648\nAlarm=0\n=1\nMode=0\nSerial=10\n"),
    ("load/1", "load_unsound", b"Average=64\nRate=1\n"),
    ("load/17 no last 0Ah", "load", b"Average=64\nRate=1"),
    ("load/17 another order", "load", b"Rate=1\nAverage=64\n"),
    ("load/17 an action's line", "load", b"Average=64\nRate=1\nRestart=0\n"),
    ("load/17 a minus, unsigned", "load", b"Average=-5\nRate=1\n"),
    ("load/17 a minus, type 2", "load_cold", b"Offset=0\nAlarm=0\n=1\nMode=-1\nSerial=0\n"),
    ("load/17 -0 behind an 18", "load_cold", b"Offset=0\nAlarm=126\n=-0\nMode=1\nSerial=0\n"),
    ("load/17 the tree's labels", "load_equals", b"Average=64\nRate=1=1\n"),
    ("load/18 -5 of 1 to 64", "load_cold", b"Offset=0\nAlarm=0\n=-5\nMode=1\nSerial=0\n"),
    ("load/18 2147483648", "load_cold", b"Offset=2147483648\nAlarm=0\n=1\nMode=1\nSerial=0\n"),
    ("load/18 2^32", "load_cold", b"Offset=0\nAlarm=0\n=1\nMode=1\nSerial=4294967296\n"),
    ("load/18 2^32 + 4", "load", b"Average=4294967300\nRate=1\n"),
    # 02, section 4: sums that wrap; and checksums of sums taken in a wrong way, which are refused.
    ("sum/255", "write_frame", 0xFF, H("00")),
    ("sum/256", "write_frame", 0xFF, H("01")),
    ("sum/256 of 10h", "write_frame", 0x10, b"\x10" * 15),
    ("sum/FFFFh", "write_frame", 0xFF, b"\xFF" * 256),
    ("sum/FFFFh", "read_frame", 0xFF, frame(0xFF, b"\xFF" * 256)),
    ("sum/FFFFh", "feed", 0xFF, frame(0xFF, b"\xFF" * 256)),
    ("sum/6 begun after the address", "read_frame", 1, H("100201B4004B1003")),
    ("sum/6 begun after the address", "feed", 1, H("100201B4004B1003")),
    ("sum/6 10h added twice", "read_frame", 0, H("1002001010DF1003")),
    ("sum/6 10h added twice", "feed", 0, H("1002001010DF1003")),
    ("sum/6 saturated", "read_frame", 0xFF, H("1002FF01001003")),
    ("sum/6 saturated", "feed", 0xFF, H("1002FF01001003")),
    ("sum/6 end-around carry", "read_frame", 0xFF, H("1002FF01FE1003")),
    ("sum/6 not taken from 255", "read_frame", 0, H("100200B400B41003")),
    # 02, section 6: steps at both ends of a range and across 0, from 0 where there is no range, signed and not; each code; sheets.
    ("step/0 min", "gap", to_single(5, -7)),
    ("step/0 across 0", "gap", to_single(5, -2), READ_SINGLE),
    ("step/0 the last multiple", "gap", to_single(5, 3)),
    ("step/13 a multiple from 0, not from min", "gap", to_single(5, 0)),
    ("step/13 max", "gap", to_single(5, 7)),
    ("step/13 op 4, the word stays", "gap", to_single(4, 7), READ_SINGLE),
    ("step/13 Range, a multiple", "gap", to_single(5, 8)),
    ("step/13 Range before Step", "gap", to_single(5, 9)),
    ("step/13 Range below min", "gap", to_single(5, -12)),
    ("step/0 from 1, the last multiple", "rise", to_single(4, 61)),
    ("step/13 from 1, beside it", "rise", to_single(5, 60)),
    ("step/13 from 1, max", "rise", to_single(5, 64)),
    ("step/13 from 1, Range below min", "rise", to_single(5, 0)),
    ("step/0 FFFFFFF6h, signed", "offset", to_single(5, 0xFFFFFFF6), READ_SINGLE),
    ("step/13 FFFFFFFFh, signed", "offset", to_single(5, 0xFFFFFFFF)),
    ("step/0 80000003h, signed", "offset", to_single(4, 0x80000003)),
    ("step/13 80000000h, signed", "offset", to_single(5, 0x80000000)),
    ("step/13 FFFFFFF6h, unsigned", "total", to_single(5, 0xFFFFFFF6)),
    ("step/0 FFFFFFFFh, unsigned", "total", to_single(5, 0xFFFFFFFF)),
    ("step/0 the widest, min", "widest", to_single(4, -(2**31))),
    ("step/0 the widest, the last multiple", "widest", to_single(4, 2147481352)),
    ("step/13 the widest, max", "widest", to_single(5, 2**31 - 1)),
    ("step/13 the widest, 0", "widest", to_single(5, 0)),
    ("step/0 an action", "go", to_single(5, 7)),
    ("step/0 an action beyond its range", "go", to_single(5, 10007)),
    ("step/13 Read only before Step", "meter", to_single(5, 7)),
    ("step/0 a stored word off its step", "meter", READ_SINGLE),
    ("step/0 a setting's word off its step", "rise_stored", READ_SINGLE),
    ("step/0 a posting off its step", "post_level", 0, 7, 1),
    ("step/0 type 2, code 2", "mode_2", to_single(5, 3)),
    ("step/13 type 2, Range", "mode_2", to_single(5, 5)),
    ("step/0 type 2, code 12", "mode_12", to_single(5, 3)),
    ("step/0 type 2, code 15", "mode_15", to_single(5, 3)),
    *[(f"step/0 code {code}", f"setting {code}", to_single(5, step)) for code, step in enumerate(STEPS)],
    *[(f"step/13 code {code}", f"setting {code}", to_single(5, step - 1)) for code, step in enumerate(STEPS) if code],
    *[(f"step/1 code {code}, {sort}", f"{sort} {code}", H("B400")) for sort in SORTS for code in range(12, 16)],
    ("step/0 code 11, live", "live 11", H("B400")),
    ("step/sheet/0", "sheet_gap"),
    ("step/sheet/0 no range, signed", "sheet_offset"),
    ("step/sheet/0 type 2, code 12", "sheet_mode_12"),
    ("step/sheet/1 code 12, read alone", "sheet_read alone 12"),
    ("step/sheet/18 max", "sheet_gap 7"),
    ("step/sheet/18 a multiple from 0, not from min", "sheet_gap 0"),
    ("step/sheet/18 FFFFFFF6h, unsigned", "sheet_total -10"),
    ("step/load/0", "load_gap", b"A=-2\n"),
    ("step/load/0 over a word off its step", "load_gap 7", b"A=-7\n"),
    ("step/load/0 no range, signed", "load_offset", b"A=-2147483645\n"),
    ("step/load/0 type 2, code 12", "load_mode_12", b"A=3\n"),
    ("step/load/1 code 15, action", "load_action 15", b""),
    ("step/load/18 max", "load_gap", b"A=7\n"),
    ("step/load/18 a multiple from 0, not from min", "load_gap", b"A=0\n"),
    ("step/load/18 a multiple out of range", "load_gap", b"A=8\n"),
    ("step/load/18 FFFFFFF6h, unsigned", "load_total", b"A=4294967286\n"),
    ("step/load/0 both", "load_pair", b"A=20\nB=21\n"),
    ("step/load/18 the second, none stored", "load_pair", b"A=20\nB=20\n"),
    ("step/load/17 behind an 18", "load_pair", b"A=7\nB=021\n"),
    # 02, section 7: what is told of the path by every op and transport, and with every other number.
    ("path/15 first number", "told", H("B40102")),
    ("path/15 second of four", "told", H("B40101030507")),
    ("path/15 third of four", "told", H("B40101010101")),
    ("path/15 op 2", "told", H("B402010301")),
    ("path/15 op 3", "told", H("B40301FFFF")),
    ("path/15 op 4", "told", H("B404010201010000000000")),
    ("path/15 op 5", "told", H("B405020100" "00000000")),
    ("path/15 serial", "told_serial", 0x10, frame(0x10, H("B40301020101"))),
    ("path/15 UDP", "told_udp", bytes(4) + H("B40301020101")),
    ("path/15 sixteenth", "told_chain", H("B401") + b"\1" * 15 + b"\2"),
    ("path/11 of seventeen", "told", H("B401") + b"\2" * 17),
    ("path/16 op 2", "told", H("B4020101")),
    ("path/16 op 3", "told", H("B40301FF")),
    ("path/16 op 4", "told", H("B404010281" "0000000000")),
    ("path/16 op 5", "told", H("B40501010100" "00000000")),
    ("path/16 serial", "told_serial", 0, frame(0, H("B40301FF"))),
    ("path/16 UDP", "told_udp", bytes(4) + H("B40301FF")),
    ("path/0 action", "told_go", to_single(4, 7)),
    ("path/1", "told_unsound", H("B40102")),
    ("path/8", "told_no_room", H("B40102")),
    ("path/2", "told_udp", bytes(3) + H("B40102")),
    ("path/7", "told_serial", 1, frame(0, H("B40102"))),
    ("path/9", "told_off", H("B40102")),
    ("path/10", "told", H("B40602")),
    ("path/11", "told", H("B4030200")),
    ("path/12", "told_go", READ_SINGLE),
    ("path/13", "told_meter", to_single(4, 7)),
    # 003: the checksum of a sum of 1234h, and the examples of section 5.
    ("003/checksum", "write_frame", 0, b"\xFF" * 18 + b"\x46"),
    ("003/5.1", "penko", H("B400")),
    ("003/5.2 totals", "penko", H("B40101010A")),
    ("003/5.3 weigher", "penko", H("B4020101030101")),
    ("003/5.3 layout", "penko", H("B40201030A0101")),
    ("003/5.4 weight", "penko", H("B4030101030101")),
    ("003/5.4 tare", "penko", H("B4030101030209")),
    ("003/5.5 setpoint", "penko", H("B404010305010100" "0000012C")),
    ("003/5.5 zero", "penko", H("B404010601010100" "00000000")),
    ("003/5.5 reset zero", "penko", H("B404010601010200" "00000000")),
    ("003/5.6 zero point", "penko", H("B4050103020201030100" "00000000")),
    ("003/5.6 gain point", "penko", H("B4050103020201030100" "000186A0")),
]

# What the documents print in full; of sheets, sums, steps and paths, what they come to.
SAYS = {
    "01/address 10h": "0 10021010B4003B1003",
    "01/10 02 10 03": "4 ",
    "01/10 02 00 10 10 03": "3 ",
    "wrong/4 stays": "13 B404010201000000004100",
    "serve_data/0": "0 55",
    "serve_data/0 op 1": "0 B401010200426F7800",
    "serve_data/0 op 2": "0 B402010202020000000000000001000310805261746500536C6F77004661737400",
    "serve_data/15": "15 54",
    "serve_data/16": "16 54",
    "serve_serial/15": "15 10021010549B1003",
    "serve_serial/16": "16 10020054AB1003",
    "serve_udp/15": "15 00000000" "54",
    "serve_udp/16": "16 00000000" "54",
    "serve_data/12": "12 58",
    "serve_data/13": "13 B405010101000000000000526561" "64206F6E6C7900",
    "sheet/0": "0 417665726167653D340A" "526174653D300A",
    "sheet/0 signed": "0 4F66667365743D2D350A" "416C61726D3D2D34300A" "3D36340A" "4D6F64653D310A" "53657269616C3D343239343936373239350A",
    "sheet/8": "8 ",
    "bus/0": "0 0852008200000002",
    "bus/19 8-6": "19 ",
    "load/0": "0 0000083401" "0000213400" "0000004000" "0000000100" "0000000000",
    "load/18 2^32 + 4": "18 0000083401" "0000213400" "0000000400" "0000000000" "0000000000",
    "sum/255": "0 1002FF00001003",
    "sum/256": "0 1002FF01FF1003",
    "step/0 min": "0 B405010100" "FFFFFFF9" "0100",
    "step/0 across 0": "0 B405010100" "FFFFFFFE" "0100",
    "step/13 max": "13 B405010100" "00000007" "00" "5374657000",
    "step/13 op 4, the word stays": "13 B404010100" "00000007" "00",
    "step/13 Range before Step": "13 B405010100" "00000009" "00" "52616E676500",
    "step/0 FFFFFFF6h, signed": "0 B405010100" "FFFFFFF6" "0100",
    "step/13 FFFFFFF6h, unsigned": "13 B405010100" "FFFFFFF6" "00" "5374657000",
    "step/0 the widest, the last multiple": "0 B404010100" "7FFFF708" "01",
    "step/0 an action": "0 B405010100" "00000007" "0200",
    "step/0 a setting's word off its step": "0 B4030101" "01" "00000004",
    "step/0 a posting off its step": "0 00000007" "01",
    "step/0 code 4": "0 B405010100" "00000014" "0100",
    "step/13 code 11": "13 B405010100" "00001387" "00" "5374657000",
    "step/1 code 12, live": "1 ",
    "step/sheet/0": "0 413D330A",
    "step/sheet/18 max": "18 ",
    "step/load/0": "0 FFFFFFFE" "01",
    "step/load/18 the second, none stored": "18 0000000A00" "0000000B00",
    "path/15 first number": "15 FF01",
    "path/15 second of four": "15 FF02",
    "path/15 third of four": "15 FF03",
    "path/15 op 2": "15 FF02",
    "path/15 op 3": "15 FF02",
    "path/15 op 4": "15 FF03",
    "path/15 op 5": "15 FF01",
    "path/15 serial": "15 FF03",
    "path/15 UDP": "15 FF03",
    "path/15 sixteenth": "15 FF10",
    "path/11 of seventeen": "11 FF00",
    "path/16 op 2": "16 FF00",
    "path/16 op 5": "16 FF00",
    "path/0 action": "0 0000",
    "path/8": "8 FF00",
    "path/9": "9 FF00",
    "path/11": "11 FF00",
    "path/12": "12 FF00",
    "path/13": "13 FF00",
    "003/checksum": "0 100200" + "FF" * 18 + "46CB1003",
    "003/5.2 totals": "0 B40101010A0401546F74616C7300",
    "003/5.3 weigher": "0 B40201010301010100000000000000002001C00357656967686572004B6700",
    "003/5.3 layout": "0 B40201030A010102000000000000000100031080" "4C61796F757400" "5469636B6574004C696E6500",
    "003/5.4 weight": "0 B4030101030101010000033C",
    "003/5.4 tare": "0 B40301010302090100000001",
    "003/5.5 setpoint": "0 B4040103050101000000012C01",
    "003/5.5 zero": "0 B4040106010101000000000002",
    "003/5.5 reset zero": "0 B4040106010102000000000002",
    "003/5.6 zero point": "0 B4050103020201030100000000000100",
}


def variant(call):
    """A call without its suffix, and which it has: too little room, cells or a state that are unsound, host functions off."""
    suffixes = ("_no_room", "_unsound", "_off")
    has = [call.endswith(s) for s in suffixes]
    return call[: -len(suffixes[has.index(True)])] if any(has) else call, *has


# Sheets written, and read: of which tree.
SHEETS = {
    "sheet": bench,
    "sheet_cold": cold,
    "sheet_equals": lambda: altered(label=b"Rate=1"),
    "sheet_same": lambda: altered(label=b"Average", word=65),
    "sheet_outside": lambda: altered(word=65),
    "sheet_gap": STEPPED["gap"],
    "sheet_gap 7": lambda: STEPPED["gap"](7),
    "sheet_gap 0": lambda: STEPPED["gap"](0),
    "sheet_offset": STEPPED["offset"],
    "sheet_total -10": lambda: STEPPED["total"](-10),
    "sheet_mode_12": STEPPED["mode_12"],
    "sheet_read alone 12": CODED["read alone 12"],
}
LOADS = {
    "load": bench,
    "load_cold": cold,
    "load_cold_back": cold,
    "load_equals": lambda: altered(label=b"Rate=1"),
    "load_outside": lambda: altered(word=65),
    "load_gap": STEPPED["gap"],
    "load_gap 7": lambda: STEPPED["gap"](7),
    "load_offset": STEPPED["offset"],
    "load_total": STEPPED["total"],
    "load_mode_12": STEPPED["mode_12"],
    "load_action 15": CODED["action 15"],
    "load_pair": pair,
}


# Frames sent, requests served (data, strings and datagrams; what is told of them), words posted: of which tree.
BUSES = {"bus_send": bench, "bus_send_extremes": extremes}
SERVED = {"data": bench, "twice": bench, "limits": limits, "penko": penko, "nodes": nodes, **STEPPED, **CODED}
CARRIED = {"serial": bench, "udp": bench, "serial_nodes": nodes, "udp_nodes": nodes}
TOLD = {
    "told": nodes,
    "told_serial": nodes,
    "told_udp": nodes,
    "told_chain": chain,
    "told_go": STEPPED["go"],
    "told_meter": STEPPED["meter"],
}
POSTS = {"post": bench, "post_level": STEPPED["level"]}


def tree_of(base):
    return {"list_penko": penko, **BUSES, **SERVED, **CARRIED, **TOLD, **POSTS, **SHEETS, **LOADS}.get(base, bench)()


def way_of(base):
    """How a request comes."""
    return "serial" if "serial" in base else "udp" if "udp" in base else "data"


def serve_by(tree, base, host, args):
    """What comes of a string or datagram, or what is told of these or of data."""
    way = way_of(base)
    number, d = string(*args) if way == "serial" else datagram(*args) if way == "udp" else (0, args[0])
    if number:
        return number, NOTHING if base in TOLD else b""
    number, reply = serve(tree, host, d)
    if base in TOLD:
        return number, told(tree, d, number, reply)
    return number, frame(args[0], reply) if way == "serial" else bytes(4) + reply


def answers(call, args):
    """Number and bytes, once or twice."""
    base, no_room, unsound, off = variant(call)
    tree = tree_of(base)
    if base in POSTS:
        place, word, ready = args
        if unsound:
            return [(1, bytes(24))]
        live = place < len(tree.properties) and tree.properties[place][4] & 0x2000
        if live:
            tree.cells[place] = [word if ready else tree.cells[place][0], ready]
        return [(0 if live else 14, tree.cell_bytes())]
    if base == "restore":
        if unsound:
            return [(1, bytes(24))]
        for p, cell in zip(tree.properties, tree.cells):
            cell[1] = 0 if p[4] & 0x2000 else cell[1]
        return [(0, tree.cell_bytes()), serve(tree, True, args[0])]
    if base == "reading":
        attribute = tree.properties[args[0]][4]
        if not attribute & 1 or attribute & 0x2000 and not tree.cells[args[0]][1]:
            return [(12, b"")]
        return [(0, tree.cells[args[0]][0].to_bytes(4, "big"))]
    if base in ("list", "list_penko"):
        number, lines = 1 if unsound else 8 if no_room else 0, b"" if unsound else listing(tree)
        return [(number, b"" if number else lines), (number, len(lines).to_bytes(4, "big"))]
    if base in SHEETS:
        number, text = (1, b"") if unsound else sheet(tree)
        number = 8 if no_room else number
        return [(number, b"" if number else text), (number, len(text).to_bytes(4, "big"))]
    if base in BUSES:
        number = 1 if unsound else 8 if no_room else 0 if bus_identifier(*args) else 19
        sent = b"" if number else bus_data(tree, args[2])
        return [(number, sent), (number, (0 if number else bus_identifier(*args)).to_bytes(4, "big"))]
    if base == "bus_receive":
        number, table, usable = bus_receive(RECORDS[: 60 - unsound], *args)
        apart = bytes(90) if unsound else b"".join(taken_apart(table[4 * k :]) for k in range(15))
        return [(number, apart), (number, table), (number, usable.to_bytes(4, "big"))]
    if base == "bus_ask":
        number = 1 if unsound else 0 if args[0] in range(1, 16) else 19
        return [(number, bytes(6) if number else taken_apart(RECORDS[4 * args[0] - 4 :]))]
    if base in LOADS:
        number, lent = (1, bytes(24)) if unsound else (load(tree, args[0]), tree.cell_bytes())
        return [(number, lent)] + [sheet(tree)] * (base == "load_cold_back")
    if no_room or unsound:
        return [(8 if no_room else 1, NOTHING if base in TOLD else b"")]
    if base in ("write_frame", "write_datagram"):
        number = size(args[-1])
        return [(number, b"" if number else frame(*args) if base == "write_frame" else bytes(4) + args[0])]
    if base == "read_frame":
        return [string(*args)]
    if base == "datagram":
        return [datagram(*args)]
    if base in ("feed", "feed_twice"):
        reader = [False, False, b""]
        return [feed(reader, args[0], bs) for bs in args[1:]]
    if base in ("read_serial", "read_udp"):
        number, d = string(*args) if base == "read_serial" else datagram(*args)
        asked = None
        if number == 0:
            number, asked = request(d)
        op, path, index, value = asked or (0, b"", 0, 0)
        return [(number, path.ljust(16, b"\0")), (op, bytes([len(path), index]) + value.to_bytes(4, "big"))]
    if base in ("write_serial", "write_udp"):
        number, d = written(*args[-4:])
        return [(number, b"" if number else frame(args[0], d) if base == "write_serial" else bytes(4) + d)]
    if base in SERVED:
        return [serve(tree, not off, d) for d in args]
    return [serve_by(tree, base, not off, args)]


def lines():
    for name, call, *args in CASES:
        titles = [title for title, _, _ in steps(name, variant(call)[0], args)]
        for k, (number, bs) in enumerate(answers(call, args)):
            says = f"{number} {bs.hex().upper()}"
            if k == 0 and name in SAYS:
                assert SAYS[name] == says, (name, says)
            yield titles[k] + ": " + says


# The cases as lines of stdin. For each call: its kind, the room that it asks for, and the numbers that its arguments are, in order;
# the argument that is bytes is the string. 520 for a call that has no output of its own; 0 for a listing or a sheet, whose room is
# its length.
CALLS = {
    "write_frame": (0x10, 520, ("address",)),
    "read_frame": (0x11, 256, ("address",)),
    "datagram": (0x12, 520, ()),
    "write_datagram": (0x13, 260, ()),
    "feed": (0x14, 256, ("address",)),
    "read_serial": (0x20, 520, ("address",)),
    "read_serial_fields": (0x21, 520, ("address",)),
    "read_udp": (0x22, 520, ()),
    "read_udp_fields": (0x23, 520, ()),
    "write_serial": (0x24, 520, ("address", "mark", "index", "value")),
    "write_udp": (0x25, 260, ("mark", "index", "value")),
    "data": (0x30, 256, ()),
    "serial": (0x31, 520, ("address",)),
    "udp": (0x32, 260, ()),
    "told": (0x33, 256, ()),
    "told_serial": (0x34, 520, ("address",)),
    "told_udp": (0x35, 260, ()),
    "post": (0x40, 520, ("index", "value", "mark")),
    "restore": (0x41, 520, ()),
    "reading": (0x42, 520, ("index",)),
    "list": (0x50, 0, ()),
    "list_length": (0x51, 0, ()),
    "sheet": (0x60, 0, ()),
    "sheet_length": (0x61, 0, ()),
    "load": (0x62, 520, ()),
    "bus_send": (0x70, 8, ("address", "mark", "index")),
    "bus_identifier": (0x71, 8, ("address", "mark", "index")),
    "bus_table": (0x72, 520, ("address", "mark", "value")),
    "bus_usable": (0x73, 520, ("address", "mark", "value")),
    "bus_receive": (0x74, 520, ("address", "mark", "value")),
    "bus_ask": (0x75, 520, ("index",)),
}


def steps(name, base, args):
    """The calls of a case, one for each line: name, call, arguments."""
    if base in ("read_serial", "read_udp"):
        return [(name, base, args), ("  op", base + "_fields", args)]
    if base in ("list", "list_penko"):
        return [(name, "list", []), ("  length", "list_length", [])]
    if base in SHEETS:
        return [(name, "sheet", []), ("  length", "sheet_length", [])]
    if base in BUSES:
        return [(name, "bus_send", args), ("  identifier", "bus_identifier", args)]
    if base == "bus_receive":
        return [(name, "bus_receive", args), ("  table", "bus_table", args), ("  usable", "bus_usable", args)]
    if base in LOADS:
        return [(name, "load", args)] + [(name, "sheet", [])] * (base == "load_cold_back")
    if base == "feed_twice":
        return [(name, "feed", [args[0], bs]) for bs in args[1:]]
    if base == "restore":
        return [(name, "restore", [])] + [(name, "data", [d]) for d in args]
    if base in SERVED:
        return [(name, "data", [d]) for d in args]
    if base in CARRIED:
        return [(name, way_of(base), args)]
    if base in TOLD:
        return [(name, {"data": "told", "serial": "told_serial", "udp": "told_udp"}[way_of(base)], args)]
    if base in POSTS:
        return [(name, "post", args)]
    return [(name, base, args)]


def length(base, args):
    """How long a listing is, or a sheet: the one that was read before, or the tree's; 520 where it is refused."""
    if base in ("list", "list_penko"):
        return len(listing(tree_of(base)))
    return len(b"".join(args) or sheet(tree_of(base))[1]) or 520


def records(name, call, args):
    base, no_room, unsound, off = variant(call)
    tree, lent = b"", b""
    if base in ("feed", "feed_twice"):
        lent = bytes([4 if unsound else 0]) * 261
    elif base in ("restore", "reading", *SERVED, *CARRIED, *TOLD, *POSTS, *SHEETS, *BUSES, *LOADS):
        tree, lent = tree_of(base).form(), bytes(24) if unsound else tree_of(base).cell_bytes()
    elif base in ("bus_receive", "bus_ask"):
        lent = RECORDS[: 60 - unsound]
    elif base in ("list", "list_penko"):
        tree = tree_of(base).form()[: -1 if unsound else None]
    for k, (title, step, values) in enumerate(steps(name, base, args)):
        kind, room, names = CALLS[step]
        host = int(step in ("data", "serial", "udp", "told", "told_serial", "told_udp") and not off)
        n = {"address": 0, "mark": host, "index": 0, "value": 0}
        n.update(zip(names, (v for v in values if isinstance(v, int))))
        room = room or length(base, args)
        numbers = bytes([kind]) + (room - no_room).to_bytes(2, "big") + len(lent).to_bytes(2, "big")
        numbers += bytes([n["address"], n["mark"], n["index"]]) + n["value"].to_bytes(4, "big")
        string = b"".join(v for v in values if isinstance(v, bytes))
        yield "|".join([title] + [bs.hex().upper() for bs in (numbers, string, tree, b"" if k else lent)])


def main(words):
    crates = pathlib.Path(__file__).parent.parent / "crates"
    cases = [line for name, call, *args in CASES for line in records(name, call, args)]
    files = {
        "cases/stdin": "".join(line + "\n" for line in cases).encode(),
        "cases/stdout": "".join(line + "\n" for line in lines()).encode(),
        "list/stdin": bench().form(),
        "list/stdout": listing(bench()),
    }
    if words == ["write"]:
        for name, content in files.items():
            (crates / name).write_bytes(content)
    elif words == ["check"]:
        other = [name for name, content in files.items() if (crates / name).read_bytes() != content]
        if other:
            sys.exit("cases: not as tests/cases.py writes it: " + ", ".join(other))
        print("cases: same")
    else:
        sys.exit(__doc__)


if __name__ == "__main__":
    main(sys.argv[1:])
