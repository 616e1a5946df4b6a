"""Prints the most stack, in bytes, that each export of the static library needs: its own frame, the frames of all it calls, and
every return address, that of the export itself among them. Of C's memcpy and memset the return address alone is counted.

Usage: stack.py LIBRARY [HEADER]. Prints the table of the header. With a HEADER, sees that the table stands in it.

Reads what objdump prints. The depth of each function is followed from instruction to instruction. A function that calls itself is
counted as often as NESTED says. It ends with an error where it does not understand how one moves the stack pointer or where one
jumps to, where a function calls itself that NESTED does not have, and where several call each other in a circle.
"""
import re
import subprocess
import sys

C_FUNCTIONS = ("memcpy", "memset")
# How often a function that calls itself stands on the stack: once for each level of a tree, once for each digit of a word.
NESTED = {"listing::walk::walk_children": 16, "text::number::put_decimal": 10}
RETURN = re.compile(r"(rep[a-z]* )?ret")
FILLER = re.compile(r"nop|xchg +%ax,%ax|data16|cs nop|int3|ud2")


def output(*command):
    return subprocess.run(command, capture_output=True, text=True, check=True).stdout


def refuse(function, what):
    sys.exit(f"stack: {function}: {what}")


class Function:
    def __init__(self, name):
        self.name = name
        self.code = {}  # by address: the instruction
        self.links = {}  # by address: what the relocation of that instruction names
        self.tables = []  # where the function's jump tables begin in its constants
        self.targets = []  # where they lead

    def after(self, address):
        return min((a for a in self.code if a > address), default=None)


def add_relocation(function, address, line):
    symbol, addend = re.search(r"R_X86_64_\w+\s+(\S+?)([+-]0x[0-9a-f]+)?$", line).groups()
    offset = int(addend or "0", 16) + 4
    if re.match(r"call|j", function.code[address]):
        if offset != 0:
            refuse(function.name, "a jump into a function: " + line.strip())
        function.links[address] = symbol.removeprefix(".text.")
    elif symbol == ".rodata." + function.name:
        function.tables.append(offset)


def read_code(library):
    functions = {}
    current = address = None
    for line in output("objdump", "-dr", "--no-show-raw-insn", library).splitlines():
        head = re.match(r"[0-9a-f]+ <(.+)>:$", line)
        step = re.match(r" *([0-9a-f]+):\t(.+?)\s*(#.*)?$", line)
        if head:
            current = functions[head.group(1)] = Function(head.group(1))
        elif step:
            address = int(step.group(1), 16)
            current.code[address] = step.group(2)
        elif "R_X86_64_" in line:
            add_relocation(current, address, line)
    return functions


# An entry of a jump table is its target's distance from where the table begins.
def read_tables(library, functions):
    current = None
    for line in output("objdump", "-r", library).splitlines():
        head = re.match(r"RELOCATION RECORDS FOR \[(.+)\]:", line)
        entry = re.match(r"([0-9a-f]+) R_X86_64_PC32 +(\S+?)\+0x([0-9a-f]+)$", line)
        if head:
            current = functions.get(head.group(1).removeprefix(".rodata.")) if ".rodata." in head.group(1) else None
        elif current and entry:
            place = int(entry.group(1), 16)
            begin = max(t for t in current.tables if t <= place)
            current.targets.append(int(entry.group(3), 16) - (place - begin))


def signed(digits):
    number = int(digits, 16)
    return number - 2**64 if number >= 2**63 else number


# By how much an instruction lowers the stack pointer.
def moved(function, step):
    if re.match(r"push +", step):
        return 8
    if re.match(r"pop +(?!%rsp)", step):
        return -8
    known = re.match(r"(sub|add) +\$0x([0-9a-f]+),%rsp$", step)
    if known:
        return signed(known.group(2)) * (1 if known.group(1) == "sub" else -1)
    known = re.match(r"lea +(-?)0x([0-9a-f]+)\(%rsp\),%rsp$", step)
    if known:
        return int(known.group(2), 16) * (1 if known.group(1) else -1)
    if re.match(r"(cmp|test)", step):
        return 0
    if re.search(r"%(rsp|esp|sp|spl)$", step) or re.match(r"push|pop|leave|enter|xchg .*%r?e?sp|cmov.*%r?e?sp$", step):
        refuse(function.name, "the stack pointer is moved by: " + step)
    return 0


# Where an instruction leads within the function, and which function it calls or jumps to.
def leads(function, address, step):
    link = function.links.get(address)
    following = function.after(address)
    if RETURN.match(step) or step.startswith("ud2"):
        return [], None
    if re.match(r"(notrack )?jmp +\*", step):
        if not function.targets:
            refuse(function.name, "a jump that leads to no known place: " + step)
        return function.targets, None
    if re.match(r"call", step):
        if link is None and step.endswith(f" 0 <{function.name}>"):
            link = function.name
        if link is None:
            refuse(function.name, "a call of no known function: " + step)
        return [following], link
    if re.match(r"j", step) and link is None:
        target = int(re.match(r"j\w+ +([0-9a-f]+)", step).group(1), 16)
        return [target] if step.startswith("jmp") else [target, following], None
    if re.match(r"j", step):
        return [] if step.startswith("jmp") else [following], link
    return [following], None


# The depth below the return address before each instruction.
def depths(function):
    depth = {}
    todo = [(min(function.code), 0)]
    while todo:
        address, below = todo.pop()
        step = function.code.get(address)
        if step is None:
            refuse(function.name, f"a jump out of its code, to {address:x}")
        if RETURN.match(step) and below != 0:
            refuse(function.name, f"a return {below} bytes too deep")
        if depth.get(address, below) != below:
            refuse(function.name, "two depths at: " + step)
        if address not in depth:
            depth[address] = below
            todo += [(place, below + moved(function, step)) for place in leads(function, address, step)[0]]
    for address, step in function.code.items():
        if address not in depth and not FILLER.match(step):
            refuse(function.name, "no way leads to: " + step)
    return depth


# What a function needs below its return address.
def need(functions, name, above=()):
    if name in C_FUNCTIONS:
        return 0
    if name in above:
        refuse(name, "calls itself by way of " + ", ".join(above))
    if name not in functions:
        refuse(above[-1], "calls " + name)
    function = functions[name]
    most = again = 0
    for address, depth in depths(function).items():
        step = function.code[address]
        beyond = re.search(r"-0x([0-9a-f]+)\(%rsp", step)
        most = max(most, depth + moved(function, step), depth + int(beyond.group(1), 16) if beyond else 0)
        callee = leads(function, address, step)[1]
        returns = 8 if step.startswith("call") else 0
        if callee == name and name in NESTED:
            again = max(again, depth + returns)
        elif callee:
            most = max(most, depth + returns + need(functions, callee, above + (name,)))
    return again * (NESTED.get(name, 1) - 1) + most


# The table, in three columns, as it stands in a comment of the header.
def table(needs):
    cells = [f"{name:<22}{number:>4}" for name, number in sorted(needs.items())]
    rows = -(-len(cells) // 3)
    return "".join(" *   " + "      ".join(cells[row::rows]) + "\n" for row in range(rows))


def main():
    library = sys.argv[1]
    functions = read_code(library)
    read_tables(library, functions)
    exports = [line.split()[2] for line in output("nm", "-g", "--defined-only", library).splitlines() if " T " in line]
    lines = table({name: 8 + need(functions, name) for name in exports})
    if len(sys.argv) == 2:
        print(lines, end="")
        return 0
    with open(sys.argv[2], encoding="utf-8") as header:
        if "\n *\n" + lines + " *\n" in header.read():
            print(f"stack: {len(exports)} exports, as the header has them")
            return 0
    print(f"stack: {sys.argv[2]} has another table than\n" + lines, end="")
    return 1


sys.exit(main())
