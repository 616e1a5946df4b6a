"""Prints the code sizes of the static library's exports: a function's own bytes, and with all it calls; and of the whole, with
the constants that the compiler makes, as jump tables.

Usage: sizes.py LIBRARY. Reads what nm, objdump and size print.
"""
import re
import subprocess
import sys


def output(*command):
    return subprocess.run(command, capture_output=True, text=True, check=True).stdout


def main():
    library = sys.argv[1]
    size = {}
    exports = []
    for line in output("nm", "-S", library).splitlines():
        fields = line.split()
        if len(fields) == 4 and fields[2] in "tT":
            size[fields[3]] = int(fields[1], 16)
            if fields[2] == "T":
                exports.append(fields[3])
    calls = {name: set() for name in size}
    current = None
    for line in output("objdump", "-dr", library).splitlines():
        head = re.match(r"[0-9a-f]+ <(.+)>:$", line)
        if head:
            current = head.group(1)
        relocation = re.search(r"R_X86_64_\w+\s+(\S+?)([+-]0x[0-9a-f]+)?$", line)
        if relocation and current in calls:
            target = relocation.group(1).removeprefix(".text.")
            if target in size:
                calls[current].add(target)

    def reached(name, seen):
        if name not in seen:
            seen.add(name)
            for target in calls[name]:
                reached(target, seen)
        return seen

    print("| Export | Own bytes | With all it calls |\n|---|---|---|")
    for name in sorted(exports):
        print(f"| `{name}` | {size[name]} | {sum(size[n] for n in reached(name, set()))} |")
    whole = sum(int(line.split()[0]) for line in output("size", library).splitlines()[1:])
    print(f"| constants | | {whole - sum(size.values())} |")
    print(f"| all | | {whole} |")


main()
