"""Runs the measuring program and writes the table of costs.

Usage: measure.py PROGRAM OUTPUT. Time is the best of 100 runs in each of three processes; instructions are counted by callgrind, as the difference between
two runs with different counts of calls, so that what a run costs but once drops out.
"""
import re
import subprocess
import sys

FEW, MANY = 40, 240
PROCESSES = 3

WHAT = {
    "feed-alone": "`pq_feed`, one byte in a call, from a frame with 20 bytes of data, for a byte",
    "feed-block": "`pq_feed`, a frame with 256 bytes of data in one call, for a byte",
    "read-request": "`pq_read_serial`, request of 10 bytes",
    "read-256": "`pq_read_serial`, frame with 256 bytes of data",
    "read-frame": "`pq_read_frame`, frame with 256 bytes of data",
    "frame-20": "`pq_frame`, 20 bytes",
    "frame-256": "`pq_frame`, 256 bytes, the same each time",
    "frame-varied": "`pq_frame`, 256 bytes, 256 drawn strings by turns, one byte in eight 10h",
    "op4-step": "`pq_serve_data`, op 4, bench tree with Average in steps of 5",
    "missing-bench": "`pq_serve_data`, op 3, path 1.3, which no node has, bench tree",
    "missing-largest": "`pq_serve_data`, op 3, sixteen numbers, the last of no node, largest tree",
    "buslink_send-bench": "`pq_buslink_send`, type 2, bench tree",
    "buslink_send-largest": "`pq_buslink_send`, type 9, largest tree",
    "buslink_receive": "`pq_buslink_receive`, the bench tree's type 2",
}

HEAD = """# What the calls cost

Written by `tests/measure.sh`; the numbers are those of one run on one machine ({cpu}).

*Ours* is the static library, called as C calls it. *Second* is the second implementation in `tests/second`, an ordinary Rust
program written from the documents, built by rustc with `opt-level = 3`. Both work from the same lent bytes: for each request
the second one, too, reads and checks the whole tree and the cells, since no call trusts an earlier check. Bounds of slices are
tested at run time in the second one; it allocates two lists for a tree, one more for a listing, and two or three for a sheet.

- Time: nanoseconds for one call, the best of 100 runs of at least 2 ms each, the two sides by turns, in each of three processes.
- Instructions: counted by `valgrind --tool=callgrind`, {many} calls less {few} calls, divided by {difference}.
- The ratio is ours / second: under 1 the library is quicker.
- The bench tree takes 159 bytes and has 3 nodes and 5 properties. The largest takes 27330 bytes: 64 nodes, 128 properties,
  every text as long as it may be; requests go to a property of a node at depth 16. Their listings have
  314 and 13430 bytes.
- The bench tree's sheet has 17 bytes. The tree of 128 settings takes 27330 bytes too; its sheet is the longest there is, 4608
  bytes: labels of 23 characters, which differ in the last two, and the number -2147483648 in each line.
- Every row with a tree carries the check of that tree and, but for `pq_list`, of its cells, which is all of a `check` row.

| Call | Ours, ns | Second, ns | Ratio | Ours, instructions | Second, instructions | Ratio |
|---|---|---|---|---|---|---|
"""

TAIL = """
## How to read it

- Time depends on the processor and on where the linker puts a loop. In a trial on an AMD EPYC, 0, 16, 32 and 48 bytes were put
  before the same library. Of the second implementation's time a byte fed alone came to 0.96 or 0.97, a frame fed in one call to
  0.80, 0.81, 0.82 and 0.99, the rows of `pq_frame` to between 0.61 and 1.00 and `pq_read_frame` to between 0.63 and 0.83, the code
  being the same; every other row stayed at 0.80 or under. In later builds, on that processor and on an Intel Xeon, a frame fed in
  one call came to up to 1.25, `pq_read_frame` to 1.20, a row of `pq_frame` to 1.17 and the checks of the largest tree to 0.87, by
  the same instructions. A table shows the one build and the one processor it was taken from; the instructions are the steadier
  number.
- `pq_read_frame` goes over a good string twice: a refusal may not touch the output, and the checksum stands last. The copy takes
  some 11 instructions for a byte; what it passes over behind a 10h goes by a branch that the processor guesses, not by a sum that
  would wait for the byte.
- `pq_list` looks at the records of all nodes and all properties for each node, to count and to find its own: at worst nodes times
  nodes, and nodes times properties. It needs no memory for that; the second implementation keeps a list of lengths for the nodes
  and writes each entry where it belongs. These rows lend room for every listing; with less room than that the walk is made
  twice, first to count.
- A sheet wants its settings' labels to differ. Each is compared with those behind it, where they stand, so that no memory is needed:
  8,128 pairs for 128 settings. In the rows of 128 settings those of a pair differ in the last two of 23 characters alone, and the
  pairs are most of the call; the second implementation sorts the labels in a list that it allocates. Reading goes over the sheet
  twice, since nothing may be stored before all of it was judged. Writing has room for every sheet here; with less the lines are
  made twice, first to count.
- A step above 1 costs a write some 24 instructions, one of which divides 32 bits; a part that has none calls a routine there. With step 1
  nothing is divided. The check of a tree tests the step code of each property of type 1.
- `pq_buslink_send` looks for its two probes in the list of properties from the front, at most once each; the check is most of the call.
  `pq_buslink_receive` goes by 8 bytes, of which it copies each by itself; the second implementation copies four at a time.
- The check of the tree is most of a row with a tree, listings and sheets apart (two thirds or more on the bench tree): about 6 instructions
  for a byte of text (`soundness::texts::characters_end`), and 31 for the numbers of a property (`tree::record::read_fields`).
"""


def what(row):
    if row in WHAT:
        return WHAT[row]
    call, tree = row.split("-")
    tree = {"bench": "bench tree", "largest": "largest tree", "settings": "tree of 128 settings"}[tree]
    if call in ("check", "list", "reading", "write_sheet", "read_sheet"):
        return f"`pq_{call}`, {tree}"
    return f"`pq_serve_data`, op {call[2:]}, {tree}"


def instructions(program, side, row, count):
    command = ["valgrind", "--tool=callgrind", "--callgrind-out-file=/dev/null", program, "run", side, row, str(count)]
    run = subprocess.run(command, capture_output=True, text=True, check=True)
    return int(re.search(r"Collected\s*:\s*(\d+)", run.stderr).group(1))


def per_call(program, side, row):
    many, few = (instructions(program, side, row, count) for count in (MANY, FEW))
    return (many - few) / (MANY - FEW)


def best_times(program):
    best = {}
    for _ in range(PROCESSES):
        timed = subprocess.run([program, "time"], capture_output=True, text=True, check=True).stdout
        for line in timed.splitlines():
            row, *times = line.split()
            times = [float(time) for time in times]
            best[row] = [min(pair) for pair in zip(times, best.get(row, times))]
    return best


def cpu():
    with open("/proc/cpuinfo") as lines:
        names = [line.split(":")[1].strip() for line in lines if line.startswith("model name")]
    return names[0] if names else "x86-64"


def main():
    program, output = sys.argv[1:]
    listed = subprocess.run([program, "rows"], capture_output=True, text=True, check=True).stdout
    units = {row: int(count) for row, count in (line.split() for line in listed.splitlines())}
    times = best_times(program)
    text = HEAD.format(cpu=cpu(), many=MANY, few=FEW, difference=MANY - FEW)
    for row in units:
        costs = times[row] + [per_call(program, side, row) for side in ("library", "second")]
        ours, second, ours_count, second_count = (cost / units[row] for cost in costs)
        text += f"| {what(row)} | {ours:.1f} | {second:.1f} | {ours / second:.2f} "
        text += f"| {ours_count:.1f} | {second_count:.1f} | {ours_count / second_count:.2f} |\n"
    text += TAIL
    with open(output, "w") as table:
        table.write(text)
    print(text)


main()
