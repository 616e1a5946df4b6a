#!/usr/bin/env python3
"""Respells the repository's own names in specs/, proofs/ and the ghost text of src/ as the newer Rattle spells them.

usage: python3 tools/respell.py [--dry]

Run once, at the top of the repository, after port.py and before any other edit. Words get snake case; types, facts and modules keep
camel case. A dash stays where it joins the names of two definitions, or a type and a name; every other dash becomes an underscore.
Names from src/, names that Rattle makes and names of its library are left as they are. With --dry it prints the names and writes nothing.
"""

import collections
import os
import re
import sys

STOP = r"\s(){}.,;"
TOKEN = re.compile(r"[^" + STOP + r"`\"]+")
RUST_WORD = re.compile(r"[A-Za-z_][A-Za-z0-9_]*")
SIGNATURE = re.compile(r"^\s*(?:(?:abbrev|unfoldable|pub)\s+)*([^\s(){}.,;=:λ]+(?:\s+[^\s(){}.,;=:λ]+)*)\s+:(?=\s|$)")
USE = re.compile(r"^\s*(?:ghost )?use\s+([^\s{;]+?)\.\{([^}]*)\}", re.M)
MADE = {"Proof.antt", "Invariants.antt", "Answers.antt"}
# Words of the library that lemmas are named after.
LIBRARY = {"append", "length", "take", "drop", "map", "set", "cond", "get_or", "reverse", "replicate"}
# Where two names would fall together: a lemma gets `_lem`, a case of a classification `_case`.
CHOSEN = {
    "all-records": "all_records_lem", "all-texts": "all_texts_lem", "answer-asked": "answer_asked_lem",
    "bench-cells": "bench_cells_lem", "bench-tree": "bench_tree_lem", "frame-data": "frame_data_lem", "has-form": "has_form_lem",
    "if-node": "if_node_lem", "if-property": "if_property_lem", "marked-cases": "marked_cases_lem", "no-frame": "no_frame_lem",
    "no-node": "no_node_case", "no-property": "no_property_case", "no-reading": "no_reading_lem", "no-request": "no_request_lem",
    "off-step": "off_step_case", "outcome-by": "outcome_by_lem", "save-byte": "save_byte_lem", "table-size": "table_size_lem",
    "type-in": "type_in_lem", "zero-at": "zero_at_lem", "in-range": "range_fits", "at-most": "at_most_lem", "is-line": "is_line_lem",
}
# Names that port.py has turned already, which the new name of a definition would meet: file by file.
MET = {
    "crates/protocol/proofs/LoadLaws.antt": {"line_word": "line_word_lem"},
    "crates/protocol/proofs/DecimalLaws.antt": {"is_digit": "is_digit_lem"},
    "crates/protocol/proofs/LongestLaws.antt": {"number_size": "number_size_lem"},
    "crates/protocol/proofs/BufferLaws.antt": {"no_room": "no_room_lem"},
    "crates/protocol/proofs/LayLaws.antt": {"no_room": "no_room_lem"},
    "crates/stream/proofs/DeliveryLaws.antt": {"no_room": "no_room_case", "fed_by": "fed_by_lem"},
    "crates/soundness/proofs/PropertyLaws.antt": {"kind_fits": "kind_fits_lem"},
    "crates/tree/proofs/FieldLaws.antt": {"node_at": "node_at_lem"},
    "crates/demands/specs/Serving.antt": {"not_saved": "not_saved_case"},
    "crates/demands/proofs/Serving.antt": {"not_saved": "not_saved_case"},
    "crates/demands/specs/Sheets.antt": {"out_of_range": "out_of_range_case", "too_short": "too_short_case"},
    "crates/demands/proofs/Sheets.antt": {"out_of_range": "out_of_range_case", "too_short": "too_short_case", "no_room": "no_room_lem"},
    "crates/demands/specs/Listing.antt": {"too_short": "too_short_case"},
    "crates/demands/proofs/Listing.antt": {"too_short": "too_short_case"},
    "crates/demands/specs/StepSize.antt": {"on_step": "step_fits"},
    "crates/demands/proofs/StepSize.antt": {"on_step": "step_fits"},
}


def files(end):
    for folder, dirs, names in os.walk("crates"):
        dirs[:] = sorted(d for d in dirs if d not in ("out", "must-fail"))
        for name in sorted(names):
            if name.endswith(end):
                yield os.path.join(folder, name)


def read(path):
    with open(path, encoding="utf-8") as file:
        return file.read()


def own_crates():
    return {d for d in os.listdir("crates")}


def is_own(module, crates):
    parts = module.split(".")
    return parts[0] == "Rattle" and len(parts) > 1 and parts[1] in crates


def snake(part):
    if part[:1].isupper() or not part:
        return part
    part = re.sub(r"([a-z0-9])([A-Z])", r"\1_\2", part)
    return part.lower()


def signatures(path, text):
    found = set()
    for line in text.splitlines():
        line = line.split(" -- ")[0]
        if line.lstrip().startswith("--") or re.match(r"^\s*(use|module|record|data|pub record|pub data|pub mod|mod)\b", line):
            continue
        m = SIGNATURE.match(line)
        if m:
            found.update(m.group(1).split())
    return found


def turned(name, functions):
    parts = name.split("-")
    done = snake(parts[0])
    for before, part in zip(parts, parts[1:]):
        named = (before in functions or before[:1].isupper()) and (part in functions or part[:1].isupper())
        typed = before[:1].isupper() or part[:1].isupper()
        done += ("-" if named or typed else "_") + snake(part)
    return done


def main(argv):
    dry = "--dry" in argv
    crates = own_crates()
    texts = {p: read(p) for p in files(".antt")}
    sources = {p: read(p) for p in files(".rt")}
    defined, functions, library, tokens = set(), set(LIBRARY), collections.defaultdict(set), set()
    for path, text in texts.items():
        made = os.path.basename(path) in MADE
        names = signatures(path, text)
        if not made:
            defined |= names
        if "/specs/" in path:
            functions |= set(re.findall(r"(?m)^\s*(?:abbrev|unfoldable) pub ([^\s(){}.,;=:-]+) :", text))
        for module, items in USE.findall(text):
            if not is_own(module, crates):
                for item in items.split(","):
                    library[path].add(item.split(" as ")[0].strip())
        tokens |= {t for t in TOKEN.findall(text)}
    wanted = {n for n in defined if n[:1].isalpha() and (re.search(r"[a-z0-9][A-Z]", n) or "-" in n)}
    wanted = {n for n in wanted if not (n[:1].isupper() and "-" not in n)}
    # A lemma that has the name of one of the library's keeps it.
    wanted -= {n for n in wanted if any(n in found for found in library.values())}
    identifiers = {w for text in sources.values() for w in RUST_WORD.findall(text)}
    names = {n: CHOSEN.get(n, turned(n, functions)) for n in wanted}
    names = {a: b for a, b in names.items() if a != b}
    # Names that fall together.
    back = collections.defaultdict(set)
    for a, b in names.items():
        back[b].add(a)
    for b, all_of in sorted(back.items()):
        dashed = [a for a in all_of if "-" in a]
        if len(all_of) == 2 and len(dashed) == 1:
            names[dashed[0]] = b + "_lem"
        elif len(all_of) > 1:
            print("together:", b, sorted(all_of))
        for p, t in texts.items():
            loose = re.sub(r"(?m)^\s*use .*$|--.*$|`[^`]*`", "", t)
            if b in tokens and b not in MET.get(p, {}) and b in TOKEN.findall(loose):
                print("there already:", b, sorted(all_of), p)
    for a in sorted(names):
        hit = [p for p in texts if a in library[p]]
        if hit:
            print("the library's too:", a, hit[:4])
    # Parameters, fields and locals of src/ that a definition's new name would meet in a clause.
    for path, text in sources.items():
        cited = {n for n in RUST_WORD.findall(" ".join(items for m, items in USE.findall(text) if is_own(m, crates)))}
        code = re.sub(r"(?m)^\s*(ghost use|//).*$", "", text)
        code = re.sub(r"(?m)^\s*(requires|ensures)\b.*$", "", code)
        idents = set(re.findall(r"(?<![.:\w])([a-z_][a-z0-9_]*)(?=\s*:[^:])", code))
        for n in sorted(cited):
            if n in names and names[n] in idents:
                print("a parameter or field:", path, n, names[n])
    if dry:
        for a, b in sorted(names.items()):
            print("name", a, b)
        return 0
    for path, text in texts.items():
        made = os.path.basename(path) in MADE
        table = names | MET.get(path, {})

        def new_name(m, text=text, made=made, table=table):
            # Behind a dot a proof file names what Rattle makes of src/, as `.in-range` of a call of `in_range`.
            if made and "-" in m.group() and text[: m.start()].endswith(".") and m.group().replace("-", "_") in identifiers:
                return m.group()
            return table.get(m.group(), m.group())

        new = TOKEN.sub(new_name, text)
        if new != text:
            with open(path, "w", encoding="utf-8") as file:
                file.write(new)
    for path, text in sources.items():
        new = re.sub(r'"(?:[^"\\]|\\.)*"|[A-Za-z_][A-Za-z0-9_]*', lambda m: names.get(m.group(), m.group()), text)
        if new != text:
            with open(path, "w", encoding="utf-8") as file:
                file.write(new)
    return 0


if __name__ == "__main__":
    raise SystemExit(main(sys.argv[1:]))
