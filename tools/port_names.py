#!/usr/bin/env python3
"""Brings the names of this repository's definitions and lemmas to one spelling.

Words are in snake case: `voxelCount` becomes `voxel_count` and `only-on-path`
becomes `only_on_path`. Types, facts and modules keep their capitals, and the
names that Rattle makes (goals, steps) are left alone. Where two names would
fall together, the lemma is the one that gets `_lem`.

    python3 tools/port_names.py        at the top of the repository
"""

import pathlib
import re

# names that a plain change of spelling would make the same as another's
APART = {
    "in_map": "in_map_lem",
    "same-voxel": "same_voxel_lem",
    "crossed-on": "crossed_on_lem",
    "mark-event": "mark_event_lem",
    "is-number": "is_number_lem",
    "return-fault": "return_fault_lem",
    "state-code": "state_code_lem",
    "child-code": "child_code_lem",
    "states-answer": "states_answer_lem",
    "states-cells": "states_cells_lem",
    "piece_bytes": "piece_bytes_lem",
    "pair_code": "pair_code_lem",
    "set?": "sets_at",
    "skipped?": "skips_at",
}

SIGNATURE = re.compile(r"(\s*)(?:abbrev |unfoldable )?(pub )?(?:abbrev |unfoldable )?([A-Za-z][\w'?-]*) : (.*)")
PART = r"[\w'?-]"


def snake(name):
    return re.sub(r"(?<=[a-z0-9])[A-Z]", lambda m: "_" + m.group().lower(), name).replace("-", "_")


def declared(files):
    """The names with a signature in these files, and which of them are fields of a record."""
    names, fields = set(), set()
    for file in files:
        in_record, margin = False, 0
        for line in file.read_text().splitlines():
            # a record stands at the margin or in a module, and its fields deeper than it
            opens = re.match(r"(\s*)(?:pub )?record ", line)
            if opens:
                in_record, margin = True, len(opens.group(1))
            elif line.strip() and len(line) - len(line.lstrip()) <= margin:
                in_record = False
            found = SIGNATURE.match(line)
            # the names of goals are Rattle's
            if found and not re.match(r"(goal|need)\.", found.group(4)):
                names.add(found.group(3))
                if in_record:
                    fields.add(found.group(3))
    return names, fields


def any_of(names):
    return "|".join(re.escape(name) for name in sorted(names, key=len, reverse=True)) or "(?!)"


def main():
    proofs = sorted(pathlib.Path("crates").glob("*/specs/**/*.antt")) + sorted(pathlib.Path("crates").glob("*/proofs/**/*.antt"))
    proofs = [file for file in proofs if "out" not in file.parts]
    sources = sorted(pathlib.Path("crates").glob("*/src/**/*.rt"))
    pages = [pathlib.Path("README.md")] + sorted(pathlib.Path("docs").glob("*.md"))
    names, fields = declared(proofs)
    new = {name: APART.get(name, snake(name)) for name in names if name[0].islower()}
    new = {name: to for name, to in new.items() if name != to}
    clashes = [(name, to) for name, to in new.items() if to in names - set(new)]
    assert not clashes, clashes
    assert len(set(new.values())) == len(new), sorted(new.values())

    def respell(files, found):
        plain, of_records = found - fields, found & fields
        word = re.compile(rf"(?<!{PART})(?<!\.)(?:{any_of(plain)})(?!{PART})")
        field = re.compile(rf"(?<!{PART})(?:{any_of(of_records)})(?!{PART})")
        for file in files:
            old = file.read_text()
            text = field.sub(lambda m: new[m.group()], word.sub(lambda m: new[m.group()], old))
            if text != old:
                file.write_text(text)

    respell(proofs, set(new))
    # a name that Rust could have written is a function's there, and stays
    respell(sources, {name for name in new if not re.fullmatch(r"[a-z_0-9]+", name)})
    for page in pages:
        old = page.read_text()
        text = re.sub(r"`([a-z]+[a-z0-9]*(?:[A-Z][A-Za-z0-9]*)+)`", lambda m: "`" + new.get(m.group(1), snake(m.group(1))) + "`", old)
        text = re.sub(r"`([a-z]+(?:-[a-z0-9]+)+)`", lambda m: "`" + new.get(m.group(1), m.group(1)) + "`", text)
        if text != old:
            page.write_text(text)
    print(f"{len(new)} names")


main()
