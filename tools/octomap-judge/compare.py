#!/usr/bin/env python3
"""Holds the bodies that OctoMap made to those of the model and, where it is named, of the program.

    judge COUNT SEED | python3 compare.py [PROGRAM]

The program sets the known voxels of a cube and writes; then it loads OctoMap's body and writes again.
"""

import subprocess
import sys
from collections import Counter
from pathlib import Path

sys.dont_write_bytecode = True
sys.path.insert(0, str(Path(__file__).resolve().parent.parent))
import reference

MOST_SHOWN = 5


def number_of(state, index, varied):
    """A cell of the state: at the bound, or any that the state has."""
    if state == "1":
        return -1 - 37 * index % 200 if varied else -200
    return 37 * index % 351 if varied else 350


def wrong_answer(program, depth, digits, body, varied):
    """The first line that the program gives otherwise, as (given, expected), or None."""
    known = [(index, digit) for index, digit in enumerate(digits) if digit != "0"]
    calls = [(f"unit grid {depth}", f"unit G depth {depth} limit {(8**depth - 1) // 7}")]
    calls += [(f"set {index} {number_of(digit, index, varied)}", "set ok") for index, digit in known]
    calls += [("write", f"write ok {body}"), ("clear", "clear ok")]
    calls += [(f"load {body}", f"load ok set {len(known)} skipped 0"), ("write", f"write ok {body}")]
    session = "".join(f"{call}\n" for call, _ in calls)
    done = subprocess.run([program], input=session, capture_output=True, text=True)
    given = done.stdout.splitlines() + done.stderr.splitlines()
    expected = [answer for _, answer in calls]
    for pair in zip(given + [None] * len(expected), expected + [None] * len(given)):
        if pair[0] != pair[1]:
            return pair
    return None


def pruned_levels(depth, body):
    """The levels from 1 up on which the body has a merged cube: a child of one known state that is no voxel."""
    found = set()
    due = [depth]
    data = bytes.fromhex(body)
    for place in range(0, len(data), 2):
        level = due.pop()
        codes = [byte >> shift & 3 for byte in data[place:place + 2] for shift in (0, 2, 4, 6)]
        due += [level - 1] * codes.count(3)
        if level > 1 and (1 in codes or 2 in codes):
            found.add(level - 1)
    return found


def main(arguments):
    program = arguments[0] if arguments else None
    cubes, uniform, longest, pruned = Counter(), Counter(), Counter(), Counter()
    wrong = []
    for n, line in enumerate(sys.stdin):
        depth, digits, body = line.split()
        depth = int(depth)
        assert len(digits) == 8**depth
        cubes[depth] += 1
        uniform[depth] += len(set(digits)) == 1
        longest[depth] = max(longest[depth], len(body) // 2)
        if len(set(digits)) > 1:
            pruned.update((depth, level) for level in pruned_levels(depth, body))
        made = reference.body_of_digits(depth, digits).hex()
        back = reference.read_body(depth, bytes.fromhex(body))
        if made != body:
            wrong.append((line, "model", made))
        elif back != {reference.voxel_at(depth, i): int(d) for i, d in enumerate(digits) if d != "0"}:
            wrong.append((line, "model", "reads other states"))
        elif program:
            pair = wrong_answer(program, depth, digits, body, varied=n % 2 == 1)
            if pair:
                wrong.append((line, "program", f"{pair[0]}, expected {pair[1]}"))
    for line, who, what in wrong[:MOST_SHOWN]:
        print(f"differs: {line.rstrip()}\n  {who}: {what}")
    for depth in sorted(cubes):
        blocks = ", ".join(f"{pruned[depth, level]} on level {level}" for level in range(1, depth)) or "none possible"
        print(f"depth {depth}: {cubes[depth]} cubes, {uniform[depth]} of one state, longest body {longest[depth]} bytes, with merged cubes: {blocks}")
    print(f"{'model and program' if program else 'model'}: {sum(cubes.values()) - len(wrong)} alike, {len(wrong)} not")
    return 1 if wrong or not cubes else 0


if __name__ == "__main__":
    sys.exit(main(sys.argv[1:]))
