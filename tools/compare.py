#!/usr/bin/env python3
"""Runs the program and the reference on the sessions of cases/ and examples/ and on random ones.

    python3 tools/compare.py [COUNT [SEED]]

What they print, what they write to standard error and to files and how they end have to be the same.
The files of random sessions are kept in target/compare.
"""

import random
import subprocess
import sys
from pathlib import Path

sys.dont_write_bytecode = True
import reference

ROOT = Path(__file__).resolve().parent.parent
PROGRAM = ROOT / "crates/geltzori/out/geltzori"
REFERENCE = ROOT / "tools/reference.py"
# paths in sessions start from the root
FILES = Path("target/compare")
WRITTEN = FILES / "written.body"


def ran(command, session):
    # a refused write has to leave this
    (ROOT / WRITTEN).write_bytes(b"as it was")
    done = subprocess.run(command, input=session, capture_output=True, cwd=ROOT)
    return done.returncode, done.stdout, done.stderr, (ROOT / WRITTEN).read_bytes()


def differs(session):
    return ran([PROGRAM], session) != ran([sys.executable, REFERENCE], session)


def random_run(chance, high):
    offset = chance.choice([chance.randrange(high), chance.randrange(65536)])
    length = chance.choice([0, 1, 2, chance.randrange(high), chance.randrange(65536)])
    return offset.to_bytes(2, "little") + length.to_bytes(2, "little")


def random_mask(chance, high):
    if chance.random() < 0.5:
        # in order, mostly with gaps
        data, at = b"", 0
        for _ in range(chance.randrange(5)):
            at += chance.randrange(1, high // 4 + 2)
            length = chance.randrange(1, high // 4 + 2)
            data += at.to_bytes(2, "little") + length.to_bytes(2, "little")
            at += length
    else:
        data = b"".join(random_run(chance, high) for _ in range(chance.choice([0, 1, 2, 3, 17])))
    if chance.random() < 0.1:
        data += b"\0"
    return "mask " + data.hex()


def random_call(chance, high):
    index = chance.choice([chance.randrange(high), chance.randrange(high), chance.randrange(2 * high)])
    value = chance.choice(["unknown", -200, 350, -201, 351, 0, -1, chance.randrange(-250, 400), 10**6])
    return chance.choice([f"set {index} {value}", f"hit {index}", f"miss {index}", f"read {index}", f"read {index}", "show" if chance.random() < 0.2 else "clear" if chance.random() < 0.1 else f"hit {index}"])


def random_session(chance):
    depth = chance.choice([0, 1, 1, 2, 2, 3, 3, 4, 6])
    high = 8 ** depth if 1 <= depth <= 5 else 8
    lines = [f"unit grid {depth}"]
    lines += [random_mask(chance, high) for _ in range(chance.randrange(4))]
    lines += [random_call(chance, high) for _ in range(chance.randrange(60))]
    if chance.random() < 0.1:
        lines.insert(chance.randrange(len(lines) + 1), chance.choice(["sett 1 2", "unit grid 1", "mask 00", "set 1", "hit -1", "show all"]))
    return ("\n".join(lines) + "\nshow\n").encode()


def random_tick(chance, depth):
    """Mostly in the map, often at a voxel's border or middle, where fractions tie."""
    ticks = 64 * 2 ** depth
    near = 64 * chance.randrange(2 ** depth) + chance.choice([0, 0, 1, 31, 32, 32, 32, 33, 62, 63])
    return chance.choice([near, near, chance.randrange(ticks), chance.choice([0, ticks - 1])])


def random_position(chance, depth):
    numbers = [random_tick(chance, depth) for _ in range(3)]
    return " ".join(str(number) for number in numbers)


def outside_position(chance, depth):
    ticks = 64 * 2 ** depth
    numbers = [random_tick(chance, depth) for _ in range(3)]
    numbers[chance.randrange(3)] = chance.choice([ticks, ticks + 1, 2 * ticks, 4095, 4096, 9999])
    return " ".join(str(number) for number in numbers)


def wrong_line(chance, depth):
    """A line that is wrong by itself, or only where it stands."""
    letter = chance.choice("OHF")
    right = random_position(chance, depth)
    x, y, z = right.split(" ")
    return chance.choice([
        "", " ", "#", letter, letter + " ", letter + right, letter.lower() + " " + right, " " + letter + " " + right,
        f"{letter} {right} ", f"{letter}  {right}", f"{letter} {x} {y}", f"{letter} {x}  {y} {z}", f"{letter} {right} {x}",
        f"{letter} 0{x} {y} {z}", f"{letter} {x} {y} 00", f"{letter} {x} 1{y}0000 {z}", f"{letter} {x} -{y} {z}", f"{letter} +{x} {y} {z}",
        f"{letter} {x},{y},{z}", f"{letter} {x} {y} {z}.0", f"{letter}\t{x} {y} {z}", f"{letter} {x} {y} {z} # here",
        "X " + right, "E ", " E", "EE", "E 1", "e", "show", "O " + right, "O " + right,
        f"{letter} {outside_position(chance, depth)}", f"{letter} {outside_position(chance, depth)}", f"O {outside_position(chance, depth)}",
    ])


def random_scan(chance, depth):
    """The lines of a scan without its E, mostly right."""
    count = chance.choice([0, 1, 1, 2, 3, 4, chance.randrange(20)])
    if chance.random() < 0.06:
        count = chance.choice([511, 512, 512, 513, 513, 514])
    few = [random_position(chance, depth) for _ in range(chance.randrange(1, 6))]
    lines = ["O " + random_position(chance, depth)]
    for _ in range(count):
        end = chance.choice(few) if chance.random() < 0.2 else random_position(chance, depth)
        lines.append(chance.choice("HF") + " " + end)
    for _ in range(chance.choice([0, 0, 0, 0, 0, 0, 1, 1, 2])):
        at = chance.choice([0, len(lines), chance.randrange(len(lines) + 1)])
        if chance.random() < 0.5 and at < len(lines):
            lines[at] = wrong_line(chance, depth)
        else:
            lines.insert(at, wrong_line(chance, depth))
    if chance.random() < 0.03:
        lines.pop(0)
    return lines


def reordered(chance, lines):
    """The same set of lines: the first stays, the others are shuffled and some repeated."""
    rest = lines[1:]
    rest += [line for line in rest if chance.random() < 0.2]
    chance.shuffle(rest)
    return lines[:1] + rest


def near(chance, data):
    """Bytes that differ from these at a few places, or go on behind them, or are cut."""
    data = bytearray(data)
    for _ in range(chance.choice([0, 1, 1, 1, 2, 3])):
        byte = chance.choice([*b"OHFE 0123456789\n\n\r\t-#", chance.randrange(256)])
        at = chance.randrange(len(data) + 1)
        change = chance.randrange(6)
        if change == 0 or at == len(data):
            data.insert(at, byte)
        elif change == 1:
            data[at] = byte
        elif change == 2:
            del data[at]
        elif change == 3:
            del data[at:]
        elif change == 4:
            data += bytes(chance.randrange(256) for _ in range(chance.randrange(8)))
        else:
            data += b"H 1 1 1\nE\n"
    return bytes(data)


def scan_call(lines):
    return "\n".join(["scan", *lines, "E"])


def random_scan_calls(chance, depth):
    lines = random_scan(chance, depth)
    if chance.random() < 0.15:
        return [scan_call(lines), "show", scan_call(reordered(chance, lines))]
    if chance.random() < 0.35:
        data = near(chance, ("\n".join(lines) + "\nE\n").encode())
        return ["scan-hex " + data.hex()]
    if chance.random() < 0.03:
        # it goes on to an E of a later scan, or to the session's end
        return ["\n".join(["scan   # no end", *lines])]
    if chance.random() < 0.03:
        return ["scan-file tools/cases/first.scan"]
    return [scan_call(lines)]


def random_page(chance, high):
    return f"page {chance.choice([0, high - 1, high - 1, high, high, high, high + 1, 65535, 65536])}"


def random_scan_session(chance):
    depth = chance.choice([0, 1, 1, 1, 2, 2, 2, 3, 3, 4])
    high = 8 ** depth
    lines = [f"unit grid {depth}"]
    lines += [random_mask(chance, high) for _ in range(chance.randrange(3))]
    for _ in range(chance.randrange(1, 12)):
        kind = chance.random()
        if kind < 0.7:
            # a map of depth 0 is given the scans of depth 1
            lines += random_scan_calls(chance, max(depth, 1))
        elif kind < 0.78:
            lines.append(random_page(chance, high))
        elif kind < 0.82:
            lines.append("show")
        else:
            lines.append(random_call(chance, high))
    lines.append(f"page {high}")
    lines += random_scan_calls(chance, max(depth, 1))
    if chance.random() < 0.06:
        wrong = ["scan now", "scan-hex 0", "scan-hex 0g", "scan-file", "scan-file a b", "scan-file tools/none.scan", "page", "page 65537", "page -1", "page 8 8", "mask 00"]
        lines.insert(chance.randrange(len(lines) + 1), chance.choice(wrong))
    session = "\n".join(lines) + "\nshow\n" + "".join(f"read {index}\n" for index in range(min(high, 64)))
    if chance.random() < 0.05:
        session = session.replace("\n", "\r\n")
    return session.encode()


def random_tree(chance, level, whole, palette):
    """A state, or a list of eight trees that are not one state alike."""
    if level == 0 or chance.random() < whole:
        return chance.choice(palette)
    return merged([random_tree(chance, level - 1, whole, palette) for _ in range(8)])


def merged(trees):
    return trees[0] if trees[0] in (0, 1, 2) and trees == trees[:1] * 8 else trees


def random_map(chance, depth):
    """The tree of a map of the depth. Its root is always a list."""
    whole = chance.choice([0, 0.3, 0.6, 0.8, 0.8, 0.9, 0.9])
    palette = chance.choice([[0, 1, 2], [0, 1, 2], [1, 2], [0, 1], [0, 0, 0, 0, 0, 0, 2], [1, 1, 1, 1, 1, 1, 1, 2]])
    if chance.random() < 0.1:
        return [chance.choice(palette)] * 8
    return [random_tree(chance, depth - 1, whole, palette) for _ in range(8)]


def bytes_of(tree):
    codes = [3 if isinstance(child, list) else child for child in tree]
    data = sum(code << 2 * k for k, code in enumerate(codes)).to_bytes(2, "little")
    return data + b"".join(bytes_of(child) for child in tree if isinstance(child, list))


def some_pair(chance, tree, depth):
    """A pair and the level of its cube, mostly a deep one."""
    lists = [child for child in tree if isinstance(child, list)]
    if not lists or chance.random() < 0.15:
        return tree, depth
    return some_pair(chance, chance.choice(lists), depth - 1)


def spoil(chance, tree, depth):
    """Makes a pair wrong, or makes it another one."""
    pair, level = some_pair(chance, tree, depth)
    k = chance.randrange(8)
    change = chance.randrange(6)
    if change == 0:
        # below voxels, or not merged
        pair[k] = [chance.choice([0, 1, 2])] * 8
    elif change in (1, 5):
        # not merged, unless it is the root's
        pair[:] = [chance.choice([0, 1, 2])] * 8
    elif change == 2:
        pair[k] = chance.choice([0, 1, 2])
    elif change == 3:
        pair[k] = random_map(chance, max(level - 1, 1))
    else:
        # one pair inside another, down to the voxels or one level further
        for _ in range(level - chance.choice([0, 1, 1])):
            pair[k] = [chance.choice([0, 1, 2]) for _ in range(8)]
            pair = pair[k]


def random_body(chance, depth):
    """A body, in every other case near one of a map."""
    tree = random_map(chance, depth)
    if chance.random() < 0.5:
        return bytes_of(tree)
    for _ in range(chance.choice([0, 0, 1, 1, 2])):
        spoil(chance, tree, depth)
    data = bytearray(bytes_of(tree))
    for _ in range(chance.choice([0, 1, 1, 1, 2])):
        change = chance.choice([0, 0, 0, 1, 1, 2, 3, 4, 5])
        if change == 0 and data:
            del data[chance.choice([len(data) - 1, len(data) - 2, chance.randrange(len(data))]):]
        elif change == 1:
            data += bytes(chance.choice([0, 0x55, 0xAA, 0xFF, chance.randrange(256)]) for _ in range(chance.choice([1, 1, 2, 2, 3, 4])))
        elif change == 2 and data:
            data[chance.randrange(len(data))] ^= 1 << chance.randrange(8)
        elif change == 3 and data:
            data[chance.randrange(len(data))] = chance.choice([0, 0x55, 0xAA, 0xFF, chance.randrange(256)])
        elif change == 4 and len(data) >= 2:
            # one code, often of the last pairs
            at = chance.choice([len(data) - 2, len(data) - 1, chance.randrange(len(data))])
            shift = chance.choice([0, 2, 4, 6])
            data[at] = data[at] & ~(3 << shift) | chance.randrange(4) << shift
        elif change == 5:
            at = 2 * chance.randrange(len(data) // 2 + 1)
            data[at:at + chance.choice([0, 2])] = bytes([chance.randrange(256), chance.randrange(256)])
    return bytes(data)


def hex_words(chance, data):
    """The bytes in base 16, at times in several words or in capitals."""
    digits = data.hex()
    if chance.random() < 0.1:
        digits = digits.upper()
    if data and chance.random() < 0.2:
        at = 2 * chance.randrange(1, len(data) + 1)
        digits = f"{digits[:at]} {digits[at:]}"
    return digits


def load_call(chance, depth):
    data = random_body(chance, depth)
    if chance.random() < 0.1:
        path = FILES / f"given-{chance.randrange(10**9)}.body"
        (ROOT / path).write_bytes(data)
        return f"load-file {path}"
    return "load " + hex_words(chance, data)


def load_calls(chance, depth):
    """A load, mostly on an empty map."""
    calls = [load_call(chance, depth if chance.random() < 0.95 else chance.randrange(1, 5))]
    return calls if chance.random() < 0.3 else ["clear", *calls]


def check_call(chance, depth):
    of = depth if chance.random() < 0.5 else chance.choice([1, 2, 3, 3, 4, 5])
    asked = of if chance.random() < 0.85 else chance.choice([0, 1, 2, 3, 4, 5, 6, 255])
    return f"check {asked} {hex_words(chance, random_body(chance, of))}"


def write_call(chance):
    return "write" if chance.random() < 0.8 else f"write-file {WRITTEN}"


def room_calls(chance, lines):
    """Writes with room for the body that is there by now, and with a byte less or more."""
    session = "\n".join([*lines, f"page {reference.MOST_WORDS}", f"room {reference.MOST_ROOM}", "write"])
    answer = list(reference.carry_out(reference.read_session(session)))[-1]
    length = len(answer.split(" ")[-1]) // 2 if answer.startswith("write ok") else 2
    calls = []
    for room in chance.sample([length - 1, length, length + 1, 0, 1, length - 2, chance.randrange(65537)], chance.choice([1, 2, 3])):
        calls += [f"room {max(room, 0)}", write_call(chance)]
    return calls if chance.random() < 0.2 else [*calls, f"room {reference.MOST_ROOM}"]


def page_calls(chance, depth, high):
    calls = [random_page(chance, high), *load_calls(chance, max(depth, 1)), write_call(chance)]
    return calls if chance.random() < 0.2 else [*calls, f"page {high}"]


def random_body_session(chance):
    depth = chance.choice([0, 1, 1, 2, 2, 2, 2, 3, 3, 3, 3, 4, 4, 5] if chance.random() < 0.5 else [1, 2, 3])
    high = 8 ** depth if depth else 8
    lines = [f"unit grid {depth}"]
    lines += [random_mask(chance, high) for _ in range(chance.choice([0, 0, 1, 2]))]
    # a map of depth 0 is given the bodies of depth 1
    some = max(depth, 1)
    for _ in range(chance.randrange(1, 9)):
        kind = chance.random()
        if kind < 0.35:
            lines += load_calls(chance, some)
        elif kind < 0.5:
            lines.append(check_call(chance, some))
        elif kind < 0.65:
            lines.append(write_call(chance))
        elif kind < 0.73:
            lines += room_calls(chance, lines)
        elif kind < 0.8:
            lines += page_calls(chance, depth, high)
        elif kind < 0.85:
            lines += random_scan_calls(chance, some)
        elif kind < 0.97:
            lines += [random_call(chance, high) for _ in range(chance.randrange(1, 4))]
            # about the border of free and occupied
            lines.append(f"set {chance.randrange(high)} {chance.choice([-1, 0, 0, 1])}")
        else:
            lines.append("show")
    lines += [f"page {high}", write_call(chance)]
    if chance.random() < 0.06:
        wrong = ["load 0", "load 0g", "load 00 0", "load-file", "load-file a b", "load-file tools/none.body", "write 1", "write-file", "write-file a b", f"write-file {FILES}/none/x.body"]
        wrong += ["room", "room x", "room 65537", "room -1", "room 4 4", "check", "check x", "check -1 00", "check 256 00", "check 2 0", "check 2 0g", "mask 00"]
        lines.insert(chance.randrange(len(lines) + 1), chance.choice(wrong))
    session = "\n".join(lines) + "\nshow\n" + "".join(f"read {index}\n" for index in range(min(high, 64)))
    if chance.random() < 0.05:
        session = session.replace("\n", "\r\n")
    return session.encode()


def main(arguments):
    count = int(arguments[0]) if arguments else 300
    chance = random.Random(int(arguments[1]) if len(arguments) > 1 else 1)
    (ROOT / FILES).mkdir(parents=True, exist_ok=True)
    files = sorted(ROOT.glob("tools/cases/*.session")) + sorted(ROOT.glob("examples/*.session"))
    sessions = [(str(f.relative_to(ROOT)), f.read_bytes()) for f in files]
    for k in range(count):
        made = chance.choice([random_session, random_scan_session, random_scan_session, random_body_session, random_body_session, random_body_session])
        sessions.append((f"random session {k}", made(chance)))
    wrong = [(name, session) for name, session in sessions if differs(session)]
    for name, session in wrong:
        print(f"differs: {name}")
        if name.startswith("random"):
            print(session.decode())
    print(f"{len(sessions) - len(wrong)} sessions alike, {len(wrong)} not")
    return 1 if wrong else 0


if __name__ == "__main__":
    sys.exit(main(sys.argv[1:]))
