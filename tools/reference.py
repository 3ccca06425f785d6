#!/usr/bin/env python3
"""Prints what `geltzori SESSION` should print.

An independent model of docs/RULES.md and docs/SESSIONS.md. It shares no code
with the program and is built differently where that was easy: cells are kept
by voxel coordinates, and mixed cubes are counted by looking at every voxel of
every cube that could be mixed. A line is traced by making a list of all its
crossings, sorting it by exact fractions and going through it. The text of a
scan is read byte by byte. A body is written by looking at all voxels of each
cube, and read with a list of the cubes whose pairs are still to come.

    python3 reference.py SESSION
    python3 reference.py < SESSION
"""

import re
import sys
from fractions import Fraction
from itertools import product

UNKNOWN = None  # a cell is UNKNOWN or an int
LOWEST, HIGHEST = -200, 350
CHANGE = {"hit": 85, "miss": -40}
MOST_RUNS = 16
MOST_MASKS = 2
INDEX_END = 32768
VOXEL_TICKS = 64
MOST_RETURNS = 512
MOST_DIGITS = 4
LINE_FEED = 10
MOST_WORDS = 65536
MOST_ROOM = 65536


# --- space -----------------------------------------------------------------

def index_of(depth, voxel):
    """The digits in base 8 are written from the highest bit down."""
    x, y, z = voxel
    index = 0
    for k in reversed(range(depth)):
        digit = (x >> k & 1) + 2 * (y >> k & 1) + 4 * (z >> k & 1)
        index = 8 * index + digit
    return index


def voxel_at(depth, index):
    x = y = z = 0
    for k in range(depth):
        digit = index // 8**k % 8
        x += (digit & 1) << k
        y += (digit >> 1 & 1) << k
        z += (digit >> 2 & 1) << k
    return x, y, z


# --- cells -----------------------------------------------------------------

def updated(cell, event):
    total = (0 if cell is UNKNOWN else cell) + CHANGE[event]
    return max(LOWEST, min(HIGHEST, total))


def state_mark(cell):
    if cell is UNKNOWN:
        return "?"
    return "#" if cell >= 0 else "."


# --- cubes and blocks --------------------------------------------------------

def blocks_needed(depth, cells):
    """1, and 1 for each mixed aligned cube of levels 1 to depth - 1.

    `cells` maps voxels to known cells; a voxel that is missing is unknown.
    A cube without a known cell is all unknown, so it is not mixed and is not
    looked at.
    """
    return 1 + len(mixed_cubes(depth, cells))


def mixed_cubes(depth, cells):
    """The mixed cubes of levels 1 to depth - 1, as (level, corner)."""
    around = {cube for voxel in cells for cube in cubes_around(depth, voxel)}
    return {cube for cube in around if is_mixed(cube, cells)}


def cubes_around(depth, voxel):
    for level in range(1, depth):
        width = 2**level
        yield level, tuple(c - c % width for c in voxel)


def is_mixed(cube, cells):
    level, corner = cube
    ranges = [range(c, c + 2**level) for c in corner]
    first = cells.get(corner, UNKNOWN)
    return any(cells.get(v, UNKNOWN) != first for v in product(*ranges))


# --- masks -------------------------------------------------------------------

class Refused(Exception):
    def __init__(self, number, place=0):
        super().__init__(number, place)
        self.number = number
        self.place = place


def mask_runs(data):
    """The runs (offset, length) that a mask's bytes hold, or Refused."""
    if len(data) % 4 != 0:
        raise Refused(19)
    if len(data) // 4 > MOST_RUNS:
        raise Refused(20)
    runs = []
    for place in range(0, len(data), 4):
        offset = data[place] + 256 * data[place + 1]
        length = data[place + 2] + 256 * data[place + 3]
        if length == 0:
            raise Refused(21, place)
        if runs and offset <= runs[-1][0] + runs[-1][1]:
            raise Refused(22, place)
        if offset + length > INDEX_END:
            raise Refused(23, place)
        runs.append((offset, length))
    return runs


# --- the text of a scan --------------------------------------------------------

class Reading:
    """Bytes that are read one after the other."""

    def __init__(self, data):
        self.data = data
        self.at = 0

    def peek(self):
        return self.data[self.at] if self.at < len(self.data) else None

    def next(self):
        byte = self.peek()
        self.at += 1
        return byte

    def skip(self, byte):
        """Whether the next byte was this one. Only then is it taken."""
        if self.peek() != byte:
            return False
        self.at += 1
        return True


def read_number(reading):
    """The number that begins here, or None. It ends before the first byte that is no digit."""
    digits = []
    while reading.peek() is not None and ord("0") <= reading.peek() <= ord("9"):
        digits.append(reading.next() - ord("0"))
    if not 1 <= len(digits) <= MOST_DIGITS:
        return None
    if digits[0] == 0 and len(digits) > 1:
        return None
    return sum(digit * 10**k for k, digit in enumerate(reversed(digits)))


def read_line(reading):
    """(letter, position) of the line that begins here, or None where it is malformed.

    The line feed is taken too.
    """
    letter = reading.next()
    position = []
    if letter is not None and chr(letter) in "OHF":
        for _ in range(3):
            number = read_number(reading) if reading.skip(ord(" ")) else None
            if number is None:
                return None
            position.append(number)
    elif letter != ord("E"):
        return None
    return (chr(letter), tuple(position)) if reading.skip(LINE_FEED) else None


def read_scan(depth, data):
    """(bytes used, origin, return lines), or Refused for the first wrong line."""
    ticks = VOXEL_TICKS * 2**depth
    reading = Reading(data)
    origin = None
    returns = []
    while True:
        place = reading.at
        if LINE_FEED not in data[place:]:
            raise Refused(3, place)
        line = read_line(reading)
        if line is None:
            raise Refused(4, place)
        letter, position = line
        if (letter == "O") != (origin is None):
            raise Refused(5, place)
        if any(number >= ticks for number in position):
            raise Refused(6, place)
        if letter in "HF" and len(returns) == MOST_RETURNS:
            raise Refused(7, place)
        if letter == "E":
            return reading.at, origin, returns
        if letter == "O":
            origin = position
        else:
            returns.append(line)


# --- tracing -------------------------------------------------------------------

def voxel_of(position):
    return tuple(number // VOXEL_TICKS for number in position)


def crossings(start, end):
    """The crossings (fraction, axis, step) of a line in the order in which they come."""
    found = []
    for axis in range(3):
        o, p = start[axis], end[axis]
        # every plane of the axis that has o on one side and p on the other;
        # a plane belongs to the voxel above it
        for plane in range(VOXEL_TICKS, max(o, p) + 1, VOXEL_TICKS):
            if (o < plane) != (p < plane):
                found.append((Fraction(plane - o, p - o), axis, 1 if p > o else -1))
    return sorted(found)


def passed(start, end):
    """The voxels that a line passes."""
    voxel = list(voxel_of(start))
    left = []
    for _, axis, step in crossings(start, end):
        left.append(tuple(voxel))
        voxel[axis] += step
    assert tuple(voxel) == voxel_of(end)
    return left


def seen(origin, returns):
    """The event of each voxel of which a scan's lines tell something."""
    hit = {voxel_of(end) for letter, end in returns if letter == "H"}
    missed = {voxel for _, end in set(returns) for voxel in passed(origin, end)}
    return {voxel: "hit" if voxel in hit else "miss" for voxel in hit | missed}


# --- bodies --------------------------------------------------------------------

# the codes of a child; those of a voxel are its states too
UNSEEN, FREE, OCCUPIED, DIVIDED = range(4)
LOADED = {FREE: LOWEST, OCCUPIED: HIGHEST}


def state_of(cell):
    if cell is UNKNOWN:
        return UNSEEN
    return OCCUPIED if cell >= 0 else FREE


def voxels_in(corner, width):
    return product(*(range(c, c + width) for c in corner))


def octants(corner, width):
    """The corners of the eight cubes of half the width, x changing first."""
    half = width // 2
    x, y, z = corner
    return [(i, j, k) for k in (z, z + half) for j in (y, y + half) for i in (x, x + half)]


def code_of(states, corner, width):
    found = {states.get(voxel, UNSEEN) for voxel in voxels_in(corner, width)}
    return found.pop() if len(found) == 1 else DIVIDED


def pairs_of(states, corner, width):
    """The pair of a cube and, behind it, those under it."""
    children = octants(corner, width)
    codes = [code_of(states, child, width // 2) for child in children]
    data = sum(code * 4**k for k, code in enumerate(codes)).to_bytes(2, "little")
    for child, code in zip(children, codes):
        if code == DIVIDED:
            data += pairs_of(states, child, width // 2)
    return data


def body_of(depth, states):
    """The body of a map. `states` maps voxels to states; a voxel that is missing is unseen."""
    return pairs_of(states, (0, 0, 0), 2**depth)


def body_of_digits(depth, digits):
    """The body of a map whose states are given by index, a digit to a voxel."""
    return body_of(depth, {voxel_at(depth, index): int(digit) for index, digit in enumerate(digits)})


def read_body(depth, data):
    """The states of the voxels that are not unseen, or Refused for the first wrong pair."""
    states = {}
    due = [((0, 0, 0), 2**depth)]  # cubes whose pairs have yet to come, the next one last
    place = 0
    while due:
        corner, width = due.pop()
        pair = data[place:place + 2]
        if len(pair) < 2:
            raise Refused(9, place)
        codes = [byte >> shift & 3 for byte in pair for shift in (0, 2, 4, 6)]
        if width == 2 and DIVIDED in codes:
            raise Refused(10, place)
        if place > 0 and codes in ([UNSEEN] * 8, [FREE] * 8, [OCCUPIED] * 8):
            raise Refused(11, place)
        divided = []
        for child, code in zip(octants(corner, width), codes):
            if code == DIVIDED:
                divided.append((child, width // 2))
            elif code != UNSEEN:
                states.update(dict.fromkeys(voxels_in(child, width // 2), code))
        due += reversed(divided)
        place += 2
    if place < len(data):
        raise Refused(12, place)
    return states


def check(depth, data):
    """0, or the number by which the body is refused at that depth."""
    if not 1 <= depth <= 5:
        return 1
    try:
        read_body(depth, data)
        return 0
    except Refused as refusal:
        return refusal.number


# --- the unit ----------------------------------------------------------------

class Unit:
    """A grid under its masks."""

    def __init__(self, asked):
        self.depth = asked if 1 <= asked <= 5 else 0
        self.side = 2**self.depth if self.depth else 0
        self.count = self.side**3
        # one block for every cube of every level from 1 up to the root's
        self.limit = sum(8**k for k in range(self.depth))
        self.cells = {}  # voxel -> number; unknown cells are left out
        self.closed = set()  # indices
        self.words = self.count  # of the page that is lent
        self.room = MOST_ROOM  # bytes of the output that is lent

    def lay(self, runs):
        for offset, length in runs:
            self.closed.update(range(offset, offset + length))

    def read(self, index):
        if index >= self.count:
            return UNKNOWN
        return self.cells.get(voxel_at(self.depth, index), UNKNOWN)

    def open(self, index):
        return index < self.count and index not in self.closed

    def set(self, index, cell):
        if not self.open(index):
            raise Refused(13)
        if cell is not UNKNOWN and not LOWEST <= cell <= HIGHEST:
            raise Refused(14)
        after = dict(self.cells)
        voxel = voxel_at(self.depth, index)
        if cell is UNKNOWN:
            after.pop(voxel, None)
        else:
            after[voxel] = cell
        if blocks_needed(self.depth, after) > self.limit:
            raise Refused(15, index)
        self.cells = after

    def clear(self):
        self.cells = {}

    def lend(self):
        """Refused where there is no map to work on or the page is too short for it."""
        if self.depth == 0:
            raise Refused(1)
        if self.words < self.count:
            raise Refused(2)

    def take(self, cells):
        """Sets these voxels in rising index: (voxels set, voxels skipped), or Refused with none set."""
        done = skipped = 0
        after = dict(self.cells)
        # counting every cube anew at each set would take too long: only the
        # cubes around the voxel are looked at, and the sum is checked at the end
        mixed = mixed_cubes(self.depth, after)
        for index in range(self.count):
            voxel = voxel_at(self.depth, index)
            if voxel not in cells:
                continue
            if not self.open(index):
                skipped += 1
                continue
            after[voxel] = cells[voxel]
            for cube in cubes_around(self.depth, voxel):
                if is_mixed(cube, after):
                    mixed.add(cube)
                else:
                    mixed.discard(cube)
            if 1 + len(mixed) > self.limit:
                raise Refused(15, index)
            done += 1
        assert 1 + len(mixed) == blocks_needed(self.depth, after)
        self.cells = after
        return done, skipped

    def scan(self, data):
        """(bytes used, voxels set, voxels skipped), or Refused."""
        self.lend()
        used, origin, returns = read_scan(self.depth, data)
        events = seen(origin, returns)
        done, skipped = self.take({voxel: updated(self.cells.get(voxel, UNKNOWN), event) for voxel, event in events.items()})
        return used, done, skipped

    def load(self, data):
        """(voxels set, voxels skipped), or Refused."""
        self.lend()
        if self.cells:
            raise Refused(8)
        return self.take({voxel: LOADED[state] for voxel, state in read_body(self.depth, data).items()})

    def write(self):
        """The body, or Refused."""
        self.lend()
        body = body_of(self.depth, {voxel: state_of(cell) for voxel, cell in self.cells.items()})
        if len(body) > self.room:
            raise Refused(18)
        return body

    def show(self):
        if self.depth == 0:
            return ["no voxels"]
        lines = []
        for z in range(self.side):
            lines.append(f"z {z}")
            for y in range(self.side):
                line = ""
                for x in range(self.side):
                    index = index_of(self.depth, (x, y, z))
                    line += state_mark(self.read(index)) if self.open(index) else "x"
                lines.append(line)
        return lines


# --- reading a session -------------------------------------------------------

class Wrong(Exception):
    """A line that cannot be read, or a call that stands at a wrong place."""

    def __init__(self, number, reason, line):
        super().__init__(number, reason, line)
        self.message = f"line {number}: {reason}: {line}"


INDEX_MOST = 2**64 - 1
VALUE_LEAST, VALUE_MOST = -(2**63), 2**63 - 1


NATURAL = re.compile(r"[0-9]+")
NUMBER = re.compile(r"-?[0-9]+")
HEX = re.compile(r"([0-9A-Fa-f]{2})+")


def index_from(word):
    """An index of 64 bits, or None."""
    if NATURAL.fullmatch(word) and int(word) <= INDEX_MOST:
        return int(word)
    return None


def read_call(words):
    """The call that the words of a line stand for, or None."""
    name, rest = words[0], words[1:]
    if name == "unit":
        if len(rest) == 2 and rest[0] == "grid" and NATURAL.fullmatch(rest[1]):
            depth = int(rest[1])
            return ("unit", depth) if depth <= 255 else None
    elif name == "mask":
        if all(HEX.fullmatch(word) for word in rest):
            return "mask", bytes.fromhex("".join(rest))
    elif name == "set":
        if len(rest) == 2 and index_from(rest[0]) is not None:
            if rest[1] == "unknown":
                return "set", int(rest[0]), UNKNOWN
            if NUMBER.fullmatch(rest[1]) and VALUE_LEAST <= int(rest[1]) <= VALUE_MOST:
                value = max(-32768, min(32767, int(rest[1])))
                return "set", int(rest[0]), value
    elif name in ("hit", "miss", "read"):
        if len(rest) == 1 and index_from(rest[0]) is not None:
            return name, int(rest[0])
    elif name in ("clear", "show", "scan", "write"):
        if not rest:
            return (name,)
    elif name in ("scan-file", "load-file", "write-file"):
        if len(rest) == 1:
            return name, rest[0]
    elif name in ("scan-hex", "load"):
        if all(HEX.fullmatch(word) for word in rest):
            return name, bytes.fromhex("".join(rest))
    elif name in ("page", "room"):
        most = MOST_WORDS if name == "page" else MOST_ROOM
        if len(rest) == 1 and NATURAL.fullmatch(rest[0]) and int(rest[0]) <= most:
            return name, int(rest[0])
    elif name == "check":
        if rest and NATURAL.fullmatch(rest[0]) and int(rest[0]) <= 255 and all(HEX.fullmatch(word) for word in rest[1:]):
            return name, int(rest[0]), bytes.fromhex("".join(rest[1:]))
    return None


def misplaced(call, calls):
    """Why a call may not follow these, or None."""
    if not calls:
        return None if call[0] == "unit" else "unit must come first"
    if call[0] == "unit":
        return "a second unit"
    if call[0] == "mask" and calls[-1][1][0] not in ("unit", "mask"):
        return "mask after other calls"
    return None


def session_lines(text):
    """The lines without their ends. What follows the last line feed is a line if it is not empty."""
    lines = text.split("\n")
    if lines[-1] == "":
        lines.pop()
    return [line.removesuffix("\r") for line in lines]


def scan_lines(lines):
    """The lines of a scan that begins here: to the first that is E, or all."""
    return lines[:lines.index("E") + 1] if "E" in lines else lines


def file_bytes(path):
    """What a file holds, or None."""
    try:
        with open(path.encode("latin-1"), "rb") as file:
            return file.read()
    except (OSError, ValueError):
        return None


# the calls that take a file's bytes, and those that are given the bytes themselves
OF_FILE = {"scan-file": "scan-hex", "load-file": "load"}


def read_session(text):
    """All calls of a session with their lines, or Wrong for its first wrong line.

    A scan is given back as its bytes, in whichever of the three ways it was written,
    and so is the body of a load.
    """
    calls = []
    lines = session_lines(text)
    at = 0
    while at < len(lines):
        line = lines[at]
        at += 1
        number = at
        words = line.split("#", 1)[0].strip(" \t")
        if words == "":
            continue
        call = read_call(re.split(r"[ \t]+", words))
        if call is None:
            raise Wrong(number, "cannot read", line)
        if call[0] in OF_FILE:
            call = OF_FILE[call[0]], file_bytes(call[1])
            if call[1] is None:
                raise Wrong(number, "cannot read the file", line)
        reason = misplaced(call, calls)
        if reason:
            raise Wrong(number, reason, line)
        if call[0] == "scan":
            raw = scan_lines(lines[at:])
            at += len(raw)
            call = "scan-hex", "".join(f"{each}\n" for each in raw).encode("latin-1")
        calls.append(((number, line), call))
    return calls


# --- carrying it out ---------------------------------------------------------

def told(name, action, form=""):
    """The answer of a call. What the action gives is told in the form."""
    try:
        done = action()
        return f"{name} ok" + form.format(done)
    except Refused as refusal:
        return f"{name} refused {refusal.number} at {refusal.place}"


SCAN_FORM = " used {0[0]} set {0[1]} skipped {0[2]}"
LOAD_FORM = " set {0[0]} skipped {0[1]}"


def write_to(path, body):
    with open(path.encode("latin-1"), "wb") as file:
        file.write(body)
    return body


def carry_out(calls):
    unit = None
    laid = 0
    for (number, line), call in calls:
        name = call[0]
        if name == "unit":
            unit = Unit(call[1])
            yield f"unit G depth {unit.depth} limit {unit.limit}"
        elif name == "mask":
            if laid == MOST_MASKS:
                raise Wrong(number, "two masks are laid already", line)
            answer = told(name, lambda: unit.lay(mask_runs(call[1])))
            laid += answer == "mask ok"
            yield answer
        elif name == "set":
            yield told(name, lambda: unit.set(call[1], call[2]))
        elif name in ("hit", "miss"):
            cell = updated(unit.read(call[1]), name)
            yield told(name, lambda: unit.set(call[1], cell))
        elif name == "read":
            cell = unit.read(call[1])
            yield "read unknown" if cell is UNKNOWN else f"read {cell}"
        elif name == "clear":
            yield told(name, unit.clear)
        elif name == "show":
            yield from unit.show()
        elif name == "scan-hex":
            yield told("scan", lambda: unit.scan(call[1]), SCAN_FORM)
        elif name == "page":
            unit.words = call[1]
            yield f"page {unit.words}"
        elif name == "load":
            yield told(name, lambda: unit.load(call[1]), LOAD_FORM)
        elif name == "write":
            yield told(name, lambda: unit.write().hex(), " {}")
        elif name == "write-file":
            try:
                answer = told("write", lambda: write_to(call[1], unit.write()).hex(), " {}")
            except (OSError, ValueError):
                raise Wrong(number, "cannot write the file", line) from None
            yield answer
        elif name == "room":
            unit.room = call[1]
            yield f"room {unit.room}"
        elif name == "check":
            yield f"check {check(call[1], call[2])}"


def main(arguments):
    if len(arguments) > 1:
        sys.stderr.write("usage: reference.py [SESSION]\n")
        return 1
    if arguments:
        with open(arguments[0], "rb") as file:
            data = file.read()
    else:
        data = sys.stdin.buffer.read()
    # one character for each byte, so that a line is given back as it was
    text = data.decode("latin-1")
    try:
        for line in carry_out(read_session(text)):
            print(line)
    except Wrong as wrong:
        sys.stdout.flush()
        sys.stderr.buffer.write(f"geltzori: {wrong.message}\n".encode("latin-1"))
        return 1
    return 0


if __name__ == "__main__":
    sys.exit(main(sys.argv[1:]))
