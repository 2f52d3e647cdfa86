"""Gives a WebAssembly module whose memory has places of 64 bits a memory of 32, which every browser has and checks less.

usage: lower.py FROM TO

Each place is cut to 32 bits before memory is read or written there, as are lengths of runs; the size of memory, and what growing it answers,
are made 64 bits wide. What is exported takes and gives 32 bits in place of 64, which are numbers in JavaScript and no BigInts: a function of
its own calls the exported one. All else of the module stays. The module must be one that has no more than 4 GB, imports nothing, and stands in
one memory, as build makes it. The instructions are those of WebAssembly 2.0, with the tail calls; another one ends this.
"""
import sys

I32, I64, F32, F64, V128 = 0x7F, 0x7E, 0x7D, 0x7C, 0x7B
WRAP, EXTEND_U, EXTEND_S = 0xA7, 0xAD, 0xAC
# Which value a store takes from above its place.
STORED = {0x36: I32, 0x37: I64, 0x38: F32, 0x39: F64, 0x3A: I32, 0x3B: I32, 0x3C: I64, 0x3D: I64, 0x3E: I64}
# How many numbers follow an instruction.
NUMBERS = {0x0C: 1, 0x0D: 1, 0x10: 1, 0x11: 2, 0x12: 1, 0x13: 2, **{it: 1 for it in range(0x20, 0x27)}, 0xD0: 1, 0xD2: 1}
BARE = {0x00, 0x01, 0x05, 0x0B, 0x0F, 0x1A, 0x1B, 0xD1, *range(0x45, 0xC5)}
AFTER_FC = {**{it: 0 for it in range(8)}, 9: 1, 12: 2, 13: 1, 14: 2, 15: 1, 16: 1, 17: 1}


def stop(words):
    sys.exit(f"lower: {words}")


def number(data, at):
    """A number that stands at a place, unsigned, and the place behind it."""
    value = shift = 0
    while True:
        byte = data[at]
        at += 1
        value |= (byte & 0x7F) << shift
        shift += 7
        if byte < 0x80:
            return value, at


def past(data, at):
    """The place behind a number of either sign."""
    while data[at] >= 0x80:
        at += 1
    return at + 1


def leb(value):
    out = bytearray()
    while True:
        byte, value = value & 0x7F, value >> 7
        out.append(byte | 0x80 if value else byte)
        if not value:
            return bytes(out)


class Body:
    """A function's instructions, with locals for what stands above a place."""

    def __init__(self, data, at, end, params):
        self.data, self.at, self.end = data, at, end
        groups, self.at = number(data, at)
        self.first, count = self.at, 0
        for _ in range(groups):
            some, self.at = number(data, self.at)
            count += some
            self.at += 1
        self.groups, self.locals = groups, data[self.first : self.at]
        self.next, self.own, self.out = params + count, {}, bytearray()

    def local(self, kind, which=0):
        """The local that keeps a value of a kind."""
        if (kind, which) not in self.own:
            self.own[kind, which] = self.next + len(self.own)
        return leb(self.own[kind, which])

    def under(self, kind):
        """Cuts the place that stands under a value of this kind."""
        name = self.local(kind)
        self.out += b"\x21" + name + bytes([WRAP]) + b"\x20" + name

    def memory(self, at):
        """An access's alignment and offset, which the linker may have written with more bytes than 32 bits have; and the place behind."""
        align, at = number(self.data, at)
        offset, at = number(self.data, at)
        if align > 6 or offset >= 1 << 32:
            stop("an access of another memory, or beyond 4 GB")
        return leb(align) + leb(offset), at

    def run_of_bytes(self, is_copy):
        """Cuts the three numbers of a copy, or two of a filling, whose byte is in the middle."""
        n = self.local(I64, 0)
        if is_copy:
            other = self.local(I64, 1)
            self.out += b"\x21" + n + b"\x21" + other + bytes([WRAP]) + b"\x20" + other + bytes([WRAP]) + b"\x20" + n + bytes([WRAP])
        else:
            byte = self.local(I32, 0)
            self.out += b"\x21" + n + b"\x21" + byte + bytes([WRAP]) + b"\x20" + byte + b"\x20" + n + bytes([WRAP])

    def step(self):
        """Writes one instruction."""
        data, at = self.data, self.at
        code, behind, told, after = data[at], at + 1, None, b""
        if code in BARE:
            pass
        elif code in NUMBERS:
            for _ in range(NUMBERS[code]):
                behind = past(data, behind)
        elif 0x28 <= code <= 0x3E:
            told, behind = self.memory(behind)
            told = bytes([code]) + told
            if code in STORED:
                self.under(STORED[code])
            else:
                self.out.append(WRAP)
        elif code in (0x02, 0x03, 0x04, 0x41, 0x42):
            behind = past(data, behind)
        elif code in (0x43, 0x44):
            behind += 4 if code == 0x43 else 8
        elif code in (0x3F, 0x40):
            behind, after = behind + 1, bytes([EXTEND_U if code == 0x3F else EXTEND_S])
            if code == 0x40:
                self.out.append(WRAP)
        elif code in (0x0E, 0x1C):
            count, behind = number(data, behind)
            for _ in range(count + (code == 0x0E)):
                behind = past(data, behind)
        elif code == 0xFC:
            behind = self.step_fc(behind)
        elif code == 0xFD:
            told, behind = self.step_fd(behind)
        else:
            stop(f"the instruction {code:#x} isn't known")
        self.out += (data[at:behind] if told is None else told) + after
        self.at = behind

    def step_fc(self, behind):
        which, behind = number(self.data, behind)
        if which in (10, 11):
            self.run_of_bytes(which == 10)
            return behind + (2 if which == 10 else 1)
        if which not in AFTER_FC:
            stop(f"the instruction 0xfc {which} isn't known")
        for _ in range(AFTER_FC[which]):
            behind = past(self.data, behind)
        return behind

    def step_fd(self, behind):
        which, behind = number(self.data, behind)
        if which <= 11 or 84 <= which <= 93:
            told, behind = self.memory(behind)
            lane = self.data[behind : behind + (84 <= which <= 91)]
            if which == 11 or lane:
                self.under(V128)
            else:
                self.out.append(WRAP)
            return b"\xfd" + leb(which) + told + lane, behind + len(lane)
        if which > 255:
            stop(f"the instruction 0xfd {which} isn't known")
        return None, behind + (16 if which in (12, 13) else 1 if 21 <= which <= 34 else 0)

    def whole(self):
        while self.at < self.end:
            self.step()
        added = b"".join(b"\1" + bytes([kind]) for kind, _ in self.own)
        body = leb(self.groups + len(self.own)) + self.locals + added + self.out
        return leb(len(body)) + body


def kinds_of(data, at):
    """What the functions of each type of the module take, and what they give."""
    count, at = number(data, at)
    found = []
    for _ in range(count):
        if data[at] != 0x60:
            stop("a type that is no function's")
        some, at = number(data, at + 1)
        results, behind = number(data, at + some)
        found.append((data[at : at + some], data[behind : behind + results]))
        at = behind + results
    return found


def narrow(kinds):
    """The same with 32 bits in place of 64."""
    return bytes(I32 if it == I64 else it for it in kinds)


def caller(which, takes, gives):
    """The body of a function that takes and gives 32 bits where the one that it calls has 64."""
    body = bytearray(b"\0")
    for i, kind in enumerate(takes):
        body += b"\x20" + leb(i) + bytes([EXTEND_U]) * (kind == I64)
    body += b"\x10" + leb(which) + bytes([WRAP]) * (gives == bytes([I64])) + b"\x0b"
    return leb(len(body)) + body


class Callers:
    """What is exported, each by a function of its own, where 64 bits are taken or given."""

    def __init__(self, kinds, types):
        self.kinds, self.types, self.more, self.bodies = kinds, types, [], []

    def export(self, which):
        """The function that is exported in the place of one."""
        takes, gives = self.kinds[self.types[which]]
        if I64 not in takes + gives:
            return which
        own = narrow(takes), narrow(gives)
        if len(gives) > 1:
            stop("an export that gives more than one value")
        if own not in self.kinds:
            self.kinds.append(own)
        self.more.append(self.kinds.index(own))
        self.bodies.append(caller(which, takes, gives))
        return len(self.types) + len(self.more) - 1


def exports(data, at, callers):
    """What is exported."""
    count, at = number(data, at)
    out = bytearray(leb(count))
    for _ in range(count):
        size, first = number(data, at)
        kind = data[first + size]
        which, behind = number(data, first + size + 1)
        out += data[at : first + size + 1] + leb(callers.export(which) if kind == 0 else which)
        at = behind
    return bytes(out)


def vector(parts):
    return leb(len(parts)) + b"".join(parts)


def limits(data, at):
    """Limits of a memory, of 32 bits."""
    flags = data[at]
    if not flags & 4 or flags > 5:
        stop("the memory isn't one of 64 bits")
    least, at = number(data, at + 1)
    out = bytes([flags & 1]) + leb(least)
    if flags & 1:
        most, at = number(data, at)
        out += leb(min(most, 65536))
    return out, at


def segments(data, at):
    """The parts that are put into memory at first, each at a place of 32 bits."""
    count, at = number(data, at)
    out = bytearray(leb(count))
    for _ in range(count):
        kind, at = number(data, at)
        out += leb(kind)
        if kind == 0:
            behind = past(data, at + 1)
            if data[at] != 0x42 or data[behind] != 0x0B:
                stop("a place that is no number")
            out += b"\x41" + data[at + 1 : behind + 1]
            at = behind + 1
        elif kind != 1:
            stop("another memory")
        size, behind = number(data, at)
        out += data[at : behind + size]
        at = behind + size
    return bytes(out)


def sections(data):
    """The sections of a module: the number of each, and the places where it begins and ends."""
    at = 8
    while at < len(data):
        size, first = number(data, at + 1)
        yield data[at], first, first + size
        at = first + size


def types_of(data, at):
    """The type of each function."""
    count, at = number(data, at)
    types = []
    for _ in range(count):
        kind, at = number(data, at)
        types.append(kind)
    return types


def bodies_of(data, at, kinds, types):
    """The bodies of the functions."""
    count, at = number(data, at)
    for i in range(count):
        length, at = number(data, at)
        yield Body(data, at, at + length, len(kinds[types[i]][0])).whole()
        at += length


def lowered(data):
    """The module with a memory of 32 bits."""
    first = {section: at for section, at, _ in sections(data)}
    kinds, types = kinds_of(data, first[1]), types_of(data, first[3])
    callers = Callers(kinds, types)
    named, out = exports(data, first[7], callers), bytearray(data[:8])
    for section, at, end in sections(data):
        body = data[at:end]
        if section == 1:
            body = vector([b"\x60" + vector([bytes([it]) for it in takes]) + vector([bytes([it]) for it in gives]) for takes, gives in kinds])
        elif section == 2 and body != b"\0":
            stop("the module imports something")
        elif section == 3:
            body = vector([leb(it) for it in types + callers.more])
        elif section == 5:
            if number(data, at)[0] != 1:
                stop("not one memory")
            body = leb(1) + limits(data, number(data, at)[1])[0]
        elif section == 7:
            body = named
        elif section == 10:
            body = vector([*bodies_of(data, at, kinds, types), *callers.bodies])
        elif section == 11:
            body = segments(data, at)
        out += bytes([section]) + leb(len(body)) + body
    return bytes(out)


if __name__ == "__main__":
    if len(sys.argv) != 3:
        sys.exit(__doc__)
    with open(sys.argv[1], "rb") as file:
        module = file.read()
    with open(sys.argv[2], "wb") as file:
        file.write(lowered(module))
