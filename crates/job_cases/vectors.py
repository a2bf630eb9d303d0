#!/usr/bin/env python3
"""The jobs of this crate and what the reader must give of each, worked out from the fields that document 01 and requests (i), (iii) and (ix) of
document 02 list, alone: a walk from field to field, which knows nothing of places.

    vectors.py    writes the files stdin and stdout beside itself
"""
import os, random, struct

random.seed(1994)
PLAIN = bytes.fromhex("01000101" "02000101" "0300020000" "04000400000000" "0500083FF00A3D70A3D70A" "0700043B9ACA00")
EXAMPLE = PLAIN + bytes.fromhex("08000604013C336080")
DATED = PLAIN + bytes.fromhex("0A0008" "023C336080" "020406")
# where the version stands: straight after 04
HEAD = 20


class Malformed(Exception):
    pass


class Walk:
    def __init__(self, job):
        self.left = job

    def any_field(self):
        """tag and data of the next field"""
        if len(self.left) < 3:
            raise Malformed
        tag, length = struct.unpack(">BH", self.left[:3])
        content, self.left = self.left[3:3 + length], self.left[3 + length:]
        if len(content) != length:
            raise Malformed
        return tag, content

    def field(self, tags, width):
        """the same of one that must have one of the tags and this width"""
        tag, content = self.any_field()
        if tag not in tags or len(content) != width:
            raise Malformed
        return tag, content

    def number(self, tag, width):
        return int.from_bytes(self.field([tag], width)[1], "big")


def option(tag, content):
    """tag, kind or side, expiry, strike, number of dates, dates"""
    if tag == 8 and len(content) == 6:
        return [8, *struct.unpack(">BBI", content), 0]
    if tag == 10 and len(content) >= 5:
        side, strike = struct.unpack(">BI", content[:5])
        return [10, side, 0, strike, len(content) - 5, *content[5:]]
    raise Malformed


def read(job):
    """the lines of a job"""
    if len(job) > 4700:
        raise Malformed
    walk = Walk(job)
    f, n, b, s = walk.number(1, 1), walk.number(2, 1), walk.number(3, 2), walk.number(4, 4)
    version = 0
    if walk.left[:1] == b"\x0B":
        version = walk.number(11, 1)
        if version not in (1, 2):
            raise Malformed
    quotes = [walk.field([5, 6, 9], 8) for _ in range(n)]
    flows = [walk.number(7, 4) for _ in range(n)]
    lines = ["job 0 %d %d %d %d %d" % (f, n, b, s, version)]
    lines += ["row %d %d %d" % (kind, int.from_bytes(figure, "big"), flow) for (kind, figure), flow in zip(quotes, flows)]
    if walk.left:
        lines.append(" ".join(["option", *map(str, option(*walk.any_field()))]))
    if walk.left:
        raise Malformed
    return lines


def answer(job):
    try:
        return read(job)
    except Malformed:
        return ["job 1 0 0 0 0 0"]


def field(tag, content):
    return struct.pack(">BH", tag, len(content)) + content


SPECIAL = [0x7FF8000000000000, 0x7FF0000000000001, 0xFFFFFFFFFFFFFFFF, 0x8000000000000000, 0x7FF0000000000000, 0xFFF0000000000000, 1, 0]


def number(width):
    return random.choice([0, 256 ** width - 1, random.randrange(256 ** width)]).to_bytes(width, "big")


def dated(count):
    """a list of so many dates, in any order"""
    return field(10, number(1) + number(4) + bytes(random.randrange(256) for _ in range(count)))


def fields(n, option):
    """the fields of a job of n steps, with any numbers"""
    figure = lambda: random.choice(SPECIAL + [random.getrandbits(64)] * 8).to_bytes(8, "big")
    parts = [field(1, number(1)), field(2, bytes([n])), field(3, number(2)), field(4, number(4))]
    parts += [field(random.choice([5, 6, 9]), figure()) for _ in range(n)]
    parts += [field(7, number(4)) for _ in range(n)]
    return parts + ([field(8, number(1) + number(1) + number(4))] if option else [])


def jobs():
    yield EXAMPLE
    for n in [0, 1, 2, 3, 60, 255]:
        for option in [False, True]:
            yield b"".join(fields(n, option))
    for _ in range(20):
        yield b"".join(fields(random.randrange(1, 6), random.random() < 0.5))
    # cut short, and with bytes after it
    for k in range(len(EXAMPLE)):
        yield EXAMPLE[:k]
    for more in [b"\0", b"\x08", EXAMPLE[-9:], EXAMPLE[-16:-9], EXAMPLE[:4], EXAMPLE]:
        yield EXAMPLE + more
    # each byte of the example one higher, one lower, and another
    for k, x in enumerate(EXAMPLE):
        for other in {(x + 1) % 256, (x - 1) % 256, random.randrange(256)} - {x}:
            yield EXAMPLE[:k] + bytes([other]) + EXAMPLE[k + 1:]
    # fields left out, doubled and exchanged
    parts = fields(2, True)
    for k in range(len(parts)):
        yield b"".join(parts[:k] + parts[k + 1:])
        yield b"".join(parts[:k] + parts[k:k + 1] + parts[k:])
        for i in range(k):
            swapped = list(parts)
            swapped[i], swapped[k] = swapped[k], swapped[i]
            yield b"".join(swapped)
    # tags that are no part of this form
    for tag in [0, 9, 11, 16, 255]:
        yield b"".join(fields(1, False)) + field(tag, bytes(6))
        yield b"".join(fields(1, True)) + field(tag, bytes(1))
    # about the greatest length, and past it
    longest = b"".join(fields(255, True))
    for length in [4620, 4700, 4701]:
        yield longest + bytes(length - len(longest))
    yield bytes(random.randrange(256) for _ in range(4701))
    yield bytes(5000)
    yield from dated_jobs()
    yield from version_jobs()


def version_jobs():
    """with a version"""
    for version in [0, 1, 2, 3, 255]:
        for job in [EXAMPLE, PLAIN, DATED, b"".join(fields(0, False)), b"".join(fields(0, True)), b"".join(fields(3, True))]:
            yield job[:HEAD] + field(11, bytes([version])) + job[HEAD:]
    # of another length, and with a length that is not that of the bytes
    for content in [b"", b"\0\2", b"\2\0"]:
        yield EXAMPLE[:HEAD] + field(11, content) + EXAMPLE[HEAD:]
    for wrong in [0, 2, 256, 258]:
        yield EXAMPLE[:HEAD] + b"\x0B" + struct.pack(">H", wrong) + b"\2" + EXAMPLE[HEAD:]
    # twice, and in another place
    for first in [1, 2]:
        for second in [1, 2]:
            yield EXAMPLE[:HEAD] + field(11, bytes([first])) + field(11, bytes([second])) + EXAMPLE[HEAD:]
    for place in [0, 4, 8, 13, 31, 38, len(EXAMPLE)]:
        yield EXAMPLE[:place] + field(11, b"\2") + EXAMPLE[place:]
        yield EXAMPLE[:place] + field(11, b"\1") + EXAMPLE[place:]
    # cut short
    whole = EXAMPLE[:HEAD] + field(11, b"\2") + EXAMPLE[HEAD:]
    for k in range(HEAD, len(whole)):
        yield whole[:k]
    # as many dates as 4,700 bytes have room for, and one more
    for n in [0, 255]:
        start = b"".join(fields(n, False))
        start = start[:HEAD] + field(11, b"\2") + start[HEAD:]
        room = 4700 - len(start) - 3 - 5
        yield start + dated(room)
        yield start + dated(room + 1)


def dated_jobs():
    """with a list of dates"""
    yield DATED
    plain = lambda n: b"".join(fields(n, False))
    for n in [0, 1, 3, 60]:
        for count in [0, 1, 2, 7, 60]:
            yield plain(n) + dated(count)
    # any side: whether it is a call or a put is not judged here
    for side in [0, 1, 2, 3, 255]:
        yield PLAIN + field(10, bytes([side]) + number(4) + bytes([1, 2]))
    # fewer bytes than side and strike, and just these
    for width in range(6):
        yield PLAIN + field(10, bytes(range(width)))
    # a length that is not that of the bytes
    for wrong in [0, 1, 4, 5, 6, 7, 9, 10, 264, 2056, 65535]:
        yield PLAIN + b"\x0A" + struct.pack(">H", wrong) + DATED[len(PLAIN) + 3:]
    # both options, and either twice
    kind = EXAMPLE[len(PLAIN):]
    for first in [kind, dated(0), dated(3)]:
        for second in [kind, dated(0), dated(3), b"\0", b"\x0A"]:
            yield PLAIN + first + second
    # a list before the flows, before the quotes and in front
    for place in [0, 20, len(PLAIN) - 7]:
        yield PLAIN[:place] + dated(2) + PLAIN[place:]
    # cut short, and each byte one higher, one lower, and another
    for k in range(len(PLAIN), len(DATED)):
        yield DATED[:k]
    for k in range(len(PLAIN), len(DATED)):
        for other in sorted({(DATED[k] + 1) % 256, (DATED[k] - 1) % 256, random.randrange(256)} - {DATED[k]}):
            yield DATED[:k] + bytes([other]) + DATED[k + 1:]
    # as many dates as 4,700 bytes have room for, and one more
    for n in [0, 1, 60, 255]:
        start = plain(n)
        room = 4700 - len(start) - 3 - 5
        yield start + dated(room)
        yield start + dated(room + 1)


if __name__ == "__main__":
    here = os.path.dirname(os.path.abspath(__file__))
    all_jobs = list(jobs())
    data = b"".join(struct.pack(">H", len(job)) + job for job in all_jobs)
    with open(os.path.join(here, "stdin"), "wb") as out:
        out.write(data)
    with open(os.path.join(here, "stdout"), "w") as out:
        out.write("".join(line + "\n" for job in all_jobs for line in answer(job)))
