#!/usr/bin/env python3
"""Makes what the program `datagrams` reads and what it must print, by a reading of document 01's tables that shares nothing with the codec.

usage: tools/datagrams.py        (at the repository's root; writes crates/datagrams/stdin and crates/datagrams/stdout)

Each case below is a datagram with the lines that document 01 asks for, written by hand. `expected` reads the datagram anew, from the
table of kinds alone, and a case whose hand-written lines differ from it stops the script. In the file, a datagram is led by its length:
4 bytes, low byte first.
"""
import os

# "least payload lengths stand in one fixed list by id", and document 02's FRAGMENT, 0x0F
LEAST = {0x00: 5, 0x01: 5, 0x02: 2, 0x05: 3, 0x07: 2, 0x08: 4, 0x09: 2, 0x0D: 4, 0x0E: 4, 0x0F: 4}
UNLISTED = (3, 4, 6, 10, 11, 12, 16, 17, 254, 255)


def expected(d):
    """The lines for the datagram d, as document 01 has them."""
    if len(d) < 5:
        return ["refused 1"]
    lines = ["header %d %d %d" % (d[0], d[1], int.from_bytes(d[2:4], "little"))]
    at, count = 4, 0
    while at < len(d):
        header = d[at:at + 4]
        if len(header) < 4:
            return ["refused 1"]
        length = int.from_bytes(header[2:], "little")
        payload = d[at + 4:at + 4 + length]
        if len(payload) < length:
            return ["refused 1"]
        if header[0] not in LEAST:
            return ["refused 2"]
        if length < LEAST[header[0]]:
            return ["refused 5"]
        if header[0] == 0x01 and payload[2] not in range(1, 7):
            return ["refused 3"]
        if header[0] == 0x05 and payload[2] not in range(0, 5):
            return ["refused 4"]
        lines.append("sub %d %d %d" % (header[0], at, length))
        at, count = at + 4 + length, count + 1
    return lines + ["end %d" % count]


HEAD = bytes((1, 0, 5, 0))
FIVE = "header 1 0 5"


def sub(sid, payload, flags=0, length=None):
    n = len(payload) if length is None else length
    return bytes((sid, flags)) + n.to_bytes(2, "little") + bytes(payload)


def least(sid, extra=0):
    """A payload of the id's least length, changed by `extra` bytes, with a kind and a code that are listed."""
    return (bytes((3, 0, 1, 0, 0)) + bytes(200))[:LEAST[sid] + extra]


DELETE = sub(2, (3, 0))
CASES = []


def case(d, *lines):
    CASES.append((bytes(d), list(lines)))


# a, b and c of document 01
case(HEAD + DELETE, FIVE, "sub 2 4 2", "end 1")
case(HEAD + sub(2, (3, 0, 9)), FIVE, "sub 2 4 3", "end 1")
case(HEAD + DELETE + bytes((9,)), "refused 1")

# 1: a header of 0 to 4 bytes, and the refusal table's own example
for n in range(5):
    case(HEAD[:n], "refused 1")
case((1, 0, 0, 0), "refused 1")
# 1: 1 to 3 bytes behind the last submessage; a payload one byte short; one of which nothing is there; a length of 65,535
for n in (1, 2, 3):
    case(HEAD + DELETE + bytes(n), "refused 1")
    case(HEAD + DELETE[:n], "refused 1")
for sid in LEAST:
    case(HEAD + sub(sid, least(sid, -1), length=LEAST[sid]), "refused 1")
    case(HEAD + sub(sid, (), length=LEAST[sid]), "refused 1")
case(HEAD + sub(9, least(9), length=65535), "refused 1")

# 2: ids that are not listed, with nothing and with a payload
for sid in UNLISTED:
    case(HEAD + sub(sid, ()), "refused 2")
    case(HEAD + sub(sid, bytes(8)), "refused 2")
# 1 before 2: a payload that is cut; 2 before 5: a length of 0
case(HEAD + sub(3, (), length=1), "refused 1")
case(HEAD + sub(255, bytes(6), length=7), "refused 1")
case(HEAD + sub(255, ()), "refused 2")

# 3: kinds that are not listed; 4: codes that are not listed; and those beside them
for kind in (0, 7, 8, 128, 255):
    case(HEAD + sub(1, (3, 0, kind, 0, 0)), "refused 3")
for kind in (1, 2, 3, 4, 5, 6):
    case(HEAD + sub(1, (3, 0, kind, 0, 0)), FIVE, "sub 1 4 5", "end 1")
for code in (5, 6, 128, 255):
    case(HEAD + sub(5, (3, 0, code)), "refused 4")
for code in (0, 1, 2, 3, 4):
    case(HEAD + sub(5, (3, 0, code)), FIVE, "sub 5 4 3", "end 1")
# 5 before 3 and 4; 1 before both
case(HEAD + sub(1, (3, 0, 7, 0)), "refused 5")
case(HEAD + sub(5, (3, 0)), "refused 5")
case(HEAD + sub(1, (3, 0, 7, 0), length=5), "refused 1")

# 5: one byte under the least length, and none; the least length; one byte above it
for sid in LEAST:
    case(HEAD + sub(sid, least(sid, -1)), "refused 5")
    case(HEAD + sub(sid, ()), "refused 5")
    case(HEAD + sub(sid, least(sid)), FIVE, "sub %d 4 %d" % (sid, LEAST[sid]), "end 1")
    case(HEAD + sub(sid, least(sid, 1)), FIVE, "sub %d 4 %d" % (sid, LEAST[sid] + 1), "end 1")
    case(HEAD + sub(sid, least(sid), flags=255), FIVE, "sub %d 4 %d" % (sid, LEAST[sid]), "end 1")

# the header's numbers: least and greatest, low byte first
case(bytes((0, 0, 0, 0)) + DELETE, "header 0 0 0", "sub 2 4 2", "end 1")
case(bytes((255, 128, 255, 255)) + DELETE, "header 255 128 65535", "sub 2 4 2", "end 1")
case(bytes((9, 10, 1, 2)) + DELETE, "header 9 10 513", "sub 2 4 2", "end 1")
case(bytes((99, 100, 0xE7, 3)) + DELETE, "header 99 100 999", "sub 2 4 2", "end 1")

# several submessages, each of the ten kinds once
case(HEAD + b"".join(sub(sid, least(sid)) for sid in LEAST), FIVE, "sub 0 4 5", "sub 1 13 5", "sub 2 22 2", "sub 5 28 3",
     "sub 7 35 2", "sub 8 41 4", "sub 9 49 2", "sub 13 55 4", "sub 14 63 4", "sub 15 71 4", "end 10")
case(HEAD + DELETE + DELETE, FIVE, "sub 2 4 2", "sub 2 10 2", "end 2")
case(HEAD + sub(9, bytes(90)) + DELETE, FIVE, "sub 9 4 90", "sub 2 98 2", "end 2")
# a FRAGMENT with a body behind its number and total, and a DELETE behind it
case(HEAD + sub(15, (0, 0, 2, 0, 7, 8, 9)) + DELETE, FIVE, "sub 15 4 7", "sub 2 15 2", "end 2")
# a bad one second, or third: the first failure refuses the whole
case(HEAD + DELETE + sub(3, ()), "refused 2")
case(HEAD + DELETE + sub(2, (3,)), "refused 5")
case(HEAD + DELETE + sub(1, (3, 0, 7, 0, 0)), "refused 3")
case(HEAD + DELETE + sub(5, (3, 0, 5)), "refused 4")
case(HEAD + DELETE + sub(2, (3,), length=2), "refused 1")
case(HEAD + DELETE + DELETE + sub(6, bytes(2)), "refused 2")
# the first of two failures is the one that is told
case(HEAD + sub(3, ()) + sub(2, (3,)), "refused 2")
case(HEAD + sub(2, (3,)) + sub(3, ()), "refused 5")
case(HEAD + sub(1, (3, 0, 0, 0, 0)) + bytes((9,)), "refused 3")
# a length that takes the next header in
case(HEAD + sub(2, (3, 0), length=8) + DELETE, FIVE, "sub 2 4 8", "end 1")

# 4,096 bytes and one more, as one payload and as many submessages; the greatest payload
case(HEAD + sub(7, bytes(4088)), FIVE, "sub 7 4 4088", "end 1")
case(HEAD + sub(7, bytes(4089)), FIVE, "sub 7 4 4089", "end 1")
case(HEAD + DELETE * 682, FIVE, *("sub 2 %d 2" % (4 + 6 * k) for k in range(682)), "end 682")
case(HEAD + DELETE * 682 + DELETE[:5], "refused 1")
case(HEAD + sub(9, bytes(65535)), FIVE, "sub 9 4 65535", "end 1")
case(HEAD + sub(9, bytes(65534), length=65535), "refused 1")
case(HEAD + sub(9, bytes(256)) + sub(14, least(14)), FIVE, "sub 9 4 256", "sub 14 264 4", "end 2")

for d, lines in CASES:
    assert lines == expected(d), (d[:40], lines, expected(d))
    assert len(d) <= 70000
here = os.path.join("crates", "datagrams")
with open(os.path.join(here, "stdin"), "wb") as f:
    f.write(b"".join(len(d).to_bytes(4, "little") + d for d, _ in CASES))
with open(os.path.join(here, "stdout"), "w", newline="\n") as f:
    f.write("".join(line + "\n" for _, lines in CASES for line in lines))
print(len(CASES), "datagrams")
