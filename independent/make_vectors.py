#!/usr/bin/env python3
"""Prints the lines of crates/vectors/stdout for `decode`, whose cases it reads from crates/vectors/stdin, and
for the public calls of `sample`, `light`, `record`, `lines`, `request` and `pieces`.

  make_vectors.py | diff - <(sed -n '/^decode /p;/^level /,$p' crates/vectors/stdout)
"""
import os
from fractions import Fraction

from vector_pieces import *

# ---------------------------------------------------------------- decode

def given_decodes():
    """(the line, its numbers by name, its levels) of each case."""
    root = os.path.dirname(os.path.dirname(os.path.abspath(__file__)))
    with open(os.path.join(root, "crates", "vectors", "stdin")) as cases:
        for line in cases:
            if line.startswith("decode "):
                named = dict(part.split("=") for part in line.split()[1:])
                levels = named.pop("levels")
                yield line.strip(), {k: int(v, 0) for k, v in named.items()}, [int(v) for v in levels.split(",") if v]


def found(r):
    return "message=%d d=0x%x x=0x%x distance=%d visits=%d" % (r["message"], r["d"], r["x"], r["distance"], r["visits"])


def decodes():
    out = []
    for line, named, levels in given_decodes():
        try:
            got = found(decode(levels=levels, **named))
        except Refused as no:
            got = no.text()
        out.append(line + " -> " + got)
    return out


# ---------------------------------------------------------------- samples and light

def light():
    out = []

    # 1. level
    seen = []

    def add(bits):
        if bits not in seen:
            seen.append(bits)

    for s in (1 / 512, 3 / 512, 5 / 512, -3 / 512, -0.0, 4.0, 100.0):     # rows n and o
        add(bits_of(s))
    for sign in (1, -1):                                                   # 2048, one past the end
        for b in (-1, 0, 1):
            add(bits_of(sign * 8.0) + b)
    for t in (0.5, 1.5, 256.5, 601.5, 1023.5, 1024.5, 2046.5, 2047.5):    # halves with both neighbours
        for sign in (1, -1):
            b = bits_of(sign * t / 256)
            assert exact(b) * 256 == Fraction(sign * t)
            add(b - 1)
            add(b)
            add(b + 1)
    for end in (1024, LIMIT):                                              # the end before K1, and since
        for sign in (1, -1):
            b = bits_of(sign * end / 256)
            add(b - 1)
            add(b)
            add(b + 1)
            add(bits_of(sign * (end - 1) / 256))
    add(bits_of(-100.0))
    add(bits_of(255.5 / 256))
    add(bits_of(0.3))
    add(bits_of(8388608.0))            # 256 s = 2^31
    add(bits_of(-16777216.0))          # 256 s = -2^32
    for b in (0x0, 0x1, 0x80000001, 0x7fffff, 0x807fffff, 0x800000, 0x7f7fffff, 0xff7fffff,
              0x7f800000, 0xff800000, 0x7fc00000, 0xffc00000):
        add(b)
    for b in seen:
        v = level_of(b)
        out.append("level sample=0x%x -> %s" % (b, "not finite" if v is None else "%d" % v))

    def shown(a):
        n = a[0]
        return "n=%d filled=%d levels=%s" % (n, a[1], ",".join(map(str, a[2][:2 ** n if n <= 6 else 64])))

    # 2. new_assembler
    for n in (0, 1, 2, 3, 4, 5, 6, 7, 259, U32):
        no, a = new_assembler(n)
        out.append("new_assembler n=%d -> %s %s" % (n, no.text() if no else "done", shown(a)))

    # 3. take
    f = bits_of
    half, nan, nnan, inf, ninf, big = f(1.5 / 256), 0x7fc00000, 0xffc00000, 0x7f800000, 0xff800000, 0x7f7fffff
    cases = [
        (1, 0, ("single", f(1.0))), (1, 0, ("pair", f(-1.0), f(0.5))), (1, 1, ("single", f(-4.0))),
        (1, 1, ("pair", f(1.0), f(1.0))), (1, 2, ("erased",)), (1, 3, ("erased",)),
        (2, 0, ("single", half)), (2, 1, ("pair", f(0.25), f(-0.25))), (2, 2, ("pair", f(100.0), f(-100.0))),
        (3, 0, ("pair", big, 0xff7fffff)), (3, 3, ("erased",)), (3, 6, ("pair", f(2.0), 0x1)),
        (3, 7, ("single", f(-0.0))), (3, 7, ("pair", f(1.0), f(-1.0))), (3, 8, ("single", f(1.0))),
        (3, 8, ("pair", f(1.0), f(1.0))),
        # 11 and its names
        (3, 2, ("single", nan)), (3, 7, ("single", ninf)), (3, 6, ("pair", inf, f(1.0))),
        (3, 6, ("pair", f(1.0), nnan)), (3, 0, ("pair", nan, ninf)),
        # 10 before 11
        (3, 8, ("single", nan)), (3, 7, ("pair", inf, f(1.0))), (3, 7, ("pair", f(1.0), nan)),
        # 1 alone, before 10, before 11, before both
        (3, 9, ("single", f(1.0))), (3, 9, ("pair", nan, nan)), (0, 0, ("single", inf)), (0, 0, ("erased",)),
        (0, 1, ("erased",)), (0, 0, ("pair", f(1.0), f(1.0))), (7, 0, ("single", f(1.0))),
        (7, 5, ("pair", f(1.0), nan)), (U32, 0, ("erased",)),
        (3, 4294967296, ("erased",)), (3, U64, ("pair", f(1.0), f(1.0))),
        # the other sizes
        (4, 15, ("single", f(0.3))), (4, 17, ("erased",)), (5, 30, ("pair", f(3.0), f(-3.0))),
        (5, 32, ("single", f(1.0))), (6, 31, ("pair", f(1.0), f(-1.0))), (6, 62, ("pair", f(8.0), f(-8.0))),
        (6, 63, ("erased",)), (6, 63, ("pair", f(1.0), f(1.0))), (6, 64, ("single", f(1.0))),
        (6, 65, ("erased",)),
    ]
    assert len(set(cases)) == len(cases)
    for n, filled, reading in cases:
        a = (n, filled, [i + 1 for i in range(64)])
        try:
            back, head = take(a, reading), "done"
        except Refused as no:
            back, head = a, no.text()
        said = " ".join([reading[0]] + ["0x%x" % b for b in reading[1:]])
        out.append("take n=%d filled=%d reading=%s -> %s %s" % (n, filled, said, head, shown(back)))

    # 4. give
    cases = [(1, 2, 2), (2, 4, 4), (3, 8, 8), (4, 16, 16), (5, 32, 32), (6, 64, 64),
             # 2
             (3, 8, 7), (3, 8, 9), (3, 8, 0), (6, 64, 63), (6, 64, 65),
             # 14
             (3, 7, 8), (3, 0, 8), (6, 63, 64),
             # 1
             (3, 9, 8), (6, 65, 64), (0, 1, 1), (7, 64, 64), (U32, 0, 64), (3, 4294967304, 8),
             # 14 before 2; 1 before 14, before 2, before both
             (3, 7, 7), (3, 0, 0), (7, 127, 64), (0, 0, 1), (3, 9, 9), (7, 0, 0)]
    assert len(set(cases)) == len(cases)
    for n, filled, slots in cases:
        a = (n, filled, [i + 1 for i in range(64)])
        lent = [7] * slots
        try:
            lent, head = give(a, lent), "done"
        except Refused as no:
            head = no.text()
        assert len(lent) == slots
        out.append("give n=%d filled=%d slots=%d -> %s levels=%s" % (n, filled, slots, head, ",".join(map(str, lent))))
    return out


# ---------------------------------------------------------------- records

def changed(count, changes):
    raw = bytearray(DOC[0])
    assert len(changes) <= 3 and len(set(p for p, _ in changes)) == len(changes)
    for p, v in changes:
        assert 0 <= p < 144 and 0 <= v < 256
        assert raw[p] != v
        raw[p] = v
    return bytes(raw + b"\xff\xff")[:count]


def given(call, count, changes):
    return " ".join(["%s bytes=%d" % (call, count)] + ["[%d]=%d" % c for c in changes])


READ = [
    # lengths
    (0, []), (142, []), (143, []), (144, []), (145, []), (146, []),
    # n (n = 1 passes 1 and meets 12 because slots 2 to 7 are not zero)
    (144, [(0, 0)]), (144, [(0, 1)]), (144, [(0, 6)]), (144, [(0, 7)]), (144, [(0, 255)]),
    # bytes 2 and 3
    (144, [(2, 1)]), (144, [(2, 128)]), (144, [(3, 1)]),
    # levels beyond N, and the last one that is not
    (144, [(32, 1)]), (144, [(33, 1)]), (144, [(142, 128)]), (144, [(143, 128)]),
    (144, [(0, 4), (46, 3), (47, 254)]), (144, [(0, 4), (48, 1)]), (144, [(0, 5), (78, 9)]), (144, [(0, 5), (81, 1)]),
    (144, [(0, 6), (142, 254), (143, 127)]),
    # mask
    (144, [(8, 128)]), (144, [(9, 1)]), (144, [(15, 128)]), (144, [(0, 4), (10, 1)]), (144, [(0, 5), (12, 1)]),
    (144, [(0, 6), (8, 18), (9, 52)]), (144, [(0, 6), (10, 86), (11, 120)]), (144, [(0, 6), (12, 154), (13, 188)]),
    (144, [(0, 6), (14, 222), (15, 240)]),
    # folding
    (144, [(1, 7)]), (144, [(1, 8)]), (144, [(0, 4), (1, 14), (9, 128)]), (144, [(0, 4), (1, 16)]),
    (144, [(0, 4), (1, 15)]), (144, [(0, 5), (1, 28), (11, 128)]),
    (144, [(0, 6), (1, 56)]), (144, [(0, 6), (1, 58)]), (144, [(0, 6), (1, 64)]),
    # allowance
    (144, [(4, 0)]), (144, [(5, 2), (6, 3), (7, 4)]), (144, [(5, 255), (6, 255), (7, 255)]),
    # levels, in range or not
    (144, [(16, 255), (17, 127)]), (144, [(17, 128)]), (144, [(16, 255), (17, 255)]), (144, [(30, 128), (31, 0)]),
    # two refusals at once
    (143, [(0, 7)]), (143, [(2, 1)]), (143, [(9, 1)]), (143, [(1, 8)]), (143, [(0, 4), (1, 15)]),
    (144, [(0, 7), (2, 1)]), (144, [(0, 0), (9, 1)]), (144, [(0, 7), (1, 128)]), (144, [(0, 7), (1, 15)]),
    (144, [(3, 1), (9, 1)]), (144, [(1, 8), (33, 1)]), (144, [(0, 4), (1, 15), (2, 1)]),
    (144, [(1, 8), (9, 1)]), (144, [(0, 4), (1, 15), (10, 1)]), (144, [(1, 15)]),
]

RECORD = [
    # the three of the document, rows i and j
    (144, []), (144, [(4, 13)]), (144, [(1, 8)]), (144, [(16, 1), (17, 255)]), (144, [(17, 255)]),
    # allowance at the total and one less
    (144, [(4, 14)]), (144, [(4, 0)]), (144, [(4, 0), (5, 1)]),
    (144, [(1, 1), (4, 8)]), (144, [(1, 1), (4, 7)]), (144, [(1, 3), (4, 4)]), (144, [(1, 3), (4, 3)]),
    (144, [(1, 4), (4, 8)]), (144, [(1, 4), (4, 7)]), (144, [(1, 7), (4, 2)]), (144, [(1, 7), (4, 1)]),
    (144, [(4, 46), (17, 255)]), (144, [(4, 45), (17, 255)]),
    # K = 0
    (144, [(8, 255), (17, 255), (19, 255)]), (144, [(4, 8), (8, 255)]), (144, [(4, 7), (8, 255)]),
    (144, [(1, 7), (4, 1), (8, 255)]),
    # 13, 1, 12, 3, 5
    (143, []), (145, []), (144, [(0, 0)]), (144, [(0, 7)]), (144, [(2, 1)]),
    (144, [(33, 1)]), (144, [(8, 128)]), (144, [(9, 1)]), (144, [(0, 4), (1, 15)]), (144, [(0, 4), (1, 7), (9, 255)]),
    # 6
    (144, [(5, 1), (16, 255), (17, 7)]), (144, [(17, 8)]), (144, [(5, 1), (16, 1), (17, 248)]), (144, [(17, 248)]),
    (144, [(30, 255), (31, 7)]), (144, [(31, 8)]), (144, [(19, 9), (25, 128)]), (144, [(0, 4), (47, 127)]),
    # both sides of the end before K1
    (144, [(17, 4)]), (144, [(16, 1), (17, 4)]), (144, [(5, 1), (17, 252)]), (144, [(5, 1), (16, 255), (17, 251)]),
    (144, [(31, 4)]), (144, [(30, 1), (31, 4)]),
    # two refusals at once
    (143, [(17, 9)]), (143, [(4, 0)]), (144, [(0, 7), (17, 9)]), (144, [(0, 0), (4, 0)]),
    (144, [(2, 1), (17, 9)]), (144, [(33, 127)]), (144, [(3, 1), (4, 0)]), (144, [(9, 1), (17, 9)]),
    (144, [(4, 0), (9, 1)]), (144, [(1, 8), (17, 9)]), (144, [(1, 8), (4, 0)]), (144, [(0, 4), (1, 15), (17, 9)]),
    (144, [(0, 4), (1, 15), (4, 0)]), (144, [(4, 0), (17, 9)]),
    # ties
    (144, [(17, 0), (19, 0)]), (144, [(8, 0), (17, 0)]), (144, [(1, 6), (27, 2), (31, 0)]),
    (144, [(1, 4), (8, 20), (31, 1)]), (144, [(1, 4), (27, 0), (31, 2)]), (144, [(1, 6), (8, 19), (29, 0)]),
    (144, [(1, 1), (25, 0), (27, 2)]), (144, [(1, 2), (8, 28), (27, 2)]),
    # larger n: slots 8 and beyond have level 0
    (144, [(0, 4), (1, 14), (9, 254)]), (144, [(0, 4), (8, 1), (9, 127)]), (144, [(0, 4), (5, 255)]),
    (144, [(0, 6)]),
]


def records():
    out = []
    for count, changes in READ:
        raw = changed(count, changes)
        try:
            n, folding, allowance, mask, levels = read(raw)
            got = "n=%d folding=0x%x allowance=%d mask=0x%x levels=%s" % (
                n, folding, allowance, mask, ",".join(map(str, levels)))
        except Refused as no:
            got = no.text()
        out.append(given("read", count, changes) + " -> " + got)

    for count, changes in RECORD:
        raw = changed(count, changes)
        try:
            got = found(record(raw))
        except Refused as no:
            got = no.text()
        out.append(given("record", count, changes) + " -> " + got)
    return out


def put(out):
    for line in out:
        assert line == line.strip() and "  " not in line and "\n" not in line
        print(line)
    assert len(set(out)) == len(out)


if __name__ == "__main__":
    check_document()
    put(decodes())
    put(light())
    put(records())
    put(lines_of_pieces())
    put(requests())
    put(made())
