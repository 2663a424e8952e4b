"""The rules of document 01, with request K1 of document 02, for recorded blocks.

Its rows of numbers are checked against all of the rules.
"""
import random
import struct

from vector_rules import *

def make_record(n, folding, allowance, mask, levels):
    levels = list(levels) + [0] * (64 - len(levels))
    raw = struct.pack("<BBBBIQ64h", n, folding, 0, 0, allowance, mask, *levels)
    assert len(raw) == 144
    return raw


DOC_LEVELS = [256, 256] + [-256] * 6
DOC = [make_record(3, 0, 100, 5, DOC_LEVELS),
       make_record(3, 0, 13, 5, DOC_LEVELS),
       make_record(3, 8, 100, 5, DOC_LEVELS)]


def read(raw):
    if len(raw) < 144:
        raise Refused(13)
    n, folding = raw[0], raw[1]
    allowance = sum(raw[4 + k] << (8 * k) for k in range(4))
    mask = sum(raw[8 + k] << (8 * k) for k in range(8))
    levels = []
    for i in range(64):
        v = raw[16 + 2 * i] | raw[17 + 2 * i] << 8
        levels.append(v - 65536 if v >= 32768 else v)
    if not 1 <= n <= 6:
        raise Refused(1)
    if raw[2] != 0 or raw[3] != 0 or any(v != 0 for v in levels[2 ** n:]):
        raise Refused(12)
    check_tree(n, mask, folding)
    return n, folding, allowance, mask, levels


def record(raw):
    n, folding, allowance, mask, levels = read(raw)
    return decode(n, mask, folding, allowance, levels[:2 ** n])


def found_line(number, message, dist, visits):
    return "%d found %016x %d %d\n" % (number, message, dist, visits)


def refused_line(number, refusal):
    return "%d refused %d\n" % (number, refusal)


def lines(number, data, room):
    """None for no room, else the text."""
    if room < 56 * (len(data) // 144 + 1):
        return None
    out = ""
    at = 0
    while at < len(data) and number < U32:
        try:
            r = record(data[at:at + 144])
            out += found_line(number, r["message"], r["distance"], r["visits"])
        except Refused as no:
            out += refused_line(number, no.number)
        at += 144
        number += 1
    return out


# ---------------------------------------------------------------- the table and other checks

def refusal(f, *a):
    try:
        f(*a)
    except Refused as no:
        return no.number
    return 0


def check_document():
    assert encode(3, 5, 1) == (0x02, 0x03)                                          # a
    assert encode(3, 5, 3) == (0x0a, 0x0c)                                          # b
    assert encode(3, 5, 4) == (0x10, 0x11)                                          # c
    assert encode(3, 5, 32) == (0x80, 0xff)                                         # d
    assert refusal(encode, 3, 5, 63) == 0 and refusal(encode, 3, 5, 64) == 9        # e
    lv = ideal_levels(3, encode(3, 5, 1)[1])
    assert lv == DOC_LEVELS
    for folding, visits in ((0, 14), (4, 8), (7, 2)):                               # f g h
        r = decode(3, 5, folding, 100, lv)
        assert (r["message"], r["distance"], r["visits"]) == (1, 0, visits)
        assert refusal(decode, 3, 5, folding, visits, lv) == 0
        assert refusal(decode, 3, 5, folding, visits - 1, lv) == 8
    for folding in range(8):
        r = decode(3, 5, folding, 1000, [-255] + lv[1:])                            # i
        assert (r["message"], r["distance"]) == (1, 261121)
        r = decode(3, 5, folding, 1000, [-256] + lv[1:])                            # j
        assert (r["message"], r["distance"]) == (0, 262144)
    for folding, visits in ((0, 6), (1, 4)):                                        # k l
        r = decode(1, 0, folding, 100, [0, 0])
        assert (r["message"], r["distance"], r["visits"]) == (0, 131072, visits)
    r = decode(3, 0xff, 0, 100, [-256] * 8)                                         # m
    assert (r["message"], r["distance"], r["visits"]) == (0, 0, 8)
    samples = [1 / 512, 3 / 512, 5 / 512, -3 / 512, -0.0]                           # n
    assert [level_of(bits_of(s)) for s in samples] == [0, 2, 2, -2, 0]
    assert level_of(bits_of(4.0)) == 1024 and level_of(bits_of(100.0)) == 2047      # o
    assert refusal(decode, 3, 5, 0, 1000, [2047] + lv[1:]) == 0                     # p
    assert refusal(decode, 3, 5, 0, 1000, [2048] + lv[1:]) == 6
    lv4 = [-256] * 16
    assert refusal(decode, 4, 5, 7, 100, lv4) == 0                                  # q
    assert refusal(decode, 4, 5, 15, 100, lv4) == 5
    assert refusal(decode, 3, 0x80, 0, 100, lv) in (0, 8)                           # r
    assert refusal(decode, 3, 0x80, 0, 10000, lv) == 0
    assert refusal(decode, 3, 0x100, 0, 100, lv) == 3
    # the rest of the text
    rm = 0x0000000100010117
    assert len(unfrozen(6, rm)) == 57 and guard(6, rm) == 1024 and guard(3, 0xff) is None
    for n in (1, 2, 3):
        for d in range(2 ** 2 ** n):
            assert codeword(n, codeword(n, d)) == d
    assert 64 * (LIMIT + 256) ** 2 == 339443776
    rng = random.Random(1)
    for _ in range(60):
        n = rng.randint(1, 4)
        mask = rng.getrandbits(2 ** n)
        folding = rng.choice([f for f in range(2 ** n) if ones(f) <= 3])
        d, x = encode(n, mask, rng.getrandbits(len(unfrozen(n, mask)) or 1) if mask != 2 ** 2 ** n - 1 else 0)
        gs = groups_of(n, folding)
        assert len(gs) == 2 ** n // 2 ** ones(folding)
        r = decode(n, mask, folding, U32, ideal_levels(n, x))
        assert (r["d"], r["x"], r["distance"]) == (d, x, 0)
        assert r["visits"] == len(gs) + sum(1 for g in gs if any(not (mask >> i) & 1 for i in g))
    # the answer does not depend on the folding
    for _ in range(25):
        mask = rng.getrandbits(8)
        lv = [rng.choice([-256, -128, 0, 0, 128, 256]) for _ in range(8)]
        seen = set()
        for folding in range(8):
            r = decode(3, mask, folding, U32, lv)
            seen.add((r["d"], r["x"], r["distance"], r["message"]))
        assert len(seen) == 1
    assert lines(0, b"".join(DOC), 300) == "0 found 0000000000000001 0 14\n1 refused 8\n2 refused 4\n"
    assert len(found_line(U32, U64, U32, U32)) == 56
