#!/usr/bin/env python3
"""Writes crates/border/stdin, crates/border/stdout (by reference.py) and docs/BORDER.md.

Every record carries its own words on what it shows, and docs/BORDER.md lists them.
"""
import os
import struct

import reference

RM = 0x0000000100010117
LIMIT = reference.LIMIT
HUGE = 4294967295
state = 20250


def rnd():
    """splitmix64"""
    global state
    ones = (1 << 64) - 1
    state = (state + 0x9E3779B97F4A7C15) & ones
    z = state
    z = ((z ^ z >> 30) * 0xBF58476D1CE4E5B9) & ones
    z = ((z ^ z >> 27) * 0x94D049BB133111EB) & ones
    return z ^ z >> 31


def below(n):
    return rnd() % n


def noise(sigma):
    return round(sigma * (sum(below(65536) for _ in range(12)) / 65536 - 6))


def record(n, folding, allowance, mask, levels, byte2=0, byte3=0):
    levels = list(levels) + [0] * (64 - len(levels))
    return struct.pack("<BBBBIQ64h", n, folding, byte2, byte3, allowance, mask, *levels)


def ideal(n, mask, message):
    x = reference.codeword(n, reference.place_message(n, mask, message))
    return [256 if x >> i & 1 else -256 for i in range(2 ** n)]


def clip(v):
    return max(-LIMIT, min(LIMIT, v))


def noisy(n, mask, sigma):
    return [clip(v + noise(sigma)) for v in ideal(n, mask, rnd())]


def visits(n, folding, mask, levels):
    return reference.decode_record(record(n, folding, HUGE, mask, levels))[4]


def but(levels, slot, value):
    levels = list(levels)
    levels[slot:slot + 1] = [value]
    return levels


def wide(levels, slot, value):
    """sixty-four levels with one of them changed, perhaps beyond N"""
    levels = list(levels) + [0] * (64 - len(levels))
    levels[slot] = value
    return levels


sections = []


def section(title):
    sections.append((title, []))


def add(words, *args, **kw):
    sections[-1][1].append((words, record(*args, **kw)))


one = [256, 256] + [-256] * 6          # message 1 of n = 3, mask 0x05

section("Document 01's listing")
add("n 3, mask 0x05, message 1, folding 0, allowance 100", 3, 0, 100, 5, one)
add("allowance 13, one visit short", 3, 0, 13, 5, one)
add("folding 8 has a one at n", 3, 8, 100, 5, one)

section("Rows of document 01's table, p by K1")
add("g: folding 4, 8 visits", 3, 4, 100, 5, one)
add("h: folding 7, 2 visits", 3, 7, 100, 5, one)
add("i: slot 0 at -255", 3, 0, 1000, 5, but(one, 0, -255))
add("j: slot 0 at -256, a tie that message 0 wins", 3, 0, 1000, 5, but(one, 0, -256))
add("k: n 1, nothing frozen, levels 0 0, folding 0", 1, 0, 100, 0, [0, 0])
add("l: the same, folding 1", 1, 1, 100, 0, [0, 0])
add("m: n 3, all frozen, eight levels -256", 3, 0, 100, 0xff, [-256] * 8)
add("p: level 2047", 3, 0, 1000, 5, but(one, 3, 2047))
add("p: level 2048", 3, 0, 1000, 5, but(one, 3, 2048))
add("q: n 4, folding 7", 4, 7, 1000, 0x0117, ideal(4, 0x0117, 5))
add("q: n 4, folding 15", 4, 15, 1000, 0x0117, ideal(4, 0x0117, 5))
add("r: n 3, mask 0x80", 3, 0, 1000, 0x80, [-256] * 8)
add("r: n 3, mask 0x100", 3, 0, 1000, 0x100, [-256] * 8)

section("n on both sides of its borders (everything else is all right)")
for n in (0, 1, 2, 3, 4, 5, 6, 7, 8, 127, 128, 255):
    size = 2 ** n if 1 <= n <= 6 else 64
    mask = (1 << size // 2) - 1
    add("n %d" % n, n, 0, HUGE, mask if n <= 6 else 0, [-256, 256][:size] if n == 1 else [-256] * size)

section("Bytes 2 and 3")
for b2, b3 in ((1, 0), (0, 1), (128, 0), (0, 128), (255, 255)):
    add("byte 2 is %d, byte 3 is %d" % (b2, b3), 3, 0, 100, 5, one, byte2=b2, byte3=b3)

section("A level beyond N")
add("n 3, slot 8 is 1", 3, 0, 100, 5, wide(one, 8, 1))
add("n 3, slot 8 is -1", 3, 0, 100, 5, wide(one, 8, -1))
add("n 3, slot 63 is 256 (low byte zero)", 3, 0, 100, 5, wide(one, 63, 256))
add("n 3, slot 7, the last within N, is 1", 3, 0, 100, 5, wide(one, 7, 1))
add("n 1, slot 2 is 256", 1, 0, 100, 0, wide([256, 256], 2, 256))
add("n 5, slot 32 is -32768", 5, 0, 1000, 0xffff, wide([-256] * 32, 32, -32768))
add("n 6, slot 63 is -199: there is nothing beyond N", 6, 7, 1000, RM, wide([-256] * 64, 63, -199))

section("Mask bits N-1 and N")
for n in (1, 2, 4, 5):
    size = 2 ** n
    add("n %d, mask bit %d" % (n, size - 1), n, 0, 100000, 1 << (size - 1), [-256] * size)
    add("n %d, mask bit %d" % (n, size), n, 0, 100000, 1 << size, [-256] * size)
add("n 5, mask bit 63", 5, 0, 100000, 1 << 63, [-256] * 32)
add("n 6, mask bit 63", 6, 0, 100000, 1 << 63, [-256] * 64)

section("Folding bits n-1 and n")
for n in range(1, 7):
    size = 2 ** n
    levels = ideal(n, 1, 1)
    add("n %d, folding bit %d" % (n, n - 1), n, 1 << (n - 1), 1000, 1, levels)
    add("n %d, folding bit %d" % (n, n), n, 1 << n, 1000, 1, levels)
add("n 6, folding 0x80", 6, 0x80, 1000, RM, ideal(6, RM, 1))

section("Folding with three and four ones")
for n, folding in ((4, 0b1110), (4, 0b1011), (5, 0b10101), (5, 0b11110), (6, 0b111000), (6, 0b010101),
                   (6, 0b101011), (6, 0b011111), (6, 0b111111)):
    mask = 1 | 1 << 1
    add("n %d, folding %s: %d ones" % (n, bin(folding), bin(folding).count("1")),
        n, folding, 1000, mask, ideal(n, mask, 9))

section("Levels at their borders")
for slot in (0, 7):
    for value in (LIMIT, LIMIT + 1, -LIMIT, -LIMIT - 1):
        add("n 3, slot %d is %d" % (slot, value), 3, 3, 10000, 5, but(one, slot, value))
add("n 3, slot 2 is 32767", 3, 3, 10000, 5, but(one, 2, 32767))
add("n 3, slot 2 is -32768", 3, 3, 10000, 5, but(one, 2, -32768))
add("n 3, all slots out of range", 3, 3, 10000, 5, [3000] * 8)
FEW = sum(1 << i for i in range(64) if bin(i).count("1") < 5)
add("n 6, RM(64,7), all slots %d" % LIMIT, 6, 7, 10000, FEW, [LIMIT] * 64)
add("n 6, RM(64,7), all slots %d" % -LIMIT, 6, 7, 10000, FEW, [-LIMIT] * 64)
add("n 6, all slots %d, all frozen: the greatest distance" % LIMIT, 6, 7, 10000, 2 ** 64 - 1, [LIMIT] * 64)
add("n 6, slot 63 is %d" % (LIMIT + 1), 6, 7, 10000, RM, [LIMIT] * 63 + [LIMIT + 1])
add("n 6, slot 63 is %d" % (-LIMIT - 1), 6, 0, 10000, RM, [-LIMIT] * 63 + [-LIMIT - 1])

section("Two faults (or more): the earlier of 1, 12, 3, 4, 5, 6, 8 is named")
add("n 0 and byte 2: 1", 0, 0, 100, 5, one, byte2=1)
add("n 7 and folding 0xff and a level 3000: 1", 7, 0xff, 100, 5, but(one, 0, 3000))
add("n 9 and allowance 0: 1", 9, 0, 0, 5, one)
add("byte 3 and mask: 12", 3, 0, 100, 0x100, one, byte3=1)
add("level beyond N and mask: 12", 3, 0, 100, 0x100, wide(one, 8, 5))
add("level beyond N out of range: 12, not 6", 3, 0, 100, 5, wide(one, 9, 3000))
add("byte 2 and folding and level: 12", 3, 0xff, 100, 5, but(one, 0, LIMIT + 1), byte2=1)
add("mask and folding bit: 3", 3, 8, 100, 0x105, one)
add("mask and four ones: 3", 4, 15, 100, 0x10000, [-256] * 16)
add("mask and level: 3", 3, 0, 100, 0x100, but(one, 0, -LIMIT - 1))
add("folding bit at n and four ones: 4", 4, 0x17, 100, 1, [-256] * 16)
add("folding bit at n and level: 4", 3, 8, 100, 5, but(one, 7, LIMIT + 1))
add("four ones and level: 5", 4, 15, 100, 1, [LIMIT + 1] + [-256] * 15)
add("four ones and allowance 0: 5", 4, 15, 0, 1, [-256] * 16)
add("level and allowance 0: 6", 3, 0, 0, 5, but(one, 7, -LIMIT - 1))

section("Allowance: exactly the visits, and one less")
def exact(words, n, folding, mask, levels):
    count = visits(n, folding, mask, levels)
    add("%s, folding %d: exactly its %d visits" % (words, folding, count), n, folding, count, mask, levels)
    add("%s, folding %d: one less" % (words, folding), n, folding, count - 1, mask, levels)
exact("n 3, message 1", 3, 0, 5, one)
exact("n 3, message 1", 3, 7, 5, one)
exact("n 4, all frozen", 4, 1, 0xffff, [100] * 16)
exact("n 1, levels 0 0", 1, 0, 0, [0, 0])
exact("RM(64,57) clean", 6, 7, RM, ideal(6, RM, 0x123456789abcdef))
levels = noisy(6, RM, 80)
for folding in (0, 2, 3, 7):
    exact("RM(64,57) noisy", 6, folding, RM, levels)
exact("n 4, ties", 4, 0, 0x0117, [0, 256, -256, 0] * 4)

section("Allowance 0, 1 and the greatest")
add("n 3, message 1, allowance 0", 3, 7, 0, 5, one)
add("n 3, message 1, allowance 1", 3, 7, 1, 5, one)
add("n 1, all frozen, folding 1, allowance 0", 1, 1, 0, 3, [5, 5])
add("n 1, all frozen, folding 1, allowance 1: one visit is enough", 1, 1, 1, 3, [5, 5])
add("n 3, message 1, allowance 4294967295", 3, 0, HUGE, 5, one)

section("Ties: the smallest d wins, whatever the folding")
tie = [0, 256, 0, -256, 256, 0, -256, 0]
for folding in (0, 1, 2, 4, 3, 5, 6, 7):
    add("n 3, nothing frozen, folding %d" % folding, 3, folding, 100000, 0, tie)
for folding in (0, 1, 6, 14):
    add("n 4, mask 0x0117, all levels 0, folding %d" % folding, 4, folding, HUGE, 0x0117, [0] * 16)
tie5 = [v * 128 for v in (1, -1, 0, 2, -2, 0, 1, 1, -1, 2, 0, -2, 1, 0, -1, 1) * 2]
for folding in (0, 9, 19, 28):
    add("n 5, mask 0x8000117f, levels in steps of 128, folding %d" % folding, 5, folding, HUGE, 0x8000117f, tie5)

section("RM(64,57), clean, several foldings: L visits plus one per group that is not all frozen")
for folding in (0, 1, 32, 3, 48, 18, 7, 56, 42):
    add("folding %d" % folding, 6, folding, 1000, RM, ideal(6, RM, rnd()))

section("RM(64,57), noisy (noise of 60 to 100 levels), several foldings")
for sigma in (60, 80, 100):
    levels = noisy(6, RM, sigma)
    for folding in (0, 4, 33, 7, 56):
        add("noise %d, folding %d (the same levels under each folding)" % (sigma, folding),
            6, folding, 200000, RM, levels)
flipped = ideal(6, RM, 77)
flipped[9] = -flipped[9] // 2
add("one slot pulled over to the other side, folding 7", 6, 7, 200000, RM, flipped)
add("all levels 0, folding 7, allowance 2000: too long", 6, 7, 2000, RM, [0] * 64)

section("All frozen: K is 0, the message is 0")
for n in range(1, 7):
    for folding in (0, (1 << n) - 1 if n <= 3 else 0b101):
        add("n %d, folding %d" % (n, folding), n, folding, 64, 2 ** 2 ** n - 1,
            [below(2 * LIMIT + 1) - LIMIT for _ in range(2 ** n)])

section("Nothing frozen")
for n in (1, 2, 3, 4):
    for folding in (0, 1, (1 << n) - 1 if n <= 3 else 14):
        add("n %d, folding %d, random levels" % (n, folding), n, folding, HUGE, 0,
            [below(2 * LIMIT + 1) - LIMIT for _ in range(2 ** n)])
add("n 6, folding 7, message of 64 ones", 6, 7, 1000, 0, ideal(6, 0, 2 ** 64 - 1))
add("n 6, folding 0, levels of 200 and -200 turn about", 6, 0, 1000, 0, [200, -200] * 32)

section("Other codes: few and many frozen, small and negative levels")
add("n 5, all levels negative, folding 3", 5, 3, 100000, 0x0001011f, [-1 - below(300) for _ in range(32)])
add("n 6, one free index (63), folding 0", 6, 0, 1000, 2 ** 63 - 1, noisy(6, 2 ** 63 - 1, 200))
add("n 6, one free index (0), folding 7", 6, 7, 1000, 2 ** 64 - 2, noisy(6, 2 ** 64 - 2, 200))
mask = sum(1 << i for i in range(64) if bin(i).count("1") < 4)
for folding in (0, 2, 20, 35):
    add("n 6, RM(64,22), noise 120, folding %d" % folding, 6, folding, 200000, mask, noisy(6, mask, 120))
for n in (2, 3, 4, 5, 6):
    mask = rnd() & (2 ** 2 ** n - 1)
    folding = {2: 3, 3: 6, 4: 13, 5: 25, 6: 50}[n]
    add("n %d, a random mask, noise 150, folding %d" % (n, folding), n, folding, 100000, mask, noisy(n, mask, 150))

section("Levels on both sides of the end that the range had before K1")
for slot in (0, 7):
    for value in (1024, 1025, -1024, -1025):
        add("n 3, slot %d is %d" % (slot, value), 3, 3, 10000, 5, but(one, slot, value))

section("RM(64,57) with two strong slots, past the end before K1")
strong = noisy(6, RM, 60)
for slot in (58, 63):
    strong[slot] = clip(8 * strong[slot])
for folding in (0, 33, 7):
    add("noise 60, slots 58 and 63 at %d and %d, folding %d" % (strong[58], strong[63], folding),
        6, folding, 200000, RM, strong)

root = os.path.dirname(os.path.dirname(os.path.abspath(__file__)))
crate = os.path.join(root, "crates", "border")
with open(os.path.join(crate, "stdin"), "wb") as binary, open(os.path.join(crate, "stdout"), "w") as text, \
        open(os.path.join(root, "docs", "BORDER.md"), "w") as notes:
    notes.write("# The recorded blocks at the borders\n\nWhat each record of crates/border/stdin is there for, and the line that "
                "must come (crates/border/stdout). independent/ made both, from documents 01 and 02.\n")
    number = 0
    for title, records in sections:
        last = number + len(records) - 1
        notes.write("\n## Records %d to %d: %s\n\n" % (number, last, title))
        for words, data in records:
            line = reference.line_of(number, data, True)
            binary.write(data)
            text.write(line)
            notes.write("- %d: %s. %s\n" % (number, words, line.split(" ", 1)[1].strip()))
            number += 1
    short = record(255, 255, 0, 0, [])[:100]
    binary.write(short)
    text.write(reference.line_of(number, short))
    notes.write("\n## Record %d: the short last record\n\n- %d: 100 bytes only, with n 255 (so that 13 comes before 1). "
                "refused 13\n" % (number, number))
