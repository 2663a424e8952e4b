#!/usr/bin/env python3
"""Makes samples/blocks.bin and samples/blocks.txt, and checks every found line:
by listing all words when K is at most 16, else by a syndrome trellis (all words at
once, 2^(N-K) states), which also counts the words at the least distance."""
import os
import random
import struct
import sys

sys.dont_write_bytecode = True
import printed
import reference

RM = printed.RM_64_57
MESSAGE = 0x0123456789abcdef


def record(n, folding, allowance, mask, levels, two=0):
    levels = list(levels) + [0] * (64 - len(levels))
    return struct.pack("<BBHIQ64h", n, folding, two, allowance, mask, *levels)


def ideal(n, mask, message):
    x = reference.codeword(n, reference.place_message(n, mask, message))
    return [256 if x >> i & 1 else -256 for i in range(2 ** n)]


def noisy(seed, sigma, levels):
    rng = random.Random(seed)
    return [max(-reference.LIMIT, min(reference.LIMIT, round(v + rng.gauss(0, sigma)))) for v in levels]


def pull(levels, pulls):
    """Each named slot goes towards (and past) its opposite by so many steps."""
    out = list(levels)
    for i, p in pulls.items():
        out[i] += -p if out[i] > 0 else p
    return out


def trellis(n, mask, levels):
    """(least distance, number of permitted words that have it)."""
    # x is permitted when d_j = sum of x_i over all i with every one of j in i is 0, j frozen
    frozen = [j for j in range(2 ** n) if mask >> j & 1]
    column = [sum(1 << k for k, j in enumerate(frozen) if j & i == j) for i in range(2 ** n)]
    state = {0: (0, 1)}
    for i in range(2 ** n):
        new = {}
        for s, (dist, count) in state.items():
            for bit in (0, 1):
                to = s ^ column[i] if bit else s
                total = dist + (levels[i] - (256 if bit else -256)) ** 2
                old = new.get(to)
                if old is None or total < old[0]:
                    new[to] = (total, count)
                elif total == old[0]:
                    new[to] = (total, old[1] + count)
        state = new
    return state[0]


three = [256, 256] + [-256] * 6
clean = ideal(6, RM, MESSAGE)
noise_seed = 0
while True:      # the first noise with two slots of the wrong sign that still comes back
    noise = noisy(noise_seed, 100, clean)
    wrong = [i for i in range(64) if (noise[i] > 0) != (clean[i] > 0)]
    if len(wrong) == 2 and printed.walk(6, 7, RM, noise)[1] == reference.place_message(6, RM, MESSAGE):
        break
    noise_seed += 1
block, sent, customer = printed.search()
assert sent == printed.SENT
pulls = {0: 400, 1: 300, 2: 200, 3: 123}
below = pull(clean, pulls)
at = pull(clean, {**pulls, 3: 124})
RM_16_5 = 0x177f
erased = ideal(4, RM_16_5, 0x15)
erased[5:12] = [0] * 7
out_of_range = list(clean)
out_of_range[5] = reference.LIMIT + 1

RECORDS = [                                          # (record, message sent or None)
    (record(3, 0, 100, 0x05, three), 1),
    (record(3, 0, 13, 0x05, three), None),
    (record(3, 8, 100, 0x05, three), None),
    (record(6, 0, 121, RM, clean), MESSAGE),
    (record(6, 7, 16, RM, clean), MESSAGE),
    (record(6, 7, 1000000, RM, noise), MESSAGE),
    (record(6, 0, 1000000, RM, customer), sent),
    (record(6, 7, 1000000, RM, below), MESSAGE),
    (record(6, 7, 1000000, RM, at), MESSAGE - 1),
    (record(3, 0, 100, 0x05, [-256, 256] + [-256] * 6), 0),
    (record(4, 3, 1000, RM_16_5, erased), 0x15),
    (record(3, 0, 100, 0x105, three), None),
    (record(6, 7, 16, RM, out_of_range), None),
    (record(3, 0, 100, 0x05, three + [1]), None),
    (record(3, 0, 100, 0x05, three)[:100], None),
]


def main():
    here = os.path.join(os.path.dirname(os.path.dirname(os.path.abspath(__file__))), "samples")
    lines = []
    for k, (rec, expected) in enumerate(RECORDS):
        line = reference.line_of(k, rec, self_check=True)
        lines.append(line)
        note = ""
        if "found" in line:
            message, d, x, least, _ = reference.decode_record(rec)
            n, mask = rec[0], int.from_bytes(rec[8:16], "little")
            levels = list(struct.unpack("<64h", rec[16:]))[:2 ** n]
            assert message == expected, k
            if 2 ** n - mask.bit_count() <= 16:
                assert reference.least_by_listing(n, mask, levels) == (least, d)
                note = "listing agrees; "
            tr = trellis(n, mask, levels)
            assert tr[0] == least
            note += "trellis: least %d, reached by %d word(s)" % tr
            own = ideal(n, mask, message)
            note += "; disturbance %d" % sum(abs(a - b) for a, b in zip(levels, own))
            answers = {}
            for f in range(2 ** n):
                if f.bit_count() <= 3 and (n < 6 or f in (0, 1, 7, 32, 56)):
                    answers[f] = printed.walk(n, f, mask, levels)
            assert set(answers.values()) == {(least, d)}
            note += "; same under foldings %s" % sorted(answers)
        print(line.strip(), "|", note)
    open(os.path.join(here, "blocks.bin"), "wb").write(b"".join(r for r, _ in RECORDS))
    open(os.path.join(here, "blocks.txt"), "w").write("".join(lines))
    print("noise seed", noise_seed, "wrong signs", wrong, [noise[i] for i in wrong], "block", block)
    print("noise disturbance", sum(abs(a - b) for a, b in zip(noise, clean)), "max", max(map(abs, noise)))
    cl = ideal(6, RM, sent)
    print("customer wrong", [(i, customer[i]) for i in range(64) if (customer[i] > 0) != (cl[i] > 0)])
    print("below", below[:4], "at", at[:4], "clean", clean[:4])


main()
