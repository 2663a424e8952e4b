#!/usr/bin/env python3
"""The search of source document 000 as it is PRINTED there, slips and all.

Tables II, III and IV are put into Python line by line; "III.7" in a comment
is the seventh printed line of Table III, counted from "while" (the call of
PickNextCandidate, broken over two lines there, is III.4 and III.5).

  printed.py             decode the customer-like record of samples/blocks.bin
  printed.py --search    find that block again among random noisy ones

Readings chosen where the print is in doubt, each the kindest one:
  * IV.6 tests the UNFROZEN bits for zero.  Word for word, IV.7 then fills in
    zeros only, so d = 0 is all that can be stored, and the table runs out.
    Read here as the FROZEN bits, as the prose has it; literal_test=True takes
    the print at its word.
  * Equal entries of a table: the smaller u first.
  * y lies about 0 and 1 there, ours about -256 and 256: metrics differ by a
    scale only.
Two more slips are not in doubt and stay.  A repair can be asked for by name:
  * "metric": III.25 leaves an exhausted level, and its m stays in sum(m).
  * "bits":   III.5 is reached again with the level's old bits still in t, and
              IV.5 adds them to the new ones.
"""
import os
import random
import sys

import reference

RM_64_57 = 0x0000000100010117
RECORD = 6                         # number of the record in samples/blocks.bin
SENT = 0x012c10b86eae699c          # the message sent in it
SEED, SIGMA = 3, 90                # of the random blocks it was found among


def times_f(bits):
    """F^(⊗k) times a vector of 2^k bits."""
    bits = list(bits)
    step = 1
    while step < len(bits):
        for i in range(len(bits)):
            if i & step == 0:
                bits[i] ^= bits[i | step]
        step *= 2
    return bits


class TableRunsOut(Exception):
    pass


def printed_search(n, folding, mask, y, repairs=(), literal_test=False, watch=None):
    """(d, r) as Table III returns them.  watch is told of every cut (III.19)."""
    # Table II, initialization; place 0 of every list over levels is not used
    r = float("inf")
    I = [None] + reference.groups_of(n, folding)
    L = len(I) - 1
    l = 1
    frozen = [None] + [[p for p, i in enumerate(g) if mask >> i & 1] for g in I[1:]]
    unfrozen = [None] + [[p for p, i in enumerate(g) if not mask >> i & 1] for g in I[1:]]
    rho = [None] + [len(places) for places in unfrozen[1:]]
    c = [0] * (L + 1)
    ind = [0] * (L + 1)
    m = [0] * (L + 1)
    t = [0] * 2 ** n
    table = [None]
    for g in I[1:]:
        metric = lambda u: sum(reference.slot_distance(y[i], u >> p & 1)
                               for p, i in enumerate(g))
        table.append([None] + sorted((metric(u), u) for u in range(2 ** len(g))))
    d_hat = None

    def pick_next_candidate(l):                           # Table IV
        x_of_t = times_f(t)                               # F^(⊗n) t, the same for every u
        tested = unfrozen[l] if literal_test else frozen[l]
        while True:                                       # IV.2   repeat
            ind[l] += 1                                   # IV.3
            if ind[l] == len(table[l]):
                raise TableRunsOut("the table of level %d runs out" % l)
            u = table[l][ind[l]][1]                       # IV.4
            d = times_f([x_of_t[i] ^ (u >> p & 1)         # IV.5   solve
                         for p, i in enumerate(I[l])])
            if all(d[p] == 0 for p in tested):            # IV.6   until
                break
        for p in unfrozen[l]:                             # IV.7   fill non frozen bits
            t[I[l][p]] = d[p]
        return table[l][ind[l]][0]                        # IV.8 and IV.9

    def clear_bits(l):
        for i in I[l]:
            t[i] = 0

    while l != 0:                                         # III.1
        if c[l] < 2 ** rho[l]:                            # III.2
            c[l] += 1                                     # III.3
            if "bits" in repairs:
                clear_bits(l)                             # NOT in the print
            m[l] = pick_next_candidate(l)                 # III.4 to III.6
            if sum(m) < r:                                # III.7
                if l == L:                                # III.8
                    d_hat = sum(b << i for i, b in enumerate(t))   # III.9  store
                    r = sum(m)                            # III.10 update
                    clear_bits(l)                         # III.11
                    m[l] = 0                              # III.12
                    l = l - 1                             # III.13
                else:                                     # III.14
                    l = l + 1                             # III.15
                    c[l] = 0                              # III.16
                    ind[l] = 0                            # III.17
            else:                                         # III.19
                if watch:
                    watch(l, I, t, m, r)
                clear_bits(l)                             # III.20
                m[l] = 0                                  # III.21
                l = l - 1                                 # III.22
        else:                                             # III.24
            if "metric" in repairs:
                m[l] = 0                                  # NOT in the print
            l = l - 1                                     # III.25
    return d_hat, r                                       # III.28 and III.29


def walk(n, folding, mask, y):
    """Document 01's walk: (distance, d)."""
    w = reference.Walk(n, folding, 2 ** 32 - 1, mask, y)
    w.node(0, 0, 0)
    return w.best


def search():
    """The first random block of RM(64,57), folding 0, that the walk gets right and
    the print loses: as it stands, with "bits" repaired (the same wrong word, so the
    metric slip alone explains it), and with "metric" repaired."""
    rng = random.Random(SEED)
    block = -1
    while True:
        block += 1
        message = rng.getrandbits(57)
        d = reference.place_message(6, RM_64_57, message)
        x = reference.codeword(6, d)
        y = [round((256 if x >> i & 1 else -256) + rng.gauss(0, SIGMA)) for i in range(64)]
        as_printed = printed_search(6, 0, RM_64_57, y)[0]
        if (as_printed != d and printed_search(6, 0, RM_64_57, y, ("bits",))[0] == as_printed
                and printed_search(6, 0, RM_64_57, y, ("metric",))[0] != d
                and walk(6, 0, RM_64_57, y)[1] == d):
            return block, message, y


def main():
    root = os.path.dirname(os.path.dirname(os.path.abspath(__file__)))
    with open(os.path.join(root, "samples", "blocks.bin"), "rb") as f:
        record = f.read()[144 * RECORD:144 * (RECORD + 1)]
    n, folding, mask = record[0], record[1], int.from_bytes(record[8:16], "little")
    y = [int.from_bytes(record[16 + 2 * i:18 + 2 * i], "little", signed=True)
         for i in range(2 ** n)]
    if "--search" in sys.argv[1:]:
        block, message, levels = search()
        print("seed %d, deviation %d: block %d, message %016x" % (SEED, SIGMA, block, message))
        print("same message and levels as in the record:", (message, levels) == (SENT, y))
        return

    d = reference.place_message(n, mask, SENT)
    x = reference.codeword(n, d)

    def tell(who, word, r):
        other = reference.codeword(n, word)
        print("%s: message %016x, true distance %d, r %d, slots unlike the sent word %s"
              % (who, reference.read_message(n, mask, word), reference.distance(n, y, other),
                 r, [i for i in range(2 ** n) if (other ^ x) >> i & 1] or "none"))

    print("record %d: n %d, mask %016x, folding %d" % (RECORD, n, mask, folding))
    print("sent: message %016x, d %016x, x %016x, distance %d"
          % (SENT, d, x, reference.distance(n, y, x)))
    print("slots of the wrong sign:", [i for i in range(2 ** n) if (y[i] > 0) != (x >> i & 1)])
    least, word = walk(n, folding, mask, y)
    tell("document 01's walk", word, least)
    cuts = []

    def watch(l, I, t, m, r):
        decided = [i for g in I[1:l + 1] for i in g]
        if all(t[i] == d >> i & 1 for i in decided):
            true = sum(reference.slot_distance(y[i], x >> i & 1) for i in decided)
            cuts.append((l, I[l][0], true, {I[k][0]: m[k] for k in range(l + 1, len(m)) if m[k]},
                         sum(m), r))

    tell("as printed", *printed_search(n, folding, mask, y, watch=watch))
    print("  the sent word is cut at level %d (slot %d): its own metrics so far %d, left over"
          " by slot %s, sum(m) %d, r %d" % cuts[0])
    tell("only the old bits repaired", *printed_search(n, folding, mask, y, ("bits",)))
    tell("only the metric repaired", *printed_search(n, folding, mask, y, ("metric",)))
    tell("both repaired", *printed_search(n, folding, mask, y, ("bits", "metric")))
    try:
        tell("IV.6 word for word", *printed_search(n, folding, mask, y, literal_test=True))
    except TableRunsOut as where:
        print("IV.6 word for word: no answer,", where)


if __name__ == "__main__":
    main()
