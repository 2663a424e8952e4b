#!/usr/bin/env python3
"""A plain, literal reading of document 01, with request K1 of document 02: recorded blocks -> lines of text.

Nothing here is clever.  Every rule is written the way document 01 words it,
so that a faster program can be checked against it.

  reference.py [--self-check] < records > lines

--self-check also finds the least word by listing every permitted word (when
that is at most some million steps) and stops with an error if the walk disagrees.
"""
import sys

RECORD = 144
LIMIT = 2047                          # "Levels from now on go from -2047 to 2047" (K1)
MOST_RECORDS = 4294967295


class Refused(Exception):
    """A refusal, carrying only its number."""

    def __init__(self, number):
        super().__init__(number)
        self.number = number


# ---------------------------------------------------------------- the matrix

def codeword(n, d):
    """x_i is the sum mod 2 of all d_j such that every one bit of i is one in j."""
    x = 0
    for i in range(2 ** n):
        total = 0
        for j in range(2 ** n):
            if i & j == i:
                total += (d >> j) & 1
        x |= (total % 2) << i
    return x


def place_message(n, mask, message):
    """Message bit 0 goes to the smallest unfrozen index, bit 1 to the next..."""
    d = 0
    place = 0
    for i in range(2 ** n):
        if (mask >> i) & 1 == 0:
            d |= ((message >> place) & 1) << i
            place += 1
    return d


def read_message(n, mask, d):
    message = 0
    place = 0
    for i in range(2 ** n):
        if (mask >> i) & 1 == 0:
            message |= ((d >> i) & 1) << place
            place += 1
    return message


def slot_distance(level, bit):
    ideal = 256 if bit == 1 else -256
    return (level - ideal) ** 2


def distance(n, levels, x):
    return sum(slot_distance(levels[i], (x >> i) & 1) for i in range(2 ** n))


# ---------------------------------------------------------------- the groups

def groups_of(n, folding):
    """Groups of indices that agree outside the folding's bits, each rising,
    in falling order of their smallest index."""
    groups = {}
    for i in range(2 ** n):
        groups.setdefault(i & ~folding, []).append(i)
    listed = [sorted(g) for g in groups.values()]
    listed.sort(key=lambda g: g[0], reverse=True)
    return listed


# ------------------------------------------------------------------ the walk

class Walk:
    def __init__(self, n, folding, allowance, mask, levels):
        self.n = n
        self.allowance = allowance
        self.mask = mask
        self.levels = levels
        self.groups = groups_of(n, folding)
        self.visits = 0
        self.best = None  # (distance, d)
        # for every index i, a word with ones at all the j that x_i sums over
        self.summed = [sum(1 << j for j in range(2 ** n) if i & j == i)
                       for i in range(2 ** n)]

    def candidates(self, group, d):
        """All fillings of the group's unfrozen d bits, each with its pattern
        and branch distance, sorted by branch distance, then by pattern."""
        free = [i for i in group if (self.mask >> i) & 1 == 0]
        found = []
        for filling in range(2 ** len(free)):
            filled = d
            for place, i in enumerate(free):
                filled |= ((filling >> place) & 1) << i
            pattern = 0
            branch = 0
            for place, i in enumerate(group):
                bit = (filled & self.summed[i]).bit_count() % 2
                pattern |= bit << place
                branch += slot_distance(self.levels[i], bit)
            found.append((branch, pattern, filled))
        found.sort(key=lambda c: (c[0], c[1]))
        return found

    def node(self, level, partial, d):
        row = self.candidates(self.groups[level], d)
        if not row:
            raise Refused(7)
        for branch, _pattern, filled in row:
            if self.visits + 1 > self.allowance:
                raise Refused(8)
            self.visits += 1
            total = partial + branch
            if self.best is not None and total > self.best[0]:
                return
            if level == len(self.groups) - 1:
                if self.best is None or total < self.best[0] or (
                        total == self.best[0] and filled < self.best[1]):
                    self.best = (total, filled)
            else:
                self.node(level + 1, total, filled)


def least_by_listing(n, mask, levels):
    """The least word by listing every permitted word."""
    free = bin(~mask & (2 ** 2 ** n - 1)).count("1")
    best = None
    for message in range(2 ** free):
        d = place_message(n, mask, message)
        word = (distance(n, levels, codeword(n, d)), d)
        if best is None or word < best:
            best = word
    return best


# --------------------------------------------------------------- the records

def decode_record(record, self_check=False):
    """(message, d, x, distance, visits), or Refused."""
    if len(record) < RECORD:
        raise Refused(13)
    n = record[0]
    folding = record[1]
    allowance = int.from_bytes(record[4:8], "little")
    mask = int.from_bytes(record[8:16], "little")
    levels = [int.from_bytes(record[16 + 2 * i:18 + 2 * i], "little", signed=True)
              for i in range(64)]
    if not 1 <= n <= 6:
        raise Refused(1)
    size = 2 ** n
    if record[2] != 0 or record[3] != 0 or any(levels[i] != 0 for i in range(size, 64)):
        raise Refused(12)
    if mask >> size != 0:
        raise Refused(3)
    if folding >> n != 0:
        raise Refused(4)
    if bin(folding).count("1") > 3:
        raise Refused(5)
    for i in range(size):
        if not -LIMIT <= levels[i] <= LIMIT:
            raise Refused(6)
    walk = Walk(n, folding, allowance, mask, levels)
    walk.node(0, 0, 0)
    least, d = walk.best
    x = codeword(n, d)
    assert d & mask == 0
    assert distance(n, levels, x) == least
    if self_check and size - bin(mask).count("1") + 2 * n <= 20:
        assert least_by_listing(n, mask, levels) == walk.best
    return read_message(n, mask, d), d, x, least, walk.visits


def line_of(number, record, self_check=False):
    try:
        message, _d, _x, least, visits = decode_record(record, self_check)
    except Refused as refusal:
        return "%d refused %d\n" % (number, refusal.number)
    return "%d found %016x %d %d\n" % (number, message, least, visits)


def main():
    self_check = "--self-check" in sys.argv[1:]
    number = 0
    while number < MOST_RECORDS:
        record = sys.stdin.buffer.read(RECORD)
        if len(record) == 0:
            break
        sys.stdout.write(line_of(number, record, self_check))
        number += 1


if __name__ == "__main__":
    main()
