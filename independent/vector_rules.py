"""The rules of document 01, with request K1 of document 02, for words, the walk and light, literally and slowly.

Nothing here comes from an implementation; every function below is the text's own sentence.
"""
import struct
from fractions import Fraction

LIMIT = 2047          # "Levels from now on go from -2047 to 2047" (K1)
U32 = 4294967295
U64 = 18446744073709551615


class Refused(Exception):
    def __init__(self, number, **named):
        super().__init__(number)
        self.number = number
        self.named = named

    def text(self):
        if self.number == 6:
            return "refused 6 slot %d" % self.named["slot"]
        if self.number == 11:
            return "refused 11 sample %d" % self.named["sample"]
        return "refused %d" % self.number


def ones(v):
    return bin(v).count("1")


# ---------------------------------------------------------------- words and matrix

def codeword(n, d):
    """x_i is the sum modulo 2 of all d_j such that every one bit of i is also one in j."""
    size = 2 ** n
    x = 0
    for i in range(size):
        total = 0
        for j in range(size):
            if i & j == i:
                total += (d >> j) & 1
        x |= (total % 2) << i
    return x


def unfrozen(n, mask):
    return [i for i in range(2 ** n) if not (mask >> i) & 1]


def place(n, mask, message):
    d = 0
    for b, i in enumerate(unfrozen(n, mask)):
        d |= ((message >> b) & 1) << i
    return d


def unplace(n, mask, d):
    message = 0
    for b, i in enumerate(unfrozen(n, mask)):
        message |= ((d >> i) & 1) << b
    return message


def encode(n, mask, message):
    if not 1 <= n <= 6:
        raise Refused(1)
    if mask >> (2 ** n):
        raise Refused(3)
    if message >> len(unfrozen(n, mask)):
        raise Refused(9)
    d = place(n, mask, message)
    return d, codeword(n, d)


def guard(n, mask):
    if not 1 <= n <= 6:
        raise Refused(1)
    if mask >> (2 ** n):
        raise Refused(3)
    free = unfrozen(n, mask)
    if not free:
        return None
    return 256 * 2 ** min(ones(i) for i in free)


# ---------------------------------------------------------------- levels and distance

def ideal(bit):
    return 256 if bit else -256


def distance(n, x, levels):
    return sum((levels[i] - ideal((x >> i) & 1)) ** 2 for i in range(2 ** n))


def ideal_levels(n, x):
    return [ideal((x >> i) & 1) for i in range(2 ** n)]


# ---------------------------------------------------------------- folding and walk

def groups_of(n, folding):
    """Indices that agree outside the folding's bits; falling order of the smallest index."""
    by_rest = {}
    for i in range(2 ** n):
        by_rest.setdefault(i & ~folding, []).append(i)
    return sorted((sorted(g) for g in by_rest.values()), key=lambda g: -g[0])


def walk(n, mask, folding, allowance, levels):
    """The text's walk. Gives (d, distance, visits) or refusal 7 or 8."""
    groups = groups_of(n, folding)
    summed = [sum(1 << j for j in range(2 ** n) if i & j == i) for i in range(2 ** n)]   # the j of each x_i
    state = {"visits": 0, "best": None}

    def candidates(level, d_so_far):
        group = groups[level]
        free = [i for i in group if not (mask >> i) & 1]
        found = []
        for fill in range(2 ** len(free)):
            d = d_so_far
            for b, i in enumerate(free):
                d |= ((fill >> b) & 1) << i
            u = 0
            branch = 0
            for b, i in enumerate(group):
                bit = ones(d & summed[i]) % 2          # final: only this group and decided ones count
                u |= bit << b
                branch += (levels[i] - ideal(bit)) ** 2
            found.append((branch, u, d))
        assert len(set(u for _, u, _ in found)) == len(found)
        return sorted(found)

    def node(level, partial, d_so_far):
        here = candidates(level, d_so_far)
        if not here:
            raise Refused(7)
        for branch, _, d in here:
            if state["visits"] + 1 > allowance:
                raise Refused(8)
            state["visits"] += 1
            best = state["best"]
            if best is not None and partial + branch > best[0]:
                return
            if level == len(groups) - 1:
                if best is None or (partial + branch, d) < best:
                    state["best"] = (partial + branch, d)
            else:
                node(level + 1, partial + branch, d)

    node(0, 0, 0)
    dist, d = state["best"]
    return d, dist, state["visits"]


LISTED = {}


def listing(n, mask, levels):
    """Least distance, then smallest d, over every permitted word."""
    key = (n, mask, tuple(levels))
    if key not in LISTED:
        column = [codeword(n, 1 << j) for j in range(2 ** n)]   # the map is a sum, so columns add
        free = unfrozen(n, mask)
        assert len(free) <= 16
        cost = [[(levels[i] - ideal(b)) ** 2 for b in (0, 1)] for i in range(2 ** n)]
        best = None
        for message in range(2 ** len(free)):
            d = x = 0
            for b, i in enumerate(free):
                if (message >> b) & 1:
                    d |= 1 << i
                    x ^= column[i]
            total = sum(cost[i][(x >> i) & 1] for i in range(2 ** n))
            if best is None or (total, d) < best:
                best = (total, d)
        assert distance(n, codeword(n, best[1]), levels) == best[0]
        LISTED[key] = best
    return LISTED[key]


def check_tree(n, mask, folding):
    """Refusals 3, 4, 5, which decoding and a record share."""
    if mask >> (2 ** n):
        raise Refused(3)
    if folding >> n:
        raise Refused(4)
    if ones(folding) > 3:
        raise Refused(5)


def decode(n, mask, folding, allowance, levels):
    if not 1 <= n <= 6:
        raise Refused(1)
    if len(levels) != 2 ** n:
        raise Refused(2)
    check_tree(n, mask, folding)
    for i, v in enumerate(levels):
        if not -LIMIT <= v <= LIMIT:
            raise Refused(6, slot=i)
    d, dist, visits = walk(n, mask, folding, allowance, levels)
    assert len(unfrozen(n, mask)) > 16 or (dist, d) == listing(n, mask, levels)
    assert d & mask == 0 and visits <= allowance
    return {"message": unplace(n, mask, d), "d": d, "x": codeword(n, d), "distance": dist, "visits": visits}


# ---------------------------------------------------------------- from light to levels

def bits_of(value):
    return struct.unpack("<I", struct.pack("<f", value))[0]


def exact(bits):
    """The exact value that the float's bits name, None for NaN and infinities."""
    sign = -1 if bits >> 31 else 1
    e = (bits >> 23) & 255
    m = bits & 0x7FFFFF
    if e == 255:
        return None
    if e == 0:
        return sign * Fraction(m, 2 ** 149)
    return sign * Fraction(2 ** 23 + m) * Fraction(2) ** (e - 150)


def level_of(bits):
    s = exact(bits)
    if s is None:
        return None
    assert s == Fraction(struct.unpack("<f", struct.pack("<I", bits))[0])
    t = 256 * s
    low = t.numerator // t.denominator
    rest = t - low
    if rest < Fraction(1, 2):
        near = low
    elif rest > Fraction(1, 2):
        near = low + 1
    else:
        near = low if low % 2 == 0 else low + 1
    assert abs(near - t) <= Fraction(1, 2)
    return max(-LIMIT, min(LIMIT, near))


def new_assembler(n):
    """(refusal or None, assembler handed back); an assembler is (n, filled, 64 levels)."""
    return (None if 1 <= n <= 6 else Refused(1)), (n, 0, [0] * 64)


def take(assembler, reading):
    n, filled, levels = assembler
    if not 1 <= n <= 6 or filled > 2 ** n:
        raise Refused(1)
    need = 2 if reading[0] == "pair" else 1
    if need > 2 ** n - filled:
        raise Refused(10)
    got = []
    for i, bits in enumerate(reading[1:]):
        v = level_of(bits)
        if v is None:
            raise Refused(11, sample=i)
        got.append(v)
    if reading[0] == "erased":
        got = [0]
    assert len(got) == need
    new = list(levels)
    new[filled:filled + need] = got
    return n, filled + need, new


def give(assembler, lent):
    n, filled, levels = assembler
    if not 1 <= n <= 6 or filled > 2 ** n:
        raise Refused(1)
    if filled != 2 ** n:
        raise Refused(14)
    if len(lent) != 2 ** n:
        raise Refused(2)
    return levels[:2 ** n]
