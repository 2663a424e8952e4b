"""Request K2 of document 02: the rules of a request for a block and of its record, and cases of both.

The rules are K2's own sentences. That a buffer must have room, which is asked before all else, is not in the
documents: it is the library's own rule.
"""
from vector_records import *

REQUEST = 24          # "it reads 24-byte requests"


def check_request(n, folding, mask, message, zero_bytes=b""):
    """Refusals "in the order 13 .., 1, 12 (for the zero bytes), 3, 4, 5, 9", from 1 on."""
    if not 1 <= n <= 6:
        raise Refused(1)
    if any(zero_bytes):
        raise Refused(12)
    check_tree(n, mask, folding)
    if message >> len(unfrozen(n, mask)):
        raise Refused(9)


def read_request(raw):
    """"n, folding, two zero bytes, allowance, mask, message, in the widths and order of the block record"."""
    if len(raw) < REQUEST:
        raise Refused(13)
    n, folding, zero_bytes, allowance, mask, message = struct.unpack("<BB2sIQQ", raw[:REQUEST])
    check_request(n, folding, mask, message, zero_bytes)
    return n, folding, allowance, mask, message


def record_of(n, folding, allowance, mask, message):
    """"block records with ideal levels and zeros behind them"."""
    check_request(n, folding, mask, message)
    raw = make_record(n, folding, allowance, mask, ideal_levels(n, encode(n, mask, message)[1]))
    # "Reading back a written record must give the request's fields and, if the allowance suffices, its message at
    # distance 0."
    back = read(raw)
    assert back[:4] == (n, folding, allowance, mask)
    r = decode(n, mask, folding, U32, back[4][:2 ** n])
    assert (r["message"], r["distance"]) == (message, 0)
    assert refusal(record, raw) == (0 if r["visits"] <= allowance else 8)
    return raw


def write(room, *fields):
    """None for no room, else the record."""
    if room < 144:
        return None
    return record_of(*fields)


# ---------------------------------------------------------------- the cases

RM, MESSAGE = 0x0000000100010117, 0x0123456789abcdef
FIRST = struct.pack("<BBBBIQQ", 3, 0, 0, 0, 100, 5, 1)      # gives the first record of document 01

REQUESTS = [
    # 13, and bytes behind the request
    (0, []), (1, []), (23, []), (24, []), (25, []), (26, []),
    # 1: n = 1 has a mask that is too large for it, unless that is changed
    (24, [(0, 0)]), (24, [(0, 1)]), (24, [(0, 1), (8, 2)]), (24, [(0, 2)]), (24, [(0, 4)]), (24, [(0, 5)]),
    (24, [(0, 6)]), (24, [(0, 7)]), (24, [(0, 131)]), (24, [(0, 255)]),
    # 12
    (24, [(2, 1)]), (24, [(2, 128)]), (24, [(3, 1)]), (24, [(3, 128)]), (24, [(2, 255), (3, 255)]),
    # 3, and each byte of the mask
    (24, [(8, 128)]), (24, [(9, 1)]), (24, [(15, 128)]), (24, [(0, 1), (8, 4)]), (24, [(0, 2), (8, 8)]),
    (24, [(0, 2), (8, 16)]), (24, [(0, 4), (9, 128)]), (24, [(0, 4), (10, 1)]), (24, [(0, 5), (11, 128)]),
    (24, [(0, 5), (12, 1)]), (24, [(0, 6), (15, 128)]), (24, [(0, 6), (8, 18), (9, 52), (10, 86)]),
    (24, [(0, 6), (11, 120), (12, 154), (13, 188)]), (24, [(0, 6), (14, 222), (15, 240)]),
    # 4
    (24, [(1, 7)]), (24, [(1, 8)]), (24, [(1, 128)]), (24, [(0, 4), (1, 8)]), (24, [(0, 4), (1, 16)]),
    (24, [(0, 6), (1, 32)]), (24, [(0, 6), (1, 64)]),
    # 5
    (24, [(0, 4), (1, 14)]), (24, [(0, 4), (1, 15)]), (24, [(0, 6), (1, 56)]), (24, [(0, 6), (1, 58)]),
    (24, [(0, 6), (1, 63)]),
    # allowance
    (24, [(4, 0)]), (24, [(4, 1), (5, 2), (6, 3), (7, 4)]), (24, [(4, 255), (5, 255), (6, 255), (7, 255)]),
    # 9, and each byte of the message
    (24, [(16, 0)]), (24, [(16, 63)]), (24, [(16, 64)]), (24, [(17, 1)]), (24, [(23, 128)]),
    (24, [(8, 255), (16, 0)]), (24, [(8, 255)]), (24, [(8, 0), (16, 255)]), (24, [(8, 0), (17, 1)]),
    (24, [(0, 1), (8, 0), (16, 3)]), (24, [(0, 1), (8, 0), (16, 4)]), (24, [(0, 1), (8, 3), (16, 0)]),
    (24, [(0, 1), (8, 3)]), (24, [(0, 4), (17, 63)]), (24, [(0, 4), (17, 64)]), (24, [(0, 5), (19, 63)]),
    (24, [(0, 5), (19, 64)]), (24, [(0, 6), (23, 63)]), (24, [(0, 6), (23, 64)]), (24, [(0, 6), (8, 0), (23, 128)]),
    (24, [(0, 6), (16, 18), (17, 52), (18, 86)]), (24, [(0, 6), (19, 120), (20, 154), (21, 188)]),
    (24, [(0, 6), (22, 222), (23, 48)]),
    # two refusals and more at once
    (23, [(0, 7)]), (23, [(2, 1)]), (23, [(9, 1)]), (23, [(1, 8)]), (23, [(0, 4), (1, 15)]), (23, [(16, 64)]),
    (24, [(0, 7), (2, 1)]), (24, [(0, 0), (9, 1)]), (24, [(0, 7), (1, 128)]), (24, [(0, 7), (1, 15)]),
    (24, [(0, 0), (8, 0), (16, 4)]), (24, [(3, 1), (9, 1)]), (24, [(1, 8), (2, 1)]),
    (24, [(0, 4), (1, 15), (3, 1)]), (24, [(2, 1), (16, 64)]), (24, [(1, 8), (9, 1)]),
    (24, [(0, 4), (1, 15), (10, 1)]), (24, [(9, 1), (16, 64)]), (24, [(1, 15)]), (24, [(1, 8), (16, 64)]),
    (24, [(0, 4), (1, 15), (17, 64)]), (24, [(1, 15), (9, 1), (16, 64)]), (24, [(1, 15), (2, 1), (9, 1), (16, 64)]),
    (24, [(0, 7), (1, 255), (2, 1), (9, 1)]),
]

WRITE = [
    # room: less than is asked for, just as much, and more
    (3, 0, 100, 5, 1, 0), (3, 0, 100, 5, 1, 143), (3, 0, 100, 5, 1, 144), (3, 0, 100, 5, 1, 145),
    (3, 0, 100, 5, 1, 160),
    # rows b to e, g, h, m
    (3, 0, 100, 5, 3, 144), (3, 0, 100, 5, 4, 144), (3, 0, 100, 5, 32, 144), (3, 0, 100, 5, 63, 144),
    (3, 0, 100, 5, 64, 144), (3, 4, 100, 5, 1, 144), (3, 7, 100, 5, 1, 145), (3, 0, 100, 0xff, 0, 144),
    (3, 0, 100, 0xff, 1, 144),
    # 1: every n
    (0, 0, 100, 0, 0, 144), (1, 0, 100, 0, 1, 144), (2, 0, 100, 0, 5, 144), (4, 0, 100, 0x117, 1234, 144),
    (5, 0, 100, 0x10117, 0x3abcdef, 144), (6, 0, 121, RM, MESSAGE, 144), (7, 0, 100, 0, 0, 144),
    (256 + 3, 0, 100, 5, 1, 144), (U32, 0, 100, 5, 1, 144),
    # 3
    (3, 0, 100, 0x80, 1, 144), (3, 0, 100, 0x100, 1, 144), (1, 0, 100, 2, 1, 144), (1, 0, 100, 4, 1, 144),
    (5, 0, 100, 0x80000000, 1, 144), (5, 0, 100, 0x100000000, 1, 144), (6, 0, 100, 1 << 63, 1, 144),
    (3, 0, 100, U64, 0, 144),
    # 4 and 5
    (3, 8, 100, 5, 1, 144), (4, 8, 100, 5, 1, 144), (4, 7, 100, 5, 1, 144), (4, 15, 100, 5, 1, 144),
    (4, 16, 100, 5, 1, 144), (6, 56, 100, 5, 1, 144), (6, 57, 100, 5, 1, 144), (6, 63, 100, 5, 1, 144),
    (6, 64, 100, 5, 1, 144), (3, 256, 100, 5, 1, 144), (3, U32, 100, 5, 1, 144), (6, 1 << 31, 100, 5, 1, 144),
    # allowance
    (3, 0, 0, 5, 1, 144), (3, 0, U32, 5, 1, 144), (3, 0, 0x04030201, 5, 1, 144),
    # 9
    (1, 0, 100, 0, 3, 144), (1, 0, 100, 0, 4, 144), (6, 7, 100, 0, U64, 144), (6, 7, 100, 1, U64 >> 1, 144),
    (6, 7, 100, 1, 1 << 63, 144), (6, 7, 100, RM, (1 << 57) - 1, 160), (6, 7, 100, RM, 1 << 57, 160),
    (6, 7, 100, U64, 0, 144), (6, 7, 100, U64, 1, 144), (3, 0, 100, 5, U64, 144),
    # made up, with two faults and more; the room before all of them
    (7, 0, 100, U64, 1, 144), (0, 1, 100, 0, 0, 144), (7, 15, 100, 5, 1, 144), (7, 0, 100, 0, U64, 144),
    (3, 8, 100, 0x100, 1, 144), (4, 15, 100, 0x10000, 1, 144), (3, 0, 100, 0x100, 64, 144), (3, 15, 100, 5, 1, 144),
    (3, 8, 100, 5, 64, 144), (4, 15, 100, 5, 1 << 14, 144), (6, U32, U32, U64, U64, 144),
    (5, U32, U32, U64, U64, 144), (U32, U32, U32, U64, U64, 144), (U32, U32, U32, U64, U64, 160),
    (U32, U32, U32, U64, U64, 143), (7, 0, 100, 5, 1, 143), (3, 8, 100, 5, 1, 143), (3, 0, 100, 5, 64, 0),
]


def changed_request(count, changes):
    raw = bytearray(FIRST + b"\xff\xff")
    assert len(changes) <= 4 and len(set(p for p, _ in changes)) == len(changes)
    for p, v in changes:
        assert 0 <= p < REQUEST and 0 <= v < 256 and raw[p] != v
        raw[p] = v
    return bytes(raw[:count])


def shown(raw):
    """A record: its first 16 bytes, and + for a level of 256, - for -256, 0 for 0."""
    levels = struct.unpack("<64h", raw[16:])
    return "record=%s levels=%s" % (raw[:16].hex(), "".join({256: "+", -256: "-", 0: "0"}[v] for v in levels))


def requests():
    assert record_of(*read_request(FIRST)) == DOC[0]
    out = []
    for count, changes in REQUESTS:
        raw = changed_request(count, changes)
        try:
            got = "n=%d folding=0x%x allowance=%d mask=0x%x message=%d" % read_request(raw)
        except Refused as no:
            got = no.text()
        out.append("request bytes=%d%s -> %s" % (count, "".join(" [%d]=%d" % c for c in changes), got))

    for *fields, room in WRITE:
        given = "write n=%d folding=0x%x allowance=%d mask=0x%x message=%d" % tuple(fields)
        try:
            raw = write(room, *fields)
            got = "no room left=%d" % room if raw is None else "%s left=%d" % (shown(raw), room - len(raw))
        except Refused as no:
            got = "%s left=%d" % (no.text(), room)
        out.append("%s room=%d -> %s" % (given, room, got))
    return out
