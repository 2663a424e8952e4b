#!/usr/bin/env python3
"""A plain, literal reading of request K2 of document 02: requests of 24 bytes -> block records of 144 bytes.

Nothing here is clever.  The order of the refusals is the request's; the codeword of a
message, the groups and the form of a record are document 01's, as reference.py reads them.

  make_reference.py < requests > records 2> numbers
"""
import sys

sys.dont_write_bytecode = True
import reference
from reference import Refused

REQUEST = 24                          # "it reads 24-byte requests from standard input"
MOST_REQUESTS = 4294967295            # document 01: no program of ours reads more


# -------------------------------------------------------------- the requests

def request_of(n, folding, allowance, mask, message, byte2=0, byte3=0):
    """n, folding, two zero bytes, allowance, mask, message, in the widths and order of the block record."""
    return (bytes([n, folding, byte2, byte3]) + allowance.to_bytes(4, "little")
            + mask.to_bytes(8, "little") + message.to_bytes(8, "little"))


def fields_of(request):
    """(n, folding, allowance, mask, message) of a request of 24 bytes."""
    return (request[0], request[1], int.from_bytes(request[4:8], "little"),
            int.from_bytes(request[8:16], "little"), int.from_bytes(request[16:24], "little"))


def unfrozen(n, mask):
    """K, the number of unfrozen indices."""
    return sum(1 for i in range(2 ** n) if (mask >> i) & 1 == 0)


def ideal_visits(n, folding, mask):
    """Ideal levels always take L visits plus one per group with an unfrozen index."""
    groups = reference.groups_of(n, folding)
    return len(groups) + sum(1 for group in groups if any((mask >> i) & 1 == 0 for i in group))


# --------------------------------------------------------------- the records

def ideal_levels(n, mask, message):
    """The ideal level of bit 1 is +256, of bit 0 is -256."""
    x = reference.codeword(n, reference.place_message(n, mask, message))
    return [256 if (x >> i) & 1 == 1 else -256 for i in range(2 ** n)]


def record_of(n, folding, allowance, mask, levels):
    """The request's fields in the record's places, the levels, and zeros behind them."""
    levels = levels + [0] * (64 - len(levels))
    return (bytes([n, folding, 0, 0]) + allowance.to_bytes(4, "little") + mask.to_bytes(8, "little")
            + b"".join(level.to_bytes(2, "little", signed=True) for level in levels))


def answer(request):
    """The record that is written for a request, or Refused."""
    if len(request) < REQUEST:
        raise Refused(13)
    n, folding, allowance, mask, message = fields_of(request)
    if not 1 <= n <= 6:
        raise Refused(1)
    if request[2] != 0 or request[3] != 0:
        raise Refused(12)
    if mask >> 2 ** n != 0:
        raise Refused(3)
    if folding >> n != 0:
        raise Refused(4)
    if bin(folding).count("1") > 3:
        raise Refused(5)
    if message >> unfrozen(n, mask) != 0:
        raise Refused(9)
    return record_of(n, folding, allowance, mask, ideal_levels(n, mask, message))


# --------------------------------------------------------------- the program

def written_for(request):
    """(bytes for standard output, bytes for standard error) of one request."""
    try:
        return answer(request), b""
    except Refused as refusal:
        return b"", b"%d\n" % refusal.number


def make(data):
    """(standard output, standard error) for the whole of standard input."""
    records = []
    numbers = []
    at = 0
    count = 0
    while at < len(data) and count < MOST_REQUESTS:
        record, number = written_for(data[at:at + REQUEST])
        records.append(record)
        numbers.append(number)
        at += REQUEST
        count += 1
    return b"".join(records), b"".join(numbers)


def main():
    count = 0
    while count < MOST_REQUESTS:
        request = sys.stdin.buffer.read(REQUEST)
        if len(request) == 0:
            break
        record, number = written_for(request)
        sys.stdout.buffer.write(record)
        sys.stderr.buffer.write(number)
        count += 1


if __name__ == "__main__":
    main()
