#!/usr/bin/env python3
"""Makes the stored requests of the program `make` (K2) and, by make_reference.py, what it must write for them.

Every request carries its own words on what it is there for.

  make_requests.py FOLDER    write FOLDER/stdin, FOLDER/stdout and FOLDER/stderr
  make_requests.py --list    a line for each request: its number, the words, `record` or `refused` and the number
  make_requests.py --check   silent if each record reads back by reference.py, and the requests hold what they should
"""
import os
import sys

sys.dont_write_bytecode = True
import make_reference
import reference

RM = 0x0000000100010117               # RM(64,57) at n = 6
MESSAGE = 0x0123456789abcdef          # the message of samples/blocks.bin
HUGE = 4294967295
ORDER = (1, 12, 3, 4, 5, 9)           # the refusals that a request of 24 bytes can meet
sections = []                         # (title, [(words, request, number of its refusal, or 0 for a record)])


def section(title):
    sections.append((title, []))


def good(words, *fields):
    """Words, n, folding, allowance, mask, message of a request that gets its record."""
    bad(0, words, *fields)


def bad(number, words, *fields, **zero_bytes):
    """The same of one that is refused by this number; byte2 and byte3 by name."""
    sections[-1][1].append((words, make_reference.request_of(*fields, **zero_bytes), number))


# -------------------------------------------------------------- the requests

def document():
    section("Document 01's listing and table, and the clean records of samples/blocks.bin")
    good("document 01's first record, record 0 of samples/blocks.bin", 3, 0, 100, 5, 1)
    good("its second: allowance 13 is one visit short, which is for the reader to refuse", 3, 0, 13, 5, 1)
    bad(4, "its third: folding 8 has a one at n", 3, 8, 100, 5, 1)
    good("RM(64,57), record 3 of samples/blocks.bin", 6, 0, 121, RM, MESSAGE)
    good("the same under folding 7, record 4 of it", 6, 7, 16, RM, MESSAGE)
    for row, message, x in (("a", 1, 0x03), ("b", 3, 0x0c), ("c", 4, 0x11), ("d", 32, 0xff)):
        good("row %s: n 3, mask 0x05, message %d, x 0x%02x" % (row, message, x), 3, 0, 200, 5, message)
    good("row e: message 63", 3, 0, 100, 5, 63)
    bad(9, "row e: message 64", 3, 0, 100, 5, 64)
    good("row g: folding 4", 3, 4, 100, 5, 1)
    good("row h: folding 7", 3, 7, 100, 5, 1)
    good("row m: n 3, all frozen", 3, 0, 100, 0xff, 0)
    good("row q: n 4, folding 7", 4, 7, 1000, 0x0117, 5)
    bad(5, "row q: n 4, folding 15", 4, 15, 1000, 0x0117, 5)
    good("row r: n 3, mask 0x80", 3, 0, 1000, 0x80, 1)
    bad(3, "row r: n 3, mask 0x100", 3, 0, 1000, 0x100, 1)


def borders_of_n():
    section("n on both sides of its borders (everything else is all right)")
    for n in (0, 1, 2, 3, 4, 5, 6, 7, 8, 64, 127, 128, 254, 255):
        bad(0 if 1 <= n <= 6 else 1, "n %d, nothing frozen, message 1" % n, n, 0, 1000, 0, 1)


def zero_bytes():
    section("Bytes 2 and 3 (everything else is all right)")
    for byte2, byte3 in ((1, 0), (0, 1), (128, 0), (0, 128), (255, 0), (0, 255), (255, 255)):
        bad(12, "byte 2 is %d, byte 3 is %d" % (byte2, byte3), 3, 0, 100, 5, 1, byte2=byte2, byte3=byte3)


def borders_of_masks():
    section("Mask bits N-1 and N, and far above N")
    for n in range(1, 7):
        good("n %d, mask bit %d, the highest index" % (n, 2 ** n - 1), n, 0, 1000, 1 << 2 ** n - 1, 0)
        if n < 6:
            bad(3, "n %d, mask bit %d, one above it" % (n, 2 ** n), n, 0, 1000, 1 << 2 ** n, 0)
            bad(3, "n %d, mask bit 63" % n, n, 0, 1000, 1 << 63, 0)
            bad(3, "n %d, all 64 mask bits" % n, n, 0, 1000, 2 ** 64 - 1, 0)
    good("n 6, all 64 mask bits, folding 7", 6, 7, 1000, 2 ** 64 - 1, 0)


def masks_of(n):
    """Masks with words, each once."""
    size = 2 ** n
    full = 2 ** size - 1
    light = sum(1 << i for i in range(size) if bin(i).count("1") < 2)
    half = 2 ** (size // 2) - 1
    even = sum(1 << i for i in range(0, size, 2))
    listed = {}
    for words, mask in (("nothing frozen", 0), ("all frozen", full), ("the highest index frozen", 1 << size - 1),
                        ("index 0 frozen", 1), ("all but the highest index frozen", full ^ 1 << size - 1),
                        ("all but index 0 frozen", full ^ 1), ("indices with less than two ones frozen", light),
                        ("the lower half frozen", half), ("the upper half frozen", full ^ half),
                        ("even indices frozen", even), ("odd indices frozen", full ^ even)):
        listed.setdefault(mask, words)
    return [(words, mask) for mask, words in listed.items()]


def borders_of_messages():
    section("Messages on both sides of their border: all of K bits one, and 2^K")
    for n in range(1, 7):
        for words, mask in masks_of(n):
            free = make_reference.unfrozen(n, mask)
            good("n %d, %s: all of K = %d message bits are one" % (n, words, free), n, 0, 1000, mask, 2 ** free - 1)
            if free < 64:
                bad(9, "n %d, %s: message 2^%d" % (n, words, free), n, 0, 1000, mask, 2 ** free)
    good("n 6, nothing frozen: bit 63 alone", 6, 0, 1000, 0, 1 << 63)
    good("n 6, nothing frozen: bits 0 and 63", 6, 0, 1000, 0, 1 << 63 | 1)
    bad(9, "n 1, nothing frozen: message 2^32, nothing is left of it in 32 bits", 1, 0, 1000, 0, 1 << 32)
    bad(9, "n 5, nothing frozen: message 2^63", 5, 0, 1000, 0, 1 << 63)
    bad(9, "n 3, all frozen: message of 64 ones", 3, 0, 1000, 0xff, 2 ** 64 - 1)
    bad(9, "RM(64,57): message of 64 ones", 6, 0, 1000, RM, 2 ** 64 - 1)


def borders_of_foldings():
    section("Foldings: none, each single set, as many as there are, and above n")
    for n in range(1, 7):
        for folding in [0] + [1 << k for k in range(n)] + ([2 ** n - 1] if n in (2, 3) else []):
            good("n %d, folding %s" % (n, bin(folding)), n, folding, 2000, 1, 1)
        for folding in (1 << n, 255):
            bad(4, "n %d, folding %s" % (n, bin(folding)), n, folding, 1000, 1, 1)
    bad(4, "n 6, folding 0b10000000", 6, 128, 1000, RM, 1)
    section("Foldings with two and three ones, and with more, below n")
    for n, folding in ((4, 6), (4, 7), (4, 14), (4, 13), (5, 24), (5, 28), (5, 21), (6, 33), (6, 7), (6, 56), (6, 42), (6, 21), (6, 49)):
        good("n %d, folding %s: %d ones" % (n, bin(folding), bin(folding).count("1")), n, folding, 1000, 1, 1)
    for n, folding in ((4, 15), (5, 15), (5, 30), (5, 31), (6, 15), (6, 60), (6, 43), (6, 31), (6, 63)):
        bad(5, "n %d, folding %s: %d ones" % (n, bin(folding), bin(folding).count("1")), n, folding, 1000, 1, 1)


def allowances():
    section("Allowances: every one is taken, also one that the reader will find too small")
    for n, folding, mask, message in ((1, 1, 3, 0), (1, 0, 0, 3), (2, 2, 1, 5), (3, 0, 5, 2), (3, 7, 5, 2), (4, 1, 0xffff, 0),
                                      (4, 0, 0x0117, 0x2bc), (5, 21, 0x0001011f, 0x1345678), (6, 0, 0, MESSAGE),
                                      (6, 32, RM, MESSAGE), (6, 33, RM, MESSAGE), (6, 56, RM, MESSAGE)):
        visits = make_reference.ideal_visits(n, folding, mask)
        words = "n %d, folding %d, mask 0x%x: " % (n, folding, mask)
        good(words + "exactly its visits, %d" % visits, n, folding, visits, mask, message)
        good(words + "one less", n, folding, visits - 1, mask, message)
    for allowance in (0, 1, 0x80000000, HUGE - 1, HUGE):
        good("RM(64,57), folding 7, allowance %d" % allowance, 6, 7, allowance, RM, MESSAGE)


def order_of_bytes():
    section("Order of bytes: numbers whose bytes differ")
    good("allowance 0x01020304", 3, 4, 0x01020304, 5, 2)
    good("mask 0x8040201008040201, message 0x0123456789abcd", 6, 0, 1000, 0x8040201008040201, 0x0123456789abcd)
    good("message 0xfedcba9876543210, nothing frozen", 6, 0, 1000, 0, 0xfedcba9876543210)
    good("allowance 0xfcfdfeff, mask 0x0807060504030201, message 0x00051423324150", 6, 41, 0xfcfdfeff, 0x0807060504030201, 0x00051423324150)
    good("n 5, mask 0x04030201, message 0x89abcd", 5, 3, 0x0a0b0c0d, 0x04030201, 0x89abcd)


def rm_64_57():
    section("RM(64,57): no message bit, all, one too many, and each alone")
    good("RM(64,57), message 0", 6, 7, 16, RM, 0)
    good("RM(64,57), message of 57 ones", 6, 7, 16, RM, 2 ** 57 - 1)
    bad(9, "RM(64,57), message 2^57", 6, 7, 16, RM, 2 ** 57)
    for bit in range(57):
        good("RM(64,57), message bit %d alone" % bit, 6, 7, 16, RM, 1 << bit)


def single_bits():
    section("Nothing frozen: each index alone, a row of the matrix")
    for n in (1, 2, 3, 4):
        for i in range(2 ** n):
            good("n %d, nothing frozen, index %d alone" % (n, i), n, 1, 1000, 0, 1 << i)


def two_faults():
    section("Two faults: the earlier of 1, 12, 3, 4, 5, 9 is named, for each pair of them")
    bad(1, "n 7 and byte 2: 1 before 12", 7, 0, 100, 5, 1, byte2=1)
    bad(1, "n 0 and mask: 1 before 3", 0, 0, 100, 2, 0)
    bad(1, "n 0 and folding bit: 1 before 4", 0, 1, 100, 0, 1)
    bad(1, "n 7 and four ones: 1 before 5", 7, 15, 100, 0, 1)
    bad(1, "n 0 and message: 1 before 9", 0, 0, 100, 1, 1)
    bad(12, "byte 2 and mask: 12 before 3", 3, 0, 100, 0x105, 1, byte2=1)
    bad(12, "byte 3 and folding bit: 12 before 4", 3, 8, 100, 5, 1, byte3=1)
    bad(12, "byte 2 and four ones: 12 before 5", 4, 15, 100, 1, 1, byte2=1)
    bad(12, "byte 3 and message: 12 before 9", 3, 0, 100, 5, 64, byte3=1)
    bad(3, "mask and folding bit: 3 before 4", 3, 8, 100, 0x105, 1)
    bad(3, "mask and four ones: 3 before 5", 4, 15, 100, 0x10000, 1)
    bad(3, "mask and message: 3 before 9", 3, 0, 100, 0x105, 64)
    bad(4, "folding bit and four ones: 4 before 5", 4, 0b10111, 100, 1, 1)
    bad(4, "folding bit and message: 4 before 9", 3, 8, 100, 5, 64)
    bad(5, "four ones and message: 5 before 9", 4, 15, 100, 0xffff, 1)
    section("More than two faults")
    bad(1, "all six", 0, 15, 0, 2, 2, byte2=1)
    bad(12, "all but n", 4, 31, 0, 0x1ffff, 1, byte3=1)
    bad(3, "3, 4, 5 and 9", 4, 31, 0, 0x1ffff, 1)
    bad(4, "4, 5 and 9", 4, 31, 0, 0xffff, 1)
    bad(1, "24 bytes 255", 255, 255, HUGE, 2 ** 64 - 1, 2 ** 64 - 1, byte2=255, byte3=255)
    bad(1, "24 bytes 0", 0, 0, 0, 0, 0)


def last():
    section("After all the refusals a record again; then the short last request")
    good("document 01's first record once more", 3, 0, 100, 5, 1)
    request = make_reference.request_of(255, 0, 100, 5, 1, byte2=1)[:23]
    sections[-1][1].append(("23 bytes only, with n 255 and byte 2 not zero, so that 13 comes before 1", request, 13))


for put in (document, borders_of_n, zero_bytes, borders_of_masks, borders_of_messages, borders_of_foldings, allowances,
            order_of_bytes, rm_64_57, single_bits, two_faults, last):
    put()


# ---------------------------------------------------------- what is made of them

def all_requests():
    """(words, request, number or 0) of each."""
    return [request for _title, requests in sections for request in requests]


def answered(request):
    """`record`, or `refused` and the number."""
    try:
        make_reference.answer(request)
        return "record"
    except reference.Refused as refusal:
        return "refused %d" % refusal.number


def listed():
    """(number, words, answer) of each request."""
    return [(number, words, answered(request)) for number, (words, request, _refusal) in enumerate(all_requests())]


def write(folder):
    requests = b"".join(request for _words, request, _refusal in all_requests())
    records, numbers = make_reference.make(requests)
    for name, data in (("stdin", requests), ("stdout", records), ("stderr", numbers)):
        with open(os.path.join(folder, name), "wb") as file:
            file.write(data)


def faults(request):
    """Every number whose own sentence fits a request of 24 bytes, with N = 2^n whatever n is."""
    n, folding, _allowance, mask, message = make_reference.fields_of(request)
    size = 2 ** min(n, 7)             # from 7 on, N is above every bit of a mask
    free = sum(1 for i in range(size) if (mask >> i) & 1 == 0)
    holds = {1: not 1 <= n <= 6, 12: request[2:4] != b"\0\0", 3: mask >> size != 0, 4: folding >> n != 0,
             5: bin(folding).count("1") > 3, 9: message >> free != 0}
    return [number for number in ORDER if holds[number]]


def check_record(request, record):
    """Reading back gives the request's fields and, if the allowance suffices, its message at distance 0."""
    n, folding, allowance, mask, message = make_reference.fields_of(request)
    assert len(record) == 144 and record[:16] == request[:16] and record[16 + 2 * 2 ** n:] == bytes(128 - 2 * 2 ** n)
    visits = make_reference.ideal_visits(n, folding, mask)
    line = "0 found %016x 0 %d\n" % (message, visits) if allowance >= visits else "0 refused 8\n"
    assert reference.line_of(0, record, n <= 3) == line


def check_answers():
    """Each answer is the one expected; each refusal comes alone and with each later one. Gives the records."""
    records = []
    shown = set()
    for words, request, refusal in all_requests()[:-1]:
        named = faults(request)
        assert answered(request) == ("refused %d" % refusal if refusal else "record"), words
        assert refusal == (named[0] if named else 0), words
        shown.add(tuple(named))
        if not named:
            records.append(make_reference.answer(request))
            check_record(request, records[-1])
    assert shown >= {(a,) for a in ORDER} | {(a, b) for i, a in enumerate(ORDER) for b in ORDER[i + 1:]}
    assert len(all_requests()[-1][1]) == 23 and listed()[-1][2] == "refused 13"
    return records


def check():
    records = check_answers()
    requests = b"".join(request for _words, request, _refusal in all_requests())
    numbers = "".join("%d\n" % refusal for _words, _request, refusal in all_requests() if refusal)
    assert make_reference.make(requests) == (b"".join(records), numbers.encode())
    assert make_reference.make(b"") == (b"", b"")
    here = os.path.dirname(os.path.abspath(__file__))
    with open(os.path.join(here, "..", "samples", "blocks.bin"), "rb") as file:
        sample = file.read()
    assert b"".join(records[:4]) == sample[:288] + sample[432:720]          # records 0, 1, 3 and 4 of it
    for record, x in zip(records[4:8], (0x03, 0x0c, 0x11, 0xff)):           # rows a to d
        assert [record[17 + 2 * i] for i in range(8)] == [1 if x >> i & 1 else 255 for i in range(8)]


def main():
    if sys.argv[1:] == ["--list"]:
        for number, words, answer in listed():
            print("%d: %s. %s" % (number, words, answer))
    elif sys.argv[1:] == ["--check"]:
        check()
    elif len(sys.argv) == 2 and os.path.isdir(sys.argv[1]):
        write(sys.argv[1])
    else:
        sys.exit(__doc__)


if __name__ == "__main__":
    main()
