#!/usr/bin/env python3
"""Many good requests for the program `make`, and the lines that `blocks` must print for what it writes.

Neither needs a codeword: a block of ideal levels gives its message back at distance 0, and takes
L visits plus one per group with an unfrozen index.  The same requests come in every run, and the
first of many are the first of fewer.

  many_requests.py requests COUNT    the requests, 24 bytes each
  many_requests.py lines COUNT       the lines
  many_requests.py check COUNT       silent if make_reference.py and then reference.py give these lines
"""
import sys

sys.dont_write_bytecode = True
import make_reference
import reference

SEED = 20251
HUGE = 4294967295
ONES = 2 ** 64 - 1


class Numbers:
    """splitmix64"""

    def __init__(self, seed):
        self.state = seed

    def next(self):
        self.state = (self.state + 0x9E3779B97F4A7C15) & ONES
        z = self.state
        z = ((z ^ z >> 30) * 0xBF58476D1CE4E5B9) & ONES
        z = ((z ^ z >> 27) * 0x94D049BB133111EB) & ONES
        return z ^ z >> 31


def shapes():
    """Every n with every folding of at most three ones: 97 of them."""
    return [(n, folding) for n in range(1, 7) for folding in range(2 ** n) if bin(folding).count("1") <= 3]


def mask_of_kind(kind, n, numbers):
    """One of five kinds of mask, for any n."""
    size = 2 ** n
    full = 2 ** size - 1
    if kind == 0:                     # all frozen
        return full
    if kind == 1:                     # none frozen
        return 0
    if kind == 2:                     # frozen by weight, as in a Reed-Muller code
        weight = numbers.next() % (n + 1)
        return sum(1 << i for i in range(size) if bin(i).count("1") <= weight)
    if kind == 3:                     # dense: three of four frozen
        return (numbers.next() | numbers.next()) & full
    return numbers.next() & numbers.next() & numbers.next() & full      # sparse: one of eight frozen


def requests(count):
    """(n, folding, allowance, mask, message) of each; 97, 5 and 2 have no common factor, so that
    970 requests in a row hold each shape with each kind of mask and each of the two allowances."""
    numbers = Numbers(SEED)
    all_shapes = shapes()
    for number in range(count):
        n, folding = all_shapes[number % len(all_shapes)]
        mask = mask_of_kind(number % 5, n, numbers)
        message = numbers.next() & (2 ** make_reference.unfrozen(n, mask) - 1)
        allowance = make_reference.ideal_visits(n, folding, mask) if number % 2 == 0 else HUGE
        yield n, folding, allowance, mask, message


def lines(count):
    """The line of `blocks` for the record of each request."""
    for number, (n, folding, _allowance, mask, message) in enumerate(requests(count)):
        yield "%d found %016x 0 %d\n" % (number, message, make_reference.ideal_visits(n, folding, mask))


def check(count):
    """Decodes every record by document 01's walk; with one visit less allowed it must be refused."""
    for number, (fields, line) in enumerate(zip(requests(count), lines(count))):
        record = make_reference.answer(make_reference.request_of(*fields))
        assert reference.line_of(number, record) == line, line
        n, folding, _allowance, mask, message = fields
        short = make_reference.ideal_visits(n, folding, mask) - 1
        record = make_reference.answer(make_reference.request_of(n, folding, short, mask, message))
        assert reference.line_of(number, record) == "%d refused 8\n" % number, line


def main():
    what, count = sys.argv[1], int(sys.argv[2])
    if what == "requests":
        for fields in requests(count):
            sys.stdout.buffer.write(make_reference.request_of(*fields))
    elif what == "lines":
        sys.stdout.writelines(lines(count))
    elif what == "check":
        check(count)
    else:
        sys.exit(__doc__)


if __name__ == "__main__":
    main()
