#!/usr/bin/env python3
"""Draws systems for the solver and writes them with what a call must answer, for the program solver_tests.

usage: python3 tools/solver_systems.py SEED LISTS OUT..

SEED and LISTS (how many lists of patterns are drawn) decide every byte. The committed files are made, in half a minute, by

    python3 tools/solver_systems.py 593 220 crates/solver_tests/data/systems1.bin crates/solver_tests/data/systems2.bin

The expected answers come from the equations and not from the solver's steps: the adapted list by document 01's definition, over tuples of signs; the
matrix of signs of its products on the patterns, each sign the product of sign^power (Python too has 0**0 == 1); and its inverse over the rational numbers
by Gauss's elimination. A call finds the numbers exactly where they are whole and their absolute values add up to at most 64.

A file is one list after the other, each with its systems. A place of the output slice holds 1000 and its own number before a call.

    s            1 byte: the number of polynomials, 253 to 255 for 264, 2^32 + 1 and 2^64 - 1
    r            1 byte: how many patterns
    q            1 byte: how many systems
    patterns     r times 2 bytes, high byte first
    each system  a byte each: its kind (below), m, how many numbers it has, the length of the output slice, and the answer: 0, or the refusal's number;
                 then m numbers, a byte each; then, where the answer is 0, the r numbers found, a byte each

The kinds, which the program counts by their numbers:

    0 found, absolute values adding up to less than 64      1 found, adding up to 64      2, 3 refused (12), adding up to 65, to 66
    4 refused (12), with halves      5 refused (12), a number far outside      6 numbers at random
    7 no polynomials or too many (3)      8 a list that falls, 9 a pattern twice, 10 over 64 patterns, 11 a pattern past the last,
    12 more or fewer numbers than patterns (11)      13 an output slice too short (15)      14 two of these causes at once

Among them are output slices as long as the list and longer, and of kinds 8 to 13 most have numbers that would be refused by 12 too.

A number's byte is 124 more than the number; 248 to 255 are numbers far outside (FAR).
"""

import random
import sys
from fractions import Fraction

MOST = 64  # patterns in a list, and what the absolute values of a solution may add up to
MIDDLE = 124
FIRST_FAR = 248
FAR = [-(2**63), 1 - 2**63, -(2**32), -65536, 65536, 2**32 + 1, 2**63 - 2, 2**63 - 1]
FAR_COUNTS = {253: 264, 254: 2**32 + 1, 255: 2**64 - 1}
ROOM = 65536  # bytes that the program reads of a file

(SMALL, FULL, OVER_1, OVER_2, HALVES, FAR_NUMBER, RANDOM, COUNT, FALLS, TWICE, LONG, PAST, UNLIKE, SHORT, TWO) = range(15)


def digits(number, s):
    """The s digits of a pattern or product number, that of P1 first."""
    return tuple(number // 3**j % 3 for j in range(s))


def sign(product, pattern):
    value = 1
    for power, digit in zip(product, pattern):
        value *= (0, 1, -1)[digit] ** power
    return value


def adapted(patterns, s):
    """The adapted list of a list of tuples of s digits, products as tuples: document 01's L1, L2, L3 with powers 0, 1, 2 of the last."""
    if s == 0:
        return [()] if patterns else []
    stood = {}
    for p in patterns:
        stood.setdefault(p[:-1], set()).add(p[-1])
    products = []
    for k in (1, 2, 3):
        left = [p for p in stood if len(stood[p]) >= k]
        products += [a + (k - 1,) for a in adapted(left, s - 1)]
    return products


def inverse(matrix):
    """The inverse of a square matrix over the rational numbers, by Gauss's elimination."""
    n = len(matrix)
    rows = [[Fraction(x) for x in row] + [Fraction(int(i == j)) for j in range(n)] for i, row in enumerate(matrix)]
    for c in range(n):
        pivot = next(i for i in range(c, n) if rows[i][c])
        rows[c], rows[pivot] = rows[pivot], rows[c]
        rows[c] = [x / rows[c][c] for x in rows[c]]
        for i in range(n):
            factor = rows[i][c]
            if i != c and factor:
                rows[i] = [x - factor * y if y else x for x, y in zip(rows[i], rows[c])]
    return [row[n:] for row in rows]


class System:
    """A list of patterns with the matrix of its adapted list and its inverse."""

    def __init__(self, s, patterns):
        self.s, self.patterns = s, patterns
        tuples = [digits(p, s) for p in patterns]
        products = adapted(tuples, s)
        assert len(products) == len(patterns)
        self.matrix = [[sign(a, p) for p in tuples] for a in products]
        self.inverse = inverse(self.matrix)

    def queries(self, weights):
        found = [sum(a * w for a, w in zip(row, weights)) for row in self.matrix]
        assert all(x == int(x) for x in found)
        return [int(x) for x in found]

    def answer(self, numbers):
        """The numbers found, or None."""
        found = [sum(a * x for a, x in zip(row, numbers) if a) for row in self.inverse]
        if any(w != int(w) for w in found) or sum(abs(w) for w in found) > MOST:
            return None
        return [int(w) for w in found]


def weights(rng, r, size, signed):
    """Whole numbers on r patterns whose absolute values add up to a size."""
    found = [0] * r
    places = rng.sample(range(r), rng.randint(1, r))
    signs = [rng.choice((1, -1)) if signed else 1 for _ in range(r)]
    for _ in range(size):
        k = rng.choice(places)
        found[k] += signs[k]
    return found


def halved(rng, system, size):
    """Numbers with halves whose queries are whole: on two patterns that differ in one sign, + and −. None where no two do."""
    place = {p: k for k, p in enumerate(system.patterns)}
    pairs = [
        (k, place[p + 3**j])
        for p, k in place.items()
        for j in range(system.s)
        if p // 3**j % 3 == 1 and p + 3**j in place
    ]
    if not pairs:
        return None
    found = [Fraction(w) for w in weights(rng, len(place), size, True)]
    for k in rng.choice(pairs):
        found[k] += Fraction(rng.choice((1, -1)), 2)
    return found


def drawn(rng, s):
    """A rising list of patterns of s polynomials: scattered, or with few signs of some polynomials, or close together, or every one of few."""
    length = min(rng.choice((1, 2, 3, rng.randint(4, 16), rng.randint(4, 32), rng.randint(32, MOST), MOST)), 3**s)
    kind = rng.randrange(4)
    if kind == 0:
        pool = range(3**s)
    elif kind == 1:
        signs = [rng.sample(range(3), rng.randint(1, 3)) for _ in range(s)]
        pool = [p for p in range(3**s) if all(d in signs[j] for j, d in enumerate(digits(p, s)))]
    elif kind == 2:
        width = min(3**s, 2 * length)
        start = rng.randint(0, 3**s - width)
        pool = range(start, start + width)
    else:
        start = rng.randint(0, 3**s - length)
        pool = range(start, start + length)
    return sorted(rng.sample(pool, min(length, len(pool))))


def encoded(number):
    if number in FAR:
        return FIRST_FAR + FAR.index(number)
    assert 0 <= number + MIDDLE < FIRST_FAR
    return number + MIDDLE


def room(rng, r):
    """The length of an output slice with room for r numbers: as long as they are, or a little longer, or much."""
    return rng.choice((r, r, r + 1, r + rng.randint(1, 8), 255))


def record(kind, numbers, out, answer, found=()):
    return bytes([kind, len(numbers), out, answer] + [encoded(x) for x in list(numbers) + list(found)])


def solved(rng, system, kind, numbers):
    found = system.answer(numbers)
    if any(abs(x) > MIDDLE - 1 and x not in FAR for x in numbers):
        return b""
    out = room(rng, len(numbers))
    if found is None:
        return record(kind, numbers, out, 12)
    return record(kind, numbers, out, 0, found)


def far(rng, system):
    numbers = system.queries(weights(rng, len(system.patterns), rng.randint(0, MOST), True))
    for _ in range(rng.randint(1, 2)):
        numbers[rng.randrange(len(numbers))] = rng.choice(FAR)
    return numbers


def systems(rng, system):
    """Systems on a sound list: sums up to the limit and above it, halves, numbers far outside, numbers at random, and a slice too short."""
    r = len(system.patterns)
    if r == 0:
        return [record(SMALL, [], rng.randint(0, 255), 0) for _ in range(2)]
    made = [solved(rng, system, SMALL, system.queries(weights(rng, r, rng.randint(0, MOST - 1), signed))) for signed in (True, False)]
    for kind, size in ((FULL, MOST), (FULL, MOST), (OVER_1, MOST + 1), (OVER_2, MOST + 2)):
        made.append(solved(rng, system, kind, system.queries(weights(rng, r, size, rng.random() < 0.7))))
    halves = halved(rng, system, rng.randint(0, MOST - 2))
    if halves:
        made.append(solved(rng, system, HALVES, system.queries(halves)))
    made.append(solved(rng, system, FAR_NUMBER, far(rng, system)))
    most = rng.choice((1, 2, 4, MOST, MOST + 1))
    made.append(solved(rng, system, RANDOM, [rng.randint(-most, most) for _ in range(r)]))
    if rng.random() < 0.4:
        made.append(record(SHORT, far(rng, system), rng.randint(0, r - 1), 15))
    return [m for m in made if m]


def written(code, patterns, made):
    return bytes([code, len(patterns), len(made)]) + b"".join(p.to_bytes(2, "big") for p in patterns) + b"".join(made)


def numbers_of(rng, m):
    return [rng.choice([rng.randint(-MOST, MOST)] * 4 + FAR) for _ in range(m)]


def refused(rng):
    """Lists that no system is solved on, each with the kind of its cause, its s, as written, and its patterns. With each goes a system of 2, whose
    second cause would be given if the order of causes were another."""
    s = rng.randint(1, 8)
    most = min(3**s, MOST)
    kind = rng.choice((COUNT, FALLS, TWICE, LONG, PAST, UNLIKE))
    patterns = sorted(rng.sample(range(3**s), rng.randint(2, most)))
    k = rng.randrange(len(patterns) - 1)
    code = s
    if kind == COUNT:
        code = rng.choice((0, 9, 10, 252, *FAR_COUNTS))
    elif kind == FALLS:
        patterns[k], patterns[k + 1] = patterns[k + 1], patterns[k]
    elif kind == TWICE:
        patterns.insert(k, patterns[k])
    elif kind == LONG:
        code = rng.randint(4, 8)
        patterns = sorted(rng.sample(range(3**code), rng.choice((65, 66, 80))))
    elif kind == PAST:
        patterns[-1] = rng.choice((3**s, 3**s + 1, 65535))
    r = len(patterns)
    m = r
    if kind == UNLIKE:
        m = rng.choice((0, r - 1, r + 1, r + 2))
    answer = 3 if kind == COUNT else 11
    made = [record(kind, numbers_of(rng, m), room(rng, r), answer)]
    # a short output slice (15), or for 3 a list that falls or unlike numbers (11), besides
    if kind == COUNT and rng.random() < 0.5:
        patterns = patterns[::-1]
    made.append(record(TWO, numbers_of(rng, m + (kind == COUNT)), rng.randint(0, r - 1), answer))
    return written(code, patterns, made)


def fixed(rng):
    """Lists that no draw should miss: none, one pattern, every pattern of few polynomials, the lowest and the highest 64."""
    for s in range(1, 9):
        most = min(3**s, MOST)
        for patterns in ([], [0], [3**s - 1], list(range(most)), list(range(3**s - most, 3**s))):
            system = System(s, patterns)
            yield written(s, patterns, systems(rng, system))


def main(seed, lists, *names):
    rng = random.Random(int(seed))
    groups = list(fixed(rng))
    for _ in range(int(lists)):
        s = rng.randint(1, 8)
        system = System(s, drawn(rng, s))
        groups.append(written(s, system.patterns, systems(rng, system)))
    groups += [refused(rng) for _ in range(int(lists) // 2)]
    files = [b""]
    for group in groups:
        if len(files[-1]) + len(group) >= ROOM:
            files.append(b"")
        files[-1] += group
    assert len(files) == len(names), len(files)
    for name, data in zip(names, files):
        with open(name, "wb") as file:
            file.write(data)
    print(sum(group[2] for group in groups), "systems,", [len(data) for data in files], "bytes")


if __name__ == "__main__":
    main(*sys.argv[1:])
