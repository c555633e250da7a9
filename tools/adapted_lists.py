#!/usr/bin/env python3
"""Draws rising lists of patterns and writes them with their adapted lists and some queries, for the program adapted_tests.

usage: python3 tools/adapted_lists.py SEED COUNT OUT

SEED and COUNT (how many lists are drawn besides the fixed ones) decide every byte. The committed file is made, in some seconds, by

    python3 tools/adapted_lists.py 593 320 crates/adapted_tests/data/lists.bin

The adapted lists are worked out by document 000's first independent rows and not by document 01's recursion: the products 0, 1, 2, .. are
gone through in numeric order, and a product is kept where its row of signs on the patterns is linearly independent of the rows kept so far,
until there are as many products as patterns. The rows of all 3^s products have full rank, so no product from 3^s on is reached. A sign is
taken straight from digit lists: the product of sign^power, where Python too has 0**0 == 1.

Independence is exact: a row is reduced modulo the prime 2^255 - 19. A determinant of at most 64 rows with entries -1, 0, 1 is at most
64^32 = 2^192 in absolute value (Hadamard), hence 0 modulo the prime only where it is 0.

The file is one record after the other. Numbers of two bytes have the high byte first.

    s                1 byte, 1 to 8
    r                1 byte, 0 to 64: how many patterns
    q                1 byte: how many queries
    the patterns     r times 2 bytes, rising, each below 3^s
    the products     r times 2 bytes: the adapted list
    the queries      q times: a product (2 bytes) and the sum of its signs on the patterns, plus 64 (1 byte)
"""

import random
import sys

PRIME = 2**255 - 19
MOST = 64  # patterns in a list
ASKED = 2  # queries of any products, and as many of products of the adapted list
ROOM = 65536  # bytes that the program reads, one more than the file may have
SIGNS = (0, 1, -1)  # of the digits 0, 1 and 2 of a pattern

# 64 patterns of 8 polynomials: a run answered from them takes 593 questions, the most there can be.
HEAVIEST = [
    0, 1057, 1093, 1125, 1129, 2114, 2150, 2761, 2806, 2824, 2998, 3007, 3015, 3016, 3253, 3295,
    3298, 3304, 3307, 3313, 3499, 3511, 3517, 3520, 3526, 3529, 4137, 4164, 4236, 4237, 4263, 4273,
    4291, 4308, 4310, 4335, 4784, 4829, 4842, 5349, 5376, 5400, 5448, 5449, 5458, 5475, 5476, 5502,
    5520, 5522, 5540, 5547, 5549, 5996, 6003, 6005, 6014, 6260, 6293, 6302, 6311, 6506, 6515, 6533,
]


def digits(number, s):
    """The s digits of a pattern or product number, that of P1 first."""
    return [number // 3**j % 3 for j in range(s)]


def sign(product, pattern, s):
    value = 1
    for power, digit in zip(digits(product, s), digits(pattern, s)):
        value *= SIGNS[digit] ** power
    return value


def row_of(product, patterns, s):
    return [sign(product, p, s) for p in patterns]


def reduced(row, kept):
    """The row less multiples of the kept ones, each of which has 1 at its pivot: 0 everywhere exactly where it depends on them."""
    row = [x % PRIME for x in row]
    for pivot, other in kept:
        factor = row[pivot]
        if factor:
            row = [(x - factor * y) % PRIME for x, y in zip(row, other)]
    return row


def first_independent(patterns, s):
    kept, products = [], []
    for product in range(3**s):
        if len(products) == len(patterns):
            break
        row = reduced(row_of(product, patterns, s), kept)
        pivot = next((k for k, x in enumerate(row) if x), None)
        if pivot is not None:
            inverse = pow(row[pivot], -1, PRIME)
            kept.append((pivot, [x * inverse % PRIME for x in row]))
            products.append(product)
    assert len(products) == len(patterns)
    return products


def drawn(rng):
    """s and a rising list of patterns of s polynomials: scattered, or with few signs of some polynomials, or close together."""
    s = rng.randint(1, 8)
    length = rng.randint(0, rng.choice((8, 32, MOST)))
    kind = rng.randrange(3)
    if kind == 0:
        pool = range(3**s)
    elif kind == 1:
        signs = [rng.sample(range(3), rng.randint(1, 3)) for _ in range(s)]
        pool = [p for p in range(3**s) if all(d in signs[j] for j, d in enumerate(digits(p, s)))]
    else:
        width = min(3**s, 3 * max(length, 1))
        start = rng.randint(0, 3**s - width)
        pool = range(start, start + width)
    return s, sorted(rng.sample(pool, min(length, len(pool))))


def fixed():
    """Lists that no draw should miss: none, the lowest and the highest pattern, every pattern, and the longest lists."""
    for s in range(1, 9):
        most = min(3**s, MOST)
        yield s, []
        yield s, [0]
        yield s, [3**s - 1]
        yield s, list(range(most))
        yield s, list(range(3**s - most, 3**s))
    yield 8, HEAVIEST


def record(s, patterns, rng):
    products = first_independent(patterns, s)
    asked = [rng.randrange(3**s) for _ in range(ASKED)] + rng.sample(products, min(ASKED, len(products)))
    out = bytes((s, len(patterns), len(asked)))
    for number in patterns + products:
        out += number.to_bytes(2, "big")
    for product in asked:
        out += product.to_bytes(2, "big") + bytes((sum(row_of(product, patterns, s)) + MOST,))
    return out


def main(seed, count, out_name):
    rng = random.Random(int(seed))
    lists = list(fixed()) + [drawn(rng) for _ in range(int(count))]
    out = b"".join(record(s, patterns, rng) for s, patterns in lists)
    assert len(out) < ROOM
    with open(out_name, "wb") as file:
        file.write(out)
    print(len(lists), "lists,", len(out), "bytes")


if __name__ == "__main__":
    main(*sys.argv[1:])
