#!/usr/bin/env python3
"""Writes data/cards and stdout: cards, sound and damaged, and their printouts, worked out from documents 01 and 02 by another route.

The reader is a second one. The points are a set of pairs of X and Y, so that one that stands on the card more than once counts once. A query is the sum of
the signs of the product's values, as whole numbers. The rows of a round are the patterns that the points have. An adapted list is found as document 000 has
it: the first products, in rising order, whose rows of signs are independent.

usage: generate.py (in the folder of this file)
"""
import random, struct
from collections import Counter

LIMIT = 65536
PRIME = 2 ** 61 - 1


class Refused(Exception):
    pass


def line_body(card, at):
    """The polynomial on the line whose body begins at a place: from powers of X and Y to coefficients; and its length."""
    d = card[at]
    if d > 6:
        raise Refused(16)
    if at + 5 + 4 * d > len(card):
        raise Refused(1)
    c = struct.unpack('>%di' % (d + 1), card[at + 1:at + 5 + 4 * d])
    if any(abs(a) > 10 ** 6 for a in c):
        raise Refused(5)
    if d > 0 and c[d] == 0:
        raise Refused(17)
    return {(k, 0): a for k, a in enumerate(c)}, 5 + 4 * d


def plane_body(card, at):
    """The same in the plane."""
    t = card[at]
    if t > 9:
        raise Refused(18)
    if at + 1 + 6 * t > len(card):
        raise Refused(1)
    terms = [struct.unpack('>BBi', card[k:k + 6]) for k in range(at + 1, at + 1 + 6 * t, 6)]
    if any(a + b > 6 or c == 0 for a, b, c in terms) or any(p[:2] >= q[:2] for p, q in zip(terms, terms[1:])):
        raise Refused(18)
    if any(abs(c) > 10 ** 6 for _, _, c in terms):
        raise Refused(5)
    return {(a, b): c for a, b, c in terms}, 1 + 6 * t


def read(card):
    """The polynomials, each from powers of X and Y to coefficients, and the points, X and Y; or Refused with the number. On the line Y is 0."""
    if len(card) < 4:
        raise Refused(1)
    kind, s, n, zero = card[:4]
    if kind not in (1, 2) or zero != 0:
        raise Refused(2)
    if not 1 <= s <= 8 or n > 64:
        raise Refused(3)
    at = 6 + 2 * s
    if len(card) < at:
        raise Refused(1)
    offsets = struct.unpack('>%dH' % (s + 1), card[4:at])
    if offsets[0] != at:
        raise Refused(4)
    polynomials = []
    for j in range(s):
        if at >= len(card):
            raise Refused(1)
        terms, size = line_body(card, at) if kind == 1 else plane_body(card, at)
        polynomials.append(terms)
        at += size
        if offsets[j + 1] != at:
            raise Refused(4)
    if len(card) - at != kind * n:
        raise Refused(1)
    numbers = struct.unpack('>%db' % (kind * n), card[at:])
    points = [(numbers[kind * k], numbers[kind * k + 1] if kind == 2 else 0) for k in range(n)]
    if any(abs(v) > 100 for v in numbers) or any(p > q for p, q in zip(points, points[1:])):
        raise Refused(6)
    return polynomials, points


def sign(x):
    return (x > 0) - (x < 0)


def powers(product, s):
    return [product // 3 ** j % 3 for j in range(s)]


def query(values, product):
    """Over the points, each a list of the polynomials' values there."""
    total = 0
    for at in values:
        v = 1
        for x, k in zip(at, powers(product, len(at))):
            v *= x ** k
        total += sign(v)
    return total


def first_independent(patterns, i):
    """The first products of i polynomials, rising, whose rows of signs on the patterns are independent."""
    signs = [[(0, 1, -1)[q // 3 ** j % 3] for j in range(i)] for q in patterns]
    base, chosen = [], []
    for product in range(3 ** i):
        if len(chosen) == len(patterns):
            break
        row = []
        for sigma in signs:
            v = 1
            for x, k in zip(sigma, powers(product, i)):
                v *= x ** k
            row.append(v % PRIME)
        for lead, other in base:
            if row[lead]:
                f = row[lead]
                row = [(a - f * b) % PRIME for a, b in zip(row, other)]
        lead = next((k for k, a in enumerate(row) if a), None)
        if lead is not None:
            inverse = pow(row[lead], PRIME - 2, PRIME)
            base.append((lead, [a * inverse % PRIME for a in row]))
            chosen.append(product)
    assert len(chosen) == len(patterns)
    return chosen


def printout(card):
    try:
        polynomials, points = read(card)
    except Refused as r:
        return ['R %d' % r.args[0]]
    s = len(polynomials)
    values = [[sum(c * x ** a * y ** b for (a, b), c in terms.items()) for terms in polynomials] for x, y in set(points)]
    patterns = [sum((0, 1, 2)[sign(v)] * 3 ** j for j, v in enumerate(at)) for at in values]
    products = [0]
    if points:
        for i in range(s):
            adapted = first_independent(sorted({q % 3 ** i for q in patterns}), i)
            products += [a + 3 ** i for a in adapted] + [a + 2 * 3 ** i for a in adapted]
    lines = ['Q %d %d' % (p, query(values, p)) for p in products]
    lines += ['S %d %d' % row for row in sorted(Counter(patterns).items())]
    return lines + ['E %d' % len(products)]


def put_together(kind, bodies, points):
    at, offsets = 6 + 2 * len(bodies), []
    for body in bodies:
        offsets.append(at)
        at += len(body)
    head = bytes([kind, len(bodies), len(points) // kind, 0]) + struct.pack('>%dH' % (len(bodies) + 1), *offsets, at)
    return head + b''.join(bodies) + bytes(p % 256 for p in points)


def write(polynomials, points):
    return put_together(1, [struct.pack('>B%di' % len(c), len(c) - 1, *c) for c in polynomials], points)


def write_plane(polynomials, points):
    """Of terms, each a power of X, a power of Y and a coefficient, and of pairs."""
    bodies = [bytes([len(p)]) + b''.join(struct.pack('>BBi', *term) for term in p) for p in polynomials]
    return put_together(2, bodies, [v for point in points for v in point])


def times(a, b):
    c = [0] * (len(a) + len(b) - 1)
    for i, x in enumerate(a):
        for j, y in enumerate(b):
            c[i + j] += x * y
    return c


def sound(rng, points):
    """Polynomials with roots among and between the points, so that patterns are many."""
    polynomials = []
    for _ in range(rng.randint(1, 8)):
        c = [rng.choice([1, -1, 3])]
        for _ in range(rng.choice([0, 1, 1, 2, 2, 3])):
            c = times(c, [-rng.randint(-20, 20), 1])
        polynomials.append(rng.choice([c, c, c, [rng.choice([0, 5, -5])]]))
    return write(polynomials, sorted(rng.choice([-100, 100] + 9 * [rng.randint(-20, 20)]) for _ in range(points)))


def sound_plane(rng, points):
    """Lines, circles, cubics in X or Y and drawn terms, at points of a small square."""
    polynomials = []
    for _ in range(rng.randint(1, 8)):
        k = rng.randint(1, 4)
        drawn = sorted(rng.sample([(a, b) for a in range(7) for b in range(7 - a)], rng.randint(0, 9)))
        polynomials.append(rng.choice([[(0, 0, -k), (0, 1, rng.choice([1, -2])), (1, 0, 1)], [(0, 0, -k * k), (0, 2, 1), (2, 0, 1)], [(0, 1, -k), (0, 3, 1)],
                                       [(1, 0, -k), (3, 0, 1)], [(a, b, rng.choice([-1, 1]) * rng.randint(1, 10 ** 6)) for a, b in drawn]]))
    return write_plane(polynomials, sorted((rng.randint(-4, 4), rng.randint(-4, 4)) for _ in range(points)))


def damaged(rng, drawn=sound):
    """A sound card with a byte changed, cut, or longer."""
    card = bytearray(drawn(rng, rng.choice([0, 3, 10])))
    where = rng.choice(['head', 'contents', 'any', 'points', 'cut', 'long'])
    if where == 'cut':
        del card[rng.randint(0, len(card) - 1):]
    elif where == 'long':
        card += bytes(rng.choice([1, 2, 300]))
    else:
        s = card[1]
        low, high = {'head': (0, 4), 'contents': (4, 6 + 2 * s), 'points': (len(card) - 2, len(card))}.get(where, (0, len(card)))
        i = rng.randrange(low, high)
        card[i] = rng.choice([0, 1, (card[i] + 1) % 256, (card[i] - 1) % 256, 255, 128])
    return bytes(card)


def repeated():
    """Cards on which points stand more than once, and some on which none does, of both kinds: X and X^2 - 4; X - Y and X^2 + Y^2 - 8."""
    lists = [[2] * 2, [0] * 64, [-2, -2, 0, 3], [-2, 0, 0, 3], [-2, 0, 3, 3], [-2, 0, 2, 3, 4], [-5, -5, -2, -2, 3, 3], [-5, -5, -5, 0, 2, 2, 3, 3, 3, 3]]
    lists += [[-100, -100, 100, 100], [3, 3, 4, 5], list(range(-32, 32)), [-32] + list(range(-32, 31)), list(range(-32, 31)) + [30]]
    lists.append(sorted(2 * list(range(-16, 16))))
    square = [(x, y) for x in range(-4, 4) for y in range(-4, 4)]
    places = [[(2, v) for v in found] for found in lists] + [[(v, 2) for v in found] for found in lists]
    places += [square, sorted(2 * square[::2]), [(-2, 2)] * 2 + [(2, -2)] * 3 + [(2, 2)], [(-1, 1), (-1, 2), (-1, 2), (1, -1), (1, -1), (2, -1)]]
    plane = [[(0, 1, -1), (1, 0, 1)], [(0, 0, -8), (0, 2, 1), (2, 0, 1)]]
    return [write([[0, 1], [-4, 0, 1]], found) for found in lists] + [write_plane(plane, found) for found in places]


def main():
    rng = random.Random(13)
    example = write([[0, 1], [1, 1], [-2, 1]], [-3, 1, 3])
    longest = write([[1] * 7] * 8, range(-32, 32))
    assert len(longest) == 318
    cards = [example, b'', example[:3], example[:-1], example + b'\3', longest, longest + b'\x64', longest + bytes(200)]
    cards += [write([[0, 1]], []), write([[0]] * 8, []), write([[0]] * 8, [5] * 64), write([[10 ** 6] * 7] * 8, [100] * 64)]
    for at, byte in ((0, 0), (3, 1), (1, 0), (1, 9), (2, 65), (5, 13), (11, 38), (12, 7), (13, 1), (20, 0), (41, 101), (41, 0)):
        cards.append(example[:at] + bytes([byte]) + example[at + 1:])
    for name in ('heaviest-line', 'middling-line'):
        with open('data/%s.card' % name, 'rb') as given:
            cards.append(given.read())
    cards += [sound(rng, rng.choice([1, 2, 5, 20, 64])) for _ in range(30)] + [damaged(rng) for _ in range(40)]
    nine = [(a, b, 10 ** 6) for a, b in ((0, 6), (1, 5), (2, 4), (3, 3), (4, 1), (4, 2), (5, 0), (5, 1), (6, 0))]
    longest = write_plane([nine] * 8, [(k // 8 - 4, k % 8 - 4) for k in range(64)])
    assert len(longest) == 590
    cards += [longest, longest[:-1], longest + b'\x64', longest + bytes(200), write_plane([[]], []), write_plane([nine], [(100, 100)] * 64)]
    for name in ('circle', 'heaviest-plane'):
        with open('data/%s.card' % name, 'rb') as given:
            cards.append(given.read())
    circle = cards[-2]
    for at, byte in ((0, 3), (3, 1), (5, 11), (7, 30), (10, 10), (11, 7), (12, 255), (13, 1), (18, 0), (28, 0), (43, 101), (42, 0), (46, 255), (51, 127)):
        cards.append(circle[:at] + bytes([byte]) + circle[at + 1:])
    cards += [sound_plane(rng, rng.choice([1, 2, 5, 20, 64])) for _ in range(30)] + [damaged(rng, sound_plane) for _ in range(40)] + repeated()
    data = b''.join(struct.pack('>H', len(c)) + c for c in cards)
    assert len(data) < LIMIT, len(data)
    with open('data/cards', 'wb') as out:
        out.write(data)
    with open('stdout', 'w') as out:
        for c in cards:
            out.write(''.join(line + '\n' for line in printout(c)) + 'X 15 7\n')
    ends = Counter(line if line[0] == 'R' else 'sound' for c in cards for line in printout(c)[-1:])
    fewer = len([1 for c in cards if printout(c)[0][0] == 'Q' and printout(c)[0] != 'Q 0 %d' % c[2]])
    print(len(cards), 'cards,', len(data), 'bytes:', dict(ends), 'most questions', max(len([1 for l in printout(c) if l[0] == 'Q']) for c in cards))
    print(fewer, 'cards with fewer points than they name')


main()
