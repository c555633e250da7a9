#!/usr/bin/env python3
"""Compares what the library says about cards, by the program card_tests, with a second reader written here from documents 01 and 02 alone.

usage: python3 tools/compare_cards.py [SEED|day [SOUND [BASES]]]    compares; prints one line of counts, exits 1 at a difference
       python3 tools/compare_cards.py --data                        writes crates/card_tests/data/cards and crates/card_tests/stdout

SOUND cards are drawn, of every s and every n in turn, every other one with points in the plane, their points repeated in every way in turn; before them
come cards that have each way for sure. BASES more are drawn and damaged: cut at every length, every byte changed by some values, every cause of the refusal
table at every place that it can have, and two such causes at once, at random and within one polynomial. Each card is asked about some products. The second
reader goes another way: it takes the bytes off one after the other, keeps a polynomial as a dictionary of its monomials, whichever kind of card it is on,
works out values by powers, at the points as a set, pairs of X and Y, so that each counts once however often it stands on the card, and a query, its three
counts and the panel number, by the exact product of the values to their powers and not by signs. n, as the card is read, is byte 2, repeats and all. SEED
(day: that of the day), SOUND and BASES decide every card. It fails where a cause that refuses a card of either kind, one of the cases in CASES, or on either
kind of card one of the cases of repeated points did not occur, and where no query showed 0 for one of the two reasons that there are.
"""

import collections
import datetime
import math
import os
import random
import subprocess
import sys
import tempfile

ROOT = os.path.dirname(os.path.dirname(os.path.abspath(__file__)))
TESTS = os.path.join(ROOT, 'crates', 'card_tests')
PROGRAM = os.path.join(TESTS, 'out', 'card_tests')  # rt ci makes it, or rt run
ROOM = 65536  # bytes that the program reads
LARGEST = 1000000  # of a coefficient
FURTHEST = 100  # of a point
LINE, PLANE = 1, 2  # byte 0, and how many bytes a point has
MONOMIALS = [(a, b) for a in range(7) for b in range(7 - a)]  # powers of X and Y, rising
PLACES = [(100, 100), (7, -3), (101, -100), (-100, -101)]  # where card_tests asks for values

# ---- the second reader


class Refused(Exception):
    pass


def claim(holds, number, cause):
    if not holds:
        raise Refused(number, cause)


class Reader:
    """A card's bytes, taken off one after the other."""

    def __init__(self, card):
        self.card, self.at = card, 0

    def left(self):
        return len(self.card) - self.at

    def take(self, size):
        self.at += size
        return self.card[self.at - size:self.at]

    def number(self, size, signed=False):
        return int.from_bytes(self.take(size), 'big', signed=signed)


def line_body(r):
    """A polynomial in X alone. Document 01, "Card order"; document 02, wish 1."""
    d = r.number(1)
    claim(d <= 6, 16, 'degree')
    claim(r.left() >= 4 * (d + 1), 1, 'body cut short')
    c = [r.number(4, signed=True) for _ in range(d + 1)]
    claim(all(-LARGEST <= a <= LARGEST for a in c), 5, 'coefficient')
    claim(d == 0 or c[d] != 0, 17, 'top coefficient')
    return {(k, 0): a for k, a in enumerate(c)}


def plane_body(r):
    """A polynomial in X and Y. Document 02, wish 6."""
    t = r.number(1)
    claim(t <= 9, 18, 'number of terms')
    claim(r.left() >= 6 * t, 1, 'body cut short')
    terms = [((r.number(1), r.number(1)), r.number(4, signed=True)) for _ in range(t)]
    powers = [power for power, _ in terms]
    claim(all(a + b <= 6 for a, b in powers), 18, 'powers')
    claim(powers == sorted(set(powers)), 18, 'order of terms')
    claim(all(c for _, c in terms), 18, 'coefficient of 0')
    claim(all(-LARGEST <= c <= LARGEST for _, c in terms), 5, 'coefficient')
    return dict(terms)


def read(card):
    """The polynomials, each as (its place, its length, its monomials: a dictionary from powers of X and Y to the coefficient), and the points, as pairs of X
    and Y; or Refused with the number and the cause. On the line Y is 0."""
    r = Reader(card)
    claim(r.left() >= 4, 1, 'header cut short')
    kind, s, n, zero = (r.number(1) for _ in range(4))
    claim(kind in (LINE, PLANE), 2, 'byte 0')
    claim(zero == 0, 2, 'byte 3')
    claim(1 <= s <= 8, 3, 's')
    claim(n <= 64, 3, 'n')
    claim(r.left() >= 2 * (s + 1), 1, 'contents cut short')
    offsets = [r.number(2) for _ in range(s + 1)]
    claim(offsets[0] == r.at, 4, 'first offset')
    polynomials = []
    for after in offsets[1:]:
        place = r.at
        claim(r.left() >= 1, 1, 'no body')
        terms = line_body(r) if kind == LINE else plane_body(r)
        claim(after == r.at, 4, 'next offset')
        polynomials.append((place, r.at - place, terms))
    claim(r.left() == kind * n, 1, 'remaining bytes')
    points = [(r.number(1, signed=True), r.number(1, signed=True) if kind == PLANE else 0) for _ in range(n)]
    claim(all(-FURTHEST <= v <= FURTHEST for point in points for v in point), 6, 'point outside')
    claim(points == sorted(points), 6, 'order of points')
    return polynomials, points


EITHER = {'1 contents cut short', '1 no body', '1 body cut short', '1 remaining bytes', '2 byte 3', '3 s', '3 n', '4 first offset', '4 next offset',
          '5 coefficient', '6 point outside', '6 order of points'}
CAUSES = {'line': EITHER | {'16 degree', '17 top coefficient'},
          'plane': EITHER | {'18 number of terms', '18 powers', '18 order of terms', '18 coefficient of 0'},
          'other': {'1 header cut short', '2 byte 0'}}


def kind_of(card):
    return {LINE: 'line', PLANE: 'plane'}.get(card[0], 'other') if len(card) >= 4 else 'other'


def value(terms, x, y=0):
    return sum(c * x ** a * y ** b for (a, b), c in terms.items())


def values_at(polynomials, points):
    """The values of all polynomials at each point. The points are a set: one that stands on the card more than once counts once. Document 02, wish 7."""
    return [[value(terms, x, y) for *_, terms in polynomials] for x, y in set(points)]


def query(values, product):
    """At how many points the product of value^power is positive, negative and 0, and the sum over the points of its sign; the values are those of all
    polynomials at each point. Python too has 0**0 == 1."""
    powers = [product // 3 ** j % 3 for j in range(8)]
    products = [math.prod(v ** e for v, e in zip(at_point, powers)) for at_point in values]
    counts = [len([v for v in products if v > 0]), len([v for v in products if v < 0]), products.count(0)]
    return counts + [sum((v > 0) - (v < 0) for v in products)]


def refused(number):
    return 'R %d' % number


def at_places(terms):
    """Values at PLACES, or 6."""
    return [str(value(terms, x, y)) if max(abs(x), abs(y)) <= FURTHEST else refused(6) for x, y in PLACES]


def position(card, number, place=0, size=0, terms=None):
    """The line of a polynomial's position: where it stands, its body's length and the body's bytes as one number, its values on the line, which a card of any
    other kind does not have, and at PLACES."""
    plane = len(card) >= 4 and card[0] != LINE
    if number:
        return ' '.join(['N %d 0 0' % number] + [refused(2 if plane else number)] * 3 + [refused(number)] * len(PLACES))
    digits = 0
    for b in card[place:place + size]:
        digits = (31 * digits + b) % 65521
    on_line = [refused(2) if plane else str(value(terms, x)) for x in (-128, -1, 100)]
    return ' '.join(['A %d %d %d %d' % (place, size, size, digits)] + on_line + at_places(terms))


def answers(card, products):
    """What card_tests must write about a card, and why it is refused: its number and the cause, or nothing."""
    try:
        polynomials, points = read(card)
    except Refused as why:
        number = why.args[0]
        return [refused(number), position(card, number)] + ['Q %d R %d R %d' % (a, number, number) for a in products], '%d %s' % why.args
    lines = ['S %d %d' % (len(polynomials), len(points))]
    lines += [position(card, 0, *found) for found in polynomials]
    lines.append(position(card, 14))
    values = values_at(polynomials, points)
    for a in products:
        shown = '%d %d %d %d' % tuple(query(values, a)) if a < 3 ** len(polynomials) else 'R 13'
        lines.append('Q %d %s %s' % (a, shown, shown))
    return lines, ''


# ---- cards


def put_together(kind, bodies, points):
    at, offsets = 4 + 2 * (len(bodies) + 1), []
    for body in bodies:
        offsets.append(at)
        at += len(body)
    head = bytes([kind, len(bodies), len(points) // kind, 0]) + b''.join(o.to_bytes(2, 'big') for o in offsets + [at])
    return head + b''.join(bodies) + bytes(p % 256 for p in points)


def word(a):
    return a.to_bytes(4, 'big', signed=True)


def write(polynomials, points):
    return put_together(LINE, [bytes([len(c) - 1]) + b''.join(map(word, c)) for c in polynomials], points)


def write_plane(polynomials, points):
    """A card of points in the plane: of dictionaries of monomials and of pairs."""
    bodies = [bytes([len(terms)]) + b''.join(bytes(powers) + word(c) for powers, c in sorted(terms.items())) for terms in polynomials]
    return put_together(PLANE, bodies, [v for point in points for v in point])


def polynomial(rng):
    """One with roots among small numbers, or with extreme, random or small coefficients, or a constant, 0 too."""
    d = rng.randint(0, 6)
    kind = rng.choice(['roots', 'roots', 'extreme', 'random', 'small', 'constant'])
    if kind == 'constant':
        return [rng.choice([0, 0, 1, -1, LARGEST, -LARGEST])]
    if kind == 'roots':
        c = [rng.choice([1, -1, 1, 7])]
        for _ in range(d):
            root = rng.randint(-9, 9)
            longer = [b - root * a for a, b in zip(c + [0], [0] + c)]
            if max(map(abs, longer)) > LARGEST:
                break
            c = longer
        return c
    most = {'extreme': LARGEST, 'random': LARGEST, 'small': 20}[kind]
    c = [rng.choice([most, -most, 0]) if kind == 'extreme' else rng.randint(-most, most) for _ in range(d + 1)]
    return c if d == 0 or c[d] else c[:d] + [1]


# How the points of a sound card are repeated.
WAYS = ('as they come', 'all different', 'all equal', 'one pair', 'pairs', 'the first and the last twice', 'runs')


def often(rng, way, n):
    """How often each of the different points stands on a card of n points."""
    if way == 'all equal':
        return [n] * (n > 0)
    if way == 'one pair' and n > 1:
        place = rng.choice([0, n - 2, rng.randrange(n - 1)])
        return [1] * place + [2] + [1] * (n - 2 - place)
    if way == 'pairs':
        return [2] * (n // 2) + [1] * (n % 2)
    if way == 'the first and the last twice' and n > 3:
        return [2] + [1] * (n - 4) + [2]
    counts = []
    while sum(counts) < n:
        counts.append(min(rng.choice([1, 2, 3, 4, 9]), n - sum(counts)) if way == 'runs' else 1)
    return counts


def repeated(rng, way, n, rectangles):
    """n points, never falling, of one of the rectangles that have room for the different ones: each goes so far to either side, and so far up and down."""
    counts = often(rng, way, n)
    wide, high = rng.choice([(w, h) for w, h in rectangles if (2 * w + 1) * (2 * h + 1) >= len(counts)])
    column = 2 * high + 1
    places = sorted(rng.sample(range((2 * wide + 1) * column), len(counts)))
    return [(place // column - wide, place % column - high) for place, count in zip(places, counts) for _ in range(count)]


def points(rng, n, way):
    if way != 'as they come':
        return [x for x, _ in repeated(rng, way, n, [(3, 0), (10, 0), (32, 0), (FURTHEST, 0)])]
    reach = rng.choice([0, 3, 10, 10, FURTHEST])
    drawn = [rng.randint(-reach, reach) for _ in range(n)]
    if n and rng.random() < 0.3:
        drawn[rng.randrange(n)] = rng.choice([-FURTHEST, FURTHEST])
    return sorted(drawn)


def sound(rng, s, n, way=None):
    """A card of points on the line, repeated in one of WAYS, or in any."""
    return write([polynomial(rng) for _ in range(s)], points(rng, n, way or rng.choice(WAYS)))


def times(p, q):
    """The product of two polynomials in X and Y."""
    found = {}
    for (a, b), c in p.items():
        for (d, e), f in q.items():
            found[a + d, b + e] = found.get((a + d, b + e), 0) + c * f
    return {powers: c for powers, c in found.items() if c}


def plane_polynomial(rng):
    """A product of lines, or some monomials with extreme, random or small coefficients, or a constant, 0 too."""
    kind = rng.choice(['lines', 'lines', 'extreme', 'random', 'small', 'constant'])
    if kind == 'constant':
        return rng.choice([{}, {}, {(0, 0): 1}, {(0, 0): -LARGEST}])
    if kind == 'lines':
        terms = {(0, 0): rng.choice([1, -1, 7])}
        for _ in range(rng.randint(1, 6)):
            steep, flat, off = rng.choice([(1, 0), (0, 1), (1, 1), (1, -1), (2, 1), (1, -3)]) + (rng.randint(-6, 6),)
            longer = times(terms, {powers: c for powers, c in (((1, 0), steep), ((0, 1), flat), ((0, 0), off)) if c})
            if len(longer) > 9 or max(map(abs, longer.values())) > LARGEST:
                break
            terms = longer
        return terms
    most = {'extreme': LARGEST, 'random': LARGEST, 'small': 20}[kind]
    chosen = rng.sample(MONOMIALS, rng.choice([1, 2, 3, 5, 9, 9]))
    return {powers: rng.choice([-1, 1]) * (most if kind == 'extreme' else rng.randint(1, most)) for powers in chosen}


def plane_points(rng, n, way):
    """Points in a square, near the lines, in columns and in rows."""
    if way != 'as they come':
        return repeated(rng, way, n, [(0, 32), (32, 0), (1, 12), (12, 1), (4, 4), (6, 6), (FURTHEST, FURTHEST)])
    reach = rng.choice([0, 1, 3, 6, 6, FURTHEST])
    drawn = [(rng.randint(-reach, reach), rng.randint(-reach, reach)) for _ in range(n)]
    for k in range(n):
        if rng.random() < 0.1:
            drawn[k] = rng.choice([drawn[0], (-FURTHEST, FURTHEST), (FURTHEST, -FURTHEST), (FURTHEST, FURTHEST)])
    return sorted(drawn)


def sound_plane(rng, s, n, way=None):
    return write_plane([plane_polynomial(rng) for _ in range(s)], plane_points(rng, n, way or rng.choice(WAYS)))


def every_repeat():
    """Cards of two polynomials that have every case of repeated points: X and X^2 - 16 on the line; X - Y and X^2 + Y^2 - 25 in the plane, at points of a
    column, of a row and of a square; X^2 - 16 twice, and the circle twice, with equal values at different points."""
    lists = [[5] * 2, [-4] * 3, [0] * 64, [-4, -4, 0, 3], [-4, 0, 0, 3], [-4, 0, 3, 3], [-4, 0, 3, 4, 9], [-FURTHEST] * 2 + [FURTHEST] * 2]
    lists += [[-9, -9, -4, -4, 0, 0, 9, 9], [-4, -4, -4, 0, 0, 3, 9, 9, 9, 9, 11], [-9, -9, -9, 0, 9, 9], sorted(2 * list(range(-16, 16)))]
    lists += [list(range(-32, 32)), [-32] + list(range(-32, 31)), list(range(-32, 31)) + [30]]
    square = [(x, y) for x in range(-4, 4) for y in range(-4, 4)]
    in_plane = [[(3, v) for v in found] for found in lists] + [[(v, 3) for v in found] for found in lists]
    in_plane += [square, sorted(square[::2] * 2), sorted(square[:63] + [(1, -2)]), [(-1, -1), (-1, 1), (-1, 1), (1, -1), (1, -1), (1, 1)]]
    parabola, diagonal, circle = [-16, 0, 1], {(0, 1): -1, (1, 0): 1}, {(0, 0): -25, (0, 2): 1, (2, 0): 1}
    cards = [write([[0, 1], parabola], found) for found in lists] + [write_plane([diagonal, circle], found) for found in in_plane]
    return cards + [write([parabola] * 2, [-5, -4, -4, 0, 4, 5, 5]), write_plane([circle] * 2, [(-4, 3), (3, -4), (3, 4), (3, 4), (4, 4), (5, 5), (5, 5)])]


def products(rng, s):
    """All of up to 3 polynomials, else some; the last, the first past it, and others past it."""
    count = 3 ** s
    chosen = list(range(count)) if s <= 2 or s == 3 and rng.random() < 0.2 else [0] + [rng.randrange(count) for _ in range(10)]
    return chosen + [count - 1, count, rng.randint(count, 65535), 65535]


# ---- damage: a stretch of the card and what stands there instead


def cuts(card):
    return [(at, len(card), b'') for at in range(len(card))]


def changes(rng, card):
    return [(i, i + 1, bytes([b])) for i, old in enumerate(card)
            for b in {old ^ 1, old ^ 128, (old + rng.randint(2, 254)) % 256} - {old}]


def causes(card):
    """Every cause of the table at every place, on a sound card."""
    polynomials, points = read(card)
    kind, s, end = card[0], len(polynomials), len(card)
    found = [(0, 1, bytes([b])) for b in (0, 3 - kind, 3, 255)] + [(3, 4, bytes([b])) for b in (1, 128, 255)]
    found += [(1, 2, bytes([b])) for b in (0, 9, 255)] + [(2, 3, bytes([b])) for b in (65, 255)]
    for j in range(s + 1):
        at = 4 + 2 * j
        offset = int.from_bytes(card[at:at + 2], 'big')
        found += [(at, at + 2, o.to_bytes(2, 'big')) for o in (offset - 1, offset + 1, offset + 256, 0, 65535)]
    for place, size, terms in polynomials:
        found += [(place, place + 1, bytes([b])) for b in ((7, 255) if kind == LINE else (10, 255))]
        for at in coefficient_places(card, place, size):
            found += [(at, at + 4, word(a)) for a in (LARGEST + 1, -LARGEST - 1, 2 ** 31 - 1, -2 ** 31, LARGEST, -LARGEST, 0)]
        found += [(place, end, b''), (place + 1, end, b''), (place + size - 1, end, b'')]
        if kind == PLANE:
            found += [damage for i in range(len(terms)) for _, damage in wrong_terms(card, place, i)]
    first = end - kind * len(points)
    found += [(at, at + 1, bytes([p % 256])) for at in range(first, end) for p in (101, -101, 127, -128)]
    for k in range(1, len(points)):
        falling = (first + k, first + k + 1, bytes([(points[k - 1][0] - 1) % 256]))
        found += [falling] if kind == LINE else [damage for _, damage in wrong_points(card, first, k)]
    found += [(end, end, extra) for extra in (b'\0', b'\1', b'\x9c', b'\xff', b'\0\0', b'\0' * 5)]
    return found + [(at, end, b'') for at in (0, 1, 2, 3, 4, 5, 4 + 2 * s, 5 + 2 * s, end - 1, first + len(points))]


def coefficient_places(card, place, size):
    """Where the coefficients of a body stand."""
    return range(place + 1, place + size, 4) if card[0] == LINE else range(place + 3, place + size, 6)


def wrong_terms(card, place, i):
    """What is wrong of term i of a body in the plane, each with its case."""
    at = place + 1 + 6 * i
    found = [('powers of 7', bytes([3, 4])), ('powers of 7', bytes([7, 0]))]
    found += [('powers of 255 and 1', bytes([255, 1])), ('powers of 255 and 1', bytes([1, 255]))]
    if i:
        a, b = card[at - 6:at - 4]
        found.append(('a term twice', bytes([a, b])))
        found += [('a term that falls by Y', bytes([a, b - 1]))] if b else []
        found += [('a term that falls by X, rising by Y', bytes([a - 1, b + 1]))] if a else []
    return [(case, (at, at + 2, put)) for case, put in found] + [('a coefficient of 0', (at + 2, at + 6, bytes(4)))]


def wrong_points(card, first, k):
    """Point k in the plane, which is not the first, put beside the one before it, each with its case."""
    at = first + 2 * k
    x, y = (int.from_bytes(card[i:i + 1], 'big', signed=True) for i in (at - 2, at - 1))
    found = [('two equal points', (x, y))]
    found += [('a point that falls by Y', (x, y - 1))] if y > -FURTHEST else []
    found += [('a point that falls by X, rising by Y', (x - 1, y + 1))] if x > -FURTHEST and y < FURTHEST else []
    return [(case, (at, at + 2, bytes(v % 256 for v in put))) for case, put in found]


def together(card):
    """Two causes of one polynomial at once, or one of them and what comes next on the card: the order of 16, 1, 5, 17 and 4."""
    polynomials, _ = read(card)
    found = []
    for j, (place, size, c) in enumerate(polynomials):
        high, end = (place, place + 1, bytes([7])), place + size
        wrong = (6 + 2 * j, 8 + 2 * j, (end + 1).to_bytes(2, 'big'))
        large = [(at, at + 4, word(LARGEST + 1)) for at in coefficient_places(card, place, size)]
        found += [(high, (place + 1, len(card), b'')), (high, wrong), (high, large[0]), (large[-1], wrong), (large[0], (end - 1, len(card), b''))]
        if len(c) > 1:
            zero = (end - 4, end, bytes(4))
            found += [(zero, wrong), (zero, (end - 1, len(card), b'')), (zero, large[0]), (zero, large[-2]), (zero, high)]
        if len(c) > 1 and j + 1 < len(polynomials):
            after = polynomials[j + 1][0]
            found += [(zero, (after, after + 1, bytes([7]))), (zero, (after + 1, after + 5, word(LARGEST + 1)))]
    return found


WRONG_TERMS = ('powers of 7', 'powers of 255 and 1', 'a term twice', 'a term that falls by Y', 'a term that falls by X, rising by Y', 'a coefficient of 0')
# Of cards of points in the plane: one cause, or two at once, and the number that must refuse it; 0 where it is sound.
CASES = {case: 18 for case in WRONG_TERMS}
CASES.update({case + and_so: number for case in WRONG_TERMS for and_so, number in (
    (', cut short', 1), (', a large coefficient before it', 18), (', a large coefficient after it', 18), (', wrong offset', 18))})
CASES.update({
    'over 9 terms, cut short': 18, 'over 9 terms, wrong offset': 18,
    'a large coefficient, cut short': 1, 'a large coefficient, wrong offset': 5, 'wrong term in the next polynomial, wrong offset': 4,
    'wrong last offset, a byte too many': 4, 'a byte too many, a point outside': 1, 'a byte too few, a point that falls': 1, 'one byte for each point': 1,
    'X outside': 6, 'Y outside': 6, 'a point that falls by Y': 6, 'a point that falls by X, rising by Y': 6,
    'two equal points': 0, 'a polynomial 0': 0, 'nine terms': 0})


def cases(card):
    """On a sound card of points in the plane, each of CASES that it has a place for, with the damages that make it so."""
    polynomials, points = read(card)
    end, found = len(card), []
    for j, (place, size, terms) in enumerate(polynomials):
        cut, many = (place + size - 1, end, b''), (place, place + 1, bytes([10]))
        offset = (6 + 2 * j, 8 + 2 * j, (place + size + 1).to_bytes(2, 'big'))
        large = [(at, at + 4, word(LARGEST + 1)) for at in coefficient_places(card, place, size)]
        found += [('a polynomial 0', ())] * (len(terms) == 0) + [('nine terms', ())] * (len(terms) == 9)
        found += [('over 9 terms, cut short', (many, (place + 1, end, b''))), ('over 9 terms, wrong offset', (many, offset))]
        found += [('a large coefficient, cut short', (one, cut)) for one in large] + [('a large coefficient, wrong offset', (one, offset)) for one in large]
        for i in range(len(terms)):
            for case, wrong in wrong_terms(card, place, i):
                found += [(case, (wrong,)), (case + ', cut short', (wrong, cut)), (case + ', wrong offset', (wrong, offset))]
                found += [(case + ', a large coefficient before it', (wrong, large[0]))] * (i > 0)
                found += [(case + ', a large coefficient after it', (wrong, large[-1]))] * (i + 1 < len(terms))
                if j:
                    found.append(('wrong term in the next polynomial, wrong offset', (wrong, (4 + 2 * j, 6 + 2 * j, (place + 1).to_bytes(2, 'big')))))
    first, longer = end - 2 * len(points), (end, end, b'\x64')
    found.append(('wrong last offset, a byte too many', ((4 + 2 * len(polynomials), 6 + 2 * len(polynomials), (first + 1).to_bytes(2, 'big')), longer)))
    for k in range(len(points)):
        x, y = ((at, at + 1, bytes([101])) for at in (first + 2 * k, first + 2 * k + 1))
        found += [('X outside', (x,)), ('Y outside', (y,)), ('a byte too many, a point outside', (x, longer))]
        found.append(('one byte for each point', ((first + len(points), end, b''),)))
        beside = wrong_points(card, first, k) if k else []
        found += [(case, (wrong,)) for case, wrong in beside]
        found += [('a byte too few, a point that falls', (wrong, (end - 1, end, b''))) for case, wrong in beside[1:] if k + 1 < len(points)]
    return found


def changed(card, *damages):
    """The card with these damages, those that keep its length first, then from its end on."""
    for start, stop, put in sorted(damages, key=lambda d: (d[1] - d[0] != len(d[2]), -d[0])):
        card = card[:start] + put + card[min(stop, len(card)):]
    return card


def damaged(rng, base):
    """Of a sound card: every cause at every place, as many pairs of them, those of one polynomial, every cut and every changed byte; in the plane CASES too,
    each case that there is some times. Each card with its case, or nothing."""
    single = causes(base)
    pairs = [rng.sample(single, 2) for _ in single] + (together(base) if base[0] == LINE else [])
    found = [(changed(base, d), '') for d in single + cuts(base) + changes(rng, base)] + [(changed(base, *d), '') for d in pairs]
    named = {}
    for case, damages in cases(base) if base[0] == PLANE else []:
        named.setdefault(case, []).append(changed(base, *damages))
    return found + [(card, case) for case, cards in named.items() for card in rng.sample(cards, min(len(cards), 6))]


# ---- repeated points


def repeats(card):
    """Of a sound card, which cases of repeated points it has."""
    polynomials, points = read(card)
    n, stands = len(points), collections.Counter(points)
    counts = sorted(stands.values())
    pair = n > 2 and counts == [1] * (n - 2) + [2]
    values = {point: tuple(value(terms, *point) for *_, terms in polynomials) for point in stands}
    signs = {point: tuple((v > 0) - (v < 0) for v in values[point]) for point in stands}
    again = [point for point in stands if stands[point] > 1]
    at_them = {sign for point in again for sign in signs[point]}

    def shared(part):
        """How many different points have a part that another one has too, and how many of these are repeated."""
        having = collections.Counter(map(part, stands))
        return [len([point for point in some if having[part(point)] > 1]) for some in (stands, again)]

    found = {
        'all points equal': n > 1 and len(stands) == 1,
        'one pair at the first place': pair and points[0] == points[1],
        'one pair at the last place': pair and points[-2] == points[-1],
        'one pair in between': pair and points[0] != points[1] and points[-2] != points[-1],
        'pairs throughout': len(stands) > 1 and set(counts) == {2},
        'a point three times or more': len(stands) > 1 and counts[-1] > 2,
        'no point twice': 1 < n == len(stands),
        '64 points all equal': n == 64 and len(stands) == 1,
        '64 points with one pair': n == 64 and pair,
        '64 points in pairs': n == 64 and set(counts) == {2},
        '64 points all different': len(stands) == 64,
        'a point twice where a polynomial is positive': 1 in at_them,
        'a point twice where a polynomial is negative': -1 in at_them,
        'a point twice where a polynomial is 0': 0 in at_them,
        'different points with equal patterns': shared(signs.get)[0],
        'different points with equal patterns and one of them twice': shared(signs.get)[1],
        'different points with equal patterns and none twice': shared(signs.get)[0] and not again,
        'different points with equal values': shared(values.get)[0],
    }
    if card[0] == PLANE:
        for name, part in (('X', lambda point: point[0]), ('Y', lambda point: point[1])):
            found['different points with equal %s' % name] = shared(part)[0]
            found['different points with equal %s and one of them twice' % name] = shared(part)[1]
            found['different points with equal %s and none twice' % name] = shared(part)[0] and not again
        found['X and Y changed about'] = any(x != y and (y, x) in stands for x, y in stands)
    return {case: bool(so) for case, so in found.items()}


def count_repeats(cards):
    """On how many sound cards of each kind each case of repeated points occurs."""
    seen = {}
    for card in cards:
        for case, so in repeats(card).items():
            key = '%s: %s' % (kind_of(card), case)
            seen[key] = seen.get(key, 0) + so
    return seen


# ---- the comparison


def record(card, asked, _=''):
    return len(card).to_bytes(2, 'big') + len(asked).to_bytes(2, 'big') + card + b''.join(a.to_bytes(2, 'big') for a in asked)


def files(cards):
    """The cards in files that the program can read: each a list of cards."""
    batch, size = [], 0
    for entry in cards:
        length = len(record(*entry))
        if size + length > ROOM:
            yield batch
            batch, size = [], 0
        batch.append(entry)
        size += length
    yield batch


def difference(batch, expected, written):
    """The first card of a file that the program writes something else about."""
    at = 0
    for (card, *_), lines in zip(batch, expected):
        for line in lines:
            got = written[at] if at < len(written) else 'nothing'
            if got != line:
                return 'card %s\n  must be: %s\n  is:      %s' % (card.hex(), line, got)
            at += 1
    return 'after the last line: %s' % (written[at:at + 1] or 'the program failed')


def compare(cards):
    """Runs the program on the cards, and gives how often each cause and each case occurred and why queries showed 0, or stops at the first difference."""
    seen, nothing = {}, {'only zeros': 0, 'as many + as -': 0}
    with tempfile.TemporaryDirectory() as folder:
        path = os.path.join(folder, 'cards')
        for batch in files(cards):
            with open(path, 'wb') as out:
                out.write(b''.join(record(*entry) for entry in batch))
            told = [answers(card, asked) for card, asked, _ in batch]
            expected = [lines for lines, _ in told]
            text = ''.join(line + '\n' for lines in expected for line in lines)
            ran = subprocess.run([PROGRAM, path], stdout=subprocess.PIPE, check=False)
            if ran.returncode or ran.stdout != text.encode():
                sys.exit('compare_cards: DIFFERENCE: ' + difference(batch, expected, ran.stdout.decode('ascii', 'replace').splitlines()))
            for (card, _, case), (lines, why) in zip(batch, told):
                if case and CASES[case] != int(why.split()[0] if why else 0):
                    sys.exit('compare_cards: %s must give %d: card %s is refused by %s' % (case, CASES[case], card.hex(), why or 'nothing'))
                for key in ('%s: %s' % (kind_of(card), why or 'sound'), case):
                    seen[key] = seen.get(key, 0) + 1
                for _, _, positive, negative, zero, *_ in (line.split() for line in lines if line[0] == 'Q' and 'R' not in line):
                    nothing['only zeros'] += positive == negative == '0' and zero != '0'
                    nothing['as many + as -'] += positive == negative != '0'
    return seen, nothing


def with_every_case(rng):
    """A card of points in the plane that has a place for each of CASES."""
    nine = {powers: rng.randint(1, LARGEST) for powers in MONOMIALS[5:14]}
    return write_plane([nine, {}, {(0, 1): -1, (1, 0): 1}], sorted((rng.randint(-9, 9), rng.randint(-9, 9)) for _ in range(5)))


def draw(seed, sounds, bases):
    """The sound cards and the damaged ones, each with products and its case; every other one that is drawn is of points in the plane."""
    rng = random.Random(seed)
    whole, broken = [(card, list(range(10)), '') for card in every_repeat()], []
    for i in range(sounds):
        s, n, way = 1 + i // 2 % 8, i // 8 % 65, WAYS[i // 2 % len(WAYS)]
        whole.append(((sound_plane if i % 2 else sound)(rng, s, n, way), products(rng, s), ''))
    for i in range(bases):
        n, way = (5, 'all different') if i == 0 else (rng.choice([0, 1, 2, 3, 5, 9, 17, 64]), None)
        base = (sound_plane if i % 2 else sound)(rng, 1 + i // 2 % 8, n, way)
        base = with_every_case(rng) if i == 1 else base
        broken += [(card, [rng.randrange(27), 65535], case) for card, case in damaged(rng, base)]
    return whole, broken


def show(seed, sounds, bases):
    """Compares and prints the counts: of the damaged cards some are sound, as one with another coefficient. Fails where a cause, a case, or a way to show 0,
    never occurred."""
    whole, broken = draw(seed, sounds, bases)
    seen, nothing = compare(whole + broken)
    twice = count_repeats(card for card, *_ in whole)
    missing = {'%s: %s' % (kind, why) for kind in CAUSES for why in CAUSES[kind]} | {'line: sound', 'plane: sound'} | set(CASES)
    missing = missing - set(seen) | {why for why in nothing if not nothing[why]} | {case for case in twice if not twice[case]}
    if missing or not whole or not broken:
        sys.exit('compare_cards: did not occur: ' + '; '.join(sorted(missing) or ['a card']))
    asked = sum(len(products) for _, products, _ in whole + broken)
    by_number = {}
    for key in set(seen) - set(CASES) - {''}:
        short = ' '.join(key.split()[:2])
        by_number[short] = by_number.get(short, 0) + seen[key]
    found = ', '.join('%s %d times' % (key, by_number[key]) for key in sorted(by_number, key=lambda key: (key.split()[0], len(key), key)))
    why = ' and '.join('%d for %s' % (nothing[why], why) for why in nothing)
    print('compare_cards: seed %d: %d sound and %d damaged cards, %d queries, 0 shown by %s, %d cases of plane cards, %d of repeated points, no difference '
          '(by number %s)' % (seed, len(whole), len(broken), asked, why, len(CASES), len(twice), found))


# ---- the committed file


def committed():
    """Document 01's card product by product, the edges about queries, every cause at every place of a small card, and some drawn cards; then the same of
    cards of points in the plane: a circle and a line, the least and the longest card, every case of a small card; last every case of repeated points. No
    card stands twice with the same products."""
    rng = random.Random(20261115)
    example = write([[0, 1], [1, 1], [-2, 1]], [-3, 1, 3])
    eight = write([[1]] * 8, [5])
    largest = write([[LARGEST] * 7] * 8, [FURTHEST] * 64)
    least = write([[0]], [])
    cards = [(b'', [0]), (b'\1', [0]), (example, list(range(27)) + [27, 65535]), (eight, [6560, 6561]), (largest, [0, 1, 6560, 6561]), (least, [0, 1, 2, 3])]
    cards += [(card, [0, 27]) for card, _ in damaged(rng, example)]
    for i in range(64):
        cards.append((sound(rng, 1 + i % 8, i, WAYS[i % len(WAYS)]), [0, 1, 3 ** (1 + i % 8) - 1, 3 ** (1 + i % 8)]))
    circle = write_plane([{(0, 0): -25, (0, 2): 1, (2, 0): 1}, {(0, 1): -1, (1, 0): 1}], [(-3, 4), (0, 0), (3, 4), (4, 3), (6, 1)])
    largest = write_plane([dict.fromkeys(MONOMIALS[-9:], LARGEST)] * 8, [(FURTHEST, FURTHEST)] * 64)
    most = write_plane([dict.fromkeys([(6 - b, b) for b in range(7)] + [(5, 0), (4, 1)], LARGEST)], [(-FURTHEST, FURTHEST), (FURTHEST, FURTHEST)])
    least = write_plane([{}], [])
    cards += [(b'\2', [0]), (circle, list(range(9)) + [9, 65535]), (largest, [0, 1, 6560, 6561]), (largest + b'\x64', [0])]
    cards += [(most, [0, 1, 2, 3]), (least, [0, 1, 2, 3])]
    seen = set()
    for card, case in damaged(rng, circle):
        if not case or case not in seen:
            cards.append((card, [0]))
        seen.add(case)
    for i in range(16):
        cards.append((sound_plane(rng, 1 + i % 8, 4 * i, WAYS[i % len(WAYS)]), [0, 1, 3 ** (1 + i % 8) - 1, 3 ** (1 + i % 8)]))
    cards += [(card, [0, 1, 5, 8]) for card in every_repeat()]
    return [entry for k, entry in enumerate(cards) if entry not in cards[:k]]


def store():
    cards = committed()
    data = b''.join(record(*entry) for entry in cards)
    assert len(data) < ROOM, len(data)
    with open(os.path.join(TESTS, 'data', 'cards'), 'wb') as out:
        out.write(data)
    with open(os.path.join(TESTS, 'stdout'), 'w') as out:
        out.write(''.join(line + '\n' for entry in cards for line in answers(*entry)[0]))
    print('compare_cards: %d cards, %d bytes written' % (len(cards), len(data)))


def main(arguments):
    if arguments == ['--data']:
        return store()
    numbers = [int(datetime.date.today().strftime('%Y%m%d') if a == 'day' else a) for a in arguments] + [593, 2080, 36][len(arguments):]
    return show(*numbers)


if __name__ == '__main__':
    main(sys.argv[1:])
