#!/usr/bin/env python3
"""Compares askcard with a second program that takes another route, on random cards, byte for byte.

    tools/compare.py [--seed N|day] [--cards N] [PROGRAM]        (6,000 cards take half a minute)

The route here: a card is parsed by slicing from the front, a polynomial of either kind into a dictionary of its monomials; the points are made a set
of pairs of X and Y, so that each counts once however often it stands on the card; the pattern of a point comes straight from the values of the
polynomials there; a query multiplies the values, exactly; the rows are the patterns counted; the adapted list of a round is found as 000 has it, the first
products whose rows of signs are independent, by elimination, where that is short enough, else by its recursion over sets. There is no solver.
The cards are those of examples/, inputs that are no cards, one of them slow and one long, cards of points repeated in every way, and then cards drawn from
the seed, a number or that of the day: sound ones of every size, and damaged ones of every kind, every other one with points in the plane, the points
repeated in every way in turn. It fails where a number that refuses a card of either kind, a kind of damage, a case of repeated points on either kind of
card, a run of 593 questions, or a list of more than three polynomials found by independence did not occur.
"""
import argparse
import collections
import datetime
import functools
import glob
import itertools
import os
import random
import subprocess
import sys
import time

LARGEST = 1_000_000
PRIME = 2 ** 61 - 1  # above every minor of 24 rows of signs: so many rows are independent modulo it exactly where they are independent
SHORT = 20_000  # steps of an elimination that is short enough


# ---- the second program

class Refused(Exception):
    pass


def line_body(rest):
    """A polynomial in X alone, as a dictionary from powers of X and Y to coefficients, and the bytes after it."""
    degree, rest = rest[0], rest[1:]
    if degree > 6:
        raise Refused(16)
    body, rest = rest[:4 * degree + 4], rest[4 * degree + 4:]
    if len(body) < 4 * degree + 4:
        raise Refused(1)
    coefficients = [int.from_bytes(body[k:k + 4], 'big', signed=True) for k in range(0, len(body), 4)]
    if max(map(abs, coefficients)) > LARGEST:
        raise Refused(5)
    if degree and not coefficients[-1]:
        raise Refused(17)
    return {(k, 0): c for k, c in enumerate(coefficients)}, rest


def plane_body(rest):
    """The same of a polynomial in X and Y."""
    count, rest = rest[0], rest[1:]
    if count > 9:
        raise Refused(18)
    body, rest = rest[:6 * count], rest[6 * count:]
    if len(body) < 6 * count:
        raise Refused(1)
    terms, last = {}, (-1, 0)
    for k in range(0, len(body), 6):
        powers, c = (body[k], body[k + 1]), int.from_bytes(body[k + 2:k + 6], 'big', signed=True)
        if sum(powers) > 6 or powers <= last or c == 0:
            raise Refused(18)
        terms[powers] = c
        last = powers
    if any(abs(c) > LARGEST for c in terms.values()):
        raise Refused(5)
    return terms, rest


def parse(card):
    """The polynomials, as dictionaries from powers of X and Y to coefficients, and the points, as pairs; on the line Y is 0."""
    if len(card) < 4:
        raise Refused(1)
    kind, s, n, zero = card[:4]
    if kind not in (1, 2) or zero:
        raise Refused(2)
    if s not in range(1, 9):
        raise Refused(3)
    if n > 64:
        raise Refused(3)
    contents, rest = card[4:6 + 2 * s], card[6 + 2 * s:]
    if len(contents) < 2 * s + 2:
        raise Refused(1)
    offsets = [int.from_bytes(contents[k:k + 2], 'big') for k in range(0, len(contents), 2)]
    polynomials = []
    if offsets[0] != len(card) - len(rest):
        raise Refused(4)
    for following in offsets[1:]:
        if not rest:
            raise Refused(1)
        terms, rest = (line_body if kind == 1 else plane_body)(rest)
        if following != len(card) - len(rest):
            raise Refused(4)
        polynomials.append(terms)
    if len(rest) != kind * n:
        raise Refused(1)
    numbers = [x - 256 if x > 127 else x for x in rest]
    points = [(x, 0) for x in numbers] if kind == 1 else list(zip(numbers[::2], numbers[1::2]))
    if points != sorted(points) or any(abs(x) > 100 for x in numbers):
        raise Refused(6)
    return polynomials, points


def digits(number, s):
    return [number // 3 ** j % 3 for j in range(s)]


def sign_of(x):
    return (x > 0) - (x < 0)


def query(values, product):
    """values: of each polynomial, at each point."""
    total = 0
    for point in values:
        v = 1
        for x, power in zip(point, digits(product, len(point))):
            v *= x ** power
        total += sign_of(v)
    return total


def first_independent(patterns, s):
    """000's way: of all products, in order, those whose signs on the patterns are independent of the earlier ones'."""
    chosen, basis = [], []
    for product in range(3 ** s):
        powers = digits(product, s)
        row = [1 for _ in patterns]
        for k, pattern in enumerate(patterns):
            for digit, power in zip(digits(pattern, s), powers):
                row[k] *= (0, 1, -1)[digit] ** power
        for pivot, other in basis:
            scale = row[pivot]
            if scale:
                row = [(x - scale * y) % PRIME for x, y in zip(row, other)]
        pivot = next((k for k, x in enumerate(row) if x % PRIME), None)
        if pivot is not None:
            inverse = pow(row[pivot], -1, PRIME)
            basis.append((pivot, [x * inverse % PRIME for x in row]))
            chosen.append(product)
        if len(chosen) == len(patterns):
            break
    return chosen


def by_recursion(patterns, s):
    if s == 0 or not patterns:
        return [0 for _ in patterns]
    weight = 3 ** (s - 1)
    stood = collections.Counter(p % weight for p in patterns)
    products = []
    for power in range(3):
        left = {q for q, signs in stood.items() if signs > power}
        products += [a + power * weight for a in by_recursion(left, s - 1)]
    return products


independent = collections.Counter()  # how many lists of s polynomials were found by independence


@functools.lru_cache(maxsize=100_000)
def adapted(patterns, s):
    if len(patterns) <= 24 and 3 ** s * len(patterns) ** 2 <= SHORT:
        independent[s] += 1
        return first_independent(sorted(patterns), s)
    return by_recursion(patterns, s)


def printout(card):
    try:
        polynomials, points = parse(card)
    except Refused as refused:
        return f'R {refused.args[0]}\n'
    s = len(polynomials)
    values = [[sum(c * x ** a * y ** b for (a, b), c in p.items()) for p in polynomials] for x, y in set(points)]
    patterns = [sum((0, 1, 2)[sign_of(v)] * 3 ** j for j, v in enumerate(point)) for point in values]
    asked = [0]
    for i in range(s if points else 0):
        known = adapted(frozenset(p % 3 ** i for p in patterns), i)
        asked += [a + 3 ** i for a in known] + [a + 2 * 3 ** i for a in known]
    lines = [f'Q {a} {query(values, a)}' for a in asked]
    lines += [f'S {p} {count}' for p, count in sorted(collections.Counter(patterns).items())]
    lines.append(f'E {len(asked)}')
    return '\n'.join(lines) + '\n'


# ---- cards

def put_together(bodies, points, offsets, head):
    at, places = 6 + 2 * len(bodies), []
    for body in bodies:
        places.append(at)
        at += len(body)
    places.append(at)
    if offsets:
        places = offsets(places)
    return head + b''.join((p % 65536).to_bytes(2, 'big') for p in places) + b''.join(bodies) + bytes(x % 256 for x in points)


def write(polynomials, points, offsets=None, head=None):
    bodies = [bytes([len(p) - 1]) + b''.join(c.to_bytes(4, 'big', signed=True) for c in p) for p in polynomials]
    return put_together(bodies, points, offsets, head or bytes([1, len(polynomials), len(points), 0]))


def write_plane(polynomials, points, offsets=None, head=None):
    """Polynomials as lists of terms, each a power of X, a power of Y and a coefficient; points as lists of X and Y."""
    bodies = [bytes([len(p)]) + b''.join(bytes([a, b]) + c.to_bytes(4, 'big', signed=True) for a, b, c in p) for p in polynomials]
    return put_together(bodies, [v for point in points for v in point], offsets, head or bytes([2, len(polynomials), len(points), 0]))


def polynomial(draw, points):
    """Of every kind, most of them with roots among the points or between them, so that many patterns occur."""
    kind = draw.random()
    if kind < 0.04:
        return [0]
    if kind < 0.10:
        return [draw.choice([-1, 1]) * draw.choice([1, LARGEST, draw.randint(1, LARGEST)])]
    if kind < 0.20:
        p = [draw.choice([-LARGEST, LARGEST, 0, draw.randint(-LARGEST, LARGEST)]) for _ in range(draw.randint(1, 7))]
        return p if len(p) == 1 or p[-1] else p + [1] if len(p) < 7 else p[:-1] + [1]
    for _ in range(20):
        p = [draw.choice([-3, -1, 1, 2])]
        for _ in range(draw.randint(1, 6)):
            root = draw.choice(points) if points and draw.random() < 0.6 else draw.randint(-20, 20)
            half = draw.random() < 0.2
            a, b = (2, -2 * root - 1) if half else (1, -root)
            p = [x + y for x, y in zip([b * c for c in p] + [0], [0] + [a * c for c in p])]
            if max(map(abs, p)) > LARGEST:
                break
        else:
            return p
    return [draw.randint(-20, 20), 1]


# How often different points stand on a card, as far as it has room for them, in any order; None: as they come.
WAYS = (None, [1] * 64, [64], [2] + [1] * 62, [2] * 32, [3, 1, 2, 5] * 6)


def spread(draw, way, wide, high):
    """Points of a rectangle, never falling, as lists of X and Y; the rectangle is wider where it has no room for the different ones."""
    n = draw.choice([0, 1, 2, 3, draw.randint(4, 20), draw.randint(21, 64), 64])
    if not way:
        return sorted([draw.randint(-wide, wide), draw.randint(-high, high)] for _ in range(n))
    often, different = [], set()
    while sum(often) < n:
        often.append(min(way[len(often)], n - sum(often)))
    draw.shuffle(often)
    wide = wide if (2 * wide + 1) * (2 * high + 1) >= len(often) else 100
    while len(different) < len(often):
        different.add((draw.randint(-wide, wide), draw.randint(-high, high)))
    return [list(point) for point, count in zip(sorted(different), often) for _ in range(count)]


def sound(draw, way):
    s = draw.choice([1, 2, 3, 3, 4, 5, 6, 7, 8, 8])
    points = [x for x, _ in spread(draw, way, draw.choice([3, 10, 30, 100]), 0)]
    return [polynomial(draw, points) for _ in range(s)], points


def times(p, q):
    """The product of two polynomials in X and Y, both dictionaries."""
    found = collections.Counter()
    for (a, b), c in p.items():
        for (d, e), f in q.items():
            found[a + d, b + e] += c * f
    return {powers: c for powers, c in found.items() if c}


def plane_polynomial(draw, points):
    """Of every kind, most of them products of lines and circles through the points or near them, so that many patterns occur."""
    kind = draw.random()
    if kind < 0.04:
        return []
    if kind < 0.08:
        return [(0, 0, draw.choice([-1, 1]) * draw.choice([1, LARGEST, draw.randint(1, LARGEST)]))]
    if kind < 0.20:
        powers = draw.sample([(a, b) for a in range(7) for b in range(7 - a)], draw.randint(1, 9))
        return [(a, b, draw.choice([-1, 1]) * draw.choice([LARGEST, draw.randint(1, LARGEST)])) for a, b in sorted(powers)]
    p = {(0, 0): draw.choice([-3, -1, 1, 2])}
    for _ in range(draw.randint(1, 4)):
        x, y = draw.choice(points) if points and draw.random() < 0.6 else (draw.randint(-9, 9), draw.randint(-9, 9))
        a, b = draw.choice([(1, 0), (0, 1), (1, 0), (0, 1), (1, 1), (1, -1), (2, -1)])
        line, circle = {(1, 0): a, (0, 1): b, (0, 0): -a * x - b * y}, {(2, 0): 1, (0, 2): 1, (0, 0): -x * x - y * y}
        longer = times(p, circle if draw.random() < 0.15 else {powers: c for powers, c in line.items() if c})
        if len(longer) > 9 or max(map(sum, longer)) > 6 or max(map(abs, longer.values())) > LARGEST:
            break
        p = longer
    return [(a, b, c) for (a, b), c in sorted(p.items())]


def sound_plane(draw, way):
    s = draw.choice([1, 2, 3, 3, 4, 5, 6, 7, 8, 8])
    points = spread(draw, way, *draw.choice([(2, 2), (4, 4), (4, 4), (9, 9), (100, 100), (0, 40), (40, 0), (1, 9)]))
    return [plane_polynomial(draw, points) for _ in range(s)], points


KINDS = 14  # of damage
damage = collections.Counter()  # how often each kind was done, by byte 0


def moved(j, by):
    return lambda places: [p + by * (k == j) for k, p in enumerate(places)]


def damaged(draw, kind_of_card, way):
    polynomials, points = (sound, sound_plane)[kind_of_card - 1](draw, way)
    put = (write, write_plane)[kind_of_card - 1]
    card = bytearray(put(polynomials, points))
    kind = draw.randrange(KINDS)
    damage[kind_of_card, kind] += 1
    if kind == 0:
        return bytes(card[:draw.randrange(len(card))])
    if kind == 1:
        return bytes(card) + bytes(draw.randrange(256) for _ in range(draw.choice([1, 2, 300, 5000])))
    if kind in (2, 3, 4):
        for _ in range(draw.choice([1, 1, 2])):
            card[draw.randrange(len(card))] = draw.choice([0, 1, 2, 7, 8, 9, 64, 65, 127, 128, 255, draw.randrange(256)])
        return bytes(card)
    if kind == 5:
        card[draw.randrange(4)] = draw.randrange(256)
        return bytes(card)
    if kind == 6:
        return put(polynomials, points, moved(draw.randrange(len(polynomials) + 1), draw.choice([-1, 1, 256])))
    if kind == 10:
        return bytes([kind_of_card] * draw.choice([0, 1]) + [draw.randrange(256) for _ in range(draw.randrange(600))])
    if kind == 11:
        return put(polynomials, points, head=bytes([kind_of_card, draw.choice([0, 9, len(polynomials)]), draw.choice([65, 255, len(points)]), 0]))
    return (wrong_line, wrong_plane)[kind_of_card - 1](draw, kind, polynomials, points)


def wrong_line(draw, kind, polynomials, points):
    """A card of points on the line with a wrong polynomial or point."""
    j, by = draw.randrange(len(polynomials)), 0
    p = polynomials[j]
    if kind == 7:
        p[draw.randrange(len(p))] = draw.choice([-1, 1]) * draw.choice([LARGEST, LARGEST + 1, 2 ** 31 - 1])
    if kind == 8:
        p[-1] = 0
    if kind == 9 and points:  # a wrong point, sometimes on a card that is too long
        points[draw.randrange(len(points))] = draw.choice([-101, 101, -100, 100, -128, 127, 0])
        return write(polynomials, points) + b'\x64' * draw.choice([0, 0, 1])
    if kind == 12:  # degree 7 or more, whole or cut short
        p += [1] * (8 - len(p) + draw.choice([0, 0, 1, 248]))
        card = write(polynomials, points)
        return card[:draw.randrange(len(card))] if draw.random() < 0.3 else card
    if kind == 13:  # a top coefficient of 0, and a coefficient outside its limits or a wrong offset after it
        polynomials[j] = p[:draw.randint(1, 6)] + [0]
        if draw.random() < 0.5:
            polynomials[j][0] = draw.choice([-1, 1]) * draw.choice([LARGEST, LARGEST + 1])
        by = draw.choice([0, 0, -1, 1])
    return write(polynomials, points, moved(j + 1, by))


def wrong_plane(draw, kind, polynomials, points):
    """A card of points in the plane with a wrong polynomial or point."""
    j, by = draw.randrange(len(polynomials)), 0
    p = polynomials[j] = polynomials[j] or [(0, 0, 1)]
    i = draw.randrange(len(p))
    a, b, c = p[i]
    large = draw.choice([-1, 1]) * draw.choice([LARGEST, LARGEST + 1, 2 ** 31 - 1])
    if kind == 7:
        p[i] = (a, b, large)
    if kind == 8:
        p[i] = (a, b, 0)
    if kind == 9 and points:
        points[draw.randrange(len(points))][draw.randrange(2)] = draw.choice([-101, 101, -100, 100, -128, 127, 0])
        return write_plane(polynomials, points) + b'\x64' * draw.choice([0, 0, 1])
    if kind == 12:  # ten terms or more, whole or cut short
        p += [(0, 0, 1)] * (10 - len(p) + draw.choice([0, 0, 1, 245]))
        card = write_plane(polynomials, points)
        return card[:draw.randrange(len(card))] if draw.random() < 0.3 else card
    if kind == 13:  # a wrong term, and a coefficient outside its limits before or after it, or a wrong offset
        p[i] = draw.choice([(a, 7 - a, c), (255, 1, c), (b, a, c), (a, b, 0)])
        p[i:i] = [(a, b, c)] * (len(p) < 9 and draw.random() < 0.5)
        k = draw.randrange(len(p))
        p[k] = p[k][:2] + (large,) if draw.random() < 0.5 else p[k]
        by = draw.choice([0, 0, -1, 1])
    return write_plane(polynomials, points, moved(j + 1, by))


def fixed():
    for name in sorted(glob.glob(os.path.join(os.path.dirname(__file__), '..', 'examples', '*.card'))):
        with open(name, 'rb') as card:
            yield card.read()
    longest = write([[k - 20 + j for k in range(7)] for j in range(8)], range(-32, 32))
    yield from (longest, longest[:-1], longest + b'\x20', longest + b'\x20\x20')
    nine = [(a, b) for a in range(3) for b in range(3)]
    longest = write_plane([[(a, b, 4 * a - 7 * b - j or 1) for a, b in nine] for j in range(8)], [(k // 8 - 4, k % 8 - 4) for k in range(64)])
    yield from (longest, longest[:-1], longest + b'\4', longest + b'\4\4')
    yield b''
    yield b'\1'
    yield b'\2'
    yield b'\1' * 1_000_000


def repeated():
    """Cards that have every case of repeated points: X, X^2 - 1 and X^3 - 9 X on the line; X - Y, X^2 + Y^2 - 2 and X Y in the plane, at points of a column,
    of a row and of a square; X^2 - 1, and X Y, alone, with equal values at different points."""
    lists = [[1] * 2, [0] * 3, [-2] * 64, [-3, -3, 0, 1], [-3, 0, 0, 1], [-3, 0, 1, 1], [-9, -1, 0, 2], [5, 6, 7], [5, 6, 6, 7]]
    lists += [[-3, -3, -1, -1, 4, 4], [-3, -3, -3, 0, 0, 0, 0, 4], [-100, -100, -100, 0, 100, 100], [5, 5, 5, 6, 7, 7], sorted(2 * list(range(-20, 12)))]
    lists += [list(range(-40, 24)), [-40] + list(range(-40, 23)), list(range(-40, 23)) + [22]]
    square = [(x, y) for x in range(-4, 4) for y in range(-4, 4)]
    places = [[(1, v) for v in found] for found in lists] + [[(v, 1) for v in found] for found in lists]
    places += [square, sorted(2 * square[::2]), sorted(square[1:] + [(0, -3)]), [(-2, 2)] * 2 + [(2, -2)] * 3 + [(2, 2)]]
    for found in lists:
        yield write([[0, 1], [-1, 0, 1], [0, -9, 0, 1]], found)
    for found in places:
        yield write_plane([[(0, 1, -1), (1, 0, 1)], [(0, 0, -2), (0, 2, 1), (2, 0, 1)], [(1, 1, 1)]], found)
    yield from (write([[-1, 0, 1]], [-3, -1, 1, 3, 3]), write_plane([[(1, 1, 1)]], [(-1, -1), (0, 5), (1, 1), (1, 1), (1, 2), (2, 1)]))


FEWER = 'product 0 does not show byte 2'


def repeats(card, printed):
    """Of a sound card and its printout, which cases of repeated points it has."""
    points = parse(card)[1]
    n, often = len(points), collections.Counter(points)
    counts = sorted(often.values())
    pair, together = n > 2 and counts == [1] * (n - 2) + [2], any(line.startswith('S') and line.split()[2] != '1' for line in printed.splitlines())
    found = {
        'all points equal': n > 1 and len(often) == 1,
        'one pair at the first place': pair and points[0] == points[1],
        'one pair at the last place': pair and points[-2] == points[-1],
        'one pair in between': pair and points[0] != points[1] and points[-2] != points[-1],
        'pairs throughout': len(often) > 1 and set(counts) == {2},
        'a point three times or more': len(often) > 1 and counts[-1] > 2,
        'no point twice': 1 < n == len(often),
        '64 points all equal': n == 64 and len(often) == 1,
        '64 points with one pair': n == 64 and pair,
        '64 points in pairs': n == 64 and set(counts) == {2},
        '64 points all different': len(often) == 64,
        FEWER: not printed.startswith(f'Q 0 {card[2]}\n'),
        'different points with equal patterns and a point twice': together and len(often) < n,
        'different points with equal patterns and none twice': together and len(often) == n,
    }
    for name, part in (('X', 0), ('Y', 1)) if card[0] == 2 else ():
        having = collections.Counter(point[part] for point in often)
        found[f'different points with equal {name} and one of them twice'] = any(often[point] > 1 and having[point[part]] > 1 for point in often)
        found[f'different points with equal {name} and none twice'] = len(having) < len(often) == n
    return found


def ask(program, card, slowly=False):
    """What the program prints; where slowly, the card comes in pieces with pauses between them."""
    told = subprocess.Popen([program], stdin=subprocess.PIPE, stdout=subprocess.PIPE)
    try:
        if slowly:
            for k in range(0, len(card), 7):
                told.stdin.write(card[k:k + 7])
                told.stdin.flush()
                time.sleep(0.005)
        printed, _ = told.communicate(None if slowly else card)
    except BrokenPipeError:
        printed = told.stdout.read()
        told.wait()
    return printed if told.returncode == 0 else None


def main():
    words = argparse.ArgumentParser(description=__doc__.splitlines()[0])
    words.add_argument('--seed', default='1', help="a number, or 'day' for the day's")
    words.add_argument('--cards', type=int, default=6000, help='how many to draw; every third is damaged')
    words.add_argument('program', nargs='?', default=os.path.join('crates', 'askcard', 'out', 'askcard'))
    words = words.parse_args()
    seed = int(datetime.date.today().strftime('%Y%m%d') if words.seed == 'day' else words.seed)
    draw = random.Random(seed)
    makers = (lambda way: write(*sound(draw, way)), lambda way: write_plane(*sound_plane(draw, way))) * 2
    makers += (lambda way: damaged(draw, 1, way), lambda way: damaged(draw, 2, way))
    drawn = (makers[number % 6](WAYS[number // 6 % len(WAYS)]) for number in range(words.cards))
    told, twice = collections.Counter(), {}
    most = 0
    cards = [(card, slowly) for card in fixed() for slowly in (False, True) if len(card) < 1000 or not slowly]
    for number, (card, slowly) in enumerate(itertools.chain(cards, ((card, False) for card in itertools.chain(repeated(), drawn)))):
        want = printout(card)
        got = ask(words.program, card, slowly)
        if got != want.encode():
            print(f'card {number} of seed {seed} differs: {card[:400].hex()}')
            print(f'askcard:\n{got.decode(errors="replace") if got is not None else "failed"}\nthe second program:\n{want}', end='')
            return 1
        kind = card[0] if len(card) >= 4 and card[0] in (1, 2) else 0
        told[kind, want.split()[1] if want.startswith('R') else 'sound'] += 1
        for case, so in {} if want.startswith('R') else repeats(card, want).items():
            twice[kind, case] = twice.get((kind, case), 0) + so
        most = max(most, want.count('Q'))
    sound_ones, numbers = [told[kind, 'sound'] for kind in (1, 2)], sorted({key for _, key in told} - {'sound'}, key=int)
    refused = ', '.join(f'{sum(told[kind, k] for kind in range(3))} by {k}' for k in numbers)
    fewer = sum(count for (_, case), count in twice.items() if case == FEWER)
    print(f'seed {seed}: {sum(told.values())} cards, {sound_ones[0]} sound on the line, {sound_ones[1]} in the plane, {fewer} of them with repeated points, '
          f'{len(twice)} cases of these, the longest run {most} questions; refused: {refused}; {sum(independent.values())} lists found by independence, '
          f'{sum(independent[k] for k in independent if k > 3)} of them of more than 3 polynomials; no difference')
    either = ('sound', '1', '2', '3', '4', '5', '6')
    needed = [(0, '1'), (0, '2')] + [(1, k) for k in either + ('16', '17')] + [(2, k) for k in either + ('18',)]
    missing = [f'{k} with byte 0 {kind or "other"}' for kind, k in needed if not told[kind, k]]
    missing += [f'{case} with byte 0 {kind}' for kind, case in twice if not twice[kind, case]]
    missing += [f'damage of kind {k} with byte 0 {kind}' for kind in (1, 2) for k in range(KINDS) if not damage[kind, k]]
    missing += [] if most == 593 else ['a run of 593 questions']
    missing += [] if any(k > 3 for k in independent) else ['a list of more than 3 polynomials found by independence']
    if missing:
        print('did not occur: ' + ', '.join(missing))
    return 1 if missing else 0


if __name__ == '__main__':
    sys.exit(main())
