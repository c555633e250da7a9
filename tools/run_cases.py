#!/usr/bin/env python3
"""Works out runs by another route than the library's, and writes each call of them with what it must give, for the program run_tests.

usage: python3 tools/run_cases.py SEED CRATE

SEED decides every byte. The committed files, CRATE/data/*.bin and CRATE/stdout, are made, in some seconds, by

    python3 tools/run_cases.py 593 crates/run_tests

A truthful run is worked out from the patterns held: its products are the first independent rows (adapted_lists.py) of the distinct patterns
of the polynomials before the round, its answers are sums of signs, its rows the patterns counted. A run with false answers is worked out
from its answers alone (`Judged`): after each round the whole system, one equation for every answer so far, one unknown for every row
extended by the three signs, is solved by elimination over the fractions. There are no moments, no recursion and no solver of rows. Short
truthful runs are worked out both ways, and must agree.

A file is one item after the other, and an item is one call. Numbers have the high byte first.

    byte 0         the answer plus 64 (0 to 128), or START, FETCH, COPY, or ANSWER, an answer of eight bytes
    bytes 1, 2     the question total after the call; plus TOTALS where it gives done, plus twice TOTALS where it is refused
    bytes 3, 4     the product, the pattern, how many rows are copied, or the refusal number
    START          s (8 bytes)
    ANSWER         the answer (8, two's complement)
    FETCH          the position (8), the count (2)
    COPY           the lengths of the two slices (1 and 1), and, where rows are copied, the patterns (2 each) and the counts (2 each)
"""

import random
import sys
from collections import Counter
from fractions import Fraction
from functools import lru_cache

from adapted_lists import HEAVIEST, ROOM, SIGNS, digits, first_independent

MOST_POLYNOMIALS = 8
MOST_POINTS = 64
START, FETCH, COPY, ANSWER = range(129, 133)
DONE, REFUSED = 65536, 131072  # what a call gives, as one number: a refusal is REFUSED plus k
TOTALS = 1024
HIGHEST, LOWEST = 2**63 - 1, -(2**63)
SHORT_RUN = 8  # patterns of a truthful run that is worked out both ways


# ---- the files


class Tape:
    """The items of a file, and how many there are of each kind."""

    def __init__(self):
        self.out, self.counts = bytearray(), Counter()

    def put(self, kind, name, run, result, *parts):
        self.counts[name] += 1
        if result == DONE:
            self.counts["done"] += 1
        if result >= REFUSED:
            self.counts[result - REFUSED] += 1
        numbers = (kind, 1), (run.total + result // DONE * TOTALS, 2), (result % DONE, 2), *parts
        for number, width in numbers:
            self.out += (number % 256**width).to_bytes(width, "big")

    def start(self, run):
        self.put(START, "runs", run, run.step, (run.s, 8))

    def answer(self, run, a):
        step = run.answer(a)
        if abs(a) <= MOST_POINTS:
            self.put(a + MOST_POINTS, "answers", run, step)
        else:
            self.put(ANSWER, "answers", run, step, (a, 8))
        return step

    def fetch(self, run, p):
        pattern, count = REFUSED + 7, 0
        if run.key is not None:
            pattern, count = run.key[p] if p < len(run.key) else (REFUSED + 14, 0)
        self.put(FETCH, "fetches", run, pattern, (p, 8), (count, 2))

    def copy(self, run, patterns, counts):
        result, rows = REFUSED + 7, []
        if run.key is not None:
            result = REFUSED + 15
            if len(run.key) <= min(patterns, counts):
                result, rows = len(run.key), run.key
        numbers = [p for p, _ in rows] + [c for _, c in rows]
        self.put(COPY, "copies", run, result, (patterns, 1), (counts, 1), *((x, 2) for x in numbers))


# ---- runs


digits_of = lru_cache(maxsize=None)(digits)


@lru_cache(maxsize=2**20)
def sign(product, pattern):
    value = 1
    for power, digit in zip(digits_of(product, MOST_POLYNOMIALS), digits_of(pattern, MOST_POLYNOMIALS)):
        value *= SIGNS[digit] ** power
    return value


@lru_cache(maxsize=None)
def round_products(rows, i):
    """Those of round i + 1, in order, where rows are the patterns of P1 .. Pi that occur."""
    products = first_independent(rows, i)
    return [a + 3**i for a in products] + [a + 2 * 3**i for a in products]


def query(product, held):
    return sum(sign(product, p) for p in held)


class Truthful:
    """The run for s polynomials that is answered from the patterns held."""

    def __init__(self, s, held):
        self.s, self.held, self.total, self.key, self.step = s, held, 0, None, 0
        self.products = [0]
        for i in range(s if held else 0):
            self.products += round_products(tuple(sorted({p % 3**i for p in held})), i)

    def answer(self, a):
        if self.key is not None:
            return REFUSED + 7
        assert a == query(self.products[self.total], self.held)
        self.total += 1
        if self.total < len(self.products):
            return self.products[self.total]
        self.key = sorted(Counter(self.held).items())
        return DONE


def eliminated(patterns, given):
    """The numbers, one for each pattern, with the queries given: None where there are none. There are never several."""
    width, kept = len(patterns), {}
    for product, a in given:
        row = [Fraction(sign(product, p)) for p in patterns] + [Fraction(a)]
        for pivot, other in kept.items():
            factor = row[pivot]
            if factor:
                row = [x - factor * y if y else x for x, y in zip(row, other)]
        pivot = next((k for k, x in enumerate(row) if x), None)
        if pivot == width:
            return None
        if pivot is not None:
            kept[pivot] = [x / row[pivot] for x in row]
    assert len(kept) == width
    values = [Fraction(0)] * width
    for pivot, row in reversed(kept.items()):
        values[pivot] = row[width] - sum(x * v for x, v in zip(row, values) if x and v)
    return values


class Judged:
    """The run for s polynomials, from its answers alone."""

    def __init__(self, s):
        self.s, self.total, self.key, self.n = s, 0, None, None
        self.goes_on = 1 <= s <= MOST_POLYNOMIALS
        self.step = 0 if self.goes_on else REFUSED + 3
        self.round, self.rows, self.given, self.left = 0, [], [], [0]

    def answer(self, a):
        if not self.goes_on:
            return REFUSED + 7
        self.total += 1
        if self.n is None:
            if not 0 <= a <= MOST_POINTS:
                return self.close(8)
            self.n = a
        if not -self.n <= a <= self.n:
            return self.close(9)
        self.given.append((self.left.pop(0), a))
        return self.left[0] if self.left else self.end_round()

    def close(self, k):
        self.goes_on = False
        return REFUSED + k

    def end_round(self):
        i = self.round
        patterns = sorted(p + digit * 3 ** (i - 1) for p, _ in self.rows for digit in range(3)) if i else [0]
        counts = eliminated(patterns, self.given)
        if counts is None or any(c < 0 or c.denominator != 1 for c in counts):
            return self.close(10)
        self.rows = [(p, int(c)) for p, c in zip(patterns, counts) if c > 0]
        if i == self.s or not self.rows:
            self.goes_on, self.key = False, self.rows
            return DONE
        self.round += 1
        self.left = list(round_products(tuple(p for p, _ in self.rows), i))
        return self.left[0]


# ---- calls besides the answers that take a run on


def look(tape, run, rng):
    """A fetch or a copy, or both, while there are no rows."""
    kind = rng.randrange(3)
    if kind != 0:
        tape.fetch(run, rng.choice((0, 0, 1, rng.randrange(256), 2**32, 2**64 - 1)))
    if kind != 1:
        tape.copy(run, rng.choice((0, 1, 64, 80, 255)), rng.choice((0, 1, 64, 80, 255)))


def look_at_rows(tape, run, rng):
    """Fetches and copies of a run that is done."""
    r = len(run.key)
    for p in sorted({0, r // 2, max(r - 1, 0), r}):
        tape.fetch(run, p)
    tape.fetch(run, rng.choice((r + 1, 64, 65, 255, 256, 2**16, 2**32, 2**63, 2**64 - 1)))
    if r:
        tape.copy(run, r - 1, rng.choice((r, r + 1, 255)))
        tape.copy(run, rng.choice((r, r + 1, 255)), r - 1)
    if rng.randrange(2):
        tape.copy(run, r, r)
    else:
        tape.copy(run, r + rng.randrange(3), rng.choice((r, r + 1, r + 7, 255)))


def answer_late(tape, run, rng):
    tape.answer(run, rng.choice((0, 1, -1, 64, 65, HIGHEST, LOWEST)))


def end(tape, run, rng):
    """Calls after the end: answers change nothing, and rows are there exactly where the run is done."""
    if run.key is None:
        look(tape, run, rng)
        answer_late(tape, run, rng)
        look(tape, run, rng)
    else:
        if rng.randrange(2):
            answer_late(tape, run, rng)
        look_at_rows(tape, run, rng)
        if rng.randrange(2):
            answer_late(tape, run, rng)
            tape.fetch(run, 0)


# ---- truthful runs


def play_truthful(tape, s, held, rng):
    run = Truthful(s, held)
    judged = Judged(s) if len(set(held)) <= SHORT_RUN else None
    tape.start(run)
    often = max(4, len(run.products) // 2)
    if rng.randrange(2):
        look(tape, run, rng)
    step = 0
    while step != DONE:
        a = query(step, held)
        step = tape.answer(run, a)
        assert judged is None or judged.answer(a) == step
        if step != DONE and rng.randrange(often) == 0:
            look(tape, run, rng)
    assert judged is None or judged.key == run.key
    end(tape, run, rng)


def drawn(rng, s, points, most):
    """So many points, at most `most` different patterns among them: scattered, or with few signs of some polynomials."""
    signs = [rng.sample(range(3), rng.choice((1, 2, 3, 3))) for _ in range(s)]
    scattered = rng.randrange(2)
    pool = []
    for _ in range(most):
        pool.append(sum((rng.randrange(3) if scattered else rng.choice(signs[j])) * 3**j for j in range(s)))
    return [rng.choice(pool) for _ in range(points)]


def small_oracles(rng):
    for s in range(1, 9):
        yield s, []
        yield s, [0]
        yield s, [rng.randrange(3**s)]
        yield s, [rng.randrange(3**s)] * rng.randint(2, MOST_POINTS)
        yield s, [3**s - 1] * MOST_POINTS
        for most in (2, 2, 3, 3, 3, 4, 4, 5, 5, 6, 7, 8):
            yield s, drawn(rng, s, rng.randint(most, MOST_POINTS), most)


def large_oracles(rng):
    yield 8, HEAVIEST
    for s in range(1, 9):
        most = min(3**s, MOST_POINTS)
        yield s, [k % most for k in range(MOST_POINTS)]
        yield s, rng.sample(range(3**s), most)
        for most in (10, 16, 32):
            yield s, drawn(rng, s, rng.randint(most, MOST_POINTS), most)
    for _ in range(30):
        s = rng.randint(2, 8)
        yield s, drawn(rng, s, rng.randint(0, MOST_POINTS), rng.randint(1, 12))


def truthful_file(oracles, rng):
    tape = Tape()
    for s, held in oracles(rng):
        play_truthful(tape, s, held, rng)
    return tape


# ---- false answers


def advance(tape, run, held, until):
    """Answers truthfully up to the beginning of a round; whether the run is there."""
    while run.goes_on and run.round < until:
        tape.answer(run, query(run.left[0], held))
    return run.goes_on


def play_refused_starts(tape, rng):
    for s in (0, 9, 10, 255, 256, 257, 2**16 + 1, 2**32, 2**32 + 3, 2**63, 2**64 - 1):
        run = Judged(s)
        tape.start(run)
        end(tape, run, rng)


def play_first_answers(tape, rng):
    for a in (-1, -2, -64, 65, 66, 128, 255, 256, 257, 2**16, 2**16 + 3, 2**32, 2**32 + 5, HIGHEST, HIGHEST - 1, LOWEST, LOWEST + 1, -(2**32) + 2):
        run = Judged(rng.randint(1, 8))
        tape.start(run)
        if rng.randrange(2):
            look(tape, run, rng)
        tape.answer(run, a)
        end(tape, run, rng)


def small_held(rng, s, points=None):
    most = rng.randint(1, 3)
    return drawn(rng, s, points or rng.choice((most, most + 1, 5, 20, MOST_POINTS)), most)


def play_outside(tape, rng):
    """In every round, at its first, its last and some other product, an answer outside −n .. n."""
    for i in range(1, 9):
        for wrong in (
            lambda n, a: n + 1,
            lambda n, a: -n - 1,
            lambda n, a: HIGHEST,
            lambda n, a: LOWEST,
            lambda n, a: a + 256,
            lambda n, a: a - 2**16,
            lambda n, a: a + 2**32,
        ):
            s = rng.randint(i, 8)
            held = small_held(rng, s)
            run = Judged(s)
            tape.start(run)
            advance(tape, run, held, i)
            before = rng.choice((0, len(run.left) - 1, rng.randrange(len(run.left))))
            for _ in range(before):
                tape.answer(run, query(run.left[0], held))
            assert tape.answer(run, wrong(run.n, query(run.left[0], held))) == REFUSED + 9
            end(tape, run, rng)


def altered_round(run, held, row, change):
    """The round's answers where the counts of a row's three signs are changed by so much, which may be halves."""
    i = run.round
    moved = [(row + digit * 3 ** (i - 1), x) for digit, x in enumerate(change)]
    return [query(a, held) + sum(x * sign(a, p) for p, x in moved) for a in run.left]


def changes(counts):
    """Changes of three counts that keep their sum, after which they are no counts: halves, then each of them −1."""
    half = Fraction(1, 2)
    yield (0, half, -half)
    yield (0, -half, half)
    yield (-1, half, half)
    for digit in range(3):
        for other in range(3):
            if other != digit:
                change = [0, 0, 0]
                change[digit], change[other] = -counts[digit] - 1, counts[digit] + 1
                yield tuple(change)


def play_no_counts(tape, rng):
    """In every round, answers that are those of halves, or of a count below 0, and of no counts: nine kinds."""
    for i in range(1, 9):
        for kind in range(9):
            if i == 1 and kind in (3, 4):
                continue  # with one row, a count below 0 of sign 0 needs an answer above n
            while True:
                s = rng.randint(i, 8)
                held = small_held(rng, s, rng.choice((4, 6, 9, 30, MOST_POINTS)))
                run, trial = Judged(s), Tape()
                trial.start(run)
                advance(trial, run, held, i)
                row = rng.choice(run.rows)[0]
                counts = [sum(p % 3**i == row + digit * 3 ** (i - 1) for p in held) for digit in range(3)]
                answers = altered_round(run, held, row, list(changes(counts))[kind])
                if all(a == int(a) and -run.n <= a <= run.n for a in answers):
                    break
            for a in answers[:-1]:
                assert trial.answer(run, int(a)) < DONE
                if rng.randrange(len(answers)) == 0:
                    look(trial, run, rng)
            assert trial.answer(run, int(answers[-1])) == REFUSED + 10
            end(trial, run, rng)
            tape.out += trial.out
            tape.counts += trial.counts


def play_many_before_negative(tape, rng):
    """A bad round of 64 rows in which 65 counts above 0 come before the first below 0."""
    held = rng.sample(range(3**4), MOST_POINTS)
    run = Judged(5)
    tape.start(run)
    advance(tape, run, held, 5)
    answers = altered_round(run, held, run.rows[7][0], (0, 1, -1))
    for a in answers[:-1]:
        tape.answer(run, a)
    assert tape.answer(run, answers[-1]) == REFUSED + 10
    end(tape, run, rng)


def play_all_of_one(tape, rng):
    """Every first answer up to 3 with every two answers of round 1, s = 1."""
    for n in range(4):
        for e in range(-n, n + 1):
            for g in range(-n, n + 1):
                run = Judged(1)
                tape.start(run)
                for a in (n, e, g):
                    if run.goes_on:
                        tape.answer(run, a)
                tape.copy(run, 3, 4)


def play_drawn(tape, rng):
    """A truthful run with one answer replaced, or one with drawn answers all along; it goes on while counts fit."""
    for k in range(48):
        s = rng.randint(2, 8)
        held = small_held(rng, s)
        run = Judged(s)
        tape.start(run)
        changed = rng.randint(1, 12)
        while run.goes_on:
            a = query(run.left[0], held)
            if run.n and (run.total == changed or k % 4 == 0 and rng.randrange(3) == 0):
                a = rng.randint(-run.n, run.n)
            tape.answer(run, a)
        end(tape, run, rng)


def false_file(rng):
    tape = Tape()
    play_refused_starts(tape, rng)
    play_first_answers(tape, rng)
    play_outside(tape, rng)
    play_no_counts(tape, rng)
    play_many_before_negative(tape, rng)
    play_all_of_one(tape, rng)
    play_drawn(tape, rng)
    return tape


def report(counts):
    """What the program must print."""
    lines = [f"{name} {counts[name]}" for name in ("runs", "answers", "fetches", "copies", "done")] + ["differ 0"]
    lines += [f"refused by {k}: {counts[k]}" for k in range(16) if counts[k]]
    return "\n".join(lines) + "\n"


def main(seed, crate):
    rng = random.Random(int(seed))
    counts = Counter()
    for name, tape in (
        ("small", truthful_file(small_oracles, rng)),
        ("large", truthful_file(large_oracles, rng)),
        ("false", false_file(rng)),
    ):
        print(name, len(tape.out), "bytes,", dict(tape.counts))
        assert len(tape.out) < ROOM
        with open(f"{crate}/data/{name}.bin", "wb") as file:
            file.write(tape.out)
        counts += tape.counts
    with open(f"{crate}/stdout", "w") as file:
        file.write(report(counts))


if __name__ == "__main__":
    main(*sys.argv[1:])
