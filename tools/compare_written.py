#!/usr/bin/env python3
"""Compares the cards that the library writes and draws, by the programs writer_tests and drawcard, with a second writer written here from documents 01
and 02 alone.

usage: python3 tools/compare_written.py [SEED|day [DRAWS [BASES]]]    compares; prints one line of counts, exits 1 at a difference
       python3 tools/compare_written.py --data                        writes the files of crates/writer_tests and crates/drawcard

DRAWS cards are drawn, from the seeds 0, 1, 2^32 - 1 and others, of every s, n and degree, into buffers that are just long enough, longer, or too short;
then every cause of a refused draw, and two at once. The sound line cards of tools/compare_cards.py are taken apart by its reader and written again, byte
for byte. BASES more are damaged before they are written: every cause at every place, and two at once. Of each call the answer and the whole buffer are
compared. The second writer goes another way: it steps the generator by whole numbers and takes the remainder, sorts by Python's own sort, and makes the
bytes by int.to_bytes. It fails where a number did not occur.
"""

import datetime
import itertools
import os
import random
import subprocess
import sys
import tempfile

import compare_cards

ROOT = compare_cards.ROOT
TESTS = os.path.join(ROOT, 'crates', 'writer_tests')
PROGRAM = os.path.join(ROOT, 'crates', 'drawcard')
WRITES = os.path.join(TESTS, 'out', 'writer_tests')  # rt ci makes both, or rt run
DRAWS = os.path.join(PROGRAM, 'out', 'drawcard')
ROOM = compare_cards.ROOM
LARGEST, FURTHEST = compare_cards.LARGEST, compare_cards.FURTHEST
USAGE = 'usage: drawcard SEED S N D, each a number in decimal from 0 to 4294967295\n'

# ---- the second writer


def parts(degrees, coefficients):
    """The coefficients of each polynomial."""
    found, rest = [], list(coefficients)
    for d in degrees:
        found.append(rest[:d + 1])
        rest = rest[d + 1:]
    return found


def refusal(degrees, coefficients, points):
    """Document 02, wish 2: the number that refuses them, or 0."""
    if not 1 <= len(degrees) <= 8 or len(points) > 64:
        return 3
    if max(degrees) > 6:
        return 16
    if len(coefficients) != sum(degrees) + len(degrees):
        return 1
    for d, c in zip(degrees, parts(degrees, coefficients)):
        if any(abs(a) > LARGEST for a in c):
            return 5
        if d > 0 and c[-1] == 0:
            return 17
    if any(abs(p) > FURTHEST for p in points) or list(points) != sorted(points):
        return 6
    return 0


def placed(number, card, room):
    """The line of a call: its answer, and the buffer after it."""
    before = bytes(k % 251 for k in range(room))
    if number == 0 and room < len(card):
        number = 15
    if number:
        return 'R%d %s' % (number, before.hex())
    return '%d %s' % (len(card), (card + before[len(card):]).hex())


def written(degrees, coefficients, points, room):
    number = refusal(degrees, coefficients, points)
    card = b'' if number else compare_cards.write(parts(degrees, coefficients), points)
    return placed(number, card, room)


class Generator:
    def __init__(self, seed):
        self.state = seed

    def below(self, m):
        self.state = (1664525 * self.state + 1013904223) % 2 ** 32
        return self.state // 65536 % m


def draw(seed, s, n, d):
    """The card of a draw that is not refused."""
    generator = Generator(seed)
    polynomials = []
    for _ in range(s):
        c = [generator.below(19) - 9 for _ in range(d + 1)]
        if d > 0 and c[d] == 0:
            c[d] = 1
        polynomials.append(c)
    return compare_cards.write(polynomials, sorted(generator.below(201) - 100 for _ in range(n)))


def drawn(seed, s, n, d, room):
    number = 3 if not 1 <= s <= 8 or n > 64 else 16 if d > 6 else 0
    return placed(number, b'' if number else draw(seed, s, n, d), room)


# ---- calls: what the file has, and the line that must come of it


def word(v):
    return (v % 2 ** 64).to_bytes(8, 'big')


def write_call(degrees, coefficients, points, room):
    numbers = [0, room, len(degrees), len(coefficients), len(points)] + list(degrees) + list(coefficients) + list(points)
    return b''.join(map(word, numbers)), written(degrees, coefficients, points, room)


def draw_call(seed, s, n, d, room):
    return b''.join(map(word, [1, room, seed, s, n, d])), drawn(seed, s, n, d, room)


def length(s, d, n):
    return 4 + 2 * (s + 1) + s * (1 + 4 * (d + 1)) + n


def draws(rng, count):
    """Draws of every s, every degree and every n, in buffers of every kind."""
    seeds = [0, 1, 2 ** 32 - 1, 2 ** 31, 65535, 65536]
    for i in range(count):
        s, d, n = 1 + i % 8, i // 8 % 7, i // 56 % 65
        seed = seeds[i % 97] if i % 97 < len(seeds) else rng.randrange(2 ** 32)
        yield draw_call(seed, s, n, d, max(0, length(s, d, n) + rng.choice([0, 0, 0, 1, 9, -1, -1, -999])))


def refused_draws(rng):
    """Every cause of a refused draw at once with every other, and none."""
    for s, n, d in itertools.product([0, 1, 8, 9, 255, 256, 2 ** 32, 2 ** 64 - 1], [0, 64, 65, 256, 2 ** 64 - 1], [0, 6, 7, 256, 2 ** 64 - 1]):
        yield draw_call(rng.randrange(2 ** 32), s, n, d, rng.choice([0, 11, 330]))


def taken_apart(card):
    polynomials, points = compare_cards.read(card)
    return [len(c) - 1 for *_, c in polynomials], [a for *_, c in polynomials for a in c.values()], [x for x, _ in points]


def again(card):
    """A sound card taken apart and written again: the line is made of the card itself."""
    call, line = write_call(*taken_apart(card), len(card) + 3)
    return call, placed(0, card, len(card) + 3) if line[0] != 'R' else line


def put(l, k, a):
    return l[:k] + [a] + l[k + 1:]


def damages(degrees, coefficients, points, rng):
    """Every cause at every place: each a function of the three lists and the room, so that two can be joined."""
    found = [lambda D, C, P, r: ([], C, P, r), lambda D, C, P, r: (D + [0] * (9 - len(D)), C, P, r), lambda D, C, P, r: (D, C, (P + [100] * 65)[:65], r)]
    found += [lambda D, C, P, r: (D, C[:-1], P, r), lambda D, C, P, r: (D, C + [1], P, r), lambda D, C, P, r: (D, [], P, r)]
    found += [lambda D, C, P, r: (D, C, P, max(0, r - 1)), lambda D, C, P, r: (D, C, P, 0)]
    for j in range(len(degrees)):
        for d in (7, 255, 256, 2 ** 64 - 1):
            found.append(lambda D, C, P, r, j=j, d=d: (put(D, j, d), C, P, r))
    first = 0
    for d in degrees:
        for i in range(first, first + d + 1):
            for a in (LARGEST + 1, -LARGEST - 1, rng.choice([2 ** 31, -2 ** 31, 2 ** 32, -2 ** 63, 2 ** 63 - 1]), rng.choice([LARGEST, -LARGEST])):
                found.append(lambda D, C, P, r, i=i, a=a: (D, put(C, i, a), P, r))
        if d:
            found.append(lambda D, C, P, r, i=first + d: (D, put(C, i, 0), P, r))
        first += d + 1
    for k in range(len(points)):
        for p in (FURTHEST + 1, -FURTHEST - 1, rng.choice([128, -128, 256, -256, 2 ** 63 - 1, -2 ** 63])):
            found.append(lambda D, C, P, r, k=k, p=p: (D, C, put(P, k, p), r))
        if k:
            found.append(lambda D, C, P, r, k=k: (D, C, put(P, k, P[k - 1] - 1), r))
    return found


def damaged(rng, card):
    lists = taken_apart(card)
    room = len(card) + rng.choice([0, 2])
    single = damages(*lists, rng)
    for one in single:
        yield write_call(*one(*lists, room))
    for _ in range(4 * len(single)):
        one, two = rng.sample(single, 2)
        try:
            yield write_call(*two(*one(*lists, room)))
        except IndexError:
            pass


# ---- the comparison


def batches(calls):
    batch, size = [], 0
    for call in calls:
        if size + len(call[0]) > ROOM:
            yield batch
            batch, size = [], 0
        batch.append(call)
        size += len(call[0])
    yield batch


def compare(calls):
    """Runs the program on the calls, and gives how often each answer came, or stops at the first difference."""
    seen = {}
    with tempfile.TemporaryDirectory() as folder:
        path = os.path.join(folder, 'calls')
        for batch in batches(calls):
            with open(path, 'wb') as out:
                out.write(b''.join(call for call, _ in batch))
            ran = subprocess.run([WRITES, path], stdout=subprocess.PIPE, check=False)
            got = ran.stdout.decode('ascii', 'replace').splitlines()
            for (call, line), shown in itertools.zip_longest(batch, got, fillvalue=('nothing', 'nothing')):
                if line != shown:
                    sys.exit('compare_written: DIFFERENCE: call %s\n  must be: %s\n  is:      %s' % (call if isinstance(call, str) else call.hex(), line, shown))
                key = line.split()[0] if line[0] == 'R' else 'card'
                seen[key] = seen.get(key, 0) + 1
            if ran.returncode:
                sys.exit('compare_written: the program failed')
    return seen


def run(arguments):
    ran = subprocess.run([DRAWS] + arguments, stdout=subprocess.PIPE, stderr=subprocess.PIPE, stdin=subprocess.DEVNULL, check=False)
    return ran.stdout, ran.stderr.decode('utf-8', 'replace')


def program(rng):
    """drawcard: cards, refusals and wrong arguments."""
    tried = [([7, 3, 5, 2], 0), ([2 ** 32 - 1, 8, 64, 6], 0), ([0, 1, 0, 0], 0), ([1, 0, 5, 9], 3), ([1, 9, 5, 9], 3), ([1, 8, 65, 9], 3), ([1, 8, 64, 7], 16)]
    tried += [([rng.randrange(2 ** 32), rng.randint(1, 8), rng.randint(0, 64), rng.randint(0, 6)], 0) for _ in range(40)]
    tried += [([7, 2 ** 32 - 1, 0, 0], 3), ([7, 1, 0, 2 ** 32 - 1], 16)]
    for numbers, number in tried:
        want = (b'', 'drawcard: refused by %d\n' % number) if number else (draw(*numbers), '')
        if run(list(map(str, numbers))) != want:
            sys.exit('compare_written: DIFFERENCE: drawcard %s' % ' '.join(map(str, numbers)))
    wrong = [[], ['7'], ['7', '3', '5'], ['7', '3', '5', '2', '1'], ['', '3', '5', '2'], ['7', '3', '5', ''], ['-7', '3', '5', '2'], ['+7', '3', '5', '2'],
             ['7', 'x', '5', '2'], ['7', '3', '5 ', '2'], ['4294967296', '3', '5', '2'], ['7', '4294967296', '5', '2'], ['7', '3', '5', '18446744073709551618'],
             ['7', '3', '/', '2'], ['7', '3', ':', '2'], ['0' * 21, '3', '5', '2'], ['7', '3', '0x5', '2'], ['7', '3', '5', '2\n']]
    for arguments in wrong:
        if run(arguments) != (b'', USAGE):
            sys.exit('compare_written: DIFFERENCE: drawcard %r' % arguments)
    return len(tried) + len(wrong)


def show(seed, count, bases):
    rng = random.Random(seed)
    sounds = [card for card, *_ in compare_cards.draw(seed, 4160, 0)[0] if card[0] == compare_cards.LINE]
    calls = list(draws(rng, count)) + list(refused_draws(rng)) + [again(card) for card in sounds]
    broken = [call for i in range(bases) for call in damaged(rng, compare_cards.sound(rng, 1 + i % 8, [3, 1, 64, 0, 2, 5, 9, 17][i % 8]))]
    seen = compare(calls + broken)
    missing = {'card', 'R1', 'R3', 'R5', 'R6', 'R15', 'R16', 'R17'} - set(seen)
    if missing or not sounds or not broken:
        sys.exit('compare_written: did not occur: ' + ', '.join(sorted(missing) or ['a card']))
    tried = program(rng)
    found = ', '.join('%s: %d' % (key, seen[key]) for key in sorted(seen, key=lambda key: (len(key), key)))
    print('compare_written: seed %d: %d cards drawn, %d written again, %d damaged, drawcard %d times, no difference (%s)'
          % (seed, count, len(sounds), len(broken), tried, found))


# ---- the committed files


def committed():
    """Draws of the seeds at both ends and of one that has a top coefficient replaced and a point twice, the longest card, document 01's card, every cause at
    every place of it, and pairs of causes."""
    rng = random.Random(20261116)
    example = compare_cards.write([[0, 1], [1, 1], [-2, 1]], [-3, 1, 3])
    longest = compare_cards.write([[LARGEST] * 7] * 8, [FURTHEST] * 64)
    calls = [draw_call(seed, s, n, d, length(s, d, n) + 2) for seed in (0, 1, 2 ** 32 - 1) for s, n, d in ((1, 0, 0), (3, 5, 2), (8, 64, 6))]
    calls += [draw_call(2068, 2, 3, 1, 33), draw_call(7, 8, 64, 6, 318), draw_call(7, 8, 64, 6, 317), draw_call(7, 9, 65, 7, 0), draw_call(7, 8, 65, 7, 0), draw_call(7, 8, 64, 7, 0)]
    calls += [again(example), again(longest), write_call(*taken_apart(longest), 318), write_call(*taken_apart(longest), 317)]
    return calls + list(damaged(rng, example))


def store():
    calls = committed()
    data = b''.join(call for call, _ in calls)
    assert len(data) < ROOM, len(data)
    for folder in (os.path.join(TESTS, 'data'), PROGRAM):
        os.makedirs(folder, exist_ok=True)
    with open(os.path.join(TESTS, 'data', 'calls'), 'wb') as out:
        out.write(data)
    with open(os.path.join(TESTS, 'stdout'), 'w') as out:
        out.write(''.join(line + '\n' for _, line in calls))
    with open(os.path.join(TESTS, 'args'), 'w') as out:
        out.write('calls\n')
    with open(os.path.join(PROGRAM, 'args'), 'w') as out:
        out.write('7\n3\n5\n2\n')
    with open(os.path.join(PROGRAM, 'stdout'), 'wb') as out:
        out.write(draw(7, 3, 5, 2))
    print('compare_written: %d calls, %d bytes written' % (len(calls), len(data)))


def main(arguments):
    if arguments == ['--data']:
        return store()
    numbers = [int(datetime.date.today().strftime('%Y%m%d') if a == 'day' else a) for a in arguments] + [593, 3640, 24][len(arguments):]
    return show(*numbers)


if __name__ == '__main__':
    main(sys.argv[1:])
