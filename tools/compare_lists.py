#!/usr/bin/env python3
"""Compares lists of products asked in one call, by the program tests/lists.c over the library, with a second reader written from documents 01 and 02 alone.

usage: python3 tools/compare_lists.py [SEED|day [CARDS]]    compares; prints one line of counts, exits 1 at a difference

CARDS cards are drawn, of every s and every n in turn, every other one with points in the plane, their points repeated in every way in turn, each third one
with a damage of tools/compare_cards.py; before them come its cards of repeated points. Each is asked some lists: empty, short and long ones, with products
that stand more than once, with a bad product first, in between and last, with two, into slices as long as the list, longer and shorter. Of each call the
refusal, the position and the whole slice are compared. The second reader is that of tools/compare_cards.py: values by powers, at the points as a set, each
once however often it stands on the card, a query by the exact product of the values. It needs the archive that `rt lib` in crates/tarski makes, and cc. It
fails where a case, one of repeated points too, never occurred on either kind of card.
"""

import datetime
import os
import random
import subprocess
import sys
import tempfile

import compare_cards

ROOT = compare_cards.ROOT
ARCHIVE = os.path.join(ROOT, 'crates', 'tarski', 'out', 'libtarski.a')
LONGEST = 593  # products in a list

# ---- the second reader


def answer(card, products, room):
    """Document 02, wish 5: the refusal, the position, the slice as it is left, where number k was 1000 + k; and which case it is."""
    kept = [1000 + k for k in range(room)]
    try:
        polynomials, points = compare_cards.read(card)
    except compare_cards.Refused as refused:
        both = room < len(products) and max(products) >= 3 ** 8
        return refused.args[0], 0, kept, 'card, short and bad' if both else 'card'
    bad = [k for k, a in enumerate(products) if a >= 3 ** len(polynomials)]
    if room < len(products):
        return 15, 0, kept, 'short and bad' if bad else 'short'
    if bad:
        case = 'two bad' if len(bad) > 1 else 'first bad' if bad[0] == 0 else 'last bad' if bad[0] == len(products) - 1 else 'middle bad'
        return 13, bad[0], kept, case
    values = compare_cards.values_at(polynomials, points)
    shown = {a: compare_cards.query(values, a)[3] for a in set(products)}
    case = 'empty' if not products else 'repeated' if len(shown) < len(products) else 'written'
    return 0, 0, [shown[a] for a in products] + kept[len(products):], case if room == len(products) else case + ', kept past it'


CASES = ('card', 'card, short and bad', 'short and bad', 'short', 'two bad', 'first bad', 'middle bad', 'last bad') + tuple(
    case + past for case in ('empty', 'repeated', 'written') for past in ('', ', kept past it'))

# ---- lists


def lists(rng, s):
    """Lists of products of s polynomials, good and bad, each with the room that its slice has."""
    count = 3 ** s

    def some(length):
        return [rng.randrange(count) for _ in range(length)]

    def past():
        return rng.choice([count, count + 1, rng.randint(count, 65535), 65535])

    def spoilt(*places):
        products = some(max(places) + 1)
        for k in places:
            products[k] = past()
        return products

    length = rng.randint(2, 9)
    different = rng.sample(range(count), min(count, length))
    twice = some(length) + [different[0]] * 2
    found = [([], 0), ([], 3), (different, len(different)), (different, len(different) + rng.randint(1, 5)), (twice, len(twice)), (twice, len(twice) + 2)]
    first, middle, last, two = spoilt(0) + some(2), some(1) + spoilt(rng.randint(0, 4)) + some(1), some(1) + spoilt(length), spoilt(1, length)
    found += [(products, len(products) + rng.randint(0, 2)) for products in (first, middle, last, two)]
    found += [(products, rng.randrange(len(products))) for products in (different, first, last, two)]
    if rng.random() < 0.1:
        found.append((some(LONGEST), LONGEST))
    return found


def draw(seed, cards):
    """The cases: a card, a list and the room."""
    rng = random.Random(seed)
    for card in compare_cards.every_repeat():
        for products, room in [(list(range(9)), 9)] + lists(rng, 2):
            yield card, products, room
    for i in range(cards):
        s, n, way = 1 + i // 2 % 8, i // 8 % 65, compare_cards.WAYS[i // 2 % len(compare_cards.WAYS)]
        card = (compare_cards.sound_plane if i % 2 else compare_cards.sound)(rng, s, n, way)
        if i % 3 == 2:
            card = compare_cards.changed(card, rng.choice(compare_cards.causes(card)))
        for products, room in lists(rng, s):
            yield card, products, room


# ---- the comparison


def record(card, products, room):
    return b''.join(k.to_bytes(2, 'big') for k in (len(card), len(products), room)) + card + b''.join(a.to_bytes(2, 'big') for a in products)


def main(arguments):
    numbers = [int(datetime.date.today().strftime('%Y%m%d') if a == 'day' else a) for a in arguments] + [593, 1560][len(arguments):]
    cases = list(draw(*numbers))
    with tempfile.TemporaryDirectory() as folder:
        program, path = os.path.join(folder, 'lists'), os.path.join(folder, 'cases')
        subprocess.run(['cc', '-std=c99', '-Wall', '-Wextra', '-Werror', '-O2', '-I', os.path.join(ROOT, 'include'), '-o', program,
                        os.path.join(ROOT, 'tests', 'lists.c'), ARCHIVE], check=True)
        with open(path, 'wb') as out:
            out.write(b''.join(record(*case) for case in cases))
        ran = subprocess.run([program, path], stdout=subprocess.PIPE, check=False)
    lines = ran.stdout.decode('ascii', 'replace').splitlines()
    seen, asked = {(kind, case): 0 for kind in ('line', 'plane') for case in CASES}, set()
    for k, (card, products, room) in enumerate(cases):
        refusal, position, left, case = answer(card, products, room)
        must, got = ' '.join(map(str, [refusal, position] + left)), lines[k] if k < len(lines) else 'nothing'
        if got != must:
            sys.exit('compare_lists: DIFFERENCE: card %s, products %s, room %d\n  must be: %s\n  is:      %s' % (card.hex(), products, room, must, got))
        kind = compare_cards.kind_of(card)
        seen[kind, case] = seen.get((kind, case), 0) + 1
        asked.update([card] if not refusal and products else [])
    if ran.returncode or len(lines) != len(cases):
        sys.exit('compare_lists: the program failed: %s' % lines[len(cases):])
    twice = compare_cards.count_repeats(asked)
    missing = ['%s: %s' % key for key in seen if not seen[key]] + [case for case in twice if not twice[case]]
    if missing:
        sys.exit('compare_lists: did not occur: ' + '; '.join(missing))
    found = '; '.join('%s: %d' % (case, sum(seen[key] for key in seen if key[1] == case)) for case in CASES)
    print('compare_lists: seed %d: %d lists of products on %d cards, %d cases of repeated points, no difference (%s)'
          % (numbers[0], len(cases), len(compare_cards.every_repeat()) + numbers[1], len(twice), found))


if __name__ == '__main__':
    main(sys.argv[1:])
