"""Makes the reference pages, data/pages.bin in the crate of each program that runs some, and long_pages.bin beside this
file; what the programs must print of them; and what the examples charger.c, branches.c, outer.c, cells.c, files.c and
screen.c must print.

    make_pages.py            write the files
    make_pages.py --check    compare them, byte for byte

Every expected byte comes from reference.py, bits.py, wide.py and files.py, which first try themselves on pages worked out
by hand, those of document 01 among them. README.md beside this file has the format.
"""

import itertools
import sys
from pathlib import Path

import bits
import examples
import file_pages
import reference as ref
import screen
import wide
from codes import LINES, SINGER, WIDEST, Random, greedy, greedy_runs, positions_for, runs_for, singer
from records import (CHECK_TABLE, DECODE, DECODE_COUNTERS, DECODE_OUTER, ENCODE, ENCODE_OUTER, EXPLAIN, OPEN, PASS,
                     SYNDROME, Pages)

ROOT = Path(__file__).resolve().parent.parent.parent

# Alphabet sizes: small, prime, even, and on both sides of where the sum of two symbols leaves a byte.
ALPHABETS = [3, 4, 5, 7, 10, 16, 17, 100, 127, 128, 129, 200, 251, 255, 256]

GROUPS = []


def group(name, c_only=False, long=False):
    """Adds a group: the function below it adds its pages. The random numbers hang on the group's place in the order, so
    a new group comes last. `c_only`: its calls can be made in C alone. `long`: its records are longer than the Rattle
    programs read, and go to a file of their own, which C alone reads."""
    def add(function):
        GROUPS.append((name, c_only, long, function))
        return function
    return add


def damaged(random, q, page, places):
    """The page with the symbols at these places replaced by others."""
    page = list(page)
    for place in places:
        page[place] = (page[place] + 1 + random.below(q - 1)) % q
    return page


def random_places(random, k, count):
    return random.some(range(2 * k), count)


def other_length(k, at, length):
    """The lengths of decode's answers, but for one of them."""
    lengths = list(ref.decode_lengths(k, 1))
    lengths[at] = length
    return tuple(lengths)


# The groups

@group("odd table lengths", c_only=True)
def odd_tables(pages, random):
    odd = ref.CODE_A[:7]
    for table in (b"\0", odd, ref.CODE_A + b"\7", ref.table_of(range(31)) + b"\37", ref.table_of(range(32)) + b"\40"):
        pages.check_table(256, 13, 1, table, expect=3)
    pages.check_table(2, 13, 1, odd, expect=1)
    pages.check_table(256, 0, 1, odd, expect=2)
    pages.check_table(256, 4097, 1, odd, expect=2)
    pages.check_table(256, 13, 1, b"\6\0\4\0\1", expect=3)
    pages.check_table(256, 13, 1, b"\0\0\1\0\2\0\7", expect=3)
    pages.encode(5, 13, 1, odd, [0] * 13, expect=3)
    pages.encode(5, 13, 1, odd, [0] * 12, expect=3)
    pages.syndrome(5, 13, 1, odd, [0] * 26, expect=3)
    pages.syndrome(5, 13, 1, odd, [5] * 26, expect=3)
    pages.decode(5, 13, 1, odd, [0] * 26, [0], expect=3)
    pages.decode(5, 13, 1, odd, [0] * 26, [], expect=3)
    pages.decode(5, 13, 1, odd, [0] * 26, [33], expect=3)


@group("case 11: the limits of q")
def case_11(pages, random):
    for q, number in ((2, 1), (3, 0), (256, 0), (257, 1)):
        pages.every_call(q, 13, 1, ref.CODE_A, expect=number)


@group("case 12: the limits of a symbol")
def case_12(pages, random):
    for place in (0, 12):
        for symbol, number in ((4, 0), (5, 7)):
            pages.encode(5, 13, 1, ref.CODE_A, ref.symbols(13, {place: symbol}), expect=number)
    pages.encode(5, 13, 1, ref.CODE_A, ref.symbols(12, {3: 5}), expect=6)
    for place in (0, 25):
        for symbol, number in ((4, 0), (5, 7)):
            page = ref.symbols(26, {place: symbol})
            pages.syndrome(5, 13, 1, ref.CODE_A, page, expect=number)
            pages.decode(5, 13, 1, ref.CODE_A, page, [0, 0], expect=number)
    pages.syndrome(5, 13, 1, ref.CODE_A, ref.symbols(25, {3: 5}), expect=6)
    pages.decode(5, 13, 1, ref.CODE_A, ref.symbols(25, {3: 5}), [0, 0], expect=6)


@group("case 13: the limits of thresholds")
def case_13(pages, random):
    page = ref.page_a({3: 2})
    for count, number in ((64, 0), (65, 8)):
        pages.decode(5, 13, 1, ref.CODE_A, page, [0] * count, expect=number)
        pages.decode(5, 13, 1, ref.CODE_A, page, [32] * count, expect=number)
    for threshold, number in ((32, 0), (33, 9)):
        pages.decode(5, 13, 1, ref.CODE_A, page, [threshold], expect=number)
        pages.decode(5, 13, 1, ref.CODE_A, page, [0, threshold, 0], expect=number)
    pages.decode(5, 13, 1, ref.CODE_A, ref.page_a({3: 5}), [], expect=7)


@group("case 14: votes")
def case_14(pages, random):
    """Symbol 0 of code A has the checks 0, 1, 4, 6, and its d is 0 at first. Received data 0 and checks -s give S = s."""
    def vote(q, s, threshold, changes):
        checks = {i: -value % q for i, value in zip((0, 1, 4, 6), s)}
        got = pages.decode(q, 13, 1, ref.CODE_A, ref.page_a({}, checks), [threshold], expect=0)
        assert got.counts.changes == changes

    for threshold in range(33):
        vote(256, (2, 2, 1, 1), threshold, changes=0)
    for s in ((2, 1, 2, 1), (1, 2, 2, 1), (1, 1, 2, 2)):
        vote(10, s, 0, changes=0)
    for q, s in ((256, (7, 7, 9, 1)), (10, (9, 7, 1, 7)), (10, (1, 9, 7, 7))):
        vote(q, s, 0, changes=1)
        vote(q, s, 1, changes=0)


@group("tables accepted")
def tables_accepted(pages, random):
    for j in range(1, 33):
        tight = min(k for k, p in SINGER.items() if p + 1 >= j)
        for k in (tight, random.pick((4096, 4095, 3783, 2500)))[:1 + (j % 12 == 8)]:
            pages.check_table(random.pick(ALPHABETS), k, 1, ref.table_of(positions_for(random, k, j)), expect=0)
    for k, positions in ((1, [0]), (2, [0]), (2, [1]), (3, [0, 1]), (3, [1, 2]), (4096, [0]), (4096, [4095]),
                         (4096, [0, 4095]), (4096, [0, 2047]), (4096, [1, 2050]), (7, [0, 1, 3]), (7, [3, 5, 6])):
        pages.check_table(256, k, 1, ref.table_of(positions), expect=0)


@group("tables refused")
def tables_refused(pages, random):
    def refused(k, positions, number):
        pages.check_table(256, k, 1, ref.table_of(positions), expect=number)

    # J, then positions
    refused(13, [], 3)
    refused(4096, range(33), 3)
    refused(1407, singer(37)[:33], 3)
    refused(4096, range(40), 3)
    for positions in ([0, 0], [1, 0], [0, 1, 4, 4], [0, 4, 1, 6], [0, 1, 6, 4], [13], [65535],
                      [0, 1, 4, 13], [0, 1, 4, 65535], [0, 1, 4, 4102], [0, 1, 4, 32774], [256], [0, 257, 4, 6],
                      [65535, 0, 1]):
        refused(13, positions, 4)
    refused(1, [1], 4)
    refused(1, [0, 0], 4)
    refused(4096, [4096], 4)
    refused(4096, [0, 1, 4, 4096], 4)
    refused(4096, [0, 512, 511], 4)

    # Two data symbols with two checks in common: also where the differences agree only modulo k, or only when each pair
    # is taken both ways.
    for k, positions in ((12, [0, 1, 4, 6]), (6, [0, 1, 3]), (2, [0, 1]), (4, [0, 2]), (4096, [0, 2048]),
                         (4096, [2047, 4095]), (13, [0, 1, 2]), (13, [0, 1, 12]), (12, [0, 1, 4, 5]), (8, [0, 1, 3, 7]),
                         (11, [0, 1, 4, 6]), (4096, [0, 1, 3000, 3001]), (4096, [0, 1, 4095])):
        refused(k, positions, 5)
    for k in (21, 993):
        refused(k, [1, 8, 9, 10], 5)
    # A perfect table of p + 1 positions takes no further one.
    for p in (3, 5, 11, 17, 29):
        k = p * p + p + 1
        full = positions_for(random, k, p + 1)
        extra = random.pick([x for x in range(k) if x not in full])
        refused(k, sorted(full + [extra]), 5)
    # 32 positions that are accepted with 4,096, with a smaller k.
    wide = greedy(4096)[:32]
    for k in (max(wide) + 1, 2048):
        refused(k, wide, 5)


@group("encode")
def encode(pages, random):
    for q, k, j in ((3, 1, 1), (256, 1, 1), (5, 2, 1), (10, 3, 2), (129, 3, 2), (3, 7, 3), (251, 7, 3), (256, 13, 4),
                    (16, 31, 6), (255, 57, 8), (17, 100, 5), (128, 133, 12), (251, 256, 8),
                    (7, 257, 6), (256, 307, 18), (127, 512, 9), (100, 993, 32), (251, 1021, 12), (256, 2000, 20),
                    (3, 4095, 10), (256, 4096, 10), (251, 4096, 32)):
        pages.encode(q, k, 1, ref.table_of(positions_for(random, k, j)), random.symbols(q, k), expect=0)
    # The largest sums, and none.
    for q, k, j in ((3, 993, 32), (129, 993, 32), (255, 993, 32), (256, 993, 32)):
        pages.encode(q, k, 1, ref.table_of(positions_for(random, k, j)), [q - 1] * k, expect=0)
    pages.encode(256, 13, 1, ref.CODE_A, [0] * 13, expect=0)


@group("syndrome")
def syndrome(pages, random):
    for q, k, j in ((3, 1, 1), (256, 1, 1), (10, 2, 1), (5, 3, 2), (255, 7, 3), (256, 13, 4), (4, 31, 6), (129, 57, 8),
                    (128, 100, 5), (17, 133, 12), (251, 256, 8), (7, 381, 20), (200, 993, 32), (100, 1021, 12),
                    (5, 4095, 9), (256, 4096, 32)):
        pages.syndrome(q, k, 1, ref.table_of(positions_for(random, k, j)), random.symbols(q, 2 * k), expect=0)
    # A code word, one with a replaced symbol, and the largest and smallest values of a sum less a check.
    for q, k, j in ((10, 57, 8), (251, 133, 12)):
        positions = positions_for(random, k, j)
        page = ref.code_word(q, k, [positions], random.symbols(q, k))
        pages.syndrome(q, k, 1, ref.table_of(positions), page, expect=0)
        pages.syndrome(q, k, 1, ref.table_of(positions), damaged(random, q, page, random_places(random, k, 1)), expect=0)
    for q in (129, 256):
        table = ref.table_of(positions_for(random, 307, 18))
        pages.syndrome(q, 307, 1, table, [q - 1] * 307 + [0] * 307, expect=0)
        pages.syndrome(q, 307, 1, table, [0] * 307 + [q - 1] * 307, expect=0)


@group("decode, clean pages")
def clean(pages, random):
    for q, k, j, thresholds in ((3, 1, 1, [0]), (256, 1, 1, [32]), (5, 2, 1, [0, 0]), (10, 3, 2, [0]), (251, 7, 3, [1]),
                                (256, 13, 4, [0, 0, 0]), (129, 31, 6, [3, 2, 1]), (4, 57, 8, [0]), (128, 100, 5, [5, 0]),
                                (255, 133, 12, [0]), (16, 256, 8, [2]), (17, 307, 18, [9, 0]), (200, 512, 3, [0]),
                                (256, 993, 32, [32, 0]), (251, 1021, 12, [0]), (7, 2500, 16, [4, 4]),
                                (256, 4096, 10, [0]), (100, 4096, 32, [0, 1, 2])):
        positions = positions_for(random, k, j)
        data = random.symbols(q, k)
        got = pages.decode(q, k, 1, ref.table_of(positions), ref.code_word(q, k, [positions], data), thresholds, expect=0)
        assert got.result == data and got.counts == (len(ref.strict_minima(thresholds)), 0, 0, 0)


@group("decode, damage inside the bound")
def inside(pages, random):
    """As many symbols replaced as the first threshold alone allows; the others are free. The groups of schedules have as
    many as the smallest allows."""
    def inside(q, k, positions, thresholds, places):
        assert 2 * len(places) + min(thresholds) <= len(positions)
        data = random.symbols(q, k)
        page = damaged(random, q, ref.code_word(q, k, [positions], data), places)
        got = pages.decode(q, k, 1, ref.table_of(positions), page, thresholds, expect=0)
        assert got.result == data

    for q, k, j, first in ((3, 3, 2, 0), (256, 3, 2, 0), (5, 7, 3, 0), (251, 7, 3, 1), (10, 13, 4, 0), (256, 13, 4, 0),
                           (129, 13, 4, 1), (3, 13, 4, 2), (251, 21, 4, 0), (4, 31, 6, 0), (255, 31, 6, 2), (256, 31, 5, 1),
                           (7, 57, 8, 0), (128, 57, 8, 3), (251, 57, 7, 0), (16, 100, 5, 0), (256, 133, 12, 0),
                           (10, 133, 12, 4), (3, 133, 11, 1), (17, 183, 14, 0), (251, 255, 6, 0), (5, 256, 7, 0),
                           (127, 307, 18, 0), (256, 307, 18, 8), (100, 381, 20, 2), (200, 553, 24, 0), (251, 871, 30, 0),
                           (3, 993, 32, 0), (256, 993, 32, 0), (10, 993, 31, 15), (255, 993, 32, 30), (251, 1021, 12, 0),
                           (5, 2500, 16, 1), (256, 4095, 10, 0), (251, 4096, 32, 0), (3, 4096, 10, 2)):
        t = (j - first) // 2
        thresholds = [first] + random.symbols(5, random.below(4))
        inside(q, k, positions_for(random, k, j), thresholds, random_places(random, k, t))
    # All damage on one data symbol and its own checks.
    for q, k, j in ((3, 13, 4), (256, 57, 8), (251, 307, 18), (5, 993, 32)):
        positions = positions_for(random, k, j)
        at = random.below(k)
        checks = [k + i for i in ref.checks_of(k, [positions], at)]
        inside(q, k, positions, [0, 0], [at] + checks[:j // 2 - 1])
        inside(q, k, positions, [0, 0], checks[:j // 2])
    # Damage in data symbols next to each other.
    for q, k, j in ((10, 57, 8), (256, 133, 12), (3, 307, 18)):
        inside(q, k, positions_for(random, k, j), [0, 1, 0], range(k - j // 2, k))


@group("decode, damage outside the bound")
def outside(pages, random):
    """More symbols replaced than the bound allows: from one more to a quarter of the page."""
    for q, k, j, share in itertools.chain(
            ((q, k, j, 0) for q, k, j in ((3, 3, 2), (256, 7, 3), (251, 13, 4), (256, 13, 4), (3, 31, 6), (129, 57, 8),
                                          (10, 133, 12), (256, 307, 18), (5, 993, 32), (251, 4096, 10))),
            ((q, k, j, 16) for q, k, j in ((5, 13, 4), (255, 31, 6), (3, 57, 8), (251, 100, 5), (256, 133, 12),
                                           (7, 256, 8), (128, 307, 18), (251, 993, 32), (3, 1021, 12), (256, 4096, 32))),
            ((q, k, j, 4) for q, k, j in ((4, 3, 2), (3, 7, 3), (256, 7, 3), (10, 13, 4), (16, 31, 6), (251, 31, 6),
                                          (3, 57, 8), (256, 57, 8), (5, 133, 12), (200, 256, 8), (17, 381, 20),
                                          (100, 993, 32), (256, 1021, 12), (251, 4096, 10)))):
        positions = positions_for(random, k, j)
        count = 2 * k // share if share else j // 2 + 1
        thresholds = random.pick(([0] * 4, [2, 1, 0, 0, 0], [j // 2, 0, 0], [1] * 3, [0] * 12))
        page = ref.code_word(q, k, [positions], random.symbols(q, k))
        page = damaged(random, q, page, random_places(random, k, max(count, j // 2 + 1)))
        pages.decode(q, k, 1, ref.table_of(positions), page, thresholds, expect=0)
    # Like case 10: the checks of one data symbol moved together, so that it is changed though it was right.
    for q, k, j in ((5, 13, 4), (256, 57, 8), (251, 307, 18)):
        positions = positions_for(random, k, j)
        data = random.symbols(q, k)
        page = ref.code_word(q, k, [positions], data)
        at = random.below(k)
        for i in ref.checks_of(k, [positions], at)[:j // 2 + 1]:
            page[k + i] = (page[k + i] + 3) % q
        got = pages.decode(q, k, 1, ref.table_of(positions), page, [0], expect=0)
        assert got.result != data and got.counts.end < got.counts.start


@group("decode, heavy damage")
def heavy(pages, random):
    """Every symbol random."""
    for q, k, j, thresholds in ((3, 1, 1, [0, 0]), (3, 2, 1, [0]), (5, 3, 2, [0] * 3), (3, 7, 3, [0] * 8),
                                (256, 7, 3, [0] * 8), (3, 13, 4, [0] * 16), (4, 13, 4, [1, 0, 0]), (251, 13, 4, [0] * 16),
                                (256, 13, 4, [0] * 16), (5, 31, 6, [0] * 16), (10, 57, 8, [0] * 16),
                                (129, 57, 8, [0] * 16), (251, 100, 5, [0] * 16), (3, 133, 12, [0] * 32),
                                (256, 133, 12, [0] * 32), (7, 256, 8, [2, 1, 0, 0, 0]), (16, 307, 18, [0] * 32),
                                (3, 512, 2, [0] * 32), (127, 512, 9, [0] * 32), (3, 993, 32, [0] * 64),
                                (4, 993, 31, [4, 3, 2, 1, 0]), (255, 993, 32, [0] * 32), (5, 1021, 12, [0] * 64),
                                (3, 4096, 32, [0] * 64), (256, 4096, 10, [0] * 16), (128, 4095, 1, [0])):
        table = ref.table_of(positions_for(random, k, j))
        pages.decode(q, k, 1, table, random.symbols(q, 2 * k), thresholds, expect=0)


@group("refusals one by one")
def one_by_one(pages, random):
    """Each refusal of each call, at the edges of what it tests. Tables alone have groups of their own."""
    a, k = ref.CODE_A, 13

    # Numbers that would pass if only their low bits were looked at are among them.
    for q in (0, 1, 261, 65541, 4294967295):
        pages.check_table(q, k, 1, a, expect=1)
    for bad_k in (0, 4097, 4109, 65549, 4294967295):
        pages.check_table(5, bad_k, 1, a, expect=2)
    for q, k_, table, number in ((0, k, a, 1), (4294967295, k, a, 1), (5, k, b"", 3), (5, k, ref.table_of(range(33)), 3),
                                 (5, k, ref.table_of([0, 1, 4, 13]), 4), (5, 12, a, 5)):
        pages.encode(q, k_, 1, table, [0] * k_, expect=number)
        pages.syndrome(q, k_, 1, table, [0] * (2 * k_), expect=number)
        pages.decode(q, k_, 1, table, [0] * (2 * k_), [0], expect=number)
    pages.encode(5, 0, 1, a, [], expect=2)
    pages.encode(5, 4097, 1, a, [0] * 4097, expect=2)
    pages.encode(5, 65549, 1, a, [0] * 13, page_len=26, expect=2)
    pages.syndrome(5, 0, 1, a, [], expect=2)
    pages.syndrome(5, 65549, 1, a, [0] * 26, syndrome_len=13, expect=2)
    pages.decode(5, 0, 1, a, [], [0], expect=2)
    pages.decode(5, 4097, 1, a, [0] * 8194, [0], expect=2)
    pages.decode(5, 65549, 1, a, [0] * 26, [0], lengths=ref.decode_lengths(13, 1), expect=2)

    for length in (12, 14, 0):
        pages.encode(5, k, 1, a, [0] * length, expect=6)
    for length in (25, 27, 0):
        pages.encode(5, k, 1, a, [0] * k, page_len=length, expect=6)
        pages.syndrome(5, k, 1, a, [0] * length, expect=6)
        pages.decode(5, k, 1, a, [0] * length, [0], expect=6)
    for length in (12, 14, 0):
        pages.syndrome(5, k, 1, a, [0] * 26, syndrome_len=length, expect=6)
    for at, length in itertools.product(range(3), (12, 14, 0)):
        pages.decode(5, k, 1, a, [0] * 26, [0], lengths=other_length(k, at, length), expect=6)
    pages.decode(5, k, 1, a, [0] * 26, [0], lengths=(12, 13, 14, 52), expect=6)
    pages.decode(256, 4096, 1, a, [0] * 8193, [0], expect=6)
    pages.decode(256, 4096, 1, a, [0] * 8191, [0], expect=6)

    for q, symbol, place in ((3, 3, 0), (251, 251, 12), (255, 255, 5)):
        pages.encode(q, k, 1, a, ref.symbols(13, {place: symbol}), expect=7)
        for received in (place, place + 13):
            pages.syndrome(q, k, 1, a, ref.symbols(26, {received: symbol}), expect=7)
            pages.decode(q, k, 1, a, ref.symbols(26, {received: symbol}), [0], expect=7)

    for count in (0, 65):
        pages.decode(5, k, 1, a, [0] * 26, [0] * count, expect=8)
    # Also where decoding would stop before it comes to the threshold.
    for thresholds in ([33], [255], [0, 33], [0] * 63 + [33]):
        pages.decode(5, k, 1, a, [0] * 26, thresholds, expect=9)


def spoiled(call, numbers):
    """The tests and the arguments of a call that meets the refusals in `numbers`, 1 to 9; right in everything else."""
    q = 2 if 1 in numbers else 5
    k = 4097 if 2 in numbers else 13
    positions = {
        (): [0, 1, 4, 6], (3,): [], (4,): [0, 1, 6, 4], (5,): [0, 1, 2], (4, 5): [0, 1, 2, 5, 4],
        (3, 4): list(range(31)) + [32, 31], (3, 5): list(range(33)), (3, 4, 5): list(range(31)) + [32, 31],
    }[tuple(n for n in numbers if n in (3, 4, 5))]
    if 3 in numbers and positions and k == 13:
        k = 40
    length = k if call == ENCODE else 2 * k
    short = 1 if 6 in numbers else 0
    symbols = [0] * (length - short)
    if 7 in numbers:
        symbols[7] = 5
    thresholds = [0] * (65 if 8 in numbers else 2)
    if 9 in numbers:
        thresholds[1] = 33
    table = ref.table_of(positions)
    if call == CHECK_TABLE:
        return ref.table_tests(q, k, 1, table), (q, k, 1, table)
    if call == ENCODE:
        return ref.encode_tests(q, k, 1, table, symbols, 2 * k), (q, k, 1, table, symbols)
    if call == SYNDROME:
        return ref.syndrome_tests(q, k, 1, table, symbols, k), (q, k, 1, table, symbols)
    return (ref.decode_tests(q, k, 1, table, symbols, thresholds, *ref.decode_lengths(k, 1)),
            (q, k, 1, table, symbols, thresholds))


@group("refusals in pairs and all together")
def pairs(pages, random):
    """For each call every pair a < b of its refusals: both are met, a is returned. Then a with all that come after it."""
    adders = {CHECK_TABLE: (5, pages.check_table), ENCODE: (7, pages.encode),
              SYNDROME: (7, pages.syndrome), DECODE: (9, pages.decode)}
    for call, (most, add) in adders.items():
        numbers = range(1, most + 1)
        sets = list(itertools.combinations(numbers, 2)) + [tuple(range(a, most + 1)) for a in range(1, most - 1)]
        for met in sets:
            tests, arguments = spoiled(call, met)
            applies = [number for number, test in tests if test()]
            assert set(met) <= set(applies) and min(applies) == met[0]
            add(*arguments, expect=met[0])


def chain(random, length):
    """A page, data all 0, on which pass n makes the one change that the change of pass n - 1 calls for.

    k = 512 and positions 0, 1, 100, 300. The symbols of the chain run down from 400: a pass has gone by the next one when
    it makes a change. Neighbours j and j - 1 share check j; no other two share any. Symbol n of the chain has
    estimates 0, h(n) + h(n - 1), h(n) + h(n + 1), h(n) and one more, all different: no change. Once h(n - 1) is
    subtracted in the check before it, two of them are h(n)."""
    s = [0] * 512
    h = [1 + random.below(255) for _ in range(length + 1)]
    for n in range(length):
        j = 400 - n
        s[j + 1] = (h[n] + h[n - 1]) % 256 if n else h[0]
        s[j] = (h[n] + h[n + 1]) % 256
        s[j + 100] = h[n]
        s[(j + 300) % 512] = 1 + random.below(255)
    return [0] * 512 + [-x % 256 for x in s]


def turned_back(q, k, positions):
    """A page, data all 0, on which symbol 0 is changed and later changed back by all J + 1 estimates.

    More than half of its checks say 1 because of as many other data symbols, each wrong by 1 and in one of them; they are
    chosen to share few checks. Symbol 0 is visited first and takes the blame; when the others are put right its checks
    and its d all say -1."""
    wrong = []
    for check in positions[:len(positions) // 2 + 1]:
        others = [(check - p) % k for p in positions if p != check]
        wrong.append(min(others, key=lambda l: sum(ref.shared(k, [positions], l, m) for m in wrong)))
    return [1 if i in wrong else 0 for i in range(2 * k)]


@group("decode, threshold lists of 1 to 64")
def threshold_lists(pages, random):
    for count in (1, 2, 3, 5, 8, 13, 21, 31, 32, 33, 48, 63, 64):
        q, k, j = random.pick(((3, 133, 12), (10, 57, 8), (251, 31, 6)))
        positions = positions_for(random, k, j)
        page = ref.code_word(q, k, [positions], random.symbols(q, k))
        page = damaged(random, q, page, random_places(random, k, k // 4))
        thresholds = [random.below(3) for _ in range(count)]
        pages.decode(q, k, 1, ref.table_of(positions), page, thresholds, expect=0)
    # Falling, rising, and large ones, with data symbols replaced.
    for q, k, j, thresholds in ((10, 57, 8, list(range(8, -1, -1))), (256, 993, 32, list(range(33))),
                                (256, 993, 32, [32] * 64), (256, 993, 32, [31, 32, 0, 32] * 16), (10, 57, 8, [0] * 64)):
        positions = positions_for(random, k, j)
        page = ref.code_word(q, k, [positions], random.symbols(q, k))
        page = damaged(random, q, page, random.some(range(k), 4))
        pages.decode(q, k, 1, ref.table_of(positions), page, thresholds, expect=0)
    # Many passes: the thresholds used up, and an idle pass, with no smaller one after it, that is the last of the list or
    # the one before it.
    table = ref.table_of([0, 1, 100, 300])
    for length, count, passes, changes in ((70, 64, 64, 64), (63, 64, 64, 63), (62, 64, 63, 62), (30, 20, 20, 20)):
        page = chain(random, length)
        while ref.decode(256, 512, 1, table, page, [0] * count, *ref.decode_lengths(512, 1))[1].changes_of_pass != \
                ([1] * length + [0])[:count]:
            page = chain(random, length)
        got = pages.decode(256, 512, 1, table, page, [0] * count, expect=0)
        assert (got.counts.passes, got.counts.changes) == (passes, changes)
    # The largest lead, J + 1, against a threshold of J and of J + 1.
    for q, k, positions, second, changes_of_pass in ((256, 512, [0, 1, 100, 300], 4, [4, 1]),
                                                     (256, 512, [0, 1, 100, 300], 5, [4, 0]),
                                                     (251, 4096, greedy(4096)[:32], 32, [18, 1])):
        page = turned_back(q, k, positions)
        got = pages.decode(q, k, 1, ref.table_of(positions), page, [0, second], expect=0)
        assert got.changes_of_pass == changes_of_pass


@group("cases 1 to 10")
def cases_1_to_10(pages, random):
    a, b = ref.CODE_A, ref.table_of([0, 1, 3])
    for k, table, number in ((13, a, 0), (12, a, 5), (7, b, 0), (6, b, 5), (1, ref.table_of([0]), 0)):
        pages.check_table(256, k, 1, table, expect=number)
    pages.encode(256, 1, 1, ref.table_of([0]), [77], expect=0)
    pages.encode(256, 13, 1, a, ref.symbols(13, {0: 7}), expect=0)
    pages.encode(256, 13, 1, a, ref.symbols(13, {0: 10, 12: 250}), expect=0)
    for page, thresholds in ((ref.page_a({0: 7}), [2, 2]), (ref.page_a({0: 7}), [3, 2]), (ref.page_a({}, {2: 9}), [0]),
                             (ref.page_a({0: 7, 1: 3}), [0, 0]),
                             (ref.page_a({}, {0: 251, 1: 251, 4: 251}), [0])):
        pages.decode(256, 13, 1, a, page, thresholds, expect=0)


@group("margins, heavy damage")
def margins_heavy(pages, random):
    """Every symbol random, every J; few passes or strict ones, so that much is left undone."""
    seen = set()
    for j in range(1, 33):
        k = min(k for k, p in SINGER.items() if p + 1 >= j)
        q = random.pick((3, 4, 5, 10, 251, 256))
        thresholds = random.pick(([0], [j // 4], [j // 2], [1, 0, 0, 0]))
        table = ref.table_of(positions_for(random, k, j))
        seen |= set(pages.decode(q, k, 1, table, random.symbols(q, 2 * k), thresholds, expect=0).margins)
    assert min(seen) < -5 and max(seen) > 20 and len(seen) > 30


def stepped(random, q, k):
    """A page, data all 0, whose S is 0 in the first half and mostly 1 in the second: from symbol to symbol the zeros
    among the estimates give way to ones."""
    s = [0 if i < k // 2 else 1 if random.below(6) else random.below(q) for i in range(k)]
    return [0] * k + [-x % q for x in s]


@group("margins from -(J + 1) to J + 1")
def margins_all(pages, random):
    """Each value that the margins of a code can have: all but J, since J zeros leave one other value. The lowest two are
    those of a symbol that was changed and is to be changed back; a check replaced makes its estimates all but one."""
    for q, k, positions in ((256, 512, [0, 1, 20, 60]), (5, 512, greedy(512)[:8]), (7, 1021, greedy(1021)[:12]),
                            (10, 2048, greedy(2048)[:18]), (251, 4096, greedy(4096)[:32])):
        back = turned_back(q, k, positions)
        all_but_one = list(back)
        all_but_one[k + positions[-1]] = 1
        seen = set()
        # A threshold of 32 leaves every received page as it is.
        for page, thresholds in ((stepped(random, q, k), [32]), (back, [0]), (all_but_one, [0])):
            seen |= set(pages.decode(q, k, 1, ref.table_of(positions), page, thresholds, expect=0).margins)
        j = len(positions)
        assert seen == set(range(-j - 1, j + 2)) - {j}


def margin_lengths(pages, cases, less):
    """Lengths of the margins that are refused: those of the cases, a k each, then a length with something else amiss."""
    margins = 3
    for k, length in cases:
        pages.decode(5, k, 1, ref.CODE_A, [0] * (2 * k), [0], lengths=other_length(k, margins, length), expect=6)
    for met in [(number,) for number in range(1, 10)] + [(7, 8, 9)]:
        _, arguments = spoiled(DECODE, met)
        k = arguments[1]
        pages.decode(*arguments, lengths=other_length(k, margins, 4 * k - less), expect=min(6, *met))


@group("margins, lengths of whole numbers")
def margin_lengths_whole(pages, random):
    margin_lengths(pages, ((13, 0), (13, 4), (13, 48), (13, 56), (13, 104), (256, 256), (256, 512), (256, 1020),
                           (4096, 4096), (4096, 16380), (4096, 16388)), less=4)


@group("margins, other lengths", c_only=True)
def margin_lengths_other(pages, random):
    margin_lengths(pages, ((13, 1), (13, 3), (13, 13), (13, 26), (13, 49), (13, 50), (13, 51), (13, 53), (13, 54),
                           (13, 55), (4096, 16383), (4096, 16385)), less=1)


# Branches

@group("branches, the codes of request N2")
def branches_named(pages, random):
    for runs, number in (([[0, 1], [0, 2]], 0), ([[0, 1], [0, 1]], 5)):
        pages.every_call(256, 13, 2, ref.table_of(*runs), expect=number)
    table = ref.table_of([0, 1], [0, 2])
    data = ref.symbols(26, {0: 7, 25: 250})
    pages.encode(256, 13, 2, table, data, expect=0)
    pages.syndrome(256, 13, 2, table, data + ref.symbols(13, {0: 7, 1: 1}), expect=0)
    for threshold in (0, 1, 2):
        pages.decode(256, 13, 2, table, ref.symbols(39, {25: 250}), [threshold, 0], expect=0)
    # The largest table of two branches for k = 13: every difference once. One symbol of each branch replaced in turn.
    table = ref.table_of([0, 1, 4], [0, 2, 7])
    for place in range(39):
        got = pages.decode(10, 13, 2, table, ref.symbols(39, {place: 3}), [1, 0], expect=0)
        assert got.result == [0] * 26


@group("branches, the limits of b")
def branches_limits(pages, random):
    """b from 0 to 9 and far above, also where its low bits, b times k or b + 1 in 32 bits would pass."""
    for b in range(1, 9):
        pages.every_call(5, 13, b, ref.table_of(*[[r] for r in range(b)]), expect=0)
        pages.every_call(256, 1, b, ref.table_of(*[[0]] * b), expect=0)

    def refused(k, b, table, symbols):
        """Every call, with the lengths of `symbols` data symbols."""
        pages.check_table(5, k, b, table, expect=10)
        pages.encode(5, k, b, table, [0] * symbols, page_len=symbols + 13, expect=10)
        pages.syndrome(5, k, b, table, [0] * (symbols + 13), syndrome_len=13, expect=10)
        pages.decode(5, k, b, table, [0] * (symbols + 13), [0], lengths=(symbols, 13, symbols, 4 * symbols), expect=10)

    for b in (0, 9, 256, 2 ** 32 - 1):
        refused(13, b, ref.CODE_A, 13)
    refused(13, 0, b"", 0)
    refused(13, 9, ref.table_of(*[[0]] * 9), 9 * 13)
    for b in (10, 16, 17, 255, 257, 258, 65536, 65537, 2 ** 31, 2 ** 31 + 1, 2 ** 32 - 8, 2 ** 32 - 2):
        pages.check_table(5, 13, b, ref.CODE_A, expect=10)
    # b times k is 2^32 or little more.
    for k, b in ((4096, 2 ** 20), (4096, 2 ** 20 + 1), (16, 2 ** 28 + 1), (13, 330382100), (3, 1431655766),
                 (4095, 1048833)):
        assert b * k % 2 ** 32 <= 4096
        pages.check_table(256, k, b, ref.table_of([0]), expect=10)
    pages.encode(256, 16, 2 ** 28 + 1, ref.table_of([0]), [0] * 16, page_len=32, expect=10)
    pages.decode(256, 16, 2 ** 28 + 1, ref.table_of([0]), [0] * 32, [0], lengths=(16, 16, 16, 64), expect=10)

    # b times k at 4,096, at the last that fits below it, and above.
    for b in range(1, 9):
        most = 4096 // b
        table = ref.table_of(*[[r, 3 + 2 * r] for r in range(b)])
        for k in (most, most + 1):
            number = 0 if k == most else 2 if b == 1 else 10
            pages.check_table(3, k, b, table, expect=number)
    for b, k in ((2, 4096), (2, 2050), (3, 1400), (4, 4096), (8, 4096), (8, 520), (5, 1000), (7, 600)):
        pages.check_table(3, k, b, ref.table_of(*[[0]] * b), expect=10)
    # After 1 and 2 and before all else, whether b or b times k is at fault.
    for b, k in ((0, 13), (9, 13), (2, 2049), (8, 513), (2 ** 32 - 1, 4096)):
        for table in (b"", ref.table_of([0, 1, 4]), ref.table_of([1, 0], [0, 1]), ref.table_of([0, 1], [0, 1])):
            pages.check_table(5, k, b, table, expect=10)
            pages.check_table(5, 4097, b, table, expect=2)
        pages.check_table(2, 0, b, b"", expect=1)
        pages.check_table(5, 0, b, b"", expect=2)
        pages.encode(5, k, b, b"", [5] * 3, page_len=4, expect=10)
        pages.syndrome(5, k, b, b"", [5] * 3, syndrome_len=4, expect=10)
        pages.decode(5, k, b, b"", [5] * 3, [33] * 65, lengths=(1, 2, 3, 4), expect=10)


@group("branches, runs that are not of equal length")
def branches_run_lengths(pages, random):
    """3: positions that b does not divide, runs of none and of more than 32; whatever else is amiss with them."""
    for b, count in ((2, 1), (2, 3), (2, 5), (2, 63), (2, 65), (2, 66), (2, 67), (3, 1), (3, 2), (3, 4), (3, 5), (3, 97),
                     (3, 98), (3, 99), (4, 2), (4, 6), (4, 132), (5, 4), (5, 7), (6, 9), (6, 64), (7, 8), (7, 32),
                     (8, 4), (8, 7), (8, 9), (8, 12), (8, 255), (8, 257), (8, 264), (8, 272), (8, 300)):
        pages.check_table(256, 400, b, ref.table_of(range(count)), expect=3)
    for b in range(2, 9):
        pages.check_table(256, 13, b, b"", expect=3)
        # One position of the last run missing, and one too many.
        runs = runs_for(random, 512, b, 4)
        table = ref.table_of(*runs)
        pages.check_table(5, 512, b, table, expect=0)
        pages.check_table(5, 512, b, table[:-2], expect=3)
        pages.check_table(5, 512, b, table + b"\0\0", expect=3)
    for table in (b"", ref.table_of([0, 1, 4]), ref.table_of([0, 1, 4, 0, 2]), ref.table_of([0] * 5),
                  ref.table_of([0, 0, 13]), ref.table_of([0] * 66)):
        pages.encode(5, 13, 2, table, [0] * 26, expect=3)
        pages.syndrome(5, 13, 2, table, [0] * 39, expect=3)
        pages.decode(5, 13, 2, table, [0] * 39, [0], expect=3)
    # 32 positions in each run are not refused by 3.
    for b in range(2, 9):
        pages.check_table(5, 13, b, ref.table_of(*[range(32)] * b), expect=4)
        pages.check_table(5, 512, b, ref.table_of(*[range(32)] * b), expect=5)


@group("branches, lengths that C alone can have", c_only=True)
def branches_odd_lengths(pages, random):
    table = ref.table_of([0, 1, 4], [0, 2, 7])
    for b, k, number in ((2, 13, 3), (0, 13, 10), (9, 13, 10), (2, 2049, 10), (2 ** 32 - 1, 13, 10), (2, 0, 2)):
        for length in (1, 3, 5, 11, 13):
            pages.check_table(5, k, b, (table + b"\0")[:length], expect=number)
    for length in (1, 3, 5, 7, 9, 11):
        pages.encode(5, 13, 2, table[:length], [0] * 26, expect=3)
        pages.decode(5, 13, 2, table[:length], [5] * 39, [], expect=3)
    for length in (26, 52, 101, 102, 103, 105, 106, 107):
        pages.decode(5, 13, 2, table, [0] * 39, [0], lengths=(26, 13, 26, length), expect=6)


@group("branches, tables")
def branches_tables(pages, random):
    def table(k, runs, number):
        pages.check_table(random.pick(ALPHABETS), k, len(runs), ref.table_of(*runs), expect=number)

    # Accepted. A run need not start above the one before it, and runs may have positions in common.
    for k, runs in ((13, [[0, 5], [1, 3]]), (13, [[11, 12], [0, 2]]), (13, [[0, 1], [1, 3]]),
                    (13, [[3, 4], [3, 5], [3, 6]]), (13, [[0, 1, 4], [0, 2, 7]]), (13, [[0, 2, 7], [0, 1, 4]]),
                    (1, [[0]] * 8), (2, [[0], [1]]), (2, [[1]] * 8), (5, [[0, 1], [0, 2]]),
                    (17, [[0, d] for d in range(1, 9)]), (512, [[511]] * 8), (2048, [[0, 2047], [5, 2046]]),
                    (512, [[0, d] for d in (255, 254, 1, 100, 101, 50, 200, 3)])):
        table(k, runs, 0)
    for k, p in LINES.items():
        for b in range(2, min(p, 8, 4096 // k) + 1):
            table(k, runs_for(random, k, b, p + 1), 0)
    for k, b, j in ((2048, 2, 21), (1365, 3, 16), (1024, 4, 12), (819, 5, 10), (682, 6, 8), (585, 7, 8), (512, 8, 7)):
        table(k, runs_for(random, k, b, j), 0)
    table(*WIDEST, 0)

    # Not ascending, or k and more, in one of the runs; tested for all runs before any difference is.
    for runs in ([[0, 1], [2, 0]], [[0, 1], [2, 2]], [[1, 0], [0, 2]], [[0, 1], [0, 13]], [[0, 13], [0, 2]],
                 [[0, 1], [13, 14]], [[0, 1], [0, 65535]], [[0, 1], [0, 258]], [[0, 1], [0, 1], [3, 2]],
                 [[0, 1, 2], [0, 4, 3]], [[0, 1, 4], [0, 2, 2]], [[0, 1], [0, 1], [0, 4096]], [[5, 4], [0, 1]],
                 [[0, 1]] * 7 + [[1, 0]], [[0, 1]] * 7 + [[0, 13]], [[0]] * 7 + [[13]], [[13]] + [[0]] * 7):
        table(13, runs, 4)

    # A difference of one run in another, also where it is the same only modulo k or only taken the other way.
    for k, runs in ((13, [[0, 1], [5, 6]]), (13, [[0, 1], [0, 12]]), (13, [[0, 12], [0, 1]]), (13, [[0, 2], [0, 11]]),
                    (13, [[0, 1], [0, 2], [4, 6]]), (13, [[0, 1], [0, 2], [4, 5]]), (13, [[0, 1, 4], [0, 2, 5]]),
                    (13, [[0, 1, 4], [0, 1, 4]]), (13, [[0, 1, 4], [1, 2, 5]]), (13, [[0, 1, 4], [0, 6, 8], [0, 3, 9]]),
                    (7, [[0, 1, 3], [0, 1, 3]]), (4, [[0, 1], [0, 3]]), (3, [[0, 1], [0, 2]]),
                    (16, [[0, d] for d in range(1, 9)]), (512, [[0, d] for d in (1, 2, 3, 4, 5, 6, 7, 511)])):
        table(k, runs, 5)
    # A difference within one run, of half of k or twice.
    for k, runs in ((12, [[0, 1], [0, 6]]), (12, [[0, 6], [0, 1]]), (4, [[0, 1], [0, 2]]), (13, [[0, 1, 4], [0, 5, 10]]),
                    (512, [[0, d] for d in (1, 2, 3, 4, 5, 6, 7, 256)])):
        table(k, runs, 5)
    # Each run by itself is accepted, and all but the last together; the last has a difference of another run.
    for k, b, j in ((400, 7, 8), (156, 5, 6), (2048, 2, 16), (512, 8, 6)):
        runs = runs_for(random, k, b, j)
        table(k, runs, 0)
        other = runs[random.below(b - 1)]
        changed = (sorted([*runs[-1][:-1], p]) for p in range(k) if p not in runs[-1])
        last = next(last for last in changed
                    if ref.differences_differ(k, [last]) and not ref.differences_differ(k, [last, other]))
        table(k, [last], 0)
        table(k, runs[:-1] + [last], 5)
    # The table of one branch, read as two: its first half and its second.
    for k, j in ((993, 32), (307, 18), (57, 8)):
        positions = positions_for(random, k, j)
        table(k, [positions[:j // 2], positions[j // 2:]], 0)
        table(k, [positions[:j // 2], positions[:j // 2]], 5)
        table(k, [positions, positions], 5)


@group("branches, lengths of lent buffers")
def branches_lengths(pages, random):
    """6: each buffer one symbol off, as long as one branch's, and as long as with another b."""
    k, b, table = 13, 2, ref.table_of([0, 1, 4], [0, 2, 7])
    for length in (0, 13, 25, 27, 39):
        pages.encode(5, k, b, table, [0] * length, expect=6)
    for length in (0, 13, 26, 38, 40, 52):
        pages.encode(5, k, b, table, [0] * 26, page_len=length, expect=6)
        pages.syndrome(5, k, b, table, [0] * length, expect=6)
        pages.decode(5, k, b, table, [0] * length, [0], expect=6)
    for length in (0, 12, 14, 26):
        pages.syndrome(5, k, b, table, [0] * 39, syndrome_len=length, expect=6)
    right = ref.decode_lengths(k, b)
    for at, lengths in enumerate(((0, 13, 25, 27, 39), (0, 12, 14, 26), (0, 13, 25, 27, 39), (0, 52, 100, 108, 156))):
        for length in lengths:
            pages.decode(5, k, b, table, [0] * 39, [0], lengths=right[:at] + (length,) + right[at + 1:], expect=6)
    # The lengths of eight branches, where there are seven.
    table = ref.table_of(*[[0, d] for d in range(1, 8)])
    pages.decode(5, 20, 7, table, [0] * 180, [0], lengths=ref.decode_lengths(20, 8), expect=6)
    pages.decode(5, 20, 7, table, [0] * 160, [0], expect=0)
    # A symbol that is q in each branch, first and last, and among the checks.
    for place in (0, 19, 20, 39, 120, 139, 140, 159):
        page = ref.symbols(160, {place: 5})
        if place < 140:
            pages.encode(5, 20, 7, table, page[:140], expect=7)
        pages.syndrome(5, 20, 7, table, page, expect=7)
        pages.decode(5, 20, 7, table, page, [0], expect=7)


# The refusals of each call, in the order in which they are tested.
ORDER = (1, 2, 10, 3, 4, 5, 6, 7, 8, 9)
REFUSALS = {CHECK_TABLE: ORDER[:6], ENCODE: ORDER[:8], SYNDROME: ORDER[:8], DECODE: ORDER, OPEN: ORDER[:8],
            PASS: ORDER[:8] + (9,), EXPLAIN: ORDER[:8] + (9, 11), ENCODE_OUTER: ORDER[:8] + (12,),
            DECODE_OUTER: ORDER + (12,)}


def spoiled_branches(call, met, by=ref):
    """The tests and the arguments of a call with two branches, or nine, that meets these refusals. k is 40 and the runs
    are 0, d for d from 1 up. With refusal 2 k is 4,097 and the lengths are still those of 40, so that 6 is met too. In a
    pass and an explanation 6 and 7 are met by D. Blocks are of 2 symbols, with refusal 12 of 7. `by` is the module of
    the profile."""
    right, other = (2, 3) if by is bits else (5, 2)
    q = other if 1 in met else right
    b = 9 if 10 in met else 2
    runs = [[0, d] for d in range(1, b + 1)]
    if 3 in met:
        runs = [list(range(33)) for _ in range(b)] if 4 in met or 5 in met else []
    elif 5 in met:
        runs = [[0, 1]] * b
    if 4 in met:
        runs[-1] = runs[-1][:-2] + runs[-1][:-3:-1]
    k, lengths_k = (4097 if 2 in met else 40), 40
    length = (b if call in (ENCODE, ENCODE_OUTER, PASS, EXPLAIN) else b + 1) * lengths_k - (1 if 6 in met else 0)
    symbols = [0] * length
    if 7 in met:
        symbols[-7] = 5
    thresholds = [0] * (65 if 8 in met else 2)
    if 9 in met:
        thresholds[1] = 33
    code = (q, k, b, ref.table_of(*runs))
    if call == CHECK_TABLE:
        return by.table_tests(*code), code, {}
    if call == ENCODE:
        page_len = (b + 1) * lengths_k
        return by.encode_tests(*code, symbols, page_len), (*code, symbols), {"page_len": page_len}
    if call == ENCODE_OUTER:
        page_len, arguments = (b + 1) * lengths_k, (*code, 7 if 12 in met else 2, symbols)
        return ref.encode_outer_tests(*arguments, page_len), arguments, {"page_len": page_len}
    if call == SYNDROME:
        return by.syndrome_tests(*code, symbols, lengths_k), (*code, symbols), {"syndrome_len": lengths_k}
    if call == OPEN:
        lengths = ref.buffer_lengths(lengths_k, b)
        return by.open_tests(*code, symbols, *lengths), (*code, symbols), {"lengths": lengths}
    if call == PASS:
        arguments = (*code, 33 if 9 in met else 0, [0] * (b * lengths_k), [0] * lengths_k, symbols)
        return by.pass_tests(*arguments, 4), arguments, {}
    if call == EXPLAIN:
        arguments = (*code, 33 if 9 in met else 0, b * k if 11 in met else 0, [0] * (b * lengths_k), [0] * lengths_k,
                     symbols)
        return by.explain_tests(*arguments, 24), arguments, {}
    lengths = ref.decode_lengths(lengths_k, b)
    if call == DECODE_OUTER:
        arguments = (*code, 7 if 12 in met else 2, symbols, thresholds)
        return ref.decode_outer_tests(*arguments, *lengths), arguments, {"lengths": lengths}
    return (by.decode_tests(*code, symbols, thresholds, *lengths), (*code, symbols, thresholds),
            {"lengths": lengths})


def refused_by_first(call, add, sets, by=ref, width_q=None):
    """For each set of refusals a call that meets them; the first of the set is returned. `width_q` is the q of a width,
    where 1 and 7 cannot be met."""
    for met in sets:
        tests, (q, *arguments), lengths = spoiled_branches(call, met, by)
        applies = [number for number, test in tests if test()]
        assert set(met) <= set(applies) and applies[0] == met[0]
        add(width_q or q, *arguments, **lengths, expect=met[0])


def with_all_after(call):
    """Each refusal of a call, but the last two, with all that come after it."""
    numbers = REFUSALS[call]
    return [numbers[a:] for a in range(len(numbers) - 2)]


def refused_in_pairs(call, add):
    """As the group of refusals in pairs, with 10 in its place."""
    refused_by_first(call, add, list(itertools.combinations(REFUSALS[call], 2)) + with_all_after(call))


@group("branches, refusals in pairs and all together")
def branches_pairs(pages, random):
    refused_in_pairs(CHECK_TABLE, pages.check_table)
    refused_in_pairs(ENCODE, pages.encode)
    refused_in_pairs(SYNDROME, pages.syndrome)
    refused_in_pairs(DECODE, pages.decode)


def branch_places(k, b, count, random):
    """So many places of a page, some in each branch as far as they go, the others anywhere."""
    order = random.some(range(b), min(b, count))
    places = {r * k + random.below(k) for r in order}
    while len(places) < count:
        places.add(random.below((b + 1) * k))
    return sorted(places)


@group("branches, encode and syndrome")
def branches_encode(pages, random):
    for q, k, b, j in ((3, 1, 2, 1), (256, 1, 8, 1), (5, 2, 3, 1), (10, 5, 2, 2), (7, 13, 2, 3), (256, 13, 2, 3),
                       (4, 15, 2, 3), (251, 17, 8, 2), (17, 40, 3, 4), (129, 156, 5, 6), (255, 400, 7, 8),
                       (128, 57, 3, 3),
                       (200, 512, 8, 7), (256, 1024, 4, 8), (251, 1024, 2, 8), (3, 819, 5, 10), (256, 2048, 2, 20),
                       (251, 585, 7, 5), (100, 1365, 3, 3)):
        table = ref.table_of(*runs_for(random, k, b, j))
        pages.encode(q, k, b, table, random.symbols(q, b * k), expect=0)
        if b * k < 3000:
            pages.syndrome(q, k, b, table, random.symbols(q, (b + 1) * k), expect=0)
    # The largest sums, and the largest and smallest values of a sum less a check.
    for q, k, b, j in ((129, 400, 7, 8), (256, 512, 8, 7), (255, 1464, 2, 12)):
        n = b * k
        table = ref.table_of(*runs_for(random, k, b, j))
        pages.encode(q, k, b, table, [q - 1] * n, expect=0)
        pages.syndrome(q, k, b, table, [q - 1] * n + [0] * k, expect=0)
        pages.syndrome(q, k, b, table, [0] * n + [q - 1] * k, expect=0)
    # One branch not 0, each in turn: its place in the page and its run.
    for r in range(5):
        data = [0] * (5 * 31)
        data[31 * r:31 * r + 31] = random.symbols(7, 31)
        pages.encode(7, 31, 5, ref.table_of(*[[r, 5 + 2 * r] for r in range(5)]), data, expect=0)


@group("branches, decode, clean pages")
def branches_clean(pages, random):
    for q, k, b, j, thresholds in ((3, 1, 2, 1, [0]), (256, 1, 8, 1, [32]), (10, 13, 2, 3, [0, 0]), (129, 156, 5, 6, [1]),
                                   (256, 400, 3, 8, [3, 0]), (251, 512, 8, 5, [0]), (5, 2048, 2, 12, [2])):
        runs = runs_for(random, k, b, j)
        data = random.symbols(q, b * k)
        got = pages.decode(q, k, b, ref.table_of(*runs), ref.code_word(q, k, runs, data), thresholds, expect=0)
        assert got.result == data and got.counts == (len(ref.strict_minima(thresholds)), 0, 0, 0)


@group("branches, decode, damage inside the bound")
def branches_inside(pages, random):
    """As many symbols replaced as the first threshold alone allows, in every branch as far as they go; the data comes
    back."""
    def inside(q, k, runs, thresholds, places):
        assert 2 * len(places) + min(thresholds) <= len(runs[0])
        data = random.symbols(q, len(runs) * k)
        page = damaged(random, q, ref.code_word(q, k, runs, data), places)
        got = pages.decode(q, k, len(runs), ref.table_of(*runs), page, thresholds, expect=0)
        assert got.result == data

    for q, k, b, j, first in ((3, 5, 2, 2, 0), (256, 13, 2, 3, 0), (5, 13, 2, 3, 1), (3, 40, 3, 4, 0), (251, 40, 2, 4, 2),
                              (10, 156, 5, 6, 0), (256, 156, 4, 6, 2), (129, 400, 7, 8, 0), (4, 400, 7, 8, 4),
                              (17, 585, 7, 8, 0), (255, 512, 8, 7, 0), (256, 512, 8, 7, 1), (3, 1024, 4, 12, 0),
                              (251, 1024, 2, 15, 3), (256, 1365, 3, 16, 0), (100, 2048, 2, 21, 0), (5, 1464, 2, 12, 0)):
        thresholds = [first] + random.symbols(5, random.below(4))
        inside(q, k, runs_for(random, k, b, j), thresholds, branch_places(k, b, (j - first) // 2, random))
    # One symbol of each branch in turn, first and last.
    for r in range(7):
        runs = runs_for(random, 31, 7, 2)
        inside(7, 31, runs, [0], [31 * r])
        inside(256, 31, runs, [0, 0], [31 * r + 30])
    # All damage on one data symbol of the last branch and its own checks.
    for q, k, b, j in ((3, 40, 3, 4), (256, 400, 7, 8), (251, 1024, 4, 12)):
        runs = runs_for(random, k, b, j)
        at = (b - 1) * k + random.below(k)
        checks = [b * k + i for i in ref.checks_of(k, runs, at)]
        inside(q, k, runs, [0, 0], [at] + checks[:j // 2 - 1])
        inside(q, k, runs, [0, 0], checks[:j // 2])
    # Symbols of two branches that share a check: check 0 is one of both.
    for q, k, b, j in ((10, 156, 5, 6), (256, 400, 4, 8)):
        runs = runs_for(random, k, b, j)
        inside(q, k, runs, [0, 0], [r * k + -runs[r][0] % k for r in range(j // 2)])
    # The widest runs that were found: J is the largest here with more than one branch.
    k, runs = WIDEST
    inside(256, k, runs, [0, 0, 0], branch_places(k, 2, len(runs[0]) // 2, random))


@group("branches, decode, damage outside the bound")
def branches_outside(pages, random):
    """More symbols replaced than the bound allows: from one more to a quarter of the page."""
    for q, k, b, j, share in ((3, 13, 2, 3, 0), (256, 13, 2, 3, 0), (10, 156, 5, 6, 0), (251, 400, 7, 8, 0),
                              (256, 1024, 4, 12, 0), (5, 40, 3, 4, 16), (256, 156, 4, 6, 16), (129, 400, 3, 8, 16),
                              (251, 512, 8, 7, 24), (256, 2048, 2, 16, 16), (3, 1464, 2, 12, 32), (16, 13, 2, 3, 4),
                              (256, 40, 3, 4, 4), (3, 156, 5, 6, 4), (251, 400, 2, 8, 4), (200, 1024, 2, 12, 4)):
        runs = runs_for(random, k, b, j)
        count = (b + 1) * k // share if share else j // 2 + 1
        thresholds = random.pick(([0] * 4, [2, 1, 0, 0, 0], [j // 2, 0, 0], [1] * 3, [0] * 12))
        page = ref.code_word(q, k, runs, random.symbols(q, b * k))
        page = damaged(random, q, page, branch_places(k, b, max(count, j // 2 + 1), random))
        pages.decode(q, k, b, ref.table_of(*runs), page, thresholds, expect=0)
    # The checks of one data symbol of the last branch moved together, so that it is changed though it was right.
    for q, k, b, j in ((5, 40, 3, 4), (256, 156, 5, 6), (251, 400, 7, 8)):
        runs = runs_for(random, k, b, j)
        data = random.symbols(q, b * k)
        page = ref.code_word(q, k, runs, data)
        for i in ref.checks_of(k, runs, b * k - 1 - random.below(k))[:j // 2 + 1]:
            page[b * k + i] = (page[b * k + i] + 3) % q
        got = pages.decode(q, k, b, ref.table_of(*runs), page, [0], expect=0)
        assert got.result != data and got.counts.end < got.counts.start


@group("branches, decode, heavy damage")
def branches_heavy(pages, random):
    """Every symbol random."""
    for q, k, b, j, thresholds in ((3, 1, 2, 1, [0, 0]), (256, 1, 8, 1, [0] * 3), (3, 2, 8, 1, [0] * 8),
                                   (5, 5, 2, 2, [0] * 8), (3, 13, 2, 3, [0] * 16), (256, 13, 2, 3, [0] * 16),
                                   (4, 40, 3, 4, [1, 0, 0]), (251, 17, 8, 2, [0] * 16), (10, 156, 5, 6, [0] * 16),
                                   (3, 400, 7, 8, [0] * 32), (256, 400, 7, 8, [0] * 16), (129, 512, 8, 7, [0] * 8),
                                   (7, 1024, 4, 12, [2, 1, 0, 0, 0]), (255, 1024, 2, 15, [0] * 32),
                                   (3, 1464, 2, 12, [0] * 64), (251, 819, 5, 1, [0])):
        table = ref.table_of(*runs_for(random, k, b, j))
        pages.decode(q, k, b, table, random.symbols(q, (b + 1) * k), thresholds, expect=0)


@group("branches, margins")
def branches_margins(pages, random):
    """Each value that the margins of a code can have, but for the lowest two, in every branch: S is 0 in the first half
    and mostly 1 in the second, and a threshold of 32 leaves it. The lowest two are those of a symbol of branch 1 that was
    changed and is to be changed back, by all J + 1 estimates or by all but one."""
    for q, k, b, j in ((256, 512, 2, 4), (5, 512, 8, 4), (7, 1024, 3, 6)):
        runs = greedy_runs(k, b, j)
        s = [0 if i < k // 2 else 1 if random.below(6) else random.below(q) for i in range(k)]
        page = [0] * (b * k) + [-x % q for x in s]
        got = pages.decode(q, k, b, ref.table_of(*runs), page, [32], expect=0)
        for r in range(b):
            assert set(got.margins[r * k:(r + 1) * k]) >= set(range(-j + 1, j + 2)) - {j}
    for q, k, positions in ((256, 512, [0, 1, 100, 300]), (251, 512, [0, 1, 20, 60])):
        # Branch 0 holds only zeros, which stay.
        runs = [[0, 7, 30, 81], positions]
        back = [0] * k + turned_back(q, k, positions)
        all_but_one = list(back)
        all_but_one[2 * k + positions[-1]] = 1
        for page, lowest in ((back, -5), (all_but_one, -4)):
            got = pages.decode(q, k, 2, ref.table_of(*runs), page, [0], expect=0)
            assert got.margins[k] == lowest

# Schedules: which passes of the list are run (request N4)

def different(random, q, count):
    """So many different symbols other than 0."""
    if q <= 256:
        return random.some(range(1, q), count)
    chosen = []
    while len(chosen) < count:
        value = 1 + random.below(q - 1)
        chosen += [value] if value not in chosen else []
    return chosen


def with_leads(random, q, k, runs, leads):
    """A page on which, for each of the leads, 1 to J - 1, one data symbol leads by so many votes, and no other symbol is
    to be changed. Returns the data sent and the page.

    A symbol is replaced, and J - 1 - lead of its checks: the others agree on the damage, and each of the replaced ones
    says something else, as d does. On bits a replaced one says 0, as d does, so that half as many are; J - 1 - lead is
    then even. The symbols are of the branches in turn and have no check in common, so that a pass changes those whose
    lead is above its threshold, once, and they then stay."""
    b, j = len(runs), len(runs[0])
    data = random.symbols(q, b * k)
    page, used = ref.code_word(q, k, runs, data), set()
    for n, lead in enumerate(leads):
        symbol = n % b * k + random.below(k)
        while used & set(ref.checks_of(k, runs, symbol)):
            symbol = n % b * k + random.below(k)
        checks = ref.checks_of(k, runs, symbol)
        used |= set(checks)
        error, *others = different(random, q, j - lead) if q > 2 else [1] + [0] * ((j - 1 - lead) // 2)
        page[symbol] = (page[symbol] + error) % q
        for check, other in zip(random.some(checks, len(others)), others):
            # S is to be `other` there.
            page[b * k + check] = (page[b * k + check] + error - other) % q
    return data, page


def goes_on(got):
    """Is there a change in a pass that comes after an idle one?"""
    changes = got.changes_of_pass
    return 0 in changes and any(changes[changes.index(0):])


def up_and_down(low, high, count):
    """low, high, low, high, .."""
    return ([low, high] * count)[:count]


# Threshold lists of every kind, for codes with J of about 8.
LISTS = [
    # falling, by one or by more, with equal ones between
    [3, 2, 0], [32, 16, 8, 4, 2, 1, 0], list(range(32, -1, -1)), [5, 5, 4, 4, 3, 3, 2, 2, 1, 1, 0, 0], [3, 3, 2, 0, 0],
    [32, 0], [8, 7, 6, 5],
    # rising
    [0, 1, 2, 3], [2, 3], list(range(33)), [1, 32],
    # equal
    [0, 0], [2, 2, 2], [7] * 5, [32] * 64, [0] * 64,
    # up and down
    up_and_down(3, 1, 6), up_and_down(1, 3, 6), [4, 6, 2, 8, 0, 9], [6, 4, 5, 3, 4, 2, 3, 1, 2, 0], [0, 9, 0, 9, 0],
    [2, 1, 2, 0], [7, 8, 9, 6, 7, 8, 5],
    # 64 long
    [32 - i // 2 for i in range(64)], [i // 2 for i in range(64)], up_and_down(32, 0, 64), up_and_down(0, 32, 64),
    [32] * 63 + [0], [9] * 32 + [8] * 31 + [0], [(7 * i) % 33 for i in range(64)],
    [(26 * i + 32) % 33 for i in range(64)],
]


@group("schedules, clean pages")
def schedules_clean(pages, random):
    """The passes run are the strict minima of the list."""
    for at, thresholds in enumerate(LISTS + [[random.below(33) for _ in range(n)] for n in (2, 5, 17, 40, 64)]):
        q, k, j = ((3, 1, 1), (256, 13, 4), (10, 57, 8), (251, 31, 6))[at % 4]
        positions = positions_for(random, k, j)
        data = random.symbols(q, k)
        page = ref.code_word(q, k, [positions], data)
        got = pages.decode(q, k, 1, ref.table_of(positions), page, thresholds, expect=0)
        assert got.result == data and got.places == ref.strict_minima(thresholds)


def scheduled(pages, random, q, k, runs, leads, thresholds, places, changes):
    """A page with these leads: the places of the passes run and their changes are as stated."""
    data, page = with_leads(random, q, k, runs, leads)
    got = pages.decode(q, k, len(runs), ref.table_of(*runs), page, thresholds, expect=0)
    assert (got.places, got.changes_of_pass) == (places, changes)
    assert (got.result == data) == (sum(changes) == len(leads))


@group("schedules, the page of case 7")
def schedules_case_7(pages, random):
    """Symbol 0 is changed by the first pass that is run with a threshold below 3."""
    for thresholds in LISTS + [[3, 2], [3, 3, 2], [3, 3, 3, 2, 1], [4, 3, 2], [3, 4, 2], [3, 4, 5], [3], [2, 3, 2]]:
        got = pages.decode(256, 13, 1, ref.CODE_A, ref.page_a({0: 7}), thresholds, expect=0)
        assert got.counts.changes == (min(thresholds) < 3)


# Threshold lists, for symbols with leads of 7, 5, 3 and 1: the places of the passes run, and their changes.
PASSES_BY_LEADS = (
    ([8, 7, 6, 4, 2, 0], [0, 1, 2, 3, 4, 5], [0, 0, 1, 1, 1, 1]),
    ([8, 8, 7, 7, 6, 6, 0], [0, 2, 4, 5, 6], [0, 0, 1, 0, 3]),
    ([0, 0, 0], [0, 1], [4, 0]),
    ([6, 6, 6], [0, 1], [1, 0]),
    ([6, 7, 8, 5, 0], [0, 1, 3, 4], [1, 0, 0, 3]),
    ([7, 8, 7, 6], [0, 3], [0, 1]),
    ([7, 8, 9, 7], [0], [0]),
    ([3, 6, 0], [0, 1, 2], [2, 0, 2]),
    ([3, 6, 6, 3, 3, 6, 0], [0, 1, 3, 6], [2, 0, 0, 2]),
    ([4, 4, 4, 2], [0, 1, 3], [2, 0, 1]),
    ([4, 2, 4, 2, 0], [0, 1, 2, 3, 4], [2, 1, 0, 0, 1]),
    ([0, 5, 4, 3, 2, 1, 0], [0, 1, 2, 3, 4, 5, 6], [4, 0, 0, 0, 0, 0, 0]),
    ([1, 2, 3, 4], [0, 1], [3, 0]),
    ([7, 3, 5, 2, 4, 1, 3, 0], [0, 1, 2, 3, 4, 5, 7], [0, 2, 0, 1, 0, 0, 1]),
    ([32, 31, 30, 6, 6, 6, 5, 4], [0, 1, 2, 3, 4, 6, 7], [0, 0, 0, 1, 0, 0, 1]),
    ([32] * 63 + [6], [0, 63], [0, 1]),
    ([6] + [32] * 62 + [0], [0, 1, 63], [1, 0, 3]),
    ([7] * 30 + [6] * 30 + [5, 4, 4, 5], [0, 30, 31, 60, 61, 62], [0, 1, 0, 0, 1, 0]),
    (list(range(32, 0, -1)) + list(range(31, -1, -1)), list(range(32)) + [63],
     [0] * 26 + [1, 0, 1, 0, 1, 0] + [1]),
    (list(range(31, -1, -1)) + list(range(32, 0, -1)), list(range(64)),
     [0] * 25 + [1, 0, 1, 0, 1, 0, 1] + [0] * 32))


@group("schedules, idle passes at every place")
def schedules_idle(pages, random):
    """Symbols of known leads, J = 8: what each pass has to change is known."""
    k, positions = 256, greedy(256)[:8]
    falling = [7, 6, 5, 4, 3, 2, 1, 0]

    # One symbol. All passes of a falling list are run, and one of them makes the change.
    for lead in range(1, 8):
        changes = [1 if t == lead - 1 else 0 for t in falling]
        scheduled(pages, random, 256, k, [positions], [lead], falling, list(range(8)), changes)
    # A symbol for each pass but one: this is the idle one.
    for idle in range(1, 8):
        leads = [lead for lead in range(1, 8) if lead != idle]
        changes = [0] + [0 if t == idle - 1 else 1 for t in falling[1:]]
        scheduled(pages, random, 251, k, [positions], leads, falling, list(range(8)), changes)
    for thresholds, places, changes in PASSES_BY_LEADS:
        scheduled(pages, random, 256, k, [positions], [7, 5, 3, 1], thresholds, places, changes)


def scheduled_inside(pages, random, q, k, runs, thresholds, places):
    """As many symbols replaced as the smallest threshold allows, and more than the first would: the data comes back.
    Returns whether that took a pass after an idle one."""
    assert 2 * len(places) + min(thresholds) <= len(runs[0]) < 2 * len(places) + thresholds[0]
    data = random.symbols(q, len(runs) * k)
    page = damaged(random, q, ref.code_word(q, k, runs, data), places)
    got = pages.decode(q, k, len(runs), ref.table_of(*runs), page, thresholds, expect=0)
    assert got.result == data
    return goes_on(got)


def lists_inside(j, least):
    """Lists with a smallest threshold, whose first one is too large for the bound."""
    return ([j, least], [32, least], [j - 1, j // 2, least], [least + 2, least], [j] * 3 + [j // 2] * 3 + [least] * 3,
            [j // 2 + 1, j, 32, least, j], list(range(32, least - 1, -1)), [j, least + 1, j, least, j],
            [32] * 63 + [least])


@group("schedules, damage inside the bound")
def schedules_inside(pages, random):
    """By the smallest threshold; the first is above it."""
    went_on = 0
    for at, (q, k, j, least) in enumerate((
            (3, 3, 2, 0), (256, 7, 3, 0), (5, 7, 3, 1), (256, 13, 4, 0), (3, 13, 4, 2), (10, 31, 6, 0), (251, 31, 6, 2),
            (3, 57, 8, 0), (256, 57, 8, 0), (129, 57, 7, 1), (4, 100, 5, 0), (256, 133, 12, 0), (3, 133, 12, 4),
            (17, 183, 14, 0), (255, 183, 13, 3), (251, 307, 18, 0), (3, 307, 18, 8), (256, 381, 20, 2), (7, 993, 32, 0),
            (256, 993, 32, 0), (10, 993, 31, 15), (251, 1021, 12, 0))):
        lists = lists_inside(j, least)
        for thresholds in (lists[at % len(lists)], lists[(4 * at + 1) % len(lists)])[:1 if k > 500 else 2]:
            places = random_places(random, k, (j - least) // 2)
            went_on += scheduled_inside(pages, random, q, k, [positions_for(random, k, j)], thresholds, places)
    # All damage on one data symbol and its own checks: its lead is the smallest that the bound leaves, so that only the
    # pass with the smallest threshold changes it.
    for q, k, j, least in ((3, 13, 4, 0), (256, 57, 8, 0), (10, 57, 8, 2), (251, 133, 12, 4), (5, 307, 18, 0)):
        positions = positions_for(random, k, j)
        at = random.below(k)
        checks = [k + i for i in ref.checks_of(k, [positions], at)]
        for thresholds in ([j, least], list(range(j, least - 1, -1)), [j, least + 2, j, least + 2, least, j]):
            went_on += scheduled_inside(pages, random, q, k, [positions], thresholds,
                                        [at] + checks[:(j - least) // 2 - 1])
            scheduled_inside(pages, random, q, k, [positions], thresholds, checks[:(j - least) // 2])
    assert went_on >= 30


@group("schedules, damage outside the bound")
def schedules_outside(pages, random):
    """More symbols replaced than the bound allows, with lists of every kind, then with random ones."""
    went_on = 0
    lists = LISTS + [[random.below(9) for _ in range(n)] for n in (4, 9, 16, 33, 64)]
    for at, thresholds in enumerate(lists + lists):
        q, k, j = ((256, 57, 8), (251, 133, 12), (10, 133, 10), (3, 57, 8), (256, 183, 14), (5, 31, 6),
                   (129, 256, 8))[at % 7]
        positions = positions_for(random, k, j)
        page = ref.code_word(q, k, [positions], random.symbols(q, k))
        page = damaged(random, q, page, random_places(random, k, max(2 * k // random.pick((25, 12, 6)), j // 2 + 1)))
        went_on += goes_on(pages.decode(q, k, 1, ref.table_of(positions), page, thresholds, expect=0))
    # Every symbol random.
    for q, k, j, thresholds in ((3, 57, 8, [5, 3, 1, 0, 1, 0]), (256, 57, 8, [4, 2, 1, 0]),
                                (10, 133, 12, [6, 3, 1, 0, 0]),
                                (251, 133, 12, [32, 3, 2, 1, 0, 0]), (4, 31, 6, [3, 2, 1, 0] * 16),
                                (5, 993, 32, [16, 8, 4, 2, 1, 0]), (256, 1021, 12, [6, 3, 1, 0])):
        table = ref.table_of(positions_for(random, k, j))
        went_on += goes_on(pages.decode(q, k, 1, table, random.symbols(q, 2 * k), thresholds, expect=0))
    assert went_on >= 25


@group("branches, schedules")
def branches_schedules(pages, random):
    """Clean pages, symbols of known leads in each branch, damage inside the bound and outside it."""
    for at, thresholds in enumerate(LISTS[::2]):
        q, k, b, j = ((3, 1, 8, 1), (256, 13, 2, 3), (10, 17, 8, 2), (251, 40, 3, 4))[at % 4]
        runs = runs_for(random, k, b, j)
        data = random.symbols(q, b * k)
        got = pages.decode(q, k, b, ref.table_of(*runs), ref.code_word(q, k, runs, data), thresholds, expect=0)
        assert got.result == data and got.places == ref.strict_minima(thresholds)

    # An idle pass is idle in every branch: leads 5, 4, 2 in branches 0, 1, 2 and the other way round, J = 6.
    runs = runs_for(random, 156, 3, 6)
    for leads in ([5, 4, 2], [2, 5, 4]):
        for thresholds, places, changes in (([5, 4, 3, 2, 1, 0], [0, 1, 2, 3, 4, 5], [0, 1, 1, 0, 1, 0]),
                                            ([5, 5, 4, 4, 4, 1], [0, 2, 3, 5], [0, 1, 0, 2]),
                                            ([2, 6, 7, 2, 0], [0, 1, 3, 4], [2, 0, 0, 1]),
                                            ([6, 7, 5, 6, 5], [0, 2], [0, 0]),
                                            ([32] * 62 + [0, 0], [0, 62, 63], [0, 3, 0])):
            scheduled(pages, random, 256, 156, runs, leads, thresholds, places, changes)

    went_on = 0
    for at, (q, k, b, j, least) in enumerate((
            (3, 5, 2, 2, 0), (256, 13, 2, 3, 0), (5, 13, 2, 3, 1), (251, 40, 3, 4, 0), (3, 40, 3, 4, 2),
            (256, 156, 5, 6, 0), (10, 156, 2, 6, 2), (129, 156, 2, 6, 0), (3, 400, 2, 8, 0))):
        lists = lists_inside(j, least)
        for thresholds in (lists[at % len(lists)], lists[(4 * at + 1) % len(lists)])[:1 if k > 300 else 2]:
            places = branch_places(k, b, (j - least) // 2, random)
            went_on += scheduled_inside(pages, random, q, k, runs_for(random, k, b, j), thresholds, places)
    assert went_on >= 10

    went_on = 0
    for at, thresholds in enumerate(LISTS):
        q, k, b, j = ((256, 40, 3, 4), (251, 74, 2, 5), (10, 156, 2, 6), (3, 40, 2, 4), (256, 31, 7, 2))[at % 5]
        runs = runs_for(random, k, b, j)
        page = ref.code_word(q, k, runs, random.symbols(q, b * k))
        count = max((b + 1) * k // random.pick((30, 20, 10)), j // 2 + 1)
        page = damaged(random, q, page, branch_places(k, b, count, random))
        went_on += goes_on(pages.decode(q, k, b, ref.table_of(*runs), page, thresholds, expect=0))
    assert went_on >= 8


# Openings and passes (request N5)

def some_code(random, q, k, b, j):
    """q, k, b and a table of these numbers, as all calls take them; and its runs."""
    runs = [positions_for(random, k, j)] if b == 1 else runs_for(random, k, b, j)
    return (q, k, b, ref.table_of(*runs)), runs


@group("openings")
def openings(pages, random):
    for q, k, b, j in ((3, 1, 1, 1), (256, 1, 8, 1), (4, 2, 4, 1), (251, 7, 1, 3), (256, 13, 2, 3), (3, 17, 8, 2),
                       (251, 40, 4, 3), (10, 133, 1, 12), (4, 156, 5, 6), (251, 993, 1, 32), (256, 512, 8, 7),
                       (3, 4096, 1, 10)):
        code, _ = some_code(random, q, k, b, j)
        pages.open_page(*code, random.symbols(q, (b + 1) * k), expect=0)
    # A code word, and one with a symbol of each branch and a check replaced.
    for q, k, b, j in ((256, 31, 1, 6), (4, 31, 8, 2)):
        code, runs = some_code(random, q, k, b, j)
        data = random.symbols(q, b * k)
        word = ref.code_word(q, k, runs, data)
        assert pages.open_page(*code, word, expect=0) == (data, [0] * k, [0] * (b * k))
        got = pages.open_page(*code, damaged(random, q, word, [r * k + random.below(k) for r in range(b + 1)]), expect=0)
        assert any(got.syndrome) and not any(got.difference)
    # The largest and smallest values of a sum less a check.
    for q in (129, 256):
        code, _ = some_code(random, q, 57, 1, 8)
        pages.open_page(*code, [q - 1] * 57 + [0] * 57, expect=0)
        pages.open_page(*code, [0] * 57 + [q - 1] * 57, expect=0)


# What of a pass may have another length: one of the three buffers, or the bytes of the changes.
RESULT, S, D, CHANGES = range(4)


def resized(buffers, at, more):
    """The buffers, but for one that is lent with so many symbols more, or fewer."""
    return [(buffer + [0] * more)[:len(buffer) + more] if i == at else buffer for i, buffer in enumerate(buffers)]


def passes_in_turn(pages, code, buffers, calls):
    """Passes, each on what the one before left. A call is a threshold, refused above 32; or a threshold, the place of a
    buffer and how many symbols more that has than it should, which is refused. Returns what the last one left, and the
    changes of each, None where it was refused."""
    made = []
    for call in calls:
        threshold, at, more = call if isinstance(call, tuple) else (call, None, 0)
        got = pages.pass_once(*code, threshold, *resized(buffers, at, more),
                              changes_len=4 + more if at == CHANGES else 4,
                              expect=6 if more else 9 if threshold > 32 else 0)
        buffers = buffers if got is None else got[:3]
        made.append(None if got is None else got.changes)
    return buffers, made


def opened_passes(pages, random, code, runs, replaced, calls):
    """Opens a page with so many symbols replaced and makes passes on its buffers. Inside the bound, with the smallest
    threshold of the passes that are not refused, the data comes back. Returns the changes of each."""
    q, k, b, _ = code
    data = random.symbols(q, b * k)
    page = damaged(random, q, ref.code_word(q, k, runs, data), branch_places(k, b, replaced, random))
    buffers = pages.open_page(*code, page, expect=0)
    after, made = passes_in_turn(pages, code, buffers, calls)
    assert ref.page_of(q, k, runs, *after) == page
    thresholds = [call for call, changes in zip(calls, made) if changes is not None]
    if thresholds and 2 * replaced + min(thresholds) <= len(runs[0]):
        assert after[RESULT] == data
    return made


@group("passes on opened pages")
def passes_opened(pages, random):
    """Damage inside the bound, then outside it, with falling, rising and equal thresholds: no pass is skipped."""
    for q, k, b, j, replaced, thresholds in (
            (256, 13, 1, 4, 2, [0, 0]), (4, 13, 1, 4, 1, [2]), (251, 31, 1, 6, 3, [4, 1, 0]), (3, 31, 1, 6, 2, [32, 2]),
            (256, 57, 1, 8, 2, [3, 4]), (3, 13, 2, 3, 1, [1, 0]), (251, 31, 4, 3, 1, [1]), (256, 31, 8, 2, 1, [2, 0])):
        code, runs = some_code(random, q, k, b, j)
        opened_passes(pages, random, code, runs, replaced, thresholds)
    made = []
    for q, k, b, j, replaced, thresholds in (
            (3, 13, 1, 4, 6, [2, 0, 0]), (256, 31, 1, 6, 10, [1, 0, 0]), (4, 57, 1, 8, 14, [2, 1, 0, 0]),
            (251, 57, 1, 8, 19, [3, 0, 3, 0]), (256, 40, 2, 4, 13, [1, 0, 0]), (3, 40, 3, 4, 20, [2, 1, 0, 0]),
            (4, 17, 8, 2, 8, [1, 0])):
        code, runs = some_code(random, q, k, b, j)
        made += opened_passes(pages, random, code, runs, replaced, thresholds)
    assert sum(changes > 0 for changes in made) >= 12
    # The passes of a decode, made one by one: its result, S, D and changes.
    for q, k, b, j, replaced, thresholds in ((256, 31, 1, 6, 9, [4, 4, 2, 0, 0]), (3, 40, 3, 4, 12, [2, 1, 3, 0, 0])):
        code, runs = some_code(random, q, k, b, j)
        page = damaged(random, q, ref.code_word(q, k, runs, random.symbols(q, b * k)),
                       branch_places(k, b, replaced, random))
        decoded = pages.decode(*code, page, thresholds, expect=0)
        buffers = pages.open_page(*code, page, expect=0)
        after, made = passes_in_turn(pages, code, buffers, [thresholds[i] for i in decoded.places])
        assert after == decoded[:3] and made == decoded.changes_of_pass and sum(made) > 0


@group("passes, refused ones between")
def passes_refused_between(pages, random):
    """Refused by the threshold or by a length, before, between and after those that are made: the others do what they
    would do without them."""
    for q, k, b, j, replaced, calls in (
            (3, 13, 1, 4, 2, [4294967295, 33, 0]),
            (256, 13, 1, 4, 2, [3, 33, 2, 4294967295, 0]),
            (4, 13, 1, 4, 1, [(0, RESULT, -1), 2, (0, RESULT, 1), 2]),
            (251, 31, 1, 6, 3, [2, (0, S, -1), (0, S, 1), 0]),
            (256, 31, 1, 6, 2, [(0, D, -1), (2, D, 1), 2, 256]),
            (3, 31, 1, 6, 10, [1, (0, D, -31), 0, (33, S, -31), 0]),
            (256, 13, 2, 3, 1, [33, (0, RESULT, -13), 1, (0, D, -13)]),
            (251, 31, 4, 3, 1, [1, (0, S, 31), 0, 4294967295]),
            (3, 31, 8, 2, 1, [(0, RESULT, 31), 2147483648, 0])):
        code, runs = some_code(random, q, k, b, j)
        opened_passes(pages, random, code, runs, replaced, calls)
    # The page of case 7 with a refused pass at two places of the list 3, 2: the same pass makes the change.
    for calls, due in (([33, 3, 2], [None, 0, 1]), ([3, 33, 2], [0, None, 1])):
        buffers = pages.open_page(256, 13, 1, ref.CODE_A, ref.page_a({0: 7}), expect=0)
        assert passes_in_turn(pages, (256, 13, 1, ref.CODE_A), buffers, calls)[1] == due


def random_buffers(random, q, k, b):
    """Result, S and D of any content in range, none tied to another."""
    return [random.symbols(q, length) for length in ref.buffer_lengths(k, b)]


def mostly(random, q, length, value):
    """Symbols of which seven of eight have this value."""
    return [value if random.below(8) else random.below(q) for _ in range(length)]


def any_buffers(random, q, k, b):
    """The same, but many symbols of S and D agree, so that votes have leads also where q is large."""
    value = 1 + random.below(q - 1)
    return random.symbols(q, b * k), mostly(random, q, k, value), mostly(random, q, b * k, value)


@group("passes on buffers of any content")
def passes_any_content(pages, random):
    """Every J, then thresholds of 0, 1, J and 32 on the same buffers, then passes in turn."""
    changed = 0
    for j in range(1, 33):
        q = (3, 256, 4, 251, 10)[j % 5]
        k = min(k for k, p in SINGER.items() if p + 1 >= j)
        code, _ = some_code(random, q, k, 1, j)
        buffers = any_buffers(random, q, k, 1)
        changed += pages.pass_once(*code, (0, 1, j // 2, j // 4)[j % 4], *buffers, expect=0).changes > 0
    assert changed == 32
    for q, k, b, j in ((3, 7, 1, 1), (251, 13, 1, 4), (256, 31, 8, 2), (4, 13, 2, 3)):
        code, _ = some_code(random, q, k, b, j)
        buffers = any_buffers(random, q, k, b)
        for threshold in (0, 1, j, 32)[j == 1:]:
            got = pages.pass_once(*code, threshold, *buffers, expect=0)
            assert (got.changes > 0) == (threshold <= j)
    for q, k, b, j, buffers_of in ((251, 57, 1, 8, any_buffers), (256, 17, 8, 2, any_buffers),
                                   (3, 31, 1, 6, random_buffers), (4, 31, 4, 3, random_buffers)):
        code, _ = some_code(random, q, k, b, j)
        _, made = passes_in_turn(pages, code, buffers_of(random, q, k, b), [j, j // 2, 0, 0])
        assert sum(changes > 0 for changes in made) > 1


@group("passes, votes")
def passes_votes(pages, random):
    """The estimates of symbol 0 of code A are d(0) and S at 0, 1, 4, 6. Each other symbol has one of these checks at most
    and is left."""
    def vote(q, estimates, threshold, h0):
        """Symbol 0 is changed by h0, or left where that is 0."""
        s = ref.symbols(13, dict(zip((0, 1, 4, 6), estimates[1:])))
        got = pages.pass_once(q, 13, 1, ref.CODE_A, threshold, random.symbols(q, 13), s,
                              ref.symbols(13, {0: estimates[0]}), expect=0)
        assert got.changes == (h0 != 0) and got.difference[0] == (estimates[0] - h0) % q

    for q, estimates, h0, ahead in (
            (256, (2, 2, 1, 1, 0), 0, 0), (3, (1, 2, 2, 1, 0), 0, 0), (256, (7, 7, 0, 9, 1), 7, 1),
            (10, (0, 9, 7, 1, 7), 7, 1), (251, (250, 0, 1, 250, 2), 250, 1), (4, (3, 3, 0, 3, 0), 3, 1),
            (256, (0, 255, 255, 255, 255), 255, 3), (256, (255, 255, 255, 255, 0), 255, 3), (251, (1, 2, 2, 2, 2), 2, 3),
            (4, (0, 0, 0, 3, 3), 0, 1)):
        if ahead:
            vote(q, estimates, ahead - 1, h0)
        vote(q, estimates, ahead, 0)
    # All J + 1 estimates of symbol 0, and of no other, agree: a change with a threshold of J, none with J + 1.
    for q, k, j in ((3, 1, 1), (4, 7, 3), (256, 57, 8), (251, 993, 32)):
        positions = positions_for(random, k, j)
        h = 1 + random.below(q - 1)
        s = ref.symbols(k, {p: h for p in positions})
        for threshold in (j, j + 1)[:1 if j == 32 else 2]:
            got = pages.pass_once(q, k, 1, ref.table_of(positions), threshold, random.symbols(q, k), s,
                                  ref.symbols(k, {0: h}), expect=0)
            assert got.changes == (threshold == j)


@group("passes on clean buffers")
def passes_clean(pages, random):
    """S and D all 0: nothing is changed, whatever the result is."""
    for q, k, b, j, threshold in ((3, 1, 1, 1, 0), (256, 1, 8, 1, 32), (251, 13, 1, 4, 4), (4, 57, 1, 8, 1),
                                  (3, 31, 8, 2, 0), (251, 31, 4, 3, 0)):
        code, _ = some_code(random, q, k, b, j)
        assert pages.pass_once(*code, threshold, random.symbols(q, b * k), [0] * k, [0] * (b * k), expect=0).changes == 0
    code, runs = some_code(random, 256, 13, 2, 3)
    assert opened_passes(pages, random, code, runs, 0, [0, 33, (0, D, 1), 0]) == [0, None, None, 0]


@group("passes, 4,096 data symbols and many changes")
def passes_many(pages, random):
    """With J = 1 and D = S symbol by symbol the two estimates agree, so that every symbol is changed: the number of
    changes takes two bytes."""
    for q, k in ((3, 255), (256, 256), (251, 300), (256, 4096)):
        s = [1 + random.below(q - 1) for _ in range(k)]
        got = pages.pass_once(q, k, 1, ref.table_of([0]), 1, random.symbols(q, k), s, s, expect=0)
        assert got.changes == k and not any(got.syndrome + got.difference)
    for q, k, b, j, threshold in ((251, 2048, 2, 20, 0), (4, 512, 8, 7, 1), (256, 1024, 4, 8, 32)):
        code, _ = some_code(random, q, k, b, j)
        got = pages.pass_once(*code, threshold, *any_buffers(random, q, k, b), expect=0)
        assert (got.changes > 0) == (threshold < 32)


@group("openings and passes, refusals one by one")
def open_pass_one_by_one(pages, random):
    """Each refusal of both calls, at the edges of what it tests. Numbers that would pass if only their low bits were
    looked at are among them."""
    a, two, lent_for = ref.CODE_A, ref.table_of([0, 1, 4], [0, 2, 7]), (13, 1)
    for q, number in ((2, 1), (3, 0), (256, 0), (257, 1), (65541, 1)):
        pages.open_and_pass(q, 13, 1, a, expect=number)
    for k in (0, 4097, 65549):
        pages.open_and_pass(5, k, 1, a, lent_for, expect=2)
    for k, b in ((13, 0), (13, 9), (13, 257), (16, 2 ** 28 + 1), (2049, 2), (513, 8)):
        pages.open_and_pass(5, k, b, a, lent_for, expect=10)
    for b, table in ((1, b""), (1, ref.table_of(range(33))), (2, ref.table_of([0, 1, 4]))):
        pages.open_and_pass(5, 13, b, table, expect=3)
    for b, table in ((1, ref.table_of([0, 1, 4, 13])), (2, ref.table_of([0, 1], [2, 0]))):
        pages.open_and_pass(5, 13, b, table, expect=4)
    for k, b, table in ((12, 1, a), (13, 2, ref.table_of([0, 1], [0, 1]))):
        pages.open_and_pass(5, k, b, table, expect=5)

    # 6: each buffer one symbol off, and one branch.
    page, right = [0] * 39, ref.buffer_lengths(13, 2)
    for more in (-1, 1, -13, 13):
        pages.open_page(5, 13, 2, two, (page + [0] * 13)[:39 + more], expect=6)
        for at, length in enumerate(right):
            pages.open_page(5, 13, 2, two, page, right[:at] + (length + more,) + right[at + 1:], expect=6)
            pages.pass_once(5, 13, 2, two, 0, *resized([[0] * n for n in right], at, more), expect=6)

    # 7: the first and the last symbol of the page, and of each of the three buffers. With q - 1 there it is none.
    for q, symbol, number in ((251, 251, 7), (251, 250, 0), (256, 255, 0)):
        for place in (0, 38):
            pages.open_page(q, 13, 2, two, ref.symbols(39, {place: symbol}), expect=number)
        for at, length in enumerate(right):
            for place in (0, length - 1):
                buffers = [[0] * n for n in right]
                buffers[at][place] = symbol
                pages.pass_once(q, 13, 2, two, 32, *buffers, expect=number)

    # 9: the threshold is a number of 32 bits.
    clean = [0] * 13, [0] * 13, [0] * 13
    for threshold in (32, 33, 255, 256, 288, 65536, 2 ** 24, 2 ** 31, 2 ** 32 - 1):
        pages.pass_once(5, 13, 1, a, threshold, *clean, expect=0 if threshold == 32 else 9)


@group("openings and passes, refusals in pairs")
def open_pass_pairs(pages, random):
    refused_in_pairs(OPEN, pages.open_page)
    refused_in_pairs(PASS, pages.pass_once)


@group("openings and passes in C alone", c_only=True)
def open_pass_c_only(pages, random):
    """Tables of an odd length, and other lengths of the changes than 4."""
    odd = ref.CODE_A + b"\0"
    for length in (1, 7, 9):
        pages.open_and_pass(5, 13, 1, odd[:length], expect=3)
    pages.open_and_pass(2, 13, 1, odd, expect=1)
    pages.open_and_pass(5, 13, 9, odd, (13, 1), expect=10)

    # Passes in turn, refused by the length of the changes before, between and after those that are made.
    for q, k, b, j, replaced, calls in (
            (256, 13, 1, 4, 2, [(0, CHANGES, -1), 0, (0, CHANGES, -4)]),
            (251, 31, 1, 6, 9, [2, (0, CHANGES, -4), 1, (0, CHANGES, 1), 0]),
            (4, 13, 2, 3, 1, [33, (1, CHANGES, -1), 1])):
        code, runs = some_code(random, q, k, b, j)
        opened_passes(pages, random, code, runs, replaced, calls)
    # Each length on buffers that a pass would change; then with something else amiss, before 6 or after it.
    code, _ = some_code(random, 5, 13, 1, 4)
    for length in (0, 1, 3, 5, 8, 16):
        pages.pass_once(*code, 0, *any_buffers(random, 5, 13, 1), changes_len=length, expect=6)
    for met in [(number,) for number in REFUSALS[PASS]] + [(7, 9)]:
        _, arguments, _ = spoiled_branches(PASS, met)
        pages.pass_once(*arguments, changes_len=3, expect=6 if met[0] in (7, 9) else met[0])


# Explanations (request N6)

def in_any_order(random, votes):
    """The values of a vote, each as often as it says."""
    values = [value for value, count in votes.items() for _ in range(count)]
    return [values.pop(random.below(len(values))) for _ in range(len(values))]


def with_estimates(random, code, runs, symbol, values):
    """Result, S and D of any content, but for the estimates of one symbol."""
    q, k, b, _ = code
    result, s, d = random_buffers(random, q, k, b)
    d[symbol] = values[0]
    for check, value in zip(ref.checks_of(k, runs, symbol), values[1:]):
        s[check] = value
    return result, s, d


def leads_of(j):
    """The leads that J + 1 estimates can have: where one differs from the others they lead by J - 1, else by J + 1."""
    return [ahead for ahead in range(j + 2) if ahead != j]


def votes_for(random, q, j, h0, ahead):
    """A vote of J + 1 estimates in which h0 has this lead, or is the smallest of those tied for the first place. m1 is as
    large as the lead allows."""
    m1, left = divmod(j + 1 - ahead, 2)
    others = [value for value in range(q) if value > h0 or value < h0 and ahead]
    votes = {h0: m1 + ahead, **dict(zip(random.some(others, 2), (m1, left)))}
    return {value: count for value, count in votes.items() if count}


def explained(pages, random, code, runs, symbol, threshold, votes, ground, h0):
    """The estimates of a symbol are these votes, in any order: the answer is as stated."""
    buffers = with_estimates(random, code, runs, symbol, in_any_order(random, votes))
    got = pages.explain(*code, threshold, symbol, *buffers, expect=0)
    m1 = max((count for value, count in votes.items() if value != h0), default=0)
    assert got[:4] == (ground, h0, votes[h0], m1)


@group("explanations, grounds of every J")
def explain_grounds(pages, random):
    """Each ground with thresholds of 0, 1, J and 32 where it can be: ground 1 with the largest lead that the threshold
    allows, the others with the smallest that is above it. From J = 5 one threshold a ground, from J = 9 one page."""
    def answer(j, ground, threshold):
        q = (3, 256, 4, 251)[(j + ground) % 4]
        code, runs = some_code(random, q, min(k for k, p in SINGER.items() if p + 1 >= j), 1, j)
        h0 = (random.below(q - 2), 0, 1 + random.below(q - 1))[ground - 1]
        if ground == 1:
            ahead = max(ahead for ahead in leads_of(j) if ahead <= threshold)
        else:
            ahead = min(ahead for ahead in leads_of(j) if ahead > threshold)
        explained(pages, random, code, runs, random.below(code[1]), threshold, votes_for(random, q, j, h0, ahead),
                  ground, h0)

    for j in range(1, 5):
        for ground, threshold in itertools.product((1, 2, 3), sorted({0, 1, j, 32})):
            if ground == 1 or threshold <= j:
                answer(j, ground, threshold)
    for j in range(5, 9):
        for ground in (1, 2, 3):
            answer(j, ground, (0, 1, j)[(j + ground) % 3])
    for j in range(9, 32):
        answer(j, 1 + j % 3, (0, 1, j, j // 2)[j % 4])


@group("explanations, J = 32")
def explain_widest(pages, random):
    """33 estimates: the last has the bit that 32 bits have no place for."""
    for threshold, value, others, ground, bits in (
            (32, 5, {}, 3, 2 ** 33 - 1), (32, 0, {}, 2, 2 ** 33 - 1),
            (31, 250, {32: 0}, 1, 2 ** 32 - 1), (30, 250, {0: 249}, 3, 2 ** 33 - 2),
            (1, 7, {i: 250 - i for i in range(31)}, 1, 2 ** 32 + 2 ** 31)):
        code, runs = some_code(random, 251, 993, 1, 32)
        symbol = random.pick((0, random.below(993), 992))
        buffers = with_estimates(random, code, runs, symbol, [others.get(i, value) for i in range(33)])
        got = pages.explain(*code, threshold, symbol, *buffers, expect=0)
        assert (got.ground, got.h0, got.bits) == (ground, value, bits)


@group("explanations, ties")
def explain_ties(pages, random):
    """Of the tied values h0 is the smallest, wherever it stands. The estimates of symbol 0 of code A."""
    for q, values, h0, m0, bits in (
            (256, (2, 2, 1, 1, 0), 1, 2, 12), (256, (1, 1, 2, 2, 0), 1, 2, 3), (3, (1, 2, 2, 1, 0), 1, 2, 9),
            (256, (9, 0, 9, 0, 3), 0, 2, 10), (4, (3, 3, 2, 0, 2), 2, 2, 20),
            (256, (255, 254, 253, 252, 251), 251, 1, 16),
            (251, (0, 250, 249, 248, 247), 0, 1, 1), (251, (250, 249, 0, 249, 250), 249, 2, 10),
            (256, (255, 0, 255, 0, 128), 0, 2, 10), (5, (4, 3, 2, 1, 0), 0, 1, 16),
            (256, (128, 127, 127, 128, 1), 127, 2, 6)):
        buffers = with_estimates(random, (q, 13, 1, ref.CODE_A), [[0, 1, 4, 6]], 0, values)
        assert pages.explain(q, 13, 1, ref.CODE_A, 0, 0, *buffers, expect=0) == (1, h0, m0, m0, bits)
    # J = 1; two values with 4 votes each at J = 7; three at J = 11.
    for q, k, j, votes in ((3, 1, 1, {2: 1, 1: 1}), (256, 57, 7, {200: 4, 199: 4}), (4, 133, 11, {3: 4, 2: 4, 1: 4})):
        code, runs = some_code(random, q, k, 1, j)
        for threshold in (0, 32):
            explained(pages, random, code, runs, random.below(k), threshold, votes, 1, min(votes))


@group("explanations in every branch")
def explain_branches(pages, random):
    """The first and the last symbol of each: their checks are those of the branch's own run."""
    for q, k, b, j in ((3, 13, 1, 4), (4, 13, 2, 3), (251, 31, 4, 3), (256, 17, 8, 2)):
        code, runs = some_code(random, q, k, b, j)
        for at, (r, i) in enumerate(itertools.product(range(b), (0, k - 1))):
            ground, h0, other, threshold = ((1, 1, 2, j - 1), (3, 2, 1, j - 2), (2, 0, 1, j - 2))[at % 3]
            explained(pages, random, code, runs, r * k + i, threshold, {h0: j, other: 1}, ground, h0)
    # k = 1: each branch has one symbol, and all have the one check, at which S is 7.
    d = [7, 8, 7, 6, 0, 7, 255, 7]
    for symbol in range(8):
        got = pages.explain(256, 1, 8, ref.table_of(*[[0]] * 8), 1, symbol, random.symbols(256, 8), [7], d, expect=0)
        assert got == ((3, 7, 2, 0, 3) if d[symbol] == 7 else (1, 7, 1, 1, 2) if d[symbol] > 7 else
                       (1, d[symbol], 1, 1, 1))


@group("explanations, the limits of the symbol number")
def explain_symbols(pages, random):
    """Numbers that would pass if only their low bits were looked at, or if they were held against the page's length, are
    among them."""
    for q, k, b, j in ((256, 1, 1, 1), (5, 13, 1, 4), (3, 17, 8, 2)):
        code, _ = some_code(random, q, k, b, j)
        buffers = any_buffers(random, q, k, b)
        for symbol in (0, b * k - 1):
            pages.explain(*code, 1, symbol, *buffers, expect=0)
        for symbol in (b * k, (b + 1) * k, 256, 65536, 2 ** 31, 2 ** 32 - 1):
            pages.explain(*code, 1, symbol, *buffers, expect=11)
    # The last of 4,096 data symbols.
    code, _ = some_code(random, 256, 512, 8, 7)
    pages.explain(*code, 0, 4095, *any_buffers(random, 256, 512, 8), expect=0)


@group("explanations of opened pages")
def explain_opened(pages, random):
    """As a bench asks: a page is opened, symbols are asked for, a pass is made, they are asked for again."""
    a = 256, 13, 1, ref.CODE_A
    buffers = pages.open_page(*a, ref.page_a({0: 7}), expect=0)
    for threshold, symbol, answer in ((2, 0, (3, 7, 4, 1, 30)), (3, 0, (1, 7, 4, 1, 30)), (2, 1, (2, 0, 4, 1, 29)),
                                      (3, 7, (1, 0, 4, 1, 15))):
        assert pages.explain(*a, threshold, symbol, *buffers, expect=0) == answer
    buffers = pages.pass_once(*a, 2, *buffers, expect=0)[:3]
    for threshold, symbol, answer in ((2, 0, (2, 0, 4, 1, 30)), (4, 1, (2, 0, 5, 0, 31)), (5, 1, (1, 0, 5, 0, 31))):
        assert pages.explain(*a, threshold, symbol, *buffers, expect=0) == answer

    # Asked for are the first replaced symbols and one more, before each pass and after the last.
    grounds = []
    for q, k, b, j, replaced, thresholds in (
            (251, 31, 1, 6, 3, [2, 0]), (3, 31, 1, 6, 9, [1]), (4, 57, 1, 8, 4, [3]), (256, 13, 2, 3, 1, [1, 0]),
            (4, 40, 3, 4, 6, [0]), (256, 17, 8, 2, 8, [0])):
        code, runs = some_code(random, q, k, b, j)
        places = branch_places(k, b, replaced, random)
        page = damaged(random, q, ref.code_word(q, k, runs, random.symbols(q, b * k)), places)
        buffers = pages.open_page(*code, page, expect=0)
        asked = [place for place in places[:2] if place < b * k] + [random.below(b * k)]
        for threshold in thresholds:
            grounds += [pages.explain(*code, threshold, symbol, *buffers, expect=0).ground for symbol in asked]
            buffers = pages.pass_once(*code, threshold, *buffers, expect=0)[:3]
        grounds += [pages.explain(*code, thresholds[-1], symbol, *buffers, expect=0).ground for symbol in asked]
    assert min(grounds.count(ground) for ground in (1, 2, 3)) >= 4


@group("explanations of buffers of any content")
def explain_any_content(pages, random):
    grounds = []
    for at, (q, k, b, j) in enumerate(((3, 7, 1, 3), (4, 13, 1, 4), (251, 31, 1, 6), (256, 57, 1, 8), (3, 133, 1, 12),
                                       (256, 13, 2, 3), (4, 31, 4, 3), (251, 17, 8, 2), (3, 40, 3, 4))):
        code, _ = some_code(random, q, k, b, j)
        buffers = (any_buffers, random_buffers)[at % 2](random, q, k, b)
        for threshold in (0, j - 1):
            grounds.append(pages.explain(*code, threshold, random.below(b * k), *buffers, expect=0).ground)
    # S and D all 0: zero leads by J + 1, whatever the result is.
    for q, k, b, j, threshold in ((3, 1, 1, 1, 1), (256, 13, 1, 4, 4), (251, 13, 2, 3, 4), (4, 17, 8, 2, 0)):
        code, _ = some_code(random, q, k, b, j)
        got = pages.explain(*code, threshold, b * k - 1, random.symbols(q, b * k), [0] * k, [0] * (b * k), expect=0)
        assert got == (2 if threshold <= j else 1, 0, j + 1, 0, 2 ** (j + 1) - 1)
        grounds.append(got.ground)
    assert set(grounds) == {1, 2, 3}


def asked_of_zeros(pages, q, k, b, table, lent_for=None, expect=None):
    """Symbol 0 of buffers that are all 0, for this k and b or for another pair."""
    lengths = ref.buffer_lengths(*(lent_for or (k, b)))
    pages.explain(q, k, b, table, 0, 0, *([0] * length for length in lengths), expect=expect)


@group("explanations, refusals one by one")
def explain_one_by_one(pages, random):
    """Each refusal at the edges of what it tests; 11 has a group of its own."""
    a, two, lent_for = ref.CODE_A, ref.table_of([0, 1, 4], [0, 2, 7]), (13, 1)
    for q, number in ((2, 1), (3, 0), (256, 0), (257, 1), (65541, 1)):
        asked_of_zeros(pages, q, 13, 1, a, expect=number)
    for k in (0, 4097, 65549):
        asked_of_zeros(pages, 5, k, 1, a, lent_for, expect=2)
    for k, b in ((13, 0), (13, 9), (13, 257), (16, 2 ** 28 + 1), (2049, 2), (513, 8)):
        asked_of_zeros(pages, 5, k, b, a, lent_for, expect=10)
    for b, table in ((1, b""), (1, ref.table_of(range(33))), (2, ref.table_of([0, 1, 4]))):
        asked_of_zeros(pages, 5, 13, b, table, expect=3)
    for b, table in ((1, ref.table_of([0, 1, 4, 13])), (2, ref.table_of([0, 1], [2, 0]))):
        asked_of_zeros(pages, 5, 13, b, table, expect=4)
    for k, b, table in ((12, 1, a), (13, 2, ref.table_of([0, 1], [0, 1]))):
        asked_of_zeros(pages, 5, k, b, table, expect=5)

    # 6: each buffer one symbol off, and one branch.
    clean = [[0] * n for n in ref.buffer_lengths(13, 2)]
    for at, more in itertools.product((RESULT, S, D), (-1, 1, -13, 13)):
        pages.explain(5, 13, 2, two, 0, 0, *resized(clean, at, more), expect=6)
    # 7: the first and the last symbol of each buffer, also where it is none of the symbol's estimates. With q - 1 there
    # it is none.
    for q, symbol, number in ((251, 251, 7), (251, 250, 0)):
        for at, place in itertools.product((RESULT, S, D), (0, -1)):
            buffers = [list(buffer) for buffer in clean]
            buffers[at][place] = symbol
            pages.explain(q, 13, 2, two, 32, 15, *buffers, expect=number)
    # 9: the threshold is a number of 32 bits.
    for threshold in (32, 33, 256, 65536, 2 ** 31, 2 ** 32 - 1):
        pages.explain(5, 13, 2, two, threshold, 25, *clean, expect=0 if threshold == 32 else 9)


@group("explanations, refusals in pairs")
def explain_pairs(pages, random):
    refused_in_pairs(EXPLAIN, pages.explain)


@group("explanations in C alone", c_only=True)
def explain_c_only(pages, random):
    """Tables of an odd length, and other lengths of the answer than 24."""
    odd = ref.CODE_A + b"\0"
    for length in (1, 7, 9):
        asked_of_zeros(pages, 5, 13, 1, odd[:length], expect=3)
    asked_of_zeros(pages, 5, 13, 9, odd, (13, 1), expect=10)
    code, _ = some_code(random, 5, 13, 1, 4)
    for length in (0, 4, 16, 20, 23, 25, 32):
        pages.explain(*code, 0, 0, *any_buffers(random, 5, 13, 1), answer_len=length, expect=6)
    # With something else amiss, before 6 or after it.
    for met in [(number,) for number in REFUSALS[EXPLAIN]] + [(7, 9, 11)]:
        _, arguments, _ = spoiled_branches(EXPLAIN, met)
        pages.explain(*arguments, answer_len=23, expect=6 if met[0] in (7, 9, 11) else met[0])


# Decode with counters (request N7)

def counters_with(named, length=256):
    """Counters that are 0 but for those named."""
    return bytes(ref.symbols(length, named))


def counted(pages, random, code, runs, replaced, thresholds):
    """A page with so many symbols replaced, decoded with counters; inside the bound the data comes back."""
    q, k, b, _ = code
    data = random.symbols(q, b * k)
    page = damaged(random, q, ref.code_word(q, k, runs, data), branch_places(k, b, replaced, random))
    got = pages.decode_counters(*code, page, thresholds, expect=0)
    assert got.result == data or 2 * replaced + min(thresholds) > len(runs[0])
    return got


@group("counters, worked pages and threshold lists")
def counters_worked(pages, random):
    a = 256, 13, 1, ref.CODE_A
    for page, thresholds, counts in (
            (ref.page_a({0: 7}), [2, 2], (2, 1, 4, 1)), (ref.page_a({0: 7}), [3, 2], (2, 1, 4, 1)),
            (ref.page_a({}, {2: 9}), [0], (1, 0, 1, 1)), (ref.page_a({0: 7, 1: 3}), [0, 0], (2, 2, 7, 2)),
            (ref.page_a({}, {0: 251, 1: 251, 4: 251}), [0], (1, 1, 3, 2))):
        assert pages.decode_counters(*a, page, thresholds, expect=0).counts == counts
    # At distance 0.
    for q, k, b, j in ((3, 7, 1, 1), (16, 7, 1, 3), (256, 13, 1, 4), (251, 31, 1, 6), (3, 13, 2, 3), (16, 17, 8, 2)):
        code, runs = some_code(random, q, k, b, j)
        assert counted(pages, random, code, runs, 0, [3, 3, 2, 0, 0]).counts == (3, 0, 0, 0)
    # The page of case 7: symbol 0 is changed by the first pass that is run with a threshold below 3.
    for thresholds in LISTS[::4]:
        got = pages.decode_counters(*a, ref.page_a({0: 7}), thresholds, expect=0)
        assert got.counts.changes == (min(thresholds) < 3)
    # One symbol of a known lead: all passes of a falling list are run, and one of them makes the change.
    falling = [7, 6, 5, 4, 3, 2, 1, 0]
    for lead in (1, 7):
        code, runs = some_code(random, 256, 57, 1, 8)
        data, page = with_leads(random, 256, 57, runs, [lead])
        got = pages.decode_counters(*code, page, falling, expect=0)
        assert got.result == data and got.changes_of_pass == [t == lead - 1 for t in falling]


@group("counters, J of 1 to 14")
def counters_every_j(pages, random):
    """Damage inside the bound, up to J = 6 also outside it. The decodes without counters have every J, and the C tests
    run them with counters too."""
    for j in (*range(1, 13), 14):
        k = min(k for k, p in SINGER.items() if p + 1 >= j)
        for q, replaced in (((3, 16, 251, 256)[j % 4], j // 2), ((256, 3, 16, 251)[j % 4], k // 3))[:1 + (j <= 6)]:
            code, runs = some_code(random, q, k, 1, j)
            counted(pages, random, code, runs, replaced, [j // 4, 1, 0])


@group("counters, b of 1 to 8")
def counters_every_b(pages, random):
    """Damage inside the bound and outside it."""
    for k, b, j in ((13, 1, 4), (13, 2, 3), (21, 3, 3), (27, 4, 3), (17, 5, 2), (13, 6, 2), (15, 7, 2), (17, 8, 2)):
        for q, replaced in (((3, 16, 251, 256)[b % 4], 1), ((16, 256, 3, 251)[b % 4], k // 3)):
            code, runs = some_code(random, q, k, b, j)
            counted(pages, random, code, runs, replaced, [1, 0, 0])


def counted_vote(pages, q, s, threshold=0):
    """A page of code A, data all 0, on which the estimates of symbol 0 are 0 and s."""
    page = ref.page_a({}, {i: -value % q for i, value in zip((0, 1, 4, 6), s)})
    return pages.decode_counters(q, 13, 1, ref.CODE_A, page, [threshold], expect=0)


@group("counters, votes")
def counters_votes(pages, random):
    """Ties in every order of arrival, zeros that lead, and leaders at both ends of the values."""
    for q, (low, high) in ((256, (1, 2)), (3, (1, 2)), (256, (254, 255)), (251, (127, 250))):
        for s in sorted(set(itertools.permutations((low, low, high, high))))[::1 if q == 256 else 5]:
            got = counted_vote(pages, q, s)
            assert got.counts.changes == 0 and got.margins[0] == -1
    # A tie with 0, which d says too; all five different.
    for q, s in ((256, (255, 0, 255, 9)), (256, (9, 255, 0, 255)), (16, (15, 15, 14, 0)), (16, (0, 1, 2, 1))):
        assert counted_vote(pages, q, s).margins[0] == 0
    for q, s in ((256, (255, 254, 253, 252)), (256, (1, 2, 3, 4)), (16, (3, 15, 1, 8))):
        got = counted_vote(pages, q, s)
        assert got.counts.changes == 0 and got.margins[0] == 0
    # 0 leads by one vote, by more.
    for q, s, margin in ((256, (255, 0, 0, 255), 1), (3, (2, 0, 2, 0), 1), (251, (0, 250, 0, 0), 3)):
        got = counted_vote(pages, q, s)
        assert got.counts.changes == 0 and got.margins[0] == margin
    # Another value leads, by one vote or by three.
    for q, value in ((256, 255), (256, 128), (256, 1), (251, 250), (3, 2)):
        for s, ahead in (((value, value, 0, value), 1), ((value,) * 4, 3)):
            assert counted_vote(pages, q, s, ahead - 1).difference[0] == -value % q
            assert counted_vote(pages, q, s, ahead).difference[0] == 0
    # Every symbol random: few values, so that many are tied, and as many values as there are.
    for q, k, j in ((3, 7, 3), (3, 13, 4), (4, 7, 2), (4, 31, 6), (256, 13, 4), (256, 31, 6)):
        code, _ = some_code(random, q, k, 1, j)
        pages.decode_counters(*code, random.symbols(q, 2 * k), [1, 0, 0], expect=0)


@group("counters, 33 estimates")
def counters_widest(pages, random):
    """J = 32. With k = 993 any two data symbols have exactly one check in common."""
    positions = positions_for(random, 993, 32)
    code, checks = (256, 993, 1, ref.table_of(positions)), ref.checks_of(993, [positions], 0)
    # All 33 agree on a value other than 0. 17 data symbols are wrong by 1, all in one check that symbol 0 is not in, so
    # that each has another check in common with symbol 0. This is visited first and changed. Symbol 1 is next and the
    # first of those that are wrong; they are all put right, and then all estimates of symbol 0 are 255.
    check = random.pick([i for i in ref.checks_of(993, [positions], 1) if i not in checks])
    wrong = [j for j in range(1, 993) if check in ref.checks_of(993, [positions], j)][:17]
    got = pages.decode_counters(*code, ref.symbols(2 * 993, {j: 1 for j in wrong}), [0, 32], expect=0)
    assert got.changes_of_pass == [18, 1] and got.result == [0] * 993
    # All 33 differ: symbol 0 is left, and so is each other symbol, which has one of its checks.
    s = dict(zip(checks, random.some(range(1, 256), 32)))
    got = pages.decode_counters(*code, ref.symbols(2 * 993, {993 + i: -value % 256 for i, value in s.items()}), [0],
                                expect=0)
    assert got.counts.changes == 0 and got.margins == [0] + [31] * 992


@group("counters, codes of one symbol")
def counters_one_symbol(pages, random):
    """k = 1: the symbols of all branches have the one check. A symbol's estimates are 0 and S, which is no change."""
    for b in range(1, 9):
        for q, checks in ((3, [2]), ((256, 16, 251)[b % 3], None)):
            page = random.symbols(q, b) + (checks or random.symbols(q, 1))
            got = pages.decode_counters(q, 1, b, ref.table_of(*[[0]] * b), page, [0], expect=0)
            assert got.result == page[:b] and got.counts.changes == 0
    # S is 255, 0.
    for page, margin in (([0, 1], 0), ([255, 0], 0), ([255, 255], 2)):
        assert pages.decode_counters(256, 1, 1, ref.table_of([0]), page, [0, 0], expect=0).margins == [margin]


@group("counters, other lengths than 256")
def counters_lengths(pages, random):
    """On a clean page and on one that decode would change."""
    page = ref.page_a({0: 3})
    for length in (0, 1, 2, 5, 128, 254, 255, 257, 258, 512):
        pages.decode_counters(5, 13, 1, ref.CODE_A, page, [0], counters=bytes(length), expect=6)
    for q in (3, 251):
        pages.decode_counters(q, 13, 1, ref.CODE_A, [0] * 26, [0], counters=bytes(q), expect=6)
    # Not all zero either: also beyond the first 256.
    for length, place in ((1, 0), (255, 254), (257, 0), (257, 256), (512, 511)):
        pages.decode_counters(5, 13, 1, ref.CODE_A, page, [0], counters=counters_with({place: 1}, length), expect=6)


@group("counters that are not all zero")
def counters_not_zero(pages, random):
    """At the ends and on both sides of q, where no estimate comes; sums and differences of the counters that are 0
    modulo 256 are among them. What they hold stays."""
    for q, places in ((256, (0, 1, 127, 128, 254, 255)), (251, (0, 250, 251, 255)), (3, (0, 1, 2, 3, 15, 255))):
        for place in places:
            page = random.pick((ref.page_a(), ref.page_a({0: 2}), random.symbols(q, 26)))
            pages.decode_counters(q, 13, 1, ref.CODE_A, page, [0], counters=counters_with({place: 1}), expect=6)
    for value in (2, 32, 33, 128, 254, 255):
        pages.decode_counters(5, 13, 1, ref.CODE_A, ref.page_a({0: 3}), [0],
                              counters=counters_with({random.below(256): value}), expect=6)
    for named in ({0: 1, 255: 1}, {7: 1, 8: 255}, {0: 128, 1: 128}, {100: 9, 200: 9}, dict.fromkeys(range(128), 2),
                  dict.fromkeys(range(128, 256), 2), dict.fromkeys(range(256), 1), dict.fromkeys(range(256), 255),
                  {i: random.below(256) for i in range(256)}):
        pages.decode_counters(16, 13, 1, ref.CODE_A, ref.page_a({0: 3}), [0], counters=counters_with(named), expect=6)
    # Codes with more branches, and of one symbol.
    for q, k, b, j in ((256, 17, 8, 2), (3, 13, 2, 3), (256, 1, 1, 1)):
        code, _ = some_code(random, q, k, b, j)
        pages.decode_counters(*code, random.symbols(q, (b + 1) * k), [1, 0], counters=counters_with({3: 1}), expect=6)


@group("counters, with other refusals")
def counters_refused(pages, random):
    """Counters that are amiss are refused by 6: after 1 to 5 and 10, before 7, 8 and 9."""
    others = [number for number in ORDER if number != 6]
    for met in [(number,) for number in others] + [(7, 8, 9), tuple(others)]:
        _, arguments, lengths = spoiled_branches(DECODE_COUNTERS, met)
        for counters in (bytes(random.pick((0, 255, 257))), counters_with({random.pick((0, 128, 255)): 1})):
            pages.decode_counters(*arguments, **lengths, counters=counters,
                                  expect=6 if met[0] in (7, 8, 9) else met[0])
    for number in (7, 8, 9):
        _, arguments = spoiled(DECODE, (number,))
        for counters in (b"", bytes(1), bytes(257), counters_with({255: 1}), counters_with({0: 1, 127: 255, 128: 1})):
            pages.decode_counters(*arguments, counters=counters, expect=6)
    # The same and pairs of them with counters as they must be.
    for met in [(number,) for number in others] + [(7, 8), (7, 9), (8, 9)]:
        _, arguments, lengths = spoiled_branches(DECODE_COUNTERS, met)
        pages.decode_counters(*arguments, **lengths, expect=met[0])
    # 6 by another buffer, with counters as they must be and not.
    right = ref.decode_lengths(13, 1)
    for at, more in itertools.product(range(4), (-4, 4)):
        pages.decode_counters(5, 13, 1, ref.CODE_A, [0] * 26, [0], expect=6,
                              lengths=right[:at] + (right[at] + more,) + right[at + 1:])
    for length, counters in ((25, ref.ZEROED), (27, ref.ZEROED), (25, bytes(255)), (27, counters_with({9: 9}))):
        pages.decode_counters(5, 13, 1, ref.CODE_A, [0] * length, [0], counters=counters, expect=6)


@group("counters in C alone", c_only=True)
def counters_c_only(pages, random):
    """Tables of an odd length, before counters that are amiss, and margins of no whole number."""
    amiss = counters_with({0: 1})
    for length in (1, 7, 9):
        for counters in (ref.ZEROED, amiss):
            pages.decode_counters(5, 13, 1, (ref.CODE_A + b"\0")[:length], [0] * 26, [0], counters=counters, expect=3)
    for length in (51, 53):
        for counters in (ref.ZEROED, amiss):
            pages.decode_counters(5, 13, 1, ref.CODE_A, [0] * 26, [0], lengths=(13, 13, 13, length), counters=counters,
                                  expect=6)


# The outer check (request N8)

def lengths_of(n):
    """The block lengths that so many data symbols can have."""
    return [length for length in range(2, n + 1) if n % length == 0]


def sent_outer(random, code, runs, length):
    """Random data that keeps the outer rule, and its page."""
    q, k, b, _ = code
    data = ref.outer_word(q, length, random.symbols(q, b * k))
    return data, ref.code_word(q, k, runs, data)


def with_syndrome(q, k, runs, data, s):
    """The page with this data on which S is s."""
    n = len(data)
    checks = ref.code_word(q, k, runs, data)[n:]
    return list(data) + [(check - x) % q for check, x in zip(checks, s)]


@group("outer checks, encode")
def outer_encode(pages, random):
    for q, k, b, j, length in ((3, 2, 1, 1, 2), (256, 2, 1, 1, 2), (10, 4, 1, 1, 2), (129, 7, 1, 3, 7),
                               (251, 13, 1, 4, 13), (4, 16, 1, 4, 4), (255, 24, 1, 4, 8), (256, 57, 1, 8, 19),
                               (128, 133, 1, 12, 7), (200, 64, 1, 7, 32), (17, 100, 1, 5, 50), (256, 307, 1, 18, 307),
                               (256, 1, 8, 1, 8), (5, 1, 8, 1, 2), (251, 13, 2, 3, 2), (7, 17, 8, 2, 17)):
        code, _ = some_code(random, q, k, b, j)
        pages.encode_outer(*code, length, random.symbols(q, b * k), expect=0)
    # Every length that 30 symbols, in two branches, can have.
    code, _ = some_code(random, 256, 15, 2, 3)
    for length in lengths_of(30):
        pages.encode_outer(*code, length, random.symbols(256, 30), expect=0)
    # The largest sums, and none.
    for q, k, j, length in ((256, 40, 5, 40), (129, 60, 6, 20)):
        code, _ = some_code(random, q, k, 1, j)
        for symbol in (q - 1, 0):
            pages.encode_outer(*code, length, [symbol] * k, expect=0)
    code, _ = some_code(random, 251, 4096, 1, 10)
    pages.encode_outer(*code, 4096, [250] * 4096, expect=0)


@group("outer checks, what is lent at the last places")
def outer_last_places(pages, random):
    """The page hangs on the other places alone. q and more is refused there too."""
    for q, k, b, j, length in ((251, 16, 1, 4, 4), (256, 16, 1, 4, 2), (3, 15, 2, 3, 6)):
        code, _ = some_code(random, q, k, b, j)
        data = random.symbols(q, b * k)
        word = ref.outer_word(q, length, data)
        last = range(length - 1, b * k, length)
        for lent in (word, [0] * (b * k), [q - 1] * (b * k), [q - 1 - symbol for symbol in word]):
            given = [lent[i] if i in last else symbol for i, symbol in enumerate(data)]
            assert pages.encode_outer(*code, length, given, expect=0)[:b * k] == word
        for place, symbol in itertools.product((last[0], last[-1]), (q, 255) if q < 255 else ()):
            pages.encode_outer(*code, length, [symbol if i == place else x for i, x in enumerate(word)], expect=7)


@group("outer checks, decode, clean pages")
def outer_clean(pages, random):
    for q, k, b, j, length in ((3, 2, 1, 1, 2), (256, 7, 1, 3, 7), (251, 16, 1, 4, 4), (4, 24, 1, 4, 12),
                               (129, 57, 1, 8, 3), (256, 60, 1, 6, 30), (10, 15, 2, 3, 10), (256, 40, 3, 4, 15),
                               (3, 17, 8, 2, 136)):
        code, runs = some_code(random, q, k, b, j)
        data, page = sent_outer(random, code, runs, length)
        thresholds = random.pick(([0], [3, 2, 0], [32, 32], [1, 0, 0]))
        got = pages.decode_outer(*code, length, page, thresholds, expect=0)
        assert got.result == data and got.counts == (len(ref.strict_minima(thresholds)), 0, 0, 0)


@group("outer checks, code words that break the rule")
def outer_broken(pages, random):
    """On a code word all reliabilities are J + 1, so that there is no step whatever the blocks sum to."""
    for q, k, b, j, length in ((3, 2, 1, 1, 2), (256, 16, 1, 4, 2), (251, 16, 1, 4, 16), (10, 24, 1, 4, 3),
                               (256, 57, 1, 8, 19), (5, 15, 2, 3, 6), (256, 17, 8, 2, 8), (129, 1, 8, 1, 4)):
        code, runs = some_code(random, q, k, b, j)
        data = random.symbols(q, b * k)
        while any(ref.block_sum(q, data, block) == 0 for block in ref.blocks(length, b * k)):
            data = random.symbols(q, b * k)
        got = pages.decode_outer(*code, length, ref.code_word(q, k, runs, data), [1, 0], expect=0)
        assert got.result == data and got.counts == (2, 0, 0, 0)
    # The last symbol alone breaks it, and the first.
    for place, length in ((15, 16), (3, 4), (0, 2), (12, 4)):
        word = ref.encode(*ref.K_16, ref.symbols(16, {place: 9}), 32)[1]
        assert pages.decode_outer(*ref.K_16, length, word, [0], expect=0).counts == (1, 0, 0, 0)


@group("outer checks, damage inside the bound")
def outer_inside(pages, random):
    """As much as the smallest threshold allows: the data comes back, the last symbols of blocks too, and no step is
    made."""
    for q, k, b, j, length, least in (
            (3, 16, 1, 4, 2, 0), (256, 16, 1, 4, 16, 0), (251, 24, 1, 4, 6, 1), (10, 13, 1, 4, 13, 2),
            (256, 57, 1, 8, 3, 0), (5, 57, 1, 8, 57, 2), (128, 60, 1, 6, 10, 0), (256, 64, 1, 7, 8, 1),
            (129, 133, 1, 12, 19, 0), (256, 15, 2, 3, 10, 0), (3, 15, 2, 3, 3, 1), (251, 40, 3, 4, 24, 0),
            (256, 40, 3, 4, 120, 1), (4, 17, 8, 2, 34, 0), (256, 7, 1, 2, 7, 0)):
        code, runs = some_code(random, q, k, b, j)
        data, page = sent_outer(random, code, runs, length)
        replaced = (j - least) // 2
        page = damaged(random, q, page, branch_places(k, b, replaced, random))
        got = pages.decode_outer(*code, length, page, [least + 2, least, least], expect=0)
        assert got.result == data and not got.steps and got.counts.end == replaced
    # Last symbols alone, and a block's first and last.
    for places in ((3, 7), (0, 3), (15, 12)):
        data, page = sent_outer(random, ref.K_16, [[0, 1, 4, 6]], 4)
        got = pages.decode_outer(*ref.K_16, 4, damaged(random, 256, page, places), [0, 0], expect=0)
        assert got.result == data and not got.steps and got.counts.changes == 2


@group("outer steps by hand")
def outer_by_hand(pages, random):
    for data, s, length, steps in ref.OUTER_STEPS:
        assert pages.decode_outer(*ref.K_16, length, ref.page_16(data, s), [32], expect=0).steps == steps
    # The page of case 10: a change that was wrong, and the step that takes it back.
    page = [0] * 16 + ref.symbols(16, {0: 251, 1: 251, 4: 251})
    for length in (2, 4, 16):
        got = pages.decode_outer(*ref.K_16, length, page, [0], expect=0)
        assert got.steps == [(0, 251, 1)] and got.counts == (1, 2, 3, 3) and got.result == [0] * 16


def drawn_blocks(random, code, runs):
    """Data and a page on which S is drawn too: about half of it is 0, and the others are often one value, which many
    data symbols have."""
    q, k, b, _ = code
    value = 1 + random.below(q - 1)
    s = [random.pick((0, 0, value, random.below(q))) for _ in range(k)]
    data = [random.pick((0, value)) if random.below(4) else random.below(q) for _ in range(b * k)]
    return data, with_syndrome(q, k, runs, data, s)


def outer_found(pages, code, length, thresholds, drawn, wanted):
    """Draws data and a page until `wanted` is true of what the decode gives, the page and the data."""
    _, k, b, _ = code
    while True:
        data, page = drawn()
        if wanted(ref.decode_outer(*code, length, page, thresholds, *ref.decode_lengths(k, b))[1], page, data):
            return pages.decode_outer(*code, length, page, thresholds, expect=0)


def judged(q, k, runs, length, page):
    """For each block of a page, before any change: what it sums to, and the reliabilities of its symbols by that."""
    result, s, d = ref.opened(q, k, runs, page)
    sums = [(block, ref.block_sum(q, result, block)) for block in ref.blocks(length, len(result))]
    return [(e, [ref.reliability(ref.estimates(k, runs, s, d, j), e) for j in block]) for block, e in sums]


# q, k, b, J and block length of codes whose pages are searched for reliabilities.
SEARCHED = ((3, 16, 1, 4, 8), (256, 16, 1, 4, 16), (251, 24, 1, 4, 6), (256, 57, 1, 8, 19), (10, 31, 1, 6, 31),
            (4, 15, 2, 3, 10), (256, 20, 3, 2, 12), (256, 12, 1, 1, 4))


@group("outer steps, the earliest of the least")
def outer_ties(pages, random):
    """In the first block, which has a step, two or more of the symbols but the last have the least reliability, and the
    block's first symbol has more."""
    for q, k, b, j, length in SEARCHED:
        code, runs = some_code(random, q, k, b, j)

        def tied(got, page, data):
            _, (*others, last) = judged(q, k, runs, length, page)[0]
            return (bool(got.steps) and got.steps[0].symbol == others.index(min(others)) > 0
                    and others.count(min(others)) > 1)
        outer_found(pages, code, length, [32], lambda: drawn_blocks(random, code, runs), tied)


@group("outer steps, the last symbol of a block")
def outer_last(pages, random):
    """In the first block the least reliability of the others is above that of the last symbol, equal to it, below it by
    one: a step in the last case alone."""
    for (q, k, b, j, length), above in itertools.product(SEARCHED, (1, 0, -1)):
        code, runs = some_code(random, q, k, b, j)

        def so_much_above(got, page, data):
            e, (*others, last) = judged(q, k, runs, length, page)[0]
            return e != 0 and min(others) == last + above
        got = outer_found(pages, code, length, [32], lambda: drawn_blocks(random, code, runs), so_much_above)
        assert any(step.symbol < length for step in got.steps) == (above < 0)


@group("outer steps after changes")
def outer_changes(pages, random):
    """Damage outside the bound, on pages whose data kept the rule. The steps put right what the passes left; they leave
    fewer symbols wrong, or as many, or more; there are none though symbols are wrong."""
    # By the symbols that are wrong after the steps and those that were wrong before.
    kinds = (lambda after, before, steps: after == 0 < before,
             lambda after, before, steps: 0 < after < before,
             lambda after, before, steps: after == before and steps,
             lambda after, before, steps: after > before,
             lambda after, before, steps: after > 0 and not steps)
    for (q, k, b, j, length, percent, thresholds), kind in itertools.product((
            (256, 16, 1, 4, 4, 20, [0, 0, 0]), (3, 24, 1, 4, 6, 12, [1, 0, 0]), (251, 57, 1, 8, 19, 20, [2, 1, 0]),
            (256, 31, 1, 5, 31, 25, [1, 1, 0]), (10, 15, 2, 3, 10, 10, [0, 0]), (256, 20, 3, 2, 6, 5, [0])), kinds):
        code, runs = some_code(random, q, k, b, j)

        def drawn():
            data, page = sent_outer(random, code, runs, length)
            return data, damaged(random, q, page, random.some(range(len(page)), len(page) * percent // 100))

        def of_this_kind(got, page, data):
            passed = ref.decode(*code, page, thresholds, *ref.decode_lengths(k, b))[1]
            return kind(ref.distance(got.result, data), ref.distance(passed.result, data), got.steps)
        got = outer_found(pages, code, length, thresholds, drawn, of_this_kind)
        assert got.counts.changes == sum(got.changes_of_pass) + len(got.steps)


@group("outer steps across branches")
def outer_across(pages, random):
    """Block lengths that do not divide k, and one block of all: a step in a block that lies across branches, in its
    first branch and behind that."""
    for (q, k, b, j, length), behind in itertools.product((
            (256, 15, 2, 3, 10), (3, 15, 2, 3, 6), (251, 13, 2, 3, 26), (256, 20, 3, 2, 12), (16, 7, 4, 1, 4),
            (4, 17, 8, 2, 8)), (False, True)):
        code, runs = some_code(random, q, k, b, j)

        def across(got, page, data):
            for step in got.steps:
                first = step.symbol // length * length
                if (first + length - 1) // k > first // k and (step.symbol // k > first // k) == behind:
                    return True
            return False
        outer_found(pages, code, length, [0] if behind else [32], lambda: drawn_blocks(random, code, runs), across)


@group("outer steps, one block after another")
def outer_in_order(pages, random):
    """A step alters what a later block does: fewer steps are made than the reliabilities before all steps call for, or
    others; and steps in more than half of the blocks."""
    def called_for(q, k, runs, length, page):
        """The symbols of the steps, if none altered what a later block gets."""
        return {at * length + others.index(min(others))
                for at, (e, (*others, last)) in enumerate(judged(q, k, runs, length, page)) if e and min(others) < last}

    for q, k, b, j, length in ((256, 16, 1, 4, 4), (3, 16, 1, 4, 2), (251, 24, 1, 4, 6), (256, 57, 1, 8, 19),
                               (4, 15, 2, 3, 5), (129, 20, 3, 2, 6)):
        code, runs = some_code(random, q, k, b, j)
        for wanted in (lambda made, due: len(made) < len(due), lambda made, due: not made <= due,
                       lambda made, due: 2 * len(made) * length > b * k):
            outer_found(pages, code, length, [32], lambda: drawn_blocks(random, code, runs),
                        lambda got, page, data: wanted({step.symbol for step in got.steps},
                                                       called_for(q, k, runs, length, page)))


@group("outer checks, heavy damage")
def outer_heavy(pages, random):
    """Every symbol random, so that nearly every block does not sum to 0."""
    steps = 0
    for q, k, b, j, length, thresholds in (
            (3, 2, 1, 1, 2, [0]), (3, 7, 1, 3, 7, [0] * 8), (256, 7, 1, 2, 7, [0]), (3, 16, 1, 4, 2, [0] * 16),
            (4, 16, 1, 4, 8, [1, 0, 0]), (256, 16, 1, 4, 4, [0] * 16), (10, 24, 1, 4, 4, [2, 0]),
            (251, 57, 1, 8, 3, [0] * 8), (3, 57, 1, 8, 19, [0] * 32), (5, 133, 1, 12, 7, [3, 2, 1, 0]),
            (256, 64, 1, 7, 2, [0] * 4), (3, 15, 2, 3, 2, [0] * 8), (129, 40, 3, 4, 12, [0] * 4),
            (7, 17, 8, 2, 4, [0] * 64), (256, 17, 8, 2, 68, [0]), (3, 1, 8, 1, 2, [0, 0]),
            (3, 993, 1, 32, 331, [0] * 3)):
        code, _ = some_code(random, q, k, b, j)
        steps += len(pages.decode_outer(*code, length, random.symbols(q, (b + 1) * k), thresholds, expect=0).steps)
    assert steps > 50


@group("outer checks, the limits of the block length")
def outer_lengths(pages, random):
    """Lengths on both sides of 2 and of the number of data symbols; that divide a page and not its data; and that pass
    where only low bits are looked at."""
    def asked(code, lengths, number):
        q, k, b, _ = code
        for length in lengths:
            pages.encode_outer(*code, length, [0] * (b * k), expect=number)
            pages.decode_outer(*code, length, [0] * ((b + 1) * k), [0], expect=number)

    asked(ref.K_16, (2, 16), 0)
    asked(ref.K_16, (0, 1, 3, 15, 17, 32, 258, 65538, 2 ** 31 + 2, 2 ** 32 - 16, 2 ** 32 - 1), 12)
    for q, k, b, j, right, other in ((5, 1, 1, 1, (), (1, 2)), (5, 13, 1, 4, (13,), (2,)),
                                     (5, 15, 2, 3, (30,), (4, 9, 45)), (5, 1, 7, 1, (7,), (2, 8))):
        code, _ = some_code(random, q, k, b, j)
        asked(code, right, 0)
        asked(code, other, 12)


@group("outer checks, refusals one by one")
def outer_one_by_one(pages, random):
    a = ref.CODE_A
    for q, k, b, table, number in ((2, 16, 1, a, 1), (257, 16, 1, a, 1), (5, 0, 1, a, 2), (5, 65552, 1, a, 2),
                                   (5, 16, 0, a, 10), (5, 16, 9, a, 10), (5, 16, 1, b"", 3), (5, 16, 3, a, 3),
                                   (5, 16, 1, ref.table_of([0, 16]), 4), (5, 12, 1, a, 5),
                                   (5, 16, 2, ref.table_of([0, 1], [0, 1]), 5)):
        n = 16 * (b if b in (1, 2) else 1)
        pages.encode_outer(q, k, b, table, 2, [0] * n, page_len=n + 16, expect=number)
        pages.decode_outer(q, k, b, table, 2, [0] * (n + 16), [0], lengths=(n, 16, n, 4 * n), expect=number)
    # 6: each length of a symbol less and one more.
    right = ref.decode_lengths(16, 1)
    for more in (-1, 1):
        pages.encode_outer(5, *ref.K_16[1:], 4, [0] * (16 + more), page_len=32, expect=6)
        pages.encode_outer(5, *ref.K_16[1:], 4, [0] * 16, page_len=32 + more, expect=6)
        pages.decode_outer(5, *ref.K_16[1:], 4, [0] * (32 + more), [0], expect=6)
        for at in range(4):
            lengths = right[:at] + (right[at] + (4 * more if at == 3 else more),) + right[at + 1:]
            pages.decode_outer(5, *ref.K_16[1:], 4, [0] * 32, [0], lengths=lengths, expect=6)
    # 7: at both ends of the data and of the checks. 8, 9: also where no pass comes to the threshold.
    for place in (0, 15):
        pages.encode_outer(251, *ref.K_16[1:], 4, ref.symbols(16, {place: 251}), expect=7)
    for place in (0, 15, 16, 31):
        pages.decode_outer(251, *ref.K_16[1:], 4, ref.symbols(32, {place: 251}), [0], expect=7)
    for thresholds, number in (([], 8), ([0] * 65, 8), ([33], 9), ([0, 255], 9), ([32] * 64, 0)):
        pages.decode_outer(5, *ref.K_16[1:], 4, [0] * 32, thresholds, expect=number)


@group("outer checks, refusals with 12")
def outer_refused(pages, random):
    """12 with each other refusal, and each with all that come after it."""
    for call, add in ((ENCODE_OUTER, pages.encode_outer), (DECODE_OUTER, pages.decode_outer)):
        *others, last = REFUSALS[call]
        assert last == 12
        refused_by_first(call, add, [(number, 12) for number in others] + with_all_after(call) + [(12,)])


@group("outer checks in C alone", c_only=True)
def outer_c_only(pages, random):
    """Tables of an odd length, and margins of no whole number, with a block length that is refused and not."""
    for length in (2, 0):
        for table_len in (7, 9):
            table = (ref.CODE_A + b"\0")[:table_len]
            pages.encode_outer(5, 16, 1, table, length, [0] * 16, expect=3)
            pages.decode_outer(5, 16, 1, table, length, [0] * 32, [0], expect=3)
        for margins_len in (63, 65):
            pages.decode_outer(5, *ref.K_16[1:], length, [0] * 32, [0], lengths=(16, 16, 16, margins_len), expect=6)


# Bit pages (request N9)

def smallest_k(j):
    """The smallest k of Singer's tables that has j positions."""
    return min(k for k, p in SINGER.items() if p + 1 >= j)


def seven_calls(calls, q, k, b, table, lent_for=None, expect=None):
    """The seven calls of a profile on symbols that are all 0, in buffers for this k and b or for another pair."""
    other_k, other_b = lent_for or (k, b)
    n, page = other_b * other_k, [0] * ((other_b + 1) * other_k)
    calls.check_table(q, k, b, table, expect=expect)
    calls.encode(q, k, b, table, [0] * n, page_len=len(page), expect=expect)
    calls.syndrome(q, k, b, table, page, syndrome_len=other_k, expect=expect)
    calls.decode(q, k, b, table, page, [0], lengths=ref.decode_lengths(other_k, other_b), expect=expect)
    calls.open_and_pass(q, k, b, table, (other_k, other_b), expect=expect)
    asked_of_zeros(calls, q, k, b, table, (other_k, other_b), expect=expect)


@group("bits, the limits of q")
def bits_q(pages, random):
    """2 alone passes; numbers whose low bits are 2 are among the others."""
    for q in (0, 1, 2, 3, 4, 256, 257, 258, 65538, 2 ** 31 + 2, 2 ** 32 - 1):
        seven_calls(pages.bits, q, 13, 1, ref.CODE_A, expect=0 if q == 2 else 1)
    # 1 comes first, whatever else is amiss.
    for q in (0, 1, 3, 256, 2 ** 32 - 1):
        pages.bits.check_table(q, 0, 9, b"", expect=1)
        pages.bits.decode(q, 4097, 0, b"", [255], [33] * 65, lengths=(1, 2, 3, 4), expect=1)
        pages.bits.pass_once(q, 12, 1, ref.CODE_A, 33, [2], [255], [3], expect=1)
        pages.bits.explain(q, 12, 1, ref.CODE_A, 33, 2 ** 32 - 1, [2], [255], [3], expect=1)


@group("bits, pages worked by hand")
def bits_by_hand(pages, random):
    data = ref.symbols(13, {0: 1, 12: 1})
    pages.bits.encode(*bits.A, data, expect=0)
    pages.bits.syndrome(*bits.A, data + [0] * 13, expect=0)
    for page, thresholds, *_, counts in bits.PAGES:
        assert pages.bits.decode(*bits.A, page, thresholds, expect=0).counts == counts
    # k = 1: the page is the bit twice.
    for bit in (0, 1):
        pages.bits.encode(2, 1, 1, ref.table_of([0]), [bit], expect=0)
        for check in (0, 1):
            got = pages.bits.decode(2, 1, 1, ref.table_of([0]), [bit, check], [0], expect=0)
            assert got.result == [bit] and got.margins == [2 if bit == check else 0]


@group("bits, tables")
def bits_tables(pages, random):
    for k, b, j in ((1, 1, 1), (1, 8, 1), (7, 1, 3), (13, 2, 3), (17, 8, 2), (57, 1, 8), (307, 1, 17), (400, 7, 8),
                    (512, 8, 7), (993, 1, 31), (993, 1, 32), (2048, 2, 20), (4096, 1, 32)):
        code, _ = some_code(random, 2, k, b, j)
        pages.bits.check_table(*code, expect=0)
    for k, b, runs, number in ((0, 1, [[0]], 2), (4097, 1, [[0]], 2), (13, 0, [[0]], 10), (13, 9, [[0]] * 9, 10),
                               (2049, 2, [[0], [0]], 10), (513, 8, [[0]] * 8, 10), (13, 1, [], 3),
                               (4096, 1, [range(33)], 3), (13, 2, [[0, 1, 4]], 3), (13, 1, [[0, 13]], 4),
                               (13, 1, [[0, 4, 1]], 4), (13, 2, [[0, 1], [2, 2]], 4), (12, 1, [[0, 1, 4, 6]], 5),
                               (4096, 1, [[0, 2048]], 5), (13, 2, [[0, 1], [0, 1]], 5), (13, 2, [[0, 1], [0, 12]], 5)):
        pages.bits.check_table(2, k, b, ref.table_of(*runs), expect=number)


@group("bits, encode and syndrome")
def bits_encode(pages, random):
    for k, b, j in ((1, 1, 1), (1, 8, 1), (2, 1, 1), (3, 1, 2), (7, 1, 3), (13, 1, 4), (5, 2, 2), (13, 2, 3), (31, 1, 5),
                    (40, 3, 4), (57, 1, 8), (31, 7, 2), (17, 8, 2), (133, 1, 11), (156, 5, 6), (307, 1, 18), (993, 1, 32),
                    (512, 8, 7), (1365, 3, 3), (4096, 1, 10)):
        code, runs = some_code(random, 2, k, b, j)
        data = random.symbols(2, b * k)
        pages.bits.encode(*code, data, expect=0)
        if b * k < 1000:
            word = ref.code_word(2, k, runs, data)
            pages.bits.syndrome(*code, word, expect=0)
            pages.bits.syndrome(*code, damaged(random, 2, word, [random.below(len(word))]), expect=0)
            pages.bits.syndrome(*code, random.symbols(2, (b + 1) * k), expect=0)
    # All ones, so that a check is the parity of b times J; all zeros.
    for k, b, j in ((57, 1, 7), (57, 1, 8), (993, 1, 31), (993, 1, 32), (31, 7, 2), (27, 5, 1), (27, 8, 1)):
        code, _ = some_code(random, 2, k, b, j)
        pages.bits.encode(*code, [1] * (b * k), expect=0)
        pages.bits.syndrome(*code, [1] * (b * k) + [0] * k, expect=0)
        pages.bits.syndrome(*code, [0] * (b * k) + [1] * k, expect=0)
    pages.bits.encode(*bits.A, [0] * 13, expect=0)


def bits_decoded(pages, random, code, runs, thresholds, places):
    """A page with the bits at these places replaced. Inside the bound the data comes back. Returns what decode gave."""
    _, k, b, _ = code
    data = random.symbols(2, b * k)
    page = damaged(random, 2, ref.code_word(2, k, runs, data), places)
    got = pages.bits.decode(*code, page, thresholds, expect=0)
    assert got.result == data or 2 * len(places) + min(thresholds) > len(runs[0])
    return got


# k, b and J of codes with odd and even numbers of estimates, up to eight branches.
BIT_CODES = ((3, 1, 2), (7, 1, 3), (13, 1, 4), (31, 1, 5), (31, 1, 6), (57, 1, 7), (57, 1, 8), (133, 1, 11),
             (133, 1, 12), (13, 2, 3), (40, 3, 4), (15, 2, 3), (27, 4, 3), (156, 5, 6), (13, 6, 2), (31, 7, 2),
             (17, 8, 2), (307, 1, 18), (993, 1, 31), (993, 1, 32))


@group("bits, decode, clean pages")
def bits_clean(pages, random):
    for at, (k, b, j) in enumerate(((1, 1, 1), (1, 8, 1), *BIT_CODES)):
        code, runs = some_code(random, 2, k, b, j)
        got = bits_decoded(pages, random, code, runs, LISTS[at], [])
        assert got.places == ref.strict_minima(LISTS[at]) and got.counts[1:] == (0, 0, 0)


@group("bits, decode, damage inside the bound")
def bits_inside(pages, random):
    """As many bits replaced as the smallest threshold allows, anywhere, and on one data bit and its checks."""
    for at, (k, b, j) in enumerate(BIT_CODES):
        for least in sorted({0, 1, j // 2} - {j, j - 1})[:1 if k > 150 else 3]:
            code, runs = some_code(random, 2, k, b, j)
            t = (j - least) // 2
            lists = lists_inside(j, least)
            bits_decoded(pages, random, code, runs, lists[(at + least) % len(lists)], branch_places(k, b, t, random))
            if k > 150:
                continue
            symbol = random.below(b * k)
            checks = [b * k + i for i in ref.checks_of(k, runs, symbol)]
            for places in ([symbol] + checks[:t - 1], checks[-t:]):
                got = bits_decoded(pages, random, code, runs, [least], places)
                assert got.counts.changes == (symbol in places)


@group("bits, decode, damage outside the bound")
def bits_outside(pages, random):
    """From one bit more than the bound allows to a quarter of the page."""
    changed = 0
    for at, ((k, b, j), share) in enumerate(itertools.product(BIT_CODES, (0, 16, 4))):
        if k > 900 and share > 0:
            continue
        code, runs = some_code(random, 2, k, b, j)
        count = max((b + 1) * k // share if share else 0, j // 2 + 1)
        thresholds = ([0] * 4, [2, 1, 0, 0, 0], [j // 2, 0, 0], [1] * 3, [0] * 12)[at % 5]
        got = bits_decoded(pages, random, code, runs, thresholds, branch_places(k, b, count, random))
        changed += got.counts.changes > 0
    assert changed > 40
    # The checks of one data bit replaced, so many that it is changed though it was right.
    for k, b, j in ((13, 1, 4), (57, 1, 7), (40, 3, 4), (307, 1, 18)):
        code, runs = some_code(random, 2, k, b, j)
        checks = ref.checks_of(k, runs, random.below(b * k))[:(j + 1) // 2 + 1]
        got = bits_decoded(pages, random, code, runs, [0], [b * k + i for i in checks])
        assert got.counts.changes > 0 and got.counts.end < got.counts.start


@group("bits, decode, every bit random")
def bits_heavy(pages, random):
    """Every J up to 14 and some above."""
    for j in (*range(1, 15), 16, 17, 20, 23, 31, 32):
        code, _ = some_code(random, 2, smallest_k(j), 1, j)
        thresholds = random.pick(([0] * 8, [j // 4, 1, 0, 0], [2, 1, 0], [0] * 64))
        pages.bits.decode(*code, random.symbols(2, 2 * code[1]), thresholds, expect=0)
    for k, b, j, thresholds in ((1, 2, 1, [0] * 3), (1, 8, 1, [0]), (5, 2, 2, [0] * 8), (13, 2, 3, [0] * 16),
                                (40, 3, 4, [1, 0, 0]), (17, 8, 2, [0] * 16), (156, 5, 6, [2, 0, 0])):
        code, _ = some_code(random, 2, k, b, j)
        pages.bits.decode(*code, random.symbols(2, (b + 1) * k), thresholds, expect=0)


@group("bits, decode, every threshold")
def bits_thresholds(pages, random):
    """One page with 9 estimates a symbol and one with 8, decoded with each threshold alone, from 0 to 32. S is drawn so
    that 1 leads by every number of votes that it can."""
    for j in (7, 8):
        code, runs = some_code(random, 2, 57, 1, j)
        page = with_syndrome(2, 57, runs, random.symbols(2, 57), [int(random.below(5) > 0) for _ in range(57)])
        for threshold in range(33):
            got = pages.bits.decode(*code, page, [threshold], expect=0)
            assert (got.counts.changes > 0) == (threshold < j - 1)


@group("bits, schedules")
def bits_schedules(pages, random):
    """Symbols of known leads: what each pass has to change is known. J = 8 and J = 7; three branches."""
    positions = greedy(256)[:8]
    for thresholds, places, changes in PASSES_BY_LEADS:
        scheduled(pages.bits, random, 2, 256, [positions], [7, 5, 3, 1], thresholds, places, changes)
    falling = [7, 6, 5, 4, 3, 2, 1, 0]
    for count, lead in ((8, 7), (8, 5), (8, 1), (7, 6), (7, 4), (7, 2)):
        scheduled(pages.bits, random, 2, 133, [positions_for(random, 133, count)], [lead], falling, list(range(8)),
                  [int(t == lead - 1) for t in falling])
    runs = runs_for(random, 156, 3, 6)
    for leads in ([5, 3, 1], [1, 5, 3]):
        for thresholds, places, changes in (([5, 4, 3, 2, 1, 0], [0, 1, 2, 3, 4, 5], [0, 1, 0, 1, 0, 1]),
                                            ([5, 5, 4, 4, 4, 1], [0, 2, 3, 5], [0, 1, 0, 1]),
                                            ([2, 6, 7, 2, 0], [0, 1, 3, 4], [2, 0, 0, 1]),
                                            ([32] * 62 + [0, 0], [0, 62, 63], [0, 3, 0])):
            scheduled(pages.bits, random, 2, 156, runs, leads, thresholds, places, changes)
    # Lists of every kind with damage outside the bound.
    for at, thresholds in enumerate(LISTS):
        k, b, j = ((57, 1, 8), (31, 1, 5), (40, 3, 4), (57, 1, 7))[at % 4]
        code, runs = some_code(random, 2, k, b, j)
        bits_decoded(pages, random, code, runs, thresholds, branch_places(k, b, (b + 1) * k // 8, random))


def chain_of_bits(length):
    """A page, data all 0, on which pass n makes the one change that the change of pass n - 1 calls for.

    k = 1021 and positions 0, 1, 125, 762. The symbols of the chain run down from 921. Neighbours share a check, which is
    0 until the one before is changed; each has two ones among its other estimates, and then three of five."""
    s = [0] * 1021
    for j in range(921, 921 - length, -1):
        s[(j + 125) % 1021] ^= 1
        s[(j + 762) % 1021] ^= 1
    s[922] ^= 1
    return [0] * 1021 + s


@group("bits, 64 passes and all estimates ones")
def bits_passes(pages, random):
    table = ref.table_of([0, 1, 125, 762])
    for length, changes in ((70, [1] * 64), (63, [1] * 63 + [0])):
        got = pages.bits.decode(2, 1021, 1, table, chain_of_bits(length), [0] * 64, expect=0)
        assert got.changes_of_pass == changes
    # Symbol 0 is changed and changed back, by all J + 1 estimates: with a threshold of J, not with J + 1.
    for k, positions, second, changes in ((512, [0, 1, 20, 60], 4, [4, 1]), (512, [0, 1, 20, 60], 5, [4, 0]),
                                          (1021, greedy(1021)[:12], 12, [8, 1]),
                                          (4096, greedy(4096)[:32], 32, [18, 1])):
        got = pages.bits.decode(2, k, 1, ref.table_of(positions), turned_back(2, k, positions), [0, second], expect=0)
        assert got.changes_of_pass == changes


@group("bits, margins from -(J + 1) to J + 1")
def bits_margins(pages, random):
    """Zeros minus ones: each value that it can have. -(J + 1) is that of a bit that was changed and is to be changed
    back. A threshold of 32 leaves every received page as it is."""
    for k, positions in ((512, [0, 1, 20, 60]), (512, greedy(512)[:7]), (512, greedy(512)[:8]), (1021, greedy(1021)[:12])):
        table, j = ref.table_of(positions), len(positions)
        seen = set(pages.bits.decode(2, k, 1, table, stepped(random, 2, k), [32], expect=0).margins)
        assert seen == set(range(1 - j, j + 2, 2))
    for k, positions in ((512, [0, 1, 20, 60]), (512, greedy(512)[:8])):
        got = pages.bits.decode(2, k, 1, ref.table_of(positions), turned_back(2, k, positions), [0], expect=0)
        assert got.margins[0] == -len(positions) - 1
    for k, b, j in ((512, 2, 4), (512, 8, 5)):
        runs = greedy_runs(k, b, j)
        page = [0] * (b * k) + [0 if i < k // 2 else int(random.below(8) > 0) for i in range(k)]
        got = pages.bits.decode(2, k, b, ref.table_of(*runs), page, [32], expect=0)
        for r in range(b):
            assert set(got.margins[r * k:(r + 1) * k]) == set(range(1 - j, j + 2, 2))


@group("bits, openings")
def bits_openings(pages, random):
    for k, b, j in ((1, 1, 1), (1, 8, 1), *BIT_CODES):
        code, runs = some_code(random, 2, k, b, j)
        got = pages.bits.open_page(*code, random.symbols(2, (b + 1) * k), expect=0)
        assert not any(got.difference)
        if k < 100:
            data = random.symbols(2, b * k)
            got = pages.bits.open_page(*code, ref.code_word(2, k, runs, data), expect=0)
            assert got == (data, [0] * k, [0] * (b * k))
    for k, b, j in ((57, 1, 7), (57, 1, 8), (31, 7, 2)):
        code, _ = some_code(random, 2, k, b, j)
        pages.bits.open_page(*code, [1] * ((b + 1) * k), expect=0)


@group("bits, passes on opened pages")
def bits_passes_opened(pages, random):
    """Inside the bound and outside it, no pass skipped; refused ones between those that are made; the passes of a
    decode."""
    for k, b, j, replaced, thresholds in (
            (13, 1, 4, 2, [0, 0]), (13, 1, 4, 1, [2]), (31, 1, 6, 3, [4, 1, 0]), (31, 1, 5, 2, [32, 1]),
            (57, 1, 8, 2, [3, 4]), (13, 2, 3, 1, [1, 0]), (31, 7, 2, 1, [1, 0]), (17, 8, 2, 1, [0]),
            (13, 1, 4, 6, [2, 0, 0]), (31, 1, 6, 10, [1, 0, 0]), (57, 1, 8, 14, [2, 1, 0, 0]),
            (57, 1, 7, 19, [3, 0, 3, 0]), (40, 2, 4, 13, [1, 0, 0]), (40, 3, 4, 20, [2, 1, 0, 0]), (17, 8, 2, 8, [1, 0])):
        code, runs = some_code(random, 2, k, b, j)
        opened_passes(pages.bits, random, code, runs, replaced, thresholds)
    for k, b, j, replaced, calls in (
            (13, 1, 4, 2, [4294967295, 33, 0]), (13, 1, 4, 1, [(0, RESULT, -1), 2, (0, RESULT, 1), 2]),
            (31, 1, 6, 3, [2, (0, S, -1), (0, S, 1), 0]), (31, 1, 5, 2, [(0, D, -1), (1, D, 1), 1, 256]),
            (13, 2, 3, 1, [33, (0, RESULT, -13), 1, (0, D, -13)]), (17, 8, 2, 1, [(0, RESULT, 17), 2147483648, 0])):
        code, runs = some_code(random, 2, k, b, j)
        opened_passes(pages.bits, random, code, runs, replaced, calls)
    for k, b, j, replaced, thresholds in ((31, 1, 6, 9, [4, 4, 2, 0, 0]), (57, 1, 7, 16, [3, 0, 2, 1, 0]),
                                          (40, 3, 4, 12, [2, 1, 3, 0, 0])):
        code, runs = some_code(random, 2, k, b, j)
        page = damaged(random, 2, ref.code_word(2, k, runs, random.symbols(2, b * k)),
                       branch_places(k, b, replaced, random))
        decoded = pages.bits.decode(*code, page, thresholds, expect=0)
        buffers = pages.bits.open_page(*code, page, expect=0)
        after, made = passes_in_turn(pages.bits, code, buffers, [thresholds[i] for i in decoded.places])
        assert after == decoded[:3] and made == decoded.changes_of_pass and sum(made) > 0


@group("bits, passes on buffers of any content")
def bits_passes_any(pages, random):
    """Every J: mostly ones, or every bit random. Then passes in turn, and S and D all 0."""
    for j in range(1, 33):
        code, _ = some_code(random, 2, smallest_k(j), 1, j)
        buffers = (any_buffers, random_buffers)[j // 2 % 2](random, 2, code[1], 1)
        pages.bits.pass_once(*code, (0, 1, 0, j // 4)[j % 4], *buffers, expect=0)
    for k, b, j, buffers_of in ((57, 1, 8, any_buffers), (17, 8, 2, any_buffers), (31, 1, 6, random_buffers),
                                (27, 4, 3, random_buffers)):
        code, _ = some_code(random, 2, k, b, j)
        _, made = passes_in_turn(pages.bits, code, buffers_of(random, 2, k, b), [j, j // 2, 0, 0])
        assert sum(changes > 0 for changes in made) > 1
    for k, b, j, threshold in ((1, 1, 1, 0), (1, 8, 1, 32), (13, 1, 4, 4), (17, 8, 2, 0)):
        code, _ = some_code(random, 2, k, b, j)
        got = pages.bits.pass_once(*code, threshold, random.symbols(2, b * k), [0] * k, [0] * (b * k), expect=0)
        assert got.changes == 0
    # J = 1 and D = S, all ones: every bit is changed, so that the number of changes takes two bytes.
    for k in (255, 256, 300):
        got = pages.bits.pass_once(2, k, 1, ref.table_of([0]), 1, random.symbols(2, k), [1] * k, [1] * k, expect=0)
        assert got.changes == k and not any(got.syndrome + got.difference)


def ones_in_any_order(random, j, ones):
    """J + 1 estimates with so many ones."""
    return in_any_order(random, {1: ones, 0: j + 1 - ones})


@group("bits, passes, every number of ones")
def bits_passes_votes(pages, random):
    """The estimates of one symbol have so many ones; each other symbol has one of its checks at most and is left. The
    threshold is the largest that lets the lead through, and the smallest that does not."""
    for k, j in ((7, 1), (7, 2), (7, 3), (13, 4), (31, 5), (31, 6), (57, 7), (57, 8), (993, 31), (993, 32)):
        code, runs = some_code(random, 2, k, 1, j)
        for ones in range(j + 2) if j < 9 else (j // 2, j // 2 + 1, j, j + 1):
            symbol, lead = random.below(k), 2 * ones - (j + 1)
            values = ones_in_any_order(random, j, ones)
            s = ref.symbols(k, dict(zip(ref.checks_of(k, runs, symbol), values[1:])))
            for threshold in sorted({max(lead - 1, 0), min(max(lead, 0), 32)}):
                got = pages.bits.pass_once(*code, threshold, random.symbols(2, k), s, ref.symbols(k, {symbol: values[0]}),
                                           expect=0)
                assert got.changes == (lead > threshold)


def bits_explained(pages, random, code, runs, symbol, threshold, values):
    """The estimates of a symbol are these values: the answer follows from their ones. Returns the ground."""
    buffers = with_estimates(random, code, runs, symbol, values)
    got = pages.bits.explain(*code, threshold, symbol, *buffers, expect=0)
    ones, zeros = values.count(1), values.count(0)
    assert got[1:4] == (int(ones > zeros), max(ones, zeros), min(ones, zeros))
    assert [got.bits >> i & 1 for i in range(64)] == [int(value == got.h0) for value in values] + [0] * (64 - len(values))
    return got.ground


@group("bits, explanations, every number of ones")
def bits_explain_ones(pages, random):
    """Up to J = 8 each number with the largest threshold below the lead and with the lead; above it for every J the
    numbers about half."""
    for j in range(1, 9):
        code, runs = some_code(random, 2, smallest_k(j), 1, j)
        for ones in range(j + 2):
            lead = abs(2 * ones - (j + 1))
            for threshold in sorted({max(lead - 1, 0), lead}):
                ground = bits_explained(pages, random, code, runs, random.below(code[1]), threshold,
                                        ones_in_any_order(random, j, ones))
                assert ground == (1 if lead <= threshold else 3 if 2 * ones > j + 1 else 2)
    for j in range(9, 32):
        code, runs = some_code(random, 2, smallest_k(j), 1, j)
        for ones in (j // 2, j // 2 + 1, j // 2 + 2)[:3 if j < 15 else 1 + j % 2]:
            bits_explained(pages, random, code, runs, random.below(code[1]), 0, ones_in_any_order(random, j, ones))


@group("bits, explanations, J = 32")
def bits_explain_widest(pages, random):
    """33 estimates, each of them in turn the one that differs from the others; then words of both kinds."""
    code, runs = some_code(random, 2, 993, 1, 32)
    for at in range(33):
        values = [(i == at) ^ (at % 2) for i in range(33)]
        ground = bits_explained(pages, random, code, runs, random.below(993), (30, 31)[at % 4 == 3], values)
        assert ground == (1 if at % 4 == 3 else 2 + at % 2)
    for values, threshold, ground in (([0] * 33, 32, 2), ([1] * 33, 32, 3), ([1] * 17 + [0] * 16, 0, 3),
                                      ([0] * 17 + [1] * 16, 0, 2), ([0] * 16 + [1] * 17, 1, 1),
                                      ([1] * 16 + [0] * 17, 1, 1), ([1, 0] * 16 + [1], 0, 3), ([0, 1] * 16 + [0], 0, 2)):
        assert bits_explained(pages, random, code, runs, (0, 992)[values[0]], threshold, values) == ground


@group("bits, explanations, ties")
def bits_explain_ties(pages, random):
    """As many ones as zeros, which J odd has: h0 is 0, wherever it stands, and the ground is 1 at every threshold."""
    for k, j, some in ((1, 1, 2), (7, 3, 6), (31, 5, 8), (57, 7, 6), (133, 11, 3), (993, 31, 2)):
        code, runs = some_code(random, 2, k, 1, j)
        every = [[int(i in ones) for i in range(j + 1)] for ones in itertools.combinations(range(j + 1), (j + 1) // 2)] \
            if j < 6 else [ones_in_any_order(random, j, (j + 1) // 2) for _ in range(some)]
        for at, values in enumerate(random.some(every, some)):
            assert bits_explained(pages, random, code, runs, random.below(k), (0, 32, 1)[at % 3], values) == 1
    # Every threshold.
    for threshold in range(33):
        assert bits_explained(pages, random, (2, 7, 1, ref.table_of([0, 1, 3])), [[0, 1, 3]], threshold % 7, threshold,
                              [(1, 1, 0, 0), (0, 1, 0, 1)][threshold % 2]) == 1


@group("bits, explanations, every threshold")
def bits_explain_thresholds(pages, random):
    """All estimates ones, all but one, and all zeros, with each threshold from 0 to 32, J = 8 and J = 7."""
    for j, threshold in itertools.product((7, 8), range(33)):
        code, runs = some_code(random, 2, 57, 1, j)
        ones = (j + 1, j, 0)[threshold % 3]
        lead = abs(2 * ones - (j + 1))
        ground = bits_explained(pages, random, code, runs, random.below(57), threshold, ones_in_any_order(random, j, ones))
        assert ground == (1 if lead <= threshold else 3 if ones else 2)


@group("bits, explanations in every branch")
def bits_explain_branches(pages, random):
    """The first and the last symbol of each, then symbol numbers beyond them."""
    for k, b, j in ((13, 1, 4), (13, 2, 3), (27, 4, 3), (17, 8, 2)):
        code, runs = some_code(random, 2, k, b, j)
        for at, (r, i) in enumerate(itertools.product(range(b), (0, k - 1))):
            threshold, ones = ((j - 1, j), (j - 2, j), (j - 2, 1))[at % 3]
            assert bits_explained(pages, random, code, runs, r * k + i, threshold, ones_in_any_order(random, j, ones)) == \
                (1, 3, 2)[at % 3]
        buffers = random_buffers(random, 2, k, b)
        for symbol in (b * k, (b + 1) * k, 256, 65536, 2 ** 31, 2 ** 32 - 1):
            pages.bits.explain(*code, 1, symbol, *buffers, expect=11)
    # k = 1: each branch has one symbol, and all have the one check.
    for s, d in itertools.product((0, 1), repeat=2):
        got = pages.bits.explain(2, 1, 8, ref.table_of(*[[0]] * 8), 1, 5, [0] * 8, [s], [1 - d] * 5 + [d] + [1 - d] * 2,
                                 expect=0)
        assert got == ((2 + s, s, 2, 0, 3) if s == d else (1, 0, 1, 1, 2 - s))
    code, _ = some_code(random, 2, 512, 8, 7)
    pages.bits.explain(*code, 0, 4095, *random_buffers(random, 2, 512, 8), expect=0)


@group("bits, explanations of opened pages")
def bits_explain_opened(pages, random):
    """A page is opened, bits are asked for, a pass is made, they are asked for again."""
    grounds = []
    for k, b, j, replaced, thresholds in (
            (13, 1, 4, 2, [2, 0]), (31, 1, 6, 3, [2, 0]), (31, 1, 5, 9, [1]), (57, 1, 8, 4, [3]), (57, 1, 7, 12, [2, 0]),
            (13, 2, 3, 1, [1, 0]), (40, 3, 4, 6, [0]), (17, 8, 2, 8, [0])):
        code, runs = some_code(random, 2, k, b, j)
        places = branch_places(k, b, replaced, random)
        page = damaged(random, 2, ref.code_word(2, k, runs, random.symbols(2, b * k)), places)
        buffers = pages.bits.open_page(*code, page, expect=0)
        asked = [place for place in places[:2] if place < b * k] + [random.below(b * k)]
        for threshold in thresholds:
            grounds += [pages.bits.explain(*code, threshold, symbol, *buffers, expect=0).ground for symbol in asked]
            buffers = pages.bits.pass_once(*code, threshold, *buffers, expect=0)[:3]
        grounds += [pages.bits.explain(*code, thresholds[-1], symbol, *buffers, expect=0).ground for symbol in asked]
    assert min(grounds.count(ground) for ground in (1, 2, 3)) >= 4


@group("bits, refusals one by one")
def bits_one_by_one(pages, random):
    """Each refusal of each call, at the edges of what it tests; 1 has a group of its own, 11 stands with the branches."""
    a, two, lent_for = ref.CODE_A, ref.table_of([0, 1, 4], [0, 2, 7]), (13, 1)
    for k, b, table, number in ((0, 1, a, 2), (4097, 1, a, 2), (65549, 1, a, 2), (13, 0, a, 10), (13, 9, a, 10),
                                (16, 2 ** 28 + 1, a, 10), (2049, 2, a, 10), (13, 1, b"", 3),
                                (13, 1, ref.table_of(range(33)), 3), (13, 3, a, 3),
                                (13, 1, ref.table_of([0, 1, 4, 13]), 4), (12, 1, a, 5)):
        seven_calls(pages.bits, 2, k, b, table, lent_for, expect=number)

    # 6: each buffer one symbol off, and one branch.
    page, right = [0] * 39, ref.decode_lengths(13, 2)
    for more in (-1, 1, -13, 13):
        pages.bits.encode(2, 13, 2, two, [0] * (26 + more), page_len=39, expect=6)
        pages.bits.encode(2, 13, 2, two, [0] * 26, page_len=39 + more, expect=6)
        pages.bits.syndrome(2, 13, 2, two, [0] * (39 + more), expect=6)
        pages.bits.syndrome(2, 13, 2, two, page, syndrome_len=13 + more, expect=6)
        pages.bits.decode(2, 13, 2, two, [0] * (39 + more), [0], expect=6)
        pages.bits.open_page(2, 13, 2, two, [0] * (39 + more), expect=6)
        for at, length in enumerate(right):
            lengths = right[:at] + (length + (4 * more if at == 3 else more),) + right[at + 1:]
            pages.bits.decode(2, 13, 2, two, page, [0], lengths=lengths, expect=6)
            if at < 3:
                pages.bits.open_page(2, 13, 2, two, page, lengths[:3], expect=6)
                buffers = resized([[0] * n for n in right[:3]], at, more)
                pages.bits.pass_once(2, 13, 2, two, 0, *buffers, expect=6)
                pages.bits.explain(2, 13, 2, two, 0, 0, *buffers, expect=6)

    # 7: a byte of 2, 3, 128 and 255 at both ends of every input, of S and D too; with a 1 there it is none.
    for symbol in (1, 2, 3, 128, 255):
        number = 7 if symbol > 1 else 0
        for place in (0, 25):
            pages.bits.encode(2, 13, 2, two, ref.symbols(26, {place: symbol}), expect=number)
        for place in (0, 25, 26, 38):
            received = ref.symbols(39, {place: symbol})
            pages.bits.syndrome(2, 13, 2, two, received, expect=number)
            pages.bits.decode(2, 13, 2, two, received, [0], expect=number)
            pages.bits.open_page(2, 13, 2, two, received, expect=number)
        for buffer, place in itertools.product((RESULT, S, D), (0, -1)):
            buffers = [[0] * n for n in right[:3]]
            buffers[buffer][place] = symbol
            pages.bits.pass_once(2, 13, 2, two, 32, *buffers, expect=number)
            pages.bits.explain(2, 13, 2, two, 32, 15, *buffers, expect=number)

    # 8 and 9.
    for thresholds, number in (([], 8), ([0] * 65, 8), ([33] * 65, 8), ([33], 9), ([255], 9), ([0, 33], 9),
                               ([0] * 63 + [33], 9), ([32] * 64, 0)):
        pages.bits.decode(2, 13, 2, two, page, thresholds, expect=number)
    clean = [[0] * n for n in right[:3]]
    for threshold in (32, 33, 255, 256, 288, 65536, 2 ** 31, 2 ** 32 - 1):
        number = 0 if threshold == 32 else 9
        pages.bits.pass_once(2, 13, 2, two, threshold, *clean, expect=number)
        pages.bits.explain(2, 13, 2, two, threshold, 25, *clean, expect=number)


@group("bits, refusals with others")
def bits_refused(pages, random):
    """Each refusal with the one after it, 1 and 6 with each, and each with all that come after it."""
    for call, add in ((CHECK_TABLE, pages.bits.check_table), (ENCODE, pages.bits.encode),
                      (SYNDROME, pages.bits.syndrome), (DECODE, pages.bits.decode), (OPEN, pages.bits.open_page),
                      (PASS, pages.bits.pass_once), (EXPLAIN, pages.bits.explain)):
        numbers = REFUSALS[call]
        sets = [met for met in itertools.combinations(numbers, 2)
                if met[0] == 1 or 6 in met or numbers.index(met[1]) == numbers.index(met[0]) + 1]
        refused_by_first(call, add, sets + with_all_after(call), bits)


@group("bits in C alone", c_only=True)
def bits_c_only(pages, random):
    """Tables of an odd length, margins of no whole number, other lengths of the changes than 4 and of the answer than
    24."""
    odd = ref.CODE_A + b"\0"
    for length in (1, 7, 9):
        seven_calls(pages.bits, 2, 13, 1, odd[:length], expect=3)
    seven_calls(pages.bits, 3, 13, 1, odd, expect=1)
    seven_calls(pages.bits, 2, 13, 9, odd, (13, 1), expect=10)
    for length in (1, 13, 49, 51, 53, 55):
        pages.bits.decode(*bits.A, [0] * 26, [0], lengths=(13, 13, 13, length), expect=6)
    for length in (0, 1, 3, 5, 8, 16):
        pages.bits.pass_once(*bits.A, 0, *any_buffers(random, 2, 13, 1), changes_len=length, expect=6)
    for length in (0, 4, 16, 20, 23, 25, 32):
        pages.bits.explain(*bits.A, 0, 0, *any_buffers(random, 2, 13, 1), answer_len=length, expect=6)
    # With something else amiss, before 6 or after it.
    for met in [(number,) for number in REFUSALS[EXPLAIN]] + [(7, 9)]:
        number = 6 if met[0] in (7, 9, 11) else met[0]
        if 11 not in met:
            _, arguments, _ = spoiled_branches(PASS, met, bits)
            pages.bits.pass_once(*arguments, changes_len=3, expect=number)
        _, arguments, _ = spoiled_branches(EXPLAIN, met, bits)
        pages.bits.explain(*arguments, answer_len=23, expect=number)


# Symbols of two bytes and of four (request N10)

def wide_group(name, c_only=False, long=False):
    """A group for each width. The function below it gets the calls of the width, its q, and random numbers."""
    def add(function):
        for w in wide.WIDTHS:
            group(f"u{8 * w}, {name}", c_only, long)(
                lambda pages, random, w=w: function(pages.wide[w], wide.q_of(w), random))
        return function
    return add


def edges(q):
    """Values about the ends of the width, of its lower half and of its bytes."""
    return sorted({(value + more) % q for value in (0, 256, 65536, 2 ** 24, q // 2, q - 256) if value < q
                   for more in (-1, 0, 1)})


def alike(q):
    """Values other than 0 that agree in their low byte, low two or low three, as far as the width goes, and those that
    agree in all but the lowest; in ascending order."""
    return sorted({0x5a, 0x5a + 256, 0x5a + 512, q // 2 + 0x5a, q - 256 + 0x5a, q - 256 + 0x5b, 256, 512, q // 2, q - 256} |
                  {value for value in (0x5a + 65536, 0x5a + 2 ** 24, 65536, 2 ** 24, 2 ** 24 + 65536 + 256) if value < q})


def wide_symbols(random, q, count):
    """Half of them at the edges, half any."""
    at = edges(q)
    return [random.pick(at) if random.below(2) else random.below(q) for _ in range(count)]


def wide_damaged(random, q, page, places):
    """The page with the symbols at these places replaced: by one more or less, by one that differs in one byte, or any."""
    page = list(page)
    for at, place in enumerate(places):
        more = (1, q - 1, 256, q // 2, q // 256, 1 + random.below(q - 1), 1 + random.below(q - 1))[at % 7]
        page[place] = (page[place] + more) % q
    return page


def wide_decoded(calls, random, code, runs, thresholds, places):
    """A page with the symbols at these places replaced. Inside the bound the data comes back. Returns what decode gave."""
    q, k, b, _ = code
    data = wide_symbols(random, q, b * k)
    page = wide_damaged(random, q, ref.code_word(q, k, runs, data), places)
    got = calls.decode(*code, page, thresholds, expect=0)
    assert got.result == data or 2 * len(places) + min(thresholds) > len(runs[0])
    return got


# k, b and J of codes, up to eight branches.
WIDE_CODES = ((3, 1, 2), (7, 1, 3), (13, 1, 4), (31, 1, 6), (57, 1, 8), (133, 1, 12), (13, 2, 3), (15, 2, 3), (40, 3, 4),
              (27, 4, 3), (156, 5, 6), (13, 6, 2), (31, 7, 2), (17, 8, 2), (307, 1, 18), (993, 1, 32))


@wide_group("pages worked by hand")
def wide_by_hand(calls, q, random):
    a = q, *wide.A
    sent = ref.symbols(13, {0: 10, 12: q - 6})
    calls.encode(*a, sent, expect=0)
    calls.syndrome(*a, sent + [0] * 13, expect=0)
    calls.encode(*a, [q - 1] * 13, expect=0)
    calls.syndrome(*a, [0] * 13 + [1] * 13, expect=0)
    for page, thresholds, *_, counts in wide.worked_pages(calls.w):
        assert calls.decode(*a, page, thresholds, expect=0).counts == counts
    for values, h0, m0, m1, set_bits in wide.worked_answers(calls.w):
        buffers = with_estimates(random, a, [[0, 1, 4, 6]], 0, values)
        for threshold in sorted({max(m0 - m1 - 1, 0), m0 - m1}):
            got = calls.explain(*a, threshold, 0, *buffers, expect=0)
            assert got[1:] == (h0, m0, m1, set_bits)
    # k = 1: the page is the symbol twice.
    for symbol in edges(q):
        calls.encode(q, 1, 1, ref.table_of([0]), [symbol], expect=0)
        got = calls.decode(q, 1, 1, ref.table_of([0]), [symbol, (symbol + 256) % q], [0], expect=0)
        assert got.result == [symbol] and got.syndrome == [q - 256] and got.margins == [0]


@wide_group("tables")
def wide_tables(calls, q, random):
    for k, b, j in ((1, 1, 1), (1, 8, 1), (7, 1, 3), (13, 2, 3), (17, 8, 2), (57, 1, 8), (307, 1, 17), (400, 7, 8),
                    (512, 8, 7), (993, 1, 31), (993, 1, 32), (2048, 2, 20), (4096, 1, 32)):
        code, _ = some_code(random, q, k, b, j)
        calls.check_table(*code, expect=0)
    for k, b, runs, number in ((0, 1, [[0]], 2), (4097, 1, [[0]], 2), (65549, 1, [[0, 1, 4, 6]], 2), (13, 0, [[0]], 10),
                               (13, 9, [[0]] * 9, 10), (16, 2 ** 28 + 1, [[0]], 10), (2049, 2, [[0], [0]], 10),
                               (513, 8, [[0]] * 8, 10), (13, 1, [], 3), (4096, 1, [range(33)], 3),
                               (13, 2, [[0, 1, 4]], 3), (13, 1, [[0, 13]], 4), (13, 1, [[0, 4, 1]], 4),
                               (13, 2, [[0, 1], [2, 2]], 4), (12, 1, [[0, 1, 4, 6]], 5), (4096, 1, [[0, 2048]], 5),
                               (13, 2, [[0, 1], [0, 1]], 5), (13, 2, [[0, 1], [0, 12]], 5)):
        calls.check_table(q, k, b, ref.table_of(*runs), expect=number)


@wide_group("encode and syndrome")
def wide_encode(calls, q, random):
    for k, b, j in ((1, 1, 1), (1, 8, 1), (2, 1, 1), *WIDE_CODES, (400, 2, 8), (1021, 1, 12)):
        code, runs = some_code(random, q, k, b, j)
        data = wide_symbols(random, q, b * k)
        calls.encode(*code, data, expect=0)
        if b * k < 300:
            word = ref.code_word(q, k, runs, data)
            calls.syndrome(*code, word, expect=0)
            calls.syndrome(*code, wide_damaged(random, q, word, [random.below(len(word))]), expect=0)
        calls.syndrome(*code, wide_symbols(random, q, (b + 1) * k), expect=0)
    # The largest sums, which wrap b times J - 1 times; the smallest and largest values of a sum less a check; carries
    # from one byte into the next; sums that wrap to 0.
    for k, b, j in ((57, 1, 8), (31, 7, 2), (27, 8, 1), (133, 1, 12)):
        code, _ = some_code(random, q, k, b, j)
        n = b * k
        calls.encode(*code, [q - 1] * n, expect=0)
        calls.syndrome(*code, [q - 1] * n + [0] * k, expect=0)
        calls.syndrome(*code, [0] * n + [q - 1] * k, expect=0)
        calls.syndrome(*code, [0] * n + [1] * k, expect=0)
        for value in (255, 256, q // 2, q // 256, q // 2 - 1):
            calls.encode(*code, [value] * n, expect=0)
        calls.encode(*code, [(1, q - 1)[i % 2] for i in range(n)], expect=0)
    # One branch not 0, each in turn: its place in the page and its run.
    for r in range(5):
        data = [0] * (5 * 31)
        data[31 * r:31 * r + 31] = wide_symbols(random, q, 31)
        calls.encode(q, 31, 5, ref.table_of(*[[r, 5 + 2 * r] for r in range(5)]), data, expect=0)


@wide_group("decode, clean pages")
def wide_clean(calls, q, random):
    for at, (k, b, j) in enumerate(((1, 1, 1), (1, 8, 1), *WIDE_CODES[:-1])):
        code, runs = some_code(random, q, k, b, j)
        got = wide_decoded(calls, random, code, runs, LISTS[at], [])
        assert got.places == ref.strict_minima(LISTS[at]) and got.counts[1:] == (0, 0, 0)


@wide_group("decode, damage inside the bound")
def wide_inside(calls, q, random):
    """As many symbols replaced as the smallest threshold allows, anywhere, and on one data symbol and its checks."""
    for at, (k, b, j) in enumerate(WIDE_CODES):
        for least in sorted({0, 1, j // 2} - {j, j - 1})[:1 if k > 150 else 3]:
            code, runs = some_code(random, q, k, b, j)
            t = (j - least) // 2
            lists = lists_inside(j, least)
            wide_decoded(calls, random, code, runs, lists[(at + least) % len(lists)], branch_places(k, b, t, random))
            if k > 150:
                continue
            symbol = random.below(b * k)
            checks = [b * k + i for i in ref.checks_of(k, runs, symbol)]
            for places in ([symbol] + checks[:t - 1], checks[-t:]):
                got = wide_decoded(calls, random, code, runs, [least], places)
                assert got.counts.changes == (symbol in places)


@wide_group("decode, damage outside the bound")
def wide_outside(calls, q, random):
    """From one symbol more than the bound allows to a quarter of the page."""
    changed = 0
    for at, ((k, b, j), share) in enumerate(itertools.product(WIDE_CODES, (0, 16, 4))):
        if k > 900 and share > 0:
            continue
        code, runs = some_code(random, q, k, b, j)
        count = max((b + 1) * k // share if share else 0, j // 2 + 1)
        thresholds = ([0] * 4, [2, 1, 0, 0, 0], [j // 2, 0, 0], [1] * 3, [0] * 12)[at % 5]
        got = wide_decoded(calls, random, code, runs, thresholds, branch_places(k, b, count, random))
        changed += got.counts.changes > 0
    assert changed > 25
    # The checks of one data symbol replaced by the same difference, so many that it is changed though it was right.
    for (k, b, j), more in zip(((13, 1, 4), (57, 1, 7), (40, 3, 4), (133, 1, 12)), (1, 256, q // 2, q - 1)):
        code, runs = some_code(random, q, k, b, j)
        word = ref.code_word(q, k, runs, wide_symbols(random, q, b * k))
        symbol = random.below(b * k)
        for check in ref.checks_of(k, runs, symbol)[:(j + 1) // 2 + 1]:
            word[b * k + check] = (word[b * k + check] + more) % q
        got = calls.decode(*code, word, [0], expect=0)
        assert got.result[symbol] == (word[symbol] + more) % q and got.counts.end < got.counts.start


@wide_group("decode, few values that are alike")
def wide_alike(calls, q, random):
    """S of a few values that agree in some of their bytes and not in others, so that a vote by a part of each symbol has
    another leader: every J up to 12 and some above, one branch and more."""
    values = alike(q)
    changed = 0
    for j in (*range(1, 13), 16, 20, 32):
        k = smallest_k(j)
        code, runs = some_code(random, q, k, 1, j)
        few = random.some(values, 2 + j % 3)
        s = [random.pick(few) if random.below(4) else 0 for _ in range(k)]
        thresholds = random.pick(([0] * 6, [j // 4, 1, 0, 0], [2, 1, 0]))
        got = calls.decode(*code, with_syndrome(q, k, runs, wide_symbols(random, q, k), s), thresholds, expect=0)
        changed += got.counts.changes > 0
    assert changed > 8
    for k, b, j, thresholds in ((1, 8, 1, [0]), (13, 2, 3, [0] * 8), (40, 3, 4, [1, 0, 0]), (17, 8, 2, [0] * 8)):
        code, runs = some_code(random, q, k, b, j)
        s = [random.pick(values[-3:] + [0]) for _ in range(k)]
        calls.decode(*code, with_syndrome(q, k, runs, wide_symbols(random, q, b * k), s), thresholds, expect=0)
    # Every symbol random.
    for k, b, j in ((13, 1, 4), (57, 1, 8), (40, 3, 4), (17, 8, 2)):
        code, _ = some_code(random, q, k, b, j)
        calls.decode(*code, random.symbols(q, (b + 1) * k), [0] * 3, expect=0)


@wide_group("decode, every threshold")
def wide_thresholds(calls, q, random):
    """One page with 9 estimates a symbol, decoded with each threshold alone, from 0 to 32. S is mostly one large value, so
    that it leads by every number of votes that it can."""
    code, runs = some_code(random, q, 57, 1, 8)
    page = with_syndrome(q, 57, runs, wide_symbols(random, q, 57), mostly(random, q, 57, q - 256))
    for threshold in range(33):
        got = calls.decode(*code, page, [threshold], expect=0)
        assert (got.counts.changes > 0) == (threshold < 7)


@wide_group("schedules")
def wide_schedules(calls, q, random):
    """Symbols of known leads: what each pass has to change is known. J = 8; three branches."""
    positions = greedy(256)[:8]
    for thresholds, places, changes in PASSES_BY_LEADS[::2]:
        scheduled(calls, random, q, 256, [positions], [7, 5, 3, 1], thresholds, places, changes)
    falling = [7, 6, 5, 4, 3, 2, 1, 0]
    for lead in range(1, 8):
        scheduled(calls, random, q, 133, [positions_for(random, 133, 8)], [lead], falling, list(range(8)),
                  [int(t == lead - 1) for t in falling])
    runs = runs_for(random, 156, 3, 6)
    for leads, (thresholds, places, changes) in zip(([5, 3, 1], [1, 5, 3], [3, 1, 5]), (
            ([5, 4, 3, 2, 1, 0], [0, 1, 2, 3, 4, 5], [0, 1, 0, 1, 0, 1]), ([2, 6, 7, 2, 0], [0, 1, 3, 4], [2, 0, 0, 1]),
            ([32] * 62 + [0, 0], [0, 62, 63], [0, 3, 0]))):
        scheduled(calls, random, q, 156, runs, leads, thresholds, places, changes)
    # Lists of every kind with damage outside the bound.
    for at, thresholds in enumerate(LISTS):
        k, b, j = ((57, 1, 8), (31, 1, 5), (40, 3, 4), (31, 1, 6))[at % 4]
        code, runs = some_code(random, q, k, b, j)
        wide_decoded(calls, random, code, runs, thresholds, branch_places(k, b, (b + 1) * k // 8, random))


@wide_group("margins from -(J + 1) to J + 1")
def wide_margins(calls, q, random):
    """As the general group has them, with large values: all of them times the same odd number."""
    factor = q - 257
    for k, positions in ((512, [0, 1, 20, 60]), (1021, greedy(1021)[:12])):
        table, j = ref.table_of(positions), len(positions)
        back = [factor * symbol % q for symbol in turned_back(q, k, positions)]
        all_but_one = list(back)
        all_but_one[k + positions[-1]] = 256
        seen = set()
        for page, thresholds in (([factor * x % q for x in stepped(random, q, k)], [32]), (back, [0]), (all_but_one, [0])):
            seen |= set(calls.decode(q, k, 1, table, page, thresholds, expect=0).margins)
        assert seen == set(range(-j - 1, j + 2)) - {j}


@wide_group("openings")
def wide_openings(calls, q, random):
    for k, b, j in ((1, 1, 1), (1, 8, 1), *WIDE_CODES[:-1]):
        code, runs = some_code(random, q, k, b, j)
        got = calls.open_page(*code, wide_symbols(random, q, (b + 1) * k), expect=0)
        assert not any(got.difference)
        if k < 60:
            data = wide_symbols(random, q, b * k)
            got = calls.open_page(*code, ref.code_word(q, k, runs, data), expect=0)
            assert got == (data, [0] * k, [0] * (b * k))
    for k, b, j in ((57, 1, 8), (31, 7, 2)):
        code, _ = some_code(random, q, k, b, j)
        calls.open_page(*code, [q - 1] * (b * k) + [0] * k, expect=0)
        calls.open_page(*code, [0] * (b * k) + [q - 1] * k, expect=0)


@wide_group("passes on opened pages")
def wide_passes_opened(calls, q, random):
    """Inside the bound and outside it, no pass skipped; refused ones between those that are made; the passes of a
    decode."""
    for k, b, j, replaced, thresholds in (
            (13, 1, 4, 2, [0, 0]), (13, 1, 4, 1, [2]), (31, 1, 6, 3, [4, 1, 0]), (57, 1, 8, 2, [3, 4]),
            (13, 2, 3, 1, [1, 0]), (31, 7, 2, 1, [1, 0]), (17, 8, 2, 1, [0]), (13, 1, 4, 6, [2, 0, 0]),
            (31, 1, 6, 10, [1, 0, 0]), (57, 1, 8, 14, [2, 1, 0, 0]), (40, 3, 4, 20, [2, 1, 0, 0]), (17, 8, 2, 8, [1, 0])):
        code, runs = some_code(random, q, k, b, j)
        opened_passes(calls, random, code, runs, replaced, thresholds)
    for k, b, j, replaced, refused in (
            (13, 1, 4, 2, [4294967295, 33, 0]), (13, 1, 4, 1, [(0, RESULT, -1), 2, (0, RESULT, 1), 2]),
            (31, 1, 6, 3, [2, (0, S, -1), (0, S, 1), 0]), (31, 1, 5, 2, [(0, D, -1), (1, D, 1), 1, 256]),
            (13, 2, 3, 1, [33, (0, RESULT, -13), 1, (0, D, -13)]), (17, 8, 2, 1, [(0, RESULT, 17), 2147483648, 0])):
        code, runs = some_code(random, q, k, b, j)
        opened_passes(calls, random, code, runs, replaced, refused)
    for k, b, j, replaced, thresholds in ((31, 1, 6, 9, [4, 4, 2, 0, 0]), (40, 3, 4, 12, [2, 1, 3, 0, 0])):
        code, runs = some_code(random, q, k, b, j)
        page = wide_damaged(random, q, ref.code_word(q, k, runs, wide_symbols(random, q, b * k)),
                            branch_places(k, b, replaced, random))
        decoded = calls.decode(*code, page, thresholds, expect=0)
        buffers = calls.open_page(*code, page, expect=0)
        after, made = passes_in_turn(calls, code, buffers, [thresholds[i] for i in decoded.places])
        assert after == decoded[:3] and made == decoded.changes_of_pass and sum(made) > 0


@wide_group("passes on buffers of any content")
def wide_passes_any(calls, q, random):
    """Every J up to 12 and some above: mostly one value, at the edges of the width. Then passes in turn, S and D all 0,
    and a change of every symbol."""
    at = edges(q)[1:]
    for j in (*range(1, 13), 16, 17, 32):
        k = smallest_k(j)
        code, _ = some_code(random, q, k, 1, j)
        value = at[j % len(at)]
        got = calls.pass_once(*code, (0, 1, 0, j // 4)[j % 4], wide_symbols(random, q, k), mostly(random, q, k, value),
                              mostly(random, q, k, value), expect=0)
        assert got.changes > 0
    for k, b, j in ((57, 1, 8), (17, 8, 2), (27, 4, 3)):
        code, _ = some_code(random, q, k, b, j)
        _, made = passes_in_turn(calls, code, any_buffers(random, q, k, b), [j, j // 2, 0, 0])
        assert sum(changes > 0 for changes in made) > 1
    for k, b, j, threshold in ((1, 1, 1, 0), (1, 8, 1, 32), (13, 1, 4, 4), (17, 8, 2, 0)):
        code, _ = some_code(random, q, k, b, j)
        got = calls.pass_once(*code, threshold, wide_symbols(random, q, b * k), [0] * k, [0] * (b * k), expect=0)
        assert got.changes == 0
    # J = 1 and D = S: every symbol is changed, and the number of changes takes two bytes.
    for k in (255, 256, 300):
        s = [random.pick(at) for _ in range(k)]
        got = calls.pass_once(q, k, 1, ref.table_of([0]), 1, wide_symbols(random, q, k), s, s, expect=0)
        assert got.changes == k and not any(got.syndrome + got.difference)


@wide_group("passes, votes")
def wide_passes_votes(calls, q, random):
    """The estimates of symbol 0 of code A; each other symbol has one of its checks at most and is left. Result, D and S
    wrap where the leader is subtracted from less."""
    def vote(estimates, threshold, h0):
        """Symbol 0 is changed by h0, or left where that is 0."""
        s = ref.symbols(13, dict(zip((0, 1, 4, 6), estimates[1:])))
        got = calls.pass_once(q, 13, 1, ref.CODE_A, threshold, [h0 // 2] + wide_symbols(random, q, 12), s,
                              ref.symbols(13, {0: estimates[0]}), expect=0)
        assert got.changes == (h0 != 0) and got.difference[0] == (estimates[0] - h0) % q
        assert got.result[0] == (h0 // 2 - h0) % q

    top = q // 256
    for estimates, h0, ahead in (
            ((0, q - 1, q - 1, q - 1, q - 1), q - 1, 3), ((q - 1, q - 1, q - 1, q - 1, 0), q - 1, 3),
            ((1, 256, 256, 256, 256), 256, 3), ((q // 2,) * 5, q // 2, 5), ((0, q - 1, 1, q - 1, 2), q - 1, 1),
            # Alike in the low byte, the low bytes or all but the lowest: each value is one by itself.
            ((7, 7, 7 + 256, 7 + 512, 7 + 768), 7, 1), ((7 + 256, 7 + 256, 7, 7 + 512, 7 + 768), 7 + 256, 1),
            ((7 + q // 2, 7 + q // 2, 7, 7, 1), 0, 0), ((7 + q // 2, 7, 7 + q // 2, 7, 7 + q // 2), 7 + q // 2, 1),
            ((256, 512, 768, 256, 1024), 256, 1), ((256, 512, 768, 1024, 1280), 0, 0), ((0, 256, 512, 768, 0), 0, 1),
            ((top, top, 2 * top, 3 * top, 4 * top), top, 1), ((0, top, 2 * top, 0, 3 * top), 0, 1),
            ((q - 256, q - 255, q - 256, q - 255, q - 256), q - 256, 1), ((q - 1, q - 2, q - 3, q - 4, q - 4), q - 4, 1)):
        if ahead:
            vote(estimates, ahead - 1, h0)
        vote(estimates, ahead, 0)
    # All J + 1 estimates of symbol 0, and of no other, agree: a change with a threshold of J, none with J + 1.
    for k, j, h in ((1, 1, q - 1), (7, 3, 256), (57, 8, q // 2), (993, 32, q - 256)):
        positions = positions_for(random, k, j)
        s = ref.symbols(k, {p: h for p in positions})
        for threshold in (j, j + 1)[:1 if j == 32 else 2]:
            got = calls.pass_once(q, k, 1, ref.table_of(positions), threshold, random.symbols(q, k), s,
                                  ref.symbols(k, {0: h}), expect=0)
            assert got.changes == (threshold == j)


@wide_group("explanations")
def wide_explain(calls, q, random):
    """Each ground for every J with a leader at the edges, one more vote than the threshold lets through and one less; then
    leaders among values that are alike."""
    at, values = edges(q)[1:], alike(q)
    for j in (*range(1, 13), 17, 24, 31):
        code, runs = some_code(random, q, smallest_k(j), 1, j)
        for ground in (1, 2, 3) if j < 9 else (1 + j % 3,):
            h0 = 0 if ground == 2 else at[(5 * j + ground) % len(at)]
            ahead = random.pick([lead for lead in leads_of(j) if lead > 0])
            m1, left = divmod(j + 1 - ahead, 2)
            others = [value for value in different(random, q, 3) if value != h0]
            votes = {h0: m1 + ahead, **{value: count for value, count in zip(others, (m1, left)) if count}}
            threshold = ahead if ground == 1 else ahead - 1
            explained(calls, random, code, runs, random.below(code[1]), min(threshold, 32), votes, ground, h0)
    for j in (4, 6, 8, 12):
        code, runs = some_code(random, q, smallest_k(j), 1, j)
        for h0 in random.some(values, 3):
            others = random.some([value for value in values if value != h0], (j + 1) // 2)
            votes = {h0: j + 1 - len(others), **dict.fromkeys(others, 1)}
            explained(calls, random, code, runs, random.below(code[1]), j - len(others) - 1, votes, 3, h0)


@wide_group("explanations, ties between large values")
def wide_explain_ties(calls, q, random):
    """Of the tied values h0 is the smallest, wherever it stands: not by low bytes, and not as signed numbers."""
    a, values = (q, *wide.A), alike(q)
    for small, large in itertools.combinations(random.some(values, 6) + [q - 1], 2):
        if small > large:
            small, large = large, small
        third = random.pick([value for value in values if value not in (small, large)])
        order = in_any_order(random, {small: 2, large: 2, third: 1})
        buffers = with_estimates(random, a, [[0, 1, 4, 6]], 0, order)
        got = calls.explain(*a, random.below(3), 0, *buffers, expect=0)
        assert got == (1, small, 2, 2, sum(1 << i for i, value in enumerate(order) if value == small))
    for small, large in ((q // 2 - 1, q // 2), (255, 256), (1, q - 1), (0, q - 1), (q - 2, q - 1), (q // 256, q // 2)):
        for order in ((small, large, small, large), (large, small, large, small), (large, large, small, small)):
            buffers = with_estimates(random, (q, 7, 1, ref.table_of([0, 1, 3])), [[0, 1, 3]], 5, order)
            got = calls.explain(q, 7, 1, ref.table_of([0, 1, 3]), 0, 5, *buffers, expect=0)
            assert got == (1, small, 2, 2, sum(1 << i for i, value in enumerate(order) if value == small))
    # All different: each is tied, and the smallest of all is h0.
    for j in (4, 8, 12):
        code, runs = some_code(random, q, smallest_k(j), 1, j)
        votes = dict.fromkeys(different(random, q, j + 1), 1)
        explained(calls, random, code, runs, random.below(code[1]), 0, votes, 1, min(votes))
    code, runs = some_code(random, q, 133, 1, 11)
    votes = {q - 1: 4, q - 256: 4, q // 2: 4}
    for threshold in (0, 32):
        explained(calls, random, code, runs, random.below(133), threshold, votes, 1, q // 2)


@wide_group("explanations, J = 32")
def wide_explain_widest(calls, q, random):
    """33 estimates: the last has the bit that 32 bits have no place for."""
    for threshold, value, others, ground, set_bits in (
            (32, q - 1, {}, 3, 2 ** 33 - 1), (32, 0, {}, 2, 2 ** 33 - 1),
            (31, q - 256, {32: 0}, 1, 2 ** 32 - 1), (30, q // 2, {0: q // 2 - 1}, 3, 2 ** 33 - 2),
            (1, 256, {i: q - 256 - i for i in range(31)}, 1, 2 ** 32 + 2 ** 31),
            (0, 256, {i: 512 + 256 * i for i in range(31)}, 3, 2 ** 32 + 2 ** 31)):
        code, runs = some_code(random, q, 993, 1, 32)
        symbol = random.pick((0, random.below(993), 992))
        buffers = with_estimates(random, code, runs, symbol, [others.get(i, value) for i in range(33)])
        got = calls.explain(*code, threshold, symbol, *buffers, expect=0)
        assert (got.ground, got.h0, got.bits) == (ground, value, set_bits)


@wide_group("explanations in every branch")
def wide_explain_branches(calls, q, random):
    """The first and the last symbol of each, then symbol numbers beyond them; then symbols of opened pages, between
    passes."""
    for k, b, j in ((13, 1, 4), (13, 2, 3), (31, 4, 3), (17, 8, 2)):
        code, runs = some_code(random, q, k, b, j)
        for at, (r, i) in enumerate(itertools.product(range(b), (0, k - 1))):
            ground, h0, other, threshold = ((1, 256, 512, j - 1), (3, q - 1, 1, j - 2), (2, 0, 256, j - 2))[at % 3]
            explained(calls, random, code, runs, r * k + i, threshold, {h0: j, other: 1}, ground, h0)
        buffers = any_buffers(random, q, k, b)
        for symbol in (b * k, (b + 1) * k, 256, 65536, 2 ** 31, 2 ** 32 - 1):
            calls.explain(*code, 1, symbol, *buffers, expect=11)
    # k = 1: each branch has one symbol, and all have the one check, at which S is 256.
    d = [256, 257, 256, 255, 0, 512, q - 1, 256]
    for symbol in range(8):
        got = calls.explain(q, 1, 8, ref.table_of(*[[0]] * 8), 1, symbol, wide_symbols(random, q, 8), [256], d, expect=0)
        assert got == ((3, 256, 2, 0, 3) if d[symbol] == 256 else (1, 256, 1, 1, 2) if d[symbol] > 256 else
                       (1, d[symbol], 1, 1, 1))
    grounds = []
    for k, b, j, replaced, thresholds in ((31, 1, 6, 3, [2, 0]), (31, 1, 6, 9, [1]), (57, 1, 8, 4, [3]),
                                          (13, 2, 3, 1, [1, 0]), (40, 3, 4, 6, [0]), (17, 8, 2, 8, [0])):
        code, runs = some_code(random, q, k, b, j)
        places = branch_places(k, b, replaced, random)
        page = wide_damaged(random, q, ref.code_word(q, k, runs, wide_symbols(random, q, b * k)), places)
        buffers = calls.open_page(*code, page, expect=0)
        asked = [place for place in places[:2] if place < b * k] + [random.below(b * k)]
        for threshold in thresholds:
            grounds += [calls.explain(*code, threshold, symbol, *buffers, expect=0).ground for symbol in asked]
            buffers = calls.pass_once(*code, threshold, *buffers, expect=0)[:3]
        grounds += [calls.explain(*code, thresholds[-1], symbol, *buffers, expect=0).ground for symbol in asked]
    assert min(grounds.count(ground) for ground in (1, 2, 3)) >= 4


@wide_group("about 128 and 1,024 data symbols")
def wide_tiers(calls, q, random):
    """Where the C calls go over to a larger array: every call below, at and above both numbers, in one branch and in
    more, with the last data symbol and the last check replaced."""
    for k, b, j in ((127, 1, 9), (128, 1, 9), (129, 1, 9), (64, 2, 4), (65, 2, 4), (16, 8, 1), (17, 8, 2), (1023, 1, 6),
                    (1024, 1, 6), (1025, 1, 6), (128, 8, 2)):
        code, runs = some_code(random, q, k, b, j)
        data = wide_symbols(random, q, b * k)
        page = wide_damaged(random, q, ref.code_word(q, k, runs, data), [b * k - 1, (b + 1) * k - 1])
        calls.encode(*code, data, expect=0)
        calls.syndrome(*code, page, expect=0)
        decoded = calls.decode(*code, page, [0], expect=0)
        assert decoded.counts.changes == 1 or j < 4
        buffers = calls.open_page(*code, page, expect=0)
        calls.explain(*code, 0, b * k - 1, *buffers, expect=0)
        assert calls.pass_once(*code, 0, *buffers, expect=0)[:3] == decoded[:3]


@wide_group("refusals one by one")
def wide_one_by_one(calls, q, random):
    """Each refusal of each call, at the edges of what it tests, by lengths of whole symbols; 11 stands with the
    branches."""
    a, two, lent_for = ref.CODE_A, ref.table_of([0, 1, 4], [0, 2, 7]), (13, 1)
    seven_calls(calls, q, 13, 1, a, expect=0)
    seven_calls(calls, q, 13, 2, two, expect=0)
    for k, b, table, number in ((0, 1, a, 2), (4097, 1, a, 2), (65549, 1, a, 2), (13, 0, a, 10), (13, 9, a, 10),
                                (16, 2 ** 28 + 1, a, 10), (2049, 2, a, 10), (13, 1, b"", 3),
                                (13, 1, ref.table_of(range(33)), 3), (13, 3, a, 3),
                                (13, 1, ref.table_of([0, 1, 4, 13]), 4), (12, 1, a, 5)):
        seven_calls(calls, q, k, b, table, lent_for, expect=number)

    # 6: each buffer one symbol off, one branch, half as long and twice.
    page, right = [0] * 39, ref.decode_lengths(13, 2)
    for more in (-1, 1, -13, 13):
        calls.encode(q, 13, 2, two, [0] * (26 + more), page_len=39, expect=6)
        calls.encode(q, 13, 2, two, [0] * 26, page_len=39 + more, expect=6)
        calls.syndrome(q, 13, 2, two, [0] * (39 + more), expect=6)
        calls.syndrome(q, 13, 2, two, page, syndrome_len=13 + more, expect=6)
        calls.decode(q, 13, 2, two, [0] * (39 + more), [0], expect=6)
        calls.open_page(q, 13, 2, two, [0] * (39 + more), expect=6)
        for at, length in enumerate(right):
            lengths = right[:at] + (length + (4 * more if at == 3 else more),) + right[at + 1:]
            calls.decode(q, 13, 2, two, page, [0], lengths=lengths, expect=6)
            if at < 3:
                calls.open_page(q, 13, 2, two, page, lengths[:3], expect=6)
                buffers = resized([[0] * n for n in right[:3]], at, more)
                calls.pass_once(q, 13, 2, two, 0, *buffers, expect=6)
                calls.explain(q, 13, 2, two, 0, 0, *buffers, expect=6)
    for n in (13, 52):
        calls.encode(q, 13, 2, two, [0] * n, page_len=39, expect=6)
        calls.decode(q, 13, 2, two, page, [0], lengths=(n, 13, 26, 104), expect=6)
        calls.decode(q, 13, 2, two, page, [0], lengths=(26, 13, n, 104), expect=6)

    # Every symbol is in range: the largest at both ends of every input, of S and D too.
    for place in (0, 25):
        calls.encode(q, 13, 2, two, ref.symbols(26, {place: q - 1}), expect=0)
    for place in (0, 25, 26, 38):
        received = ref.symbols(39, {place: q - 1})
        calls.syndrome(q, 13, 2, two, received, expect=0)
        calls.decode(q, 13, 2, two, received, [0], expect=0)
        calls.open_page(q, 13, 2, two, received, expect=0)
    for buffer, place in itertools.product((RESULT, S, D), (0, -1)):
        buffers = [[0] * n for n in right[:3]]
        buffers[buffer][place] = q - 1
        calls.pass_once(q, 13, 2, two, 32, *buffers, expect=0)
        calls.explain(q, 13, 2, two, 32, 15, *buffers, expect=0)

    # 8 and 9.
    for thresholds, number in (([], 8), ([0] * 65, 8), ([33] * 65, 8), ([33], 9), ([255], 9), ([0, 33], 9),
                               ([0] * 63 + [33], 9), ([32] * 64, 0)):
        calls.decode(q, 13, 2, two, page, thresholds, expect=number)
    clean = [[0] * n for n in right[:3]]
    for threshold in (32, 33, 255, 256, 288, 65536, 2 ** 31, 2 ** 32 - 1):
        number = 0 if threshold == 32 else 9
        calls.pass_once(q, 13, 2, two, threshold, *clean, expect=number)
        calls.explain(q, 13, 2, two, threshold, 25, *clean, expect=number)


@wide_group("refusals with others")
def wide_refused(calls, q, random):
    """Every pair of refusals, and each with all that come after it, in the order 2, 10, 3, 4, 5, 6, 8, 9, 11."""
    for call, add in ((CHECK_TABLE, calls.check_table), (ENCODE, calls.encode), (SYNDROME, calls.syndrome),
                      (DECODE, calls.decode), (OPEN, calls.open_page), (PASS, calls.pass_once),
                      (EXPLAIN, calls.explain)):
        numbers = tuple(number for number in REFUSALS[call] if number not in (1, 7))
        sets = [numbers[a:] for a in range(len(numbers) - 2)]
        refused_by_first(call, add, list(itertools.combinations(numbers, 2)) + sets, width_q=q)


@wide_group("in C alone", c_only=True)
def wide_c_only(calls, q, random):
    """Tables of an odd length, every length off by each number of bytes that is less than a symbol, as many bytes as there
    are symbols, margins of no whole number, other lengths of the changes than 4 and of the answer than 24."""
    w, odd, two = calls.w, ref.CODE_A + b"\0", ref.table_of([0, 1, 4], [0, 2, 7])
    for length in (1, 7, 9):
        seven_calls(calls, q, 13, 1, odd[:length], expect=3)
    seven_calls(calls, q, 13, 9, odd, (13, 1), expect=10)

    data, page, right = bytes(26 * w), bytes(39 * w), wide.decode_lengths(w, 13, 2)
    buffers = [bytes(length) for length in right[:3]]
    for more in [*range(1 - w, 0), *range(1, w)]:
        longer = bytes(39 * w + more)
        calls.encode_bytes(13, 2, two, longer[:26 * w + more], 39 * w, expect=6)
        calls.encode_bytes(13, 2, two, data, 39 * w + more, expect=6)
        calls.syndrome_bytes(13, 2, two, longer, 13 * w, expect=6)
        calls.syndrome_bytes(13, 2, two, page, 13 * w + more, expect=6)
        calls.decode_bytes(13, 2, two, longer, [0], right, expect=6)
        calls.open_bytes(13, 2, two, longer, right[:3], expect=6)
        for at, length in enumerate(right):
            lengths = right[:at] + (length + more,) + right[at + 1:]
            calls.decode_bytes(13, 2, two, page, [0], lengths, expect=6)
            if at < 3:
                calls.open_bytes(13, 2, two, page, lengths[:3], expect=6)
                lent = [bytes(length) for length in lengths[:3]]
                calls.pass_bytes(13, 2, two, 0, *lent, expect=6)
                calls.explain_bytes(13, 2, two, 0, 0, *lent, expect=6)
        # All a few bytes off; and before 8, 9 and 11, after 5.
        lengths = tuple(length + more for length in right)
        lent = [bytes(length) for length in lengths[:3]]
        calls.encode_bytes(13, 2, two, longer[:26 * w + more], 39 * w + more, expect=6)
        calls.decode_bytes(13, 2, two, longer, [33] * 65, lengths, expect=6)
        calls.pass_bytes(13, 2, two, 33, *lent, expect=6)
        calls.explain_bytes(13, 2, two, 33, 26, *lent, expect=6)
        calls.decode_bytes(13, 2, ref.table_of([0, 1], [0, 1]), longer, [33], lengths, expect=5)
    # As many bytes as symbols are due, and those of the other width.
    for width in {1, 2, 4, 8} - {w}:
        lengths = wide.decode_lengths(width, 13, 2)
        lent = [bytes(length) for length in lengths[:3]]
        calls.encode_bytes(13, 2, two, bytes(26 * width), 39 * width, expect=6)
        calls.syndrome_bytes(13, 2, two, bytes(39 * width), 13 * width, expect=6)
        calls.decode_bytes(13, 2, two, bytes(39 * width), [0], lengths, expect=6)
        calls.open_bytes(13, 2, two, bytes(39 * width), lengths[:3], expect=6)
        calls.pass_bytes(13, 2, two, 0, *lent, expect=6)
        calls.explain_bytes(13, 2, two, 0, 0, *lent, expect=6)
    for length in (0, 1, 101, 103, 105, 107, 26 * w):
        calls.decode_bytes(13, 2, two, page, [0], (*right[:3], length), expect=0 if length == 104 else 6)
    for length in (0, 1, 2, 3, 5, 8, 16):
        calls.pass_bytes(13, 2, two, 0, *buffers, changes_len=length, expect=6)
    for length in (0, 4, 16, 20, 23, 25, 32):
        calls.explain_bytes(13, 2, two, 0, 0, *buffers, answer_len=length, expect=6)


@wide_group("4,096 data symbols", c_only=True, long=True)
def wide_whole(calls, q, random):
    """Whole pages: one branch with every call, eight with decode and pass."""
    code, runs = some_code(random, q, 4096, 1, 10)
    data = wide_symbols(random, q, 4096)
    page = wide_damaged(random, q, ref.code_word(q, 4096, runs, data), branch_places(4096, 1, 250, random))
    calls.encode(*code, data, expect=0)
    calls.syndrome(*code, page, expect=0)
    got = calls.decode(*code, page, [2, 1, 0], expect=0)
    assert got.counts.changes > 100
    buffers = calls.open_page(*code, page, expect=0)
    calls.explain(*code, 0, 4095, *buffers, expect=0)
    assert calls.pass_once(*code, 2, *buffers, expect=0).changes > 50
    code, runs = some_code(random, q, 512, 8, 7)
    wide_decoded(calls, random, code, runs, [1, 0], branch_places(512, 8, 100, random))
    calls.pass_once(*code, 1, *any_buffers(random, q, 512, 8), expect=0)


def make():
    ref.self_check()
    bits.self_check()
    wide.self_check()
    pages = Pages()
    for place, (name, c_only, long, add_pages) in enumerate(GROUPS, start=1):
        pages.open_group(name, c_only, long)
        add_pages(pages, Random(place))
    return pages


def main(arguments):
    pages, of_files = make(), file_pages.make()
    files = {ROOT / "examples" / "charger.expected": examples.charger(),
             ROOT / "examples" / "branches.expected": examples.branches(),
             ROOT / "examples" / "outer.expected": examples.outer(),
             ROOT / "examples" / "cells.expected": examples.cells(),
             ROOT / "examples" / "files.expected": examples.files(),
             ROOT / "examples" / "screen.expected": screen.content()}
    for program, file in {**pages.files, "reference_files": of_files}.items():
        crate = ROOT / "crates" / program
        files[crate / "data" / "pages.bin"] = file.content()
        files[crate / "stdout"] = file.report()
    files[ROOT / "tests" / "reference" / "long_pages.bin"] = pages.long_file.content()
    total = f"{pages.count() + of_files.count()} reference pages in {len(pages.files) + 2} files"
    if arguments == ["--check"]:
        for path, made in files.items():
            if not path.exists() or path.read_bytes() != made:
                sys.exit(f"{path} is not what this program makes")
        print(f"{total}, as made by this program")
    elif arguments:
        sys.exit(__doc__)
    else:
        for path, made in files.items():
            path.parent.mkdir(parents=True, exist_ok=True)
            path.write_bytes(made)
        print(total)


if __name__ == "__main__":
    main(sys.argv[1:])
