"""The calls on bit pages, as document 02 (N9) states them: q is 2, and 1 refuses every other q.

The answers are those of the general steps of reference.py at q = 2. With every call that is not refused they are held
against the steps as source document 003 has them for bits, written here a second time: the sum of the estimates is the
number of ones, a symbol is changed where ones minus zeros is above the threshold, and a change inverts bits. Run as a
program it tries itself on pages worked out by hand and both votes on lists of estimates.
"""

import itertools
import random

import reference as ref


# Refusals

def on_bits(tests):
    """The tests of a call on bit pages: those of the general call but for 1."""
    def tests_on_bits(q, *arguments):
        (number, _), *others = tests(q, *arguments)
        assert number == 1
        return [(1, lambda: q != 2), *others]
    return tests_on_bits


table_tests = on_bits(ref.table_tests)
encode_tests = on_bits(ref.encode_tests)
syndrome_tests = on_bits(ref.syndrome_tests)
decode_tests = on_bits(ref.decode_tests)
open_tests = on_bits(ref.open_tests)
pass_tests = on_bits(ref.pass_tests)
explain_tests = on_bits(ref.explain_tests)


# The steps of document 003

def parities(k, runs, page):
    """The syndrome: of each check the parity of its data bits and its check bit."""
    n = len(runs) * k
    return [(page[n + i] + sum(page[r * k + (i - p) % k] for r, run in enumerate(runs) for p in run)) & 1
            for i in range(k)]


def ones_and_zeros(k, runs, s, d, j):
    """How many of the estimates of data symbol j are ones, which is their sum, and how many are zeros."""
    ones = sum(s[i] for i in ref.checks_of(k, runs, j)) + d[j]
    return ones, len(runs[0]) + 1 - ones


def sum_pass(k, runs, threshold, result, s, d):
    """A visit to every data symbol in order. Alters the three lists and returns the number of changes."""
    changes = 0
    for j in range(len(runs) * k):
        ones, zeros = ones_and_zeros(k, runs, s, d, j)
        if ones - zeros > threshold:
            result[j] ^= 1
            d[j] ^= 1
            for i in ref.checks_of(k, runs, j):
                s[i] ^= 1
            changes += 1
    return changes


def sum_vote(values):
    """h0, m0 and m1 of estimates: the ones lead where they are more; in a tie h0 is 0."""
    ones = sum(values)
    zeros = len(values) - ones
    return (1, ones, zeros) if ones > zeros else (0, zeros, ones)


def sum_explanation(k, runs, threshold, symbol, s, d):
    """What an explanation must give: which bits equal h0 are the ones of the word of estimates, or the others of it."""
    values = ref.estimates(k, runs, s, d, symbol)
    h0, m0, m1 = sum_vote(values)
    ones, zeros = ones_and_zeros(k, runs, s, d, symbol)
    word = sum(value << i for i, value in enumerate(values))
    ground = 3 if ones - zeros > threshold else 2 if zeros - ones > threshold else 1
    return ref.Explained(ground, h0, m0, m1, word if h0 else word ^ (2 ** len(values) - 1))


# The calls

def check_table(q, k, b, table):
    return ref.check_table(q, k, b, table, tests=table_tests)


def encode(q, k, b, table, data, page_len):
    number, page = ref.encode(q, k, b, table, data, page_len, tests=encode_tests)
    assert number or not any(parities(k, ref.runs_of(b, table), page))
    return number, page


def syndrome(q, k, b, table, page, syndrome_len):
    number, s = ref.syndrome(q, k, b, table, page, syndrome_len, tests=syndrome_tests)
    assert number or s == parities(k, ref.runs_of(b, table), page)
    return number, s


def decode(q, k, b, table, page, thresholds, *lengths):
    """`lengths` are those of result, syndrome, difference and margins."""
    number, got = ref.decode(q, k, b, table, page, thresholds, *lengths, tests=decode_tests)
    if number == 0:
        runs = ref.runs_of(b, table)
        buffers = list(page[:b * k]), parities(k, runs, page), [0] * (b * k)
        assert [sum_pass(k, runs, thresholds[place], *buffers) for place in got.places] == got.changes_of_pass
        assert buffers == got[:3]
        sums = [ones_and_zeros(k, runs, *buffers[1:], j) for j in range(b * k)]
        assert got.margins == [zeros - ones for ones, zeros in sums]
    return number, got


def open_page(q, k, b, table, page, *lengths):
    """`lengths` are those of result, syndrome and difference."""
    number, got = ref.open_page(q, k, b, table, page, *lengths, tests=open_tests)
    assert number or got.syndrome == parities(k, ref.runs_of(b, table), page)
    return number, got


def pass_once(q, k, b, table, threshold, result, s, d, changes_len=4):
    """Returns what the pass leaves in result, syndrome and difference; those given are left as they are."""
    number, got = ref.pass_once(q, k, b, table, threshold, result, s, d, changes_len, tests=pass_tests)
    if number == 0:
        buffers = list(result), list(s), list(d)
        assert sum_pass(k, ref.runs_of(b, table), threshold, *buffers) == got.changes and buffers == got[:3]
    return number, got


def explain(q, k, b, table, threshold, symbol, result, s, d, answer_len=24):
    number, got = ref.explain(q, k, b, table, threshold, symbol, result, s, d, answer_len, tests=explain_tests)
    assert number or got == sum_explanation(k, ref.runs_of(b, table), threshold, symbol, s, d)
    return number, got


# What is worked out by hand

A = 2, 13, 1, ref.CODE_A

# Pages of code A and thresholds, then result, S, D and counts. Symbol j has the checks j, j + 1, j + 4 and j + 6 modulo
# 13, and any two symbols share one.
PAGES = (
    # One data bit: four ones of five, a lead of 3.
    (ref.page_a({0: 1}), [2, 2], {}, {}, {0: 1}, (2, 1, 4, 1)),
    (ref.page_a({0: 1}), [3, 2], {}, {}, {0: 1}, (2, 1, 4, 1)),
    (ref.page_a({0: 1}), [3], {0: 1}, {0: 1, 1: 1, 4: 1, 6: 1}, {}, (1, 0, 4, 4)),
    # One check bit.
    (ref.page_a({}, {2: 1}), [0], {}, {2: 1}, {}, (1, 0, 1, 1)),
    # Data bits 0 and 1, which share check 1: S is 0 there, and 1 at 0, 4, 6 and 2, 5, 7. Symbol 0 has three ones, a lead
    # of 1; when it is changed symbol 1 has four.
    (ref.page_a({0: 1, 1: 1}), [0, 0], {}, {}, {0: 1, 1: 1}, (2, 2, 6, 2)),
    (ref.page_a({0: 1, 1: 1}), [1], {0: 1, 1: 1}, {i: 1 for i in (0, 4, 6, 2, 5, 7)}, {}, (1, 0, 6, 6)),
    # Three checks of symbol 0: it is changed, though it was right.
    (ref.page_a({}, {0: 1, 1: 1, 4: 1}), [0], {0: 1}, {6: 1}, {0: 1}, (1, 1, 3, 2)),
)

# k = 7, positions 0, 1, 3: four estimates. Estimates of symbol 0, then h0, m0, m1 and bits.
ANSWERS = (
    ((0, 0, 0, 0), 0, 4, 0, 0b1111), ((0, 1, 0, 0), 0, 3, 1, 0b1101), ((1, 0, 0, 0), 0, 3, 1, 0b1110),
    ((1, 1, 0, 0), 0, 2, 2, 0b1100), ((0, 0, 1, 1), 0, 2, 2, 0b0011), ((1, 0, 0, 1), 0, 2, 2, 0b0110),
    ((0, 1, 1, 1), 1, 3, 1, 0b1110), ((1, 1, 1, 0), 1, 3, 1, 0b0111), ((1, 1, 1, 1), 1, 4, 0, 0b1111),
)


def self_check():
    # 1 for all but q = 2, before all others.
    for q in (0, 1, 3, 4, 256, 258, 65538, 2 ** 31 + 2, 2 ** 32 - 1):
        assert check_table(q, 13, 1, ref.CODE_A) == check_table(q, 0, 9, b"") == 1
    assert [check_table(2, 13, b, ref.CODE_A) for b in (0, 1, 3)] == [10, 0, 3]
    assert [check_table(2, k, 1, ref.CODE_A) for k in (0, 5, 12, 4096)] == [2, 4, 5, 0]
    # 7 for a byte of 2 or more.
    assert [encode(*A, ref.symbols(13, {12: symbol}), 26)[0] for symbol in (1, 2, 3, 255)] == [0, 7, 7, 7]

    # Symbols 0 and 12 are in checks 0, 1, 4, 6 and 12, 0, 3, 5: check 0 is 1 + 1.
    assert encode(*A, ref.symbols(13, {0: 1, 12: 1}), 26) == (
        0, ref.page_a({0: 1, 12: 1}, {i: 1 for i in (1, 4, 6, 12, 3, 5)}))
    for page, thresholds, result, s, d, counts in PAGES:
        number, got = decode(*A, page, thresholds, *ref.decode_lengths(13, 1))
        assert number == 0 and got.counts == counts
        assert got[:3] == tuple(ref.symbols(13, named) for named in (result, s, d))

    for values, h0, m0, m1, bits in ANSWERS:
        buffers = [0] * 7, ref.symbols(7, dict(zip((0, 1, 3), values[1:]))), ref.symbols(7, {0: values[0]})
        for threshold in range(33):
            ground = 1 if m0 - m1 <= threshold else 2 + h0
            assert explain(2, 7, 1, ref.table_of([0, 1, 3]), threshold, 0, *buffers) == (0, (ground, h0, m0, m1, bits))

    # Both votes: every list of 2 to 11 estimates; of 2 to 33 every number of ones, in some order.
    lists = itertools.chain(*(itertools.product((0, 1), repeat=n) for n in range(2, 12)))
    shuffled = random.Random(2)
    drawn = (shuffled.sample([1] * ones + [0] * (n - ones), n) for n in range(2, 34) for ones in range(n + 1))
    for values in itertools.chain(map(list, lists), drawn):
        h0, m0, m1 = ref.vote(values)
        ones, zeros = sum(values), len(values) - sum(values)
        assert (h0, m0, m1) == sum_vote(values) and ref.margin(values) == zeros - ones
        for threshold in range(34):
            assert (m0 - m1 > threshold and h0 != 0) == (ones - zeros > threshold)

    # At most two bits replaced: with a threshold of 0 the data comes back; and decode is its opening and its passes.
    for places in itertools.chain(*(itertools.combinations(range(26), n) for n in range(3))):
        page = ref.symbols(26, dict.fromkeys(places, 1))
        number, got = decode(*A, page, [2, 0, 0], *ref.decode_lengths(13, 1))
        assert number == 0 and got.result == [0] * 13
        buffers = open_page(*A, page, 13, 13, 13)[1]
        for place, changes in zip(got.places, got.changes_of_pass):
            *buffers, made = pass_once(*A, (2, 0, 0)[place], *buffers)[1]
            assert made == changes
        assert tuple(buffers) == got[:3]

    # Every S and D of k = 3, positions 0, 1: a pass and what is explained before it.
    three = 2, 3, 1, ref.table_of([0, 1])
    for *s, d0, d1, d2 in itertools.product((0, 1), repeat=6):
        buffers = [0, 1, 1], s, [d0, d1, d2]
        for threshold in range(4):
            number, got = pass_once(*three, threshold, *buffers)
            changed = [j for j in range(3) if got.result[j] != buffers[0][j]]
            grounds = [explain(*three, threshold, j, *buffers)[1].ground for j in range(3)]
            assert number == 0 and changed[:1] == [j for j in range(3) if grounds[j] == 3][:1]


if __name__ == "__main__":
    self_check()
    print("The pages of bits worked out by hand and both votes on bits pass.")
