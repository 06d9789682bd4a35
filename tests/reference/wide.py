"""The calls on symbols of two and four bytes, as document 02 (N10) states them: q is 65,536 or 4,294,967,296, no call
takes it, and 1 and 7 cannot occur.

A call takes what the C call takes: w, the bytes of a symbol, in place of the choice between the two sets of calls, then
byte strings, w bytes a symbol, low byte first, and lengths in bytes. It returns the number and, at 0, what was written,
as symbols. The answers are those of the general steps of reference.py at this q. With every call that is not refused
they are held against the steps as N10 has them, written here a second time: sums and differences wrap at the symbol's
width, and a vote is read from the estimates in ascending order. Run as a program it tries itself on pages worked out by
hand, on both votes, and on pages with every kind of damage of two symbols.
"""

import itertools
import random

import reference as ref

WIDTHS = (2, 4)


def q_of(w):
    return 256 ** w


# Symbols as bytes

def packed(w, symbols):
    """The bytes of symbols."""
    return b"".join(symbol.to_bytes(w, "little") for symbol in symbols)


def unpacked(w, content):
    """The symbols of bytes that are whole symbols."""
    assert len(content) % w == 0
    return [int.from_bytes(content[at:at + w], "little") for at in range(0, len(content), w)]


# Refusals. All lengths are in bytes.

def without_1(tests):
    """The tests of a general call but for 1, which no q of a width meets."""
    def tests_without_1(q, *arguments):
        (number, _), *others = tests(q, *arguments)
        assert number == 1
        return others
    return tests_without_1


def table_tests(w, k, b, table):
    return without_1(ref.table_tests)(q_of(w), k, b, table)


def bad_lengths(w, pairs):
    """Is a length, of these and the numbers of symbols that are due, not w bytes a symbol?"""
    return any(length != w * symbols for length, symbols in pairs)


def encode_tests(w, k, b, table, data, page_len):
    return table_tests(w, k, b, table) + [
        (6, lambda: bad_lengths(w, ((len(data), b * k), (page_len, (b + 1) * k)))),
    ]


def syndrome_tests(w, k, b, table, page, syndrome_len):
    return table_tests(w, k, b, table) + [
        (6, lambda: bad_lengths(w, ((len(page), (b + 1) * k), (syndrome_len, k)))),
    ]


def buffer_lengths(w, k, b):
    """The lengths of result, syndrome and difference that fit."""
    return w * b * k, w * k, w * b * k


def decode_lengths(w, k, b):
    """Those, and that of the margins, which have 4 bytes each at either width."""
    return *buffer_lengths(w, k, b), 4 * b * k


def decode_tests(w, k, b, table, page, thresholds, *lengths):
    return table_tests(w, k, b, table) + [
        (6, lambda: len(page) != w * (b + 1) * k or lengths != decode_lengths(w, k, b)),
        (8, lambda: not 1 <= len(thresholds) <= 64),
        (9, lambda: any(t > 32 for t in thresholds)),
    ]


def open_tests(w, k, b, table, page, *lengths):
    return table_tests(w, k, b, table) + [
        (6, lambda: len(page) != w * (b + 1) * k or lengths != buffer_lengths(w, k, b)),
    ]


def opened_tests(w, k, b, table, threshold, result, s, d, answer_fits):
    return table_tests(w, k, b, table) + [
        (6, lambda: (len(result), len(s), len(d)) != buffer_lengths(w, k, b) or not answer_fits),
        (9, lambda: threshold > 32),
    ]


def pass_tests(w, k, b, table, threshold, result, s, d, changes_len):
    return opened_tests(w, k, b, table, threshold, result, s, d, changes_len == 4)


def explain_tests(w, k, b, table, threshold, symbol, result, s, d, answer_len):
    return opened_tests(w, k, b, table, threshold, result, s, d, answer_len == 24) + [
        (11, lambda: symbol >= b * k),
    ]


# The steps with sums and differences that wrap

def wrapped(w, number):
    """The low w bytes of a sum or a difference."""
    return number & (1 << 8 * w) - 1


def places_of(k, runs, symbol):
    """The checks of a data symbol."""
    branch, i = divmod(symbol, k)
    return [i + p - k if i + p >= k else i + p for p in runs[branch]]


def wrapped_checks(w, k, runs, data):
    """Each data symbol is added to each of its checks."""
    checks = [0] * k
    for symbol, value in enumerate(data):
        for i in places_of(k, runs, symbol):
            checks[i] = wrapped(w, checks[i] + value)
    return checks


def wrapped_opening(w, k, runs, page):
    n = len(runs) * k
    checks = wrapped_checks(w, k, runs, page[:n])
    return list(page[:n]), [wrapped(w, due - received) for due, received in zip(checks, page[n:])], [0] * n


def ranked(values):
    """The values among estimates in ascending order, each with its count."""
    return [(value, len(list(equal))) for value, equal in itertools.groupby(sorted(values))]


def ranked_vote(values):
    """h0, m0 and m1: the first value whose count no other exceeds, so that in a tie it is the smallest."""
    ranks = ranked(values)
    m0 = max(count for _, count in ranks)
    h0 = next(value for value, count in ranks if count == m0)
    return h0, m0, max((count for value, count in ranks if value != h0), default=0)


def ranked_margin(values):
    counts = dict(ranked(values))
    zeros = counts.pop(0, 0)
    return zeros - max(counts.values(), default=0)


def estimates_of(k, runs, s, d, symbol):
    return [d[symbol], *(s[i] for i in places_of(k, runs, symbol))]


def wrapped_pass(w, k, runs, threshold, result, s, d):
    """A visit to every data symbol in order. Alters the three lists and returns the number of changes."""
    changes = 0
    for symbol in range(len(runs) * k):
        h0, m0, m1 = ranked_vote(estimates_of(k, runs, s, d, symbol))
        if h0 != 0 and m0 - m1 > threshold:
            result[symbol] = wrapped(w, result[symbol] - h0)
            d[symbol] = wrapped(w, d[symbol] - h0)
            for i in places_of(k, runs, symbol):
                s[i] = wrapped(w, s[i] - h0)
            changes += 1
    return changes


def ranked_explanation(k, runs, threshold, symbol, s, d):
    values = estimates_of(k, runs, s, d, symbol)
    h0, m0, m1 = ranked_vote(values)
    ground = 1 if m0 - m1 <= threshold else 3 if h0 else 2
    return ref.Explained(ground, h0, m0, m1, sum(2 ** i for i, value in enumerate(values) if value == h0))


# The calls

def check_table(w, k, b, table):
    return ref.first_that_applies(table_tests(w, k, b, table))


def encode(w, k, b, table, data, page_len):
    number = ref.first_that_applies(encode_tests(w, k, b, table, data, page_len))
    if number:
        return number, None
    data = unpacked(w, data)
    number, page = ref.encode(q_of(w), k, b, table, data, page_len // w, tests=without_1(ref.encode_tests))
    assert number == 0 and page == data + wrapped_checks(w, k, ref.runs_of(b, table), data)
    return 0, page


def syndrome(w, k, b, table, page, syndrome_len):
    number = ref.first_that_applies(syndrome_tests(w, k, b, table, page, syndrome_len))
    if number:
        return number, None
    page = unpacked(w, page)
    number, s = ref.syndrome(q_of(w), k, b, table, page, syndrome_len // w, tests=without_1(ref.syndrome_tests))
    assert number == 0 and s == wrapped_opening(w, k, ref.runs_of(b, table), page)[1]
    return 0, s


def decode(w, k, b, table, page, thresholds, *lengths):
    """`lengths` are those of result, syndrome, difference and margins."""
    number = ref.first_that_applies(decode_tests(w, k, b, table, page, thresholds, *lengths))
    if number:
        return number, None
    runs, page = ref.runs_of(b, table), unpacked(w, page)
    number, got = ref.decode(q_of(w), k, b, table, page, thresholds, *ref.decode_lengths(k, b),
                             tests=without_1(ref.decode_tests))
    assert number == 0
    buffers = wrapped_opening(w, k, runs, page)
    assert [wrapped_pass(w, k, runs, thresholds[place], *buffers) for place in got.places] == got.changes_of_pass
    assert buffers == got[:3]
    assert got.margins == [ranked_margin(estimates_of(k, runs, *buffers[1:], j)) for j in range(b * k)]
    return 0, got


def open_page(w, k, b, table, page, *lengths):
    """`lengths` are those of result, syndrome and difference."""
    number = ref.first_that_applies(open_tests(w, k, b, table, page, *lengths))
    if number:
        return number, None
    page = unpacked(w, page)
    number, got = ref.open_page(q_of(w), k, b, table, page, *ref.buffer_lengths(k, b), tests=without_1(ref.open_tests))
    assert number == 0 and got == wrapped_opening(w, k, ref.runs_of(b, table), page)
    return 0, got


def pass_once(w, k, b, table, threshold, result, s, d, changes_len=4):
    """Returns what the pass leaves in result, syndrome and difference; those given are left as they are."""
    number = ref.first_that_applies(pass_tests(w, k, b, table, threshold, result, s, d, changes_len))
    if number:
        return number, None
    buffers = [unpacked(w, content) for content in (result, s, d)]
    number, got = ref.pass_once(q_of(w), k, b, table, threshold, *buffers, tests=without_1(ref.pass_tests))
    assert number == 0
    assert wrapped_pass(w, k, ref.runs_of(b, table), threshold, *buffers) == got.changes and buffers == list(got[:3])
    return 0, got


def explain(w, k, b, table, threshold, symbol, result, s, d, answer_len=24):
    number = ref.first_that_applies(explain_tests(w, k, b, table, threshold, symbol, result, s, d, answer_len))
    if number:
        return number, None
    buffers = [unpacked(w, content) for content in (result, s, d)]
    number, got = ref.explain(q_of(w), k, b, table, threshold, symbol, *buffers, tests=without_1(ref.explain_tests))
    assert number == 0 and got == ranked_explanation(k, ref.runs_of(b, table), threshold, symbol, *buffers[1:])
    return 0, got


# What is worked out by hand

A = 13, 1, ref.CODE_A


def worked_pages(w):
    """Received pages of code A and thresholds, then result, S, D and counts: the cases of document 01, with values that
    wrap at w bytes. Symbol j has the checks j, j + 1, j + 4 and j + 6 modulo 13."""
    q = q_of(w)
    return (
        # Case 6, with the largest value in place of 7: 0 - (q - 1) is 1.
        (ref.page_a({0: q - 1}), [2, 2], {}, {}, {0: 1}, (2, 1, 4, 1)),
        # Case 7, with a value whose low bytes are 0.
        (ref.page_a({0: q // 2}), [3, 2], {}, {}, {0: q // 2}, (2, 1, 4, 1)),
        (ref.page_a({0: q // 2}), [3], {0: q // 2}, dict.fromkeys((0, 1, 4, 6), q // 2), {}, (1, 0, 4, 4)),
        # Case 8: s(2) is 0 - 9.
        (ref.page_a({}, {2: 9}), [0], {}, {2: q - 9}, {}, (1, 0, 1, 1)),
        # Case 9: s(1) is the sum of both, which wraps to q - 4.
        (ref.page_a({0: q - 7, 1: 3}), [0, 0], {}, {}, {0: 7, 1: q - 3}, (2, 2, 7, 2)),
        # The same with a sum that wraps to 0: symbol 0 has then three estimates h, symbol 1 four of 0 - h.
        (ref.page_a({0: 256, 1: q - 256}), [0, 0], {}, {}, {0: q - 256, 1: 256}, (2, 2, 6, 2)),
        # Case 10: three estimates 5 against two 0, so that symbol 0 is changed to 0 - 5, though it was right.
        (ref.page_a({}, dict.fromkeys((0, 1, 4), q - 5)), [0], {0: q - 5}, {6: q - 5}, {0: q - 5}, (1, 1, 3, 2)),
        # Three estimates that agree in their low byte only: each is one vote, and 0 has two.
        (ref.page_a({}, {0: q - 5, 1: q - 5 - 256, 4: q - 5 - 512}), [0], {}, {0: 5, 1: 5 + 256, 4: 5 + 512}, {},
         (1, 0, 3, 3)),
        # Three that are all 0 in their low byte, and no two agree: only one estimate is 0, of five that all differ.
        (ref.page_a({}, {0: 256, 1: 512, 4: q // 2, 6: 1}), [0], {},
         {0: q - 256, 1: q - 512, 4: q // 2, 6: q - 1}, {}, (1, 0, 4, 4)),
    )


def worked_answers(w):
    """Estimates of symbol 0 of code A, then h0, m0, m1 and bits. In a tie the smallest is h0, as numbers and not by their
    low bytes or their signs."""
    q = q_of(w)
    return (
        ((q - 1,) * 5, q - 1, 5, 0, 0b11111),
        ((0, q - 1, q - 1, q - 1, q - 1), q - 1, 4, 1, 0b11110),
        ((q - 1, 256, q - 1, 256, 0), 256, 2, 2, 0b01010),
        ((256, 255, 256, 255, 0), 255, 2, 2, 0b01010),
        ((q // 2, q // 2 - 1, q // 2, q // 2 - 1, 3), q // 2 - 1, 2, 2, 0b01010),
        ((q - 1, 0, q - 1, 0, 5), 0, 2, 2, 0b01010),
        ((q - 256, q - 1, q - 256, q - 1, 7), q - 256, 2, 2, 0b00101),
        ((5, 5 + 256, 5 + 512, 5 + 768, 5 + 1024), 5, 1, 1, 0b00001),
        ((5 + 1024, 5 + 768, 5 + 512, 5 + 256, 5), 5, 1, 1, 0b10000),
        ((q // 256, q // 256, q - q // 256, 0, 0), 0, 2, 2, 0b11000),
        ((q // 256, 2 * (q // 256), 2 * (q // 256), 0, 0), 0, 2, 2, 0b11000),
        ((0, 256, 512, 256, 0xff), 256, 2, 1, 0b01010),
    )


def self_check():
    assert packed(2, [1, 0x1234, 0xffff]) == b"\x01\x00\x34\x12\xff\xff" and packed(4, [0x01020304]) == b"\4\3\2\1"
    for w in WIDTHS:
        wide_check(w)


def wide_check(w):
    q = q_of(w)
    few = [0, 1, 5, 255, 256, 257, q // 2 - 1, q // 2, q // 2 + 1, q - 256, q - 2, q - 1]
    assert all(unpacked(w, packed(w, values)) == list(values) for values in itertools.product(few, repeat=2))
    assert all(wrapped(w, a + b) == (a + b) % q and wrapped(w, a - b) == (a - b) % q
               for a, b in itertools.product(few, repeat=2))

    # No q: 2 comes first. An odd byte too many, or a byte too few, is 6.
    assert [check_table(w, k, 1, ref.CODE_A) for k in (0, 5, 12, 13, 4096, 4097)] == [2, 4, 5, 0, 0, 2]
    assert [check_table(w, 13, b, ref.CODE_A) for b in (0, 1, 2, 3, 9)] == [10, 0, 0, 3, 10]
    word = packed(w, [0] * 26)
    for more in (1 - w, -1, 0, 1, w - 1):
        number = 6 if more else 0
        assert encode(w, *A, (word + b"\0")[:13 * w + more], 26 * w)[0] == number
        assert encode(w, *A, word[:13 * w], 26 * w + more)[0] == number
        assert syndrome(w, *A, word, 13 * w + more)[0] == number
        assert decode(w, *A, word, [0], *decode_lengths(w, 13, 1)[:3], 52 + more)[0] == number
    assert [decode(w, *A, word, [0] * n, *decode_lengths(w, 13, 1))[0] for n in (0, 1, 64, 65)] == [8, 0, 0, 8]
    assert [decode(w, *A, word, [0, t], *decode_lengths(w, 13, 1))[0] for t in (32, 33)] == [0, 9]

    # Case 3, and case 5 with values whose sum wraps: symbols 0 and 12 are in checks 0, 1, 4, 6 and 12, 0, 3, 5.
    for symbol in few:
        assert encode(w, 1, 1, ref.table_of([0]), packed(w, [symbol]), 2 * w) == (0, [symbol, symbol])
    sent = ref.symbols(13, {0: 10, 12: q - 6})
    checks = {0: 4, **dict.fromkeys((1, 4, 6), 10), **dict.fromkeys((12, 3, 5), q - 6)}
    assert encode(w, *A, packed(w, sent), 26 * w) == (0, sent + ref.symbols(13, checks))
    # All symbols q - 1: a check is 4 times that, q - 4.
    assert encode(w, *A, packed(w, [q - 1] * 13), 26 * w)[1][13:] == [q - 4] * 13
    assert syndrome(w, *A, packed(w, [0] * 13 + [1] * 13), 13 * w) == (0, [q - 1] * 13)

    for page, thresholds, result, s, d, counts in worked_pages(w):
        number, got = decode(w, *A, packed(w, page), thresholds, *decode_lengths(w, 13, 1))
        assert number == 0 and got.counts == counts
        assert got[:3] == tuple(ref.symbols(13, named) for named in (result, s, d))
    for values, h0, m0, m1, bits in worked_answers(w):
        buffers = [packed(w, symbols) for symbols in (
            [0] * 13, ref.symbols(13, dict(zip((0, 1, 4, 6), values[1:]))), ref.symbols(13, {0: values[0]}))]
        for threshold in range(7):
            ground = 1 if m0 - m1 <= threshold else 3 if h0 else 2
            assert explain(w, *A, threshold, 0, *buffers) == (0, (ground, h0, m0, m1, bits))

    # Both votes: every list of 2 to 5 of few values, and drawn ones of up to 33.
    draw = random.Random(w)
    lists = itertools.chain(*(itertools.product(few[:8:2] + few[-2:], repeat=n) for n in range(2, 6)))
    drawn = ([draw.choice(few) for _ in range(n)] for n in range(2, 34) for _ in range(10))
    for values in itertools.chain(map(list, lists), drawn):
        assert ref.vote(values) == ranked_vote(values) and ref.margin(values) == ranked_margin(values)

    # At most two symbols replaced: with a threshold of 0 the data comes back; and decode is its opening and its passes.
    damage = (1, 256, q // 2, q - 1)
    for places in itertools.chain(*(itertools.combinations(range(26), n) for n in range(3))):
        values = [damage[(sum(places) + 3 * i) % 4] for i in range(len(places))]
        page = packed(w, ref.symbols(26, dict(zip(places, values))))
        number, got = decode(w, *A, page, [2, 0, 0], *decode_lengths(w, 13, 1))
        assert number == 0 and got.result == [0] * 13
        buffers = [packed(w, symbols) for symbols in open_page(w, *A, page, *buffer_lengths(w, 13, 1))[1]]
        for place, changes in zip(got.places, got.changes_of_pass):
            *symbols, made = pass_once(w, *A, (2, 0, 0)[place], *buffers)[1]
            buffers = [packed(w, buffer) for buffer in symbols]
            assert made == changes
        assert tuple(buffers) == tuple(packed(w, symbols) for symbols in got[:3])


if __name__ == "__main__":
    self_check()
    print("The pages of two-byte and four-byte symbols worked out by hand and both votes on them pass.")
