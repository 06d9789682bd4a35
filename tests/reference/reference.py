"""The page code and its decoder, as documents 01 and 02 (N1, N2 and N4 to N8) state them: clear rather than fast.

Shares no code and no tables with the library. `check_table`, `encode`, `syndrome`, `decode`, `open_page`, `pass_once`,
`explain`, `decode_counters`, `encode_outer` and `decode_outer` take what the C calls take, with the lengths of buffers
lent for an answer in place of the buffers. They return the number and, at 0, what was written. Elsewhere a code is q, k
and its runs, a list of positions for each branch. Run as a program it tries itself on the worked cases of document 01,
on the codes of N2, on the threshold lists of N4, on the passes of N5, on the explanations of N6, on the counters of N7
and on the outer checks of N8.
"""

import functools
import itertools
from collections import Counter, namedtuple

# The number of data symbols up to which self-orthogonality is tested on all pairs of them.
ALL_PAIRS = 32

# Counters, one for each value of a byte, as a caller must lend them.
ZEROED = bytes(256)

Counts = namedtuple("Counts", "passes changes start end")
# `places` are the places, in the list of thresholds, of the passes that were run.
Decoded = namedtuple("Decoded", "result syndrome difference margins counts places changes_of_pass")
# `steps` are the outer steps, in the order in which they were made.
OuterDecoded = namedtuple("OuterDecoded", (*Decoded._fields, "steps"))
Step = namedtuple("Step", "symbol value reliability")
Opened = namedtuple("Opened", "result syndrome difference")
Passed = namedtuple("Passed", "result syndrome difference changes")
Explained = namedtuple("Explained", "ground h0 m0 m1 bits")


# The code

def positions_of(table):
    """The positions in a table's bytes: two bytes each, low byte first."""
    return [table[i] + 256 * table[i + 1] for i in range(0, len(table) - 1, 2)]


def runs_of(b, table):
    """The b runs of a table, J positions each."""
    positions = positions_of(table)
    j = len(positions) // b
    return [positions[r * j:(r + 1) * j] for r in range(b)]


def table_of(*runs):
    """The bytes of a table."""
    return bytes(byte for run in runs for p in run for byte in (p % 256, p // 256))


def checks_of(k, runs, symbol):
    """The checks that a data symbol is in. Symbol i of branch r has the number r * k + i."""
    r, i = divmod(symbol, k)
    return [(i + p) % k for p in runs[r]]


def check_sum(q, k, runs, data, i):
    """Check i: the sum of the data symbols (i - p) mod k of each branch over all positions p of its run."""
    return sum(data[r * k + (i - p) % k] for r, run in enumerate(runs) for p in run) % q


def code_word(q, k, runs, data):
    """The page: the data, branch after branch, then the checks."""
    return list(data) + [check_sum(q, k, runs, data, i) for i in range(k)]


def syndrome_of(q, k, runs, page):
    """Check by check: the sum of the received data symbols in it, minus the received check symbol."""
    n = len(runs) * k
    data, received = page[:n], page[n:]
    return [(check_sum(q, k, runs, data, i) - received[i]) % q for i in range(k)]


def distance(page, other):
    """The number of places where two pages differ."""
    return sum(a != b for a, b in zip(page, other))


def nonzero(symbols):
    return sum(x != 0 for x in symbols)


def page_of(q, k, runs, result, s, d):
    """The page whose data is result - D and whose checks are those of the result - S. For the buffers of a page that was
    opened, and at every moment of passes on them, it is that page; buffers of any content in range have one."""
    checks = code_word(q, k, runs, result)[len(result):]
    return [(a - c) % q for a, c in zip(result + checks, d + s)]


def shared(k, runs, j, l):
    """How many checks two data symbols have in common."""
    return len(set(checks_of(k, runs, j)) & set(checks_of(k, runs, l)))


def self_orthogonal_all_pairs(k, runs):
    n = len(runs) * k
    return all(shared(k, runs, j, l) <= 1 for j in range(n) for l in range(j))


def self_orthogonal_by_rotation(k, runs):
    """Adding 1 (mod k) to the index of j in its branch and to that of l in its own adds 1 to all their checks, and they
    share as many as before: the pairs whose one symbol has index 0 in its branch stand for all."""
    checks = [set(checks_of(k, runs, j)) for j in range(len(runs) * k)]
    return all(len(checks[j] & checks[l]) <= 1
               for j in range(0, len(checks), k) for l in range(len(checks)) if l != j)


def differences_differ(k, runs):
    """Are the values (a - c) mod k, over the ordered pairs of different positions of one run, all different, for all runs
    together? For two branches as for one this is the same as self-orthogonal."""
    values = [(a - c) % k for run in runs for a, c in itertools.permutations(run, 2)]
    return len(set(values)) == len(values)


@functools.lru_cache(maxsize=None)
def _self_orthogonal(k, runs):
    if len(runs) * k <= ALL_PAIRS:
        return self_orthogonal_all_pairs(k, runs)
    return self_orthogonal_by_rotation(k, runs)


def self_orthogonal(k, runs):
    """Any two different data symbols, of one branch or of two, have at most one check in common."""
    return _self_orthogonal(k, tuple(tuple(run) for run in runs))


# Refusals: one test a number. Each call makes those it has in this order: 1, 2, 10, 3, 4, .. 9, then 11 or 12.

def bad_q(q):
    return not 3 <= q <= 256


def bad_k(k):
    return not 1 <= k <= 4096


def bad_b(k, b):
    return not 1 <= b <= 8 or b * k > 4096


def bad_j(b, table):
    positions = len(table) // 2
    return len(table) % 2 == 1 or positions % b != 0 or not 1 <= positions // b <= 32


def bad_position(k, runs):
    return any(p >= k for run in runs for p in run) or any(b <= a for run in runs for a, b in zip(run, run[1:]))


def bad_symbol(q, symbols):
    return any(s >= q for s in symbols)


def bad_counters(counters):
    return len(counters) != 256 or any(counters)


def bad_block(k, b, length):
    return length < 2 or b * k % length != 0


def table_tests(q, k, b, table):
    return [
        (1, lambda: bad_q(q)),
        (2, lambda: bad_k(k)),
        (10, lambda: bad_b(k, b)),
        (3, lambda: bad_j(b, table)),
        (4, lambda: bad_position(k, runs_of(b, table))),
        (5, lambda: not self_orthogonal(k, runs_of(b, table))),
    ]


def encode_tests(q, k, b, table, data, page_len):
    return table_tests(q, k, b, table) + [
        (6, lambda: (len(data), page_len) != (b * k, (b + 1) * k)),
        (7, lambda: bad_symbol(q, data)),
    ]


def encode_outer_tests(q, k, b, table, length, data, page_len):
    return encode_tests(q, k, b, table, data, page_len) + [(12, lambda: bad_block(k, b, length))]


def syndrome_tests(q, k, b, table, page, syndrome_len):
    return table_tests(q, k, b, table) + [
        (6, lambda: (len(page), syndrome_len) != ((b + 1) * k, k)),
        (7, lambda: bad_symbol(q, page)),
    ]


def buffer_lengths(k, b):
    """The lengths of result, syndrome and difference that fit."""
    return b * k, k, b * k


def decode_lengths(k, b):
    """Those, and that of the margins; a margin has 4 bytes."""
    return *buffer_lengths(k, b), 4 * b * k


def decode_tests(q, k, b, table, page, thresholds, *lengths, counters=ZEROED):
    """Of a decode with counters too; one without them has none that are amiss."""
    return table_tests(q, k, b, table) + [
        (6, lambda: len(page) != (b + 1) * k or lengths != decode_lengths(k, b) or bad_counters(counters)),
        (7, lambda: bad_symbol(q, page)),
        (8, lambda: not 1 <= len(thresholds) <= 64),
        (9, lambda: any(t > 32 for t in thresholds)),
    ]


def decode_outer_tests(q, k, b, table, length, page, thresholds, *lengths):
    return decode_tests(q, k, b, table, page, thresholds, *lengths) + [(12, lambda: bad_block(k, b, length))]


def open_tests(q, k, b, table, page, *lengths):
    return table_tests(q, k, b, table) + [
        (6, lambda: len(page) != (b + 1) * k or lengths != buffer_lengths(k, b)),
        (7, lambda: bad_symbol(q, page)),
    ]


def opened_tests(q, k, b, table, threshold, result, s, d, answer_fits):
    """The tests of a call on the buffers of an opened page; is the memory lent for its answer as long as it must be?"""
    return table_tests(q, k, b, table) + [
        (6, lambda: (len(result), len(s), len(d)) != buffer_lengths(k, b) or not answer_fits),
        (7, lambda: any(bad_symbol(q, buffer) for buffer in (result, s, d))),
        (9, lambda: threshold > 32),
    ]


def pass_tests(q, k, b, table, threshold, result, s, d, changes_len):
    return opened_tests(q, k, b, table, threshold, result, s, d, changes_len == 4)


def explain_tests(q, k, b, table, threshold, symbol, result, s, d, answer_len):
    return opened_tests(q, k, b, table, threshold, result, s, d, answer_len == 24) + [
        (11, lambda: symbol >= b * k),
    ]


def first_that_applies(tests):
    return next((number for number, applies in tests if applies()), 0)


# The decoder

def estimates(k, runs, s, d, j):
    """The J + 1 estimates of data symbol j: d at j, and s at each check of j."""
    return [d[j]] + [s[i] for i in checks_of(k, runs, j)]


def vote(values):
    """The commonest value h0, its count m0, and m1, the largest count of any other value, 0 if there is none. Of values
    tied for first place h0 is the smallest; m1 is then m0. Each value is compared with all."""
    votes = {value: values.count(value) for value in values}
    h0 = min(votes, key=lambda value: (-votes[value], value))
    m1 = max((count for value, count in votes.items() if value != h0), default=0)
    return h0, votes[h0], m1


def vote_counted(values, counters):
    """The vote of document 004: h0, m0, m1 and the number of zeros. There is a counter for each value, all are 0 before.
    When all estimates are counted, each counter is read where its value first stands and cleared, so that it is read once
    and only those that were used are written."""
    for value in values:
        counters[value] += 1
    h0, m0, m1, zeros = 0, 0, 0, counters[0]
    for value in values:
        count, counters[value] = counters[value], 0
        if count > m0 or count == m0 and value < h0:
            h0, m0, m1 = value, count, m0
        elif count > m1:
            m1 = count
    return h0, m0, m1, zeros


def margin(values):
    """The number of zeros minus the largest count of any one other value, 0 if there is none."""
    others = Counter(value for value in values if value != 0)
    return values.count(0) - max(others.values(), default=0)


def next_place(thresholds, place, changes):
    """The place in the list of the pass that follows the one at `place`, which made so many changes; None where decoding
    stops. After a change it is the next in the list. After an idle pass it is the first later one whose threshold is
    smaller than that of the idle pass."""
    for later in range(place + 1, len(thresholds)):
        if changes > 0 or thresholds[later] < thresholds[place]:
            return later
    return None


def opened(q, k, runs, page):
    """Result, S and D of a received page, before any visit."""
    n = len(runs) * k
    return list(page[:n]), syndrome_of(q, k, runs, page), [0] * n


def change(q, k, runs, value, result, s, d, j):
    """Subtracts the value from result symbol j, from d at j and from s at each check of j."""
    result[j] = (result[j] - value) % q
    d[j] = (d[j] - value) % q
    for i in checks_of(k, runs, j):
        s[i] = (s[i] - value) % q


def visit(q, k, runs, threshold, result, s, d, j, vote=vote):
    """A visit to data symbol j. Alters the three lists where it makes a change, and returns whether it does."""
    before = estimates(k, runs, s, d, j)
    h0, m0, m1 = vote(before)
    if m0 - m1 <= threshold or h0 == 0:
        return False
    change(q, k, runs, h0, result, s, d, j)
    # What N5 says of every change: the estimates are all that it altered of S and D.
    assert nonzero(before) - nonzero(estimates(k, runs, s, d, j)) > threshold
    return True


def one_pass(q, k, runs, threshold, result, s, d, vote=vote):
    """A visit to every data symbol in order. Alters the three lists and returns the number of changes."""
    return sum(visit(q, k, runs, threshold, result, s, d, j, vote) for j in range(len(runs) * k))


def run(q, k, runs, page, thresholds, vote=vote):
    """All the passes. Returns result, S, D, the places of the passes run and the number of changes of each."""
    result, s, d = opened(q, k, runs, page)
    places, changes_of_pass = [], []
    place = 0
    while place is not None:
        changes = one_pass(q, k, runs, thresholds[place], result, s, d, vote)
        places.append(place)
        changes_of_pass.append(changes)
        place = next_place(thresholds, place, changes)
    return result, s, d, places, changes_of_pass


def counts_of(q, k, runs, page, result, changes_of_pass, steps=0):
    """The four counts of a decode; a distance is that of the code word of the data from the page received. Outer steps
    are changes and no pass."""
    return Counts(
        passes=len(changes_of_pass),
        changes=sum(changes_of_pass) + steps,
        start=distance(code_word(q, k, runs, page[:len(result)]), page),
        end=distance(code_word(q, k, runs, result), page))


def strict_minima(values):
    """The places whose value is smaller than all before it."""
    return [i for i, value in enumerate(values) if all(value < before for before in values[:i])]


# The outer check

def blocks(length, n):
    """The data symbols of each block, by their numbers: `length` in a row, through all branches."""
    return [range(first, first + length) for first in range(0, n, length)]


def block_sum(q, data, block):
    return sum(data[j] for j in block) % q


def keeps_outer_rule(q, length, data):
    """Does every block sum to 0?"""
    return all(block_sum(q, data, block) == 0 for block in blocks(length, len(data)))


def outer_word(q, length, data):
    """The data with the last symbol of each block replaced by the one that makes the block sum to 0."""
    word = list(data)
    for *others, last in blocks(length, len(data)):
        word[last] = -sum(data[j] for j in others) % q
    return word


def reliability(values, e):
    """The zeros among the estimates minus those equal to e."""
    return values.count(0) - values.count(e)


def outer_step(q, k, runs, block, result, s, d):
    """What is due for a block after the passes. Alters the three lists where there is a step, and returns it, else
    None."""
    e = block_sum(q, result, block)
    if e == 0:
        return None
    *others, last = [reliability(estimates(k, runs, s, d, j), e) for j in block]
    least = min(others)
    if least >= last:
        return None
    step = Step(block[others.index(least)], e, least)
    change(q, k, runs, e, result, s, d, step.symbol)
    return step


# The calls. Each makes the tests of its name; bits.py gives those that it has other ones.

def check_table(q, k, b, table, tests=table_tests):
    return first_that_applies(tests(q, k, b, table))


def encode(q, k, b, table, data, page_len, tests=encode_tests):
    number = first_that_applies(tests(q, k, b, table, data, page_len))
    if number:
        return number, None
    return 0, code_word(q, k, runs_of(b, table), data)


def syndrome(q, k, b, table, page, syndrome_len, tests=syndrome_tests):
    number = first_that_applies(tests(q, k, b, table, page, syndrome_len))
    if number:
        return number, None
    return 0, syndrome_of(q, k, runs_of(b, table), page)


def decode(q, k, b, table, page, thresholds, *lengths, tests=decode_tests):
    """`lengths` are those of result, syndrome, difference and margins."""
    number = first_that_applies(tests(q, k, b, table, page, thresholds, *lengths))
    if number:
        return number, None
    runs = runs_of(b, table)
    page = list(page)
    result, s, d, places, changes_of_pass = run(q, k, runs, page, thresholds)
    margins = [margin(estimates(k, runs, s, d, j)) for j in range(b * k)]
    counts = counts_of(q, k, runs, page, result, changes_of_pass)

    # What document 01 says of every decode: result = received data + D, S = the code word's checks - the received checks.
    assert page_of(q, k, runs, result, s, d) == page
    assert counts.end == nonzero(s + d)
    assert counts.end + sum(n * (thresholds[i] + 1) for i, n in zip(places, changes_of_pass)) <= counts.start
    assert counts.changes <= 64 * 4096 and counts.start <= 8192
    # What N1 says of every margin, and where it is J + 1.
    most = len(runs[0]) + 1
    assert all(-most <= m <= most for m in margins)
    assert all((m == most) == (not any(estimates(k, runs, s, d, j))) for j, m in enumerate(margins))
    # What N2 says of the lengths.
    assert (len(result), len(s), len(d), 4 * len(margins)) == decode_lengths(k, b)
    # What follows from N4 for the passes of every decode.
    least = min(thresholds)
    assert thresholds.index(least) in places
    assert places[-1] == len(thresholds) - 1 or changes_of_pass[-1] == 0 and thresholds[places[-1]] <= \
        min(thresholds[places[-1]:])
    if counts.changes == 0:
        assert places == strict_minima(thresholds)
    return 0, Decoded(result, s, d, margins, counts, places, changes_of_pass)


def decode_counters(q, k, b, table, page, thresholds, *lengths, counters):
    """As decode, with every vote by these counters: passes and margins. The counters are left as they are given."""
    number = first_that_applies(decode_tests(q, k, b, table, page, thresholds, *lengths, counters=counters))
    if number:
        return number, None
    runs, page, used = runs_of(b, table), list(page), list(counters)

    def counted(values):
        got = vote_counted(values, used)
        # What N7 says of every vote, and of the counters after it.
        assert got == (*vote(values), values.count(0)) and not any(used)
        return got

    def counted_margin(values):
        """The largest count of a value other than 0 is m1 where 0 leads, else m0."""
        h0, m0, m1, zeros = counted(values)
        return zeros - (m1 if h0 == 0 else m0)

    result, s, d, places, changes_of_pass = run(q, k, runs, page, thresholds, lambda values: counted(values)[:3])
    margins = [counted_margin(estimates(k, runs, s, d, j)) for j in range(b * k)]
    counts = counts_of(q, k, runs, page, result, changes_of_pass)
    return 0, Decoded(result, s, d, margins, counts, places, changes_of_pass)


def encode_outer(q, k, b, table, length, data, page_len):
    """`length` is that of a block."""
    number = first_that_applies(encode_outer_tests(q, k, b, table, length, data, page_len))
    if number:
        return number, None
    word = outer_word(q, length, data)
    # What N8 says of the page: its data keeps the outer rule, and is the data lent but for the last places.
    assert keeps_outer_rule(q, length, word) and not bad_symbol(q, word)
    assert all(j % length == length - 1 for j, (sent, given) in enumerate(zip(word, data)) if sent != given)
    return encode(q, k, b, table, word, page_len)


def decode_outer(q, k, b, table, length, page, thresholds, *lengths):
    """`length` is that of a block; `lengths` are those of result, syndrome, difference and margins."""
    number = first_that_applies(decode_outer_tests(q, k, b, table, length, page, thresholds, *lengths))
    if number:
        return number, None
    runs = runs_of(b, table)
    page = list(page)
    result, s, d, places, changes_of_pass = run(q, k, runs, page, thresholds)

    def distance_now():
        return distance(code_word(q, k, runs, result), page)

    passed = distance_now()
    steps = []
    for block in blocks(length, b * k):
        before = distance_now()
        step = outer_step(q, k, runs, block, result, s, d)
        if step is not None:
            steps.append(step)
            # What N8 says of every step: it adds exactly its reliability to the distance. The block then sums to 0.
            assert distance_now() == before + step.reliability and block_sum(q, result, block) == 0
    margins = [margin(estimates(k, runs, s, d, j)) for j in range(b * k)]
    counts = counts_of(q, k, runs, page, result, changes_of_pass, len(steps))

    # What stays of document 01: result = received data + D, S = the code word's checks - the received checks; the rule of
    # the falling distance for the passes.
    assert page_of(q, k, runs, result, s, d) == page
    assert counts.end == nonzero(s + d) == passed + sum(step.reliability for step in steps)
    assert passed + sum(n * (thresholds[i] + 1) for i, n in zip(places, changes_of_pass)) <= counts.start
    # On a code word all reliabilities are J + 1: no step, also where its blocks do not sum to 0.
    assert counts.start > 0 or not steps and result == page[:b * k]
    return 0, OuterDecoded(result, s, d, margins, counts, places, changes_of_pass, steps)


def open_page(q, k, b, table, page, *lengths, tests=open_tests):
    """`lengths` are those of result, syndrome and difference."""
    number = first_that_applies(tests(q, k, b, table, page, *lengths))
    if number:
        return number, None
    runs = runs_of(b, table)
    got = Opened(*opened(q, k, runs, page))
    assert page_of(q, k, runs, *got) == list(page)
    return 0, got


def pass_once(q, k, b, table, threshold, result, s, d, changes_len=4, tests=pass_tests):
    """Returns what the pass leaves in result, syndrome and difference; those given are left as they are."""
    number = first_that_applies(tests(q, k, b, table, threshold, result, s, d, changes_len))
    if number:
        return number, None
    runs = runs_of(b, table)
    before, after = [[list(result), list(s), list(d)] for _ in range(2)]
    got = Passed(*after, one_pass(q, k, runs, threshold, *after))

    # What N5 says of every pass, whatever the buffers held: the page is the same, the code word of the result differs
    # from it in as many places as S and D have nonzero symbols, and these fall by more than T with every change.
    page = page_of(q, k, runs, *before)
    assert page_of(q, k, runs, *after) == page
    assert distance(code_word(q, k, runs, got.result), page) == nonzero(got.syndrome + got.difference)
    assert nonzero(got.syndrome + got.difference) + got.changes * (threshold + 1) <= nonzero(before[1] + before[2])
    assert (got.changes == 0) == (after == before)
    return 0, got


def explain(q, k, b, table, threshold, symbol, result, s, d, answer_len=24, tests=explain_tests):
    number = first_that_applies(tests(q, k, b, table, threshold, symbol, result, s, d, answer_len))
    if number:
        return number, None
    runs = runs_of(b, table)
    values = estimates(k, runs, s, d, symbol)
    h0, m0, m1 = vote(values)
    got = Explained(
        ground=1 if m0 - m1 <= threshold else 2 if h0 == 0 else 3,
        h0=h0, m0=m0, m1=m1,
        bits=sum(1 << i for i, value in enumerate(values) if value == h0))

    # What N6 says of every ground: it is the one by which a visit now would act, on 3 by h0.
    before, after = [[list(result), list(s), list(d)] for _ in range(2)]
    assert visit(q, k, runs, threshold, *after, symbol) == (got.ground == 3) == (after != before)
    assert got.ground != 3 or after[0][symbol] == (result[symbol] - h0) % q
    # The number of bits set, and what the margin says of the grounds.
    assert bin(got.bits).count("1") == m0 and got.bits < 2 ** len(values)
    assert (got.ground == 2) == (margin(values) > threshold)
    assert got.ground != 3 or margin(values) < -threshold
    return 0, got


# The worked cases of document 01

CODE_A = table_of([0, 1, 4, 6])


def symbols(length, named):
    """Symbols not named are 0."""
    return [named.get(i, 0) for i in range(length)]


def page_a(data={}, checks={}):
    """A received page of code A."""
    return symbols(13, data) + symbols(13, checks)


def decode_a(q, page, thresholds):
    return decode(q, 13, 1, CODE_A, page, thresholds, *decode_lengths(13, 1))


def self_check():
    """Cases 1 to 14 in turn, by the numbers that document 01 states, for case 7 those of N4; then margins worked out by
    hand."""
    # 1, 2
    assert check_table(256, 13, 1, CODE_A) == 0
    assert check_table(256, 12, 1, CODE_A) == 5
    assert check_table(256, 7, 1, table_of([0, 1, 3])) == 0
    assert check_table(256, 6, 1, table_of([0, 1, 3])) == 5
    # 3
    assert check_table(256, 1, 1, table_of([0])) == 0
    for symbol in range(256):
        assert encode(256, 1, 1, table_of([0]), [symbol], 2) == (0, [symbol, symbol])
    # 4, 5
    assert encode(256, 13, 1, CODE_A, symbols(13, {0: 7}), 26) == (
        0, page_a({0: 7}, {0: 7, 1: 7, 4: 7, 6: 7}))
    assert encode(256, 13, 1, CODE_A, symbols(13, {0: 10, 12: 250}), 26) == (
        0, page_a({0: 10, 12: 250}, {0: 4, 1: 10, 4: 10, 6: 10, 3: 250, 5: 250, 12: 250}))
    # 6 to 10: page, thresholds, then result, S, D, counts
    for page, thresholds, result, s, d, counts in [
        (page_a({0: 7}), [2, 2], {}, {}, {0: 249}, (2, 1, 4, 1)),
        (page_a({0: 7}), [3, 2], {}, {}, {0: 249}, (2, 1, 4, 1)),
        (page_a({0: 7}), [3, 3, 2], {}, {}, {0: 249}, (2, 1, 4, 1)),
        (page_a({0: 7}), [3], {0: 7}, {0: 7, 1: 7, 4: 7, 6: 7}, {}, (1, 0, 4, 4)),
        (page_a({}, {2: 9}), [0], {}, {2: 247}, {}, (1, 0, 1, 1)),
        (page_a({0: 7, 1: 3}), [0, 0], {}, {}, {0: 249, 1: 253}, (2, 2, 7, 2)),
        (page_a({}, {0: 251, 1: 251, 4: 251}), [0], {0: 251}, {6: 251}, {0: 251}, (1, 1, 3, 2)),
    ]:
        number, got = decode_a(256, page, thresholds)
        assert number == 0
        assert got[:3] == (symbols(13, result), symbols(13, s), symbols(13, d)) and got.counts == counts
    # 11
    assert [check_table(q, 13, 1, CODE_A) for q in (2, 3, 256, 257)] == [1, 0, 0, 1]
    # 12
    assert encode(5, 13, 1, CODE_A, symbols(13, {3: 4}), 26)[0] == 0
    assert encode(5, 13, 1, CODE_A, symbols(13, {3: 5}), 26)[0] == 7
    assert syndrome(5, 13, 1, CODE_A, symbols(25, {3: 5}), 13)[0] == 6
    # 13
    assert [decode_a(5, page_a(), [0] * n)[0] for n in (64, 65)] == [0, 8]
    assert [decode_a(5, page_a(), [t])[0] for t in (32, 33)] == [0, 9]
    assert decode_a(5, page_a({3: 5}), [])[0] == 7
    # 14
    assert vote([2, 2, 1, 1, 0]) == (1, 2, 2)
    assert vote([7, 7, 0, 9, 1]) == (7, 2, 1)
    # N1: a list of estimates by itself, then the pages of cases 6 and 8, and that of case 7 with a threshold of 3 alone
    for values, due in (([0] * 5, 5), ([7] * 5, -5), ([0, 0, 0, 0, 1], 3), ([1, 2, 3, 4, 5], -1), ([9, 9, 9, 9, 4], -4),
                        ([0, 0, 3, 3, 8], 0), ([0, 0, 0, 3, 8], 2), ([0, 1], 0), ([1, 1], -2)):
        assert margin(values) == due
    # 6: d(0) alone is not 0. 7 left as it was: all four checks of symbol 0 are 7, and each other symbol has one of them.
    # 8: s(2) alone is not 0, and check 2 is one of symbols 2, 1, 11 and 9.
    for page, thresholds, margins in ((page_a({0: 7}), [2, 2], [3] + [5] * 12),
                                      (page_a({0: 7}), [3], [-3] + [3] * 12),
                                      (page_a({}, {2: 9}), [0], [3 if j in (1, 2, 9, 11) else 5 for j in range(13)])):
        assert decode_a(256, page, thresholds)[1].margins == margins
    branches_check()
    schedules_check()
    passes_check()
    explain_check()
    counters_check()
    outer_check()


def branches_check():
    """The codes that N2 names, a code of two branches by hand, and that all tests of self-orthogonality are one."""
    assert check_table(256, 13, 2, table_of([0, 1], [0, 2])) == 0
    assert check_table(256, 13, 2, table_of([0, 1], [0, 1])) == 5
    # Both ends of b, and of b times k.
    assert [check_table(256, 13, b, table_of(*[[0]] * b)) for b in range(10)] == [10] + [0] * 8 + [10]
    assert [check_table(256, k, 2, table_of([0], [0])) for k in (2048, 2049)] == [0, 10]
    # k = 13, runs 0, 1 and 0, 2: symbol 0 of branch 0 is in checks 0 and 1, symbol 12 of branch 1 in checks 12 and 1.
    table = table_of([0, 1], [0, 2])
    data = symbols(26, {0: 7, 13 + 12: 250})
    checks = symbols(13, {0: 7, 1: 1, 12: 250})
    assert encode(256, 13, 2, table, data, 39) == (0, data + checks)
    assert syndrome(256, 13, 2, table, data + symbols(13, {0: 7, 1: 1}), 13) == (0, symbols(13, {12: 250}))
    # A data symbol of branch 1 replaced: symbol 25 has estimates 0, 250, 250, lead 1; then d(25) = -250 alone is not 0.
    page = symbols(26, {13 + 12: 250}) + [0] * 13
    number, got = decode(256, 13, 2, table, page, [0, 0], *decode_lengths(13, 2))
    assert number == 0 and got[:3] == ([0] * 26, [0] * 13, symbols(26, {25: 6})) and got.counts == (2, 1, 2, 1)
    assert got.margins == [3] * 25 + [1]
    # With threshold 1 it stays. Its checks are 12 and 1. Check 12 is also one of symbols 12, 11 of branch 0 and 10 of
    # branch 1, check 1 one of symbols 1, 0 of branch 0 and 1 of branch 1.
    number, got = decode(256, 13, 2, table, page, [1, 1], *decode_lengths(13, 2))
    assert number == 0 and got.result == page[:26] and got.counts == (1, 0, 2, 2)
    assert got.margins == [-1 if j == 25 else 1 if j in (0, 1, 11, 12, 13 + 1, 13 + 10) else 3 for j in range(26)]
    # Runs of one branch of at most 14 symbols, and of two branches of at most 7: tested in three ways.
    for k in range(1, 15):
        runs = [[p for p in range(k) if bits >> p & 1] for bits in range(1, 2 ** k)]
        codes = [[run] for run in runs if len(run) <= 5]
        if k <= 7:
            codes += [[one, other] for one in runs for other in runs if len(one) == len(other) <= 3]
        for code in codes:
            assert self_orthogonal_all_pairs(k, code) == self_orthogonal_by_rotation(k, code) == \
                differences_differ(k, code)


def pages_a_at_3():
    """Every page with at most two symbols replaced of the word of code A that is all 0, at q = 3."""
    pages = [page_a()]
    for places in itertools.chain(itertools.combinations(range(26), 1), itertools.combinations(range(26), 2)):
        for values in itertools.product((1, 2), repeat=len(places)):
            pages.append(symbols(26, dict(zip(places, values))))
    return pages


def schedules_check():
    """The passes that N4 has run: lists worked out by hand, then the recovery bound with the smallest threshold."""
    # Symbol 0 has a lead of 3, as in case 7, until a pass with a smaller threshold changes it; then nothing is changed.
    # Thresholds, the places of the passes run, their changes.
    for thresholds, places, changes in [
        ([3, 2], [0, 1], [0, 1]),
        ([3, 3, 2], [0, 2], [0, 1]),
        ([3, 2, 0], [0, 1, 2], [0, 1, 0]),        # the pass that changed is followed by the next, idle at once
        ([3, 2, 2, 2], [0, 1, 2], [0, 1, 0]),     # the idle 2 has no smaller one after it
        ([3, 2, 5, 4, 4, 3], [0, 1, 2, 3, 5], [0, 1, 0, 0, 0]),
        ([2, 4, 5, 1, 0], [0, 1, 3, 4], [1, 0, 0, 0]),
        ([3, 4, 5], [0], [0]),                    # no smaller one
        ([3, 4, 3, 5], [0], [0]),
        ([5, 7, 4, 6, 3, 8, 0], [0, 2, 4, 6], [0, 0, 0, 1]),
        ([32] * 63 + [0], [0, 63], [0, 1]),
        (list(range(32, -1, -1)), list(range(33)), [0] * 30 + [1, 0, 0]),
    ]:
        number, got = decode_a(256, page_a({0: 7}), thresholds)
        assert number == 0 and (got.places, got.changes_of_pass) == (places, changes)
    # A page at distance 0: the strict minima of the list.
    for thresholds, passes in (([3, 3, 2, 0, 0], 3), ([0, 0, 0], 1), ([1, 2, 3], 1), ([32] * 64, 1), ([2, 1, 2, 0], 3)):
        number, got = decode_a(256, page_a(), thresholds)
        assert number == 0 and got.counts == (passes, 0, 0, 0)
    # Two branches: symbol 25 has a lead of 1 (see above), so that the pass with threshold 1 is idle and the next is not.
    number, got = decode(256, 13, 2, table_of([0, 1], [0, 2]), symbols(39, {25: 250}), [1, 1, 0], *decode_lengths(13, 2))
    assert number == 0 and got[:3] == ([0] * 26, [0] * 13, symbols(26, {25: 6})) and got.counts == (2, 1, 2, 1)
    # At most two symbols replaced: with 0 among the thresholds the data comes back; with a smallest of 1 or 2 where one
    # symbol was replaced, else not always.
    for thresholds in ([4, 0], [2, 5, 0, 1], [3, 3, 1], [4, 2, 32]):
        wrong = 0
        for page in pages_a_at_3():
            number, got = decode_a(3, page, thresholds)
            right = got.result == [0] * 13
            inside = 2 * distance(page, page_a()) + min(thresholds) <= 4
            assert number == 0 and (right or not inside)
            wrong += not right
        assert (wrong == 0) == (0 in thresholds)


def passes_in_turn(q, k, b, table, page, thresholds):
    """Opens a page and makes a pass with each threshold, each on what the one before left; a refused one leaves all.
    Yields result, S and D after each pass and its number of changes, None where it was refused."""
    number, buffers = open_page(q, k, b, table, page, *buffer_lengths(k, b))
    assert number == 0
    for threshold in thresholds:
        number, got = pass_once(q, k, b, table, threshold, *buffers)
        if number == 0:
            buffers = got[:3]
        yield (*buffers, got.changes if number == 0 else None)


def passes_check():
    """N5: pages opened and passes worked out by hand; that decode is an opening and the passes of its schedule; the
    recovery bound of a list of passes, refused ones among them; passes on buffers of every content."""
    # The page of case 7. A lead of 3 isn't above 3; a refused pass makes no visit; the result is put right by the third.
    code = 256, 13, 1, CODE_A
    seven = symbols(13, {0: 7}), symbols(13, {0: 7, 1: 7, 4: 7, 6: 7}), [0] * 13
    right = [0] * 13, [0] * 13, symbols(13, {0: 249})
    assert open_page(*code, page_a({0: 7}), 13, 13, 13) == (0, seven)
    assert list(passes_in_turn(*code, page_a({0: 7}), [3, 33, 2, 2 ** 32 - 1, 0])) == [
        (*seven, 0), (*seven, None), (*right, 1), (*right, None), (*right, 0)]
    # Case 9: one pass makes both changes.
    assert list(passes_in_turn(*code, page_a({0: 7, 1: 3}), [0])) == [
        ([0] * 13, [0] * 13, symbols(13, {0: 249, 1: 253}), 2)]
    # Buffers of any content. k = 1: the estimates of the one symbol are d and s, both 2, a lead of 2; then two ties.
    for threshold, result, s, d, after in ((1, 1, 2, 2, (2, 0, 0, 1)), (2, 1, 2, 2, (1, 2, 2, 0)),
                                           (0, 0, 1, 2, (0, 1, 2, 0)), (0, 2, 1, 0, (2, 1, 0, 0))):
        number, got = pass_once(3, 1, 1, table_of([0]), threshold, [result], [s], [d])
        assert number == 0 and got == ([after[0]], [after[1]], [after[2]], after[3])
    # Two branches, k = 1: the first symbol takes 2 off its d and the one check; the second then has estimates 2, 0.
    assert pass_once(3, 1, 2, table_of([0], [0]), 0, [1, 1], [2], [2, 2]) == (0, ([2, 1], [0], [0, 2], 1))
    # Refusals of a pass that the other calls don't have: the bytes for its changes, the symbols of all three buffers, and
    # a threshold of 32 bits, in this order.
    zeros = [0] * 13
    five = symbols(13, {12: 5})
    for buffers in ((five, zeros, zeros), (zeros, five, zeros), (zeros, zeros, five)):
        assert [pass_once(5, 13, 1, CODE_A, 33, *buffers, length)[0] for length in (3, 4, 5)] == [6, 7, 6]
        assert pass_once(6, 13, 1, CODE_A, 33, *buffers)[0] == 9
    assert [pass_once(*code, t, zeros, zeros, zeros)[0] for t in (32, 33, 256, 2 ** 32 - 1)] == [0, 9, 9, 9]

    # Where decode returns 0, its result, S, D and changes are those of the passes that it ran, made one by one.
    for page, thresholds in itertools.chain(
            itertools.product((page_a(), page_a({0: 7}), page_a({0: 7, 1: 3}), page_a({4: 9}, {2: 1, 3: 1, 12: 5})),
                              ([3, 2, 0], [0, 0, 0], [2, 4, 5, 1, 0], [32] * 63 + [0])),
            ((page, [2, 1, 0]) for page in pages_a_at_3()[::7])):
        number, got = decode(*code, page, thresholds, *decode_lengths(13, 1))
        *_, last = made = list(passes_in_turn(*code, page, [thresholds[i] for i in got.places]))
        assert number == 0 and last[:3] == got[:3] and [p[3] for p in made] == got.changes_of_pass

    # After each pass of a list: where at least one was not refused, the bound with the smallest threshold of those.
    for thresholds in ([33, 4, 2 ** 32 - 1, 2, 0], [1, 33, 0, 32], [32, 2, 33, 1], [33, 33]):
        for page in pages_a_at_3():
            replaced, made = distance(page, page_a()), []
            for threshold, (result, *_, changes) in zip(
                    thresholds, passes_in_turn(3, 13, 1, CODE_A, page, thresholds)):
                assert (changes is None) == (threshold > 32)
                made += [threshold] if changes is not None else []
                assert made or result == page[:13]
                assert not made or 2 * replaced + min(made) > 4 or result == [0] * 13

    # Every S and D of k = 3, positions 0, 1 at q = 3. A lead is at most J + 1 = 3, where all estimates agree.
    most = [0] * 4
    for *s, d0, d1, d2 in itertools.product(range(3), repeat=6):
        for threshold in range(4):
            number, got = pass_once(3, 3, 1, table_of([0, 1]), threshold, [0, 1, 2], s, [d0, d1, d2])
            assert number == 0
            most[threshold] = max(most[threshold], got.changes)
    assert most[0] >= most[1] >= most[2] > most[3] == 0


def explain_check():
    """N6: answers worked out by hand, on an opened page, after a pass, in two branches and in ties; the place of each
    refusal; answers for buffers of every content against a pass on them."""
    # The page of case 6: S is 7 at the four checks of symbol 0, and each other symbol has one of these at most. Symbol 1
    # has the checks 1, 2, 5, 7; 5 has 5, 6, 9, 11; 7 has 7, 8, 11, 0; 10 has 10, 11, 1, 3.
    code = 256, 13, 1, CODE_A
    seven = open_page(*code, page_a({0: 7}), 13, 13, 13)[1]
    for symbol, h0, bits in ((0, 7, 0b11110), (1, 0, 0b11101), (5, 0, 0b11011), (10, 0, 0b10111), (7, 0, 0b01111)):
        for threshold in (0, 2, 3, 32):
            ground = 1 if threshold >= 3 else 3 if symbol == 0 else 2
            assert explain(*code, threshold, symbol, *seven) == (0, (ground, h0, 4, 1, bits))
    # After the pass that changes symbol 0 its d alone is not 0, and nothing speaks against symbol 1.
    right = pass_once(*code, 2, *seven)[1][:3]
    assert explain(*code, 2, 0, *right) == (0, (2, 0, 4, 1, 0b11110))
    assert explain(*code, 4, 1, *right) == (0, (2, 0, 5, 0, 0b11111))
    assert explain(*code, 5, 1, *right) == (0, (1, 0, 5, 0, 0b11111))
    # Two branches, k = 13, runs 0, 1 and 0, 2; symbol 25 replaced, so that S is 250 at its checks 12 and 1.
    two = 256, 13, 2, table_of([0, 1], [0, 2])
    buffers = open_page(*two, symbols(39, {25: 250}), *buffer_lengths(13, 2))[1]
    for threshold, symbol, answer in (
            (0, 25, (3, 250, 2, 1, 0b110)), (1, 25, (1, 250, 2, 1, 0b110)), (0, 12, (2, 0, 2, 1, 0b101)),
            (0, 11, (2, 0, 2, 1, 0b011)), (0, 23, (2, 0, 2, 1, 0b011)), (2, 13, (2, 0, 3, 0, 0b111))):
        assert explain(*two, threshold, symbol, *buffers) == (0, answer)
    # Estimates of symbol 0 of code A: ties, then one vote more for one of the tied values, then all that agree.
    for q, values, answer in (
            (256, (2, 2, 1, 1, 0), (1, 1, 2, 2, 0b01100)), (3, (2, 0, 2, 1, 0), (1, 0, 2, 2, 0b10010)),
            (256, (255, 9, 8, 255, 8), (1, 8, 2, 2, 0b10100)), (256, (5, 4, 3, 2, 1), (1, 1, 1, 1, 0b10000)),
            (5, (0, 1, 2, 3, 4), (1, 0, 1, 1, 0b00001)), (3, (2, 2, 1, 2, 1), (3, 2, 3, 2, 0b01011)),
            (4, (3, 0, 0, 3, 0), (2, 0, 3, 2, 0b10110)), (251, (250,) * 5, (3, 250, 5, 0, 0b11111))):
        buffers = [0] * 13, symbols(13, dict(zip((0, 1, 4, 6), values[1:]))), symbols(13, {0: values[0]})
        assert explain(q, 13, 1, CODE_A, 0, 0, *buffers) == (0, answer)
        assert explain(q, 13, 1, CODE_A, 5, 0, *buffers) == (0, (1, *answer[1:]))

    # 11 comes after all others; 6 is also another length of the answer than 24.
    zeros = [0] * 26, [0] * 13, [0] * 26
    for symbol, number in ((0, 0), (25, 0), (26, 11), (38, 11), (256, 11), (2 ** 32 - 1, 11)):
        assert explain(*two, 32, symbol, *zeros)[0] == number
        assert explain(*two, 33, symbol, *zeros)[0] == 9
        assert [explain(*two, 33, symbol, *zeros, length)[0] for length in (0, 23, 25)] == [6, 6, 6]
        for at in range(3):
            five = [buffer[:-1] + [5] if i == at else buffer for i, buffer in enumerate(zeros)]
            assert explain(5, *two[1:], 33, symbol, *five)[0] == 7

    # Every S and D of k = 3, positions 0, 1 at q = 3, by the counts of 0, 1 and 2. The first symbol that a pass changes
    # is the first whose ground is 3, and a pass that changes nothing finds none.
    small, grounds = (3, 3, 1, table_of([0, 1])), set()
    for *s, d0, d1, d2 in itertools.product(range(3), repeat=6):
        buffers = [0, 1, 2], s, [d0, d1, d2]
        for threshold in range(4):
            answers = [explain(*small, threshold, j, *buffers)[1] for j in range(3)]
            for j, (ground, h0, m0, m1, bits) in enumerate(answers):
                values = [buffers[2][j], s[j], s[(j + 1) % 3]]
                counts = [values.count(value) for value in range(3)]
                assert m0 == max(counts) and h0 == counts.index(m0) and m1 == sorted(counts)[1]
                assert [bits >> i & 1 for i in range(3)] == [value == h0 for value in values]
            after = pass_once(*small, threshold, *buffers)[1].result
            moved = [j for j in range(3) if after[j] != j]
            assert moved[:1] == [j for j in range(3) if answers[j].ground == 3][:1]
            grounds |= {(threshold, answer.ground) for answer in answers}
    assert grounds == {(t, ground) for t in range(3) for ground in (1, 2, 3)} | {(3, 1)}


def counters_check():
    """N7: votes by hand and both votes on many lists; decodes with counters against the same without; where 6 comes."""
    counters = [0] * 256
    for values, due in (([2, 2, 1, 1, 0], (1, 2, 2, 1)), ([1, 1, 2, 2, 0], (1, 2, 2, 1)), ([7, 7, 0, 9, 1], (7, 2, 1, 1)),
                        ([0, 0], (0, 2, 0, 2)), ([255, 255], (255, 2, 0, 0)), ([255, 0], (0, 1, 1, 1)),
                        ([0, 255, 0, 255], (0, 2, 2, 2)), ([3, 2, 3, 2, 3], (3, 3, 2, 0)),
                        ([2, 3, 3, 2, 2], (2, 3, 2, 0)), ([5] + [0] * 32, (0, 32, 1, 32)), ([5] * 33, (5, 33, 0, 0)),
                        (list(range(32, -1, -1)), (0, 1, 1, 1)), (list(range(255, 222, -1)), (223, 1, 1, 0))):
        assert vote_counted(values, counters) == due and counters == [0] * 256
    # Every list of 2 to 6 of four values, and of 33 equal ones.
    short = itertools.chain(*(itertools.product((0, 1, 2, 255), repeat=n) for n in range(2, 7)))
    for values in itertools.chain(map(list, short), ([value] * 33 for value in range(256))):
        assert vote_counted(values, counters) == (*vote(values), values.count(0)) and counters == [0] * 256

    # The same answers: on every page of code A with at most two symbols replaced, and with one branch more.
    for page in pages_a_at_3():
        arguments = 3, 13, 1, CODE_A, page, [2, 0, 0], *decode_lengths(13, 1)
        assert decode_counters(*arguments, counters=ZEROED) == decode(*arguments)
    two = 256, 13, 2, table_of([0, 1], [0, 2])
    number, got = decode_counters(*two, symbols(39, {25: 250}), [0, 0], *decode_lengths(13, 2), counters=ZEROED)
    assert number == 0 and got[:3] == ([0] * 26, [0] * 13, symbols(26, {25: 6})) and got.counts == (2, 1, 2, 1)
    assert got.margins == [3] * 25 + [1]

    # 6 also unless the counters are 256 and all 0, whatever q is; before 7, 8 and 9.
    for counters in (b"", bytes(1), bytes(255), bytes(257), bytes(512), b"\1" + bytes(255), bytes(255) + b"\1",
                     bytes(3) + b"\1" + bytes(252), b"\xff" * 256):
        for page, thresholds in ((page_a(), [0]), (page_a({3: 5}), [0]), (page_a(), []), (page_a(), [33])):
            arguments = 5, 13, 1, CODE_A, page, thresholds, *decode_lengths(13, 1)
            assert decode_counters(*arguments, counters=counters) == (6, None)
            assert decode_counters(*arguments, counters=ZEROED)[0] == decode(*arguments)[0] != 6
        assert decode_counters(5, 12, *arguments[2:], counters=counters)[0] == 5


# A code whose data symbols can be divided into blocks: k = 16 with the positions of code A.
K_16 = 256, 16, 1, CODE_A


def page_16(data, s):
    """A received page of that code with these data symbols, on which S is as named."""
    received = symbols(16, data)
    checks = code_word(256, 16, [[0, 1, 4, 6]], received)[16:]
    return received + [(check - s.get(i, 0)) % 256 for i, check in enumerate(checks)]


# Outer steps by hand on that code: data, S, block length, then the steps. Symbol j has the checks j, j + 1, j + 4 and
# j + 6 modulo 16. No lead is above the threshold 32, so that a pass with it changes nothing; D is 0, and d counts as a
# zero.
OUTER_STEPS = (
    # Symbol 0 is 7 too much, and two of its checks are replaced too. It has one zero and two estimates 7. Of the
    # others in a block of four, 1 has a check of 11, 2 and the last have one of 7.
    ({0: 7}, {0: 9, 1: 11, 4: 7, 6: 7}, 4, [(0, 7, -1)]),
    ({0: 7}, {0: 9, 1: 11, 4: 7, 6: 7}, 2, [(0, 7, -1)]),
    ({0: 7}, {0: 9, 1: 11, 4: 7, 6: 7}, 16, [(0, 7, -1)]),
    # An estimate 7 takes two off a symbol's reliability, another value than 0 takes one.
    ({0: 7}, {4: 7, 6: 7}, 4, [(0, 7, 1)]),
    ({0: 7}, {0: 8, 6: 7}, 4, [(0, 7, 2)]),
    # Estimates that are neither 0 nor e, and the earliest of equals: 2 has the checks 6 and 8, 4 has 5 and 8, 5 has
    # 5 and 6, the last of eight, 7, has 8.
    ({0: 5, 5: 7}, {5: 1, 6: 1, 8: 1}, 8, [(2, 12, 3)]),
    ({0: 5, 5: 7}, {6: 1}, 8, [(0, 12, 4)]),
    ({0: 5, 5: 7}, {5: 1}, 8, [(1, 12, 4)]),
    # The last is the least reliable: symbol 3 has the checks 3, 7, 9; 2 has 3 and 1 has 7.
    ({0: 7}, {3: 7, 7: 7, 9: 7}, 4, []),
    ({0: 7}, {3: 1, 4: 7, 9: 1}, 4, []),
    # It is as reliable as the least of the others, by the same estimates and by others: 0 and 2 have the check 6.
    ({0: 7}, {3: 7}, 4, []),
    ({0: 7}, {6: 7, 7: 1, 9: 1}, 4, []),
    ({0: 7}, {6: 7, 9: 1}, 4, [(0, 7, 3)]),
    # A block that sums to 0 has no step, whatever its estimates are.
    ({0: 7, 1: 249}, {0: 7, 1: 7, 4: 7, 6: 7}, 4, []),
    # Code words that break the rule: all reliabilities are 5.
    ({0: 7, 3: 1, 9: 2}, {}, 4, []), ({0: 7, 3: 1, 9: 2}, {}, 16, []), ({15: 255}, {}, 2, []),
    # Two blocks with a step each.
    ({0: 7, 8: 9}, {0: 7, 1: 7, 8: 9, 9: 9}, 4, [(0, 7, 1), (8, 9, 1)]),
    # The second block gets S and D as the first one's step left them: S at 4 is then 0 and at 6 249, so that 5 and
    # 6 are the least and not 4; S at 4 is 249 and at 6 0, so that 4 is and not 5; or S is 0, and there is no step.
    ({0: 7, 5: 7}, {0: 7, 1: 7, 4: 7}, 4, [(0, 7, -1), (5, 7, 4)]),
    ({0: 7, 5: 7}, {0: 7, 1: 7, 6: 7}, 4, [(0, 7, -1), (4, 7, 4)]),
    ({0: 7, 5: 7}, {0: 7, 1: 7, 4: 7, 6: 7}, 4, [(0, 7, -3)])
)


def outer_check():
    """N8: pages encoded with outer checks and outer steps worked out by hand; the recovery bound with the outer rule;
    code words that break it; where 12 comes."""
    # k = 4, one position, 0: a check is its data symbol. What is lent at the last places is ignored.
    four = 10, 4, 1, table_of([0])
    for data, length, sent in (([1, 2, 3, 4], 2, [1, 9, 3, 7]), ([1, 9, 3, 7], 2, [1, 9, 3, 7]),
                               ([1, 2, 3, 4], 4, [1, 2, 3, 4]), ([1, 2, 3, 9], 4, [1, 2, 3, 4]),
                               ([0, 5, 0, 5], 2, [0, 0, 0, 0]), ([9, 9, 9, 9], 4, [9, 9, 9, 3])):
        assert encode_outer(*four, length, data, 8) == (0, sent + sent)
    # Blocks across two branches: k = 3, b = 2, runs 0 and 0. Check i is the sum of symbols i and 3 + i.
    for length, sent in ((2, [1, 9, 3, 7, 5, 5]), (3, [1, 2, 7, 4, 5, 1]), (6, [1, 2, 3, 4, 5, 5])):
        checks = [(sent[i] + sent[3 + i]) % 10 for i in range(3)]
        assert encode_outer(10, 3, 2, table_of([0], [0]), length, [1, 2, 3, 4, 5, 6], 9) == (0, sent + checks)

    for data, s, length, steps in OUTER_STEPS:
        number, got = decode_outer(*K_16, length, page_16(data, s), [32], *decode_lengths(16, 1))
        assert number == 0 and got.steps == steps
        assert got.counts == (1, len(steps), len(s), len(s) + sum(step[2] for step in steps))
    # The page of case 10: the pass changes symbol 0, though it was right, so that d(0) and s(6) are 251. The outer step
    # takes that back. The margins are those after it: of the estimates of symbol 0 three are 5 and two are 0.
    page = symbols(16, {}) + symbols(16, {0: 251, 1: 251, 4: 251})
    number, got = decode_outer(*K_16, 4, page, [0], *decode_lengths(16, 1))
    assert number == 0 and got.steps == [(0, 251, 1)] and got.counts == (1, 2, 3, 3)
    assert got[:3] == ([0] * 16, symbols(16, {0: 5, 1: 5, 4: 5}), [0] * 16)
    assert [j for j in range(16) if got.margins[j] < 5] == [0, 1, 3, 4, 10, 11, 12, 13, 14, 15] and got.margins[0] == -1
    assert decode(*K_16, page, [0], *decode_lengths(16, 1))[1].counts == (1, 1, 3, 2)

    # At most two symbols replaced in a page whose data kept the rule: the data comes back and there is no step.
    for length in (2, 16):
        for places in itertools.chain(*(itertools.combinations(range(32), n) for n in range(3))):
            for values in itertools.product((1, 2), repeat=len(places)):
                page = symbols(32, dict(zip(places, values)))
                number, got = decode_outer(3, *K_16[1:], length, page, [1, 0], *decode_lengths(16, 1))
                assert number == 0 and got.result == [0] * 16 and not got.steps
    # Where the data breaks the rule, one symbol replaced may be enough for a step.
    word = encode(*K_16, symbols(16, {0: 7}), 32)[1]
    word[16 + 6] = 0
    number, got = decode_outer(*K_16, 4, word, [0], *decode_lengths(16, 1))
    assert number == 0 and got.steps == [(0, 7, 3)] and got.counts == (1, 1, 1, 4)

    # 12 for all lengths that are not a divisor from 2 up; after all others. Encode has no 8 and no 9.
    zeros = [0] * 16
    for length in (*range(40), 256 + 16, 2 ** 16 + 16, 2 ** 31, 2 ** 32 - 16, 2 ** 32 - 1):
        number = 0 if length in (2, 4, 8, 16) else 12
        assert encode_outer(5, *K_16[1:], length, zeros, 32)[0] == number
        assert encode_outer(5, *K_16[1:], length, zeros, 31)[0] == 6
        assert encode_outer(5, *K_16[1:], length, zeros[1:] + [5], 32)[0] == 7
        for page, thresholds, refused in ((zeros * 2, [32], number), (zeros, [0], 6), ([5] + [0] * 31, [], 7),
                                          (zeros * 2, [], 8), (zeros * 2, [0, 33], 9)):
            assert decode_outer(5, *K_16[1:], length, page, thresholds, *decode_lengths(16, 1))[0] == refused
    assert encode_outer(5, 12, 1, CODE_A, 0, [0] * 12, 24)[0] == 5


if __name__ == "__main__":
    self_check()
    print("The worked cases of document 01, the codes of N2, the threshold lists of N4, the passes of N5, the "
          "explanations of N6, the counters of N7 and the outer checks of N8 pass.")
