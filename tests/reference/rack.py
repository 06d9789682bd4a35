"""Thirty-two leads on one rack, as document 02 (N12) states it, clear rather than fast.

It shares no code with the library; a visit is that of reference.py. A rack is the records of its leads, the number of
the lead served last, and the result, S and D buffers for 32. The calls `new`, `load`, `run` and `take` return the number,
the rack afterwards, and what else is handed back. With every run it tests what N12 says of all of them: as many visits as
the smaller of the budget and those that finish every loaded page, the leads in turn, at least one of any 32 visits in a row
for a lead with work due, and the same in two calls as in one. `Bench` makes calls on one rack and tests with every page
taken away that it has the result and counts that it would have had alone. Run as a program it tries itself on calls worked
out by hand.
"""

from collections import namedtuple

import reference as ref

LEADS = 32
FREE, DUE, FINISHED = range(3)

# A lead's record: what it holds, the place in the list of the pass under way, the symbol that is visited next, the changes
# before this pass, the passes run, the changes so far, and the distance at the start.
Lead = namedtuple("Lead", "holds place symbol before passes changes start")
Rack = namedtuple("Rack", "leads last results syndromes differences")
Code = namedtuple("Code", "q k b table")

FREE_LEAD = Lead(FREE, 0, 0, 0, 0, 0, 0)
# What a record may hold at most, but for the place and the symbol, whose limits hang on the list and the code.
MOST = Lead(holds=FINISHED, place=None, symbol=None, before=262144, passes=64, changes=262144, start=8192)


def some_rack(k, b, leads=None, last=LEADS - 1, symbol=0):
    """A rack for k and b with these records, or free leads, whose parts hold one symbol everywhere."""
    return Rack(list(leads or [FREE_LEAD] * LEADS), [last], [symbol] * (LEADS * b * k), [symbol] * (LEADS * k),
                [symbol] * (LEADS * b * k))


def runs_of(code):
    return ref.runs_of(code.b, code.table)


def sizes(code):
    """How many symbols of the three buffers are a lead's."""
    return ref.buffer_lengths(code.k, code.b)


def parts(code, rack, n):
    """Result, S and D of lead n."""
    return [list(buffer[n * size:(n + 1) * size]) for buffer, size in zip(rack[2:], sizes(code))]


def with_lead(code, rack, n, lead, new_parts=None, last=None):
    """The rack with another record of lead n, and with other parts and another lead served last where these are given."""
    leads = [*rack.leads[:n], lead, *rack.leads[n + 1:]]
    buffers = rack[2:]
    if new_parts:
        buffers = [[*buffer[:n * size], *part, *buffer[(n + 1) * size:]]
                   for buffer, size, part in zip(buffers, sizes(code), new_parts)]
    return Rack(leads, rack.last if last is None else [last], *buffers)


# Refusals

def breaks_limits(code, thresholds, lead):
    """Does a number in the record break a limit, or name a symbol or threshold that isn't there? A free lead's are not
    looked at."""
    limits = MOST._replace(place=len(thresholds) - 1, symbol=code.b * code.k - 1)
    return lead.holds != FREE and any(number > most for number, most in zip(lead, limits))


def for_32(code, rack):
    """Are the table and the buffers for 32, and is the number of the lead served last one?"""
    return (len(rack.leads) == LEADS and len(rack.last) == 1
            and [len(buffer) for buffer in rack[2:]] == [LEADS * size for size in sizes(code)])


def tests(code, thresholds, rack, fits=True, page=()):
    """The tests of a load, a run and a taking; do the call's other buffers fit?"""
    def held_symbols():
        return [symbol for n, lead in enumerate(rack.leads) if lead.holds != FREE
                for part in parts(code, rack, n) for symbol in part]

    return ref.table_tests(*code) + [
        (6, lambda: not (fits and for_32(code, rack))
            or any(breaks_limits(code, thresholds, lead) for lead in rack.leads)),
        (7, lambda: ref.bad_symbol(code.q, page) or ref.bad_symbol(code.q, held_symbols())),
        (8, lambda: not 1 <= len(thresholds) <= 64),
        (9, lambda: any(t > 32 for t in thresholds)),
        (16, lambda: rack.last[0] >= LEADS),
    ]


def load_tests(code, thresholds, rack, n, page):
    return tests(code, thresholds, rack, len(page) == (code.b + 1) * code.k, page) + [
        (16, lambda: n >= LEADS),
        (17, lambda: rack.leads[n].holds != FREE),
    ]


def run_tests(code, thresholds, rack, made_len):
    return tests(code, thresholds, rack, made_len == 4)


def take_tests(code, thresholds, rack, n, result_len, counts_len):
    return tests(code, thresholds, rack, result_len == code.b * code.k and counts_len == 16) + [
        (16, lambda: n >= LEADS),
        (18, lambda: rack.leads[n].holds != FINISHED),
    ]


# Visits

def visited(code, thresholds, lead, state):
    """One visit, to the symbol that is due, by the lists of `state`, which it may alter. Returns the record afterwards."""
    changed = ref.visit(code.q, code.k, runs_of(code), thresholds[lead.place], *state, lead.symbol)
    lead = lead._replace(symbol=lead.symbol + 1, changes=lead.changes + changed)
    if lead.symbol < code.b * code.k:
        return lead
    # The pass is run: it was idle where the changes are those before it.
    following = ref.next_place(thresholds, lead.place, int(lead.changes != lead.before))
    lead = lead._replace(symbol=0, before=lead.changes, passes=lead.passes + 1)
    if following is None:
        return lead._replace(holds=FINISHED)
    return lead._replace(place=following)


def visits_left(code, thresholds, rack, n):
    """The visits that finish the page of lead n, made on copies."""
    lead, state, count = rack.leads[n], parts(code, rack, n), 0
    while lead.holds == DUE:
        lead = visited(code, thresholds, lead, state)
        count += 1
    return count


def work_left(code, thresholds, rack):
    """The visits that finish every loaded page."""
    return sum(visits_left(code, thresholds, rack, n) for n in range(LEADS))


def next_lead(rack):
    """The first lead with work due after the one served last, which comes last itself; None where there is none."""
    turns = [(rack.last[0] + turn) % LEADS for turn in range(1, LEADS + 1)]
    return next((n for n in turns if rack.leads[n].holds == DUE), None)


def serve(code, thresholds, rack, budget):
    """Visits within a budget. Returns the rack and the leads in the order in which they were served."""
    served, due = [], [0] * LEADS
    while len(served) < budget and (n := next_lead(rack)) is not None:
        # How many visits each lead with work due has waited, this one included.
        due = [waited + 1 if lead.holds == DUE else 0 for waited, lead in zip(due, rack.leads)]
        assert max(due) <= LEADS
        due[n] = 0
        state = parts(code, rack, n)
        rack = with_lead(code, rack, n, visited(code, thresholds, rack.leads[n], state), state, n)
        served.append(n)
    return rack, served


# The calls

def new(rack):
    """The number and the rack, whose buffers the call is not lent."""
    if len(rack.leads) != LEADS or len(rack.last) != 1:
        return 6, rack
    return 0, rack._replace(leads=[FREE_LEAD] * LEADS, last=[LEADS - 1])


def load(code, thresholds, rack, n, page):
    """The number and the rack."""
    number = ref.first_that_applies(load_tests(code, thresholds, rack, n, page))
    if number:
        return number, rack
    opened = ref.opened(code.q, code.k, runs_of(code), page)
    start = ref.distance(ref.code_word(code.q, code.k, runs_of(code), opened[0]), page)
    return 0, with_lead(code, rack, n, Lead(DUE, 0, 0, 0, 0, 0, start), opened)


def run(code, thresholds, rack, budget, made_len=4):
    """The number, the rack and the visits made, None where it is refused."""
    number = ref.first_that_applies(run_tests(code, thresholds, rack, made_len))
    if number:
        return number, rack, None
    work = work_left(code, thresholds, rack)
    after, served = serve(code, thresholds, rack, min(budget, work + 1))
    assert len(served) == min(budget, work) and work_left(code, thresholds, after) == work - len(served)
    assert after.last == [served[-1]] if served else after == rack
    # The same in two calls.
    half, first = serve(code, thresholds, rack, len(served) // 2)
    assert serve(code, thresholds, half, len(served) - len(first)) == (after, served[len(first):])
    return 0, after, len(served)


def take(code, thresholds, rack, n, result_len=None, counts_len=16):
    """The number, the rack, and result and counts, None where it is refused."""
    result_len = code.b * code.k if result_len is None else result_len
    number = ref.first_that_applies(take_tests(code, thresholds, rack, n, result_len, counts_len))
    if number:
        return number, rack, None
    lead = rack.leads[n]
    result, s, d = parts(code, rack, n)
    counts = ref.Counts(lead.passes, lead.changes, lead.start, ref.nonzero(s) + ref.nonzero(d))
    return 0, with_lead(code, rack, n, FREE_LEAD), (result, counts)


class Bench:
    """A rack made new and since touched only by calls with one code and one list."""

    def __init__(self, code, thresholds, before):
        self.code, self.thresholds = code, thresholds
        number, self.rack = new(before)
        assert number == 0
        self.pages = {}

    def load(self, n, page):
        number, self.rack = load(self.code, self.thresholds, self.rack, n, page)
        if number == 0:
            self.pages[n] = page
        return number

    def run(self, budget):
        number, self.rack, made = run(self.code, self.thresholds, self.rack, budget)
        return number, made

    def take(self, n, result_len=None):
        before = self.rack
        number, self.rack, got = take(self.code, self.thresholds, before, n, result_len)
        if number == 0:
            # "a page taken away has the result and counts it would have had alone"; "its three parts untouched"
            alone = ref.decode(*self.code, self.pages.pop(n), self.thresholds, *ref.decode_lengths(self.code.k, self.code.b))
            assert alone[0] == 0 and got == (alone[1].result, alone[1].counts)
            assert self.rack[1:] == before[1:] and self.rack.leads[n] == FREE_LEAD
        return number, got


# Calls worked out by hand

CODE_A = Code(256, 13, 1, ref.CODE_A)
# Of these the second 3 is skipped after an idle pass.
BY_HAND_THRESHOLDS = [3, 3, 2]


def rack_by_hand():
    """What the rack below held before it was made new."""
    return some_rack(13, 1, [Lead(7, 9, 9, 0, 0, 0, 0)] * LEADS, 77)


# With thresholds 3, 3, 2 the page of case 7 takes 2 passes, so 26 visits; a page with check 2 received as 9 is idle at 3 and
# at 2; so is one with data 7, 3. Of a load lead, page and number; of a run budget, number, visits made, the lead served last
# and the visits left; of a taking lead, number, counts and result.
CASE_7, CASE_8, CASE_9 = ref.page_a({0: 7}), ref.page_a({}, {2: 9}), ref.page_a({0: 7, 1: 3})
BY_HAND = [
    ("run", 5, 0, 0, 31, 0),
    ("load", 3, CASE_7, 0),
    ("load", 3, CASE_7, 17),
    ("load", 32, CASE_7, 16),
    ("load", 4, CASE_7[:-1], 6),
    ("load", 4, [256] + [0] * 25, 7),
    ("take", 3, 18, None, None),
    ("run", 7, 0, 7, 3, 19),
    ("load", 30, CASE_8, 0),
    ("run", 30, 0, 30, 3, 15),
    ("take", 3, 18, None, None),
    ("run", 8, 0, 8, 3, 7),
    ("take", 3, 0, (2, 1, 4, 1), [0] * 13),
    ("take", 3, 18, None, None),
    ("load", 3, CASE_9, 0),
    ("run", 1000, 0, 33, 3, 0),
    ("take", 3, 0, (2, 0, 7, 7), [7, 3] + [0] * 11),
    ("take", 30, 0, (2, 0, 1, 1), [0] * 13),
    ("run", 1000, 0, 0, 3, 0),
]


def self_check():
    """The calls worked out by hand, and all of N12 that is tested with each."""
    bench = Bench(CODE_A, BY_HAND_THRESHOLDS, rack_by_hand())
    assert bench.rack == some_rack(13, 1)
    for call, about, *due in BY_HAND:
        if call == "load":
            assert [bench.load(about, due[0])] == due[1:]
        elif call == "run":
            number, made = bench.run(about)
            assert [number, made, *bench.rack.last, work_left(CODE_A, BY_HAND_THRESHOLDS, bench.rack)] == due
        else:
            number, got = bench.take(about)
            assert [number, got and got[1], got and got[0]] == due

    # Three leads, one symbol each: k = 1, position 0. The page 2, 1 at q = 3 has estimates 0 and 1 of its symbol, a tie.
    bench = Bench(Code(3, 1, 1, ref.table_of([0])), [0, 0], some_rack(1, 1, symbol=2))
    for n in (1, 30, 31):
        assert bench.load(n, [2, 1]) == 0
        assert bench.rack.leads[n] == (DUE, 0, 0, 0, 0, 0, 1)
    assert bench.run(2) == (0, 2) and bench.rack.last == [30]
    assert bench.rack.leads[30] == (FINISHED, 0, 0, 0, 1, 0, 1) and bench.rack.leads[31].holds == DUE
    assert bench.load(1, [2, 2]) == 17 and bench.take(31) == (18, None)
    assert bench.take(1) == (0, ([2], (1, 0, 1, 1))) and bench.load(1, [2, 2]) == 0
    assert bench.run(2 ** 32 - 1) == (0, 2) and bench.rack.last == [1]

    # Records: the limits, and what names a threshold or a symbol that isn't there; a free lead's are not looked at.
    held = Lead(DUE, 2, 12, 262144, 64, 262144, 8192)
    for lead, number in ((held, 0), (held._replace(holds=FINISHED), 0), (held._replace(holds=3), 6),
                         (held._replace(place=3), 6), (held._replace(symbol=13), 6), (held._replace(passes=65), 6),
                         (held._replace(changes=262145), 6), (held._replace(before=262145), 6),
                         (held._replace(start=8193), 6), (Lead(FREE, 9, 99, 9, 999, 9, 9999), 0)):
        rack = some_rack(13, 1, [FREE_LEAD] * 31 + [lead])
        assert run(CODE_A, BY_HAND_THRESHOLDS, rack, 0)[0] == number
    assert run(CODE_A, [], some_rack(13, 1), 0)[0] == 8
    assert run(CODE_A, [], some_rack(13, 1, [FREE_LEAD] * 31 + [held._replace(place=0)]), 0)[0] == 6
    assert run(CODE_A, [0], some_rack(13, 1, last=32), 0)[0] == 16


if __name__ == "__main__":
    ref.self_check()
    self_check()
    print("as worked out by hand")
