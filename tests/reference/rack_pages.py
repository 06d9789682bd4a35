"""The reference pages of racks, crates/reference_rack/data/pages.bin: calls on racks of 32 leads, each with the outcome of
rack.py. The groups have random numbers of their own, so other groups can come before or after. In the groups of runs of
calls each record starts with the rack as the one before it left it."""

import itertools
import struct

import rack
import reference as ref
from codes import Random, positions_for, runs_for
from rack import DUE, FINISHED, FREE, FREE_LEAD, LEADS, Bench, Code, Lead, some_rack, with_lead
from records import File, held, lent, read

# The numbers of the calls in the file.
RACK_NEW, RACK_LOAD, RACK_RUN, RACK_TAKE = 34, 35, 36, 37

# What readers may rely on for the size of their buffers: a string of symbols, a record, and how many leads a table has.
MOST_RACK_STRING, MOST_RACK_RECORD, MOST_LEADS = 8300, 65536, 40

HUGE = 2 ** 32 - 1

GROUPS = []


def group(name, c_only=False):
    """Adds a group: the function below it adds its pages."""
    def add(function):
        GROUPS.append((name, c_only, function))
        return function
    return add


def packed(leads):
    """The bytes of records: 28 each."""
    return b"".join(struct.pack("<7I", *lead) for lead in leads)


class Calls:
    """Adds calls to a file, each with its outcome, and returns that. `expect` is the number that it is known to return."""

    def __init__(self, file, name, c_only):
        self.file, self.name, self.c_only = file, name, c_only

    def _add(self, call, number, expect, numbers, strings):
        assert expect in (None, number), (call, expect, number)
        self.file.add(self.name, self.c_only, call, number, numbers, strings)

    @staticmethod
    def _strings(code, thresholds, before, after):
        """The strings that a load, a run and a taking have in common; the table first, as in the records of other calls."""
        assert len(before.leads) <= MOST_LEADS
        return [read(code.table), read(thresholds), held(packed(before.leads), packed(after.leads)),
                *(held(*contents) for contents in zip(before[1:], after[1:]))]

    def new(self, before, expect=None):
        number, after = rack.new(before)
        self._add(RACK_NEW, number, expect, [],
                  [held(packed(before.leads), packed(after.leads)), held(before.last, after.last)])
        return after

    def load(self, code, thresholds, before, n, page, expect=None):
        number, after = rack.load(code, thresholds, before, n, page)
        self._add(RACK_LOAD, number, expect, [*code[:3], n], [*self._strings(code, thresholds, before, after), read(page)])
        return after

    def run(self, code, thresholds, before, budget, made_len=4, expect=None):
        number, after, made = rack.run(code, thresholds, before, budget, made_len)
        self._add(RACK_RUN, number, expect, [*code[:3], budget],
                  [*self._strings(code, thresholds, before, after),
                   lent(made_len, number, None if number else struct.pack("<I", made))])
        return after

    def take(self, code, thresholds, before, n, result_len=None, counts_len=16, expect=None):
        result_len = code.b * code.k if result_len is None else result_len
        number, after, got = rack.take(code, thresholds, before, n, result_len, counts_len)
        result, counts = got or (None, None)
        self._add(RACK_TAKE, number, expect, [*code[:3], n],
                  [*self._strings(code, thresholds, before, after), lent(result_len, number, result),
                   lent(counts_len, number, counts and struct.pack("<4I", *counts))])
        return after

    def each(self, code, thresholds, before, n, page, expect):
        """A load of a page of three data symbols on this lead, a run and a taking, with the number that each must return."""
        self.load(code, thresholds, before, n, page, expect=expect[0])
        self.run(code, thresholds, before, 3, expect=expect[1])
        self.take(code, thresholds, before, n, result_len=3, expect=expect[2])


class Recorded(Bench):
    """A bench whose calls are added to the file."""

    def __init__(self, calls, code, thresholds, before):
        super().__init__(code, thresholds, before)
        self.calls = calls
        calls.new(before, expect=0)

    def load(self, n, page, expect=None):
        before = self.rack
        number = super().load(n, page)
        self.calls.load(self.code, self.thresholds, before, n, page, expect=number if expect is None else expect)
        return number

    def run(self, budget, expect=0):
        before = self.rack
        number, made = super().run(budget)
        self.calls.run(self.code, self.thresholds, before, budget, expect=expect)
        return number, made

    def take(self, n, expect=None):
        before = self.rack
        number, got = super().take(n)
        self.calls.take(self.code, self.thresholds, before, n, expect=number if expect is None else expect)
        return number, got


# Codes: one symbol, three, seven, code A, two branches, and more.
ONE = Code(3, 1, 1, ref.table_of([0]))
THREE = Code(5, 3, 1, ref.table_of([0, 1]))
SEVEN = Code(3, 7, 1, ref.table_of([0, 1, 3]))
CODE_A = rack.CODE_A
TWO = Code(251, 13, 2, ref.table_of([0, 1, 4], [0, 2, 7]))
TWENTY_ONE = Code(17, 21, 1, ref.table_of([3, 6, 7, 12, 14]))


def code_for(random, q, k, b, j):
    runs = [positions_for(random, k, j)] if b == 1 else runs_for(random, k, b, j)
    return Code(q, k, b, ref.table_of(*runs))


def word(random, code):
    data = random.symbols(code.q, code.b * code.k)
    return data, ref.code_word(code.q, code.k, rack.runs_of(code), data)


def damaged(random, code, page, places):
    """The page with the symbols at these places replaced by others."""
    page = list(page)
    for place in places:
        page[place] = (page[place] + 1 + random.below(code.q - 1)) % code.q
    return page


PROFILES = ("clean", "one data symbol", "one check symbol", "half of J", "one symbol and half of its checks", "data in a row",
            "three checks alike", "a fifth", "half", "every symbol drawn", "all symbols q - 1")


def page_of(random, code, profile):
    """A page with damage of this profile."""
    q, k, b, _ = code
    runs = rack.runs_of(code)
    n, j = b * k, len(runs[0])
    data, page = word(random, code)
    if profile == "every symbol drawn":
        return random.symbols(q, n + k)
    if profile == "all symbols q - 1":
        return [q - 1] * (n + k)
    at = random.below(n)
    checks = [n + i for i in ref.checks_of(k, runs, at)]
    if profile == "three checks alike":
        value = 1 + random.below(q - 1)
        for place in checks[:3]:
            page[place] = (page[place] + value) % q
        return page
    places = {
        "clean": [],
        "one data symbol": [at],
        "one check symbol": [n + random.below(k)],
        "half of J": random.some(range(n + k), j // 2),
        "one symbol and half of its checks": [at, *checks[:j // 2]],
        "data in a row": range(at, min(at + 3, n)),
        "a fifth": random.some(range(n + k), (n + k) // 5),
        "half": random.some(range(n + k), (n + k) // 2),
    }[profile]
    return damaged(random, code, page, places)


def any_page(random, code):
    return page_of(random, code, random.pick(PROFILES))


def any_rack(random, code, last=LEADS - 1):
    """What a rack may hold before it is made new: any records, and any bytes in its parts."""
    leads = [Lead(*(random.below(2 ** 32) for _ in Lead._fields)) for _ in range(LEADS)]
    sizes = [LEADS * size for size in rack.sizes(code)]
    return rack.Rack(leads, [last], *(random.symbols(256, size) for size in sizes))


def with_pages(random, code, leads, before=None):
    """A rack with pages just loaded on these leads, symbols of free ones any."""
    held_rack = (before or any_rack(random, code))._replace(leads=[FREE_LEAD] * LEADS)
    for n in leads:
        number, held_rack = rack.load(code, [0], held_rack, n, any_page(random, code))
        assert number == 0
    return held_rack


# The groups

@group("racks, worked by hand")
def by_hand(calls, random):
    bench = Recorded(calls, CODE_A, rack.BY_HAND_THRESHOLDS, rack.rack_by_hand())
    for call, about, *due in rack.BY_HAND:
        if call == "load" and due[1] != 7:
            bench.load(about, *due)
        elif call == "run":
            assert bench.run(about) == tuple(due[:2])
        elif call == "take":
            bench.take(about, due[0])
    # A symbol of 256 is no byte: at q = 5 one of 5 is refused.
    calls.load(Code(5, 13, 1, ref.CODE_A), [0], some_rack(13, 1), 4, [5] + [0] * 25, expect=7)


@group("racks made new")
def made_new(calls, random):
    for last in (0, 31, 32, 255):
        calls.new(any_rack(random, ONE, last), expect=0)
    calls.new(some_rack(1, 1), expect=0)
    before = any_rack(random, ONE)
    for count in (0, 1, 16, 31, 33, 40):
        calls.new(before._replace(leads=(before.leads * 2)[:count]), expect=6)
    for last in ([], [31, 31], [31] * 4, [0] * 32):
        calls.new(before._replace(last=last), expect=6)
    calls.new(before._replace(leads=before.leads[:31], last=[]), expect=6)


@group("racks, every lead")
def every_lead(calls, random):
    """A page on each lead alone: loaded, visited once, and at some leads to its end, and taken away."""
    for n in range(LEADS):
        before = any_rack(random, THREE, random.below(LEADS))._replace(leads=[FREE_LEAD] * LEADS)
        after = calls.load(THREE, [1, 0], before, n, any_page(random, THREE), expect=0)
        after = calls.run(THREE, [1, 0], after, 1, expect=0)
        assert after.last == [n] and after.leads[n].symbol == 1
        if n % 8 in (0, 7):
            after = calls.run(THREE, [1, 0], after, HUGE, expect=0)
            assert after.leads[n].holds == FINISHED
            calls.take(THREE, [1, 0], after, n, expect=0)


@group("racks, pages loaded")
def loaded(calls, random):
    """Codes and pages of every kind, beside other pages and on leads whose parts hold an older one."""
    codes = [ONE, THREE, SEVEN, CODE_A, TWO, code_for(random, 10, 57, 1, 8), code_for(random, 129, 40, 3, 4),
             code_for(random, 256, 31, 8, 2), code_for(random, 128, 133, 1, 12), code_for(random, 256, 257, 1, 6)]
    for code in codes:
        for profile in random.some(PROFILES, 2 if code.b * code.k < 100 else 1):
            before = with_pages(random, code, random.some(range(LEADS), random.below(4)))
            n = random.pick([n for n in range(LEADS) if before.leads[n].holds == FREE])
            calls.load(code, [0], before, n, page_of(random, code, profile), expect=0)
    for profile in PROFILES:
        calls.load(CODE_A, [3, 0], with_pages(random, CODE_A, [0, 31]), 16, page_of(random, CODE_A, profile), expect=0)


@group("racks, one page visit by visit")
def visit_by_visit(calls, random):
    for code, thresholds, profile, n in ((THREE, [1, 0], "one data symbol", 5), (SEVEN, [2, 0, 0], "data in a row", 31),
                                         (SEVEN, [0, 0], "half", 0)):
        bench = Recorded(calls, code, thresholds, any_rack(random, code))
        bench.load(n, page_of(random, code, profile), 0)
        while bench.run(1)[1] == 1:
            assert bench.rack.last == [n]
        bench.take(n, 0)


@group("racks, budgets")
def budgets(calls, random):
    """One page, two, and all 32, with every kind of budget, from several leads served last."""
    for leads in ([7], [0, 31], range(LEADS), random.some(range(LEADS), 9)):
        for last in (0, 6, 31):
            before = with_pages(random, THREE, leads)._replace(last=[last])
            work = rack.work_left(THREE, [1, 0, 0], before)
            for budget in (0, 1, 2, 31, 32, 33, 64, work - 1, work, work + 1, 2 ** 31, HUGE):
                if last == 31 or budget in (1, 33, HUGE):
                    calls.run(THREE, [1, 0, 0], before, budget, expect=0)
    for budget in (0, 1, HUGE):
        calls.run(THREE, [0], any_rack(random, THREE)._replace(leads=[FREE_LEAD] * LEADS), budget, expect=0)


@group("racks, the order of visits")
def order(calls, random):
    """The lead after the one served last is the first, also where it is that one again, or past 31."""
    sets = [range(LEADS), range(0, LEADS, 2), [0], [31], [0, 31], [15, 16], range(1, LEADS), range(31)]
    for leads in sets:
        for last in (0, 15, 16, 30, 31):
            before = with_pages(random, THREE, leads)._replace(last=[last])
            for budget in (1, 2 + random.below(2 * len(leads))):
                calls.run(THREE, [0, 0], before, budget, expect=0)
    for last in range(LEADS):
        before = with_pages(random, ONE, random.some(range(LEADS), 12))._replace(last=[last])
        after = calls.run(ONE, [0], before, 1, expect=0)
        calls.run(ONE, [0], after, 5, expect=0)


@group("racks, finished leads between others")
def finished_between(calls, random):
    """Finished leads, and leads that finish while a run is under way, are passed over and left as they are."""
    for _ in range(7):
        before = with_pages(random, SEVEN, random.some(range(LEADS), 12))._replace(last=[random.below(LEADS)])
        for n, lead in enumerate(before.leads):
            if lead.holds == DUE:
                done = Lead(FINISHED, 1, 0, 3, 2, 3, 6)
                almost = lead._replace(place=2, symbol=4 + random.below(3), passes=2)
                before = with_lead(SEVEN, before, n, random.pick((lead, done, almost)))
        for budget in (1, 5, 13, 40, HUGE):
            calls.run(SEVEN, [1, 0, 0], before, budget, expect=0)


@group("racks, threshold lists")
def lists(calls, random):
    """Falling, rising, equal and other lists, of up to 64 thresholds, with idle passes that skip some."""
    chosen = [[0], [32], [0, 0], [3, 2, 0], [3, 3, 2], [3, 3, 3], [0, 1, 2], [2, 3, 1, 1, 0, 0], [4, 0, 4, 0], [32, 0],
              [1] * 64, [0] * 64, [32] * 63 + [0], list(range(32, -1, -1)), [2, 1] * 32]
    for code in (CODE_A, TWO):
        for thresholds in chosen if code == CODE_A else chosen[3:8]:
            before = with_pages(random, code, random.some(range(LEADS), 5))
            finished = calls.run(code, thresholds, before, HUGE, expect=0)
            n = next(n for n in range(LEADS) if finished.leads[n].holds == FINISHED)
            calls.take(code, thresholds, finished, n, expect=0)
            # One pass of each page, and the one after it.
            after = calls.run(code, thresholds, before, 5 * code.b * code.k, expect=0)
            calls.run(code, thresholds, after, 5 * code.b * code.k + 2, expect=0)


@group("racks, damage of every profile")
def every_profile(calls, random):
    for code, thresholds in ((CODE_A, [2, 1, 0, 0]), (SEVEN, [0, 0])):
        bench = Recorded(calls, code, thresholds, any_rack(random, code))
        for n in range(LEADS):
            bench.load(n, page_of(random, code, PROFILES[n % len(PROFILES)]), 0)
        while bench.run(random.pick((97, 150, 333)))[1]:
            pass
        for n in random.some(range(LEADS), LEADS):
            bench.take(n, 0)


def mixed(calls, random, code, thresholds, count, take_share, most):
    """A run of calls: loads, takings and budgets, some of them refused; in a hundred calls so many takings."""
    bench = Recorded(calls, code, thresholds, any_rack(random, code))
    for _ in range(count):
        call, n = random.below(100), random.below(LEADS)
        holding = [n for n, lead in enumerate(bench.rack.leads) if lead.holds != FREE]
        finished = [n for n in holding if bench.rack.leads[n].holds == FINISHED]
        if call < take_share:
            bench.take(random.pick(finished) if finished and random.below(4) else n)
        elif call < take_share + 30:
            free = [n for n in range(LEADS) if n not in holding]
            bench.load(random.pick(free) if free and random.below(6) else n, any_page(random, code))
        elif call < 94:
            bench.run(random.pick((0, 1, 31, 32, 33, 1 + random.below(most), HUGE if random.below(3) == 0 else most)))
        else:
            refused_call(calls, random, bench)
    for n, lead in enumerate(bench.rack.leads):
        if lead.holds == FINISHED and random.below(2):
            bench.take(n, 0)


def refused_call(calls, random, bench):
    """A call that is refused, so that the rack stays as it is."""
    code, thresholds, before = bench.code, bench.thresholds, bench.rack
    n, page, which = random.below(LEADS), any_page(random, code), random.below(7)
    if which == 0:
        after = calls.load(code, thresholds, before, LEADS + random.below(3), page, expect=16)
    elif which == 1:
        after = calls.load(code, thresholds, before, n, page[1:], expect=6)
    elif which == 2:
        after = calls.run(code, [*thresholds, 33], before, 40, expect=9)
    elif which == 3:
        after = calls.run(code._replace(b=9), thresholds, before, 40, expect=10)
    elif which == 4:
        after = calls.take(code, thresholds, before, n, code.b * code.k + 1, expect=6)
    elif which == 5:
        after = calls.take(code, thresholds, before, HUGE, expect=16)
    else:
        after = calls.run(code._replace(table=code.table + code.table), thresholds, before, 40, expect=4)
    assert after == before


@group("racks, mixed calls")
def mixed_calls(calls, random):
    for code, thresholds, count, most in ((ONE, [0, 0], 50, 60), (THREE, [1, 0, 0], 50, 120), (SEVEN, [2, 1, 0], 40, 200),
                                          (CODE_A, [3, 2, 0], 40, 300), (CODE_A, [0, 0, 0], 30, 150),
                                          (TWO, [1, 0, 0], 25, 500), (TWENTY_ONE, [2, 0], 30, 400)):
        mixed(calls, random, code, thresholds, count, 28, most)


@group("racks, finished pages left for long")
def left_for_long(calls, random):
    """Takings are few: finished pages stay while others are loaded and decoded beside them."""
    mixed(calls, random, THREE, [1, 0], 70, 6, 150)
    mixed(calls, random, SEVEN, [0, 0, 0], 60, 5, 250)


FIELDS = Lead._fields


def at_limits(code, thresholds):
    """Records of a due and of a finished lead with every field at its limit."""
    at = rack.MOST._replace(place=len(thresholds) - 1, symbol=code.b * code.k - 1)
    return at._replace(holds=DUE), at


@group("racks, limits of records")
def record_limits(calls, random):
    """Every field of a due and of a finished lead, alone and with all others, at the first lead, the last and between."""
    thresholds = [0, 0]
    page = any_page(random, THREE)
    free, taken = 4, (0, 17, 31)
    for at, lead in itertools.product(taken, at_limits(THREE, thresholds)):
        base = with_pages(random, THREE, [])
        base = with_lead(THREE, base, at, lead, [[0] * size for size in rack.sizes(THREE)])
        calls.load(THREE, thresholds, base, free, page, expect=0)
        calls.run(THREE, thresholds, base, 0, expect=0)
        calls.run(THREE, thresholds, base, 1, expect=0)
        calls.take(THREE, thresholds, base, at, expect=0 if lead.holds == FINISHED else 18)
        for field in FIELDS:
            most = FINISHED if field == "holds" else getattr(lead, field)
            for value in (most, most + 1, HUGE) if at == 17 else (most + 1,):
                # With all others at their limits, and where the value is within them with all others 0.
                altered = with_lead(THREE, base, at, (FREE_LEAD if value == most else lead)._replace(
                    **{"holds": lead.holds, field: value}))
                number = 6 if value > most else 0
                calls.load(THREE, thresholds, altered, free, page, expect=number)
                calls.run(THREE, thresholds, altered, 0, expect=number)
                taken_from = number or (0 if altered.leads[at].holds == FINISHED else 18)
                calls.take(THREE, thresholds, altered, at, expect=taken_from)
    # Numbers whose low bits are within the limits.
    for field, value in (("holds", 256), ("holds", 257), ("holds", 65538), ("holds", 2 ** 31), ("place", 256), ("place", 2 ** 31),
                         ("symbol", 256), ("symbol", 65536), ("passes", 256), ("start", 65536), ("changes", 2 ** 31),
                         ("before", 2 ** 24)):
        altered = with_lead(THREE, with_pages(random, THREE, []), 9, Lead(DUE, 0, 0, 0, 0, 0, 0)._replace(**{field: value}),
                            [[0] * size for size in rack.sizes(THREE)])
        calls.each(THREE, thresholds, altered, 9, page, (6, 6, 6))


@group("racks, records of free leads")
def free_records(calls, random):
    """Nor are their parts, whatever they hold."""
    for last in (0, 31):
        before = any_rack(random, THREE, last)
        before = before._replace(leads=[lead._replace(holds=FREE) for lead in before.leads])
        calls.each(THREE, [0], before, 11, any_page(random, THREE), (0, 0, 18))
        after = calls.load(THREE, [0], before, 20, any_page(random, THREE), expect=0)
        assert after.leads[21] == before.leads[21]
        after = calls.run(THREE, [0], after, HUGE, expect=0)
        after = calls.take(THREE, [0], after, 20, expect=0)
        assert after.leads[20] == FREE_LEAD and after.leads[19] == before.leads[19]


@group("racks, any records within the limits")
def any_records(calls, random):
    """A pass is idle where its changes are those before it; counts may be past their limits after a visit."""
    def record(code, thresholds):
        n = code.b * code.k
        before = random.pick((0, 1, 262144, random.below(262145)))
        changes = random.pick((before, before, max(before - 1, 0), min(before + 1, 262144), random.below(262145)))
        return Lead(random.pick((FREE, DUE, DUE, FINISHED)), random.below(len(thresholds)), random.pick((0, n - 1, random.below(n))),
                    before, random.pick((0, 63, 64, random.below(65))), changes, random.below(8193))

    for code, thresholds in ((THREE, [1, 0]), (SEVEN, [2, 1, 1, 0, 0]), (TWO, [0, 0])):
        for _ in range(8):
            leads = [record(code, thresholds) for _ in range(LEADS)]
            before = rack.Rack(leads, [random.below(LEADS)], *(random.symbols(code.q, LEADS * size) for size in rack.sizes(code)))
            after = calls.run(code, thresholds, before, 1 + random.below(70), expect=0)
            calls.run(code, thresholds, after, 20)
            finished = [n for n, lead in enumerate(leads) if lead.holds == FINISHED]
            calls.take(code, thresholds, before, random.pick(finished), expect=0)


@group("racks, refusals one by one")
def one_by_one(calls, random):
    thresholds = [1, 0]
    page = [1, 2, 3, 4, 0, 1]
    base = with_pages(random, THREE, [2, 3])
    base = with_lead(THREE, base, 3, Lead(FINISHED, 1, 0, 2, 2, 2, 3))
    for q, number in ((0, 1), (2, 1), (257, 1), (HUGE, 1)):
        calls.each(THREE._replace(q=q), thresholds, base, 3, page, (number,) * 3)
    for k, number in ((0, 2), (4097, 2), (HUGE, 2)):
        calls.each(THREE._replace(k=k), thresholds, base, 3, page, (number,) * 3)
    for b, number in ((0, 10), (9, 10), (HUGE, 10)):
        calls.each(THREE._replace(b=b), thresholds, base, 3, page, (number,) * 3)
    for table, number in ((b"", 3), (ref.table_of(range(33)), 3), (ref.table_of([0, 3]), 4), (ref.table_of([1, 0]), 4),
                          (ref.table_of([0, 1, 2]), 5)):
        calls.each(THREE._replace(table=table), thresholds, base, 3, page, (number,) * 3)

    # 6: the table, the byte, each buffer, what else is lent.
    for count in (0, 1, 31, 33, 40):
        calls.each(THREE, thresholds, base._replace(leads=(base.leads * 2)[:count]), 3, page, (6, 6, 6))
    for last in ([], [31, 31], [31] * 4):
        calls.each(THREE, thresholds, base._replace(last=last), 3, page, (6, 6, 6))
    for buffer in ("results", "syndromes", "differences"):
        whole = getattr(base, buffer)
        for other in ([], whole[:3], whole[:-3], whole[:-1], whole + [0], whole + whole[:3], whole * 2):
            calls.each(THREE, thresholds, base._replace(**{buffer: other}), 3, page, (6, 6, 6))
    for other in ([], page[:3], page[:-1], page + [0]):
        calls.load(THREE, thresholds, base, 5, other, expect=6)
    for length in (0, 2, 4, 6, 96):
        calls.take(THREE, thresholds, base, 3, length, expect=6)
    # A list with no place for a page that is held is 6, not 8; without such a page it is 8.
    for some, number in (([], 6), ([1], 6), ([0] * 64, 0), ([0] * 65, 8)):
        calls.each(THREE, some, base, 3, page, (number or 17, number, number))
    for some, number in (([], 8), ([0] * 65, 8), ([0] * 64, 0)):
        calls.each(THREE, some, with_pages(random, THREE, []), 3, page, (number, number, number or 18))

    # 7: the page, and each part of a due and of a finished lead, at both ends; not those of free leads.
    for place, symbol in itertools.product((0, 2, 3, 5), (5, 6, 255)):
        calls.load(THREE, thresholds, base, 5, [*page[:place], symbol, *page[place + 1:]], expect=7)
    for buffer, place in itertools.product(("results", "syndromes", "differences"), (0, 5, 6, 8, 9, 11, 12, 95)):
        whole = list(getattr(base, buffer))
        whole[place] = 5
        number = 7 if place in range(6, 12) else 0
        calls.each(THREE, thresholds, base._replace(**{buffer: whole}), 3, page, (number or 17, number, number))
    # 9.
    for some in ([33, 0], [0, 33], [0, 255]):
        calls.each(THREE, some, base, 3, page, (9, 9, 9))
    # 16: the lead served last, and the lead; 17 and 18.
    for last in (32, 33, 63, 64, 128, 255):
        calls.each(THREE, thresholds, base._replace(last=[last]), 3, page, (16, 16, 16))
    for n in (32, 33, 34, 35, 64, 255, 256, 259, 65536, 2 ** 31, HUGE):
        calls.load(THREE, thresholds, base, n, page, expect=16)
        calls.take(THREE, thresholds, base, n, expect=16)
    for n, numbers in ((2, (17, 18)), (3, (17, 0)), (4, (0, 18)), (31, (0, 18))):
        calls.load(THREE, thresholds, base, n, page, expect=numbers[0])
        calls.take(THREE, thresholds, base, n, expect=numbers[1])


# All refusals, in the order in which they are tested.
REFUSALS = (1, 2, 10, 3, 4, 5, 6, 7, 8, 9, 16, 17, 18)


def refused_by(number, code, thresholds, before):
    """What makes this refusal apply, beside what was amiss before."""
    if number == 1:
        code = code._replace(q=2)
    elif number == 2:
        code = code._replace(k=4097)
    elif number == 10:
        code = code._replace(b=9)
    elif number in (3, 4, 5):
        code = code._replace(table={3: b"", 4: ref.table_of([1, 0]), 5: ref.table_of([0, 1, 2])}[number])
    elif number == 6:
        before = before._replace(results=before.results[:-1])
    elif number == 7:
        before = before._replace(syndromes=[*before.syndromes[:7], 255, *before.syndromes[8:]])
    elif number == 8:
        thresholds = thresholds + [0] * 64
    elif number == 9:
        thresholds = [*thresholds[:-1], 33]
    elif number == 16:
        before = before._replace(last=[32])
    return code, thresholds, before


@group("racks, refusals with others")
def with_others(calls, random):
    """Every pair of refusals, and each with all that come after it."""
    base = with_lead(THREE, with_pages(random, THREE, [2, 3]), 3, Lead(FINISHED, 1, 0, 2, 2, 2, 3))
    page = [1, 2, 3, 4, 0, 1]
    for call, own in ((RACK_LOAD, 17), (RACK_RUN, None), (RACK_TAKE, 18)):
        tested = [number for number in REFUSALS if number not in (17, 18) or number == own]
        for numbers in (*itertools.combinations(tested, 2), *(tested[at:] for at in range(len(tested) - 2))):
            # Of tables that are refused only the first can be lent.
            tables = [number for number in numbers if number in (3, 4, 5)]
            changed = THREE, [1, 0], base
            for number in (number for number in numbers if number not in tables[1:]):
                changed = refused_by(number, *changed)
            if call == RACK_LOAD:
                calls.load(*changed, 2 if own in numbers else 5, page, expect=numbers[0])
            elif call == RACK_RUN:
                calls.run(*changed, 40, expect=numbers[0])
            else:
                calls.take(*changed, 2 if own in numbers else 3, result_len=3, expect=numbers[0])
    # The lead served last comes before the lead, and this before 17 and 18.
    calls.load(THREE, [0, 0], base._replace(last=[99]), 99, page, expect=16)
    calls.load(THREE, [0, 0], base._replace(last=[99]), 2, page, expect=16)
    calls.take(THREE, [0, 0], base._replace(last=[99]), 2, expect=16)


@group("racks in C alone", c_only=True)
def c_only(calls, random):
    """Tables of an odd length, and other lengths of the visits made than 4 and of the counts than 16."""
    base = with_lead(THREE, with_pages(random, THREE, [2, 3]), 3, Lead(FINISHED, 1, 0, 2, 2, 2, 3))
    page = [1, 2, 3, 4, 0, 1]
    for length in (1, 3, 5):
        calls.each(THREE._replace(table=(THREE.table * 2)[:length]), [1, 0], base, 3, page, (3, 3, 3))
    for length in (0, 1, 2, 3, 5, 8, 16):
        calls.run(THREE, [1, 0], base, 5, made_len=length, expect=6)
        calls.run(THREE, [], base, 5, made_len=length, expect=6)
    for length in (0, 4, 12, 15, 17, 28, 32):
        calls.take(THREE, [1, 0], base, 3, counts_len=length, expect=6)
        calls.take(THREE, [33, 33], base, 2, counts_len=length, expect=6)
    calls.run(THREE._replace(q=300), [1, 0], base, 5, made_len=3, expect=1)
    calls.take(THREE._replace(q=300), [1, 0], base, 3, counts_len=15, expect=1)


def make():
    """The file of these pages."""
    rack.self_check()
    file = File(MOST_RACK_STRING, MOST_RACK_RECORD)
    for seed, (name, c_only, add_pages) in enumerate(GROUPS, start=1200):
        add_pages(Calls(file, name, c_only), Random(seed))
    return file
