"""The files of reference pages: a record for each call, with all that it takes, returns and writes. README.md beside
this file has the format."""

import struct

import bits
import reference as ref
import wide

# The number of a call in the file; 0 opens a group.
(OPEN_GROUP, CHECK_TABLE, ENCODE, SYNDROME, DECODE, OPEN, PASS, EXPLAIN, DECODE_COUNTERS, ENCODE_OUTER,
 DECODE_OUTER) = range(11)

# The first seven on bit pages, in the same order, have the numbers after these; then come those on symbols of two bytes
# and of four.
ON_BITS = DECODE_OUTER
ON_WIDE = {2: ON_BITS + EXPLAIN, 4: ON_BITS + 2 * EXPLAIN}

# The programs that run the pages, each with a file of its own, and the calls of each.
PROGRAMS = {
    "reference": (CHECK_TABLE, ENCODE, SYNDROME, DECODE, OPEN, PASS, EXPLAIN),
    "reference_counters": (DECODE_COUNTERS,),
    "reference_outer": (ENCODE_OUTER, DECODE_OUTER),
    "reference_bits": range(ON_BITS + CHECK_TABLE, ON_BITS + EXPLAIN + 1),
    "reference_u16": range(ON_WIDE[2] + CHECK_TABLE, ON_WIDE[2] + EXPLAIN + 1),
    "reference_u32": range(ON_WIDE[4] + CHECK_TABLE, ON_WIDE[4] + EXPLAIN + 1),
}

# What a record gives of a string's content.
BEFORE, AFTER = 1, 2

# What readers may rely on for the size of their buffers: a table, then a string and a record of the programs' files, a
# string of 2,100 symbols in those on wide symbols, and a string and a record of the file of long pages.
MOST_TABLE = 600
MOST_STRING, MOST_RECORD = 16400, 40960
MOST_WIDE_STRING = {"reference_u16": 2 * 2100, "reference_u32": 4 * 2100}
MOST_LONG_STRING, MOST_LONG_RECORD = 32768, 102400


def read(content):
    """A string that the call only reads."""
    content = bytes(content)
    return struct.pack("<2I", len(content), BEFORE) + content


def lent(length, number, written):
    """Memory lent for an answer, whatever it holds: written whole where the call returns 0, else left."""
    if number:
        return struct.pack("<2I", length, 0)
    written = bytes(written)
    assert len(written) == length
    return struct.pack("<2I", length, AFTER) + written


def held(before, after):
    """Memory that the call reads and may alter: what it holds before, and what after where that is something else."""
    before, after = bytes(before), bytes(after)
    if after == before:
        return read(before)
    assert len(after) == len(before)
    return struct.pack("<2I", len(before), BEFORE | AFTER) + before + after


def decode_answers(lengths, number, got):
    """The memory lent to a decode: result, syndrome, difference and margins, of these lengths, and the counts."""
    written = [None] * 5
    if number == 0:
        written = [*got[:3], struct.pack(f"<{len(got.margins)}i", *got.margins), struct.pack("<4I", *got.counts)]
    return [lent(length, number, content) for length, content in zip((*lengths, 16), written)]


class File:
    """Records, and of each group with pages among them the name, `c_only` and how many there are. No string and no record
    is longer than these."""

    def __init__(self, most_string=MOST_STRING, most_record=MOST_RECORD):
        self.most_string, self.most_record = most_string, most_record
        self.records = []
        self.groups = []

    def _record(self, call, number, numbers, strings):
        """A record, with its length before it."""
        made = struct.pack(f"<{4 + len(numbers)}I", call, number, len(numbers), len(strings), *numbers) + b"".join(strings)
        assert len(made) <= self.most_record
        assert all(struct.unpack_from("<I", string)[0] <= self.most_string for string in strings)
        self.records.append(struct.pack("<I", len(made)) + made)

    def add(self, name, c_only, *page):
        """A page of this group, which its first page opens."""
        if not self.groups or self.groups[-1][0] != name:
            self.groups.append([name, c_only, 0])
            self._record(OPEN_GROUP, 0, [int(c_only)], [read(name.encode())])
        self._record(*page)
        self.groups[-1][2] += 1

    def count(self):
        return sum(count for _, _, count in self.groups)

    def content(self):
        return b"".join(self.records)

    def report(self):
        """What the program prints of the file."""
        return "".join(f"{name}: {count} pages, {'for the C form only' if c_only else '0 wrong'}\n"
                       for name, c_only, count in self.groups).encode()


class Calls:
    """The first seven calls in one profile, each with its expected outcome by a module, `by`, as a record that goes to
    `add`. In the file their numbers start after `after`."""

    def __init__(self, by, after, add):
        self.by, self.after, self.add = by, after, add

    def _call(self, call, number, expect, numbers, table, strings):
        assert expect in (None, number)
        assert len(table) <= MOST_TABLE
        self.add(call + self.after, number, numbers, [read(table), *strings])

    # A function for each call. `expect` is the number that it is known to return.

    def check_table(self, q, k, b, table, expect=None):
        number = self.by.check_table(q, k, b, table)
        self._call(CHECK_TABLE, number, expect, [q, k, b], table, [])

    def encode(self, q, k, b, table, data, page_len=None, expect=None):
        page_len = (b + 1) * k if page_len is None else page_len
        number, page = self.by.encode(q, k, b, table, data, page_len)
        self._call(ENCODE, number, expect, [q, k, b], table, [read(data), lent(page_len, number, page)])

    def syndrome(self, q, k, b, table, page, syndrome_len=None, expect=None):
        syndrome_len = k if syndrome_len is None else syndrome_len
        number, s = self.by.syndrome(q, k, b, table, page, syndrome_len)
        self._call(SYNDROME, number, expect, [q, k, b], table, [read(page), lent(syndrome_len, number, s)])

    def decode(self, q, k, b, table, page, thresholds, lengths=None, expect=None):
        """`lengths` are those of result, syndrome, difference and margins. Returns what the decode gave. The C tests run
        the page with counters too, but on bits."""
        lengths = ref.decode_lengths(k, b) if lengths is None else lengths
        number, got = self.by.decode(q, k, b, table, page, thresholds, *lengths)
        if self.by is ref:
            assert (number, got) == ref.decode_counters(q, k, b, table, page, thresholds, *lengths, counters=ref.ZEROED)
        self._call(DECODE, number, expect, [q, k, b], table,
                   [read(page), read(thresholds), *decode_answers(lengths, number, got)])
        return got

    def open_page(self, q, k, b, table, page, lengths=None, expect=None):
        """`lengths` are those of result, syndrome and difference. Returns these three, None where it is refused."""
        lengths = ref.buffer_lengths(k, b) if lengths is None else lengths
        number, got = self.by.open_page(q, k, b, table, page, *lengths)
        answers = [lent(length, number, content) for length, content in zip(lengths, got or [None] * 3)]
        self._call(OPEN, number, expect, [q, k, b], table, [read(page), *answers])
        return got

    def pass_once(self, q, k, b, table, threshold, result, s, d, changes_len=4, expect=None):
        """Returns result, syndrome and difference as the pass leaves them, and its changes; None where it is refused."""
        number, got = self.by.pass_once(q, k, b, table, threshold, result, s, d, changes_len)
        buffers = [held(before, after) for before, after in zip((result, s, d), got or (result, s, d))]
        changes = lent(changes_len, number, struct.pack("<I", got.changes) if got else None)
        self._call(PASS, number, expect, [q, k, b, threshold], table, [*buffers, changes])
        return got

    def explain(self, q, k, b, table, threshold, symbol, result, s, d, answer_len=24, expect=None):
        """Returns the answer, None where it is refused."""
        number, got = self.by.explain(q, k, b, table, threshold, symbol, result, s, d, answer_len)
        answer = lent(answer_len, number, struct.pack("<4IQ", *got) if got else None)
        self._call(EXPLAIN, number, expect, [q, k, b, threshold, symbol], table,
                   [*map(read, (result, s, d)), answer])
        return got

    def every_call(self, q, k, b, table, expect=None):
        """The first four calls, on symbols that are all 0."""
        self.check_table(q, k, b, table, expect)
        self.encode(q, k, b, table, [0] * (b * k), expect=expect)
        self.syndrome(q, k, b, table, [0] * ((b + 1) * k), expect=expect)
        self.decode(q, k, b, table, [0] * ((b + 1) * k), [0], expect=expect)

    def open_and_pass(self, q, k, b, table, lent_for=None, expect=None):
        """The next two, on symbols that are all 0, in buffers for this k and b or for another pair."""
        other_k, other_b = lent_for or (k, b)
        lengths = ref.buffer_lengths(other_k, other_b)
        self.open_page(q, k, b, table, [0] * ((other_b + 1) * other_k), lengths, expect)
        self.pass_once(q, k, b, table, 0, *([0] * length for length in lengths), expect=expect)


class WideCalls(Calls):
    """The seven calls on symbols of w bytes. Each takes what the call of its name takes, the one q of the width too:
    symbols, and lengths in symbols, but for the margins. Those whose names end in `_bytes` take k and b alone, byte
    strings, and all lengths in bytes. The record has k and b, and bytes."""

    def __init__(self, w, add):
        super().__init__(wide, ON_WIDE[w], add)
        self.w, self.q = w, wide.q_of(w)

    def _packed(self, *strings):
        return [wide.packed(self.w, symbols) for symbols in strings]

    def _lengths(self, q, lengths):
        """The lengths of result, syndrome and difference in bytes, and that of the margins, if any, as it is."""
        assert q == self.q
        return *(self.w * length for length in lengths[:3]), *lengths[3:]

    def check_table(self, q, k, b, table, expect=None):
        assert q == self.q
        self._call(CHECK_TABLE, wide.check_table(self.w, k, b, table), expect, [k, b], table, [])

    def encode_bytes(self, k, b, table, data, page_len, expect=None):
        number, page = wide.encode(self.w, k, b, table, data, page_len)
        self._call(ENCODE, number, expect, [k, b], table,
                   [read(data), lent(page_len, number, page and self._packed(page)[0])])

    def syndrome_bytes(self, k, b, table, page, syndrome_len, expect=None):
        number, s = wide.syndrome(self.w, k, b, table, page, syndrome_len)
        self._call(SYNDROME, number, expect, [k, b], table,
                   [read(page), lent(syndrome_len, number, s and self._packed(s)[0])])

    def decode_bytes(self, k, b, table, page, thresholds, lengths, expect=None):
        number, got = wide.decode(self.w, k, b, table, page, thresholds, *lengths)
        written = got and got._replace(**dict(zip(("result", "syndrome", "difference"), self._packed(*got[:3]))))
        self._call(DECODE, number, expect, [k, b], table,
                   [read(page), read(thresholds), *decode_answers(lengths, number, written)])
        return got

    def open_bytes(self, k, b, table, page, lengths, expect=None):
        number, got = wide.open_page(self.w, k, b, table, page, *lengths)
        written = self._packed(*got) if got else [None] * 3
        answers = [lent(length, number, content) for length, content in zip(lengths, written)]
        self._call(OPEN, number, expect, [k, b], table, [read(page), *answers])
        return got

    def pass_bytes(self, k, b, table, threshold, result, s, d, changes_len=4, expect=None):
        number, got = wide.pass_once(self.w, k, b, table, threshold, result, s, d, changes_len)
        after = self._packed(*got[:3]) if got else (result, s, d)
        buffers = [held(*contents) for contents in zip((result, s, d), after)]
        changes = lent(changes_len, number, struct.pack("<I", got.changes) if got else None)
        self._call(PASS, number, expect, [k, b, threshold], table, [*buffers, changes])
        return got

    def explain_bytes(self, k, b, table, threshold, symbol, result, s, d, answer_len=24, expect=None):
        number, got = wide.explain(self.w, k, b, table, threshold, symbol, result, s, d, answer_len)
        answer = lent(answer_len, number, struct.pack("<4IQ", *got) if got else None)
        self._call(EXPLAIN, number, expect, [k, b, threshold, symbol], table, [*map(read, (result, s, d)), answer])
        return got

    def encode(self, q, k, b, table, data, page_len=None, expect=None):
        length, = self._lengths(q, [(b + 1) * k if page_len is None else page_len])
        self.encode_bytes(k, b, table, *self._packed(data), length, expect)

    def syndrome(self, q, k, b, table, page, syndrome_len=None, expect=None):
        length, = self._lengths(q, [k if syndrome_len is None else syndrome_len])
        self.syndrome_bytes(k, b, table, *self._packed(page), length, expect)

    def decode(self, q, k, b, table, page, thresholds, lengths=None, expect=None):
        lengths = self._lengths(q, ref.decode_lengths(k, b) if lengths is None else lengths)
        return self.decode_bytes(k, b, table, *self._packed(page), thresholds, lengths, expect)

    def open_page(self, q, k, b, table, page, lengths=None, expect=None):
        lengths = self._lengths(q, ref.buffer_lengths(k, b) if lengths is None else lengths)
        return self.open_bytes(k, b, table, *self._packed(page), lengths, expect)

    def pass_once(self, q, k, b, table, threshold, result, s, d, changes_len=4, expect=None):
        assert q == self.q
        return self.pass_bytes(k, b, table, threshold, *self._packed(result, s, d), changes_len, expect)

    def explain(self, q, k, b, table, threshold, symbol, result, s, d, answer_len=24, expect=None):
        assert q == self.q
        return self.explain_bytes(k, b, table, threshold, symbol, *self._packed(result, s, d), answer_len, expect)


class Pages(Calls):
    """Calls, each with its expected outcome, as a record in the file of the call's program, or in that of long pages;
    `bits` has those on bit pages, `wide` those on symbols of each width."""

    def __init__(self):
        super().__init__(ref, OPEN_GROUP, self._add)
        self.bits = Calls(bits, ON_BITS, self._add)
        self.wide = {w: WideCalls(w, self._add) for w in wide.WIDTHS}
        self.files = {program: File(MOST_WIDE_STRING.get(program, MOST_STRING)) for program in PROGRAMS}
        self.file_of = {call: self.files[program] for program, calls in PROGRAMS.items() for call in calls}
        self.long_file = File(MOST_LONG_STRING, MOST_LONG_RECORD)

    def open_group(self, name, c_only, long):
        """The calls that follow are of this group."""
        self.name, self.c_only, self.long = name, c_only, long

    def count(self):
        return sum(file.count() for file in (*self.files.values(), self.long_file))

    def _add(self, call, *page):
        (self.long_file if self.long else self.file_of[call]).add(self.name, self.c_only, call, *page)

    def decode_counters(self, q, k, b, table, page, thresholds, lengths=None, counters=ref.ZEROED, expect=None):
        """The counters stand before the counts, and hold after the call what they held before it."""
        lengths = ref.decode_lengths(k, b) if lengths is None else lengths
        number, got = ref.decode_counters(q, k, b, table, page, thresholds, *lengths, counters=counters)
        assert number == 6 or (number, got) == ref.decode(q, k, b, table, page, thresholds, *lengths)
        *answers, counts = decode_answers(lengths, number, got)
        self._call(DECODE_COUNTERS, number, expect, [q, k, b], table,
                   [read(page), read(thresholds), *answers, read(counters), counts])
        return got

    def encode_outer(self, q, k, b, table, length, data, page_len=None, expect=None):
        """`length` is that of a block. Returns the page, None where it is refused."""
        page_len = (b + 1) * k if page_len is None else page_len
        number, page = ref.encode_outer(q, k, b, table, length, data, page_len)
        self._call(ENCODE_OUTER, number, expect, [q, k, b, length], table, [read(data), lent(page_len, number, page)])
        return page

    def decode_outer(self, q, k, b, table, length, page, thresholds, lengths=None, expect=None):
        """`length` is that of a block, `lengths` are those of result, syndrome, difference and margins. Returns what the
        decode gave. Where it makes no step, that is what decode gives."""
        lengths = ref.decode_lengths(k, b) if lengths is None else lengths
        number, got = ref.decode_outer(q, k, b, table, length, page, thresholds, *lengths)
        plain = ref.decode(q, k, b, table, page, thresholds, *lengths)
        assert number == 12 or number == plain[0]
        assert number or got.steps or got[:-1] == plain[1]
        self._call(DECODE_OUTER, number, expect, [q, k, b, length], table,
                   [read(page), read(thresholds), *decode_answers(lengths, number, got)])
        return got
