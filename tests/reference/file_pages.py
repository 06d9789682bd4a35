"""The reference pages of files of pages, crates/reference_files/data/pages.bin: calls of the reader and the writer, each
with the outcome of files.py. The groups have random numbers of their own, so other groups can come before or after."""

import itertools
import struct

import files
from codes import Random
from records import File, held, lent, read

# The numbers of the calls in the file.
FILE_READ, FILE_WRITE = 32, 33

# What readers may rely on for the size of their buffers: a string, a record, and how many pages a list is for.
MOST_FILE_STRING, MOST_FILE_RECORD, MOST_LIST = 66000, 204800, 200

GROUPS = []


def group(name, c_only=False):
    """Adds a group: the function below it adds its pages."""
    def add(function):
        GROUPS.append((name, c_only, function))
        return function
    return add


class Calls:
    """Adds calls to a file, each with its outcome. `expect` is the number that it is known to return."""

    def __init__(self, file, name, c_only):
        self.file, self.name, self.c_only = file, name, c_only

    def read(self, content, place, expect=None, entry_len=16):
        number, entry = files.read(content, place, entry_len)
        assert expect in (None, number), (expect, number)
        self.file.add(self.name, self.c_only, FILE_READ, number, [place],
                      [read(content), lent(entry_len, number, entry and entry.packed())])

    def read_all(self, content, expect=None):
        """Every place of an accepted file, and the one after the last."""
        count = files.count_of(content)
        for place in range(count):
            self.read(content, place, expect)
        self.read(content, count, 14)

    def write(self, numbers, tops, lengths, bodies, output, expect=None):
        self.c_write(struct.pack(f"<{len(numbers)}H", *numbers), tops, struct.pack(f"<{len(lengths)}I", *lengths), bodies,
                     output, expect=expect)
        if len(numbers) == len(tops) == len(lengths):
            # What only the C form tests does not apply.
            assert expect in (None, files.write_number(numbers, tops, lengths, bodies, len(output)))

    def c_write(self, numbers, tops, lengths, bodies, output, length_len=4, expect=None):
        """The lists as bytes."""
        assert max(len(numbers) // 2, len(tops), len(lengths) // 4) <= MOST_LIST
        number, length, after = files.c_write(numbers, bytes(tops), lengths, bodies, output, length_len)
        assert expect in (None, number), (expect, number)
        whole = number == 0 and struct.unpack("<I", length) == (len(output),)
        self.file.add(self.name, self.c_only, FILE_WRITE, number, [],
                      [read(numbers), read(tops), read(lengths), read(bodies),
                       lent(len(output), 0, after) if whole else held(output, after), lent(length_len, number, length)])


def rest(length):
    """What an output holds before."""
    return bytes((37 * i + 11) % 256 for i in range(length))


def symbols(top, length):
    """A body, with symbols up to the top."""
    return bytes((5 * i + i // 7) % (top + 1) for i in range(length))


def listing(pages):
    """The lists and the joined bodies of pages, each a number, a top and a length."""
    return ([number for number, _, _ in pages], [top for _, top, _ in pages], [length for _, _, length in pages],
            b"".join(symbols(top, length) for _, top, length in pages))


def file_of(pages):
    return files.written(*listing(pages))


def file_length(pages):
    return files.COUNT_LEN + sum(files.ENTRY_LEN + length for _, _, length in pages)


# Three small pages, and where their entries have what.
SMALL = [(0, 2, 2), (258, 9, 4), (65535, 255, 3)]
FIELDS = {"number": (0, "<H"), "top": (2, "<B"), "offset": (3, "<I"), "length": (7, "<I")}


def with_field(file, place, field, value):
    """The file with one field of one entry altered."""
    at, layout = FIELDS[field]
    file = bytearray(file)
    struct.pack_into(layout, file, files.COUNT_LEN + files.ENTRY_LEN * place + at, value)
    return bytes(file)


# Files as long as a file may be: of 64 pages, and of eight of which seven have 8,192 symbols.
LONGEST = ([(1000 * i + 3, 2 + 4 * i, 1012) for i in range(63)] + [(65000, 255, 65536 - 706 - 63 * 1012)],
           [(i, 255 - i, 8192) for i in range(7)] + [(7, 2, 65536 - 90 - 7 * 8192)])


def one_more(pages):
    """The last page one symbol longer."""
    *others, (number, top, length) = pages
    return [*others, (number, top, length + 1)]


def drawn(random):
    """Some pages."""
    count = 1 + random.below(9)
    numbers = sorted(random.some(range(65536), count))
    return [(number, 2 + random.below(254), 2 + random.below(40)) for number in numbers]


# The groups

@group("files read, worked by hand")
def read_by_hand(calls, random):
    calls.read_all(files.TWO)
    for place in range(2):
        for changes, expect in (({13: 4, 14: 0}, 0), ({13: 3, 14: 0}, 14), ({4: 3}, 0), ({4: 1}, 14), ({5: 25}, 14), ({15: 254}, 15),
                                ({24: 3}, 15), ({25: 0}, 0), ({20: 2}, 15), ({20: 4}, 14), ({0: 65}, 13)):
            calls.read(files.altered(files.TWO, changes), place, expect)
    for content, expect in ((b"", 13), (b"\1", 13), (files.TWO + b"\0", 15), (files.TWO[:-1], 14), (files.TWO[:23], 13)):
        calls.read(content, 0, expect)
    calls.read(files.TWO + b"\0", 2, 14)


@group("files read, every place")
def read_places(calls, random):
    calls.read_all(file_of(SMALL))
    for _ in range(12):
        calls.read_all(file_of(drawn(random)))
    for place in (64, 255, 256, 65536, 2 ** 31, 2 ** 32 - 1):
        calls.read(file_of(SMALL), place, 14)


@group("files read, the limits")
def read_limits(calls, random):
    # 1 and 64 pages, and none and 65 of them.
    for count, expect in ((0, 13), (1, 0), (2, 0), (63, 0), (64, 0), (65, 13), (128, 13)):
        content = file_of([(i, 2, 2) for i in range(count)])
        for place in sorted({0, max(count, 1) - 1}):
            calls.read(content, place, expect)
        calls.read(content, count, expect or 14)
    for count in (65, 255, 256, 257, 320, 64 * 256, 65535):
        calls.read(struct.pack("<H", count) + file_of([(i, 2, 2) for i in range(64)])[2:], 0, 13)
    # 2 and 8,192 symbols; page numbers 0 and 65,535; q - 1 of 2 and 255.
    for length, expect in ((0, 14), (1, 14), (2, 0), (3, 0), (8191, 0), (8192, 0), (8193, 14), (16384, 14)):
        calls.read(file_of([(7, 255, length)]), 0, expect)
        calls.read(file_of([(7, 255, length), (8, 2, 2)]), 1, expect)
        calls.read(file_of([(7, 255, 2), (8, 2, length)]), 0, expect)
    for top, expect in ((0, 14), (1, 14), (2, 0), (3, 0), (127, 0), (128, 0), (254, 0), (255, 0)):
        calls.read(file_of([(0, top, 6)]), 0, expect)
        calls.read(file_of([(0, 255, 6), (65535, top, 6)]), 1, expect)
    # Every symbol up to q - 1, and one above it, at every place of a body.
    for top in (2, 3, 127, 128, 254, 255):
        for at in range(4):
            for symbol in sorted({top, min(top + 1, 255), 255}):
                content = file_of([(1, 2, 3), (2, top, 4), (3, 255, 2)])
                calls.read(files.altered(content, {files.COUNT_LEN + 3 * files.ENTRY_LEN + 3 + at: symbol}), 2,
                           15 if symbol > top else 0)
    # 65,536 bytes and one more.
    for pages in LONGEST:
        assert file_length(pages) == 65536
        for place in (0, len(pages) - 1):
            calls.read(file_of(pages), place, 0)
    calls.read(file_of(one_more(LONGEST[0])), 0, 13)
    calls.read(file_of(LONGEST[0]) + b"\0", 63, 13)
    calls.read(file_of(LONGEST[0])[:-1], 63, 14)
    calls.read(file_of(LONGEST[0])[:-1] + b"\377", 0, 0)
    calls.read(files.altered(file_of(LONGEST[1]), {65535: 3}), 0, 15)
    # A byte after the last body, up to the limit.
    calls.read(file_of(SMALL) + bytes(65536 - file_length(SMALL)), 0, 15)
    calls.read(file_of(SMALL) + bytes(65537 - file_length(SMALL)), 0, 13)


# Entries that break one rule each: which place, field and value.
BROKEN = [(place, field, value) for place, field, values in (
    (0, "number", (258, 300, 65535)), (1, "number", (0, 65535)), (2, "number", (0, 257, 258)),
    (0, "top", (0, 1)), (1, "top", (0, 1)), (2, "top", (0, 1)),
    (0, "offset", (0, 2, 34, 36, 37, 2 ** 32 - 1, 35 + 65536)), (1, "offset", (35, 36, 38, 41, 2 ** 32 - 1)),
    (2, "offset", (0, 40, 42, 44, 41 + 2 ** 24)),
    (0, "length", (0, 1, 3, 6, 8193)), (1, "length", (0, 1, 3, 5, 8192, 2 ** 32 - 1)),
    (2, "length", (0, 1, 4, 5, 8192, 8193, 65536 + 3, 2 ** 31)),
) for value in values]


@group("files read, a rule broken alone")
def read_broken(calls, random):
    for place, field, value in BROKEN:
        content = with_field(file_of(SMALL), place, field, value)
        for asked in range(3):
            calls.read(content, asked, 14)
    # The bodies in another order, one over the other, with a gap that the file has, and counted from the bodies' start.
    small = file_of(SMALL)
    for offsets in ((39, 35, 41), (35, 35, 39), (35, 37, 37), (0, 2, 6), (36, 38, 42)):
        content = small
        for place, offset in enumerate(offsets):
            content = with_field(content, place, "offset", offset)
        for asked in range(3):
            calls.read(content, asked, 14)
            calls.read(content + b"\0", asked, 14)
    gap = with_field(with_field(small, 1, "offset", 38), 2, "offset", 42)
    calls.read(gap[:37] + b"\0" + gap[37:], 0, 14)
    # High byte first.
    calls.read(small[1::-1] + small[2:], 0, 13)
    for more in (1, 2, 11, 500):
        for asked in range(3):
            calls.read(small + bytes(more), asked, 15)
    # A symbol above q - 1 in each body, asked for any.
    for place, symbol in ((35, 3), (36, 255), (37, 10), (38, 11), (39, 128), (40, 255)):
        for asked in range(3):
            calls.read(files.altered(small, {place: symbol}), asked, 15)


@group("files read, rules broken together")
def read_broken_together(calls, random):
    small = file_of(SMALL)
    calls.read(with_field(small, *BROKEN[0]) + bytes(65537 - len(small)), 3, 13)
    for place, field, value in BROKEN[::3]:
        content = with_field(small, place, field, value)
        calls.read(content + b"\0", place, 14)
        calls.read(files.altered(content, {35: 3}), place, 14)
        calls.read(content, 3, 14)
        calls.read(b"\0\0" + content[2:], place, 13)
        calls.read(b"\101" + content[1:], place, 13)
        calls.read(content[:34], place, 13)
    for changes, more, place, expect in (
            ({35: 3}, b"\0", 0, 15), ({35: 3}, b"", 3, 14), ({}, b"\0", 3, 14), ({35: 3}, b"\0", 3, 14),
            ({0: 0, 35: 3}, b"\0", 3, 13), ({0: 2}, b"", 0, 14), ({0: 4}, b"", 0, 13), ({0: 4}, b"\0\0", 0, 14)):
        calls.read(files.altered(small, changes) + more, place, expect)
    for place in (0, 3):
        calls.read(files.altered(small[:-1], {35: 3}), place, 14)
    for (one, two) in itertools.islice(itertools.combinations(BROKEN, 2), 0, None, 37):
        calls.read(with_field(with_field(small, *one), *two), 0)


@group("files read, cut at every byte")
def read_cut(calls, random):
    for content in (file_of(SMALL), file_of([(5, 4, 2)])):
        for length in range(len(content)):
            for place in (0, 2):
                calls.read(content[:length], place)


@group("files read, one byte altered")
def read_altered(calls, random):
    small = file_of(SMALL)
    for at, byte in enumerate(small):
        values = {0, 1, 2, 3, 64, 65, 128, 255, (byte + 1) % 256, (byte - 1) % 256, byte ^ 128} - {byte}
        for n, value in enumerate(sorted(values)):
            calls.read(files.altered(small, {at: value}), (at + n) % 3)


@group("files written, worked by hand")
def write_by_hand(calls, random):
    for length, expect in ((28, 6), (29, 0), (30, 0), (32, 0), (100, 0), (0, 6), (23, 6)):
        calls.write(*files.TWO_LISTS, rest(length), expect)
    for lists, expect in ((([], [], [], b""), 13), (([1], [1], [2], b"\0\0"), 14), (([1], [2], [1], b"\0"), 14),
                          (([2, 1], [2, 2], [2, 2], bytes(4)), 14), (([1, 1], [2, 2], [2, 2], bytes(4)), 14),
                          (([1], [2], [2], b"\0\3"), 15), (([1], [2], [3], bytes(4)), 6),
                          (([1, 2], [2], [2, 2], bytes(4)), 6), (([65535], [2], [2], b"\2\1"), 0)):
        calls.write(*lists, rest(40), expect)


@group("files written")
def write_some(calls, random):
    for pages in [SMALL] + [drawn(random) for _ in range(12)]:
        length = file_length(pages)
        for room in (length, length + 1, length + 77):
            calls.write(*listing(pages), rest(room), 0)
        calls.write(*listing(pages), rest(length - 1), 6)


@group("files written, the limits")
def write_limits(calls, random):
    for count, expect in ((0, 13), (1, 0), (63, 0), (64, 0), (65, 13), (66, 13), (200, 13)):
        pages = [(i, 2, 2) for i in range(count)]
        calls.write(*listing(pages), rest(file_length(pages)), expect)
        if count:
            calls.write(*listing(pages), rest(file_length(pages) - 1), 6)
    for length, expect in ((0, 14), (1, 14), (2, 0), (3, 0), (8191, 0), (8192, 0), (8193, 14)):
        pages = [(7, 255, length)]
        calls.write(*listing(pages), rest(file_length(pages)), expect)
        calls.write(*listing(pages), rest(file_length(pages) - 1), 6)
        pages = [(7, 255, 2), (8, 2, length), (9, 3, 2)]
        calls.write(*listing(pages), rest(file_length(pages) + 2), expect)
    for top, expect in ((0, 14), (1, 14), (2, 0), (3, 0), (254, 0), (255, 0)):
        for pages in ([(0, top, 6)], [(0, 255, 6), (65535, top, 6)]):
            calls.write(*listing(pages), rest(file_length(pages)), expect)
            calls.write(*listing(pages)[:3], listing(pages)[3][:-1] + bytes([min(top + 1, 255)]), rest(file_length(pages)),
                        0 if top == 255 else 14 if top < 2 else 15)
    for pages in LONGEST:
        calls.write(*listing(pages), rest(65536), 0)
    calls.write(*listing(one_more(LONGEST[0])), rest(65537), 13)
    calls.write(*listing(one_more(LONGEST[0])), rest(65536), 6)
    calls.write(*listing(LONGEST[1]), rest(65535), 6)


@group("files written, rules broken")
def write_broken(calls, random):
    numbers, tops, lengths, bodies = listing(SMALL)
    room = file_length(SMALL)
    for place, number in ((0, 258), (0, 65535), (1, 0), (1, 65535), (2, 258), (2, 3)):
        other = [*numbers[:place], number, *numbers[place + 1:]]
        calls.write(other, tops, lengths, bodies, rest(room), 14)
        calls.write(other, tops, lengths, bodies, rest(room - 1), 6)
        calls.write(other, tops, lengths, b"\3" + bodies[1:], rest(room), 14)
    for place, top in itertools.product(range(3), (0, 1)):
        other = [*tops[:place], top, *tops[place + 1:]]
        calls.write(numbers, other, lengths, bodies, rest(room), 14)
        calls.write(numbers, other, lengths, bodies[:-1], rest(room), 6)
    for other in ([1, 5, 3], [2, 6, 1], [0, 4, 5], [9, 0, 0], [2, 7, 0]):
        assert sum(other) == len(bodies)
        calls.write(numbers, tops, other, bodies, rest(room), 14)
    for other in ([3, 3, 3], [2, 2, 5], [4, 2, 3]):
        calls.write(numbers, tops, other, bytes(9), rest(room), 0)
    for at, symbol in ((0, 3), (1, 255), (2, 10), (5, 10)):
        calls.write(numbers, tops, lengths, files.altered(bodies, {at: symbol}), rest(room), 15)
        calls.write(numbers, tops, lengths, files.altered(bodies, {at: symbol}), rest(room - 1), 6)
    for less in range(1, room + 1):
        calls.write(numbers, tops, lengths, bodies, rest(room - less), 6)


@group("files written, lists that disagree")
def write_disagree(calls, random):
    numbers, tops, lengths, bodies = listing(SMALL)
    for a, b, c in itertools.product((0, 1, 2, 3, 4), repeat=3):
        if (a, b, c) != (3, 3, 3):
            lists = (numbers + [65535])[:a], (tops + [255])[:b], (lengths + [2])[:c]
            if len(set(map(len, lists))) > 1:
                calls.write(*lists, (bodies + bytes(2))[:sum(lists[2])], rest(90), 6)
    for more in (-9, -2, -1, 1, 2, 11):
        calls.write(numbers, tops, lengths, (bodies + bytes(20))[:len(bodies) + more], rest(90), 6)
    # No page and some bodies; more pages than a file has, and bodies that disagree.
    calls.write([], [], [], b"\0", rest(90), 6)
    calls.write([], [], [], b"", rest(1), 6)
    calls.write([], [], [], b"", rest(2), 13)
    for count in (65, 200):
        pages = [(i, 2, 2) for i in range(count)]
        calls.write(*listing(pages)[:3], bytes(2 * count - 1), rest(4000), 6)
        calls.write(*listing(pages)[:3], bytes(2 * count + 1), rest(4000), 6)
    # Sums that would be right in 32 or 64 bits.
    for lists in (([1, 2], [2, 2], [2 ** 32 - 1, 5]), ([1, 2], [2, 2], [2 ** 31, 2 ** 31 + 4]),
                  ([1, 2, 3], [2] * 3, [2 ** 32 - 1, 2 ** 32 - 1, 6]), ([1], [2], [2 ** 31 + 4]), ([1], [2], [2 ** 16 + 4])):
        calls.write(*lists, bytes(4), rest(90), 6)
    calls.write(range(65), [2] * 65, [2 ** 32 - 1] * 64 + [68], bytes(4), rest(900), 6)


@group("files in C alone", c_only=True)
def c_only(calls, random):
    """Other lengths of the entry than 16 and of the file's length than 4, and lists whose bytes are not 2 and 4 a page."""
    small = file_of(SMALL)
    for length in (0, 1, 4, 11, 15, 17, 20, 32):
        for content, place in ((small, 0), (small, 3), (small + b"\0", 0), (b"", 0)):
            calls.read(content, place, 6, entry_len=length)
    calls.read(bytes(65537), 0, 6, entry_len=15)
    numbers, tops, lengths, bodies = listing(SMALL)
    two, four = struct.pack("<3H", *numbers), struct.pack("<3I", *lengths)
    room = rest(file_length(SMALL))
    for length in (0, 1, 2, 3, 5, 8, 16):
        calls.c_write(two, tops, four, bodies, room, length, expect=6)
        calls.c_write(b"", b"", b"", b"", room, length, expect=6)
    for cut in range(1, 7):
        calls.c_write(two[:-cut], tops, four, bodies, room, expect=6)
        calls.c_write(two + bytes(cut), tops, four, bodies, room, expect=6)
    for cut in (*range(1, 9), 12):
        calls.c_write(two, tops, four[:-cut], bodies, room, expect=6)
        calls.c_write(two, tops, four + bytes(cut), bodies, room, expect=6)
    # No page: a byte of the other lists is 6, none of any 13.
    calls.c_write(b"", b"", b"", b"", room, expect=13)
    calls.c_write(b"\0", b"", b"", b"", room, expect=6)
    for cut in (1, 2, 3):
        calls.c_write(b"", b"", bytes(cut), b"", room, expect=6)
    for count in (65, 128):
        pages = [(i, 2, 2) for i in range(count)]
        numbers, tops, lengths, bodies = listing(pages)
        calls.c_write(struct.pack(f"<{count}H", *numbers)[:-1], tops, struct.pack(f"<{count}I", *lengths), bodies, rest(4000),
                      expect=6)


def make():
    """The file of these pages."""
    files.self_check()
    file = File(MOST_FILE_STRING, MOST_FILE_RECORD)
    for seed, (name, c_only, add_pages) in enumerate(GROUPS, start=1100):
        add_pages(Calls(file, name, c_only), Random(seed))
    return file
