"""A file of pages with its contents first, as document 02 (N11) states it, clear rather than fast.

It shares no code with the library. With every file that it reads or writes it tests what N11 says of all of them: what
the reader accepts is what the writer can write, each place of a written file reads back as listed, the output beyond
the file is kept, and a refused call leaves all as it was. Run as a program it tries itself on files worked out by hand.
"""

import struct
from typing import NamedTuple

MOST_BYTES, MOST_PAGES = 65536, 64
TOPS = range(2, 256)
LENGTHS = range(2, 8193)
COUNT_LEN, ENTRY_LEN = 2, 11


class Entry(NamedTuple):
    """A page in the contents; `top` is its q - 1."""
    number: int
    top: int
    offset: int
    length: int

    def packed(self):
        """The 16 bytes of the C form."""
        return struct.pack("<4I", *self)


def first_that_applies(tests):
    """Tests run in the order of the numbers, and the first that applies is returned."""
    return next((number for number, applies in tests if applies()), 0)


# What the bytes say

def count_of(file):
    return file[0] + 256 * file[1]


def entries_of(file):
    """The entries that the count says, which must all be there."""
    return [Entry(*struct.unpack_from("<HBII", file, COUNT_LEN + ENTRY_LEN * place)) for place in range(count_of(file))]


def body_of(file, entry):
    return file[entry.offset:entry.offset + entry.length]


# The rules

def breaks_a_rule(entries, end):
    """Does an entry break a rule, or pass the file's end?"""
    due = COUNT_LEN + ENTRY_LEN * len(entries)
    last = -1
    for entry in entries:
        if not (entry.number > last and entry.top in TOPS and entry.length in LENGTHS and entry.offset == due):
            return True
        last, due = entry.number, entry.offset + entry.length
        if due > end:
            return True
    return False


# The calls

def contents_whole(file):
    """Is the file not too long, its count within the limits, and are its contents all there?"""
    return (COUNT_LEN <= len(file) <= MOST_BYTES and 1 <= count_of(file) <= MOST_PAGES
            and COUNT_LEN + ENTRY_LEN * count_of(file) <= len(file))


def read_tests(file, place, entry_len):
    return [
        (6, lambda: entry_len != 16),
        (13, lambda: not contents_whole(file)),
        (14, lambda: breaks_a_rule(entries_of(file), len(file)) or place >= count_of(file)),
        (15, lambda: (sum(entry.length for entry in entries_of(file)) + COUNT_LEN + ENTRY_LEN * count_of(file) < len(file)
                      or any(symbol > entry.top for entry in entries_of(file) for symbol in body_of(file, entry)))),
    ]


def read(file, place, entry_len=16):
    """The number, and where it is 0 the entry at this place. `entry_len` is that of the C form's memory for it."""
    file = bytes(file)
    number = first_that_applies(read_tests(file, place, entry_len))
    if number:
        return number, None
    entries = entries_of(file)
    # What is accepted can be written, and there is no second listing for it.
    listing = [[entry[field] for entry in entries] for field in (0, 1, 3)]
    bodies = b"".join(body_of(file, entry) for entry in entries)
    assert written(*listing, bodies) == file and not write_number(*listing, bodies, len(file))
    return 0, entries[place]


def written(numbers, tops, lengths, bodies):
    """The bytes of the file."""
    contents, offset = b"", COUNT_LEN + ENTRY_LEN * len(numbers)
    for number, top, length in zip(numbers, tops, lengths):
        contents += struct.pack("<HBII", number, top, offset, length)
        offset += length
    return struct.pack("<H", len(numbers)) + contents + bytes(bodies)


def parts(lengths, bodies):
    """The bodies, one by one."""
    starts = [sum(lengths[:place]) for place in range(len(lengths))]
    return [bodies[start:start + length] for start, length in zip(starts, lengths)]


def listed(numbers, tops, lengths):
    """The entries of three lists."""
    due = COUNT_LEN + ENTRY_LEN * len(numbers)
    starts = [due + sum(lengths[:place]) for place in range(len(lengths))]
    return [Entry(*fields) for fields in zip(numbers, tops, starts, lengths)]


def write_tests(numbers, tops, lengths, bodies, output_len):
    file_len = COUNT_LEN + ENTRY_LEN * len(numbers) + sum(lengths)
    return [
        (6, lambda: (not len(numbers) == len(tops) == len(lengths) or sum(lengths) != len(bodies)
                     or output_len < file_len)),
        (13, lambda: file_len > MOST_BYTES or not 1 <= len(numbers) <= MOST_PAGES),
        (14, lambda: breaks_a_rule(listed(numbers, tops, lengths), file_len)),
        (15, lambda: any(symbol > top for top, body in zip(tops, parts(lengths, bodies)) for symbol in body)),
    ]


def write_number(numbers, tops, lengths, bodies, output_len):
    return first_that_applies(write_tests(numbers, tops, lengths, bodies, output_len))


def write(numbers, tops, lengths, bodies, output):
    """The number, the file's length and the output afterwards."""
    bodies, output = bytes(bodies), bytes(output)
    number = write_number(numbers, tops, lengths, bodies, len(output))
    if number:
        return number, 0, output
    file = written(numbers, tops, lengths, bodies)
    after = file + output[len(file):]
    assert len(after) == len(output) and len(file) == COUNT_LEN + ENTRY_LEN * len(numbers) + sum(lengths)
    for place, body in enumerate(parts(lengths, bodies)):
        number, entry = read(file, place)
        assert (number, entry.number, entry.top, entry.length) == (0, numbers[place], tops[place], lengths[place])
        assert body_of(file, entry) == body
    assert read(file, len(numbers)) == (14, None)
    return 0, len(file), after


def c_write(numbers, tops, lengths, bodies, output, length_len):
    """The C form: page numbers in 2 bytes each, lengths in 4, and 4 bytes for the file's length. The number of pages is
    that of the tops. Returns the number, the bytes of the length, None where the call is refused, and the output."""
    if not (len(numbers) == 2 * len(tops) and len(lengths) == 4 * len(tops) and length_len == 4):
        return 6, None, bytes(output)
    pages = len(tops)
    number, length, after = write(struct.unpack(f"<{pages}H", numbers), tops, struct.unpack(f"<{pages}I", lengths), bodies,
                                  output)
    return number, None if number else struct.pack("<I", length), after


# What is worked out by hand

# Page 3 at q = 3 with the symbols 0, 2, and page 300 (44 + 256) at q = 256 with 7, 255, 9: the contents end at
# 2 + 2 * 11 = 24.
TWO = bytes([2, 0,
             3, 0, 2, 24, 0, 0, 0, 2, 0, 0, 0,
             44, 1, 255, 26, 0, 0, 0, 3, 0, 0, 0,
             0, 2, 7, 255, 9])
TWO_LISTS = [3, 300], [2, 255], [2, 3], bytes([0, 2, 7, 255, 9])


def altered(file, changes):
    """The file with other bytes at these places."""
    file = bytearray(file)
    for place, byte in changes.items():
        file[place] = byte
    return bytes(file)


def self_check():
    assert read(TWO, 0) == (0, (3, 2, 24, 2)) and read(TWO, 1) == (0, (300, 255, 26, 3))
    assert write(*TWO_LISTS, bytes(29)) == (0, 29, TWO)
    assert write(*TWO_LISTS, b"\1" * 32) == (0, 29, TWO + b"\1" * 3)
    assert write(*TWO_LISTS, b"\1" * 28) == (6, 0, b"\1" * 28)
    assert [read(TWO, place)[0] for place in (2, 3, 2 ** 32 - 1)] == [14] * 3
    # Cut short: within the contents 13; within the bodies the last body passes the end. A byte too many is 15.
    assert [read(TWO[:n], 0)[0] for n in range(30)] == [13] * 24 + [14] * 5 + [0]
    assert read(TWO + b"\0", 0)[0] == 15 and read(TWO + b"\0", 2)[0] == 14
    for changes, number in (
            ({0: 0}, 13), ({0: 65}, 13), ({1: 1}, 13), ({0: 1}, 14), ({0: 3}, 13),
            ({2: 44, 3: 1}, 14), ({2: 45, 3: 1}, 14), ({13: 3, 14: 0}, 14), ({13: 4, 14: 0}, 0),
            ({4: 1}, 14), ({4: 3}, 0), ({15: 1}, 14), ({15: 254}, 15),
            ({5: 25}, 14), ({5: 23}, 14), ({6: 1}, 14), ({16: 27}, 14), ({16: 25}, 14), ({16: 24}, 14),
            ({9: 1}, 14), ({9: 3}, 14), ({20: 2}, 15), ({20: 4}, 14), ({20: 1}, 14), ({21: 32}, 14),
            ({24: 3}, 15), ({25: 3}, 15), ({25: 0}, 0), ({24: 3, 13: 3, 14: 0}, 14)):
        for place in range(2):
            assert read(altered(TWO, changes), place)[0] == number, changes
    for lists, number in (
            (([], [], [], b""), 13), (([1], [1], [2], b"\0\0"), 14), (([1], [2], [1], b"\0"), 14),
            (([2, 1], [2, 2], [2, 2], bytes(4)), 14), (([1, 1], [2, 2], [2, 2], bytes(4)), 14),
            (([1], [2], [2], b"\0\3"), 15), (([1], [2], [3], bytes(4)), 6), (([1, 2], [2], [2, 2], bytes(4)), 6),
            (([65535], [2], [2], b"\2\1"), 0), (([0], [255], [8192], bytes(8192)), 0), (([0], [255], [8193], bytes(8193)), 14)):
        assert write(*lists, bytes(9000))[0] == number
    # 64 pages of which the file has 65,536 bytes, one more byte, and one more page.
    lengths = [1012] * 63 + [65536 - 706 - 63 * 1012]
    for more, number in (([0] * 64, 0), ([1] + [0] * 63, 13), ([0] * 63 + [-1], 0)):
        sizes = [length + by for length, by in zip(lengths, more)]
        assert write(range(64), [2] * 64, sizes, bytes(sum(sizes)), bytes(70000))[0] == number
    assert write(range(65), [2] * 65, [2] * 65, bytes(130), bytes(900))[0] == 13
    assert c_write(b"\3\0\54\1", b"\2\377", b"\2\0\0\0\3\0\0\0", TWO_LISTS[3], bytes(29), 4) == (0, b"\35\0\0\0", TWO)


if __name__ == "__main__":
    self_check()
    print("The files worked out by hand pass.")
