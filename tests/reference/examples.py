"""What the examples charger.c, branches.c, outer.c, cells.c and files.c print, by the reference program: the same data,
damage and layout, but the code words, the decodes and the counts are those of reference.py, for cells.c of wide.py, and
the file is that of files.py. `screen.py` does so for screen.c."""

import files as pages
import reference as ref
import wide
from screen import draws


def counts_line(counts):
    return (f"passes {counts.passes}, changes {counts.changes}, distance {counts.start} at the start, "
            f"{counts.end} at the end")


def text(lines):
    return "".join(line + "\n" for line in lines).encode()


def charger():
    """One branch of 13 data symbols: damage within the bound, damage beyond it, a page that is too short."""
    q, k = 256, 13
    code = q, k, 1, ref.table_of([0, 1, 4, 6])
    allowed = [0, 0, 4, 8, 16, 24, 32, 40, 40, 32, 24, 8, 0]
    number, page = ref.encode(*code, allowed, 2 * k)
    assert number == 0

    def decode(received):
        number, got = ref.decode(*code, received, [0, 0, 0], *ref.decode_lengths(k, 1))
        assert number == 0
        return got

    def relay(limits, degrees, ampere):
        limit = limits[(degrees + 20) // 5]
        return (f"  {ampere} A at {degrees} degrees: limit {limit} A, relay "
                f"{'CLOSED' if ampere <= limit else 'open'}")

    lines = ["The pack encodes its limits:"]
    for name, symbols in (("data", page[:k]), ("checks", page[k:])):
        lines.append(f"  {name:6}" + "".join(f"{symbol:4}" for symbol in symbols))

    received = list(page)
    received[3], received[k + 9] = 200, 1
    got = decode(received)
    assert got.result == allowed
    lines += ["", "The lead replaces two symbols, data 3 and check 9. As received:", relay(received, -5, 30), "Decoded:",
              f"  {counts_line(got.counts)}", relay(got.result, -5, 30),
              "  Two is within the bound: these are the pack's limits."]

    received = list(page)
    for check in (0, 1, 4):
        received[k + check] = (page[k + check] + 5) % q
    got = decode(received)
    assert got.result[0] == allowed[0] + 5
    lines += ["", "The lead adds 5 to three checks of data 0:", f"  {counts_line(got.counts)}", relay(got.result, -20, 5),
              "  Three is beyond the bound: nearer to the page received, and still not what was sent.",
              "  The call cannot tell. Keep the damage within the bound, or add a check of your own."]

    number, _ = ref.decode(*code, received[:-1], [0, 0, 0], *ref.decode_lengths(k, 1))
    lines += ["", "The last symbol is lost:",
              f"  refused with {number}: a buffer has not the length that the call needs. Nothing was written, relay "
              "open."]
    return text(lines)


def branches():
    """Two branches, positions above 255; damage within the bound and beyond it."""
    q, k, b = 256, 512, 2
    runs = [[8, 12, 34, 77, 220, 505], [30, 68, 108, 135, 427, 438]]
    code = q, k, b, ref.table_of(*runs)
    thresholds = [1, 1] + [0] * 6
    at_empty = [0, 0, 4, 8, 16, 24, 32, 40, 40, 40, 36, 32, 24, 16, 8, 0]
    sent = ([at_empty[i // 32] * (32 - i % 32) // 32 for i in range(k)] +
            [120 + 2 * (i // 32) + 3 * (i % 32) for i in range(k)])
    number, page = ref.encode(*code, sent, 3 * k)
    assert number == 0

    j = len(runs[0])
    lines = [f"A page of {len(page)} symbols: {b} branches of {k} data symbols, and {k} checks."]
    for symbol in (300, k + 300):
        checks = " ".join(map(str, ref.checks_of(k, runs, symbol)))
        lines.append(f"Data symbol {symbol}, symbol {symbol % k} of branch {symbol // k}, is in the checks {checks}.")
    lines += [f"J is {j} and the smallest threshold 0, so the data comes back where at most {j // 2} symbols are "
              "replaced.", ""]

    def wrong(data):
        return sum(given != due for given, due in zip(data, sent))

    draw = draws()
    for replaced in (j // 2, 77, 230):
        hit, received = set(), list(page)
        while len(hit) < replaced:
            place = draw(len(page))
            if place not in hit:
                hit.add(place)
                received[place] = (page[place] + 1 + draw(q - 1)) % q
        number, got = ref.decode(*code, received, thresholds, *ref.decode_lengths(k, b))
        assert number == 0 and (replaced > j // 2 or got.result == sent)
        lines += [f"{replaced} symbols replaced, {'within' if replaced <= j // 2 else 'beyond'} the bound:",
                  f"  {counts_line(got.counts)}",
                  f"  wrong data symbols: {wrong(received[:b * k])} as received, {wrong(got.result)} as decoded"]
    return text(lines)


def outer():
    """Blocks of 8 with an outer check; decode beside decode with the outer check."""
    q, k, length = 256, 16, 8
    code = q, k, 1, ref.table_of([0, 1, 4, 6])
    thresholds = [0, 0, 0]
    allowed = [0, 0, 4, 8, 16, 24, 32, 40, 40, 32, 24, 8, 0, 0]
    places = [i for i in range(k) if i % length != length - 1]
    number, page = ref.encode_outer(*code, length, ref.symbols(k, dict(zip(places, allowed))), 2 * k)
    assert number == 0

    def decoded(name, got):
        wrong = [f"{got.result[place]} A for {due} A at {5 * i - 20} degrees"
                 for i, (place, due) in enumerate(zip(places, allowed)) if got.result[place] != due]
        return [f"  {name}: {counts_line(got.counts)}", "    " + (", ".join(wrong) or "all limits as sent")]

    def both(received):
        plain = ref.decode(*code, received, thresholds, *ref.decode_lengths(k, 1))
        stepped = ref.decode_outer(*code, length, received, thresholds, *ref.decode_lengths(k, 1))
        assert plain[0] == stepped[0] == 0
        return plain[1], stepped[1]

    lines = ["The pack encodes its limits, in blocks whose last symbol makes them sum to 0 modulo 256:"]
    for at, name in zip(range(0, 2 * k, length), ("block", "block", "checks", "")):
        lines.append(f"  {name:8}" + "".join(f"{symbol:4}" for symbol in page[at:at + length]))

    received = list(page)
    for check in (0, 1, 4):
        received[k + check] = (received[k + check] + 5) % q
    plain, stepped = both(received)
    assert plain.result[0] == allowed[0] + 5 and stepped.result == page[:k]
    assert [step[:2] for step in stepped.steps] == [(0, 5)]
    lines += ["", "The lead adds 5 to three checks of symbol 0, which is beyond the bound:",
              *decoded("decode      ", plain), *decoded("decode_outer", stepped),
              "  The block sums to 5, and symbol 0 is its least reliable symbol: the outer step subtracts 5 there."]

    for check in (2, 3, 8):
        received[k + check] = (received[k + check] + 9) % q
    plain, stepped = both(received)
    assert plain.result[0] != allowed[0] and plain.result[2] != allowed[2] and stepped.result != page[:k]
    lines += ["", "The lead also adds 9 to three checks of symbol 2, in the same block:",
              *decoded("decode      ", plain), *decoded("decode_outer", stepped),
              "  Two symbols of the block are wrong: no step puts both right, and the call cannot tell."]

    number, _ = ref.decode_outer(*code, 6, received, thresholds, *ref.decode_lengths(k, 1))
    lines += ["", "The charger has another block length than the pack:",
              f"  refused with {number}: 6 does not divide {k}. One that does would be taken: the page does not hold "
              "it."]
    return text(lines)


def cells():
    """16-bit readings in two branches: damage within the bound, damage beyond it, a page with a byte lost."""
    w, k, b, line = 2, 27, 2, 9
    runs = [[0, 3, 7, 8], [0, 9, 11, 21]]
    code = w, k, b, ref.table_of(*runs)
    thresholds = [1, 1] + [0] * 6
    sent = [3650 + 37 * i % 90 - (800 if i == 40 else 0) for i in range(b * k)]
    number, page = wide.encode(*code, wide.packed(w, sent), w * (b + 1) * k)
    assert number == 0

    def wrong(name, readings):
        differ = sum(given != due for given, due in zip(readings, sent))
        out = [i for i, reading in enumerate(readings) if not 2800 <= reading <= 4200]
        first = "".join(f", first {readings[i]} mV of cell {i % k}, string {i // k}" for i in out[:1])
        return f"  {name}: wrong readings {differ}, out of limits {len(out)}{first}"

    def decoded(received):
        number, got = wide.decode(*code, received, thresholds, *wide.decode_lengths(w, k, b))
        assert number == 0
        weak = sum(margin <= 0 for margin in got.margins)
        return got, [wrong("received", wide.unpacked(w, received)[:b * k]), wrong("decoded ", got.result),
                     f"  {counts_line(got.counts)}, readings with a margin of 0 or less: {weak}"]

    lines = [f"{w * len(page)} bytes for {b * k} readings in millivolts and {k} checks:"]
    for at in range(0, b * k, line):
        name = f"  string {at // k}" if at % k == 0 else " " * 10
        lines.append(name + "".join(f" {reading:5}" for reading in sent[at:at + line]))
    lines += [f"  check 0 is {page[b * k]}, the sum of {sum(map(len, runs))} readings modulo 65536"]

    received = bytearray(wide.packed(w, page))
    received[w * 17 + 1] ^= 0x80
    check = w * (b * k + 5)
    received[check:check + w] = bytes(w)
    got, text_of = decoded(bytes(received))
    assert got.result == sent
    lines += ["", "The lead inverts the highest bit of a reading and clears a check:", *text_of,
              "  Two symbols are within the bound: these are the monitor's readings."]

    received = bytearray(wide.packed(w, page))
    received[w * 30:w * 38] = b"\xff" * (w * 8)
    got, text_of = decoded(bytes(received))
    lines += ["", "A burst sets 16 bytes to 255, eight readings in a row:", *text_of,
              "  Eight symbols are beyond the bound: the call cannot tell whether all are right."]

    number, _ = wide.decode(*code, bytes(received[:-1]), thresholds, *wide.decode_lengths(w, k, b))
    lines += ["", "The last byte is lost:",
              f"  refused with {number}: the page ends within a symbol. Nothing was written."]
    return text(lines)


def files():
    """Three pages of three packs, kept in a file, read back and decoded."""
    k = 13
    table = ref.table_of([0, 1, 4, 6])
    packs = ((3, 256, [0, 0, 4, 8, 16, 24, 32, 40, 40, 32, 24, 8, 0]),
             (7, 64, [0, 2, 6, 12, 20, 30, 48, 63, 60, 45, 30, 12, 0]),
             (300, 41, [0, 0, 0, 5, 10, 20, 30, 40, 40, 40, 20, 0, 0]))
    received = []
    for i, (_, q, allowed) in enumerate(packs):
        number, page = ref.encode(q, k, 1, table, allowed, 2 * k)
        assert number == 0
        for place in (3 + i, k + 9):
            page[place] = (page[place] + 5) % q
        received += page

    number, length, file = pages.write([pack[0] for pack in packs], [pack[1] - 1 for pack in packs], [2 * k] * 3, received,
                                       bytes(113))
    assert number == 0
    lines = [f"The bench keeps 3 pages, as received, in a file of {length} bytes. Read back and decoded:"]
    for place, (_, _, allowed) in enumerate(packs):
        number, entry = pages.read(file, place)
        assert number == 0
        number, got = ref.decode(entry.top + 1, k, 1, table, list(pages.body_of(file, entry)), [0, 0, 0],
                                 *ref.decode_lengths(k, 1))
        assert number == 0 and got.result == allowed
        lines.append(f"  place {place}: page {entry.number:3}, q {entry.top + 1:3}, {entry.length} symbols at "
                     f"{entry.offset:3}: changes {got.counts.changes}, distance {got.counts.start} at the start, "
                     f"{got.counts.end} at the end, as sent")

    file = pages.altered(file, {112: 41})
    lines += ["", "The last symbol becomes 41, at q = 41. Asked for the first page:",
              f"  refused with {pages.read(file, 0)[0]}", "The last byte is lost:",
              f"  refused with {pages.read(file[:-1], 0)[0]}",
              "A file says that it is whole, not that its pages are right: that is for decode and its bound."]
    return text(lines)
