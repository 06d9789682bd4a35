"""What examples/screen.c prints where it prints no colours, by the reference program: the same data, damage and layout,
but the code word, the opening, the passes, the decode, the margins and the explanation are those of reference.py."""

import reference as ref

Q, K, POSITIONS = 256, 256, [0, 1, 3, 7]
THRESHOLDS = [1] + [0] * 7
REPLACED = 80
IN_LINE, COLUMNS = 32, 16
AT_EMPTY = [0, 0, 4, 8, 16, 24, 32, 40, 40, 40, 36, 32, 24, 16, 8, 0]

FIRM, DOUBTFUL, WEAK = range(3)
SHOWN = [(" ", "firm", "margin above J/2"), ("?", "doubtful", "margin 1 to J/2"), ("!", "weak", "margin 0 or less")]


def standing(margin):
    if margin > len(POSITIONS) // 2:
        return FIRM
    return DOUBTFUL if margin > 0 else WEAK


def draws():
    """A function that gives the next number below another."""
    state = 1

    def draw(below):
        nonlocal state
        state = (state * 1664525 + 1013904223) % 2 ** 32
        return (state >> 16) % below
    return draw


def damaged(page, replaced):
    draw, hit = draws(), set()
    page = list(page)
    while len(hit) < replaced:
        place = draw(2 * K)
        if place not in hit:
            hit.add(place)
            page[place] = (page[place] + 1 + draw(Q - 1)) % Q
    return page


def marks(symbols):
    """A line's symbols, marked where they are not 0."""
    text = "".join("#" if symbol else "." for symbol in symbols)
    return "".join(" " + text[i:i + COLUMNS] for i in range(0, len(text), COLUMNS))


def view(what, changed, s, d):
    """The difference and the syndrome; where nothing was changed their counts alone."""
    lines = [f"{what}: {ref.nonzero(d)} data symbols differ, {ref.nonzero(s)} checks are not 0"]
    for at in range(0, K, IN_LINE) if changed else ():
        lines.append(f"{at:5} {marks(d[at:at + IN_LINE])}   {marks(s[at:at + IN_LINE])}")
    return lines + [""]


def passes(page, decoded):
    """A view of the opened page and one after each pass of the decode, made one by one."""
    code = Q, K, 1, ref.table_of(POSITIONS)
    number, buffers = ref.open_page(*code, page, *ref.buffer_lengths(K, 1))
    assert number == 0
    lines = [f"The page after each pass, {IN_LINE} data symbols and {IN_LINE} checks in a line: # on the left is a "
             "data symbol that", "differs from the one received, # on the right a check that is not 0.", ""]
    lines += view("Opened", True, *buffers[1:])
    for n, place in enumerate(decoded.places, start=1):
        number, (*buffers, changes) = ref.pass_once(*code, THRESHOLDS[place], *buffers)
        assert number == 0
        lines += view(f"Pass {n}, threshold {THRESHOLDS[place]}, changes {changes}", changes, *buffers[1:])
    assert tuple(buffers) == decoded[:3]
    return lines


def explained(when, symbol, result, s, d):
    """What a visit would do to a symbol, why, and which estimates speak for the commonest value."""
    threshold = THRESHOLDS[-1]
    number, (ground, h0, m0, m1, bits) = ref.explain(Q, K, 1, ref.table_of(POSITIONS), threshold, symbol, result, s, d)
    assert number == 0
    names = ["the difference"] + [f"check {check}" for check in ref.checks_of(K, [POSITIONS], symbol)]
    return [f"{when} it is {result[symbol]}. Of {len(names)} votes {h0} has {m0}, the next value {m1}. A visit with "
            f"threshold {threshold}",
            {1: "  leaves it: the lead is not above the threshold.",
             2: "  leaves it: 0 leads, so that nothing is to be subtracted.",
             3: f"  would change it to {(result[symbol] - h0) % Q}."}[ground],
            f"  For {h0} speak: " + ", ".join(name for i, name in enumerate(names) if bits >> i & 1)]


def explained_symbol(symbol, page, decoded):
    """A symbol as the decode handed it back, then as it was received."""
    return ["", f"Symbol {symbol}, {5 * (symbol // 16) - 20} C and charge {symbol % 16}/16:",
            *explained("After the passes", symbol, *decoded[:3]),
            *explained("As received", symbol, *ref.opened(Q, K, [POSITIONS], page))]


def content(replaced=REPLACED, symbol=None):
    """The text, as bytes; of the weakest symbol where none is named."""
    sent = [AT_EMPTY[j // 16] * (16 - j % 16) // 16 for j in range(K)]
    page = damaged(ref.code_word(Q, K, [POSITIONS], sent), replaced)
    number, got = ref.decode(Q, K, 1, ref.table_of(POSITIONS), page, THRESHOLDS, *ref.decode_lengths(K, 1))
    assert number == 0
    stands = [standing(margin) for margin in got.margins]

    lines = passes(page, got)
    lines.append("Allowed current in ampere, a row for each temperature, charge 0/16 to 15/16:")
    for row in range(16):
        symbols = range(16 * row, 16 * row + 16)
        lines.append(f"{5 * row - 20:4} C " + "".join(f"{got.result[j]:3}{SHOWN[stands[j]][0]}" for j in symbols))
    j = len(POSITIONS)
    lines.append(f"J is {j}: a margin can be {-j - 1} to {j + 1}.")
    for each, (mark, name, margin) in enumerate(SHOWN):
        those = [i for i in range(K) if stands[i] == each]
        wrong = sum(got.result[i] != sent[i] for i in those)
        lines.append(f"{mark} {name:8}  {margin:16}  {len(those):3} symbols, {wrong} not as sent")
    lines.append(f"{replaced} symbols replaced; passes {got.counts.passes}, changes {got.counts.changes}, "
                 f"distance {got.counts.start} at the start, {got.counts.end} at the end")
    lines += explained_symbol(got.margins.index(min(got.margins)) if symbol is None else symbol, page, got)
    return "".join(line + "\n" for line in lines).encode()
