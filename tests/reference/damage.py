"""damage.py [Q]: prints a table of docs/history/damage.md. For codes of docs/TABLES.md, threshold lists and
shares of a page's symbols replaced at random: of 50 pages, those whose data the decoder put right, by the reference
program. Q is the alphabet size, 256 unless it is given; 2 for bits."""

import sys

import reference as ref
from codes import Random, greedy, singer

PAGES = 50
SHARES = (2, 5, 8, 12, 16)  # in percent
CODES = [(13, singer(3)[:4]), (1024, greedy(1024)[:4]), (133, singer(11)[:12]), (1024, greedy(1024)[:12]),
         (1024, greedy(1024)[:16])]


def lists(j):
    return [0], [0, 0, 0, 0], [j // 4, j // 8, 1, 0]


def pages(q, k, positions, replaced):
    """Random data, and its page with so many symbols replaced by others; the same pages each time."""
    random = Random(9)
    for _ in range(PAGES):
        page = ref.code_word(q, k, [positions], random.symbols(q, k))
        data = page[:k]
        for i in random.some(range(2 * k), replaced):
            page[i] = (page[i] + 1 + random.below(q - 1)) % q
        yield data, page


def main():
    q = int(sys.argv[1]) if len(sys.argv) > 1 else 256
    print("| k, J | thresholds |", " | ".join(f"{share} %" for share in SHARES), "|")
    for k, positions in CODES:
        for thresholds in lists(len(positions)):
            cells = []
            for share in SHARES:
                replaced = -(-2 * k * share // 100)
                right = sum(ref.run(q, k, [positions], page, thresholds)[0] == data
                            for data, page in pages(q, k, positions, replaced))
                cells.append(f"{right} ({replaced})")
            print(f"| {k}, {len(positions)} | {', '.join(map(str, thresholds))} |", " | ".join(cells), "|", flush=True)


if __name__ == "__main__":
    main()
