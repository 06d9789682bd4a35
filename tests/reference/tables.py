"""Prints the tables of docs/TABLES.md but for the spread ones (spread.py): a line is `k: p p ..`, or
`k x b: p p ..; p p ..` with b branches. Each is tried with the reference program first."""

from codes import Random, greedy, singer
from spread import line, try_spread

PRIMES = [2, 3, 5, 7, 11, 13, 17, 19, 23, 29, 31]

# b and J of the small codes with branches, and how often each k is tried.
SMALL = [(2, 2), (2, 3), (2, 4), (2, 5), (2, 6), (2, 8), (2, 10), (2, 12), (4, 2), (4, 3), (4, 4), (4, 5), (4, 6),
         (4, 8), (8, 2), (8, 3), (8, 4), (8, 5), (8, 6)]
TRIES = 20


def small(b, j):
    """The smallest k, from the one that has as many differences as there are, with which b runs of j positions are
    found; each run is turned so that it starts with 0."""
    random = Random(b * 100 + j)
    k = b * j * (j - 1)
    while True:
        k += 1
        for _ in range(TRIES):
            runs = try_spread(random, k, b, j, draws=2 * k)
            if runs is not None:
                return k, [[p - run[0] for p in run] for run in runs]


def main():
    print("Singer")
    for j in range(2, 33):
        p = min(p for p in PRIMES if p + 1 >= j)
        print("    " + line(p * p + p + 1, [singer(p)[:j]]))
    print("small, with branches")
    for b, j in SMALL:
        print("    " + line(*small(b, j)), flush=True)
    for k in (64, 128, 256, 512, 1024, 2048, 4096):
        print(f"greedy, k = {k}")
        print("    " + line(k, [greedy(k)[:32]]))


if __name__ == "__main__":
    main()
