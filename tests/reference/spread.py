"""Prints the spread tables of docs/TABLES.md, a line `k x b: p p ..; p p ..` each: positions drawn at random over the
whole of k, each kept where it brings no difference a second time. Each is tried with the reference program first.

    spread.py               the tables of docs/TABLES.md
    spread.py K B J [SEED]  one more
    spread.py --greedy      the greedy ones that docs/history/damage.md compares them with
"""

import sys

import reference as ref
from codes import Random, greedy_runs

# k, b and J of the tables.
TABLES = [(256, 1, 8), (512, 1, 8), (512, 1, 10), (1024, 1, 8), (1024, 1, 10), (1024, 1, 12), (2048, 1, 8),
          (2048, 1, 10), (2048, 1, 12), (4096, 1, 8), (4096, 1, 10), (4096, 1, 12), (4096, 1, 16),
          (128, 2, 5), (256, 2, 6), (512, 2, 6), (512, 2, 8), (1024, 2, 6), (1024, 2, 8), (2048, 2, 6), (2048, 2, 8),
          (2048, 2, 12),
          (64, 4, 3), (128, 4, 4), (256, 4, 5), (512, 4, 5), (512, 4, 6), (1024, 4, 5), (1024, 4, 6), (1024, 4, 8),
          (64, 8, 2), (128, 8, 3), (256, 8, 4), (512, 8, 4), (512, 8, 5), (512, 8, 6)]

COMPARED = [(1024, 1, 8), (1024, 1, 10), (2048, 1, 8), (2048, 1, 10), (4096, 1, 8), (4096, 1, 10), (1024, 2, 6),
            (1024, 2, 8), (1024, 4, 5), (1024, 4, 6)]

DRAWS = 4000  # for one position, before all is begun anew


def try_spread(random, k, b, j, draws=DRAWS):
    """b runs of j positions, drawn in turn, or None where a position was not found."""
    runs, seen = [[] for _ in range(b)], set()
    for run in runs * j:
        for _ in range(draws):
            p = random.below(k)
            new = [d for a in run for d in ((p - a) % k, (a - p) % k)]
            if p not in run and len(set(new)) == len(new) and seen.isdisjoint(new):
                run.append(p)
                seen.update(new)
                break
        else:
            return None
    return [sorted(run) for run in runs]


def spread(k, b, j, seed=1):
    """b runs of j positions, begun anew until they are found."""
    random, runs = Random(seed), None
    while runs is None:
        runs = try_spread(random, k, b, j)
    return runs


def line(k, runs):
    """A table as a line of docs/TABLES.md."""
    assert ref.check_table(256, k, len(runs), ref.table_of(*runs)) == 0, (k, runs)
    branches = f" x {len(runs)}" if len(runs) > 1 else ""
    return f"{k}{branches}: " + "; ".join(" ".join(map(str, run)) for run in runs)


def main(arguments):
    make, tables = spread, TABLES
    if arguments == ["--greedy"]:
        make, tables = greedy_runs, COMPARED
    elif arguments:
        tables = [tuple(map(int, arguments))]
    for table in tables:
        print("    " + line(table[0], make(*table)))


if __name__ == "__main__":
    main(sys.argv[1:])
