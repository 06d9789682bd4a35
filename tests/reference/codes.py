"""Accepted code tables of every size, and the random numbers that pages are made with."""

import itertools
import math

import reference as ref


class Random:
    """xorshift64*, written out so that the pages hang on no version of Python."""

    def __init__(self, seed):
        self.state = 0x9E3779B97F4A7C15 + seed

    def below(self, n):
        mask = 2 ** 64 - 1
        x = self.state
        x ^= x >> 12
        x ^= x << 25 & mask
        x ^= x >> 27
        self.state = x
        return (x * 0x2545F4914F6CDD1D & mask) // 2 ** 32 % n

    def pick(self, items):
        return items[self.below(len(items))]

    def some(self, items, count):
        """`count` different ones of the items, in their order."""
        left = list(range(len(items)))
        chosen = [left.pop(self.below(len(left))) for _ in range(count)]
        return [items[i] for i in sorted(chosen)]

    def symbols(self, q, length):
        return [self.below(q) for _ in range(length)]


def singer(p):
    """Singer's p + 1 positions modulo p * p + p + 1 (p prime), whose differences are all the values but 0: the exponents
    of the powers of x that lie in a plane of GF(p^3). Tries cubics until one serves."""
    k = p * p + p + 1
    for a, b, c in itertools.product(range(p), range(p), range(1, p)):
        power, positions = (1, 0, 0), []
        for exponent in range(k):
            if power[2] == 0:
                positions.append(exponent)
            low, mid, high = power
            # x^3 = a x^2 + b x + c
            power = (high * c % p, (low + high * b) % p, (mid + high * a) % p)
        if len(positions) == p + 1 and ref.self_orthogonal(k, [positions]):
            return positions


def greedy(k):
    """The smallest next position that brings no difference a second time, as long as there is one."""
    positions, seen = [], set()
    for p in range(k):
        new = [d for a in positions for d in ((p - a) % k, (a - p) % k)]
        if len(set(new)) == len(new) and not seen & set(new):
            positions.append(p)
            seen |= set(new)
    return positions


SINGER = {p * p + p + 1: p for p in (2, 3, 5, 7, 11, 13, 17, 19, 23, 29, 31, 37, 61)}
_bases = {}


def positions_for(random, k, j):
    """j positions that are accepted with k. Adding a number to all positions, or multiplying all by one that has no
    divisor in common with k, keeps a table self-orthogonal."""
    if k not in _bases:
        _bases[k] = singer(SINGER[k]) if k in SINGER else greedy(k)
    base = random.some(_bases[k], j)
    factor = random.below(k) + 1
    while math.gcd(factor, k) != 1:
        factor = random.below(k) + 1
    shift = random.below(k)
    return sorted((factor * p + shift) % k for p in base)


# Branches: b runs, whose differences are all different together.

def greedy_runs(k, b, j):
    """b runs of j positions, or None: in turn each run takes the smallest next position that brings no difference a
    second time."""
    runs, seen = [[0] for _ in range(b)], set()
    for _ in range(j - 1):
        for run in runs:
            for p in range(run[-1] + 1, k):
                new = [d for a in run for d in ((p - a) % k, (a - p) % k)]
                if len(set(new)) == len(new) and seen.isdisjoint(new):
                    run.append(p)
                    seen.update(new)
                    break
            else:
                return None
    return runs


def lines(p):
    """p runs of p + 1 positions modulo p^3 + p^2 + p + 1 (p prime), whose differences are all different: lines of the
    space PG(3, p), one of each full orbit under multiplication by x. A point is a nonzero vector of GF(p)^4 up to a
    factor; the points are the powers of x in GF(p^4). Tries quartics until the powers are all of them."""
    k = p ** 3 + p ** 2 + p + 1

    def point(vector):
        factor = pow(next(c for c in vector if c), -1, p)
        return tuple(c * factor % p for c in vector)

    for a, b, c, d in itertools.product(range(p), range(p), range(p), range(1, p)):
        powers, vector = {}, (1, 0, 0, 0)
        while point(vector) not in powers:
            powers[point(vector)] = len(powers)
            low, mid, high, top = vector
            # x^4 = a x^3 + b x^2 + c x + d
            vector = (top * d % p, (low + top * c) % p, (mid + top * b) % p, (high + top * a) % p)
        if len(powers) == k:
            break
    vectors, runs, seen = list(powers), [], set()
    for i in range(1, k):
        first, *rest = vectors[i]
        line = [0] + sorted(powers[point([(first + factor) % p, *rest])] for factor in range(p))
        differences = {(one - other) % k for one, other in itertools.permutations(line, 2)}
        # A line with equal differences has a short orbit.
        if len(differences) == p * (p + 1) and seen.isdisjoint(differences):
            runs.append(line)
            seen |= differences
    return runs


LINES = {p ** 3 + p ** 2 + p + 1: p for p in (2, 3, 5, 7, 11)}
_families = {}


def runs_for(random, k, b, j):
    """b runs of j positions that are accepted with k. Adding a number to all positions of one run, or multiplying those
    of all runs by one number that has no divisor in common with k, keeps the differences apart."""
    if k in LINES and b <= LINES[k] and j <= LINES[k] + 1:
        if k not in _families:
            _families[k] = lines(LINES[k])
        base = [random.some(run, j) for run in random.some(_families[k], b)]
    else:
        if (k, b, j) not in _families:
            _families[k, b, j] = greedy_runs(k, b, j)
        base = _families[k, b, j]
    factor = random.below(k) + 1
    while math.gcd(factor, k) != 1:
        factor = random.below(k) + 1
    runs = []
    for run in base:
        shift = random.below(k)
        runs.append(sorted((factor * p + shift) % k for p in run))
    return runs


# The widest two runs that a search found, 25 positions each: 0 and two cosets of a group of factors modulo k.
WIDEST = (2044, [[0, 1, 4, 27, 65, 96, 108, 137, 260, 373, 488, 535, 548, 729, 872, 888, 912, 1060, 1287, 1448, 1492,
                1655, 1755, 1761, 1895],
                [0, 68, 83, 88, 120, 197, 299, 332, 417, 516, 533, 541, 788, 836, 1039, 1140, 1151, 1196, 1231, 1307,
                1481, 1632, 1668, 1836, 1941]])
