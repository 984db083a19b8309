#!/usr/bin/env python3
"""Writes linear problems or judgement matrices, one a line, from a fixed seed: the same lines each time.

    generate.py judgements SIZE COUNT    threshold problems of random judgement matrices of so many elements
    generate.py dense VARS ROWS LOW HIGH COUNT    costs 1 to 9, bounds 1 to 50, coefficients LOW to HIGH
    generate.py judged SIZE COUNT    consistent matrices, each pair judged by one category
    generate.py ranges SIZE COUNT    the same with ranges of categories for some three pairs of ten
    generate.py gaps SIZE COUNT    the same with a third of the pairs unjudged

A line of a problem is a name, the number of variables, the costs, and then each row's coefficients with its bound last: the
row asks that the coefficients times the variables come to at least the bound. A line of a matrix is a name, the word
`matrix`, the number of elements, and for each judged pair its two elements, counted from 1, and its lowest and highest
category.

A judgement matrix gives each pair of elements, the better first, a range of categories 0 to 6. Here the elements lie on a
hidden scale, which makes most matrices consistent, and a few pairs are judged one category off. The threshold problem has the
gaps between neighbours as variables, from the bottom, each of cost 1, and then the five thresholds between categories.
"""
import bisect
import random
import sys

CATEGORIES = 6


def judgements(size, rng):
    """A range for each pair (p, q) with p < q, by a hidden scale."""
    values = sorted((rng.random() for _ in range(size)), reverse=True)
    span = values[0] - values[-1]
    ranges = {}
    for p in range(size):
        for q in range(p + 1, size):
            share = (values[p] - values[q]) / span
            category = min(CATEGORIES, max(1, round(share * CATEGORIES + 0.5)))
            if rng.random() < 0.02:
                category = min(CATEGORIES, max(1, category + rng.choice((-1, 1))))
            low = high = category
            if rng.random() < 0.2:
                high = min(CATEGORIES, category + 1)
            ranges[p, q] = (low, high)
    return ranges


def threshold_problem(size, ranges):
    """The costs, and the rows as coefficients and bound."""
    gaps = size - 1
    variables = gaps + 5

    def difference(p, q, sign):
        """The gaps between two elements, counted from the bottom, and no threshold."""
        coefs = [0] * variables
        for gap in range(size - 1 - q, size - 1 - p):
            coefs[gap] = sign
        return coefs

    pairs = [(p, q) for p in range(size) for q in range(p + 1, size)]
    rows = []
    for p, q in pairs:
        low = ranges[p, q][0]
        if low >= 1:
            coefs = difference(p, q, 1)
            if low >= 2:
                coefs[gaps + low - 2] = -1
            rows.append((coefs, low))
    for p, q in pairs:
        if ranges[p, q][1] == 0:
            rows.append((difference(p, q, -1), 0))
    for p, q in pairs:
        high = ranges[p, q][1]
        if 1 <= high <= 5:
            coefs = difference(p, q, -1)
            coefs[gaps + high - 1] = 1
            rows.append((coefs, -high))
    for step in range(2, 6):
        coefs = [0] * variables
        coefs[gaps + step - 1] = 1
        coefs[gaps + step - 2] = -1
        rows.append((coefs, 0))
    return [1] * gaps + [0] * 5, rows


def consistent(kind, size, rng):
    """A range for each judged pair (p, q) with p < q: which of six classes the difference on a hidden scale falls in."""
    values = sorted((rng.random() for _ in range(size)), reverse=True)
    limits = sorted(rng.random() * (values[0] - values[-1]) for _ in range(CATEGORIES - 1))
    ranges = {}
    for p in range(size):
        for q in range(p + 1, size):
            low = high = 1 + bisect.bisect(limits, values[p] - values[q])
            if kind == "ranges" and rng.random() < 0.3:
                low = max(1, low - rng.randint(0, 1))
                high = min(CATEGORIES, high + 1)
            if kind != "gaps" or rng.random() < 2 / 3:
                ranges[p, q] = (low, high)
    return ranges


def dense_problem(variables, count, low, high, rng):
    cost = [rng.randint(1, 9) for _ in range(variables)]
    rows = []
    for _ in range(count):
        coefs = [rng.randint(low, high) for _ in range(variables)]
        rows.append((coefs, rng.randint(1, 50)))
    return cost, rows


def line(name, cost, rows):
    numbers = [len(cost), *cost]
    for coefs, bound in rows:
        numbers += coefs
        numbers.append(bound)
    return " ".join([name, *map(str, numbers)])


def matrix_line(name, size, ranges):
    numbers = [number for (p, q), (low, high) in ranges.items() for number in (p + 1, q + 1, low, high)]
    return " ".join([name, "matrix", str(size), *map(str, numbers)])


def main():
    kind, *sizes = sys.argv[1:]
    sizes = [int(word) for word in sizes]
    for k in range(sizes[-1]):
        rng = random.Random(f"{kind} {sizes[:-1]} {k}")
        name = "-".join([kind, *map(str, sizes[:-1]), str(k + 1)])
        if kind == "judgements":
            print(line(name, *threshold_problem(sizes[0], judgements(sizes[0], rng))))
        elif kind == "dense":
            print(line(name, *dense_problem(*sizes[:4], rng)))
        else:
            print(matrix_line(name, sizes[0], consistent(kind, sizes[0], rng)))


main()
