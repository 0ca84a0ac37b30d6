#!/usr/bin/env python3
"""Writes what `test_records` is expected to write, by the rules of REFERENCE.md ("Index", "Mapping"): python3 cases.py > stdout"""
TARGET, Q, LARGEST = "ACGTACGT", 3, 2 ** 64 - 1
CODE = {"A": 0, "C": 1, "G": 2, "T": 3}
PAIR = {"A": "T", "C": "G", "G": "C", "T": "A"}


def key(seed):
    k = 0
    for b in seed:
        k = 4 * k + CODE[b]
    return k


def index(q):
    return sorted((key(TARGET[i:i + q]), 0, i) for i in range(len(TARGET) - q + 1))


def cursor(next, end, offset, n, examined):
    went, found = end, None
    for i in range(next, end):
        start = index(Q)[i][2] - offset
        if 0 <= start and start + n <= len(TARGET):
            went, found = i + 1, start
            break
    examined = min(examined + went - next, LARGEST)
    print(("none" if found is None else f"found 0 {found}") + f", cursor 1 {offset} {went} {end}, work 11 12 {examined} 13 14")


def turned(read):
    return "".join(PAIR[b] for b in reversed(read))


def mapped(read):
    """State, groups, work and entries of a read of one seed: each strand is looked up once."""
    sides = [[(p, strand) for k, _, p in index(Q) if k == key(turned(read) if strand else read)] for strand in (0, 1)]
    groups = sorted(sides[0] + sides[1])
    hits = len(groups)
    state = 3 if hits == 0 else 4 if hits == 1 else 5
    print(f"mapped {state} {hits} 2 {hits} {hits} {hits} {hits}")
    return [x for start, strand in groups for x in (0, start, start + len(read), strand)]


def records(q, n, keys, ranks, positions, read):
    rows = (index(Q) + [(LARGEST,) * 3] * 256)[:n]
    columns, entries = [[7] * keys, [7] * ranks, [7] * positions], [999] * 20
    refusal = 1 if q < 1 else 5 if min(keys, ranks, positions) < n else 0
    if refusal == 0:
        for i, row in enumerate(rows):
            for column, number in zip(columns, row):
                column[i] = number
        refusal = 6 if rows != index(q) else 8 if not set(read) <= set("ACGT") else 0
    if refusal:
        print("refused", refusal)
    else:
        entries = (mapped(read) + [0] * 20)[:20]
    for word, numbers in zip(("entries", "keys", "ranks", "positions"), [entries] + columns):
        print(word, *numbers)


for case in ((0, 2, 0, 3, 0), (1, 2, 0, 3, 1), (2, 2, 0, 3, 2), (1, 2, 0, 5, 1), (0, 6, 4, 8, 20), (2, 6, 5, 8, 20),
             (0, 6, 0, 9, LARGEST - 2), (0, 6, 0, 9, LARGEST - 6)):
    cursor(*case)
for case in ((3, 6, 8, 8, 8, "ACG"), (3, 6, 6, 7, 8, "ACG"), (3, 6, 5, 8, 8, "ACG"), (3, 6, 8, 5, 8, "ACG"), (3, 6, 8, 8, 5, "ACG"),
             (0, 6, 5, 5, 5, "ACG"), (3, 5, 8, 8, 8, "ACG"), (3, 7, 8, 8, 8, "ACG"), (2, 6, 8, 8, 8, "ACG"), (3, 6, 8, 8, 8, "ACN"),
             (3, 6, 8, 8, 8, "AAA")):
    records(*case)
