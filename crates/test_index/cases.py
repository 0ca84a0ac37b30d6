#!/usr/bin/env python3
"""Writes stdin and stdout beside this file: catalogues, and what the rules of docs/REFERENCE.md say of them.

A case is its length in bytes, a letter, and what the letter asks for; a number has two bytes, the low one first.
C: seed length; entries lent of keys, ranks and positions; lengths of identifier bytes, identifier ends, base bytes,
base ends and marks; then these five lists, an end as a number.
N: seed length, number of targets, number of distinct names, number of closed walks; each target has one base, its name
is a number of two bytes, from 0 on by place, and behind the distinct ones from 0 on again.
"""
import itertools, pathlib, random


# ---- the rules, in the plainest way

def parts(ends, data):
    starts = [0] + ends
    return [data[starts[i]:ends[i]] for i in range(len(ends))]


def broken_bound(names, name_ends, bases, base_ends, marks):
    if len(name_ends) > 4096 or not len(name_ends) == len(base_ends) == len(marks):
        return True
    for ends, data in ((name_ends, names), (base_ends, bases)):
        if ends != sorted(ends) or any(e > len(data) for e in ends):
            return True
    if any(e > 16777216 for e in base_ends):
        return True
    return any(len(n) > 255 for n in parts(name_ends, names)) or any(m not in (0, 1) for m in marks)


def refusal(q, names, name_ends, bases, base_ends, marks):
    if q not in range(1, 32):
        return 1
    if broken_bound(names, name_ends, bases, base_ends, marks):
        return 2
    if any(s == b"" or set(s) - set(b"ACGT") for s in parts(base_ends, bases)):
        return 3
    ids = parts(name_ends, names)
    return 4 if len(set(ids)) < len(ids) else 0


def linear(names, name_ends, bases, base_ends, marks):
    targets = zip(parts(name_ends, names), parts(base_ends, bases), marks)
    return sorted((list(name), s) for name, s, mark in targets if mark == 0)


def index(q, *catalogue):
    rows = []
    for rank, (_, s) in enumerate(linear(*catalogue)):
        for at in range(len(s)):
            seed = s[at:at + q]
            if len(seed) == q:
                rows.append((int("".join(str("ACGT".index(chr(b))) for b in seed), 4), rank, at))
    return sorted(rows)


def plan_line(q, *catalogue):
    n = refusal(q, *catalogue)
    return f"plan refused {n}" if n else f"plan {len(linear(*catalogue))} {len(index(q, *catalogue))}"


def tested(q, catalogue, columns):
    n = refusal(q, *catalogue)
    if n:
        return n
    rows = index(q, *catalogue)
    return 0 if columns == [[r[k] for r in rows] for k in range(3)] else 6


def changed(columns, k, i):
    columns = [list(c) for c in columns]
    columns[k][i] = (columns[k][i] + 1) % 2**64
    return columns


def exchanged(columns):
    return [c[-1:] + c[1:-1] + c[:1] if len(c) > 1 else list(c) for c in columns]


def answer(q, room, *catalogue):
    yield plan_line(q, *catalogue)
    columns = [[7] * n for n in room]
    n = refusal(q, *catalogue)
    rows = [] if n else index(q, *catalogue)
    if not n and any(len(c) < len(rows) for c in columns):
        n = 5
    if not n:
        for k in range(3):
            for i, row in enumerate(rows):
                columns[k][i] = row[k]
    yield f"build refused {n}" if n else f"build {len(rows)}"
    for word, column in zip(("keys", "ranks", "positions"), columns):
        yield " ".join([word] + [str(x) for x in column])
    yield f"lent {tested(q, catalogue, columns)}"
    if n:
        return
    p = len(rows)
    built = [c[:p] for c in columns]
    yield f"built {tested(q, catalogue, built)}"
    if not rows:
        return
    yield f"key {tested(q, catalogue, changed(built, 0, 0))}"
    yield f"rank {tested(q, catalogue, changed(built, 1, p // 2))}"
    yield f"position {tested(q, catalogue, changed(built, 2, p - 1))}"
    yield f"exchanged {tested(q, catalogue, exchanged(built))}"
    yield f"fewer {tested(q, catalogue, [c[:-1] for c in built])}"
    for k, word in enumerate(("keys", "ranks", "positions")):
        yield f"fewer {word} {tested(q, catalogue, [c[:-1] if k == j else c for j, c in enumerate(built)])}"


# ---- the cases

def ends_of(strings):
    return list(itertools.accumulate(len(s) for s in strings))


def catalogue(targets):
    """The five lists of targets: (name, sequence) or (name, sequence, mark)."""
    names, sequences = [t[0] for t in targets], [t[1] for t in targets]
    marks = [t[2] if len(t) > 2 else 0 for t in targets]
    return b"".join(names), ends_of(names), b"".join(sequences), ends_of(sequences), bytes(marks)


def room_of(q, cat):
    n = 0 if refusal(q, *cat) else len(index(q, *cat))
    return n, n, n


BOARD = [(b"t", b"ACGTACGT")]
THREE = [(b"b", b"ACGTA"), (b"a", b"TTTT", 1), (b"c", b"CCGCC")]


def accepted():
    yield 3, BOARD
    yield 3, []
    yield 1, []
    yield 2, [(b"", b"ACG")]
    yield 2, [(b"x", b"GAC"), (b"", b"ACG")]
    for q in (1, 2, 5, 31):
        for n in (q - 1, q, q + 1):
            if n:
                yield q, [(b"s", (b"GATTACA" * 5)[:n])]
                yield q, [(b"s", (b"T" * n))]
    yield 4, [(b"short", b"ACG"), (b"exact", b"ACGT"), (b"more", b"ACGTT")]
    yield 31, [(b"z", b"T" * 33), (b"y", b"G" * 31), (b"x", b"A" * 32, 1), (b"w", b"A" * 34)]
    yield 31, [(b"z", b"C" * 40), (b"y", b"A" * 31 + b"T")]
    # closed walks alone, and among others
    yield 2, [(b"w", b"ACGT", 1)]
    yield 2, [(b"w", b"ACGT", 1), (b"v", b"A", 1)]
    yield 2, THREE
    yield 1, [(b"c", b"G"), (b"a", b"A", 1), (b"d", b"T"), (b"b", b"C")]
    # ranks: not as supplied, prefixes, bytes above 127
    yield 2, [(b"c", b"AAC"), (b"b", b"AAG"), (b"a", b"AAT")]
    yield 2, [(b"ab", b"AA"), (b"a", b"AA"), (b"abc", b"AA"), (b"", b"AA"), (b"b", b"AA"), (b"aa", b"AA")]
    yield 2, [(b"\xff", b"AC"), (b"\x7f", b"AC"), (b"\x80", b"AC"), (b"\x00", b"AC"), (b"\x00\x00", b"AC")]
    yield 1, [(b"a\xc3", b"AC"), (b"a\x41", b"CA"), (b"\xc3\xa9", b"GA"), (b"e", b"TA")]
    yield 1, [(b"a" * 254 + b"y", b"A"), (b"a" * 254 + b"x", b"A"), (b"a" * 254, b"A")]
    yield 1, [(b"%02d" % (i * 7 % 16), bytes([b"ACGT"[i % 4]])) for i in range(16)]


def rooms():
    for q, targets in ((3, BOARD), (2, THREE), (1, [(b"w", b"ACG", 1)]), (1, [(b"v", b"A")]), (4, [(b"v", b"A")])):
        cat = catalogue(targets)
        n = len(index(q, *cat))
        for room in itertools.product((n - 1, n, n + 1), repeat=3):
            if min(room) >= 0:
                yield q, room, cat
        yield q, (n + 3, n + 1, n + 2), cat
        yield q, (64, 64, 64), cat
        yield q, (0, 0, 0), cat


def refused():
    """Catalogues with a fault, or several, and seed lengths."""
    good = catalogue(THREE)
    names, name_ends, bases, base_ends, marks = good
    bad_base = catalogue([(b"b", b"ACGTA"), (b"a", b"TTTT", 1), (b"c", b"CCNCC")])
    double = catalogue([(b"a", b"ACGTA"), (b"a", b"TTTT"), (b"c", b"CCGCC")])
    both = catalogue([(b"a", b"ACGTA"), (b"a", b"TTTT"), (b"c", b"CCNCC")])
    bound = (names, name_ends, bases, base_ends, b"\0\1\2")
    # 1, alone and with others
    for q in (0, 32, 33, 256, 65535):
        for cat in (good, bound, bad_base, double, both, catalogue([])):
            yield q, cat
    # 2: lists of unequal length, ends, marks, names
    yield 2, bound
    for wrong in (b"\0\1\xff", b"\2\2\2", b"\0\1", b"\0\1\0\0", b""):
        yield 2, (names, name_ends, bases, base_ends, wrong)
    for wrong in ([1, 2], [1, 2, 3, 3], [], [2, 1, 3], [1, 3, 2], [1, 2, 4], [4, 4, 4], [0, 0, 65535], [3, 2, 1]):
        yield 2, (names, wrong, bases, base_ends, marks)
    for wrong in ([5, 9], [5, 9, 14, 14], [], [9, 5, 14], [5, 14, 9], [5, 9, 15], [15, 15, 15], [5, 9, 65535], [14, 9, 5]):
        yield 2, (names, name_ends, bases, wrong, marks)
    yield 2, (names, [], bases, [], marks)
    yield 2, (b"", [], b"", [], b"\0")
    yield 2, (b"", [], b"", [0], b"")
    yield 2, (b"", [0], b"", [], b"")
    for n in (255, 256, 257):
        yield 2, catalogue([(b"n" * n, b"ACG")])
        yield 2, catalogue([(b"m", b"ACG"), (b"n" * n, b"ACG", 1), (b"o", b"AC")])
    # 2 with 3 and 4
    for cat in (bad_base, double, both):
        yield 2, cat[:4] + (b"\0\0\3",)
        yield 2, cat[:4] + (b"\0\0",)
        yield 2, (cat[0], [1, 2, 9]) + cat[2:]
        yield 2, cat[:3] + ([5, 4, 14], cat[4])
        yield 2, cat[:3] + ([5, 9, 99], cat[4])
    yield 2, catalogue([(b"n" * 256, b"N"), (b"n" * 256, b"")])
    # 3: empty, lower case, other bytes, in each place and in closed walks
    for wrong in (b"", b"a", b"acgt", b"ACg", b"N", b"ANA", b"NA", b"AN", b"A\0", b"A\xff", b"A ", b"U", b"@", b"B", b"`", b"{", b"\xc1"):
        yield 1, catalogue([(b"x", wrong)])
        yield 1, catalogue([(b"x", wrong, 1), (b"y", b"ACGT")])
        yield 1, catalogue([(b"x", b"ACGT"), (b"y", wrong)])
    # 3 with 4: a bad base last, a double name in the first two
    yield 2, both
    yield 2, catalogue([(b"a", b"N"), (b"b", b"A"), (b"b", b"A")])
    yield 2, catalogue([(b"a", b""), (b"a", b"")])
    # 4: next to each other or not, across topologies, empty names
    yield 2, double
    for marks in itertools.product((0, 1), repeat=2):
        yield 2, catalogue([(b"n", b"ACG", marks[0]), (b"n", b"TTT", marks[1])])
        yield 2, catalogue([(b"n", b"ACG", marks[0]), (b"m", b"A"), (b"o", b"A"), (b"n", b"ACG", marks[1])])
        yield 2, catalogue([(b"", b"ACG", marks[0]), (b"m", b"A"), (b"", b"ACG", marks[1])])
    yield 2, catalogue([(b"k%d" % (i % 15), b"ACG") for i in range(16)])
    yield 2, catalogue([(b"n" * 255, b"ACG"), (b"n" * 255, b"CAG", 1)])


def tails():
    """Bytes behind the last end are not looked at."""
    names, name_ends, bases, base_ends, marks = catalogue(THREE)
    yield 2, (names + b"b", name_ends, bases, base_ends, marks)
    yield 2, (names, name_ends, bases + b"ACGT", base_ends, marks)
    yield 2, (names + b"more", name_ends, bases + b"n.N\xff", base_ends, marks)
    yield 2, (b"names", [], b"ACGTN", [], b"")
    yield 2, (b"ab", [0], b"ACGT", [2], b"\0")
    yield 3, (b"ab", [1], b"ACGT", [2], b"\0")


def numbered():
    """Seed length, targets, distinct names, closed walks."""
    for n in (0, 1, 2, 255, 256, 257, 4095, 4096, 4097, 4200):
        for q in (1, 2):
            yield q, n, 65535, 0
        yield 1, n, 65535, n // 3
        yield 1, n, max(n - 1, 0), 0
    yield 1, 4096, 65535, 4096
    yield 1, 4096, 4095, 4096
    yield 1, 4096, 2048, 1
    for q in (0, 31, 32):
        yield q, 4096, 65535, 5
        yield q, 4097, 65535, 5
    yield 0, 4097, 1, 0


def random_cases():
    rng = random.Random(1)
    for _ in range(170):
        q = rng.choice((1, 1, 2, 2, 3, 3, 4, 5, 7, 31))
        targets = []
        letters = rng.choice((b"ACGT", b"AC", b"A", b"ACGT"))
        for _ in range(rng.randrange(7)):
            name = bytes(rng.choice(b"ab\xf0") for _ in range(rng.randrange(5)))
            sequence = bytes(rng.choice(letters) for _ in range(rng.randrange(1, 11)))
            targets.append((name, sequence, int(rng.random() < 0.25)))
        if rng.random() < 0.8:
            targets = list({t[0]: t for t in targets}.values())
        cat = list(catalogue(targets))
        if rng.random() < 0.1 and cat[2]:
            at = rng.randrange(len(cat[2]))
            cat[2] = cat[2][:at] + rng.choice((b"N", b"a", b"\0")) + cat[2][at + 1:]
        if rng.random() < 0.1 and targets:
            k = rng.choice((1, 3))
            cat[k] = list(cat[k])
            cat[k][rng.randrange(len(targets))] += rng.choice((-1, 1, 1, 2))
            cat[k] = [max(e, 0) for e in cat[k]]
        n = room_of(q, cat)[0]
        room = [max(0, n + rng.choice((0, 0, 0, 0, 1, 2, -1))) for _ in range(3)] if rng.random() < 0.5 else (n, n, n)
        yield q, room, cat


# ---- the files

def numbers(xs):
    return b"".join(x.to_bytes(2, "little") for x in xs)


def written(letter, body):
    return numbers([len(body) + 1]) + letter + body


def whole(q, room, cat):
    names, name_ends, bases, base_ends, marks = cat
    assert max(room) <= 64 and max(len(name_ends), len(base_ends)) <= 16
    head = [q, *room, len(names), len(name_ends), len(bases), len(base_ends), len(marks)]
    return written(b"C", numbers(head) + names + numbers(name_ends) + bases + numbers(base_ends) + marks)


def numbered_catalogue(n, distinct, closed):
    names = [numbers([i if i < distinct else i - distinct]) for i in range(n)]
    return catalogue([(name, b"G", int(i < closed)) for i, name in enumerate(names)])


def main():
    exact = [(q, room_of(q, cat), cat) for q, cat in [(q, catalogue(t)) for q, t in accepted()] + list(tails())]
    faults = [(q, (2, 2, 2), cat) for q, cat in refused()]
    cases, lines = [], []
    groups = {"accepted": exact, "rooms": list(rooms()), "refused": faults, "random": list(random_cases())}
    for group in groups.values():
        for q, room, cat in group:
            cases.append(whole(q, room, cat))
            lines += answer(q, room, *cat)
    plans = list(numbered())
    for q, n, distinct, closed in plans:
        cases.append(written(b"N", numbers([q, n, distinct, closed])))
        lines.append(plan_line(q, *numbered_catalogue(n, distinct, closed)))
    data = b"".join(cases)
    assert len(data) <= 65536
    here = pathlib.Path(__file__).parent
    here.joinpath("stdin").write_bytes(data)
    here.joinpath("stdout").write_text("".join(line + "\n" for line in lines))
    print(*(f"{k} {len(v)}" for k, v in groups.items()), f"numbered {len(plans)}", f"bytes {len(data)}", sep=", ")


if __name__ == "__main__":
    main()
