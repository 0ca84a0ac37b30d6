#!/usr/bin/env python3
"""Writes stdin and stdout beside this file: calls of `map`, and what the rules of docs/REFERENCE.md say of them.

A case is its length in bytes, and then numbers of two bytes, the low one first: seed length; limit, its low half and its
high half; numbers lent of the entries; entries lent of keys, ranks and positions; the column with a wrong number, 1 to
3, or 0, and its place there; how often the read's last byte comes again behind it; lengths of identifier bytes,
identifier ends, base bytes, base ends, marks and read; then these six lists, an end as a number. The index is the one
that build gives, behind it the columns hold sevens; the entries hold 999 before the call.
"""
import itertools, pathlib, random, sys

sys.path.insert(0, str(pathlib.Path(__file__).resolve().parent.parent / "test_index"))
from cases import parts, refusal

ROOM = 256


# ---- catalogues: the linear targets by rank; refusals 1 to 4 are those of the index

def linear(cat):
    """By rank: place in supplied order, and sequence."""
    names, name_ends, bases, base_ends, marks = cat
    targets = list(zip(parts(name_ends, names), parts(base_ends, bases), marks))
    by_name = sorted(range(len(targets)), key=lambda i: list(targets[i][0]))
    return [(i, targets[i][1]) for i in by_name if targets[i][2] == 0]


# ---- the index: refusal 6

def index(q, sequences):
    rows = []
    for rank, s in enumerate(sequences):
        for at in range(len(s) - q + 1):
            rows.append((int("".join(str(b"ACGT".index(b)) for b in s[at:at + q]), 4), rank, at))
    return sorted(rows)


def lent_columns(case, rows):
    columns = [[r[k] for r in rows] + [7] * (ROOM - len(rows)) for k in range(3)]
    k, place = case["wrong"]
    if k:
        columns[k - 1][place] = (columns[k - 1][place] + 1) % 2**64
    return [c[:n] for c, n in zip(columns, case["lent"])]


# ---- a read: its groups, and the work of a search

def turned(read):
    return bytes({65: 84, 67: 71, 71: 67, 84: 65}[b] for b in reversed(read))


def places(sequences, n):
    """Every fitting (rank, start, strand), ascending."""
    return [(r, at, strand) for r, s in enumerate(sequences) for at in range(len(s) - n + 1) for strand in (0, 1)]


def matches(sequences, read):
    """The places where the target's bases are those of the read, on '-' of the read turned round."""
    lies = (read, turned(read))
    n = len(read)
    return [(r, at, strand) for r, at, strand in places(sequences, n) if sequences[r][at:at + n] == lies[strand]]


def found(sequences, seed, known):
    """Where a seed stands, as (rank, position)."""
    if seed not in known:
        n = len(seed)
        known[seed] = [(r, at) for r, s in enumerate(sequences) for at in range(len(s) - n + 1) if s[at:at + n] == seed]
    return known[seed]


def stopped(compared, matching, limit):
    """A list of places up to the first match past the limit."""
    seen = 0
    for i, place in enumerate(compared):
        seen += place in matching
        if seen > limit:
            return compared[:i + 1]
    return compared


def chosen(q, sequences, read):
    """Lookups, offset and postings of the first seed with fewest; no lookup behind one that finds none."""
    known, tried = {}, []
    for offset in range(len(read) - q + 1):
        tried.append(found(sequences, read[offset:offset + q], known))
        if not tried[-1]:
            break
    fewest = min(len(t) for t in tried)
    offset = [len(t) for t in tried].index(fewest)
    return len(tried), offset, tried[offset]


def work(q, sequences, read, limit):
    """Lookups, hits, examined, comparisons, seen."""
    n = len(read)
    matching = set(matches(sequences, read))
    if n < q:
        compared = stopped(places(sequences, n), matching, limit)
        return 0, 0, 0, len(compared), len(matching.intersection(compared))
    sides, candidates = [], []
    for strand, lies in ((0, read), (1, turned(read))):
        lookups, offset, postings = chosen(q, sequences, lies)
        starts = [(r, position - offset, strand) for r, position in postings]
        fitting = [0 <= at and at + n <= len(sequences[r]) for r, at, _ in starts]
        sides.append((lookups, fitting))
        candidates += [s for s, fits in zip(starts, fitting) if fits]
    compared = stopped(sorted(candidates), matching, limit)
    seen = len(matching.intersection(compared))
    examined = 0
    for strand, (_, fitting) in enumerate(sides):
        # a side waits with one candidate more than were compared, but for the one that stopped the search
        taken = sum(p[2] == strand for p in compared) + 1
        if seen > limit and compared[-1][2] == strand:
            taken -= 1
        for fits in fitting:
            if taken:
                examined += 1
                taken -= fits
    return sum(s[0] for s in sides), sum(len(s[1]) for s in sides), examined, len(compared), seen


# ---- map

def whole_read(case):
    return case["read"] + case["read"][-1:] * case["more"]


def map_refusal(case):
    """All but 10."""
    q, cat, read = case["q"], case["cat"], whole_read(case)
    n = refusal(q, *cat)
    if n:
        return n
    rows = index(q, [s for _, s in linear(cat)])
    if lent_columns(case, rows) != [[r[k] for r in rows] for k in range(3)]:
        return 6
    if len(read) > 65535:
        return 7
    if read == b"" or set(read) - set(b"ACGT"):
        return 8
    return 0 if 1 <= case["limit"] <= 10000000 else 9


def answer(case):
    limit, lent = case["limit"], case["entries"]
    n = map_refusal(case)
    if n:
        return [f"refused {n}", entries_line([999] * lent)]
    room = lent // 4
    zeroed = [0] * (4 * room) + [999] * (lent % 4)
    read, targets = whole_read(case), linear(case["cat"])
    sequences = [s for _, s in targets]
    listed = matches(sequences, read)
    if len(listed) > room and room < limit:
        return ["refused 10", entries_line(zeroed)]
    state = {0: 3, 1: 4}.get(len(listed), 5)
    if len(listed) > limit:
        listed, state = [], 2
    for i, (rank, start, strand) in enumerate(listed):
        zeroed[4 * i:4 * i + 4] = [targets[rank][0], start, start + len(read), strand]
    numbers = [state, len(listed), *work(case["q"], sequences, read, limit)]
    return [" ".join(["mapped", *map(str, numbers)]), entries_line(zeroed)]


def entries_line(numbers):
    return " ".join(["entries", *map(str, numbers)])


# ---- the cases

def catalogue(targets):
    """The five lists of targets: (name, sequence) or (name, sequence, mark)."""
    names, sequences = [t[0] for t in targets], [t[1] for t in targets]
    ends = [list(itertools.accumulate(len(s) for s in strings)) for strings in (names, sequences)]
    return b"".join(names), ends[0], b"".join(sequences), ends[1], bytes(t[2] if len(t) > 2 else 0 for t in targets)


def postings(q, cat):
    return 0 if refusal(q, *cat) else len(index(q, [s for _, s in linear(cat)]))


def one(q, targets, read, limit=10, entries=40, lent=None, wrong=(0, 0), more=0):
    cat = catalogue(targets) if isinstance(targets, list) else targets
    if lent is None:
        lent = (2, 2, 2) if refusal(q, *cat) else (postings(q, cat),) * 3
    return dict(q=q, cat=cat, read=read, limit=limit, entries=entries, lent=lent, wrong=wrong, more=more)


BOARD = [(b"t", b"ACGTACGT")]
THREE = [(b"b", b"ACGTA"), (b"a", b"TTTT", 1), (b"c", b"CCGTAC")]
MANY = [
    (b"m", b"GATTACAGATTACA"), (b"closed", b"GATTACA", 1), (b"a", b"TGTAATC"), (b"zz", b"GATT"), (b"", b"ATTACAG"),
    (b"aa", b"CTGTAATCTG"), (b"\xff", b"GATTACA"), (b"z", b"TGTAATC", 1), (b"b", b"AC"),
]


def board():
    """The board's examples: target ACGTACGT, seed length 3."""
    # read, limit, state, groups, work
    for read, limit, line, places in (
        (b"ACG", 10, "mapped 5 4 2 4 4 4 4", "0+ 1- 4+ 5-"),
        (b"ACG", 4, "mapped 5 4 2 4 4 4 4", "0+ 1- 4+ 5-"),
        (b"ACG", 3, "mapped 2 0 2 4 4 4 4", ""),
        (b"ACG", 1, "mapped 2 0 2 4 3 2 2", ""),
        (b"ACGT", 10, "mapped 5 4 4 4 4 4 4", "0+ 0- 4+ 4-"),
        (b"GTAC", 10, "mapped 5 2 4 2 2 2 2", "2+ 2-"),
        (b"AC", 10, "mapped 5 4 0 0 0 14 4", "0+ 2- 4+ 6-"),
        (b"AAA", 10, "mapped 3 0 2 0 0 0 0", ""),
        (b"CGTACGTA", 10, "mapped 3 0 12 2 2 0 0", ""),
    ):
        case = one(3, BOARD, read, limit)
        rows = [(0, int(p[:-1]), int(p[:-1]) + len(read), "+-".index(p[-1])) for p in places.split()]
        numbers = [n for row in rows for n in row]
        assert answer(case) == [line, entries_line(numbers + [0] * (40 - len(numbers)))], (read, limit, answer(case))
        yield case


def around(q, targets, read):
    """Limits and entries around the number of matches; lengths that are no multiple of 4 too."""
    m = len(matches([s for _, s in linear(catalogue(targets))], read))
    for i, limit in enumerate(sorted({1, m - 1, m, m + 1, 10} - {-1, 0})):
        for k, room in enumerate(sorted({0, m - 1, m, m + 1, limit} - {-1})):
            yield one(q, targets, read, limit, 4 * room + (i + k) % 4)


def rooms():
    for q, targets, read in (
        (3, BOARD, b"ACG"),
        (3, BOARD, b"AC"),
        (3, BOARD, b"GTAC"),
        (3, BOARD, b"AAA"),
        (2, [(b"r", b"AAAAA")], b"AA"),
        (2, [(b"r", b"AAAAA")], b"T"),
        (1, [(b"r", b"ATATA")], b"TA"),
        (4, [(b"r", b"GATATCGATATC")], b"GATATC"),
        (4, [(b"y", b"GATC"), (b"x", b"GATCGATC"), (b"w", b"GATC", 1)], b"GATC"),
        (4, [(b"y", b"GATC"), (b"x", b"GATCGATC"), (b"w", b"GATC", 1)], b"GA"),
        (3, MANY, b"GATTACA"),
        (5, MANY, b"ATTA"),
        (2, MANY, b"CAG"),
        (3, THREE, b"CCG"),
    ):
        yield from around(q, targets, read)


def lengths():
    """Reads around the seed's and the target's length, from each end of the target and turned round."""
    long = b"GATTACAGGCATTCAGATAC"
    for q in (1, 2, 3, 5, 8, 20):
        for n in sorted({q - 2, q - 1, q, q + 1, q + 2} & set(range(1, 23))):
            for read in (long[:n], (b"C" + long)[-n:], turned(long[3:3 + n])):
                yield one(q, [(b"t", long)], read)
        for n in (19, 20, 21):
            yield one(q, [(b"t", long)], turned((long + b"A")[:n]))
            yield one(q, [(b"t", long), (b"s", long + b"A")], (long + b"A")[:n], 2, 8)
    for q in (30, 31):
        for n in range(q - 2, q + 3):
            yield one(q, [(b"t", b"T" * 32)], b"T" * n)
            yield one(q, [(b"t", b"ACCGT" * 7)], turned((b"ACCGT" * 7)[1:n + 1]))
    # targets shorter than the seed, the read, or both
    for read in (b"A", b"AC", b"ACG", b"ACGT", b"ACGTA"):
        yield one(3, [(b"c", b"A"), (b"b", b"AC"), (b"a", b"ACG"), (b"d", b"ACGT")], read)
        yield one(5, [(b"c", b"A"), (b"b", b"AC"), (b"a", b"ACG"), (b"d", b"ACGT")], read)


def repeats():
    """One seed often, palindromes, reads that are their own turned form, matches that lie over each other."""
    for letters, read in (
        (b"A" * 12, b"AAA"), (b"A" * 12, b"TTTTT"), (b"A" * 12, b"A" * 12), (b"A" * 12, b"A" * 13),
        (b"AT" * 6, b"AT"), (b"AT" * 6, b"TAT"), (b"AT" * 6, b"ATAT"), (b"AT" * 6, b"TATATATATA"),
        (b"ACGTACGTACGT", b"ACGT"), (b"ACGTACGTACGT", b"CGTA"), (b"ACGTACGTACGT", b"GTACGT"),
        (b"GAATTCGAATTC", b"GAATTC"), (b"GAATTCGAATTC", b"AATT"), (b"GAATTCGAATTC", b"TTC"),
        (b"ACACACACAC", b"GTGT"), (b"ACACACACAC", b"CACA"),
    ):
        for limit in (1, 3, 50):
            yield one(3, [(b"t", letters)], read, limit, 4 * 13 + 1)
        yield one(2, [(b"t", letters), (b"s", turned(letters))], read, 4, 17)


def rarest():
    """Seeds of different frequency, ties, seeds that are nowhere, candidates that do not fit or do not match."""
    target = b"AAAAACAAAAAGAAAACA"
    for read in (
        b"AAAC", b"AAACA", b"CAAAAAG", b"GAAAAC", b"AAAAACAAA", b"AACAAAA", b"AAAAAAAA", b"ACAAAAC", b"AAGAT", b"TAAG",
        b"AAATAAA",
    ):
        for lies in (read, turned(read)):
            yield one(3, [(b"t", target)], lies)
            yield one(3, [(b"t", target)], lies, 1, 4)
    # the same seed in several targets, the read runs past either end in some
    ends = [(b"e", b"CGATTC"), (b"d", b"GATT"), (b"c", b"TGATT"), (b"b", b"ATTC"), (b"a", b"CGATTCGATTC")]
    for read in (b"GATT", b"CGATT", b"GATTC", b"CGATTC", b"ATTC", b"TGATTC", b"CGATTCG", b"CCATTC"):
        for lies in (read, turned(read)):
            yield one(4, ends, lies)
            yield one(2, ends, lies, 2, 11)
    # the plus side finds nothing and the minus side does, and the other way round
    for read in (b"CCCA", b"TGGG", b"CCCT", b"AGGG"):
        yield one(3, [(b"t", b"GGGTTTGGGT")], read)
        yield one(3, [(b"t", b"GGGTTTGGGT")], read, 1, 4)


def several():
    """Targets by rank and not as supplied, closed ones among them; none at all."""
    for read in (b"GATTACA", b"TGTAATC", b"ATTA", b"AC", b"G", b"CTGTAATC", b"GATTACAGATTACA", b"CCC"):
        for q in (2, 4, 7):
            yield one(q, MANY, read, 20, 83)
            yield one(q, MANY, read, 3, 14)
            yield one(q, MANY[::-1], read, 20, 48)
    for marks in itertools.product((0, 1), repeat=3):
        targets = [(b"b", b"ACGT", marks[0]), (b"c", b"ACG", marks[1]), (b"a", b"AACGTT", marks[2])]
        for read in (b"ACG", b"AC", b"AACGTT"):
            yield one(3, targets, read, 10, 30)
    for read in (b"A", b"ACG", b"ACGTAC"):
        yield one(3, [], read, 1, 5)
        yield one(3, [(b"w", b"ACGTAC", 1)], read, 1, 5)


def stale():
    """Refusal 6: content and number of each column, for long and short reads."""
    for read in (b"ACG", b"A", b"ACGTACGTA"):
        for k in (1, 2, 3):
            for place in (0, 3, 5):
                yield one(3, BOARD, read, wrong=(k, place))
            # behind what is lent
            yield one(3, BOARD, read, wrong=(k, 6))
        for lent in itertools.product((5, 6, 7), repeat=3):
            if read == b"ACG" or sorted(lent)[1] == 6:
                yield one(3, BOARD, read, entries=9, lent=lent)
        yield one(3, BOARD, read, lent=(0, 0, 0))
    for targets in ([], [(b"w", b"ACGTACGT", 1)], [(b"s", b"AC")]):
        for lent in ((0, 0, 0), (1, 1, 1), (1, 0, 0), (0, 1, 0), (0, 0, 1)):
            yield one(3, targets, b"ACG", lent=lent)


def catalogues():
    """Refusals 1 to 4."""
    names, name_ends, bases, base_ends, marks = catalogue(THREE)
    for q in (0, 32, 33, 256, 65535):
        yield one(q, THREE, b"ACG", entries=6)
    for cat in (
        (names, name_ends, bases, base_ends, b"\0\1\2"),
        (names, name_ends, bases, base_ends, b"\0\1"),
        (names, name_ends[:2], bases, base_ends, marks),
        (names, name_ends, bases, base_ends[:2], marks),
        (names, [2, 1, 3], bases, base_ends, marks),
        (names, [1, 2, 4], bases, base_ends, marks),
        (names, name_ends, bases, [9, 5, 15], marks),
        (names, name_ends, bases, [5, 9, 16], marks),
        catalogue([(b"n" * 256, b"ACG")]),
    ):
        yield one(2, cat, b"ACG", entries=7)
    yield one(2, [(b"n" * 255, b"ACG")], b"ACG", entries=7)
    for wrong in (b"", b"acg", b"ACN", b"A\0G", b"\xc1"):
        yield one(2, [(b"x", wrong)], b"ACG", entries=5)
        yield one(2, [(b"x", b"ACG"), (b"y", wrong, 1)], b"ACG", entries=5)
    for marks in itertools.product((0, 1), repeat=2):
        yield one(2, [(b"n", b"ACG", marks[0]), (b"m", b"AC"), (b"n", b"ACG", marks[1])], b"ACG", entries=5)
    # bytes behind the last end are not looked at
    yield one(3, (b"tmore", [1], b"ACGTACGTnN", [8], b"\0"), b"ACG")


def reads():
    """Refusals 7, 8 and 9, and what stands just inside their bounds."""
    other = (b"N", b"NCG", b"ANG", b"ACN", b"AC\0", b"\xc1CG", b"A G", b"ACU", b"B", b"@", b"`", b"{")
    for wrong in (b"", b"acg", b"ACg", *other):
        yield one(3, BOARD, wrong, entries=6)
    for more in (65533, 65534, 65535):
        for b in (b"A", b"C", b"N", b"a"):
            yield one(3, [(b"t", b"ACCCCCCA")], b, entries=6, more=more)
        yield one(31, [(b"t", b"G" * 40)], b"C", entries=6, more=more)
    for limit in (0, 1, 2, 3, 4, 65535, 65536, 9999999, 10000000, 10000001, 10000002, 16777216, 2**32 - 1):
        yield one(3, BOARD, b"ACG", limit, 16)
        yield one(3, BOARD, b"ACG", limit, 15)
        yield one(4, BOARD, b"AAA", limit, 3)


def faulty(numbers):
    """A call with the faults of these refusals; what cannot be (a read that is refused and matches) is left out."""
    names, bases, marks = b"nm", b"ACGTACGTACG", b"\0\0"
    if 2 in numbers:
        marks = b"\0\2"
    if 3 in numbers:
        bases = b"ACGTANGTACG"
    if 4 in numbers:
        names = b"nn"
    read = b"ANG" if 8 in numbers else b"ACG"
    if 7 in numbers:
        read = b"N" if 8 in numbers else b"A"
    return one(
        32 if 1 in numbers else 3, (names, [1, 2], bases, [8, 11], marks), read,
        # not 0: then entries could not be fewer, as 10 wants
        limit=10000001 if 9 in numbers else 10,
        entries=7 if 10 in numbers else 27,
        lent=(6, 7, 7) if 6 in numbers else None,
        more=65535 if 7 in numbers else 0,
    )


def faults():
    """None, one, two, and all from one on: the first wins."""
    order = (1, 2, 3, 4, 6, 7, 8, 9, 10)
    sets = [s for k in (0, 1, 2) for s in itertools.combinations(order, k)] + [order[i:] for i in range(7)]
    for numbers in sets:
        case = faulty(numbers)
        assert answer(case)[0] == f"refused {numbers[0]}" if numbers else answer(case)[0].startswith("mapped")
        yield case


def random_cases():
    rng = random.Random(1)
    for _ in range(330):
        q = rng.choice((1, 2, 2, 3, 3, 4, 5))
        letters = rng.choice((b"ACGT", b"AC", b"AT", b"AAAT"))
        targets = {}
        for _ in range(rng.choice((1, 1, 2, 3, 4))):
            name = bytes(rng.choice(b"ab\xf0") for _ in range(rng.randrange(3)))
            sequence = bytes(rng.choice(letters) for _ in range(rng.randrange(1, 16)))
            targets[name] = (name, sequence, int(rng.random() < 0.15))
        targets = list(targets.values())
        source = rng.choice(targets)[1]
        n = rng.choice((1, q - 1, q, q, q + 1, q + 2, q + 3, len(source)))
        at = rng.randrange(max(1, len(source) - n + 1))
        read = source[at:at + max(1, n)]
        if rng.random() < 0.5:
            read = turned(read)
        if rng.random() < 0.2:
            read += bytes([rng.choice(letters)])
        if rng.random() < 0.2:
            at = rng.randrange(len(read))
            read = read[:at] + bytes([rng.choice(letters)]) + read[at + 1:]
        m = len(matches([s for _, s in linear(catalogue(targets))], read))
        limit = max(1, rng.choice((1, 2, m - 2, m - 1, m, m + 1, 10)))
        room = max(0, rng.choice((m, m, m + 1, m - 1, limit, limit, 0)))
        yield one(q, targets, read, limit, min(4 * room + rng.choice((0, 0, 0, 1, 2, 3)), ROOM))


# ---- the files

def two_bytes(numbers):
    return b"".join(n.to_bytes(2, "little") for n in numbers)


def written(case):
    names, name_ends, bases, base_ends, marks = case["cat"]
    assert case["entries"] <= ROOM and max(case["lent"]) <= ROOM and max(len(name_ends), len(base_ends)) <= 16
    assert postings(case["q"], case["cat"]) <= ROOM
    head = [case["q"], case["limit"] % 65536, case["limit"] // 65536, case["entries"]]
    head += [*case["lent"], *case["wrong"], case["more"]]
    head += [len(names), len(name_ends), len(bases), len(base_ends), len(marks), len(case["read"])]
    body = two_bytes(head) + names + two_bytes(name_ends) + bases + two_bytes(base_ends) + marks + case["read"]
    return two_bytes([len(body)]) + body


def main():
    groups = [board, rooms, lengths, repeats, rarest, several, stale, catalogues, reads, faults, random_cases]
    data, lines = b"", []
    for group in groups:
        cases = list(group())
        data += b"".join(written(case) for case in cases)
        for case in cases:
            lines += answer(case)
        print(group.__name__, len(cases))
    assert len(data) <= 131072
    here = pathlib.Path(__file__).parent
    here.joinpath("stdin").write_bytes(data)
    here.joinpath("stdout").write_text("".join(line + "\n" for line in lines))
    print("bytes", len(data), "lines", len(lines))


if __name__ == "__main__":
    main()
