#!/usr/bin/env python3
"""Writes stdin and stdout beside this file: calls of both audits, and what the rules of docs/REFERENCE.md say of them.

A case is a catalogue and a list of commands; test_audit_calls says how they are written as bytes. Each
command is run on a model of the audit as it is written. The model knows the rules alone.

Of each call the answer is compared, and whole, as it stands afterwards, all that is lent to it to be written: state,
counters, entries, rows. Entries and rows hold 999 before. The cases cover, by the index and plain:
- each refusal that an audit gives, 2 to 4, 6 (by the index), 7, 9 to 19, alone and with each that is tested behind it;
- 17 at counts by state, reads by role, totals and counters: for one read, for one of a pair, and for both of a pair
  together where neither alone is too many;
- 18 by rows, by each column of counters, by sums that pass the top; states that no run gives, with settings out of bounds;
- pairs, odd numbers of entries, numbers behind the last whole entry, entries and limits around the matches;
- remap off: empty, long and unreadable reads, no index; closed walks; no target at all; reads of every state;
- runs on random targets, by both audits, the plain one with some reads turned round.
"""
import importlib.util, itertools, pathlib, random

here = pathlib.Path(__file__).resolve().parent
spec = importlib.util.spec_from_file_location("test_map", here.parent / "test_map" / "cases.py")
mapper = importlib.util.module_from_spec(spec)
spec.loader.exec_module(mapper)
parts, refusal, catalogue = mapper.parts, mapper.refusal, mapper.catalogue
turned, matches, linear = mapper.turned, mapper.matches, mapper.linear

SEED, TOP, ROOM = 15, 2**64 - 1, 256
SINGLE, PAIRED = 0, 1
S, R1, R2 = 0, 1, 2
COMPLETE, LIMIT, OFF, CLOSED = 0, 1, 2, 3


# ---- the checks of an opening

def broken(cat):
    """Refusal 2, but for the counters."""
    return refusal(SEED, *cat) == 2


def opening_refusal(settings, cat, counters, columns):
    """columns is None in the plain audit."""
    _, remap, floor, limit = settings
    if floor > 93:
        return 11
    if not 1 <= limit <= 10000000:
        return 9
    if broken(cat) or any(len(c) != len(cat[4]) for c in counters):
        return 2
    n = refusal(SEED, *cat)
    if n:
        return n
    rows = mapper.index(SEED, [s for _, s in linear(cat)])
    if remap and columns is not None and columns != [[r[k] for r in rows] for k in range(3)]:
        return 6
    return 0


# ---- a read: its refusals, its groups, its row

def read_refusal(settings, read):
    _, bases, qualities = read
    _, remap, floor, _ = settings
    if len(bases) > 65535:
        return 7
    if not remap:
        return 0
    if not bases:
        return 14
    if qualities is None:
        return 0
    if len(qualities) != len(bases):
        return 15
    for b in qualities:
        if not 33 <= b <= 126:
            return 16
        if b - 33 < floor:
            return 0
    return 0


def eligible(settings, read):
    """Of a read that is not refused, with remap on."""
    _, bases, qualities = read
    if qualities is not None and any(b - 33 < settings[2] for b in qualities):
        return False
    return all(b in b"ACGTacgt" for b in bases)


def searched(settings, read):
    return settings[1] and eligible(settings, read)


def observed(settings, cat, read, plain):
    """State, groups as (supplied place, start, end, strand), work; all the groups it has too."""
    if not settings[1]:
        return 0, [], [0] * 5, []
    if not eligible(settings, read):
        return 1, [], [0] * 5, []
    bases, targets = read[1].upper(), linear(cat)
    sequences = [s for _, s in targets]
    groups = [(targets[r][0], at, at + len(bases), strand) for r, at, strand in matches(sequences, bases)]
    # without an index a read goes the way of those that are shorter than a seed
    work = mapper.work(len(bases) + 1 if plain else SEED, sequences, bases, settings[3])
    if len(groups) > settings[3]:
        return 2, [], list(work), groups
    return {0: 3, 1: 4}.get(len(groups), 5), groups, list(work), groups


# ---- the ledger

class State:
    def __init__(self, settings=(SINGLE, 0, 0, 0)):
        self.settings, self.last, self.flag = settings, None, 0
        self.table, self.reads, self.totals = [0] * 18, [0] * 3, [0] * 3

    def copy(self):
        new = State(self.settings)
        new.last, new.flag = self.last, self.flag
        new.table, new.reads, new.totals = list(self.table), list(self.reads), list(self.totals)
        return new

    def lines(self):
        last = "-" if self.last is None else self.last
        yield line("settings", self.settings)
        yield f"last {last}"
        yield line("table", self.table)
        yield line("reads", self.reads)
        yield line("totals", self.totals + [self.flag])


def line(word, numbers):
    return " ".join([word, *(str(int(n)) for n in numbers)])


def book(state, counters, role, read_state, groups):
    state.table[6 * role + read_state] += 1
    state.reads[role] += 1
    if read_state == 2:
        state.flag = 1
    on = [g[0] for g in groups]
    for t in on:
        counters[0][t] += 1
        state.totals[0] += 1
    if len(on) == 1:
        counters[1][on[0]] += 1
        state.totals[1] += 1
    else:
        for t in set(on):
            counters[2][t] += 1
            state.totals[2] += 1


# ---- the calls

def fragment_refusal(state, cat, counters, columns, fragment, room):
    ordinal, count, reads = fragment
    settings = state.settings
    n = opening_refusal(settings, cat, counters, columns)
    if n:
        return n
    if state.last is not None and ordinal <= state.last:
        return 12
    roles = [S] if settings[0] == SINGLE else [R1, R2]
    if count != len(roles) or [r[0] for r in reads[:count]] != roles:
        return 13
    for read in reads[:count]:
        n = read_refusal(settings, read)
        if n:
            return n
    share = room // len(roles)
    for read in reads[:count]:
        if searched(settings, read) and share < settings[3]:
            if len(observed(settings, cat, read, True)[3]) > share:
                return 10
    return 0


def fragment_call(state, cat, counters, columns, fragment, entries):
    """Answer lines, state, counters, entries."""
    room = len(entries) // 4
    zeroed = [0] * (4 * room) + entries[4 * room:]
    n = fragment_refusal(state, cat, counters, columns, fragment, room)
    if n:
        return [f"refused {n}"], state, counters, zeroed if n == 10 else entries
    ordinal, count, reads = fragment
    new, raised, left, lines = state.copy(), [list(c) for c in counters], list(zeroed), []
    new.last = ordinal
    for i, read in enumerate(reads[:count]):
        read_state, groups, work, _ = observed(state.settings, cat, read, columns is None)
        at = 4 * (room // count * i)
        for g in groups:
            left[at:at + 4] = g
            at += 4
        book(new, raised, read[0], read_state, groups)
        lines.append(line("mapped", [read_state, len(groups), *work]))
    if max(new.table + new.reads + new.totals + [0] + sum(raised, [])) > TOP:
        return ["refused 17"], state, counters, zeroed
    return lines, new, raised, left


def apart(state, counters):
    mode, remap = state.settings[:2]
    for role in ([S] if mode == SINGLE else [R1, R2]):
        rows = [state.table[6 * role + k] for k in ((1, 2, 3, 4, 5) if remap else (0,))]
        if sum(rows) != state.reads[role]:
            return True
    return any(sum(c) != total for c, total in zip(counters, state.totals))


def nothing():
    return dict(mode=SINGLE, remap=0, table=[0] * 18, status=OFF, totals=None)


def finish_call(state, cat, counters, columns):
    n = opening_refusal(state.settings, cat, counters, columns)
    if not n and apart(state, counters):
        n = 18
    if n:
        return n, nothing()
    mode, remap = state.settings[:2]
    status = OFF if not remap else LIMIT if state.flag else COMPLETE
    totals = list(state.totals) if status == COMPLETE else None
    return 0, dict(mode=mode, remap=remap, table=list(state.table), status=status, totals=totals)


def apply_call(sheet, audited, cat, counters, rows):
    if broken(cat) or broken(audited) or any(len(c) != len(audited[4]) for c in counters) or len(rows) != 4 * len(cat[4]):
        return 2, rows
    names = [parts(c[1], c[0]) for c in (audited, cat)]
    if names[0] != names[1] or audited[4] != cat[4]:
        return 19, rows
    new = []
    for i, mark in enumerate(cat[4]):
        status = CLOSED if mark else sheet["status"]
        new += [status] + ([c[i] for c in counters] if status == COMPLETE else [0] * 3)
    return 0, new


# ---- a case: each command is run on the model as it is written

def two(*numbers):
    return b"".join(n.to_bytes(2, "little") for n in numbers)


def near(*numbers):
    """In two bytes: small numbers, and those near the top by their distance."""
    assert all(n < 32768 or TOP - n < 32768 for n in numbers)
    return two(*(n if n < 32768 else 65535 - (TOP - n) for n in numbers))


def eight(*numbers):
    return b"".join(n.to_bytes(8, "little") for n in numbers)


def lists(cat):
    names, name_ends, bases, base_ends, marks = cat
    assert len(name_ends) <= 16 and len(base_ends) <= 16
    head = two(len(names), len(name_ends), len(bases), len(base_ends), len(marks))
    return head + names + two(*name_ends) + bases + two(*base_ends) + marks


def read(role, bases, qualities=None):
    return role, bases, qualities


def s(bases, qualities=None):
    return [read(S, bases, qualities), read(R2, b"TT")]


def pair(first, second, first_qualities=None, second_qualities=None):
    return [read(R1, first, first_qualities), read(R2, second, second_qualities)]


class Case:

    def __init__(self, targets):
        self.cat = catalogue(targets) if isinstance(targets, list) else targets
        rows = [] if refusal(SEED, *self.cat) else mapper.index(SEED, [s for _, s in linear(self.cat)])
        assert len(rows) <= ROOM
        self.postings = len(rows)
        self.counters = [[0] * 16 for _ in range(3)]
        self.columns = [[r[k] for r in rows] + [7] * (ROOM - len(rows)) for k in range(3)]
        self.state, self.sheet = State(), nothing()
        self.commands, self.out, self.answers = [], [], []

    def bytes(self):
        body = lists(self.cat) + b"".join(two(len(c)) + c for c in self.commands)
        return two(len(body)) + body

    # -- what is no call

    def set(self, which, start, end, value):
        """Numbers of a list, 0 to 2 the counters, 3 to 5 the columns, 6 of all counters."""
        for k in (0, 1, 2) if which == 6 else (which,):
            (self.counters + self.columns)[k][start:end] = [value] * (end - start)
        self.commands.append(bytes([0, which]) + two(start, end) + eight(value))
        return self

    def counted(self, value):
        """Every counter at a value."""
        return self.set(6, 0, 16, value)

    def apart(self):
        """Each column of counters at a value of its own."""
        return self.set(0, 0, 16, 7).set(1, 0, 16, 8).set(2, 0, 16, 9)

    def raw(self, settings, last=None, flag=0, table=None, reads=None, totals=None):
        self.state = State(settings)
        self.state.last, self.state.flag = last, flag
        self.state.table, self.state.reads = list(table or [0] * 18), list(reads or [0] * 3)
        self.state.totals = list(totals or [0] * 3)
        mode, remap, floor, limit = settings
        body = bytes([1, mode, remap, floor]) + eight(limit) + bytes([last is not None]) + eight(last or 0) + bytes([flag])
        self.commands.append(body + near(*self.state.table, *self.state.reads, *self.state.totals))
        return self

    # -- calls

    def lend(self, code, plain, entries, counters, columns):
        n = len(self.cat[4])
        counters = (n,) * 3 if counters is None else counters
        columns = (self.postings,) * 3 if columns is None else columns
        assert max(counters) <= 16 and max(columns) <= ROOM and entries <= ROOM
        self.commands.append(bytes([code, plain, entries, *counters, *columns]))
        lent = [c[:k] for c, k in zip(self.counters, counters)]
        return lent, None if plain else [c[:k] for c, k in zip(self.columns, columns)]

    def told(self, call, answer):
        self.answers.append((call, answer))
        self.out.append(answer)

    def left(self, lent):
        for k in range(3):
            self.counters[k][:len(lent[k])] = lent[k]
        self.out += list(self.state.lines())
        self.out += [line(word, c) for word, c in zip(("placements", "singles", "multi"), lent)]

    def open(self, mode=SINGLE, remap=1, floor=0, limit=10, plain=0, counters=None, columns=None):
        lent, index = self.lend(2, plain, 0, counters, columns)
        settings = (mode, remap, floor, limit)
        self.commands[-1] += bytes([mode, remap, floor]) + eight(limit)
        n = opening_refusal(settings, self.cat, lent, index)
        self.told("open", f"refused {n}" if n else "opened")
        self.state = State() if n else State(settings)
        self.left(lent if n else [[0] * len(c) for c in lent])
        return self

    def fragment(self, ordinal, reads, count=None, entries=40, plain=0, counters=None, columns=None):
        lent, index = self.lend(3, plain, entries, counters, columns)
        if count is None:
            count = 1 if reads[0][0] == S else 2
        self.commands[-1] += eight(ordinal, count)
        body = b""
        for role, bases, qualities in reads:
            more, written = (len(bases) - 1, bases[:1]) if len(bases) > 1000 else (0, bases)
            assert written * (more + 1) == bases
            self.commands[-1] += bytes([role, qualities is not None]) + two(more) + bytes([len(written), len(qualities or b"")])
            body += written + (qualities or b"")
        self.commands[-1] += body
        lines, self.state, lent, left = fragment_call(self.state, self.cat, lent, index, (ordinal, count, reads), [999] * entries)
        self.told("fragment", lines[0])
        self.out += lines[1:]
        self.left(lent)
        self.out.append(line("entries", left))
        return self

    def finish(self, plain=0, counters=None, columns=None):
        lent, index = self.lend(4, plain, 0, counters, columns)
        n, self.sheet = finish_call(self.state, self.cat, lent, index)
        self.told("finish", f"refused {n}" if n else "finished")
        sheet = self.sheet
        self.out.append(line("sheet", [sheet["mode"], sheet["remap"], *sheet["table"]]))
        self.out.append(f"run {sheet['status']} -" if sheet["totals"] is None else line("run", [sheet["status"], *sheet["totals"]]))
        return self

    def apply(self, targets=None, rows=None, counters=None):
        cat = self.cat if targets is None else catalogue(targets) if isinstance(targets, list) else targets
        rows = 4 * len(cat[4]) if rows is None else rows
        lent, _ = self.lend(5, 0, rows, counters, None)
        if targets is not None:
            self.commands[-1] += lists(cat)
        n, new = apply_call(self.sheet, self.cat, cat, lent, [999] * rows)
        self.told("apply", f"refused {n}" if n else "applied")
        self.out.append(line("rows", new))
        return self


# ---- the cases

BOARD = [(b"t", b"ACGTACGT")]
P, Q, HALF = b"GATTACAGGCATTCAGATAC", b"CCGTTAGCAATCGGATTGCA", b"GATTACAGG"
OWN = HALF + turned(HALF)
# two linear targets with the same pieces, a closed walk with them too, a read that is its own turned form, a short one
MANY = [(b"m", P + OWN + Q), (b"w", P + Q, 1), (b"a", Q + turned(P)), (b"z", OWN), (b"", b"GATT")]
ONCE, TWICE, FOUR, NONE = P + OWN[:5], P[:17], OWN, b"C" * 16
ON_A = Q[3:] + turned(P)[:4]
ZEROS = [0] * 18


def table(**counts):
    """Counts by names such as s4 or r15: role and state."""
    t = list(ZEROS)
    for name, n in counts.items():
        t[6 * {"s": S, "q": R1, "r": R2}[name[0]] + int(name[1])] = n
    return t


def example():
    """The worked example of the rules."""
    for plain in (0, 1):
        c = Case([(b"t1", b"ACGT"), (b"b", b"AAAA", 1)]).open(plain=plain).fragment(0, s(b"AC"), entries=16, plain=plain)
        assert c.out[-10:] == [
            "mapped 5 2 0 0 0 6 2", "settings 0 1 0 10", "last 0", "table 0 0 0 0 0 1 0 0 0 0 0 0 0 0 0 0 0 0", "reads 1 0 0",
            "totals 2 0 1 0", "placements 2 0", "singles 0 0", "multi 1 0", "entries 0 0 2 0 0 2 4 1 0 0 0 0 0 0 0 0",
        ], c.out
        c.finish(plain).apply()
        assert c.out[-3:] == ["run 0 2 0 1", "applied", "rows 0 2 0 1 3 0 0 0"], c.out
        yield c


def board():
    """Target ACGTACGT: reads shorter than a seed; qualities at a floor of 20."""
    for plain in (0, 1):
        c = Case(BOARD).open(limit=4, plain=plain)
        for i, (bases, state) in enumerate((
            (b"ACG", 5), (b"ACGT", 5), (b"GTAC", 5), (b"AC", 5), (b"AAA", 3), (b"CGTACGTA", 3), (b"acgt", 5), (b"ACNT", 1),
            (b"ACGTACGT", 5), (b"aCGTAcg", 5), (b"ACGTACGTA", 3), (b"A", 5),
        )):
            c.fragment(i, s(bases), entries=20, plain=plain)
            assert c.out[-10].split()[1] == str(state), (bases, c.out[-10])
        yield c.finish(plain).apply()
        c = Case(BOARD).open(floor=20, plain=plain)
        for i, (qualities, answer) in enumerate((
            ([53] * 4, "mapped 5"), ([53, 53, 53, 52], "mapped 1"), ([52, 127, 53, 53], "mapped 1"),
            ([127, 52, 53, 53], "refused 16"), ([53, 32, 53, 53], "refused 16"), ([126] * 4, "mapped 5"),
            ([53, 53, 53, 127], "refused 16"), ([53, 53, 53, 0], "refused 16"), ([53, 53, 53, 255], "refused 16"),
            ([53, 53, 33, 32], "mapped 1"), (None, "mapped 5"), ([53] * 3, "refused 15"), ([53] * 5, "refused 15"),
            ([52] * 3, "refused 15"), ([], "refused 15"),
        )):
            c.fragment(i, s(b"ACGT", None if qualities is None else bytes(qualities)), entries=20, plain=plain)
            assert c.out[-10].startswith(answer), (qualities, c.out[-10])
        yield c.fragment(90, s(b"ANGT", b"5557"), plain=plain).fragment(91, s(b"ANGT", b"55\x7f7"), plain=plain).finish(plain)
        for floor, qualities in ((0, b"!~!~"), (93, b"~~~~"), (93, b"~~}~"), (1, b"!~~~"), (1, b"\"\"\"\""), (0, b"~~~ ")):
            yield Case(BOARD).open(floor=floor, plain=plain).fragment(5, s(b"ACGT", qualities), plain=plain).finish(plain)


def bad_catalogues():
    """The number of the refusal, and five lists."""
    names, name_ends, bases, base_ends, marks = catalogue([(b"b", b"ACGTA"), (b"a", b"TTTT", 1), (b"c", b"CCGTAC")])
    yield 2, (names, name_ends, bases, base_ends, b"\0\1\2")
    yield 2, (names, name_ends, bases, base_ends, b"\0\1")
    yield 2, (names, name_ends[:2], bases, base_ends, marks)
    yield 2, (names, name_ends, bases, base_ends[:2], marks)
    yield 2, (names, [2, 1, 3], bases, base_ends, marks)
    yield 2, (names, [1, 2, 4], bases, base_ends, marks)
    yield 2, (names, name_ends, bases, [9, 5, 15], marks)
    yield 2, (names, name_ends, bases, [5, 9, 16], marks)
    yield 2, catalogue([(b"n" * 256, b"ACG")])
    for wrong in (b"", b"acg", b"ACN", b"\xc1"):
        yield 3, catalogue([(b"x", b"ACG"), (b"y", wrong)])
        yield 3, catalogue([(b"x", b"ACG"), (b"y", wrong, 1)])
    yield 3, catalogue([(b"x", b"ACG"), (b"x", b"ACG"), (b"y", b"U")])
    for first, last in itertools.product((0, 1), repeat=2):
        yield 4, catalogue([(b"n", b"ACG", first), (b"m", b"AC"), (b"n", b"ACGT", last)])


def openings():
    """Each setting at its bounds; refusals 2, 3, 4 and 6; with remap on and off, in both audits."""
    for remap, plain in itertools.product((1, 0), (0, 1)):
        c = Case(MANY).counted(7)
        for floor in (0, 93, 94, 255):
            c.open(PAIRED, remap, floor, plain=plain).counted(8)
        for limit in (0, 1, 10000000, 10000001, 2**32 + 1, TOP):
            c.open(SINGLE, remap, 3, limit, plain=plain).counted(9)
        for k, n in itertools.product(range(3), (4, 6)):
            c.open(PAIRED, remap, counters=tuple(n if j == k else 5 for j in range(3)), plain=plain)
        yield c
    for i, (number, cat) in enumerate(bad_catalogues()):
        c = Case(cat).counted(7).open(PAIRED, i % 2, 2, plain=i // 2 % 2).open(PAIRED, 1, 2)
        assert c.out[0] == f"refused {number}"
        yield c
    yield Case(MANY).open(counters=(16, 16, 16)).open(counters=(0, 0, 0))
    yield Case([(b"n" * 255, b"ACGTAC"), (b"n" * 254, b"GTA", 1)]).open().open(plain=1).fragment(1, s(b"GTA")).finish().apply()
    # the index
    for remap, plain in itertools.product((1, 0), (0, 1)):
        c = Case(MANY)
        n = c.postings
        for k in range(3):
            c.open(remap=remap, columns=tuple(n - 1 if j == k else n for j in range(3)), plain=plain)
            c.open(remap=remap, columns=tuple(n + 1 if j == k else n for j in range(3)), plain=plain)
            at = (0, n // 2, n - 1)[k]
            right = c.columns[k][at]
            c.set(3 + k, at, at + 1, (right + 1) % 2**64).open(remap=remap, plain=plain).set(3 + k, at, at + 1, right)
        yield c.open(remap=remap, columns=(0, 0, 0), plain=plain).open(PAIRED, remap, plain=plain)
    for targets in ([], [(b"w", P, 1)], [(b"x", P[:14])]):
        yield Case(targets).open().open(columns=(1, 0, 0)).open(columns=(1, 1, 1)).open(columns=(1, 1, 1), plain=1)


FAULTS = {
    11: dict(floor=94), 9: dict(limit=0), 2: dict(counters=(1, 2, 2)), 3: dict(bases=b"ACGTANGTACG"), 4: dict(names=b"nn"),
    6: dict(columns=(1, 0, 0)),
}


def faulty(numbers, plain):
    """A case and its settings with the faults of these refusals of an opening."""
    given = {}
    for n in numbers:
        given.update(FAULTS.get(n, {}))
    c = Case((given.get("names", b"nm"), [1, 2], given.get("bases", b"ACGTACGTACG"), [8, 11], b"\0\0"))
    lent = {k: given[k] for k in ("counters", "columns") if k in given}
    return c, (given.get("floor", 20), given.get("limit", 3)), dict(lent, plain=plain)


def faults():
    """Two faults at once, and all from one on: the first wins."""
    order = (11, 9, 2, 3, 4, 6)
    sets = list(itertools.combinations(order, 2)) + [order[i:] for i in range(5)]
    for plain in (0, 1):
        for numbers in sets if plain else [n for n in sets if 6 in n]:
            c, (floor, limit), lent = faulty(numbers, plain)
            first = [n for n in numbers if n != 6 or not plain][0]
            c.counted(7).open(SINGLE, 1, floor, limit, **lent)
            assert c.out[0] == f"refused {first}"
            c.raw((SINGLE, 1, floor, limit), last=4, reads=[1, 0, 0])
            # 12 and 18 stand behind these
            yield c.fragment(4, s(b"ACG"), **lent).finish(**lent)
    order = (11, 9, 2, 3, 4, 6, 12, 13, 7, 14, 15, 16, 10, 17)
    for i, (a, b) in enumerate(itertools.combinations(order, 2)):
        yield fragment_faults({a, b}, i % 2)
    for i in range(len(order) - 1):
        yield fragment_faults(set(order[i:]), i % 2)


def alone():
    """Each refusal of a fragment by itself, and of the opening and the finish where they have it, by both audits."""
    for plain, number in itertools.product((0, 1), (11, 9, 2, 3, 4, 6, 12, 13, 7, 14, 15, 16, 10, 17)):
        c = fragment_faults({number}, plain)
        assert (c.answers[0][1] == f"refused {number}") == ((number, plain) != (6, 1))
        if number in FAULTS:
            _, (floor, limit), lent = faulty([number], plain)
            c.finish(**lent).apart().open(PAIRED, 1, floor, limit, **lent)
        yield c


def fragment_faults(numbers, plain):
    """A pair with the faults of these refusals, those of reads on the first that is free."""
    c, (floor, limit), lent = faulty(sorted(numbers & set(FAULTS)), plain)
    c.apart()
    wrong = {
        7: (b"A" * 65536, None), 14: (b"", b""), 15: (b"ACG", b"~~"), 16: (b"ACG", b"~\x7f~"),
    }
    reads = [wrong[n] for n in (7, 14, 15, 16) if n in numbers][:2]
    reads = ([(b"ACG", None)] * 2 + reads)[-2:] if plain else (reads + [(b"ACG", None)] * 2)[:2]
    roles = (R2, R1) if 13 in numbers else (R1, R2)
    full = [TOP if 17 in numbers else 5] * 3
    c.raw((PAIRED, 1, floor, limit), last=8, reads=full)
    pairs = [read(role, *r) for role, r in zip(roles, reads)]
    return c.fragment(8 if 12 in numbers else 9, pairs, 2, 23 if 10 in numbers else 33, **lent)


def reads():
    """Reads of all states in one run, by both audits, single and paired; the first wrong read of a pair is told."""
    kinds = [
        ONCE, TWICE, FOUR, NONE, ON_A, turned(ONCE), turned(TWICE), P.lower(), Q[:15], Q[:14], b"GATT", b"aatc", OWN[1:-1],
        P + OWN + Q, P + OWN + Q + b"A", turned(P + OWN + Q), b"N" * 20, P[:9] + b"-" + P[10:], P + Q, b"G", OWN.swapcase(),
        P[:10] + b"g" + P[11:], b"\0", b"acgtRYK",
    ]
    for plain in (0, 1):
        c = Case(MANY).open(limit=12, plain=plain)
        for i, bases in enumerate(kinds):
            c.fragment(3 * i, s(bases, b"~" * len(bases) if i % 3 else None), entries=49, plain=plain)
        yield c.finish(plain).apply()
        c = Case(MANY).counted(5).open(PAIRED, 1, 10, 4, plain=plain)
        for i, bases in enumerate(kinds):
            if i % 3 != plain:
                c.fragment(i, pair(bases, kinds[i * 7 % len(kinds)], b"J" * len(bases)), entries=38, plain=plain)
        yield c.finish(plain).apply()
    good, bad = (b"ACG", None), [(b"", None), (b"", b"!"), (b"ACG", b"!!"), (b"ACG", b"!!\x7f"), (b"ACG", b"\x20!!")]
    for remap in (1, 0):
        c = Case(BOARD).open(PAIRED, remap, limit=9)
        for i, wrong in enumerate(bad):
            c.fragment(2 * i + 1, pair(wrong[0], good[0], wrong[1]), entries=17)
            c.fragment(2 * i + 2, pair(good[0], wrong[0], None, wrong[1]), entries=17)
        for first, second in itertools.permutations(bad, 2):
            if remap:
                c.fragment(99, pair(first[0], second[0], first[1], second[1]), entries=9)
        yield c.finish().apply()


def long_reads():
    """Refusal 7, also with remap off, and the longest read."""
    for remap, plain in itertools.product((1, 0), (0, 1)):
        c = Case([(b"t", b"A" * 20), (b"u", b"CAGT")]).open(remap=remap, plain=plain)
        for i, (b, n) in enumerate(itertools.product((b"A", b"N"), (65535, 65536))):
            c.fragment(i, s(b * n), entries=9, plain=plain)
        yield c.fragment(9, s(b"A" * 65536, b"!"), plain=plain).finish(plain)
        c = Case([(b"t", b"ACGTACGTACGTACG")]).open(PAIRED, remap, plain=plain)
        c.fragment(1, pair(b"A" * 65536, b"C" * 65536), entries=9, plain=plain).fragment(2, pair(b"", b"C" * 65536), plain=plain)
        c.fragment(3, pair(b"C" * 65536, b""), plain=plain).fragment(4, pair(b"G" * 65535, b"T" * 65535), plain=plain)
        yield c.fragment(5, pair(b"ACG", b"C" * 65536), plain=plain).fragment(6, pair(b"C" * 65536, b"ACG"), plain=plain).finish(plain)


def rooms():
    """Limits and entries around the matches, for a single read and for each of a pair; numbers behind the last entry."""
    n = 0
    for bases, targets in ((b"ACG", BOARD), (FOUR, MANY)):
        m = len(matches([t for _, t in linear(catalogue(targets))], bases))
        for limit in sorted({1, m - 1, m, m + 1}):
            c, d = Case(targets).open(limit=limit), Case(targets).open(PAIRED, limit=limit, plain=1)
            for room in sorted({0, m - 1, m, m + 1, limit}):
                n += 1
                c.fragment(n, s(bases), entries=4 * room + n % 4)
                d.fragment(n, pair(bases, b"G") if n % 2 else pair(NONE, bases), entries=8 * room + n % 8, plain=1)
            yield c.finish().apply()
            yield d.finish(1).apply()
    # the halves of an odd number of entries; the read with room for it and the one without
    for plain in (0, 1):
        c = Case(BOARD).open(PAIRED, limit=5, plain=plain)
        for i, (first, second) in enumerate(((b"ACG", b"AC"), (b"GTAC", b"ACG"), (b"ACG", b"GTAC"), (b"G", b"TTT"), (b"CCC", b"C"), (b"ACG", b"NN"))):
            for k, entries in enumerate((0, 4, 8, 12, 16, 20, 28, 35, 36, 39, 41)):
                if (i + k + plain) % 2:
                    c.fragment(20 * i + k, pair(first, second), entries=entries, plain=plain)
        yield c.finish(plain).apply()
    # an indeterminate read has no entries; it is not refused 10, and what is not searched is not either
    for plain in (0, 1):
        c = Case([(b"r", b"A" * 20), (b"q", b"T" * 20)]).open(limit=2, floor=9, plain=plain)
        c.fragment(1, s(b"A" * 15), entries=8, plain=plain).fragment(2, s(b"A" * 15), entries=7, plain=plain)
        c.fragment(3, s(b"A" * 15, b"!" * 15), entries=0, plain=plain).fragment(4, s(b"N" * 15), entries=3, plain=plain)
        c.fragment(5, s(b"A" * 20), entries=8, plain=plain).fragment(6, s(b"A" * 21), entries=0, plain=plain)
        yield c.finish(plain).apply()


def ordinals():
    """Refusal 12; refused calls leave the last ordinal."""
    for plain in (0, 1):
        c = Case(MANY).open(plain=plain)
        for o, r in (
            (0, s(TWICE)), (0, s(ONCE)), (1, s(b"")), (1, s(NONE)), (1, s(NONE)), (0, s(b"")), (7, pair(P, Q)), (5, s(FOUR)),
            (4, s(FOUR)), (2**63, s(ON_A)), (2**63 - 1, s(ON_A)), (TOP - 1, s(P)), (TOP, s(P, b"")), (TOP, s(P)), (TOP, s(P)),
            (0, s(P)),
        ):
            c.fragment(o, r, entries=21, plain=plain)
        yield c.finish(plain).apply()
        yield Case(MANY).open(PAIRED, plain=plain).fragment(TOP, pair(P, Q), plain=plain).fragment(TOP, pair(P, Q), plain=plain).finish(plain)
    for last, o in ((None, 0), (0, 0), (0, 1), (TOP, TOP), (TOP, 0), (TOP - 1, TOP)):
        yield Case(BOARD).raw((SINGLE, 1, 0, 9), last).fragment(o, s(b"ACG")).fragment(o, s(b"ACG"))


def roles():
    """Refusal 13: every pair of roles and several counts, by mode."""
    for mode, remap in ((SINGLE, 1), (PAIRED, 1), (SINGLE, 0), (PAIRED, 0)):
        c = Case(BOARD).open(mode, remap)
        n = 0
        for first, second, count in itertools.product((S, R1, R2), (S, R1, R2), (0, 1, 2, 3, TOP)):
            n += 1
            # the few that are right, and some others
            if n % 5 == remap or (count, first) == (1, S) or (count, first, second) == (2, R1, R2):
                c.fragment(n, [read(first, b"ACG"), read(second, b"" if n % 2 else b"GT")], count, 18)
        yield c.finish().apply()


def full():
    """Refusal 17: each number of the ledger and the counters, for one read and for a pair."""
    def tried(mode, settings, reads, spots):
        for plain in (0, 1):
            c = Case(MANY)
            for name, at, amounts in spots:
                for below in amounts:
                    t, r, total = list(ZEROS), [0] * 3, [0] * 3
                    {"table": t, "reads": r, "totals": total}.get(name, [0] * 18)[at] = TOP - below
                    c.counted(below + 1)
                    if name in ("placements", "singles", "multi"):
                        c.set(("placements", "singles", "multi").index(name), at, at + 1, TOP - below)
                    c.raw((mode, *settings), 6, 0, t, r, total)
                    # nine entries, and three numbers behind them
                    c.fragment(7, reads, entries=39, plain=plain)
            yield c
    on = (1, 0, 20)
    # four groups on two targets, one with two of them
    spots = [
        ("table", 5, (0, 1)), ("reads", S, (0, 1)), ("totals", 0, (3, 4)), ("totals", 1, (0,)), ("totals", 2, (1, 2)),
        ("placements", 0, (1, 2)), ("placements", 3, (1, 2)), ("multi", 0, (0, 1)), ("multi", 3, (0,)), ("singles", 0, (0,)),
        ("placements", 1, (0,)), ("table", 4, (0,)),
    ]
    yield from tried(SINGLE, on, s(FOUR), spots)
    spots = [
        ("table", 4, (0, 1)), ("totals", 0, (0, 1)), ("totals", 1, (0, 1)), ("totals", 2, (0,)), ("placements", 0, (0, 1)),
        ("singles", 0, (0, 1)), ("multi", 0, (0,)),
    ]
    yield from tried(SINGLE, on, s(ONCE), spots)
    # both of a pair on one target, and a number of the second alone
    spots = [
        ("table", 6 + 4, (0, 1)), ("table", 12 + 5, (0, 1)), ("table", 12 + 4, (0,)), ("reads", R1, (0, 1)), ("reads", R2, (0, 1)),
        ("reads", S, (0,)), ("totals", 0, (2, 3)), ("totals", 1, (0, 1)), ("totals", 2, (1, 2)), ("placements", 0, (0, 1, 2)),
        ("placements", 2, (0, 1)), ("singles", 0, (0, 1)), ("multi", 2, (0, 1)),
    ]
    yield from tried(PAIRED, on, pair(ONCE, TWICE), spots)
    spots = [("totals", 0, (7, 8)), ("totals", 2, (3, 4)), ("placements", 3, (3, 4)), ("multi", 0, (1, 2)), ("multi", 3, (0, 1))]
    yield from tried(PAIRED, on, pair(FOUR, FOUR), spots)
    spots = [("totals", 0, (1, 2)), ("totals", 1, (0, 1, 2)), ("placements", 0, (1, 2)), ("singles", 0, (0, 1, 2)), ("multi", 0, (0,))]
    yield from tried(PAIRED, on, pair(ONCE, ONCE), spots)
    spots = [("table", 6, (0, 1)), ("table", 12, (0,)), ("reads", R1, (0,)), ("reads", R2, (0, 1)), ("table", 0, (0,)), ("totals", 0, (0,))]
    yield from tried(PAIRED, (0, 0, 20), pair(b"", FOUR), spots)
    # states that raise two counts alone; remap off; indeterminate
    for settings, bases in ((on, NONE), (on, b"NN"), ((0, 0, 1), b""), ((1, 0, 3), FOUR)):
        state = observed((SINGLE, *settings), catalogue(MANY), read(S, bases), 1)[0]
        yield from tried(SINGLE, settings, s(bases), [("table", state, (0, 1)), ("reads", S, (0,)), ("totals", 0, (0,)), ("placements", 0, (0,))])
    # 10 before 17; all at the top
    for entries in (12, 16):
        yield Case(MANY).counted(TOP).raw((SINGLE, *on), None, 1, [TOP] * 18, [TOP] * 3, [TOP] * 3).fragment(7, s(FOUR), entries=entries).finish()
    c = Case(MANY).counted(TOP).raw((SINGLE, *on), None, 0, ZEROS, [0] * 3, [TOP] * 3)
    yield c.fragment(7, s(NONE)).fragment(8, s(ON_A), entries=6).fragment(9, s(b"N"))


def apart_cases():
    """Refusal 18: rows, each column of counters, sums that pass the top; what the sheet does not show is not summed."""
    base = dict(table=table(s1=1, s2=2, s3=3, s4=4, s5=5), reads=[15, 0, 0], totals=[10, 5, 15])
    pairs = dict(table=table(q1=1, q3=2, q4=3, r2=4, r5=5), reads=[0, 6, 9], totals=[10, 5, 15])
    off = dict(table=table(s0=9), reads=[9, 0, 0], totals=[10, 5, 15])
    off_pairs = dict(table=table(q0=9, r0=8), reads=[0, 9, 8], totals=[10, 5, 15])

    c = Case(MANY)
    for k, n in enumerate((2, 1, 3)):
        c.set(k, 0, 5, n)

    def held(settings, plain=0, flag=0, **books):
        c.raw(settings, None, flag, books["table"], books["reads"], books["totals"]).finish(plain).apply()
    kinds = (((SINGLE, 1, 0, 9), base), ((PAIRED, 1, 0, 9), pairs), ((SINGLE, 0, 0, 9), off), ((PAIRED, 0, 0, 9), off_pairs))
    for i, (settings, books) in enumerate(kinds):
        held(settings, i % 2, **books)
        held(settings, i % 2, 1, **books)
        for at in range(18) if i == 1 else (0, 1, 4, 6, 7, 12, 17):
            t = list(books["table"])
            t[at] += 1
            held(settings, at % 2, **dict(books, table=t))
        for k in range(3):
            for d in (-1, 1):
                r, total = list(books["reads"]), list(books["totals"])
                r[k], total[k] = max(0, r[k] + d), total[k] + d
                held(settings, k % 2, **dict(books, reads=r))
                held(settings, k % 2, **dict(books, totals=total))
    # sums that pass the top, and that would agree if they wrapped
    for plain in (0, 1):
        held((SINGLE, 1, 0, 9), plain, **dict(base, table=table(s1=TOP, s2=1), reads=[0, 0, 0]))
        held((SINGLE, 1, 0, 9), plain, **dict(base, table=table(s1=TOP, s5=16), reads=[15, 0, 0]))
        held((SINGLE, 1, 0, 9), plain, **dict(base, table=table(s3=TOP), reads=[TOP, 0, 0]))
        held((PAIRED, 1, 0, 9), plain, **dict(base, table=table(q3=TOP, r1=TOP, r5=1), reads=[0, TOP, 0]))
        held((PAIRED, 1, 0, 9), plain, **dict(base, table=table(q3=TOP, r1=TOP - 1, r5=1), reads=[0, TOP, TOP]))
        held((SINGLE, 1, 0, 9), plain, **dict(base, table=table(s0=TOP, s1=4, q1=TOP, q2=TOP), reads=[4, 3, 2]))
    yield c
    for k in range(3):
        for at, n in ((0, TOP), (4, TOP), (1, TOP - 1)):
            # the other four hold one each, so that the sum is 3 or 2 past the top
            totals = [5, 5, 5]
            totals[k] = (n + 4) % 2**64
            c = Case(MANY).counted(1).set(k, at, at + 1, n).raw((SINGLE, 1, 0, 9), totals=totals)
            yield c.finish().finish(1).set(k, 0, 16, 1).finish().apply()
        totals = [5, 5, 5]
        totals[k] = TOP
        yield Case(MANY).counted(1).set(k, 1, 2, TOP - 4).raw((SINGLE, k % 2, 0, 9), totals=totals).finish().apply()


def finishes():
    """`finish` repeats the opening's checks; a refused opening's state answers 9."""
    for plain in (0, 1):
        for number, cat in bad_catalogues():
            n = len(cat[4])
            c = Case(cat).counted(3).raw((PAIRED, 1, 0, 9), 3, totals=[3 * n] * 3)
            if n % 2 == plain:
                yield c.fragment(4, pair(b"ACG", b""), plain=plain).finish(plain).apply()
        c = Case(MANY).open(plain=plain).fragment(3, s(TWICE), plain=plain)
        for k, n in itertools.product(range(3), (4, 6)):
            counters = tuple(n if j == k else 5 for j in range(3))
            c.fragment(4, s(TWICE), counters=counters, plain=plain).finish(plain, counters)
        # 6 in the middle of a run; the run goes on
        for k in range(3):
            columns = tuple(c.postings - 1 if j == k else c.postings for j in range(3))
            c.fragment(5 + k, s(TWICE), columns=columns, plain=plain).finish(plain, columns=columns)
            right = c.columns[k][9]
            c.set(3 + k, 9, 10, right ^ 1).fragment(15 + k, s(ONCE), plain=plain).finish(plain).set(3 + k, 9, 10, right)
        yield c.fragment(20, s(b"gatt"), plain=plain).finish(plain).apply()
        for settings in ((SINGLE, 1, 94, 9), (PAIRED, 0, 255, 0), (SINGLE, 0, 93, 0), (PAIRED, 1, 0, 10000001), (SINGLE, 1, 0, TOP)):
            yield Case(BOARD).raw(settings, reads=[1, 1, 1]).fragment(1, s(b"ACG"), plain=plain).finish(plain).apply()
        c = Case(BOARD).fragment(1, s(b"ACG"), plain=plain).finish(plain).open(floor=94, plain=plain)
        yield c.fragment(0, s(b"ACG"), plain=plain).finish(plain).apply()
        # an opening in the middle of a run begins anew; a refused one ends it, the counters stay
        c = Case(MANY).open(plain=plain).fragment(8, s(FOUR), plain=plain).open(PAIRED, plain=plain)
        c.fragment(2, pair(P, Q), plain=plain).finish(plain).open(limit=0, plain=plain).fragment(3, pair(P, Q), plain=plain)
        yield c.finish(plain).apply().open(plain=plain).finish(plain).apply()


def applies():
    """Refusals 2 and 19; bases may differ; names and marks place by place."""
    few = [(b"m", b"ACGTT"), (b"w", b"AC", 1), (b"a", b"AAC"), (b"z", b"GGC"), (b"", b"GATT")]
    for flag, remap in ((0, 1), (1, 1), (0, 0)):
        c = Case(few).open(remap=remap, limit=2 if flag else 9).fragment(1, s(b"GAT")).fragment(2, s(b"GC"))
        c.fragment(3, s(b"A"), entries=41).finish().apply()
        for rows in (0, 16, 19, 21, 24):
            c.apply(rows=rows)
        for counters in ((4, 5, 5), (5, 6, 5), (5, 5, 0)):
            c.apply(counters=counters)
        names = [t[0] for t in few]
        for k in range(5):
            other = [list((*t, 0)[:3]) for t in few]
            other[k][0] = names[k] + b"x"
            c.apply([tuple(t) for t in other])
            other[k][0], other[k][2] = names[k], 1 - other[k][2]
            c.apply([tuple(t) for t in other])
            other[k][1], other[k][2] = (b"", b"acn", b"CC", b"T", b"GATT")[k], 1 - other[k][2]
            c.apply([tuple(t) for t in other])
        c.apply(few[:4]).apply(few + [(b"y", b"A")]).apply(few[::-1]).apply([]).apply(few[:4], 20).apply(few + [(b"y", b"A")], 20)
        # equal names are not looked for; the same bytes cut otherwise are other names
        c.apply([(b"m", b"A"), (b"m", b"C"), (b"m", b"G"), (b"m", b"T"), (b"m", b"A")])
        five = catalogue(few)
        c.apply((five[0] + b"more", five[1], five[2] + b"NN", five[3], five[4])).apply((five[0], [2, 2, 3, 4, 4], *five[2:]))
        if flag:
            for _, cat in bad_catalogues():
                c.apply(cat)
        yield c
    # a catalogue that was not bounded, or not audited
    for _, cat in bad_catalogues():
        yield Case(cat).apply().apply([(b"x", b"ACG"), (b"y", b"A")])
    yield Case([]).open().finish().apply().apply([(b"x", b"A")]).apply(rows=4)
    yield Case(MANY).apply()


def off():
    """Remap off: no read is looked at, and no index."""
    for mode, plain in itertools.product((SINGLE, PAIRED), (0, 1)):
        c = Case(MANY).counted(TOP).open(mode, 0, 40, 1, plain=plain, columns=(0, 3, 1))
        for i, (bases, qualities) in enumerate(((P, None), (b"", b"!"), (b"ACG", b"\x7f\0"), (b"\0N", b"\x20\x20"), (FOUR, b"!" * len(FOUR)))):
            reads = s(bases, qualities) if mode == SINGLE else pair(bases, FOUR, qualities)
            c.fragment(i, reads, entries=11 * i % 35, plain=plain, columns=(2, 0, 0))
        c.fragment(5, s(P), plain=plain).fragment(6, s(P), 3, plain=plain).fragment(7, pair(P, Q), plain=plain)
        yield c.finish(plain, columns=(9, 9, 9)).apply()


def none():
    """No target at all, closed walks alone, and targets shorter than every read."""
    for targets in ([], [(b"w", P, 1)], [(b"w", P, 1), (b"", P + Q, 1)], [(b"a", b"G"), (b"w", P, 1), (b"b", b"C")]):
        for plain, remap in itertools.product((0, 1), (0, 1)):
            c = Case(targets).open(PAIRED, remap, plain=plain)
            c.fragment(0, pair(P, b"G"), entries=18, plain=plain).fragment(1, pair(b"GG", P), entries=7, plain=plain)
            yield c.fragment(2, pair(b"N", b"C"), entries=8, plain=plain).finish(plain).apply()
    # books that are full, or apart, with no target
    for plain in (0, 1):
        c = Case([]).raw((SINGLE, 1, 0, 9), 5, 0, table(s3=TOP), [TOP, 0, 0]).fragment(6, s(b"ACG"), entries=5, plain=plain).finish(plain)
        for k in range(3):
            c.raw((SINGLE, 1, 0, 9), totals=[int(k == j) for j in range(3)]).finish(plain).apply()
        yield c


def second():
    """The read behind a single one is not looked at."""
    for remap, plain in itertools.product((1, 0), (0, 1)):
        c = Case(BOARD).open(SINGLE, remap, plain=plain)
        behind = ((b"A" * 65536, None), (b"", None), (b"ACG", b"!"), (b"ACG", b"\x7f\x7f\x7f"), (b"NN", b"\0\0"))
        for i, (bases, qualities) in enumerate(behind):
            c.fragment(i, [read(S, b"ACG"), read(i % 3, bases, qualities)], 1, 17, plain=plain)
        yield c.finish(plain).apply()


def mixed():
    """Each call is what its own lists say, whichever audit the state comes from."""
    for plain in (0, 1):
        c = Case(MANY).open(PAIRED, plain=plain).fragment(1, pair(ONCE, FOUR), plain=1 - plain).finish(plain).finish(1 - plain)
        c.fragment(2, pair(TWICE, NONE), plain=plain).fragment(3, pair(ON_A, b"N"), plain=1 - plain)
        for audit in (0, 1):
            c.fragment(4 + audit, pair(FOUR, TWICE), columns=(1, 1, 1), plain=audit).finish(audit, columns=(1, 1, 1)).apply()
        yield c.open(PAIRED, columns=(1, 1, 1), plain=plain).fragment(7, pair(P, Q), plain=1 - plain).finish(plain).apply()


def indeterminate():
    """One such read makes every linear total unavailable; counting goes on; a refused one is not kept."""
    for mode, plain in itertools.product((SINGLE, PAIRED), (0, 1)):
        c = Case(MANY).open(mode, limit=2, plain=plain)
        for i, bases, entries in (
            (1, TWICE, 16), (2, FOUR, 4), (2, FOUR, 16), (3, TWICE, 16), (4, FOUR, 16), (4, ONCE, 16), (5, ONCE, 16),
        ):
            reads = s(bases) if mode == SINGLE else pair(ON_A, bases)
            c.fragment(i, reads, entries=entries, plain=plain).finish(plain).apply()
        yield c
    c = Case(MANY).raw((SINGLE, 1, 0, 9), None, 1).finish().apply().fragment(1, s(ONCE)).finish().apply()
    yield c.open().finish().apply()


def random_runs():
    """Runs of both audits on the same lists, the plain one with some reads turned round."""
    rng = random.Random(2)
    for _ in range(6):
        letters = rng.choice((b"ACGT", b"ACGT", b"AC", b"AAAT"))
        pieces = [bytes(rng.choice(letters) for _ in range(rng.choice((3, 9, 16, 20)))) for _ in range(3)]
        targets = {}
        for _ in range(rng.randrange(1, 6)):
            name = bytes(rng.choice(b"ab\xf0") for _ in range(rng.randrange(3)))
            sequence = b"".join(rng.choice((x, turned(x))) for x in rng.choices(pieces, k=rng.randrange(1, 3)))
            targets[name] = (name, sequence, int(rng.random() < 0.2))
        targets = list(targets.values())
        mode, floor, limit = rng.randrange(2), rng.choice((0, 0, 30)), rng.choice((1, 2, 3, 5, 20))
        drawn, ordinal = [], 0
        for _ in range(5):
            mates = []
            for role in ([S, R2] if mode == SINGLE else [R1, R2]):
                source = rng.choice(targets)[1]
                n = rng.choice((1, 4, 14, 15, 16, len(source)))
                at = rng.randrange(max(1, len(source) - n + 1))
                bases = source[at:at + n]
                if rng.random() < 0.1:
                    bases += rng.choice((b"A", b"n", b"C"))
                if rng.random() < 0.3:
                    bases = bases.swapcase()
                qualities = bytes(rng.choice((63, 64, 126, 62 if rng.random() < 0.05 else 70)) for _ in bases)
                mates.append((role, bases, rng.choice((None, qualities))))
            ordinal += rng.choice((1, 1, 2, 2**40, 0))
            drawn.append((ordinal, mates, rng.choice((0, 8, 9, 23, 40, 81, 83)), rng.random() < 0.5))
        for plain in (0, 1):
            c = Case(targets).counted(7).open(mode, 1, floor, limit, plain=plain)
            for ordinal, mates, entries, turn in drawn:
                if plain and turn:
                    mates = [(role, turned_bytes(bases), qualities and qualities[::-1]) for role, bases, qualities in mates]
                c.fragment(ordinal, mates, entries=entries, plain=plain)
            yield c.finish(plain).apply()


def turned_bytes(bases):
    """A read turned round: letters keep their case, other bytes stay."""
    return bases[::-1].translate(bytes.maketrans(b"ACGTacgt", b"TGCAtgca"))


# ---- the files

def main():
    groups = [
        example, board, openings, faults, alone, reads, second, long_reads, rooms, ordinals, roles, full, apart_cases, finishes,
        applies, off, none, indeterminate, mixed, random_runs,
    ]
    data, lines, answers = b"", [], []
    for group in groups:
        made = list(group())
        data += b"".join(c.bytes() for c in made)
        lines += [text for c in made for text in c.out]
        told = [a for c in made for a in c.answers]
        answers += told
        print(group.__name__, len(made), "cases", len(told), "calls")
    for call in ("open", "fragment", "finish", "apply"):
        refused = [int(a.split()[1]) for c, a in answers if c == call and a.startswith("refused")]
        print(call, sum(c == call for c, _ in answers), "refused", len(refused), "by", *sorted(set(refused)))
    print("calls", len(answers), "bytes", len(data), "lines", len(lines))
    assert len(data) <= 196608
    here.joinpath("stdin").write_bytes(data)
    here.joinpath("stdout").write_text("".join(text + "\n" for text in lines))


main()
