#!/usr/bin/env python3
"""A model of the program `catch`, and streams with the output that each must give.

    python3 cases.py DIR

writes DIR/stdin (for each case its length in two bytes, the low one first, then in one byte the length of
the pieces that its stream is read in, 0 for 32,768, then the length of its name in one byte, its name and
the stream) and DIR/stdout (for each stream the line `# NAME`, then its output).

The model is written from paper 01 and its settled readings, not from the code. Words in quotation
marks are 01's; "reading n" is one of the settled readings.

Refusals that no stream reaches, or none that can be tested:
   1  the seed is always 15
   2  a stream has at most 16 targets, 255 bytes to an identifier and 1,024 bases, all inside the
      bounds of a catalogue, and another topology mark is 20
   5  the program lends the index as much room as it needs
   6  the index lent is the one that was built
   7  a read over 4,096 bases is 20, so none passes 65,535
   8  "mapper only"
  15  one length is given for bases and qualities (reading 8)
  17  needs 2^64 reads or groups
  18  the books of one run, written by nobody else, agree
  19  the targets do not change, and `catch` has no call that would compare them
"""

import os
import re
import struct
import sys
from collections import Counter, namedtuple

# ---------------------------------------------------------------------------------------------
# The model: words of 01
# ---------------------------------------------------------------------------------------------

SINGLE, PAIRED = 0, 1
OFF, ON = 0, 1
LINEAR, CLOSED = 0, 1
S, R1, R2 = 0, 1, 2
ROLE_WORDS = {S: "S", R1: "R1", R2: "R2"}

# "States are 0 to 5 in `ReadState` order."
NOT_REQUESTED, INELIGIBLE, INDETERMINATE, UNMAPPED, ONE_GROUP, SEVERAL_GROUPS = range(6)

# The four status words (reading 20).
COMPLETE = "placement_enumeration_complete"
CANDIDATE_LIMIT = "indeterminate_candidate_limit"
REMAP_DISABLED = "unavailable_remap_disabled"
CLOSED_UNSUPPORTED = "unavailable_closed_walk_audit_unsupported"

SEED = 15       # "The seed is 15." No line shows it: groups are the same with every seed.
OFFSET = 33     # "a byte less 33 below the floor"
ENTRIES = 256   # "256 placement entries are lent"

Settings = namedtuple("Settings", "mode remap floor limit")
Target = namedtuple("Target", "topology identifier bases")
Read = namedtuple("Read", "role bases qualities")       # qualities are None where absent
Fragment = namedtuple("Fragment", "ordinal reads")
Group = namedtuple("Group", "target start end strand")  # target: its place in supplied order
Row = namedtuple("Row", "role state groups")            # the answer for one read


class Refused(Exception):
    def __init__(self, number):
        self.number = number


def refuse_if(condition, number):
    if condition:
        raise Refused(number)


# ---------------------------------------------------------------------------------------------
# The model: bases, eligibility, groups
# ---------------------------------------------------------------------------------------------

# "A complements T, C complements G."
COMPLEMENT = {ord("A"): ord("T"), ord("T"): ord("A"), ord("C"): ord("G"), ord("G"): ord("C")}


def turned_round(bases):
    """A read of capitals as it lies on '-'."""
    return bytes(COMPLEMENT[base] for base in reversed(bases))


def eligible_normalized_read(read, floor):
    """The read's bases in upper case, or None where it is ineligible. Refuses 16."""
    # "Qualities come first, left to right"; "Absent qualities skip the quality test".
    if read.qualities is not None:
        for quality in read.qualities:
            # "a byte outside 33 to 126 refuses"
            refuse_if(not OFFSET <= quality <= 126, 16)
            # "below the floor makes the read ineligible there and then"
            if quality - OFFSET < floor:
                return None
    # "Next, bases are folded to upper case; another letter than ACGT means ineligible."
    for base in read.bases:
        if base not in b"ACGTacgt":
            return None
    return read.bases.upper()


def by_rank(targets):
    """Supplied places of the linear targets: "Rank is the place among linear targets by
    identifier bytes." Closed walks "are never mapped"."""
    linear = [place for place, target in enumerate(targets) if target.topology == LINEAR]
    return sorted(linear, key=lambda place: targets[place].identifier)


def groups_of(bases, targets):
    """The matching ones of "each fitting start of each linear target by rank, '+' then '-'"."""
    found = []
    as_it_lies = (("+", bases), ("-", turned_round(bases)))
    for place in by_rank(targets):
        target = targets[place].bases
        for start in range(len(target) - len(bases) + 1):
            end = start + len(bases)
            for strand, letters in as_it_lies:
                if target[start:end] == letters:
                    found.append(Group(place, start, end, strand))
    return found


# ---------------------------------------------------------------------------------------------
# The model: the audit
# ---------------------------------------------------------------------------------------------

def check_opening(settings, targets):
    """By 01 "The audit's opening checks 11, 9, 2, 3, 4": each over all targets (reading 12), with
    remap off too. 2, and 6 behind them, are out of a stream's reach."""
    refuse_if(settings.floor > 93, 11)
    refuse_if(not 1 <= settings.limit <= 10_000_000, 9)
    # 3: "empty, or not all upper-case ACGT"; closed walks too.
    for target in targets:
        refuse_if(len(target.bases) == 0, 3)
        refuse_if(any(base not in b"ACGT" for base in target.bases), 3)
    # 4: "equal identifiers, any topology"
    names = [target.identifier for target in targets]
    refuse_if(len(set(names)) < len(names), 4)


def check_order(last_accepted, ordinal):
    """12: "ordinal not above the last accepted". The first may be 0 (reading 13)."""
    refuse_if(last_accepted is not None and ordinal <= last_accepted, 12)


def check_roles(mode, reads):
    """13: "not exactly S, or R1 then R2, by mode"."""
    roles = [read.role for read in reads]
    refuse_if(roles != ([S] if mode == SINGLE else [R1, R2]), 13)


def check_read(read, settings):
    """Of each read "7 and, with remap on, 14 to 16". 7 and 15 are out of a stream's reach, and
    16 is found while eligibility is judged."""
    if settings.remap == ON:
        refuse_if(len(read.bases) == 0, 14)
        eligible_normalized_read(read, settings.floor)


def observe_read(read, settings, targets, entries):
    """State and listed groups of a read that has `entries` placement entries. Refuses 10."""
    # "With remap off every read is NotRequested, empty ones too".
    if settings.remap == OFF:
        return Row(read.role, NOT_REQUESTED, [])
    bases = eligible_normalized_read(read, settings.floor)
    if bases is None:
        return Row(read.role, INELIGIBLE, [])
    groups = groups_of(bases, targets)
    # 10: "more matches than the read's entries, and entries fewer than the limit"
    refuse_if(len(groups) > entries and entries < settings.limit, 10)
    if len(groups) > settings.limit:
        return Row(read.role, INDETERMINATE, [])
    if len(groups) == 0:
        return Row(read.role, UNMAPPED, [])
    return Row(read.role, ONE_GROUP if len(groups) == 1 else SEVERAL_GROUPS, groups)


class Audit:
    """An accepted opening, and what it keeps: state and counters, at zero."""

    def __init__(self, settings, targets):
        check_opening(settings, targets)
        self.settings, self.targets = settings, targets
        self.last_accepted = None
        self.counts = Counter()                     # by role and state
        self.indeterminate = False
        self.placements = [0] * len(targets)        # "Counters stand in supplied order"
        self.singles = [0] * len(targets)
        self.multi = [0] * len(targets)

    def audit_fragment(self, fragment):
        """The rows of an accepted fragment. It "repeats the opening's checks", which the same
        settings and targets have passed, "then 12 and 13; then for each read in turn 7 and,
        with remap on, 14 to 16; then 10 for each read; then 17"."""
        check_order(self.last_accepted, fragment.ordinal)
        check_roles(self.settings.mode, fragment.reads)
        for read in fragment.reads:
            check_read(read, self.settings)
        # "each read of a pair gets P div 2"
        entries = ENTRIES // 2 if self.settings.mode == PAIRED else ENTRIES
        rows = [observe_read(read, self.settings, self.targets, entries)
                for read in fragment.reads]
        self.last_accepted = fragment.ordinal
        for row in rows:
            self.book(row)
        return rows

    def book(self, row):
        self.counts[row.role, row.state] += 1
        if row.state == INDETERMINATE:
            self.indeterminate = True
        for group in row.groups:
            self.placements[group.target] += 1
        if row.state == ONE_GROUP:
            # "A read with one group raises its target's placements and singles."
            self.singles[row.groups[0].target] += 1
        if row.state == SEVERAL_GROUPS:
            # "each distinct target's multi count rises by one"
            for place in {group.target for group in row.groups}:
                self.multi[place] += 1

    def status(self):
        """The status of the run and of each linear target."""
        if self.settings.remap == OFF:
            return REMAP_DISABLED
        # "One indeterminate read makes every linear total and the run's totals unavailable"
        return CANDIDATE_LIMIT if self.indeterminate else COMPLETE


# ---------------------------------------------------------------------------------------------
# The model: lines
# ---------------------------------------------------------------------------------------------

def line(*fields):
    """Lines: "Fields are parted by one space, numbers are in decimal, LF ends each line"."""
    texts = [field if isinstance(field, bytes) else str(field).encode() for field in fields]
    return b" ".join(texts) + b"\n"


def fragment_lines(ordinal, rows, targets):
    """Lines "R ordinal, role, state, places", "each with its G lines": "G identifier, start, end,
    strand". "Places is the read's number of groups, '-' for states 0 to 2": 0 for state 3."""
    for row in rows:
        places = "-" if row.state <= INDETERMINATE else len(row.groups)
        yield line("R", ordinal, ROLE_WORDS[row.role], row.state, places)
        for group in row.groups:
            identifier = targets[group.target].identifier
            yield line("G", identifier, group.start, group.end, group.strand)


def count_lines(audit):
    """Lines "S role, state, count": "by role, then state: 1 to 5 with remap on, else 0 alone", for
    the roles of the mode (reading 20)."""
    roles = [S] if audit.settings.mode == SINGLE else [R1, R2]
    states = range(1, 6) if audit.settings.remap == ON else [NOT_REQUESTED]
    for role in roles:
        for state in states:
            yield line("S", ROLE_WORDS[role], state, audit.counts[role, state])


def target_lines(audit):
    """Lines "T identifier, placements, singles, multi, status", "in supplied order". "'-' means
    unavailable"; "closed walks show their own status always"."""
    for place, target in enumerate(audit.targets):
        status = CLOSED_UNSUPPORTED if target.topology == CLOSED else audit.status()
        totals = ["-"] * 3
        if status == COMPLETE:
            totals = [audit.placements[place], audit.singles[place], audit.multi[place]]
        yield line("T", target.identifier, *totals, status)


def run_line(audit):
    """The line "A status and the three totals": each the sum over the targets (18: "target
    sums")."""
    totals = ["-"] * 3
    if audit.status() == COMPLETE:
        totals = [sum(audit.placements), sum(audit.singles), sum(audit.multi)]
    return line("A", audit.status(), *totals)


# ---------------------------------------------------------------------------------------------
# The model: the stream
# ---------------------------------------------------------------------------------------------

class Stream:
    """Standard input, taken from the front. "a short stream" is 20."""

    def __init__(self, data):
        self.data, self.at = data, 0

    def left(self):
        return len(self.data) - self.at

    def take(self, length):
        refuse_if(self.left() < length, 20)
        self.at += length
        return self.data[self.at - length:self.at]

    def number(self, length):
        """By 01 "operands are little-endian"."""
        return int.from_bytes(self.take(length), "little")

    def one_of(self, *allowed):
        """A code or mark; "another order, code or mark" is 20."""
        value = self.number(1)
        refuse_if(value not in allowed, 20)
        return value


def command_01(stream):
    """Operands: "mode u8 (0 single, 1 paired), remap u8 (0 off, 1 on), floor u8, limit u64"."""
    mode = stream.one_of(SINGLE, PAIRED)
    remap = stream.one_of(OFF, ON)
    return Settings(mode, remap, floor=stream.number(1), limit=stream.number(8))


def command_02(stream, targets):
    """Operands: "topology u8 (0 linear, 1 closed), identifier length u8, base count u32, then
    both". `targets` are those before it; closed walks count among them (reading 9)."""
    topology = stream.one_of(LINEAR, CLOSED)
    identifier_length = stream.number(1)
    base_count = stream.number(4)
    # "more than 16 targets, target bases over 1,024 in all"
    refuse_if(len(targets) + 1 > 16, 20)
    refuse_if(sum(len(target.bases) for target in targets) + base_count > 1024, 20)
    # "an identifier that is empty or has a byte outside 33 to 126"
    refuse_if(identifier_length == 0, 20)
    identifier = stream.take(identifier_length)
    refuse_if(any(not 33 <= byte <= 126 for byte in identifier), 20)
    return Target(topology, identifier, stream.take(base_count))


def command_03(stream):
    """Operands: "ordinal u64, read count u8", with the 04s that it announces (reading 3)."""
    ordinal = stream.number(8)
    read_count = stream.number(1)
    refuse_if(read_count > 2, 20)       # "a read count over 2"
    reads = []
    for _ in range(read_count):
        stream.one_of(4)
        reads.append(command_04(stream))
    return Fragment(ordinal, reads)


def command_04(stream):
    """Operands: "role u8 (0 S, 1 R1, 2 R2), quality mark u8 (0 absent, 1 present), length u32,
    bases, qualities"."""
    role = stream.one_of(S, R1, R2)
    mark = stream.one_of(0, 1)
    length = stream.number(4)
    refuse_if(length > 4096, 20)        # "a read over 4,096 bases", with remap off too
    bases = stream.take(length)
    qualities = stream.take(length) if mark == 1 else None
    return Read(role, bases, qualities)


def run(stream, write):
    """The order is "one 01, any 02s, any 03s each with its 04s, one 05"."""
    stream.one_of(1)
    settings = command_01(stream)
    targets = []
    code = stream.one_of(2, 3, 5)
    while code == 2:
        targets.append(command_02(stream, targets))
        code = stream.one_of(2, 3, 5)
    # "The opening runs when 03 or 05 is read after the 02s, before anything behind that code"
    audit = Audit(settings, targets)
    while code == 3:
        # 20 "is found before any other check on that fragment".
        fragment = command_03(stream)
        rows = audit.audit_fragment(fragment)
        # "R lines, each with its G lines, are written when their fragment is accepted"
        for text in fragment_lines(fragment.ordinal, rows, targets):
            write(text)
        code = stream.one_of(3, 5)
    refuse_if(stream.left() > 0, 20)    # "bytes after 05", before S is written (reading 5)
    # "S, T and A follow an accepted 05 in this order."
    for text in [*count_lines(audit), *target_lines(audit), run_line(audit)]:
        write(text)


def catch(stream):
    """The whole output for a stream of bytes."""
    written = []
    try:
        run(Stream(stream), written.append)
    except Refused as refusal:
        # "A refusal prints E and its number, then nothing more."
        written.append(line("E", refusal.number))
    return b"".join(written)


# ---------------------------------------------------------------------------------------------
# Makers of commands
# ---------------------------------------------------------------------------------------------

def opening(mode=SINGLE, remap=ON, floor=0, limit=10):
    return struct.pack("<BBBBQ", 1, mode, remap, floor, limit)


def target(identifier, bases, topology=LINEAR):
    head = struct.pack("<BBBI", 2, topology, len(identifier), len(bases))
    return head + identifier + bases


def closed(identifier, bases):
    return target(identifier, bases, CLOSED)


def read(bases, qualities=None, role=S):
    mark = 0 if qualities is None else 1
    return struct.pack("<BBBI", 4, role, mark, len(bases)) + bases + bytes(qualities or b"")


def fragment(ordinal, *reads, count=None):
    announced = len(reads) if count is None else count
    return struct.pack("<BQB", 3, ordinal, announced) + b"".join(reads)


def pair(ordinal, first, second, first_qualities=None, second_qualities=None):
    return fragment(ordinal, read(first, first_qualities, R1), read(second, second_qualities, R2))


def fragments(reads):
    """One S read to a fragment, ordinals from 0."""
    return b"".join(fragment(ordinal, read(bases)) for ordinal, bases in enumerate(reads))


END = b"\x05"
T1 = target(b"t", b"ACGT")      # a plain target, for cases that are about something else
F0 = fragment(0, read(b"AC"))   # a plain fragment: on T1 it gives the lines RGG
P0 = pair(0, b"AC", b"AC")      # likewise of a pair: RGGRGG
RGG = "RGG"

# 40 bases of which each window of 10 or more is found once, on one strand.
L40 = b"GATTACAGGCTCCATGAACTTGCGTAACCGGTATCTGACA"


# ---------------------------------------------------------------------------------------------
# Cases: name, stream, and what is known of the output by the way the stream was made
# ---------------------------------------------------------------------------------------------

# last: the last line; kinds: the first letters of all lines; lines: some lines, in order;
# whole: the output byte for byte. None means not known beforehand. piece: the stream is read in pieces
# of so many bytes, 32,768 for 0.
Case = namedtuple("Case", "name stream last kinds lines whole piece")
CASES = []


def case(name, stream, last=None, kinds=None, lines=(), whole=None, piece=None):
    if piece is None:
        piece = len(CASES) % 32
    CASES.append(Case(name, stream, last, kinds, list(lines), whole, piece))


def refused(number):
    return "E %d" % number


def totals(placements, singles, multi):
    return "A %s %d %d %d" % (COMPLETE, placements, singles, multi)


LIMITED = "A %s - - -" % CANDIDATE_LIMIT
DISABLED = "A %s - - -" % REMAP_DISABLED


def sheet(targets, mode=SINGLE, remap=ON):
    """The kinds of S, T and A lines of a run with so many targets."""
    return "S" * ((5 if remap == ON else 1) * (1 if mode == SINGLE else 2)) + "T" * targets + "A"


EXAMPLE = opening() + target(b"t1", b"ACGT") + closed(b"b", b"AAAA") + F0 + END
EXAMPLE_OUTPUT = b"""\
R 0 S 5 2
G t1 0 2 +
G t1 2 4 -
S S 1 0
S S 2 0
S S 3 0
S S 4 0
S S 5 1
T t1 2 0 1 placement_enumeration_complete
T b - - - unavailable_closed_walk_audit_unsupported
A placement_enumeration_complete 2 0 1
"""


def cases_example():
    case("example_of_01", EXAMPLE, whole=EXAMPLE_OUTPUT)


# --- 20: order and codes ---------------------------------------------------------------------

def cases_codes():
    """At each place where a code is due, every code that is not allowed there: the sound
    command where there is one, and the rest of the sound stream behind it."""
    command = {0: b"\0", 1: opening(), 2: target(b"z", b"ACGT"), 3: fragment(9, read(b"AC")),
               4: read(b"AC"), 5: END, 6: b"\6", 255: b"\xff"}
    for code in range(1, 6):    # the same with the highest bit set
        command[128 + code] = bytes([128 + code]) + command[code][1:]
    first, second = read(b"AC", role=R1), read(b"AC", role=R2)
    start = opening(PAIRED)
    head = fragment(0, count=2)
    whole = head + first + second
    places = [
        # place, before it, behind it, kinds of the lines before E, codes refused there
        ("first", b"", start + T1 + whole + END, "", (0, 2, 3, 4, 5, 6, 129, 255)),
        ("behind_01", start, T1 + whole + END, "", (0, 1, 4, 6, 130, 255)),
        ("behind_02", start + T1, whole + END, "", (0, 1, 4, 6, 131, 255)),
        ("before_r1", start + T1 + head, first + second + END, "", (0, 1, 2, 3, 5, 6, 132, 255)),
        ("before_r2", start + T1 + head + first, second + END, "", (0, 1, 2, 3, 5, 6, 255)),
        ("behind_fragment", start + T1 + whole, END, RGG + RGG, (0, 1, 2, 4, 6, 133, 255)),
        ("behind_05", start + T1 + whole + END, b"", RGG + RGG, (0, 1, 2, 3, 4, 5, 6, 255)),
    ]
    for place, before, behind, kinds, codes in places:
        for code in codes:
            case("code_%d_%s" % (code, place), before + command[code] + behind,
                 refused(20), kinds + "E")
    case("bytes_behind_05_without_fragment", opening() + T1 + END + END, refused(20), "E")
    case("byte_behind_01_05", opening() + END + b"\0", refused(20), "E")
    # "any 02s, any 03s": neither is needed (reading 2).
    case("01_05", opening() + END, totals(0, 0, 0), sheet(0))
    case("01_02_05", opening() + T1 + END, totals(0, 0, 0), sheet(1))
    case("01_03_05", opening() + F0 + END, totals(0, 0, 0), "R" + sheet(0), ["R 0 S 3 0"])


def cases_marks():
    """Refusal 20 for another mark than those listed, the highest bit alone included."""
    for value in (2, 129, 255):
        case("mode_%d" % value, opening(mode=value) + T1 + F0 + END, refused(20), "E")
        case("remap_%d" % value, opening(remap=value) + T1 + F0 + END, refused(20), "E")
        case("topology_%d" % value, opening() + target(b"t", b"ACGT", value) + F0 + END,
             refused(20), "E")
        case("topology_%d_of_second" % value,
             opening() + T1 + target(b"u", b"ACGT", value) + F0 + END, refused(20), "E")
        case("quality_mark_%d" % value,
             opening() + T1 + fragment(0, b"\4\0" + bytes([value, 2, 0, 0, 0]) + b"ACII") + END,
             refused(20), "E")
        case("quality_mark_%d_remap_off" % value,
             opening(remap=OFF) + T1 + fragment(0, b"\4\0" + bytes([value, 0, 0, 0, 0])) + END,
             refused(20), "E")
    for value in (3, 130, 255):
        case("role_%d" % value, opening() + T1 + fragment(0, read(b"AC", role=value)) + END,
             refused(20), "E")
        case("role_%d_of_r2" % value,
             opening(PAIRED) + T1 + P0
             + fragment(1, read(b"AC", role=R1), read(b"AC", role=value)) + END,
             refused(20), RGG + RGG + "E")


def cases_identifiers():
    """Refusal 20 for "an identifier that is empty or has a byte outside 33 to 126"."""
    def with_identifier(name, identifier, sound):
        stream = opening() + target(identifier, b"ACGT") + F0 + END
        if sound:
            text = identifier.decode()
            case(name, stream, totals(2, 0, 1), RGG + sheet(1),
                 ["G %s 0 2 +" % text, "G %s 2 4 -" % text, "T %s 2 0 1 %s" % (text, COMPLETE)])
        else:
            case(name, stream, refused(20), "E")

    with_identifier("identifier_empty", b"", False)
    for byte in (0, 9, 10, 13, 31, 32, 127, 128, 255):
        with_identifier("identifier_byte_%d" % byte, bytes([byte]), False)
    with_identifier("identifier_space_first", b" ab", False)
    with_identifier("identifier_space_inside", b"a b", False)
    with_identifier("identifier_space_last", b"ab ", False)
    with_identifier("identifier_byte_127_last", b"ab\x7f", False)
    with_identifier("identifier_byte_33", b"!", True)
    with_identifier("identifier_byte_126", b"~", True)
    with_identifier("identifier_bytes_33_126", b"!~", True)
    with_identifier("identifier_every_byte", bytes(range(33, 127)), True)
    with_identifier("identifier_255_bytes", b"i" * 255, True)
    with_identifier("identifier_255_bytes_last_bad", b"i" * 254 + b" ", False)
    case("identifier_empty_of_second", opening() + T1 + target(b"", b"ACGT") + END,
         refused(20), "E")
    case("identifier_space_of_closed", opening() + T1 + closed(b"b b", b"ACGT") + END,
         refused(20), "E")


def cases_stream_bounds():
    """Read count, number of targets, bases in all, bases of a read: the bound and one more."""
    three = fragment(0, read(b"AC"), read(b"AC"), read(b"AC"))
    case("read_count_3", opening() + T1 + three + END, refused(20), "E")
    case("read_count_3_paired", opening(PAIRED) + T1 + P0 + fragment(1, count=3)
         + read(b"AC", role=R1) + read(b"AC", role=R2) + read(b"AC", role=R2) + END,
         refused(20), RGG + RGG + "E")
    case("read_count_255", opening() + T1 + fragment(0, read(b"AC"), count=255) + END,
         refused(20), "E")

    def many(number, closed_ones=0):
        return b"".join(target(b"t%02d" % n, b"ACGT", CLOSED if n < closed_ones else LINEAR)
                        for n in range(number))
    case("targets_16", opening(limit=100) + many(16) + F0 + END, totals(32, 0, 16),
         "R" + "G" * 32 + sheet(16))
    case("targets_17", opening() + many(17) + F0 + END, refused(20), "E")
    case("targets_16_closed", opening() + many(16, 16) + F0 + END, totals(0, 0, 0),
         "R" + sheet(16))
    case("targets_17_closed", opening() + many(17, 17) + F0 + END, refused(20), "E")
    case("targets_17_one_linear", opening() + many(17, 16) + F0 + END, refused(20), "E")

    long_read = b"GATTACA" * 4
    def in_all(name, *parts):
        """Targets of these lengths; a closed walk where the length is negative."""
        catalogue = b"".join(target(b"t%d" % n, b"C" * abs(part), CLOSED if part < 0 else LINEAR)
                             for n, part in enumerate(parts))
        sound = sum(map(abs, parts)) <= 1024
        case(name, opening() + catalogue + fragment(0, read(long_read)) + END,
             totals(0, 0, 0) if sound else refused(20), "R" + sheet(len(parts)) if sound else "E")
    in_all("bases_1024", 1024)
    in_all("bases_1025", 1025)
    in_all("bases_1024_over_three", 500, 23, 501)
    in_all("bases_1025_over_three", 500, 24, 501)
    in_all("bases_1024_with_closed", 24, -1000)
    in_all("bases_1025_with_closed", 25, -1000)
    in_all("bases_1024_closed_first", -1000, 24)
    in_all("bases_1025_closed_first", -1000, 25)
    in_all("bases_1024_closed", -1024)
    in_all("bases_1025_closed", -1025)
    in_all("bases_1024_then_1", 1024, 1)
    # A target of 0 bases behind 1,024 is inside the bound; the opening then refuses it.
    case("bases_1024_then_0", opening() + target(b"a", b"C" * 1024) + target(b"b", b"") + END,
         refused(3), "E")
    case("bases_announced_2_32", opening() + struct.pack("<BBBI", 2, 0, 1, 2**32 - 1) + b"tACGT",
         refused(20), "E")
    case("bases_last_in_place_1023", opening() + target(b"t", b"A" * 1020 + b"ACGT") +
         fragment(0, read(b"GT")) + fragment(1, read(b"ACGT")) + END, None,
         "RGGRGG" + sheet(1), ["R 0 S 5 2", "G t 1020 1022 -", "G t 1022 1024 +",
                               "R 1 S 5 2", "G t 1020 1024 +", "G t 1020 1024 -"])

    n = 4096
    fine = b"I" * n
    case("read_4096", opening() + T1 + fragment(0, read(b"A" * n)) + END, totals(0, 0, 0),
         "R" + sheet(1), ["R 0 S 3 0"])
    case("read_4097", opening() + T1 + fragment(0, read(b"A" * (n + 1))) + END, refused(20), "E")
    case("read_4096_qualities", opening() + T1 + fragment(0, read(b"A" * n, fine)) + END,
         totals(0, 0, 0), "R" + sheet(1), ["R 0 S 3 0"])
    case("read_4096_last_quality_bad",
         opening() + T1 + fragment(0, read(b"A" * n, fine[1:] + b" ")) + END, refused(16), "E")
    case("read_4096_remap_off", opening(remap=OFF) + T1 + fragment(0, read(b"A" * n)) + END,
         DISABLED, "R" + sheet(1, remap=OFF), ["R 0 S 0 -"])
    case("read_4097_remap_off", opening(remap=OFF) + T1 + fragment(0, read(b"A" * (n + 1))) + END,
         refused(20), "E")
    case("read_4097_r2", opening(PAIRED) + T1 + P0 + pair(1, b"AC", b"A" * (n + 1)) + END,
         refused(20), RGG + RGG + "E")
    case("read_4096_last_base_n", opening() + T1 + fragment(0, read(b"A" * (n - 1) + b"N")) + END,
         totals(0, 0, 0), "R" + sheet(1), ["R 0 S 1 -"])
    case("read_announced_65536", opening() + T1 + fragment(0, struct.pack("<BBBI", 4, 0, 0, 65536))
         + b"AC" + END, refused(20), "E")
    case("read_announced_2_32", opening() + T1
         + fragment(0, struct.pack("<BBBI", 4, 0, 1, 2**32 - 1)) + b"ACII" + END, refused(20), "E")


def cases_short_streams():
    """A stream that ends at every place of a sound one: "a short stream" wherever it ends but
    right behind 05 (reading 6). Fragments that are whole have their lines."""
    start = opening(PAIRED, floor=5) + target(b"t", b"ACGTA") + closed(b"b", b"AC")
    one = pair(0, b"AC", b"TA", b"IJ", b"KL")       # RGG RGG
    two = pair(7, b"GTA", b"A")                     # RG RGGG
    sound = start + one + two + END
    kinds_one, kinds_two = "RGGRGG", "RGRGGG"
    case("short_not", sound, totals(8, 1, 3), kinds_one + kinds_two + sheet(2, PAIRED))
    for length in range(len(sound)):
        kinds = ""
        if length >= len(start + one):
            kinds += kinds_one
        if length >= len(start + one + two):
            kinds += kinds_two
        case("short_%03d" % length, sound[:length], refused(20), kinds + "E")


def cases_left_out():
    """Two sound streams without one of their bytes, at every place, and with one byte more."""
    rich = (opening(PAIRED, floor=5) + target(b"t", b"ACGTA") + closed(b"b", b"AC")
            + pair(0, b"AC", b"TA", b"IJ", b"KL") + END)
    for word, sound in (("example", EXAMPLE), ("pair", rich)):
        for place in range(len(sound)):
            case("left_out_%s_%02d" % (word, place), sound[:place] + sound[place + 1:])
        for place in range(len(sound) + 1):
            case("put_in_%s_%02d" % (word, place), sound[:place] + b"\1" + sound[place:])


# --- The opening -----------------------------------------------------------------------------

def cases_opening():
    """11, 9, 3, 4 in this order, with remap off too."""
    for remap, word in ((ON, "on"), (OFF, "off")):
        def opened(name, number, rest=T1, **settings):
            kinds = "E" if number else sheet(1, remap=remap)
            case("%s_remap_%s" % (name, word), opening(remap=remap, **settings) + rest + END,
                 refused(number) if number else None, kinds)
        opened("floor_93", 0, floor=93)
        opened("floor_94", 11, floor=94)
        opened("floor_255", 11, floor=255)
        opened("limit_0", 9, limit=0)
        opened("limit_1", 0, limit=1)
        opened("limit_10000000", 0, limit=10_000_000)
        opened("limit_10000001", 9, limit=10_000_001)
        opened("limit_2_64", 9, limit=2**64 - 1)
        opened("target_empty", 3, rest=target(b"t", b""))
        opened("target_lower_case", 3, rest=target(b"t", b"ACgT"))
        opened("closed_empty", 3, rest=closed(b"b", b""))
        opened("closed_lower_case", 3, rest=closed(b"b", b"acgt"))
        opened("double_name", 4, rest=T1 + target(b"t", b"GG"))
    # One that has only its lowest 32 or 24 bits inside the bound.
    case("limit_2_32_plus_1", opening(limit=2**32 + 1) + T1 + END, refused(9), "E")
    case("limit_2_24", opening(limit=2**24) + T1 + END, refused(9), "E")
    for byte in (0, 10, 32, 64, 66, 78, 85, 91, 97, 99, 103, 110, 116, 193, 255):
        case("target_byte_%d" % byte, opening() + target(b"t", b"ACGT" + bytes([byte])) + F0 + END,
             refused(3), "E")
    case("target_bad_first", opening() + target(b"t", b"NACGT") + END, refused(3), "E")
    case("double_name_linear_closed", opening() + T1 + closed(b"t", b"AC") + END, refused(4), "E")
    case("double_name_closed", opening() + closed(b"b", b"AC") + T1 + closed(b"b", b"AC") + END,
         refused(4), "E")
    case("double_name_far_apart",
         opening() + T1 + target(b"a", b"A") + target(b"z", b"A") + target(b"t", b"A") + END,
         refused(4), "E")
    case("names_prefix_and_case", opening() + T1 + target(b"tt", b"A") + target(b"T", b"A") + END,
         totals(0, 0, 0), sheet(3))
    twice = target(b"t", b"ACGT") * 2
    bad = target(b"x", b"ACNT")
    order = [
        # name, settings, catalogue, number
        ("11_before_9", dict(floor=94, limit=0), T1, 11),
        ("11_before_3", dict(floor=94), bad, 11),
        ("11_before_4", dict(floor=94), twice, 11),
        ("9_before_3", dict(limit=0), bad, 9),
        ("9_before_4", dict(limit=0), twice, 9),
        ("3_of_last_before_4_of_first", {}, twice + bad, 3),
        ("3_of_last_closed_before_4", {}, twice + closed(b"x", b""), 3),
        ("3_first_before_4", {}, bad + twice, 3),
        ("all_four", dict(floor=255, limit=0), twice + bad, 11),
    ]
    for name, settings, catalogue, number in order:
        case("opening_" + name, opening(**settings) + catalogue + F0 + END, refused(number), "E")


def cases_opening_and_20():
    """Reading 1: a 20 before the opening wins over it, and the opening over all behind the code
    at which it runs."""
    broken = [
        ("11", opening(floor=94) + T1, 11),
        ("9", opening(limit=0) + T1, 9),
        ("3", opening() + target(b"t", b"ACNT"), 3),
        ("4", opening() + T1 + T1, 4),
    ]
    before = [
        ("the_end", b""), ("code_6", b"\6" + END), ("short_02", target(b"u", b"ACGT")[:-1]),
        ("code_0", b"\0" + END), ("second_01", opening() + END), ("04", read(b"AC") + END),
        ("bad_topology", target(b"u", b"A", 2) + F0 + END),
        ("bad_identifier", target(b"u u", b"A") + F0 + END)]
    behind = [
        ("short_03", b"\3"), ("bytes_behind_05", END + END),
        ("read_count_3", fragment(0, count=3)), ("no_04", fragment(0, count=1) + END),
        ("role_3", fragment(0, read(b"AC", role=3))),
        ("read_4097_announced", fragment(0, struct.pack("<BBBI", 4, 0, 0, 4097)))]
    for word, start, number in broken:
        # All of them with 11, the first few with the others.
        for name, rest in before if number == 11 else before[:3]:
            case("20_%s_before_opening_%s" % (name, word), start + rest, refused(20), "E")
        for name, rest in behind if number == 11 else behind[:2]:
            case("opening_%s_before_20_%s" % (word, name), start + rest, refused(number), "E")
    case("20_mode_before_11", opening(mode=2, floor=94) + END, refused(20), "E")
    case("20_remap_before_9", opening(remap=2, limit=0) + END, refused(20), "E")
    case("20_short_01_before_11", opening(floor=94)[:-1], refused(20), "E")
    case("20_17_targets_before_3",
         opening() + b"".join(target(b"%d" % n, b"") for n in range(17)) + END, refused(20), "E")
    case("16_targets_empty", opening() + b"".join(target(b"%d" % n, b"") for n in range(16)) + END,
         refused(3), "E")
    case("opening_before_13_and_14", opening(limit=0) + T1 + fragment(0, read(b"", role=R1)) + END,
         refused(9), "E")


# --- Fragments -------------------------------------------------------------------------------

def cases_ordinals():
    """12: "ordinal not above the last accepted"."""
    top = 2**64 - 1

    def ordinals(name, *numbers):
        good = []
        for number in numbers:
            if good and number <= good[-1]:
                break
            good.append(number)
        stream = opening() + T1 + b"".join(fragment(n, read(b"ACG")) for n in numbers) + END
        lines = ["R %d S 5 2" % number for number in good]
        if len(good) < len(numbers):
            case("ordinals_" + name, stream, refused(12), RGG * len(good) + "E", lines)
        else:
            case("ordinals_" + name, stream, totals(2 * len(good), 0, len(good)),
                 RGG * len(good) + sheet(1), lines)
    ordinals("0_1_2", 0, 1, 2)
    ordinals("equal_0", 0, 0)
    ordinals("equal", 5, 5)
    ordinals("falling", 5, 4)
    ordinals("to_0", 1, 0)
    ordinals("first_7", 7, 8, 1000)
    ordinals("falling_later", 1, 2, 9, 3, 10)
    ordinals("top", top)
    ordinals("0_top", 0, top)
    ordinals("top_minus_1", top - 1, top)
    ordinals("top_top", top, top)
    ordinals("top_0", top, 0)
    ordinals("top_1", top, 1)
    ordinals("over_2_63", 2**63 - 1, 2**63, 2**63 + 1)
    ordinals("over_2_32", 2**32 - 1, 2**32, 2**32 + 1)
    ordinals("2_32_then_1", 2**32, 1)
    ordinals("over_255", 255, 256, 257)


def cases_roles():
    """13: "not exactly S, or R1 then R2, by mode"; read counts 0 to 2 (reading 4)."""
    words = {S: "s", R1: "r1", R2: "r2"}
    for mode, mode_word, right in ((SINGLE, "single", [S]), (PAIRED, "paired", [R1, R2])):
        choices = [[]] + [[a] for a in words] + [[a, b] for a in words for b in words]
        for roles in choices:
            if roles == right:
                continue
            name = "_".join(words[role] for role in roles) or "none"
            case("roles_%s_%s" % (mode_word, name),
                 opening(mode) + T1 + fragment(0, *[read(b"AC", role=r) for r in roles]) + END,
                 refused(13), "E")
    case("roles_right_single", opening() + T1 + F0 + END, totals(2, 0, 1), RGG + sheet(1))
    case("roles_right_paired", opening(PAIRED) + T1 + P0 + END, totals(4, 0, 2),
         RGG + RGG + sheet(1, PAIRED), ["R 0 R1 5 2", "R 0 R2 5 2"])
    case("roles_remap_off", opening(remap=OFF) + T1 + fragment(0, read(b"", role=R2)) + END,
         refused(13), "E")
    case("roles_second_fragment", opening() + T1 + F0 + fragment(1, read(b"AC", role=R1)) + END,
         refused(13), RGG + "E")


def cases_fragment_order():
    """The order of refusals on one fragment, and between the reads of a pair (reading 14)."""
    single, paired = opening() + T1, opening(PAIRED) + T1
    wide = opening(PAIRED, limit=10_000_000) + target(b"t", b"A" * 129)
    bad = b" I"     # 16 at the first byte
    order = [
        # name, stream before the fragment, kinds of its lines, fragment, number
        ("12_before_13", single + F0, RGG, fragment(0, read(b"AC", role=R1)), 12),
        ("12_before_13_no_read", single + F0, RGG, fragment(0), 12),
        ("12_before_14", single + F0, RGG, fragment(0, read(b"")), 12),
        ("12_before_16", single + F0, RGG, fragment(0, read(b"AC", bad)), 12),
        ("13_before_14", single, "", fragment(0, read(b"", role=R2)), 13),
        ("13_before_16", single, "", fragment(0, read(b"AC", bad, R2)), 13),
        ("13_two_in_single_before_14", single, "", fragment(0, read(b""), read(b"")), 13),
        ("14_of_r1", paired, "", pair(0, b"", b"AC"), 14),
        ("14_of_r2", paired, "", pair(0, b"AC", b""), 14),
        ("16_of_r1", paired, "", pair(0, b"AC", b"AC", bad), 16),
        ("16_of_r2", paired, "", pair(0, b"AC", b"AC", None, bad), 16),
        ("14_of_r1_before_16_of_r2", paired, "", pair(0, b"", b"AC", None, bad), 14),
        ("16_of_r1_before_14_of_r2", paired, "", pair(0, b"AC", b"", bad, None), 16),
        ("14_of_both", paired, "", pair(0, b"", b"", b"", b""), 14),
        ("14_of_r2_behind_ineligible_r1", paired, "", pair(0, b"NN", b""), 14),
        ("16_of_r2_behind_low_r1", opening(PAIRED, floor=20) + T1, "",
         pair(0, b"AC", b"AC", b"45", [126, 127]), 16),
        ("14_of_r2_before_10_of_r1", wide, "", pair(0, b"A", b""), 14),
        ("16_of_r2_before_10_of_r1", wide, "", pair(0, b"A", b"C", None, b" "), 16),
        ("14_of_r1_before_10_of_r2", wide, "", pair(0, b"", b"A"), 14),
        ("10_of_r1", wide, "", pair(0, b"A", b"C"), 10),
        ("10_of_r2", wide, "", pair(0, b"C", b"T"), 10),
        ("10_of_both", wide, "", pair(0, b"A", b"A"), 10),
        ("14_of_r2_behind_indeterminate_r1", opening(PAIRED, limit=1) + T1, "",
         pair(0, b"AC", b""), 14),
        ("14_with_empty_qualities", single, "", fragment(0, read(b"", b"")), 14),
    ]
    for name, before, kinds, last, number in order:
        case("fragment_" + name, before + last + END, refused(number), kinds + "E")


def cases_fragment_and_20():
    """20 "is found before any other check on that fragment"; what stands behind a whole fragment
    is not of it (reading 3). Lines of accepted fragments stay."""
    single, paired = opening() + T1, opening(PAIRED) + T1
    case("20_before_12", single + F0 + fragment(0, count=3) + END, refused(20), RGG + "E")
    case("20_before_12_short", single + F0 + fragment(0, read(b"AC"))[:-1], refused(20), RGG + "E")
    case("20_before_13", paired + P0 + fragment(1, read(b"AC", role=R2), count=2) + END,
         refused(20), RGG + RGG + "E")
    case("20_before_14", paired + fragment(0, read(b"", role=R1), read(b"AC", role=3)) + END,
         refused(20), "E")
    case("20_before_16", paired + pair(0, b"AC", b"AC", b" I")[:-1], refused(20), "E")
    case("20_before_10", opening(PAIRED, limit=1000) + target(b"t", b"A" * 129)
         + fragment(0, read(b"A", role=R1), count=2) + END, refused(20), "E")
    case("12_before_later_20", single + F0 + F0 + b"\6", refused(12), RGG + "E")
    case("13_before_later_20", single + fragment(0, read(b"AC", role=R1)) + b"\6", refused(13), "E")
    case("13_before_the_end", single + fragment(0, read(b"AC", role=R1)), refused(13), "E")
    case("14_before_later_20", single + fragment(0, read(b"")) + opening(), refused(14), "E")
    case("16_before_04_too_many", single + fragment(0, read(b"AC", b" I")) + read(b"AC"),
         refused(16), "E")
    case("10_before_later_20", opening(limit=1000) + target(b"t", b"A" * 257)
         + fragment(0, read(b"A")) + b"\0", refused(10), "E")
    case("04_too_many", single + F0 + read(b"AC") + END, refused(20), RGG + "E")
    case("04_too_many_of_pair", paired + P0 + read(b"AC", role=R2) + END, refused(20),
         RGG + RGG + "E")
    case("04_too_many_behind_none", single + fragment(0) + read(b"AC") + END, refused(13), "E")
    case("04_too_many_behind_none_12", single + F0 + fragment(0) + read(b"AC") + END,
         refused(12), RGG + "E")
    case("04_too_few", single + fragment(0, count=1) + END, refused(20), "E")
    case("04_too_few_of_pair", paired + P0 + fragment(1, read(b"AC", role=R1), count=2) + END,
         refused(20), RGG + RGG + "E")
    case("03_inside", single + fragment(0, count=1) + fragment(1, read(b"AC")) + END,
         refused(20), "E")
    case("03_inside_pair", paired + fragment(0, read(b"AC", role=R1), count=2) + P0 + END,
         refused(20), "E")
    case("02_behind_03", single + F0 + target(b"u", b"A") + END, refused(20), RGG + "E")
    case("lines_stay_before_13", single + F0 + fragment(1, read(b"GGG")) + fragment(2),
         refused(13), RGG + "R" + "E")
    case("lines_stay_before_14", single + F0 + fragment(1, read(b"ACGT")) + fragment(2, read(b"")),
         refused(14), RGG + RGG + "E")
    case("lines_stay_before_20",
         single + F0 + fragment(1, read(b"N")) + fragment(2, read(b"AC"))[:9],
         refused(20), RGG + "R" + "E")
    case("lines_stay_behind_05", single + F0 + fragment(1, read(b"AC")) + END + b"\0",
         refused(20), RGG + RGG + "E")


# --- Eligibility -----------------------------------------------------------------------------

def cases_qualities():
    """The read is the end of AAAC, which it matches once; `outcome` is its state, or 16."""
    def quality(floor, qualities, outcome):
        name = "floor_%d_bytes_%s" % (floor, "_".join(map(str, qualities)))
        bases = b"AAAC"[4 - len(qualities):]
        stream = (opening(floor=floor) + target(b"t", b"AAAC")
                  + fragment(3, read(bases, qualities)) + END)
        if outcome == 16:
            case(name, stream, refused(16), "E")
        elif outcome == INELIGIBLE:
            case(name, stream, totals(0, 0, 0), "R" + sheet(1), ["R 3 S 1 -", "S S 1 1"])
        else:
            case(name, stream, totals(1, 1, 0), "RG" + sheet(1),
                 ["R 3 S 4 1", "G t %d 4 +" % (4 - len(bases)), "S S 4 1"])
    low, fine = INELIGIBLE, ONE_GROUP
    for floor, qualities, outcome in [
            (0, [33], fine), (0, [126], fine), (0, [33, 126], fine),
            (0, [32], 16), (0, [127], 16), (0, [0], 16), (0, [255], 16), (0, [128], 16),
            (0, [33, 32], 16), (0, [126, 33, 127], 16),
            (1, [33], low), (1, [34], fine), (1, [32], 16),
            (20, [53], fine), (20, [52], low), (20, [52, 127], low), (20, [127, 52], 16),
            (20, [53, 52], low), (20, [53, 32], 16), (20, [52, 32], low), (20, [32, 52], 16),
            (20, [53, 53, 52, 255], low), (20, [53, 53, 255, 52], 16),
            (93, [126], fine), (93, [125], low), (93, [33], low), (93, [127], 16),
            (93, [126, 125], low), (93, [126, 126, 126, 126], fine), (93, [125, 127], low)]:
        quality(floor, qualities, outcome)
    case("floor_94_byte_126", opening(floor=94) + T1 + fragment(0, read(b"A", [126])) + END,
         refused(11), "E")
    case("floor_93_without_qualities",
         opening(floor=93) + target(b"t", b"AAAC") + fragment(0, read(b"AC")) + END,
         totals(1, 1, 0), "RG" + sheet(1))
    # Qualities come before bases (reading 15).
    case("n_and_bad_quality", opening() + T1 + fragment(0, read(b"NC", [40, 32])) + END,
         refused(16), "E")
    case("n_and_low_quality", opening(floor=20) + T1 + fragment(0, read(b"NC", [40, 127])) + END,
         totals(0, 0, 0), "R" + sheet(1), ["R 0 S 1 -"])
    case("n_and_fine_quality", opening(floor=20) + T1 + fragment(0, read(b"NC", [60, 60])) + END,
         totals(0, 0, 0), "R" + sheet(1), ["R 0 S 1 -"])
    allowed = range(33, 127)
    case("every_allowed_quality", opening() + target(b"t", b"AAAC")
         + b"".join(fragment(n, read(b"C", [n])) for n in allowed) + END,
         totals(94, 94, 0), "RG" * 94 + sheet(1))
    case("every_quality_at_floor_50", opening(floor=50) + target(b"t", b"AAAC")
         + b"".join(fragment(n, read(b"C", [n])) for n in allowed) + END,
         totals(44, 44, 0), "R" * 50 + "RG" * 44 + sheet(1), ["R 82 S 1 -", "R 83 S 4 1"])


def cases_read_bases():
    """Any byte may stand in a read (reading 11); ACGT in either case are eligible."""
    def kinds(byte):
        return "RGG" if byte in b"ACGTacgt" else "R"
    every = range(256)
    # On ACGT each letter is found once on each strand.
    case("every_byte_as_a_read", opening() + T1 + fragments(bytes([b]) for b in every) + END,
         totals(16, 0, 8), "".join(map(kinds, every)) + sheet(1), ["S S 1 248", "S S 5 8"])
    middle = b"GATTACAG"
    # The same in a read of 17 bases, of which one byte agrees with the target, in either case.
    case("every_byte_inside_a_read", opening() + target(b"t", middle + b"C" + middle[::-1])
         + fragments(middle + bytes([b]) + middle[::-1] for b in every) + END,
         totals(2, 2, 0), None, ["R 67 S 4 1", "G t 0 17 +", "R 99 S 4 1", "G t 0 17 +",
                                 "S S 1 248", "S S 3 6", "S S 4 2"])
    for name, bases in (("lower", b"acg"), ("mixed", b"aCg"), ("upper", b"ACG")):
        case("case_" + name, opening() + target(b"t", b"ACGTACGT") + fragment(0, read(bases)) + END,
             totals(4, 0, 1), "RGGGG" + sheet(1),
             ["G t 0 3 +", "G t 1 4 -", "G t 4 7 +", "G t 5 8 -"])
    case("case_lower_of_20", opening() + target(b"t", L40)
         + fragments([L40[7:27].lower(), turned_round(L40[7:27]).lower()]) + END,
         totals(2, 2, 0), "RGRG" + sheet(1), ["G t 7 27 +", "G t 7 27 -"])
    for name, bases in (("first", b"NACGT"), ("last", b"ACGTN"), ("alone", b"N"),
                        ("of_20", L40[:10] + b"N" + L40[11:20])):
        case("n_" + name, opening() + target(b"t", L40) + fragment(0, read(bases)) + END,
             totals(0, 0, 0), "R" + sheet(1), ["R 0 S 1 -", "S S 1 1"])


# --- Groups ----------------------------------------------------------------------------------

def placed(name, catalogue, bases, groups, targets=1):
    """One S read on a catalogue of so many targets; its groups are written out by hand, as the
    G lines without their G."""
    state = min(UNMAPPED + len(groups), SEVERAL_GROUPS)
    distinct = len({group.split()[0] for group in groups})
    one = len(groups) == 1
    case("groups_" + name, opening(limit=1000) + catalogue + fragment(0, read(bases)) + END,
         totals(len(groups), 1 if one else 0, 0 if one else distinct),
         "R" + "G" * len(groups) + sheet(targets),
         ["R 0 S %d %d" % (state, len(groups))] + ["G " + group for group in groups])


def cases_groups():
    board = target(b"t", b"ACGTACGT")
    placed("board_acg", board, b"ACG", ["t 0 3 +", "t 1 4 -", "t 4 7 +", "t 5 8 -"])
    placed("board_acgt", board, b"ACGT", ["t 0 4 +", "t 0 4 -", "t 4 8 +", "t 4 8 -"])
    placed("board_gtac", board, b"GTAC", ["t 2 6 +", "t 2 6 -"])
    placed("board_ac", board, b"AC", ["t 0 2 +", "t 2 4 -", "t 4 6 +", "t 6 8 -"])
    placed("board_aaa", board, b"AAA", [])
    placed("board_cgtacgta", board, b"CGTACGTA", [])
    placed("board_whole", board, b"ACGTACGT", ["t 0 8 +", "t 0 8 -"])
    placed("one_longer_than_target", board, b"ACGTACGTA", [])
    placed("a_on_a", target(b"t", b"A"), b"A", ["t 0 1 +"])
    placed("t_on_a", target(b"t", b"A"), b"T", ["t 0 1 -"])
    placed("g_on_a", target(b"t", b"A"), b"G", [])
    placed("linear_does_not_close", target(b"t", b"ACGG"), b"GA", [])
    placed("closed_is_not_mapped", closed(b"b", b"ACGT"), b"AC", [])
    placed("closed_beside_linear", closed(b"a", b"GGAC") + target(b"m", b"GGAC") +
           closed(b"z", b"GGAC"), b"GGA", ["m 0 3 +"], targets=3)
    long_one = target(b"t", L40)
    # Every start on both strands, for lengths round the seed's.
    for length in (12, SEED - 1, SEED, SEED + 1, SEED + 2, 2 * SEED, 39, 40):
        starts = range(40 - length + 1)
        windows = [L40[start:start + length] for start in starts]
        reads = [bases for window in windows for bases in (window, turned_round(window))]
        lines = ["G t %d %d %s" % (start, start + length, strand)
                 for start in starts for strand in "+-"]
        case("groups_each_start_of_%d" % length, opening() + long_one + fragments(reads) + END,
             totals(len(reads), len(reads), 0), "RG" * len(reads) + sheet(1), lines)
    for length in (SEED - 1, SEED, SEED + 1):
        whole = L40[:length]
        placed("target_of_%d" % length, target(b"t", whole), whole, ["t 0 %d +" % length])
        placed("target_of_%d_turned" % length, target(b"t", whole), turned_round(whole),
               ["t 0 %d -" % length])
        placed("longer_than_target_of_%d" % length, target(b"t", whole), L40[:length + 1], [])
    # A seed agrees, but the read would start before 0 or end past the target.
    placed("before_0", long_one, b"C" + L40[:20], [])
    placed("past_the_end", long_one, L40[20:] + b"C", [])
    placed("before_0_turned", long_one, turned_round(b"C" + L40[:20]), [])
    placed("past_the_end_turned", long_one, turned_round(L40[20:] + b"C"), [])
    placed("longer_than_40", long_one, b"C" + L40, [])
    # One letter differs, first, inside, last.
    for name, place in (("first", 0), ("inside", 10), ("last", 19)):
        window = bytearray(L40[10:30])
        window[place] = ord("A") if window[place] != ord("A") else ord("C")
        placed("differs_" + name, long_one, bytes(window), [])
    # Repeats and palindromes.
    run40 = target(b"t", b"A" * 40)
    placed("run_15", run40, b"A" * 15, ["t %d %d +" % (n, n + 15) for n in range(26)])
    placed("run_15_turned", run40, b"T" * 15, ["t %d %d -" % (n, n + 15) for n in range(26)])
    placed("run_14", run40, b"A" * 14, ["t %d %d +" % (n, n + 14) for n in range(27)])
    placed("run_40", run40, b"A" * 40, ["t 0 40 +"])
    placed("run_41", run40, b"A" * 41, [])
    both = ["t %d %d %s" % (n, n + 16, strand) for n in range(0, 25, 2) for strand in "+-"]
    placed("palindrome_16", target(b"t", b"AT" * 20), b"AT" * 8, both)
    both = ["t %d %d %s" % (n, n + 14, strand) for n in range(0, 27, 2) for strand in "+-"]
    placed("palindrome_14", target(b"t", b"AT" * 20), b"AT" * 7, both)
    placed("palindrome_20_once", target(b"t", b"C" + b"ACGTACGTTTAAACGTACGT" + b"C"),
           b"ACGTACGTTTAAACGTACGT", ["t 1 21 +", "t 1 21 -"])
    placed("palindrome_2", target(b"t", b"CATC"), b"AT", ["t 1 3 +", "t 1 3 -"])
    # A read whose ends are common and whose middle is rare.
    island = target(b"t", b"A" * 20 + b"C" + b"A" * 20)
    placed("rare_middle", island, b"A" * 10 + b"C" + b"A" * 10, ["t 10 31 +"])
    placed("rare_last", island, b"A" * 18 + b"C", ["t 2 21 +"])
    placed("rare_first", island, b"C" + b"A" * 18, ["t 20 39 +"])
    placed("rare_past_the_end", island, b"C" + b"A" * 21, [])
    placed("common_only", island, b"A" * 16,
           ["t %d %d +" % (n, n + 16) for n in [*range(5), *range(21, 26)]])
    placed("strands_interleaved", target(b"t", b"A" * 16 + b"T" * 16 + b"A" * 16), b"A" * 16,
           ["t 0 16 +", "t 16 32 -", "t 32 48 +"])


def cases_several_targets():
    turned40 = turned_round(L40)
    two = target(b"u", turned40) + target(b"t", L40)
    placed("two_targets_20", two, L40[:20], ["t 0 20 +", "u 20 40 -"], targets=2)
    placed("two_targets_20_turned", two, turned40[:20], ["t 20 40 -", "u 0 20 +"], targets=2)
    placed("two_targets_12", two, L40[2:14], ["t 2 14 +", "u 26 38 -"], targets=2)
    placed("twice_on_one", target(b"t", L40[:20] + L40[:20]), L40[:18], ["t 0 18 +", "t 20 38 +"])
    placed("twice_and_once", target(b"b", L40[:20] + L40[:20]) + target(b"a", L40[:20]), L40[:18],
           ["a 0 18 +", "b 0 18 +", "b 20 38 +"], targets=2)
    # "by identifier bytes": a prefix before the longer, capitals before small letters.
    supplied = [b"b", b"a", b"B", b"aa", b"~", b"!", b"a!", b"10", b"9", b"Z~"]
    ranked = [b"!", b"10", b"9", b"B", b"Z~", b"a", b"a!", b"aa", b"b", b"~"]
    many = b"".join(target(name, b"GGAC") for name in supplied)
    case("ranks_of_names", opening(limit=20) + many + fragment(0, read(b"GAC")) + END,
         totals(10, 0, 10), "R" + "G" * 10 + sheet(10),
         ["G %s 1 4 +" % name.decode() for name in ranked]
         + ["T %s 1 0 1 %s" % (name.decode(), COMPLETE) for name in supplied])
    long_many = b"".join(target(name, L40) for name in supplied)
    case("ranks_of_names_by_seeds",
         opening(limit=20) + long_many + fragment(0, read(L40[:22])) + END,
         totals(10, 0, 10), "R" + "G" * 10 + sheet(10),
         ["G %s 0 22 +" % name.decode() for name in ranked])
    case("ranks_pass_over_closed",
         opening() + closed(b"a", b"GGAC") + target(b"d", b"GGAC") + closed(b"c", b"GGAC")
         + target(b"b", b"CGGAC") + fragment(0, read(b"GAC")) + fragment(1, read(b"CGG")) + END,
         totals(3, 1, 2), "RGGRG" + sheet(4),
         ["G b 2 5 +", "G d 1 4 +", "G b 0 3 +",
          "T a - - - " + CLOSED_UNSUPPORTED, "T d 1 0 1 " + COMPLETE,
          "T c - - - " + CLOSED_UNSUPPORTED, "T b 2 1 1 " + COMPLETE])
    # Multi rises once for each distinct target, not for each group.
    case("multi_once_for_each_target",
         opening() + target(b"t", b"GAGA") + target(b"u", b"GAC")
         + fragments([b"GA", b"AC", b"AG", b"GAGA"]) + END,
         totals(6, 3, 2), "RGGGRGRGRG" + sheet(2),
         ["T t 4 2 1 " + COMPLETE, "T u 2 1 1 " + COMPLETE])


def cases_limit():
    """Indeterminate: more matches than the limit, and entries enough for it (reading 16)."""
    def limited(name, limit, catalogue, bases, matches):
        stream = opening(limit=limit) + catalogue + fragment(0, read(bases)) + END
        if matches > ENTRIES and ENTRIES < limit:
            case("limit_" + name, stream, refused(10), "E")
        elif matches > limit:
            case("limit_" + name, stream, LIMITED, "R" + sheet(1),
                 ["R 0 S 2 -", "S S 2 1", "T t - - - " + CANDIDATE_LIMIT])
        else:
            one = matches == 1
            case("limit_" + name, stream, totals(matches, one, not one and matches > 0),
                 "R" + "G" * matches + sheet(1))
    a = [target(b"t", b"A" * n) for n in range(400)]
    limited("1_of_1", 1, target(b"t", b"AC"), b"AC", 1)
    limited("1_of_2", 1, T1, b"AC", 2)
    limited("1_palindrome", 1, T1, b"ACGT", 2)
    limited("1_of_0", 1, T1, b"TTT", 0)
    limited("2_of_2", 2, T1, b"AC", 2)
    limited("2_of_3", 2, a[3], b"A", 3)
    limited("3_of_3", 3, a[3], b"A", 3)
    limited("2_of_3_by_seeds", 2, a[18], b"A" * 16, 3)
    limited("3_of_3_by_seeds", 3, a[18], b"A" * 16, 3)
    limited("1_of_2_by_seeds", 1, a[17], b"T" * 16, 2)
    limited("1_of_1_by_seeds", 1, a[16], b"T" * 16, 1)
    # 256 entries for a read alone.
    for matches in (255, 256, 257):
        for limit in (255, 256, 257, 10_000_000):
            limited("%d_of_%d" % (limit, matches), limit, a[matches], b"A", matches)
    for matches in (256, 257):
        for limit in (256, 257):
            limited("%d_of_%d_by_seeds" % (limit, matches), limit, a[matches + 15], b"A" * 16,
                    matches)
    limited("1000_of_256_both_strands", 1000, target(b"t", b"AT" * 128), b"A", 256)
    limited("1000_of_258_both_strands", 1000, target(b"t", b"AT" * 129), b"A", 258)
    full = target(b"t", b"A" * 1024)
    for limit in (1, 256, 257, 1023, 1024, 10_000_000):
        limited("%d_of_1024" % limit, limit, full, b"A", 1024)
    # Ineligible reads have no "matches for refusal 10", nor those with remap off.
    case("limit_ineligible_has_no_matches",
         opening(floor=20, limit=1000) + full + fragment(0, read(b"A", b"!")) + END,
         totals(0, 0, 0), "R" + sheet(1), ["R 0 S 1 -"])
    case("limit_remap_off_has_no_matches",
         opening(remap=OFF, limit=1000) + full + fragment(0, read(b"A")) + END, DISABLED,
         "R" + sheet(1, remap=OFF), ["R 0 S 0 -"])
    case("limit_over_two_targets", opening(limit=300) + target(b"t", b"A" * 128)
         + target(b"u", b"A" * 129) + fragment(0, read(b"A")) + END, refused(10), "E")
    case("limit_behind_accepted", opening(limit=300) + a[257] + fragment(0, read(b"C"))
         + fragment(1, read(b"A" * 257)) + fragment(2, read(b"T")) + END, refused(10), "RRGE")


def cases_limit_of_pairs():
    """128 entries for each read of a pair."""
    def limited(name, limit, catalogue, first, second):
        """first and second: a read's bases and its number of matches."""
        stream = opening(PAIRED, limit=limit) + catalogue + pair(0, first[0], second[0]) + END
        kinds, last = "", None
        for _, matches in (first, second):
            if matches > 128 and 128 < limit:
                case("pair_limit_" + name, stream, refused(10), "E")
                return
            if matches > limit:
                last = LIMITED
            kinds += "R" + ("" if matches > limit else "G" * matches)
        case("pair_limit_" + name, stream, last, kinds + sheet(1, PAIRED))
    for matches in (128, 129):
        for limit in (127, 128, 129, 10_000_000):
            limited("%d_of_%d_r1" % (limit, matches), limit, target(b"t", b"A" * matches),
                    (b"A", matches), (b"C", 0))
            limited("%d_of_%d_r2" % (limit, matches), limit, target(b"t", b"A" * matches),
                    (b"C", 0), (b"T", matches))
    limited("129_of_128_both", 129, target(b"t", b"A" * 128), (b"A", 128), (b"T", 128))
    limited("200_of_130_by_seeds", 200, target(b"t", b"A" * 145), (b"A" * 16, 130), (b"C", 0))
    limited("200_of_128_by_seeds", 200, target(b"t", b"A" * 143), (b"A" * 16, 128),
            (b"T" * 16, 128))
    limited("1_of_2_r1", 1, T1, (b"AC", 2), (b"TTT", 0))
    limited("1_of_2_r2", 1, T1, (b"TTT", 0), (b"AC", 2))
    limited("1_of_2_both", 1, T1, (b"AC", 2), (b"GT", 2))


# --- The sheet -------------------------------------------------------------------------------

def cases_sheet():
    """Odd runs, and totals that are unavailable."""
    for mode, word in ((SINGLE, "single"), (PAIRED, "paired")):
        for remap, remap_word in ((ON, "on"), (OFF, "off")):
            name = "%s_remap_%s" % (word, remap_word)
            last = totals(0, 0, 0) if remap == ON else DISABLED
            status = COMPLETE if remap == ON else REMAP_DISABLED
            zeros = "0 0 0" if remap == ON else "- - -"
            case("nothing_" + name, opening(mode, remap) + END, last, sheet(0, mode, remap))
            case("only_closed_" + name,
                 opening(mode, remap) + closed(b"a", b"A") + closed(b"b", b"C") + END,
                 last, sheet(2, mode, remap),
                 ["T a - - - " + CLOSED_UNSUPPORTED, "T b - - - " + CLOSED_UNSUPPORTED])
            case("no_fragment_" + name, opening(mode, remap) + T1 + closed(b"b", b"C") + END, last,
                 sheet(2, mode, remap),
                 ["T t %s %s" % (zeros, status), "T b - - - " + CLOSED_UNSUPPORTED])
    case("only_closed_with_reads",
         opening() + closed(b"b", b"ACGT") + fragments([b"AC", b"N"]) + END,
         totals(0, 0, 0), "RR" + sheet(1), ["R 0 S 3 0", "R 1 S 1 -", "S S 1 1", "S S 3 1"])
    case("only_closed_pair", opening(PAIRED) + closed(b"b", b"ACGT") + P0 + END, totals(0, 0, 0),
         "RR" + sheet(1, PAIRED), ["R 0 R1 3 0", "R 0 R2 3 0", "S R1 3 1", "S R2 3 1"])
    case("no_target_pair", opening(PAIRED) + pair(4, L40, b"A") + END, totals(0, 0, 0),
         "RR" + sheet(0, PAIRED), ["R 4 R1 3 0", "R 4 R2 3 0"])
    case("remap_off_anything_goes", opening(remap=OFF) + T1 + fragment(0, read(b""))
         + fragment(1, read(b"\0\xff N", [0, 255, 32, 127])) + fragment(2, read(b"AC"))
         + fragment(3, read(b"", b"")) + END, DISABLED, "RRRR" + sheet(1, remap=OFF),
         ["R 0 S 0 -", "R 1 S 0 -", "R 2 S 0 -", "R 3 S 0 -", "S S 0 4",
          "T t - - - " + REMAP_DISABLED])
    case("remap_off_pairs", opening(PAIRED, OFF) + T1 + closed(b"b", b"A") + pair(0, b"", b"")
         + pair(9, b"AC", b"", b"\0\0", b"") + END, DISABLED, "RRRR" + sheet(2, PAIRED, OFF),
         ["R 0 R1 0 -", "R 0 R2 0 -", "R 9 R1 0 -", "R 9 R2 0 -", "S R1 0 2", "S R2 0 2",
          "T t - - - " + REMAP_DISABLED, "T b - - - " + CLOSED_UNSUPPORTED])
    case("remap_off_12", opening(remap=OFF) + T1 + F0 + F0 + END, refused(12), "RE")
    case("remap_off_20_stays", opening(remap=OFF) + T1 + F0 + b"\4", refused(20), "RE")
    case("every_state", opening(limit=2) + target(b"t", b"AAACGT") + closed(b"b", b"A")
         + fragments([b"N", b"A", b"GG", b"AAAC", b"AC", b"ACGT", b"TTT"]) + END, LIMITED,
         "RRRRGRGGRGGRG" + sheet(2),
         ["R 0 S 1 -", "R 1 S 2 -", "R 2 S 3 0", "R 3 S 4 1", "R 4 S 5 2", "R 5 S 5 2",
          "R 6 S 4 1", "S S 1 1", "S S 2 1", "S S 3 1", "S S 4 2", "S S 5 2",
          "T t - - - " + CANDIDATE_LIMIT, "T b - - - " + CLOSED_UNSUPPORTED])
    case("unavailable_on_all_linear", opening(limit=1) + T1 + target(b"u", b"GGG")
         + closed(b"b", b"A") + fragments([b"GGG", b"AC"]) + END, LIMITED, "RGR" + sheet(3),
         ["R 0 S 4 1", "G u 0 3 +", "R 1 S 2 -", "T t - - - " + CANDIDATE_LIMIT,
          "T u - - - " + CANDIDATE_LIMIT, "T b - - - " + CLOSED_UNSUPPORTED])
    case("unavailable_stays", opening(limit=1) + target(b"t", b"AAC")
         + fragments([b"A", b"AC", b"GT", b"AAC"]) + END, LIMITED, "RRGRGRG" + sheet(1),
         ["R 0 S 2 -", "R 1 S 4 1", "R 2 S 4 1", "R 3 S 4 1", "S S 2 1", "S S 4 3"])
    case("unavailable_by_r2", opening(PAIRED, limit=1) + target(b"t", b"AAC")
         + pair(0, b"AC", b"A") + pair(1, b"GT", b"GG") + END, LIMITED, "RGRRGR" + sheet(1, PAIRED),
         ["R 0 R1 4 1", "R 0 R2 2 -", "S R1 2 0", "S R1 4 2", "S R2 2 1", "S R2 3 1"])
    # AC is found in L40 at 4, 17, 26 and 37, GT at 23 and 30, CGT at 22, ACG nowhere.
    case("pair_groups_in_both", opening(PAIRED) + T1 + target(b"s", L40) + pair(3, b"AC", L40[20:])
         + pair(5, turned_round(L40[:18]), b"cgt") + END, totals(13, 2, 4),
         "RGGGGGGGG" + "RG" + "RG" + "RGGG" + sheet(2, PAIRED),
         ["R 3 R1 5 8", "G s 4 6 +", "G s 17 19 +", "G s 23 25 -", "G s 26 28 +", "G s 30 32 -",
          "G s 37 39 +", "G t 0 2 +", "G t 2 4 -", "R 3 R2 4 1", "G s 20 40 +",
          "R 5 R1 4 1", "G s 0 18 -", "R 5 R2 5 3", "G s 22 25 +", "G t 0 3 -", "G t 1 4 +",
          "S R1 4 1", "S R1 5 1", "S R2 4 1", "S R2 5 1",
          "T t 4 0 2 " + COMPLETE, "T s 9 2 2 " + COMPLETE])
    case("pair_states_apart", opening(PAIRED, floor=10) + T1
         + pair(0, b"N", b"AC") + pair(1, b"AC", b"AC", b"!!", b"II") + pair(2, b"GG", b"ACG")
         + END, totals(6, 0, 3), "RRGGRRGGRRGG" + sheet(1, PAIRED),
         ["S R1 1 2", "S R1 3 1", "S R1 5 0", "S R2 1 0", "S R2 3 0", "S R2 5 3",
          "T t 6 0 3 " + COMPLETE])
    case("pair_qualities_of_r1_only", opening(PAIRED, floor=10) + T1
         + pair(0, b"AC", b"AC", b"II", None) + END, totals(4, 0, 2), RGG * 2 + sheet(1, PAIRED))
    case("pair_bases_end_where_qualities_begin", opening() + T1
         + fragment(0, read(b"ACGT", b"ACGT")) + fragment(1, read(b"AC", b"\x7e\x21")) + END,
         totals(4, 0, 2), RGG * 2 + sheet(1))
    # Input length and number of fragments have no bound (reading 11), nor has the output.
    for name, count, piece in (("in_whole_pieces", 15, 0), ("in_pieces_of_31", 9, 31)):
        case("long_input_" + name, opening() + T1 + fragments([b"N" * 4096] * count + [b"ACG"]) + END,
             totals(2, 0, 1), "R" * count + RGG + sheet(1), ["S S 1 %d" % count, "S S 5 1"],
             piece=piece)
    # No fragment has more bytes; two of them do not fit into 32,768.
    longest = [b"A" * 4095 + b"C", b"I" * 4096]
    case("longest_fragments", opening(PAIRED) + T1
         + pair(0, longest[0], longest[0], longest[1], longest[1])
         + pair(1, longest[0], b"AC", longest[1], None) + END,
         totals(2, 0, 1), "RRRRGG" + sheet(1, PAIRED), ["S R1 3 2", "S R2 3 1", "S R2 5 1"], piece=0)
    # No step writes more: 256 groups on a name of 255 bytes, behind lines that are kept back.
    name = b"i" * 255
    case("longest_lines", opening(limit=256) + target(name, b"A" * 256)
         + fragments([b"A" * 137, b"A"]) + END, totals(120 + 256, 0, 2),
         "R" + "G" * 120 + "R" + "G" * 256 + sheet(1), ["R 0 S 5 120", "R 1 S 5 256"], piece=0)
    case("longest_lines_of_pair", opening(PAIRED, limit=128) + target(name, b"A" * 128)
         + pair(2**64 - 1, b"A", b"T") + END, totals(256, 0, 2),
         ("R" + "G" * 128) * 2 + sheet(1, PAIRED), ["R %d R1 5 128" % (2**64 - 1)])
    case("all_bounds", opening(PAIRED, floor=93, limit=10_000_000)
         + b"".join(target(b"%02d" % n + b"i" * 253, b"ACGT" * 16) for n in range(16))
         + pair(2**64 - 1, (b"ACGT" * 16)[:63], b"A" * 4096, b"~" * 63, b"~" * 4096) + END,
         totals(32, 0, 16), "R" + "G" * 32 + "R" + sheet(16, PAIRED),
         ["R %d R1 5 32" % (2**64 - 1), "R %d R2 3 0" % (2**64 - 1)])
    case("output_over_65536", opening(limit=256) + target(b"t", b"AT" * 128)
         + fragments([b"A", b"T"] * 10) + END, totals(20 * 256, 0, 20),
         ("R" + "G" * 256) * 20 + sheet(1), ["S S 5 20"])
    case("two_hundred_fragments", opening() + T1 + fragments([b"ACG", b"TTT"] * 100) + END,
         totals(200, 0, 100), "RGGR" * 100 + sheet(1), ["S S 3 100", "S S 5 100"])


# --- Random streams --------------------------------------------------------------------------

class Chance:
    """Numbers from a fixed start, the same with every Python."""

    def __init__(self, seed):
        self.state = seed

    def below(self, bound):
        self.state = (self.state * 6364136223846793005 + 1442695040888963407) % 2**64
        return (self.state >> 33) % bound

    def pick(self, choices):
        return choices[self.below(len(choices))]

    def one_in(self, bound):
        return self.below(bound) == 0

    def between(self, least, most):
        return least + self.below(most - least + 1)


def random_bases(chance, alphabet, length):
    """A short unit over and over, with some letters changed, so that seeds repeat."""
    unit = [chance.pick(alphabet) for _ in range(chance.between(1, 9))]
    letters = (unit * length)[:length]
    return bytes(chance.pick(alphabet) if chance.one_in(12) else letter for letter in letters)


def random_read(chance, alphabet, sources, role):
    source = chance.pick(sources)
    start = chance.below(len(source))
    length = chance.pick([1, 2, 3, 5, 13, 14, 15, 16, 17, 20, 33])
    bases = bytearray(source[start:start + length])
    if chance.one_in(3):
        bases = bytearray(turned_round(bytes(bases)))
    if chance.one_in(6):
        bases[chance.below(len(bases))] = chance.pick(b"ACGT")
    if chance.one_in(8):
        bases = bytearray(bytes(bases).lower())
    if chance.one_in(15):
        bases[chance.below(len(bases))] = chance.pick(b"NnX-\0\xff")
    if chance.one_in(60):
        bases = bytearray()
    qualities = None
    if chance.one_in(3):
        lowest = chance.pick([33, 60, 100])
        qualities = [chance.between(lowest, 126) for _ in bases]
        if bases and chance.one_in(15):
            qualities[chance.below(len(bases))] = chance.pick([0, 32, 127, 255])
    return read(bytes(bases), qualities, chance.below(3) if chance.one_in(80) else role)


def random_stream(chance):
    mode, remap = chance.below(2), 0 if chance.one_in(10) else 1
    floor = chance.pick([0, 0, 0, 20, 30, 93]) if not chance.one_in(40) else 94
    limit = chance.pick([1, 2, 3, 10, 10, 40, 40, 128, 129, 300, 10_000_000])
    stream = opening(mode, remap, floor, limit)
    alphabet = chance.pick([b"A", b"AC", b"AT", b"AT", b"ACG", b"ACGT", b"ACGT"])
    names = [b"a", b"b", b"B", b"aa", b"a!", b"~", b"t1", b"t10", b"t2"]
    sources = [random_bases(chance, b"ACGT", 20)]
    for _ in range(chance.below(6)):
        bases = random_bases(chance, alphabet, chance.pick([1, 4, 14, 15, 16, 30, 50, 80]))
        name = names[0] if chance.one_in(60) else names.pop(chance.below(len(names)))
        stream += target(name, bases, CLOSED if chance.one_in(4) else LINEAR)
        sources += [bases] * 3
    ordinal = chance.pick([0, 0, 1, 7, 2**32 - 2, 2**64 - 9])
    for _ in range(chance.below(7)):
        roles = [S] if mode == SINGLE else [R1, R2]
        stream += fragment(ordinal, *[random_read(chance, alphabet, sources, role)
                                      for role in roles])
        ordinal = min(ordinal + (0 if chance.one_in(40) else chance.between(1, 3)), 2**64 - 1)
    return stream + END


def damaged(chance, stream):
    """The stream with one byte replaced."""
    place = chance.below(len(stream))
    value = chance.pick([0, 1, 2, 3, 4, 5, 6, 32, 65, 255, chance.below(256)])
    return stream[:place] + bytes([value]) + stream[place + 1:]


def cases_random():
    chance = Chance(1)
    for number in range(140):
        case("random_%03d" % number, random_stream(chance))
    for number in range(70):
        case("damaged_%03d" % number, damaged(chance, random_stream(chance)))


# ---------------------------------------------------------------------------------------------
# Self-checks
# ---------------------------------------------------------------------------------------------

def in_order(wanted, lines):
    """Whether the wanted lines stand among the lines, in this order."""
    rest = iter(lines)
    return all(any(have == text for have in rest) for text in wanted)


def books_agree(lines):
    """What the lines say of one another: places and G lines, order of G lines, R and S lines,
    T lines and A."""
    kinds = "".join(text[0] for text in lines)
    assert re.fullmatch("(RG*)*(E|S+T*A)", kinds), kinds
    fields = [text.split(" ") for text in lines]
    seen, at = Counter(), 0
    while at < len(lines) and kinds[at] == "R":
        _, _, role, state, places = fields[at]
        seen[role, state] += 1
        groups = at + 1
        while kinds[groups:groups + 1] == "G":
            groups += 1
        mine = [(f[1].encode(), int(f[2]), "+-".index(f[4])) for f in fields[at + 1:groups]]
        assert mine == sorted(set(mine)), "G lines ascend by rank, start, strand"
        count = len(mine)
        fits = {"0": "-", "1": "-", "2": "-", "3": "0", "4": "1", "5": str(count)}
        assert places == fits[state] and count == (0 if places == "-" else int(places))
        assert (state == "5") == (count > 1)
        at = groups
    if kinds[-1] == "A":
        shown = Counter({(f[1], f[2]): int(f[3]) for f in fields if f[0] == "S"})
        assert +shown == seen, "S lines count the R lines"
        if fields[-1][1] == COMPLETE:
            rows = [f for f in fields if f[0] == "T" and f[5] == COMPLETE]
            sums = [sum(int(f[column]) for f in rows) for column in (2, 3, 4)]
            assert sums == [int(text) for text in fields[-1][2:]], "A is the sum of the T lines"
            assert sums[0] == kinds.count("G")


def check(one, output):
    if one.whole is not None:
        assert output == one.whole, "whole output"
    assert output.endswith(b"\n")
    lines = output.decode("ascii").split("\n")[:-1]
    if one.last is not None:
        assert lines[-1] == one.last, "last line is %s, not %s" % (lines[-1], one.last)
    if one.kinds is not None:
        kinds = "".join(text[0] for text in lines)
        assert kinds == one.kinds, "lines are %s, not %s" % (kinds, one.kinds)
    assert in_order(one.lines, lines), "lines that must be there"
    books_agree(lines)


def check_all(outputs):
    names = [one.name for one in CASES]
    assert len(set(names)) == len(names), [n for n, times in Counter(names).items() if times > 1]
    for one, output in zip(CASES, outputs):
        assert re.fullmatch("[A-Za-z0-9_]+", one.name), one.name
        try:
            check(one, output)
        except AssertionError as failed:
            sys.exit("%s: %s\n%s" % (one.name, failed, output.decode("latin-1")))
    reached = {one.last for one in CASES if one.last is not None}
    for number in (3, 4, 9, 10, 11, 12, 13, 14, 16, 20):
        assert refused(number) in reached, number
    # Each window of 10 or more of L40 is found once.
    windows = [L40[start:start + 10] for start in range(31)]
    assert len(set(windows + [turned_round(window) for window in windows])) == 62


def table(outputs):
    """How many streams end in each E number, or in A with each status."""
    ends = Counter()
    for output in outputs:
        words = output.decode().split("\n")[-2].split(" ")
        ends[words[0], words[1]] += 1
    for (kind, word), times in sorted(ends.items(), key=lambda e: (e[0][0], e[0][1].zfill(40))):
        print("%5d  %s %s" % (times, kind, word))
    known = sum(one.last is not None or one.kinds is not None or one.whole is not None
                for one in CASES)
    print("%5d  streams, of which %d have an outcome known by construction" % (len(CASES), known))


def main():
    if len(sys.argv) != 2:
        sys.exit("usage: python3 cases.py DIR")
    for group in (cases_example, cases_codes, cases_marks, cases_identifiers, cases_stream_bounds,
                  cases_short_streams, cases_left_out, cases_opening, cases_opening_and_20,
                  cases_ordinals, cases_roles, cases_fragment_order, cases_fragment_and_20,
                  cases_qualities, cases_read_bases, cases_groups, cases_several_targets,
                  cases_limit, cases_limit_of_pairs, cases_sheet, cases_random):
        group()
    outputs = [catch(one.stream) for one in CASES]
    check_all(outputs)
    bodies = [bytes([one.piece, len(one.name)]) + one.name.encode() + one.stream for one in CASES]
    stdin = b"".join(struct.pack("<H", len(body)) + body for body in bodies)
    stdout = b"".join(b"# " + one.name.encode() + b"\n" + output
                      for one, output in zip(CASES, outputs))
    assert len(stdin) <= 393_216, len(stdin)
    os.makedirs(sys.argv[1], exist_ok=True)
    for name, data in (("stdin", stdin), ("stdout", stdout)):
        with open(os.path.join(sys.argv[1], name), "wb") as file:
            file.write(data)
    table(outputs)
    print("stdin has %d bytes, stdout %d" % (len(stdin), len(stdout)))


if __name__ == "__main__":
    main()
