#!/usr/bin/env python3
"""Writes stdin and stdout beside this file: reads, and what the rules of docs/REFERENCE.md decide of them."""
import itertools, pathlib, random

LETTERS = b"ACGTacgt"
PARTNER = dict(zip(LETTERS, b"TGCAtgca"))


def code(b):
    return b"ACGT".index(bytes([b]).upper()) if b in LETTERS else 4


def decide(bases, qualities, floor, offset):
    if not bases:
        return "refused 14"
    if qualities is not None:
        if len(qualities) != len(bases):
            return "refused 15"
        for q in qualities:
            if not offset <= q <= 126:
                return "refused 16"
            if q - offset < floor:
                return "ineligible"
    return "eligible" if all(b in LETTERS for b in bases) else "ineligible"


def reads():
    # the board: floor 20 and offset 33
    for qualities in (b"5", b"4", b"4\x7f", b"\x7f4"):
        yield b"A" * len(qualities), qualities, 20, 33
    yield b"acgt", None, 20, 33
    yield b"ACNT", None, 20, 33
    # lengths that differ, empty strings, absent qualities
    for bases, qualities in itertools.product((b"", b"A", b"Ac", b"AN"), (None, b"", b"I", b"II", b"III")):
        yield bases, qualities, 20, 33
    # each byte as a base and as a quality, where a line can hold it
    for b in range(256):
        if b not in b"\n ":
            yield bytes([b]), None, 0, 33
        if b != 10:
            yield b"G", bytes([b]), 20, 33
            yield b"g", bytes([b]), 3, 64
    # short reads whose qualities are low, outside or right in any order
    for qualities in itertools.product(b"!45~\x7f ", repeat=3):
        yield b"CgT", bytes(qualities), 20, 33
    rng = random.Random(1)
    for _ in range(300):
        n = rng.randrange(1, 40)
        offset = rng.choice((33, 64))
        bases = bytes(rng.choice(b"ACGTacgt" + (b"N-" if rng.random() < 0.2 else b"")) for _ in range(n))
        qualities = bytes(rng.randrange(offset + 18, 127) for _ in range(n + (rng.random() < 0.1)))
        yield bases, rng.choice((None, qualities, qualities)), rng.randrange(0, 25), offset


here = pathlib.Path(__file__).parent
lines, answers = [], [f"{b} {code(b)} {PARTNER.get(b, b)}" for b in range(256)]
for bases, qualities, floor, offset in reads():
    lines.append(bytes([floor + offset, offset]) + (b"-" if qualities is None else b"+") + bases + b" " + (qualities or b""))
    answers.append(decide(bases, qualities, floor, offset))
here.joinpath("stdin").write_bytes(b"".join(line + b"\n" for line in lines))
here.joinpath("stdout").write_text("".join(a + "\n" for a in answers))
