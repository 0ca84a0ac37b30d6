#!/usr/bin/env python3
"""Writes a job of `catch` to standard output, from targets in FASTA and reads in FASTQ or FASTA.

A target is closed where its header line has the word `closed` behind the identifier. Two files of reads
are pairs, record by record. Bases and qualities go into the job as they stand; `catch` judges them.

    make_job.py --floor 20 --limit 10 targets.fasta reads.fastq > traps.job
"""

import argparse
import struct
import sys


def refuse_if(condition, why, *words):
    if condition:
        sys.exit("make_job.py: " + why % words)


def lines_of(path):
    with open(path, "rb") as file:
        return [line.rstrip(b"\r\n") for line in file]


def fasta(path, lines):
    """Header and bases of each record; the bases may span lines."""
    records = []
    for line in lines:
        if line.startswith(b">"):
            records.append((line[1:], []))
        elif line:
            refuse_if(not records, "%s: bases in front of the first line with '>'", path)
            records[-1][1].append(line)
    return [(header, b"".join(parts)) for header, parts in records]


def fastq(path, lines):
    """Bases and qualities of each record of four lines."""
    refuse_if(len(lines) % 4, "%s: the last record has fewer than four lines", path)
    records = [lines[at:at + 4] for at in range(0, len(lines), 4)]
    for number, (first, bases, third, qualities) in enumerate(records):
        right = first.startswith(b"@") and third.startswith(b"+") and len(bases) == len(qualities)
        refuse_if(not right, "%s: record %d is not FASTQ", path, number)
    return [(bases, qualities) for _, bases, _, qualities in records]


def reads_of(path):
    """Bases and qualities of each read. FASTA has no qualities: None."""
    lines = lines_of(path)
    if lines and lines[0].startswith(b">"):
        reads = [(bases, None) for _, bases in fasta(path, lines)]
    else:
        reads = fastq(path, lines)
    for number, (bases, _) in enumerate(reads):
        refuse_if(len(bases) > 4096, "%s: read %d has over 4,096 bases", path, number)
    return reads


def target_command(path, header, bases):
    identifier, *words = header.replace(b"\t", b" ").split(b" ")
    printable = all(33 <= byte <= 126 for byte in identifier)
    refuse_if(not 1 <= len(identifier) <= 255, "%s: an identifier of %d bytes", path, len(identifier))
    refuse_if(not printable, "%s: an identifier with bytes outside 33 to 126: %r", path, identifier)
    return struct.pack("<BBBI", 2, b"closed" in words, len(identifier), len(bases)) + identifier + bases


def fragment_commands(ordinal, reads):
    yield struct.pack("<BQB", 3, ordinal, len(reads))
    for place, (bases, qualities) in enumerate(reads):
        role = 0 if len(reads) == 1 else place + 1
        yield struct.pack("<BBBI", 4, role, qualities is not None, len(bases)) + bases + (qualities or b"")


def job(options):
    refuse_if(not 0 <= options.floor < 2**8, "--floor takes 0 to 255")
    refuse_if(not 0 <= options.limit < 2**64, "--limit takes numbers of 64 bits")
    targets = fasta(options.targets, lines_of(options.targets))
    in_all = sum(len(bases) for _, bases in targets)
    refuse_if(len(targets) > 16, "%s: %d targets, and a job has at most 16", options.targets, len(targets))
    refuse_if(in_all > 1024, "%s: %d bases, and a job has at most 1,024", options.targets, in_all)
    files = [reads_of(path) for path in (options.reads, options.mates) if path]
    unequal = len(files[0]) != len(files[-1])
    refuse_if(unequal, "%s has %d reads, %s %d", options.reads, len(files[0]), options.mates, len(files[-1]))

    yield struct.pack("<BBBBQ", 1, len(files) == 2, options.remap, options.floor, options.limit)
    for header, bases in targets:
        yield target_command(options.targets, header, bases)
    for ordinal, reads in enumerate(zip(*files)):
        yield from fragment_commands(ordinal, reads)
    yield b"\x05"


def main():
    parser = argparse.ArgumentParser(description=__doc__, formatter_class=argparse.RawDescriptionHelpFormatter)
    parser.add_argument("--floor", type=int, default=0, metavar="N", help="least quality of a base, 0 to 93 (0)")
    parser.add_argument("--limit", type=int, default=100, metavar="N", help="most placements of a read (100)")
    parser.add_argument("--no-remap", dest="remap", action="store_false", help="count reads, and place none")
    parser.add_argument("targets", metavar="TARGETS.fasta")
    parser.add_argument("reads", metavar="READS.fastq")
    parser.add_argument("mates", metavar="MATES.fastq", nargs="?")
    try:
        whole = b"".join(job(parser.parse_args()))
    except OSError as error:
        refuse_if(True, "%s: %s", error.filename, error.strerror)
    sys.stdout.buffer.write(whole)


if __name__ == "__main__":
    main()
