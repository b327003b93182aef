#!/usr/bin/env python3
"""Writes small jobs into a folder, one of each kind that matters to a caller:

    python3 examples/make_cases.py FOLDER

Those named refused-N-P-... are refused with number N at place P; the others are accepted.
"""
import pathlib
import struct
import sys

from make_households import job_of

W = job_of([0, 1, 2], [([0, 1], [(1, 10), (2, 20)]), ([1, 2], [(10, 5), (20, 6), (20, 7)]), ([2], [(6,)])])
LEAST, MOST = -2**31, 2**31 - 1


def with_number(job, at, number):
    """The job with another 32-bit number at a place."""
    return job[:at] + struct.pack("<I", number) + job[at + 4:]


def with_plan(job, *plan):
    return job[:4] + bytes(plan).ljust(8, b"\0") + job[12:]


def entry(number, field):
    """Where a contents entry has its field count (0), row count (1), mask (2) or offset (3)."""
    return 12 + 16 * number + 4 * field


def refused():
    """Number, place, what is wrong, and the job, each W with one thing wrong."""
    return [
        (1, 0, "no-bytes", b""),
        (1, 0, "too-short", W[:11]),
        (1, 0, "too-long", W.ljust(65536, b"\0")),
        (2, 0, "nine-tables", with_number(W, 0, 9)),
        (3, 0, "contents-cut", W[:59]),
        (4, 1, "no-such-table", with_plan(W, 0, 3, 1)),
        (4, 2, "table-twice", with_plan(W, 0, 1, 1)),
        (4, 7, "after-the-plan", with_plan(W, 0, 1, 2, 0, 0, 0, 0, 1)),
        (5, 0, "no-column", with_number(W, entry(0, 2), 0)),
        (5, 1, "17-columns", with_number(W, entry(1, 2), 2**17 - 1)),
        (6, 1, "four-billion-fields", with_number(W, entry(1, 0), 2**32 - 1)),
        (7, 2, "4097-rows", with_number(W, entry(2, 1), 4097)),
        (8, 1, "gap", with_number(W, entry(1, 3), 77)),
        (9, 2, "body-cut", W[:-1]),
        (10, 0, "bytes-left", W + b"\0"),
        (11, 2, "no-parent", with_plan(W, 0, 2, 1)),
    ]


def accepted():
    """Jobs by name: ends of what a job may be, values of all lengths, and more records than one call's area holds."""
    ends = [(LEAST, 0), (-1, MOST), (7, 7), (7, 7)]
    many = [(n % 5, n - 300) for n in range(600)]
    long_run = [([0], [(n,) for n in range(4096)]), ([1], [(n,) for n in range(600)])]
    one_row = [([c], [(-c,)]) for c in range(2, 8)]
    return {
        "one-empty-table": job_of([0], [([0], [])]),
        "repeated-rows": job_of([0], [([0], [(7,), (7,)])]),
        "nothing-to-join": job_of([0, 1], [([0], [(1,), (1,)]), ([1], [])]),
        "ends-of-values": job_of([1, 0], [([0, 31], ends), ([0, 5], ends)]),
        "many-records": job_of([0, 1, 2], [([0, 1], many), ([0, 2], many[:20]), ([3], [(1,), (2,), (3,)])]),
        "step-limit": job_of(range(8), long_run + one_row),
        "eight-tables": job_of(range(8), [([c, c + 1], [(n, n) for n in range(4)]) for c in range(8)]),
    }


def main():
    folder = pathlib.Path(sys.argv[1])
    folder.mkdir(parents=True, exist_ok=True)
    for number, place, wrong, job in refused():
        (folder / ("refused-%d-%d-%s.job" % (number, place, wrong))).write_bytes(job)
    for name, job in accepted().items():
        (folder / (name + ".job")).write_bytes(job)


if __name__ == "__main__":
    main()
