#!/usr/bin/env python3
"""Writes examples/households.job, a job small enough to follow by eye:

    python3 examples/make_households.py [FILE]

A job file is, in this order (all numbers little-endian):

    4 bytes       number of tables k, 1 to 8
    8 bytes       the plan: k table numbers, each once, then zeros
    k x 16 bytes  the contents, one entry for each table: field count, row count, column mask, body offset
    bodies        in contents order, with no gap; a row is one signed 32-bit value per column, columns ascending

Tables are joined on the columns that they share. A column is a number from 0 to 31, the same in all tables; the mask
has bit c set when the table has column c.
"""
import pathlib
import struct
import sys

PERSON, HOUSEHOLD, PARISH, FOUNDED = 0, 1, 2, 3  # the columns of this job

PERSONS = ([PERSON, HOUSEHOLD], [(101, 11), (102, 11), (103, 12), (104, 19), (105, 13)])  # nobody sent household 19
HOUSEHOLDS = ([HOUSEHOLD, PARISH], [(11, 1), (12, 2), (13, 1)])
PARISHES = ([PARISH, FOUNDED], [(1, 1684), (2, 1731)])

# Each table after the first shares all its keys with one earlier table: households have the household number of
# persons, parishes the parish number of households.
PLAN = [0, 1, 2]


def mask_of(columns):
    return sum(1 << column for column in columns)


def body_of(rows):
    return b"".join(struct.pack("<%di" % len(row), *row) for row in rows)


def job_of(plan, tables):
    """The bytes of a job. A table is its columns, ascending, and its rows, one value per column."""
    contents, bodies = b"", b""
    for columns, rows in tables:
        offset = 12 + 16 * len(tables) + len(bodies)  # the end of what came before
        contents += struct.pack("<4I", len(columns), len(rows), mask_of(columns), offset)
        bodies += body_of(rows)
    return struct.pack("<I", len(tables)) + bytes(plan).ljust(8, b"\0") + contents + bodies


def main():
    beside = pathlib.Path(__file__).with_name("households.job")
    target = pathlib.Path(sys.argv[1]) if len(sys.argv) > 1 else beside
    target.write_bytes(job_of(PLAN, [PERSONS, HOUSEHOLDS, PARISHES]))


if __name__ == "__main__":
    main()
