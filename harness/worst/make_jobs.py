#!/usr/bin/env python3
"""Writes the worst jobs that we know how to build into a folder: python3 harness/worst/make_jobs.py FOLDER

scan-...     most rows looked at in the step limit. Some small tables without shared columns make many combinations; for
             each of them every long table is searched from end to end, since only its last row agrees with the root's
             one row. A pass over a table takes two steps (the lookup, and the advance that finds nothing more), so a job
             looks at more rows in a step the longer its tables are. In scan-C-... a table has the C columns named, and
             its rows agree with the root's in all of them but the last, which is found out as late as can be.
step-...     one table, as long as it can be: the longest single step.
product      three tables of 256 rows without a shared column: every combination is a record.
output       the most records with the longest lines: 32 columns, every value -2,147,483,648.
most-records two tables of 4,096 rows without a shared column: the most records that any run hands out.
eight-...    for reading and joining values: eight tables, as many columns as can be.
"""
import pathlib
import sys

TOP = pathlib.Path(__file__).resolve().parents[2]
sys.path.insert(0, str(TOP / "examples"))

from make_households import job_of  # noqa: E402

MOST_FILE, MOST_ROWS, STEP_LIMIT, LEAST = 65535, 4096, 16777216, -2**31


def long_table(columns, rows):
    """Rows that differ from 0 in their last column alone, but for the last row."""
    wrong = (0,) * (len(columns) - 1) + (1,)
    return columns, [wrong] * (rows - 1) + [(0,) * len(columns)]


def scan_job(columns, tables):
    """So many tables of these columns, as long as the file allows, under enough combinations for the step limit."""
    outer = min(3, 7 - tables)
    side = 1
    while side ** outer * (2 * tables + 1) < STEP_LIMIT:
        side += 1
    free = [c for c in range(32) if c not in columns]
    left = MOST_FILE - 12 - 16 * (1 + outer + tables) - 4 * side * outer - 4 * len(columns)
    rows = min(MOST_ROWS, left // (4 * len(columns) * tables))
    small = [([free[i]], [(n,) for n in range(side)]) for i in range(outer)]
    parts = [(columns, [(0,) * len(columns)])] + small + [long_table(columns, rows)] * tables
    return job_of(range(len(parts)), parts)


def step_job(columns):
    rows = min(MOST_ROWS, (MOST_FILE - 12 - 32 - 4 * len(columns)) // (4 * len(columns)))
    return job_of([0, 1], [(columns, [(0,) * len(columns)]), long_table(columns, rows)])


def product_job(sizes):
    return job_of(range(len(sizes)), [([c], [(n,) for n in range(size)]) for c, size in enumerate(sizes)])


def output_job():
    """31 columns in two tables make 4,098 combinations with 6 root rows; the last table has one column, 4,096 rows."""
    tables = [(list(range(16)), 6), (list(range(16, 31)), 683), ([31], MOST_ROWS)]
    return job_of([0, 1, 2], [(columns, [(LEAST,) * len(columns)] * rows) for columns, rows in tables])


def jobs():
    for columns in ([0], [0, 1], [0, 31], [0, 30, 31], [0, 29, 30, 31], list(range(16))):
        name = "+".join(map(str, columns)) if len(columns) < 16 else "0-15"
        for tables in (1, 2, 3, 4):
            yield "scan-%s-%dtables" % (name, tables), scan_job(columns, tables)
        yield "step-%s" % name, step_job(columns)
    yield "product", product_job([256, 256, 256])
    yield "most-records", product_job([4096, 4096])
    yield "output", output_job()
    yield "eight-4columns", job_of(range(8), [(list(range(4 * i, 4 * i + 4)), [(LEAST,) * 4] * 100) for i in range(8)])
    yield "eight-16columns", job_of(range(8), [(list(range(16)), [(LEAST,) * 16] * 100)] * 8)
    yield "eight-rows", job_of(range(8), [([i], [(i,)] * 2029) for i in range(8)])


def main():
    folder = pathlib.Path(sys.argv[1])
    folder.mkdir(parents=True, exist_ok=True)
    for name, job in jobs():
        assert len(job) <= MOST_FILE, name
        (folder / (name + ".job")).write_bytes(job)


if __name__ == "__main__":
    main()
