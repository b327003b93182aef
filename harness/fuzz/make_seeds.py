#!/usr/bin/env python3
"""Writes the first inputs of the fuzz target into a folder: python3 harness/fuzz/make_seeds.py FOLDER

An input is 64 control bytes (struct control of fuzz.c) and a job file. Each job comes as it is with three settings, and
once with everything in it put right after a change (the shape, the first control byte).
"""
import pathlib
import struct
import sys

TOP = pathlib.Path(__file__).resolve().parents[2]
sys.path.insert(0, str(TOP / "examples"))

from make_cases import accepted, refused  # noqa: E402
from make_households import job_of  # noqa: E402

CONTROL = 64
SHAPED = 1 + 2 + 4 + 8 + 16 + 32 + 64


def control(shape=0, budget=400, area=60, forged=(), marks=()):
    """Control bytes: a shape, a piece's budget and area, numbers of a forged state and bytes of forged marks."""
    record = [1] * 8  # odd: taken from the run's own first record
    numbers = b"".join(struct.pack("<BBH", *number) for number in (list(forged) + [(14, 0, 0)] * 4)[:4])
    places = b"".join(struct.pack("<HBB", *mark, 0) for mark in (list(marks) + [(65535, 0)] * 4)[:4])
    head = struct.pack("<BBHBBBB", shape, 3, budget, area, 0xAA, 32, 0) + struct.pack("<8H", *record)
    return (head + numbers + places + struct.pack("<HBBB", 100, 20, 4, 2)).ljust(CONTROL, b"\0")


def settings():
    yield "whole", control()
    yield "pieces", control(budget=2, area=1)
    yield "forged", control(budget=9, area=9, forged=[(2, 3, 1), (11, 2, 9)], marks=[(0, 2), (1, 0)])
    yield "shaped", control(shape=SHAPED, budget=30, area=12)


def large():
    """Ends of what a job may be: 4,096 rows, 16 columns, 32 columns, 65,532 bytes."""
    wide = [(list(range(16)), [tuple(range(16))] * 3), (list(range(16, 32)), [tuple(range(16))] * 2)]
    return {
        "4096-rows": job_of([0, 1], [([0], [(n % 7,) for n in range(4096)]), ([0, 1], [(3, 1), (4, 2)])]),
        "32-columns": job_of([0, 1], wide),
        "full": job_of([0, 1], [(list(range(16)), [tuple(range(16))] * 1022), ([3, 31], [(3, 9)] * 10)]),
    }


def jobs():
    yield "w", (TOP / "examples/w.job").read_bytes()
    yield "households", (TOP / "examples/households.job").read_bytes()
    yield from accepted().items()
    yield from large().items()
    for number, place, wrong, job in refused():
        yield wrong, job


def main():
    folder = pathlib.Path(sys.argv[1])
    folder.mkdir(parents=True, exist_ok=True)
    for name, job in jobs():
        for setting, bytes_before in settings():
            (folder / (name + "-" + setting)).write_bytes(bytes_before + job)


if __name__ == "__main__":
    main()
