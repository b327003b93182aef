#!/usr/bin/env python3
"""Runs a job through the library and prints what ./korrigwen prints:

    python3 examples/python/join.py FILE

Python loads shared libraries only, so one is linked from target/staticlib/libkorrigwen_c.a with cc, once. That archive
is for x86-64; on aarch64 it is target/aarch64/libkorrigwen_c.a, which has to be brought from an x86-64 machine, where
`harness/archive.sh aarch64` writes it. The structures below are those of include/korrigwen.h, in its order.
"""
import ctypes
import pathlib
import platform
import subprocess
import sys
from ctypes import POINTER, Structure, c_int32, c_size_t, c_uint8, c_uint32

TOP = pathlib.Path(__file__).resolve().parents[2]
ARCHIVE = TOP / "target" / ("staticlib" if platform.machine() == "x86_64" else platform.machine()) / "libkorrigwen_c.a"
SHARED = TOP / "target/examples/libkorrigwen_c.so"

MOST_FILE, MOST_MARKS, MOST_VALUES = 65535, 16383, 32
ENDED, AT_STEP_LIMIT = 0, 1
BUDGET, AREA = 1000, 64  # of one call


class Entry(Structure):
    _fields_ = [("fields", c_uint32), ("rows", c_uint32), ("mask", c_uint32), ("offset", c_uint32)]


class Reading(Structure):
    _fields_ = [("number", c_uint32), ("place", c_size_t), ("k", c_size_t), ("plan", c_uint8 * 8),
                ("entries", Entry * 8), ("parents", c_size_t * 8)]


class State(Structure):
    _fields_ = [("kind", c_uint32), ("position", c_uint32), ("start", c_uint32), ("chosen", c_uint32 * 8),
                ("steps", c_uint32), ("lookups", c_uint32), ("records", c_uint32)]


class Begun(Structure):
    _fields_ = [("number", c_uint32), ("place", c_size_t), ("state", State)]


class Ran(Structure):
    _fields_ = [("number", c_uint32), ("place", c_size_t), ("reason", c_uint32), ("state", State)]


class Joined(Structure):
    _fields_ = [("number", c_uint32), ("place", c_size_t), ("columns", c_size_t)]


class Refused(Exception):
    """A bad job: number and place."""


def link():
    """Makes the shared library where it is missing or older than the archive."""
    if SHARED.exists() and SHARED.stat().st_mtime >= ARCHIVE.stat().st_mtime:
        return
    SHARED.parent.mkdir(parents=True, exist_ok=True)
    whole = ["-Wl,--whole-archive", str(ARCHIVE), "-Wl,--no-whole-archive"]  # or the linker leaves all of it out
    subprocess.run(["cc", "-shared", "-o", str(SHARED)] + whole, check=True)


def load():
    """The library, with the types of include/korrigwen.h: without them ctypes would cut lengths to 32 bits."""
    link()
    library = ctypes.CDLL(str(SHARED))
    file, marks = [POINTER(c_uint8), c_size_t], [POINTER(c_uint8), c_size_t]
    library.korrigwen_read.argtypes = file
    library.korrigwen_read.restype = Reading
    library.korrigwen_begin.argtypes = file + marks
    library.korrigwen_begin.restype = Begun
    library.korrigwen_run.argtypes = file + [State] + marks + [c_uint32, POINTER(c_uint32), c_size_t]
    library.korrigwen_run.restype = Ran
    library.korrigwen_join_values.argtypes = file + [POINTER(c_uint32), c_size_t, POINTER(c_int32), c_size_t]
    library.korrigwen_join_values.restype = Joined
    return library


def accepted(answer):
    if answer.number != 0:
        raise Refused(answer.number, answer.place)
    return answer


class Job:
    """A job and its run. The state is kept here from call to call; it might as well be stored between them."""

    def __init__(self, library, data):
        self.library = library
        self.file = (c_uint8 * max(len(data), 1)).from_buffer_copy(data or b"\0")
        self.length = len(data)
        self.reading = accepted(library.korrigwen_read(self.file, self.length))
        self.marks = (c_uint8 * MOST_MARKS)()
        self.area = (c_uint32 * AREA)()
        self.state = accepted(library.korrigwen_begin(self.file, self.length, self.marks, MOST_MARKS)).state

    def values(self, place):
        """The joined values of the record that stands at a place of the area."""
        k, values = self.reading.k, (c_int32 * MOST_VALUES)()
        record = (c_uint32 * k)(*self.area[place:place + k])
        joined = self.library.korrigwen_join_values(self.file, self.length, record, k, values, MOST_VALUES)
        return values[:accepted(joined).columns]

    def call(self):
        """One run call: its records, and why it stopped."""
        ran = accepted(self.library.korrigwen_run(self.file, self.length, self.state, self.marks, MOST_MARKS, BUDGET,
                                                  self.area, AREA))
        count = ran.state.records - self.state.records
        self.state = ran.state
        return [self.values(self.reading.k * r) for r in range(count)], ran.reason

    def marked(self):
        rows = sum(entry.rows for entry in self.reading.entries)
        return sum(mark != 0 for mark in self.marks[:rows])


def print_join(data):
    job = Job(load(), data)
    reason = None
    while reason not in (ENDED, AT_STEP_LIMIT):
        records, reason = job.call()
        for values in records:
            print(" ".join(map(str, values)))
    stopped, state = ("stopped " if reason == AT_STEP_LIMIT else ""), job.state
    print("%slookups %d results %d marked %d steps %d"
          % (stopped, state.lookups, state.records, job.marked(), state.steps))


def main():
    if len(sys.argv) != 2:
        sys.exit("usage: join.py FILE")
    try:
        with open(sys.argv[1], "rb") as file:
            print_join(file.read(MOST_FILE + 1))  # one byte more, so that a longer file shows
    except Refused as refusal:
        print("refused %d at %d" % refusal.args)


if __name__ == "__main__":
    main()
