#!/usr/bin/env python3
"""Writes the inputs of the programs `ampline` and `replay` and what they have to print.

The cases here are made from case A of docs/RULES.md: every line of a played column is one that it prints for it, and the other
lines are its refusals. The cases of the folder SAMPLE are files CASE.wna with what has to be printed in CASE.out (docs/replay.md).
Run from the repository's root: python3 tools/wna_cases.py SAMPLE
"""
import os
import struct
import sys

ARRAY = [1, 1, 1, 1, 1, 1, 0, 1]
LAYER = [1, 2, 2, 1, 1, 0, 1, 0, 0, 0, 1, 1] + [0] * 12
WEIGHTS = [2, 1, 0.5, -1, 1, 2, 0.5, 3]
COLUMNS = [(1, 0, 1), (2, 1, 0), (3, 0, 0), (-4, 0, 0)]
LINES = [
    "0 40400000 40200000",
    "1 40c00000 41080000",
    "2 41400000 41680000",
    "3 00000000 c0f00000",
]


def header(block=4, count=32, columns=4, magic=b"WNA", version=1):
    return magic + struct.pack("<HHII", version, block, count, columns)


def numbers(values):
    return struct.pack("<%dI" % len(values), *values)


def floats(values):
    return struct.pack("<%df" % len(values), *values)


def columns(n=4):
    return b"".join(floats(c) for c in COLUMNS[:n])


DESCRIPTION = numbers(ARRAY + LAYER)
OPENING = DESCRIPTION + floats(WEIGHTS)
WHOLE = OPENING + columns()


def played(n, last):
    return LINES[:n] + [last]


def case_a(block, n=4):
    return header(block=block, columns=n) + OPENING + columns(n)


def with_layer(**places):
    layer = list(LAYER)
    for place, value in places.items():
        layer[int(place[1:])] = value
    return numbers(ARRAY + layer)


LONG = with_layer(p1=16, p2=1093)  # histories: a ring of 16,396, and four of one column
TWO_INPUTS = numbers([2] + ARRAY[1:] + LAYER)
HUGE_LAYER = [32, 16, 2048] + LAYER[3:]  # a ring of 983,072 numbers
HUGE = numbers([1, 1, 32, 32, 1, 1, 0, 1] + HUGE_LAYER)
TWICE_HUGE = numbers([1, 1, 32, 32, 1, 1, 0, 2] + HUGE_LAYER + HUGE_LAYER)

CASES = [
    ("empty", b"", ["refused 10"]),
    ("short_header", header()[:14], ["refused 10"]),
    ("bad_magic", header(magic=b"WNB") + WHOLE, ["refused 10"]),
    ("version_2", header(version=2) + WHOLE, ["refused 10"]),
    ("block_0", header(block=0) + WHOLE, ["refused 10"]),
    ("block_1025", header(block=1025) + WHOLE, ["refused 10"]),
    ("block_1025_count_585", header(block=1025, count=585), ["refused 10"]),
    ("count_585", header(count=585), ["refused 11"]),
    ("short_description", header() + DESCRIPTION[:-1], ["refused 10"]),
    ("count_7", header(count=7) + DESCRIPTION[:28], ["refused 1"]),
    ("count_7_short", header(count=7) + DESCRIPTION[:27], ["refused 10"]),
    ("count_0", header(count=0), ["refused 1"]),
    ("kernel_17", header() + with_layer(p1=17), ["refused 2"]),
    ("groups_2", header() + with_layer(p3=2), ["refused 3"]),
    ("bottleneck_2", header() + with_layer(p0=2), ["refused 4"]),
    ("twice_huge", header(count=56) + TWICE_HUGE, ["refused 5"]),
    ("huge", header() + HUGE, ["refused 11"]),
    ("histories_16400", header() + LONG, ["refused 11"]),
    ("planar_1026", header(block=513) + TWO_INPUTS, ["refused 11"]),
    ("planar_1024", header(block=512) + TWO_INPUTS, ["refused 10"]),
    ("short_weights", header() + OPENING[:-1], ["refused 10"]),
    ("zero_columns", header(columns=0) + OPENING, ["end 0"]),
    ("zero_columns_byte_over", header(columns=0) + OPENING + b"\0", ["refused 10"]),
    ("block_1", case_a(1), played(4, "end 4")),
    ("block_2", case_a(2), played(4, "end 4")),
    ("block_3", case_a(3), played(4, "end 4")),
    ("block_4", case_a(4), played(4, "end 4")),
    ("block_7", case_a(7), played(4, "end 4")),
    ("block_1024", case_a(1024), played(4, "end 4")),
    ("cut_in_second_block", case_a(3)[:-1], played(3, "refused 10")),
    ("cut_in_first_block", case_a(4)[:-13], played(2, "refused 10")),
    ("missing_column", header(block=2, columns=4) + OPENING + columns(3), played(3, "refused 10")),
    ("no_column", header(block=2, columns=4) + OPENING, ["refused 10"]),
    ("many_columns_missing", header(block=2, columns=0xFFFFFFFF) + OPENING + columns(), played(4, "refused 10")),
    ("byte_left_over", case_a(4) + b"\0", played(4, "refused 10")),
    ("column_left_over", header(block=4, columns=3) + OPENING + columns(), played(3, "refused 10")),
]


def write(path, data):
    os.makedirs(os.path.dirname(path), exist_ok=True)
    with open(path, "wb") as f:
        f.write(data)


def sampled(folder):
    names = sorted(name[:-4] for name in os.listdir(folder) if name.endswith(".wna"))
    for name in names:
        with open(os.path.join(folder, name + ".wna"), "rb") as f:
            data = f.read()
        with open(os.path.join(folder, name + ".out")) as f:
            yield name + ".wna", data, f.read().splitlines()


def main(folder):
    write("crates/ampline/stdin", case_a(4))
    write("crates/ampline/stdout", "".join(l + "\n" for l in played(4, "end 4")).encode())
    cases = CASES + list(sampled(folder))
    out = []
    for name, data, lines in cases:
        write("crates/replay/data/" + name, data)
        out += [name] + lines
    write("crates/replay/args", "".join(name + "\n" for name, _, _ in cases).encode())
    write("crates/replay/stdout", "".join(l + "\n" for l in out).encode())


main(sys.argv[1])
