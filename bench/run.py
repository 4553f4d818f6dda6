#!/usr/bin/env python3
"""Times bin/ncdump beside Unidata's ncdump (Debian's netcdf-bin) on files of many kinds, in one run.

    bench/run.py [--keep] [NAME ...]

It makes the files, runs the programs in turn, and prints for each file the least time of each in milliseconds, how many times as
fast ours is, the ratio of its time to that of a plain loop in C over the same values (bench/limit.c), and the most memory that each
took. Texts are compared with the line breaks inside lists undone. Wants GNU time, and bin/ncdump and bin/ncgen built. With --keep, the
times of files that the table has go into pictures/times.tsv.

Files of many variables come in two lengths. The run fails where four times the variables take more than six times as long, and
where ours is slower than Unidata's.
"""

import array
import os
import random
import struct
import subprocess
import sys
import tempfile

from generate import MIXES
from measure import DUMP, GENERATE, THEIR_DUMP, built, keep, peak, run

RUNS = 7
# milliseconds from which on a program runs once
SLOW = 2000
BYTE, CHAR, SHORT, INT, UBYTE, INT64 = 1, 2, 3, 4, 7, 10
SIZE = {BYTE: 1, CHAR: 1, SHORT: 2, INT: 4, UBYTE: 1, INT64: 8}
CODE = {BYTE: "b", SHORT: "h", INT: "i", UBYTE: "B", INT64: "q"}


def padded(data):
    return data + bytes(-len(data) % 4)


class Header:
    """A header: dimensions are (name, length), variables (name, type, dimension ids, begin)."""

    def __init__(self, version, records, dims, variables):
        self.count = struct.Struct(">Q" if version == 5 else ">I").pack
        self.offset = struct.Struct(">I" if version == 1 else ">Q").pack
        self.start = b"CDF" + bytes([version]) + self.count(records)
        self.dims, self.variables = dims, variables

    def name(self, name):
        return self.count(len(name)) + padded(name.encode())

    def parts(self, tag, parts):
        if not parts:
            return bytes(4) + self.count(0)
        return struct.pack(">I", tag) + self.count(len(parts)) + b"".join(parts)

    def bytes(self, begin, sizes):
        """The header, where the variables' first slabs stand one after the other from `begin` on."""
        parts = []
        for (name, ty, ids), size in zip(self.variables, sizes):
            shape = self.count(len(ids)) + b"".join(self.count(i) for i in ids)
            none = bytes(4) + self.count(0)
            parts.append(self.name(name) + shape + none + struct.pack(">I", ty) + self.count(size) + self.offset(begin))
            begin += size
        dims = [self.name(name) + self.count(length) for name, length in self.dims]
        return self.start + self.parts(10, dims) + self.parts(0, []) + self.parts(11, parts)


def spelled(version, records, dims, variables, sizes):
    """The bytes of a header, and where the data begins."""
    header = Header(version, records, dims, variables)
    begin = len(header.bytes(0, sizes))
    return header.bytes(begin, sizes), begin


def numbers(ty, count, low, high):
    seed = random.Random(count)
    some = array.array(CODE[ty], (seed.randint(low, high) for _ in range(min(count, 100_003))))
    many = some * (count // len(some) + 1)
    del many[count:]
    many.byteswap()
    return many


class File:
    """A file that is written for the benchmark, with the words of a dump and, for a plain loop, where its values lie."""

    def __init__(self, name, options=(), loop=None):
        self.name, self.options, self.loop = name, list(options), loop
        self.path = f"{name}.nc"

    def write(self, *parts):
        with open(self.path, "wb") as out:
            for part in parts:
                out.write(part)
        return self


def fixed(name, version, ty, lens, low, high):
    """One variable without records."""
    total = 1
    for n in lens:
        total *= n
    size = total * SIZE[ty]
    dims = [(f"d{i}", n) for i, n in enumerate(lens)]
    head, begin = spelled(version, 0, dims, [("v", ty, list(range(len(lens))))], [size + -size % 4])
    loop = [begin, 1, 0, 1, 0, total, SIZE[ty], int(ty != UBYTE)]
    return File(name, loop=loop).write(head, numbers(ty, total, low, high).tobytes())


def rows(name, count, length):
    """Rows of characters."""
    head, begin = spelled(1, 0, [("y", count), ("x", length)], [("v", CHAR, [0, 1])], [count * length])
    return File(name).write(head, b"".join(b"%0*d" % (length, i) for i in range(count)))


def records(name, variables, count, ty=INT, low=-(2**31), high=2**31 - 1):
    """Record variables of one value a record."""
    size = SIZE[ty] if variables == 1 else 4
    names = [(f"v{i}", ty, [0]) for i in range(variables)]
    head, begin = spelled(1, count, [("t", 0)], names, [4] * variables)
    loop = [begin, variables, size, count, size * variables, 1, SIZE[ty], 1]
    return File(name, loop=loop).write(head, numbers(ty, variables * count, low, high).tobytes())


def mixed(name):
    """The file of a text of generate.py."""
    with open("mixed.cdl", "w") as out:
        out.write(MIXES[name]())
    file = File(name)
    subprocess.run([GENERATE, "-o", file.path, "mixed.cdl"], check=True)
    return file


def coordinates(name, count):
    """As many variables as dimensions, each a coordinate variable of one value, dumped with -c."""
    dims = [(f"d{i}", 1) for i in range(count)]
    variables = [(f"d{i}", INT, [i]) for i in range(count)]
    head, _ = spelled(1, 0, dims, variables, [4] * count)
    return File(name, ["-c"]).write(head, numbers(INT, count, 0, 99).tobytes())


FILES = [
    lambda: fixed("ints", 1, INT, [2_000_000], -(2**31), 2**31 - 1),
    lambda: fixed("small_ints", 1, INT, [5_000_000], 0, 99),
    lambda: fixed("cube", 1, SHORT, [100, 100, 100], -(2**15), 2**15 - 1),
    lambda: fixed("bytes", 1, BYTE, [10_000_000], -128, 127),
    lambda: fixed("int64s", 5, INT64, [2_000_000], -(2**63), 2**63 - 1),
    lambda: records("narrow", 1, 5_000_000, SHORT, -(2**15), 2**15 - 1),
    lambda: records("records_3", 3, 60_000),
    lambda: records("records_20", 20, 50_000),
    lambda: records("records_100", 100, 10_000),
    lambda: rows("rows", 40_000, 80),
    *(lambda name=name: mixed(name) for name in MIXES),
]
# each in two lengths; the second has four times the variables
GROWING = [
    ("variables", lambda n: records(f"variables_{n}", n, 1), (5_000, 20_000)),
    ("more_variables", lambda n: records(f"variables_{n}", n, 1), (10_000, 40_000)),
    ("coordinates", lambda n: coordinates(f"coordinates_{n}", n), (5_000, 20_000)),
]


def text_of(program, file):
    """The text without the spaces and line feeds that lists may have."""
    text = subprocess.run([program, *file.options, file.path], stdout=subprocess.PIPE, check=True).stdout
    return text.translate(None, b" \n")


def timed(file, limit):
    """The least times of both programs, and of the plain loop where there is one; prints a line."""
    programs = {"theirs": [THEIR_DUMP, *file.options, file.path], "ours": [DUMP, *file.options, file.path]}
    memory = [peak(words) for words in programs.values()]
    if file.loop:
        programs["loop"] = [limit, file.path, *map(str, file.loop)]
    least = {name: run(words) for name, words in programs.items()}
    for _ in range(RUNS - 1):
        for name, words in programs.items():
            if least[name] < SLOW:
                least[name] = min(least[name], run(words))
    same = "same" if text_of(THEIR_DUMP, file) == text_of(DUMP, file) else "differs"
    ratio = f"{least['ours'] / least['loop']:.2f}" if file.loop else "-"
    times = f"{least['theirs']:9.1f} {least['ours']:9.1f} {least['theirs'] / least['ours']:7.1f} {ratio:>7}"
    print(f"{file.name:18} {times} {memory[0]:8} {memory[1]:8}  {same}", flush=True)
    return least


def main():
    kept = "--keep" in sys.argv
    wanted = {*sys.argv[1:]} - {"--keep"}
    faults = []
    with tempfile.TemporaryDirectory() as folder:
        os.chdir(folder)
        limit = built("limit")
        print(f"{'file':18} {'Unidata':>9} {'ours':>9} {'times':>7} {'to loop':>7} {'its KiB':>8} {'our KiB':>8}  text")
        for make in FILES:
            file = make()
            if not wanted or file.name in wanted:
                times = timed(file, limit)
                if kept:
                    keep("ncdump", file.name, times["theirs"], times["ours"])
            os.remove(file.path)
        for name, make, lengths in GROWING:
            if wanted and name not in wanted:
                continue
            few, many = (timed(make(n), limit) for n in lengths)
            if many["ours"] > 6 * few["ours"]:
                faults.append(f"{name}: {lengths[1]} take {many['ours'] / few['ours']:.1f} times as long as {lengths[0]}")
            if many["ours"] > many["theirs"]:
                faults.append(f"{name}: slower than Unidata's at {lengths[1]}")
    for fault in faults:
        print(fault)
    return 1 if faults else 0


if __name__ == "__main__":
    sys.exit(main())
