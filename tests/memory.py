#!/usr/bin/env python3
"""Gives the built programs long texts, long names, and headers with hostile counts, and bounds the bytes that their allocations ask for.

    tests/memory.py

The bytes are those of all allocations of a run together (refuse.c counts them), also of those that are given back as a list grows. They
are the same on each run, whatever else the machine does, so each bound is close above what was measured, which is beside it. Of a check
of many files it is bounded how many more bytes it holds at a time than a check of the largest file alone. The last line is
'N passed, M failed', of texts, names, fields with a count, and many files.
"""

import os
import subprocess
import sys
import tempfile
from pathlib import Path

TOP = Path(__file__).resolve().parent.parent
NCGEN, NCDUMP, NCCHECK = (TOP / "bin" / program for program in ("ncgen", "ncdump", "nccheck"))
REFUSE = TOP / "tests" / "refuse.c"
KB, MB = 1 << 10, 1 << 20
# the versions, each with the bytes of a count and those of an offset
WIDTHS = {1: (4, 4), 2: (4, 8), 5: (8, 8)}
DIMENSION, VARIABLE, ATTRIBUTE = 10, 11, 12
# the length of a file with no bytes but zeros after its count
LARGE = 1 << 33


class Broken(Exception):
    """Something that has to hold doesn't."""


def allocated(statuses, *words, given=b""):
    """How many bytes the allocations of a run ask for, and the most that it holds at a time. The run is given these bytes, ends with one of
    these statuses, and not for want of memory."""
    Path("allocations").unlink(missing_ok=True)
    counted = {**os.environ, "LD_PRELOAD": "./refuse.so", "ALLOCATIONS": "allocations"}
    ran = subprocess.run(words, env=counted, input=given, stdout=subprocess.DEVNULL, stderr=subprocess.PIPE)
    if ran.returncode not in statuses or b"memory" in ran.stderr:
        raise Broken(f"status {ran.returncode}: {ran.stderr[-200:]}")
    _, sum_of_all, at_a_time = map(int, Path("allocations").read_text().split())
    return sum_of_all, at_a_time


def asked(statuses, *words):
    """How many bytes the allocations of a run ask for."""
    return allocated(statuses, *words)[0]


def generated(text):
    """What making a file of the text asks for."""
    Path("given.cdl").write_bytes(text)
    return asked({0}, NCGEN, "-o", "made.nc", "given.cdl")


def dumped(text):
    """What a dump of the file of the text asks for."""
    generated(text)
    return asked({0}, NCDUMP, "made.nc")


def checked(text):
    """What a check of the file of the text asks for, in which long names are all that is found."""
    generated(text)
    return asked({0, 1}, NCCHECK, "made.nc")


def comment(length):
    return b"netcdf t {\n//" + b"x" * length + b"\n}\n"


def spaces(length):
    return b"netcdf t {\n" + b" " * length + b"}\n"


def values(count):
    listed = b"1000, " * (count - 1) + b"1000"
    return b"netcdf t {\ndimensions: x = %d ;\nvariables: int v(x) ;\ndata: v = %s ;\n}\n" % (count, listed)


def characters(count):
    return b'netcdf t {\ndimensions: x = %d ;\nvariables: char v(x) ;\ndata: v = "%s" ;\n}\n' % (count, b"a" * count)


def short_rows(count):
    listed = b'"a", ' * (count - 1) + b'"b"'
    return b"netcdf t {\ndimensions: t = UNLIMITED, x = 1000 ;\nvariables: char v(t, x) ;\ndata: v = %s ;\n}\n" % listed


def note(length):
    return b'netcdf t {\n:note = "' + b"a" * length + b'" ;\n}\n'


def notes(count):
    return b"netcdf t {\n" + b"".join(b":n%d = 1 ;\n" % n for n in range(count)) + b"}\n"


def named(length):
    name = b"a" * length
    return b"netcdf t {\ndimensions: %s = 1 ;\nvariables: byte %s(%s) ;\n%s:%s = 1b ;\ndata: %s = 1 ;\n}\n" % ((name,) * 6)


# what is run on which text, the most bytes that it may ask for, and those that were measured
TEXTS = {
    "comment of 64 MiB": (generated, lambda: comment(64 * MB), 280_000_000),  # 268_444_885
    "spaces of 64 MiB": (generated, lambda: spaces(64 * MB), 280_000_000),  # 268_444_885
    "values in 64 MiB": (generated, lambda: values(64 * MB // 6), 415_000_000),  # 402_664_501
    "characters in 64 MiB": (generated, lambda: characters(64 * MB - 100), 210_000_000),  # 201_337_817
    "attribute of 64 MiB": (generated, lambda: note(64 * MB - 100), 210_000_000),  # 201_336_401
    "attribute of 64 MiB dumped": (dumped, lambda: note(64 * MB - 100), 280_000_000),  # 267_200_033
    "attribute of 64 MiB checked": (checked, lambda: note(64 * MB - 100), 47_000),  # 44_463
    "250,000 short rows": (generated, lambda: short_rows(250_000), 7_200_000),  # 6_827_157
    "names of 1,000 bytes": (generated, lambda: named(1_000), 105_000),  # 95_632
    "names of 1,000 bytes dumped": (dumped, lambda: named(1_000), 90_000),  # 82_906
    "names of a megabyte": (generated, lambda: named(MB), 31_000_000),  # 29_371_861
    "names of a megabyte dumped": (dumped, lambda: named(MB), 13_500_000),  # 12_584_994
    "names of a megabyte checked": (checked, lambda: named(MB), 16_500_000),  # 15_685_639
    "10,000 attributes checked": (checked, lambda: notes(10_000), 33_500_000),  # 32_340_975
}


def fields(version):
    """The fields of a header with a count, by name: what stands before the count and after it."""
    of_count, of_offset = WIDTHS[version]
    count = lambda number: number.to_bytes(of_count, "big")
    tag = lambda number: number.to_bytes(4, "big")
    name = count(1) + b"n\0\0\0"
    none = tag(0) + count(0)
    start = b"CDF%c" % version + count(0)
    atts, variables = start + none, start + none + none
    rank = variables + tag(VARIABLE) + count(1) + name
    dim = start + tag(DIMENSION) + count(1) + name
    var_atts = rank + count(0)
    placed = tag(1) + count(4) + (200).to_bytes(of_offset, "big")
    return {
        "records": (b"CDF%c" % version, none * 3),
        "dimensions": (start + tag(DIMENSION), b""),
        "name of a dimension": (start + tag(DIMENSION) + count(1), b""),
        "length of a dimension": (dim, none + tag(VARIABLE) + count(1) + name + count(1) + count(0) + none + placed),
        "attributes": (atts + tag(ATTRIBUTE), b""),
        "name of an attribute": (atts + tag(ATTRIBUTE) + count(1), b""),
        "values of an attribute": (atts + tag(ATTRIBUTE) + count(1) + name + tag(1), b""),
        "variables": (variables + tag(VARIABLE), b""),
        "name of a variable": (variables + tag(VARIABLE) + count(1), b""),
        "dimensions of a variable": (rank, b""),
        "attributes of a variable": (var_atts + tag(ATTRIBUTE), b""),
        "size of a variable": (var_atts + none + tag(1), (200).to_bytes(of_offset, "big")),
    }


# how many more bytes a check of many files may hold at a time than one of the largest of them (16 were measured, beside 68,137,640)
BESIDE_OTHERS = 1_000
# the fields after whose count zeros can't go on
LISTS = {"dimensions", "attributes", "variables", "attributes of a variable"}
# the most bytes that a dump may ask for, whatever the count is (83,790 were measured, 73,728 of them for buffers)
HOSTILE = 86_000
# the same of making a file, whatever the lengths of its dimensions are (77,124 were measured)
LENGTHS = 80_000


def dumped_header(before, count, after, length):
    """What a dump asks for that has this count between other bytes, and zeros up to a length."""
    Path("header.nc").write_bytes(before + count + after)
    if length:
        os.truncate("header.nc", length)
    return asked({0, 1}, NCDUMP, "header.nc")


def counts(version):
    """Each power of two that a count of the version can be."""
    width = WIDTHS[version][0]
    return [(1 << bit).to_bytes(width, "big") for bit in range(8 * width)]


def most_of_field(version, what):
    """The most that a dump asks for, with each power of two as the count of a field."""
    before, after = fields(version)[what]
    lengths = [0, LARGE] if what in LISTS else [0]
    return max(dumped_header(before, count, after, length) for count in counts(version) for length in lengths)


def most_of_lengths():
    """The most that making a file asks for, with each power of two up to 2^30 as the length of a dimension, and one value listed."""
    form = b"netcdf t {\ndimensions: x = %d ;\nvariables: byte b(x) ; char c(x) ;\ndata: b = 1 ; c = \"a\" ;\n}\n"
    most = 0
    for bit in range(31):
        Path("given.cdl").write_bytes(form % (1 << bit))
        most = max(most, asked({0}, NCGEN, "-o", "/dev/null", "given.cdl"))
    return most


def held(paths):
    """The most bytes that a check of a list of files holds at a time, in which nothing is found."""
    return allocated({0}, NCCHECK, "-0", given="\0".join(paths).encode())[1]


def more_for_many_files():
    """How many more bytes a check of 1,000 files holds at a time than one of the largest of them alone, whose header has a megabyte."""
    for name, count in ("small.nc", 3), ("large.nc", 44_000):
        generated(notes(count))
        os.rename("made.nc", name)
    return held(["small.nc"] * 500 + ["large.nc"] + ["small.nc"] * 499) - held(["large.nc"])


def tests():
    """Each test: its name, what finds out how much is asked for, and the most that may be."""
    for name, (of, text, most) in TEXTS.items():
        yield name, lambda of=of, text=text: of(text()), most
    for version in WIDTHS:
        for what in fields(version):
            yield f"{what}, version {version}", lambda version=version, what=what: most_of_field(version, what), HOSTILE
    yield "lengths of dimensions in a text", most_of_lengths, LENGTHS
    yield "more for many files", more_for_many_files, BESIDE_OTHERS


def main():
    results = []
    with tempfile.TemporaryDirectory() as folder:
        os.chdir(folder)
        subprocess.run([os.environ.get("CC") or "cc", "-shared", "-fPIC", "-o", "refuse.so", REFUSE], check=True)
        for name, find, most in tests():
            try:
                found = find()
                results.append(found <= most)
                print(f"{'ok' if found <= most else 'FAILED'} {name}: {found:,} bytes asked for, where {most:,} are allowed", flush=True)
            except Broken as why:
                results.append(False)
                print(f"FAILED {name}: {why}", flush=True)
        os.chdir("/")
    print(f"{sum(results)} passed, {len(results) - sum(results)} failed")
    return 0 if all(results) else 1


if __name__ == "__main__":
    sys.exit(main())
