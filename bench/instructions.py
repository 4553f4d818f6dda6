#!/usr/bin/env python3
"""Counts the instructions of bin/ncgen, bin/ncdump and bin/nccheck, which are the same on each run, whatever else the machine does.

    bench/instructions.py [WORD ...]

It makes texts and files, runs the programs on them, and prints a line for each: a figure, its goal, and what it is of:

- times the plain loop: our instructions divided by those of a loop in C that reads the same numbers from the text (text_limit.c), or
  that prints those of the file (limit.c);
- times the tuned loop's seconds: our seconds divided by those of a loop in C that is tuned for numbers (tuned_text_limit.c, and
  tuned_limit.c), each the least of RUNS runs, one program after the other, of lists of LONG numbers;
- times a plain number's instructions: those of the whole program, beside those for as many ints of 6 and 7 digits;
- instructions a value, and instructions a byte of the text or of the file: those of the whole program, divided by the number of values or
  of bytes.
- times the same list as values of a variable: our instructions for a list in an attribute, divided by those for the list in a variable.
  Where there is a known figure of an earlier program, it is the goal, so that nothing gets slower;
- times the instructions of ncdump -h: those of a check divided by those of a dump of the head.
- times the instructions of a small file: those of a check of a sparse file with the same header divided by those of one of the small file.
- times the seconds of reading the files: our seconds for a check of many files, divided by those of a program in C that opens and reads
  each (read_files.c), each the least of RUNS runs, one program after the other.
- percent in the heaviest function: its part of all instructions, those of the functions that it calls left out.
- times as fast as Unidata's (Debian's netcdf-bin): its instructions divided by ours, and its seconds divided by ours, each the least of
  RUNS runs, one program after the other. The seconds alone can be spoilt by a busy machine.

With words, only the lines that have one of them are measured. The last line says how many goals are met and missed. The run fails
where one is missed. It wants valgrind, a C compiler, Unidata's ncdump, and the programs built.
"""

import os
import random
import shutil
import subprocess
import sys
import tempfile
from pathlib import Path
from typing import Callable, NamedTuple

from generate import listed, text
from measure import CHECK, DUMP, GENERATE, THEIR_DUMP, built, heaviest, instructions, least
from run import BYTE, INT, INT64, SHORT, UBYTE, fixed, records

HEAVIEST = "percent in the heaviest function"
LOOP, VALUE, TEXT_BYTE = "times the plain loop", "instructions a value", "instructions a byte of text"
OF_HEAD = "times the instructions of ncdump -h"
OF_SMALL, OF_READING = "times the instructions of a small file", "times the seconds of reading the files"
PLAIN = "times a plain number's instructions"
TUNED = "times the tuned loop's seconds"
FILE_BYTE, AS_VALUES = "instructions a byte of the file", "times the same list as values of a variable"
FASTER, FASTER_SECONDS = "times as fast as Unidata's, in instructions", "times as fast as Unidata's, in seconds"
SIZE = {"byte": 1, "short": 2, "int": 4, "int64": 8}
MANY, LONG = 300_000, 3_000_000
# parts of a header
PARTS = 20_000
# attributes of the variable NAME, as files have them
ATTRIBUTES = '\t\tNAME:units = "mm" ;\n\t\tNAME:long_name = "sea level of station NAME" ;\n'
MB = 1_000_000
# runs of each program where seconds are taken
RUNS = 9


def numbers(low, high, count=MANY, form="{}"):
    """Random numbers from low up to high, which isn't one of them."""
    seed = random.Random(1)
    return [form.format(seed.randrange(low, high)) for _ in range(count)]


def generating(cdl, kind="nc3"):
    """The instructions of bin/ncgen, which makes made.nc of a text."""
    Path("text.cdl").write_text(cdl)
    return instructions(GENERATE, "-k", kind, "-o", "made.nc", "text.cdl")


def read_to_loop(values, ty, between=", ", kind="nc3"):
    ours = generating(listed(values, between, ty), kind)
    loop = instructions(built("text_limit"), "text.cdl", "packed", str(SIZE[ty]))
    assert Path("made.nc").read_bytes().rstrip(b"\0").endswith(Path("packed").read_bytes().rstrip(b"\0"))
    return ours / loop


def read_to_tuned(values, ty, kind="nc3"):
    Path("text.cdl").write_text(listed(values, ", ", ty))
    ours = [GENERATE, "-k", kind, "-o", "made.nc", "text.cdl"]
    return ratio_of_seconds(ours, [built("tuned_text_limit"), "text.cdl", "packed", str(SIZE[ty])])


def ratio_of_seconds(ours, theirs):
    one, other = least(RUNS, ours, theirs)
    return one / other


def a_value(values, ty="int", kind="nc3"):
    return generating(listed(values, ", ", ty), kind) / len(values)


def as_plain(values):
    return a_value(values) / a_value(numbers(10**5, 10**7))


def some_missing(values):
    """The values, three in ten of which are missing, in no order."""
    chosen = random.Random(2)
    return ["_" if chosen.random() < 0.3 else value for value in values]


def a_byte(cdl):
    return generating(cdl) / len(cdl.encode())


def string(content, length):
    """One string of a variable of characters, and how many bytes it stands for."""
    return text(f"\tn = {length} ;\n", "\tchar c(n) ;\n", f' c = "{content}" ;\n')


def letters(count, among="abcdefgh "):
    return "".join(random.Random(1).choices(among, k=count))


def rows(count, length, among="abcdefgh "):
    """Rows of this many letters, each of as many bytes."""
    many = letters(count * length, among)
    lines = ",\n".join(f'  "{many[at:at + length]}"' for at in range(0, len(many), length))
    size = len(many[:length].encode())
    return text(f"\tr = {count} ;\n\tx = {size} ;\n", "\tchar c(r, x) ;\n", f" c =\n{lines} ;\n")


def made(cdl):
    """The file of a text."""
    Path("text.cdl").write_text(cdl)
    subprocess.run([GENERATE, "-o", "made.nc", "text.cdl"], check=True)
    return "made.nc"


def a_file_byte(row):
    """Of a dump of 20,000 rows of 80 characters, each row this string."""
    lines = ",\n".join([f'  "{row}"'] * 20_000)
    file = made(text("\tr = 20000 ;\n\tx = 80 ;\n", "\tchar c(r, x) ;\n", f" c =\n{lines} ;\n"))
    return instructions(DUMP, file) / Path(file).stat().st_size


def checked(attributes=""):
    """Of a check of 20,000 variables, each with these attributes."""
    variables = "".join(f"\tint v{number}(x) ;\n{attributes.replace('NAME', f'v{number}')}" for number in range(PARTS))
    file = made(text("\tx = 2 ;\n", variables, ""))
    return instructions(CHECK, file) / instructions(DUMP, "-h", file)


def checked_sparse():
    """Of a check of a file that has been made longer, to 4 TiB."""
    file = made(text("\tx = 2 ;\n", "\tint v(x) ;\n", ""))
    sparse = Path("sparse.nc")
    shutil.copy(file, sparse)
    os.truncate(sparse, 2**42)
    return instructions(CHECK, "-q", "-l", "error", sparse) / instructions(CHECK, "-q", "-l", "error", file)


def checked_many(records=0):
    """Of a check of a thousand small files in one call, each with this number of records of five variables."""
    values = ", ".join(str(number) for number in range(12 * records))
    data = "".join(f" v{number} = {values} ;\n" for number in range(5)) if records else ""
    file = made(text("\tt = UNLIMITED ;\n\tx = 12 ;\n", "".join(f"\tint v{number}(t, x) ;\n" for number in range(5)), data))
    files = [Path(f"small{number}.nc") for number in range(1000)]
    for small in files:
        shutil.copy(file, small)
    return ratio_of_seconds([CHECK, *files], [built("read_files"), *files])


def attribute(values, suffix):
    """A text with one attribute, which has these values, each with the suffix."""
    return f"netcdf t {{\n\t:a = {', '.join(value + suffix for value in values)} ;\n}}\n"


def attribute_as_values(ty, suffix, low, high):
    listed_numbers = numbers(low, high, 500_000)
    return instructions(DUMP, made(attribute(listed_numbers, suffix))) / instructions(DUMP, made(listed(listed_numbers, ", ", ty)))


def read_as_values(ty, suffix, low, high):
    listed_numbers = numbers(low, high)
    return generating(attribute(listed_numbers, suffix)) / generating(listed(listed_numbers, ", ", ty))


def in_heaviest(cdl):
    Path("text.cdl").write_text(cdl)
    _, part = heaviest(GENERATE, "-o", "made.nc", "text.cdl")
    return part


def parts(form):
    """A line for each part of a header, with its number in the form."""
    return "".join(form.format(number) for number in range(PARTS))


def print_to_loop(ty, low, high):
    file = fixed("file", 5 if ty == UBYTE else 1, ty, [MANY], low, high)
    return instructions(DUMP, file.path) / instructions(built("limit"), file.path, *map(str, file.loop))


def print_to_tuned(ty, low, high):
    file = fixed("file", 5 if ty in (UBYTE, INT64) else 1, ty, [LONG], low, high)
    return ratio_of_seconds([DUMP, file.path], [built("tuned_limit"), file.path, *map(str, file.loop)])


def faster(variables, count):
    path = records("file", variables, count).path
    return instructions(THEIR_DUMP, path) / instructions(DUMP, path)


def faster_seconds(variables, count):
    path = records("file", variables, count).path
    return ratio_of_seconds([THEIR_DUMP, path], [DUMP, path])


class Row(NamedTuple):
    """A figure, what it counts, and its goal: the most that it may be, or the least where more is better."""

    name: str
    unit: str
    goal: float
    figure: Callable[[], float]

    def is_met(self, figure):
        return figure >= self.goal if self.unit in (FASTER, FASTER_SECONDS) else figure <= self.goal


ROWS = [
    Row("ncgen, ints of 6 and 7 digits", LOOP, 1.3, lambda: read_to_loop(numbers(10**5, 10**7), "int")),
    Row("ncgen, shorts", LOOP, 1.3, lambda: read_to_loop(numbers(-(2**15), 2**15), "short")),
    Row("ncgen, bytes", LOOP, 1.3, lambda: read_to_loop(numbers(-128, 128), "byte")),
    Row("ncgen, bytes that are 1, without white space", LOOP, 1.3, lambda: read_to_loop(["1"] * MANY, "byte", ",")),
    Row("ncgen, int64s of 18 digits", LOOP, 1.3, lambda: read_to_loop(numbers(10**17, 10**18, MANY // 2), "int64", kind="nc5")),
    Row("ncgen, ints of 6 and 7 digits", TUNED, 1.3, lambda: read_to_tuned(numbers(10**5, 10**7, LONG), "int")),
    # 1.3 is the aim here; what is lacking is eight digits at once, so that no branch depends on how many there are
    Row("ncgen, shorts", TUNED, 1.3, lambda: read_to_tuned(numbers(-(2**15), 2**15, LONG), "short")),
    Row("ncgen, bytes", TUNED, 1.3, lambda: read_to_tuned(numbers(-128, 128, LONG), "byte")),
    Row("ncgen, int64s of 18 digits", TUNED, 1.3, lambda: read_to_tuned(numbers(10**17, 10**18, LONG // 2), "int64", "nc5")),
    Row("ncgen, rows of 80 characters", TEXT_BYTE, 4.2, lambda: a_byte(rows(30_000, 80))),
    Row("ncgen, rows of 80 bytes in UTF-8", TEXT_BYTE, 4.2, lambda: a_byte(rows(30_000, 40, "äöüéèñøß"))),
    Row("ncgen, a string of 10 MB", TEXT_BYTE, 2, lambda: a_byte(string(letters(10 * MB), 10 * MB))),
    Row("ncgen, a comment of 10 MB", TEXT_BYTE, 1.4, lambda: a_byte("netcdf t {\n//" + "x" * 10 * MB + "\n}\n")),
    Row("ncgen, ints with the suffix L", PLAIN, 1.5, lambda: as_plain(numbers(10**5, 10**7, form="{}L"))),
    Row("ncgen, fill values", PLAIN, 1.5, lambda: as_plain(["_"] * MANY)),
    Row("ncgen, ints, three in ten of them missing", PLAIN, 1.5, lambda: as_plain(some_missing(numbers(10**5, 10**7)))),
    # the goals of the next three: what commit 18b57d0 took, before lists of plain numbers had a way of their own, reckoned from a build
    # without proofs, which takes 3 to 7 % more than the program
    Row("ncgen, ubytes with the suffix UB", VALUE, 573, lambda: a_value(numbers(0, 256, form="{}UB"), "ubyte", "nc5")),
    Row("ncgen, hexadecimal ints", VALUE, 693, lambda: a_value(numbers(0, 2**20, form="0x{:x}"))),
    Row("ncgen, octal ints", VALUE, 719, lambda: a_value(numbers(0, 2**20, form="0{:o}"))),
    Row("ncgen, a string of escapes", TEXT_BYTE, 52, lambda: a_byte(string(r"\n\t\x41\"\\\101" * 50_000, 300_000))),
    Row("ncgen, a string of letters and escapes", TEXT_BYTE, 31, lambda: a_byte(string(r"a\n" * 300_000, 600_000))),
    Row("ncgen, a string with an escape in nine", TEXT_BYTE, 11, lambda: a_byte(string(r"abcdefgh\"ijklmnop\t" * 50_000, 900_000))),
    Row("ncgen, an attribute of ints", AS_VALUES, 2, lambda: read_as_values("int", "", -(10**6), 10**6)),
    Row("ncgen, an attribute of shorts", AS_VALUES, 2.5, lambda: read_as_values("short", "s", -(2**15), 2**15)),
    Row("ncgen, 20,000 dimensions", HEAVIEST, 25, lambda: in_heaviest(text(parts("\tdim_{:05} = 1 ;\n"), "", ""))),
    Row("ncgen, 20,000 variables", HEAVIEST, 25, lambda: in_heaviest(text("", parts("\tint var_{:05} ;\n"), ""))),
    Row("ncgen, 20,000 attributes", HEAVIEST, 25, lambda: in_heaviest("netcdf t {\n" + parts("\t:att_{:05} = 1 ;\n") + "}\n")),
    Row("ncdump, ints of 6 digits", LOOP, 0.8, lambda: print_to_loop(INT, 10**5, 10**6 - 1)),
    Row("ncdump, shorts", LOOP, 0.9, lambda: print_to_loop(SHORT, -(2**15), 2**15 - 1)),
    Row("ncdump, bytes", LOOP, 0.4, lambda: print_to_loop(BYTE, -128, 127)),
    Row("ncdump, ubytes", LOOP, 0.4, lambda: print_to_loop(UBYTE, 0, 255)),
    Row("ncdump, ints below 100", LOOP, 1 / 3, lambda: print_to_loop(INT, 0, 99)),
    Row("ncdump, ints of 6 digits", TUNED, 1.6, lambda: print_to_tuned(INT, 10**5, 10**6 - 1)),
    Row("ncdump, ints below 100", TUNED, 1.3, lambda: print_to_tuned(INT, 0, 99)),
    Row("ncdump, shorts", TUNED, 1.3, lambda: print_to_tuned(SHORT, -(2**15), 2**15 - 1)),
    Row("ncdump, bytes", TUNED, 1.3, lambda: print_to_tuned(BYTE, -128, 127)),
    Row("ncdump, int64s", TUNED, 1.8, lambda: print_to_tuned(INT64, -(2**63), 2**63 - 1)),
    Row("ncdump, full rows of 80 characters", FILE_BYTE, 4, lambda: a_file_byte(letters(80))),
    Row("ncdump, rows of NULs", FILE_BYTE, 4, lambda: a_file_byte("")),
    Row("ncdump, rows of ten characters and 70 NULs", FILE_BYTE, 4.5, lambda: a_file_byte("station_01")),
    Row("ncdump, rows with an escape in eight", FILE_BYTE, 12, lambda: a_file_byte(r"abcdefg\n" * 10)),
    Row("ncdump, an attribute of ints", AS_VALUES, 1, lambda: attribute_as_values("int", "", -(10**6), 10**6)),
    Row("ncdump, an attribute of shorts", AS_VALUES, 1.3, lambda: attribute_as_values("short", "s", -(2**15), 2**15)),
    Row("nccheck, 20,000 variables with two attributes", OF_HEAD, 2, lambda: checked(ATTRIBUTES)),
    Row("nccheck, 20,000 variables without attributes", OF_HEAD, 2, checked),
    Row("nccheck, a sparse file of 4 TiB", OF_SMALL, 1.05, checked_sparse),
    Row("nccheck, a thousand files of 24 KB", OF_READING, 2, lambda: checked_many(100)),
    # (2 is the aim here too: what is lacking is a check that lists no fields where all is well)
    Row("nccheck, a thousand files of 256 bytes", OF_READING, 4.5, checked_many),
    Row("ncdump, 20 interleaved variables", FASTER, 5, lambda: faster(20, 5_000)),
    Row("ncdump, 100 interleaved variables", FASTER, 5, lambda: faster(100, 1_000)),
    Row("ncdump, 20 interleaved variables", FASTER_SECONDS, 5, lambda: faster_seconds(20, 50_000)),
    Row("ncdump, 100 interleaved variables", FASTER_SECONDS, 5, lambda: faster_seconds(100, 10_000)),
]


def main():
    if not shutil.which("valgrind"):
        sys.exit("instructions are counted by valgrind, which isn't installed")
    words = sys.argv[1:] or [""]
    wanted = [row for row in ROWS if any(word in f"{row.name} {row.unit}" for word in words)]
    if not wanted:
        sys.exit("no line has one of these words")
    if not THEIR_DUMP.exists():
        beside = [row for row in wanted if row.unit in (FASTER, FASTER_SECONDS)]
        wanted = [row for row in wanted if row not in beside]
        print(f"lines left out, since {THEIR_DUMP} isn't installed: {len(beside)}")
    missed = 0
    with tempfile.TemporaryDirectory() as folder:
        os.chdir(folder)
        for row in wanted:
            figure = row.figure()
            missed += not row.is_met(figure)
            verdict = "" if row.is_met(figure) else "  MISSED"
            print(f"{row.name:44} {figure:8.3f}  goal {row.goal:7.3f}  {row.unit}{verdict}", flush=True)
    print(f"{len(wanted) - missed} goals met, {missed} missed")
    return 1 if missed else 0


if __name__ == "__main__":
    sys.exit(main())
