#!/usr/bin/env python3
"""Gives the built programs texts and files of many parts of one kind, and asks that their time doesn't grow with a square.

    tests/squares.py

Each text is generated, and each file that is made so is dumped, with n parts and with 4n. Headers with many parts, most of them with as
many findings, are checked. The processor time for 4n has to keep a bound, far above what it takes, and to be less than 8 times that for n,
or than 8 times FLOOR. A time that grows in step with the parts is 4 times as long, and one that grows with their square 16 times. The last
line is 'N passed, M failed'.
"""

import math
import os
import resource
import subprocess
import sys
import tempfile
from pathlib import Path

BIN = Path(__file__).resolve().parent.parent / "bin"
# seconds of processor time; a run that took less counts as this
FLOOR = 0.01
# how often the time for few parts is taken, and that for many at most; the least counts
TIMES = 5
# letters whose names are no words of CDL
LETTERS = "abcdefghjklmnopqrstuvwxyzABCDEFGHIJKLMNOPQRSTUVWXYZ"
# three words that have one hash in `NameIndex`, and so have all names that are put together out of as many of them
SAME_HASH = ["hhiighglkiijhhighghl", "gigggiggogggigkgggiq", "jgghlidkiiknlgfbdejo"]


def name(number):
    """A name of three letters, another for each number."""
    more, last = divmod(number, len(LETTERS))
    first, middle = divmod(more, len(LETTERS))
    return LETTERS[first] + LETTERS[middle] + LETTERS[last]


def name_of_one_hash(number):
    """A name of ten words of SAME_HASH, another for each number below 3^10."""
    return "".join(SAME_HASH[number // 3**place % 3] for place in range(10))


def each(form, count, between=""):
    """The form for each number below the count, with the number in place of its braces."""
    return between.join(form.format(number) for number in range(count))


def dataset(dims="", variables="", values="", atts=""):
    parts = [("", atts), ("dimensions:\n", dims), ("variables:\n", variables), ("data:\n", values)]
    return "netcdf t {\n" + "".join(mark + part + "\n" for mark, part in parts if part) + "}\n"


def escapes(n):
    return dataset(atts=':a = "' + r"\x61\n\101\"" * (n // 4) + '" ;')


def characters(n):
    return dataset(atts=':a = "' + "a" * n + '" ;')


def strings(n):
    return dataset(atts=":a = " + each('"a{}\\n"', n, ", ") + " ;")


def numbers_of_an_attribute(n):
    return dataset(atts=":a = " + each("{}", n, ", ") + " ;")


def dimensions(n):
    return dataset(dims=each("d{} = 2", n, ", ") + " ;")


def dimension_statements(n):
    return dataset(dims=each("d{} = 2 ; ", n))


def names_of_one_hash(n):
    return dataset(dims="".join(f"{name_of_one_hash(number)} = 2 ;\n" for number in range(n)))


def attributes(n):
    return dataset(atts=each(':a{} = "x" ;\n', n))


def attributes_of_numbers(n):
    return dataset(variables="int v ;\n" + each("v:a{0} = {0}, 1, 2, 3 ;\n", n))


def comment(n):
    return dataset(atts="//" + "/" * n + "\n:a = 1 ;")


def comments(n):
    return dataset(atts="// x\n" * n + ":a = 1 ;")


def white_spaces(n):
    return dataset(atts=" \n" * n + ":a = 1 ;")


def opening(n):
    return "netcdf " + "t" * n + " {\n}\n"


def named_variables(n):
    return dataset(variables="".join(f"byte {name(number)} ;\n" for number in range(n)))


def all_names(n):
    return ["-v", ",".join(map(name, range(n)))]


def record_variables(n):
    values = each("v{} = 1, 2 ;\n", n)
    return dataset("t = UNLIMITED ;", each("short v{}(t) ;\n", n), values)


def variables_of_one_statement(n):
    return dataset("x = 2 ;", "int " + each("v{}(x)", n, ", ") + " ;")


def shapes(n):
    dims = each("d{} = 1 ;\n", n)
    variables = each("byte v{0}(d{0}, d0, d{0}) ;\n", n)
    return dataset(dims, variables)


def shape(n):
    return dataset(each("d{} = 1 ;\n", n), "byte v(" + each("d{}", n, ", ") + ") ;", "v = 5 ;")


def numbers(n):
    return dataset(f"x = {n} ;", "int v(x) ;", "v = " + each("{}", n, ", ") + " ;")


def fill_values(n):
    return dataset(f"x = {n} ;", "int v(x) ;", "v = " + "_, " * (n - 1) + "_ ;")


def numbers_and_fill_values(n):
    return dataset(f"x = {2 * n} ;", "int v(x) ;", "v =\n" + "1, _,\n" * (n - 1) + "1, _ ;")


def variables_with_an_attribute(n):
    return dataset(variables=each('byte v{0} ;\nv{0}:a = "x" ;\n', n))


def attributes_after_all_variables(n):
    return dataset(variables=each("byte v{} ;\n", n) + each('v{}:a = "x" ;\n', n))


def rows(n):
    return dataset(f"t = {n}, x = 3 ;", "char c(t, x) ;", "c = " + '"ab", ' * (n - 1) + '"c" ;')


def records_of_rows(n):
    return dataset("t = UNLIMITED, x = 3 ;", "char c(t, x) ;", "c = " + '"ab", ' * (n - 1) + '"c" ;')


def records_of_rows_beside_others(n):
    rows = "c = " + '"ab", ' * (n - 1) + '"c" ;\n'
    return dataset("t = UNLIMITED, x = 3 ;", "char c(t, x) ;\nint w(t) ;", rows + "w = " + "1, " * (n - 1) + "1 ;")


def name_of_a_dimension(n):
    return dataset("d" * n + " = 2 ;")


def name_of_a_variable(n):
    long = "v" * n
    return dataset("x = 2 ;", f"int {long}(x) ;\n{long}:a = 1 ;", f"{long} = 1, 2 ;")


def name_of_an_attribute(n):
    return dataset(atts=":" + "a" * n + " = 1 ;")


def name_of_escapes(n):
    return dataset(atts=":a" + "\\ a" * (n // 3) + " = 1 ;")


# what has many parts, n, and the seconds that generating 4n parts and dumping them may take
KINDS = {
    escapes: (100_000, 1, 1),
    characters: (1_000_000, 1, 1),
    strings: (50_000, 1.5, 1),
    numbers_of_an_attribute: (50_000, 1, 1),
    dimensions: (10_000, 1.5, 1),
    dimension_statements: (10_000, 1.5, 1),
    names_of_one_hash: (10_000, 3, 2),
    attributes: (20_000, 5, 1),
    attributes_of_numbers: (20_000, 6, 2),
    comment: (1_000_000, 1, 1),
    comments: (200_000, 1.5, 1),
    white_spaces: (500_000, 1, 1),
    opening: (1_000_000, 1, 1),
    named_variables: (5_000, 1, 1),
    record_variables: (20_000, 6, 3),
    variables_of_one_statement: (20_000, 4, 2),
    shapes: (20_000, 8, 5),
    shape: (5_000, 1, 1),
    numbers: (100_000, 1, 1),
    fill_values: (100_000, 1, 1),
    rows: (50_000, 1, 1),
    records_of_rows: (50_000, 1, 1),
    numbers_and_fill_values: (50_000, 1, 1),
    variables_with_an_attribute: (20_000, 5, 2),
    attributes_after_all_variables: (20_000, 5, 2),
    records_of_rows_beside_others: (50_000, 1, 1),
    name_of_a_dimension: (250_000, 1, 1),
    name_of_a_variable: (250_000, 1, 1),
    name_of_an_attribute: (250_000, 1, 1),
    name_of_escapes: (250_000, 1, 1),
}


# ---- files that are checked


def number(value):
    return value.to_bytes(4, "big")


def padded(text):
    return text + bytes(-len(text) % 4)


def named(text):
    return number(len(text)) + padded(text)


def oddly_named(text):
    """A name with padding that isn't zeros, if it has any."""
    return named(text)[: 4 + len(text)] + b"x" * (-len(text) % 4)


def list_of(tag, elements):
    return number(tag if elements else 0) + number(len(elements)) + b"".join(elements)


def dimension(text, length):
    return named(text) + number(length)


def attribute(text, code):
    """An attribute with one value of four bytes."""
    return named(text) + number(code) + number(1) + number(0)


def variable(text, dim, begin, atts=()):
    """A variable of type byte with this dimension, and its size."""
    return named(text) + number(1) + number(dim) + list_of(12, atts) + number(1) + number(4) + number(begin)


def header(dims, variables=(), records=0):
    return b"CDF\1" + number(records) + list_of(10, dims) + list_of(12, ()) + list_of(11, variables)


def one_name(n):
    return header([dimension(b"d", 2)] * n)


def fill_values_of_a_variable(n):
    return header([dimension(b"x", 4)], [variable(b"v", 0, 0, [attribute(b"_FillValue", 4)] * n)])


# attributes at which something is found, each by a number: a name with a slash, padding that isn't zeros, and no values; a name that isn't
# in form NFC, text with a NUL at its end, and padding again; a long name; a name with NULs at its end; a name that others have; and a fill
# value of type short
ODD_ATTRIBUTES = [
    lambda at: oddly_named(b"%d/" % at) + number(4) + number(0),
    lambda at: oddly_named("e\u0301{}".format(at).encode()) + number(2) + number(2) + b"a\0xx",
    lambda at: named(b"%0257d" % at) + number(1) + number(1) + b"\0xxx",
    lambda at: named(b"%d\0\0" % at) + number(2) + number(1) + b"\0\0\0\0",
    lambda at: named(b"a") + number(2) + number(0),
    lambda at: named(b"_FillValue") + number(3) + number(2) + b"\0\0\0\0",
]


def odd_attributes(n):
    """A variable with n odd attributes."""
    atts = [ODD_ATTRIBUTES[at % len(ODD_ATTRIBUTES)](at) for at in range(n)]
    return header([dimension(b"x", 4)], [variable(b"v", 0, 0, atts)])


def odd_variables(n):
    """n dimensions of 2^31, and n variables of type double with long names and wrong sizes, which have in turn each odd attribute, a fill
    value too many, and an empty list of attributes with its own tag."""
    all_odd = [made(0) for made in ODD_ATTRIBUTES]
    two_fill_values = [named(b"_FillValue") + number(6) + number(2) + bytes(16)]
    lists = [list_of(12, all_odd), list_of(12, two_fill_values), number(12) + number(0)]
    start, end = number(1) + number(0), number(6) + number(4) + number(0)
    variables = [named(b"%0257d" % at) + start + lists[at % len(lists)] + end for at in range(n)]
    return header([dimension(b"x", 4)] + [dimension(b"%d " % at, 1 << 31) for at in range(n)], variables)


def cut_records(n):
    """A file of n record variables and two records that ends in the midst of the first."""
    dims = [dimension(b"t", 0)]
    end = len(header(dims, [variable(b"%08d" % at, 0, 0) for at in range(n)]))
    return header(dims, [variable(b"%08d" % at, 0, end + 4 * at) for at in range(n)], records=2) + bytes(2 * n)


def variables_at(begin_of, length, first_is_long=False):
    """A file of n variables, each of which begins where the function says, if the header ends there."""

    def made(n):
        dims = [dimension(b"x", length), dimension(b"y", 16 * n)]
        end = len(header(dims, [variable(b"%08d" % i, 0, 0) for i in range(n)]))
        return header(dims, [variable(b"%08d" % i, int(first_is_long and i == 0), begin_of(end, i, n)) for i in range(n)]) + bytes(16 * n)

    return made


# what has many parts, n, and the seconds that checking 4n parts may take
CHECKED = {
    "dimensions of one name": (one_name, 10_000, 2),
    "fill values of one variable": (fill_values_of_a_variable, 10_000, 3),
    "variables one after the other": (variables_at(lambda end, i, n: end + 4 * i, 4), 10_000, 3),
    "variables within the first": (variables_at(lambda end, i, n: end + 8 * i, 4, True), 10_000, 3),
    "variables in the other order": (variables_at(lambda end, i, n: end + 4 * (n - i), 4), 10_000, 3),
    "variables at one place": (variables_at(lambda end, i, n: end, 4), 10_000, 3),
    "record variables in the other order": (variables_at(lambda end, i, n: end + 4 * (n - i), 0), 10_000, 3),
    "record variables in a cut file": (cut_records, 10_000, 3),
    "odd attributes of one variable": (odd_attributes, 10_000, 3),
    "odd variables and dimensions": (odd_variables, 4_000, 3),
}
# the words of a dump, if they are more than the path
WORDS = {named_variables: all_names}


class Broken(Exception):
    """Something that has to hold doesn't."""


def usage_of(seconds, words, status=0):
    """What the program uses, which ends with this status, and is stopped once it has spent more processor time than these seconds."""

    def limited():
        most = math.ceil(seconds)
        resource.setrlimit(resource.RLIMIT_CPU, (most, most + 1))

    child = subprocess.Popen(words, stdout=subprocess.DEVNULL, stderr=subprocess.DEVNULL if status else None, preexec_fn=limited)
    _, ended, usage = os.wait4(child.pid, 0)
    child.returncode = os.waitstatus_to_exitcode(ended)
    if child.returncode < 0:
        raise Broken(f"stopped after {usage.ru_utime + usage.ru_stime:.3f} s, where {seconds} s are allowed")
    if child.returncode != status:
        raise Broken(f"status {child.returncode}")
    return usage


def least_time(seconds, *words, status=0, few=None):
    """The least processor time of a program that is run TIMES times, and ends with this status, or until it keeps its bound beside that
    for few parts, if that is given."""
    least = math.inf
    for _ in range(TIMES):
        usage = usage_of(seconds, words, status)
        least = min(least, usage.ru_utime + usage.ru_stime)
        if few is not None and least <= seconds and least < bound(few):
            break
    return least


def bound(few):
    """What many parts have to take less than, beside the time for few."""
    return 8 * max(few, FLOOR)


def compared(few, many, seconds):
    """The two times in words. They keep the bound, and don't grow with a square."""
    said = f"{few:.3f} s and {many:.3f} s"
    if many > seconds:
        raise Broken(f"{said}, where {seconds} s are allowed")
    if many >= bound(few):
        raise Broken(f"{said}: the time grows with more than the parts")
    return said


def made(kind, n, seconds, few=None):
    """The time in which the text of n parts is generated."""
    Path("many.cdl").write_text(kind(n))
    return least_time(seconds, BIN / "ncgen", "-k", "nc6", "-o", "many.nc", "many.cdl", few=few)


def dumped(kind, n, seconds, few=None):
    """The time in which the file of the last text is dumped."""
    words = WORDS[kind](n) if kind in WORDS else []
    return least_time(seconds, BIN / "ncdump", *words, "many.nc", few=few)


def times(kind):
    """The times for n parts and for 4n: of ncgen, and of ncdump."""
    n, to_make, to_dump = KINDS[kind]
    few = made(kind, n, to_make), dumped(kind, n, to_dump)
    many = made(kind, 4 * n, to_make, few[0]), dumped(kind, 4 * n, to_dump, few[1])
    generated = compared(few[0], many[0], to_make)
    return f"{generated} generated, {compared(few[1], many[1], to_dump)} dumped"


def checked(kind):
    """The times in which the files of n parts and of 4n are checked."""
    build, n, seconds = CHECKED[kind]

    def taken(parts, few=None):
        Path("many.nc").write_bytes(build(parts))
        return least_time(seconds, BIN / "nccheck", "-l", "note", "many.nc", status=1, few=few)

    few = taken(n)
    return compared(few, taken(4 * n, few), seconds) + " checked"


def verdicts():
    """What is tried, and what says how long it took."""
    for kind in KINDS:
        yield kind.__name__, lambda kind=kind: times(kind)
    for kind in CHECKED:
        yield kind, lambda kind=kind: checked(kind)


def main():
    passed = failed = 0
    with tempfile.TemporaryDirectory() as folder:
        os.chdir(folder)
        for what, said in verdicts():
            try:
                print(f"ok {what}: {said()}")
                passed += 1
            except Broken as why:
                failed += 1
                print(f"FAILED {what}: {why}")
        os.chdir("/")
    print(f"{passed} passed, {failed} failed")
    return 1 if failed else 0


if __name__ == "__main__":
    sys.exit(main())
