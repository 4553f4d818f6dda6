#!/usr/bin/env python3
"""Compares the time of bin/ncgen on two texts each, so that what has a quick way takes it, and nothing is gone over twice.

    tests/ratios.py

The quick way over a list changes no byte, and no contract says that it is taken. But it is many times as fast as the way of hexadecimal
numbers, or of strings with an escape. So the time of plain values is compared with that of as many values that no quick way is for. One list is compared
with the same values in many lists, so that no list is read a second time from some length on. And a text is compared with the same text
without its closing brace, which has a fault at its end, so that nothing is looked for once more where a text has none. No file is made.

The two texts are read in turn, TIMES each. The time is that which the processor spends in the program, and not in the system, which has
as much to do for both. The system divides a run's time into the two by samples, some of which are far off in a run this short: so the
median counts, and a pair that misses its bound is measured again, up to TRIES times. What goes over a list twice misses it each time.
The last line is 'N passed, M failed'.
"""

import os
import sys
import tempfile
from pathlib import Path
from statistics import median

from squares import BIN, Broken, dataset, usage_of

# how many lists have the values of one long list
LISTS = 100
# seconds that a text may take
SECONDS = 20
# how often each time is taken, and how often a pair is measured
TIMES = 7
TRIES = 3
ROW = "a" * 18
LONG, SHORT, ROWS = 5_000_000, 10_000_000, 2_000_000


def lists(values, count, times=1):
    """A text with `times` lists, each of another variable: the values, one or more, `count` times."""
    row = len(values) if '"' in values else 0
    ty, shape = ("char", "x, y") if row else ("int", "x")
    variables = "".join(f"{ty} v{number}({shape}) ;\n" for number in range(times))
    listed = "".join(f"v{number} = {f'{values}, ' * (count - 1)}{values} ;\n" for number in range(times))
    return dataset(f"x = {count * (values.count(',') + 1)}, y = {row or 1} ;", variables, listed)


def attribute(value, count):
    """A text with one attribute, which has the value `count` times."""
    return dataset(atts=f":a = {f'{value}, ' * (count - 1)}{value} ;\n")


def without_brace(text):
    return text.removesuffix("}\n")


# two texts, what part of the time for the second one the first may take, and the status of the second
PAIRS = {
    "numbers, beside hexadecimal ones": (
        lambda: lists("1234567", LONG),
        lambda: lists("0x12d687", LONG),
        0.6,
        0,
    ),
    "numbers of one digit, beside hexadecimal ones": (
        lambda: lists("1", SHORT),
        lambda: lists("0x1", SHORT),
        0.6,
        0,
    ),
    "numbers with a suffix, beside hexadecimal ones": (
        lambda: lists("1234567L", LONG),
        lambda: lists("0x12d687", LONG),
        0.6,
        0,
    ),
    "numbers and fill values in turn, beside hexadecimal numbers": (
        lambda: lists("_, 1234567", LONG // 2),
        lambda: lists("0x12d687", LONG),
        0.6,
        0,
    ),
    "numbers of an attribute, beside hexadecimal ones": (
        lambda: attribute("1234567", LONG),
        lambda: attribute("0x12d687", LONG),
        0.35,
        0,
    ),
    "strings, beside strings with an escape": (
        lambda: lists(f'"{ROW}"', ROWS),
        lambda: lists(rf'"{ROW}\t"', ROWS),
        0.6,
        0,
    ),
    "short strings, beside such with an escape": (
        lambda: lists('"ab"', LONG),
        lambda: lists(r'"a\t"', LONG),
        0.6,
        0,
    ),
    "one list of numbers, beside many": (
        lambda: lists("1234567", LONG),
        lambda: lists("1234567", LONG // LISTS, LISTS),
        1.6,
        0,
    ),
    "one list of fill values, beside many": (
        lambda: lists("_", LONG),
        lambda: lists("_", LONG // LISTS, LISTS),
        1.6,
        0,
    ),
    "one list of strings, beside many": (
        lambda: lists(f'"{ROW}"', ROWS),
        lambda: lists(f'"{ROW}"', ROWS // LISTS, LISTS),
        1.6,
        0,
    ),
    "one list of short strings, beside many": (
        lambda: lists('"ab"', LONG),
        lambda: lists('"ab"', LONG // LISTS, LISTS),
        1.6,
        0,
    ),
    "numbers, beside a text without its brace": (
        lambda: lists("1234567", LONG),
        lambda: without_brace(lists("1234567", LONG)),
        1.5,
        1,
    ),
    "comments, beside a text without its brace": (
        lambda: dataset(atts="// x\n" * LONG + ":a = 1 ;"),
        lambda: without_brace(dataset(atts="// x\n" * LONG + ":a = 1 ;")),
        1.5,
        1,
    ),
}


def ratio(status):
    """What part of the time for the second text the first one takes, and both times in words."""
    both = (("first.cdl", 0), ("second.cdl", status))
    times = [[usage_of(SECONDS, [BIN / "ncgen", path], status).ru_utime for path, status in both] for _ in range(TIMES)]
    one, other = map(median, zip(*times))
    return one / other, f"{one:.3f} s and {other:.3f} s"


def compared(first, second, most, status):
    """Whether the first text keeps its bound beside the second, and what was measured."""
    Path("first.cdl").write_text(first())
    Path("second.cdl").write_text(second())
    for _ in range(TRIES):
        part, times = ratio(status)
        said = f"{times}: {part:.2f} times as long, where {most:.2f} is allowed"
        if part <= most:
            return True, said
    return False, said


def main():
    failed = 0
    with tempfile.TemporaryDirectory() as folder:
        os.chdir(folder)
        for name, pair in PAIRS.items():
            try:
                is_well, said = compared(*pair)
            except Broken as why:
                is_well, said = False, str(why)
            failed += not is_well
            print(f"{'ok' if is_well else 'FAILED'} {name}: {said}", flush=True)
        os.chdir("/")
    print(f"{len(PAIRS) - failed} passed, {failed} failed")
    return 1 if failed else 0


if __name__ == "__main__":
    sys.exit(main())
