#!/usr/bin/env python3
"""Times bin/ncgen beside Unidata's ncgen (Debian's netcdf-bin) on texts of many kinds, in one run.

    bench/generate.py [--keep] [NAME ...]

It makes the texts, and runs both programs in turn on each. For each text it prints its size, the least time of each program in
milliseconds, how many times as fast ours is, and how many megabytes of text ours reads a second, with an output and without. It
also prints the most memory that each program took, and how much of ours isn't the text and the packed values. It needs GNU time,
and bin/ncgen built. With --keep, the times of texts that the table has go into
pictures/times.tsv.

Some texts come in two lengths. The run fails where four times the length takes more than six times as long.
"""

import os
import random
import sys
import tempfile
from pathlib import Path

from measure import GENERATE, THEIR_GENERATE, keep, peak, run

RUNS = 5
# milliseconds from which on a program runs once, and from which on Unidata's is stopped
SLOW = 2000
STOPPED = 60_000


def text(dims="", variables="", data=""):
    parts = [("dimensions", dims), ("variables", variables), ("data", data)]
    return "netcdf t {\n" + "".join(f"{name}:\n{part}" for name, part in parts if part) + "}\n"


def listed(values, between, ty="int"):
    return text(f"\tn = {len(values)} ;\n", f"\t{ty} v(n) ;\n", f" v = {between.join(values)} ;\n")


def ints():
    random.seed(1)
    return listed([str(random.randrange(-(10**6), 10**6)) for _ in range(5_000_000)], ", ")


def numbers(least, most, count):
    random.seed(1)
    return ", ".join(str(random.randrange(least, most)) for _ in range(count))


def cube():
    return text("\ta = 100 ;\n\tb = 1000 ;\n\tc = 100 ;\n", "\tshort v(a, b, c) ;\n", f" v = {numbers(-3000, 3000, 10**7)} ;\n")


def many_bytes():
    return text("\tn = 10000000 ;\n", "\tbyte v(n) ;\n", f" v = {numbers(-128, 128, 10**7)} ;\n")


def records():
    """Three interleaved record variables."""
    names = "abc"
    values = "".join(f" {name} = {numbers(-(10**6), 10**6, 200_000)} ;\n" for name in names)
    return text("\tt = UNLIMITED ;\n", "".join(f"\tint {name}(t) ;\n" for name in names), values)


def int64s():
    return text("\tn = 2000000 ;\n", "\tint64 v(n) ;\n", f" v = {numbers(-(10**18), 10**18, 2 * 10**6)} ;\n")


def rows():
    random.seed(1)
    lines = ['  "' + "".join(random.choices("abcdefgh ", k=80)) + '"' for _ in range(50_000)]
    return text("\tn = 50000 ;\n\tk = 80 ;\n", "\tchar v(n, k) ;\n", " v =\n" + ",\n".join(lines) + " ;\n")


def some_missing():
    random.seed(1)
    return listed(["_" if random.random() < 0.3 else str(random.randrange(-(10**6), 10**6)) for _ in range(10**6)], ", ")


def attribute(least, most, suffix=""):
    return "netcdf t {\n\t:a = " + numbers(least, most, 500_000).replace(",", suffix + ",") + f"{suffix} ;\n}}\n"


def equal_rows(row):
    """20,000 rows of 80 characters, each row this string."""
    lines = ",\n".join([f'  "{row}"'] * 20_000)
    return text("\tn = 20000 ;\n\tk = 80 ;\n", "\tchar v(n, k) ;\n", f" v =\n{lines} ;\n")


# what real files are full of
MIXES = {
    "some_missing": some_missing,
    "all_missing": lambda: listed(["_"] * 10**6, ", ", "short"),
    "attribute": lambda: attribute(-(10**6), 10**6),
    "short_attribute": lambda: attribute(-(2**15), 2**15, "s"),
    "names": lambda: equal_rows("station_01"),
    "empty_rows": lambda: equal_rows(""),
    "escapes": lambda: equal_rows(r"abcdefg\n" * 10),
}


def data(n, backwards=False):
    """As many variables as data statements."""
    statements = [f" v{i} = {i} ;\n" for i in range(n)]
    if backwards:
        statements.reverse()
    return text("", "".join(f"\tint v{i} ;\n" for i in range(n)), "".join(statements))


def records_beside(n):
    """As many records of 300 record variables as there are other variables."""
    records = "".join(f"\tint r{i}(t) ;\n" for i in range(300))
    others = "".join(f"\tbyte v{i} ;\n" for i in range(n))
    return text("\tt = UNLIMITED ;\n", records + others, f" r0 = {', '.join(['1'] * n)} ;\n")


TEXTS = {
    "ints": ints,
    "ones": lambda: listed(["1"] * 10_000_000, ","),
    "cube": cube,
    "bytes": many_bytes,
    "rows": rows,
    "records": records,
    "int64s": int64s,
    "variables": lambda: data(20_000),
    "comment": lambda: "netcdf t {\n//" + "x" * 100_000_000 + "\n}\n",
}
GROWING = {
    "data": data,
    "data_backwards": lambda n: data(n, True),
    "one_list_of_dimensions": lambda n: text("\t" + ", ".join(f"d{i} = {i + 1}" for i in range(n)) + " ;\n"),
    "dimensions": lambda n: text("".join(f"\td{i} = {i + 1} ;\n" for i in range(n))),
    "one_list_of_variables": lambda n: text("\tn = 2 ;\n", "\tint " + ", ".join(f"v{i}(n)" for i in range(n)) + " ;\n"),
    "shapes": lambda n: text("".join(f"\td{i} = 1 ;\n" for i in range(n)), "".join(f"\tint v{i}(d{i}) ;\n" for i in range(n))),
    "attributes": lambda n: text("", "\tint v ;\n" + "".join(f"\t\tv:a{i} = {i} ;\n" for i in range(n))),
    "records_beside_variables": records_beside,
    "strings": lambda n: text("", "\tint v ;\n\t\tv:a = " + ", ".join(f'"s{i}"' for i in range(n)) + " ;\n"),
}
LENGTHS = (10_000, 40_000)
# the texts that are not of the first version
KINDS = {"int64s": "nc5", "skeleton": "nc5"}


def timed(name, content, out="made.nc"):
    """The least time of ours on this text; prints a line. Unidata's is given no device, which as root it removes where it fails."""
    path = f"{name}.cdl"
    Path(path).write_text(content)
    size = len(content)
    kind = KINDS.get(name, "nc3")
    words = ["-k", kind, "-o", out, path]
    ours = run([GENERATE, *words])
    theirs = None if out.startswith("/dev/") else run([THEIR_GENERATE, *words], STOPPED / 1000)
    reading = run([GENERATE, "-k", kind, path])
    for _ in range(RUNS - 1):
        ours = min(ours, run([GENERATE, *words]))
        reading = min(reading, run([GENERATE, "-k", kind, path]))
        if theirs and theirs < SLOW:
            theirs = min(theirs, run([THEIR_GENERATE, *words]))
    shown = f"{theirs:9.1f} {ours:9.1f} {theirs / ours:7.1f}" if theirs else f"{'none':>9} {ours:9.1f} {'-':>7}"
    held = peak([GENERATE, *words])
    their_peak = peak([THEIR_GENERATE, *words]) if theirs else 0
    made = os.path.getsize(out) if os.path.isfile(out) else 0
    beside = held - (size + made) // 1024
    speeds = f"{size / ours / 1000:7.1f} {size / reading / 1000:7.1f}"
    print(f"{name:30} {size:10} {shown} {speeds} {their_peak:8} {held:8} {beside:8}", flush=True)
    os.remove(path)
    if "--keep" in sys.argv and theirs:
        keep("ncgen", name, theirs, ours)
    return ours


def main():
    wanted = {*sys.argv[1:]} - {"--keep"}
    faults = []
    with tempfile.TemporaryDirectory() as folder:
        os.chdir(folder)
        columns = f"{'MB/s':>7} {'read':>7} {'its KiB':>8} {'our KiB':>8} {'beside':>8}"
        print(f"{'text':30} {'bytes':>10} {'Unidata':>9} {'ours':>9} {'times':>7} {columns}")
        for name, make in (TEXTS | MIXES).items():
            if not wanted or name in wanted:
                timed(name, make())
        if not wanted or "skeleton" in wanted:
            timed("skeleton", text("\tn = 4294967292 ;\n", "\tbyte v(n) ;\n"), "/dev/null")
        for name, make in GROWING.items():
            if wanted and name not in wanted:
                continue
            few, many = (timed(f"{name}_{n}", make(n)) for n in LENGTHS)
            if many > 6 * few:
                faults.append(f"{name}: {LENGTHS[1]} take {many / few:.1f} times as long as {LENGTHS[0]}")
    for fault in faults:
        print(fault)
    return 1 if faults else 0


if __name__ == "__main__":
    sys.exit(main())
