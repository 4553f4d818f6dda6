#!/usr/bin/env python3
"""Dumps the files of random datasets, and generates them again from the dumps.

    tests/roundtrip.py [DATASETS [SEED]] [--unidata]

For each dataset of tests/datasets.py, bin/ncgen has to make, from what bin/ncdump prints of its file, at some width, the file of the
same dataset without the NULs at the end of its attributes, byte for byte; the dump of that file has to be the same text; and bin/nccheck
has to find nothing in it, notes included, but what a text can declare.

With --unidata the same text is given to Unidata's ncgen too (Debian's netcdf-bin), and it is said how many of its files have the
same bytes. It makes others where it is known to differ (docs/DIFFERENCES.md).
"""

import contextlib
import subprocess
import sys
import tempfile
from pathlib import Path

from datasets import Datasets

BIN = Path(__file__).resolve().parent.parent / "bin"


# what a text can declare, though it breaks a rule of the format or a limit of Unidata's library
ALLOWED = [b"not-nfc", b"fill-value", b"large-variable", b"long-name", b"high-rank"]


def run(*words):
    return subprocess.run(words, capture_output=True, timeout=60)


class Trips:
    """What came of the round trips so far."""

    def __init__(self):
        self.made = self.failed = self.theirs = self.same = 0

    def fail(self, number, why):
        self.failed += 1
        print(f"dataset {number}: {why}")

    def ours(self, number, dataset, options):
        """Dumps and generates a dataset in the current folder. Returns true if the text was read."""
        self.made += 1
        Path("first.nc").write_bytes(dataset.file())
        dump = run(BIN / "ncdump", *options, "first.nc")
        if dump.returncode:
            self.fail(number, f"not dumped: {dump.stderr}")
            return False
        Path("text.cdl").write_bytes(dump.stdout)
        generated = run(BIN / "ncgen", "-k", dataset.kind, "-o", "second.nc", "text.cdl")
        if generated.returncode:
            self.fail(number, f"not generated: {generated.stderr}")
            return False
        if Path("second.nc").read_bytes() != dataset.trimmed().file():
            self.fail(number, "another file")
        elif run(BIN / "ncdump", *options, "second.nc").stdout != dump.stdout:
            self.fail(number, "another text")
        found = run(BIN / "nccheck", "-l", "note", "second.nc").stdout
        if any(line.split(b": ")[2] not in ALLOWED for line in found.splitlines()):
            self.fail(number, f"a check finds {found}")
        return True

    def unidata(self, kind):
        """Generates the text in the current folder by Unidata's program, that of Debian's netcdf-bin."""
        Path("theirs.nc").unlink(missing_ok=True)
        if run("/usr/bin/ncgen", "-k", kind, "-o", "theirs.nc", "text.cdl").returncode == 0:
            self.theirs += 1
            self.same += Path("theirs.nc").read_bytes() == Path("second.nc").read_bytes()


def main(words):
    numbers = [int(word) for word in words if word != "--unidata"]
    count, seed = (numbers + [300, 1][len(numbers) :])[:2]
    datasets, trips = Datasets(seed), Trips()
    with tempfile.TemporaryDirectory() as folder, contextlib.chdir(folder):
        for number in range(count):
            dataset = datasets.dataset()
            options = ["-n", "t", "-l", str(datasets.random.choice([20, 40, 80, 1000]))]
            if trips.ours(number, dataset, options) and "--unidata" in words:
                trips.unidata(dataset.kind)
    print(f"{trips.made} datasets dumped and generated, {trips.failed} differ")
    if trips.theirs:
        print(f"Unidata's ncgen made {trips.theirs} files of the dumps, {trips.same} with the same bytes")
    return 1 if trips.failed or not trips.made else 0


if __name__ == "__main__":
    sys.exit(main(sys.argv[1:]))
