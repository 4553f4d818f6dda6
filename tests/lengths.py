#!/usr/bin/env python3
"""Has bin/ncgen make files of every length up to that of two buffers, and compares each byte for byte.

    tests/lengths.py [STEP]

The files have one variable of characters, a record each, so nothing is padded. With a STEP, one of STEP lengths is
tried, and each that is near the end of a buffer.
The last line is 'N passed, M failed', of stretches of lengths.
"""

import os
import sys
import tempfile
from concurrent.futures import ProcessPoolExecutor
from pathlib import Path

NCGEN = Path(__file__).resolve().parent.parent / "bin" / "ncgen"
# how many bytes the buffer before an output has
BUFFER = 65536
HEADER = 80
# how far from the end of a buffer each length is tried
NEAR = 300
# how many lengths one stretch has
STRETCH = 1024
# characters that stand for themselves in a string, and as many of them as no power of two divides
BYTES = bytes(b for b in range(0x20, 0x100) if b not in b'"\\')[:211]
CHARACTERS = BYTES * (2 * BUFFER // len(BYTES) + 1)
WORDS = [os.fsencode(NCGEN), b"-o", b"made.nc", b"given.cdl"]


def text(count):
    return b'netcdf t {\ndimensions: t = UNLIMITED ;\nvariables: char c(t) ;\ndata: c = "' + CHARACTERS[:count] + b'" ;\n}\n'


def file(count):
    """The file of the text: its header, in which each field has four bytes, and the characters."""
    fields = [b"CDF\1", count, 10, 1, 1, b"t\0\0\0", 0, 0, 0, 11, 1, 1, b"c\0\0\0", 1, 0, 0, 0, 2, 4, HEADER]
    header = b"".join(field if isinstance(field, bytes) else field.to_bytes(4, "big") for field in fields)
    return header + CHARACTERS[:count]


def broken(count):
    """What is wrong with the file of this many characters, if anything is."""
    Path("given.cdl").write_bytes(text(count))
    child = os.posix_spawn(WORDS[0], WORDS, {})
    _, status = os.waitpid(child, 0)
    if status:
        return f"{count} characters: status {os.waitstatus_to_exitcode(status)}"
    if Path("made.nc").read_bytes() != file(count):
        return f"{count} characters: another file"
    return None


def tried(stretch):
    """The first thing that is wrong with the files of these numbers of characters, if anything is."""
    return next(filter(None, map(broken, stretch)), None)


def settled():
    os.chdir(tempfile.mkdtemp(dir=os.environ["LENGTHS"]))


def main(step=1):
    most = 2 * BUFFER - HEADER + 4
    stretches = [range(at, min(at + STRETCH * step, most), step) for at in range(0, most, STRETCH * step)]
    stretches += [range(at - NEAR, min(at + NEAR, most)) for at in (BUFFER - HEADER, 2 * BUFFER - HEADER)]
    failed = 0
    with tempfile.TemporaryDirectory() as folder:
        os.environ["LENGTHS"] = folder
        with ProcessPoolExecutor(initializer=settled) as pool:
            for why in pool.map(tried, stretches):
                if why:
                    failed += 1
                    print(why)
    print(f"{len(stretches) - failed} passed, {failed} failed")
    return 1 if failed else 0


if __name__ == "__main__":
    sys.exit(main(*map(int, sys.argv[1:])))
