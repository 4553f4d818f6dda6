#!/usr/bin/env python3
"""Compares bin/ncdump with Unidata's ncdump on random files, which Unidata's ncgen makes.

    tests/compare.py [FILES [SEED]]

Both programs have to write the same bytes with each set of options, once the line breaks inside lists of numbers are undone: each
program has a rule of its own for these. Wants `ncgen` and `ncdump` on the path (Debian's netcdf-bin), and bin/ncdump built. It
proves nothing, and is no part of `make test`.

Left out is what else is known to differ (docs/DIFFERENCES.md): names with `%` and names that are reserved words; line feeds at
the end of a text attribute; NULs at the end of a row of characters with a fill value of its own or in a record variable of rank
1. Left out too are bytes from 0x80 in characters, and int64 and uint64 variables, which ncgen 4.9.0 writes as ints.
"""

import random
import re
import subprocess
import sys
import tempfile
from pathlib import Path

OURS = Path(__file__).resolve().parent.parent / "bin" / "ncdump"
# those of Debian's netcdf-bin
THEIRS, THEIR_GENERATOR = "/usr/bin/ncdump", "/usr/bin/ncgen"

# the least and the greatest value of each type, and the suffix that CDL gives its values
NUMBERS = {
    "byte": (-(2**7), 2**7 - 1, "b"),
    "short": (-(2**15), 2**15 - 1, "s"),
    "int": (-(2**31) + 1, 2**31 - 1, ""),
    "ubyte": (0, 2**8 - 1, "ub"),
    "ushort": (0, 2**16 - 1, "us"),
    "uint": (0, 2**32 - 1, "u"),
}
CLASSIC = ["byte", "short", "int", "char"]
FORMATS = {"nc3": CLASSIC, "nc6": CLASSIC, "nc5": [*NUMBERS, "char"]}
LETTERS = "abcdefgXYZ_0123456789"
SPECIALS = " !\"#$&'()*,:;<=>[]^`{|}~\\"
# characters that a name may have, the last few of them beyond ASCII
ALL_LETTERS = LETTERS + "@+-." + SPECIALS + "éßλ中"
# bytes of strings, with a NUL, other control characters and what has an escape of its own
BYTES = "abc xyz\"\\'%/#;,?" + "".join(map(chr, [*range(10), *range(11, 32), 127]))


class Files:
    """Random files, as CDL text."""

    def __init__(self, seed):
        self.random = random.Random(seed)
        self.names = 0

    def name(self):
        """A name that no other has."""
        self.names += 1
        length = self.random.choice([1, 2, 3, 8, 20, 60])
        letters = ALL_LETTERS if self.random.random() < 0.2 else LETTERS
        middle = "".join(self.random.choice(letters) for _ in range(length))
        return f"{self.random.choice('abcxyzT_')}{middle}{self.names}"

    def characters(self, length):
        """This number of characters, the last of them no NUL."""
        letters = BYTES if self.random.random() < 0.3 else "abcdefgh "
        return "".join(self.random.choice(letters) for _ in range(length - 1)) + "z" * (length > 0)

    def number(self, of):
        least, most, _ = NUMBERS[of]
        kind = self.random.random()
        if kind < 0.2:
            return self.random.choice([least, most, 0, 1])
        if kind < 0.5:
            return self.random.randint(least, most)
        return self.random.randint(max(least, -999), min(most, 999))

    def value(self, of):
        """A number with its suffix, or a blank."""
        return "_" if self.random.random() < 0.1 else f"{self.number(of)}{NUMBERS[of][2]}"

    def attribute(self, owner, of):
        name = escaped(self.name())
        if of == "char":
            values = [quoted(self.characters(self.random.randint(0, 30)))]
        else:
            count = self.random.randint(1, 12)
            values = [f"{self.number(of)}{NUMBERS[of][2]}" for _ in range(count)]
        return f"\t\t{owner}:{name} = {', '.join(values)} ;"

    def fill(self, owner, of):
        if of == "char":
            return f'\t\t{owner}:_FillValue = "x" ;'
        return f"\t\t{owner}:_FillValue = {self.number(of)}{NUMBERS[of][2]} ;"

    def values(self, of, shape, padded):
        """The values of a variable of this shape; rows of characters are whole unless the fill value pads them."""
        count = 1
        for length in shape:
            count *= length
        if of == "char":
            row = shape[-1] if shape else 1
            least = 1 if padded else row
            rows = [self.characters(self.random.randint(least, row)) for _ in range(count // row)]
            return ", ".join(quoted(row) for row in rows)
        return ", ".join(self.value(of) for _ in range(count))

    def variable(self, types, dims, record, names):
        """A variable beside those of these names: its name, its declaration, and its values where it has any."""
        pick = self.random
        of = pick.choice(types)
        shape = [pick.choice(dims) for _ in range(pick.randint(0, 3))] if dims else []
        is_record = record is not None and pick.random() < 0.5
        if is_record:
            shape.insert(0, record)
        name = self.name()
        if len(shape) == 1 and pick.random() < 0.5 and shape[0][0] not in names:
            name = shape[0][0]
        axes = ", ".join(escaped(dim) for dim, _ in shape)
        head = [f"\t{of} {escaped(name)}{f'({axes})' if axes else ''} ;"]
        is_filled = pick.random() < 0.3
        if is_filled:
            head.append(self.fill(escaped(name), of))
        head += [self.attribute(escaped(name), pick.choice(types)) for _ in range(pick.randint(0, 2))]
        if not (is_record or is_filled and of == "char" or pick.random() < 0.85):
            return name, head, []
        padded = not is_filled and not (is_record and len(shape) == 1)
        values = self.values(of, [length for _, length in shape], padded)
        return name, head, [f" {escaped(name)} = {values} ;"]

    def file(self, types):
        """A file as CDL text, and the names of its variables."""
        pick = self.random
        dims = [(self.name(), pick.randint(1, 7)) for _ in range(pick.randint(0, 4))]
        record = (self.name(), pick.randint(1, 5)) if pick.random() < 0.6 else None
        head, data, names = [], [], []
        for _ in range(pick.randint(0, 5)):
            name, declared, values = self.variable(types, dims, record, names)
            names.append(name)
            head += declared
            data += values
        head += [self.attribute("", pick.choice(types)) for _ in range(pick.randint(0, 3))]
        lengths = [f"\t{escaped(dim)} = {length} ;" for dim, length in dims]
        if record:
            lengths.insert(pick.randint(0, len(dims)), f"\t{escaped(record[0])} = UNLIMITED ;")
        parts = {"dimensions:": lengths, "variables:": head, "data:": data}
        lines = [line for part, found in parts.items() if found for line in (part, *found)]
        return "\n".join(["netcdf random {", *lines, "}", ""]), names

    def options(self, names):
        """Sets of options for a file with these variables."""
        width = str(self.random.choice([20, 40, 79, 133, 1000]))
        sets = [[], ["-h"], ["-c"], ["-l", width], ["-n", self.name()]]
        if names and not any("," in name for name in names):
            sets.append(["-v", self.some(names)])
            sets.append(["-c", "-v", self.some(names)])
            sets.append(["-v", self.some(names), "-l", "30", "-n", "x"])
        return sets

    def some(self, names):
        """One or more of the names, joined by commas."""
        return ",".join(self.random.sample(names, self.random.randint(1, len(names))))


def escaped(name):
    return "".join("\\" + letter if letter in SPECIALS else letter for letter in name)


def quoted(text):
    def byte(letter):
        return letter if letter.isprintable() and letter not in "\"'\\" else f"\\{ord(letter):03o}"

    return '"' + "".join(map(byte, text)) + '"'


def dump(program, options, path):
    """The status, and the text with the line breaks inside lists of numbers undone: they alone stand after a blank."""
    ran = subprocess.run([program, *options, path], capture_output=True)
    return ran.returncode, re.sub(b"(?<= )\n    (?! )", b"", ran.stdout)


def main(count=200, seed=1):
    files = Files(seed)
    made = compared = differ = 0
    with tempfile.TemporaryDirectory() as folder:
        text, path = Path(folder, "random.cdl"), Path(folder, "random.nc")
        for _ in range(count):
            kind = files.random.choice(list(FORMATS))
            cdl, names = files.file(FORMATS[kind])
            text.write_text(cdl)
            # ncgen 4.9.0 ends with a fault of memory now and then: then there is nothing to compare
            if subprocess.run([THEIR_GENERATOR, "-k", kind, "-o", path, text], capture_output=True).returncode:
                continue
            made += 1
            for options in files.options(names):
                ours, theirs = dump(OURS, options, path), dump(THEIRS, options, path)
                compared += 1
                if ours != theirs:
                    differ += 1
                    Path(f"differs{differ}.cdl").write_text(cdl)
                    print(f"differs{differ}.cdl with -k {kind}: {options}")
    print(f"{made} files of {count}, {compared} dumps compared, {differ} differ")
    return 1 if differ or not made else 0


if __name__ == "__main__":
    sys.exit(main(*map(int, sys.argv[1:3])))
