#!/usr/bin/env python3
"""Gives the built programs mangled and cut files and texts, and random files, and asks for what has to hold of their answers whatever the
input is.

    tests/hostile.py [CASES [SEED]]

Each run has 256 MiB of memory and 5 seconds of processor time. Of each answer:

- the status is 0 and standard error is empty, or it is 1 and standard error is one line that names the file and a fault;
- no dump begins where the header has a fault; where data are cut short the text is a prefix of that of the whole file;
- each line of a check is that of a finding; a check finds the fault of a dump first, missing values where data are cut short, and none of
  both where all is printed;
- a refused text leaves no output, and the line that its fault names is one of the text;
- what is generated is dumped; what is generated from that dump is dumped and generated once more, byte for byte;
- a text whose rows pass the limit on an array is too large, however few strings it has;
- a refused text has the same fault on standard input.

The last line is 'N passed, M failed', of seeds with 20 cases each.
"""

import os
import random
import re
import resource
import subprocess
import sys
import tempfile
from concurrent.futures import ProcessPoolExecutor
from pathlib import Path

from datasets import Datasets

BIN = Path(__file__).resolve().parent.parent / "bin"
MEMORY = 256 << 20
SECONDS = 5
# seconds until a run counts as one that doesn't end, however busy the machine is
WAIT = 120
# how many cases one seed's dataset gives
EACH = 20
HEADER_FAULT = re.compile(
    rb"not a netCDF classic file|unknown version \d+|header truncated|bad (tag|count|name|type|shape|offset)|floating type"
    rb"|two record dimensions|too large"
)
# the kinds of findings that are faults of a header, by the words for the fault
KINDS = {
    b"not a netCDF classic file": {b"not-netcdf", b"hdf5", b"gzip", b"empty-file"},
    b"unknown version": {b"unknown-version"},
    b"header truncated": {b"header-truncated"},
    b"bad tag": {b"bad-tag"},
    b"bad count": {b"bad-count", b"large-count"},
    b"bad name": {b"bad-name", b"name-characters"},
    b"bad type": {b"bad-type"},
    b"bad shape": {b"bad-shape"},
    b"bad offset": {b"bad-offset"},
    b"floating type": {b"floating-type"},
    b"two record dimensions": {b"two-record-dims"},
    b"too large": {b"too-large"},
}
FAULT_KINDS = set.union(*KINDS.values())
FINDING = re.compile(rb"case\.nc:\d+: (?:error|violation|note): ([a-z-]+): .*")
DATA_FAULT = re.compile(rb"variable \d+: data truncated at value \d+")
NAME_FAULT = re.compile(rb"no such variable: item \d+ of -v")
TEXT_FAULT = re.compile(
    rb"line (\d+): (bad token|bad number|syntax|bad name|duplicate name|unknown dimension|unknown variable|floating type|unknown type"
    rb"|zero dimension|two record dimensions|bad shape|mixed constants|number out of range|wrong kind of value|too many values"
    rb"|string too long|duplicate data|too large)"
)
SNIPPETS = [b";", b",", b"=", b"{", b"}", b'"', b"\\", b"_", b"//", b"(", b")", b":", b"0x", b"-", b"99999999999999999999", b"unlimited"]
SNIPPETS += [b" data:", b" variables:", b" int", b" float", b"\n", b"\0", b"\xff", b"\\x", b"\\777", b"1e5", b"UNLIMITED", b"s", b"ull"]


class Broken(Exception):
    """Something that has to hold doesn't."""


def ended(words, given=b""):
    """What a program has written when it has ended within its time."""
    with subprocess.Popen(words, stdin=subprocess.PIPE, stdout=subprocess.PIPE, stderr=subprocess.PIPE) as child:
        # (set by the parent, since a function that the child runs would need a copy of this process)
        resource.prlimit(child.pid, resource.RLIMIT_CPU, (SECONDS, SECONDS))
        try:
            said = child.communicate(given, timeout=WAIT)
        except subprocess.TimeoutExpired:
            child.kill()
            raise
    return subprocess.CompletedProcess(words, child.returncode, *said)


def run(*words, given=b""):
    ran = ended(words, given)
    if ran.returncode not in (0, 1):
        raise Broken(f"{words}: status {ran.returncode}: {ran.stderr[-200:]}")
    if (ran.returncode == 0) != (ran.stderr == b""):
        raise Broken(f"{words}: status {ran.returncode} with {ran.stderr!r}")
    return ran


def fault_of(program, path, ran):
    """What the line on standard error says after the program and the path."""
    found = re.fullmatch(re.escape(f"{program}: {path}: ".encode()) + rb"([^\n]*)\n", ran.stderr)
    if not found:
        raise Broken(f"{program}: {ran.stderr!r} is not a line on {path}")
    return found[1]


def mangled(pick, some):
    """The bytes with some of them changed, taken out or put in."""
    some = bytearray(some)
    for _ in range(pick.choice([1, 1, 1, 2, 5, 20])):
        at = pick.randrange(len(some) + 1)
        draw = pick.random()
        if draw < 0.5 and at < len(some):
            some[at] = pick.choice([0, 1, 2, 4, 5, 0x7F, 0x80, 0xFF, pick.randrange(256)])
        elif draw < 0.7:
            del some[at : at + pick.choice([1, 4, 40])]
        else:
            some[at:at] = pick.choice([bytes(4), b"\xff" * 4, pick.randbytes(pick.choice([1, 4, 8]))])
    return bytes(some)


def mangled_text(pick, text):
    for _ in range(pick.choice([1, 1, 2, 5])):
        at = pick.randrange(len(text) + 1)
        draw = pick.random()
        if draw < 0.4:
            text = text[:at] + pick.choice(SNIPPETS) + text[at:]
        elif draw < 0.7:
            text = text[:at] + text[at + pick.choice([1, 3, 30]) :]
        elif draw < 0.85:
            text = text[:at] + bytes([pick.randrange(256)]) + text[at + 1 :]
        else:
            other = pick.randrange(len(text) + 1)
            text = text[:at] + text[other : other + 40] + text[at:]
    return text


class Cases:
    """The cases of one dataset, in the current folder."""

    def __init__(self, seed):
        datasets = Datasets(seed)
        self.pick = random.Random(seed)
        self.dataset = datasets.dataset()
        self.file = self.dataset.file()

    def options(self):
        pick = self.pick
        options = ["-n", "t"]
        if pick.random() < 0.3:
            options += ["-l", str(pick.choice([20, 21, 80, 1000]))]
        draw = pick.random()
        if draw < 0.1:
            options.append("-h")
        elif draw < 0.2:
            options.append("-c")
        if draw > 0.8:
            options += ["-v", pick.choice(["nope", "x,y", "a"])]
        return options

    def check(self, fault):
        """The check of a file finds what a dump of all has found."""
        ran = ended([BIN / "nccheck", "-l", "note", "case.nc"])
        if ran.stderr or ran.returncode != (1 if ran.stdout else 0):
            raise Broken(f"nccheck: status {ran.returncode} with {ran.stderr!r}")
        lines = [FINDING.fullmatch(line) for line in ran.stdout.splitlines()]
        if None in lines:
            raise Broken(f"nccheck: {ran.stdout!r} has something else than lines of findings")
        if len({*ran.stdout.splitlines()}) < len(lines):
            raise Broken(f"nccheck: {ran.stdout!r} has a line twice")
        kinds = [line[1] for line in lines]
        faults = [kind for kind in kinds if kind in FAULT_KINDS]
        wanted = KINDS.get(re.sub(rb" \d+$", b"", fault), set())
        if bool(faults) != bool(wanted) or not wanted.issuperset(faults[:1]):
            raise Broken(f"a dump has the fault {fault!r}, and a check finds {faults}")
        if not wanted and (b"missing" in kinds) != bool(DATA_FAULT.fullmatch(fault)):
            raise Broken(f"a dump has the fault {fault!r}, and a check finds {kinds}")

    def dumped(self, some, options):
        Path("case.nc").write_bytes(some)
        ran = run(BIN / "ncdump", *options, "case.nc")
        fault = b"" if ran.returncode == 0 else fault_of("ncdump", "case.nc", ran)
        if not {"-h", "-c", "-v"} & set(options):
            self.check(fault)
        if not fault:
            return ran.stdout, fault
        if not any(kind.fullmatch(fault) for kind in (HEADER_FAULT, DATA_FAULT, NAME_FAULT)):
            raise Broken(f"the fault of a file is {fault!r}")
        if ran.stdout and not DATA_FAULT.fullmatch(fault):
            raise Broken(f"a text stands before {fault!r}")
        return ran.stdout, fault

    def cut_file(self):
        options = self.options()
        whole, fault = self.dumped(self.file, options)
        text, _ = self.dumped(self.file[: self.pick.randrange(len(self.file) + 1)], options)
        if not fault and not whole.startswith(text):
            raise Broken("the text of a cut file is no prefix of that of the whole file")

    def mangled_file(self):
        text, fault = self.dumped(mangled(self.pick, self.file), ["-n", "t"])
        if not fault:
            self.text(text)

    def random_file(self):
        version = self.pick.choice([1, 2, 5])
        self.dumped(b"CDF" + bytes([version]) + self.pick.randbytes(self.pick.choice([0, 4, 28, 100])), self.options())

    def text(self, text):
        """Generates a text, of whatever bytes. Gives the dump of its file, or its fault."""
        Path("case.cdl").write_bytes(text)
        Path("made.nc").unlink(missing_ok=True)
        words = ["-k", self.dataset.kind, "-o", "made.nc"]
        ran = run(BIN / "ncgen", *words, "case.cdl")
        if ran.returncode:
            return None, self.refused(text, ran)
        made = Path("made.nc").read_bytes()
        dump = run(BIN / "ncdump", "-n", "t", "made.nc")
        if dump.returncode:
            raise Broken(f"what was generated has no dump: {dump.stderr!r}")
        return dump.stdout, made

    def refused(self, text, ran):
        fault = fault_of("ncgen", "case.cdl", ran)
        named = TEXT_FAULT.fullmatch(fault)
        if not named and fault != b"offset too large":
            raise Broken(f"the fault of a text is {fault!r}")
        if named and not 1 <= int(named[1]) <= text.count(b"\n") + 1:
            raise Broken(f"the text has no such line: {fault!r}")
        if os.path.exists("made.nc"):
            raise Broken("a refused text has left an output")
        return fault

    def mangled_text(self):
        text, fault = self.dumped(self.file, ["-n", "t"])
        text = mangled_text(self.pick, text)
        dump, made = self.text(text)
        if dump is None:
            piped = run(BIN / "ncgen", "-k", self.dataset.kind, given=text)
            if fault_of("ncgen", "-", piped) != made:
                raise Broken("the text has another fault on standard input")
            return
        again, second = self.text(dump)
        if again is None:
            raise Broken(f"the dump of a generated file is refused: {second!r}")
        if self.text(again) != (again, second):
            raise Broken("what is generated from a dump is not generated again")

    def cut_text(self):
        text, _ = self.dumped(self.file, ["-n", "t"])
        dump, _ = self.text(text[: self.pick.randrange(len(text) - 1)])
        if dump is not None:
            raise Broken("a text without its last brace is read")

    def long_rows(self):
        """Few strings, in rows so long that the array is too large."""
        pick = self.pick
        rows, longest = ("x", 2**31) if self.dataset.kind != "nc5" else (pick.choice("tx"), 2**63)
        length = pick.randrange(2**24 + 1 if rows == "x" else 2**48 + 1, longest)
        strings = ", ".join(f'"{"a" * pick.choice([0, 1, 100])}"' for _ in range(pick.choice([1, 2, 50])))
        head = f"netcdf t {{ dimensions: t = UNLIMITED, x = {length} ; variables: char c({rows}, x) ;"
        dump, fault = self.text(f"{head} data: c = {strings} ;\n}}\n".encode())
        if dump is not None or fault != b"line 2: too large":
            raise Broken(f"the fault of rows of {length} characters is {fault[:100]!r}")

    def all(self):
        kinds = [self.cut_file, self.mangled_file, self.random_file, self.mangled_text, self.cut_text, self.long_rows]
        for number in range(EACH):
            kinds[number % len(kinds)]()


def limited():
    resource.setrlimit(resource.RLIMIT_AS, (MEMORY, MEMORY))
    os.chdir(tempfile.mkdtemp(dir=os.environ["HOSTILE"]))


def tried(seed):
    """Why the cases of this seed are broken, if they are."""
    try:
        Cases(seed).all()
    except Broken as why:
        return f"seed {seed}: {why}"
    except subprocess.TimeoutExpired as why:
        return f"seed {seed}: {why}"
    return None


def main(cases=5_000, seed=1):
    seeds = range(seed, seed + cases // EACH)
    failed = 0
    with tempfile.TemporaryDirectory() as folder:
        os.environ["HOSTILE"] = folder
        with ProcessPoolExecutor(initializer=limited) as pool:
            for why in pool.map(tried, seeds, chunksize=8):
                if why:
                    failed += 1
                    print(why)
    print(f"{len(seeds) - failed} passed, {failed} failed")
    return 1 if failed or not seeds else 0


if __name__ == "__main__":
    sys.exit(main(*map(int, sys.argv[1:])))
