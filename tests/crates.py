#!/usr/bin/env python3
"""Asks whether each library that a crate names stands in its line of crates.txt, in seconds and before anything is proved: otherwise a name
that is lacking is found only when the crate, or its tests, are read by the prover.

With --times LOG it prints, from the log of a build (bin/build.log), the minutes that the proof of each crate took, the longest chain of
crates that wait for one another, and the sum. A crate that an earlier run has proved takes none. --keep LOG also writes the minutes into
pictures/minutes.tsv, which docs/crates.svg is drawn from.

A name counts if a path of the code begins with it, or one of the specs and proofs after `Rattle.`, and it is that of a crate or of a library
of the kit. A module of the crate, or one that the file imports, as `std::io`, hides a library of its name. The last line is 'N passed, M
failed'; each crate counts as one.
"""

import re
import sys
from pathlib import Path

from prover import CRATES, TOP, below, kit, stands_on

# a line that is a comment, and a name at the start of a path
COMMENT = re.compile(r"^\s*(?://|--).*$", re.M)
PATH = re.compile(r"(?<![\w:])(\w+)::|\bRattle\.(\w+)\.")
# an import, and the names in it that a path may begin with
IMPORT = re.compile(r"^(?:pub )?use [^;]*;", re.M)
IMPORTED = re.compile(r"(\w+)(?=[,};]|::\{self\b)")
# what each crate has without a line
ALWAYS = {"std", "core"}


def named_in(text):
    """The names at which paths of a file begin."""
    text = COMMENT.sub("", text)
    imported = {name for it in IMPORT.findall(text) for name in IMPORTED.findall(it)}
    return {name for names in PATH.findall(text) for name in names} - imported


def lacking(crate):
    """The libraries that a crate names, and that its line of crates.txt lacks."""
    files = [it for part in ["src", "specs", "proofs"] for it in (CRATES / crate / part).rglob("*.*")]
    named = {name for it in files for name in named_in(it.read_text())}
    libraries = {*stands_on(), *(it.stem for it in (kit() / "rlibs").glob("*.rlib"))}
    modules = {it.stem for it in files if it.suffix == ".rt"}
    return sorted(named & libraries - modules - ALWAYS - {crate, *stands_on()[crate]})


def chains_of(minutes):
    """Of each crate, the chain to it that takes longest: its minutes, and its crates from the first on."""
    chains = {}
    for crate in sorted(minutes, key=lambda it: len(below([it]))):
        before, crates = max((chains[it] for it in stands_on()[crate] if it in minutes), default=(0, []))
        chains[crate] = before + minutes[crate], [*crates, crate]
    return chains


def print_times(log, keeps):
    """Prints each crate's minutes, the longest chain and the sum; and writes the minutes into the table of the picture if `keeps` is true."""
    said = re.findall(r"^times: (\w+) ([1-9]\d*) (\d+)$", log.read_text(), re.M)
    if not said:
        return f"{log} has no times: the build failed, or this file system doesn't say when a folder was made"
    minutes = {crate: max(0, int(end) - int(start)) / 60 for crate, start, end in said}
    chains = chains_of(minutes)
    for crate, (chain, _) in sorted(chains.items(), key=lambda it: it[1][0]):
        print(f"{crate:16}{minutes[crate]:6.1f}  its chain{chain:6.1f}")
    longest, crates = max(chains.values())
    print(f"longest chain: {longest:.1f} min: {' '.join(crates)}")
    print(f"sum: {sum(minutes.values()):.1f} min")
    if keeps:
        (TOP / "pictures" / "minutes.tsv").write_text("".join(f"{crate}\t{took:.1f}\n" for crate, took in minutes.items()))


def main():
    if sys.argv[1:2] in (["--times"], ["--keep"]):
        return print_times(Path(sys.argv[2]), sys.argv[1] == "--keep")
    wrong = {crate: names for crate in stands_on() if (names := lacking(crate))}
    for crate, names in wrong.items():
        print(f"crates.txt: the line of {crate} lacks {' '.join(names)}")
    print(f"{len(stands_on()) - len(wrong)} passed, {len(wrong)} failed")
    return 1 if wrong else 0


if __name__ == "__main__":
    sys.exit(main())
