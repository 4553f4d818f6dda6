"""The prover's command lines, and how many checks to run side by side."""

import os
import re
from functools import cache
from pathlib import Path
from subprocess import DEVNULL, PIPE, STDOUT, run

TOP = Path(__file__).resolve().parent.parent
CRATES = TOP / "crates"


@cache
def kit():
    """The folder of the kit that rt is of."""
    return Path(run(["rt", "doc"], stdout=PIPE, text=True, check=True).stdout.strip()).parent


@cache
def stands_on():
    """What each crate stands on, from crates.txt: libraries of the kit, and crates."""
    lines = (line.partition(":") for line in (TOP / "crates.txt").read_text().splitlines() if not line.startswith("#"))
    return {name: rest.split() for name, _, rest in lines}


def check_words(crate):
    """The command line of a check of a crate, in its folder, but for the libraries that it stands on."""
    root = "src/main.rt" if (CRATES / crate / "src" / "main.rt").exists() else "src/lib.rt"
    words = [f"{kit()}/bin/rattle", "check", "--crate-name", crate, root, "--links", f"{crate}=", "--jobs", "1"]
    return words + ["--antt-project", f"{kit()}/rattle/logic/antt-project.json", "--logic-built", f"{kit()}/logic_built"]


def built(libraries):
    """The words for libraries that are built: those of the kit, and crates as rt ci has built them."""
    folder_of = lambda library: CRATES / library / "out" / "rlib" if library in stands_on() else kit() / "rlibs"
    words = [word for it in libraries for word in ["--extern", f"{it}={folder_of(it)}/{it}.rlib"]]
    folders = sorted({folder_of(it) for it in ["std", *libraries, *below(libraries)]})
    return words + [word for folder in folders for word in ["-L", f"dependency={folder}"]]


def below(libraries):
    """What these libraries stand on."""
    return [it for library in libraries for it in [*stands_on().get(library, []), *below(stands_on().get(library, []))]]


def said(words, folder):
    """What the prover says in this folder."""
    return run(words, cwd=folder, stdin=DEVNULL, stdout=PIPE, stderr=STDOUT, errors="replace").stdout.rstrip()


def at_once():
    """How many checks to run side by side: each is likely to take at most 4 GiB of memory."""
    memory = int(re.search(r"MemAvailable: +(\d+)", Path("/proc/meminfo").read_text())[1]) << 10
    return max(1, min(len(os.sched_getaffinity(0)), memory // (4 << 30)))
