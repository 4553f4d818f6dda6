"""What the scripts of this folder measure of a program: time, memory, and instructions."""

import os
import re
import subprocess
import tempfile
import time
from pathlib import Path

TOP = Path(__file__).resolve().parent.parent
DUMP, GENERATE, CHECK = TOP / "bin" / "ncdump", TOP / "bin" / "ncgen", TOP / "bin" / "nccheck"
# those of Debian's netcdf-bin
THEIR_DUMP, THEIR_GENERATE = Path("/usr/bin/ncdump"), Path("/usr/bin/ncgen")


def built(name):
    """The program of this folder's name.c, compiled into the working folder."""
    subprocess.run([os.environ.get("CC") or "cc", "-O2", "-o", name, TOP / "bench" / f"{name}.c"], check=True)
    return Path(name).resolve()


def run(words, limit=None):
    """Milliseconds that the words take, with what they write thrown away; or None where they fail, or take more than `limit` seconds."""
    before = time.perf_counter()
    try:
        subprocess.run(words, stdout=subprocess.DEVNULL, stderr=subprocess.DEVNULL, check=True, timeout=limit)
    except (subprocess.TimeoutExpired, subprocess.CalledProcessError):
        return None
    return (time.perf_counter() - before) * 1000


def least(runs, *programs):
    """The least time of each program, in as many runs, one program after the other."""
    return [min(times) for times in zip(*([run(words) for words in programs] for _ in range(runs)))]


def peak(words):
    """The most memory that the words take, in KiB, by GNU time: a child of Python would count Python's."""
    ran = subprocess.run(["/usr/bin/time", "-f", "%M", *words], stdout=subprocess.DEVNULL, stderr=subprocess.PIPE, text=True)
    return int(ran.stderr.split()[-1])


def keep(program, name, theirs, ours):
    """Puts two times into the table that docs/times.svg is drawn from, if it has a row for them from an earlier run."""
    table = TOP / "pictures" / "times.tsv"
    rows = table.read_text().splitlines()
    kept = [f"{program}\t{name}\t{theirs:.1f}\t{ours:.1f}" if it.split("\t")[:2] == [program, name] else it for it in rows]
    table.write_text("".join(f"{it}\n" for it in kept))


def heaviest(*words):
    """The function that takes the most instructions of the words, those of the functions that it calls left out, and its part in percent."""
    with tempfile.NamedTemporaryFile() as counts:
        valgrind = ["valgrind", "--tool=callgrind", f"--callgrind-out-file={counts.name}", *words]
        subprocess.run(valgrind, stdout=subprocess.DEVNULL, stderr=subprocess.DEVNULL, check=True)
        listed = subprocess.run(["callgrind_annotate", counts.name], stdout=subprocess.PIPE, text=True, check=True).stdout
    part, function = re.findall(r"\( *([\d.]+)%\) +\S*?:([\w:]+)", listed.split("file:function")[1])[0]
    return function, float(part)


def instructions(*words):
    """How many instructions the words take, their libraries' included: the same number on each run, whatever else the machine does."""
    valgrind = ["valgrind", "--tool=callgrind", "--callgrind-out-file=/dev/null", *words]
    ran = subprocess.run(valgrind, stdout=subprocess.DEVNULL, stderr=subprocess.PIPE, text=True, check=True)
    return int(re.search(r"Collected : (\d+)", ran.stderr)[1])
