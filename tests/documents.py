#!/usr/bin/env python3
"""Checks the documents, which neither the prover nor the tests of the programs read.

    tests/documents.py           checks all of the following
    tests/documents.py --text    the same without the commands of README.md, and so without bin

- A link to a file leads to one that is there, and a link to a heading to one that stands in its document.
- A file of code that is named, with its folders or without, is there.
- A definition that is named by its file, as `File.word`, stands in a file of that name in `specs/`, if there is one.
- The code at the head of a crate's `src/lib.rt` is the body of a function of the crate `uses`, which may end with `Ok(())` besides.
- Each block of Rattle in a document stands so in a file of the code.
- The first line of each file of `specs/` says its kind, and those for contracts are the ones in `specs/code/`.
- docs/PROVED.md lists each file of the kind Definition and of the kind Law, under a heading for its kind; and each word that these files
  use of a file for contracts.
- Each command of a block of README.md that begins with ```console is run, with bin/ncdump and bin/ncgen, and writes what is printed
  below it, to standard output and standard error together. The commands of a block run one after the other in one empty folder, in which
  bin and samples are those of the repository. Other blocks aren't run.
- `man`, `groff` and `mandoc` have no word to say of a manual page; one that isn't installed is skipped. No line of a page has more than
  PAGE_COLUMNS bytes, which of the three `mandoc` alone looks at.
- VERSION, the newest version of CHANGELOG.md and the manual pages agree.
- The pictures are what `pictures/draw.py` draws of their data now, and the times in docs/SPEED.md are those of pictures/times.tsv.

The last line is 'N passed, M failed'; a link, a file, a definition, an example, a file of `specs/`, a command, a page by
its lines and under a tool, a file that names the version, the pictures, and a row of times count as one each.
"""

import os
import re
import shutil
import subprocess
import sys
import tempfile
from pathlib import Path

TOP = Path(__file__).resolve().parent.parent
README = TOP / "README.md"
PROVED = TOP / "docs" / "PROVED.md"
DOCUMENTS = sorted(TOP.glob("*.md")) + sorted(TOP.glob("docs/*.md"))
PAGES = sorted(TOP.glob("man/*.[1-8]"))
PAGE_COLUMNS = 80
PROGRAMS = [TOP / "bin" / "ncdump", TOP / "bin" / "ncgen"]
# seconds that a command of README.md may take
TIME = 60

FENCED = re.compile(r"^```(\w*)\n(.*?)^```$", re.M | re.S)
LINK = re.compile(r"\]\(([^()\s]+)\)")
# a file of code, but for the name File.antt, which stands for any
FILE = re.compile(r"`((?!\S*\bFile\.antt)[\w/.]+\.(?:rt|antt|py|sh|c))`")
# the folders with code
CODE = ["crates/*/src", "crates/*/specs", "crates/*/proofs", "tests", "bench", "pictures", "samples"]
# a definition, named by its file
NAMED = re.compile(r"`([A-Z]\w+)\.(?!antt`)(\w+)`")
# an example at the head of a crate, and the body of a function
EXAMPLE = re.compile(r"^//! ```\n((?://!.*\n)*?)//! ```\n", re.M)
BODY = re.compile(r"^(?:pub fn .*|\) -> .*)?\{\n((?:    .*\n|\n)*)\}\n", re.M)
HEADING = re.compile(r"^#+ +(.+?) *$", re.M)
# the first line of a file of `specs/`
KIND = re.compile(r"-- (Definition|Law|For contracts)\. ")
# what a file of `specs/` uses of a file for contracts
USED = re.compile(r"^use Rattle\.(\w+)\.specs\.code\.(\w+)(?:\.\{([^}]*)\}| as (\w+))", re.M)
# a row of PROVED.md for a file of `specs/` that has to be read
ROW = re.compile(r"^\| \w+ \| \[\w+\]\(\.\./(crates/\w+/specs/\w+\.antt)\) \| ", re.M)
# the head of the list of the words that are used of files for contracts, and its rows
WORDS = re.compile(r"(?<=^\| Crate \| File \| Words \|\n\|---\|---\|---\|\n)(?:\|.*\n)*", re.M)
# a row of SPEED.md with two times
TIMES = re.compile(r"^\| `(\w+)` \| [^|]* \| ([\d.]+) \| ([\d.]+) \| [\d.]+ \|", re.M)
# the heading of the list of laws; the lists above it have definitions
LAWS = "### The laws"
# each tool that looks at a page, with the words before its path
TOOLS = [
    ["man", "--warnings", "-l"],
    ["groff", "-man", "-ww", "-Tutf8"],
    ["mandoc", "-T", "lint"],
]


def anchor_of(heading):
    """What a link calls a heading: in lower case, with hyphens for spaces, and without marks."""
    return re.sub(r"[^\w\- ]", "", heading.lower()).replace(" ", "-")


def is_there(document, link):
    """Whether a link of a document leads to a file or a folder, and to a heading of it if it names one."""
    path, _, anchor = link.partition("#")
    target = document.parent / path if path else document
    if not target.exists():
        return False
    return not anchor or anchor in map(anchor_of, HEADING.findall(FENCED.sub("", target.read_text())))


def links():
    """Each link of the documents that stays within the repository."""
    for document in DOCUMENTS:
        for link in LINK.findall(FENCED.sub("", document.read_text())):
            if not re.match(r"\w+:", link):
                said = "" if is_there(document, link) else "LEADS NOWHERE"
                yield f"{document.relative_to(TOP)}: link to {link}", said


def files():
    """Each file of code that a document names."""
    paths = [f"/{it.relative_to(TOP).as_posix()}" for folder in CODE for it in TOP.glob(f"{folder}/**/*.*")]
    for document in DOCUMENTS:
        for file in sorted(set(FILE.findall(document.read_text()))):
            said = "" if any(path.endswith(f"/{file}") for path in paths) else "ISN'T THERE"
            yield f"{document.relative_to(TOP)}: {file}", said


def definitions():
    """Each definition that a document names by its file."""
    files = {}
    for path in TOP.glob("crates/*/specs/**/*.antt"):
        files[path.stem] = files.get(path.stem, "") + path.read_text()
    for document in DOCUMENTS:
        for file, word in sorted(set(NAMED.findall(document.read_text()))):
            if file in files:
                said = "" if re.search(rf"(?<![\w.]){word}\b", files[file]) else "ISN'T THERE"
                yield f"{document.relative_to(TOP)}: {file}.{word}", said


def examples():
    """Each example at the head of a crate, and each block of Rattle in a document."""
    bodies = [re.sub(r"^    ", "", it, flags=re.M) for path in TOP.glob("crates/uses/src/*.rt") for it in BODY.findall(path.read_text())]
    shown = {it.removesuffix("Ok(())\n") for it in bodies}
    for path in sorted(TOP.glob("crates/*/src/lib.rt")):
        for block in EXAMPLE.findall(path.read_text()):
            said = "" if re.sub(r"^//! ?", "", block, flags=re.M) in shown else "IS NO BODY OF crates/uses"
            yield f"{path.relative_to(TOP)}: example", said
    code = [path.read_text() for path in TOP.glob("crates/*/src/**/*.rt")]
    for document in DOCUMENTS:
        for kind, block in FENCED.findall(document.read_text()):
            if kind == "rust":
                said = "" if any(block in text for text in code) else "STANDS IN NO FILE OF CODE"
                yield f"{document.relative_to(TOP)}: {block.splitlines()[0]}", said


def specs():
    """The files of `specs/`, without those that only list modules, and without what is derived from types of the code."""
    for path in sorted(TOP.glob("crates/*/specs/**/*.antt")):
        if path.name not in ("Lib.antt", "code.antt") and "declared" not in path.parts:
            yield path.relative_to(TOP).as_posix(), path.read_text()


def kinds():
    """Each file of `specs/`, with its kind."""
    for path, text in specs():
        kind, is_code = KIND.match(text), "/specs/code/" in path
        if not kind:
            yield f"{path}: first line", "SAYS NO KIND"
        else:
            yield f"{path}: {kind[1]}", "" if is_code == (kind[1] == "For contracts") else "ISN'T OF THE KIND OF ITS FOLDER"


def listed_words():
    """The rows of PROVED.md for the words of files for contracts that definitions and laws use."""
    words = {}
    for path, text in specs():
        if "/specs/code/" not in path:
            for crate, file, names, alias in USED.findall(text):
                words.setdefault((crate, file), set()).update(it.strip() for it in (names or alias).split(","))
    for (crate, file), names in sorted(words.items()):
        yield f"| {crate} | [{file}](../crates/{crate}/specs/code/{file}.antt) | {', '.join(f'`{it}`' for it in sorted(names))} |"


def believed():
    """The words that PROVED.md lists, and each file that has to be in its lists."""
    text = PROVED.read_text()
    right = "".join(f"{row}\n" for row in listed_words())
    yield "docs/PROVED.md: words of files for contracts", "" if (WORDS.findall(text) or [""]) == [right] else f"ARE NOW\n{right}"
    above, _, below = text.partition(f"\n{LAWS}\n")
    listed = {row[1]: kind for part, kind in ((above, "Definition"), (below, "Law")) for row in ROW.finditer(part)}
    for path, source in specs():
        kind = KIND.match(source)
        if kind and kind[1] != "For contracts":
            row = f"| {path.split('/')[1]} | [{Path(path).stem}](../{path}) | .. |"
            yield f"{path}: {kind[1]}", "" if listed.pop(path, None) == kind[1] else f"ISN'T LISTED AS {kind[1]} IN docs/PROVED.md:\n{row}"
    for path, kind in listed.items():
        yield f"docs/PROVED.md: {path}", f"IS NO {kind}"


def commands(block):
    """The commands of a block, each with what is printed below it."""
    for part in re.split(r"^\$ ", block, flags=re.M)[1:]:
        command, _, printed = part.partition("\n")
        yield command, printed


def said_by(words, folder):
    """What a command writes in a folder, both streams together."""
    try:
        run = subprocess.run(words, cwd=folder, stdin=subprocess.DEVNULL, stdout=subprocess.PIPE, stderr=subprocess.STDOUT, timeout=TIME)
    except subprocess.TimeoutExpired:
        return f"no end within {TIME} seconds\n"
    return run.stdout.decode(errors="replace")


def runs():
    """Each command of README.md that is to be run."""
    for kind, block in FENCED.findall(README.read_text()):
        if kind == "console":
            with tempfile.TemporaryDirectory() as folder:
                for name in ("bin", "samples"):
                    os.symlink(TOP / name, Path(folder) / name)
                for command, printed in commands(block):
                    said = said_by(["bash", "-c", command], folder)
                    yield f"README.md: $ {command}", "" if said == printed else f"WRITES\n{said}AND NOT\n{printed.rstrip()}"


def pages():
    """Each manual page: its longest line, and what each tool that is installed says of it."""
    for page in PAGES:
        long = [f"LINE {at} IS TOO LONG" for at, line in enumerate(page.read_bytes().splitlines(), 1) if len(line) > PAGE_COLUMNS]
        yield f"{page.relative_to(TOP)}: lines of at most {PAGE_COLUMNS} bytes", " ".join(long)
    for words in TOOLS:
        if not shutil.which(words[0]):
            print(f"skipped: {words[0]} isn't installed")
            continue
        for page in PAGES:
            yield f"{page.relative_to(TOP)}: {' '.join(words)}", complaints(words, page)


def complaints(words, page):
    """What a tool has to say of a page, beside the page itself."""
    run = subprocess.run([*words, page], capture_output=True)
    # lint writes its words to standard output, where the others write the page
    said = run.stderr + (run.stdout if words[-1] == "lint" else b"")
    return said.decode(errors="replace").rstrip() or (f"STATUS {run.returncode}" if run.returncode else "")


def versions():
    """Each file that names the version."""
    version = (TOP / "VERSION").read_text().strip()
    yield "VERSION", "" if re.fullmatch(r"\d+\.\d+\.\d+", version) else f"{version} IS NO VERSION"
    newest = re.search(r"^## (\d\S+)", (TOP / "CHANGELOG.md").read_text(), re.M)
    yield "CHANGELOG.md: newest version", "" if newest and newest[1] == version else f"IS NOT {version}"
    for page in PAGES:
        text = page.read_text()
        head = re.match(r'\.TH \S+ \d "[\d-]+" "Juniperbrick (\S+)"', text)
        section = re.search(r"^This page describes version (\S+)\.$", text, re.M)
        agrees = head and section and head[1] == section[1] == version
        yield f"{page.relative_to(TOP)}: version", "" if agrees else f"IS NOT {version}"


def pictures():
    """The pictures, and each row of times of SPEED.md."""
    yield "pictures", said_by([TOP / "pictures" / "draw.py", "--check"], TOP).rstrip()
    rows = (TOP / "pictures" / "times.tsv").read_text().splitlines()
    measured = {(program, theirs, ours) for program, _, theirs, ours in (it.split("\t") for it in rows)}
    for row in TIMES.findall((TOP / "docs" / "SPEED.md").read_text()):
        yield f"docs/SPEED.md: {' '.join(row)}", "" if row in measured else "IS NO ROW OF pictures/times.tsv"


def main():
    """Checks all, and prints what is wrong."""
    checks = [links, files, definitions, examples, kinds, believed, pages, versions, pictures]
    if sys.argv[1:] != ["--text"]:
        missing = [it for it in PROGRAMS if not os.access(it, os.X_OK)]
        if missing:
            print(f"{sys.argv[0]}: no {missing[0].relative_to(TOP)}: run make first", file=sys.stderr)
            return 1
        checks.append(runs)
    results = [it for check in checks for it in check()]
    wrong = [(what, said) for what, said in results if said]
    for what, said in wrong:
        print(f"{what}: {said}")
    print(f"{len(results) - len(wrong)} passed, {len(wrong)} failed")
    return 1 if wrong else 0


sys.exit(main())
