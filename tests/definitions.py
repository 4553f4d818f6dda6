#!/usr/bin/env python3
"""Changes one definition at a time, in a copy of the crates, and asks whether the laws notice.

    tests/definitions.py [NAME ...]

Each tests/definitions/NAME.edit is a wrong text, token, meaning, file or header, in the format of a wrong body, but with paths from
the top of the repository. A line 'law: CRATE LAW' names the law that has to refuse. The laws that edits name are proved here over
the sources of the crates below, without the functions of these: so it is a law that refuses, or a lemma on its way. Worked examples
are left out of the copy for the same reason. Each try begins with what the laws' proof without any edit left, and proves again what
the edit changes and what stands on that. The last line is 'N passed, M failed'.
"""

import re
import shutil
import sys
import tempfile
from concurrent.futures import ThreadPoolExecutor
from pathlib import Path

import prover
from edits import BadEdit, apply, read_edit
from messages import Said, are_laws_judged, expect_words

EDITS = prover.TOP / "tests" / "definitions"
# the folder of a crate's proofs with its worked examples, which no file outside such a folder cites
EXAMPLES = "examples"


def copy_crate(crate, to):
    """Copies a crate, but for its worked examples."""
    for part in ["src", "specs", "proofs"]:
        if (prover.CRATES / crate / part).is_dir():
            shutil.copytree(prover.CRATES / crate / part, to / part)
    shutil.rmtree(to / "proofs" / EXAMPLES, ignore_errors=True)
    (to / "proofs" / f"{EXAMPLES}.antt").unlink(missing_ok=True)
    lib = to / "proofs" / "Lib.antt"
    if lib.exists():
        lib.write_text("".join(line for line in lib.read_text().splitlines(True) if line.split()[-1] != EXAMPLES))


def law_of(edit):
    """The crate of the law that has to refuse an edit, and the law's name."""
    if found := re.search(r"^law: (\w+) (\w+)$", edit.read_text(), re.M):
        return found.groups()
    sys.exit(f"BAD EDIT: {edit.name}: no line names the law that has to refuse\n0 passed, 1 failed")


def below(crate):
    """The crates that a crate stands on, from the lowest, and the libraries of the kit that it and they need."""
    needed = set(prover.below([crate]))
    crates = [it for it in prover.stands_on() if it in needed]
    return crates, sorted(needed - set(crates))


def sources(crates):
    """The words for crates that are read from the folders beside the one that is checked, each after those that it stands on."""
    uses = lambda crate: ",".join(["std", *prover.stands_on()[crate]])
    return [word for crate in crates for word in ["--lib", f"{crate}:{uses(crate)}=../{crate}/src/lib.rt"]]


def laws_with(crate, laws, edit, kept):
    """What the prover says of laws of a crate, over what a folder keeps, where an edit is applied, or None where nothing is changed."""
    crates, libraries = below(crate)
    with tempfile.TemporaryDirectory() as folder:
        for each in [*crates, crate]:
            copy_crate(each, Path(folder, "crates", each))
        if edit:
            apply(read_edit(edit)[0], Path(folder))
        words = [*prover.check_words(crate), *prover.built(["std", *libraries]), *sources(crates)]
        words += ["--incremental", kept, *(f"--only=laws::{law}" for law in laws)]
        return Said(crate, prover.said(words, Path(folder, "crates", crate)))


def verdict(edit, proved):
    """Tries one edit, where the laws are proved as they stand in `proved`. Returns whether it was refused, and a line that says so."""
    crate, law = law_of(edit)
    try:
        with tempfile.TemporaryDirectory() as folder:
            said = laws_with(crate, [law], edit, shutil.copytree(proved / crate, Path(folder, "kept")))
    except BadEdit as why:
        return False, f"{edit.stem}: BAD EDIT: {why}"
    refused = [it.rpartition("::")[2] for it in said.refused()]
    if said.are_all_proved():
        return False, f"{edit.stem}: NOT REFUSED: {law} is still proved"
    if not refused or not said.errors or said.is_unread():
        return False, f"{edit.stem}: BAD EDIT: the laws did not reach the prover: {(said.errors or [said.text[-200:]])[0][:300]}"
    if law not in refused:
        return False, f"{edit.stem}: NOT REFUSED by {law}, but by {' '.join(refused)}"
    return True, f"{edit.stem}: refused, as it must be: {' '.join(refused)}"


def unproved(crate, laws, proved):
    """What is wrong with these laws of a crate where nothing is changed, or None; `proved` keeps what was proved."""
    said = laws_with(crate, laws, None, proved / crate)
    return None if said.are_all_proved() else f"{crate}: its laws are not proved as they stand:\n{said.text[-2000:]}"


def main():
    edits = sorted(EDITS.glob("*.edit"))
    if sys.argv[1:]:
        edits = [edit for edit in edits if edit.stem in sys.argv[1:]]
        if unknown := {*sys.argv[1:]} - {edit.stem for edit in edits}:
            sys.exit(f"no such edit: {' '.join(sorted(unknown))}")
    expect_words(are_laws_judged)
    laws, results = {}, []
    for crate, law in sorted({law_of(edit) for edit in edits}):
        laws.setdefault(crate, []).append(law)
    with tempfile.TemporaryDirectory() as folder, ThreadPoolExecutor(prover.at_once()) as pool:
        proved = Path(folder)
        wrong = [it for it in pool.map(lambda crate: unproved(crate, laws[crate], proved), laws) if it]
        if wrong:
            print("\n".join(wrong))
            return 1
        for result in pool.map(lambda edit: verdict(edit, proved), edits):
            results.append(result)
            print(result[1], flush=True)
    failed = sum(not is_refused for is_refused, _ in results)
    print(f"{len(results) - failed} passed, {failed} failed")
    return 1 if failed or not results else 0


if __name__ == "__main__":
    sys.exit(main())
