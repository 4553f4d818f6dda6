#!/usr/bin/env python3
"""Puts wrong bodies into the crates, and says by what each of them is refused (CONTRIBUTING.md says what counts as refused).

    tests/wrong_bodies.py [CRATE ...]    asks the prover about all of them, or about those of these crates
    tests/wrong_bodies.py --tests        runs the tests that some of them name (`named_tests.py`)

A function is proved over the contracts of what it calls and never over their bodies. So one check tries a wrong body of each function. If
the prover has not tried all goals of a body, since it calls a function that is refused too, the next check tries it again. The last line
is 'N passed, M failed'. A body of which only a proof doesn't fit, and that names no test, counts as neither, unless named_bodies.txt has
it: the prover may say less of it if the machine is busy.
"""

import shutil
import sys
import tempfile
from concurrent.futures import ThreadPoolExecutor
from pathlib import Path

import named_tests
import prover
from edits import BadEdit, Edit, apply
from functions import leave_contracts
from messages import Said, are_bodies_judged, expect_words

# by what a wrong body is refused, the strongest first, and then what is said of one that isn't
SORTS = ["contract", "proof and test", "test alone", "NO TEST", "NOT REFUSED", "BAD EDIT"]
CONTRACT, PROOF_AND_TEST, TEST_ALONE, NO_TEST, NOT_REFUSED, BAD_EDIT = SORTS
# the bodies that must be there, each with the weakest sort that it may be of
NAMED = prover.TOP / "tests" / "named_bodies.txt"


def named_bodies():
    """The bodies that the list has, each with its sort there."""
    lines = NAMED.read_text().splitlines()
    return dict(line.split(maxsplit=1) for line in lines if line and not line.startswith("#"))


def next_round(edits):
    """The first of these edits, and each that changes no function which one before it changes."""
    chosen = []
    for edit in edits:
        if not any(edit.functions & other.functions for other in chosen):
            chosen.append(edit)
    return chosen


def is_of(name, function):
    """Whether the prover's name is that of the function, or of a closure in it."""
    module, _, last = function.rpartition("::")
    inside = f"fn::{function}::" if function[0].isupper() else f"{module}::fn::{last}::"
    return name.endswith(f"::{function}") or f"::{inside}" in name


def judge(edits, said):
    """The sort of each edit of a round, if it is decided, and why; and the same of functions that aren't proved, though no edit changes
    them."""
    verdicts, refused = {}, said.refused()
    for edit in edits:
        found = [name for name in refused if any(is_of(name, it) for it in edit.functions)]
        refused = [name for name in refused if name not in found]
        why = next((it for it in map(said.why, found) if it), None)
        if not found:
            verdicts[edit] = TEST_ALONE if edit.test else NOT_REFUSED, f"{' '.join(sorted(edit.functions))} is still proved"
        elif why:
            verdicts[edit] = CONTRACT, why
        elif not all(map(said.has_more_to_say, found)):
            verdicts[edit] = PROOF_AND_TEST if edit.test else NO_TEST, f"only a proof doesn't fit: {said.verdicts[found[0]]}"
    verdicts = verdicts or {it: (BAD_EDIT, "what it calls isn't proved") for it in edits}
    return verdicts | {it: (BAD_EDIT, "it isn't proved, and no edit changes it") for it in refused if not said.waits(it)}


def try_round(crate, edits, kept):
    """What `judge` returns after a check of the functions that the edits change, over what earlier rounds kept."""
    with tempfile.TemporaryDirectory() as folder:
        shutil.copytree(prover.CRATES / crate, folder, ignore=shutil.ignore_patterns("out"), dirs_exist_ok=True)
        apply([change for edit in edits for change in edit.changes], Path(folder))
        functions = sorted({it for edit in edits for it in edit.functions})
        leave_contracts(crate, Path(folder), functions)
        words = prover.check_words(crate) + prover.built(["std", *prover.stands_on()[crate]])
        words += ["--incremental", kept, "--allow-holes", *(f"--only={it}" for it in functions)]
        said = Said(crate, prover.said(words, folder))
    if said.is_whole():
        return judge(edits, said)
    why = (said.errors or said.text.splitlines()[-3:])[0][:300]
    return {it: (BAD_EDIT, f"the round did not reach the prover: {why}") for it in edits}


def try_crate(edits, named):
    """Tries the wrong bodies of one crate, in as many checks as the function with the most of them needs. Returns the sort of each, whether
    `named` has a stronger one for it, and a line that says so."""
    results = []
    with tempfile.TemporaryDirectory() as kept:
        while edits:
            verdicts = try_round(edits[0].crate, next_round(edits), kept)
            edits = [it for it in edits if it not in verdicts]
            for it, (sort, why) in verdicts.items():
                due = named.get(str(it), NO_TEST)
                is_weaker = SORTS.index(sort) > SORTS.index(due)
                said = f", and {NAMED.name} says: {due}" if is_weaker and str(it) in named else ""
                results.append((sort, is_weaker, f"{it}: {sort}: {why}{said}"))
                print(results[-1][2], flush=True)
    return results


def try_all(edits, named):
    """Tries these wrong bodies, several crates at once, and first of those that have the most. Returns whether each is refused as it must
    be, and a line on it, but for those that count as neither."""
    crates = [[it for it in edits if it.crate == crate] for crate in dict.fromkeys(it.crate for it in edits)]
    with ThreadPoolExecutor(prover.at_once()) as pool:
        tried = pool.map(lambda part: try_crate(part, named), sorted(crates, key=len, reverse=True))
        results = [it for part in tried for it in part]
    print("; ".join(f"{sort}: {sum(it[0] == sort for it in results)}" for sort in SORTS))
    return [(not is_weaker, line) for sort, is_weaker, line in results if is_weaker or sort != NO_TEST]


def main():
    words = sys.argv[1:]
    try:
        edits = [Edit(path) for path in sorted(prover.CRATES.glob("*/wrong-bodies/*.edit"))]
    except BadEdit as why:
        sys.exit(f"BAD EDIT: {why}\n0 passed, 1 failed")
    named = named_bodies()
    if words == ["--tests"]:
        results = named_tests.run([it for it in edits if it.test])
    elif unknown := {*words} - {it.crate for it in edits}:
        sys.exit(f"no wrong bodies in {' '.join(sorted(unknown))}")
    else:
        expect_words(are_bodies_judged)
        results = try_all([it for it in edits if it.crate in words or not words], named)
    results += [(False, f"{it}: missing, and {NAMED.name} has it") for it in named if it not in map(str, edits)]
    failed = [line for is_well, line in results if not is_well]
    print(*failed, f"{len(results) - len(failed)} passed, {len(failed)} failed", sep="\n")
    return 1 if failed or not results else 0


if __name__ == "__main__":
    sys.exit(main())
