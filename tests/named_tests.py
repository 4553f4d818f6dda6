"""Runs the tests that wrong bodies name: each has to fail with the edit, and to pass without it. Nothing is proved.

One run of `rt try --test` has all of them, since each run begins with the standard library, which takes longest. It is of a crate that has
a module for each *case*, an edit with its test or all such tests of a crate without an edit: what the test's crate has, but for its other
tests. The crate of an edit and those that stand on it are copied for the edit under names of their own, such as nc_walk_7, which its
module uses. So a test that fails, fails for its edit.
"""

import re
import shutil
import tempfile
from pathlib import Path

import prover
from edits import apply
from messages import tests_said

# a test, from its first line to its closing brace
TEST = re.compile(r"^(?:///.*\n)*#\[test\]\nfn (\w+)(?:.*\n)*?\}\n", re.M)


def renamed(text, names):
    """A text in which paths begin with other names."""
    return re.sub(rf"\b({'|'.join(names)})(?=::)", lambda it: names[it[0]], text)


def add_case(folder, crates, number, edit, crate, tests):
    """Adds a case to the crates in this folder. `crates` has what each of them stands on."""
    used = crates[crate]
    names = {it: f"{it}_{number}" for it in {*used, *prover.below(used)} if edit and edit.crate in [it, *prover.below([it])]}
    for it, name in names.items():
        crates[name] = [names.get(below, below) for below in crates[it]]
        shutil.copytree(prover.CRATES / it / "src", folder / name / "src")
        if it == edit.crate:
            apply(edit.changes, folder / name)
        for file in (folder / name).glob("src/**/*.rt"):
            file.write_text(renamed(file.read_text(), names))
    crates["named"] += [names.get(it, it) for it in used]
    module = folder / "named" / "src" / f"case_{number}"
    module.mkdir(parents=True)
    modules = [it for it in (prover.CRATES / crate / "src").glob("*.rt") if it.stem != "lib"]
    for file in modules:
        text = TEST.sub(lambda it: it[0] if f"{file.stem}::{it[1]}" in tests else "", file.read_text())
        (module / file.name).write_text(renamed(text, {**names, "crate": f"crate::{module.name}"}))
    (module / "mod.rt").write_text("".join(f"mod {it.stem};\n" for it in modules))


def said_of(cases):
    """What is said of the tests of these cases."""
    with tempfile.TemporaryDirectory() as top:
        folder, crates = Path(top, "crates"), {**prover.stands_on(), "named": []}
        for crate in prover.stands_on():
            shutil.copytree(prover.CRATES / crate / "src", folder / crate / "src")
        for number, case in enumerate(cases):
            add_case(folder, crates, number, *case)
        modules = "".join(f"\n#[cfg(test)]\nmod case_{number};" for number in range(len(cases)))
        (folder / "named" / "src" / "lib.rt").write_text(f"#![tactic(auto)]\n{modules}\n")
        Path(top, "crates.txt").write_text("".join(f"{it}: {' '.join(dict.fromkeys(below))}\n" for it, below in crates.items()))
        shutil.copy(prover.TOP / "HANDLES", top)
        # (a table of many rows takes minutes so, on a busy machine)
        return prover.said(["rt", "try", "--test", "--seconds", "1800"], folder / "named")


def verdict(edit, crate, test, passed):
    """Whether a test failed with an edit, or passed without one, and a line on it; `passed` is None if it did not run."""
    is_well = passed is (edit is None)
    said = {True: "passes", False: "fails", None: "did not run"}[passed]
    return is_well, f"{edit or 'without an edit'}: {crate} {test} {said}{', as it must' if is_well else ': WRONG'}"


def run(edits):
    """Runs the tests that these edits name, with each edit and without."""
    cases = [(it, it.test[0], [it.test[1]]) for it in edits]
    for crate in sorted({it.test[0] for it in edits}):
        cases.append((None, crate, sorted({it.test[1] for it in edits if it.test[0] == crate})))
    said = said_of(cases)
    passed = tests_said(said)
    results = [verdict(edit, crate, test, passed.get(f"case_{number}::{test}"))
               for number, (edit, crate, tests) in enumerate(cases) for test in tests]
    print(*(line for _, line in results), sep="\n")
    return results if passed else [(False, f"no test ran: {said[:2000]}")]
