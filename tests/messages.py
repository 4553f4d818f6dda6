"""What the other scripts read of what the prover and `rt try` say: its words stand here alone.

A kit that words its verdicts in another way would have every wrong body count as refused, or none. So a script that asks the prover first
has `expect_words` ask about a few functions whose verdicts are known, and stops if they are read otherwise.
"""

import re
import sys
import tempfile
from pathlib import Path

import prover

# the prover's line on a function
VERDICT = re.compile(r"^fn (\S+): (.+)$", re.M)
# (a function that has its contract alone has a hole for its proof)
PROVED = re.compile(r"proved|no holes|depends on a hole")
# nothing is said of the function itself, since one that it calls isn't proved
WAITS = re.compile(r"not proved; it calls|no proof: (it calls|the borrow checker's part in its proof is not made yet)")
# a goal that stayed open, and what the search for a proof came to; such lines stand right before the line on their function
OPEN = re.compile(r"^note: src/\S+ it is not proved that .*\((`\S+`)\)(.*)$")
FALSE = "the facts known there allow values at which this goal is false"
# an error in a function's stored proof, and the words of one that another function's proof may be the reason of
UNFIT = re.compile(r"^\./proofs/(\S+?)/\w+\.antt:\S+ error(.*)$", re.M)
OF_ANOTHER = re.compile(r"admitted|\.Met\b")
# the last line of a check that reached the prover, and that of one in which all functions were proved
CHECKED = re.compile(r"^only=\d+ .*\Z", re.M)
ALL_PROVED = re.compile(r"^only=(\d+) proved=\1$", re.M)
# of a text that the prover can't read, or that names what isn't there
UNREAD = re.compile(r"is not in scope|has no field|is no name|operand is missing|expected the end|cannot continue|can be named")
# the line on a test
TEST = re.compile(r"^test (\S+) \.\.\. .*?(ok|FAILED)$", re.M)


class Said:
    """What the prover said of functions of a crate."""

    def __init__(self, crate, text):
        self.text, self.verdicts, self.goals = text, {}, {}
        self.errors = [line for line in text.splitlines() if ": error" in line]
        open_goals = []
        for line in text.splitlines():
            goal, verdict = OPEN.match(line), VERDICT.match(line)
            if goal:
                open_goals.append(goal.groups())
            elif verdict:
                self.verdicts[verdict[1]] = verdict[2]
                self.goals[verdict[1]] = open_goals
                open_goals = []
        named = [(f"{crate}::{path.replace('/', '::')}", why) for path, why in UNFIT.findall(text)]
        self.unfit = {function for function, _ in named}
        self.unfit_alone = {function for function, why in named if not OF_ANOTHER.search(why)}

    def is_whole(self):
        """Whether the check reached the prover."""
        return bool(self.verdicts and CHECKED.search(self.text))

    def are_all_proved(self):
        """Whether all functions that the prover was asked about are proved, without holes."""
        return bool(ALL_PROVED.search(self.text))

    def refused(self):
        """The functions that are not proved."""
        return [name for name, verdict in self.verdicts.items() if not PROVED.match(verdict)]

    def waits(self, function):
        """Whether the prover says nothing of a function that is not proved, but that it calls such a function."""
        return bool(WAITS.match(self.verdicts[function])) and function not in self.unfit_alone

    def has_more_to_say(self, function):
        """Whether a function that is not proved calls such a function: the prover has not tried all of its goals then."""
        called = self.verdicts[function].partition("it calls ")[2]
        return any(f"`{it}`" in called for it in self.refused())

    def why(self, function):
        """What the prover says of a goal of a function, or None where only a proof doesn't fit."""
        if function in self.unfit:
            return None
        false = [goal for goal, end in self.goals[function] if FALSE in end]
        still_open = [goal for goal, end in self.goals[function] if not end]
        if false:
            return f"false at values that it allows: {false[0]} of {function}"
        return f"a goal stays open: {still_open[0]} of {function}" if still_open else None

    def is_unread(self):
        """Whether the first error is of a text that the prover can't read, and not of a proof."""
        return bool(UNREAD.search(self.errors[0])) and "proofs/" not in self.errors[0]


def tests_said(text):
    """The tests that ran, each with whether it passed."""
    return {test: verdict == "ok" for test, verdict in TEST.findall(text)}


SAMPLE = """//! Functions that are proved or not, for a reason each.
#![tactic(auto)]

ghost use Rattle.std.specs.Prelude.{◌≡◌, ◌+◌, ◌<◌};
"""
FUNCTION = """
pub fn {name}(n: u32) -> u32
    requires {{ n < 7 }}
    ensures {{ result ≡ n + 1 }}
{{
    {body}
}}
"""
BODIES = {"right": "n + 1", "wrong": "n + 2", "waiting": "wrong(n)", "unfit": "n + 1", "bare": "loop {}"}
UNDECIDED = """
pub fn undecided<T: Copy>(x: T, y: T) -> T
    ensures { result ≡ y }
{
    x
}
"""
PROOFS = {
    "unfit/Answers": "use Rattle.sample.proofs.unfit.Goals as goal\n\npub gone : goal.gone\ngone c = refl\n",
    "bare/Proof": "use Rattle.sample.proofs.bare.Statement.{statement}\n\npub bare_spec : {M : Type 1} → statement M\nbare_spec = ?\n",
}


def write_sample(folder):
    """Writes the sample as a crate."""
    functions = "".join(FUNCTION.format(name=name, body=body) for name, body in BODIES.items())
    files = {"src/lib.rt": SAMPLE + functions + UNDECIDED, **{f"proofs/{name}.antt": text for name, text in PROOFS.items()}}
    for file, text in files.items():
        folder.joinpath(file).parent.mkdir(parents=True, exist_ok=True)
        folder.joinpath(file).write_text(text)


def prover_of_sample(*words):
    """What the prover says of the sample's functions."""
    with tempfile.TemporaryDirectory() as folder:
        write_sample(Path(folder))
        only = [f"--only={name}" for name in [*BODIES, "undecided"]]
        return Said("sample", prover.said([*prover.check_words("sample"), *prover.built(["std"]), *words, *only], folder))


def are_bodies_judged():
    """Whether wrong bodies are judged as they should be."""
    said = prover_of_sample("--allow-holes")
    refused = {f"sample::{name}" for name in ["wrong", "waiting", "unfit", "undecided"]}
    return {*said.refused()} == refused and said.verdicts.keys() == refused | {"sample::right", "sample::bare"} and said.is_whole() \
        and "false" in (said.why("sample::wrong") or "") and "open" in (said.why("sample::undecided") or "") \
        and [it for it in refused if said.waits(it)] == [it for it in refused if said.has_more_to_say(it)] == ["sample::waiting"] \
        and said.unfit_alone == {"sample::unfit"} and said.why("sample::unfit") is None


def are_laws_judged():
    """Whether laws are judged as they should be."""
    said = prover_of_sample()
    return "sample::right" in said.verdicts and "sample::right" not in said.refused() and not said.are_all_proved() \
        and {"sample::wrong", "sample::unfit", "sample::bare"} < {*said.refused()} and any("proofs/unfit" in it for it in said.errors)


def expect_words(are_judged):
    """Ends this program unless the kit's words are read as they should be."""
    if not are_judged():
        sys.exit("this kit words its verdicts in another way: tests/messages.py has the words that are known")
