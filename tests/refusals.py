#!/usr/bin/env python3
"""Finds each place where an answer of out of memory is made by hand, or by a hopeless allocation.

No contract sees how much memory there is, so none says that a call gives up only where an allocation failed. But each such answer
is made of the standard library's `AllocError`, and that is handed on from where an allocation failed. In an expression

- `AllocError` itself doesn't stand, but in the functions of BY_HAND;
- a variant `OutOfMemory` stands only where it is made of an `AllocError`, or where it stands for another type's `OutOfMemory`.

An allocation of 2^63 bytes fails on every machine. So where a call asks for memory by a number, RESERVED has the call, with the reason
why the number is one that the work needs. A call that isn't there is refused, and so is one that is there and nowhere in the code.

The last line is 'N passed, M failed'; a function that makes such an answer rightly or none counts as one, and so does each such call.
"""

import re
import sys
from pathlib import Path

CRATES = Path(__file__).resolve().parent.parent / "crates"
# These make an `AllocError` where no memory can have what is asked for: of a variable 2^64 values or more are lacking.
BY_HAND = {"cdl_parse/src/declared_values.rt whole_array"}
# The calls that ask for memory by a number, each with its file and its function, and what bounds the number.
RESERVED = {
    ("cdl_parse/src/attributes.rt add", "reserve(1)"): "one element, before the name goes into the index",
    ("cdl_parse/src/dimensions.rt add", "reserve(1)"): "one element, before the name goes into the index",
    ("cdl_parse/src/variables.rt add", "reserve(1)"): "one element, before the name goes into the index",
    ("cdl_parse/src/variables.rt vars_of", "reserve_exact(list.len())"): "the length of a list that is in memory",
    ("devices/src/output.rt create_file", "with_capacity(self.alloc,OUTPUT_BUFFER_LEN,nothing)"): "a constant",
    ("nc_base/src/listed_array.rt append_copies", "resize(len,fill)"): "the bytes that a row lacks, which are then there",
    ("nc_base/src/listed_array.rt into_bytes", "reserve_exact(more)"): "values that are then added; in `parse` alone",
    ("nc_base/src/listed_array.rt to_bytes", "reserve_exact(usize::try_from(len).unwrap_or(usize::MAX).saturating_add(more))"):
        "rows that are then filled up; in `parse` alone",
    ("nc_fields/src/header.rt list_fields", "with_capacity(alloc,FEW_FIELDS)"): "a constant",
    ("nccheck_cli/src/main.rt run_words", "with_capacity(alloc,LINE_HELD_BACK,io::writer(rt))"): "a constant",
    ("nccheck_cli/src/main.rt run_words", "with_capacity(alloc,LINE_HELD_BACK,stderr)"): "a constant",
    ("ncdump/src/selection.rt selection_in_both", "with_capacity(alloc,vars.len())"): "the length of a list that is in memory",
    ("ncdump_cli/src/main.rt run_words", "with_capacity(alloc,LINE_HELD_BACK,stderr)"): "a constant",
    ("ncdump_cli/src/main.rt run_words", "with_capacity(alloc,TEXT_HELD_BACK,io::writer(rt))"): "a constant",
    ("ncgen_cli/src/main.rt run_words", "with_capacity(alloc,LINE_HELD_BACK,stderr)"): "a constant",
}

LEFT_OUT = re.compile(r"//.*|^ *ghost .*|^ *(?:ensures|requires) .*|^use .*|^#\[.*", re.M)
FUNCTION = re.compile(r"\bfn (\w+)[^{;]*\{")
# what asks for memory by a number
BY_NUMBER = re.compile(r"\b(?:\w*with_capacity\w*|(?:try_)?reserve\w*|from_elem\w*|resize\w*|new_uninit_slice\w*|repeat\w*)\(|\bvec!\[")
CLOSING = {"(": ")", "[": "]"}
# a variant or the error as a value, and not as a type, a pattern, or the name of an impl
VARIANT = re.compile(r"\bOutOfMemory\b(?!\s*(?:\)|\|[^|]*?)?\s*=(?!=))")
ERROR = re.compile(r"\bAllocError\b(?!::)")
# a type: after a colon, an arrow, or within the angle brackets of another type
TYPE = re.compile(r"(?:->|[:<,]|\bfor)\s*$")


def bodies(text):
    """The functions of a file, each with what stands before it since the last one, and its body."""
    begins = 0
    for found in FUNCTION.finditer(text):
        end, depth = found.end(), 1
        while depth and end < len(text):
            depth += {"{": 1, "}": -1}.get(text[end], 0)
            end += 1
        yield text[begins:found.end()], found[1], text[found.end():end]
        begins = end


def arm_of(body, place):
    """The pattern of the arm in which this place stands, or nothing."""
    before = body[:place].rpartition("=>")[0]
    return before.rpartition("\n")[2]


def is_handed_on(head, body, found):
    """Whether a variant is made of an `AllocError`, or stands for another one."""
    return re.search(r"fn from\(_?\w+: AllocError\)", head) or "OutOfMemory" in arm_of(body, found.start())


def made_by_hand(file, text):
    """The functions of a file that make an answer of out of memory, and whether one is made by hand there."""
    for head, name, body in bodies(LEFT_OUT.sub("", text)):
        variants = list(VARIANT.finditer(body))
        errors = [it for it in ERROR.finditer(body) if not TYPE.search(body[:it.start()])]
        if variants or errors:
            where = f"{file} {name}"
            yield where, (bool(errors) and where not in BY_HAND) or not all(is_handed_on(head, body, it) for it in variants)


def call_at(text, found):
    """The call whose name and opening bracket were found, without white space."""
    opening = found[0][-1]
    end, depth = found.end(), 1
    while depth and end < len(text):
        depth += {opening: 1, CLOSING[opening]: -1}.get(text[end], 0)
        end += 1
    return re.sub(r"\s|,\s*(?=[)\]]$)", "", text[found.start():end])


def calls_by_number(file, text):
    """The calls of a file that ask for memory by a number, each with the file and the last function that begins before it."""
    text = LEFT_OUT.sub("", text)
    for found in BY_NUMBER.finditer(text):
        names = FUNCTION.findall(text[:found.start()])
        call = call_at(text, found)
        if not call.startswith("vec!") or ";" in call:
            yield f"{file} {names[-1] if names else ''}".rstrip(), call


def main():
    """Looks at all crates."""
    files = [it for it in sorted(CRATES.glob("*/src/**/*.rt")) if not it.relative_to(CRATES).parts[0].startswith("test_")]
    answers = [it for file in files for it in made_by_hand(file.relative_to(CRATES), file.read_text())]
    calls = {it for file in files for it in calls_by_number(file.relative_to(CRATES), file.read_text())}
    wrong = [f"{where}: OUT OF MEMORY MADE BY HAND" for where, is_by_hand in answers if is_by_hand]
    wrong += [f"{where}: {call}: ASKS FOR MEMORY BY A NUMBER, AND ISN'T IN RESERVED" for where, call in sorted(calls - RESERVED.keys())]
    wrong += [f"{where}: {call}: IN RESERVED, AND NOWHERE IN THE CODE" for where, call in sorted(RESERVED.keys() - calls)]
    print(*wrong, sep="\n", end="\n" if wrong else "")
    print(f"{len(answers) + len(calls | RESERVED.keys()) - len(wrong)} passed, {len(wrong)} failed")
    return 1 if wrong else 0


sys.exit(main())
