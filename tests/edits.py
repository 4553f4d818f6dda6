"""Wrong bodies: what an edit changes, where that stands, and which test it names (CONTRIBUTING.md has the format)."""

import re

from functions import functions_in
from prover import CRATES


class BadEdit(Exception):
    """An edit that can't be applied."""


class Edit:
    """A wrong body: its changes, the functions that it changes, and the test that it names."""

    def __init__(self, path):
        self.crate, self.name = path.parent.parent.name, path.stem
        self.changes, self.test = read_edit(path)
        self.functions = {function_at(CRATES / self.crate, file, old) for file, old, _ in self.changes}

    def __str__(self):
        return f"{self.crate}/{self.name}"


def apply(changes, folder):
    """Makes changes in a copy of the files."""
    for file, old, new in changes:
        text = (folder / file).read_text()
        start, end = place_of(file, old, text)
        (folder / file).write_text(text[:start] + new + text[end:])


def read_edit(path):
    """The changes of an edit, each a file, what stands there, and what is put in its place; and the test's crate and path, or None."""
    pairs, said = [], {}
    for line in path.read_text().splitlines():
        word, _, rest = line.partition(":")
        said[word] = rest.removeprefix(" ")
        if word == "new":
            pairs.append((said.get("file"), said.get("old"), said["new"]))
    test = tuple(said["test"].split()) if "test" in said else None
    if not pairs or test and len(test) != 2:
        raise BadEdit(f"{path.name}: it has no pair of an old and a new text, or a test that isn't named by its crate and its path")
    return pairs, test


def place_of(file, old, text):
    """Where a text stands in that of a file: once, or once as a whole line."""
    for shape in [re.escape(old), f"^{re.escape(old)}$"]:
        found = [it.span() for it in re.finditer(shape, text, re.M)]
        if len(found) == 1:
            return found[0]
    raise BadEdit(f"an 'old' doesn't stand in {file} just once: {old}")


def function_at(folder, file, old):
    """The end of the prover's name of the function in which a text stands."""
    text = (folder / file).read_text()
    start = place_of(folder / file, old, text)[0]
    before = [it for it in functions_in(file, text) if it.start <= start]
    if not before:
        raise BadEdit(f"an 'old' stands in {folder / file} before all functions: {old}")
    return before[-1].name()
