"""The functions in a crate's sources: what the prover calls them, and how to leave of some their contracts alone.

The sources are as `rt fmt` lays them out: each item begins at a line's start, and what stands in it is indented.
"""

import re
import shutil
from pathlib import Path

FUNCTION = re.compile(r"^( *)(?:pub(?:\(\w+\))? )?(?:const )?fn (\w+)", re.M)
TYPE = re.compile(r"^(?:pub(?:\(\w+\))? )?(?:struct|enum) (\w+)", re.M)
# what functions can stand in
BLOCK = re.compile(r"^(?:pub(?:\(\w+\))? )?(?:impl|trait|mod)\b.*", re.M)
IMPL = re.compile(r"impl\b(?:<[^{]*?>)? (?:(\w+)(?:<([\w:]*)[^{]*>)? for )?(\w+)")
ONE_TYPE = re.compile(r"impl [A-Z]\w*<([A-Z]\w*)> \{")
# a proof that is a hole: under --allow-holes the prover takes as shown what it stands for
NO_PROOF = """use Rattle.{crate}.proofs.{path}.Statement.{{statement}}

pub {name}_spec : {{M : Type 1}} → statement M
{name}_spec = ?
"""


def module_of(file):
    """The path of the module that a file src/FILE is."""
    return [it for it in Path(file).with_suffix("").parts[1:] if it not in ["lib", "main"]]


class Function:
    """A function in the text of a file: what it is called, what it stands in, and where it begins."""

    def __init__(self, file, text, found):
        self.file, self.text, self.start = file, text, found.start()
        self.indent, self.last = found.groups()
        self.block = [it[0] for it in BLOCK.finditer(text) if it.start() < self.start][-1] if self.indent else ""

    def name(self):
        """The end of the prover's name of it: it begins with the module of a type, and not of this part of the type's functions."""
        if not self.indent:
            return "::".join([*module_of(self.file), self.last])
        trait, of, type_name = IMPL.match(self.block).groups()
        # an impl of one type of a generic one is called after both
        one = ONE_TYPE.match(self.block)
        of = "".join(it[0].upper() + it[1:] for it in (of or "").split("::") if it)
        return f"{type_name}{f'+{one[1]}' if one else ''}{trait or ''}{of}::{self.last}"

    def path(self, types):
        """The path of its proof, or None unless it stands alone, or belongs to a type that `types` has the module of."""
        if not self.indent:
            return [*module_of(self.file), self.last]
        impl = IMPL.match(self.block)
        is_of_type = impl and not impl[1] and impl[3] in types and not ONE_TYPE.match(self.block)
        return [*types[impl[3]], impl[3], self.last] if is_of_type else None

    def body(self):
        """Where its body stands, or None if it has none."""
        after = FUNCTION.search(self.text, self.start + 1)
        # after clauses a body begins on a line of its own, and else on that of the function's name or of its result
        for before in [f"^{self.indent}", " "]:
            shape = re.compile(rf"{before}(\{{$[^\0]*?^{self.indent}\}}$|\{{.*\}}$)", re.M)
            if found := shape.search(self.text, self.start, after.start() if after else len(self.text)):
                return found.span(1)
        return None


def functions_in(file, text):
    """The functions in the text of a file."""
    return [Function(file, text, it) for it in FUNCTION.finditer(text)]


def leave_contracts(crate, folder, but):
    """Takes the bodies and the proofs from the functions in a copy of a crate, so that their contracts are left (a loop has any type).
    Functions that `but` names keep theirs, and so do those of traits."""
    texts = {str(it.relative_to(folder)): it.read_text() for it in folder.glob("src/**/*.rt")}
    types = {name: module_of(file) for file, text in texts.items() for name in TYPE.findall(text)}
    for file, text in texts.items():
        for it in reversed(functions_in(file, text)):
            path, body = it.path(types), it.body()
            if path and body and it.name() not in but:
                text = text[:body[0]] + "{ loop {} }" + text[body[1]:]
                proof = folder.joinpath("proofs", *path)
                shutil.rmtree(proof, ignore_errors=True)
                proof.mkdir(parents=True)
                (proof / "Proof.antt").write_text(NO_PROOF.format(crate=crate, path=".".join(path), name=path[-1]))
        (folder / file).write_text(text)
