"""The wrong bodies of crates/*/edits and crates/*/must-fail: what each changes, and in which functions."""

import dataclasses
import os
import re

HEAD = re.compile(r"^( *)(?:pub(?:\([a-z]+\))? )?(?:const )?(?:final )?fn (\w+)", re.M)
IMPL = re.compile(r"^(?:unsafe )?impl(?:<.*?>)? (?!<)(.*?) \{", re.M)


@dataclasses.dataclass(frozen=True)
class Function:
    """A function of a crate: its file, and the end of its path as the prover prints it: of a method the type and its name, since the module is
    that of the type, and of another function all behind the crate's name."""

    file: str
    path: str

    @property
    def module(self):
        return module_of(self.file)

    def is_told(self, line):
        """Whether a line of the prover says what the function comes to."""
        return re.match(rf"fn \w+(::.*)?::{re.escape(self.path)}: ", line) is not None

    def has_proof_in(self, file):
        """Whether a file is one of its proof."""
        return re.match(rf"proofs/(.*/)?{re.escape(self.path.replace('::', '/'))}/\w+\.antt", file) is not None

    def lines_in(self, text):
        """The numbers of its lines in a text of its file."""
        heads = [it for it in HEAD.finditer(text)]
        for at, head in enumerate(heads):
            if function_at(text, head.start(), self.file) == self:
                ends = heads[at + 1].start() if at + 1 < len(heads) else len(text)
                return range(text.count("\n", 0, head.start()) + 1, text.count("\n", 0, ends) + 1)
        return range(0)


@dataclasses.dataclass(frozen=True)
class Edit:
    """A wrong body. `functions` has None where it changes more than bodies of functions."""

    name: str
    changes: tuple
    functions: frozenset


class Unfit(Exception):
    """An edit cannot be applied to the sources as they stand."""


def module_of(file):
    path = file.removeprefix("src/").removesuffix(".rt")
    return "" if path in ("lib", "main") else path.replace("/", "::")


def owner_at(text, place):
    """How the prover names what the impl in front of the place is of: the type, and behind it the trait."""
    impls = IMPL.findall(text[:place])
    if not impls:
        return None
    bare = impls[-1]
    while re.search(r"<[^<>]*>", bare):
        bare = re.sub(r"<[^<>]*>", "", bare)
    trait, _, kind = bare.rpartition(" for ")
    return "".join(it.strip().rsplit("::", 1)[-1] for it in (kind, trait))


def function_at(text, place, file):
    """The function in whose lines the place is, or None."""
    heads = [it for it in HEAD.finditer(text) if it.start() <= place]
    if not heads or re.search(rf"^{heads[-1][1]}}}", text[heads[-1].end() : place], re.M):
        return None
    owner = owner_at(text, heads[-1].start()) if heads[-1][1] else ""
    if owner is None:
        return None
    return Function(file, "::".join(it for it in (owner or module_of(file), heads[-1][2]) if it))


def read_edit(folder, file):
    """Reads an edit of the crate in a folder."""
    changes, functions, path, old = [], set(), "", None
    with open(file, encoding="utf-8") as it:
        lines = it.read().split("\n")
    for line in lines:
        if line.startswith("file: "):
            path = line.removeprefix("file: ").strip()
        elif line.startswith("old: "):
            old = line.removeprefix("old: ")
        elif line.startswith("new:") and old:
            with open(f"{folder}/{path}", encoding="utf-8") as it:
                text = it.read()
            if text.count(old) != 1:
                raise Unfit(f"{path} has this line {text.count(old)} times: {old.strip()}")
            changes.append((path, old, line.removeprefix("new:").removeprefix(" ")))
            functions.add(function_at(text, text.index(old) + len(old) - len(old.lstrip()), path))
            old = None
    return Edit(os.path.basename(file).removesuffix(".edit"), tuple(changes), frozenset(functions))


def texts_with(folder, edits):
    """The texts of the files that these edits change, by their paths in the crate, with all of them."""
    texts = {}
    for path, old, new in [change for edit in edits for change in edit.changes]:
        if path not in texts:
            with open(f"{folder}/{path}", encoding="utf-8") as it:
                texts[path] = it.read()
        texts[path] = texts[path].replace(old, new)
    return texts


def rounds_of(edits):
    """The edits in rounds, each with at most one of a function. One that changes more than bodies is a round of its own."""
    rounds = []
    for edit in edits:
        for others in rounds:
            taken = frozenset().union(*[it.functions for it in others])
            if None not in taken | edit.functions and not taken & edit.functions:
                others.append(edit)
                break
        else:
            rounds.append([edit])
    return rounds
