"""The wrong answers that are tried as must-fail edits.

A file crates/CRATE/must-fail/NAME.edit has one or more parts, each a wrong answer, with an empty line between them:

    function: the function whose contract it breaks, by its public name or as its crate names it, or a definition
    wrong: what is wrong; an input: the answer that it gets then, right is the other
    proof: the function whose proof has to fail, only where the changed line stands in no function's body
    names: a -> b, only where the prover names a changed condition b, and the proof cites it as a: it is tried under the new name
    file: a source of the crate
    old: a part of one line of it that occurs once, with the spaces that it begins with
    new: what stands there instead

The parts of one file are tried together in one check, a round: each function's proof is checked by itself. So a round
makes no function wrong twice, and a wrong answer that is in no function's body, as that of a definition, stands alone.
"""
import re
from typing import NamedTuple, Optional

from sources import CRATES, functions_of, listed_crates


class Wrong(NamedTuple):
    crate: str
    round: str  # the name of the file
    function: str
    what: str
    shown: str  # an input, and the two answers
    changes: tuple  # of each: file, old text, new text
    proof: Optional[str]  # the function whose proof has to fail, as its crate names it; None for a definition
    names: tuple  # the old and the new name of a condition, or nothing

    @property
    def label(self):
        """How docs/PROMISES.md names it."""
        return f"{self.function}: {self.what}"


def changed_function(crate, changes):
    """The one function in whose body all changed lines stand."""
    inside = set()
    for file, old, _ in changes:
        if not file.startswith("src/"):
            return None
        text = (CRATES / crate / file).read_text()
        line = text[: text.find(old)].count("\n") + 1
        inside |= {f.path for f in functions_of(crate, file) if f.body < line < f.end} or {None}
    return inside.pop() if len(inside) == 1 else None


def part(crate, name, text):
    """One part of a file. What is missing is empty."""
    said, changes = {}, []
    for line in text.splitlines():
        key, _, value = line.partition(":")
        said[key] = value.removeprefix(" ") if key in ("old", "new") else value.strip()
        if key == "new":
            changes.append((said.get("file", ""), said.get("old", ""), said["new"]))
    what, _, shown = said.get("wrong", "").partition("; ")
    proof = said.get("proof") or changed_function(crate, changes)
    names = tuple(filter(None, said.get("names", "").split(" -> ")))
    return Wrong(crate, name, said.get("function", ""), what, shown, tuple(changes), proof, names)


def rounds():
    """The files of edits: of each its crate, its name and its parts."""
    for crate in listed_crates():
        for path in sorted((CRATES / crate / "must-fail").glob("*.edit")):
            texts = re.split(r"\n\n+", path.read_text().strip("\n"))
            yield crate, path.stem, [part(crate, path.stem, text) for text in texts]


def wrong_answers():
    for _, _, parts in rounds():
        yield from parts


def renamed_texts(crate, parts):
    """The texts of the proof files in which a condition has its new name."""
    texts = {}
    for wrong in parts:
        if wrong.names:
            old, new = wrong.names
            for path in sorted((CRATES / crate / "proofs" / wrong.proof.replace("::", "/")).glob("*.antt")):
                cited = rf"\b(then|else|if|Then|Else)-{re.escape(old)}(?![\w-])"
                texts[str(path.relative_to(CRATES / crate))] = re.sub(cited, rf"\1-{new}", path.read_text())
    return texts


def changed_texts(crate, parts, amiss=None):
    """The texts of a crate's files with all changes of some wrong answers. Those that cannot be made are added to `amiss`."""
    texts = {}
    for wrong in parts:
        for file, old, new in wrong.changes:
            path = CRATES / crate / file
            text = texts.get(file) or (path.read_text() if path.is_file() else "")
            if amiss is not None and text.count(old) != 1:
                amiss.append((wrong, f"its `old:` text stands {text.count(old)} times in {file}: {old}"))
            texts[file] = text.replace(old, new)
    return texts


def faults(parts):
    """What is amiss with the parts of one file, before any check."""
    for wrong in parts:
        for said, needed in ((wrong.function, "function:"), (wrong.what, "wrong:"), (wrong.changes, "new:")):
            if not said:
                yield wrong, f"it has no `{needed}`"
        if not re.search(r".: .+, right is .", wrong.shown):
            yield wrong, "its `wrong:` line names no input with the wrong answer and the right one"
        if wrong.proof is None and len(parts) > 1:
            yield wrong, "it is in no function's body, so it has to stand alone"
        if wrong.names and (len(wrong.names) != 2 or wrong.proof is None):
            yield wrong, "its `names:` line is no `a -> b` for a condition of a function"
        if wrong.proof is not None and sum(other.proof == wrong.proof for other in parts) > 1:
            yield wrong, f"{wrong.proof} is made wrong twice in one round"
    amiss = []
    changed_texts(parts[0].crate, parts, amiss)
    yield from amiss
