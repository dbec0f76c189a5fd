"""What the tools read off the text of the sources: the listed crates with their layers, their functions, and which of
these are public.

A function is public if another crate can name it: it is `pub`, and stands in `lib.rt` or in a module that is `pub` all the
way, or is re-exported from such a place by `pub use`, itself or its type. Its public name is the one that another crate writes
after the crate's: `Type::function`, `function` or `module::function`. A function of an impl of a trait stands under the name
that the prover has for the impl, as `ResidueFromU16` for `impl From<u16> for Residue`; what a ghost member there says of the
results counts as its `ensures`, and it is public whether or not there is one: who has the type can call it.
"""
import re
from functools import lru_cache
from pathlib import Path
from typing import NamedTuple

TOP = Path(__file__).resolve().parent.parent
CRATES = TOP / "crates"

FUNCTION = re.compile(r'(\s*)(pub |pub\(crate\) )?(?:extern "C" )?fn (\w+)')
IMPL = re.compile(r"impl(?:<[^{]*?>)? (?:(\w.*) for )?(\w+)")
MEMBER = re.compile(r"\s+ghost (\w+) = \{(.*)\};")
CLAUSE = re.compile(r"(requires|ensures)(?: [\w-]+)? \{")


class Function(NamedTuple):
    crate: str
    file: str  # below the crate, as `src/module.rt`
    path: str  # as the crate itself names it: `module::Type::function`
    public: bool  # whether `pub` stands before it; see public_functions
    head: list  # its lines, stripped, up to the one that opens its body
    start: int  # the number, counted from 1, of its first line, which may be an attribute
    body: int  # of the line that opens its body
    end: int  # and of its last line

    def clauses(self, word):
        """The texts of its clauses of one kind, `requires` or `ensures`, named or not."""
        text, found = "\n".join(self.head), []
        marks = list(CLAUSE.finditer(text))
        for mark, after in zip(marks, [*(m.start() for m in marks[1:]), len(text)]):
            if mark[1] == word:
                found.append(text[mark.end() : after].rstrip("{ \n").removesuffix("}").strip())
        return found

    @property
    def silent(self):
        """The buffers lent to be written of which `ensures` does not say what they hold at exit."""
        lent = re.findall(r"(\w+): &mut", " ".join(self.head))
        return [buffer for buffer in lent if not any(re.search(rf"\b{buffer}\.new\b", clause) for clause in self.clauses("ensures"))]


@lru_cache(None)
def layers():
    """The layers of crates.txt from the bottom up: of each its comment, and its crates with those that they use. A crate's name stands
    first in its line, and `staticlib` may follow it."""
    found = []
    for line in (TOP / "crates.txt").read_text().splitlines():
        if line.startswith("#"):
            found.append((line.lstrip("# "), {}))
        elif line.strip():
            named, _, uses = line.partition(":")
            found[-1][1][named.split()[0]] = uses.split()
    return found


def listed_crates():
    return [crate for _, crates in layers() for crate in crates]


def module_of(file):
    """The path of the module that a source is, below the crate: nothing for the root."""
    parts = Path(file).with_suffix("").parts[1:]
    return [] if parts in (("lib",), ("main",)) else list(parts)


def owner_of(trait, kind):
    """What the prover calls an `impl`: its type, and after it the trait with what it is given, as `ReplyFromU64`."""
    words = re.findall(r"\w+|\(\)", re.sub(r"'\w+|\w+::", "", trait or ""))
    return kind[0].upper() + kind[1:] + "".join("Unit" if word == "()" else word[0].upper() + word[1:] for word in words)


def functions_of(crate, file, folder=None):
    """The functions of a source. `folder` has it where it is not the crate's own, as the copy of an edit."""
    owner, of_trait, promise, first, start, head = "", False, "", None, None, []
    for number, line in enumerate(((folder or CRATES / crate) / file).read_text().splitlines(), 1):
        if found := IMPL.match(line):
            owner, of_trait, promise = owner_of(*found.groups()), bool(found[1]), ""
        elif found := MEMBER.match(line):
            promise = f"{{ {'f.new: ' if found[1] == 'output' else ''}{found[2].strip()} }}"  # `output` is what `fmt` writes to its f
        elif line == "}" and start is None:
            owner, of_trait, promise = "", False, ""
        if start is None and (found := FUNCTION.match(line)):
            indent, visible, name = found.groups()
            start, body, head = first or number, None, []
        if start is not None and body is None:
            head.append(line.strip())
            body = number if line.endswith("{") else None
            if body and promise:
                head.append(f"ensures {promise}")
        first = (first or number) if line.lstrip().startswith("#[") else None
        if start is not None and line == indent + "}":
            path = [*module_of(file), *([owner] if indent else []), name]
            yield Function(crate, file, "::".join(path), visible == "pub " or of_trait, head, start, body, number)
            start = None


def functions(crate, folder=None):
    for path in sorted(((folder or CRATES / crate) / "src").rglob("*.rt")):
        yield from functions_of(crate, f"src/{path.relative_to((folder or CRATES / crate) / 'src')}", folder)


def public_paths(crate):
    """The modules of a library that others can name, and what it re-exports: the path inside of each public name."""
    modules, exported = [[]], {}
    for path in modules:
        text = (CRATES / crate / "src" / ("/".join(path) or "lib")).with_suffix(".rt").read_text()
        modules += [[*path, name] for name in re.findall(r"(?m)^pub mod (\w+);", text)]
        for inside, names in re.findall(r"(?m)^pub use ([\w:]+)(?:::\{([^}]*)\})?;", text):
            for inner in [f"{inside}::{name.strip()}" for name in names.split(",") if name.strip()] or [inside]:
                exported["::".join([*path, *inner.split("::")])] = "::".join([*path, inner.split("::")[-1]])
    return modules, exported


def public_functions():
    """The public functions of all libraries, each with its public name."""
    for crate in listed_crates():
        if not (CRATES / crate / "src/lib.rt").is_file():
            continue  # a program: no crate uses it
        modules, exported = public_paths(crate)
        for function in functions(crate):
            if not function.public:
                continue
            for inner, outer in exported.items():
                if function.path == inner or function.path.startswith(inner + "::"):
                    yield function, outer + function.path[len(inner) :]
                    break
            else:
                if module_of(function.file) in modules:
                    yield function, function.path
