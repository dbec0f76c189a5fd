"""Tries wrong answers: checks a crate in which they are made.

The copy of the crate, with those that it uses, stands in a scratch folder outside the checkout. It begins with what checks kept in
out/, so that little more than the changed functions is proved anew. What a check said stays in target/must-fail/CRATE/ROUND.log, or
ROUND.2.log and so on for the further checks of a round, under the sum of all that it read; while that is the same, it is not made again.
"""
import hashlib
import os
import re
import shutil
import subprocess
import sys
import tempfile
from functools import lru_cache
from pathlib import Path
from typing import NamedTuple

from edits import changed_texts, renamed_texts
from sources import CRATES, TOP, layers

LOGS = TOP / "target/must-fail"
PARTS = ("src", "specs", "proofs")
USES = {crate: [used for used in uses if (CRATES / used).is_dir()] for _, crates in layers() for crate, uses in crates.items()}


class Tried(NamedTuple):
    log: str
    verdict: str  # proved, not-proved, or why the prover was not reached
    functions: dict  # of each function, as its crate names it, what the prover says of it
    edited: set  # the changed lines: file, number


def below(crate):
    """The crates of the repository that a crate uses, directly or not, and the crate itself, which comes last."""
    return list(dict.fromkeys([other for used in USES[crate] for other in below(used)] + [crate]))


@lru_cache(None)
def at_once():
    """How many checks run at a time: RT_JOBS says so, as it does to `rt ci`; else one for each processor, if memory has 4 GB for each."""
    said = os.environ.get("RT_JOBS", "")
    if said.isdigit() and int(said):
        return int(said)
    free = re.search(r"MemAvailable:\s+(\d+) kB", Path("/proc/meminfo").read_text())
    return max(1, min(len(os.sched_getaffinity(0)), int(free[1]) // 4_000_000))


def say(what):
    sys.stderr.write(f"must_fail_reasons: {what}\n")  # in one piece, for several checks say something at once


def ready(crates):
    """Has rt keep what it proves of these crates, and returns those that are proved as they stand."""
    if len(crates) < len(USES) / 2:
        return {crate for crate in sorted(crates, key=list(USES).index) if proves(crate)}
    say("rt all check; takes minutes where crates are not proved yet")
    done = subprocess.run(["rt", "all", "check", "--jobs", str(at_once())], cwd=TOP, stdin=subprocess.DEVNULL, stdout=subprocess.PIPE, text=True)
    return set(re.findall(r"(?m)^(\w+): ok$", done.stdout.rpartition("== summary\n")[2]))


def proves(crate):
    say(f"rt check {crate}; takes minutes where it is not proved yet")
    return subprocess.run(["rt", "check"], cwd=CRATES / crate, stdin=subprocess.DEVNULL, stdout=subprocess.DEVNULL).returncode == 0


@lru_cache(None)
def version():
    return subprocess.run(["rt", "version"], check=True, stdout=subprocess.PIPE, text=True).stdout


@lru_cache(None)
def sources_sum(crate):
    """A sum of all that a check of a crate reads."""
    found = hashlib.sha256(version().encode())
    for name in below(crate):
        found.update(repr((name, USES[name])).encode())
        for part in PARTS:
            for path in sorted((CRATES / name / part).rglob("*.*")):
                found.update(repr((str(path.relative_to(CRATES)), path.read_bytes())).encode())
    return found.hexdigest()


def place(crate, name, number, parts):
    """The log of a check, and the line that it has to begin with."""
    changes = [(wrong.changes, wrong.names) for wrong in parts]
    found = hashlib.sha256(repr((sources_sum(crate), changes)).encode()).hexdigest()
    return LOGS / crate / f"{name}{f'.{number}' if number > 1 else ''}.log", f"sum {found}\n"


def kept(path, begin):
    """What a check said, where it was made of just this."""
    text = path.read_text(errors="replace") if path.is_file() else ""
    return text.removeprefix(begin) if text.startswith(begin) else None


def is_kept(crate, name, parts):
    return kept(*place(crate, name, 1, parts)) is not None


def give(old, new):
    """A second name for a file that rt replaces and never writes into, or a copy."""
    try:
        os.link(old, new)
    except OSError:
        shutil.copy2(old, new)


def give_proved(old, new):
    """Of kept work rt replaces only what is proved."""
    (give if old.endswith(".oantt") else shutil.copy2)(old, new)


def copied(crate, to):
    """Copies a crate and those below it, with what checks kept of them."""
    wanted = below(crate)
    lines = (TOP / "crates.txt").read_text().splitlines(True)
    (to / "crates.txt").write_text("".join(line for line in lines if {*line.partition(":")[0].split()[:1]} & {*wanted}))
    for name in wanted:
        for part in PARTS:
            if (CRATES / name / part).is_dir():
                shutil.copytree(CRATES / name / part, to / "crates" / name / part)
        for part, how in (("rlib", give), *([("incremental", give_proved)] if name == crate else [])):
            if (CRATES / name / "out" / part).is_dir():
                shutil.copytree(CRATES / name / "out" / part, to / "crates" / name / "out" / part, copy_function=how)


def run(crate, texts):
    """What a check says of a crate in which these texts stand in place of its own."""
    with tempfile.TemporaryDirectory(prefix="must-fail-") as room:
        copied(crate, Path(room))
        folder = Path(room) / "crates" / crate
        for file, text in texts.items():
            (folder / file).write_text(text)
        how = {"stdin": subprocess.DEVNULL, "stdout": subprocess.PIPE, "stderr": subprocess.STDOUT}
        done = subprocess.run(["rt", "check", "--jobs", "1"], cwd=folder, text=True, errors="replace", **how)
        # what it says as it goes it says again at the end
        lines = [line for line in done.stdout.splitlines() if not re.match(r"so far: |checked \S+, \d+ of \d+$", line)]
        return "\n".join([*lines, f"status {done.returncode}", ""])


def check(crate, name, number, parts):
    """The check of a crate with these wrong answers of a round, the `number`th for that round."""
    path, begin = place(crate, name, number, parts)
    texts = changed_texts(crate, parts)
    log = kept(path, begin)
    if log is None:
        say(f"{crate}/{name}, {len(parts)} wrong answers")
        log = run(crate, {**texts, **renamed_texts(crate, parts)})
        path.parent.mkdir(parents=True, exist_ok=True)
        path.write_text(begin + log)
    verdicts = re.findall(r"(?m)^logic=(proved|not-proved)\b", log)
    functions = dict(re.findall(rf"(?m)^fn {crate}::(\S+): (.*)", log))
    edited = set()
    for file, text in texts.items():
        lines = zip((CRATES / crate / file).read_text().splitlines(), text.splitlines())
        edited |= {(file, line) for line, (old, new) in enumerate(lines, 1) if old != new}
    ended = re.findall(r"(?m)^.*\berror\[.*", log) + log.splitlines()[-1:]
    return Tried(log, (verdicts or ended)[0], functions, edited)
