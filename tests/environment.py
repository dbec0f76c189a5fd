"""What tests/environment says, for the tests and benchmarks in Python."""
import os
import subprocess
from pathlib import Path

TOP = Path(__file__).resolve().parents[1]


def clean():
    """Takes over the environment that tests/environment leaves. Returns where programs are, and where libraries are."""
    said = subprocess.run(
        ["bash", "-c", '. tests/environment && printf "%s\\0" "$programs" "$libraries" && env -0'],
        cwd=TOP, check=True, stdout=subprocess.PIPE, text=True,
    ).stdout.split("\0")
    programs, libraries, *variables = said[:-1]
    os.environ.clear()
    os.environ.update(variable.split("=", 1) for variable in variables)
    return programs, libraries


def emulated():
    """Whether programs run under the kit's emulator, where each takes some 20 milliseconds to start."""
    return os.uname().machine != "x86_64"


def program(name):
    """The path of a program below the top folder, where tools/program makes it, so that this machine can run it."""
    programs, _ = clean()
    return f"{programs}/{name}"
