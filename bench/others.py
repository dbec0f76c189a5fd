"""Times the services in other systems, on the same inputs, where these are installed.

Sage works out both forms with their transforms, and the determinant; FLINT and PARI the determinant. A system that is
not found, or fails on a small input, is left out.
"""
import shutil
import subprocess
import sys
from pathlib import Path

TOP = Path(__file__).resolve().parent.parent
FLINT = TOP / "target/bench/flint"

# Reads p, n, d and the coefficients; prints microseconds of the three services, the best of some.
SAGE = """
import sys, time
from sage.all import GF, PolynomialRing, matrix
p, n, d, *places = map(int, sys.stdin.read().split())
ring = PolynomialRing(GF(p), "x")
a = matrix(ring, n, n, [ring(places[i : i + d + 1]) for i in range(0, len(places), d + 1)])
def best(service):
    times = []
    for _ in range(5):
        b = a.__copy__()
        start = time.process_time()
        service(b)
        times.append(time.process_time() - start)
    return min(times) * 1e6
print(best(lambda b: b.weak_popov_form(transformation=True)))
print(best(lambda b: b.popov_form(transformation=True)))
print(best(lambda b: b.determinant()))
"""
# Its clock counts milliseconds, so that calls are doubled until there are enough of them.
PARI = """
p = {p}; n = {n}; w = {w}; v = [{places}];
a = Mod(1, p) * matrix(n, n, i, j, Polrev(v[((i - 1) * n + j - 1) * w + 1 .. ((i - 1) * n + j) * w]));
calls = 1; t = 0; while(t < 50, calls *= 2; gettime(); for(c = 1, calls, matdet(a)); t = gettime());
print(1000. * t / calls);
"""


def asked(command, text):
    """The numbers that a command prints for a text."""
    said = subprocess.run(command, input=text, capture_output=True, text=True, check=True)
    return [float(number) for number in said.stdout.split()]


def sage(p, n, d, places):
    times = asked(["sage", "-python", "-c", SAGE], f"{p} {n} {d} {places}")
    return dict(zip(["reduction", "Popov form", "determinant"], times))


def flint(p, n, d, places):
    return {"determinant": asked([FLINT], f"{p} {n} {d} {places}")[0]}


def pari(p, n, d, places):
    return {"determinant": asked(["gp", "-q", "-f", "-s", "1G"], PARI.format(p=p, n=n, w=d + 1, places=", ".join(places.split())))[0]}


def flint_built():
    command = ["gcc", "-O2", "-o", FLINT, TOP / "bench/flint.c", "-lflint", "-lgmp", "-lm"]
    return subprocess.run(command, capture_output=True).returncode == 0


def runs(name, timed):
    try:
        return all(time > 0 for time in timed(7, 1, 0, "1").values())
    except (OSError, ValueError, IndexError, subprocess.CalledProcessError) as error:
        print(f"{name} is left out: {error}", file=sys.stderr)
        return False


def installed():
    """The systems that are found: their names, and what times each on one input."""
    there = {"FLINT": (flint, flint_built()), "PARI": (pari, shutil.which("gp")), "Sage": (sage, shutil.which("sage"))}
    return {name: timed for name, (timed, found) in there.items() if found and runs(name, timed)}
