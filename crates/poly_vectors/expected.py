#!/usr/bin/env python3
"""Works out what the program beside this file should print, by ways of its own.

Residues are taken by Python's whole numbers, inverses by Fermat's little theorem, products of polynomials by one
big product of whole numbers (each coefficient a digit in base 2^64), primes by the sieve of Eratosthenes and a
strong probable-prime test that is exact for 32-bit numbers.
"""

SIEVE = bytearray([1]) * 65537
SIEVE[0] = SIEVE[1] = 0
for i in range(2, 257):
    if SIEVE[i]:
        SIEVE[i * i :: i] = bytes(len(SIEVE[i * i :: i]))


def is_prime(p):
    if p < len(SIEVE):
        return bool(SIEVE[p])
    if p % 2 == 0:
        return False
    odd, twos = p - 1, 0
    while odd % 2 == 0:
        odd, twos = odd // 2, twos + 1
    for base in (2, 7, 61):
        x = pow(base, odd, p)
        if x in (1, p - 1):
            continue
        if not any((x := x * x % p) == p - 1 for _ in range(twos - 1)):
            return False
    return True


def mixed(count, seed, p):
    out, x = [], seed
    for _ in range(count):
        out.append(x % p)
        x = (x * 25173 + 13849) % 65536
    return out


def packed(a):
    return sum(c << (64 * i) for i, c in enumerate(a))


def product(a, b, p):
    whole = packed(a) * packed(b)
    return [(whole >> (64 * k)) % 2**64 % p for k in range(len(a) + len(b) - 1)]


def degree_line(a):
    used = [i for i, c in enumerate(a) if c]
    d = used[-1] if used else -1
    return f"degree {d} leading {a[d] if used else 0}"


def polynomial_line(label, a):
    return label + "".join(f" {c}" for c in a)


def yes(flag):
    return "yes" if flag else "no"


def residues(a, b, p):
    inverse = pow(b, p - 2, p)
    return (f"residues {a} {b} sum {(a + b) % p} difference {(a - b) % p}"
            f" product {a * b % p} inverse {inverse if p > 2 else 1}")


def multiple(c, e, seed, p):
    a, b = mixed(128, seed, p), mixed(64, seed + 1, p)
    total = packed(a) + (c % p) * (packed(b) << (64 * e))
    out = [(total >> (64 * k)) % 2**64 % p for k in range(128)]
    return [f"factor {c % p} exponent {e}", polynomial_line("sum:", out), degree_line(out)]


def modulus(p):
    accepted = is_prime(p) and p <= 65521
    yield f"modulus {p} prime {yes(is_prime(p))} accepted {yes(accepted)}"
    if not accepted:
        return
    yield residues(0, p - 1, p)
    yield residues(p - 1, 1, p)
    yield residues(p - 1, p - 1, p)
    yield from multiple(1, 0, 5, p)
    yield from multiple(65535, 64, 77, p)
    out = product(mixed(64, 40000, p), mixed(64, 40001, p), p)
    yield polynomial_line("product:", out)
    yield degree_line(out)
    before = mixed(64, 1, p)
    after = [12345 * c % p for c in before]
    yield polynomial_line("scaled:", after)
    yield f"same as before: {yes(before == after)}, cleared is zero: yes"


def lines():
    edge = [0] * 64
    yield degree_line(edge)
    yield degree_line([1] + edge[1:])
    yield degree_line(edge[1:] + [1])
    yield polynomial_line("x^63:", edge[1:] + [1])
    for p in (0, 1, 2, 3, 9, 929, 65521, 65537, 4294967291, 4294967295):
        yield from modulus(p)


print("\n".join(lines()))
