"""Makes cases of `factor` for spl_calls: random products of powers of known irreducible polynomials.

    python3 factor_cases.py SEED COUNT LINES ANSWERS

The factors are found irreducible by division by all monic polynomials of at most half their degree, and the answers are
what the products were made of: no line is an answer of the program.
"""
import random
import sys

from split_evidence import Field, mul, text

FIELDS = [(2, [0]), (3, [0]), (5, [0]), (7, [0]), (251, [0]), (2, [1, 1]), (3, [1, 0]), (2, [1, 1, 0, 1, 1, 0, 0, 0])]


def remainder(f, a, m):
    """Of a by the monic polynomial m."""
    a = a[:]
    while len(a) >= len(m):
        c = f.negatives[a[-1]]
        shift = len(a) - len(m)
        for i, x in enumerate(m):
            a[shift + i] = f.sums[a[shift + i]][f.products[c][x]]
        while a and a[-1] == 0:
            a.pop()
    return a


def monic(f, degree):
    """All monic polynomials of this degree."""
    for number in range(f.q ** degree):
        yield [number // f.q ** i % f.q for i in range(degree)] + [1]


def is_irreducible(f, a):
    degree = len(a) - 1
    return all(remainder(f, a, m) for d in range(1, degree // 2 + 1) for m in monic(f, d))


def irreducible(f, draw):
    """A random monic irreducible polynomial, of a degree at which all divisors can be tried."""
    most = max(d for d in range(1, 7) if d == 1 or f.q ** (d // 2) <= 300)
    while True:
        a = [draw.randrange(f.q) for _ in range(draw.randint(1, most))] + [1]
        if is_irreducible(f, a):
            return a


def main():
    seed, count = int(sys.argv[1]), int(sys.argv[2])
    draw = random.Random(seed)
    lines, answers = [], []
    share = -(-count // len(FIELDS))
    for p, modulus in FIELDS:
        f = Field(p, modulus)
        lines.append(f"over {p} {text(modulus)}")
        answers.append(f"{p} {text(modulus)} {f.q}")
        for _ in range(min(share, count)):
            factors = {}
            for _ in range(draw.randint(1, 4)):
                # exponents at and about the characteristic, too, where derivatives are 0
                exponent = draw.choice([1, 1, 1, 2, 3, p if p < 8 else 2, p + 1 if p < 8 else 1])
                factors[tuple(irreducible(f, draw))] = exponent
            leading = draw.randrange(1, f.q)
            product = [leading]
            for a, exponent in factors.items():
                for _ in range(exponent):
                    product = mul(f, product, list(a))
            order = sorted(factors, key=lambda a: (len(a), a[::-1]))
            lines.append(f"poly.factor {text(product)}")
            answers.append(" ".join([str(leading)] + [f"{text(list(a))}:{factors[a]}" for a in order]))
        count -= min(share, count)
    with open(sys.argv[3], "w") as out:
        out.write("\n".join(lines) + "\n")
    with open(sys.argv[4], "w") as out:
        out.write("\n".join(answers) + "\n")


if __name__ == "__main__":
    main()
