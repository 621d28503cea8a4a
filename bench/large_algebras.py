"""Makes lines of spl_calls, and their answers, that time radicals and maximal ideals of 25-dimensional algebras.

    python3 large_algebras.py SEED FOLDER

For each residue field, of degree 1 over 2 and 256 elements and of degree 3 over 4 elements, the folder gets files of an
algebra whose radical has dimension 0, 12 and 20, and of one with 25 maximal ideals.
"""
import random
import sys

from algebra_cases import Residues, Script, both, on_algebra, powers, quadratic, triangular
from factor_cases import is_irreducible
from split_evidence import Field


def product(algebras):
    result = algebras[0]
    for other in algebras[1:]:
        result = both(result, other)
    return result


def nilpotent(k, n):
    return powers(k, [()] * n + [(1,)])


def main():
    draw, folder = random.Random(int(sys.argv[1])), sys.argv[2]
    for p, modulus, degree in [(2, [0], 1), (2, [1, 1, 0, 1, 1, 0, 0, 0], 1), (2, [1, 1], 3)]:
        f = Field(p, modulus)
        place = next(m for m in ([draw.randrange(f.q) for _ in range(degree)] + [1] for _ in range(10000))
                     if is_irreducible(f, m))
        k = Residues(f, place)
        one = triangular([1])
        for name, made in [
            ("0", product([triangular([3]), triangular([4])])),
            ("12", product([triangular([1] * 5), triangular([2]), nilpotent(k, 3), powers(k, quadratic(k, draw)), one])),
            ("20", product([triangular([2]), nilpotent(k, 21)])),
            ("points", product([one] * 25)),
        ]:
            script = Script()
            script.over(p, modulus)
            on_algebra(script, k, place, made, draw)
            for end, lines in [("lines", script.lines), ("answers", script.answers)]:
                with open(f"{folder}/{f.q}-{degree}-{name}.{end}", "w") as out:
                    out.write("\n".join(lines) + "\n")


if __name__ == "__main__":
    main()
