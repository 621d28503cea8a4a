"""Makes a table of degree n over a field of p^d elements and evidence that matrices split it, to measure `spl check`.

    python3 split_evidence.py scrambled P MODULUS N SEED TABLE EVIDENCE
    python3 split_evidence.py conjugated P MODULUS N SEED DEGREE TABLE EVIDENCE

scrambled: a random basis of the n by n matrices with constants. conjugated: the matrix units, whose matrices are
conjugated by a random unimodular matrix, so that their entries are polynomials of twice the degree. MODULUS is as in a
table text: the numbers of the modulus, lowest first, without the lead 1.
"""
import random
import sys


class Field:
    """The field of p^d elements, each a number of d digits to the base p."""

    def __init__(self, p, modulus):
        self.p, self.modulus, self.d = p, modulus, len(modulus)
        self.q = p ** self.d
        self.sums = [[self._add(a, b) for b in range(self.q)] for a in range(self.q)]
        self.products = [[self._mul(a, b) for b in range(self.q)] for a in range(self.q)]
        self.negatives = [next(b for b in range(self.q) if self.sums[a][b] == 0) for a in range(self.q)]
        self.inverses = [0] + [self.products[a].index(1) for a in range(1, self.q)]

    def _digits(self, a):
        return [a // self.p ** i % self.p for i in range(self.d)]

    def _number(self, digits):
        return sum(c * self.p ** i for i, c in enumerate(digits))

    def _add(self, a, b):
        return self._number([(x + y) % self.p for x, y in zip(self._digits(a), self._digits(b))])

    def _mul(self, a, b):
        product = [0] * (2 * self.d - 1)
        for i, x in enumerate(self._digits(a)):
            for j, y in enumerate(self._digits(b)):
                product[i + j] = (product[i + j] + x * y) % self.p
        for top in range(2 * self.d - 2, self.d - 1, -1):
            lead = product[top]
            for i, m in enumerate(self.modulus):
                product[top - self.d + i] = (product[top - self.d + i] - lead * m) % self.p
            product[top] = 0
        return self._number(product[: self.d])


def trim(a):
    while a and a[-1] == 0:
        a.pop()
    return a


def add(f, a, b):
    return trim([f.sums[a[i] if i < len(a) else 0][b[i] if i < len(b) else 0] for i in range(max(len(a), len(b)))])


def mul(f, a, b):
    if not a or not b:
        return []
    product = [0] * (len(a) + len(b) - 1)
    for i, x in enumerate(a):
        row = f.products[x]
        for j, y in enumerate(b):
            product[i + j] = f.sums[product[i + j]][row[y]]
    return trim(product)


def neg(f, a):
    return [f.negatives[x] for x in a]


def matmul(f, a, b):
    n = len(b[0])
    result = []
    for row in a:
        line = []
        for j in range(n):
            total = []
            for x, other in zip(row, b):
                if x and other[j]:
                    total = add(f, total, mul(f, x, other[j]))
            line.append(total)
        result.append(line)
    return result


def unimodular(f, n, degree, draw):
    """A random product of a lower and an upper unitriangular matrix, and its inverse."""

    def polynomial():
        return trim([draw.randrange(f.q) for _ in range(degree + 1)])

    def identity():
        return [[[1] if i == j else [] for j in range(n)] for i in range(n)]

    matrix, inverse = identity(), identity()
    for below in (True, False):
        part, back = identity(), identity()
        for i in range(n):
            for j in range(n):
                if (j < i) if below else (j > i):
                    part[i][j] = polynomial()
        # the inverse of a unitriangular matrix: I − N + N² − ..
        nilpotent = [[part[i][j] if i != j else [] for j in range(n)] for i in range(n)]
        power = nilpotent
        sign = True
        for _ in range(n - 1):
            back = [[add(f, back[i][j], neg(f, power[i][j]) if sign else power[i][j]) for j in range(n)] for i in range(n)]
            power, sign = matmul(f, power, nilpotent), not sign
        matrix, inverse = matmul(f, matrix, part), matmul(f, back, inverse)
    return matrix, inverse


def text(a):
    return ",".join(map(str, a)) if a else "0"


def write(path, lines):
    with open(path, "w") as out:
        out.write("\n".join(lines) + "\n")


def write_table(path, p, modulus, n, entries):
    lines = ["spl-table 1", f"field {p} {','.join(map(str, modulus))}", f"degree {n}"]
    write(path, lines + [f"{i + 1} {j + 1} {k + 1} {text(c)}" for i, j, k, c in entries] + ["end"])


def write_evidence(path, n, maps, units):
    lines = ["spl-evidence 1", "split"]
    lines += [f"map {i + 1} " + " ".join(text(c) for row in m for c in row) for i, m in enumerate(maps)]
    lines += [f"unit {i // n + 1} {i % n + 1} " + " ".join(map(text, u)) for i, u in enumerate(units)]
    write(path, lines + ["end"])


def unit(n, k):
    return [[[1] if (i, j) == (k // n, k % n) else [] for j in range(n)] for i in range(n)]


def scrambled(f, n, draw):
    m = n * n
    rows, inverse = unimodular(f, m, 0, draw)
    maps = [[[row[i * n + j] for j in range(n)] for i in range(n)] for row in rows]
    entries = []
    for i in range(m):
        for j in range(m):
            product = [c for line in matmul(f, maps[i], maps[j]) for c in line]
            for k, c in enumerate(matmul(f, [product], inverse)[0]):
                if c:
                    entries.append((i, j, k, c))
    return entries, maps, inverse


def conjugated(f, n, degree, draw):
    p, back = unimodular(f, n, degree, draw)
    m = n * n
    maps = [matmul(f, matmul(f, p, unit(n, k)), back) for k in range(m)]
    units = [[c for row in matmul(f, matmul(f, back, unit(n, k)), p) for c in row] for k in range(m)]
    entries = [(i, j, i // n * n + j % n, [1]) for i in range(m) for j in range(m) if i % n == j // n]
    return entries, maps, units


def main():
    kind, p, modulus, n, seed = sys.argv[1:6]
    p, n, modulus = int(p), int(n), [int(x) for x in modulus.split(",")]
    f, draw = Field(p, modulus), random.Random(int(seed))
    if kind == "scrambled":
        entries, maps, units = scrambled(f, n, draw)
        table, evidence = sys.argv[6:8]
    else:
        entries, maps, units = conjugated(f, n, int(sys.argv[6]), draw)
        table, evidence = sys.argv[7:9]
    write_table(table, p, modulus, n, entries)
    write_evidence(evidence, n, maps, units)


if __name__ == "__main__":
    main()
