"""Makes cases of radicals, maximal ideals and lift rings for spl_calls: worked ones, and algebras over residue fields
whose radical and blocks are known, in a random basis.

    python3 algebra_cases.py SEED LINES ANSWERS

Each algebra is written down by its products on a basis in which its radical and its maximal ideals can be seen, and then
in a random one: any one where the algebra is small, and one by few steps where it is large. The answers are what it was
made of: no line is an answer of the program. Maximal ideals are listed by their bases as they stand in a line, in the
order of these texts. Elements of lift rings are multiplied as polynomials with numbers as coefficients.
"""
import random
import sys

from factor_cases import is_irreducible, monic, remainder
from split_evidence import Field, add, mul, neg, text


class Residues:
    """The remainders by an irreducible polynomial, as tuples of coefficients without zeros at the end."""

    def __init__(self, field, modulus):
        self.f, self.modulus, self.degree = field, modulus, len(modulus) - 1
        self.q = field.q ** self.degree
        self.known = {}

    def add(self, a, b):
        return tuple(add(self.f, list(a), list(b)))

    def neg(self, a):
        return tuple(neg(self.f, list(a)))

    def mul(self, a, b):
        if not a or not b:
            return ()
        if (a, b) not in self.known:
            self.known[a, b] = tuple(remainder(self.f, mul(self.f, list(a), list(b)), self.modulus))
        return self.known[a, b]

    def inv(self, a):
        return raised(self, a, self.q - 2)

    def draw(self, draw):
        a = [draw.randrange(self.f.q) for _ in range(self.degree)]
        while a and a[-1] == 0:
            a.pop()
        return tuple(a)


def multiply(k, rows, matrix):
    """The products of row vectors and a matrix."""
    width = len(matrix[0])
    result = []
    for row in rows:
        line = [()] * width
        for x, other in zip(row, matrix):
            if x:
                line = [k.add(s, k.mul(x, y)) if y else s for s, y in zip(line, other)]
        result.append(line)
    return result


def reduced(k, rows):
    """The reduced echelon form of the rows, and the places of the pivots."""
    rows, pivots = [list(row) for row in rows], []
    for column in range(len(rows[0]) if rows else 0):
        at = next((r for r in range(len(pivots), len(rows)) if rows[r][column]), None)
        if at is None:
            continue
        top = len(pivots)
        rows[top], rows[at] = rows[at], rows[top]
        lead = k.inv(rows[top][column])
        rows[top] = [k.mul(lead, x) for x in rows[top]]
        for r in range(len(rows)):
            if r != top and rows[r][column]:
                c = k.neg(rows[r][column])
                rows[r] = [k.add(x, k.mul(c, y)) for x, y in zip(rows[r], rows[top])]
        pivots.append(column)
    return rows[: len(pivots)], pivots


def inverse(k, matrix):
    n = len(matrix)
    wide = [row + [(1,) if i == j else () for j in range(n)] for i, row in enumerate(matrix)]
    rows, pivots = reduced(k, wide)
    return [row[n:] for row in rows] if pivots == list(range(n)) else None


def unit(n, i):
    return [(1,) if i == j else () for j in range(n)]


class Made:
    """An algebra by its products that are not 0, a basis of its radical, and one of each maximal ideal modulo it."""

    def __init__(self, n, products, radical, blocks):
        self.n, self.products, self.radical, self.blocks = n, products, radical, blocks


def triangular(sizes):
    """Matrices that are block upper triangular."""
    n = sum(sizes)
    block = [b for b, size in enumerate(sizes) for _ in range(size)]
    places = [(i, j) for i in range(n) for j in range(n) if block[i] <= block[j]]
    number = {place: s for s, place in enumerate(places)}
    products = {}
    for i, j in places:
        for l in range(n):
            if (j, l) in number:
                products[number[i, j], number[j, l]] = {number[i, l]: (1,)}
    m = len(places)
    radical = [unit(m, number[i, j]) for i, j in places if block[i] < block[j]]
    blocks = [[number[i, j] for i, j in places if block[i] == block[j] == b] for b in range(len(sizes))]
    return Made(m, products, radical, blocks)


def powers(k, modulus):
    """Polynomials in one variable over k modulo a monic one: (1, x, .., x^(n − 1)), a field or with the radical x."""
    n = len(modulus) - 1
    products = {}
    for i in range(n):
        for j in range(n):
            a = [()] * (i + j) + [(1,)]
            while len(a) > n:
                lead = k.neg(a.pop())
                for s in range(n):
                    a[len(a) - n + s] = k.add(a[len(a) - n + s], k.mul(lead, modulus[s]))
            products[i, j] = {s: x for s, x in enumerate(a) if x}
    nilpotent = not any(modulus[:n])
    radical = [unit(n, i) for i in range(1, n)] if nilpotent else []
    return Made(n, products, radical, [[0] if nilpotent else list(range(n))])


def group(k, n, multiply):
    """The group algebra of a group of n elements, 0 being its one, whose order is a power of the characteristic."""
    products = {(i, j): {multiply(i, j): (1,)} for i in range(n) for j in range(n)}
    radical = [[k.neg((1,)) if j == 0 else x for j, x in enumerate(unit(n, i))] for i in range(1, n)]
    return Made(n, products, radical, [[0]])


def cyclic(k, n):
    """Of the numbers modulo n."""
    return group(k, n, lambda a, b: (a + b) % n)


def dihedral(k):
    """Of the symmetries of a square: number 4·s + r is the turn r behind the reflection s."""
    return group(k, 8, lambda a, b: 4 * ((a // 4 + b // 4) % 2) + (a % 4 * (-1 if b // 4 else 1) + b % 4) % 4)


def elementary(k, p):
    """Of the pairs of numbers modulo p."""
    return group(k, p * p, lambda a, b: (a // p + b // p) % p * p + (a % p + b % p) % p)


def both(a, b):
    """The product of two algebras."""
    products = dict(a.products)
    for (i, j), value in b.products.items():
        products[a.n + i, a.n + j] = {a.n + l: x for l, x in value.items()}
    n = a.n + b.n
    radical = [row + [()] * b.n for row in a.radical] + [[()] * a.n + row for row in b.radical]
    return Made(n, products, radical, a.blocks + [[a.n + i for i in block] for block in b.blocks])


def random_basis(k, n, draw):
    """A random basis where n is small, and else one by few steps from the first."""
    if n <= 13:
        return [[k.draw(draw) for _ in range(n)] for _ in range(n)]
    basis = [unit(n, i) for i in draw.sample(range(n), n)]
    for _ in range(n // 3):
        i, j = draw.sample(range(n), 2)
        c = k.draw(draw) or (1,)
        basis[i] = [k.add(x, k.mul(c, y)) for x, y in zip(basis[i], basis[j])]
    return basis


def in_basis(k, made, draw):
    """The products of the rows of a random matrix, and what takes coordinates to the new basis."""
    n, back = made.n, None
    while not back:
        basis = random_basis(k, n, draw)
        back = inverse(k, basis)
    sparse = [[(i, x) for i, x in enumerate(row) if x] for row in basis]
    rows = []
    for a in sparse:
        for b in sparse:
            line = [()] * n
            for i, x in a:
                for j, y in b:
                    for l, z in made.products.get((i, j), {}).items():
                        line[l] = k.add(line[l], k.mul(k.mul(x, y), z))
            rows.append(line)
    return multiply(k, rows, back), back


def spelled(rows):
    return ";".join(":".join(text(list(x)) for x in row) for row in rows) if rows else "none"


def space(k, rows):
    rows, _ = reduced(k, rows) if rows else ([], [])
    return f"{len(rows)} {spelled(rows)}"


def algebras(k, draw):
    """Small algebras over k: with a radical, and without."""
    p = k.f.p
    x = quadratic(k, draw)
    yield powers(k, x)
    yield triangular([1, 2])
    yield both(powers(k, x), triangular([2]))
    yield both(triangular([1, 1]), powers(k, [(), (), (), (1,)]))
    yield both(triangular([1]), both(triangular([2]), triangular([1])))
    yield cyclic(k, p if p > 3 else p * p)


def large_algebras(k):
    """Algebras that are made over one or two fields alone, by the number of elements and the degree of the place."""
    at = (k.f.q, k.degree)
    if at in [(2, 1), (256, 1)]:
        yield both(triangular([2]), triangular([3]))
    if at in [(3, 1)]:
        yield triangular([2, 3])
    if at in [(2, 1), (4, 2)]:
        yield dihedral(k)
    if at in [(3, 2)]:
        yield elementary(k, 3)
    if at in [(256, 1)]:
        yield cyclic(k, 8)
    if at in [(25, 1)]:
        yield powers(k, [()] * 25 + [(1,)])


def raised(k, a, n):
    power = (1,)
    while n:
        if n % 2:
            power = k.mul(power, a)
        a = k.mul(a, a)
        n //= 2
    return power


def quadratic(k, draw):
    """A polynomial of degree 2 without root: x² − c where c is no square, and x² + x + c where the trace of c is 1."""
    while True:
        c = k.draw(draw)
        if k.f.p > 2:
            if c and raised(k, c, (k.q - 1) // 2) != (1,):
                return [k.neg(c), (), (1,)]
            continue
        trace, power, left = (), c, k.q
        while left > 1:
            trace, power, left = k.add(trace, power), k.mul(power, power), left // 2
        if trace:
            return [c, (1,), (1,)]


FIELDS = [(2, [0], 3), (3, [0], 3), (2, [1, 1], 3), (2, [1, 1, 0], 3), (5, [2, 0], 3), (2, [1, 1, 0, 1, 1, 0, 0, 0], 3)]


class Script:
    """Lines and their answers."""

    def __init__(self):
        self.lines, self.answers = [], []

    def say(self, line, answer):
        self.lines.append(line)
        self.answers.append(str(answer))

    def note(self, line):
        self.say(f"# {line}", f"# {line}")

    def over(self, p, modulus):
        self.say(f"over {p} {text(modulus)}", f"{p} {text(modulus)} {p ** len(modulus)}")

    def let(self, name, word):
        self.say(f"let {name} {word}", len(word))


def table(n, products):
    """The word of an algebra by its products of basis elements that are not 0, each a basis element."""
    return ";".join(":".join("1" if products.get((i, j)) == l else "0" for l in range(n))
                    for i in range(n) for j in range(n))


def worked(script):
    """Over two elements an algebra in which the trace form has a larger kernel than the radical; and two over five."""
    u, v, y, z, w = 0, 1, (2, 3), (4, 5), (6, 7, 8)
    products = {(u, u): u, (v, v): v}
    products.update({(u, a): a for a in y} | {(a, v): a for a in y})
    products.update({(v, a): a for a in z + w} | {(a, u): a for a in z} | {(a, v): a for a in w})
    element = lambda *places: ":".join("1" if l in places else "0" for l in range(9))
    radical = ";".join(element(l) for l in range(2, 9))
    ends = f"{element(0)};{element(1)}"
    script.over(2, [0])
    script.let("LARGE_KERNEL", table(9, products))
    script.say("residue 0,1 radical LARGE_KERNEL", f"7 {radical}")
    script.say("residue 0,1 algebra.trace_form LARGE_KERNEL", ";".join([element(0)] + [element()] * 8))
    script.say(f"residue 0,1 algebra.is_nilpotent_ideal LARGE_KERNEL {element(1)};{radical}", "no")
    script.say(f"residue 0,1 algebra.is_nilpotent_ideal LARGE_KERNEL {radical}", "yes")
    script.say(f"residue 0,1 trace_power 3 LARGE_KERNEL {element(0)} 0", 3)
    script.say(f"residue 0,1 trace_power 3 LARGE_KERNEL {element(1)} 1", 6)
    script.say(f"residue 0,1 trace_power 3 LARGE_KERNEL {element(1)} 4", "bad line")
    script.say(f"residue 0,1 trace_power 39 LARGE_KERNEL {element(1)} 39", 6)
    script.say(f"residue 0,1 trace_power 40 LARGE_KERNEL {element(1)} 0", "bad line")
    script.say(f"residue 0,1 algebra.power_of_ideal LARGE_KERNEL {radical} 2", "0 none")
    script.say(f"residue 0,1 algebra.quotient LARGE_KERNEL {radical}", f"2 1:0 0:0 0:0 0:1 {ends} {ends}")
    script.say("residue 0,1 maximal_ideals LARGE_KERNEL", "bad line")
    script.say("residue 0,1 is_simple LARGE_KERNEL", "bad line")
    script.say("residue 0,1 radical 0:0;0:0;0:0;0:0", "bad line")
    script.say("residue 0,1 radical 1:0;0:1;0:1;1:1", "0 none")
    script.say("residue 0,1 radical 1:0;0:1;0:0;0:0", "bad line")
    script.over(5, [0])
    script.say("residue 0,1 maximal_ideals 1:0;0:0;0:0;0:1", "2 1 0:1 1 1:0")
    units = table(4, {(0, 0): 0, (0, 1): 1, (1, 2): 0, (1, 3): 1, (2, 0): 2, (2, 1): 3, (3, 2): 2, (3, 3): 3})
    script.let("UNITS", units)
    script.say("residue 0,1 is_simple UNITS", "yes")
    script.say("residue 0,1 radical UNITS", "0 none")
    script.say("residue 0,1 maximal_ideals UNITS", "1 0 none")
    script.say("algebra.two_sided_rank UNITS", 16)
    script.say("fractions algebra.two_sided_rank UNITS", 16)
    script.say("residue 2,0,1 algebra.two_sided_rank UNITS", 16)
    script.say("algebra.two_sided_rank 1:0;0:0;0:0;0:1", 2)
    script.say("fractions algebra.is_nilpotent_ideal 1:0;0:1;0:1;0:0 0:1", "yes")
    script.say("algebra.is_nilpotent_ideal 1:0;0:0;0:0;0:1 0:1", "no")


def on_algebra(script, k, place, made, draw):
    """The radical, and where that is 0 the maximal ideals and whether there is but one."""
    table, back = in_basis(k, made, draw)
    script.let("A", spelled(table))
    on = f"residue {text(place)}"
    script.say(f"{on} radical A", space(k, multiply(k, made.radical, back) if made.radical else []))
    if made.radical:
        return
    ideals = sorted(space(k, multiply(k, [unit(made.n, i) for other in made.blocks if other is not block
                                          for i in other], back) if len(made.blocks) > 1 else [])
                    for block in made.blocks)
    script.say(f"{on} maximal_ideals A", " ".join([str(len(ideals))] + ideals))
    script.say(f"{on} is_simple A", "yes" if len(made.blocks) == 1 else "no")


class Numbers:
    """The remainders of polynomials over Z/n by a monic one: digits of an element of F_q, or elements of a lift ring."""

    def __init__(self, one, modulus):
        self.one, self.modulus, self.degree = one, modulus, len(modulus)

    def add(self, a, b):
        return [self.one.add(x, y) for x, y in zip(a, b)]

    def mul(self, a, b):
        product = [self.one.zero() for _ in range(2 * self.degree)]
        for i, x in enumerate(a):
            for j, y in enumerate(b):
                product[i + j] = self.one.add(product[i + j], self.one.mul(x, y))
        for top in range(2 * self.degree - 1, self.degree - 1, -1):
            lead = product[top]
            for s, c in enumerate(self.modulus):
                product[top - self.degree + s] = self.one.sub(product[top - self.degree + s], self.one.mul(lead, c))
            product[top] = self.one.zero()
        return product[: self.degree]

    def zero(self):
        return [self.one.zero() for _ in range(self.degree)]

    def sub(self, a, b):
        return [self.one.sub(x, y) for x, y in zip(a, b)]


class Modulo:
    """The integers modulo n."""

    def __init__(self, n):
        self.n = n

    def zero(self):
        return 0

    def add(self, a, b):
        return (a + b) % self.n

    def sub(self, a, b):
        return (a - b) % self.n

    def mul(self, a, b):
        return a * b % self.n


def digits(p, d, number):
    return [number // p ** v % p for v in range(d)]


def on_lifts(script, k, place, draw):
    """A sum and a product of lifts. The place is monic."""
    p, d, level = k.f.p, len(k.f.modulus), draw.randrange(4)
    inner = Numbers(Modulo(p ** (level + 1)), k.f.modulus)
    ring = Numbers(inner, [digits(p, d, c) for c in place[:-1]])
    a, b = k.draw(draw), k.draw(draw)
    lift = lambda x: [digits(p, d, x[u] if u < len(x) else 0) for u in range(k.degree)]
    show = lambda x: " ".join(str(n) for c in x for n in c)
    on = f"residue {text(place)} lift_ring"
    a_text, b_text = text(list(a)), text(list(b))
    script.say(f"{on}.lift {level} {a_text}", show(lift(a)))
    script.say(f"{on}.add {level} {a_text} {b_text}", show(ring.add(lift(a), lift(b))))
    script.say(f"{on}.mul {level} {a_text} {b_text}", show(ring.mul(lift(a), lift(b))))


def main():
    draw = random.Random(int(sys.argv[1]))
    script = Script()
    script.note("spl_radical, spl_blocks: worked algebras over 2 and 5 elements")
    worked(script)
    script.note("spl_radical, spl_blocks: algebras and lift rings over residue fields, by bench/algebra_cases.py from the "
                f"number {sys.argv[1]}")
    for turn, (p, modulus, degrees) in enumerate(FIELDS):
        f = Field(p, modulus)
        script.over(p, modulus)
        for degree in range(1, degrees + 1):
            place = next(m for m in ([draw.randrange(f.q) for _ in range(degree)] + [1] for _ in range(10000))
                         if is_irreducible(f, m))
            k = Residues(f, place)
            small = [made for i, made in enumerate(algebras(k, draw)) if i % 3 == (turn + degree) % 3]
            for made in [*small, *large_algebras(k)]:
                on_algebra(script, k, place, made, draw)
            on_lifts(script, k, place, draw)
    script.say("residue 1 lift_ring.lift 0 1", "none")
    with open(sys.argv[2], "w") as out:
        out.write("\n".join(script.lines) + "\n")
    with open(sys.argv[3], "w") as out:
        out.write("\n".join(script.answers) + "\n")


if __name__ == "__main__":
    main()
