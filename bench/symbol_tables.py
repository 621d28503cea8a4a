#!/usr/bin/env python3
"""Writes the table of a symbol algebra over F_q(x): i^n = a, j^n = b, i·j = w·j·i, on the basis i^r·j^s.

    symbol_tables.py P M N A B     P, M as in the line `field P M`, N the degree (it divides q - 1), A and B
                                   polynomials as lists `c_0,c_1,..` (or fractions u/v) other than 0

At a finite place that divides neither a nor b the algebra is unramified. It is ramified at the zeros of a, a without
multiple factors, where b is no n-th power in the residue field; the quotient of the order by its radical is then a
matrix algebra over the field that the n-th root of b generates. (Reiner, Maximal Orders, sections 14 and 30.)
"""
import sys


class Field:
    def __init__(self, p, modulus):
        self.p, self.m, self.d = p, modulus, len(modulus)
        self.q = p ** self.d

    def digits(self, a):
        return [a // self.p ** k % self.p for k in range(self.d)]

    def number(self, ds):
        return sum(c * self.p ** k for k, c in enumerate(ds))

    def mul(self, a, b):
        x, y = self.digits(a), self.digits(b)
        z = [0] * (2 * self.d)
        for i, u in enumerate(x):
            for j, v in enumerate(y):
                z[i + j] = (z[i + j] + u * v) % self.p
        for k in range(2 * self.d - 1, self.d - 1, -1):
            c, z[k] = z[k], 0
            for t in range(self.d):
                z[k - self.d + t] = (z[k - self.d + t] - c * self.m[t]) % self.p
        return self.number(z[:self.d])

    def add(self, a, b):
        return self.number([(u + v) % self.p for u, v in zip(self.digits(a), self.digits(b))])

    def power(self, a, n):
        r = 1
        for _ in range(n):
            r = self.mul(r, a)
        return r

    def root_of_one(self, n):
        for w in range(1, self.q):
            if self.power(w, n) == 1 and all(self.power(w, k) != 1 for k in range(1, n)):
                return w
        raise SystemExit(f'no element of order {n}')


def poly_mul(f, a, b):
    r = [0] * (len(a) + len(b) - 1)
    for i, u in enumerate(a):
        for j, v in enumerate(b):
            r[i + j] = f.add(r[i + j], f.mul(u, v))
    return r


def parse(word):
    return [[int(c) for c in part.split(',')] for part in word.split('/')]


def fraction_mul(f, x, y):
    return [poly_mul(f, u, v) for u, v in zip(x, y)]


def text(x):
    u = ','.join(map(str, x[0]))
    return u if x[1] == [1] else u + '/' + ','.join(map(str, x[1]))


def table(p, modulus, n, a, b):
    f = Field(p, modulus)
    w = f.root_of_one(n)
    a, b = [(y + [[1]])[:2] for y in (parse(a), parse(b))]
    lines = ['spl-table 1', f'field {p} {",".join(map(str, modulus))}', f'degree {n}']
    for r in range(n):
        for s in range(n):
            for u in range(n):
                for v in range(n):
                    # (i^r j^s)(i^u j^v) = w^(-s u) i^(r + u) j^(s + v)
                    c = [[f.power(w, (-s * u) % n)], [1]]
                    if r + u >= n:
                        c = fraction_mul(f, c, a)
                    if s + v >= n:
                        c = fraction_mul(f, c, b)
                    k = (r + u) % n * n + (s + v) % n
                    lines.append(f'{r * n + s + 1} {u * n + v + 1} {k + 1} {text(c)}')
    return '\n'.join(lines + ['end', ''])


if __name__ == '__main__':
    p, m, n, a, b = sys.argv[1:]
    sys.stdout.write(table(int(p), [int(c) for c in m.split(',')], int(n), a, b))
