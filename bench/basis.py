#!/usr/bin/env python3
"""Writes the basis text of the ideal of D points in three variables, DRL, over residues modulo p or over bytes (code 0).

    basis.py CODE D [SEED]

The points have different first coordinates, so that the basis is in shape position for x_1; the first of them is the origin, which keeps
48 points within 1,024 terms. The reduced basis is found by the method of Buchberger and Moeller: monomials in increasing order, each either a new member of the
staircase or, with its coefficients over the members before, a polynomial of the basis.
"""
import random
import sys

VARIABLES = 3


def bytes_product(a, b):
    r = 0
    while b:
        if b & 1:
            r ^= a
        a <<= 1
        if a & 256:
            a ^= 283
        b >>= 1
    return r


class Field:
    def __init__(self, code):
        self.size = code or 256
        if code:
            self.add = lambda a, b: (a + b) % code
            self.neg = lambda a: -a % code
            self.mul = lambda a, b: a * b % code
            self.inverse = lambda a: pow(a, code - 2, code)
        else:
            table = [[bytes_product(a, b) for b in range(256)] for a in range(256)]
            self.add = lambda a, b: a ^ b
            self.neg = lambda a: a
            self.mul = lambda a, b: table[a][b]
            self.inverse = lambda a: table[a].index(1)


def key(m):
    """Increasing in DRL, x_1 being the smallest variable: first the degree, then the smaller exponent of the lowest variable is greater."""
    return (sum(m), tuple(-e for e in m))


def values(field, m, points):
    out = []
    for p in points:
        v = 1
        for e, x in zip(m, p):
            for _ in range(e):
                v = field.mul(v, x)
        out.append(v)
    return out


def basis(field, points):
    """The polynomials of the reduced basis, each a list of (coefficient, monomial), leading term first."""
    rows, stairs, leads, found = [], [], [], []
    todo = {(0,) * VARIABLES}
    while todo:
        m = min(todo, key=key)
        todo.remove(m)
        if any(all(a <= b for a, b in zip(l, m)) for l in leads):
            continue
        vector, coordinates = values(field, m, points), [0] * len(stairs) + [1]
        for pivot, row, coords in rows:
            c = field.neg(vector[pivot])
            if c:
                vector = [field.add(v, field.mul(c, w)) for v, w in zip(vector, row)]
                for i, w in enumerate(coords):
                    coordinates[i] = field.add(coordinates[i], field.mul(c, w))
        place = next((i for i, v in enumerate(vector) if v), None)
        if place is None:
            terms = [(1, m)] + [(c, s) for c, s in zip(coordinates, stairs) if c]
            found.append(sorted(terms, key=lambda t: key(t[1]), reverse=True))
            leads.append(m)
            continue
        q = field.inverse(vector[place])
        rows.append((place, [field.mul(q, v) for v in vector], [field.mul(q, c) for c in coordinates]))
        stairs.append(m)
        for k in range(VARIABLES):
            todo.add(tuple(e + (i == k) for i, e in enumerate(m)))
    return found


def line(words):
    return "".join("%11d" % w for w in words) + "\n"


def main():
    code, d = int(sys.argv[1]), int(sys.argv[2])
    rng = random.Random(int(sys.argv[3]) if len(sys.argv) > 3 else d)
    field = Field(code)
    firsts = rng.sample(range(1, field.size), d - 1)
    points = [(0,) * VARIABLES] + [(x,) + tuple(rng.randrange(field.size) for _ in range(VARIABLES - 1)) for x in firsts]
    polynomials = basis(field, points)
    out = line([code, 1, VARIABLES, len(polynomials)])
    for p in polynomials:
        out += line([len(p)]) + "".join(line([c, *m]) for c, m in p)
    sys.stdout.write(out)


main()
