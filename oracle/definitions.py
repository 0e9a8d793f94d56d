#!/usr/bin/env python3
"""Works the calls of answers.txt out by the definitions, apart from the Rust and from the proved code.

A product is the schoolbook product, reduced; a power is a product of factors; Frobenius is the power q, q being
the number of elements of the layer below; an inverse is checked by its product.
"""
import json
import pathlib
import sys


class Residues:
    def __init__(self, modulus):
        self.modulus = self.elements = modulus
        self.size, self.zero, self.one = 1, 0, 1

    def add(self, a, b):
        return (a + b) % self.modulus

    def neg(self, a):
        return -a % self.modulus

    def mul(self, a, b):
        return a * b % self.modulus

    def element(self, numbers):
        return numbers[0]

    def numbers(self, a):
        return [a]


class Extension:
    """Polynomials below X^degree; X^degree is the sum of factor * X^power over `reduced`."""

    def __init__(self, below, degree, reduced):
        self.below, self.degree, self.reduced = below, degree, reduced
        self.size = degree * below.size
        self.elements = below.elements**degree
        self.zero = (below.zero,) * degree
        self.one = (below.one,) + (below.zero,) * (degree - 1)

    def add(self, a, b):
        return tuple(map(self.below.add, a, b))

    def neg(self, a):
        return tuple(map(self.below.neg, a))

    def mul(self, a, b):
        below, degree = self.below, self.degree
        totals = [below.zero] * (2 * degree - 1)
        for i, x in enumerate(a):
            for j, y in enumerate(b):
                totals[i + j] = below.add(totals[i + j], below.mul(x, y))
        for k in range(2 * degree - 2, degree - 1, -1):
            for power, factor in self.reduced:
                place = k - degree + power
                totals[place] = below.add(totals[place], below.mul(totals[k], factor))
        return tuple(totals[:degree])

    def power(self, a, exponent):
        product = self.one
        for digit in bin(exponent)[2:]:
            product = self.mul(product, product)
            if digit == "1":
                product = self.mul(product, a)
        return product

    def element(self, numbers):
        size = self.below.size
        return tuple(self.below.element(numbers[i * size : (i + 1) * size]) for i in range(self.degree))

    def numbers(self, a):
        return [number for x in a for number in self.below.numbers(x)]


def binomial(below, degree, w):
    return Extension(below, degree, [(0, w)])


def trinomial(below):
    return Extension(below, 5, [(0, below.one), (2, below.neg(below.one))])


KOALA_BEAR, ELEVEN = Residues(2130706433), Residues(11)
COMPLEX = binomial(Residues(2147483647), 2, 2147483646)
SYSTEMS = {
    1: binomial(KOALA_BEAR, 4, 3),
    2: binomial(KOALA_BEAR, 8, 3),
    3: trinomial(KOALA_BEAR),
    4: COMPLEX,
    5: binomial(COMPLEX, 3, (0, 5)),
    6: binomial(Residues(2013265921), 5, 31),
    7: trinomial(Residues(2)),
    8: binomial(ELEVEN, 5, 2),
    9: binomial(ELEVEN, 2, 1),
}


def frobenius(system, a, count):
    for _ in range(count % system.degree):
        a = system.power(a, system.below.elements)
    return a


def right(line):
    call, answer = line.split(" = ")
    _, number, name, *operands = call.split()
    system = SYSTEMS[int(number)]
    operands = [json.loads(operand) for operand in operands]
    a = system.element(operands[0])
    if answer == "refusal 4 (no inverse)":
        return name == "inverse" and a == system.zero
    given = system.element(json.loads(answer))
    match name:
        case "inverse":
            return system.mul(a, given) == system.one
        case "conjugate_inverse":
            return given == system.zero if a == system.zero else system.mul(a, given) == system.one
        case "negative":
            expected = system.neg(a)
        case "square":
            expected = system.mul(a, a)
        case "power":
            expected = system.power(a, operands[1])
        case "frobenius":
            expected = frobenius(system, a, operands[1])
        case "scale":
            factor = system.below.element(operands[1])
            expected = tuple(system.below.mul(x, factor) for x in a)
        case "multiply":
            expected = system.mul(a, system.element(operands[1]))
        case "sum":
            expected = system.add(a, system.element(operands[1]))
        case "difference":
            expected = system.add(a, system.neg(system.element(operands[1])))
        case _:
            return False
    return given == expected


def main():
    lines = pathlib.Path(__file__).with_name("answers.txt").read_text().splitlines()
    wrong = [line for line in lines if not right(line)]
    print("\n".join(wrong + [f"{len(lines)} lines, {len(wrong)} wrong"]))
    sys.exit(bool(wrong))


main()
