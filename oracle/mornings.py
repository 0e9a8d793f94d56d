#!/usr/bin/env python3
"""Works a morning out from the definitions alone, and prints what the program `morning` is to print.

usage: oracle/mornings.py < MORNING

A sheet is a plain list, a sum is the total of entry times power over its places, an element is a polynomial over the layer below. Nothing is worked out as the
program does it: no sum is carried along, and an inverse is a solution of linear equations. A morning with `point random` is not worked out.
"""
import re
import sys

MOST = 512


class Base:
    """The residues modulo p."""

    def __init__(self, p):
        self.p, self.size, self.limit = p, 1, p

    def constant(self, n):
        return [n % self.p]

    def add(self, a, b):
        return [(a[0] + b[0]) % self.p]

    def mul(self, a, b):
        return [a[0] * b[0] % self.p]


class Extension:
    """Polynomials over a layer below in a root of X^d = low, where low is a polynomial of a smaller degree."""

    def __init__(self, below, d, low):
        self.below, self.d, self.low = below, d, low
        self.p, self.size, self.limit = below.p, below.size * d, below.limit

    def constant(self, n):
        return self.below.constant(n) + [0] * (self.size - self.below.size)

    def parts(self, a):
        k = self.below.size
        return [a[i:i + k] for i in range(0, len(a), k)]

    def add(self, a, b):
        return [(x + y) % self.p for x, y in zip(a, b)]

    def mul(self, a, b):
        below = self.below
        product = [below.constant(0) for _ in range(2 * self.d)]
        for i, x in enumerate(self.parts(a)):
            for j, y in enumerate(self.parts(b)):
                product[i + j] = below.add(product[i + j], below.mul(x, y))
        for k in range(2 * self.d - 1, self.d - 1, -1):
            for j, c in self.low.items():
                product[k - self.d + j] = below.add(product[k - self.d + j], below.mul(c, product[k]))
        return [n for part in product[:self.d] for n in part]


def has_inverse(s, a):
    """Whether the map x -> a * x of vectors modulo p is onto: its matrix has full rank."""
    unit = lambda i: [int(i == j) for j in range(s.size)]
    rows = [s.mul(a, unit(i)) for i in range(s.size)]
    rank = 0
    for column in range(s.size):
        pivot = next((r for r in range(rank, s.size) if rows[r][column]), None)
        if pivot is None:
            return False
        rows[rank], rows[pivot] = rows[pivot], rows[rank]
        inverse = pow(rows[rank][column], -1, s.p)
        for r in range(rank + 1, s.size):
            factor = rows[r][column] * inverse % s.p
            rows[r] = [(x - factor * y) % s.p for x, y in zip(rows[r], rows[rank])]
        rank += 1
    return True


def binomial(below, d, w):
    return Extension(below, d, {0: w})


def trinomial(below):
    # X^5 = 1 - X^2
    return Extension(below, 5, {0: below.constant(1), 2: below.constant(-1)})


KOALA, MERSENNE, BABY, ELEVEN = Base(2130706433), Base(2147483647), Base(2013265921), Base(11)
COMPLEX = binomial(MERSENNE, 2, [MERSENNE.p - 1])
SYSTEMS = {
    1: binomial(KOALA, 4, [3]),
    2: binomial(KOALA, 8, [3]),
    3: trinomial(KOALA),
    4: COMPLEX,
    5: binomial(COMPLEX, 3, [0, 5]),
    6: binomial(BABY, 5, [31]),
    7: trinomial(Base(2)),
    8: binomial(ELEVEN, 5, [2]),
    9: binomial(ELEVEN, 2, [1]),
}


def shown(a):
    return "[" + ",".join(map(str, a)) + "]"


def total(s, x, sheet):
    """The total of entry(L_i) * x^i."""
    result, power = s.constant(0), s.constant(1)
    for entry in sheet:
        result = s.add(result, s.mul(s.constant(entry), power))
        power = s.mul(power, x)
    return result


def answer(s, x, sheet, call):
    """What the plain sheet answers to a call, which changes it."""
    words = call.split(" ")
    if words[0] == "look":
        return f"count {len(sheet)}, sum {shown(total(s, x, sheet))}"
    if words[0] == "drop":
        return f"entry {sheet.pop(0)}" if sheet else "refusal 7 (empty sheet)"
    entry = int(words[-1])
    if entry >= s.limit:
        return "refusal 3 (over the limit)"
    if words[0] == "append":
        if len(sheet) == MOST:
            return "refusal 6 (full sheet)"
        sheet.append(entry)
        return f"count {len(sheet)}"
    place = int(words[1])
    if place >= len(sheet):
        return "refusal 8 (no such place)"
    old, sheet[place] = sheet[place], entry
    return f"entry {old}"


def normal(call):
    """A call as it is printed: its numbers without leading zeros."""
    return " ".join(str(int(w)) if w.isdigit() else w for w in call.split(" "))


def device(s, x, calls):
    sheet, lines = [], []
    for call in calls:
        lines.append(f"  {normal(call)}: {answer(s, x, sheet, call)}")
    figure = (len(sheet), total(s, x, sheet))
    lines.append(f"  figure: point {shown(x)}, count {figure[0]}, sum {shown(figure[1])}")
    return lines, figure


# ---- the lines of a morning

NUMBER = r"[0-9]{1,20}"
CALL = rf"append [^ ,]*|drop|replace [^ ,]* [^ ,]*|look"


def is_number(text):
    return re.fullmatch(NUMBER, text) is not None and int(text) < 2 ** 64


def calls_of(text):
    """The calls of a device; a string is a reason."""
    if text == "":
        return []
    calls = []
    for part in text.split(","):
        if re.fullmatch(" (" + CALL + ")", part) is None:
            return "a call is none of append E, drop, replace I E and look"
        if not all(is_number(w) for w in part.split(" ")[2:]):
            return "a call's number is not a number of at most 64 bits"
        calls.append(part[1:])
    return calls


def bad_point(system, numbers):
    s = SYSTEMS[system]
    if len(numbers) != s.size:
        return "the point gets refusal 2 (cut list)"
    if any(n >= s.limit for n in numbers):
        return "the point gets refusal 3 (over the limit)"
    if not has_inverse(s, numbers):
        return "the point gets refusal 4 (no inverse)"
    return None


def take(morning, line):
    """Takes a line into the morning, or answers why it is bad."""
    word, _, rest = line.partition(" ")
    space = line[len(word):]
    if word == "system":
        if re.fullmatch(" [1-9]", space) is None:
            return "strange system: not a number from 1 to 9"
        item, key, later = int(rest), "system", ("point", "dock", "handsets")
    elif word == "point":
        if re.fullmatch(r" (random|\[\]|\[[0-9,]*\])", space) is None:
            return "the point is neither random nor a list of numbers in brackets"
        texts = [] if rest == "[]" else rest[1:-1].split(",")
        if rest != "random" and not all(map(is_number, texts)):
            return "the point is neither random nor a list of numbers in brackets"
        item, key, later = "random" if rest == "random" else list(map(int, texts)), "point", ("dock", "handsets")
    elif word == "dock":
        item, key, later = calls_of(space), "dock", ("handsets",)
        if isinstance(item, str):
            return item
    elif word == "handset":
        found = re.fullmatch(r" ([1-6])( .*)?", space)
        if found is None:
            return "the handset is not a number from 1 to 6"
        calls = calls_of(found[2] or "")
        if isinstance(calls, str):
            return calls
        item, key, later = (int(found[1]), calls), "handsets", ()
    else:
        return "no such item"
    if key == "handsets":
        if any(number == item[0] for number, _ in morning[key]):
            return "the item stands twice"
        morning[key].append(item)
        return None
    if morning[key] is not None:
        return "the item stands twice"
    if any(morning[k] not in (None, []) or (k == "dock" and morning[k] == []) for k in later):
        return "the item is out of order"
    if key == "point" and item != "random" and morning["system"] is not None:
        reason = bad_point(morning["system"], item)
        if reason is not None:
            return reason
    morning[key] = item
    return None


def main():
    morning = {"system": None, "point": None, "dock": None, "handsets": []}
    bad = 0
    for number, line in enumerate(sys.stdin.read().splitlines(), 1):
        if line.strip(" ") == "" or line.startswith("#"):
            continue
        reason = take(morning, line)
        if reason is not None:
            print(f"line {number}: {reason}")
            bad += 1
    if bad:
        return 1
    for key, lacking in (("system", None), ("point", None), ("dock", None), ("handsets", [])):
        if morning[key] == lacking:
            print(f"the end: there is no {key.rstrip('s')}" if key == "handsets" else f"the end: there is no {key}")
            return 1
    s, x = SYSTEMS[morning["system"]], morning["point"]
    print(f"system {morning['system']}")
    print("dock")
    lines, figure = device(s, x, morning["dock"])
    print(*lines, sep="\n")
    alike = 0
    for number, calls in morning["handsets"]:
        print(f"handset {number}")
        lines, own = device(s, x, calls)
        print(*lines, sep="\n")
        print("  alike" if own == figure else "  not alike")
        alike += own == figure
    print(f"{alike} of {len(morning['handsets'])} handsets alike")
    return 0


sys.exit(main())
