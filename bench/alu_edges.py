#!/usr/bin/env python3
"""Prints the cases of crates/rv_alu/src/tests.rt: each operation and each condition at the edges of its operands.
The values are computed here on Python's unbounded integers, straight from the words of the Unprivileged ISA."""

M64 = 1 << 64
NAMES = {0: "0", 1: "1", 2: "2", M64 - 1: "ONES", 1 << 63: "LEAST", (1 << 63) - 1: "GREATEST",
         1 << 31: "BIT_31", (1 << 31) - 1: "GREATEST_32", M64 - (1 << 31): "LEAST_32", (1 << 32) - 1: "ONES_32"}
ONE, ONES, LEAST, GREATEST = 1, M64 - 1, 1 << 63, (1 << 63) - 1
BIT_31, GREATEST_32, LEAST_32, ONES_32 = 1 << 31, (1 << 31) - 1, M64 - (1 << 31), (1 << 32) - 1


def signed(n, bits=64):
    n %= 1 << bits
    return n - (1 << bits) if n >> (bits - 1) else n


def toward_zero(a, b):
    q = abs(a) // abs(b)
    return q if (a < 0) == (b < 0) else -q


def divided(a, b):
    return -1 if b == 0 else toward_zero(a, b)


def rest(a, b):
    return a if b == 0 else a - b * toward_zero(a, b)


def narrow(f, sign=True):
    """The operation on the low 32 bits, its result sign-extended."""
    def g(a, b):
        low = (lambda n: signed(n, 32)) if sign else (lambda n: n % (1 << 32))
        return signed(f(low(a), low(b)), 32)
    return g


OPS = {
    "Add": lambda a, b: a + b,
    "Sub": lambda a, b: a - b,
    "Sll": lambda a, b: a << b % 64,
    "Slt": lambda a, b: int(signed(a) < signed(b)),
    "Sltu": lambda a, b: int(a < b),
    "Xor": lambda a, b: a ^ b,
    "Srl": lambda a, b: a >> b % 64,
    "Sra": lambda a, b: signed(a) >> b % 64,
    "Or": lambda a, b: a | b,
    "And": lambda a, b: a & b,
    "Addw": narrow(lambda a, b: a + b),
    "Subw": narrow(lambda a, b: a - b),
    "Sllw": narrow(lambda a, b: a << b % 32),
    "Srlw": narrow(lambda a, b: a >> b % 32, sign=False),
    "Sraw": narrow(lambda a, b: a >> b % 32),
    "Mul": lambda a, b: a * b,
    "Mulh": lambda a, b: signed(a) * signed(b) >> 64,
    "Mulhsu": lambda a, b: signed(a) * b >> 64,
    "Mulhu": lambda a, b: a * b >> 64,
    "Div": lambda a, b: divided(signed(a), signed(b)),
    "Divu": lambda a, b: divided(a, b),
    "Rem": lambda a, b: rest(signed(a), signed(b)),
    "Remu": lambda a, b: rest(a, b),
    "Mulw": narrow(lambda a, b: a * b),
    "Divw": narrow(divided),
    "Divuw": narrow(divided, sign=False),
    "Remw": narrow(rest),
    "Remuw": narrow(rest, sign=False),
}
CONDS = {
    "Eq": lambda a, b: a == b,
    "Ne": lambda a, b: a != b,
    "Lt": lambda a, b: signed(a) < signed(b),
    "Ge": lambda a, b: signed(a) >= signed(b),
    "Ltu": lambda a, b: a < b,
    "Geu": lambda a, b: a >= b,
}

SUMS = [(0, 0), (ONES, 1), (GREATEST, 1), (LEAST, ONES), (LEAST, LEAST), (GREATEST_32, 1), (ONES_32, 1), (0, LEAST_32)]
BITS = [(ONES, LEAST), (GREATEST, ONES_32), (LEAST_32, GREATEST_32), (0, ONES)]
ORDERS = [(0, 0), (ONES, 0), (0, ONES), (LEAST, GREATEST), (GREATEST, LEAST), (LEAST_32, GREATEST_32), (ONES, ONES)]
SHIFTS = [(a, b) for a in (1, LEAST, LEAST_32) for b in (0, 31, 32, 63, 64)]
NARROW_SHIFTS = [(a, b) for a in (1, BIT_31, ONES_32) for b in (0, 31, 32, 63, 64)]
PRODUCTS = [(0, ONES), (ONES, ONES), (LEAST, LEAST), (LEAST, ONES), (GREATEST, GREATEST), (ONES, 2), (ONES_32, ONES_32), (BIT_31, 2)]
QUOTIENTS = [(LEAST, ONES), (LEAST, 0), (0, 0), (ONES, 2), (GREATEST, ONES), (LEAST, GREATEST), (LEAST_32, ONES), (BIT_31, ONES_32), (1, ONES)]
NARROW_QUOTIENTS = [(BIT_31, ONES_32), (LEAST_32, ONES), (BIT_31, 0), (1, 1 << 32), (ONES, 2), (GREATEST_32, ONES), (ONES_32, GREATEST_32), (LEAST, 1)]
REASONS = {
    ("Div", LEAST, ONES): "the one quotient that doesn't fit", ("Rem", LEAST, ONES): "and its remainder",
    ("Divw", BIT_31, ONES_32): "the same of 32 bits", ("Remw", BIT_31, ONES_32): "and its remainder",
    ("Div", LEAST, 0): "by zero: all ones", ("Rem", LEAST, 0): "by zero: the dividend",
    ("Divuw", 1, 1 << 32): "by zero in the low 32 bits", ("Divw", 1, 1 << 32): "by zero in the low 32 bits",
    ("Div", ONES, 2): "-1 / 2 rounds toward zero", ("Rem", ONES, 2): "the sign is the dividend's",
    ("Mulhsu", ONES, ONES): "-1 times the greatest unsigned", ("Mulhu", ONES, ONES): "both unsigned",
    ("Mulh", ONES, ONES): "-1 times -1", ("Sll", 1, 64): "64 counts as 0", ("Sllw", 1, 32): "32 counts as 0",
    ("Sraw", BIT_31, 31): "bit 31 is the sign", ("Srlw", BIT_31, 0): "a result with bit 31 is sign-extended",
    ("Slt", ONES, 0): "-1 is below 0", ("Sltu", ONES, 0): "the greatest unsigned isn't",
    ("Remuw", BIT_31, 0): "by zero: the low 32 bits, sign-extended",
    ("Ltu", ONES, 0): "unsigned", ("Lt", ONES, 0): "signed",
}


def name(n):
    return NAMES.get(n, "%d" % n if n < 1 << 16 else "0x%X" % n)


def result(n):
    n %= M64
    return name(n) if n in NAMES or n < 1 << 16 else "0x" + "_".join(("%016X" % n)[k:k + 4] for k in range(0, 16, 4))


def cases(title, ops, pairs, kind="AluOp", table=OPS):
    print("//", title)
    for op in ops:
        for a, b in pairs:
            want = table[op](a, b)
            text = str(want).lower() if kind == "Cond" else result(want)
            reason = REASONS.get((op, a, b))
            print("(%s::%s, %s, %s, %s),%s" % (kind, op, name(a), name(b), text, " // " + reason if reason else ""))


if __name__ == "__main__":
    cases("sums", ["Add", "Sub", "Addw", "Subw"], SUMS)
    cases("bits", ["Xor", "Or", "And"], BITS)
    cases("orders", ["Slt", "Sltu"], ORDERS)
    cases("shifts", ["Sll", "Srl", "Sra"], SHIFTS)
    cases("narrow", ["Sllw", "Srlw", "Sraw"], NARROW_SHIFTS)
    cases("products", ["Mul", "Mulh", "Mulhsu", "Mulhu", "Mulw"], PRODUCTS)
    cases("quotients", ["Div", "Divu", "Rem", "Remu"], QUOTIENTS)
    cases("narrowq", ["Divw", "Divuw", "Remw", "Remuw"], NARROW_QUOTIENTS)
    cases("branches", list(CONDS), [(0, 0), (ONES, 0), (0, ONES), (LEAST, GREATEST), (GREATEST, LEAST)], "Cond", CONDS)
