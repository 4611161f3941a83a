#!/usr/bin/env python3
"""Makes the string, and works out by itself what the program must write: python3 expected.py writes stdin and stdout.

A string is a list of bits. Brackets are matched with a stack of open positions; a closing that meets an
empty stack takes nothing."""
import random

ROOM = 512 * 8


def nested(pairs):
    """Brackets that nest at random."""
    bits, depth = [], 0
    while len(bits) < 2 * pairs:
        left = 2 * pairs - len(bits)
        bit = int(depth == left or (depth > 0 and random.random() < 0.45))
        bits.append(bit)
        depth += 1 - 2 * bit
    return bits


def string():
    """Shallow, deep and mixed brackets, then bits in no order, then zeros."""
    random.seed(1)
    bits = [0, 1] * 32 + [0] * 200 + [1] * 200 + nested(200) + [0] * 20 + nested(400)
    bits += [random.randrange(2) for _ in range(1900)]
    return bits + [0] * (ROOM - len(bits))


def stacks(bits):
    """The innermost open position just before each position, and the closing of each opening."""
    inner, closing, opened = [], {}, []
    for i, bit in enumerate(bits):
        inner.append(opened[-1] + 1 if opened else 0)
        if bit == 0:
            opened.append(i)
        elif opened:
            closing[opened.pop()] = i
    return inner, closing


def balanced(bits):
    depth = 0
    for bit in bits:
        depth += 1 - 2 * bit
        if depth < 0:
            return 0
    return int(depth == 0)


def scan(bits, n, p, waiting):
    """How many brackets are not passed, and how many wait."""
    for q in range(p, n):
        if bits[q] and not waiting:
            return [n - q, 0]
        waiting += 1 - 2 * bits[q]
    return [0, waiting]


def row(bits, inner, closing, n):
    v, i = n % 3, n // 2
    places = [p for p in range(n) if bits[p] == v]
    if bits[i] == 0:
        partner = min(closing.get(i, n), n)
    else:
        partner = max(inner[i] - 1, 0)
    position = places[n // 4] if n // 4 < len(places) else n
    zero = int(not any(bits[n:]))
    run = bits[n:n + min(n % 30, 24)]
    counts = [len(places), position, zero]
    counts += [sum(bit << k for k, bit in enumerate(run)), run.count(v), sum(bits[n // 8 * 8 + k] << k for k in range(8))]
    counts += [-(-n // 8), min(n, 1000)]
    brackets = [bits[i], partner, inner[i], balanced(bits[:n])] + scan(bits, n, i, min(n // 8, i)) + scan(bits, i + n % 24, i, i)
    return counts + brackets + [int(n > 8)]


bits = string()
with open("stdin", "wb") as out:
    out.write(bytes(sum(bits[8 * k + r] << r for r in range(8)) for k in range(512)))
bits[2000], bits[1000] = 1, 0
bits += [0] * 160
inner, closing = stacks(bits)
n = 0
with open("stdout", "w") as out:
    while n <= 4200:
        out.write("".join("%d " % x for x in row(bits, inner, closing, n)) + "\n")
        n += 1 + n // 32
