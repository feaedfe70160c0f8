#!/usr/bin/env python3
"""Writes a layout and four checks as lines for `gate_bench checks`: layout.py wires N | array N | comb N | row N | equal N | stairs N"""
import random
import sys


def wires(n):
    random.seed(1)
    side = int(250 * n**0.5)
    for _ in range(n):
        x, y = random.randrange(side), random.randrange(side)
        length, width = random.randrange(200, 2000), random.randrange(50, 70)
        w, h = (length, width) if random.random() < 0.5 else (width, length)
        yield 'a', x, y, x + w, y + h
    for _ in range(n // 2):
        x, y = random.randrange(side), random.randrange(side)
        yield 'b', x, y, x + 40, y + 40


def array(n):
    for i in range(n):
        for j in range(n):
            x, y = 300 * i, 300 * j
            yield 'a', x, y, x + 100, y + 250
            yield 'a', x, y + 100, x + 250, y + 150
            yield 'a', x + 200, y, x + 250, y + 90
            yield 'b', x + 20, y + 20, x + 60, y + 60


def comb(n):
    yield 'a', 0, 0, 100 * n, 50
    for i in range(n):
        yield 'a', 100 * i, 50, 100 * i + 50, 100 + i


def row(n):
    for i in range(n):
        yield 'a', 100 * i, 0, 100 * i + 60, 100


def equal(n):
    for _ in range(n):
        yield 'a', 0, 0, 100, 100


def stairs(n):
    for i in range(n):
        yield 'a', 0, 0, 10 * (i + 1), 10 * (n - i)


kind, count = sys.argv[1], int(sys.argv[2])
for shape in globals()[kind](count):
    print(*shape)
print('width 56\nspace 51\nseparation 9\nenclosing 10')
