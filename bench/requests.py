#!/usr/bin/env python3
"""Writes a file of requests to standard output: requests.py SHAPE [NUMBER [NUMBER]]. docs/FORMAT.md has the bytes."""
import random
import struct
import sys


def four(n):
    return struct.pack("<I", n)


def eight(n):
    return struct.pack("<Q", n)


def name(s):
    return four(len(s)) + s.encode()


NUM, TRUTH = b"\1", b"\2"
IT = b"\1"
EQUAL, PLUS, JOIN_RECORDS = b"\4", b"\7", b"\n"
NOT, COUNT, SUM = b"\x0c", b"\x0f", b"\x10"


def record(names, parts, tag):
    return tag + four(len(names)) + b"".join(map(name, names)) + b"".join(parts)


def bag(things):
    return b"\5" + four(len(things)) + b"".join(things)


def number(n):
    return b"\1" + eight(n)


def just(type_, datum):
    return b"\3" + type_ + datum


def dot(n, q):
    return b"\x12" + name(n) + q


def as_field(n, q):
    return b"\x13" + name(n) + q


def then(p, q):
    return b"\x1e" + p + q


def table(n):
    return b"\0" + four(n)


def ask(types, tables, query, work, lent):
    body = b"\0" + four(len(types)) + b"".join(types) + four(len(tables)) + b"".join(tables) + query + eight(work)
    return four(len(body)) + four(lent) + body


# A table of so many records of two numbers, and a query repeated so many times within one request.
def table_request(rows, query, times):
    random.seed(7)
    things = [record("ab", [number(random.randrange(1000)), number(random.randrange(10**6))], b"\6") for _ in range(rows)]
    whole = query
    for _ in range(times - 1):
        whole = PLUS + query + whole
    lent = min(13 * rows + 7 * rows * times + 1000, 2**32 - 1)
    return ask([b"\4" + record("ab", [NUM, NUM], b"\5")], [bag(things)], whole, 2**63, lent)


SUM_OF_EACH = SUM + b"\x16" + dot("b", IT) + table(0)
KEPT = COUNT + b"\x17" + EQUAL + dot("a", IT) + just(NUM, number(5)) + table(0)
COUNTED = COUNT + table(0)

DOUBLE = JOIN_RECORDS + as_field("a", IT) + as_field("b", IT)


def doubled(times, q):
    for _ in range(times):
        q = then(DOUBLE, q)
    return q


def thousand_fields():
    names = ["%03x" % n for n in range(1000)]
    query = table(0)
    for _ in range(250):
        query = JOIN_RECORDS + table(0) + query
    datum = record(names, [number(n) for n in range(1000)], b"\6")
    return ask([record(names, [NUM] * 1000, b"\5")], [datum], dot("3e7", query), 1000, 2000000)


def lots():
    lot = lambda n, of: record(["lot", "of"], [number(n), b"\4" + name(of)], b"\6")
    kilo = lambda at, n: record(["at", "kilo"], [number(at), number(n)], b"\6")
    types = [b"\4" + record(["lot", "of"], [NUM, b"\3"], b"\5"), b"\4" + record(["at", "kilo"], [NUM, NUM], b"\5")]
    tables = [bag([lot(1, "rye"), lot(2, "oats"), lot(3, "rye")]), bag([kilo(2, 70), kilo(1, 40), kilo(1, 5)])]
    return ask(types, tables, SUM + b"\x16" + dot("kilo", IT) + table(1), 1000, 10000)


FIVE = just(NUM, number(5))
SHAPES = {
    "chain": lambda: ask([], [], NOT * 4000 + just(TRUTH, b"\3"), 10000, 100000),
    "doubled": lambda: ask([], [], then(FIVE, doubled(800, IT)), 10000, 100000),
    "doubled-equal": lambda: ask([], [], then(EQUAL + IT + IT, doubled(800, IT)), 10000, 100000),
    "doubled-default": lambda: ask([], [], then(FIVE, b"\x1a" + b"\x0d" + doubled(400, IT) + b"\x0d" + doubled(400, IT)), 10000, 100000),
    "doubled-either": lambda: ask([], [], then(FIVE, then(b"\x1d" + doubled(400, IT) + doubled(400, IT), b"\x1b" + b"\0" + IT)), 10000, 100000),
    "fields": thousand_fields,
    "lots": lots,
}

if __name__ == "__main__":
    shape, *numbers = sys.argv[1:]
    numbers = [int(n) for n in numbers]
    if shape in ("sum", "keep", "count"):
        query = {"sum": SUM_OF_EACH, "keep": KEPT, "count": COUNTED}[shape]
        sys.stdout.buffer.write(table_request(numbers[0], query, numbers[1]))
    else:
        one = SHAPES[shape]()
        for _ in range(numbers[0]):
            sys.stdout.buffer.write(one)
