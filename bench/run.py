#!/usr/bin/env python3
"""The figures of docs/NUMBERS.md: bench/run.py, after `rt run` in crates/asking_program. Wants python3 and Debian's sqlite3; takes about two minutes on an idle machine.
A pass is what one more repetition of the query within a request adds, so that reading and loading are not in it. Times are processor seconds."""
import os
import subprocess
import sys
import tempfile
import time

HERE = os.path.dirname(os.path.abspath(__file__))
PROGRAM = os.path.join(HERE, "..", "crates", "asking_program", "out", "asking_program")


def made(*words):
    path = os.path.join(ROOM, "-".join(map(str, words)))
    with open(path, "wb") as out:
        subprocess.run([sys.executable, os.path.join(HERE, "requests.py"), *map(str, words)], stdout=out, check=True)
    return path


# processor seconds of a run, the least of three, and the most memory it had
def ran(command, times=3, **more):
    best = None
    for _ in range(times):
        with open(os.devnull, "wb") as null:
            child = subprocess.Popen(command, stdout=null, **more)
            _, status, used = os.wait4(child.pid, 0)
        if status != 0:
            raise SystemExit(f"{command} failed")
        taken = used.ru_utime + used.ru_stime
        best = taken if best is None else min(best, taken)
    return best, used.ru_maxrss


def served(path, times=3):
    return ran([PROGRAM, path], times)[0]


def a_pass(shape, rows, repeats):
    return (served(made(shape, rows, 1 + repeats)) - served(made(shape, rows, 1))) / repeats


def sqlite(setup, query, repeats):
    def timed(n):
        path = os.path.join(ROOM, "script.sql")
        with open(path, "w") as out:
            out.write(setup + (query + "\n") * n)
        times = []
        for _ in range(3):
            with open(path) as text:
                times.append(ran(["sqlite3", ":memory:"], 1, stdin=text)[0])
        return min(times)

    return (timed(1 + repeats) - timed(1)) / repeats


ROWS = 1000000
FILL = (
    "create table t(a integer, b integer);\n"
    f"insert into t with recursive c(x) as (select 0 union all select x+1 from c where x<{ROWS - 1}) select abs(random())%1000, abs(random())%1000000 from c;\n"
)


def main():
    print("a million records of two numbers, milliseconds a pass (so many nanoseconds a record)")
    print(f"  sum of a field of each: {1000 * a_pass('sum', ROWS, 10):.1f}; SQLite: {1000 * sqlite(FILL, 'select sum(b) from t;', 10):.1f}")
    print(f"  kept by a field that equals a number: {1000 * a_pass('keep', ROWS, 10):.1f}; SQLite: {1000 * sqlite(FILL, 'select count(*) from t where a=5;', 10):.1f}")
    inserts = os.path.join(ROOM, "inserts.sql")
    with open(inserts, "w") as out:
        out.write("create table t(a integer, b integer);\nbegin;\n")
        for n in range(ROWS):
            out.write(f"insert into t values({n % 1000},{n * 7919 % 1000000});\n")
        out.write("commit;\n")
    with open(inserts) as text:
        insert_each = ran(["sqlite3", ":memory:"], 1, stdin=text)[0]
    filled = os.path.join(ROOM, "filled.sql")
    with open(filled, "w") as out:
        out.write(FILL)
    with open(filled) as text:
        insert_all = ran(["sqlite3", ":memory:"], 1, stdin=text)[0]
    print(f"  read, checked and loaded, the whole run: {1000 * served(made('count', ROWS, 1)):.0f}; SQLite, an insert each: {1000 * insert_each:.0f}, one insert of a query: {1000 * insert_all:.0f}")
    print("nanoseconds a record, sum of a field of each, and the whole run")
    for rows, repeats in [(10000, 200), (100000, 50), (1000000, 5), (4000000, 2)]:
        print(f"  {rows} records: {1e9 * a_pass('sum', rows, repeats) / rows:.0f}, {1e9 * served(made('sum', rows, 1)) / rows:.0f}")
    print("milliseconds to answer a request of about 8,000 parts, types and all")
    empty = served(made("lots", 1))
    for shape in ["chain", "doubled", "doubled-equal", "doubled-default", "doubled-either", "fields"]:
        print(f"  {shape}: {1000 * (served(made(shape, 20)) - empty) / 20:.1f}")
    few = ran([PROGRAM, made("lots", 1000)], 1)
    path = made("lots", 1000000)
    start = time.time()
    many = ran([PROGRAM, path], 1)
    print(f"a million small requests: {1000000 / (time.time() - start):.0f} a second; most memory {many[1]} KB, with a thousand of them {few[1]} KB")


with tempfile.TemporaryDirectory() as ROOM:
    main()
