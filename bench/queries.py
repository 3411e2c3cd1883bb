#!/usr/bin/env python3
"""Times the built program's answers to queries: two tables of 10,000 rows of six columns, three of them conditional, under
20 conditions, and two of 1,000 rows. A query's time is the difference between a stream that asks it many times more and one
that asks it once, divided by how many: a hundred, or ten for the slow ones. All is measured with 4 features, and with 10, whose variants are 64 times as many.

Build it first: (cd crates/vdb_server && rt run -- replay data/catalogue.vdb data/stream.bin > /dev/null)
Usage: bench/queries.py [PROGRAM]
"""
import os
import subprocess
import sys
import tempfile
import time

sys.dont_write_bytecode = True
sys.path.insert(0, os.path.join(os.path.dirname(os.path.abspath(__file__)), "..", "examples"))
import answers  # noqa: E402

PROGRAM = sys.argv[1] if len(sys.argv) > 1 else "crates/vdb_server/out/vdb_server"
CONDITIONS = [
    "A", "B", "C", "D", "not A", "not B", "not C", "not D", "A and C", "A and not C", "B and D", "B and not D", "A or C",
    "B or not C", "C or D", "not (C or D)", "A and B", "A and B and not D", "not (A and B)", "true",
]  # fmt: skip
COLUMNS = "(id int8, name text, active bool, size int8 when A, note text when B and not C, sold bool when C or D)"
QUERIES = {
    "one row of 10,000": "select * from item where id = 777",
    "half of 10,000": "select * from item where id < 5000",
    "three columns of half": "select id, name, size from item where id < 5000",
    "union of two tables of 10,000": "item union other",
    "except of two tables of 1,000": "small except short",
    "join of 1,000 and 1,000 on a key": "select s.id, s.name, t.note from small as s join short as t on s.id = t.id",
    "union of 100 selects over one row each": " union ".join(f"select id, name from small where id = {i}" for i in range(100)),
}
ROWS, RUNS = 10_000, 3
SLOW = "union of two tables of 10,000", "except of two tables of 1,000", "join of 1,000 and 1,000 on a key"


def catalogue(path, features):
    names = "ABCDEFGHIJ"[:features]
    with open(path, "w") as out:
        out.write(f"features {', '.join(names)};\n")
        for table in "item", "other", "small", "short":
            out.write(f"table {table} {COLUMNS};\n")
        for table, rows, shift in ("item", ROWS, 0), ("other", ROWS, ROWS // 2), ("small", 1000, 0), ("short", 1000, 0):
            for i in range(rows):
                n = i * 7919 % rows + shift
                cells = f"id {n}, name 'item {n % 1000}', active true, size {n % 97}, note 'note {n % 89}', sold false"
                out.write(f"row {table} ({cells}) when {CONDITIONS[i % len(CONDITIONS)]};\n")


def seconds(folder, name, queries):
    stream = os.path.join(folder, "stream.bin")
    with open(stream, "wb") as out:
        out.write(answers.stream(queries))
    best = None
    for _ in range(RUNS):
        begin = time.perf_counter()
        ran = subprocess.run([PROGRAM, "replay", name, stream], stdin=subprocess.DEVNULL, capture_output=True)
        took = time.perf_counter() - begin
        assert ran.returncode == 0, ran.stderr
        best = took if best is None else min(best, took)
    return best, answers.read_reply(ran.stdout)[1][0]


def main():
    with tempfile.TemporaryDirectory() as folder:
        for features in 4, 10:
            name = os.path.join(folder, f"catalogue{features}.vdb")
            catalogue(name, features)
            for title, query in QUERIES.items():
                repeats = 10 if title in SLOW else 100
                once, answer = seconds(folder, name, [query + ";"])
                often, _ = seconds(folder, name, [query + ";"] * (repeats + 1))
                print(f"{features} features, {title}: {(often - once) / repeats * 1000:.2f} ms, {answer.error or answer.tag}", flush=True)


if __name__ == "__main__":
    main()
