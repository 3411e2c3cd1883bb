#!/usr/bin/env python3
"""Times the built program: checks of two catalogues.

The first has 256 tables of 64 columns and 200,000 opening rows, about 19 MB.

The model lets a variant have one of ten features at most. A table has one column in all variants, and the other 63 go
with one feature each, so a row under a feature leaves out 57 of them: some 146,000 pairs of conditions.

The second has one table under a condition of 40,000 links and 4,000 rows in it whose conditions all differ: each says of
12 features which hold, and the row has values in the columns that go with those, so six columns a row are asked about.

Build it first: (cd crates/vdb_server && rt run -- check ../../examples/small.vdb)
Usage: bench/check.py [PROGRAM] [ROWS]
"""
import os
import resource
import subprocess
import sys
import tempfile
import time

program = sys.argv[1] if len(sys.argv) > 1 else "crates/vdb_server/out/vdb_server"
rows = int(sys.argv[2]) if len(sys.argv) > 2 else 200_000
features = 10
tables = 256
columns = 64


def catalogue(path):
    names = [f"f{i}" for i in range(features)]
    pairs = [f"not ({one} and {other})" for i, one in enumerate(names) for other in names[:i]]
    with open(path, "w") as out:
        out.write(f"features {', '.join(names)};\nmodel {' and '.join(pairs)};\n")
        for table in range(tables):
            listed = ["c0 int8"] + [f"c{c} int8 when {names[c % features]}" for c in range(1, columns)]
            out.write(f"table t{table} ({', '.join(listed)});\n")
        for row in range(rows):
            feature = row // tables % features
            cells = ["c0 1"] + [f"c{c} {row}" for c in range(1, columns) if c % features == feature]
            out.write(f"row t{row % tables} ({', '.join(cells)}) when {names[feature]};\n")


def unlike(path, rows=4_000, links=40_000, features=12):
    names = [f"f{i}" for i in range(features)]
    with open(path, "w") as out:
        out.write(f"features {', '.join(names)};\n")
        listed = ["c int8"] + [f"c{i} int8 when {name}" for i, name in enumerate(names)]
        chain = " or ".join(["f0", "not f0"] + [names[i % features] for i in range(links - 1)])
        out.write(f"table t ({', '.join(listed)}) when {chain};\n")
        for row in range(rows):
            held = [row >> i & 1 for i in range(features)]
            cells = ["c 1"] + [f"c{i} {row}" for i in range(features) if held[i]]
            cond = " and ".join(name if held[i] else f"not {name}" for i, name in enumerate(names))
            out.write(f"row t ({', '.join(cells)}) when {cond};\n")


def timed(name, wanted):
    """Five checks: their median and the worst."""
    times = []
    for _ in range(5):
        begin = time.perf_counter()
        said = subprocess.run([program, "check", name], check=True, stdout=subprocess.PIPE).stdout
        times.append(time.perf_counter() - begin)
    assert said == wanted.encode(), said
    times.sort()
    return f"median {times[2]:.2f} s, worst {times[-1]:.2f} s"


with tempfile.TemporaryDirectory() as folder:
    name = os.path.join(folder, "catalogue.vdb")
    catalogue(name)
    size = os.path.getsize(name)
    took = timed(name, f"ok: {features} features, {tables} tables, {rows} rows\n")
    memory = resource.getrusage(resource.RUSAGE_CHILDREN).ru_maxrss
    print(f"{rows} rows, {size} bytes: {took},")
    print(f"{memory} KiB at most, {memory * 1024 / size:.1f} times the file")
    unlike(name)
    took = timed(name, "ok: 12 features, 1 tables, 4000 rows\n")
    print(f"4000 unlike rows under a condition of 40,000 links: {took}")
