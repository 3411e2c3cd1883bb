#!/usr/bin/env python3
"""Times the built program: a replay of one bare table of 100,000 rows under 20 conditions, about 10 MB.

Three of its six columns have a condition. Once all rows are different, and once each list of values is given twice,
under two conditions, so that equal rows become one.

Build it first: (cd crates/vdb_server && rt run -- replay data/catalogue.vdb data/stream.bin > /dev/null)
Usage: bench/replay.py [PROGRAM] [ROWS]
"""
import os
import sys
import tempfile
import time

sys.dont_write_bytecode = True
sys.path.insert(0, os.path.join(os.path.dirname(os.path.abspath(__file__)), "..", "examples"))
import answers  # noqa: E402

program = sys.argv[1] if len(sys.argv) > 1 else "crates/vdb_server/out/vdb_server"
rows = int(sys.argv[2]) if len(sys.argv) > 2 else 100_000
head = """features A, B, C, D;
model (A or B) and not (C and D);
table item (id int8, name text, active bool, size int8 when A, note text when B and not C, sold bool when C or D);
"""
conditions = [
    "A", "B", "C", "D", "not A", "not B", "not C", "not D", "A and C", "A and not C", "B and D", "B and not D", "A or C",
    "B or not C", "C or D", "not (C or D)", "A and B", "A and B and not D", "not (A and B)", "true",
]  # fmt: skip
runs = 5


def catalogue(path, doubled):
    """Rows in the order of a walk through all numbers, with each number's row twice where they are doubled."""
    numbers = rows // 2 if doubled else rows
    with open(path, "w") as out:
        out.write(head)
        for i in range(rows):
            n = i % numbers * 7919 % numbers
            cells = f"id {n}, name 'item {n % 1000}', active true, size {n % 97}, note 'note {n % 89}', sold false"
            out.write(f"row item ({cells}) when {conditions[(i + i // numbers) % len(conditions)]};\n")


def run(names, reply):
    """The seconds that a run took, and the most kilobytes that it had."""
    with open(reply, "wb") as out:
        begin = time.perf_counter()
        child = os.posix_spawn(
            program, [program, "replay", *names], os.environ, file_actions=[(os.POSIX_SPAWN_DUP2, out.fileno(), 1)]
        )
        _, status, used = os.wait4(child, 0)
        seconds = time.perf_counter() - begin
    assert status == 0, status
    return seconds, used.ru_maxrss


def measure(folder, doubled):
    names = os.path.join(folder, "catalogue.vdb"), os.path.join(folder, "stream.bin")
    reply = os.path.join(folder, "reply.bin")
    catalogue(names[0], doubled)
    with open(names[1], "wb") as out:
        out.write(answers.stream(["item;"]))
    ran = [run(names, reply) for _ in range(runs)]
    with open(reply, "rb") as file:
        _, (answer,) = answers.read_reply(file.read())
    times = sorted(seconds for seconds, _ in ran)
    memory = max(kilobytes for _, kilobytes in ran)
    size = os.path.getsize(names[0])
    print(f"{rows} rows, {size} bytes, {answer.tag}: median {times[runs // 2]:.2f} s, worst {times[-1]:.2f} s,")
    print(f"{memory} KiB at most, {memory * 1024 / size:.1f} times the file")


with tempfile.TemporaryDirectory() as folder:
    for doubled in False, True:
        measure(folder, doubled)
