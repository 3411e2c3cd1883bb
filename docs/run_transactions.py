"""Tries the examples of TRANSACTIONS.md. A block `session FILE` has a Query a line, sent by one session over that file of
examples/, or over small.vdb; the block `replies` behind it has what each was told.
"""
import os
import re
import subprocess
import sys
import tempfile

TOP, PROGRAM = sys.argv[1:]
sys.path.insert(0, f"{TOP}/examples")
import answers  # noqa: E402

BLOCK = re.compile(r"^```session(.*)\n((?:.*\n)*?)```\n```replies\n((?:.*\n)*?)```$", re.M)


def replayed(name, queries):
    with tempfile.TemporaryDirectory() as folder:
        stream = os.path.join(folder, "stream.bin")
        with open(stream, "wb") as out:
            out.write(answers.stream(queries))
        words = [PROGRAM, "replay", f"{TOP}/examples/{name}", stream]
        ran = subprocess.run(words, stdin=subprocess.DEVNULL, capture_output=True, timeout=300)
    assert ran.returncode == 0, ran.stderr
    return ran.stdout


def told(kind, body):
    """What a message tells, or None for a description or a row."""
    if kind == b"S":
        return " ".join(body.decode().split("\0")[:2])
    if kind == b"C":
        return body[:-1].decode()
    if kind == b"E":
        return answers.read_error(body).removeprefix("ERROR ").replace(":", "", 1)
    if kind == b"I":
        return "empty"
    return None


def lines_of(reply):
    """A line for each ReadyForQuery behind the start-up's."""
    lines, line = [], []
    for kind, body in answers.messages(reply):
        if kind == b"Z":
            lines.append(", ".join([*line, body.decode()]))
            line = []
        elif told(kind, body) is not None:
            line.append(told(kind, body))
    return lines[1:]


def main():
    with open(f"{TOP}/docs/TRANSACTIONS.md") as file:
        page = file.read()
    passed = failed = 0
    for match in BLOCK.finditer(page):
        line = page.count("\n", 0, match.start()) + 1
        got = lines_of(replayed(match[1].strip() or "small.vdb", match[2].splitlines()))
        if got == match[3].splitlines():
            passed += 1
        else:
            failed += 1
            print(f"TRANSACTIONS.md, line {line}: wanted {match[3].splitlines()}, got {got}", file=sys.stderr)
    if passed + failed != len(re.findall(r"^```session", page, re.M)):
        failed += 1
        print("TRANSACTIONS.md: a session isn't tried", file=sys.stderr)
    print(f"transactions: {passed} passed, {failed} failed", file=sys.stderr)
    sys.exit(1 if failed else 0)


main()
