"""Tries the examples of LANGUAGE.md: a session over examples/small.vdb for each block `query`. Where a block `refused`
stands behind it, the program has to refuse the query so; else it may only say that the statement isn't built yet.
"""
import os
import re
import subprocess
import sys
import tempfile

TOP, PROGRAM = sys.argv[1:]
sys.path.insert(0, f"{TOP}/examples")
import answers  # noqa: E402

BLOCK = re.compile(r"^```query\n((?:(?!```).*\n)*)```$(?:\n```refused\n(.*)\n```$)?", re.M)


def refusal(query):
    """The code, the place and the text of the first error that the program answers, or None."""
    with tempfile.TemporaryDirectory() as folder:
        name = os.path.join(folder, "stream.bin")
        with open(name, "wb") as out:
            out.write(answers.stream([query]))
        words = [PROGRAM, "replay", f"{TOP}/examples/small.vdb", name]
        ran = subprocess.run(words, stdin=subprocess.DEVNULL, capture_output=True, timeout=60)
    assert ran.returncode == 0, ran.stderr
    for kind, body in answers.messages(ran.stdout):
        if kind == b"E":
            fields = {field[:1]: field[1:] for field in body.decode().split("\0") if field}
            return " ".join(fields[code] for code in "CPM" if code in fields)
    return None


def main():
    with open(f"{TOP}/docs/LANGUAGE.md") as file:
        page = file.read()
    passed = failed = 0
    for match in BLOCK.finditer(page):
        got = refusal(match[1].rstrip("\n"))
        wanted = [match[2]] if match[2] else [None, "0A000 not built yet"]
        if got in wanted:
            passed += 1
        else:
            failed += 1
            line = page.count("\n", 0, match.start()) + 1
            print(f"LANGUAGE.md, line {line}: wanted {wanted[0]}, got {got}", file=sys.stderr)
    if passed + failed != page.count("\n```query\n"):
        failed += 1
        print("LANGUAGE.md: a block `query` isn't tried", file=sys.stderr)
    print(f"language: {passed} passed, {failed} failed", file=sys.stderr)
    sys.exit(1 if failed else 0)


main()
