"""Tries the examples of CATALOGUE.md: each block `catalogue` that is followed by a block `output`, and each row of a
table that names a file of examples/ and what `check` says of it.

In a block `catalogue shortened`, {1..3:x#,} stands for x1,x2,x3, and \\xE9 for the byte with this number.
"""
import re
import subprocess
import sys
import tempfile

BLOCK = re.compile(rb"^```catalogue( shortened)?\n(.*?)^```\n```output\n(.*?\n)```$", re.M | re.S)
FILE = re.compile(rb"^\| `(examples/\S+)` \|.*\| `([^`]*)` \|$", re.M)


def repeated(match):
    first, last, text = int(match[1]), int(match[2]), match[3]
    return b"".join(text.replace(b"#", b"%d" % number) for number in range(first, last + 1))


def written_out(text):
    text = re.sub(rb"\{(\d+)\.\.(\d+):([^}]*)\}", repeated, text)
    return re.sub(rb"\\x([0-9A-F]{2})", lambda match: bytes([int(match[1], 16)]), text)


def wanted(line):
    """The status, the standard output and the standard error of a check that says this."""
    return (0, line, b"") if line.startswith(b"ok: ") else (2, b"", line)


def checked(program, path):
    ran = subprocess.run([program, "check", path], stdin=subprocess.DEVNULL, capture_output=True, timeout=60)
    return ran.returncode, ran.stdout, ran.stderr


def examples(top, page):
    """Where each example stands, its text, and what the program has to say."""
    for match in BLOCK.finditer(page):
        line = page.count(b"\n", 0, match.start()) + 1
        yield f"line {line}", written_out(match[2]) if match[1] else match[2], match[3]
    for match in FILE.finditer(page):
        name = match[1].decode()
        with open(f"{top}/{name}", "rb") as file:
            yield name, file.read(), match[2] + b"\n"


def main():
    top, program = sys.argv[1:]
    with open(f"{top}/docs/CATALOGUE.md", "rb") as file:
        page = file.read()
    passed = failed = 0
    for where, text, said in examples(top, page):
        with tempfile.NamedTemporaryFile(suffix=".vdb") as file:
            file.write(text)
            file.flush()
            got = checked(program, file.name)
        if got == wanted(said):
            passed += 1
        else:
            failed += 1
            print(f"CATALOGUE.md, {where}: wanted {wanted(said)}, got {got}", file=sys.stderr)
    blocks = page.count(b"\n```catalogue")
    if passed + failed != blocks + len(FILE.findall(page)):
        failed += 1
        print("CATALOGUE.md: a block `catalogue` has no output behind it", file=sys.stderr)
    print(f"examples: {passed} passed, {failed} failed", file=sys.stderr)
    sys.exit(1 if failed else 0)


main()
