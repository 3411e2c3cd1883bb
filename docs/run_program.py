"""Tries how the built program ends: its exit status, its standard output and the line on its standard error, which
README.md says under "Run it". The lines of catalogues are those of CATALOGUE.md.
"""
import os
import re
import subprocess
import sys
import tempfile

TOP, PROGRAM = sys.argv[1:]
REPLAY = "crates/vdb_server/data/catalogue.vdb", "crates/vdb_server/data/stream.bin"
LIMIT = 268_435_456


def text_of(name):
    with open(os.path.join(TOP, name), "rb") as file:
        return file.read()


def statuses():
    """The line of each fault, and its status, as README.md has them."""
    sentence = re.search(rb"Its exit statuses are ([^.]*)", text_of("README.md"))[1]
    return {line: int(number) for number, line in re.findall(rb"(\d) `([a-z ]+)`", sentence)}


def said_of(text):
    """What CATALOGUE.md says of a catalogue that stands there."""
    page = text_of("docs/CATALOGUE.md")
    return re.search(rb"^```catalogue\n" + re.escape(text) + rb"```\n```output\n(.*\n)```$", page, re.M)[1]


def ran(words, ending, output=subprocess.PIPE):
    """What the program did with these words. The ending is a redirection of the shell, as `>&-`."""
    command = ["sh", "-c", 'exec "$0" "$@" ' + ending, PROGRAM, *words]
    pipes = {"stdin": subprocess.DEVNULL, "stdout": output, "stderr": subprocess.PIPE}
    done = subprocess.run(command, cwd=TOP, timeout=120, check=False, **pipes)
    return done.returncode, done.stdout or b"", done.stderr


def catalogues(folder):
    """Files of catalogues that are refused, and the lines that say why."""
    for number, text in enumerate([b"features A B;\n", b"features A;\nmodel A and not A;\n"]):
        name = os.path.join(folder, f"refused{number}.vdb")
        with open(name, "wb") as file:
            file.write(text)
        yield name, said_of(text)


def cases(folder):
    """Words, a redirection, and what is wanted: a status, an output and a line."""
    status = statuses()
    catalogue, stream = REPLAY
    missing, long = os.path.join(folder, "missing"), os.path.join(folder, "long")
    with open(long, "wb") as file:
        file.truncate(LIMIT + 1)

    def fault(line):
        return status[line], b"", line + b"\n"

    checked = 0, re.search(rb"`examples/small.vdb` .*`(ok: .*)`", text_of("docs/CATALOGUE.md"))[1] + b"\n", b""
    replayed = 0, text_of("crates/vdb_server/stdout"), b""
    yield ["check", "examples/small.vdb"], "", checked
    yield ["replay", *REPLAY], "", replayed
    # No command of the program's, and a word that isn't UTF-8.
    for words in [], ["check"], ["replay", catalogue], ["check", catalogue, stream], ["--help"]:
        yield words, "", fault(b"usage")
    for words in [b"\xff"], [b"check", b"\xff"], [b"replay", catalogue.encode(), b"\xff"]:
        yield words, "", fault(b"usage")
    # A file that isn't there, or can't be read, or is too long.
    for name in missing, folder:
        for words in ["check", name], ["replay", name, stream], ["replay", catalogue, name]:
            yield words, "", fault(b"read fault")
    for words in ["check", long], ["replay", catalogue, long]:
        yield words, "", fault(b"file too long")
    # A catalogue that is refused, whether or not there is a stream.
    for name, line in catalogues(folder):
        for words in ["check", name], ["replay", name, stream], ["replay", name, missing], ["replay", name, long]:
            yield words, "", (2, b"", line)
    # A standard output that is closed or full, and one that isn't needed.
    for ending in ">&-", ">/dev/full":
        for words in ["check", "examples/small.vdb"], ["replay", *REPLAY]:
            yield words, ending, fault(b"write fault")
        yield ["check", missing], ending, fault(b"read fault")
    # A standard error that is closed changes no status.
    for words, _, (number, output, _) in [([], "", fault(b"usage")), (["check", "examples/small.vdb"], "", checked)]:
        yield words, "2>&-", (number, output, b"")


def main():
    passed = failed = 0
    with tempfile.TemporaryDirectory() as folder:
        for words, ending, wanted in cases(folder):
            got = ran(words, ending)
            if got == wanted:
                passed += 1
            else:
                failed += 1
                print(f"README.md, {words} {ending}: wanted {wanted}, got {got}", file=sys.stderr)
    print(f"program: {passed} ended as they should, {failed} did not", file=sys.stderr)
    sys.exit(1 if failed else 0)


main()
