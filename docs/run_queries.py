"""Tries the queries of QUERIES.md, ERRORS.md and the pages of examples/. A block `query FILE` is asked over that file of
examples/, or over small.vdb, and the blocks behind it are what the program has to say: `answer` as it is, `variant FEATURES`
as one variant reads it, `refused` the code and the text.
"""
import glob
import os
import re
import subprocess
import sys
import tempfile

TOP, PROGRAM = sys.argv[1:]
sys.path.insert(0, f"{TOP}/examples")
import answers  # noqa: E402

BLOCK = re.compile(r"^```(query|answer|variant|refused)(.*)\n((?:(?!```).*\n)*)```$", re.M)
PAGES = [f"{TOP}/docs/QUERIES.md", f"{TOP}/docs/ERRORS.md", *sorted(glob.glob(f"{TOP}/examples/*.md"))]


def examples(page):
    """The queries of each file: the text, and what is wanted with its line in the page."""
    files, wanted = {}, []
    for match in BLOCK.finditer(page):
        line = page.count("\n", 0, match.start()) + 1
        if match[1] == "query":
            wanted = []
            files.setdefault(match[2].strip() or "small.vdb", []).append((match[3], wanted))
        else:
            wanted.append((line, match[1], match[2].strip(), match[3].splitlines()))
    return files


def replayed(name, query):
    with tempfile.TemporaryDirectory() as folder:
        stream = os.path.join(folder, "stream.bin")
        with open(stream, "wb") as out:
            out.write(answers.stream([query]))
        words = [PROGRAM, "replay", f"{TOP}/examples/{name}", stream]
        ran = subprocess.run(words, stdin=subprocess.DEVNULL, capture_output=True, timeout=300)
    assert ran.returncode == 0, ran.stderr
    return answers.read_reply(ran.stdout)[1][0]


def shown(kind, features, answer):
    if kind == "refused":
        return [answer.error.removeprefix("ERROR ").replace(":", "", 1)] if answer.error else answers.answer_lines(answer)
    if kind == "answer" or answer.error:
        return answers.answer_lines(answer)
    return answers.variant_lines(answer, set(features.split(",")) - {"none"})


def tried(path):
    """How many blocks of a page are as they should be, and how many aren't."""
    with open(path, encoding="utf-8") as file:
        page = file.read()
    passed = failed = 0
    for name, asked in examples(page).items():
        for query, blocks in asked:
            answer = replayed(name, query)
            for line, kind, features, wanted in blocks:
                got = shown(kind, features, answer)
                if got == wanted:
                    passed += 1
                else:
                    failed += 1
                    print(f"{os.path.basename(path)}, line {line}: wanted {wanted}, got {got}", file=sys.stderr)
    if passed + failed != len(re.findall(r"^```(?:answer|variant|refused)", page, re.M)):
        failed += 1
        print(f"{os.path.basename(path)}: a block isn't tried", file=sys.stderr)
    return passed, failed


def main():
    counts = [tried(path) for path in PAGES]
    passed, failed = (sum(each) for each in zip(*counts))
    print(f"queries: {passed} passed, {failed} failed", file=sys.stderr)
    sys.exit(1 if failed else 0)


main()
