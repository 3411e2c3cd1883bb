"""Tries the examples of ANSWERS.md. A block `catalogue` holds for the blocks behind it: `answer TABLE` is what the
program says of a table, `variant TABLE FEATURES` is one variant's table, and `parameters` is what the start-up tells.
"""
import os
import re
import subprocess
import sys
import tempfile

TOP, PROGRAM = sys.argv[1:]
sys.path.insert(0, f"{TOP}/examples")
import answers  # noqa: E402

BLOCK = re.compile(r"^```(catalogue|answer|variant|parameters)(.*)\n((?:.*\n)*?)```$", re.M)


def examples(page):
    """Each catalogue with the examples behind it: their lines, their words and their texts."""
    catalogues = []
    for match in BLOCK.finditer(page):
        if match[1] == "catalogue":
            catalogues.append((match[3], []))
        else:
            line = page.count("\n", 0, match.start()) + 1
            catalogues[-1][1].append((line, (match[1] + match[2]).split(), match[3].splitlines()))
    return catalogues


def replayed(catalogue, tables):
    with tempfile.TemporaryDirectory() as folder:
        names = os.path.join(folder, "catalogue.vdb"), os.path.join(folder, "stream.bin")
        with open(names[0], "w") as out:
            out.write(catalogue)
        with open(names[1], "wb") as out:
            out.write(answers.stream(f"{table};" for table in tables))
        ran = subprocess.run([PROGRAM, "replay", *names], stdin=subprocess.DEVNULL, capture_output=True, timeout=300)
    assert ran.returncode == 0, ran.stderr
    return answers.read_reply(ran.stdout)


def shown(words, parameters, answered):
    if words[0] == "parameters":
        return answers.parameter_lines(parameters)
    answer = answered[words[1]]
    if words[0] == "answer":
        return answers.answer_lines(answer)
    return answers.variant_lines(answer, set(words[2].split(",")) - {"none"})


def main():
    with open(f"{TOP}/docs/ANSWERS.md") as file:
        page = file.read()
    passed = failed = 0
    for catalogue, tried in examples(page):
        tables = sorted({words[1] for _, words, _ in tried if len(words) > 1})
        parameters, answered = replayed(catalogue, tables)
        answered = dict(zip(tables, answered))
        for line, words, wanted in tried:
            got = shown(words, parameters, answered)
            if got == wanted:
                passed += 1
            else:
                failed += 1
                print(f"ANSWERS.md, line {line}: wanted {wanted}, got {got}", file=sys.stderr)
    if passed + failed != len(re.findall(r"^```\w", page, re.M)) - len(examples(page)):
        failed += 1
        print("ANSWERS.md: a block is none of those that are tried", file=sys.stderr)
    print(f"answers: {passed} passed, {failed} failed", file=sys.stderr)
    sys.exit(1 if failed else 0)


main()
