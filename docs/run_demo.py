"""Tries the demonstration's script: what it says of a refused catalogue beside the program's line. Its sentences have to
stand in CATALOGUE.md.
"""
import os
import subprocess
import sys
import tempfile

TOP, PROGRAM = sys.argv[1:]
sys.path.insert(0, f"{TOP}/examples")
import catalogue_help  # noqa: E402

TABLE = "features A, B;\ntable t (a int8, b text);\n"
CASES = [
    ("\ufefffeatures A;\n", "mark"),
    ("table t (a int8);\n", "features"),
    ("features A\ntable t (a int8);\n", "semicolon"),
    ("features A;\ntable t (a int8)\nrow t (a 1);\n", "semicolon"),
    ("features A;\ntable t (a int8", "end"),
    ("features A;\ntable t (a int8)\n", "end"),
    (TABLE + "row t (a 1, b 'it's');\n", "open text"),
    ("features A B;\n", "comma"),
    ("features A;\ntable t (a int8 b text);\n", "comma"),
    (TABLE + "row t (a 1 b 'x');\n", "comma"),
    ("features A, B,;\n", "last comma"),
    ("features A;\ntable t (a int8,);\n", "last comma"),
    ("features A;\ntable t (a integer);\n", "kind"),
    ("features A;\ntable t (a int8, from text);\n", "reserved"),
    ("features or;\n", "reserved"),
    ("features A;\ntable t (größe int8);\n", "letters"),
    ("features A;\ntable order-line (a int8);\n", "letters"),
    ("features " + "a" * 64 + ";\n", "long"),
    (TABLE + 'row t (a 1, b "x");\n', "quotes"),
    (TABLE + "row t (a = 1, b 'x');\n", "equals"),
    (TABLE + "row t (a 1.5, b 'x');\n", "decimal"),
    (TABLE + "row t (a null, b 'x');\n", "null"),
    (TABLE + "row t (a 9223372036854775808, b 'x');\n", "integer"),
    ("features A;\nmodel " + "(" * 65 + "A" + ")" * 65 + ";\n", "deep"),
    (TABLE + "row t (a 1, b 2);\n", None),
    (TABLE + "row u (a 1);\n", None),
]


def refused(text):
    with tempfile.NamedTemporaryFile(suffix=".vdb") as file:
        file.write(text.encode())
        file.flush()
        ran = subprocess.run([PROGRAM, "check", file.name], stdin=subprocess.DEVNULL, capture_output=True, timeout=60)
    assert ran.returncode == 2, text
    return ran.stderr.decode().rstrip("\n")


def main():
    failed = 0
    with open(f"{TOP}/docs/CATALOGUE.md", encoding="utf-8") as file:
        page = file.read()
    for sentence in catalogue_help.SENTENCES.values():
        if sentence not in page:
            failed += 1
            print(f"demo: CATALOGUE.md lacks: {sentence}", file=sys.stderr)
    for text, why in CASES:
        line = refused(text)
        said = catalogue_help.explained(line, text)
        wanted = [catalogue_help.SENTENCES[why]] if why else []
        if said[2:] != wanted:
            failed += 1
            print(f"demo: {text!r}, {line}: wanted {wanted}, got {said}", file=sys.stderr)
    text = "features A, B, C;\nmodel (A or B) and not A and (C or A) and not B;\n"
    said = catalogue_help.explained(refused(text), text)
    if said[1:] != ["  A or B", "  not A", "  not B"]:
        failed += 1
        print(f"demo: of a model without a variant it says {said}", file=sys.stderr)
    print(f"demo: {len(CASES) + 1} catalogues, {failed} explained otherwise than they should", file=sys.stderr)
    sys.exit(1 if failed else 0)


if os.path.basename(sys.argv[0]) == "run_demo.py":
    main()
