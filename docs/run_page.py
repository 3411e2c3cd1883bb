"""Opens the page of an answer in a browser without a window, once for each of some variants, and compares the table that
it shows with the one that the variant reads off the answer. It skips where there is no Chromium.
"""
import html.parser
import os
import shutil
import subprocess
import sys
import tempfile

TOP, PROGRAM = sys.argv[1:]
sys.path.insert(0, f"{TOP}/examples")
import answers  # noqa: E402
import page  # noqa: E402

CASES = [
    ("small.vdb", "emp", ["A", "B", "A,B"]),
    ("email.vdb", "trail", ["", "address_book,signature", "forwarding"]),
    ("email.vdb", "select m.subject, f.title from message as m join folder as f on m.folder = f.id", ["filters", "address_book,encryption,filters", ""]),
]


class Table(html.parser.HTMLParser):
    """The cells of a page's table, without what stands small in them."""

    def __init__(self):
        super().__init__()
        self.rows, self.inside, self.small = [], False, False

    def handle_starttag(self, tag, attributes):
        if tag == "tr":
            self.rows.append([])
        if tag in ("th", "td"):
            self.rows[-1].append("")
            self.inside = True
        self.small |= tag == "small"

    def handle_endtag(self, tag):
        self.inside &= tag not in ("th", "td")
        self.small &= tag != "small"

    def handle_data(self, text):
        if self.inside and not self.small:
            self.rows[-1][-1] += text


def replayed(name, query):
    with tempfile.TemporaryDirectory() as folder:
        stream = os.path.join(folder, "stream.bin")
        with open(stream, "wb") as out:
            out.write(answers.stream([f"{query};"]))
        ran = subprocess.run([PROGRAM, "replay", f"{TOP}/examples/{name}", stream], stdin=subprocess.DEVNULL, capture_output=True, timeout=60)
    parameters, answered = answers.read_reply(ran.stdout)
    assert not answered[0].error, answered[0].error
    return dict(parameters), answered[0]


def shown(browser, folder, path, variant):
    """The heads and the rows that the page shows of a variant, without its conditions."""
    words = [browser, "--headless", "--no-sandbox", "--disable-gpu", f"--user-data-dir={folder}/profile"]
    ran = subprocess.run([*words, "--dump-dom", f"file://{path}#{variant}"], stdin=subprocess.DEVNULL, capture_output=True, timeout=120)
    table = Table()
    table.feed(ran.stdout.decode())
    return [row[:-1] for row in table.rows]


def wanted(answer, variant):
    table = answers.configured(answer, set(variant.split(",")))
    if table is None:
        return [[]]
    names, _, rows = table
    return [names] + [list(row) for row in rows]


def main():
    browser = shutil.which("chromium") or shutil.which("chromium-browser")
    if not browser:
        print("pages: skipped, there is no Chromium", file=sys.stderr)
        return
    passed = failed = 0
    with tempfile.TemporaryDirectory() as folder:
        for name, query, variants in CASES:
            parameters, answer = replayed(name, query)
            path = os.path.join(folder, "page.html")
            page.write(path, name, query, parameters, answer)
            for variant in variants:
                got, want = shown(browser, folder, path, variant), wanted(answer, variant)
                if got[:1] == want[:1] and sorted(got[1:]) == sorted(want[1:]):
                    passed += 1
                else:
                    failed += 1
                    print(f"pages: {query} in {{{variant}}}: wanted {want}, got {got}", file=sys.stderr)
    print(f"pages: {passed} passed, {failed} failed", file=sys.stderr)
    sys.exit(1 if failed else 0)


main()
