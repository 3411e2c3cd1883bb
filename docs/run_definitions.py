"""Finds the words of our specifications that a public contract cites and docs/DEFINITIONS.md doesn't list."""
import glob
import os
import re
import sys

TOP = sys.argv[1]
USE = re.compile(r"ghost use Rattle\.(\w+)\.specs\.([\w.]+)\.\{([^}]*)\};|ghost use Rattle\.(\w+)\.specs\.([\w.]+) as (\w+);")
FUNCTION = re.compile(r"( *)pub fn (\w+)")
CLAUSE = re.compile(r"\s*(?:requires|ensures)\b")


def crates():
    return [os.path.basename(path) for path in sorted(glob.glob(f"{TOP}/crates/*"))]


def read(path):
    with open(path, encoding="utf-8") as file:
        return file.read()


def exported(crate):
    """The names that a crate's root passes on."""
    root = read(f"{TOP}/crates/{crate}/src/lib.rt")
    names = set()
    for path in re.findall(r"pub use ([^;]*);", root):
        names |= set(re.findall(r"\w+", path.rpartition("::")[2]))
    return names


def imported(text, ours):
    """The words of our specifications that a file uses, each with its own name."""
    words = {}
    for crate, path, listed, other, module, alias in USE.findall(text):
        if crate in ours and ".declared." not in f".{path}.":
            for word in listed.split(","):
                name, _, alias_of = word.strip().partition(" as ")
                words[alias_of or name] = crate, name
        if other in ours and ".declared." not in f".{module}.":
            words[alias] = other, None
    return words


def contracts(text, names):
    """Each public function of a file with the clauses of its contract."""
    owner, function, clauses = None, None, []
    for line in text.split("\n"):
        if re.match(r"\S", line):
            found = re.match(r"impl(?:<[^>]*>)? (\w+)", line)
            owner = found[1] if found else owner if line[0] in ")}{" else None
        found = FUNCTION.match(line)
        if found:
            is_public = owner in names if found[1] else found[2] in names
            function, clauses = (found[2] if is_public else None), []
        elif CLAUSE.match(line):
            clauses.append(line)
        if line.strip() in ("{", "{}") or line.endswith("{") and not CLAUSE.match(line):
            if function:
                yield function, " ".join(clauses)
            function, clauses = None, []


def cited(crate, ours):
    names = exported(crate)
    for path in glob.glob(f"{TOP}/crates/{crate}/src/*.rt"):
        text = read(path)
        words = imported(text, ours)
        for function, clauses in contracts(text, names):
            for word in set(re.findall(r"(\w+)\.(\w+)|(\w+)", clauses)):
                qualifier, member, plain = word
                if plain in words and words[plain][1]:
                    yield function, words[plain]
                elif qualifier in words and words[qualifier][1] is None:
                    yield function, (words[qualifier][0], member)


def main():
    ours = crates()
    page = read(f"{TOP}/docs/DEFINITIONS.md")
    sections = dict(re.findall(r"^## `(\w+)`\n(.*?)(?=^## |\Z)", page, re.M | re.S))
    missing = {}
    for crate in ours:
        if crate.endswith("_tests") or not os.path.exists(f"{TOP}/crates/{crate}/src/lib.rt"):
            continue
        for function, (home, word) in cited(crate, ours):
            if not re.search(rf"`{re.escape(word)}`", sections.get(home, "")):
                missing.setdefault((home, word), set()).add(f"{crate}::{function}")
    for (home, word), functions in sorted(missing.items()):
        print(f"DEFINITIONS.md lacks {word} of {home}, which {', '.join(sorted(functions))} cites", file=sys.stderr)
    print(f"definitions: {len(missing)} words are missing", file=sys.stderr)
    sys.exit(1 if missing else 0)


main()
