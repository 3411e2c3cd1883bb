"""Why a catalogue is refused, in more words than the program's one line: the line of the file with a mark, and what the
fault usually is. CATALOGUE.md has the same sentences under "What a syntax fault usually is".
"""
import itertools
import re

RESERVED = (
    "alter and as begin choice commit create delete empty except false from insert into join none not on or rollback"
    " select set true union update values when where"
).split()
TOKEN = re.compile(r"\s+|--[^\n]*|'(?:[^']|'')*'|\d+\.\d+|-?\d+|\w+|.", re.S)
NAMING = "features", "model", "table", "row"

SENTENCES = {
    "mark": "The file begins with a byte order mark. Save it as UTF-8 without one.",
    "semicolon": "Each entry ends with `;`, and the one before this doesn't.",
    "end": "The file ends inside an entry: a `;` or a bracket is missing.",
    "open text": "The text that begins here isn't closed. A quote inside a text is written twice.",
    "decimal": "There are no decimal numbers. Keep an amount in its smallest unit, as cents.",
    "null": "There is no null. Leave the column out where no variant has it together with the row.",
    "reserved": "A reserved word isn't a name.",
    "quotes": 'A text stands in single quotes, as \'ann\'. Names stand in none.',
    "kind": "A column's kind is `int8`, `text` or `bool`.",
    "comma": "There is a comma between features, between columns and between values.",
    "last comma": "No comma stands before the end of a list.",
    "integer": "An integer goes from -9223372036854775808 to 9223372036854775807.",
    "long": "A name has at most 63 characters.",
    "letters": "A name has letters from a to z, digits and `_`, and begins with no digit.",
    "features": "The file begins with `features`, also where there is none: `features;`.",
    "equals": "A row names a column and then its value, without a sign between them: `row t (a 1);`.",
    "deep": "Brackets and `not` nest at most 64 deep.",
}


def tokens(text):
    """The tokens of a text, but for blanks and comments, each with its place."""
    for match in TOKEN.finditer(text):
        if not match[0].isspace() and not match[0].startswith("--"):
            yield match.start(), match[0]


def deepest(text):
    depth = deepest = 0
    for _, token in tokens(text):
        depth += {"(": 1, ")": -1}.get(token, 0)
        deepest = max(deepest, depth)
    return deepest


def fault_of(text, number):
    """What the fault on this line usually is, and the token that shows it, or nothing."""
    if text.startswith("\ufeff"):
        return "mark", "\ufeff"
    lines = text.split("\n")
    found = list(tokens(text))
    if number > len([line for line in lines if line.strip()]) and not lines[number - 1 :][:1][0].strip():
        return "end", None
    before = list(tokens("\n".join(lines[: number - 1])))
    here = [token for _, token in tokens(lines[number - 1])]
    if found and found[0][1].lower() != "features":
        return "features", found[0][1]
    for at, token in enumerate(here):
        behind = here[at - 1] if at else before[-1][1] if before else ";"
        after = here[at + 1] if at + 1 < len(here) else ""
        low = token.lower()
        if token == "'":
            return "open text", token
        if re.fullmatch(r"\d+\.\d+", token):
            return "decimal", token
        if re.fullmatch(r"-?\d+", token) and not -(2**63) <= int(token) < 2**63:
            return "integer", token
        if low in NAMING[1:] and behind not in (";", ",", "(") and behind.lower() not in NAMING and after not in (",", ";"):
            return "semicolon", token
        if low == "null":
            return "null", token
        if token == '"':
            return "quotes", token
        if token == "=":
            return "equals", token
        if token in (")", ";") and behind == ",":
            return "last comma", token
        if re.fullmatch(r"\w+", token) and not token.isascii():
            return "letters", token
        if re.match(r"[A-Za-z_]\w{63}", token):
            return "long", token
        if low in RESERVED and behind.lower() in ("table", "row", "(", ",", "features") and low not in ("not", "true", "false"):
            return "reserved", token
        if not re.fullmatch(r"-?\w+|[(),;]|'.*'", token, re.S):
            return "letters", token
    if found and found[-1][1] != ";" and number >= text.count("\n", 0, found[-1][0]) + 1:
        return "end", None
    if deepest(text) > 64:
        return "deep", None
    return of_entry(before, here)


def of_entry(before, here):
    """What is usual inside an entry, by the word with which it begins."""
    entry = []
    for token in [token for _, token in before] + here:
        entry = [] if token == ";" else entry + [token]
    entry = entry or here
    word = entry[0].lower() if entry else ""
    if word == "features" and any(re.fullmatch(r"\w+", one) and re.fullmatch(r"\w+", two) for one, two in zip(entry[1:], entry[2:])):
        return "comma", None
    if word == "table":
        inside = entry[3:]
        for name, kind in zip(inside, inside[1:]):
            if re.fullmatch(r"\w+", name) and re.fullmatch(r"\w+", kind) and kind.lower() not in ("int8", "text", "bool", "when", "and", "or", "not"):
                if name.lower() not in ("when", "and", "or", "not", "int8", "text", "bool"):
                    return "kind", kind
        return "comma", None
    if word == "row":
        return "comma", None
    return None, None


def shown_line(text, number, token):
    """The line with a mark under the token, or under its first word."""
    lines = text.split("\n")
    line = lines[number - 1].rstrip() if number <= len(lines) else ""
    place = line.find(token) if token else -1
    if place < 0:
        place, token = len(line) - len(line.lstrip()), "^"
    head = f"{number:>5} | "
    return [head + line, " " * (len(head) + place) + "^" * max(1, len(token.strip("\n")))]


# ---- conditions

PART = re.compile(r"\s*(\w+|[()])")


def read_condition(text):
    """A condition as a tree: a name, True, False, or a list of a connective and its parts."""
    words = [match for match in PART.findall(text)]

    def chain(at, word, part):
        parts, at = [None], at
        parts[0], at = part(at)
        while at < len(words) and words[at].lower() == word:
            more, at = part(at + 1)
            parts.append(more)
        return (parts[0] if len(parts) == 1 else [word] + parts), at

    def either(at):
        return chain(at, "or", both)

    def both(at):
        return chain(at, "and", single)

    def single(at):
        word = words[at]
        if word.lower() == "not":
            part, at = single(at + 1)
            return ["not", part], at
        if word == "(":
            part, at = either(at + 1)
            return part, at + 1
        return {"true": True, "false": False}.get(word.lower(), word), at + 1

    return either(0)[0]


def value(condition, given):
    """True, False, or None where the features that are given don't say."""
    if isinstance(condition, bool):
        return condition
    if isinstance(condition, str):
        return given.get(condition)
    word, *parts = condition
    values = [value(part, given) for part in parts]
    if word == "not":
        return None if values[0] is None else not values[0]
    ends = word == "or"
    return ends if ends in values else None if None in values else not ends


def names_in(condition):
    if isinstance(condition, str):
        yield condition
    elif not isinstance(condition, bool):
        yield from itertools.chain.from_iterable(map(names_in, condition[1:]))


def variant_of(conditions):
    """Features with which all these conditions hold, or None. It splits on one feature after another."""
    names = list(dict.fromkeys(itertools.chain.from_iterable(map(names_in, conditions))))
    given = {}

    def split(at):
        values = [value(condition, given) for condition in conditions]
        if False in values:
            return False
        if None not in values:
            return True
        for holds in True, False:
            given[names[at]] = holds
            if split(at + 1):
                return True
        del given[names[at]]
        return False

    return given if split(0) else None


def printed(condition, inside=False):
    if isinstance(condition, bool):
        return str(condition).lower()
    if isinstance(condition, str):
        return condition
    word, *parts = condition
    if word == "not":
        return f"not {printed(parts[0], True)}"
    text = f" {word} ".join(printed(part, True) for part in parts)
    return f"({text})" if inside else text


def contradiction(model):
    """Parts of a model that no variant satisfies together, of which none can be spared."""
    parts = model[1:] if isinstance(model, list) and model[0] == "and" else [model]
    kept = list(parts)
    for part in parts:
        rest = [it for it in kept if it is not part]
        if variant_of(rest) is None:
            kept = rest
    return kept


def model_of(text):
    """The model of a catalogue's text, or None."""
    plain = re.sub(r"'(?:[^']|'')*'|--[^\n]*", "", text)
    match = re.search(r"\bmodel\b([^;]*);", plain, re.I)
    return read_condition(match[1]) if match else None


def explained(line, text):
    """More lines on what the program says of a catalogue."""
    out = []
    match = re.match(r"catalogue: line (\d+): (.*)", line)
    if match:
        number = int(match[1])
        why, token = fault_of(text, number) if match[2] == "syntax" else (None, None)
        out += shown_line(text, number, token)
        if why:
            out.append(SENTENCES[why])
    if line == "catalogue: no variant":
        model = model_of(text)
        out += ["No variant satisfies these parts of the model together:"]
        out += [f"  {printed(part)}" for part in contradiction(model)]
    return out
