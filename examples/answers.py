"""A client's side of a session: the bytes that it sends, the answers in the bytes that it gets, and how they are shown.

docs/ANSWERS.md says in words how an answer is read.
"""
import re
import struct

KINDS = {16: "bool", 20: "int8", 25: "text"}
CONNECTIVES = {"and": "and", "or": "or", "not": "not", "true": "True", "false": "False"}


class Answer:
    """What one Query gave: fields and rows, or an error; and the place of its commit, where it has one."""

    def __init__(self):
        self.snapshot = None
        self.commit = None
        self.fields = []  # name and kind; the last one is `when`
        self.rows = []  # a text or None for each field; the last cell is the row's condition
        self.tag = None
        self.error = None


def message(kind, body):
    return kind + struct.pack(">I", len(body) + 4) + body


def stream(queries):
    """A start-up, the queries and the end of the session."""
    start = struct.pack(">I", 196608) + b"user\0demo\0\0"
    sent = [message(b"Q", query.encode() + b"\0") for query in queries]
    return message(b"", start) + b"".join(sent) + message(b"X", b"")


def messages(reply):
    at = 0
    while at < len(reply):
        (length,) = struct.unpack_from(">I", reply, at + 1)
        yield reply[at : at + 1], reply[at + 5 : at + 1 + length]
        at += 1 + length


def read_fields(body):
    (count,) = struct.unpack_from(">H", body)
    at, fields = 2, []
    for _ in range(count):
        end = body.index(b"\0", at)
        (kind,) = struct.unpack_from(">I", body, end + 7)
        fields.append((body[at:end].decode(), KINDS[kind]))
        at = end + 19
    return fields


def read_cells(body):
    (count,) = struct.unpack_from(">H", body)
    at, cells = 2, []
    for _ in range(count):
        (length,) = struct.unpack_from(">i", body, at)
        at += 4
        cells.append(None if length == -1 else body[at : at + length].decode())
        at += max(length, 0)
    return cells


def read_error(body):
    parts = {part[:1]: part[1:].decode() for part in body.split(b"\0") if part}
    return f"{parts[b'S']} {parts[b'C']}: {parts[b'M']}"


def read_reply(reply):
    """The parameters of the start-up, and the answer of each Query."""
    parameters, answers, answer = [], [], Answer()
    started = False
    for kind, body in messages(reply):
        if kind == b"S":
            name, value = body.decode().split("\0")[:2]
            if started and name == "vdb_commit":
                answer.commit = value
            elif started:
                answer.snapshot = value
            else:
                parameters.append((name, value))
        elif kind == b"T":
            answer.fields = read_fields(body)
        elif kind == b"D":
            answer.rows.append(read_cells(body))
        elif kind == b"C":
            answer.tag = body[:-1].decode()
        elif kind == b"E":
            answer.error = read_error(body)
        elif kind == b"Z":
            if started:
                answers.append(answer)
            started, answer = True, Answer()
    if answer.error:
        answers.append(answer)  # a fatal one, with which the session ends
    return parameters, answers


def holds(condition, variant):
    """Whether a condition holds in a variant, which is a set of features."""
    return eval(re.sub(r"\w+", lambda word: CONNECTIVES.get(word[0], str(word[0] in variant)), condition))


def named(field):
    """A field's name without its condition, and the condition."""
    name, _, condition = field.partition(" when ")
    return name, condition or "true"


def order(kind, cell):
    return int(cell) if kind == "int8" else cell.encode()


def configured(answer, variant):
    """An answer's table in one variant, its names, kinds and rows, or None where no column is there."""
    there = []
    for place, (field, kind) in enumerate(answer.fields[:-1]):
        name, condition = named(field)
        if holds(condition, variant):
            there.append((place, name, kind))
    if not there:
        return None
    rows = {tuple(row[place] for place, _, _ in there) for row in answer.rows if holds(row[-1], variant)}
    kinds = [kind for _, _, kind in there]
    rows = sorted(rows, key=lambda row: [order(kind, cell) for kind, cell in zip(kinds, row)])
    return [name for _, name, _ in there], kinds, rows


def cell_text(cell):
    """A dash for an absent cell. A text that would look like one, or like a quoted text, stands in quotes."""
    if cell is None:
        return "-"
    quotes = cell == "-" or cell.startswith("'")
    return "'" + cell.replace("'", "''") + "'" if quotes else cell


def lines_of(heads, kinds, rows):
    """A text table: integers to the right, all else to the left."""
    table = [heads] + [[cell_text(cell) for cell in row] for row in rows]
    widths = [max(map(len, column)) for column in zip(*table)]
    for row in table:
        cells = [cell.rjust(w) if kind == "int8" else cell.ljust(w) for cell, w, kind in zip(row, widths, kinds)]
        yield "  ".join(cells).rstrip()


def answer_lines(answer):
    """An answer as the messages have it: its fields with their kinds, its rows and its tag; or its error."""
    if answer.error:
        return [answer.error]
    if not answer.fields:
        return [*([f"commit {answer.commit}"] if answer.commit else []), answer.tag or "(no statement)"]
    kinds = [kind for _, kind in answer.fields]
    heads = [named(field)[0] for field, _ in answer.fields]
    width = max(len(field) for field, _ in answer.fields)
    fields = [f"{field.ljust(width)}  {kind}" for field, kind in answer.fields]
    return fields + [""] + list(lines_of(heads, kinds, answer.rows)) + ["", answer.tag]


def variant_lines(answer, variant):
    """An answer's table in one variant. A statement without rows says the same in each."""
    if not answer.fields:
        return answer_lines(answer)
    table = configured(answer, variant)
    return list(lines_of(*table)) if table else ["(absent)"]


def parameter_lines(parameters):
    width = max(len(name) for name, _ in parameters)
    return [f"{name.ljust(width)}  {value}" for name, value in parameters]
