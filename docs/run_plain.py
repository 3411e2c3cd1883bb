"""Compares the built program with the language said a second time (plain_algebra.py): for generated catalogues and
queries, from a fixed seed, the program's answer is read in every variant, and has to be the plain one there; a refusal has
to be a reason that holds; and an answer has to be in table form.
"""
import os
import random
import subprocess
import sys
import tempfile

TOP, PROGRAM = sys.argv[1:3]
ROUNDS = int(sys.argv[3]) if len(sys.argv) > 3 else 12
SEED = int(sys.argv[4]) if len(sys.argv) > 4 else 20261201
EACH = 40
KINDS = {kind: name for name, kind in (("int8", int), ("text", str), ("bool", bool))}
sys.path.insert(0, f"{TOP}/examples")
sys.path.insert(0, f"{TOP}/docs")
import answers  # noqa: E402
import plain_algebra as plain  # noqa: E402


class Maker:
    """Makes the texts of a catalogue and of queries, most of which are well typed."""

    def __init__(self, seed):
        self.random = random.Random(seed)
        self.features = "ABCDEF"[: self.random.randint(1, 5)]
        self.tables = {}

    def one(self, *texts):
        return self.random.choice(texts)

    def chance(self, share):
        return self.random.random() < share

    def fexpr(self, depth=2):
        if depth == 0 or self.chance(0.4):
            return self.one(*self.features, *self.features, "true", "false") if self.chance(0.9) else "true"
        form = self.one("not {}", "{} and {}", "{} or {}", "({} or {}) and {}", "not ({} and {})")
        return form.format(*(self.fexpr(depth - 1) for _ in range(form.count("{}"))))

    def when(self, share=0.5):
        return f" when {self.fexpr()}" if self.chance(share) else ""

    def literal(self, kind):
        return {"int8": self.one("1", "2", "3"), "text": self.one("'a'", "'b'", "''"), "bool": self.one("true", "false")}[kind]

    def catalogue(self):
        model = f"model {self.fexpr()};\n" if self.chance(0.6) else ""
        lines = [f"features {', '.join(self.features)};\n", model]
        for table in self.random.sample(["t", "u", "v", "w"], self.random.randint(2, 4)):
            columns = [(name, self.one("int8", "int8", "text", "bool")) for name in self.random.sample("abcd", self.random.randint(1, 4))]
            self.tables[table] = columns
            listed = ", ".join(f"{name} {kind}{self.when() if place else ''}" for place, (name, kind) in enumerate(columns))
            lines.append(f"table {table} ({listed}){self.when(0.4)};\n")
        for _ in range(self.random.randint(3, 12)):
            table = self.one(*self.tables)
            cells = ", ".join(f"{name} {self.literal(kind)}" for name, kind in self.tables[table])
            lines.append(f"row {table} ({cells}){self.when()};\n")
        return "".join(lines)

    # a query and the columns that it may have, each a name as it is written and a kind

    def simple(self, depth):
        if depth == 0 or self.chance(0.35):
            table = self.one(*self.tables)
            return table, list(self.tables[table])
        if self.chance(0.3):
            (one, columns), (other, more) = self.query(depth - 1), self.query(depth - 1)
            return f"choice [{self.fexpr()}] ({one}, {other})", columns + more
        query, columns = self.query(depth - 1)
        return f"({query})", columns

    def part(self, depth, alias):
        query, columns = ("empty", []) if self.chance(0.03) else self.simple(depth)
        if alias or self.chance(0.3):
            name = alias or self.one("p", "q")
            return f"{query} as {name}", [(f"{name}.{written.split('.')[-1]}", kind) for written, kind in columns]
        return query, columns

    def source(self, depth):
        if self.chance(0.3):
            (left, columns), (right, more) = self.part(depth, "l"), self.part(depth, "r")
            both = columns + more
            return f"{left} join {right} on {self.cond(both)}", both
        return self.part(depth, None)

    def operand(self, columns, kind):
        fitting = [name for name, it in columns if it == kind]
        return self.one(*fitting) if fitting and self.chance(0.7) else self.literal(kind)

    def cond(self, columns, depth=2):
        if depth and self.chance(0.4):
            form = self.one("not ({})", "{} and {}", "({} or {})", f"choice [{self.fexpr()}] ({{}}, {{}})", f"choice [{self.fexpr()}] ({{}}, true)")
            return form.format(*(self.cond(columns, depth - 1) for _ in range(form.count("{}"))))
        if not columns or self.chance(0.1):
            return self.one("true", "false")
        name, kind = self.one(*columns) if self.chance(0.995) else ("nowhere", "int8")
        other = kind if self.chance(0.97) else self.one("int8", "text", "bool")
        return f"{name} {self.one('=', '<>', '<', '<=', '>', '>=')} {self.operand(columns, other)}"

    def items(self, columns):
        if self.chance(0.3) or not columns:
            return "*", columns
        chosen = self.random.sample(columns, self.random.randint(1, min(3, len(columns))))
        texts, given = [], []
        for name, kind in chosen:
            new = self.one("x", "y", "a", "p.z") if self.chance(0.3) else name
            texts.append(name + (f" as {new}" if new != name else "") + self.when(0.25))
            given.append((new, kind))
        return ", ".join(texts), given

    def term(self, depth):
        if self.chance(0.75):
            source, columns = self.source(depth)
            listed, given = self.items(columns)
            return f"select {listed} from {source}" + (f" where {self.cond(columns)}" if self.chance(0.6) else ""), given
        return self.simple(depth)

    def query(self, depth):
        left, columns = self.term(depth)
        while self.chance(0.2):
            if self.chance(0.6):
                # the same columns on both sides, if the source has them in the same variants
                right = f"select * from ({left}) where {self.cond(columns)}"
            else:
                right = self.term(depth)[0]
            left = f"({left}) {self.one('union', 'except')} ({right})"
        return left, columns


def replayed(catalogue, queries):
    with tempfile.TemporaryDirectory() as folder:
        names = os.path.join(folder, "catalogue.vdb"), os.path.join(folder, "stream.bin")
        with open(names[0], "w") as out:
            out.write(catalogue)
        with open(names[1], "wb") as out:
            out.write(answers.stream(f"{query};" for query in queries))
        ran = subprocess.run([PROGRAM, "replay", *names], stdin=subprocess.DEVNULL, capture_output=True, timeout=300)
    if ran.returncode == 2:
        return None
    assert ran.returncode == 0, ran.stderr
    return answers.read_reply(ran.stdout)[1]


def text_of(value):
    return {True: "t", False: "f"}[value] if isinstance(value, bool) else str(value)


def plain_table(catalogue, query, variant):
    """A variant's table, as the messages spell its names and values: a set of columns and a set of rows, or nothing."""
    columns, rows = catalogue.mean(query, variant)
    if not columns:
        return None
    spelled = {frozenset((plain.written(name), text_of(value)) for name, value in row) for row in rows}
    return {(plain.written(name), KINDS[kind]) for name, kind in columns}, spelled


def answered_table(answer, variant):
    table = answers.configured(answer, variant)
    if table is None:
        return None
    names, kinds, rows = table
    assert len(set(names)) == len(names), "a name stands twice"
    return set(zip(names, kinds)), {frozenset(zip(names, row)) for row in rows}


def in_table_form(answer, variants):
    """Whether an answer is in table form."""
    fields = [answers.named(field) for field, _ in answer.fields[:-1]]
    where = [{it for it in variants if answers.holds(condition, it)} for _, condition in fields]
    for (_, condition), there in zip(fields, where):
        assert there and (condition == "true") == (there == variants), "a column's condition isn't settled"
    heads = [(name, kind) for (name, _), (_, kind) in zip(fields, answer.fields)]
    assert len(set(heads)) == len(heads), "a column stands twice"
    keys = []
    for *cells, condition in answer.rows:
        there = {it for it in variants if answers.holds(condition, it)}
        assert there and (condition == "true") == (there == variants), "a row's condition isn't settled"
        assert any(cell is not None for cell in cells), "a row has no cell"
        for cell, column in zip(cells, where):
            assert (cell is not None) == bool(there & column), "a cell is there where it can't be seen, or isn't where it can"
        keys.append([(cell is not None, (int(cell) if kind == "int8" else cell.encode()) if cell is not None else 0) for cell, (_, kind) in zip(cells, answer.fields)])
    assert all(one < other for one, other in zip(keys, keys[1:])), "the rows don't ascend"
    assert answer.tag == f"SELECT {len(answer.rows)}", "the tag counts otherwise"


def compared(catalogue, text, answer):
    """Ends with an assertion where the answer isn't right."""
    query = plain.Reader(text).query()
    variants = set(catalogue.variants())
    names = catalogue.name_faults(query)
    if answer.error:
        said = answer.error.removeprefix("ERROR ").replace(":", "", 1)
        faults = names or set().union(*(catalogue.type_in(query, variant)[1] for variant in variants))
        assert said in faults, f"refused for {said}; what holds: {faults}"
        return "refused"
    assert not names, f"taken, though {names}"
    for variant in variants:
        faults = catalogue.type_in(query, variant)[1]
        assert not faults, f"taken, though {faults}"
        wanted, got = plain_table(catalogue, query, variant), answered_table(answer, variant)
        assert wanted == got, f"in {catalogue.shown(variant)} wanted {wanted}, got {got}"
    order = [(plain.written(name), KINDS[kind]) for name, kind in catalogue.possible(query)]
    places = [order.index((answers.named(field)[0], kind)) for field, kind in answer.fields[:-1]]
    assert places == sorted(places), "the columns stand in another order"
    in_table_form(answer, variants)
    return "answered"


def main():
    counts = {"answered": 0, "refused": 0, "failed": 0}
    for number in range(ROUNDS):
        maker = Maker(SEED + number)
        text = maker.catalogue()
        queries = [maker.query(maker.random.randint(0, 3))[0] for _ in range(EACH)]
        answered = replayed(text, queries)
        if answered is None:
            continue
        catalogue = plain.Reader(text).catalogue()
        for query, answer in zip(queries, answered):
            try:
                counts[compared(catalogue, query, answer)] += 1
            except AssertionError as why:
                counts["failed"] += 1
                print(f"plain: seed {SEED + number}\n{text}{query};\n{why}", file=sys.stderr)
        assert len(answered) == len(queries), f"plain: seed {SEED + number}: the session ended early"
    print(f"plain: {counts['answered']} answers and {counts['refused']} refusals are right, {counts['failed']} are not", file=sys.stderr)
    sys.exit(1 if counts["failed"] else 0)


if __name__ == "__main__":
    main()
