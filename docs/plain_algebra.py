"""The language a second time, as simply as it can be said: catalogues and queries are read, and one variant at a time is
typed and worked out by sets of rows. `run_plain.py` compares the built program with it. Nothing here is proved, and no
code is shared with the program.
"""
import itertools
import re

TOKEN = re.compile(r"\s+|--[^\n]*|(?P<text>'(?:[^']|'')*')|(?P<int>-?\d+)|(?P<word>[A-Za-z_]\w*)|(?P<sign><>|!=|<=|>=|[()\[\],;.*=<>])", re.A)
KINDS = {"int8": int, "text": str, "bool": bool}
COMPARED = {
    "=": lambda order: order == 0,
    "<>": lambda order: order != 0,
    "!=": lambda order: order != 0,
    "<": lambda order: order < 0,
    "<=": lambda order: order <= 0,
    ">": lambda order: order > 0,
    ">=": lambda order: order >= 0,
}
WIDEST = 1600


class Reader:
    """A recursive descent over tokens, without any check of reserved words, nesting or limits."""

    def __init__(self, text):
        self.tokens, at = [], 0
        while at < len(text):
            match = TOKEN.match(text, at)
            at = match.end()
            if match.lastgroup:
                self.tokens.append((match.lastgroup, match[0]))
        self.tokens.append(("end", ""))
        self.at = 0

    def look(self, word):
        return self.tokens[self.at][1].lower() == word and self.tokens[self.at][0] != "text"

    def take(self, word):
        if self.look(word):
            self.at += 1
            return True
        return False

    def want(self, word):
        assert self.take(word), (word, self.tokens[self.at :])

    def next(self):
        self.at += 1
        return self.tokens[self.at - 1]

    def name(self):
        return self.next()[1].lower()

    def many(self, part, separator=","):
        parts = [part()]
        while self.take(separator):
            parts.append(part())
        return parts

    # ---- conditions on features

    def fexpr(self):
        return ("or", *self.many(self.fand, "or"))

    def fand(self):
        return ("and", *self.many(self.fnot, "and"))

    def fnot(self):
        if self.take("not"):
            return "not", self.fnot()
        if self.take("("):
            inside = self.fexpr()
            self.want(")")
            return inside
        word = self.next()[1]
        return {"true": True, "false": False}.get(word.lower(), word)

    def when(self):
        return self.fexpr() if self.take("when") else True

    # ---- values and columns

    def literal(self):
        kind, text = self.next()
        if kind == "int":
            return int(text)
        if kind == "text":
            return text[1:-1].replace("''", "'")
        return {"true": True, "false": False}[text.lower()]

    def column(self):
        first = self.name()
        return (first, self.name()) if self.take(".") else (None, first)

    # ---- the catalogue

    def catalogue(self):
        self.want("features")
        features = [] if self.look(";") else self.many(lambda: self.next()[1])
        self.want(";")
        model = True
        if self.take("model"):
            model = self.fexpr()
            self.want(";")
        tables, rows = {}, []
        while not self.look(""):
            word, name = self.name(), self.name()
            self.want("(")
            if word == "table":
                columns = self.many(lambda: (self.name(), KINDS[self.name()], self.when()))
                self.want(")")
                tables[name] = columns, self.when()
            else:
                cells = dict(self.many(lambda: (self.name(), self.literal())))
                self.want(")")
                rows.append((name, cells, self.when()))
            self.want(";")
        return Catalogue(features, model, tables, rows)

    # ---- queries

    def query(self):
        left = self.term()
        while self.look("union") or self.look("except"):
            left = self.name(), left, self.term()
        return left

    def term(self):
        if self.take("select"):
            items = None if self.take("*") else self.many(self.item)
            self.want("from")
            source = self.source()
            return "select", items, source, self.cond() if self.take("where") else True
        return self.simple()

    def item(self):
        column = self.column()
        given = self.column() if self.take("as") else column
        return column, given, self.fexpr() if self.take("when") else None

    def simple(self):
        if self.take("empty"):
            return ("empty",)
        if self.take("("):
            inside = self.query()
            self.want(")")
            return inside
        if self.take("choice"):
            return "choice", *self.chosen(self.query)
        return "table", self.name()

    def chosen(self, part):
        self.want("[")
        condition = self.fexpr()
        self.want("]")
        self.want("(")
        one = part()
        self.want(",")
        other = part()
        self.want(")")
        return condition, one, other

    def source(self):
        left = self.part()
        while self.take("join"):
            right = self.part()
            self.want("on")
            left = "join", left, right, self.cond()
        return left

    def part(self):
        inside = self.simple()
        return ("alias", inside, self.name()) if self.take("as") else inside

    def cond(self):
        return ("or", *self.many(self.cand, "or"))

    def cand(self):
        return ("and", *self.many(self.cnot, "and"))

    def cnot(self):
        if self.take("not"):
            return "not", self.cnot()
        if self.take("choice"):
            return "choice", *self.chosen(self.cond)
        if self.take("("):
            inside = self.cond()
            self.want(")")
            return inside
        if (self.look("true") or self.look("false")) and self.tokens[self.at + 1][1] not in COMPARED:
            return self.literal()
        left = self.operand()
        sign = self.next()[1]
        return "compare", left, sign, self.operand()

    def operand(self):
        kind, text = self.tokens[self.at]
        if kind == "word" and text.lower() not in ("true", "false"):
            return "column", self.column()
        return "value", self.literal()


def holds(condition, variant):
    if isinstance(condition, bool):
        return condition
    if isinstance(condition, str):
        return condition in variant
    word, *parts = condition
    if word == "not":
        return not holds(parts[0], variant)
    return (any if word == "or" else all)(holds(part, variant) for part in parts)


def written(column):
    prefix, base = column
    return f"{prefix}.{base}" if prefix else base


class Catalogue:
    def __init__(self, features, model, tables, rows):
        self.features, self.model, self.tables, self.rows = features, model, tables, rows

    def variants(self):
        for bits in itertools.product([False, True], repeat=len(self.features)):
            variant = frozenset(name for name, bit in zip(self.features, bits) if bit)
            if holds(self.model, variant):
                yield variant

    def shown(self, variant):
        return "{" + ",".join(name for name in self.features if name in variant) + "}"

    # ---- what the names say, whatever the variant

    def possible(self, query):
        """The possible columns of a query: pairs of a name and a kind, each once, in order."""
        form, *parts = query
        columns = []
        if form == "table":
            columns = [((None, name), kind) for name, kind, _ in self.tables[parts[0]][0]] if parts[0] in self.tables else []
        elif form == "select":
            columns = self.possible(parts[1])
            if parts[0] is not None:
                columns = [(given, kind) for column, given, _ in parts[0] for name, kind in columns if name == column]
        elif form in ("join", "union"):
            columns = self.possible(parts[0]) + self.possible(parts[1])
        elif form == "choice":
            columns = self.possible(parts[1]) + self.possible(parts[2])
        elif form == "except":
            columns = self.possible(parts[0])
        elif form == "alias":
            columns = [((parts[1], base), kind) for (_, base), kind in self.possible(parts[0])]
        return list(dict.fromkeys(columns))

    def parts_of(self, query):
        """The part's own parts first, the left one before the right one, and then the part."""
        form, *parts = query
        for part in {"select": parts[1:2], "join": parts[:2], "union": parts, "except": parts, "choice": parts[1:], "alias": parts[:1]}.get(form, []):
            yield from self.parts_of(part)
        yield query

    def name_faults(self, query):
        """What is refused whatever the variant. A part that is too wide goes before all else."""
        for part in self.parts_of(query):
            width = len(self.possible(part))
            if width > WIDEST:
                return {f"54000 query has {width} columns"}
        faults = set()
        for form, *parts in self.parts_of(query):
            if form == "table" and parts[0] not in self.tables:
                faults.add(f"42P01 table {parts[0]} is not known")
            if form in ("select", "join"):
                names = {name for name, _ in self.possible((form, *parts) if form == "join" else parts[1])}
                used = set(columns_in(parts[2]))
                if form == "select" and parts[0] is not None:
                    used |= {column for column, _, _ in parts[0]}
                faults |= {f"42703 column {written(column)} is not known" for column in used - names}
        return faults

    # ---- one variant

    def type_in(self, query, variant):
        """The columns in a variant as pairs of a name and a kind, none where it is absent; and the faults there."""
        form, *parts = query
        if form == "empty":
            return [], set()
        if form == "table":
            columns, condition = self.tables[parts[0]]
            there = [((None, name), kind) for name, kind, when in columns if holds(when, variant)]
            return (there if holds(condition, variant) else []), set()
        if form == "choice":
            return self.type_in(parts[1] if holds(parts[0], variant) else parts[2], variant)
        columns, faults = self.type_in(parts[1] if form == "select" else parts[0], variant)
        if form == "alias":
            renamed = [((parts[1], base), kind) for (_, base), kind in columns]
            return renamed, faults or self.twice(renamed, variant)
        if form == "select":
            return self.type_select(parts, columns, faults, variant)
        right, more = self.type_in(parts[1], variant)
        faults = faults | more
        if faults:
            return [], faults
        if form == "join":
            if not columns or not right:
                return [], set()
            both = columns + right
            return both, self.twice(both, variant) | self.asked(parts[2], both, variant)
        if columns and right and set(columns) != set(right):
            return [], {f"42804 columns differ in variant {self.shown(variant)}"}
        return columns or (right if form == "union" else []), set()

    def type_select(self, parts, columns, faults, variant):
        items, _, cond = parts
        if faults or not columns:
            return [], faults
        faults = self.asked(cond, columns, variant)
        if items is None:
            return columns, faults
        kept = []
        for column, given, when in items:
            if when is not None and not holds(when, variant):
                continue
            found = [(given, kind) for name, kind in columns if name == column]
            if when is not None and not found:
                faults.add(f"42P10 column {written(column)} is absent in variant {self.shown(variant)}")
            kept += found
        return kept, faults | self.twice(kept, variant)

    def twice(self, columns, variant):
        names = [name for name, _ in columns]
        doubled = {name for name in names if names.count(name) > 1}
        return {f"42701 column {written(name)} is there twice in variant {self.shown(variant)}" for name in doubled}

    def asked(self, cond, columns, variant):
        """The faults of a condition over columns."""
        if isinstance(cond, bool):
            return set()
        word, *parts = cond
        if word == "choice":
            return self.asked(parts[1] if holds(parts[0], variant) else parts[2], columns, variant)
        if word != "compare":
            return set().union(*(self.asked(part, columns, variant) for part in parts))
        faults, kinds = set(), []
        for sort, it in (parts[0], parts[2]):
            if sort == "value":
                kinds.append({type(it)})
            else:
                kinds.append({kind for name, kind in columns if name == it})
                if not kinds[-1]:
                    faults.add(f"42P10 column {written(it)} is absent in variant {self.shown(variant)}")
        if kinds[0] and kinds[1] and len(kinds[0] | kinds[1]) > 1:
            faults.add(f"42804 kinds differ in variant {self.shown(variant)}")
        return faults

    def mean(self, query, variant):
        """The columns and the rows of a well-typed query in a variant. Rows are sets of pairs of a name and a value."""
        form, *parts = query
        columns, _ = self.type_in(query, variant)
        names = [name for name, _ in columns]
        if not columns:
            return [], set()
        if form == "table":
            rows = set()
            for name, cells, when in self.rows:
                if name == parts[0] and holds(when, variant):
                    rows.add(frozenset((column, cells[column[1]]) for column in names))
            return columns, rows
        if form == "choice":
            return self.mean(parts[1] if holds(parts[0], variant) else parts[2], variant)
        if form == "alias":
            rows = self.mean(parts[0], variant)[1]
            return columns, {frozenset(((parts[1], base), value) for (_, base), value in row) for row in rows}
        if form == "select":
            rows = {row for row in self.mean(parts[1], variant)[1] if is_true(parts[2], dict(row), variant)}
            if parts[0] is not None:
                kept = [(column, given) for column, given, when in parts[0] if when is None or holds(when, variant)]
                rows = {frozenset((given, dict(row)[column]) for column, given in kept if column in dict(row)) for row in rows}
            return columns, rows
        (left, one), (right, other) = self.mean(parts[0], variant), self.mean(parts[1], variant)
        if form == "join":
            pairs = {row | more for row in one for more in other}
            return columns, {row for row in pairs if is_true(parts[2], dict(row), variant)}
        if form == "union":
            return columns, one | other
        return columns, one - other if right else one


def columns_in(cond):
    if not isinstance(cond, bool):
        word, *parts = cond
        if word == "compare":
            yield from (it for sort, it in (parts[0], parts[2]) if sort == "column")
        else:
            for part in parts[1:] if word == "choice" else parts:
                yield from columns_in(part)


def is_true(cond, row, variant):
    if isinstance(cond, bool):
        return cond
    word, *parts = cond
    if word == "choice":
        return is_true(parts[1] if holds(parts[0], variant) else parts[2], row, variant)
    if word == "not":
        return not is_true(parts[0], row, variant)
    if word != "compare":
        return (any if word == "or" else all)(is_true(part, row, variant) for part in parts)
    left, right = (row[it] if sort == "column" else it for sort, it in (parts[0], parts[2]))
    left, right = (it.encode() if isinstance(it, str) else it for it in (left, right))
    return COMPARED[parts[1]]((left > right) - (left < right))
