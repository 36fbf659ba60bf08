"""A small model of the rules: it takes tables, graphs, changes and one-hop queries as data, and makes the script and its transcript.

It knows nothing of the program. Values are None, int, bool and str; a column's kind is `int`, `bool` or the number of bytes of a VARCHAR.
In a text, « stands before the token at which a fault is expected; it is taken out of the script.
"""

RESERVED = """ALL AND ANY AS COUNT CREATE DELETE FALSE FROM GRAPH_TABLE INSERT INTO IS MATCH MAX MIN NOT NULL OR PRIMARY
    SELECT SET SUM TABLE TRUE UPDATE VALUES WHERE""".split()
UPPER = set("ABCDEFGHIJKLMNOPQRSTUVWXYZ_")
MARK = "«"
MOST_OVER_A_BASE = 256
MOST_WRITES = 1048576


def is_plain(name):
    return name[0] in UPPER and all(c in UPPER or c in "0123456789" for c in name)


def shown(name):
    """A name as a transcript prints it."""
    return name if is_plain(name) else '"' + name.replace('"', '""') + '"'


def spelled(name):
    """A name as a script writes it: in lower case where that means the same, else in quotes."""
    return name.lower() if is_plain(name) and name not in RESERVED else '"' + name.replace('"', '""') + '"'


def literal(value):
    if value is None:
        return "NULL"
    if isinstance(value, bool):
        return "TRUE" if value else "FALSE"
    return str(value) if isinstance(value, int) else "'" + value.replace("'", "''") + "'"


def listed(values):
    return ", ".join(map(literal, values))


def rank(value):
    """NULL first, FALSE before TRUE, numbers by size, texts by bytes."""
    if value is None:
        return (0,)
    return (1, value.encode() if isinstance(value, str) else value)


def ranks(values):
    return [rank(v) for v in values]


def names(columns):
    return "(" + ", ".join(map(spelled, columns)) + ")"


class Column:
    def __init__(self, name, kind, not_null=False):
        self.name, self.kind, self.not_null = name, kind, not_null

    def text(self):
        kind = {int: "INTEGER", bool: "BOOLEAN"}.get(self.kind) or f"VARCHAR({self.kind})"
        return f"{spelled(self.name)} {kind}" + (" NOT NULL" if self.not_null else "")

    def fault(self, value, is_key):
        if value is None:
            return "NullKey" if is_key else "NullNotAllowed" if self.not_null else None
        if self.kind is int:
            return None if -2147483648 <= value <= 2147483647 else "Range"
        if self.kind is not bool and len(value.encode()) > self.kind:
            return "TooLong"
        return None


class Table:
    def __init__(self, name, columns, key):
        self.name, self.key = name, key
        self.columns = [Column(*c) for c in columns]
        self.places = [self.place(c) for c in key]
        self.rows = {}

    def place(self, column):
        return [c.name for c in self.columns].index(column)

    def key_of(self, row):
        return tuple(row[p] for p in self.places)

    def taken(self, where):
        """The rows that a condition takes, in order of their keys, each with its key and as a dictionary by its columns."""
        for key, row in sorted(self.rows.items(), key=lambda r: ranks(r[0])):
            old = dict(zip([c.name for c in self.columns], row))
            if where is None or where(old) is True:
                yield key, old

    def text(self):
        items = ", ".join(c.text() for c in self.columns)
        return f"CREATE TABLE {spelled(self.name)} ({items}, PRIMARY KEY {names(self.key)})"

    def values_fault(self, row):
        """The first column of a row with a fault: its kind and its name, if there is one."""
        for place, value in enumerate(row):
            kind = self.columns[place].fault(value, place in self.places)
            if kind:
                return kind, self.columns[place].name
        return None

    def row_fault(self, row, earlier):
        """The fault of a row of an INSERT: its kind and its column, if it has one."""
        fault = self.values_fault(row)
        if fault:
            return fault
        key = self.key_of(row)
        if key in self.rows or key in earlier:
            return "Duplicate", None
        return ("TooManyWrites", None) if len(earlier) >= MOST_WRITES else None


class Element:
    """A table of a graph. `labels` is None, or a list of (label, properties); these are None for all columns, or a list of (column, property)."""

    def __init__(self, table, labels=None, ends=None):
        self.table, self.labels, self.ends = table, labels, ends

    def properties(self):
        own = {c.name: place for place, c in enumerate(self.table.columns)}
        given = {}
        for _, chosen in self.labels or [(None, None)]:
            given.update(own if chosen is None else {p: own[c] for c, p in chosen})
        return given

    def text(self):
        out = [spelled(self.table.name)]
        for word, columns, target in self.ends or []:
            out.append(f"{word} KEY {names(columns)} REFERENCES {spelled(target.name)} {names(target.key)}")
        for label, chosen in self.labels or []:
            out.append(f"LABEL {spelled(label)}")
            if chosen == []:
                out.append("NO PROPERTIES")
            elif chosen:
                out.append("PROPERTIES (" + ", ".join(spelled(c) + ("" if c == p else f" AS {spelled(p)}") for c, p in chosen) + ")")
        return " ".join(out)


class Graph:
    def __init__(self, name, vertices, edges):
        self.name, self.vertices, self.edges = name, vertices, edges

    def text(self):
        out = f"CREATE PROPERTY GRAPH {spelled(self.name)} VERTEX TABLES ({', '.join(v.text() for v in self.vertices)})"
        return out + (f" EDGE TABLES ({', '.join(e.text() for e in self.edges)})" if self.edges else "")

    def hops(self):
        """Every edge with its two ends: three pairs of an element table and a row."""
        vertices = {v.table.name: v for v in self.vertices}
        for edge in self.edges:
            (_, from_columns, source), (_, to_columns, dest) = edge.ends
            for row in edge.table.rows.values():
                a = source.rows.get(tuple(row[edge.table.place(c)] for c in from_columns))
                b = dest.rows.get(tuple(row[edge.table.place(c)] for c in to_columns))
                if a is not None and b is not None:
                    yield (vertices[source.name], a), (edge, row), (vertices[dest.name], b)


def edge(table, source_columns, source, dest_columns, dest, labels=None):
    return Element(table, labels, [("SOURCE", source_columns, source), ("DESTINATION", dest_columns, dest)])


class Script:
    """A script that is written statement by statement, and beside it the transcript that it has."""

    def __init__(self):
        self.pieces, self.length, self.out = [], 0, []
        self.tables, self.log = [], []
        self.base, self.folded, self.section, self.number = 0, False, None, 0

    def write(self, text):
        """Text that is no statement or belongs to one. Answers the byte of its mark, or of its first byte."""
        front, mark, back = text.partition(MARK)
        at = self.length + (len(front.encode()) if mark else 0)
        self.pieces.append(front + back)
        self.length += len((front + back).encode())
        return at

    def close(self):
        if self.section is not None:
            self.out.append("end")

    def begin(self, name):
        self.close()
        self.section, self.number = name, 0
        line = "@setup" if name == "setup" else f"@session {name}"
        self.write(line + "\n")
        self.out.append(line)
        return self

    def outcome(self, text):
        self.number += 1
        self.out.append(f"{self.number} {text}")

    def refused(self, marked, kind, end=";\n"):
        """A statement that is refused where its mark stands."""
        self.outcome(f"refused {kind} at byte {self.write(marked + end)}")
        return self

    def define(self, thing, text=None):
        self.write((text or thing.text()) + ";\n")
        self.outcome(f"defined {shown(thing.name)} at {len(self.log)}")
        self.base = len(self.log)
        if isinstance(thing, Table):
            self.tables.append(thing)
        return thing

    def table(self, name, columns, key):
        return self.define(Table(name, columns, key))

    def graph(self, name, vertices, edges=()):
        return self.define(Graph(name, vertices, list(edges)))

    def insert(self, table, *rows, text=None):
        """An INSERT of these rows, whose columns are all given, in the order of the table."""
        tuples = ", ".join(f"({listed(row)})" for row in rows)
        self.write((text or f"INSERT INTO {spelled(table.name)} VALUES {tuples}") + ";\n")
        written = {}
        for number, row in enumerate(rows, 1):
            fault = table.row_fault(row, written)
            if fault:
                return self.row_refused(number, fault)
            written[table.key_of(row)] = row
        return self.commit(table, written)

    def update(self, table, sets, where=None, text=""):
        """An UPDATE, by what follows SET in its text: `sets` gives for a column a function of the old row, which is a dictionary, and `where` says
        of such a row whether it is taken."""
        self.write(f"UPDATE {spelled(table.name)} SET {text};\n")
        written = {}
        for number, (key, old) in enumerate(table.taken(where), 1):
            row = tuple(sets[name](old) if name in sets else value for name, value in old.items())
            fault = table.values_fault(row)
            if fault:
                return self.row_refused(number, fault)
            written[key] = row
        return self.commit(table, written)

    def delete(self, table, where=None, text=""):
        """A DELETE, by what follows its table in the text."""
        self.write(f"DELETE FROM {spelled(table.name)}{text and ' ' + text};\n")
        return self.commit(table, {key: None for key, _ in table.taken(where)})

    def row_refused(self, number, fault):
        column = f" column {shown(fault[1])}" if fault[1] is not None else ""
        self.outcome(f"refused {fault[0]} row {number}{column} at {len(self.log)}")
        return self

    def commit(self, table, written):
        """The rows of these keys are put, or go where they are None, as the next commit; without any nothing is committed."""
        before = len(self.log)
        if not written:
            self.outcome(f"changed 0 at {before}")
            return self
        if before - self.base == MOST_OVER_A_BASE:
            self.base, self.folded = before, True
        for key, row in written.items():
            if row is None:
                del table.rows[key]
            else:
                table.rows[key] = row
        self.log.append((self.section, table, sorted(written.items(), key=lambda w: ranks(w[0]))))
        self.outcome(f"changed {len(written)} from {before} at {before + 1}")
        return self

    def query(self, graph, columns, variables=("X", "E", "Y"), text=None):
        """Columns are (variable, property, name); the name is None where no AS is written."""
        items = ", ".join(f"{spelled(v)}.{spelled(p)}" + (f" AS {spelled(n)}" if n else "") for v, p, n in columns)
        x, e, y = map(spelled, variables)
        self.write((text or f"SELECT * FROM GRAPH_TABLE ({spelled(graph.name)} MATCH ({x})-[{e}]->({y}) COLUMNS ({items}))") + ";\n")
        rows = []
        for hop in graph.hops():
            stands = dict(zip(variables, hop))
            row = []
            for v, p, _ in columns:
                element, values = stands[v]
                place = element.properties().get(p)
                row.append(None if place is None else values[place])
            rows.append(row)
        return self.answered([n or p for _, p, n in columns], rows)

    def answered(self, names, rows):
        """The outcome of a query with these rows, in any order."""
        self.outcome(f"rows {len(rows)} at {len(self.log)} base {self.base}")
        self.out.append(": " + ", ".join(map(shown, names)))
        self.out += ["= " + listed(row) for row in sorted(rows, key=ranks)]
        return self

    def input(self):
        return "".join(self.pieces).encode()

    def transcript(self):
        out = self.out + (["end"] if self.section is not None else []) + [f"@log {len(self.log)}"]
        for number, (section, table, writes) in enumerate(self.log, 1):
            out.append(f"{number} {section} from {number - 1}")
            for key, row in writes:
                out.append(f"- {shown(table.name)} ({listed(key)})" if row is None else f"+ {shown(table.name)} ({listed(key)}) = ({listed(row)})")
        out += ["@peak kept 2 pins 1" if self.folded else "@peak kept 1 pins 0", "@end"]
        return ("\n".join(out) + "\n").encode()
