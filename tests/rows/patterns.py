"""Patterns over small graphs: every binding is found from the definitions, by going through all walks and all ways to cut them.

It knows nothing of the program, and of searches neither. A query is data, and gives both its text and its rows. An expression is a text
or a tuple: `'x.p'` is a property, `1`, `True`, `None` and `("text", 'a')` are literals, `("+", a, b)` is an operator, `("NOT", a)`,
`("IS NULL", a)`, `("IS NOT NULL", a)` and `("SUM", a)` speak for themselves, and `("COUNT OF", 'e')` counts what a variable stands for.
"""
from itertools import product
from math import inf

from model import literal, rank, ranks, spelled

AGGREGATES = ("COUNT", "SUM", "MIN", "MAX")
WALK_LIMIT = 8  # edges of a walk under WALK where the pattern has no bound; on small graphs the shortest are shorter


# EXPRESSIONS


def written(e):
    """An expression as a script writes it, in parentheses throughout."""
    if isinstance(e, str):
        variable, name = e.split(".")
        return f"{variable}.{spelled(name.upper())}"
    if not isinstance(e, tuple):
        return literal(e)
    op, *parts = e
    if op == "text":
        return literal(parts[0])
    if op == "COUNT OF":
        return f"COUNT({parts[0]})"
    if op in AGGREGATES:
        return f"{op}({written(parts[0])})"
    if op in ("IS NULL", "IS NOT NULL"):
        return f"({written(parts[0])} {op})"
    if len(parts) == 1:
        return f"({op} {written(parts[0])})"
    return f"({written(parts[0])} {op} {written(parts[1])})"


def variables_of(e):
    if isinstance(e, str):
        return {e.split(".")[0]}
    if not isinstance(e, tuple) or e[0] == "text":
        return set()
    return set(e[1:]) if e[0] == "COUNT OF" else set().union(*map(variables_of, e[1:]))


def truth_and(a, b):
    return False if a is False or b is False else None if a is None or b is None else True


def denied(a):
    return None if a is None else not a


def compared(op, a, b):
    if a is None or b is None:
        return None
    a, b = rank(a), rank(b)
    return {"=": a == b, "<>": a != b, "<": a < b, "<=": a <= b, ">": a > b, ">=": a >= b}[op]


def aggregated(op, values):
    values = [v for v in values if v is not None]
    if op == "COUNT":
        return len(values)
    if not values:
        return None
    return {"SUM": sum, "MIN": lambda vs: min(vs, key=rank), "MAX": lambda vs: max(vs, key=rank)}[op](values)


def value_of(e, graph, stands):
    """The value of an expression where each variable stands for a list of elements."""
    if isinstance(e, str):
        variable, name = e.split(".")
        return graph.property(stands[variable][0], name.upper())
    if not isinstance(e, tuple):
        return e
    op, *parts = e
    if op == "text":
        return parts[0]
    if op == "COUNT OF":
        return len(stands[parts[0]])
    if op in AGGREGATES:
        (variable,) = variables_of(parts[0])
        return aggregated(op, [value_of(parts[0], graph, {**stands, variable: [element]}) for element in stands[variable]])
    values = [value_of(part, graph, stands) for part in parts]
    if op in ("IS NULL", "IS NOT NULL"):
        return (values[0] is None) == (op == "IS NULL")
    if op == "NOT":
        return denied(values[0])
    if op == "AND":
        return truth_and(*values)
    if op == "OR":
        return denied(truth_and(denied(values[0]), denied(values[1])))
    if op in ("+", "-", "*"):
        if None in values:
            return None
        return -values[0] if len(values) == 1 else {"+": lambda a, b: a + b, "-": lambda a, b: a - b, "*": lambda a, b: a * b}[op](*values)
    return compared(op, *values)


# GRAPHS


class Seen:
    """A graph as patterns see it: elements are (table's name, key)."""

    def __init__(self, graph):
        self.elements = {}
        for element in graph.vertices + graph.edges:
            for key, row in element.table.rows.items():
                self.elements[element.table.name, key] = element, row
        self.vertices = [(v.table.name, key) for v in graph.vertices for key in v.table.rows]
        self.edges = [((e.table.name, e.table.key_of(row)), (a.table.name, a.table.key_of(x)), (b.table.name, b.table.key_of(y))) for (a, x), (e, row), (b, y) in graph.hops()]

    def property(self, element, name):
        owner, row = self.elements[element]
        place = owner.properties().get(name)
        return None if place is None else row[place]

    def has_label(self, element, label):
        owner = self.elements[element][0]
        return label in ([owner.table.name] if owner.labels is None else [name for name, _ in owner.labels])

    def steps(self, vertex):
        """The hops from a vertex, either way, each once."""
        found = [(e, b) for e, a, b in self.edges if a == vertex] + [(e, a) for e, a, b in self.edges if b == vertex]
        return list(dict.fromkeys(found))

    def leads(self, arrow, vertex, hop):
        out, into = (hop[0], vertex, hop[1]) in self.edges, (hop[0], hop[1], vertex) in self.edges
        return {"->": out, "<-": into, "-": out or into}[arrow]


# PATTERNS


class Filler:
    """What stands in a node's or an edge's brackets. A label is a name, or `!name`."""

    def __init__(self, variable=None, label=None, where=None):
        self.variable, self.label, self.where = variable, label, where

    def text(self):
        label = self.label and ("!" if self.label[0] == "!" else "") + spelled(self.label.lstrip("!"))
        where = None if self.where is None else f"WHERE {written(self.where)}"
        return " ".join(filter(None, [self.variable, label and f"IS {label}", where]))

    def seen(self, element):
        return [(self.variable, element)] if self.variable else []

    def admits(self, graph, element):
        if self.label and graph.has_label(element, self.label.lstrip("!")) == (self.label[0] == "!"):
            return False
        return self.where is None or value_of(self.where, graph, {self.variable: [element]}) is True


class Part:
    """A node, an edge or a group: a node, legs of an arrow, an edge and a node, a condition, and how often it is gone through."""

    def __init__(self, node, legs, where=None, quant=None, grouped=False):
        self.node, self.legs, self.where, self.quant, self.grouped = node, legs, where, quant, grouped

    def text(self):
        out = f"({self.node.text()})" if self.node else ""
        for arrow, edge, node in self.legs:
            inner = edge.text()
            out += {"->": f"-[{inner}]->", "<-": f"<-[{inner}]-", "-": f"-[{inner}]-"}[arrow] if inner else arrow
            out += f"({node.text()})" if node else ""
        if self.grouped:
            out = f"({out}" + (f" WHERE {written(self.where)})" if self.where is not None else ")")
        return out + bounds_text(self.quant)

    def most(self):
        """The most edges that it goes over, or None where there is no such number."""
        if self.quant is None:
            return len(self.legs)
        return None if self.quant[1] is None else len(self.legs) * self.quant[1]

    def round(self, graph, vertex, hops):
        """What one round from a vertex over these hops names, or None where it does not fit."""
        if self.node and not self.node.admits(graph, vertex):
            return None
        seen = self.node.seen(vertex) if self.node else []
        for (arrow, edge, node), hop in zip(self.legs, hops):
            if not graph.leads(arrow, vertex, hop) or not edge.admits(graph, hop[0]) or node and not node.admits(graph, hop[1]):
                return None
            seen += edge.seen(hop[0]) + (node.seen(hop[1]) if node else [])
            vertex = hop[1]
        stands = once(seen)
        if stands is None:
            return None
        if self.where is not None and value_of(self.where, graph, {v: [e] for v, e in stands.items()}) is not True:
            return None
        return stands


def once(seen):
    """Each variable with its element, or None where one stands for two."""
    stands = {}
    for variable, element in seen:
        if stands.setdefault(variable, element) != element:
            return None
    return stands


def bounds_text(quant):
    if quant is None:
        return ""
    low, high = quant
    if high is None:
        return {0: "*", 1: "+"}.get(low, f"{{{low},}}")
    return f"{{{low}}}" if low == high else f"{{{low},{high}}}"


def node(variable=None, label=None, where=None):
    return Part(Filler(variable, label, where), [])


def edge(arrow="->", variable=None, label=None, where=None, quant=None):
    return Part(None, [(arrow, Filler(variable, label, where), None)], quant=quant)


def group(first, *legs, where=None, quant=None):
    """A group of nodes and legs: `first` is a Filler, and each leg (arrow, Filler, Filler)."""
    return Part(first, list(legs), where, quant, grouped=True)


class Path:
    def __init__(self, *parts, mode=None, selector=None):
        self.parts, self.mode, self.selector = parts, mode, selector

    def text(self):
        return " ".join(filter(None, [self.selector, self.mode, "".join(p.text() for p in self.parts)]))

    def variables(self):
        found = []
        for part in self.parts:
            fillers = ([part.node] if part.node else []) + [f for _, e, n in part.legs for f in (e, n) if f]
            found += [f.variable for f in fillers if f.variable]
        return list(dict.fromkeys(found))

    def longest(self):
        mosts = [p.most() for p in self.parts]
        return sum(mosts) if None not in mosts else WALK_LIMIT if self.mode in (None, "WALK") else inf

    def permits(self, start, hops):
        vertices, edges = [start] + [to for _, to in hops], [e for e, _ in hops]
        if self.mode == "TRAIL":
            return len(set(edges)) == len(edges)
        if self.mode == "ACYCLIC":
            return len(set(vertices)) == len(vertices)
        if self.mode == "SIMPLE":
            return len(set(vertices[:-1])) == len(vertices[:-1]) and len(set(vertices[1:])) == len(vertices[1:])
        return True

    def walks(self, graph, start, hops=()):
        """All walks from a vertex that the mode permits: what it permits of a walk it permits of its fronts."""
        yield hops
        if len(hops) < self.longest():
            for hop in graph.steps(hops[-1][1] if hops else start):
                if self.permits(start, hops + (hop,)):
                    yield from self.walks(graph, start, hops + (hop,))

    def cuts(self, graph, parts, vertex, hops):
        """For each way to cut hops from a vertex over the parts: what the singletons stand for, and the lists of the quantified parts."""
        if not parts:
            if not hops:
                yield [], []
            return
        part, length = parts[0], len(parts[0].legs)
        low, high = part.quant or (1, 1)
        rounds, v, number = [], vertex, 0
        while True:
            if number >= low:
                for singles, lists in self.cuts(graph, parts[1:], v, hops[number * length :]):
                    own = [pair for stands in rounds for pair in stands.items()]
                    yield (own + singles, lists) if part.quant is None else (singles, own + lists)
            if number == high or number * length + length > len(hops):
                return
            stands = part.round(graph, v, hops[number * length : (number + 1) * length])
            if stands is None:
                return
            rounds.append(stands)
            number += 1
            v = hops[number * length - 1][1] if length else v

    def allowed(self, graph):
        """Every allowed binding: its start, its hops, and the list of each variable."""
        found = {}
        names = self.variables()
        for start in graph.vertices:
            for hops in self.walks(graph, start):
                for singles, lists in self.cuts(graph, self.parts, start, hops):
                    stands = once(singles)
                    if stands is not None:
                        pairs = list(stands.items()) + lists
                        found[start, hops, tuple((n, tuple(e for v, e in pairs if v == n)) for n in names)] = True
        return list(found)

    def choices(self, graph):
        """What the selector keeps. Where it leaves a choice these are several lists: that of the first and that of the last of each pair."""
        pairs = {}
        for binding in self.allowed(graph):
            start, hops, _ = binding
            pairs.setdefault((start, hops[-1][1] if hops else start), []).append(binding)
        if self.selector is None:
            return [[b for bindings in pairs.values() for b in bindings]]
        if self.selector == "ANY":
            return [[bindings[i] for bindings in pairs.values()] for i in (0, -1)]
        shortest = [[b for b in bindings if len(b[1]) == min(len(c[1]) for c in bindings)] for bindings in pairs.values()]
        if self.selector == "ALL SHORTEST":
            return [[b for bindings in shortest for b in bindings]]
        return [[bindings[i] for bindings in shortest] for i in (0, -1)]


class Query:
    """Columns are (expression, name); the name is None where a property has its own."""

    def __init__(self, paths, columns, where=None):
        self.paths, self.columns, self.where = paths, columns, where

    def text(self, graph):
        items = ", ".join(written(e) + (f" AS {spelled(n)}" if n else "") for e, n in self.columns)
        where = "" if self.where is None else f" WHERE {written(self.where)}"
        return f"SELECT * FROM GRAPH_TABLE ({spelled(graph.name)} MATCH {', '.join(p.text() for p in self.paths)}{where} COLUMNS ({items}))"

    def names(self):
        return [n or e.split(".")[1].upper() for e, n in self.columns]

    def joined(self, graph, kept):
        for tuple_ in product(*kept):
            stands, agree = {}, True
            for _, _, lists in tuple_:
                for variable, elements in lists:
                    agree = agree and stands.setdefault(variable, elements) == elements
            if agree and (self.where is None or value_of(self.where, graph, stands) is True):
                yield [value_of(e, graph, stands) for e, _ in self.columns]

    def rows(self, graph):
        """The rows in value order. A query of which a selector leaves a choice must have the same rows for each."""
        seen = Seen(graph)
        answers = [sorted(self.joined(seen, kept), key=ranks) for kept in product(*(p.choices(seen) for p in self.paths))]
        assert all(a == answers[0] for a in answers), f"an answer with a choice: {self.text(graph)}"
        return answers[0]


def ask(script, graph, query, text=None):
    """Writes a query into a script, and its answer into the transcript."""
    script.write((text or query.text(graph)) + ";\n")
    return script.answered(query.names(), query.rows(graph))
