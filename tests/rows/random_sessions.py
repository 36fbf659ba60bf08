"""Random scripts, whose transcripts the model gives, and sessions of random statements, of which the grammar says where each is none."""
import random
import re

from grammar import random_session
from model import Element, Script, edge
from running import Row, run, said


def random_table(draw, name, key_kinds, others):
    """A table of these kinds and some more, with its columns in any order, and the names of the others."""
    letters = {int: "I", bool: "B"}
    kinds = key_kinds + others + [draw.choice([int, int, bool, 3]) for _ in range(draw.randint(0, 2))]
    found = [(f"{letters.get(kind, 'S')}{i}", kind, draw.random() < 0.2) for i, kind in enumerate(kinds)]
    names = [c[0] for c in found]
    draw.shuffle(found)
    split = len(key_kinds)
    return (name, found, names[:split]), names[split : split + len(others)]


def random_value(draw, kind):
    if draw.random() < 0.08:
        return None
    if kind is int:
        return draw.choice([0, 1, 2, 3, 10, 2147483647, 2147483648 if draw.random() < 0.1 else 4])
    return draw.random() < 0.5 if kind is bool else draw.choice(["", "a", "b", "B", "é", "'", "abc", "abcd" if draw.random() < 0.2 else "~"])


def random_script(seed):
    draw = random.Random(seed)
    script = Script().begin("setup")
    keys = [[int], [3], [bool, int], [int, int]]
    vertices = [script.table(*random_table(draw, f"V{i}", draw.choice(keys), [])[0]) for i in range(draw.randint(1, 3))]
    edges, tables = [], list(vertices)
    for i in range(draw.randint(0, 3)):
        source, dest = draw.choice(vertices), draw.choice(vertices)
        kinds = [[t.columns[p].kind for p in t.places] for t in (source, dest)]
        made, ends = random_table(draw, f"E{i}", [int], kinds[0] + kinds[1])
        t = script.table(*made)
        edges.append(edge(t, ends[: len(kinds[0])], source, ends[len(kinds[0]) :], dest))
        tables.append(t)
    graphs = [script.graph("G0", [Element(v) for v in vertices], edges)]
    graphs.append(script.graph("G1", [Element(v) for v in reversed(vertices)], edges[1:]))
    columns_of = {g.name: sorted({c.name for el in g.vertices + g.edges for c in el.table.columns}) for g in graphs}
    for i in range(draw.randint(5, 60)):
        if i == 30:
            script.begin("a")
        t = draw.choice(tables)
        if draw.random() < 0.2:
            g = draw.choice(graphs)
            script.query(g, [(draw.choice("XEY"), draw.choice(columns_of[g.name]), draw.choice([None, "P", "q"])) for _ in range(draw.randint(1, 5))])
        else:
            script.insert(t, *(tuple(random_value(draw, c.kind) for c in t.columns) for _ in range(draw.randint(1, 4))))
    return script


def ways(word, first, fault):
    """The outcomes that a statement may have in a session over no tables: by its first word and the place of that, or by its fault."""
    if fault is not None:
        return [f"refused Syntax at byte {fault}"]
    if word == "CREATE":
        return [f"refused DefinitionInSession at byte {first}"]
    kind = {"INSERT": "NoTable", "UPDATE": "NoTable", "DELETE": "NoTable", "SELECT": "NoGraph"}.get(word)
    return [f"refused {kind} at byte \\d+" if kind else f"refused NotYet at byte {first}"]


class Statements(Row):
    """A session of random statements, each with the outcomes that it may have."""

    def __init__(self, name, given, wanted):
        super().__init__(name, given)
        self.wanted = wanted

    def fault(self, program):
        result = run(program, self.words, self.given)
        lines = result.stdout.decode().split("\n")
        if result.returncode or result.stderr or lines[0] != "@session a" or lines[-5:] != ["end", "@log 0", "@peak kept 1 pins 0", "@end", ""]:
            return f"status {result.returncode}, {result.stderr}, or another frame"
        for number, (have, (text, *said_of)) in enumerate(zip(lines[1:-5], self.wanted), 1):
            if not any(re.fullmatch(f"{number} {way}", have) for way in ways(*said_of)):
                return f"{have}, wanted {ways(*said_of)}: {text!r}"
        return None if len(lines) == len(self.wanted) + 6 else f"{len(lines) - 6} outcomes, wanted {len(self.wanted)}"


def rows():
    for seed in range(60):
        yield said(f"random script {seed}", random_script(seed))
    for seed in range(40):
        yield Statements(f"random statements {seed}", *random_session(random.Random(seed), 50))
