"""Tables, graphs and rows that many scripts begin with."""
from model import Element, Script, edge


def columns(prefix, count):
    return [f"{prefix}{i}" for i in range(count)]


def ints(names):
    return [(n, int) for n in names]


def social(script, person=("ID", "AGE"), knows=("ID", "A", "B")):
    """Two tables of numbers and their graph: the usual setup."""
    script.begin("setup")
    p = script.table("PERSON", ints(person), [person[0]])
    k = script.table("KNOWS", ints(knows), [knows[0]])
    return p, k, script.graph("SOCIAL", [Element(p)], [edge(k, ["A"], p, ["B"], p)])


PQ = [("X", "ID", "P"), ("Y", "AGE", "Q")]




def base():
    """Tables, a graph and rows that the refused statements meet, in the setup."""
    script = Script().begin("setup")
    t = script.table("T", [("ID", int), ("NAME", 5), ("OK", bool, True)], ["ID"])
    p = script.table("P2", [("A", int), ("B", int), ("C", 10)], ["A", "B"])
    w = script.table("W", [("ID", 3)], ["ID"])
    e = script.table("E", [("K", int), ("A", int), ("B", int), ("S", 9)], ["K"])
    g = script.graph("G", [Element(t)], [edge(e, ["A"], t, ["B"], t)])
    script.insert(t, (1, "a", True), (2, None, False)).insert(e, (1, 1, 2, "s"))
    return script, t, p, w, e, g


def probe(script, t, e, g):
    """What stands behind a refused statement, and shows that it changed nothing."""
    script.query(g, [("X", "ID", None), ("Y", "NAME", None), ("E", "K", "K")])
    script.insert(e, (2, 2, 3, None)).insert(t, (3, "c", True)).query(g, [("X", "ID", None), ("Y", "ID", None)])


def hop(items, graph="g"):
    return f"SELECT * FROM GRAPH_TABLE ({graph} MATCH (x)-[e]->(y) COLUMNS ({items}))"
