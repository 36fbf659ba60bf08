"""As many and as long things as there may be, and one more."""
from model import Element, Script, Table, edge
from running import said
from tables import columns, ints


def limit_scripts():
    long = "N" * 128
    script = Script().begin("setup")
    v = script.table("T", ints(columns("C", 32)), ["C0"])
    e = script.table("U", ints(columns("D", 32)), ["D0"])
    g = script.graph("G", [Element(v)], [edge(e, ["D1"], v, ["D2"], v)])
    script.insert(v, tuple(range(1, 33))).insert(e, (9, 1, 1) + (0,) * 29).begin("a").query(g, [("X", "C31", "P"), ("E", "D31", "Q")])
    script.query(g, [("XEY"[i % 3], ("C4", "D0", "C7")[i % 3], f"I{i}") for i in range(32)])
    yield "32 columns, 32 items", script
    script = Script().begin("setup")
    v, l = script.table("V", [("K", int)], ["K"]), script.table("L", [("J", int)], ["J"])
    g = script.graph("G", [Element(v)], [edge(l, ["J"], v, ["J"], v)])
    script.insert(v, (4,)).insert(l, (4,)).begin("s" + "0_" * 15 + "z").query(g, [("E", "J", "P")])
    yield "tables of one column, a loop, a session's name of 32 characters", script
    for name, other in (("names of 128 bytes", long), ("names of 64 characters of two bytes", "é" * 64), ("names of 128 quotes", '"' * 128)):
        script = Script().begin("setup")
        v = script.table(other, [(other, int), ("Q", int)], [other])
        e = script.table("K" * 128, [(other, int)], [other])
        g = script.graph("G" * 128, [Element(v, [(other, None)])], [edge(e, [other], v, [other], v)])
        script.insert(v, (1, 3)).insert(e, (1,)).begin("a").query(g, [(other, other, None), ("X" * 128, "Q", other)], (other, "E", "X" * 128))
        yield name, script
    script = Script().begin("setup")
    tables = [script.table(f"T{i}", ints("AB"), ["A"]) for i in range(64)]
    script.refused("«CREATE TABLE t64 (a INT PRIMARY KEY)", "Limit").refused("CREATE TABLE «t7 (a VARCHAR(0), a INT)", "NameTaken")
    script.refused("CREATE TABLE «t64 (a INT)", "KeyMismatch")
    edges = [edge(t, ["A"], tables[0], ["B"], tables[1]) for t in tables[31:62]]
    for i in range(16):
        g = script.graph(f"G{i}", [Element(tables[0], [(f"L{j}", []) for j in range(i % 8)] + [("Z", None)]), Element(tables[1])][: 2 - (i < 2)], edges[: i and 30] if i > 1 else [])
    script.refused("«CREATE PROPERTY GRAPH g16 VERTEX TABLES (t0)", "Limit").refused("CREATE PROPERTY GRAPH «t63 VERTEX TABLES (t0)", "NameTaken")
    script.insert(tables[0], (1, 2)).insert(tables[1], (5, 6), (7, 8)).insert(tables[63], (1, 1))
    for t in tables[31:61]:
        script.insert(t, (1, 7), (2, 5))
    script.begin("a").query(g, [("X", "A", None), ("E", "A", None), ("Y", "A", None), ("Y", "B", None)])
    yield "64 tables, 16 graphs, 32 element tables, 8 labels", script
    script = Script().begin("setup")
    t = script.table("T", [("A", 1), ("B", 255)], ["A"])
    script.insert(t, ("a", "b" * 255)).insert(t, ("é", "")).insert(t, ("b", "é" * 127 + "x")).insert(t, ("c", "é" * 128)).insert(t, ("d", None))
    u = script.define(Table("U", [("A", 255)], ["A"]), "CREATE TABLE u (a VARCHAR, PRIMARY KEY (a))")
    script.insert(u, ("é" * 127,)).insert(u, ("é" * 127 + "xx",)).insert(u, ("x" * 256,))
    yield "texts at their columns' lengths", script


def long_scripts():
    script = Script().begin("a")
    for _ in range(100000):
        script.refused("«x", "Syntax", ";")
    yield "100,000 statements", script
    script = Script()
    script.write(" " * 16777216)
    yield "16,777,216 spaces", script
    script = Script().begin("setup")
    t = script.table("T", [("ID", int), ("NAME", 9)], ["ID"])
    script.refused("INSERT INTO t VALUES («1" + "0" * 1000000 + ", NULL)", "Wide").refused("INSERT INTO t VALUES (1, NULL, «" + "n" * 1000000 + ")", "Syntax")
    script.insert(t, (1, "é" * 1000000)).insert(t, (1, None), text="INSERT INTO t VALUES (" + "0" * 1000000 + "1, NULL)")
    script.refused("CREATE TABLE u (" + ", ".join(f"c{i} INT" for i in range(100000)) + ", «c5 INT, PRIMARY KEY (c0))", "NameTaken")
    script.refused("INSERT INTO t VALUES " + "(1, NULL), " * 100000 + "«(1)", "Count").begin("a")
    yield "long tokens and long statements", script


def rows():
    for group in (limit_scripts, long_scripts):
        for name, script in group():
            yield said(name, script)
