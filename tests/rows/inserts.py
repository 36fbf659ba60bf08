"""INSERT: where it is refused, its faulty rows, and the rows that it writes."""
from model import Element, Script, edge
from refusals import BOTH, refused
from running import said
from tables import PQ, base, ints, probe, social


def row_scripts():
    """Faults of rows: the first row with a fault, in it the first column, in a column the first kind; then a key twice."""
    script, t, p, w, e, g = base()
    script.insert(p, (1, 1, "c"), (1, 2, None), (2, 1, "0123456789"))
    big, most = 2**126 - 1, 2147483647
    cases = [
        (t, (None, "a", True)), (t, (5, "a", None)), (t, (most + 1, "a", True)), (t, (big, "a", True)), (t, (5, "abcdef", True)), (t, (5, "éééx", True)),
        (t, (1, "a", True)), (t, (1, "abcdef", None)), (t, (None, "abcdef", None)), (t, (most + 1, "abcdef", None)), (t, (1, "a", None)), (t, (1, "éééé", True)),
        (t, (5, None, True), (6, None, True), (5, None, True)), (t, (5, None, True), (2, None, True), (5, None, True)), (t, (5, "a", True), (None, None, None), (1, None, None)),
        (t, (5, "a", True), (6, "a", None), (most + 1, "a", True)), (p, (1, 1, None)), (p, (1, 3, None), (3, 1, None), (1, 3, "c")), (p, (1, None, None)), (p, (None, None, "x" * 11)),
        (p, (3, most + 1, "x" * 11)), (p, (3, 3, "x" * 11)), (p, (1, 1, "x" * 11)), (w, ("abcd",)), (w, ("éé",)), (w, (None,)), (w, ("a",), ("b",), ("a",)), (e, (2, most + 1, None, None)),
        (e, (2, None, big, "x" * 10)), (e, (1, None, None, None)), (e, (most + 1, None, None, None)), (w, ("",), ("",)), (w, ("A",), ("a",), ("é",), ("abc",), ("aé",), ("éé",)),
    ]  # fmt: skip
    for table, *rows in cases:
        script.insert(table, *rows)
    probe(script, t, e, g)
    script.begin("a")
    for table, *rows in cases:
        script.insert(table, *rows)
    script.insert(e, (5, most, most, "s" * 9)).insert(w, ("A",), ("a",), ("éa",)).insert(w, ("b",), ("A",)).query(g, [("E", "S", None)])
    yield "faults of rows", script
    for last in (1048576, 5, 2147483648):
        script = Script().begin("setup")
        t = script.table("T", [("ID", int)], ["ID"])
        rows = [(i,) for i in range(1048576)] + [(last,)]
        script.insert(t, *rows, text="INSERT INTO t VALUES " + ",".join(f"({i})" for i, in rows)).insert(t, (1,)).begin("a").insert(t, (1,))
        yield f"as many writes as a transaction may have, then {last}", script


def row_order_scripts():
    """Rows behind, between and before those that a table holds, by a key whose columns stand in another order."""
    script = Script().begin("setup")
    t = script.table("T", [("A", int), ("B", 3, True), ("C", bool), ("D", 4)], ["D", "A"])
    v = script.table("V", ints("AB"), ["A"])
    e = script.table("E", ints("KAB"), ["K"])
    g = script.graph("G", [Element(v)], [edge(e, ["A"], v, ["B"], v)])
    script.insert(t, (5, "", None, "x")).insert(t, (1, "a", True, "k"), (3, "", None, "b"), (0, "abc", False, "k")).insert(t, (5, "a", None, "xxxx"), (2147483647, "a", None, "x"))
    for rows in (
        [(None, "a", None, "k")], [(1, "a", None, None)], [(7, "a", True, "k"), (1, "a", None, None)], [(1, None, None, None)], [(2147483648, "abcd", None, "k")],
        [(1, "abcd", None, "abcde")], [(7, "a", True, "k"), (2, "abc", None, "abcde"), (None, None, None, None)], [(7, "a", True, "k"), (5, "a", None, "x")],
        [(5, "abcd", None, "x")], [(7, "a", True, "k"), (2, "a", None, "k"), (6, "a", None, "k"), (7, "b", None, "k")], [(5, "a", None, "x"), (None, "a", None, "x")],
    ):  # fmt: skip
        script.insert(t, *rows)
    for rows in ([(5, 50), (3, 30), (9, 90)], [(12, 1), (15, 2)], [(20, 4), (7, 70), (1, 10)], [(1, 11)]):
        script.insert(v, *rows).insert(e, *((a, a, a) for a, _ in rows)).query(g, [("X", "A", None), ("Y", "B", None)])
    yield "rows between rows", script.begin("a").query(g, [("X", "A", None), ("Y", "B", None)])


def tuple_scripts():
    script = Script()
    p, k, g = social(script)
    script.insert(p, *((i * 7919 % 5003, i) for i in range(5003))).insert(k, *((i, i, i * i % 6000) for i in range(5003)))
    script.begin("a").query(g, PQ)
    yield "many tuples in one INSERT, out of order", script
    script = Script()
    p, k, g = social(script)
    script.insert(p, (1, 2), text=f"INSERT INTO person VALUES ({'(' * 64}1{')' * 64}, ((2)))")
    script.insert(p, (2, 0), text=f"INSERT INTO person VALUES (00{'0' * 300}2, {'0' * 500})")
    script.insert(p, (3, None), text="insert into \"PERSON\"values((3),(null))")
    script.insert(p, (2147483647, 2147483647))
    yield "literals in parentheses, zeros in front, no blanks", script
    script = Script().begin("setup")
    t = script.table("T", [("A", 4), ("B", 2), ("C", bool)], ["A"])
    script.insert(t, ("éé", "é", True), ("", "", False), ("'", "''", None), ("--", ";", None), ("NULL", "\r\n", None), ("\U0001f600", "\t", True))
    yield "texts of any characters", script


def rows():
    yield from refused("inserts.txt", lambda kind: BOTH)
    for group in (row_scripts, row_order_scripts, tuple_scripts):
        for name, script in group():
            yield said(name, script)
