"""Queries: where they are refused, the answers of those of one edge, and of one of each form of the grammar."""
from cases import cases
from model import Element, Script, edge
from refusals import BOTH, refused
from running import said
from tables import PQ, base, hop, ints, probe, social


def label_scripts():
    """Labels that admit every table of the graph ask for nothing more."""
    for pattern in ("(x IS t)-[e]->(y)", "(x:t)-[e:e]->(y:%)", "(x IS %)-[e]->(y IS !e)", "(x)-[e IS e | !e & (t)]->(y)"):
        script, t, p, w, e, g = base()
        script.begin("a").query(g, [("X", "ID", None), ("E", "K", "K")], text=f"SELECT * FROM GRAPH_TABLE (g MATCH {pattern} COLUMNS (x.id, e.k AS k))")
        yield f"labels of every table: {pattern}", script


def kind_scripts():
    script = Script().begin("setup")
    v = script.table("V", [("ID", int), ("NAME", 6), ("OK", bool)], ["ID"])
    e = script.table("E", [("ID", int), ("A", int), ("B", int), ("SINCE", 10), ("OPEN", bool, True)], ["ID"])
    g = script.graph("G", [Element(v)], [edge(e, ["A"], v, ["B"], v)])
    script.insert(v, (1, "Zoe", True), (2, None, False), (3, "ann", None), (4, "", True), (5, "éa", None), (6, "a\nb'c", False), (7, "~", True))
    script.insert(e, *((10 * a + b, a, b, None if b % 2 else f"{a}''{b}", a > b) for a in range(1, 8) for b in range(1, 8)))
    script.begin("a")
    for items in ([("X", "NAME", "N")], [("X", "OK", None), ("Y", "OK", None)], [("E", "SINCE", "S"), ("E", "OPEN", "O"), ("Y", "NAME", "N")]):
        script.query(g, items)
    script.query(g, [("X", "SINCE", "NONE"), ("E", "NAME", None), ("Y", "OPEN", None), ("E", "ID", None)])
    yield "BOOLEAN, VARCHAR and NULL columns", script

    script = Script().begin("setup")
    v = script.table("V", [("NAME", 255), ("OK", bool), ("N", int)], ["OK", "NAME"])
    e = script.table("E", [("A", 9), ("X", bool), ("B", 9), ("Y", bool)], ["A", "X", "B", "Y"])
    g = script.graph("G", [Element(v)], [edge(e, ["X", "A"], v, ["Y", "B"], v)])
    rows = [(s, b, n) for n, s in enumerate(("", "a", "B", "é", "~", "ab")) for b in (True, False)]
    script.insert(v, *rows)
    script.insert(e, *((a, x, b, y) for a, x, n in rows for b, y, m in rows if (n + m) % 3 == 0), ("no", True, "a", True))
    script.begin("a").query(g, [("X", "NAME", "A"), ("X", "OK", "B"), ("Y", "NAME", "C"), ("Y", "OK", "D")])
    script.insert(v, ("a", True, 5)).insert(v, ("no", True, None)).query(g, [("X", "NAME", None), ("Y", "N", None)])
    yield "composite keys of texts and truth values", script

    script = Script().begin("setup")
    v = script.table("V", ints("ABCD"), ["D", "B", "A", "C"])
    e = script.table("E", ints(["K", "P", "Q", "R", "S", "T"]), ["T", "K"])
    g = script.graph("G", [Element(v)], [edge(e, ["P", "Q", "R", "S"], v, ["S", "R", "Q", "P"], v)])
    script.insert(v, *((a, b, c, d) for a in (2, 10) for b in (1, 0) for c in (30, 4) for d in (7, 6)))
    script.insert(e, *((n, d, b, a, c, 100 - n % 9) for n, (a, b, c, d) in enumerate(v.rows[k] for k in v.rows)))
    script.insert(e, (99, 0, 2, 2, 0, 1), (98, None, 1, 2, 30, 1))
    script.insert(v, (1, 1, 1, 1), (0, 0, 0, 0))
    script.insert(e, (97, 1, 1, 1, 1, 50), (96, 0, 0, 0, 0, 50)).begin("a").query(g, [("E", "T", None), ("E", "K", None), ("X", "A", None)])
    yield "keys of four columns in another order", script


def graph_scripts():
    script = Script().begin("setup")
    p = script.table("PERSON", [("ID", int), ("NAME", 20)], ["ID"])
    c = script.table("COMPANY", [("CODE", 4), ("NAME", 9), ("CLOSED", bool, True)], ["CODE"])
    w = script.table("WORKS", [("P", int), ("C", 4), ("SINCE", int)], ["P", "C"])
    k = script.table("KNOWS", ints("AB"), ["B", "A"])
    works, knows = edge(w, ["P"], p, ["C"], c), edge(k, ["A"], p, ["B"], p)
    g = script.graph("ALL_OF_IT", [Element(p), Element(c)], [works, knows])
    h = script.graph("ONLY_WORK", [Element(c), Element(p)], [works])
    n = script.graph("NO_EDGE", [Element(p)])
    script.insert(p, (2, "Bob"), (1, "Ann"), (3, None)).insert(c, ("x", "Acme", False), ("X", "Brass", True))
    script.insert(w, (1, "x", 2015), (2, "x", None), (3, "X", 2020), (3, "x", 7), (4, "x", 1), (1, "no", 1)).insert(k, (1, 2), (2, 3), (2, 1), (9, 1), (3, 3))
    script.begin("a")
    for graph in (g, h):
        script.query(graph, [("X", "NAME", "WHO"), ("Y", "NAME", "FIRM"), ("Y", "CLOSED", None), ("E", "SINCE", None), ("Y", "ID", None)])
    script.query(n, [("X", "NAME", None)]).query(g, [("E", "A", None), ("X", "B", None), ("E", "C", None)])
    yield "two vertex tables, two edge tables, three graphs over them", script

    script = Script()
    p, k, g = social(script)
    h = script.graph("H", [Element(k, [("L", [("A", "FROM_")])])], [edge(p, ["AGE"], k, ["ID"], k)])
    script.insert(p, *((i, 5 - i) for i in range(5))).insert(k, *((i, i, 9 - i) for i in range(10)))
    script.begin("a").query(g, PQ).query(h, [("X", "FROM_", None), ("E", "AGE", None), ("Y", "FROM_", "T")])
    yield "a table that is a vertex table here and an edge table there", script

    script = Script()
    p, k, g = social(script)
    script.insert(p, (1, 5), (2, None), (3, 5))
    script.insert(k, (1, 1, 2), (2, 1, 2), (3, 2, 1), (4, 2, 2), (5, None, 1), (6, 1, None), (7, None, None), (8, 1, 9), (9, 9, 1), (10, 1, 3), (11, 3, 3))
    script.begin("a").query(g, [("X", "AGE", None), ("Y", "AGE", None)]).query(g, [("E", "ID", None), ("X", "ID", "X")])
    script.insert(p, (9, 5)).query(g, [("X", "AGE", "A"), ("Y", "AGE", "A")])
    yield "ends that are NULL, dangling or equal, parallel edges, equal rows and column names", script

    script = Script().begin("setup")
    v = script.table("V", [("ID", int), ("NAME", 9), ("N", int)], ["ID"])
    u = script.table("U", [("ID", int), ("TITLE", 99)], ["ID"])
    e = script.table("E", ints(["K", "A", "B"]), ["K"])
    f = script.table("F", ints(["K", "A", "B"]), ["K"])
    named = Element(v, [("THING", [("NAME", "CALLED")]), ("BOTH", [("ID", "ID"), ("NAME", "CALLED")]), ("V", None), ("BARE", [])])
    titled = Element(u, [("THING", [("TITLE", "CALLED")]), ("U", [("TITLE", "TITLE"), ("TITLE", "AGAIN")])])
    g = script.graph("G", [named, titled], [edge(e, ["A"], v, ["B"], u, [("JOINS", [])]), edge(f, ["B"], u, ["A"], v, [("F", [("K", "N")])])])
    script.insert(v, (1, "one", 5), (2, None, 6)).insert(u, (1, "uno"), (2, "due")).insert(e, (1, 1, 2), (2, 2, 1), (3, 3, 1)).insert(f, (7, 1, 2), (8, 2, 2))
    script.begin("a").query(g, [("X", "CALLED", None), ("Y", "CALLED", None), ("E", "N", None)])
    script.query(g, [("X", "NAME", None), ("X", "TITLE", None), ("Y", "AGAIN", None), ("Y", "N", None), ("X", "ID", None)])
    script.refused("SELECT * FROM GRAPH_TABLE (g MATCH (x)-[e]->(y) COLUMNS (x.name, e.«k))", "NoProperty")
    yield "a property under two labels, properties renamed, no properties", script


def home_scripts():
    """Who lives where and knows whom: keys of two columns, ends that are NULL in part or name nothing, edges from a row to itself."""
    script = Script().begin("setup")
    people = script.table("PEOPLE", [("NAME", 9), ("NUMBER", int), ("ACTIVE", bool)], ["NAME", "NUMBER"])
    cities = script.table("CITIES", [("CODE", int), ("TITLE", 9)], ["CODE"])
    lives = script.table("LIVES", [("NUMBER", int), ("NAME", 9), ("PERSON", int), ("CITY", int), ("YEAR", int)], ["NUMBER"])
    knows = script.table("KNOWS", [("NUMBER", int), ("N1", 9), ("P1", int), ("N2", 9), ("P2", int), ("WELL", bool)], ["NUMBER"])
    firms = script.table("FIRMS", [("CODE", int), ("TITLE", 9)], ["CODE"])
    serves = script.table("SERVES", ints(["NUMBER", "FIRM", "CITY"]), ["NUMBER"])
    named, titled = [("P", [("NAME", "CALLED")]), ("PEOPLE", None)], [("P", [("TITLE", "CALLED")]), ("C", [("CODE", "CODE")])]
    to_city = edge(lives, ["NAME", "PERSON"], people, ["CITY"], cities)
    to_person = edge(knows, ["N1", "P1"], people, ["N2", "P2"], people)
    both = script.graph("BOTH", [Element(people, named), Element(cities, titled)], [to_city, to_person])
    turned = script.graph("TURNED", [Element(cities), Element(people)], [to_city, to_person])
    among = script.graph("AMONG", [Element(people)], [to_person])
    served = script.graph("SERVED", [Element(people, named), Element(cities, titled), Element(firms)], [edge(serves, ["FIRM"], firms, ["CITY"], cities)])
    bare = script.graph("BARE", [Element(people), Element(cities)])
    script.insert(people, ("Ann", 1, True), ("Ann", 2, False), ("Bob", 1, None)).insert(cities, (1, "Delft"), (2, None), (3, "Bonn"))
    script.insert(
        lives, (1, "Ann", 1, 1, 2001), (2, "Ann", 1, 1, 2001), (3, "Ann", 2, 2, 2003), (4, "Bob", 1, 9, 2004), (5, "Cid", 1, 1, 2005),
        (6, "Ann", 3, 1, 2006), (7, None, 1, 1, 2007), (8, "Bob", None, 3, 2008), (9, "Bob", 1, None, 2009), (10, "Bob", 1, 3, None),
    )  # fmt: skip
    script.insert(knows, (1, "Ann", 1, "Ann", 1, True), (2, "Ann", 1, "Bob", 1, False), (3, "Bob", 1, "Ann", 2, None), (4, "Ann", 2, "Bob", 2, True))
    script.insert(firms, (1, "Firm")).insert(serves, (1, 1, 1)).begin("a")
    script.query(both, [("X", "CALLED", None), ("E", "YEAR", None), ("Y", "CALLED", None)])
    script.query(turned, [("E", "WELL", None), ("Y", "ACTIVE", None), ("X", "NUMBER", None)])
    script.query(among, [("X", "NAME", None), ("Y", "NAME", None)]).query(served, [("Y", "CALLED", None), ("X", "TITLE", None)]).query(bare, [("X", "NAME", None)])
    yield "who lives where and knows whom", script


def staff_scripts():
    """Properties that tables have under some label, under another name or not at all, in two graphs."""
    script = Script().begin("setup")
    person = script.table("PERSON", [("ID", int), ("NAME", 40)], ["ID"])
    company = script.table("COMPANY", [("ID", int), ("NAME", 40), ("CLOSED", bool)], ["ID"])
    works = script.table("WORKS", ints(["PERSON_ID", "COMPANY_ID", "SINCE"]), ["PERSON_ID", "COMPANY_ID"])
    knows = script.table("KNOWS", ints("AB"), ["A", "B"])
    party = ("PARTY", [("NAME", "NAME")])
    people = Element(person, [party, ("PERSON", [("ID", "ID"), ("NAME", "NAME")])])
    companies = Element(company, [party, ("COMPANY", [("CLOSED", "CLOSED")])])
    to_company = edge(works, ["PERSON_ID"], person, ["COMPANY_ID"], company, [("WORKS", [("SINCE", "SINCE")])])
    staff = script.graph("STAFF", [people, companies], [to_company, edge(knows, ["A"], person, ["B"], person, [("KNOWS", [])])])
    only = script.graph("ONLY", [Element(person)], [edge(knows, ["A"], person, ["B"], person)])
    script.insert(person, (1, "Ann"), (2, "Bob")).insert(company, (1, "Acme", True)).insert(works, (1, 1, 2020), (2, 1, None)).insert(knows, (1, 2)).begin("a")
    script.query(staff, [("X", "NAME", "A"), ("E", "SINCE", None), ("Y", "CLOSED", None), ("Y", "NAME", None), ("X", "ID", None), ("Y", "ID", "I")])
    for name in ("person_id", "b", "pay"):
        script.refused(hop(f"x.name, e.«{name}", "staff"), "NoProperty")
    script.query(only, [("E", "B", None), ("X", "NAME", None), ("Y", "A", None)]).refused(hop("x.id, e.«since", "only"), "NoProperty")
    yield "properties of two graphs over the same tables", script


def session_scripts():
    script = Script()
    p, k, g = social(script)
    script.query(g, PQ).insert(p, (1, 10)).query(g, PQ).begin("b").query(g, PQ).insert(k, (1, 1, 2)).query(g, PQ)
    script.insert(p, (2, 20), (2, 21)).query(g, PQ).insert(p, (2, 20)).query(g, PQ).insert(k, (1, 1, 1)).insert(k, (2, 2, 1), (0, 2, 2)).query(g, PQ)
    yield "inserts and queries in turns", script


def answer_rows():
    """Queries of a file, whose columns and rows stand beside them."""
    for kind, line in cases("answers.txt"):
        query, names, values = (part.strip() for part in line.split("=>"))
        script, t, p, w, e, g = base()
        script.begin("a").write(query + ";\n")
        rows = [row.strip() for row in values.split(";")] if values else []
        script.outcome(f"{kind} {len(rows)} at {len(script.log)} base {script.base}")
        script.out += [f": {names}"] + [f"= {row}" for row in rows]
        probe(script, t, e, g)
        yield said(f"{kind}: {query[:150]}", script)


def rows():
    yield from answer_rows()
    for file in ("queries.txt", "query_faults.txt"):
        yield from refused(file, lambda kind: BOTH)
    for group in (label_scripts, kind_scripts, graph_scripts, home_scripts, staff_scripts, session_scripts):
        for name, script in group():
            yield said(name, script)
