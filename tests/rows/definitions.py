"""CREATE TABLE and CREATE PROPERTY GRAPH: where they are refused, and that they leave nothing behind then."""
from model import MARK, Element, Script, edge
from refusals import SESSION, SETUP, refused
from running import said
from tables import hop, ints


def element_scripts():
    """The 33rd element table, counted over vertex and edge tables."""
    for vertices, edges in ((33, 0), (32, 1), (32, 3), (1, 32), (34, 0)):
        script = Script().begin("setup")
        tables = [script.table(f"T{i}", ints("AB"), ["A"]) for i in range(35)]
        listed = ["t%d" % i for i in range(vertices)]
        joins = [f"t{i} SOURCE KEY (a) REFERENCES t0 (a) DESTINATION KEY (b) REFERENCES t0 (a)" for i in range(vertices, vertices + edges)]
        both = listed + joins
        both[32] = MARK + both[32]
        text = "CREATE PROPERTY GRAPH g VERTEX TABLES (" + ", ".join(both[:vertices]) + ")"
        script.refused(text + (" EDGE TABLES (" + ", ".join(both[vertices:]) + ")" if edges else ""), "Limit")
        g = script.graph("G", [Element(tables[0])], [edge(tables[1], ["A"], tables[0], ["B"], tables[0])])
        script.insert(tables[0], (1, 1)).insert(tables[1], (1, 1)).begin("a").query(g, [("X", "A", None)])
        yield f"{vertices} vertex tables and {edges} edge tables", script


def names_again():
    """What was refused can be defined afterwards, and a definition that was refused in a session is none."""
    script = Script().begin("setup")
    script.refused("CREATE TABLE «t (id INT)", "KeyMismatch").refused("CREATE PROPERTY GRAPH g VERTEX TABLES («t)", "NoTable")
    script.refused("INSERT INTO «t VALUES (1)", "NoTable")
    t = script.table("T", [("ID", int)], ["ID"])
    g = script.graph("G", [Element(t)])
    script.insert(t, (1,)).refused("CREATE TABLE «g (id INT PRIMARY KEY)", "NameTaken").refused("«BEGIN", "NotYet").insert(t, (2,))
    script.begin("a").refused("«CREATE TABLE u (id INT PRIMARY KEY)", "DefinitionInSession").refused("INSERT INTO «u VALUES (1)", "NoTable")
    script.refused("«CREATE PROPERTY GRAPH h VERTEX TABLES (t)", "DefinitionInSession").refused(hop("x.id", "«h"), "NoGraph").query(g, [("X", "ID", None)])
    script.refused("«COMMIT", "NotYet").insert(t, (2,)).insert(t, (3,))
    yield "refused, then defined", script


def without_setup():
    script = Script().begin("a")
    script.refused("INSERT INTO «t VALUES (1)", "NoTable").refused("«CREATE TABLE t (id INT PRIMARY KEY)", "DefinitionInSession")
    script.refused("SELECT * FROM GRAPH_TABLE («g MATCH (x)-[e]->(y) COLUMNS (x.id))", "NoGraph").refused("INSERT INTO «t VALUES (1)", "NoTable")
    yield "a session without a setup", script


def rows():
    yield from refused("definitions.txt", lambda kind: SESSION if kind == "DefinitionInSession" else SETUP)
    for group in (element_scripts, names_again, without_setup):
        for name, script in group():
            yield said(name, script)
