"""The base of answers: definitions fold at the length of the log, and commits fold where 256 versions stand over the base."""
from model import Element, Script, edge
from running import said
from tables import PQ, social


def inserts(count, where):
    """So many inserts, the last of them in the setup or in the session."""
    script = Script()
    p, k, g = social(script)
    script.insert(p, *((i, i % 7) for i in range(10)))
    if where == "session":
        script.begin("a")
    for i in range(count - 1):
        script.insert(k, (i, i * 5 % 10, i * 3 % 11))
    if where == "setup":
        script.begin("a")
    return script.query(g, PQ)


def base_scripts():
    for count in (1, 2, 255, 256, 257, 258, 300, 512, 513, 514, 769):
        for where in ("setup", "session"):
            yield f"{count} inserts in the {where}", inserts(count, where)
    for before, after in ((1, 0), (2, 256), (2, 257), (200, 200), (300, 3), (257, 256), (257, 257)):
        script = Script()
        p, k, g = social(script)
        for i in range(before):
            script.insert(p, (i, i))
        t = script.table("T", [("K", int)], ["K"])
        script.refused("CREATE TABLE «t (k INT PRIMARY KEY)", "NameTaken")
        for i in range(after):
            script.insert(t, (i,))
        script.begin("a").insert(k, (1, 0, 0)).query(g, PQ).insert(k, (2, 0, 0)).query(g, PQ)
        yield f"a table behind {before} inserts, then {after}", script
    script = Script()
    p, k, g = social(script)
    script.insert(p, (1, 5)).insert(k, (1, 1, 1)).query(g, PQ)
    h = script.graph("H", [Element(p)], [edge(k, ["B"], p, ["A"], p)])
    script.query(h, PQ).insert(k, (2, 1, 1)).query(h, PQ).begin("a").query(g, PQ).query(h, PQ)
    yield "a graph behind inserts, and queries in the setup", script


def rows():
    for name, script in base_scripts():
        yield said(name, script)
