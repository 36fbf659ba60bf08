"""Names of all kinds, and tokens as they are read."""
from model import Element, Script, Table, edge
from running import said


def name_scripts():
    odd = ["it's", "ß", 'a"b', "ab_1", "Zz", "person", "a b", 'x"y', "é", "9X", "SELECT", "_", "Ab", "A-B", '"', " ", "--", ";", "'", "A\nB", "_9", "A1_"]
    for name in odd:
        script = Script().begin("setup")
        v = script.table(name, [(name, int), ("n" + name, 3)], [name])
        e = script.table(name + "e", [(name, int), ("A", int), (name + "b", int)], [name])
        g = script.graph("g" + name, [Element(v, [(name, None)])], [edge(e, ["A"], v, [name + "b"], v, [("l" + name, [(name, "p" + name)])])])
        script.insert(v, (1, "abc"), (2, None)).insert(e, (5, 1, 2)).insert(v, (3, "abcd")).insert(v, (2147483648, "")).insert(v, (None, "")).insert(v, (2, ""))
        script.begin("a").query(g, [(name + "x", name, None), ("E", "p" + name, name), (name, "n" + name, "q" + name)], (name + "x", "E", name))
        yield f"the name {name!r} in every place", script
    script = Script().begin("setup")
    for name in ("Person", "person", "PERSON", "pERSON"):
        script.insert(script.table(name, [("id", int), ("ID", int), ("Id", int)], ["Id"]), (1, 2, 3), (4, 5, 6))
    yield "names that differ in their letters' size", script


def token_scripts():
    """Names and texts as they are read: regular names in upper case, doubled quotes, comments that are none, and longest tokens."""
    script = Script().begin("setup")
    t = script.define(Table("AB_1", [("ZZ", int), ("_", 9), ("it's", 9), ('a"b', 9), ("ß", bool)], ["ZZ"]),
                      """create\r\ntable\tab_1 (Zz INT PRIMARY KEY,_ VARCHAR(9),"it's"VARCHAR(9),"a""b" VARCHAR(9),"ß"BOOLEAN)""")  # fmt: skip
    script.insert(t, (7, "a'b", "''", 'x"y', True), text="INSERT INTO AB_1 VALUES (007,'a''b','''''','x\"y',TRUE)")
    script.insert(t, (12, "x\n--y", "é", "", None), text="INSERT INTO\"AB_1\"VALUES(12,'x\n--y','é','',--é 'b\n--\nNULL)")
    script.insert(t, (13, ";", "--;", '"', None), text="INSERT INTO ab_1 VALUES -- (1);\n(13 , ';' , '--;' , '\"' , NULL)")
    yield "tokens of all kinds", script.begin("a").insert(t, (13, "", None, None, None))


def rows():
    for group in (name_scripts, token_scripts):
        for name, script in group():
            yield said(name, script)
