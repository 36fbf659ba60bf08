"""INSERT with a list of columns and expressions, UPDATE and DELETE: the rows that they change, their faulty rows, and where they are refused."""
from model import Element, Script, edge
from refusals import BOTH, refused
from running import said
from tables import base, ints

MOST = 2147483647


def staff():
    """A table of every kind of column, with four rows, and a table with a key of two columns."""
    script = Script().begin("setup")
    t = script.table("T", [("ID", int), ("N", int), ("NAME", 5), ("OK", bool, True), ("M", int, True)], ["ID"])
    k = script.table("K", [("A", int), ("B", 3), ("C", int)], ["B", "A"])
    script.insert(t, (1, 10, "a", True, 5), (2, None, "b", False, 6), (3, 30, None, True, 7), (4, 40, "dd", False, 8))
    script.insert(k, (1, "x", 1), (2, "x", 2), (1, "y", None), (3, "", 4))
    return script, t, k


def list_scripts():
    """INSERT with its columns in another order, some of them not named, and with operators in its values."""
    script, t, k = staff()
    script.begin("a")
    script.insert(t, (5, 50, "e", True, 9), text="INSERT INTO t (m, ok, name, n, id) VALUES (9, TRUE, 'e', 50, 5)")
    script.insert(t, (6, None, None, False, 1), (7, None, None, True, 2), text="INSERT INTO t (ok, id, m) VALUES (FALSE, 6, 1), (NOT FALSE, 3 + 4, 8 - 6)")
    script.insert(t, (-5, -1, "", True, 12), text="INSERT INTO t VALUES (-5, 2 - 3, '', 'a' = 'a', 3 * (2 + 2))")
    script.insert(k, (4, "z", None), (5, "z", 25), text="INSERT INTO k (b, a, c) VALUES ('z', 4, NULL), ('z', 5, 5 * 5)")
    script.insert(k, (6, "z", None), text="INSERT INTO k (\"B\", \"A\") VALUES (('z'), ((6)))")
    script.insert(t, (8, None, None, True, 3), (8, None, None, True, 4), text="INSERT INTO t (id, ok, m) VALUES (8, TRUE, 3), (4 + 4, TRUE, 4)")
    script.insert(t, (None, None, None, True, 3), text="INSERT INTO t (ok, m) VALUES (TRUE, 3)")
    script.insert(t, (9, None, None, True, None), text="INSERT INTO t (id, ok) VALUES (9, NULL IS NULL)")
    script.insert(t, (MOST + 1, None, None, True, 1), text="INSERT INTO t (id, ok, m) VALUES (2147483647 + 1, TRUE, 1)")
    script.insert(t, (9, None, None, None, 1), text="INSERT INTO t (id, ok, m) VALUES (9, NULL = NULL, 1)")
    script.insert(t, (9, 4611686014132420609, None, True, 1), text="INSERT INTO t (n, id, ok, m) VALUES (2147483647 * 2147483647, 9, TRUE, 1)")
    yield "lists of columns and operators in INSERT", script


def update_scripts():
    script, t, k = staff()
    script.begin("a")
    script.update(t, {"N": lambda r: r["ID"] * 2}, text="n = id * 2")
    script.update(t, {"N": lambda r: r["M"], "M": lambda r: r["N"]}, lambda r: r["ID"] < 3, "n = m, m = n WHERE id < 3")
    script.update(t, {"NAME": lambda r: None, "OK": lambda r: not r["OK"]}, lambda r: r["NAME"] == "b", "name = NULL, ok = NOT ok WHERE name = 'b'")
    script.update(t, {"N": lambda r: 0}, lambda r: r["NAME"] is None, "n = 0 WHERE name IS NULL")
    script.update(t, {"N": lambda r: 1}, lambda r: False, "n = 1 WHERE name = NULL")
    script.update(t, {"N": lambda r: 1}, lambda r: r["ID"] == 9, "n = 1 WHERE id = 9")
    script.update(t, {"N": lambda r: 1}, lambda r: r["ID"] == 4, "n = 1 WHERE 4 = id")
    script.update(t, {"N": lambda r: -r["N"]}, lambda r: r["ID"] == 4 and r["OK"] is False, "n = -n WHERE id = 4 AND NOT ok")
    script.update(t, {"N": lambda r: 7}, lambda r: r["ID"] == 4 and r["OK"], "n = 7 WHERE id = 4 AND ok")
    script.update(t, {"N": lambda r: 8}, lambda r: r["ID"] == 4 or r["ID"] == 1, "n = 8 WHERE id = 4 OR id = 1")
    script.update(t, {"N": lambda r: r["N"]}, lambda r: r["ID"] == 1, "n = n WHERE id = 1")
    script.update(k, {"C": lambda r: r["A"]}, lambda r: r["A"] == 1, "c = a WHERE a = 1")
    script.update(k, {"C": lambda r: 9}, lambda r: (r["A"], r["B"]) == (2, "x"), "c = 9 WHERE b = 'x' AND a = 2")
    script.update(k, {"C": lambda r: 10}, lambda r: (r["A"], r["B"]) == (2, "y"), "c = 10 WHERE a = 2 AND b = 'y'")
    script.update(k, {"C": lambda r: 11}, lambda r: r["B"] < "y", "c = 11 WHERE b < 'y'")
    script.update(k, {"C": lambda r: 12}, lambda r: (r["A"], r["B"]) == (1, "x") and r["A"] == 2, "c = 12 WHERE a = 1 AND b = 'x' AND a = 2")
    yield "rows that UPDATE takes, and what SET reads", script

    script = Script().begin("setup")
    t = script.table("T", ints(["ID", "N"]), ["ID"])
    script.insert(t, *((i, i % 7) for i in range(10000)))
    script.begin("a").update(t, {"N": lambda r: r["N"] + r["ID"]}, text="n = n + id").update(t, {"N": lambda r: r["N"] * 3}, lambda r: r["N"] > 5000, "n = n * 3 WHERE n > 5000")
    script.update(t, {"N": lambda r: 0}, lambda r: r["ID"] == 5000, "n = 0 WHERE id = 5000")
    yield "UPDATE of every row of 10,000", script


def fault_scripts():
    """Each fault of a row of UPDATE at its place, two in one row, two in two rows: the first row decides, and in it the first column."""
    script, t, k = staff()
    script.begin("a")
    script.update(t, {"OK": lambda r: None}, text="ok = NULL")
    script.update(t, {"OK": lambda r: r["N"] == 10 if r["N"] is not None else None}, text="ok = (n = 10)")
    script.update(t, {"N": lambda r: MOST + r["ID"]}, lambda r: r["ID"] > 2, "n = 2147483647 + id WHERE id > 2")
    script.update(t, {"N": lambda r: MOST + r["ID"] - 3}, text="n = 2147483647 + id - 3")
    script.update(t, {"NAME": lambda r: "abcdef"}, lambda r: r["ID"] == 3, "name = 'abcdef' WHERE id = 3")
    script.update(t, {"NAME": lambda r: "éééx"}, text="name = 'éééx'")
    script.update(t, {"NAME": lambda r: "abcdef", "N": lambda r: MOST + 1}, text="name = 'abcdef', n = 2147483648")
    script.update(t, {"M": lambda r: r["N"], "OK": lambda r: None}, lambda r: r["ID"] == 2, "m = n, ok = NULL WHERE id = 2")
    script.update(t, {"M": lambda r: r["N"], "N": lambda r: r["N"] and r["N"] * 100000000}, text="m = n, n = n * 100000000")
    script.update(t, {"M": lambda r: r["N"], "N": lambda r: r["N"] and r["N"] * 1000000}, text="m = n, n = n * 1000000")
    script.update(t, {"N": lambda r: -MOST - 1}, text="n = -2147483647 - 1").update(t, {"N": lambda r: -MOST - 2}, text="n = -2147483647 - 2")
    script.update(k, {"C": lambda r: MOST + (r["C"] or 0)}, text="c = 2147483647 + c").update(k, {"C": lambda r: r["C"] and MOST - 2 + r["C"]}, text="c = 2147483645 + c")
    script.insert(t, (5, 1, "e", True, 1)).update(t, {"N": lambda r: r["N"]}, text="n = n")
    yield "faults of rows of UPDATE", script
    script, t, k = staff()
    script.begin("a")
    script.insert(t, (None, MOST + 1, "x", True, 1), text="INSERT INTO t (name, n, ok, m) VALUES ('x', 2147483647 + 1, TRUE, 1)")
    script.insert(t, (7, None, None, True, 1), (3, None, None, True, None), text="INSERT INTO t (id, ok, m) VALUES (7, TRUE, 1), (3, TRUE, NULL)")
    script.insert(t, (7, None, None, True, 1), (3, None, None, True, 1), (8, None, None, True, None), text="INSERT INTO t (id, ok, m) VALUES (7, TRUE, 1), (3, TRUE, 1), (8, TRUE, NULL)")
    script.insert(t, (7, None, "abcdef", None, 1), text="INSERT INTO t (id, name, m) VALUES (7, 'abcdef', 1)")
    yield "faults of rows of INSERT with a list of columns", script


def delete_scripts():
    script, t, k = staff()
    script.begin("a")
    script.delete(t, lambda r: r["ID"] == 2, "WHERE id = 2").delete(t, lambda r: r["ID"] == 2, "WHERE id = 2")
    script.insert(t, (2, 22, "new", True, 1)).insert(t, (2, 23, "no", True, 1))
    script.delete(t, lambda r: r["NAME"] is None or r["N"] > 30, "WHERE name IS NULL OR n > 30")
    script.delete(k, lambda r: r["B"] == "x", "WHERE b = 'x'").delete(k, lambda r: (r["A"], r["B"]) == (1, "y"), "WHERE a = 1 AND b = 'y' AND c IS NULL")
    script.delete(k, lambda r: False, "WHERE c = NULL").insert(k, (2, "x", 5)).update(k, {"C": lambda r: r["C"] + 1}, text="c = c + 1").delete(k).delete(k)
    script.insert(k, (0, "", 0)).delete(t, lambda r: False, "WHERE FALSE").delete(t, text="WHERE TRUE").insert(t, (1, None, None, False, 0))
    yield "rows that DELETE takes, and the same keys again", script

    script = Script().begin("setup")
    t = script.table("T", ints(["ID", "N"]), ["ID"])
    script.insert(t, *((i, i * 7919 % 1009) for i in range(3000))).begin("a")
    script.delete(t, lambda r: r["N"] < 500, "WHERE n < 500").insert(t, *((i, None) for i in range(3000, 3100)))
    script.delete(t, lambda r: r["ID"] < 64, "WHERE id < 64").delete(t, lambda r: r["ID"] > 2900, "WHERE id > 2900").insert(t, (0, 0), (1500, 1), (9999, 2))
    script.update(t, {"N": lambda r: 1}, lambda r: r["ID"] >= 0, "n = 1 WHERE id >= 0").delete(t).insert(t, (5, 5))
    yield "many rows gone from a long table", script


def graph_scripts():
    """Edges whose ends go and come back."""
    script = Script().begin("setup")
    v = script.table("V", [("ID", int), ("NAME", 5)], ["ID"])
    e = script.table("E", ints(["K", "A", "B"]), ["K"])
    g = script.graph("G", [Element(v)], [edge(e, ["A"], v, ["B"], v)])
    script.insert(v, (1, "a"), (2, "b"), (3, "c")).insert(e, (1, 1, 2), (2, 2, 3), (3, 3, 1)).begin("a")
    names = [("X", "NAME", "P"), ("E", "K", None), ("Y", "NAME", "Q")]
    script.query(g, names).delete(v, lambda r: r["ID"] == 2, "WHERE id = 2").query(g, names)
    script.insert(v, (2, "new")).query(g, names).update(e, {"B": lambda r: r["A"]}, lambda r: r["K"] > 1, "b = a WHERE k > 1").query(g, names)
    script.update(v, {"NAME": lambda r: None}, text="name = NULL").query(g, names).delete(e, lambda r: r["A"] == r["B"], "WHERE a = b").query(g, names)
    yield "queries over changed rows", script


def fold_scripts():
    """Commits of UPDATE and DELETE count towards folds as those of INSERT do; one that changes no row is none."""
    script = Script().begin("setup")
    t = script.table("T", ints(["ID", "N"]), ["ID"])
    script.insert(t, *((i, 0) for i in range(100))).begin("a")
    for i in range(150):
        script.update(t, {"N": lambda r: i}, lambda r: r["ID"] == i, f"n = {i} WHERE id = {i}")
    for i in range(100):
        script.delete(t, lambda r: r["ID"] == i, f"WHERE id = {i}").insert(t, (100 + i, i))
    yield "more changes than a base bears", script


def rows():
    yield from refused("changes.txt", lambda kind: BOTH)
    for group in (list_scripts, update_scripts, fault_scripts, delete_scripts, graph_scripts, fold_scripts):
        for name, script in group():
            yield said(name, script)
