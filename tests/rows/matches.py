"""Queries of patterns: modes, selectors, quantifiers, groups, conditions, joins. The rows that they have are found by `patterns.py`."""
import random

from model import Element, Script
from model import edge as edge_table
from patterns import Filler, Path, Query, ask, edge, group, node
from running import said
from tables import ints

MODES = (None, "WALK", "TRAIL", "ACYCLIC", "SIMPLE")
SELECTORS = (None, "ANY", "ANY SHORTEST", "ALL SHORTEST")
ENDS = [("x.id", "P"), ("y.id", "Q")]


def people(script, persons=None, acquaintances=None):
    """Who knows whom: a triangle with two edges side by side, a loop, and an edge to nobody."""
    script.begin("setup")
    p = script.table("PERSON", [("ID", int), ("NAME", 20)], ["ID"])
    k = script.table("KNOWS", ints(["ID", "A", "B", "W"]), ["ID"])
    g = script.graph("SOCIAL", [Element(p)], [edge_table(k, ["A"], p, ["B"], p)])
    script.insert(p, *(persons or [(1, "Ann"), (2, "Bob"), (3, "Cid"), (4, None)]))
    script.insert(k, *(acquaintances or [(1, 1, 2, 1), (2, 2, 3, 2), (3, 3, 1, 3), (4, 1, 2, 4), (5, 4, 4, 5), (6, 3, 9, 6)]))
    return g


def shown_by(selector, variable):
    """Columns that say as much of a match as the selector leaves without a choice."""
    if selector == "ANY":
        return ENDS
    return ENDS + ([(("COUNT OF", variable), "N")] if selector == "ANY SHORTEST" else [(("SUM", f"{variable}.w"), "S")])


def asked(name, *queries):
    script = Script()
    graph = people(script)
    script.begin("a")
    for query in queries:
        ask(script, graph, query)
    return name, script


def mode_scripts():
    for mode in MODES:
        for selector in SELECTORS:
            columns = shown_by(selector, "e")
            bounds = [(1, 3), (0, 2), (2, 2)] + ([] if mode in (None, "WALK") else [(0, None), (1, None), (2, None)])
            queries = [Query([Path(node("x"), edge("->", "e", quant=b), node("y"), mode=mode, selector=selector)], columns) for b in bounds]
            queries.append(Query([Path(node("x"), edge("-", "e", quant=(1, 2)), node("y"), mode=mode, selector=selector)], columns))
            legs = [("->", Filler("e"), Filler()), ("<-", Filler(), Filler("b"))]
            queries.append(Query([Path(node("x"), group(Filler("a"), *legs, quant=(1, 2)), node("y"), mode=mode, selector=selector)], columns))
            yield asked(f"{mode or 'no mode'}, {selector or 'no selector'}", *queries)


def arrow_scripts():
    one = [Path(node("x"), edge(a, "e"), node("y")) for a in ("->", "<-", "-")]
    columns = ENDS + [("e.id", "E")]
    yield asked("one edge, each way", *(Query([p], columns) for p in one))
    yield asked("edges without a name", *(Query([Path(node("x"), edge(a), node(), edge(b), node("y"))], ENDS) for a in ("->", "<-", "-") for b in ("->", "<-", "-")))
    yield asked("nodes alone", Query([Path(node("x"))], [("x.name", None)]), Query([Path(node("x"), node("y"))], ENDS), Query([Path(node())], [(1, "ONE")]))
    quants = [(0, 0), (1, 1), (0, 1), (3, 3), (2, 4), (0, 3)]
    yield asked("edges repeated", *(Query([Path(node("x"), edge("->", quant=q), node("y"))], ENDS) for q in quants))
    yield asked("edges repeated, either way", *(Query([Path(node("x"), edge("-", quant=q), node("y"))], ENDS) for q in quants[:4]))


def split_scripts():
    """A walk that a pattern cuts in several ways: each is a match of its own only where variables tell them apart."""
    unnamed = Path(node("x"), edge(quant=(0, None)), node(), edge(quant=(0, None)), node("y"), mode="TRAIL")
    named = Path(node("x"), edge("->", "e", quant=(0, None)), node(), edge("->", "f", quant=(0, None)), node("y"), mode="TRAIL")
    middle = Path(node("x"), edge(quant=(0, 2)), node("m"), edge(quant=(0, 2)), node("y"))
    counts = [(("COUNT OF", "e"), "M"), (("COUNT OF", "f"), "N")]
    yield asked("splits without names, with names, and with a node between", Query([unnamed], ENDS), Query([named], ENDS + counts), Query([middle], ENDS + [("m.id", "M")]))
    script = Script()
    graph = people(script)
    query = Query([Path(node("x"), edge(quant=(0, None)), node("y"), mode="TRAIL")], ENDS)
    text = query.text(graph).replace("->*", "->*()" * 499 + "->*")
    yield "500 stars without names under TRAIL", ask(script.begin("a"), graph, query, text)


def condition_scripts():
    path = [Path(node("x", where=("=", "x.id", 1)), edge("->", "e", where=("<", "e.w", 4)), node("y", where=("<>", "y.name", ("text", "Ann"))))]
    nulls = [Query([Path(node("x", where=w))], [("x.id", "P")]) for w in (("IS NULL", "x.name"), ("=", "x.name", None), ("NOT", ("=", "x.name", ("text", "Bob"))), ("OR", ("IS NULL", "x.name"), None), True, None)]
    yield asked("conditions on nodes and on edges", Query(path, ENDS), *nulls)
    final = [("=", "x.id", "y.id"), ("<", "x.id", "y.id"), ("AND", (">=", "e.w", 2), ("<=", "e.w", 4)), ("OR", ("=", "x.name", ("text", "Bob")), ("IS NULL", "y.name"))]
    yield asked("a WHERE behind the pattern", *(Query([Path(node("x"), edge("->", "e"), node("y"))], ENDS + [("e.w", None)], where=w) for w in final))
    short = Path(node("x"), edge("->", "e", quant=(1, None)), node("y"), mode="TRAIL", selector="ALL SHORTEST")
    yield asked("a WHERE behind a selector", *(Query([short], ENDS + [(("SUM", "e.w"), "S")], where=w) for w in ((">", ("SUM", "e.w"), 5), ("=", ("COUNT OF", "e"), 3), ("<", ("MIN", "e.w"), 2))))
    inside = [("<>", "a.id", "b.id"), ("<", "e.w", 4), ("AND", ("<", "a.id", "b.id"), ("IS NOT NULL", "b.name")), ("=", "a.id", "b.id")]
    groups = [Path(node("x"), group(Filler("a"), ("->", Filler("e"), Filler("b")), where=w, quant=(1, 2)), node("y")) for w in inside]
    yield asked("a WHERE in each round of a group", *(Query([p], ENDS + [(("SUM", "e.w"), "S"), (("MAX", "b.name"), "B")]) for p in groups))
    once = group(Filler("a"), ("->", Filler("e"), Filler("b")), ("<-", Filler("f"), Filler("c")), where=("<", "e.id", "f.id"))
    yield asked("a group without a quantifier", Query([Path(once)], [("a.id", "A"), ("b.id", "B"), ("c.id", "C"), (("-", "f.w", "e.w"), "D")]))


def aggregate_scripts():
    path = Path(node("x"), group(Filler("a"), ("->", Filler("e"), Filler("b")), quant=(0, 2)), node("y"))
    items = [("COUNT OF", "e"), ("COUNT", "b.name"), ("SUM", "e.w"), ("MIN", "e.w"), ("MAX", "b.name"), ("MIN", "a.name"), ("SUM", ("*", "e.w", "e.w")), ("COUNT", ("IS NULL", "b.name"))]
    yield asked("group variables under aggregates", *(Query([path], ENDS + [(item, "V")]) for item in items), Query([path], ENDS + [(("+", ("SUM", "e.w"), ("*", ("COUNT OF", "a"), "x.id")), "V")]))
    none = Path(node("x"), edge("->", "e", quant=(0, 0)), node("y"))
    yield asked("aggregates over nothing", Query([none], [("x.id", None)] + [((f, "e.w"), f) for f in ("COUNT", "SUM", "MIN", "MAX")]))
    three = group(Filler("a"), ("->", Filler("e"), Filler("b")), ("->", Filler("f"), Filler("c")), ("->", Filler("h"), Filler("d")), quant=(1, 2))
    yield asked("a group of three edges", Query([Path(three, mode="TRAIL")], [(("MIN", "a.id"), "A"), (("MAX", "d.id"), "D"), (("SUM", ("+", "f.w", 1)), "S")]))
    loop = group(Filler("a"), ("->", Filler("e"), Filler("a")), quant=(1, 2))
    yield asked("one variable twice in a group", Query([Path(node("x"), loop, node("y"))], ENDS + [(("COUNT OF", "a"), "N")]))


def join_scripts():
    yield asked("a variable twice in one path pattern", *(Query([Path(node("x"), edge("->", "e"), node("y"), edge(a, f), node(z))], ENDS) for a, f, z in (("->", "f", "x"), ("->", None, "x"), ("<-", "e", "z"), ("-", "f", "y"))))
    one, two, three = (Path(node(a), edge("->", e), node(b)) for a, e, b in (("x", "e", "y"), ("y", "f", "z"), ("z", "h", "x")))
    edges = [("e.id", "E"), ("f.id", "F")]
    yield asked("two path patterns that share a node", Query([one, two], ENDS + [("z.id", "R")]), Query([one, Path(node("z"), edge("->", "f"), node("y"))], edges), Query([one, Path(node("x"), edge("->", "f"), node("z"))], edges))
    yield asked("two that share both nodes, an edge, and nothing", Query([one, Path(node("y"), edge("->", "f"), node("x"))], edges), Query([one, Path(node("u"), edge("-", "e"), node("v"))], ENDS + [("u.id", "U")]), Query([one, Path(node("u"))], [("e.id", "E"), ("u.id", "U")]))
    yield asked("a triangle of three path patterns", Query([one, two, three], ENDS + [("z.id", "R"), (("+", ("+", "e.w", "f.w"), "h.w"), "W")]), Query([three, two, one], ENDS, where=("<", "x.id", "y.id")))
    yield asked("a triangle of one path pattern", Query([Path(node("x"), edge("->", "e"), node("y"), edge("->", "f"), node("z"), edge("->", "h"), node("x"), mode="TRAIL")], ENDS + [("z.id", "R"), ("h.w", None)]))
    far = Path(node("y"), edge("->", "f", quant=(1, None)), node("z"), mode="TRAIL", selector="ALL SHORTEST")
    yield asked("selectors and quantifiers under joins", Query([one, far], ENDS + [("z.id", "R"), (("SUM", "f.w"), "S")]), Query([far, Path(node("z"), edge("->", "h"), node("x"))], [("x.id", "P"), ("y.id", "Q"), (("COUNT OF", "f"), "N")]))
    both = [Path(node("x"), edge("->", "e", quant=(1, 2)), node("y"), mode="TRAIL"), Path(node("x"), edge("->", "f", quant=(1, 2)), node("y"), mode="TRAIL")]
    yield asked("two lists between the same ends", Query(both, ENDS + [(("SUM", "e.w"), "S"), (("SUM", "f.w"), "T")], where=("<", ("SUM", "e.w"), ("SUM", "f.w"))))
    yield asked("three that share one node", Query([Path(node("x"), edge("->", "e"), node("y")), Path(node("y"), edge("->", "f"), node("z")), Path(node("u"), edge("->", "h"), node("y"))], [("e.id", "E"), ("f.id", "F"), ("h.id", "H")]))


def firms(script, filled=True):
    """Two vertex tables and two edge tables, with properties that only some of them have."""
    script.begin("setup")
    p = script.table("PERSON", [("ID", int), ("NAME", 20), ("AGE", int)], ["ID"])
    f = script.table("FIRM", [("CODE", 4), ("NAME", 20)], ["CODE"])
    w = script.table("WORKS", [("P", int), ("F", 4), ("SINCE", int)], ["P", "F"])
    k = script.table("KNOWS", ints("AB"), ["A", "B"])
    party = ("PARTY", [("NAME", "NAME")])
    vertices = [Element(p, [party, ("PERSON", None)]), Element(f, [party, ("FIRM", [("CODE", "CODE")])])]
    g = script.graph("STAFF", vertices, [edge_table(w, ["P"], p, ["F"], f), edge_table(k, ["A"], p, ["B"], p)])
    if filled:
        script.insert(p, (1, "Ann", 30), (2, "Bob", None), (3, None, 50)).insert(f, ("acme", "Acme"), ("none", None))
        script.insert(w, (1, "acme", 2019), (2, "acme", None), (3, "none", 2024), (4, "acme", 1)).insert(k, (1, 2), (2, 3), (3, 1), (3, 3))
    return g


def property_scripts():
    script = Script()
    g = firms(script)
    script.begin("a")
    columns = [("x.name", "P"), ("x.age", None), ("x.code", None), ("y.code", None), ("e.since", None), ("e.a", None)]
    ask(script, g, Query([Path(node("x"), edge("-", "e"), node("y"))], columns))
    ask(script, g, Query([Path(node("x", where=("IS NULL", "x.age")))], [("x.name", None), ("x.code", None)]))
    ask(script, g, Query([Path(node("x"), edge("->", "e", quant=(1, 2)), node("y", where=("IS NOT NULL", "y.code")))], [("x.id", None), ("y.code", None), (("SUM", "e.since"), "S"), (("COUNT", "e.a"), "N")]))
    ask(script, g, Query([Path(node("x"), edge("->", "e"), node("y"))], [("x.id", None), (("+", "x.age", "y.age"), "A"), (("<", "x.name", "y.name"), "L")], where=("OR", ("IS NULL", "e.since"), (">", "e.since", 2020))))
    yield "properties that a table has not", script
    script = Script()
    g = firms(script)
    script.begin("a")
    for labels in (("PERSON", "WORKS", "FIRM"), ("PARTY", "KNOWS", "PERSON"), ("FIRM", None, "PARTY"), ("!FIRM", "!KNOWS", None), ("FIRM", "KNOWS", None)):
        x, e, y = labels
        ask(script, g, Query([Path(node("x", x), edge("-", "e", e), node("y", y))], [("x.name", "P"), ("y.name", "Q"), ("e.since", None)]))
    ask(script, g, Query([Path(node("x", "PERSON"), edge("->", None, "WORKS"), node("f", "FIRM"), edge("<-", None, "WORKS"), node("y", "PERSON"))], ENDS + [("f.name", None)], where=("<>", "x.id", "y.id")))
    yield "labels", script


def empty_scripts():
    for filled in ("no rows", "vertices alone", "edges alone"):
        script = Script().begin("setup")
        v = script.table("V", [("ID", int)], ["ID"])
        e = script.table("E", ints(["ID", "A", "B"]), ["ID"])
        g = script.graph("G", [Element(v)], [edge_table(e, ["A"], v, ["B"], v)])
        if filled == "vertices alone":
            script.insert(v, (1,), (2,))
        if filled == "edges alone":
            script.insert(e, (1, 1, 2), (2, None, 1))
        script.begin("a")
        for mode in MODES:
            for quant in ((0, 0), (0, 2), (1, 1)) + (() if mode in (None, "WALK") else ((0, None),)):
                ask(script, g, Query([Path(node("x"), edge("->", "e", quant=quant), node("y"), mode=mode)], ENDS))
        ask(script, g, Query([Path(node("x")), Path(node("y"))], ENDS))
        ask(script, g, Query([Path(node("x"), edge("->", "e"), node("y")), Path(node("y"), edge("->", "f"), node("x"))], ENDS))
        yield f"an empty graph: {filled}", script
    script = Script().begin("setup")
    v = script.table("V", [("ID", int)], ["ID"])
    g = script.graph("G", [Element(v)])
    script.insert(v, (1,)).begin("a")
    ask(script, g, Query([Path(node("x"), edge("-", quant=(0, 3)), node("y"))], ENDS))
    ask(script, g, Query([Path(node("x"), edge(), node("y"))], ENDS))
    yield "a graph without edge tables", script


def wide_scripts():
    product = "x.id"
    for _ in range(3):
        product = ("*", product, "x.id")
    queries = [Query([Path(node("x"))], [(product, "V"), (("-", product), "N")]), Query([Path(node("x"), edge("->", "e", quant=(1, 2)), node("y"))], [(("SUM", ("*", "e.w", "e.w")), "S")])]
    script = Script()
    graph = people(script, [(2147483647, "a"), (1, "b")], [(1, 1, 2147483647, 2147483647), (2, 2147483647, 1, 2147483647)])
    script.begin("a")
    for query in queries:
        ask(script, graph, query)
    yield "numbers as wide as they may be", script


def after_scripts():
    """Queries between changes: each is over the tables as they then are."""
    script = Script()
    graph = people(script)
    p, k = graph.vertices[0].table, graph.edges[0].table
    query = Query([Path(node("x"), edge("->", "e", quant=(1, 2)), node("y"))], ENDS + [(("SUM", "e.w"), "S"), ("y.name", None)])
    ask(script.begin("a"), graph, query)
    script.update(k, {"B": lambda r: r["A"], "W": lambda r: r["W"] + 1}, lambda r: r["ID"] == 2, "b = a, w = w + 1 WHERE id = 2")
    ask(script, graph, query)
    script.delete(p, lambda r: r["NAME"] is None, "WHERE name IS NULL")
    ask(script, graph, query)
    script.insert(p, (9, "Eve")).update(p, {"NAME": lambda r: None}, text="name = NULL")
    ask(script, graph, query)
    script.delete(k)
    ask(script, graph, query)
    yield "queries between changes", script


# RANDOM QUERIES


def random_condition(draw, variable, names):
    left = f"{variable}.{draw.choice(names)}"
    kind = draw.randrange(4)
    if kind == 0:
        return (draw.choice(["IS NULL", "IS NOT NULL"]), left)
    if kind == 1:
        return ("NOT", random_condition(draw, variable, names))
    return (draw.choice(["=", "<>", "<", "<=", ">", ">="]), left, draw.randrange(5))


def random_path(draw, names, first, number, mode):
    """A path pattern of one to three edges or groups from a node on, what singletons it has, and its group variables."""
    parts, singles, groups = [node(first)], [first], []
    for i in range(draw.randint(1, 3 if mode else 2)):
        e, v = f"e{number}{i}", f"v{number}{i}"
        where = random_condition(draw, e, ["w", "id"]) if draw.random() < 0.2 else None
        quant = draw.choice([None, None, (0, 1), (1, 2), (2, 2)] + ([(0, None), (1, None)] if mode else []))
        arrow = draw.choice(["->", "->", "<-", "-"])
        if draw.random() < 0.3:
            a, b = f"a{number}{i}", f"b{number}{i}"
            inner = draw.choice([None, ("<>", f"{a}.id", f"{b}.id"), ("<", f"{e}.w", 4)])
            parts.append(group(Filler(a), (arrow, Filler(e), Filler(b)), where=inner, quant=quant))
            (singles if quant is None else groups).extend([a, e, b])
        else:
            parts.append(edge(arrow, e, where=where, quant=quant))
            (singles if quant is None else groups).append(e)
        parts.append(node(v, where=random_condition(draw, v, ["id"]) if draw.random() < 0.2 else None))
        singles.append(v)
    return parts, singles, groups


def random_query(seed):
    draw = random.Random(seed)
    script = Script()
    count = draw.randint(1, 4)
    persons = [(i, draw.choice([None, "a", "b", "c"])) for i in range(1, count + 1)]
    edges = [(i, draw.randint(1, count), draw.randint(1, count + (draw.random() < 0.1)), draw.choice([None, 1, 2, 3, 4])) for i in range(1, draw.randint(2, 6))]
    graph = people(script, persons, edges)
    script.begin("a")
    for _ in range(6):
        paths, singles, groups = [], [], []
        for number in range(draw.choice([1, 1, 1, 2, 2, 3])):
            mode = draw.choice([None, "TRAIL", "ACYCLIC", "SIMPLE", "TRAIL"])
            first = draw.choice([s for s in singles if s[0] in "xv"]) if singles and draw.random() < 0.8 else f"x{number}"
            parts, more, lists = random_path(draw, ["id", "w"], first, number, mode)
            paths.append(Path(*parts, mode=mode, selector=draw.choice([None, None, None, "ALL SHORTEST"])))
            singles += [s for s in more if s not in singles]
            groups += lists
        columns = [(f"{draw.choice(singles)}.id", f"C{i}") for i in range(draw.randint(1, 3))]
        for i, variable in enumerate(draw.sample(groups, min(len(groups), 2))):
            columns.append((draw.choice([("COUNT OF", variable), ("SUM", f"{variable}.id"), ("MAX", f"{variable}.id")]), f"G{i}"))
        where = ("<=", f"{draw.choice(singles)}.id", f"{draw.choice(singles)}.id") if draw.random() < 0.3 else None
        ask(script, graph, Query(paths, columns, where))
    return script


GROUPS = (mode_scripts, arrow_scripts, split_scripts, condition_scripts, aggregate_scripts, join_scripts, property_scripts, empty_scripts, wide_scripts, after_scripts)


def rows():
    for scripts in GROUPS:
        for name, script in scripts():
            yield said(name, script)
    for seed in range(60):
        yield said(f"random query {seed}", random_query(seed))
