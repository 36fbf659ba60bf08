"""Queries over walks of every length, under WALK. On small graphs `patterns.py` finds the rows by going through the walks; on large ones they
follow from the shape of the graph. Without a selector such a query is refused."""
import random
from math import comb
from matches import ENDS, SELECTORS, asked, firms, people, random_condition, shown_by
from model import Element, Script
from model import edge as edge_table
from patterns import Filler, Path, Query, ask, edge, group, node
from running import said
from tables import ints

KEPT = SELECTORS[1:]


def star(low=0, arrow="->", variable="e", where=None):
    return edge(arrow, variable, where=where, quant=(low, None))


def walk(*parts, selector, mode=None):
    return Path(node("x"), *parts, node("y"), selector=selector, mode=mode)


def selector_scripts():
    for selector in KEPT:
        columns = shown_by(selector, "e")
        for mode in (None, "WALK"):
            queries = [Query([walk(star(low, arrow), selector=selector, mode=mode)], columns) for low in (0, 1, 2, 3) for arrow in ("->", "<-")]
            queries += [Query([walk(star(low, "-"), selector=selector, mode=mode)], columns) for low in (0, 1)]
            yield asked(f"{selector}, {mode or 'no mode'}: unbounded edges", *queries)
        two = group(Filler("a"), ("->", Filler("e"), Filler()), ("->", Filler(), Filler("b")), quant=(1, None))
        back = group(Filler("a"), ("->", Filler("e"), Filler()), ("<-", Filler(), Filler("b")), quant=(0, None))
        three = group(Filler("a"), ("->", Filler("e"), Filler()), ("->", Filler(), Filler()), ("->", Filler(), Filler("b")), quant=(1, None))
        apart = group(Filler("a"), ("->", Filler("e"), Filler("b")), where=("<", "a.id", "b.id"), quant=(0, None))
        yield asked(f"{selector}: groups of one, two and three edges", *(Query([walk(g, selector=selector)], columns) for g in (two, back, three, apart)))


def fixed_scripts():
    for selector in KEPT:
        columns = shown_by(selector, "e")
        behind = walk(edge("->", "f"), node("m"), star(1), selector=selector)
        before = walk(star(0), node("m", where=("=", "m.id", 3)), edge("->", "f"), selector=selector)
        between = walk(edge("->"), node(), star(0), node(), edge("->", "f"), selector=selector)
        yield asked(f"{selector}: unbounded beside single edges", Query([behind], columns), Query([before], columns + [("m.id", "M")]), Query([between], columns))
        closed = Path(node("x"), star(1), node("x"), selector=selector)
        yield asked(f"{selector}: the first node is the last", Query([closed], [("x.id", "P")] + columns[2:]), Query([Path(node("x"), star(0), node("x"), selector=selector)], [("x.id", "P")] + columns[2:]))
        first = Path(node("x", where=("=", "x.id", 1)), star(1), node("y"), selector=selector)
        last = Path(node("x"), star(1), node("y", where=("=", "y.id", 3)), selector=selector)
        light = Path(node("x"), star(1, where=("<", "e.w", 4)), node("y"), selector=selector)
        yield asked(f"{selector}: conditions inside", *(Query([p], columns) for p in (first, last, light)))


def split_scripts():
    for selector in KEPT:
        script = Script()
        graph = people(script)
        query = Query([walk(star(variable=None), selector=selector)], ENDS)
        text = query.text(graph).replace("->*", "->*()" * 499 + "->*")
        yield f"500 stars without names under {selector}", ask(script.begin("a"), graph, query, text)
    # a walk that stars with names can share out in several ways is a binding for each, and one binding where they have none
    script = Script()
    graph = people(script)
    script.begin("a")
    named = [(("COUNT OF", "e"), "M"), (("COUNT OF", "f"), "N")]
    for low, high in ((0, 0), (0, 1), (1, 1)):
        ask(script, graph, Query([walk(star(low), node(), star(high, variable="f"), selector="ALL SHORTEST")], ENDS + named))
        ask(script, graph, Query([walk(star(low, variable=None), node(), star(high, variable=None), selector="ALL SHORTEST")], ENDS))
    ask(script, graph, Query([walk(star(0), node("m"), star(0, variable="f"), selector="ALL SHORTEST")], ENDS + [("m.id", "M")]))
    yield "ways to share a walk out under ALL SHORTEST", script


def filter_scripts():
    """The WHERE behind the pattern is judged after the selector has kept what it keeps."""
    long = ("=", ("COUNT OF", "e"), 5)
    yield asked("ANY SHORTEST: a WHERE that only longer walks meet", Query([walk(star(1), selector="ANY SHORTEST")], ENDS, where=long), Query([walk(star(0), selector="ANY SHORTEST")], ENDS, where=long))


def join_scripts():
    for selector in KEPT:
        columns = shown_by(selector, "f")
        one = Path(node("x"), edge("->", "h"), node("z"))
        on = Path(node("z"), star(0, variable="f"), node("y"), selector=selector)
        back = Path(node("y"), star(1, variable="f"), node("x"), selector=selector)
        yield asked(f"{selector}: joined with an edge", Query([one, on], columns + [("h.id", "H")]), Query([one, Path(node("z"), star(1, variable="f"), node("x"), selector=selector)], columns[:1] + [("z.id", "R")] + columns[2:]))
        yield asked(f"{selector}: two unbounded that share both ends", Query([Path(node("x"), star(1), node("y"), selector=selector), back], columns))
    bound = Path(node("x"), edge("->", "h", quant=(1, 2)), node("z"), mode="TRAIL")
    yield asked("unbounded walks beside trails", Query([bound, Path(node("z"), star(1), node("y"), selector="ANY SHORTEST")], ENDS + [(("COUNT OF", "e"), "M"), (("COUNT OF", "h"), "N")]))


def table_scripts():
    for selector in KEPT:
        script = Script()
        graph = firms(script)
        script.begin("a")
        for labels in (("PERSON", None, "FIRM"), ("PARTY", "KNOWS", "PERSON"), (None, None, None), ("FIRM", "!KNOWS", None)):
            x, e, y = labels
            ask(script, graph, Query([Path(node("x", x), edge("-", "e", e, quant=(0, None)), node("y", y), selector=selector)], [("x.name", "P"), ("y.code", None)]))
        yield f"{selector}: several tables and labels", script
        for filled in (False, True):
            script = Script().begin("setup")
            v = script.table("V", [("ID", int)], ["ID"])
            e = script.table("E", ints(["ID", "A", "B"]), ["ID"])
            g = script.graph("G", [Element(v)], [edge_table(e, ["A"], v, ["B"], v)])
            if filled:
                script.insert(v, (1,), (2,)).insert(e, (1, 1, 3), (2, None, 1))
            script.begin("a")
            for low in (0, 1):
                ask(script, g, Query([walk(star(low), selector=selector)], ENDS))
            yield f"{selector}: a graph {'without edges that lead anywhere' if filled else 'without rows'}", script


# LARGE GRAPHS


def large(vertices, edges):
    """A graph of numbered vertices, and edges (from, to) that are numbered from 1."""
    script = Script().begin("setup")
    v = script.table("V", [("ID", int)], ["ID"])
    e = script.table("E", ints(["ID", "A", "B"]), ["ID"])
    g = script.graph("G", [Element(v)], [edge_table(e, ["A"], v, ["B"], v)])
    script.insert(v, *((i,) for i in vertices)).insert(e, *((number, a, b) for number, (a, b) in enumerate(edges, 1)))
    return script.begin("a"), g


def answered(script, pattern, columns, names, rows):
    script.write(f"SELECT * FROM GRAPH_TABLE (g MATCH {pattern} COLUMNS ({columns}));\n")
    return script.answered(names, rows)


def grid_scripts():
    """From corner to corner of a grid there are binomially many shortest walks, all of one length."""
    side = 7
    cells = [(i, j) for i in range(side) for j in range(side)]
    number = {cell: k for k, cell in enumerate(cells)}
    edges = [(number[c], number[d]) for c in cells for d in ((c[0] + 1, c[1]), (c[0], c[1] + 1)) if d in number]
    last = side * side - 1
    script, _ = large(range(side * side), edges)
    corner = [[last, 2 * side - 2]]
    answered(script, f"ANY SHORTEST (x WHERE x.id = 0)-[e]->*(y WHERE y.id = {last})", "y.id, COUNT(e) AS n", ["ID", "N"], corner)
    answered(script, f"ANY (x WHERE x.id = 0)-[e]->*(y WHERE y.id = {last})", "y.id", ["ID"], [[last]])
    answered(script, "ANY SHORTEST (x WHERE x.id = 0)-[e]->*(y)", "y.id, COUNT(e) AS n", ["ID", "N"], [[number[i, j], i + j] for i, j in cells])
    answered(script, f"ALL SHORTEST (x WHERE x.id = 0)-[e]->*(y WHERE y.id = {last})", "y.id, COUNT(e) AS n", ["ID", "N"], corner * comb(2 * side - 2, side - 1))
    answered(script, "ALL SHORTEST (x WHERE x.id = 0)-[e]->*(y)", "y.id, COUNT(e) AS n", ["ID", "N"], [[number[i, j], i + j] for i, j in cells for _ in range(comb(i + j, i))])
    yield "a grid from corner to corner", script


def dead_end_scripts():
    """Doors that split and meet again, so many that the walks to their end could not be gone through."""
    pairs = 60
    edges = [edge for i in range(pairs) for edge in ((3 * i, 3 * i + 1), (3 * i, 3 * i + 2), (3 * i + 1, 3 * i + 3), (3 * i + 2, 3 * i + 3))]
    script, _ = large(range(3 * pairs + 2), edges)
    answered(script, f"ANY SHORTEST (x WHERE x.id = 0)-[e]->*(y WHERE y.id = {3 * pairs})", "y.id, COUNT(e) AS n", ["ID", "N"], [[3 * pairs, 2 * pairs]])
    # before the last door there is one vertex more, to which one walk leads
    script, _ = large(range(3 * pairs + 2), edges + [(0, 3 * pairs + 1)])
    answered(script, f"ALL SHORTEST (x WHERE x.id = 0)-[e]->*(y WHERE y.id = {3 * pairs + 1})", "y.id, COUNT(e) AS n", ["ID", "N"], [[3 * pairs + 1, 1]])
    answered(script, "ALL SHORTEST (x WHERE x.id = 0)-[e]->{2}(m)-[f]->*(y WHERE y.id = 6)", "y.id, COUNT(f) AS n", ["ID", "N"], [[6, 2]] * 4)
    yield "walks that are too many to go through", script


def chain_scripts():
    length = 3000
    script, _ = large(range(length + 1), [(i, i + 1) for i in range(length)])
    for selector in KEPT:
        answered(script, f"{selector} (x WHERE x.id = 0)-[e]->*(y WHERE y.id = {length})", "COUNT(e) AS n, MAX(e.id) AS m", ["N", "M"], [[length, length]])
        answered(script, f"{selector} (x WHERE x.id = 5)<-[e]-*(y)", "y.id, COUNT(e) AS n", ["ID", "N"], [[5 - n, n] for n in range(6)])
        answered(script, f"{selector} (x WHERE x.id = {length - 7})(()-[e]->()-[f]->(z))+(y)", "y.id, COUNT(f) AS n, MAX(z.id) AS z", ["ID", "N", "Z"], [[length - 7 + 2 * n, n, length - 7 + 2 * n] for n in (1, 2, 3)])
    yield "a long chain", script


def cycle_scripts():
    """A cycle with a chord: the chord is shorter where it is of use, and a walk of two edges a round goes around as often as it must."""
    length, start, end = 9, 2, 7
    script, _ = large(range(length), [(i, (i + 1) % length) for i in range(length)] + [(start, end)])

    def around(a, b):
        plain = (b - a) % length
        to_chord, from_chord = (start - a) % length, (b - end) % length
        return min(plain, to_chord + 1 + from_chord)

    answered(script, "ANY SHORTEST (x WHERE x.id = 0)-[e]->*(y)", "y.id, COUNT(e) AS n", ["ID", "N"], [[b, around(0, b)] for b in range(length)])
    # the least walk with edges from a vertex to itself goes by the chord
    answered(script, "ANY SHORTEST (x WHERE x.id = 0)-[e]->+(x)", "x.id, COUNT(e) AS n", ["ID", "N"], [[0, length - (end - start) + 1]])
    # without the chord a round of two edges comes everywhere, since the cycle is odd: an even least length, going around twice where that is odd
    script.delete(script.tables[1], lambda r: r["ID"] == length + 1, f"WHERE id = {length + 1}")
    even = [[b, (b if b % 2 == 0 else b + length) // 2] for b in range(1, length)] + [[0, length]]
    answered(script, "ANY SHORTEST (x WHERE x.id = 0)(()-[e]->()-[f]->())+(y)", "y.id, COUNT(f) AS n", ["ID", "N"], even)
    thirds = [[b, (b or length) // 3] for b in range(0, length, 3)]
    answered(script, "ANY SHORTEST (x WHERE x.id = 0)(()-[e]->()->()-[f]->())+(y)", "y.id, COUNT(f) AS n", ["ID", "N"], thirds)
    yield "a cycle with a chord", script


def degree_scripts():
    degree = 50000
    script, _ = large(range(degree + 1), [(0, i) for i in range(1, degree + 1)])
    for selector in KEPT:
        answered(script, f"{selector} (x WHERE x.id = 0)-[e]->*(y WHERE y.id > {degree - 3})", "y.id, e.id AS n".replace("e.id", "MAX(e.id)"), ["ID", "N"], [[i, i] for i in range(degree - 2, degree + 1)])
        answered(script, f"{selector} (x WHERE x.id = 7)-[e]-{{2,}}(y WHERE y.id > {degree - 3} AND y.id <= {degree})", "y.id", ["ID"], [[i] for i in range(degree - 2, degree + 1)])
    yield "a vertex of 50,000 edges", script


# RANDOM QUERIES


def random_query(seed):
    draw = random.Random(seed)
    script = Script()
    count = draw.randint(1, 4)
    edges = [(i, draw.randint(1, count), draw.randint(1, count), draw.choice([None, 1, 2, 3, 4])) for i in range(1, count + draw.randint(1, 2))]
    graph = people(script, [(i, draw.choice([None, "a", "b"])) for i in range(1, count + 1)], edges)
    script.begin("a")
    for _ in range(4):
        arrow = draw.choice(["->", "->", "<-"])
        where = random_condition(draw, "e", ["w", "id"]) if draw.random() < 0.2 else None
        low = draw.choice([0, 1])
        kind = draw.randrange(3)
        if kind == 0:
            parts, columns = [star(low, arrow, where=where)], [(("COUNT OF", "e"), "N"), (("SUM", "e.id"), "S")]
        elif kind == 1:
            inner = draw.choice([None, ("<>", "a.id", "b.id"), ("<", "e.w", 4)])
            parts = [group(Filler("a"), (arrow, Filler("e"), Filler("b")), where=inner, quant=(low, None))]
            columns = [(("COUNT OF", "e"), "N"), (("SUM", "b.id"), "S")]
        else:
            parts, columns = [star(low, arrow, where=where), node("m"), edge(draw.choice(["->", "<-"]), "f")], [(("COUNT OF", "e"), "N"), ("m.id", "M"), ("f.id", "F")]
        selector = draw.choice(KEPT)
        shown = columns if selector == "ALL SHORTEST" else columns[:1] if selector == "ANY SHORTEST" and kind < 2 else []
        last = draw.choice(["y", "y", "x"])
        path = Path(node("x"), *parts, node(last), selector=selector)
        paths, ends = [path], ENDS if last == "y" else ENDS[:1]
        if draw.random() < 0.3:
            paths.append(Path(node("x"), edge("->", "h"), node("z")))
            ends = ends + [("z.id", "Z")]
        ask(script, graph, Query(paths, ends + shown))
    return script


GROUPS = (selector_scripts, fixed_scripts, split_scripts, filter_scripts, join_scripts, table_scripts, grid_scripts, dead_end_scripts, chain_scripts, cycle_scripts, degree_scripts)


def rows():
    for scripts in GROUPS:
        for name, script in scripts():
            yield said(name, script)
    for seed in range(60):
        yield said(f"random query over walks {seed}", random_query(seed))
