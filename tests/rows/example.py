"""The examples: what each says, and so the transcript that it has."""
from pathlib import Path

from model import Element, Script
from model import edge as edge_table
from patterns import Filler, Query, ask, edge, group, node
from patterns import Path as Pattern
from running import Row
from tables import ints

EXAMPLES = Path(__file__).resolve().parent.parent.parent / "examples"


def access():
    """Who may do what with which document, through groups."""
    script = Script().begin("setup")
    person = script.table("PERSON", [("ID", int), ("NAME", 40, True), ("ADMIN", bool, True)], ["ID"])
    team = script.table("TEAM", [("ID", int), ("NAME", 40, True)], ["ID"])
    document = script.table("DOCUMENT", [("SHELF", int), ("NUMBER", int), ("TITLE", 80)], ["SHELF", "NUMBER"])
    member = script.table("MEMBER", ints(["PERSON_ID", "TEAM_ID", "SINCE"]), ["PERSON_ID", "TEAM_ID"])
    grant = script.table("ACCESS", ints(["ID", "TEAM_ID", "SHELF", "NUMBER"]) + [("MAY_WRITE", bool)], ["ID"])
    party = ("PARTY", [("NAME", "NAME")])
    people, teams = Element(person, [party, ("PERSON", None)]), Element(team, [party])
    membership = script.graph("MEMBERSHIP", [people, teams], [edge_table(member, ["PERSON_ID"], person, ["TEAM_ID"], team, [("MEMBER", [("SINCE", "SINCE")])])])
    may_write = [("ACCESS", [("MAY_WRITE", "may write")])]
    vertices = [Element(team, [("TEAM", [("NAME", "NAME")])]), Element(document, [("DOCUMENT", [("TITLE", "TITLE")])])]
    permission = script.graph("PERMISSION", vertices, [edge_table(grant, ["TEAM_ID"], team, ["SHELF", "NUMBER"], document, may_write)])
    script.insert(person, (1, "Ann", True), (2, "Bob", False), (3, "Cid", False)).insert(team, (10, "Audit"), (20, "Press"))
    script.insert(document, (1, 1, "Annual report"), (1, 2, None)).insert(member, (1, 10, 2019), (2, 10, 2024), (2, 20, None))
    script.insert(grant, (100, 10, 1, 1, True), (101, 20, 1, 1, False), (102, 10, 1, 2, None)).begin("review")
    script.query(membership, [("P", "NAME", "PERSON"), ("T", "NAME", "TEAM"), ("M", "SINCE", None)], "PMT")
    script.insert(grant, (103, 20, 9, 9, True)).query(permission, [("T", "NAME", "TEAM"), ("D", "TITLE", None), ("A", "may write", None)], "TAD")
    return script.insert(member, (3, 20, 2026), (1, 10, 2026))


def fraud():
    """Payments that come back to where they left, and between accounts that share a device."""
    script = Script().begin("setup")
    account = script.table("ACCOUNT", [("ID", int), ("OWNER", 30, True), ("CLOSED", bool, True)], ["ID"])
    device = script.table("DEVICE", [("ID", int), ("NAME", 20)], ["ID"])
    login = script.table("LOGIN", ints(["ACCOUNT_ID", "DEVICE_ID"]), ["ACCOUNT_ID", "DEVICE_ID"])
    transfer = script.table("TRANSFER", ints(["ID", "PAYER", "PAYEE", "AMOUNT"]), ["ID"])
    edges = [edge_table(login, ["ACCOUNT_ID"], account, ["DEVICE_ID"], device), edge_table(transfer, ["PAYER"], account, ["PAYEE"], account)]
    payments = script.graph("PAYMENTS", [Element(account), Element(device)], edges)
    script.insert(account, *((i, name, False) for i, name in enumerate(("Ada", "Ben", "Cleo", "Dan", "Eve"), 1))).insert(device, (1, "phone 7"), (2, None))
    script.insert(login, (1, 1), (2, 1), (3, 2), (5, 2))
    script.insert(transfer, (1, 1, 2, 900), (2, 2, 3, 880), (3, 3, 1, 860), (4, 3, 4, 20), (5, 4, 5, 15), (6, 5, 3, 500), (7, 1, 4, 70)).begin("analyst")
    ring = Pattern(node("a", "ACCOUNT"), edge("->", "t", "TRANSFER", quant=(3, 5)), node("a"), mode="SIMPLE")
    ask(script, payments, Query([ring], [("a.owner", None), (("COUNT OF", "t"), "PAYMENTS"), (("SUM", "t.amount"), "MOVED"), (("MIN", "t.amount"), "LEAST")]))
    shared = Pattern(node("a"), edge("->", None, "LOGIN"), node("d"), edge("<-", None, "LOGIN"), node("b"))
    columns = [("a.owner", "PAYER"), ("b.owner", "PAYEE"), ("t.amount", None), ("d.name", "DEVICE")]
    ask(script, payments, Query([Pattern(node("a"), edge("->", "t", "TRANSFER"), node("b")), shared], columns))
    script.update(account, {"CLOSED": lambda r: True, "OWNER": lambda r: "closed"}, lambda r: r["ID"] in (1, 5), "closed = TRUE, owner = 'closed' WHERE id = 1 OR id = 5")
    legs = group(Filler("x"), ("->", Filler("t", "TRANSFER"), Filler("y", where=("NOT", "y.closed"))), quant=(3, 5))
    open_ring = Query([Pattern(node("a", "ACCOUNT", ("NOT", "a.closed")), legs, node("a"), mode="SIMPLE")], [("a.owner", None), (("COUNT OF", "t"), "PAYMENTS")])
    ask(script, payments, open_ring).insert(transfer, (8, 4, 2, 430))
    return ask(script, payments, open_ring)


def dependencies():
    """What a package needs, what breaks with one, and what needs itself."""
    script = Script().begin("setup")
    package = script.table("PACKAGE", [("NAME", 20), ("LICENSE", 10), ("SIZE", int, True)], ["NAME"])
    needs = script.table("NEEDS", [("PACKAGE", 20), ("OTHER", 20), ("OPTIONAL", bool, True)], ["PACKAGE", "OTHER"])
    graph = script.graph("DEPENDENCY", [Element(package)], [edge_table(needs, ["PACKAGE"], package, ["OTHER"], package)])
    script.insert(package, ("app", "MIT", 900), ("web", "MIT", 400), ("json", "BSD", 90), ("http", "MIT", 250), ("zip", None, 60), ("log", "GPL", 30))
    script.insert(
        needs, ("app", "web", False), ("app", "json", False), ("app", "log", True), ("web", "http", False), ("web", "json", False),
        ("http", "zip", False), ("http", "log", True), ("json", "zip", True), ("log", "http", True), ("app", "gone", True),
    ).begin("build")  # fmt: skip
    app, steps = ("=", "p.name", ("text", "app")), (("COUNT OF", "n"), "STEPS")
    all_needed = Pattern(node("p", where=app), edge("->", "n", quant=(1, None)), node("q"), mode="ACYCLIC", selector="ALL SHORTEST")
    ask(script, graph, Query([all_needed], [(("COUNT OF", "n"), "DEPTH"), ("q.name", None), ("q.license", None)]))
    to_zip = edge("->", "n", where=("NOT", "n.optional"), quant=(1, None))
    broken = Pattern(node("p"), to_zip, node("z", where=("=", "z.name", ("text", "zip"))), mode="ACYCLIC", selector="ANY SHORTEST")
    ask(script, graph, Query([broken], [("p.name", None), steps]))
    back = Query([Pattern(node("p"), edge("->", "n", quant=(1, None)), node("p"), mode="SIMPLE")], [("p.name", None), steps])
    ask(script, graph, back).delete(needs, lambda r: r["OPTIONAL"] and r["PACKAGE"] != "json", "WHERE optional AND NOT package = 'json'")
    ask(script, graph, back)
    way = Pattern(node("p", where=app), group(Filler("a"), ("->", Filler("n"), Filler("b")), quant=(1, 3)), node("q"), mode="ACYCLIC")
    ask(script, graph, Query([way], [("q.name", None), (("+", "p.size", ("SUM", "b.size")), "SIZE")], where=("<", "q.size", 100)))
    reached = Pattern(node("p", where=app), edge("->", "n", quant=(1, None)), node("q"), selector="ANY SHORTEST")
    return ask(script, graph, Query([reached], [steps, ("q.name", None)]))


def recommendations():
    """What is bought by those who bought the same, and by friends."""
    script = Script().begin("setup")
    customer = script.table("CUSTOMER", [("ID", int), ("NAME", 20, True)], ["ID"])
    product = script.table("PRODUCT", [("ID", int), ("TITLE", 30, True), ("PRICE", int)], ["ID"])
    bought = script.table("BOUGHT", ints(["CUSTOMER_ID", "PRODUCT_ID", "STARS"]), ["CUSTOMER_ID", "PRODUCT_ID"])
    friend = script.table("FRIEND", ints(["ID", "A", "B"]), ["ID"])
    edges = [edge_table(bought, ["CUSTOMER_ID"], customer, ["PRODUCT_ID"], product), edge_table(friend, ["A"], customer, ["B"], customer)]
    shop = script.graph("SHOP", [Element(customer), Element(product)], edges)
    script.insert(customer, (1, "Ann"), (2, "Bob"), (3, "Cid"), (4, "Dot")).insert(product, (10, "Kettle", 30), (11, "Teapot", 45), (12, "Cups", None), (13, "Toaster", 60))
    script.insert(bought, (1, 10, 5), (1, 11, 4), (2, 10, 4), (2, 12, 5), (3, 11, None), (3, 13, 2), (4, 13, 5)).insert(friend, (1, 1, 3), (2, 4, 3), (3, 2, 4)).begin("shop")
    ann = ("=", "c.name", ("text", "Ann"))
    same = [node("c", "CUSTOMER", ann), edge("->", None, "BOUGHT"), node("p"), edge("<-", "b", "BOUGHT"), node("d"), edge("->", "r", "BOUGHT", (">=", "r.stars", 4)), node("q")]
    other = ("AND", ("AND", ("<>", "d.id", "c.id"), ("<>", "q.id", "p.id")), ("IS NOT NULL", "b.stars"))
    ask(script, shop, Query([Pattern(*same)], [("q.title", None), ("d.name", "WHO"), ("r.stars", None)], other))
    friends = Pattern(node("c", where=ann), edge("-", "f", "FRIEND", quant=(1, 2)), node("d", "CUSTOMER"), mode="ACYCLIC")
    theirs = Pattern(node("d"), edge("->", "r", "BOUGHT"), node("q"))
    ask(script, shop, Query([friends, theirs], [(("COUNT OF", "f"), "FAR"), ("d.name", None), ("q.title", None), ("r.stars", None), ("q.price", None)]))
    pair = Pattern(node("p"), edge("<-", None, "BOUGHT"), node("c"), edge("->", None, "BOUGHT"), node("q"))
    columns = [("p.title", "ONE"), ("q.title", "OTHER"), ("c.name", None), (("+", "p.price", "q.price"), "TOGETHER")]
    ask(script, shop, Query([pair], columns, ("<", "p.id", "q.id")))
    script.update(product, {"PRICE": lambda r: r["PRICE"] - 5}, lambda r: r["PRICE"] is not None and r["PRICE"] > 40, "price = price - 5 WHERE price > 40")
    script.update(bought, {"STARS": lambda r: 3}, lambda r: r["STARS"] is None, "stars = 3 WHERE stars IS NULL")
    return ask(script, shop, Query([Pattern(node("p"), edge("<-", "b", "BOUGHT"), node("c"))], [("p.title", None), ("b.stars", None), ("p.price", None)]))


SAID = {"access": access, "fraud": fraud, "dependencies": dependencies, "recommend": recommendations}


def rows():
    for name, script in SAID.items():
        yield Row(f"examples/{name}.pgq", (EXAMPLES / f"{name}.pgq").read_bytes(), script().transcript())
