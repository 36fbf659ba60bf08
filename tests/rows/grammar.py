"""The grammar of statements as text, and the first token that no statement continues, found by Earley's method from that text alone.

It knows nothing of the program. `random_session` gives statements that are derived from the grammar and then spoiled.
A token is (sort, text); the sorts are w (a word), q (a quoted name), n (a number), t (a text), s (a symbol), b (no token), e (the end).
Limits of nesting, operators and names are not in it.
"""
import re

from model import RESERVED

RULES_TEXT = """
statement := body ';'
body := CREATE TABLE name '(' item { ',' item } ')'
  | CREATE PROPERTY GRAPH name VERTEX TABLES '(' vtable { ',' vtable } ')' [ EDGE TABLES '(' etable { ',' etable } ')' ]
  | INSERT INTO name [ names ] VALUES tuple { ',' tuple }
  | UPDATE name SET name '=' of_row { ',' name '=' of_row } [ WHERE of_row ] | DELETE FROM name [ WHERE of_row ]
  | BEGIN [ TRANSACTION ] | START TRANSACTION | COMMIT [ WORK ] | ROLLBACK [ WORK ]
  | SELECT '*' FROM GRAPH_TABLE '(' name MATCH path { ',' path } [ WHERE of_query ] COLUMNS '(' column { ',' column } ')' ')' [ [ AS ] name ]
item := name type { NOT NULL | PRIMARY KEY } | PRIMARY KEY names
type := INTEGER | INT | BOOLEAN | VARCHAR [ '(' number ')' ]
names := '(' name { ',' name } ')'
vtable := name [ KEY names ] labels
etable := name [ KEY names ] SOURCE KEY names REFERENCES name names DESTINATION KEY names REFERENCES name names labels
labels := [ props ] | label { label }
label := ( LABEL name | DEFAULT LABEL ) [ props ]
props := NO PROPERTIES | PROPERTIES '(' prop { ',' prop } ')' | PROPERTIES [ ARE ] ALL COLUMNS
prop := name [ AS name ]
tuple := '(' of_tuple { ',' of_tuple } ')'
column := name '.' name [ AS name ] | of_query AS name
path := [ ANY [ SHORTEST ] | ALL SHORTEST ] [ WALK | TRAIL | ACYCLIC | SIMPLE ] [ PATH | PATHS ] block { [ edge [ quant ] ] block }
block := node | group [ quant ]
node := '(' filler ')'
group := '(' node edge node { edge node } [ WHERE of_query ] ')'
filler := [ name ] [ ( IS | ':' ) either ] [ WHERE of_query ]
edge := '-' '[' filler ']' '-' [ '>' ] | '<' '-' '[' filler ']' '-' | '-' '>' | '<' '-' | '-'
quant := '{' number '}' | '{' number ',' [ number ] '}' | '{' ',' number '}' | '*' | '+'
either := both { '|' both }
both := inverse { '&' inverse }
inverse := '!' inverse | '%' | name | '(' either ')'
of_tuple_last := plain | '(' of_tuple ')'
of_row_last := plain | '(' of_row ')' | name
of_query_last := plain | '(' of_query ')' | name '.' name | ( COUNT | SUM | MIN | MAX ) '(' of_query ')' | COUNT '(' name ')'
plain := number | text | TRUE | FALSE | NULL
""" + "".join(
    f"""
{x} := {x}_and {{ OR {x}_and }}
{x}_and := {x}_not {{ AND {x}_not }}
{x}_not := {x}_test | NOT {x}_not
{x}_test := {x}_sum [ ( '=' | '<>' | '<' | '<=' | '>' | '>=' ) {x}_sum | IS [ NOT ] NULL ]
{x}_sum := {x}_times {{ ( '+' | '-' ) {x}_times }}
{x}_times := {x}_minus {{ '*' {x}_minus }}
{x}_minus := {x}_last | '-' {x}_minus
"""
    for x in ("of_tuple", "of_row", "of_query")
)
CLOSING = {"[": "]", "{": "}", "(": ")"}
RULES = {}


def alternatives(parts, closing):
    """The ways of a rule up to its closing bracket; each bracket becomes a rule of its own."""
    found, way = [], []
    for part in parts:
        if part == closing:
            break
        if part == "|":
            found.append(tuple(way))
            way = []
        elif part in CLOSING:
            inner, name = alternatives(parts, CLOSING[part]), f"#{len(RULES)}"
            RULES[name] = {"(": inner, "[": [()] + inner, "{": [()] + [w + (name,) for w in inner]}[part]
            way.append(name)
        else:
            way.append(part)
    return found + [tuple(way)]


for _rule in re.split(r"\n(?=\w)", RULES_TEXT.strip()):
    _name, _ways = _rule.split(":=", 1)
    RULES[_name.strip()] = alternatives(iter(re.findall(r"'[^']+'|\w+|[\[\]{}()|]", _ways)), None)


def settle(start, step):
    """A value for each rule, from one for all that is improved until nothing changes."""
    found, more = dict.fromkeys(RULES, start), True
    while more:
        new = {name: step(ways, found) for name, ways in RULES.items()}
        found, more = new, new != found
    return found


EMPTY = settle(False, lambda ways, found: any(all(found.get(p, False) for p in way) for way in ways))


def deep(way, found):
    return max([0] + [found.get(p, 0) for p in way])


DEPTH = settle(0, lambda ways, found: min(1 + min(deep(way, found) for way in ways), 99))
TERMS = sorted({p.strip("'") for ways in RULES.values() for way in ways for p in way if p not in RULES} - {"name", "number", "text", ";"})


def fits(part, token):
    sort, text = token
    if part == "name":
        return sort == "q" or (sort == "w" and text not in RESERVED)
    if part in ("number", "text"):
        return sort == part[0]
    return sort in "ws" and text == part.strip("'")


def first_fault(tokens):
    """The place of the first token that no statement continues, or None for a statement. The last token is the end."""
    columns = []
    items = dict.fromkeys(("statement", way, 0, 0) for way in RULES["statement"])
    for place, token in enumerate(tokens):
        order = list(items)
        for rule, way, dot, since in order:
            if dot < len(way):
                part = way[dot]
                new = [(part, w, 0, place) for w in RULES.get(part, ())] + [(rule, way, dot + 1, since)] * EMPTY.get(part, False)
            else:
                behind = order if since == place else columns[since]
                new = [(r, w, d + 1, s) for r, w, d, s in behind if d < len(w) and w[d] == rule]
            fresh = [i for i in dict.fromkeys(new) if i not in items]
            items.update(dict.fromkeys(fresh))
            order.extend(fresh)
        columns.append(order)
        if token[0] == "e":
            return None if any(r == "statement" and d == len(w) and s == 0 for r, w, d, s in order) else place
        items = {(r, w, d + 1, s): None for r, w, d, s in order if d < len(w) and w[d] not in RULES and fits(w[d], token)}
        if not items:
            return place
    return None


NAMES = [("w", n) for n in "T G X E Y ID A K COLUMNS PATH KEY LABEL NO WALK EDGE PROPERTIES WORK".split()] + [("q", '"b c"'), ("w", "T")]


def sort_of(term):
    return ("w" if term[0].isalpha() else "s", term)


def derive(draw, part, depth=0):
    """The tokens of something of this rule."""
    if part not in RULES:
        given = {"name": draw.choice(NAMES), "number": ("n", draw.choice("013")), "text": ("t", "'a;'")}
        return [given.get(part) or sort_of(part.strip("'"))]
    ways = RULES[part]
    if depth > 22:
        ways = [w for w in ways if deep(w, DEPTH) == min(deep(v, DEPTH) for v in ways)]
    elif draw.random() < 0.5 and part not in ("body", "statement"):
        ways = ways[:1]
    return [t for p in draw.choice(ways) for t in derive(draw, p, depth + 1)]


def any_token(draw):
    others = NAMES + [("n", "2"), ("t", "'a'"), ("q", '"d"')] + [("b", b) for b in ("?", "#", '""', "1a", "é")]
    return draw.choice(others) if draw.random() < 0.4 else sort_of(draw.choice(TERMS))


def spoiled(draw, tokens):
    """The tokens with a token less, more, changed or exchanged, or cut off, or as they are."""
    tokens = tokens[: draw.randint(1, len(tokens))] if draw.random() < 0.1 else list(tokens)
    for _ in range(draw.choice([0, 1, 1, 1, 2])):
        i, j = draw.randrange(len(tokens)), draw.randrange(len(tokens))
        change = draw.choice(["less", "more", "other", "exchange"])
        if change == "exchange":
            tokens[i], tokens[j] = tokens[j], tokens[i]
        else:
            tokens[i : i + (change != "more")] = [] if change == "less" and len(tokens) > 1 else [any_token(draw)]
    return tokens


def random_session(draw, count):
    """A session of so many statements, and for each its text, its first word, the byte of that, and the byte at which it is no statement, or None."""
    text, wanted = "@session a\n", []
    while len(wanted) < count:
        tokens = derive(draw, "statement")[:-1]
        if len(tokens) > 90:
            continue
        tokens, places, start = spoiled(draw, tokens) + [("s", ";"), ("e", "")], [], len(text)
        for sort, token in tokens:
            text += draw.choice(["\n", "\t", " -- c;'\n"]) if draw.random() < 0.1 else " "
            places.append(len(text.encode()))
            text += token.lower() if sort == "w" and draw.random() < 0.5 else token
        fault = first_fault(tokens)
        # what stands behind the semicolon belongs to the next statement
        wanted.append((text[start:], tokens[0][1].upper(), places[0], None if fault is None else places[fault]))
    return text.encode(), wanted
