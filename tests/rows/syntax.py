"""Where statements are no statements of the grammar, and statements that do not run yet."""
import re

from cases import cases
from model import MARK, Script
from refusals import BOTH, refused
from running import said
from tables import base, probe

TOKEN = re.compile(r"'[^']*'|\"[^\"]*\"|\w+|<>|<=|>=|\S")


def open_ends():
    for kind, marked in cases("open_ends.txt"):
        for last in (False, True):
            script, t, p, w, e, g = base()
            script.insert(t, (4, "d", False))
            if last:
                script.begin("a").insert(t, (5, "e", None)).refused(marked, kind, "")
            else:
                script.refused(marked, kind, "").begin("a")
                probe(script, t, e, g)
            yield f"{kind} at an open end: {marked}", script


def fronts():
    """Statements that are cut off before a token, each at the end of its section."""
    for _, text in cases("fronts.txt"):
        for at in [token.start() for token in TOKEN.finditer(text)][1:] + [len(text)]:
            script = Script().begin("setup").refused(text[:at] + "\n" + MARK, "Syntax", "")
            yield f"a front: {text[:at]}", script.begin("a").refused(text[:at] + MARK, "Syntax", "")


def rows():
    for file in ("syntax.txt", "not_yet.txt"):
        yield from refused(file, lambda kind: BOTH)
    for group in (open_ends, fronts):
        for name, script in group():
            yield said(name, script)
