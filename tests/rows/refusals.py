"""Statements of a file that are refused where their mark stands, each in a script of its own."""
from cases import cases
from running import said
from tables import base, probe

SETUP, SESSION, BOTH = ("setup",), ("a",), ("setup", "a")


def refused(file, where):
    """A row for each refused statement of a file, in each of these sections, with a probe behind it that shows that it changed nothing."""
    for kind, marked in cases(file):
        for section in where(kind):
            script, t, p, w, e, g = base()
            if section != "setup":
                script.begin(section)
            script.refused(marked, kind)
            probe(script, t, e, g)
            yield said(f"{kind} in {section}: {marked[:150]}", script)
