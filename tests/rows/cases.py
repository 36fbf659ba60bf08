r"""Reads the files of data/, which hold cases, a line for each.

A line that begins with `#` is a note, and an empty line says nothing. `[HEAD]` stands above cases of one sort. `NAME = TEXT`
names a text, and `$NAME` stands for it in the lines below. `$64[TEXT]` stands for the text 64 times. `\n`, `\r`, `\t` and
`\xff` stand for the bytes that they name. In a case, « stands before the token at which a fault is expected.
"""
import re
from pathlib import Path

DATA = Path(__file__).resolve().parent / "data"
ESCAPES = {"\\n": "\n", "\\r": "\r", "\\t": "\t"}


def byte_of(match):
    text = match.group()
    # A byte above 127 is Python's surrogate of it, which `encoded` writes as that byte.
    return ESCAPES.get(text) or bytes([int(text[2:], 16)]).decode(errors="surrogateescape")


def encoded(text):
    return text.encode(errors="surrogateescape")


def named(line, names):
    """The line with each `$NAME` replaced: a longer name comes before one that it begins with."""
    for name in sorted(names, key=len, reverse=True):
        line = line.replace("$" + name, names[name])
    return line


def spread(line):
    """The line with each `$64[TEXT]` and each `\\n` replaced."""
    line = re.sub(r"\$(\d+)\[([^]]*)\]", lambda m: int(m[1]) * m[2], line)
    return re.sub(r"\\(?:[nrt]|x[0-9a-f]{2})", byte_of, line)


def cases(file):
    """The cases of a file, each with the head above it."""
    names, head = {}, None
    for line in (DATA / file).read_text().splitlines():
        name = re.fullmatch(r"([A-Z][A-Z0-9_]*) = (.*)", line)
        if name:
            names[name[1]] = named(name[2], names)
        elif re.fullmatch(r"\[.*\]", line):
            head = line[1:-1]
        elif line and not line.startswith("#"):
            yield head, spread(named(line, names))
