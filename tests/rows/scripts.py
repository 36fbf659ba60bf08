"""How an input is cut into sections and statements, and where it is no script."""
from cases import cases, encoded
from folds import inserts
from model import MARK, Script
from running import Row, no_script, not_yet, said
from tables import PQ, social


def marks_of(text):
    """The input without its marks, and the bytes at which they stood."""
    given, places = b"", []
    for number, piece in enumerate(text.split(MARK)):
        if number:
            places.append(len(given))
        given += encoded(piece)
    return given, places


def faults_alone(sections, places):
    """The transcript of sections, each statement of which is at fault at the next of these places."""
    lines, places = [], iter(places)
    for section in sections:
        name, count = section.split()
        lines.append("@setup" if name == "setup" else f"@session {name}")
        lines += [f"{number} refused Syntax at byte {next(places)}" for number in range(1, int(count) + 1)]
        lines.append("end")
    assert next(places, None) is None, "more marks than statements"
    return "\n".join(lines + ["@log 0", "@peak kept 1 pins 0", "@end", ""]).encode()


def row_of(what, text):
    given, places = marks_of(text)
    name = f"{what}: {text[:120]!r}"
    if what == "later":
        return not_yet(name, given)
    if what.split()[0] in ("Section", "NotText", "Statements", "AfterName"):
        kind, line = what.split()
        return no_script(name, given, line, kind)
    sections = [] if what == "nothing" else what.split(", ")
    return Row(name, given, faults_alone(sections, places))


def sessions(count, tail):
    return "".join(f"@session s{number}\n" for number in range(count)).encode() + tail


def empty_scripts():
    yield "an empty setup", Script().begin("setup")
    yield "an empty session", Script().begin("a")
    yield "an empty setup and an empty session", Script().begin("setup").begin("order")
    for name, text in (("nothing", ""), ("comments alone", "-- one\n\t -- @two ; 'three\r\n  \n-- four"), ("white space", " \r\n\t\n")):
        script = Script()
        script.write(text)
        yield name, script
    script = Script().begin("setup")
    script.write("-- a;\n;; ;\n -- 'b\n;")
    yield "comments and semicolons in a setup", script
    script = Script().begin("setup")
    script.write("@order\n -- nobody\n")
    yield "an order of nobody", script


def text_scripts():
    """One script in other words: blanks, comments, cases, ends."""
    script = Script()
    p, k, g = social(script)
    script.insert(p, (1, 30), (2, None)).insert(k, (5, 1, 2), (6, 2, 2), (7, 3, 1)).begin("a").insert(p, (3, 40)).query(g, PQ)
    given, wanted = script.input(), script.transcript()
    yield "blanks of all kinds", given.replace(b" (", b"\t\r\n (").replace(b", ", b" ,\r\n\t"), wanted
    yield "few blanks", given.replace(b", ", b",").replace(b" (", b"(").replace(b") ", b")"), wanted
    yield "a million bytes", given + b" " * (1000000 - len(given)), wanted
    yield "comments between statements", given.replace(b";\n", b"; -- a; 'b\n;;\n"), wanted
    yield "comments between tokens", given.replace(b" (", b"--;'\n--\"\n("), wanted
    yield "no line feed at the end", given.rstrip(b"\n"), wanted
    yield "upper case", b"\n".join(l if l.startswith(b"@") else l.upper() for l in given.split(b"\n")), wanted
    yield "carriage returns behind section lines", given.replace(b"@setup\n", b"\n -- note\n@setup \t\r\n").replace(b"@session a", b"@session a \r"), wanted
    yield "an order", given + b"@order\na a -- a\n\ta\r\n", wanted
    yield "an empty order", given + b"@order", wanted
    yield "an alias", given.rstrip(b";\n") + b" AS r;", wanted
    yield "an alias without AS", given.rstrip(b";\n") + b' "r s";', wanted
    yield "clauses without effect", given.replace(b"person)", b"person KEY (id) DEFAULT LABEL PROPERTIES ARE ALL COLUMNS)").replace(b"(knows", b"(knows KEY (id)"), wanted
    for words in ("WALK", "PATH", "WALK PATHS"):
        yield f"the words {words}, which restrict nothing", given.replace(b"MATCH", b"MATCH " + words.encode()), wanted
    yield "properties in parentheses", given.replace(b"x.id", b"(x.id)").replace(b"y.age", b"((y.age))"), wanted
    yield "a key in its column", given.replace(b"id INTEGER, ", b"id INT NOT NULL PRIMARY KEY NOT NULL, ").replace(b", PRIMARY KEY (id)", b""), wanted


def many_sessions():
    text = inserts(3, "session").input()
    yield "a second session", text + b"@session b\n"
    yield "two sessions that wait and have an order", text + b"@session b\nAFTER a 1;\n@order\nb a b\n"
    yield "three empty sessions", b"@session a\n@session b\n@session c"
    yield "64 sessions", "".join(f"@session s{i}\n" for i in range(64)).encode()


def bad_rows():
    """Inputs that are no script: the line and the kind of the fault that they have."""
    yield "16,777,217 spaces", b" " * 16777217, 0, "TooLong"
    yield "too many bytes, and no text", b"\xff" * 16777217, 0, "TooLong"
    yield "no text", b"@setup\nA;\n'\xc3';\n", 3, "NotText"
    yield "a character that is cut off", b"@setup\n\xe2\x82", 2, "NotText"
    yield "no text behind another fault", b"@nothing\n\n\xff", 3, "NotText"
    yield "text before the first section", b" -- note\n\nA;\n@setup\n", 3, "Section"
    yield "a byte order mark", b"\xef\xbb\xbf@setup\n", 1, "Section"
    yield "an unknown section", b"@setup\n@sessions a\n", 2, "Section"
    yield "two blanks", b"@session  a\n", 1, "Section"
    yield "an upper-case name", b"@session A\n", 1, "Section"
    yield "a name of 33 bytes", b"\n@session " + b"a" * 33, 2, "Section"
    yield "a session named setup", b"@session setup\n", 1, "Section"
    yield "a second setup", b"@setup\n@setup\n", 2, "Section"
    yield "a setup behind a session", b"@session a\nx;\n@setup\n", 3, "Section"
    yield "a name twice", b"@session a\n@session b\n@session a \r\n", 3, "Section"
    yield "an order before a session", b"@session a\n@order\na\n@session b\n", 4, "Section"
    yield "a name behind the order's word", b"@session a\n@order a\n", 2, "Section"
    yield "an unknown name in the order", b"@session a\n@order\n a -- b\n a,\n", 4, "Section"
    yield "a section line in a literal", b"@session a\nx 'b\n@nothing\n';\n", 3, "Section"
    yield "65 sessions", "".join(f"@session s{i}\n" for i in range(65)).encode(), 65, "Sessions"
    yield "100,001 statements", b"@session a\n" + b"x;\n" * 100001, 100002, "Statements"
    yield "a statement too many without its semicolon", b"@session a\n" + b"x;" * 100000 + b"\n--\n x", 4, "Statements"
    yield "a session that is unknown", b"@session a\nAFTER b 1;", 2, "AfterName"
    yield "a later session", b"@session a\naFTEr b 1;\n@session b\nx;", 2, "AfterName"
    yield "a session's own name", b"@session a\nx;\nAFTER a 1;\n", 3, "AfterName"
    yield "in the setup", b"@setup\nAFTER a 1;\n", 2, "AfterName"
    yield "beyond the number of statements", b"@session a\nx;;y;\n@session b\nAFTER a 3;\n", 4, "AfterName"
    yield "no statement", b"@session a\nx;\n@session b\nAFTER a 0;\n", 4, "AfterName"
    yield "in upper case", b"@session a\nx;\n@session b\nAFTER A 1;\n", 4, "AfterName"
    yield "without its semicolon", b"@session a\nx;\n@session b\nAFTER a 1\n", 4, "AfterName"
    yield "two faults", b"@session a\nAFTER a 1;\n@nothing\n", 2, "AfterName"
    yield "two faults on one line", b"@session a\n" + b"x;" * 99999 + b"AFTER b 1; x;", 2, "Statements"


def rows():
    for name, script in empty_scripts():
        yield said(name, script)
    for name, given, wanted in text_scripts():
        yield Row(name, given, wanted)
    for name, given in many_sessions():
        yield not_yet(name, given)
    for name, given, line, kind in bad_rows():
        yield no_script(name, given, line, kind)
    for _, case in cases("scripts.txt"):
        yield row_of(*case.split(" | ", 1))
    yield no_script("the last line that there may be", b"\n" * 16777215 + b"x", 16777216, "Section")
    yield not_yet("64 sessions and an order", sessions(64, b"@order\ns63 s0"))
    yield no_script("66 sessions", sessions(66, b""), 65, "Sessions")
    yield no_script("64 sessions and one of a name again", sessions(64, b"@session s0"), 65, "Section")
    yield no_script("65 sessions, the last with a fault", sessions(64, b"@session t\nAFTER x 1;"), 65, "Sessions")
