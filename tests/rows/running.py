"""Runs of the program, each with what must come of it."""
import subprocess

PATIENCE = 1800


def run(program, words, given):
    return subprocess.run([program, *words], input=given, capture_output=True, timeout=PATIENCE)


def difference(have, want):
    """The first line in which two texts differ, or None."""
    if have == want:
        return None
    ours, theirs = have.decode(errors="replace").split("\n"), want.decode(errors="replace").split("\n")
    for number, (a, b) in enumerate(zip(ours, theirs), 1):
        if a != b:
            return f"line {number} is {a[:120]!r}, wanted {b[:120]!r}"
    return f"{len(ours)} lines, wanted {len(theirs)}"


def end_fault(status, err, row):
    """How a run's status or its standard error is not as wanted, or None."""
    if (status, err) == (row.status, row.err):
        return None
    return f"status {status}, {err}, wanted {row.status}, {row.err}"


class Row:
    """A run on given bytes, with the bytes that it must write, its status and its line on standard error."""

    def __init__(self, name, given, out=b"", status=0, err=b"", words=("step",)):
        self.name, self.given, self.words = name, given, words
        self.out, self.status, self.err = out, status, err

    def fault(self, program):
        result = run(program, self.words, self.given)
        return end_fault(result.returncode, result.stderr, self) or difference(result.stdout, self.out)


def said(name, script):
    """The row of a script that is written beside its transcript."""
    return Row(name, script.input(), script.transcript())


def no_script(name, given, line, kind):
    return Row(name, given, status=1, err=f"pgq: line {line}: {kind}\n".encode())


def not_yet(name, given):
    return Row(name, given, status=6, err=b"pgq: not yet\n")
