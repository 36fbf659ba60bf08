"""The words that the program is run with."""
import os
import shlex
import subprocess
import tempfile

from cases import cases
from running import PATIENCE, Row, difference, end_fault


class Untouched(Row):
    """A run that reads nothing of the file which is its standard input."""

    def fault(self, program):
        with tempfile.TemporaryFile() as given:
            given.write(self.given)
            given.seek(0)
            result = subprocess.run([program, *self.words], stdin=given, capture_output=True, timeout=PATIENCE)
            read = os.lseek(given.fileno(), 0, os.SEEK_CUR)
        wrong = end_fault(result.returncode, result.stderr, self) or difference(result.stdout, self.out)
        return wrong or (f"{read} bytes are read" if read else None)


def rows():
    for _, line in cases("words.txt"):
        yield Untouched(f"words: {line}", b"@setup\nx;\n", status=2, err=b"pgq: bad words\n", words=shlex.split(line))
    yield Untouched("no words", b"@setup\nx;\n", status=2, err=b"pgq: bad words\n", words=())
