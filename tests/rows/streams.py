"""Standard input that fails or comes in pieces, standard output that fails or takes pieces, and too little memory."""
import os
import resource
import signal
import subprocess
import tempfile

from model import Element, Script, edge
from running import PATIENCE, Row, difference, end_fault

MOST_BYTES = 16777216
READ_FAULT = b"pgq: read fault\n"
WRITE_FAULT = b"pgq: write fault\n"


def script():
    """A script whose transcript is longer than any piece here."""
    made = Script().begin("setup")
    p = made.table("PERSON", [("ID", int), ("AGE", int)], ["ID"])
    k = made.table("KNOWS", [("ID", int), ("A", int), ("B", int)], ["ID"])
    g = made.graph("SOCIAL", [Element(p)], [edge(k, ["A"], p, ["B"], p)])
    made.insert(p, *((i, i % 7) for i in range(1000))).insert(k, *((i, i, i * 3 % 1000) for i in range(1000)))
    return made.begin("a").query(g, [("X", "ID", "P"), ("Y", "AGE", "Q")])


class Descriptor:
    """An open folder, which Python has no file for."""

    def __init__(self, path):
        self.number = os.open(path, os.O_RDONLY)

    def fileno(self):
        return self.number

    def __enter__(self):
        return self

    def __exit__(self, *_):
        os.close(self.number)


class Stream(Row):
    """A run whose standard input and output are made by `reading` and `writing`; both answer a file for the program."""

    def read_from(self, folder):
        path = os.path.join(folder, "given")
        with open(path, "wb") as file:
            file.write(self.given)
        return open(path, "rb")

    def write_to(self, folder):
        return open(os.path.join(folder, "written"), "wb")

    def prepare(self):
        """What the program's process does before the program begins."""

    def fault(self, program):
        with tempfile.TemporaryDirectory() as folder:
            with self.read_from(folder) as given, self.write_to(folder) as taken:
                process = subprocess.Popen(
                    [program, *self.words], stdin=given, stdout=taken, stderr=subprocess.PIPE, preexec_fn=self.prepare
                )
                self.feed()
                err = process.communicate(timeout=PATIENCE)[1]
                out = self.written(folder)
                wrong = end_fault(process.returncode, err, self) or difference(out, self.out)
                return wrong or self.left_fault(given)

    def feed(self):
        """What is written into standard input while the program runs."""

    def written(self, folder):
        with open(os.path.join(folder, "written"), "rb") as file:
            return file.read()

    def left_fault(self, given):
        return None


class Pieces(Stream):
    """Standard input is a pipe that is given so many bytes at a time."""

    def __init__(self, size, *row):
        super().__init__(*row)
        self.size = size

    def read_from(self, folder):
        reader, self.writer = os.pipe()
        return os.fdopen(reader, "rb")

    def feed(self):
        for at in range(0, len(self.given), self.size):
            os.write(self.writer, self.given[at : at + self.size])
        os.close(self.writer)


class Broken(Stream):
    """Standard input gives its bytes, and then a read fails: a pipe that does not wait, and that holds no more."""

    def __init__(self, name, given):
        super().__init__(name, given, status=3, err=READ_FAULT)

    def read_from(self, folder):
        reader, self.writer = os.pipe()
        os.set_blocking(reader, False)
        os.write(self.writer, self.given)
        return os.fdopen(reader, "rb")

    def written(self, folder):
        os.close(self.writer)
        return super().written(folder)


class Folder(Stream):
    """Standard input is a folder, of which no byte can be read."""

    def read_from(self, folder):
        return Descriptor(folder)


class Room(Stream):
    """Standard output is a file that takes so many bytes."""

    def __init__(self, name, room, given, whole):
        fails = room < len(whole)
        super().__init__(name, given, whole[:room], *((4, WRITE_FAULT) if fails else (0, b"")))
        self.room = room

    def prepare(self):
        signal.signal(signal.SIGXFSZ, signal.SIG_IGN)
        resource.setrlimit(resource.RLIMIT_FSIZE, (self.room, self.room))


class Front(Stream):
    """Standard output is a pipe whose reader leaves after a while, so that a write fails."""

    def __init__(self, name, given):
        super().__init__(name, given, status=4, err=WRITE_FAULT)

    def write_to(self, folder):
        reader, writer = os.pipe()
        os.close(reader)
        return os.fdopen(writer, "wb")

    def written(self, folder):
        return b""


class Read(Stream):
    """A run after which standard input, a file, stands behind so many bytes."""

    def __init__(self, name, given, read, **wanted):
        super().__init__(name, given, **wanted)
        self.read = read

    def left_fault(self, given):
        at = os.lseek(given.fileno(), 0, os.SEEK_CUR)
        return None if at == self.read else f"{at} bytes are read, wanted {self.read}"


class Small(Stream):
    """A run in less memory than its input has bytes."""

    def prepare(self):
        resource.setrlimit(resource.RLIMIT_AS, (MOST_BYTES, MOST_BYTES))


def rows():
    made = script()
    given, whole = made.input(), made.transcript()
    empty = b"@log 0\n@peak kept 1 pins 0\n@end\n"
    for size in (1, 5, 4095, 4096, 4097, 100000):
        yield Pieces(size, f"{size} bytes at a time", given, whole)
    yield Folder("a first read that fails", b"", status=3, err=READ_FAULT)
    for count in (0, 1, 6, 4096, 5000, len(given)):
        yield Broken(f"a read that fails behind {count} bytes", given[:count])
    for room in (0, 1, 5, 4096, 5000, len(whole) - 1, len(whole), len(whole) + 1):
        yield Room(f"room for {room} bytes", room, given, whole)
    yield Front("a pipe that nobody reads", given)
    yield Read("an input that is read to its end", b" " * 65537, 65537, out=empty)
    yield Read("an input as long as a script may be", b" " * MOST_BYTES, MOST_BYTES, out=empty)
    for more in (1, 100000):
        text = b" " * (MOST_BYTES + more)
        yield Read(f"an input {more} longer", text, MOST_BYTES + 1, status=1, err=b"pgq: line 0: TooLong\n")
    yield Small("too little memory", b" " * MOST_BYTES, status=5, err=b"pgq: no memory\n")
