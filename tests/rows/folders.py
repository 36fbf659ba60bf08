"""Rows that stand in folders of runs/: `words` (the command line), `input` (standard input), `status`, and `expect` (all of standard
output) with `stderr` (all of standard error), where they are wanted."""
import shlex
from pathlib import Path

from running import Row

RUNS = Path(__file__).resolve().parent / "runs"


def read(path, default):
    return path.read_bytes() if path.exists() else default


def rows():
    for folder in sorted(path.parent for path in RUNS.glob("*/words")):
        words = shlex.split((folder / "words").read_text())
        status = int(read(folder / "status", b"0"))
        yield Row(folder.name, read(folder / "input", b""), read(folder / "expect", b""), status, read(folder / "stderr", b""), words)
