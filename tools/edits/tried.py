"""What came of the edits that the gate leaves out: the table edits/TRIED, a line a crate."""
import hashlib
import pathlib
from typing import NamedTuple

ROOT = pathlib.Path(__file__).resolve().parents[2]
TABLE = ROOT / "edits" / "TRIED"
HEAD = "# crate, its edits, how many of them were refused, a checksum of the crate's files then, the day\n"


class Row(NamedTuple):
    crate: str
    edits: int
    refused: int
    checksum: str
    day: str


def rows():
    """The rows of the table, by crate."""
    lines = TABLE.read_text().splitlines() if TABLE.exists() else []
    cells = [line.split() for line in lines if line and not line.startswith("#")]
    return {it[0]: Row(it[0], int(it[1]), int(it[2]), it[3], it[4]) for it in cells}


def note(row):
    """Puts a row into the table, in the place of an older one of its crate."""
    new = {**rows(), row.crate: row}
    TABLE.write_text(HEAD + "".join(" ".join(map(str, new[name])) + "\n" for name in sorted(new)))


def checksum(crate):
    """Of the paths and texts of what the crate is proved from."""
    made = hashlib.sha256()
    for folder in ("src", "specs", "proofs"):
        for path in sorted((ROOT / "crates" / crate / folder).rglob("*")):
            if path.is_file():
                made.update(str(path.relative_to(ROOT)).encode() + b"\0" + path.read_bytes() + b"\0")
    return made.hexdigest()[:12]
