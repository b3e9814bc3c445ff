"""The programs that `tools/programs/check` tries: the texts of programs/, and the rows of the file beside this.

The comment at the head of a text says what it shows, and then how it ends: `Plain C.` where it means the same in C,
`Status S.` or `Status S, trap NAME.`, `Reads "..".` where it reads, and `Writes "..".`"""

import collections
import pathlib
import re
import sys

HERE = pathlib.Path(__file__).resolve().parent
ROOT = HERE.parents[1]
sys.path.insert(0, str(HERE.parent / "calls"))
sys.dont_write_bytecode = True
from product import Seen, bytes_of, said  # noqa: E402

STEPS = 20_000_000
WAYS = ("run", "exec", "mean")
HEAD = re.compile(r'\A/\* (.+?)\n   (Plain C\. )?Status (\d+)(?:, trap (\w+))?\.(?: Reads "([!-~]+)"\.)? '
                  r'Writes "((?:[^"\\\n]|\\.)*)"\. \*/\n', re.S)
ROW = re.compile(r"^%% (\d+) ?(\S*)(?: (!))?\n((?:(?!%).*\n)*)((?:%= .*\n)+)", re.M)

# A program: its name, its text, the most steps of its runs, its input, whether C says what comes of it, and what must
# come of it, by the way that it is called.
Program = collections.namedtuple("Program", "name text steps given is_plain seen")


def read_text(path):
    """The program of a text of programs/, and what is wrong with its head."""
    text, found = path.read_text(), HEAD.match(path.read_text())
    if not found:
        return None, f"programs/{path.name}: its head doesn't say how it ends"
    plain, status, trap, given, out = found.groups()[1:]
    if (trap is None) != (status != "70") or trap and plain:
        return None, f"programs/{path.name}: its status, its trap and whether it is plain C don't fit together"
    seen = Seen(int(status), bytes_of(out), f"tick: trap {trap}\n".encode() if trap else b"")
    ways = dict.fromkeys(WAYS, seen)
    return Program(path.stem, text, STEPS, (given or "").encode(), plain is not None, ways), None


def texts():
    """The programs of programs/, and a line for each thing that is wrong there."""
    read = [read_text(path) for path in sorted((ROOT / "programs").glob("*.c"))]
    wrong = [f"programs/{path.name} is no text" for path in sorted((ROOT / "programs").iterdir())
             if path.suffix != ".c"]
    return [it for it, _ in read if it], wrong + [why for _, why in read if why]


def outcomes(lines):
    """What must come of a program, by the way that it is called."""
    rows = [re.fullmatch(r"%= (?:(\w+): )?(.*)", line).groups() for line in lines.splitlines()]
    if len(rows) == 1:
        return dict.fromkeys(WAYS, said(rows[0][1]))
    return {way: said(row) for way, row in rows}


def rows():
    """The programs of the file of rows, and a line where one of them isn't read."""
    file = (HERE / "rows").read_text()
    found = [Program(f"row {number}", text, int(steps), given.encode(), mark != "!", outcomes(lines))
             for number, (steps, given, mark, text, lines) in enumerate(ROW.findall(file), 1)]
    wrong = [f"tools/programs/rows: {it.name} doesn't say what must come of each call" for it in found
             if set(it.seen) != set(WAYS)]
    count = len(re.findall(r"^%% ", file, re.M))
    if count != len(found):
        wrong.append(f"tools/programs/rows has {count} programs, of which {len(found)} are read")
    return found, wrong
