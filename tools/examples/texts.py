"""The texts of examples/, and the page that lists them.

The head of an example ends with its stage and its status. Each example must write what stands in NAME.out and end with
the status, under `run` and under `mean`."""

import pathlib
import re
import sys

HERE = pathlib.Path(__file__).resolve().parent
ROOT = HERE.parents[1]
PAGE = ROOT / "docs" / "examples.md"
sys.path.insert(0, str(HERE.parent / "calls"))
sys.dont_write_bytecode = True
from product import Seen  # noqa: E402

STAGES = {"basics": "Variables, sums, comparisons, `putchar`, `if`, `while` and `return` in one `main`",
          "one main": "All operators and statements, `putint`, `getchar` and `exit` in one `main`",
          "functions and memory": "Functions, globals, arrays and pointers",
          "generated code": "Backquotes, `$`, `compile`, `local` and `param`"}
LIST = """# Examples

The texts of `examples/`, by the part of the language that they need. The head of each says in three lines what it
shows, and what it ends with. What it writes stands beside it in a file `.out`, worked out by hand, and what it reads in
a file `.in`. The gate hands each to `run` and to `mean` (`tools/examples/check`): each must write so and end so under
both. `tools/examples/list` writes this page.
"""
HEAD = re.compile(r"\A/\* (.+)\n   (.+)\n   (.+)\n   Stage: ([a-z ]+)\. Status: (\d+)\. \*/\n")
TRAPS = {"trap": "DivideByZero", "deep": "StackLimit", "shapes": "BadCall"}


class Example:
    """A text of examples/, with what its head says, its input and what it must write."""

    def __init__(self, path):
        self.name, self.text = path.stem, path.read_text()
        found = HEAD.search(self.text)
        self.shows = [found[1], found[2], found[3]] if found else []
        self.stage, self.status = (found[4], int(found[5])) if found else (None, None)
        given, out = path.with_suffix(".in"), path.with_suffix(".out")
        self.given = given.read_text() if given.exists() else ""
        self.out = out.read_text() if out.exists() else None

    def meant(self):
        """What `run` and `mean` must leave."""
        trap = TRAPS.get(self.name)
        return Seen(self.status, self.out.encode(), f"tick: trap {trap}\n".encode() if trap else b"")

    def wrong(self):
        if self.stage not in STAGES:
            yield "its head doesn't have three lines, a known stage and a status"
        if self.out is None:
            yield "it has no .out file"
        if self.given and not self.given.endswith("\n"):
            yield "its input doesn't end with a line feed"


def examples():
    return [Example(path) for path in sorted((ROOT / "examples").glob("*.c"))]


def listed(all_of_them):
    """The page that lists the texts."""
    page = LIST
    for stage, needs in STAGES.items():
        page += f"\n## {needs}\n\n| Text | What it shows |\n|---|---|\n"
        page += "".join(f"| `{it.name}.c` | {' '.join(it.shows)} |\n" for it in all_of_them if it.stage == stage)
    return page
