"""What docs/tour.md shows: the parts of tools/tour/program/stdout, which is what the program there wrote of its text
when `tools/tour/make` was run, steps of the machine of tools/images/machine.py on the image that stands there, and laws
from the files of the repository.

A block of the page stands behind a line `<!-- SHOWN -->`, where SHOWN is `text`, a stage of that output,
`words of main`, `steps of main`, `second machine`, or `FILE: NAME`, a definition or a law in a file; `, lines A to
B` behind it takes a part. Behind `staged` it is of the program that makes code, whose text and output stand in
tools/tour/staged, and may be one of those that making.py shows.
"""

import ast
import pathlib
import re
import sys

ROOT = pathlib.Path(__file__).resolve().parents[2]
TRIAL = ROOT / "tools" / "tour" / "program"
STAGED = ROOT / "tools" / "tour" / "staged"
PAGE = ROOT / "docs" / "tour.md"
BLOCK = re.compile(r"(<!-- ([^\n]+?)(?:, lines (\d+) to (\d+))? -->\n```[a-z]*\n)(.*?)(```\n)", re.S)
MAIN = 0x00401000
STEPS = 20

sys.dont_write_bytecode = True
sys.path.insert(0, str(ROOT / "tools" / "images"))
import machine  # noqa: E402
import making  # noqa: E402


def stages(folder=TRIAL):
    """The parts of what the program wrote of the text of a folder, by their names."""
    found = {}
    for part in re.split(r"^== ", (folder / "stdout").read_text(), flags=re.M)[1:]:
        name, _, lines = part.partition("\n")
        found[name] = lines.splitlines()
    return found


def whole(lines):
    """Lines with those that were written once for several times."""
    for line in lines:
        told = re.fullmatch(r"(.*) \((\d+) times\)", line)
        yield from [told[1]] * int(told[2]) if told else [line]


def image_file(parts):
    return bytes.fromhex("".join(whole(parts["image"])))


def listing(parts):
    """The instructions of the text, in order."""
    return [line for line in whole(parts["assembly text"]) if not line.startswith((".entry", ".fn", ".data"))]


def words_of_main(parts):
    """The instructions of `main`, with their addresses."""
    first = (MAIN - machine.TEXT) // 4
    for number, line in enumerate(listing(parts)[first:]):
        yield f"{MAIN + 4 * number:#010x}: {line}"


def steps_of_main(parts):
    """The instructions from the first word of `main` on: how many came before, the address, the instruction, and the
    registers that it changed."""
    words = listing(parts)
    run = machine.Machine(machine.read_image(image_file(parts)), b"", 4096)
    while run.pc != MAIN:
        run.step()
    for _ in range(STEPS):
        before, at, count = list(run.r), run.pc, run.steps
        run.step()
        changed = [f"${number} is {run.r[number]:#x}" for number in range(32) if run.r[number] != before[number]]
        word = words[(at - machine.TEXT) // 4]
        yield f"{count:4} {at:#010x}: {word:20} {', '.join(changed)}".rstrip()


def law(file, name):
    """A definition or a law: from the line that names it up to the next empty line."""
    text = (ROOT / file).read_text()
    start = re.search(rf"^(?:[a-z]+ )*{re.escape(name)}\b", text, re.M)
    if not start:
        raise ValueError(f"{file} has no {name}")
    return text[start.start():].split("\n\n")[0].splitlines()


def machines_agree(parts):
    """Whether the second machine did with the image what the product says that its run did."""
    told = re.search(r'status (\d+), (\d+) instructions, out ("(?:[^"\\]|\\.)*"), err ""$', parts["run"][0])
    if not told:
        return False
    out = ast.literal_eval(told[3]).encode().hex()
    seen = machine.seen(image_file(parts), int(told[2]), b"", 4096)
    return re.fullmatch(rf"Done\({told[1]}\), steps {told[2]}, flushes \d+, out {out}\.", seen) is not None


def shown(what, parts, folder=TRIAL):
    if what.startswith("staged "):
        return shown(what.removeprefix("staged "), stages(STAGED), STAGED)
    if what in making.SHOWN:
        return list(making.SHOWN[what](image_file(parts)))
    if what == "text":
        return (folder / "stdin").read_text().splitlines()
    if what == "words of main":
        return list(words_of_main(parts))
    if what == "steps of main":
        return list(steps_of_main(parts))
    if what == "second machine":
        return [machine.seen(image_file(parts), 100000, b"", 4096)]
    if ": " in what:
        return law(*what.split(": "))
    return parts[what]


def page():
    """The page as it must be."""
    parts = stages()

    def block(found):
        head, what, first, last, _, tail = found.groups()
        lines = shown(what, parts)
        if first:
            lines = lines[int(first) - 1:int(last)]
        return head + "".join(f"{line.rstrip()}\n" for line in lines) + tail

    return BLOCK.sub(block, PAGE.read_text())
