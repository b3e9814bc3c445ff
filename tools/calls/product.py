"""The proved product as both compilers make it, and what a call of it leaves.

`rt ci` proves `crates/tick` and has LLVM and Rattle's own compiler make it; the checks that import this run both on
texts, image files and streams of the system, and compare what comes of each call with what the repository says. A call
has a folder with its files, and LIMIT seconds."""

import collections
import concurrent.futures
import os
import pathlib
import re
import subprocess
import tempfile

ROOT = pathlib.Path(__file__).resolve().parents[2]
MADE = ROOT / "crates" / "tick" / "out"
LIMIT = 120
# A machine takes 82 MB, and to get them in small pages from the system, time and again, costs more than most runs: so
# the C library keeps what it has, in large pages.
KEPT = "glibc.malloc.hugetlb=1:glibc.malloc.mmap_threshold=1073741824:glibc.malloc.trim_threshold=1073741824"
# what a call leaves, as the files of cases say it
SAID = re.compile(r'(\d+)(?: in (\d+) steps)?, out "((?:[^"\\]|\\.)*)", err "((?:[^"\\]|\\.)*)"')
COUNTS = re.compile(rb"ops=\d+ functions=\d+ words=\d+ flushes=\d+ spills=\d+ steps=(\d+)\n")


def bytes_of(text):
    """The bytes of a text as the files of cases quote it."""
    return text.encode().decode("unicode_escape").encode("latin-1")


class Seen(collections.namedtuple("Seen", "status out err")):
    """What a call left: its status, and what it wrote on standard output and standard error."""

    def __str__(self):
        out, err = (repr(it)[2:-1] for it in (self.out, self.err))
        return f'{self.status}, out "{out}", err "{err}"'


def shortened(seen):
    """What a call left: a byte that is written over eight times in turn stands once, with `*` and its count."""
    return seen._replace(out=re.sub(rb"(?s)(.)\1{8,}", lambda it: b"%b*%d" % (it[1], len(it[0])), seen.out))


def said(text):
    """What a line of a file of cases says that a call leaves."""
    found = SAID.fullmatch(text)
    if not found:
        raise ValueError(f"no outcome: {text}")
    return Seen(int(found[1]), bytes_of(found[3]), bytes_of(found[4]))


class Product:
    """What one of the compilers has made of the product."""

    def __init__(self, compiler, ending):
        self.compiler, self.path = compiler, MADE / f"tick{ending}"

    def call(self, words, folder, given=b"", *, fails_to_read=False, room=None, has_full_err=False, room_of_files=None):
        """What a call leaves in this folder; its status is None where it doesn't end in time.

        Its input is `given`, or one that fails at each read, as a folder does; its standard output takes at most `room`
        bytes, if that is said, and fails behind them; its standard error may take none; and `room_of_files`, if that is
        said, is the most bytes of a file that it saves."""
        most = room_of_files if room is None else room
        limits = [] if most is None else ["prlimit", f"--fsize={most}", "--"]
        with tempfile.TemporaryFile() as source, tempfile.TemporaryFile() as out, open("/dev/full", "wb") as full:
            source.write(given)
            source.seek(0)
            read = os.open(folder, os.O_RDONLY) if fails_to_read else os.dup(source.fileno())
            try:
                # (signals stay as they are here, so that a file that may not grow answers with an error)
                ran = subprocess.run([*limits, self.path, *words], cwd=folder, stdin=read, restore_signals=False,
                                     stdout=subprocess.PIPE if room is None else out, timeout=LIMIT, check=False,
                                     stderr=full if has_full_err else subprocess.PIPE,
                                     env={**os.environ, "GLIBC_TUNABLES": KEPT})
            except subprocess.TimeoutExpired:
                return Seen(None, b"", b"")
            finally:
                os.close(read)
            out.seek(0)
            return Seen(ran.returncode, out.read() if ran.stdout is None else ran.stdout, ran.stderr or b"")


PRODUCTS = [Product("LLVM", ""), Product("Rattle's own compiler", ".by-rattle")]


def missing():
    """A line for each program that isn't there."""
    return [f"{it.path.relative_to(ROOT)} isn't there, the product made by {it.compiler}: run `rt ci`"
            for it in PRODUCTS if not it.path.is_file()]


def differences(cases, wrong_in):
    """What is wrong in any of the cases, of which `wrong_in(product, case, folder)` gives lines for one, as either
    compiler makes the product; and how many were tried. Each case has a folder of its own."""

    def tried(work):
        product, case = work
        with tempfile.TemporaryDirectory(prefix="tick-") as folder:
            return [f"{line} (made by {product.compiler})" for line in wrong_in(product, case, pathlib.Path(folder))]

    work = [(product, case) for product in PRODUCTS for case in cases]
    with concurrent.futures.ThreadPoolExecutor(os.cpu_count()) as lanes:
        found = list(lanes.map(tried, work))
    return [line for lines in found for line in lines], sum(not lines for lines in found), sum(map(bool, found))
