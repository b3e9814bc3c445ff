"""The services 64 to 68, which make code during a run, written from docs/services.md alone."""
import collections
from array import array

from builder import Builder, Denied, is_served
from expansion import expand
from places import SLOT, intervals, scan

ARENA, ARENA_WORDS = 0x04000000, 8388608
ARENA_END = ARENA + 4 * ARENA_WORDS
UNWRITTEN, WRITTEN, FLUSHED = range(3)
MOST_FRAME, ROWS, MOST_ARGUMENTS = 16777216, 65536, 8
PAGE = 4096


class Refused(Exception):
    """A service is refused, with the number of the reason."""


class Arena:
    """The words of the arena and their states, by the number of the word."""

    def __init__(self):
        self.words = collections.defaultdict(lambda: array("I", bytes(4 * PAGE)))
        self.states = collections.defaultdict(lambda: bytearray(PAGE))

    def read(self, number):
        return self.words[number // PAGE][number % PAGE] if number // PAGE in self.words else 0

    def state(self, number):
        return self.states[number // PAGE][number % PAGE] if number // PAGE in self.states else UNWRITTEN

    def write(self, number, word):
        self.words[number // PAGE][number % PAGE] = word
        self.states[number // PAGE][number % PAGE] = WRITTEN

    def flush(self, first, count):
        for number in range(first, first + count):
            self.states[number // PAGE][number % PAGE] = FLUSHED


def refuse_where(holds, reason):
    if holds:
        raise Refused(reason)


def is_outside(address, count):
    """Whether the address is none of a word of the arena, or so many words from it on leave the arena."""
    return address % 4 != 0 or not ARENA <= address < ARENA_END or address + 4 * count > ARENA_END


class Generator:
    """What the services keep between two calls, and how often each was obeyed."""

    def __init__(self, arena, rows):
        self.arena, self.rows = arena, rows
        self.builder, self.places = None, []
        self.ops = self.functions = self.words = self.flushes = self.spills = 0

    def serve(self, number, a0, a1, a2):
        """The answer of a service, or Refused with all as it was."""
        call = {64: self.begin, 65: self.emit, 66: self.finish, 67: self.flush, 68: self.publish}.get(number)
        refuse_where(call is None, 1)
        return call(a0, a1, a2)

    def begin(self, parameters, *_):
        refuse_where(self.builder is not None, 2)
        refuse_where(parameters > MOST_ARGUMENTS, 4)
        self.builder = Builder(parameters)
        return 0

    def emit(self, code, a1, a2):
        refuse_where(self.builder is None, 3)
        refuse_where(not is_served(code, a1, a2), 4)
        try:
            self.builder.emit(code, a1, a2)
        except Denied as why:
            raise Refused(5) from why
        self.ops += 1
        return 0

    def finish(self, address, most, frame):
        refuse_where(self.builder is None, 3)
        try:
            ops = self.builder.finished()
        except Denied as why:
            raise Refused(6) from why
        refuse_where(is_outside(address, most), 7)
        registers = self.builder.registers
        refuse_where(frame < 128 + 4 * registers or frame > MOST_FRAME or frame % 4 != 0, 9)
        visits = intervals(ops)
        places = scan(visits, registers)
        words = expand(ops, places, address, frame)
        refuse_where(len(words) > most, 8)
        for number, word in enumerate(words, (address - ARENA) // 4):
            self.arena.write(number, word)
        self.builder, self.places = None, places
        self.words += len(words)
        self.spills += sum(places[register] == SLOT for _, register, _ in visits)
        return len(words)

    def flush(self, address, count, *_):
        refuse_where(is_outside(address, count), 7)
        self.arena.flush((address - ARENA) // 4, count)
        self.flushes += 1
        return 0

    def publish(self, row, address, count):
        is_bad = not 0 < row < ROWS or address % 4 != 0 or not 0x00400000 <= address <= 0x05FFFFFC
        refuse_where(is_bad or count > MOST_ARGUMENTS, 10)
        self.rows[row] = (address, count)
        self.functions += 1
        return 0
