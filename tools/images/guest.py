"""Images that make code: their text is put together from services and calls, and assembled by encoder.py."""
import struct

from builder import Builder
from encoder import addresses, assemble, constant
from expansion import expand
from places import intervals, scan

TEXT, ARENA, OBJECTS, TABLE, HEAP = 0x00400000, 0x04000000, 0x10000000, 0x20510000, 0x10400000
ROUTINE_WORDS = 64
BEGIN, EMIT, FINISH, FLUSH, PUBLISH = range(64, 69)
# static functions that generated code may call: rows 1 to 4 of the function table, with counts of arguments. The first
# turns some bits, the second makes 2 * a + b, the third calls function a with 5, and the last counts active calls.
LIBRARY = """
one: lw $12,0($29); nop; xori $2,$12,85; jr $31; nop
two: lw $12,0($29); lw $13,4($29); sll $12,$12,1; addu $2,$12,$13; jr $31; nop
back: addiu $29,$29,-40; sw $31,36($29); lw $12,40($29); lui $13,0x2051; sll $12,$12,3; addu $13,$13,$12; lw $12,0($13)
ori $13,$0,5; sw $13,0($29); jalr $31,$12; nop; lw $31,36($29); addiu $29,$29,40; jr $31; nop
active: lw $2,-36($28); jr $31; nop
"""
ROWS = [("one", 1), ("two", 2), ("back", 1), ("active", 0)]
# the routine of the heap, whose place in the text is that of Run 1
MALLOC = "lw $2,-4($28); nop; addu $12,$2,$4; sw $12,-4($28); jr $31; nop"


def image(words, data=b"", functions=(), entry=TEXT):
    head = struct.pack(">6I", 0x5449434B, 1, entry, len(words), len(data), len(functions))
    return head + struct.pack(f">{len(words)}I", *words) + data + b"".join(struct.pack(">2I", *f) for f in functions)


def load(name, number):
    """The fewest instructions that bring a number to a register."""
    number %= 2**32
    if number < 65536:
        return f"ori {name},$0,{number}"
    if number >= 2**32 - 32768:
        return f"addiu {name},$0,{number - 2**32}"
    return f"lui {name},{number >> 16}" if number % 65536 == 0 else constant(name, number)


class Made:
    """A function that a guest makes: its ops, and what comes of them."""

    def __init__(self, parameters, ops, address, frame=None):
        self.parameters, self.ops, self.address = parameters, ops, address
        made = Builder(parameters)
        for op in ops:
            made.emit(*op)
        self.registers = made.registers
        self.frame = 128 + 4 * made.registers if frame is None else frame
        self.listed = listed = made.finished()
        self.count = len(expand(listed, scan(intervals(listed), made.registers), address, self.frame))


class Guest:
    """The text of an image. Register 23 holds a sum of all that the run finds; 16 to 19 are free for loops."""

    def __init__(self, has_heap=False, has_library=True):
        self.has_heap, self.has_library = has_heap, has_library
        self.lines, self.known, self.labels, self.extra = [], {}, 0, []
        self.add("lui $29,0x8000; addiu $29,$29,-64; lui $28,0x2051; lui $30,0x10c0; addu $23,$0,$0")
        if has_heap:
            self.add(f"{load('$12', HEAP)}; sw $12,-4($28)")

    def add(self, text):
        self.lines.append(text)

    def label(self):
        self.labels += 1
        return f"l{self.labels}"

    def aside(self, name, text):
        """Puts a static function behind the library, and gives its address."""
        self.extra.append(f"{name}: {text}")
        return addresses(self.front())[name]

    def front(self):
        return (LIBRARY if self.has_library else "") + "\n".join(self.extra)

    def put(self, name, number):
        if number is not None and self.known.get(name) != number:
            self.add(load(name, number))
            self.known[name] = number

    def forget(self):
        """What stands in the registers of arguments isn't known any more."""
        self.known = {}

    def serve(self, number, a0=None, a1=None, a2=None):
        for name, value in zip(("$4", "$5", "$6"), (a0, a1, a2)):
            self.put(name, value)
        self.add(f"ori $2,$0,{number}; syscall" if number < 65536 else f"{load('$2', number)}; syscall")

    def begin(self, parameters=0):
        self.serve(BEGIN, parameters)

    def emit(self, code, a1=None, a2=None):
        self.serve(EMIT, code, a1, a2)

    def emit_all(self, ops):
        for op in ops:
            self.emit(*op)

    def finish(self, address, most, frame):
        self.serve(FINISH, address, most, frame)

    def flush(self, address, count):
        self.serve(FLUSH, address, count)

    def publish(self, row, address, count):
        self.serve(PUBLISH, row, address, count)

    def make(self, made, row=None, more=0):
        """Begins, emits, finishes with room for some words more, flushes, and publishes where there is a row."""
        self.begin(made.parameters)
        self.emit_all(made.ops)
        self.finish(made.address, made.count + more, made.frame)
        self.fold()
        self.flush(made.address, made.count)
        if row is not None:
            self.publish(row, made.address, made.parameters)

    def fold(self, name="$2"):
        """Takes a register into the sum."""
        self.add(f"sll $24,$23,5; addu $23,$23,$24; addu $23,$23,{name}")

    def arguments(self, values):
        for place, value in enumerate(values):
            self.add(f"{load('$12', value)}; sw $12,{4 * place}($29)")

    def call(self, address, values=()):
        """Calls the function at an address, and takes its answer into the sum."""
        self.arguments(values)
        self.add(f"{load('$25', address)}; jalr $31,$25; nop")
        self.forget()
        self.fold()

    def call_row(self, row, values=()):
        """Calls the function of a row of the table, and takes its answer and its count into the sum."""
        self.arguments(values)
        self.add(f"{load('$12', TABLE + 8 * row)}; lw $25,0($12); lw $16,4($12); jalr $31,$25; nop")
        self.forget()
        self.fold()
        self.fold("$16")

    def fold_words(self, address, count):
        """Takes so many words of memory into the sum."""
        loop = self.label()
        self.add(f"{load('$16', address)}; {load('$17', address + 4 * count)}; {loop}: lw $18,0($16); addiu $16,$16,4")
        self.fold("$18")
        self.add(f"bne $16,$17,{loop}; nop")

    def say(self):
        """Writes the sum as four bytes."""
        for shift in (24, 16, 8, 0):
            self.add(f"srl $4,$23,{shift}; ori $2,$0,11; syscall")
        self.forget()

    def end(self, status=None):
        self.add("andi $4,$23,255" if status is None else load("$4", status))
        self.add("ori $2,$0,10; syscall")

    def image(self):
        """The image file: the library, the heap's routine at its place, and what was written, which is the entry."""
        known = addresses(self.front())
        words = assemble(self.front())
        if self.has_heap:
            if len(words) > ROUTINE_WORDS:
                raise ValueError("the library reaches the routine of the heap")
            words += [0] * (ROUTINE_WORDS - len(words)) + assemble(MALLOC)
        entry = TEXT + 4 * len(words)
        words += assemble("\n".join(self.lines), entry, known)
        rows = [(known[name], count) for name, count in ROWS] if self.has_library else []
        return image(words, functions=rows, entry=entry)


def library(name):
    """The address of a function of the library."""
    return addresses(LIBRARY)[name]
