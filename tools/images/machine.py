"""A second machine, written from docs/machine-model.md, docs/instructions.md, docs/memory.md and docs/image.md alone.

It is slow and plain; its services that make code are those of services.py. What the program trial_images must print of
generated images is what it says of the same image files.
"""
import struct

from services import ARENA, ARENA_END, FLUSHED, Arena, Generator, Refused

TEXT, OBJECTS, TABLE = 0x00400000, 0x10000000, 0x20510000
# first address, bytes, may be stored to
DATA = [(OBJECTS, 16777216, True), (0x20000000, 4194304, True), (0x20400000, 1048576, True), (0x2050F000, 4096, True),
        (TABLE, 524288, False), (0x20600000, 1048576, True), (0x7F000000, 16777216, True)]
TRAPS = {6: "DivideOverflow", 7: "DivideByZero", 16: "Range", 17: "BadCall", 18: "BadSpec", 19: "BadParam",
         20: "StackLimit", 21: "FrameLimit", 22: "SpecLimit", 23: "SizeLimit", 24: "ArenaLimit", 25: "TableLimit"}
ALU = {32: "add", 33: "addu", 34: "sub", 35: "subu", 36: "and", 37: "or", 38: "xor", 39: "nor", 42: "slt", 43: "sltu"}
SHIFTS = {0: "sll", 2: "srl", 3: "sra"}
VALUES = {"addu": lambda a, b: a + b, "subu": lambda a, b: a - b, "and": lambda a, b: a & b, "or": lambda a, b: a | b,
          "xor": lambda a, b: a ^ b, "nor": lambda a, b: ~(a | b), "slt": lambda a, b: int(signed(a) < signed(b)),
          "sltu": lambda a, b: int(a < b)}
IMMEDIATES = {8: "add", 9: "addu", 10: "slt", 11: "sltu", 12: "and", 13: "or", 14: "xor"}
ACCESSES = {32: (1, True), 33: (2, True), 35: (4, False), 36: (1, False), 37: (2, False), 40: (1, None), 41: (2, None),
            43: (4, None)}


class Stop(Exception):
    """Why the run is over."""


def read_image(data):
    """The parts of an image file, or the number of the first rule that it breaks."""
    if len(data) < 24:
        return 1
    magic, version, entry, words, size, functions = struct.unpack(">6I", data[:24])
    if magic != 0x5449434B:
        return 2
    if version != 1:
        return 3
    if words > 15728640 or size > 4194304 or functions > 65535:
        return 4
    end = 24 + 4 * words + size + 8 * functions
    if len(data) < end:
        return 1
    rows = struct.unpack(f">{2 * functions}I", data[end - 8 * functions:end])
    places = [entry] + list(rows[0::2])
    if any(p % 4 or not TEXT <= p < TEXT + 4 * words for p in places) or any(c > 8 for c in rows[1::2]):
        return 5
    if len(data) > end:
        return 6
    text = struct.unpack(f">{words}I", data[24:24 + 4 * words])
    return entry, text, data[24 + 4 * words:24 + 4 * words + size], list(zip(rows[0::2], rows[1::2]))


def signed(w, bits=32):
    return w - (1 << bits) if w >> (bits - 1) else w


class Machine:
    def __init__(self, image, given, room):
        self.pc, self.text, data, functions = image
        self.next = self.pc + 4
        self.r, self.hi, self.lo = [0] * 32, 0, 0
        self.bytes = {OBJECTS + i: b for i, b in enumerate(data)}
        # the function table: function n, from 1 on, is row n, its address and then its count; a row without a function
        # has the address 0 and the count 0xffffffff
        self.rows = {n: row for n, row in enumerate(functions, 1)}
        self.arena = Arena()
        self.generator = Generator(self.arena, self.rows)
        self.loaded, self.recent, self.slot = 0, 0, False
        self.input, self.room, self.out = list(given), room, b""
        self.steps = 0
        self.reason = None  # of the refusal that ended the run
        self.decoded = {}

    def fault(self, kind):
        raise Stop(f"MachineFault({kind}, 0x{self.pc:08x})")

    def trap(self, kind):
        raise Stop(f"Trap({kind})")

    def fetch(self):
        at = self.pc
        if at % 4 == 0 and TEXT <= at < TEXT + 4 * len(self.text):
            return self.text[(at - TEXT) // 4]
        if at % 4 == 0 and ARENA <= at < ARENA_END:
            if self.arena.state((at - ARENA) // 4) != FLUSHED:
                self.fault("Stale")
            return self.arena.read((at - ARENA) // 4)
        self.fault("Fetch")

    def byte(self, at):
        if TEXT <= at < TEXT + 4 * len(self.text):
            return self.text[(at - TEXT) // 4] >> (24 - 8 * (at % 4)) & 255
        if ARENA <= at < ARENA_END:
            return self.arena.read((at - ARENA) // 4) >> (24 - 8 * (at % 4)) & 255
        if TABLE <= at < TABLE + 524288:
            row = self.rows.get((at - TABLE) // 8, (0, 0xFFFFFFFF))
            return row[at % 8 // 4] >> (24 - 8 * (at % 4)) & 255
        return self.bytes.get(at, 0)

    def check(self, at, size, stores):
        """The region's right, in the order outside, misaligned, read only."""
        if TEXT <= at < TEXT + 4 * len(self.text):
            may = False
        elif ARENA <= at < ARENA_END:
            may = True
        else:
            rights = [may for first, count, may in DATA if first <= at < first + count]
            if not rights:
                self.trap("Range")
            may = rights[0]
        if at % size:
            self.trap("Misaligned")
        if stores and not may:
            self.trap("Range")

    def set(self, r, v):
        if r:
            self.r[r] = v % 2**32

    def fits(self, r, v):
        if not -2**31 <= v < 2**31:
            self.fault("Overflow")
        self.set(r, v)

    def service(self):
        number, a = self.r[2], self.r[4]
        if number == 1:
            self.put(str(signed(a)).encode(), a)
        elif number == 10:
            raise Stop(f"Done({a % 256})")
        elif number == 11:
            self.put(bytes([a % 256]), a % 256)
        elif number == 12:
            self.set(2, self.input.pop(0) if self.input else 2**32 - 1)
        else:
            try:
                self.set(2, self.generator.serve(number, *self.r[4:7]))
            except Refused as why:
                self.reason = why.args[0]
                self.fault("BadService")

    def put(self, data, answer):
        if len(self.out) + len(data) > self.room:
            raise Stop("WriteFault")
        self.out += data
        self.set(2, answer)

    def step(self):
        self.steps += 1
        w = self.fetch()
        if w not in self.decoded:
            self.decoded[w] = self.decode(w)
        names, sets, jumps, act = self.decoded[w]
        if (self.loaded and self.loaded in names) or (self.recent and sets) or (self.slot and jumps):
            self.fault("Hazard")
        self.load = 0
        self.target = self.next + 4
        self.reads = False
        act()
        self.pc, self.next = self.next, self.target
        self.loaded, self.slot = self.load, jumps
        self.recent = 2 if self.reads else max(0, self.recent - 1)

    def decode(self, w):
        """The registers that the instruction names, whether it sets HI or LO, whether it jumps, and what it does."""
        op, rs, rt, rd, shamt = w >> 26, w >> 21 & 31, w >> 16 & 31, w >> 11 & 31, w >> 6 & 31
        funct, imm = w & 63, w & 65535
        # a word outside the table names nothing, so that nothing is refused before it
        no = set(), False, False, lambda: self.fault("Reserved")
        if op == 0:
            return self.special(w, rs, rt, rd, shamt, funct) or no
        r, offset = self.r, signed(imm, 16)

        def branch(taken):
            if taken:
                self.target = (self.next + 4 * offset) % 2**32

        if op == 1 and rt in (0, 1):
            return {rs}, False, True, lambda: branch((signed(r[rs]) < 0) == (rt == 0))
        if op == 1 and rt in (16, 17) and rs != 31:
            def linking():
                taken = (signed(r[rs]) < 0) == (rt == 16)
                self.set(31, self.pc + 8)
                branch(taken)
            return {rs, 31}, False, True, linking
        if op in (2, 3):
            def jump():
                if op == 3:
                    self.set(31, self.pc + 8)
                self.target = self.next // 2**28 * 2**28 + 4 * (w % 2**26)
            return ({31} if op == 3 else set()), False, True, jump
        if op in (4, 5):
            return {rs, rt}, False, True, lambda: branch((r[rs] == r[rt]) == (op == 4))
        if op in (6, 7) and rt == 0:
            return {rs}, False, True, lambda: branch((signed(r[rs]) <= 0) == (op == 6))
        if op in IMMEDIATES:
            low = imm if op >= 12 else offset % 2**32
            name = IMMEDIATES[op]
            return {rs, rt}, False, False, lambda: self.alu(name, rt, r[rs], low)
        if op == 15 and rs == 0:
            return {rt}, False, False, lambda: self.set(rt, imm << 16)
        if op in ACCESSES:
            size, widens = ACCESSES[op]
            return {rs, rt}, False, False, lambda: self.access(rt, (r[rs] + offset) % 2**32, r[rt], size, widens)
        return no

    def special(self, w, rs, rt, rd, shamt, funct):
        r = self.r
        if funct in ALU and shamt == 0:
            return {rd, rs, rt}, False, False, lambda: self.alu(ALU[funct], rd, r[rs], r[rt])
        if funct in SHIFTS and rs == 0:
            return {rd, rt}, False, False, lambda: self.shift(SHIFTS[funct], rd, r[rt], shamt)
        if funct - 4 in SHIFTS and shamt == 0:
            return {rd, rt, rs}, False, False, lambda: self.shift(SHIFTS[funct - 4], rd, r[rt], r[rs] % 32)
        if funct == 8 and rt == rd == shamt == 0:
            return {rs}, False, True, lambda: setattr(self, "target", r[rs])
        if funct == 9 and rt == shamt == 0 and rd != rs:
            def link():
                self.target = r[rs]
                self.set(rd, self.pc + 8)
            return {rd, rs}, False, True, link
        if w == 12:
            return {2, 4, 5, 6}, False, False, self.service
        if funct == 13:
            code = w >> 6 & 0xFFFFF
            return set(), False, False, lambda: self.trap(TRAPS[code]) if code in TRAPS else self.fault("Reserved")
        if funct in (16, 18) and rs == rt == shamt == 0:
            def read():
                self.reads = True
                self.set(rd, self.hi if funct == 16 else self.lo)
            return {rd}, False, False, read
        if funct in (17, 19) and rt == rd == shamt == 0:
            return {rs}, True, False, lambda: setattr(self, "hi" if funct == 17 else "lo", r[rs])
        if funct in (24, 25, 26, 27) and rd == shamt == 0:
            return {rs, rt}, True, False, lambda: self.multiply(funct, r[rs], r[rt])
        return None

    def alu(self, name, r, a, b):
        if name in ("add", "sub"):
            self.fits(r, signed(a) + signed(b) if name == "add" else signed(a) - signed(b))
        else:
            self.set(r, VALUES[name](a, b))

    def shift(self, name, r, a, by):
        self.set(r, {"sll": a << by, "srl": a >> by, "sra": signed(a) >> by}[name])

    def multiply(self, funct, a, b):
        if funct in (24, 25):
            product = (signed(a) * signed(b) if funct == 24 else a * b) % 2**64
            self.hi, self.lo = product >> 32, product % 2**32
        elif b == 0:
            self.hi = self.lo = 0
        else:
            x, y = (signed(a), signed(b)) if funct == 26 else (a, b)
            quotient = abs(x) // abs(y) * (1 if (x < 0) == (y < 0) else -1)
            self.lo, self.hi = quotient % 2**32, (x - quotient * y) % 2**32

    def access(self, r, at, v, size, widens):
        self.check(at, size, widens is None)
        if widens is None:
            stored = v % 2**(8 * size)
            if ARENA <= at < ARENA_END:
                shift, number = 8 * (4 - size - at % 4), (at - ARENA) // 4
                kept = self.arena.read(number) & ~((2**(8 * size) - 1) << shift)
                self.arena.write(number, kept | stored << shift)
            else:
                self.bytes.update(enumerate(stored.to_bytes(size, "big"), at))
        else:
            loaded = int.from_bytes(bytes(self.byte(at + i) for i in range(size)), "big")
            self.set(r, signed(loaded, 8 * size) if widens else loaded)
            self.load = r


def finished(data, steps, given, room):
    """The number of the rule that an image file breaks, or the machine behind its run and why it stopped."""
    image = read_image(data)
    if isinstance(image, int):
        return image
    machine = Machine(image, given, room)
    try:
        while machine.steps < steps:
            machine.step()
    except Stop as reason:
        return machine, str(reason)
    return machine, "OutOfSteps"


def seen(data, steps, given=b"input", room=16):
    """What is seen of the run of an image file."""
    found = finished(data, steps, given, room)
    if isinstance(found, int):
        return f"BadImage({found})."
    machine, stop = found
    return f"{stop}, steps {machine.steps}, flushes {machine.generator.flushes}, out {machine.out.hex()}."


def counted(data, steps, given=b"input", room=16):
    """The same with all counts of services, and the reason of the refusal that ended the run, if one did."""
    machine, stop = finished(data, steps, given, room)
    made = machine.generator
    counts = f"ops {made.ops}, functions {made.functions}, words {made.words}, spills {made.spills}"
    rest = f"flushes {made.flushes}, out {machine.out.hex()}."
    return f"{stop}, steps {machine.steps}, {counts}, {rest}", machine.reason
