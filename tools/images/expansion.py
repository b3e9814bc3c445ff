"""The instructions of a function under places, written from docs/expansion.md alone; encoder.py gives their words.

Where that page leaves the words of a row open (which register, which order), its "In detail" says them.
"""
from encoder import word

REGISTERS = [f"${n}" for n in (16, 17, 18, 19, 20, 21, 22, 23, 8, 9, 10, 11)]
SLOT = 12
NOP = "sll $0,$0,0"
ROUTINES, MAKER, GLOBAL = 0x00400000, 0x00400D00, "$28"
BINARY = {1: ["addu $24,$24,$25"], 2: ["subu $24,$24,$25"], 3: ["mult $24,$25", "mflo $24"],
          4: ["div $24,$25", "mflo $24"], 5: ["divu $24,$25", "mflo $24"], 6: ["div $24,$25", "mfhi $24"],
          7: ["divu $24,$25", "mfhi $24"], 8: ["and $24,$24,$25"], 9: ["or $24,$24,$25"], 10: ["xor $24,$24,$25"],
          11: ["sllv $24,$24,$25"], 12: ["srav $24,$24,$25"], 13: ["srlv $24,$24,$25"],
          14: ["xor $24,$24,$25", "sltiu $24,$24,1"], 15: ["xor $24,$24,$25", "sltu $24,$0,$24"],
          16: ["slt $24,$24,$25"], 17: ["sltu $24,$24,$25"], 18: ["slt $24,$25,$24", "xori $24,$24,1"],
          19: ["sltu $24,$25,$24", "xori $24,$24,1"], 20: ["slt $24,$25,$24"], 21: ["sltu $24,$25,$24"],
          22: ["slt $24,$24,$25", "xori $24,$24,1"], 23: ["sltu $24,$24,$25", "xori $24,$24,1"]}
UNARY = {1: ["subu $24,$0,$24"], 2: ["nor $24,$24,$0"], 3: ["sltiu $24,$24,1"], 4: ["sll $24,$24,24", "sra $24,$24,24"],
         5: ["andi $24,$24,255"], 6: ["sll $24,$24,16", "sra $24,$24,16"], 7: ["andi $24,$24,65535"]}
LOADS, STORES = ["lb", "lbu", "lh", "lhu", "lw"], ["sb", "sb", "sh", "sh", "sw"]


def trap(test, code):
    """A break that is skipped where the test's branch is taken."""
    return [f"{test},2", NOP, f"break {code}"]


def constant(register, number):
    return [f"lui {register},{number % 2**32 >> 16}", f"ori {register},{register},{number & 65535}"]


def at_frame(name, register, offset):
    """An access of the frame: a near slot's offset is below 32,768."""
    if offset < 32768:
        return [f"{name} {register},{offset}($29)"]
    high = offset + 32768 >> 16
    return [f"lui $1,{high}", "addu $1,$1,$29", f"{name} {register},{offset - (high << 16)}($1)"]


class Function:
    """A function's frame and places."""

    def __init__(self, places, address, frame, objects, compiled):
        self.places, self.address, self.frame = places, address, frame
        self.objects, self.compiled = objects, compiled
        self.saved = sorted({place for place in places if place < SLOT})

    def place(self, register):
        return self.places[register] if register < len(self.places) else SLOT

    def come(self, *registers):
        """Brings one or two operands to $24 and $25."""
        lines = []
        for to, register in zip(("$24", "$25"), registers):
            if self.place(register) < SLOT:
                lines.append(f"addu {to},{REGISTERS[self.place(register)]},$0")
            else:
                lines += at_frame("lw", to, 128 + 4 * register)
        return lines + [NOP] if lines[-1].startswith("lw") else lines

    def go(self, register):
        """Brings $24 to the place of what the op defines."""
        if self.place(register) < SLOT:
            return [f"addu {REGISTERS[self.place(register)]},$24,$0"]
        return at_frame("sw", "$24", 128 + 4 * register)

    def counted(self, step):
        return ["lw $25,-36($28)", NOP, f"addiu $25,$25,{step}", "sw $25,-36($28)"] if self.compiled else []

    def prologue(self):
        lines = constant("$1", self.frame) + ["subu $24,$29,$1", "lui $25,32512", "sltu $25,$24,$25"]
        lines += trap("beq $25,$0", 20) + ["addu $29,$24,$0", "sw $31,80($29)"]
        lines += [f"sw {REGISTERS[place]},{32 + 4 * place}($29)" for place in self.saved] + self.counted(1)
        if self.objects:
            lines += constant("$24", self.objects) + ["addu $30,$30,$24", "lui $24,4352", "sltu $25,$24,$30"]
            lines += trap("beq $25,$0", 21)
        return lines

    def epilogue(self):
        lines = self.counted(-1) + [f"lw {REGISTERS[place]},{32 + 4 * place}($29)" for place in self.saved]
        lines += ["lw $31,80($29)"]
        if self.objects:
            lines += constant("$24", self.objects) + ["subu $30,$30,$24"]
        return lines + constant("$1", self.frame) + ["addu $29,$29,$1", "jr $31", NOP]

    def object(self, register, offset):
        return constant(register, offset - self.objects) + [f"addu {register},{register},$30"]

    def checked(self, register, access):
        """An access behind the test that its address is one of the objects' region."""
        return [f"srl {register},$24,24", f"xori {register},{register},16", *trap(f"beq {register},$0", 16), access]

    def template(self, op):
        """The instructions of an op; `j LABEL` and `j leave` are to be resolved."""
        name, rest = op.name, op.rest
        come = self.come(*op.uses) if op.uses else []
        go = self.go(op.to) if op.to is not None else []
        if name == "Const":
            return constant("$24", rest[0]) + go
        if name == "Move":
            return come + go
        if name == "Bin":
            return come + BINARY[rest[0]] + go
        if name == "Un":
            return come + UNARY[rest[0]] + go
        if name == "CheckDiv":
            tests = ["addiu $1,$0,-1", "bne $25,$1,4", "lui $1,32768"]
            return come + trap("bne $25,$0", 7) + tests + trap("bne $24,$1", 6)
        if name == "CheckZero":
            return come + trap("bne $24,$0", 7)
        if name == "FrameAddr":
            return self.object("$24", rest[0]) + go
        if name == "Load":
            return come + self.checked("$25", f"{LOADS[rest[0]]} $24,0($24)") + [NOP] + go
        if name == "Store":
            return come + self.checked("$1", f"{STORES[rest[0]]} $25,0($24)")
        if name == "Clear":
            ends = self.object("$24", rest[0]) + self.object("$25", rest[0] + 4 * rest[1])
            return ends + ["sw $0,0($24)", "addiu $24,$24,4", "bne $24,$25,-3", NOP]
        if name == "Label":
            return []
        if name == "Jump":
            return [("j", op.label), NOP]
        if name in ("BrZ", "BrNZ"):
            return come + [f"{'bne' if name == 'BrZ' else 'beq'} $24,$0,3", NOP, ("j", op.label), NOP]
        return self.call_template(op, come, go)

    def call_template(self, op, come, go):
        name, rest = op.name, op.rest
        if name == "Arg":
            return come + [f"sw $24,{4 * rest[0]}($29)"]
        if name == "GetParam":
            return at_frame("lw", "$24", self.frame + 4 * rest[0]) + [NOP] + go
        if name == "Call":
            return [f"jal {rest[0]}", NOP]
        if name == "CallNum":
            return come + ["srl $25,$24,16", "bne $25,$0,7", "sll $24,$24,3", "addu $24,$24,$28", "lw $25,4($24)",
                           "lw $24,0($24)", f"xori $25,$25,{rest[0]}", *trap("beq $25,$0", 17), "jalr $31,$24", NOP]
        if name == "Result":
            return ["addu $24,$2,$0"] + go
        if name == "Ret":
            return come + ["addu $2,$24,$0", ("j", "leave"), NOP]
        if name == "Ret0":
            return ["addu $2,$0,$0", ("j", "leave"), NOP]
        if name == "Sys":
            return come + ["addu $4,$24,$0", f"ori $2,$0,{rest[0]}", "syscall", "addu $24,$2,$0"] + go
        if name == "Run":
            return come + ["addu $4,$24,$0", f"jal {ROUTINES + 256 * rest[0]}", NOP, "addu $24,$2,$0"] + go
        if name == "New":
            address, kind, captures = rest
            lines = constant("$4", address) + [f"ori $5,$0,{kind}"] + constant("$6", captures)
            return lines + [f"jal {MAKER}", NOP, "addu $24,$2,$0"] + go
        if name == "Put":
            offset = 16 + 4 * rest[0]
            high = offset + 32768 >> 16
            closure = ["lw $25,-32($28)", f"lui $1,{high}", "addu $25,$25,$1"]
            return come + closure + [f"sw $24,{offset - (high << 16)}($25)"]
        raise ValueError(f"no template: {op}")


def instructions(ops, places, address, frame, objects=0, compiled=True):
    """The instructions of a function that stands at an address, with all jumps resolved."""
    function = Function(places, address, frame, objects, compiled)
    lines, where = function.prologue(), {}
    for op in ops:
        if op.name == "Label":
            where[op.label] = address + 4 * len(lines)
        lines += function.template(op)
    where["leave"] = address + 4 * len(lines)
    lines += function.epilogue()
    return [f"j {where[line[1]]}" if isinstance(line, tuple) else line for line in lines]


def expand(ops, places, address, frame, objects=0, compiled=True):
    return [word(line) for line in instructions(ops, places, address, frame, objects, compiled)]
