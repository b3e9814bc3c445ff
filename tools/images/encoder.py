"""Words of instructions, and texts of them with labels, written from docs/instructions.md alone.

An instruction is written as in docs/assembly.md: `addu $24,$17,$0`, `lw $24,-4($29)`, `break 7`. A branch has a number
of words or a label, a jump an address or a label.
"""
import functools
import re

NAMES = dict(zip("at v0 v1 a0 a1 a2 a3 t0 t1 t2 t3 t4 t5 t6 t7 s0 s1 s2 s3 s4 s5 s6 s7 t8 t9 k0 k1 gp sp fp ra".split(),
                 range(1, 32)))
# the forms: what stands in the fields, and the instructions with their numbers
THREE = {"add": 32, "addu": 33, "sub": 34, "subu": 35, "and": 36, "or": 37, "xor": 38, "nor": 39, "slt": 42, "sltu": 43}
BY_COUNT = {"sll": 0, "srl": 2, "sra": 3}
BY_REGISTER = {"sllv": 4, "srlv": 6, "srav": 7}
FROM_PRODUCT = {"mfhi": 16, "mflo": 18}
TO_PRODUCT = {"mthi": 17, "mtlo": 19}
PRODUCT = {"mult": 24, "multu": 25, "div": 26, "divu": 27}
SIGN_BRANCH = {"bltz": 0, "bgez": 1, "bltzal": 16, "bgezal": 17}
JUMP = {"j": 2, "jal": 3}
TWO_BRANCH = {"beq": 4, "bne": 5}
ONE_BRANCH = {"blez": 6, "bgtz": 7}
IMMEDIATE = {"addi": 8, "addiu": 9, "slti": 10, "sltiu": 11, "andi": 12, "ori": 13, "xori": 14}
ACCESS = {"lb": 32, "lh": 33, "lw": 35, "lbu": 36, "lhu": 37, "sb": 40, "sh": 41, "sw": 43}
BRANCHES = {**SIGN_BRANCH, **TWO_BRANCH, **ONE_BRANCH}


def register(text):
    return NAMES[text[1:]] if text[1:] in NAMES else int(text[1:])


def within(number, least, most):
    if not least <= number <= most:
        raise ValueError(f"{number} is not in its field")
    return number


def halfword(text, signed):
    number = int(text, 0)
    return within(number, -32768, 32767) % 65536 if signed else within(number, 0, 65535)


def fields(rs=0, rt=0, rd=0, shamt=0, funct=0):
    return rs << 21 | rt << 16 | rd << 11 | shamt << 6 | funct


@functools.lru_cache(maxsize=1 << 16)
def word(text):
    """The word of an instruction whose offset or target is a number."""
    name, _, rest = text.partition(" ")
    it = [part.strip() for part in rest.split(",")] if rest else []
    r = lambda place: register(it[place])
    if name == "nop":
        return 0
    if name == ".word":
        return within(int(it[0], 0), 0, 2**32 - 1)
    if name in THREE:
        return fields(rd=r(0), rs=r(1), rt=r(2), funct=THREE[name])
    if name in BY_COUNT:
        return fields(rd=r(0), rt=r(1), shamt=within(int(it[2], 0), 0, 31), funct=BY_COUNT[name])
    if name in BY_REGISTER:
        return fields(rd=r(0), rt=r(1), rs=r(2), funct=BY_REGISTER[name])
    if name == "jr":
        return fields(rs=r(0), funct=8)
    if name == "jalr":
        return fields(rd=r(0), rs=r(1), funct=9)
    if name == "syscall":
        return 12
    if name == "break":
        return within(int(it[0], 0), 0, 2**20 - 1) << 6 | 13
    if name in FROM_PRODUCT:
        return fields(rd=r(0), funct=FROM_PRODUCT[name])
    if name in TO_PRODUCT:
        return fields(rs=r(0), funct=TO_PRODUCT[name])
    if name in PRODUCT:
        return fields(rs=r(0), rt=r(1), funct=PRODUCT[name])
    if name in SIGN_BRANCH:
        return 1 << 26 | fields(rs=r(0), rt=SIGN_BRANCH[name]) | halfword(it[1], True)
    if name in JUMP:
        return JUMP[name] << 26 | within(int(it[0], 0), 0, 2**28 - 4) // 4
    if name in TWO_BRANCH:
        return TWO_BRANCH[name] << 26 | fields(rs=r(0), rt=r(1)) | halfword(it[2], True)
    if name in ONE_BRANCH:
        return ONE_BRANCH[name] << 26 | fields(rs=r(0)) | halfword(it[1], True)
    if name in IMMEDIATE:
        return IMMEDIATE[name] << 26 | fields(rs=r(1), rt=r(0)) | halfword(it[2], IMMEDIATE[name] < 12)
    if name == "lui":
        return 15 << 26 | fields(rt=r(0)) | halfword(it[1], False)
    if name in ACCESS:
        offset, base = re.fullmatch(r"(-?\w+)\((\$\w+)\)", it[1]).groups()
        return ACCESS[name] << 26 | fields(rs=register(base), rt=r(0)) | halfword(offset, True)
    raise ValueError(f"no instruction: {text}")


def statements(text):
    """The labels of a text with the numbers of the words that they stand before, and its instructions."""
    labels, lines = {}, []
    for line in re.split(r"[;\n]", text):
        line = line.partition("#")[0].strip()
        while match := re.match(r"(\w+)\s*:\s*", line):
            labels[match[1]] = len(lines)
            line = line[match.end():]
        if line:
            lines.append(" ".join(line.split()))
    return labels, lines


def resolved(text, at=0x00400000, known=()):
    """The instructions of a text that stands at an address, with numbers for labels; `known` has labels elsewhere."""
    labels, lines = statements(text)
    known, found = dict(known), []
    for place, line in enumerate(lines):
        name, mark = line.split()[0], "," if "," in line else " "
        head, _, last = line.rpartition(mark)
        if name in JUMP and last in labels:
            line = f"{head}{mark}{at + 4 * labels[last]}"
        elif name in JUMP and last in known:
            line = f"{head}{mark}{known[last]}"
        elif name in BRANCHES and last in labels:
            line = f"{head}{mark}{labels[last] - place - 1}"
        found.append(line)
    return found


def assemble(text, at=0x00400000, known=()):
    """The words of such a text."""
    return [word(line) for line in resolved(text, at, known)]


def addresses(text, at=0x00400000):
    """The addresses of a text's labels."""
    return {name: at + 4 * number for name, number in statements(text)[0].items()}


def constant(name, number):
    """The two instructions that bring a number to a register."""
    return f"lui {name},{number >> 16}; ori {name},{name},{number & 65535}"
