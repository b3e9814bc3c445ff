"""The images of the trial of services: name, most steps and file of each.

Random functions that are made and called; each refusal of a service in each state in which it can come; calls and ops
just within each bound; words of the arena that aren't flushed; functions of many values, of far slots, that call
themselves or static code; and images that make very much.
"""
from builder import LIMIT
from guest import ARENA, BEGIN, EMIT, FINISH, FLUSH, PUBLISH, ROWS, TABLE, TEXT, Guest, Made, library, load
from random_functions import BIN, CALL, CONST, DROP, ENTER, GET, GET_KEY, JUMP, LABEL, LEAVE, LOAD, NIP, NONZERO, NUMBER
from random_functions import PICK, RETURN, RETURN_ZERO, RUN, SET, SET_KEY, STORE, SYS, UN, ZERO, Maker, random_callees

END = 0x06000000
STEPS, MANY_STEPS = 100_000, 1_000_000_000
FIRST_ROW = len(ROWS) + 1
ALL = 2**32 - 1
TWICE = [(GET_KEY, 0), (PICK, 0), (BIN, 1), (RETURN,)]
FACTORIAL = [(ENTER, 0, 1), (GET_KEY, 0), (NONZERO, 0), (CONST, 1), (RETURN,), (LABEL, 0), (GET_KEY, 0), (GET_KEY, 0),
             (CONST, 1), (BIN, 2)]


def made_images(generator, count):
    """Images that make one to three random functions each, and call them by address and by row."""
    def below(most):
        return generator.next() % most

    for number in range(count):
        has_heap = below(3) == 0
        guest, callees, made = Guest(has_heap), random_callees(), []
        first = at = ARENA + 4 * below(2000)
        for row in range(FIRST_ROW, FIRST_ROW + 1 + below(3)):
            parameters = below(4)
            maker = Maker(below, parameters, callees, has_heap)
            ops, registers = maker.function(2, 1 + below(2)), maker.shadow.registers
            it = Made(parameters, ops, at, 128 + 4 * (registers + below(3)))
            guest.make(it, row, below(3))
            guest.call(at, [below(2**32) if below(2) else below(10) for _ in range(parameters)])
            callees.append((at, row, parameters))
            made.append((row, it))
            at += 4 * (it.count + below(3))
        for row, it in made:
            guest.call_row(row, [below(10) for _ in range(it.parameters)])
        guest.fold_words(first, (at - first) // 4)
        guest.say()
        guest.end()
        yield f"made-{number}", STEPS, guest.image()


class State:
    """A guest in a state of the services, each behind the one before it, and what holds in that state."""
    NAMES = ("fresh", "begun", "operand", "body", "jumped", "ready", "finished", "flushed", "published", "called",
             "again")
    BEGUN = ("begun", "operand", "body", "jumped", "ready", "again")
    IN_BODY = ("body", "jumped")

    def __init__(self, name):
        self.name, self.guest = name, Guest()
        self.made = Made(1, TWICE, ARENA + 64)
        for step in self.NAMES[1:self.NAMES.index(name) + 1]:
            getattr(self, step)()

    def begun(self):
        self.guest.begin(1)

    def operand(self):
        self.guest.emit(CONST, 5)

    def body(self):
        self.guest.emit(DROP)
        self.guest.emit(ENTER, 2, 2)

    def jumped(self):
        self.guest.emit(JUMP, 1)

    def ready(self):
        self.guest.emit(LABEL, 1)
        self.guest.emit(LEAVE)

    def finished(self):
        self.guest.emit_all(TWICE)
        self.guest.finish(self.made.address, 200, 512)
        self.guest.fold()

    def flushed(self):
        self.guest.flush(self.made.address, 100)

    def published(self):
        self.guest.publish(FIRST_ROW, self.made.address, 1)

    def called(self):
        self.guest.call_row(FIRST_ROW, [21])

    def again(self):
        self.guest.begin(2)
        self.guest.emit(GET_KEY, 1)


NO_SERVICES = (0, 2, 9, 13, 63, 69, 70, 72, 128, 255, 65535, ALL)
BAD_OPS = ((0,), (25, 8), (26, 8, 1), (27, TEXT, 1), (28, 0), (29, 0), (30,), (ALL,), (BIN, 0), (BIN, 24), (BIN, ALL),
           (UN, 0), (UN, 8), (LOAD, 5), (STORE, 5), (STORE, ALL), (CALL, TEXT + 2, 0), (CALL, 2**28, 0),
           (CALL, TEXT, 9), (NUMBER, 9), (SYS, 0), (SYS, 2), (SYS, 9), (SYS, 13), (SYS, 64), (RUN, 0), (RUN, 2),
           (RUN, ALL))
# ops that the builder refuses where there are no operands, where there is one, and by whether a body is entered
NO_OPERANDS = ((BIN, 1), (BIN, 4), (UN, 1), (SET, 0), (DROP,), (PICK, 0), (NIP,), (LOAD, 4), (STORE, 4), (ZERO, 0),
               (NONZERO, 1), (CALL, TEXT, 1), (CALL, TEXT, 8), (NUMBER, 0), (NUMBER, 8), (RETURN,), (SET_KEY, 0),
               (SYS, 11), (RUN, 1))
ONE_OPERAND = ((BIN, 1), (PICK, 1), (PICK, ALL), (NIP,), (STORE, 4), (CALL, TEXT, 2), (NUMBER, 1))
NO_BODY = ((LEAVE,), (LABEL, 0), (JUMP, 0), (GET, 0))
OPERAND_NO_BODY = ((SET, 0), (ZERO, 0), (NONZERO, 0))
IN_BODY = ((LABEL, 2), (LABEL, ALL), (JUMP, 2), (GET, 2), (GET, ALL))
BAD_KEYS = ((GET_KEY, 7), (GET_KEY, 262152), (GET_KEY, 2), (GET_KEY, ALL))
OUTSIDE = ((ARENA - 4, 1), (ARENA + 1, 1), (ARENA + 2, 1), (ARENA + 3, 0), (END, 0), (END - 4, 2), (END - 4, ALL),
           (ARENA, 8388609), (ARENA, 2**30), (ARENA, 2**31 + 1), (0, 0), (TEXT, 1), (0x10000000, 1), (ALL - 3, 1))
BAD_ROWS = ((0, TEXT, 0), (65536, TEXT, 0), (ALL, TEXT, 0), (5, TEXT - 4, 0), (5, END, 0), (5, TEXT + 1, 0),
            (5, ARENA + 2, 0), (5, TEXT, 9), (5, TEXT, ALL), (0, 0, 9), (5, 0, 0), (5, 0x10000000, 0))
BAD_FRAMES = (0, 124, 127, 128, 133, 134, 135, 16777220, 2**31, ALL - 3)


def refused_calls(state):
    """What is refused in a state: the reason, and the service with its arguments. What doesn't hang on the state is
    asked for whole in one state, and in part in each other."""
    is_begun, turn = state in State.BEGUN, State.NAMES.index(state)

    def some(things, whole, few=1):
        if state == whole:
            return things
        return [things[(few * turn + it) % len(things)] for it in range(few)]

    for number in some(NO_SERVICES, "fresh"):
        yield 1, (number, 1, 1, 1)
    if is_begun:
        yield 2, (BEGIN, 9 * (turn % 2))
        for op in some(BAD_OPS, "begun"):
            yield 4, (EMIT, *op)
    else:
        yield 3, (EMIT, RETURN_ZERO if turn % 2 else 0)
        yield 3, (FINISH, ARENA, 100, 128)
        yield 4, (BEGIN, (9, 10, 64, ALL)[turn % 4])
    for op in denied_ops(state, some):
        yield 5, (EMIT, *op)
    if is_begun and state not in ("begun", "ready"):
        yield 6, (FINISH, ARENA * (turn % 2), 200, 512)
    for address, count in some(OUTSIDE, "fresh"):
        yield 7, (FLUSH, address, count)
    if state in ("begun", "ready"):
        for address, count in some(OUTSIDE, "ready"):
            yield 7, (FINISH, address, count, 512)
        for frame in some(BAD_FRAMES, "ready"):
            yield 9, (FINISH, ARENA, 200, frame)
        for most in (0, 1, 26 if state == "begun" else 28):
            yield 8, (FINISH, ARENA, most, 512)
    for row in some(BAD_ROWS, "published"):
        yield 10, (PUBLISH, *row)


def denied_ops(state, some):
    """The ops that the builder refuses in a state."""
    if state not in State.BEGUN:
        return
    if state in ("operand", "again"):
        yield from some(ONE_OPERAND, "operand")
        yield from some(OPERAND_NO_BODY, "operand")
    else:
        yield from some(NO_OPERANDS, "begun")
        yield from some(IN_BODY, "body") if state in State.IN_BODY else some(NO_BODY, "begun")
    if state == "jumped":
        yield (LEAVE,)
    yield from some(BAD_KEYS, "begun")


def refused_images():
    """Each refusal in each state: the run ends there."""
    for state in State.NAMES:
        for number, (reason, call) in enumerate(refused_calls(state)):
            it = State(state).guest
            it.serve(*call)
            it.say()
            it.end()
            yield f"refused-{reason}-{state}-{number}", STEPS, it.image()


def from_inside():
    """Services that static code asks for while a function that was made calls it."""
    calls = {"begin": (BEGIN, 1), "begin-9": (BEGIN, 9), "emit": (EMIT, RETURN_ZERO), "none": (71,),
             "finish": (FINISH, ARENA, 100, 128), "flush": (FLUSH, ARENA, 4), "flush-outside": (FLUSH, END, 0),
             "flush-itself": (FLUSH, ARENA, 60), "publish": (PUBLISH, 9, TEXT, 0),
             "publish-row-0": (PUBLISH, 0, TEXT, 0), "publish-itself": (PUBLISH, FIRST_ROW, ARENA, 0)}
    for name, (number, *arguments) in calls.items():
        guest = Guest()
        given = "; ".join(load(register, value) for register, value in zip(("$4", "$5", "$6"), arguments))
        given += ";" if given else ""
        asks = guest.aside("asks", f"{given} ori $2,$0,{number}; syscall; addiu $2,$2,9; jr $31; nop")
        it = Made(0, [(CALL, asks, 0), (CONST, 3), (BIN, 1), (RETURN,)], ARENA)
        guest.make(it, FIRST_ROW)
        guest.call_row(FIRST_ROW)
        guest.fold_words(TABLE + 8 * FIRST_ROW, 10)
        guest.say()
        guest.end()
        yield f"inside-{name}", STEPS, guest.image()


def within_images():
    """Calls just within the bounds, whose words and rows are looked at in the end."""
    def ended(name, guest, address, count, calls=()):
        for row, values in calls:
            guest.call_row(row, values)
        guest.fold_words(address, count)
        guest.say()
        guest.end()
        return f"within-{name}", STEPS, guest.image()

    for parameters in range(9):
        guest = Guest()
        ops = [(GET_KEY, key) for key in range(parameters)] + [(BIN, 2)] * max(parameters - 1, 0)
        it = Made(parameters, ops + [(RETURN,)] * (parameters > 0), ARENA + 4 * parameters)
        guest.make(it, FIRST_ROW)
        calls = [(FIRST_ROW, range(90, 90 + parameters))]
        yield ended(f"{parameters}-parameters", guest, it.address, it.count + 1, calls)
    for key in (8, 9, 262151):
        guest = Guest()
        it = Made(0, [(CONST, 7), (SET_KEY, key), (GET_KEY, key), (BIN, 3), (GET_KEY, key), (BIN, 1), (RETURN,)], ARENA)
        guest.make(it, FIRST_ROW)
        yield ended(f"key-{key}", guest, ARENA, it.count, [(FIRST_ROW, ())])
    for frame in (132, 136, 32768, 32772, 65536, 16777212, 16777216):
        guest = Guest()
        it = Made(0, [(CONST, frame), (RETURN,)], ARENA, frame)
        guest.make(it, FIRST_ROW)
        yield ended(f"frame-{frame}", guest, ARENA, it.count, [(FIRST_ROW, ())])
    for back in (1, 2, 3):
        guest = Guest()
        size = Made(1, TWICE, ARENA).count
        it = Made(1, TWICE, END - 4 * size)
        guest.make(it, 65536 - back)
        yield ended(f"arena-end-row-{65536 - back}", guest, it.address, it.count, [(65536 - back, (4,))])
    flushes = {"no-words": (ARENA, 0), "last-word": (END - 4, 1), "all-words": (ARENA, 8388608),
               "no-words-at-the-end": (END - 4, 0)}
    for name, (address, count) in flushes.items():
        guest = Guest()
        it = Made(1, TWICE, ARENA)
        guest.make(it, FIRST_ROW)
        guest.flush(address, count)
        guest.fold()
        yield ended(f"flush-{name}", guest, ARENA, it.count, [(FIRST_ROW, (4,))])
    rows = ((1, TEXT, 0), (2, END - 4, 8), (65535, TEXT, 8), (FIRST_ROW, ARENA, 3), (300, 0x00800000, 1))
    for row, address, count in rows:
        guest = Guest()
        guest.publish(row, address, count)
        guest.fold()
        guest.publish(row, address, 8 - count)
        guest.fold_words(TABLE + 8 * max(row - 1, 0), 4)
        yield ended(f"row-{row}-{address:x}-{count}", guest, TABLE, 12)


def stale_images():
    """Words that are executed without a flush behind their last write."""
    it = Made(1, TWICE, ARENA + 400)
    def made(name, *steps, row=FIRST_ROW):
        guest = Guest()
        guest.begin(1)
        guest.emit_all(TWICE)
        guest.finish(it.address, it.count, it.frame)
        for step in steps:
            step(guest)
        guest.publish(row, it.address, 1)
        guest.call_row(row, (8,))
        guest.say()
        guest.end()
        return f"stale-{name}", STEPS, guest.image()

    def flush(guest, address=it.address, count=it.count):
        guest.flush(address, count)

    def again(guest, address=it.address):
        guest.begin(1)
        guest.emit_all(TWICE)
        guest.finish(address, 100, 512)

    def store(name, offset):
        get = f"{load('$16', it.address)}; lw $17,{offset & ~3}($16); nop"
        return lambda guest: guest.add(f"{get}; {name} $17,{offset}($16)")

    yield made("not-flushed")
    yield made("flushed", flush)
    for back in (1, 2, 5, 20, it.count - 1, it.count):
        yield made(f"{back}-words-less", lambda guest, back=back: flush(guest, count=it.count - back))
    for front in (1, 2, 10):
        rest = it.address + 4 * front, it.count - front
        yield made(f"first-{front}-words-less", lambda guest, rest=rest: flush(guest, *rest))
    second = it.address + 80, it.count - 20
    yield made("flushed-in-two", lambda guest: flush(guest, count=20), lambda guest: flush(guest, *second))
    yield made("finished-again", flush, again)
    yield made("finished-again-and-flushed", flush, again, flush)
    yield made("another-over-its-end", flush, lambda guest: again(guest, it.address + 120))
    yield made("another-over-its-start", flush, lambda guest: again(guest, it.address - 120))
    yield made("another-behind-it", flush, lambda guest: again(guest, it.address + 4 * it.count))
    for name, offset in (("sw", 0), ("sh", 2), ("sb", 39), ("sw", 4 * it.count - 4), ("sb", 4 * it.count), ("sw", -4)):
        yield made(f"{name}-at-{offset}", flush, store(name, offset))
    yield made("stored-before-the-flush", store("sw", 4), flush)
    yield made("begun-behind-the-flush", flush, lambda guest: guest.begin(2), lambda guest: guest.emit(CONST, 1))


def calling(name, parameters, ops, values, frame=None, by_row=True):
    """One function that is called with each list of values, by address and by row."""
    guest = Guest(has_heap=any(op[0] == RUN for op in ops))
    it = Made(parameters, ops, ARENA, frame)
    guest.make(it, FIRST_ROW)
    for given in values:
        guest.call(ARENA, given)
        if by_row:
            guest.call_row(FIRST_ROW, given)
    guest.fold_words(ARENA, it.count)
    guest.say()
    guest.end()
    return f"called-{name}", STEPS, guest.image()


def called_images():
    """Functions of one kind each."""
    times = [(BIN, 3), (RETURN,), (LEAVE,)]
    by_address = [*FACTORIAL, (CALL, ARENA, 1)]
    by_row = [*FACTORIAL[:7], (CONST, FIRST_ROW), *FACTORIAL[7:], (NUMBER, 1)]
    yield calling("itself-by-address", 1, by_address + times, [(0,), (1,), (5,), (12,)])
    yield calling("itself-by-row", 1, by_row + times, [(0,), (1,), (5,), (12,)])
    yield calling("stack-limit", 1, by_address + times, [(14,), (17,)], frame=1048576)
    for count in (0, 2, 3, 8):
        ops = [(CONST, 1)] + [(CONST, it) for it in range(count)] + [(NUMBER, count), (RETURN,)]
        yield calling(f"one-with-{count}", 0, ops, [()])
    for number in (0, 2, 3, 100, 65535, 65536, ALL):
        ops = [(CONST, number), (CONST, 5), (CONST, 6), (NUMBER, 2), (RETURN,)]
        yield calling(f"row-{number}-with-2", 0, ops, [()])
    active = (CALL, library("active"), 0)
    yield calling("active", 0, [active, (RETURN,)], [()])
    there = [(ENTER, 0, 1), (GET_KEY, 0), (CONST, 5), (BIN, 15), (NONZERO, 0), active, (RETURN,), (LABEL, 0)]
    back = [(CONST, FIRST_ROW), (CALL, library("back"), 1), active, (BIN, 1), (RETURN,), (LEAVE,)]
    yield calling("back", 1, there + back, [(5,), (6,)])
    for it in (crowded_images, far_images, memory_images, service_images_of_ops, division_images):
        yield from it()


def crowded_images():
    """About as many values at once as there are registers, in straight code and in a loop."""
    for count in (11, 12, 13, 14, 20, 40):
        ops = [(CONST, it * it + 1) for it in range(count)] + [(BIN, 2 - it % 2) for it in range(count - 1)]
        yield calling(f"{count}-operands", 0, ops + [(RETURN,)], [()])
        ops = [(ENTER, count, 1)] + [it for k in range(count) for it in ((CONST, 3 * k), (SET, k), (DROP,))]
        ops += [(GET_KEY, 0), (SET_KEY, 8), (DROP,), (LABEL, 0)]
        for k in range(count):
            ops += [(GET, k), (GET, (k + 1) % count), (BIN, 1), (SET, k), (DROP,)]
        ops += [(GET_KEY, 8), (CONST, 1), (BIN, 2), (SET_KEY, 8), (NONZERO, 0)]
        ops += [(GET, 0), (GET, count - 1), (BIN, 10), (RETURN,), (LEAVE,)]
        yield calling(f"{count}-variables-in-a-loop", 1, ops, [(1,), (4,)])


def far_images():
    """Slots about the offset 32,768 and far behind it."""
    for variables in (8158, 8160, 8162, 9000, 60000):
        last = variables - 1
        ops = [(ENTER, variables, 0)] + [(CONST, it) for it in range(14)] + [(SET, last)] + [(BIN, 1)] * 13
        ops += [(GET, last), (BIN, 3), (SET_KEY, 0), (RETURN,), (LEAVE,)]
        yield calling(f"far-{variables}", 1, ops, [(2,)])


def memory_images():
    """Memory of the heap, and accesses of each width."""
    for value in (0, 1, 99, 2**31, ALL):
        ops = [(CONST, 8), (RUN, 1), (GET_KEY, 0), (STORE, 4), (DROP,), (CONST, 8), (RUN, 1), (CONST, 8), (BIN, 2)]
        yield calling(f"heap-{value}", 1, ops + [(LOAD, 4), (RETURN,)], [(value,)])
    places = ((0x10000000, 0x80818283), (0x10FFFFFC, ALL), (0x10000001, 0x7FFF8005), (0x11000000, 1))
    for width in range(5):
        ops = [(GET_KEY, 0), (GET_KEY, 1), (STORE, width), (GET_KEY, 0), (LOAD, width), (BIN, 14)]
        ops += [(GET_KEY, 0), (LOAD, width ^ 1 if width < 4 else 4), (BIN, 1), (RETURN,)]
        for at, word in places:
            yield calling(f"width-{width}-at-{at:x}", 2, ops, [(at, word)])


def service_images_of_ops():
    """The other services, from functions that were made."""
    bodies = {"exit": [(CONST, 300), (SYS, 10)], "number": [(CONST, 2**31), (SYS, 1)],
              "read": [(CONST, 0), (SYS, 12), (CONST, 0), (SYS, 12), (BIN, 3)]}
    for name, ops in bodies.items():
        yield calling(f"service-{name}", 0, ops + [(RETURN,)], [()], by_row=False)


def division_images():
    for kind in (4, 5, 6, 7):
        for right in (0, ALL, 7):
            ops = [(CONST, 2**31), (GET_KEY, 0), (BIN, kind), (RETURN,)]
            yield calling(f"division-{kind}-by-{right}", 1, ops, [(right,)])


def repeated(guest, count, instructions):
    """So many times the emit service, with these instructions before the first and register 2 set before each."""
    loop = guest.label()
    guest.add(f"{load('$16', count)}; {instructions}; ori $2,$0,65; {loop}: syscall")
    guest.add(f"addiu $16,$16,-1; bne $16,$0,{loop}; ori $2,$0,65")
    guest.forget()


def full_images():
    """Images that fill the builder."""
    def ended(name, guest):
        guest.say()
        guest.end()
        return f"full-{name}", MANY_STEPS, guest.image()

    for name, op in (("ops", (RETURN_ZERO,)), ("operands", (PICK, 0)), ("bodies", (ENTER, 0, 0))):
        for extra in (0, 1):
            guest = Guest()
            guest.begin()
            if name == "operands":
                guest.emit(CONST, 7)
            given = "; ".join(load(register, it) for register, it in zip(("$4", "$5", "$6"), op))
            repeated(guest, LIMIT - (name == "operands"), given)
            if extra:
                guest.emit(*op)
            if name == "ops" and not extra:
                guest.finish(ARENA, 8388608, 128)
                guest.fold()
                guest.flush(ARENA, 8388608)
                guest.call(ARENA)
            yield ended(f"{name}-{extra}", guest)
    bodies = (("variables", (LIMIT, 0), (1, 0)), ("labels", (0, LIMIT), (0, 1)),
              ("variables-at-once", (LIMIT + 1, 0), (0, 0)), ("labels-at-once", (0, LIMIT + 1), (0, 0)),
              ("variables-and-labels", (LIMIT, LIMIT), (0, 0)))
    for name, first, second in bodies:
        guest = Guest()
        guest.begin()
        guest.emit(ENTER, *first)
        guest.emit(ENTER, *second)
        yield ended(name, guest)
    yield calling("registers-2", 0, [(ENTER, LIMIT, 0), (CONST, 5), (SET, LIMIT - 1), (RETURN,), (LEAVE,)], [()])


def many_functions(count=10_000, pairs=48):
    """An image that makes so many functions, publishes each and calls it. Together they nearly fill the arena."""
    guest = Guest(has_library=False)
    # address, number, how many, and the number's row
    guest.add(f"{load('$17', ARENA)}; addu $18,$0,$0; {load('$19', count)}; {load('$21', TABLE + 8)}; every:")
    guest.forget()
    guest.begin(1)
    guest.emit_all([(ENTER, 0, 1), (GET_KEY, 0), (NONZERO, 0)])
    for op in ((CONST,), (RETURN,), (LABEL, 0), (CONST,)):
        if op == (CONST,):
            guest.add("addu $5,$18,$0")
            guest.known.pop("$5", None)
        guest.emit(*op)
    guest.add(f"ori $16,$0,{pairs}; pair:")
    guest.forget()
    guest.emit_all([(PICK, 0), (BIN, 4)])
    guest.add("addiu $16,$16,-1; bne $16,$0,pair; nop")
    guest.forget()
    guest.emit_all([(RETURN,), (LEAVE,)])
    guest.add(f"addu $4,$17,$0; {load('$5', END)}; subu $5,$5,$17; srl $5,$5,2; ori $6,$0,512")
    guest.add(f"ori $2,$0,{FINISH}; syscall; addu $20,$2,$0")
    guest.add(f"addu $4,$17,$0; addu $5,$20,$0; ori $2,$0,{FLUSH}; syscall")
    guest.add(f"addiu $4,$18,1; addu $5,$17,$0; ori $6,$0,1; ori $2,$0,{PUBLISH}; syscall")
    # called with 0, and each thousandth but the first with 1 too
    guest.add("lw $25,0($21); sw $0,0($29); jalr $31,$25; nop; addu $23,$23,$2")
    guest.add("ori $12,$0,1000; div $18,$12; mfhi $12; bne $12,$0,next; nop; beq $18,$0,next; nop")
    guest.add("lw $25,0($21); ori $12,$0,1; sw $12,0($29); jalr $31,$25; nop; addu $23,$23,$2")
    guest.add("next: sll $20,$20,2; addu $17,$17,$20; addiu $21,$21,8; addiu $18,$18,1; bne $18,$19,every; nop")
    guest.add("addu $4,$23,$0; ori $2,$0,1; syscall")
    guest.end(0)
    yield f"many-{count}", MANY_STEPS, guest.image()


def service_images(generator, count):
    """All images, filled up to so many by random functions."""
    makers = (refused_images, from_inside, within_images, stale_images, called_images, full_images, many_functions)
    named = [it for maker in makers for it in maker()]
    if len({name for name, _, _ in named}) != len(named):
        raise ValueError("two images have one name")
    return [*made_images(generator, count - len(named)), *named]
