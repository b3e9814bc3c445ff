"""Random functions for the service that builds ops: lists of builder ops that the builder takes."""
from builder import Builder
from guest import OBJECTS, library

KINDS, DIVISIONS = range(1, 24), (4, 5, 6, 7)
SIZES = (1, 1, 2, 2, 4)
WORDS = (0, 1, 2, 3, 5, 31, 32, 255, 256, 32767, 32768, 65535, 65536, 2**31 - 1, 2**31, 2**32 - 1, 2**32 - 2,
         2**32 - 128)
CONST, BIN, UN, ENTER, LEAVE, GET, SET, DROP, PICK, NIP, LOAD, STORE, LABEL, JUMP = range(1, 15)
ZERO, NONZERO, CALL, NUMBER, RETURN, RETURN_ZERO, GET_KEY, SET_KEY, SYS, RUN = range(15, 25)
LOCALS = 8


class Maker:
    """Makes one function; `below` picks a number below another one, and `callees` has addresses, rows and counts."""

    def __init__(self, below, parameters, callees, has_heap):
        self.below, self.parameters, self.callees, self.has_heap = below, parameters, callees, has_heap
        self.ops, self.shadow, self.bodies = [], Builder(parameters), []
        self.prints = 3

    def emit(self, *op):
        self.shadow.emit(*op)
        self.ops.append(op)

    def among(self, things):
        return things[self.below(len(things))]

    def word(self):
        return self.among((self.among(WORDS), self.below(100), self.below(2**32)))

    def key(self):
        return self.among([*range(self.parameters), LOCALS, LOCALS + 1, 262151])

    def leaf(self):
        choice = self.below(8)
        if choice < 3 and self.bodies:
            self.emit(GET, self.below(self.bodies[-1]))
        elif choice < 5:
            self.emit(GET_KEY, self.key())
        else:
            self.emit(CONST, self.word())

    def value(self, depth):
        """Leaves one operand more."""
        if depth == 0:
            return self.leaf()
        makers = [self.binary, self.binary, self.binary, self.unary, self.load, self.store, self.kept, self.picked,
                  self.nipped, self.called, self.numbered, self.system, self.leaf_at]
        return self.among(makers)(depth - 1)

    def leaf_at(self, _):
        self.leaf()

    def binary(self, depth):
        kind = self.among(KINDS)
        self.value(depth)
        self.value(depth)
        if kind in DIVISIONS and self.below(16):
            self.emit(CONST, 1)
            self.emit(BIN, 9)
        self.emit(BIN, kind)

    def unary(self, depth):
        self.value(depth)
        self.emit(UN, 1 + self.below(7))

    def address(self, width):
        """Leaves an address among the first of the objects, which is nearly always aligned."""
        if self.below(2):
            self.emit(CONST, OBJECTS + self.below(16) * SIZES[width])
        else:
            self.leaf()
            self.emit(CONST, 64 - SIZES[width])
            self.emit(BIN, 8)
            self.emit(CONST, OBJECTS if self.below(40) else OBJECTS + self.below(2**28))
            self.emit(BIN, 1)

    def load(self, _):
        width = self.below(5)
        self.address(width)
        self.emit(LOAD, width)

    def store(self, depth):
        width = self.below(5)
        self.address(width)
        self.value(depth)
        self.emit(STORE, width)

    def kept(self, depth):
        self.value(depth)
        if self.bodies and self.bodies[-1] > 1 and self.below(2):
            self.emit(SET, 1 + self.below(self.bodies[-1] - 1))
        else:
            self.emit(SET_KEY, self.key())

    def picked(self, depth):
        self.value(depth)
        self.value(depth)
        self.emit(PICK, self.below(2))
        self.emit(BIN, self.among((1, 2, 3, 10)))
        self.emit(BIN, self.among((1, 2, 8, 16)))

    def nipped(self, depth):
        self.value(depth)
        self.value(depth)
        self.emit(NIP)

    def called(self, depth):
        address, _, count = self.among(self.callees)
        for _ in range(count):
            self.value(min(depth, 1))
        self.emit(CALL, address, count)

    def numbered(self, depth):
        _, row, count = self.among(self.callees)
        self.emit(CONST, row if self.below(40) else self.word())
        for _ in range(count):
            self.value(min(depth, 1))
        self.emit(NUMBER, count)

    def system(self, depth):
        if self.has_heap and self.below(2):
            self.emit(CONST, 4 * self.below(8))
            self.emit(RUN, 1)
        elif self.prints and self.below(2):
            self.prints -= 1
            self.value(depth)
            self.emit(SYS, 11)
        else:
            self.value(depth)
            self.emit(SYS, 12)

    def wide(self):
        """Leaves one operand more, by more operands at once than there are registers."""
        count = 13 + self.below(8)
        for _ in range(count):
            self.leaf()
        for _ in range(count - 1):
            self.emit(BIN, self.among((1, 2, 3, 8, 9, 10, 14, 16, 17, 22)))

    def dropped(self, depth):
        if self.below(8) == 0:
            self.wide()
        else:
            self.value(depth)
        self.emit(DROP)

    def assigned(self, depth):
        self.value(depth)
        self.emit(SET, 1 + self.below(self.bodies[-1] - 1))
        self.emit(DROP)

    def body(self, depth, statements):
        """A body of 2 to 5 variables and 4 labels; variable 0 counts the turns of its one loop."""
        variables = 2 + self.below(4)
        self.emit(ENTER, variables, 4)
        self.bodies.append(variables)
        self.emit(CONST, 0)
        for variable in range(variables):
            self.emit(SET, variable)
        self.emit(DROP)
        for _ in range(statements):
            self.among((self.assigned, self.assigned, self.dropped))(depth)
        self.branch(depth)
        self.loop(depth)
        if depth > 1 and self.below(3) == 0:
            self.body(depth - 1, 1)
        if self.below(6) == 0:
            self.value(depth)
            self.emit(RETURN)
        self.bodies.pop()
        self.emit(LEAVE)

    def branch(self, depth):
        if self.below(3):
            self.value(depth)
            self.emit(self.among((ZERO, NONZERO)), 0)
            self.assigned(depth)
            if self.below(4) == 0:
                self.emit(RETURN_ZERO)
            if self.below(2):
                self.emit(JUMP, 1)
                self.emit(LABEL, 0)
                self.assigned(depth)
                self.emit(LABEL, 1)
            else:
                self.emit(LABEL, 0)

    def loop(self, depth):
        if self.below(2):
            self.emit(CONST, 1 + self.below(5))
            self.emit(SET, 0)
            self.emit(DROP)
            self.emit(LABEL, 2)
            self.assigned(depth)
            if self.below(2):
                self.value(min(depth, 1))
                self.emit(NONZERO, 3)
                self.dropped(min(depth, 1))
                self.emit(LABEL, 3)
            self.emit(GET, 0)
            self.emit(CONST, 1)
            self.emit(BIN, 2)
            self.emit(SET, 0)
            self.emit(NONZERO, 2)

    def function(self, depth, statements):
        """The ops of a whole function."""
        for _ in range(self.below(2)):
            self.dropped(depth)
        if self.below(4):
            self.body(depth, statements)
        if self.below(4):
            self.value(depth)
            self.emit(RETURN)
        return self.ops


def random_callees():
    """The static functions that random functions call: addresses, rows and counts."""
    return [(library("one"), 1, 1), (library("two"), 2, 2), (library("active"), 4, 0)]

