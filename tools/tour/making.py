"""What docs/tour.md shows of the program that makes code: its run by the machine of tools/images/machine.py."""

import decoder
import machine

ARENA, CLOSURES, ROWS, CELLS = 0x04000000, 0x20000000, 0x20400000, 0x20510000
KINDS = {1: "an expression", 2: "a statement", 3: "a local", 4: "a parameter"}
SERVICES = {64: ("begin", 1), 66: ("finish", 3), 67: ("flush", 2), 68: ("publish", 3)}
# the ops that a service emits, by their numbers, each with how many arguments it has
OPS = {1: ("Const", 1), 2: ("Bin", 1), 3: ("Un", 1), 4: ("Enter", 2), 5: ("Leave", 0), 6: ("GetVar", 1),
       7: ("SetVar", 1), 8: ("Drop", 0), 9: ("Pick", 1), 10: ("Nip", 0), 11: ("Load", 1), 12: ("Store", 1),
       13: ("Label", 1), 14: ("Jump", 1), 15: ("BranchZero", 1), 16: ("BranchNonzero", 1), 17: ("Call", 2),
       18: ("CallNumber", 1), 19: ("Return", 0), 20: ("ReturnZero", 0), 21: ("GetKey", 1), 22: ("SetKey", 1),
       23: ("Sys", 1), 24: ("Run", 1)}
EMIT = 65
STEPS = 20


class Watched(machine.Machine):
    """A machine that keeps which services that make code it was asked for, and what each answered."""

    def __init__(self, image):
        super().__init__(machine.read_image(image), b"", 4096)
        self.asked = []

    def service(self):
        number, given = self.r[2], self.r[4:7]
        super().service()
        if number >= min(SERVICES):
            self.asked.append((number, given, self.r[2]))

    def ended(self):
        """The same machine behind its run."""
        try:
            while True:
                self.step()
        except machine.Stop:
            return self

    def word(self, at):
        return int.from_bytes(bytes(self.byte(at + i) for i in range(4)), "big")


def closures(image):
    """The closures behind the run: each word with its address."""
    run = Watched(image).ended()
    for number in range(run.word(CELLS - 12)):
        at = run.word(ROWS + 4 * number)
        last = run.word(ROWS + 4 * number + 4) or run.word(CELLS - 8)
        yield f"specification {number + 1}, {KINDS[run.word(at + 4)]}:"
        yield from (f"  {here:#010x}: {run.word(here):08x}" for here in range(at, last, 4))


def generator(image):
    """The instructions of the function that generates the code of the newest closure's tick."""
    run = Watched(image).ended()
    first = run.word(run.word(CELLS - 32))
    for number, word in enumerate(run.text[(first - machine.TEXT) // 4:]):
        yield f"{first + 4 * number:#010x}: {decoder.text(word)}"


def services(image):
    """The services that make code, as the run asked for them, with what they answered but for 0."""
    for number, given, answer in Watched(image).ended().asked:
        if number == EMIT:
            name, count = OPS[given[0]]
            yield f"emit {name}{''.join(f' {it}' for it in given[1:1 + count])}"
        else:
            name, count = SERVICES[number]
            words = ", ".join(f"{it:#010x}" if it >= ARENA else str(it) for it in given[:count])
            yield f"{name} {words}{f': {answer} words' if answer else ''}"


def places(image):
    """The places of the registers of the newest function."""
    chosen = Watched(image).ended().generator.places
    return [f"register {register}: place {place}" for register, place in enumerate(chosen)]


def arena(image):
    """The instructions that were written to the arena."""
    run = Watched(image).ended()
    for number in range(run.generator.words):
        yield f"{ARENA + 4 * number:#010x}: {decoder.text(run.arena.read(number))}"


def steps(image):
    """The first instructions that are executed in the arena, with the registers that each changed."""
    run = Watched(image)
    while run.pc != ARENA:
        run.step()
    for _ in range(STEPS):
        before, at, count, word = list(run.r), run.pc, run.steps, run.fetch()
        run.step()
        changed = [f"${number} is {run.r[number]:#x}" for number in range(32) if run.r[number] != before[number]]
        yield f"{count:4} {at:#010x}: {decoder.text(word):20} {', '.join(changed)}".rstrip()


SHOWN = {"closures": closures, "generator": generator, "services": services, "places of the function": places,
         "arena": arena, "steps in the arena": steps}
