"""Live intervals by paths and the places of linear scan, from docs/liveness.md and docs/linear-scan.md alone."""
import collections

REGISTERS = 12
SLOT = 12
# up to how many ops the paths from each op are walked one by one
FEW = 48


def labels_of(ops):
    return {op.label: number for number, op in enumerate(ops) if op.name == "Label"}


def ways(ops):
    """The ops to which control may go from each op."""
    labels = labels_of(ops)
    found = []
    for number, op in enumerate(ops):
        behind = [] if op.name in ("Jump", "Ret", "Ret0") else [number + 1]
        there = [labels[op.label]] if op.name in ("Jump", "BrZ", "BrNZ") else []
        found.append([it for it in behind + there if it < len(ops)])
    return found


def reaches_use(ops, then, register, start):
    """Whether a path from an op reaches a use of the register before a definition of it."""
    seen, rest = {start}, [start]
    while rest:
        here = rest.pop()
        if register in ops[here].uses:
            return True
        if ops[here].to != register:
            fresh = [it for it in then[here] if it not in seen]
            seen.update(fresh)
            rest += fresh
    return False


def at_by_paths(ops):
    """The ops that each register is at, by a search for a path from each op."""
    then = ways(ops)
    found = collections.defaultdict(set)
    for register in {it for op in ops for it in (*op.uses, op.to) if it is not None}:
        for number, op in enumerate(ops):
            if op.to == register or reaches_use(ops, then, register, number):
                found[register].add(number)
    return found


def live_by_rounds(ops):
    """The ops before which each register is live, from each use backward."""
    before = [[] for _ in ops]
    for number, there in enumerate(ways(ops)):
        for it in there:
            before[it].append(number)
    live, rest = collections.defaultdict(set), []
    for number, op in enumerate(ops):
        for register in op.uses:
            if number not in live[register]:
                live[register].add(number)
                rest.append((register, number))
    while rest:
        register, number = rest.pop()
        for it in before[number]:
            if ops[it].to != register and it not in live[register]:
                live[register].add(it)
                rest.append((register, it))
    return live


def at_by_rounds(ops):
    """The ops that each register is at, for lists that are too long for a search from each op."""
    found = live_by_rounds(ops)
    for number, op in enumerate(ops):
        if op.to is not None:
            found[op.to].add(number)
    return found


def intervals(ops):
    """The intervals of the ops, as start, register and end, in the order in which they are visited."""
    found = at_by_paths(ops) if len(ops) <= FEW else at_by_rounds(ops)
    return sorted((min(at), register, max(at)) for register, at in found.items())


def scan(visits, registers):
    """The places of the registers, of visits in their order."""
    places = [SLOT] * registers
    keepers = []  # end, number of the visit, register
    for visit, (start, register, end) in enumerate(visits):
        keepers = [it for it in keepers if it[0] >= start]
        keepers.append((end, visit, register))
        if len(keepers) > REGISTERS:
            dropped = max(keepers)
            keepers.remove(dropped)
            places[dropped[2]] = SLOT
            if dropped[2] == register:
                continue
        held = {places[it[2]] for it in keepers if it[2] != register}
        places[register] = min(set(range(REGISTERS)) - held)
    return places


def is_legal(ops, places):
    """Whether no definition lands on a register that holds another value still to be used, nor two at the entry."""
    live = collections.defaultdict(set)
    for register, there in live_by_rounds(ops).items():
        for number in there:
            live[number].add(register)
    for op, there in zip(ops, ways(ops)):
        after = {it for number in there for it in live[number]} - {op.to}
        if op.to is not None and places[op.to] < SLOT and any(places[it] == places[op.to] for it in after):
            return False
    first = [places[it] for it in live[0] if places[it] < SLOT]
    return len(first) == len(set(first))
