"""Random expressions and statements, each in two readings: as a text of the language, and as plain C for gcc.

The plain reading is a function of an *instance*, which says what the captures of a backquote stand for: a `$` is a
variable that keeps its word, a splice is the text of what is spliced, and a variable of generated code is one of the
function that is compiled. Operands are evaluated from left to right there too, by statement expressions of gcc."""

import collections

# An expression or a statement: its text, its plain reading by an instance, and whether its type is unsigned.
Code = collections.namedtuple("Code", "text plain unsigned", defaults=(False,))
# A place that may be set: its text, its plain reading, whether it is unsigned, and of a row its length, or None.
Place = collections.namedtuple("Place", "text plain unsigned index", defaults=(None,))

NUMBERS = ["0", "1", "2", "3", "5", "7", "10", "31", "100", "255", "256", "1000", "0x7fff", "65535", "070", "'a'",
           "'\\n'", "2147483647", "0x80000000", "4294967295u", "3u", "123456789"]
BINARY = ["+", "-", "*", "&", "|", "^", "<<", ">>", "<", ">", "<=", ">=", "==", "!=", "/", "%"]
KINDS = ["int", "int", "unsigned", "char", "short", "unsigned char"]
COMPARES = {"<", ">", "<=", ">=", "==", "!="}
CASTS = ["int", "unsigned", "char", "unsigned char", "short", "unsigned short"]
# the most that a piece of code may cost to run, in nodes
MOST = 1500


def same(text):
    """A plain reading that is the text itself."""
    return lambda _: text


def is_big(number):
    return number.endswith("u") or number.startswith("0x8")


class Writer:
    """What writes code: a generator of random numbers, what may be named, and what the code costs so far."""

    def __init__(self, random):
        self.random, self.cost, self.turns, self.names = random, 0, 1, 0
        self.places, self.fixed, self.helpers, self.tick = [], [], [], None

    def spend(self, cost=1):
        self.cost += cost * self.turns

    def has_room(self, cost=1):
        return self.cost + cost * self.turns < MOST

    def fresh(self, letter):
        self.names += 1
        return f"{letter}{self.names}"

    def chance(self, percent):
        return self.random.randrange(100) < percent

    # -- expressions

    def leaf(self):
        self.spend()
        if self.chance(35) or not self.places:
            number = self.random.choice(NUMBERS)
            return Code(number, same(number), is_big(number))
        place = self.random.choice(self.places + self.fixed)
        if place.index is None:
            return Code(place.text, place.plain, place.unsigned)
        at = self.random.randrange(4)
        return Code(f"{place.text}[{at}]", lambda it: f"{place.plain(it)}[{at}]", place.unsigned)

    def expression(self, depth):
        if depth == 0 or not self.has_room():
            return self.leaf()
        ways = [self.leaf] + [self.binary] * 4 + [self.unary, self.cast, self.logic, self.choice, self.comma]
        ways += [self.setting, self.changed, self.stepped, self.indexed, self.call]
        if self.tick:
            ways += [self.tick.dollar] * 2 + [self.tick.splice] * 3 + [self.tick.variable] * 3 + [self.tick.by_pointer]
        made = self.random.choice(ways)
        return (made() if made == self.leaf else made(depth - 1)) or self.leaf()

    def binary(self, depth):
        self.spend()
        sign, left, right = self.random.choice(BINARY), self.expression(depth), self.expression(depth)
        unsigned = left.unsigned or right.unsigned
        text, done = f"({left.text}{sign}{right.text})", f"_l{sign}_r"
        if sign in ("/", "%"):
            self.spend(4)
            text, done = f"({left.text}{sign}(({right.text}&7)+1))", f"_l{sign}((_r&7)+1)"
        elif sign in ("<<", ">>"):
            unsigned, done = left.unsigned, f"_l{sign}(_r&31)"
        return Code(text, lambda it: f"({{__auto_type _l={left.plain(it)};__auto_type _r={right.plain(it)};{done};}})",
                    unsigned and sign not in COMPARES)

    def unary(self, depth):
        self.spend()
        sign, value = self.random.choice(["-", "~", "!"]), self.expression(depth)
        return Code(f"({sign} {value.text})", lambda it: f"({sign} {value.plain(it)})", value.unsigned and sign != "!")

    def cast(self, depth):
        self.spend()
        to, value = self.random.choice(CASTS), self.expression(depth)
        return Code(f"(({to}){value.text})", lambda it: f"(({to}){value.plain(it)})", to == "unsigned")

    def logic(self, depth):
        self.spend()
        sign, left, right = self.random.choice(["&&", "||"]), self.expression(depth), self.expression(depth)
        return Code(f"({left.text}{sign}{right.text})", lambda it: f"({left.plain(it)}{sign}{right.plain(it)})")

    def choice(self, depth):
        self.spend()
        test, one, other = self.expression(depth), self.expression(depth), self.expression(depth)
        return Code(f"({test.text}?{one.text}:{other.text})",
                    lambda it: f"({test.plain(it)}?{one.plain(it)}:{other.plain(it)})", one.unsigned or other.unsigned)

    def comma(self, depth):
        first, last = self.expression(depth), self.expression(depth)
        return Code(f"({first.text},{last.text})", lambda it: f"({first.plain(it)},{last.plain(it)})", last.unsigned)

    def place(self, depth):
        """A place with the text of its index, and what its plain reading needs before it is named."""
        place = self.random.choice(self.places)
        if place.index is None:
            return place.text, place.plain, same(""), place.unsigned
        at = self.expression(depth)
        return (f"{place.text}[{at.text}&3]", lambda it: f"{place.plain(it)}[_i]",
                lambda it: f"int _i={at.plain(it)}&3;", place.unsigned)

    def setting(self, depth):
        if not self.places:
            return None
        self.spend(2)
        (text, plain, before, unsigned), value = self.place(depth), self.expression(depth)
        return Code(f"({text}={value.text})",
                    lambda it: f"({{{before(it)}__auto_type _v={value.plain(it)};{plain(it)}=_v;}})", unsigned)

    def changed(self, depth):
        if not self.places:
            return None
        self.spend(3)
        sign = self.random.choice(["+", "-", "*", "&", "|", "^", "<<", ">>", "%"])
        (text, plain, before, unsigned), value = self.place(depth), self.expression(depth)
        text_of, done = value.text, {"<<": "(_v&31)", ">>": "(_v&31)", "%": "((_v&7)+1)"}.get(sign, "_v")
        if sign == "%":
            text_of = f"(({value.text}&7)+1)"
        return Code(f"({text}{sign}={text_of})",
                    lambda it: f"({{{before(it)}__auto_type _o={plain(it)};__auto_type _v={value.plain(it)};"
                               f"{plain(it)}=_o{sign}{done};}})", unsigned)

    def stepped(self, depth):
        if not self.places:
            return None
        self.spend(3)
        (text, plain, before, unsigned), step = self.place(depth), self.random.choice(["++", "--"])
        if self.chance(50):
            return Code(f"({text}{step})", lambda it: f"({{{before(it)}{plain(it)}{step};}})", unsigned)
        return Code(f"({step}{text})", lambda it: f"({{{before(it)}{step}{plain(it)};}})", unsigned)

    def indexed(self, depth):
        rows = [it for it in self.places if it.index is not None]
        if not rows:
            return None
        self.spend(4)
        row, at = self.random.choice(rows), self.expression(depth)
        return Code(f"{row.text}[{at.text}&3]", lambda it: f"{row.plain(it)}[{at.plain(it)}&3]", row.unsigned)

    def call(self, depth):
        """A call of a function of the text, where there is one that isn't too dear."""
        may = [it for it in self.helpers if self.has_room(it.cost)]
        if not may:
            return None
        helper = self.random.choice(may)
        self.spend(helper.cost + 2)
        return called(helper.name, same(helper.name), [self.expression(depth) for _ in range(helper.count)])

    # -- statements

    def statement(self, depth, is_loop=False):
        ways = [self.simple] * 4 + [self.shown] * 2
        if depth and self.has_room(20):
            ways += [self.chosen, self.block, self.counted, self.counted, self.done, self.switched]
        if self.tick:
            ways += [self.tick.spliced] * 3 + ([self.tick.returned] if depth else [])
        if is_loop and self.chance(8):
            word = self.random.choice(["break", "continue"])
            return self.guarded(Code(f"{word};", same(f"{word};")))
        return self.random.choice(ways)(depth) or self.simple(depth)

    def simple(self, depth):
        value = self.random.choice([self.setting, self.changed, self.stepped, self.call])(2) or self.expression(2)
        return Code(f"{value.text};", lambda it: f"{value.plain(it)};")

    def shown(self, _):
        value = self.expression(2)
        self.spend(5)
        return Code(f"out({value.text});", lambda it: f"out({value.plain(it)});")

    def guarded(self, what):
        test = self.expression(1)
        return Code(f"if({test.text}){what.text}", lambda it: f"if({test.plain(it)}){what.plain(it)}")

    def chosen(self, depth):
        test, one = self.expression(2), self.block(depth)
        if self.chance(50):
            return Code(f"if({test.text}){one.text}", lambda it: f"if({test.plain(it)}){one.plain(it)}")
        other = self.block(depth)
        return Code(f"if({test.text}){one.text}else {other.text}",
                    lambda it: f"if({test.plain(it)}){one.plain(it)}else {other.plain(it)}")

    def block(self, depth, is_loop=False):
        """A block with variables of its own, of any integer type, some with an initializer."""
        seen, begun = len(self.places), []
        for _ in range(self.random.randrange(3)):
            kind, name = self.random.choice(KINDS), self.fresh("v")
            self.spend()
            value = self.expression(1) if self.chance(40) else None
            begun.append((kind, name, value))
            self.places.append(Place(name, same(name), kind == "unsigned"))
        body = [self.statement(depth - 1, is_loop) for _ in range(self.random.randrange(1, 4))]
        del self.places[seen:]
        texts = "".join(f"{kind} {name}{'=' + value.text if value else ''};" for kind, name, value in begun)

        def plain(it):
            heads = "".join(f"{kind} {name}={value.plain(it) if value else 0};" for kind, name, value in begun)
            return "{" + heads + "".join(part.plain(it) for part in body) + "}"

        return Code("{" + texts + "".join(part.text for part in body) + "}", plain)

    def loop(self, count, depth):
        """The body of a loop of so many turns, and a name for their count."""
        name, before = self.fresh("i"), self.turns
        self.turns *= count
        self.fixed.append(Place(name, same(name), False))
        body = self.block(depth - 1, is_loop=True)
        self.fixed.pop()
        self.turns = before
        return name, body

    def counted(self, depth):
        count = self.random.randrange(1, 4)
        name, body = self.loop(count, depth)
        head = f"int {name};for({name}=0;{name}<{count};{name}++)"
        if self.chance(25):
            head = f"for(int {name};{name}<{count};{name}++)"
            return Code(head + body.text, lambda it: f"for(int {name}=0;{name}<{count};{name}++)" + body.plain(it))
        return Code("{" + head + body.text + "}", lambda it: "{" + head + body.plain(it) + "}")

    def done(self, depth):
        count = self.random.randrange(1, 4)
        name, body = self.loop(count, depth)
        if self.chance(50):
            return Code(f"{{int {name};{name}={count};do{body.text}while(--{name}>0);}}",
                        lambda it: f"{{int {name}={count};do{body.plain(it)}while(--{name}>0);}}")
        return Code(f"{{int {name};{name}={count};while({name}-->0){body.text}}}",
                    lambda it: f"{{int {name}={count};while({name}-->0){body.plain(it)}}}")

    def switched(self, depth):
        value, labels = self.expression(2), self.random.sample(range(-2, 4), self.random.randrange(1, 4))
        labels = [f"case {it}:" for it in labels]
        if self.chance(60):
            labels.insert(self.random.randrange(len(labels) + 1), "default:")
        parts = [(label, self.statement(depth - 1), self.chance(50)) for label in labels]

        def items(of):
            return "".join(label + of(part) + "break;" * stops for label, part, stops in parts)

        return Code(f"switch({value.text}&3){{{items(lambda part: part.text)}}}",
                    lambda it: f"switch({value.plain(it)}&3){{{items(lambda part: part.plain(it))}}}")


def called(text, plain, arguments):
    """A call with these arguments, which are evaluated from left to right."""

    def in_c(it):
        begun = "".join(f"__auto_type _a{at}={value.plain(it)};" for at, value in enumerate(arguments))
        return f"({{{begun}{plain(it)}({','.join(f'_a{at}' for at in range(len(arguments)))});}})"

    return Code(f"{text}({','.join(it.text for it in arguments)})", in_c)
