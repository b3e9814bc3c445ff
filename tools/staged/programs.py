"""Random programs that make code: for each number one text of the language, and one of plain C that does the same.

A function that makes code is a *maker*. What it makes is known as the program is written: its loops and calls have
fixed counts, so that the plain reading is its making unrolled, with a function of C for each `compile`. A `$` becomes
an assignment to a variable of its own where the backquote is evaluated, a splice the text of what is spliced, a
`local` a variable of the compiled function, and a `param` one of its parameters."""

import collections
import random

import code

PARAMETERS = ["int", "int", "unsigned", "int*"]
SPECIFICATIONS = ["c0", "c1", "c2", "s0", "s1", "u0"]
DECLARED = ("int cspec c0;int cspec c1;int cspec c2;unsigned cspec u0;void cspec s0;void cspec s1;int vspec v0;"
            "unsigned vspec v1;int vspec p0;int vspec p1;unsigned vspec p2;int * vspec p3;")
DEAREST = 4000
# The most steps of a program, and of a small one.
MANY, FEW = 25, 5
# What may trap or end at once, in a text without a plain reading.
WILD = ["out(m0/(m1&1));", "f=compile(`1,int);out(f(1,2,3));", "c0=`(none+1);", "f=compile(none,int);", "*(int*)3=m0;",
        "param(int,9);", "exit(7);", "f=compile(`deep(),int);df=f;out(f());", "f=(int(*)())(m0&3);out(f());",
        "f=compile(`{out(1);return 1%$(m0&1);},int);out(f());", "for(;;){c0=`(c0+c0);putchar(46);}",
        "f=compile(`{return *(int*)$(0x0ffffffe+(m0&3));},int);out(f());",
        "f=compile(`{int i;for(;;i++)out(i);},int);out(f());"]
HEAD = """int out(int x){putint(x);putchar(32);return x;}
int g0=7;unsigned g1=4000000000u;char g2=-5;int ga[4]={3,1,4,1};
int h0(int a,int b){return (a^b)+(a>>3);}
int h1(int a){out(a);g0=g0+a;return g0;}
int h2(int a,int b,int c){int i;int s;for(i=0;i<3;i++){s=s*3+a;if(s>b)s=s-c;}return s;}
"""
WILD_HEAD = "int (*df)();int deep(){return df();}\n"


# A function that may be called: its name, its count of parameters, and what a call costs.
Function = collections.namedtuple("Function", "name count cost")
# A variable of generated code: its name in the plain reading, its type, and its index as a parameter, or -1.
Variable = collections.namedtuple("Variable", "name kind index")


class Instance:
    """A specification: its code, what its captures stand for, by their numbers, and what it costs to run."""

    def __init__(self, tick, names, parts):
        self.tick, self.names, self.parts = tick, names, parts
        self.cost = tick.cost + sum(tick.captures[at][2] * part.cost for at, part in parts.items())

    def plain(self):
        return self.tick.code.plain(self)

    def variables(self):
        own = [self.names[at] for at, it in enumerate(self.tick.captures) if it[0] == "variable"]
        return set(own).union(*(part.variables() for part in self.parts.values()))


class Tick:
    """A backquote: its captures in the order of the text, each with its kind, what it names, and its turns."""

    def __init__(self, writer, maker):
        self.writer, self.maker, self.captures, self.code, self.cost = writer, maker, [], None, 0

    def write(self, make):
        """Writes its code by a way to make it; what its maker may name is named by its address."""
        writer = self.writer
        kept = writer.cost, writer.turns, writer.tick, writer.fixed
        writer.cost, writer.turns, writer.tick, writer.fixed = 0, 1, self, []
        self.code = make(writer)
        self.cost = writer.cost
        writer.cost, writer.turns, writer.tick, writer.fixed = kept
        return self

    def capture(self, kind, what):
        self.captures.append((kind, what, self.writer.turns))
        return len(self.captures) - 1

    def dollar(self, depth):
        writer, kept = self.writer, (self.writer.places, self.writer.fixed, self.writer.tick)
        writer.places, writer.fixed, writer.tick = self.maker.places, self.maker.fixed, None
        value = writer.expression(min(depth, 1))
        writer.places, writer.fixed, writer.tick = kept
        at = self.capture("word", value)
        return code.Code(f"$({value.text})", lambda it: it.names[at], value.unsigned)

    def named(self, kind):
        """One of the maker's specifications of this kind that may be spliced here, if there is one."""
        may = [name for name, it in self.maker.specifications.items() if it[0] == kind and self.writer.has_room(it[2])]
        return self.writer.random.choice(sorted(may)) if may else None

    def splice(self, depth):
        if self.writer.chance(20):
            return self.behind(depth)
        name = self.named("expression")
        if not name:
            return None
        _, unsigned, cost = self.maker.specifications[name]
        at = self.capture("splice", name)
        self.writer.spend(cost)
        return code.Code(name, lambda it: f"({it.parts[at].plain()})", unsigned)

    def behind(self, depth):
        """A value with a statement before it: what is spliced in a comma."""
        name = self.named("statement")
        if not name:
            return None
        at = self.capture("splice", name)
        self.writer.spend(self.maker.specifications[name][2])
        value = self.writer.expression(depth)
        return code.Code(f"({name},{value.text})", lambda it: f"({{{it.parts[at].plain()};{value.plain(it)};}})",
                         value.unsigned)

    def spliced(self, _):
        name = self.named("statement")
        if not name:
            return None
        at = self.capture("splice", name)
        self.writer.spend(self.maker.specifications[name][2])
        return code.Code(f"{name};", lambda it: it.parts[at].plain())

    def returned(self, _):
        if not self.writer.chance(15):
            return None
        test, value = self.writer.expression(1), self.writer.expression(1)
        return code.Code(f"if({test.text})return {value.text};",
                         lambda it: f"if({test.plain(it)})return {value.plain(it)};")

    def variable(self, depth):
        if not self.maker.variables:
            return None
        writer = self.writer
        writer.spend(3)
        name = writer.random.choice(sorted(self.maker.variables))
        kind, at = self.maker.variables[name].kind, self.capture("variable", name)
        if kind == "int*":
            index = writer.expression(min(depth, 1))
            place = code.Place(f"{name}[{index.text}&3]", lambda it: f"{it.names[at].name}[{index.plain(it)}&3]", False)
            return code.Code(place.text, place.plain)
        place = code.Place(name, lambda it: it.names[at].name, kind == "unsigned")
        way = writer.random.choice(["get", "get", "=", "+=", "step"])
        if way == "get":
            return code.Code(place.text, place.plain, place.unsigned)
        if way != "step":
            return self.put(place, way, depth)
        kept, writer.places = writer.places, [place]
        value = writer.stepped(depth)
        writer.places = kept
        return value

    def put(self, place, sign, depth):
        value = self.writer.expression(min(depth, 2))
        done = {"=": "_v", "+=": "_o+_v"}[sign]
        return code.Code(f"({place.text}{sign}{value.text})",
                         lambda it: f"({{__auto_type _o={place.plain(it)};__auto_type _v={value.plain(it)};"
                                    f"{place.plain(it)}={done};}})", place.unsigned)

    def by_pointer(self, depth):
        may = [it for it in self.maker.functions if self.writer.has_room(it[2])]
        if not may:
            return None
        name, counts, cost = self.writer.random.choice(may)
        at = self.capture("pointer", name)
        self.writer.spend(cost + 3)
        return code.called(f"(*${name})", lambda it: it.names[at], arguments(self.writer, counts, min(depth, 1)))


def arguments(writer, count, depth):
    """So many arguments for a compiled function."""
    row = code.Code("ga", code.same("ga"))
    return [row if PARAMETERS[at] == "int*" else writer.expression(depth) for at in range(count)]


class Maker:
    """A function that makes code, with what it may name: places, specifications, variables of generated code and
    functions that it compiled. Its plain reading keeps words and functions of its own."""

    def __init__(self, writer, makers, places, fixed):
        self.writer, self.makers, self.places, self.fixed = writer, makers, places, fixed
        self.specifications, self.variables, self.functions = {}, {}, []
        self.instances, self.text, self.plain, self.words, self.compiled = {}, [], [], [], []

    def tick(self, kind, unsigned=False, depth=3):
        tick, kept = Tick(self.writer, self), self.writer.places
        self.writer.places = list(self.places)
        tick.write(lambda it: it.block(depth) if kind == "statement" else typed(it.expression(depth), unsigned))
        self.writer.places = kept
        return tick

    def evaluated(self, tick, known, number=None):
        """The specification that a backquote gives, and the plain statements that keep its words."""
        names, parts, lines = {}, {}, []
        for at, (kind, what, _) in enumerate(tick.captures):
            if kind == "splice":
                parts[at] = known[what]
            elif kind == "variable":
                names[at] = known[what]
            else:
                names[at] = self.writer.fresh("d")
                head = f"int (*{names[at]})();" if kind == "pointer" else \
                    f"{'unsigned' if what.unsigned else 'int'} {names[at]};"
                self.words.append(head)
                lines.append(f"{names[at]}={what if kind == 'pointer' else what.plain(number)};")
        return Instance(tick, names, parts), lines

    def known(self):
        return {**self.instances, **self.variables}

    def step(self):
        self.writer.cost, self.writer.turns = 0, 1
        self.writer.places, self.writer.fixed = list(self.places), list(self.fixed)
        ways = [self.specify] * 5 + [self.repeat, self.renew, self.run] + [self.compile] * 3 + [self.call] * 2
        self.writer.random.choice(ways + [self.hand_on] * 2)()

    def keep(self, name, instance, lines, text):
        """The specification is the variable's now, where it isn't too dear."""
        if instance.cost <= DEAREST:
            self.specifications[name] = kind_of(name), name[0] == "u", instance.cost
            self.instances[name] = instance
            self.text.append(text)
            self.plain.extend(lines)

    def specify(self):
        name = self.writer.random.choice(SPECIFICATIONS)
        tick = self.tick(kind_of(name), name[0] == "u")
        instance, lines = self.evaluated(tick, self.known())
        self.keep(name, instance, lines, f"{name}=`{tick.code.text};")

    def repeat(self):
        """A loop that makes code of what it made the turn before."""
        if not self.specifications:
            return
        name, count = self.writer.random.choice(sorted(self.specifications)), self.writer.random.randrange(1, 5)
        self.fixed.append(code.Place("k", code.same("k"), False))
        tick = self.tick(kind_of(name), name[0] == "u", 2)
        self.fixed.pop()
        lines, instance = [], self.instances[name]
        for turn in range(count):
            instance, more = self.evaluated(tick, {**self.known(), name: instance})
            lines += [f"k={turn};", *more]
        self.keep(name, instance, lines + [f"k={count};"], f"for(k=0;k<{count};k++){name}=`{tick.code.text};")

    def renew(self):
        """A new variable of generated code."""
        name = self.writer.random.choice(["v0", "v1"])
        kind = "unsigned" if name == "v1" else "int"
        self.variables[name] = Variable(self.writer.fresh("l"), kind, -1)
        self.text.append(f"{name}=local({kind});")

    def parameter(self, index):
        self.variables[f"p{index}"] = Variable(f"p{index}", PARAMETERS[index], index)
        self.text.append(f"p{index}=param({PARAMETERS[index]},{index});")

    def run(self):
        it = self.writer.statement(1)
        self.text.append(it.text)
        self.plain.append(it.plain(None))

    def compile(self):
        name = self.writer.random.choice(sorted(self.specifications) + ["expression", "statement"])
        if name in self.specifications:
            kind, instance, lines, text = kind_of(name), self.instances[name], [], name
        else:
            tick, kind = self.tick(name), name
            (instance, lines), text = self.evaluated(tick, self.known()), f"`{tick.code.text}"
        if instance.cost > DEAREST:
            return
        made = self.writer.fresh("f")
        count = max([it.index for it in instance.variables()], default=-1) + 1
        self.compiled.append(in_c(made, count, instance, kind))
        self.text.append(f"{made}=compile({text},int);")
        self.plain.extend([*lines, f"{made}=c{made};"])
        self.hold(made, count, instance.cost + 10)
        self.call()

    def hold(self, made, count, cost):
        """The function may be called from now on, by a variable of its own or by an element of a row."""
        if self.writer.chance(40):
            row = f"t[{self.writer.random.randrange(3)}]"
            self.functions = [it for it in self.functions if it[0] != row] + [(row, count, cost)]
            self.text.append(f"{row}={made};")
            self.plain.append(f"{row}={made};")
        self.functions.append((made, count, cost))

    def call(self):
        if self.functions:
            name, count, _ = self.writer.random.choice(self.functions[-3:])
            it = code.called(name, code.same(name), arguments(self.writer, count, 1))
            self.text.append(f"out({it.text});")
            self.plain.append(f"out({it.plain(None)});")

    def hand_on(self):
        """A call of a function that makes code of a number and a variable of generated code that it is handed."""
        may = sorted(name for name, it in self.variables.items() if it.kind == "int")
        if not may or not self.makers:
            return
        maker, name = self.writer.random.choice(self.makers), self.writer.random.choice(may)
        count, instance, lines = self.writer.random.randrange(4), None, []
        for number in range(count + 1):
            known = {"r": instance, "v": self.variables[name]}
            instance, more = self.evaluated(maker.later if number else maker.first, known, number)
            lines += more
        self.keep("s1" if maker.kind == "statement" else "c1", instance, lines,
                  f"{'s1' if maker.kind == 'statement' else 'c1'}={maker.name}({name},{count});")

    def own(self):
        """The functions that it compiles, as declarations."""
        return "".join(f"int (*{it})();" for it, _, _ in self.functions if it[0] == "f") + "int (*t[3])();"


class Recursion:
    """A function that makes code of what it makes for the number below: as text, with its two backquotes."""

    def __init__(self, writer, name, kind):
        self.name, self.kind = name, kind
        maker = Maker(writer, [], globals_of(), [code.Place("n", str, False)])
        maker.variables["v"] = Variable("", "int", -1)
        self.first = maker.tick(kind, depth=2)
        maker.specifications["r"] = kind, False, 40
        self.later = maker.tick(kind)
        word = "void" if kind == "statement" else "int"
        self.text = (f"{word} cspec {name}(int vspec v,int n){{{word} cspec r;if(n==0)return `{self.first.code.text};"
                     f"r={name}(v,n-1);return `{self.later.code.text};}}\n")


def kind_of(name):
    return "statement" if name[0] == "s" else "expression"


def typed(it, unsigned):
    """An expression as one of this type."""
    if it.unsigned == unsigned:
        return code.Code(f"({it.text})", it.plain, unsigned)
    to = "unsigned" if unsigned else "int"
    return code.Code(f"(({to}){it.text})", lambda of: f"(({to}){it.plain(of)})", unsigned)


def in_c(made, count, instance, kind):
    """The function that a compile makes, as one of C."""
    own = sorted({f"{it.kind} {it.name}=0;" for it in instance.variables() if it.index < 0})
    heads = ",".join(f"{it} p{at}" for at, it in enumerate(PARAMETERS[:count]))
    body = f"{instance.plain()}return 0;" if kind == "statement" else f"return {instance.plain()};"
    return f"int c{made}({heads}){{{''.join(own)}{body}}}\n"


def globals_of():
    return [code.Place("g0", code.same("g0"), False), code.Place("g1", code.same("g1"), True),
            code.Place("g2", code.same("g2"), False), code.Place("ga", code.same("ga"), False, "4")]


def nested(writer, name, helpers, count):
    """A function that makes code, compiles and calls it, which compiled code may call: its two readings and cost."""
    places = globals_of() + [code.Place(it, code.same(it), False) for it in ("n", "x")]
    writer.helpers = list(helpers)
    maker = Maker(writer, [], places, [])
    maker.parameter(0)
    maker.renew()
    for _ in range(count):
        maker.step()
    maker.compile()
    cost = sum(it[2] for it in maker.functions) + 100
    text = f"int {name}(int n){{int x;int k;{maker.own()}{DECLARED}{''.join(maker.text)}return x;}}\n"
    plain = (f"int {name}(int n){{int x=0;int k=0;{maker.own()}{''.join(maker.words)}{''.join(maker.compiled)}"
             f"{''.join(maker.plain)}return x;}}\n")
    return text, plain, Function(name, 1, cost)


def program(number, most):
    """The program of this number, of at most so many steps: its text, and one of plain C or None."""
    writer = code.Writer(random.Random(number))
    wild = writer.random.choice(WILD) if writer.chance(20) else None
    helpers = [Function("h0", 2, 8), Function("h1", 1, 12), Function("h2", 3, 40)]
    text, plain = HEAD, HEAD.replace("int s;", "int s=0;")
    for at in range(writer.random.randrange(3)):
        more, in_plain, function = nested(writer, f"later{at}", helpers, writer.random.randrange(1, 6))
        text, plain = text + more, plain + in_plain
        if function.cost < code.MOST:
            helpers.append(function)
    writer.helpers = helpers
    makers = [Recursion(writer, f"make{at}", writer.random.choice(["expression", "statement"]))
              for at in range(writer.random.randrange(3))]
    places = globals_of() + [code.Place("m0", code.same("m0"), False), code.Place("m1", code.same("m1"), True),
                             code.Place("m2", code.same("m2"), False), code.Place("ma", code.same("ma"), False, "4")]
    maker = Maker(writer, makers, places, [])
    for index in writer.random.sample(range(4), writer.random.randrange(1, 4)):
        maker.parameter(index)
    maker.renew()
    steps = writer.random.randrange(most // 4, most)
    for at in range(steps):
        maker.step()
        if wild and at == steps // 2:
            maker.text.append(wild)
    own = "int m0;unsigned m1;char m2;int ma[4];int k;"
    text += "".join(it.text for it in makers)
    text += f"{WILD_HEAD if wild else ''}int main(){{{own}int (*f)();{maker.own()}{DECLARED}int cspec none;\n"
    text += "\n".join(maker.text) + "\nout(m0);out(m1);out(m2);out(ma[1]);out(g0);out(g1);return g0+m0;}\n"
    plain += own + maker.own() + "".join(maker.words) + "\n" + "".join(maker.compiled)
    plain += "int main(){" + "\n".join(maker.plain)
    plain += "\nout(m0);out(m1);out(m2);out(ma[1]);out(g0);out(g1);return g0+m0;}\n"
    return text, None if wild else plain
