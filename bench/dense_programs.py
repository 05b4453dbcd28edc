#!/usr/bin/env python3
"""bench/dense_programs.py SEED [--steps]: writes a C program of dense expressions with side effects on standard output.

C leaves the order of their parts open; the language of this repository fixes it. Operands go from left to right,
arguments too, after the called function; an assignment takes the left place, then the right value, then stores; a
compound one loads its left side after the right value; the values of a list in braces are stored in the order of their
places. With --steps the same program is written with a statement of its own for each step in that order, for gcc: such
a program means the same by any order that C allows. The same seed gives the same pair. What whole_programs.py says of
divisors, shifts and indices holds here too."""
import random
import sys

from whole_programs import HEAD, INTS, NUMBERS

MIDDLE, REACH = 64, 16
RECORD = "struct R { int a; unsigned char b; long c; short d[4]; struct { int x; signed char y; } in; uintptr_t u; };"
INTEGER_MEMBERS = ["a", "b", "c", "in.x", "in.y", "u"]


class Steps:
    """The statements of the written-out program, with new names for their values."""

    def __init__(self):
        self.lines, self.names = [], 0

    def line(self, text):
        self.lines.append(text)

    def name(self):
        self.names += 1
        return f"t{self.names}"

    def value(self, text):
        """A new name for the value of a text."""
        name = self.name()
        self.line(f"__auto_type {name} = {text};")
        return name


# Expressions. `text` is the dense form; `steps` writes the steps out and gives a name for the value.

class Number:
    def __init__(self, text):
        self.text = text

    def steps(self, out):
        return self.text


class Load:
    """The value of a place."""

    def __init__(self, place):
        self.place, self.text = place, place.text

    def steps(self, out):
        return out.value(self.place.fixed(out))


class Unary:
    def __init__(self, operator, one):
        self.operator, self.one, self.text = operator, one, f"({operator} {one.text})"

    def steps(self, out):
        return out.value(f"{self.operator} {self.one.steps(out)}")


class Binary:
    """An operator on two values; `guard` is put around the right one, as `({} & 7)`."""

    def __init__(self, operator, one, two, guard="{}"):
        self.operator, self.one, self.two, self.guard = operator, one, two, guard
        self.text = f"({one.text} {operator} {guard.format(two.text)})"

    def steps(self, out):
        left = self.one.steps(out)
        right = self.two.steps(out)
        return out.value(f"{left} {self.operator} {self.guard.format(right)}")


class Logical:
    def __init__(self, operator, one, two):
        self.operator, self.one, self.two, self.text = operator, one, two, f"({one.text} {operator} {two.text})"

    def steps(self, out):
        left, name = self.one.steps(out), out.name()
        out.line(f"int {name} = {left} != 0;")
        out.line(f"if ({'' if self.operator == '&&' else '!'}{name}) {{")
        right = self.two.steps(out)
        out.line(f"{name} = {right} != 0;")
        out.line("}")
        return name


class Conditional:
    def __init__(self, test, one, two):
        self.test, self.one, self.two, self.text = test, one, two, f"({test.text} ? {one.text} : {two.text})"

    def steps(self, out):
        test, name = self.test.steps(out), out.name()
        out.line(f"__typeof__(0 ? {self.one.text} : {self.two.text}) {name};")
        out.line(f"if ({test}) {{")
        one = self.one.steps(out)
        out.line(f"{name} = {one};")
        out.line("} else {")
        two = self.two.steps(out)
        out.line(f"{name} = {two};")
        out.line("}")
        return name


class Comma:
    def __init__(self, one, two):
        self.one, self.two, self.text = one, two, f"({one.text}, {two.text})"

    def steps(self, out):
        self.one.steps(out)
        return self.two.steps(out)


class Assign:
    def __init__(self, place, one):
        self.place, self.one, self.text = place, one, f"({place.text} = {one.text})"

    def steps(self, out):
        place = self.place.fixed(out)
        out.line(f"{place} = {self.one.steps(out)};")
        return out.value(place)


class Compound:
    def __init__(self, operator, place, one, guard="{}"):
        self.operator, self.place, self.one, self.guard = operator, place, one, guard
        self.text = f"({place.text} {operator}= {guard.format(one.text)})"

    def steps(self, out):
        place = self.place.fixed(out)
        right = self.one.steps(out)
        out.line(f"{place} {self.operator}= {self.guard.format(right)};")
        return out.value(place)


class Step:
    def __init__(self, operator, place, before):
        self.operator, self.place, self.before = operator, place, before
        self.text = f"({operator}{place.text})" if before else f"({place.text}{operator})"

    def steps(self, out):
        place = self.place.fixed(out)
        if self.before:
            out.line(f"{self.operator}{place};")
            return out.value(place)
        name = out.value(place)
        out.line(f"{place}{self.operator};")
        return name


class Call:
    def __init__(self, function, several):
        self.function, self.several = function, several
        self.text = f"{function.text}({', '.join(one.text for one in several)})"

    def steps(self, out):
        function = self.function.steps(out)
        names = [one.steps(out) for one in self.several]
        return out.value(f"{function}({', '.join(names)})")


class Address:
    def __init__(self, place):
        self.place, self.text = place, f"(&{place.text})"

    def steps(self, out):
        return out.value(f"&{self.place.fixed(out)}")


# Places. `fixed` writes the steps out that find the place, and gives a text for it that changes nothing.

class Named:
    def __init__(self, name):
        self.text = name

    def fixed(self, out):
        return self.text


class Element:
    """An element of an array or behind a pointer: `base` is a value, the index is below a length by `guard`."""

    def __init__(self, base, index, guard):
        self.base, self.index, self.guard = base, index, guard
        self.text = f"{base.text}[{guard.format(index.text)}]"

    def fixed(self, out):
        base = self.base.steps(out)
        index = self.index.steps(out)
        return f"{base}[{out.value(self.guard.format(index))}]"


class Behind:
    def __init__(self, pointer):
        self.pointer, self.text = pointer, f"(*{pointer.text})"

    def fixed(self, out):
        return f"(*{self.pointer.steps(out)})"


class Member:
    def __init__(self, place, name):
        self.place, self.name = place, name
        self.text = f"{place.text}.{name}"

    def fixed(self, out):
        return f"{self.place.fixed(out)}.{self.name}"


class Arrow:
    def __init__(self, pointer, name):
        self.pointer, self.name = pointer, name
        self.text = f"{pointer.text}->{name}"

    def fixed(self, out):
        return f"{self.pointer.steps(out)}->{self.name}"


# Structs that are read: places of them, and values that stand for the place that they were taken from.

class Copied:
    """A struct assignment, which stands for its left side."""

    def __init__(self, place, one):
        self.place, self.one, self.text = place, one, f"({place.text} = {one.text})"

    def fixed(self, out):
        place = self.place.fixed(out)
        one = self.one.fixed(out)
        out.line(f"{place} = {one};")
        return place


class Chosen:
    def __init__(self, test, one, two):
        self.test, self.one, self.two, self.text = test, one, two, f"({test.text} ? {one.text} : {two.text})"

    def fixed(self, out):
        test, name = self.test.steps(out), out.name()
        out.line(f"struct R *{name};")
        out.line(f"if ({test}) {{")
        out.line(f"{name} = &{self.one.fixed(out)};")
        out.line("} else {")
        out.line(f"{name} = &{self.two.fixed(out)};")
        out.line("}")
        return f"(*{name})"


class After:
    def __init__(self, one, place):
        self.one, self.place, self.text = one, place, f"({one.text}, {place.text})"

    def fixed(self, out):
        self.one.steps(out)
        return self.place.fixed(out)


class Both:
    """The two programs while they are written."""

    def __init__(self):
        self.dense, self.out = [], Steps()

    def same(self, text):
        self.dense.append(text)
        self.out.line(text)

    def open(self):
        self.out.line("{")

    def close(self):
        self.out.line("}")


class Program:
    """A pair of programs while it is written, without the statements whose numbers are in `left_out`."""

    def __init__(self, seed, left_out=()):
        self.random, self.both, self.names, self.moves = random.Random(seed), Both(), 0, 0
        self.left_out, self.statements = left_out, 0
        self.functions, self.most = [], random.Random(seed + 1).choice([3, 4, 5])

    def pick(self, items):
        return self.random.choice(items)

    def chance(self, part):
        return self.random.random() < part

    def name(self, front):
        self.names += 1
        return f"{front}{self.names}"

    # Pointers stay within REACH of the middle of their array between two lines that set them anew.

    def move(self, by):
        self.moves += by
        return self.moves <= REACH

    def pointer(self, depth):
        """A pointer to integers that has room around it."""
        name = Named(self.pick(self.pointers))
        kind = self.random.random()
        if depth <= 0 or kind < 0.3 or self.moves >= REACH - 4:
            return Load(name)
        if kind < 0.65 and self.move(1):
            return Step(self.pick(["++", "--"]), name, self.chance(0.5))
        if kind < 0.72 and self.move(2):
            return Compound(self.pick("+-"), name, self.value(depth - 2), "({} & 1)")
        if kind < 0.8:
            return Assign(name, self.pointer(depth - 1))
        if kind < 0.86:
            return Conditional(self.value(depth - 1), self.pointer(depth - 1), self.pointer(depth - 1))
        if kind < 0.92:
            return Comma(self.value(depth - 1), self.pointer(depth - 1))
        if self.move(2):
            return Binary(self.pick("+-"), self.pointer(depth - 1), self.value(depth - 1), "({} & 1)")
        return Load(name)

    def record_pointer(self, depth):
        name = Named(self.pick(self.record_pointers))
        if depth > 0 and self.chance(0.6) and self.move(1):
            return Step(self.pick(["++", "--"]), name, self.chance(0.5))
        return Load(name)

    def record(self, depth):
        """A place of the struct's type."""
        kind = self.random.random()
        if kind < 0.4 or depth <= 0:
            return Named(self.pick(self.records))
        if kind < 0.7:
            return Element(Number("rs"), self.value(depth - 1), f"({MIDDLE} + ({{}} & 3))")
        return Behind(self.record_pointer(depth))

    def record_value(self, depth):
        """A place of the struct's type, or a value that stands for one."""
        kind = self.random.random()
        if kind < 0.5 or depth <= 0:
            return self.record(depth)
        if kind < 0.7:
            return Copied(self.record(depth - 1), self.record_value(depth - 1))
        if kind < 0.85:
            return Chosen(self.value(depth - 1), self.record(depth - 1), self.record(depth - 1))
        return After(self.value(depth - 1), self.record(depth - 1))

    def place(self, depth, simple=0.5):
        """A place of an integer type."""
        kind = self.random.random()
        if kind < simple or depth <= 0:
            return Named(self.pick(self.simple if self.chance(0.7) else self.objects))
        if kind < 0.7:
            return Element(Number(self.pick(self.arrays)), self.value(depth - 1), "({} & 7)")
        if kind < 0.8:
            return Behind(self.pointer(depth))
        if kind < 0.87:
            return Element(self.pointer(depth - 1), self.value(depth - 1), "({} & 3)")
        if kind < 0.93:
            return Member(self.record(depth - 1), self.pick(INTEGER_MEMBERS))
        if kind < 0.96:
            return Element(Load(Member(self.record(depth - 1), "d")), self.value(depth - 1), "({} & 3)")
        return Arrow(self.record_pointer(depth), self.pick(INTEGER_MEMBERS))

    def value(self, depth):
        kind = self.random.random()
        if depth <= 0 or kind < 0.08:
            return Number(self.pick(NUMBERS[:12])) if self.chance(0.25) else Load(self.place(0))
        if kind < 0.16:
            return Load(self.place(depth))
        if kind < 0.32:
            return Step(self.pick(["++", "--"]), self.place(depth - 1, 0.6), self.chance(0.4))
        if kind < 0.42:
            return Assign(self.place(depth - 1), self.value(depth - 1))
        if kind < 0.5:
            return self.compound(depth)
        if kind < 0.55:
            return Unary(self.pick("-~!+"), self.value(depth - 1))
        if kind < 0.58:
            return Unary(f"({self.pick(INTS)})", self.value(depth - 1))
        if kind < 0.64:
            operator, guard = self.pick(
                [("<<", "({} & 7)"), (">>", "({} & 15)"), ("/", "(({} & 7) + 1)"), ("%", "(({} & 7) - 9)")])
            return Binary(operator, self.value(depth - 1), self.value(depth - 1), guard)
        if kind < 0.7:
            return Logical(self.pick(["&&", "||"]), self.value(depth - 1), self.value(depth - 1))
        if kind < 0.75:
            return Conditional(self.value(depth - 1), self.value(depth - 1), self.value(depth - 1))
        if kind < 0.78:
            return Comma(self.value(depth - 1), self.value(depth - 1))
        if kind < 0.85:
            return self.call(depth)
        if kind < 0.88:
            return Load(Member(self.record_value(depth - 1), self.pick(INTEGER_MEMBERS)))
        if kind < 0.9:
            return Binary(self.pick(["-", "==", "<", ">="]), self.pointer(depth - 1), self.pointer(depth - 1))
        operator = self.pick(["+", "-", "*", "&", "|", "^", "<", ">", "<=", ">=", "==", "!="])
        return Binary(operator, self.value(depth - 1), self.value(depth - 1))

    def compound(self, depth):
        operator, guard = self.pick([(one, "{}") for one in "+-*&|^"] +
                                    [("<<", "({} & 7)"), (">>", "({} & 7)"), ("/", "(({} & 7) + 1)"),
                                     ("%", "(({} & 7) + 1)")])
        return Compound(operator, self.place(depth - 1), self.value(depth - 1), guard)

    def call(self, depth):
        if not self.functions or self.calls >= self.most or self.chance(0.4):
            return Call(Number(self.pick(["note", "putchar"])), [self.value(depth - 1)])
        self.calls += 1
        name, takes = self.pick(self.functions)
        function = Number(name)
        if takes == ["int", "int"] and self.chance(0.5):
            function = Load(Element(Number("table"), self.value(depth - 2), "({} & 1)"))
        several = []
        for kind in takes:
            if kind == "address":
                several.append(Address(Named(self.pick(self.ints))))
            else:
                several.append(self.value(depth - 1))
        return Call(function, several)

    # Statements.

    def expression(self, text, one):
        """A statement whose dense form is `text`, filled by the expression."""
        self.both.dense.append(text.format(one.text))
        self.both.open()
        name = one.steps(self.both.out)
        self.both.out.line(text.format(name))
        self.both.close()

    def anew(self):
        """The pointers stand in the middle again."""
        for name in self.pointers:
            self.both.same(f"{name} = {self.buffer} + {MIDDLE};")
        for name in self.record_pointers:
            self.both.same(f"{name} = rs + {MIDDLE};")
        self.moves = 0

    def statement(self, depth):
        if self.moves > REACH // 2:
            self.anew()
        number, dense, out = self.statements, self.both.dense, self.both.out.lines
        self.statements += 1
        before = len(dense), len(out)
        self.any_statement(depth)
        if number in self.left_out:
            del dense[before[0]:], out[before[1]:]

    def any_statement(self, depth):
        kind = self.random.random()
        if kind < 0.4 or depth <= 0:
            self.expression("{};", self.value(4))
        elif kind < 0.48:
            self.expression("putchar(33 + ({} & 63));", self.value(3))
        elif kind < 0.55:
            self.struct_copy()
        elif kind < 0.65:
            self.local()
        elif kind < 0.75:
            self.branch(depth)
        elif kind < 0.92:
            self.loop(depth)
        else:
            self.switch(depth)

    def struct_copy(self):
        both, one = self.both, Copied(self.record(2), self.record_value(3))
        both.dense.append(f"{one.text};")
        both.open()
        one.fixed(both.out)
        both.close()

    def local(self):
        """A block with a local whose list in braces has effects."""
        both, name = self.both, self.name("l")
        if self.chance(0.5):
            kind, count = self.pick(INTS), self.random.randint(1, 4)
            several = [self.value(3) for _ in range(self.random.randint(1, count))]
            both.dense.append(f"{{ {kind} {name}[{count}] = {{{', '.join(one.text for one in several)}}};")
            both.out.line(f"{{ {kind} {name}[{count}] = {{0}};")
            places = [f"{name}[{k}]" for k in range(count)]
        else:
            several = [self.value(3) for _ in range(3)] + [self.value(2), self.value(2)]
            a, b, c, d, x = (one.text for one in several)
            both.dense.append(f"{{ struct R {name} = {{{a}, {b}, {c}, {{{d}}}, {{{x}}}}};")
            both.out.line(f"{{ struct R {name} = {{0}};")
            places = [f"{name}.a", f"{name}.b", f"{name}.c", f"{name}.d[0]", f"{name}.in.x"]
        for place, one in zip(places, several):
            both.open()
            both.out.line(f"{place} = {one.steps(both.out)};")
            both.close()
        for place in places:
            both.same(f"mix({place});")
        both.same("}")

    def test(self, one, head, tail=""):
        """A condition that stands in a head as `if ({}) {{`: the dense form has it whole, the other one its name."""
        self.both.dense.append(head.format(one.text) + tail)
        name = one.steps(self.both.out)
        self.both.out.line(head.format(name) + tail)

    def inner(self, depth):
        for _ in range(self.random.randint(1, 3)):
            self.statement(depth - 1)

    def branch(self, depth):
        self.both.open()
        self.test(self.value(3), "if ({}) {{")
        moves = self.moves
        self.inner(depth)
        self.both.same("} else {")
        self.moves = max(self.moves, moves)
        self.inner(depth)
        self.both.same("}")
        self.both.close()
        self.moves = REACH

    def loop(self, depth):
        """A loop of at most four turns, each of which sets the pointers anew."""
        if self.turns > 12:
            return
        both, name, turns = self.both, self.name("n"), self.random.randint(1, 4)
        self.turns *= turns
        again, kind = self.name("again"), self.pick(["while", "do", "for"])
        both.same(f"{{ int {name} = {turns};")
        test, step = self.value(3), self.value(2)
        limit = f"{name}-- > 0 && "
        both.dense.append({"while": f"while ({limit}{test.text}) {{", "do": "do {",
                           "for": f"for (; {limit}{test.text}; {step.text}) {{"}[kind])
        both.out.line("while (1) {")
        if kind != "do":
            self.stop(name, test)
        self.anew()
        self.inner(depth)
        if self.chance(0.4):
            one = self.value(2)
            both.dense.append(f"if ({one.text}) continue;")
            both.open()
            both.out.line(f"if ({one.steps(both.out)}) goto {again};")
            both.close()
            self.moves = REACH
            self.statement(0)
        both.dense.append(f"}} while ({limit}{test.text});" if kind == "do" else "}")
        both.out.line(f"{again}:;")
        if kind == "for":
            both.open()
            step.steps(both.out)
            both.close()
        if kind == "do":
            self.stop(name, test)
        both.out.line("}")
        both.same("}")
        self.turns //= turns
        self.moves = REACH

    def stop(self, name, test):
        out = self.both.out
        out.line(f"if (!({name}-- > 0)) break;")
        out.line("{")
        out.line(f"if (!{test.steps(out)}) break;")
        out.line("}")

    def switch(self, depth):
        self.both.open()
        self.test(self.value(3), "switch ({} & 3) {{")
        for label in self.random.sample(["case 0:", "case 1:", "case 2:", "default:"], self.random.randint(1, 4)):
            self.both.same(label)
            self.moves = REACH
            self.statement(0)
            if self.chance(0.6):
                self.both.same("break;")
        self.both.same("}")
        self.both.close()
        self.moves = REACH

    # Functions.

    def locals(self, parameters):
        """The locals of a function, and what stands at file scope."""
        both = self.both
        self.simple = [name for name, kind in parameters if kind == "int"]
        self.buffer = self.pick(["b0", "b1"])
        self.pointers, self.record_pointers = [self.name("p"), self.name("p")], [self.name("q")]
        for _ in range(self.random.randint(2, 5)):
            name = self.name("x")
            both.same(f"{self.pick(INTS)} {name} = {self.random.randint(-3, 60)};")
            self.simple.append(name)
        element = {"b0": "int", "b1": "short"}[self.buffer]
        for name in self.pointers:
            both.same(f"{element} *{name} = {self.buffer} + {MIDDLE};")
        for name in self.record_pointers:
            both.same(f"struct R *{name} = rs + {MIDDLE};")
        one, two, three = self.name("y"), self.name("y"), self.name("r")
        both.same(f"int {one} = {self.random.randint(0, 9)}, {two}[8] = {{1, 2, {self.random.randint(0, 99)}}};")
        both.same(f"struct R {three} = {{{self.random.randint(0, 99)}, 2, 3, {{4}}, {{5}}, 6}};")
        self.ints, self.objects = ["g0", one], ["g0", "g1", "g2", "g3", "g4", one]
        self.arrays, self.records = ["a0", "a1", "a2", two], ["r0", "r1", three]
        self.moves, self.calls, self.turns = 0, 0, 1

    def function(self):
        both, name = self.both, self.name("f")
        takes = self.pick([["int", "int"], ["int", "int"], ["int"], ["int", "address"], ["int", "int", "int"],
                           ["int"] * 8])
        parameters = [(self.name("k"), kind) for kind in takes]
        kinds = [self.pick(INTS) if takes not in (["int", "int"],) else "int" for _ in takes]
        gives = "int" if takes == ["int", "int"] else self.pick(INTS)
        heads = [f"int *{one}" if kind == "address" else f"{of} {one}" for (one, kind), of in zip(parameters, kinds)]
        both.same(f"static {gives} {name}({', '.join(heads)}) {{")
        self.locals(parameters)
        for one, kind in parameters:
            if kind == "address":
                self.objects.append(f"(*{one})")
        for _ in range(self.random.randint(1, 4)):
            self.statement(1)
        if self.moves > REACH // 2:
            self.anew()
        self.expression("return {};", self.value(3))
        both.same("}")
        self.functions.append((name, takes))

    def texts(self):
        both = self.both
        for line in HEAD.split("\n") + [RECORD]:
            both.same(line)
        both.same("static int note(int x) { putchar(33 + (x & 63)); mix(x); return x; }")
        for k in range(5):
            both.same(f"{'int' if k == 0 else self.pick(INTS)} g{k} = {self.random.randint(0, 99)};")
        for k in range(3):
            both.same(f"static {self.pick(INTS)} a{k}[8] = "
                      f"{{{', '.join(str(self.random.randint(0, 99)) for _ in range(8))}}};")
        both.same(f"static int b0[{2 * MIDDLE}] = {{7, 8}};")
        both.same(f"static short b1[{2 * MIDDLE}] = {{9}};")
        both.same(f"static struct R r0 = {{1, 2, 3, {{4, 5, 6, 7}}, {{8, 9}}, 10}}, r1, rs[{2 * MIDDLE}];")
        both.same("static int first(int x, int y) { g0 += x; return note(x - y); }")
        both.same("static int second(int x, int y) { g1 = y; g0++; return x ^ note(y); }")
        both.same("static int (*table[2])(int, int) = {first, second};")
        self.functions = [("first", ["int", "int"]), ("second", ["int", "int"])]
        for _ in range(self.random.randint(1, 3)):
            self.function()
        both.same("int main(void) {")
        self.locals([])
        for _ in range(self.random.randint(5, 14)):
            self.statement(2)
        for name in self.simple + self.objects:
            both.same(f"mix({name});")
        for name in self.arrays:
            both.same(f"for (int i = 0; i < 8; i++) mix({name}[i]);")
        for name in ["b0", "b1"]:
            both.same(f"for (int i = 0; i < {2 * MIDDLE}; i++) mix({name}[i]);")
        for name in self.records:
            both.same(f"mix({name}.a); mix({name}.b); mix({name}.c); mix({name}.d[0] + {name}.d[3]); "
                      f"mix({name}.in.x); mix({name}.u);")
        both.same("show(mixed);")
        both.same("return (int)(mixed & 127);")
        both.same("}")
        return "\n".join(both.dense) + "\n", "\n".join(both.out.lines) + "\n"


def programs(seed, left_out=()):
    """The dense program of a seed, and the same with its steps written out; without statements, by their numbers."""
    return Program(seed, left_out).texts()


if __name__ == "__main__":
    print(programs(int(sys.argv[1]))["--steps" in sys.argv], end="")
