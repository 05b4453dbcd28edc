#!/usr/bin/env python3
"""bench/whole_programs.py SEED [--trap]: writes a C program of the whole language on standard output.

The same seed gives the same program: functions, some of them with an effect and some without one, recursion with a
bound, pointers to objects, functions and pointers, arrays of several dimensions, structs, unions, enums, typedefs,
initialisers, statics, strings, all statements and operators, all integer types and their conversions, lists and trees
from `malloc`. It ends, writes what it computes by `putchar`, and means the same by any compiler of C11 on little-endian
bytes with these sizes of integers, an unsigned `char` and sums that wrap, whatever the size of a pointer: divisors are
not zero, shift counts are below the width, indices are inside, each object is written before it is read, a union is
read through the member that was written last, and an expression has at most one effect between two sequence points that
another part of it could see. `stdint.h` must be included for compilers that do not declare its names.

With --trap one statement somewhere fails a check of the machine; a comment in the last line says which check, and
where."""
import random
import sys

from whole_pieces import piece

PLAIN = ["int", "unsigned", "long", "unsigned long", "long long", "unsigned long long", "short", "unsigned short",
         "char",
         "signed char", "unsigned char", "_Bool", "int", "long", "int8_t", "uint16_t", "int32_t", "uint64_t", "size_t",
         "ptrdiff_t"]
# Their size is that of a pointer, so no `sizeof` of them is written out.
INTS = PLAIN + ["intptr_t", "uintptr_t"]
NUMBERS = ["0", "1", "2", "3", "5", "7", "10", "31", "63", "65", "100", "127", "128", "255", "256", "1000", "32767",
           "32768", "65535",
           "65536", "99999", "2147483647", "2147483648", "4294967295", "4294967296", "0x7fffffffffffffff",
           "0xffffffffffffffff",
           "0x80000000", "0xffffu", "017", "0377", "12345678901l", "7u", "9ul", "3ll", "40ull", "'a'", "'\\n'", "'\\0'",
           "'\\x7f'",
           "'\\377'", "'\\\\'", "'\"'", "(-1)", "(-2)", "(-128)", "(-32768)", "(-2147483647-1)",
           "(-9223372036854775807-1)"]
INFIX = ["+", "-", "*", "&", "|", "^", "<", ">", "<=", ">=", "==", "!=", "&&", "||"]
STRINGS = ["a", "be", "or not", "words", "x\\n", "\\x41\\102C", "tab\\t", "q\\\"q", "two\" \"parts", ""]
LENGTHS = [len("a"), len("be"), len("or not"), len("words"), 2, 3, 4, 3, len("twoparts"), 0]

# The exit in the place of a failing check; no other end of a program has this number.
TRAPPED = 177

HEAD = """int putchar(int);
int getchar(void);
void *malloc(unsigned long);
void exit(int);
static unsigned long mixed = 7;
static void number(unsigned long v) {
if (v > 9) number(v / 10);
putchar('0' + (int)(v % 10));
}
static void show(long v) {
if (v < 0) putchar('-');
number(v < 0 ? -(unsigned long)v : (unsigned long)v);
putchar('\\n');
}
static void mix(unsigned long v) {
mixed = mixed * 31 + v;
}
static void mark(void) {
putchar(33 + (int)(mixed % 90));
}"""

# Of a large program: how many functions one calls in a row, and the most pieces.
CALLS, MOST_PIECES = 20, 60


class Int:
    """An integer type, by its spelling."""

    def __init__(self, name):
        self.name = name

    def declared(self, what):
        return f"{self.name} {what}"

    def __eq__(self, other):
        return isinstance(other, Int) and self.name == other.name


class Array:
    def __init__(self, of, length):
        self.of, self.length = of, length

    def declared(self, what):
        return self.of.declared(f"{what}[{self.length}]")

    def __eq__(self, other):
        return isinstance(other, Array) and (self.of, self.length) == (other.of, other.length)


class Record:
    """A struct; `members` are pairs of a name and a type."""

    def __init__(self, name, members):
        self.name, self.members = name, members

    def declared(self, what):
        return f"{self.name} {what}"

    def __eq__(self, other):
        return self is other


class Pointer:
    """A pointer to the first of at least `length` objects, of static storage duration where `lasting` holds."""

    def __init__(self, of, length, const=False):
        self.of, self.length, self.const = of, length, const

    def declared(self, what):
        inner = f"(*{what})" if isinstance(self.of, Array) else f"*{what}"
        return ("const " if self.const else "") + self.of.declared(inner)

    def __eq__(self, other):
        return isinstance(other, Pointer) and (self.of, self.length, self.const) == (other.of, other.length,
                                                                                     other.const)


class Root:
    """A named place. `fixed`: it is only read; `simple`: a local whose address is not taken; `level`: 0 for globals."""

    def __init__(self, text, kind, fixed=False, simple=False, level=0):
        self.text, self.kind, self.fixed, self.simple, self.level = text, kind, fixed, simple, level


class Function:
    """`pure` functions read objects and write their own locals alone; `cost` bounds the statements that a call does."""

    def __init__(self, name, gives, takes, pure):
        self.name, self.gives, self.takes, self.pure, self.cost, self.fuel = name, gives, takes, pure, 0, False


class Program:
    """A program while it is written. Where `trapping` holds, one statement fails a check: `trap` is then its line,
    counted from 0, and the end of the run. A large program has so many functions, and others that call them."""

    def __init__(self, seed, trapping=False, large=0):
        self.random = random.Random(seed)
        self.trap, self.until_trap = None, self.random.randint(2, 25) if trapping else None
        self.lines, self.roots, self.functions, self.records = [], [], [], []
        self.enumerators, self.names, self.level = [], 0, 0
        self.pieces, self.tables = [], []
        self.scale = self.random.choice([1, 1, 2, 3])
        self.large = large

    # Names, chances and lines.

    def name(self, front):
        self.names += 1
        return f"{front}{self.names}"

    def chance(self, part):
        return self.random.random() < part

    def pick(self, items):
        return self.random.choice(items)

    def line(self, text):
        self.lines.append(text)

    # Types.

    def int_type(self):
        return Int(self.pick(INTS))

    def member_type(self, depth):
        kind = self.random.random()
        if kind < 0.55 or depth == 0:
            return self.int_type()
        if kind < 0.75:
            return Array(self.int_type(), self.random.randint(1, 6))
        if kind < 0.85 and self.records:
            return self.pick(self.records)
        if kind < 0.9 and self.records:
            return Array(self.pick(self.records), self.random.randint(1, 3))
        return Array(Array(self.int_type(), self.random.randint(1, 4)), self.random.randint(1, 3))

    def weight_of(self, kind):
        """The scalars of a type."""
        if isinstance(kind, Array):
            return kind.length * self.weight_of(kind.of)
        if isinstance(kind, Record):
            return sum(self.weight_of(of) for _, of in kind.members)
        return 1

    def object_type(self):
        kind = self.random.random()
        if kind < 0.3:
            return self.int_type()
        if kind < 0.55:
            return Array(self.int_type(), self.random.randint(1, 9))
        if kind < 0.7:
            return Array(Array(self.int_type(), self.random.randint(1, 5)), self.random.randint(1, 4))
        if kind < 0.85 and self.records:
            return self.pick(self.records)
        if self.records:
            return Array(self.pick(self.records), self.random.randint(1, 3))
        return self.int_type()

    # Expressions without an effect.

    def places(self, test):
        return [root for root in self.roots if test(root)]

    def index(self, length, depth):
        """An index below a length."""
        if length == 1:
            return f"({self.value(0)} & 0)" if self.chance(0.33) else "0"
        if depth <= 0 or self.chance(0.4):
            return str(self.random.randrange(length))
        if length & (length - 1) == 0:
            return f"({self.value(depth - 1)} & {length - 1})"
        return f"((unsigned)({self.value(depth - 1)}) % {length})"

    def inside(self, text, kind, depth, wanted=None):
        """A place inside one that is given, on the way to an integer or to a type that is wanted."""
        while kind != wanted and not isinstance(kind, Int):
            if isinstance(kind, Array):
                at = self.index(kind.length, depth)
                text = f"{text}[{at}]" if self.chance(0.85) else f"(*({text} + {at}))"
                kind = kind.of
            elif isinstance(kind, Record):
                member, of = self.pick(kind.members)
                text, kind = f"{text}.{member}", of
            elif isinstance(kind, Pointer):
                text, kind = self.through(text, kind, depth)
        return text, kind

    def through(self, text, kind, depth):
        """The place that a pointer leads to."""
        if isinstance(kind.of, Record) and kind.length == 1 and self.chance(0.7):
            member, of = self.pick(kind.of.members)
            return f"{text}->{member}", of
        if kind.length == 1:
            return self.pick([f"(*{text})", f"{text}[0]"]), kind.of
        at = self.index(kind.length, depth)
        return self.pick([f"{text}[{at}]", f"(*({text} + {at}))", f"{text}[{at}]"]), kind.of

    def place(self, depth, writable=False):
        """A place of an integer type, and that type; one that may be written where this is asked."""
        fits = [root for root in self.roots if not (writable and (root.fixed or self.reads_only(root.kind)))]
        if self.function and self.function.pure and writable:
            fits = [root for root in fits if root.level > 0 and not isinstance(root.kind, Pointer)]
        if not fits:
            return None
        near = fits[-8:] if self.chance(0.6) else fits
        root = self.pick(near)
        return self.inside(root.text, root.kind, depth)

    def reads_only(self, kind):
        return isinstance(kind, Pointer) and kind.const

    def atom(self, depth=0):
        if self.chance(0.3) or not self.roots:
            if self.enumerators and self.chance(0.2):
                return self.pick(self.enumerators)
            return self.pick(NUMBERS[:12] if self.chance(0.5) else NUMBERS)
        return self.place(depth)[0]

    def value(self, depth):
        """An expression of an integer type that changes nothing."""
        if depth <= 0:
            return self.atom()
        kind = self.random.random()
        if kind < 0.12:
            return self.atom(depth)
        if kind < 0.2:
            return f"({self.pick('-~!+')}{self.value(depth - 1)})".replace("--", "- -").replace("++", "+ +")
        if kind < 0.27:
            return f"(({self.int_type().name}){self.value(depth - 1)})"
        if kind < 0.35:
            divisor = self.pick(
                [f"(({self.value(depth - 2)} & 7) + 1)", f"(({self.value(depth - 2)} & 7) - 9)", "7", "(-3)", "10u"])
            return f"({self.value(depth - 1)} {self.pick('/%')} {divisor})"
        if kind < 0.43:
            if self.chance(0.3):
                return f"((long){self.value(depth - 1)} {self.pick(['<<', '>>'])} ({self.value(depth - 2)} & 63))"
            value, shift = self.value(depth - 1), self.pick(["<<", ">>"])
            return f"({value} {shift} ({self.value(depth - 2)} & {self.pick([7, 15, 31])}))"
        if kind < 0.5:
            return f"({self.value(depth - 1)} ? {self.value(depth - 1)} : {self.value(depth - 1)})"
        if kind < 0.53:
            return f"({self.value(depth - 2)}, {self.value(depth - 1)})"
        if kind < 0.56:
            what = self.pick([f"({self.pick(PLAIN)})", f"({self.pick(NUMBERS)} + 1)",
                              f"(char[{self.random.randint(1, 9)}])", " 1l"])
            return f"(int)sizeof{what}"
        if kind < 0.63:
            return self.call(depth, pure=True) or self.value(depth - 1)
        if kind < 0.68:
            return self.record_value(depth) or self.value(depth - 1)
        if kind < 0.72:
            return self.compared_pointers(depth) or self.value(depth - 1)
        if kind < 0.75:
            k = self.random.randrange(len(STRINGS))
            return f"\"{STRINGS[k]}\"[{self.index(LENGTHS[k] + 1, depth - 1)}]"
        if kind < 0.8:
            return "(" + f" {self.pick(['+', '-', '*', '&', '|', '^', '<', '=='])} ".join(
                self.atom(depth - 1) for _ in range(self.random.randint(2, 4))) + ")"
        return f"({self.value(depth - 1)} {self.pick(INFIX)} {self.value(depth - 1)})"

    def record_value(self, depth):
        """A member of a struct that is no place: of a conditional or behind a comma."""
        roots = self.places(lambda root: isinstance(root.kind, Record))
        if not roots:
            return None
        root = self.pick(roots)
        other = self.pick([one for one in roots if one.kind is root.kind])
        if self.chance(0.3):
            text = f"({self.value(depth - 2)}, {root.text})"
        else:
            text = f"({self.value(depth - 1)} ? {root.text} : {other.text})"
        return self.inside(text, root.kind, depth - 1)[0]

    def compared_pointers(self, depth):
        roots = self.places(lambda root: isinstance(root.kind, Array) and isinstance(root.kind.of, Int))
        pointers = self.places(lambda root: isinstance(root.kind, Pointer) and root.kind.length > 1)
        if pointers and self.chance(0.3):
            text = self.pick(pointers).text
            return self.pick([f"(!{text})", f"({text} != 0)", f"({text} == {text})", f"({text} && 1)"])
        if not roots:
            return None
        root = self.pick(roots)
        one, two = self.index(root.kind.length, depth - 1), self.index(root.kind.length, depth - 1)
        operator = self.pick(["-", "<", ">", "<=", ">=", "==", "!="])
        text = f"(&{root.text}[{one}] {operator} ({root.text} + {two}))"
        return f"(int){text}" if operator == "-" else text

    # Calls.

    def argument(self, kind, depth):
        """A value for a parameter, or None."""
        if isinstance(kind, Int):
            return self.value(depth)
        return self.address_of(kind.of, kind.length, kind.const, lasting=False, depth=depth)

    def address_of(self, of, length, const, lasting, depth):
        """A pointer to so many objects of a type that there are, or None."""
        texts = []
        for root in self.roots:
            if root.simple or (lasting and root.level > 0) or (root.fixed and not const):
                continue
            kind = root.kind
            if length == 1 and kind == of:
                texts.append(f"&{root.text}")
            if isinstance(kind, Array) and kind.of == of and kind.length >= length:
                over = kind.length - length
                texts.append(root.text if over == 0 or self.chance(0.5)
                             else f"({root.text} + {self.random.randint(0, over)})")
                if length == 1:
                    texts.append(f"&{root.text}[{self.index(kind.length, depth - 1)}]")
            if isinstance(kind, Record):
                texts += self.addresses_in(root, of, length)
            if isinstance(kind,
                          Pointer) and not lasting and kind.of == of and kind.length >= length and (const or
                                                                                                    not kind.const):
                texts.append(root.text)
        return self.pick(texts) if texts else None

    def addresses_in(self, root, of, length):
        for member, kind in root.kind.members:
            if length == 1 and kind == of:
                yield f"&{root.text}.{member}"
            if isinstance(kind, Array) and kind.of == of and kind.length >= length:
                yield f"{root.text}.{member}"

    def call(self, depth, pure):
        """A call of a function that gives an integer, or None."""
        fits = [one for one in self.functions if one.gives and (one.pure or not pure) and self.affords(one)]
        return self.call_of(self.pick(fits), depth) if fits else None

    def affords(self, one):
        return self.cost + self.turns * one.cost <= self.most

    def call_of(self, one, depth):
        arguments = []
        for k, kind in enumerate(one.takes):
            text = f"({self.value(depth - 2)} & 3)" if k == 0 and one.fuel else self.argument(kind, depth - 2)
            if text is None:
                return None
            arguments.append(text)
        self.cost += self.turns * one.cost
        name = self.pick([one.name, one.name, one.name, f"(*{one.name})", f"({one.name})"])
        return f"{name}({', '.join(arguments)})"

    # Expressions with an effect, in which nothing else can see it before the next sequence point.

    def effect(self, depth, kept=()):
        """An expression with effects, and the simple locals that it writes; `kept` are not written."""
        simple = self.places(lambda root: root.simple and not root.fixed and isinstance(root.kind, Int) and root.text
                             not in kept)
        kind = self.random.random()
        if depth <= 0 or not simple or kind < 0.1:
            return self.value(max(depth, 1)), set()
        if kind < 0.25 and not self.function.pure:
            text = self.call(depth, pure=False)
            return (text, set()) if text else (self.value(depth), set())
        name = self.pick(simple).text
        if kind < 0.4:
            return self.pick([f"{name}++", f"++{name}", f"{name}--", f"--{name}"]), {name}
        if kind < 0.5:
            return f"({name} {self.pick(['+=', '-=', '*=', '&=', '|=', '^='])} {self.value(depth - 1)})", {name}
        if kind < 0.6:
            text, written = self.effect(depth - 1, (*kept, name))
            return f"({name} = {text})", {name} | written
        one, first = self.effect(depth - 1, kept)
        two, second = self.effect(depth - 1, kept)
        if kind < 0.7:
            return f"({one}, {two})", first | second
        if kind < 0.85:
            return f"({one} {self.pick(['&&', '||'])} {two})", first | second
        three, third = self.effect(depth - 1, kept)
        return f"({one} ? {two} : {three})", first | second | third

    def assignment(self, depth):
        """An assignment, a compound one or a step, whose other parts change nothing; None where nothing may be."""
        place = self.place(depth, writable=True)
        if not place:
            return None
        text = place[0]
        kind = self.random.random()
        if kind < 0.45:
            return f"{text} = {self.value(depth)}"
        if kind < 0.6:
            return self.pick([f"{text}++", f"++{text}", f"{text}--", f"--{text}"])
        if kind < 0.85:
            return f"{text} {self.pick(['+=', '-=', '*=', '&=', '|=', '^='])} {self.value(depth - 1)}"
        if kind < 0.93:
            return f"{text} {self.pick(['<<=', '>>='])} ({self.value(depth - 1)} & 7)"
        return f"{text} {self.pick(['/=', '%='])} (({self.value(depth - 1)} & 7) + 1)"

    # Initialisers.

    def initializer(self, kind, constant):
        """A value or a list in braces for a type; of constants where this is asked."""
        if isinstance(kind, Int):
            return self.constant() if constant else self.value(self.random.randint(0, 2))
        if isinstance(kind, Array):
            if kind.of in (Int("char"), Int("unsigned char"),
                           Int("signed char")) and kind.length > 3 and self.chance(0.4):
                return self.pick(["\"abc\"", "\"a\\n\"", "\"\"", "{\"xyz\"}"])
            several = [self.initializer(kind.of, constant) for _ in range(self.random.randint(1, kind.length))]
        elif isinstance(kind, Record):
            count = self.random.randint(1, len(kind.members))
            several = [self.initializer(of, constant) for _, of in kind.members[:count]]
        else:
            return "0"
        return "{" + ", ".join(several) + ("," if self.chance(0.1) else "") + "}"

    def constant(self):
        one, two = self.pick(NUMBERS), self.pick(NUMBERS[:12])
        return self.pick([one, one, f"({one} {self.pick('+-*&|^')} {two})", f"({self.pick(PLAIN)}){one}", f"~{one}",
                          f"({one} ? {two} : 3)", f"sizeof(long) * {two}", f"{one} / 7",
                          f"(1 << {self.random.randint(0, 20)})"])

    # Statements.

    def statement(self, depth):
        """One statement, as lines."""
        if self.until_trap is not None:
            self.until_trap -= 1
            if self.until_trap <= 0 and self.failing():
                self.until_trap = None
        self.left -= 1
        self.cost += self.turns
        kind = self.random.random()
        deep = depth > 0 and self.left > 3
        if kind < 0.3:
            text = self.assignment(2)
            self.line(f"{text};" if text else ";")
        elif kind < 0.38 and not self.function.pure:
            self.line(f"{self.pick(['mix', 'show'])}({self.value(2)});" + self.pick(["", " mark();"]))
        elif kind < 0.45:
            self.line(f"{self.effect(3)[0]};")
        elif kind < 0.51 and not self.function.pure:
            self.called()
        elif kind < 0.56:
            self.copied()
        elif kind < 0.6:
            self.ended()
        elif kind < 0.7 and deep:
            self.branch(depth)
        elif kind < 0.82 and deep:
            self.loop(depth)
        elif kind < 0.88 and deep:
            self.switch(depth)
        elif kind < 0.93 and deep:
            self.block("{", depth)
        elif kind < 0.97 and deep:
            self.walked()
        elif not self.function.pure and self.turns <= 8:
            self.snippet()
        else:
            self.line(";" if self.chance(0.1) else f"{self.assignment(2) or ''};")

    def failing(self):
        """A statement that fails a check at the place behind the mark `@`; whether there was one."""
        arrays = self.places(lambda root: isinstance(root.kind, Array) and not root.fixed)
        records = self.places(lambda root: isinstance(root.kind, Record) and not root.fixed)
        texts = [("tag", "@*(int *)0 = 1;"), ("tag", "mix(@*(long *)64);"), ("store", "((char *)\"ab\")@[1] = 'x';"),
                 ("sealed", "mix(@*(unsigned char *)(void *)show);")]
        for root in arrays:
            name, length, of = root.text, root.kind.length, root.kind.of
            if isinstance(of, Int):
                texts += [("bounds", f"{name}@[{length}] = 1;"), ("bounds", f"mix({name}@[{length}]);"),
                          ("bounds", f"{name}@[-1]++;"),
                          ("bounds", f"@*({name} + {length}) += 2;"), ("bounds", f"mix((&{name}[{length - 1}])@[1]);"),
                          ("execute", f"((int (*)(int))(void *){name})@(1);")]
                if of.name in ("int", "long") and length > 1:
                    texts.append(("align", f"@*(int *)((char *){name} + 3) = 4;"))
            elif isinstance(of, Record):
                texts += [("bounds", f"{name}@[{length}] = {name}[0];"), ("bounds", f"{name}[0] = {name}@[{length}];")]
                if isinstance(of.members[0][1], Int):
                    texts.append(("bounds", f"mix(({name} + {length})@->{of.members[0][0]});"))
            else:
                texts.append(("bounds", f"{name}[{length - 1}]@[{of.length}] = 5;"))
        for root in records:
            member, of = root.kind.members[0]
            if isinstance(of, Int):
                texts += [("bounds", f"(&{root.text}.{member})@[1] = 3;"),
                          ("bounds", f"mix((&{root.text})[1]@.{member});")]
            elif isinstance(of, Array) and isinstance(of.of, Int):
                texts += [("bounds", f"{root.text}.{member}@[{of.length}] = 3;")]
        cause, text = self.pick(texts)
        if self.function.pure:
            return False
        self.line(text.replace("@", ""))
        self.trap = len(self.lines) - 1, f"trap {cause}", text.index("@") + 1
        return True

    def called(self):
        fits = [one for one in self.functions if self.affords(one)]
        if not fits:
            return
        one = self.pick(fits)
        text = self.call_of(one, 3)
        if text is None:
            return
        simple = self.places(lambda root: root.simple and not root.fixed and isinstance(root.kind, Int))
        if one.gives and simple and self.chance(0.5):
            self.line(f"{self.pick(simple).text} {self.pick(['=', '=', '=', '^=', '+='])} {text};")
        elif one.gives and self.chance(0.6):
            self.line(f"{self.pick(['mix', 'show'])}({text});")
        else:
            self.line(f"{self.pick(['', '', '(void)'])}{text};")

    def copied(self):
        """A struct is assigned, or a pointer is set to another object of static storage duration."""
        own = self.function.pure
        roots = self.places(lambda root: isinstance(root.kind, (Record, Pointer)) and not root.fixed and
                            not (own and root.level == 0))
        if not roots:
            return
        root = self.pick(roots)
        if isinstance(root.kind, Pointer):
            text = self.address_of(root.kind.of, root.kind.length, root.kind.const, lasting=True, depth=1)
            if text:
                self.line(f"{root.text} = {text};")
            return
        texts = [one.text for one in self.roots if one.kind is root.kind]
        texts += [f"(*{one.text})" for one in self.roots if isinstance(one.kind, Pointer) and one.kind.of is root.kind]
        texts += [f"{one.text}[{self.index(one.kind.length, 1)}]" for one in self.roots
                  if isinstance(one.kind, Array) and one.kind.of is root.kind]
        one, two = self.pick(texts), self.pick(texts)
        values = [one, one, f"({self.value(1)} ? {one} : {two})", f"({self.value(1)}, {one})"]
        self.line(f"{root.text} = {self.pick(values)};")

    def ended(self):
        """A `break`, a `continue` or a `return` under a condition."""
        words = [f"return{self.result()};"] if self.chance(0.1 if self.function.name == "main" else 0.3) else []
        if self.loops:
            words += ["continue;", "break;"]
        elif self.switches:
            words += ["break;"]
        if words:
            self.line(f"if ({self.value(1)} == {self.pick(NUMBERS)}) {self.pick(words)}")

    def result(self):
        return f" {self.value(2)}" if self.function.gives else ""

    def branch(self, depth):
        test = self.value(2) if self.chance(0.7) else self.effect(2)[0]
        self.block(f"if ({test}) {{", depth)
        if self.chance(0.4):
            last = self.lines.pop()
            self.block(f"{last} else {{", depth)

    def loop(self, depth):
        turns = self.random.randint(1, 6)
        if self.turns * turns > 60:
            return
        name, kind = self.name("n"), self.random.random()
        before, self.turns = self.turns, self.turns * turns
        self.loops += 1
        if kind < 0.45:
            counter = self.pick(["int", "unsigned", "long", "short", "unsigned char"])
            self.roots.append(Root(name, Int(counter), fixed=True, simple=True, level=self.level + 1))
            test, step = self.pick([(f"{name} < {turns}", f"{name}++"), (f"{name} != {turns}", f"++{name}"),
                                    (f"{name} < {turns * 2 - 1}", f"{name} += 2")])
            self.block(f"for ({counter} {name} = 0; {test}; {step}) {{", depth)
            self.roots = [root for root in self.roots if root.text != name]
        else:
            self.line("{")
            self.level += 1
            self.line(f"int {name} = {turns};")
            self.roots.append(Root(name, Int("int"), fixed=True, simple=True, level=self.level))
            if kind < 0.65:
                self.block(f"while ({self.pick([f'{name}-- > 0', f'{name} && {name}--'])}) {{", depth)
            elif kind < 0.8:
                self.block("do {", depth)
                last = self.lines.pop()
                self.line(f"{last} while (--{name} > 0);")
            elif kind < 0.9:
                self.block(f"for (; {name} > 0; {name}--, {self.effect(1)[0]}) {{", depth)
            else:
                self.block("for (;;) {", depth, f"if ({name}-- <= 0) break;")
            self.level -= 1
            self.line("}")
            self.roots = [root for root in self.roots if root.level <= self.level]
        self.loops -= 1
        self.turns = before

    def switch(self, depth):
        self.switches += 1
        count = self.random.randint(1, 5)
        values = self.random.sample(range(-2, 9), count)
        labels = [f"case {self.pick([str(v), f'{v} + 0', f'(char){v}' if v >= 0 else str(v)])}:" for v in values]
        if self.enumerators and self.chance(0.2):
            labels[0] = f"case {self.pick(self.enumerators)} + 100:"
        if self.chance(0.7):
            labels.insert(self.random.randint(0, count), "default:")
        test = self.pick([f"{self.value(2)} & 7", f"{self.value(2)} % 8", f"(short){self.value(1)}",
                          f"({self.effect(2)[0]}) & 3"])
        self.line(f"switch ({test}) {{")
        outer = self.loops
        for label in labels:
            self.line(label)
            for _ in range(self.random.randint(0, 2)):
                self.statement(depth - 1)
            if self.chance(0.6):
                self.line("continue;" if outer and self.chance(0.1) else "break;")
        if self.lines[-1].endswith(":"):
            self.line(";")
        self.line("}")
        self.switches -= 1

    def block(self, head, depth, first=None):
        self.line(head)
        self.level += 1
        loops, switches = self.loops, self.switches
        if first:
            self.line(first)
        for _ in range(self.random.choice([0, 0, 1, 1, 2])):
            self.local()
        for _ in range(self.random.randint(1, 4)):
            if self.left <= 0:
                break
            self.statement(depth - 1)
        self.loops, self.switches = loops, switches
        self.level -= 1
        self.roots = [root for root in self.roots if root.level <= self.level]
        self.line("}")

    def local(self):
        """A declaration of locals."""
        self.left -= 1
        kind = self.random.random()
        name = self.name("v")
        if kind < 0.45:
            of = self.int_type()
            words = self.pick(["", "", "", "", "const ", "volatile ", "register "])
            self.line(f"{words}{of.declared(name)} = {self.value(2)};")
            self.roots.append(Root(name, of, fixed=words == "const ", simple=True, level=self.level))
        elif kind < 0.55 and not self.function.pure:
            of = self.object_type()
            self.line(f"static {of.declared(name)} = {self.initializer(of, True)};")
            # Its storage lasts, but its name is in scope here alone.
            self.roots.append(Root(name, of, level=self.level))
        elif kind < 0.8:
            of = self.object_type()
            if self.weight_of(of) > 40:
                of = self.int_type()
            self.line(f"{of.declared(name)} = {self.initializer(of, False)};")
            self.roots.append(Root(name, of, level=self.level))
        else:
            self.local_pointer(name)

    def local_pointer(self, name):
        roots = self.places(lambda root: not root.simple and not isinstance(root.kind, Pointer))
        if not roots:
            return
        root = self.pick(roots)
        if isinstance(root.kind, Array):
            kind = Pointer(root.kind.of, root.kind.length, root.fixed or self.chance(0.3))
            text = root.text
        else:
            kind = Pointer(root.kind, 1, root.fixed or self.chance(0.3))
            text = f"&{root.text}"
        self.line(f"{kind.declared(name)} = {text};")
        self.roots.append(Root(name, kind, simple=True, level=self.level))
        if self.chance(0.2) and not kind.const and not isinstance(kind.of, Array):
            again = self.name("v")
            self.line(f"{kind.of.declared('**' + again)} = &{name};")
            self.roots.append(Root(f"(*{again})", kind, fixed=True, simple=True, level=self.level))
            self.roots = [root for root in self.roots if root.text != name]

    def walked(self):
        """A loop that walks over an array by a pointer."""
        roots = self.places(lambda root: isinstance(root.kind, Array) and isinstance(root.kind.of, Int) and
                            not root.simple)
        target = self.place(1, writable=True)
        if not roots or not target:
            return
        root, name = self.pick(roots), self.name("w")
        length, of = root.kind.length, root.kind.of.name
        self.cost += self.turns * length
        const = "const " if root.fixed or self.chance(0.5) else ""
        where = f"{const}{of} *{name}"
        change = f"{target[0]} {self.pick(['+=', '^=', '-='])}"
        self.line(self.pick([
            f"for ({where} = {root.text}; {name} < {root.text} + {length}; {name}++) {change} *{name};",
            f"for ({where} = {root.text} + {length}; {name} != {root.text};) {change} *--{name};",
            f"for ({where} = &{root.text}[{length}]; {name} > {root.text}; --{name}) {change} {name}[-1];",
            f"{{ {where} = {root.text}; do {change} *{name}++; while ({name} - {root.text} < {length}); }}",
            f"{{ {where} = {root.text}; while ({name} != &{root.text}[{length}]) {{ {change} *{name}; {name} += 1; "
            f"}} }}",
        ]))

    # Pieces that are written out.

    def snippet(self):
        piece = self.pick([self.union_piece, self.list_piece, self.string_piece, self.table_piece,
                           self.pointer_integer_piece,
                           self.heap_piece, self.matrix_piece, self.out_piece])
        piece()

    def union_piece(self):
        one, two, three = self.int_type().name, self.int_type().name, self.int_type().name
        name = self.name("u")
        self.left -= 5
        self.line("{")
        self.line(f"union {{ {one} a; {two} b[3]; struct {{ {three} x; {one} y; }} c; }} {name} = "
                  f"{{{self.value(1)}}}, {name}z;")
        self.line(f"mix({name}.a);")
        self.line(f"{name}.b[{self.index(3, 1)}] = {self.value(1)};")
        self.line(f"{name}.b[1] = {self.value(2)};")
        self.line(f"{name}.b[1] {self.pick(['+=', '-=', '^='])} {self.value(1)};")
        self.line(f"mix({name}.b[1]);")
        self.line(f"{name}.c.x = {self.value(1)};")
        self.line(f"{name}.c.y = {name}.c.x;")
        self.line(f"{name}z = {name};")
        self.line(f"show({name}z.c.y + {name}.c.x++);")
        self.line("}")

    def list_piece(self):
        turns = self.random.randint(1, 6)
        self.cost += self.turns * turns * 12
        self.left -= 5
        node = self.name("N")
        order = self.pick(["<", ">", "<="])
        for text in [
            "{", f"struct {node} {{ {self.int_type().name} v; struct {node} *next; char c[3]; }} "
            "*head = 0, *at, **way;",
            f"for (int i = 0; i < {turns}; i++) {{", f"at = malloc(sizeof(struct {node}));", "if (!at) exit(3);",
            f"at->v = {self.value(1)} + i * {self.pick(NUMBERS)};", "at->c[0] = at->c[1] = at->c[2] = i;",
            f"for (way = &head; *way && (*way)->v {order} at->v; way = &(*way)->next);", "at->next = *way;",
            "*way = at;", "}",
            "for (at = head; at; at = at->next) mix(at->v);",
            "{", f"struct {node} *back = 0, *rest;", "while (head) {", "rest = head->next;", "head->next = back;",
            "back = head;",
            "head = rest;", "}", "for (; back; back = back->next) mix(back->v + back->c[1]);", "}",
            f"for (way = &head, at = 0; *way; way = &(*way)->next);", "mix(way == &head);", "}",
        ]:
            self.line(text)

    def string_piece(self):
        k = self.random.randrange(len(STRINGS))
        name = self.name("s")
        self.cost += self.turns * 8
        self.left -= 2
        self.line("{")
        self.line(f"{self.pick(['const ', ''])}char *{name} = \"{STRINGS[k]}\";")
        self.line(self.pick([f"while (*{name}) putchar(*{name}++);", f"for (; *{name}; ++{name}) mix(*{name});",
                             f"for (int i = 0; {name}[i]; i++) putchar({name}[i]);",
                             f"if (*{name}) do mix(*{name}++); while (*{name});"]))
        self.line(f"mix(sizeof \"{STRINGS[k]}\");")
        self.line("}")

    def table_piece(self):
        if not self.tables:
            return
        table, length, cost = self.pick(self.tables)
        if self.cost + self.turns * cost > self.most:
            return
        self.cost += self.turns * cost
        at = self.index(length, 2)
        self.line(f"mix({self.pick([f'{table}[{at}]', f'(*{table}[{at}])', f'(**{table}[{at}])'])}({self.value(2)}));")
        if self.chance(0.4):
            name = self.name("f")
            self.line(f"{{ int (*{name})(int) = {table}[{self.index(length, 1)}]; show({name}({self.value(1)}) + "
                      f"({name} == {table}[0])); }}")

    def pointer_integer_piece(self):
        roots = self.places(lambda root: isinstance(root.kind, Array) and isinstance(root.kind.of, Int) and
                            not root.fixed)
        if not roots:
            return
        root, name = self.pick(roots), self.name("p")
        of, length = root.kind.of.name, root.kind.length
        at = self.random.randrange(length)
        integer = self.pick(["uintptr_t", "intptr_t"])
        self.line("{")
        self.line(f"{integer} {name} = ({integer}){root.text};")
        self.line(f"{name} {self.pick(['+=', '+='])} {at} * sizeof({of});")
        self.line(f"mix(*({of} *){name});")
        self.line(f"{{ void *v = (void *){name}; {of} *w = v; mix(w - {root.text}); }}")
        self.line("}")

    def heap_piece(self):
        of, length, name = self.int_type().name, self.random.randint(1, 9), self.name("h")
        self.cost += self.turns * length * 2
        self.left -= 2
        self.line("{")
        self.line(f"{of} *{name} = malloc({length} * sizeof({self.pick([of, f'*{name}'])}));")
        self.line(f"if ({self.pick([f'!{name}', f'{name} == 0'])}) exit(4);")
        self.line(f"for (int i = 0; i < {length}; i++) {name}[i] = {self.value(2)} + i;")
        self.line(f"for (int i = {length}; i-- > 0;) mix({self.pick([f'{name}[i]', f'*({name} + i)', f'i[{name}]'])});")
        self.line("}")

    def matrix_piece(self):
        roots = self.places(lambda root: isinstance(root.kind, Array) and isinstance(root.kind.of, Array)
                            and isinstance(root.kind.of.of, Int))
        if not roots:
            return
        root, name = self.pick(roots), self.name("m")
        rows, columns, of = root.kind.length, root.kind.of.length, root.kind.of.of.name
        self.cost += self.turns * rows * columns
        const = "const " if root.fixed else ""
        self.line("{")
        self.line(f"{const}{of} (*{name})[{columns}] = {root.text};")
        self.line(f"for (int i = 0; i < {rows}; i++)")
        self.line(f"for (int j = 0; j < {columns}; j++) "
                  f"mix({self.pick([f'{name}[i][j]', f'*(*({name} + i) + j)', f'(*({name} + i))[j]'])});")
        self.line(f"mix(&{name}[{rows}] - {name} + (int)sizeof({root.text}) / (int)sizeof *{name});")
        self.line("}")

    def out_piece(self):
        """A function sets what its parameters point to."""
        roots = [self.address_of(Int("int"), 1, False, False, 1), self.address_of(Int("long"), 1, False, False, 1)]
        if None in roots:
            return
        self.line(f"set({roots[0]}, {roots[1]}, {self.value(2)});")

    # Items at file scope.

    def record(self):
        name = self.name("S")
        members = [(f"m{k}", self.member_type(2)) for k in range(self.random.randint(1, 5))]
        if sum(self.weight_of(of) for _, of in members) > 30:
            members = [("m0", self.int_type()), ("m1", self.int_type())]
        one = Record(f"struct {name}", members)
        text = f"struct {name} {{ {' '.join(of.declared(member) + ';' for member, of in members)} }}"
        if self.chance(0.3):
            one.name = f"T{name}"
            self.line(f"typedef {text} T{name};")
        else:
            self.line(f"{text};")
        self.records.append(one)

    def enumeration(self):
        name = self.name("E")
        names = [f"{name}_{k}" for k in range(self.random.randint(2, 4))]
        # One enumerator is negative, so that the type is int everywhere.
        texts = [f"{names[0]} = -{self.random.randint(1, 9)}"]
        texts += [one + (f" = {self.random.randint(-3, 40)}" if self.chance(0.4) else "") for one in names[1:]]
        self.line(f"enum {name} {{ {', '.join(texts)} }};")
        self.enumerators += names
        one = self.name("g")
        self.line(f"static enum {name} {one} = {self.pick(names)};")
        self.roots.append(Root(one, Int(f"enum {name}")))

    def global_object(self):
        name, of = self.name("g"), self.object_type()
        kind = self.random.random()
        words = self.pick(["static ", "", "", "const ", "static const "])
        fixed = "const" in words
        if kind < 0.15 and not fixed:
            self.line(f"{words}{of.declared(name)};")
        elif kind < 0.25 and not fixed and not words:
            self.line(f"extern {of.declared(name)};")
            self.line(f"{of.declared(name)} = {self.initializer(of, True)};")
        else:
            self.line(f"{words}{of.declared(name)} = {self.initializer(of, True)};")
        self.roots.append(Root(name, of, fixed=fixed))
        if self.chance(0.4) and isinstance(of, (Array, Int, Record)):
            self.global_pointer(name, of, fixed)

    def global_pointer(self, name, of, fixed):
        again = self.name("g")
        if isinstance(of, Array):
            over = self.random.randint(0, of.length - 1)
            kind = Pointer(of.of, of.length - over, fixed)
            text = self.pick([f"{name} + {over}", f"&{name}[{over}]", f"{over} + {name}"])
        else:
            kind, text = Pointer(of, 1, fixed), f"&{name}"
            inner = [] if not isinstance(of, Record) else [
                (member, one) for member, one in of.members if isinstance(one, Int)]
            if inner and self.chance(0.5):
                member, one = self.pick(inner)
                kind, text = Pointer(one, 1, fixed), f"&{name}.{member}"
        self.line(f"static {kind.declared(again)} = {text};")
        self.roots.append(Root(again, kind))

    def started(self, function, most):
        self.function, self.loops, self.switches, self.turns, self.cost, self.most = function, 0, 0, 1, 2, most
        self.level = 1

    def defined(self):
        """A function with its body."""
        pure = self.chance(0.45)
        gives = self.int_type() if pure or self.chance(0.8) else None
        takes = []
        for k in range(self.random.choice([0, 1, 1, 2, 2, 3, 4, 8])):
            kind = self.random.random()
            if kind < 0.75 or k == 0:
                takes.append(self.int_type())
            elif kind < 0.9 or not self.records:
                takes.append(Pointer(self.int_type(), self.random.choice([1, 1, 2, 3]), pure or self.chance(0.4)))
            else:
                takes.append(Pointer(self.pick(self.records), 1, pure or self.chance(0.4)))
        one = Function(self.name("f"), gives, takes, pure)
        self.started(one, 400)
        kept, names = list(self.roots), [self.name("a") for _ in takes]
        parameters = ", ".join(of.declared(name) for name, of in zip(names, takes)) or "void"
        head = f"{(gives.name if gives else 'void')} {one.name}({parameters})"
        words = self.pick(["static ", "static ", "", "static inline "])
        if self.chance(0.2):
            self.line(f"{words}{head};")
        self.line(f"{words}{head} {{")
        for name, of in zip(names, takes):
            self.roots.append(Root(name, of, simple=True, level=1))
        if (takes and gives and isinstance(takes[0], Int) and takes[0].name in ("int", "long", "unsigned")
                and self.chance(0.4)):
            self.recursion(one, names, takes)
        self.body(1 if self.large else self.random.randint(2, 7) * self.scale)
        if gives:
            self.line(f"return {self.value(2)};")
        self.line("}")
        one.cost = self.cost * (15 if one.fuel else 1)
        self.roots = kept
        self.functions.append(one)

    def recursion(self, one, names, takes):
        """The function calls itself where its first parameter, which falls with each call, is above zero."""
        one.fuel = True
        for root in self.roots:
            if root.text == names[0]:
                root.fixed = True
        others = [name if isinstance(of, Pointer) else self.value(1) for name, of in zip(names[1:], takes[1:])]
        arguments = ", ".join([f"{names[0]} - 1"] + others)
        name = self.name("v")
        self.line(f"{one.gives.name} {name} = 1;")
        self.line(f"if ({names[0]} > 0) {name} = {one.name}({arguments});")
        if self.chance(0.4):
            self.line(f"if ({names[0]} > 1) {name} ^= {one.name}({arguments});")
        self.roots.append(Root(name, one.gives, simple=True, level=1))

    def body(self, size):
        self.left = size
        for _ in range(self.random.randint(1, 4)):
            self.local()
        while self.left > 0:
            self.statement(3)

    def table(self):
        """Three functions from int to int, and an array of pointers to them."""
        names = []
        for _ in range(3):
            one = Function(self.name("t"), Int("int"), [Int("int")], True)
            self.started(one, 100)
            kept = list(self.roots)
            name = self.name("a")
            self.roots.append(Root(name, Int("int"), simple=True, level=1))
            self.line(f"static int {one.name}(int {name}) {{ return {self.value(2)}; }}")
            self.roots, one.cost = kept, self.cost
            self.functions.append(one)
            names.append(one)
        table = self.name("table")
        self.line(self.pick([f"static int (*{table}[3])(int) =",
                             f"typedef int (*P{table})(int);\nstatic const P{table} {table}[] ="]) +
                  f" {{{names[0].name}, &{names[1].name}, {names[2].name}}};")
        self.tables.append((table, 3, max(one.cost for one in names)))

    def piece(self, number):
        text, cost = piece(self.random, PLAIN, number)
        for line in text.split("\n"):
            self.line(line)
        one = Function(f"piece{number}", Int("int"), [Int("int")], False)
        one.cost = cost
        self.functions.append(one)
        self.pieces.append(one.name)

    def text(self):
        self.function = None
        for line in HEAD.split("\n"):
            self.line(line)
        self.line("static void set(int *a, long *b, long c) { *a = c; *b += *a ^ 5; }")
        for _ in range(self.random.randint(1, 3)):
            self.record()
        if self.chance(0.6):
            self.enumeration()
        self.roots.append(Root("mixed", Int("unsigned long"), fixed=True))
        for _ in range(self.random.randint(3, 7)):
            self.global_object()
        if self.chance(0.5):
            self.table()
        for k in range(self.large or self.random.randint(2, 5)):
            if self.chance(0.6) and k < MOST_PIECES:
                self.piece(k)
            self.defined()
        sweeps = [self.sweep() for _ in range(self.large // CALLS)]
        main = Function("main", Int("int"), [], False)
        self.started(main, 30_000)
        self.line("int main(void) {")
        self.body(self.random.randint(8, 20) * self.scale)
        for name in self.pieces:
            self.line(f"show({name}({self.value(2)}));")
        for name in sweeps:
            self.line(f"{name}();")
        self.sums()
        self.line("show(mixed);")
        self.line("mark();")
        self.line("return (int)(mixed & 127);")
        self.line("}")
        return "\n".join(self.lines) + "\n"

    def sweep(self):
        """A function of a large program that calls others, near and far."""
        one = Function(self.name("sweep"), None, [], False)
        self.started(one, 10_000)
        kept = list(self.roots)
        self.line(f"static void {one.name}(void) {{")
        self.body(3)
        for _ in range(CALLS):
            self.called()
        self.line("}")
        self.roots = kept
        return one.name

    def sums(self):
        """What the objects hold at the end."""
        for root in self.roots:
            if root.fixed or isinstance(root.kind, Pointer):
                continue
            for _ in range(2):
                self.line(f"mix({self.inside(root.text, root.kind, 0)[0]});")


def program(seed):
    return Program(seed).text()


def large(seed):
    """A program of 500 to 3,000 functions."""
    return Program(seed, large=random.Random(-seed).randint(500, 3000)).text()


def trapping(seed):
    """A program with a statement that fails a check, the same with an exit by TRAPPED there, and the line on the end of
    a run that comes there, as `trap bounds 7:3`."""
    one = Program(seed, trapping=True)
    text = one.text()
    if one.trap is None:
        return text, text, ""
    at, cause, column = one.trap
    lines = text.split("\n")
    line = 1 + sum(1 + one.lines[k].count("\n") for k in range(at))
    lines[line - 1] = f"exit({TRAPPED});"
    return text, "\n".join(lines), f"{cause} {line}:{column}"


if __name__ == "__main__":
    if "--large" in sys.argv:
        print(large(int(sys.argv[1])), end="")
    elif "--trap" in sys.argv:
        print("{0}/* {2} */".format(*trapping(int(sys.argv[1]))))
    else:
        print(program(int(sys.argv[1])), end="")
