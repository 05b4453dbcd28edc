#!/usr/bin/env python3
"""bench/programs.py SEED: writes a C program over integers on standard output, of a weight of at most 100.

The same seed gives the same program. It ends, writes some bytes, and means the same by any compiler of C11 that wraps
signed sums and has an unsigned `char`: divisors are from 1 to 8, shift counts from 0 to 7, and no operand has an
effect."""
import random
import sys

TYPES = ["int", "unsigned", "long", "unsigned long", "long long", "short", "unsigned short", "char", "signed char",
         "unsigned char", "_Bool"]
INFIX = ["+", "-", "*", "&", "|", "^", "<", ">", "<=", ">=", "==", "!=", "&&", "||"]
LIMIT = 100


class Program:
    """A program while it is written; `left` is the weight that it may still have. Weights are counted too high rather
    than too low: a value that is read weighs 3, with its load and a conversion, and an operation 3, with conversions of
    its operands."""

    def __init__(self, seed):
        self.random = random.Random(seed)
        self.left = LIMIT - 12
        self.names = []

    def pay(self, weight):
        self.left -= weight
        return self.left >= 0

    def number(self):
        self.pay(2)
        return str(self.random.choice(
            [0, 1, 2, 3, 7, 10, 65, 127, 128, 255, 256, 1000, 32767, 65535, 2147483647, 4294967295]))

    def operand(self):
        if self.names and self.random.random() < 0.7:
            self.pay(3)
            return self.random.choice(self.names)
        return self.number()

    def value(self, depth):
        if depth == 0 or self.left < 12:
            return self.operand()
        self.pay(3)
        kind = self.random.random()
        if kind < 0.12:
            return self.random.choice("-~!") + "(" + self.value(depth - 1) + ")"
        if kind < 0.24:
            self.pay(10)
            return f"(({self.value(depth - 1)}){self.random.choice('/%')}(({self.operand()}&7)+1))"
        if kind < 0.36:
            self.pay(6)
            return f"(({self.value(depth - 1)}){self.random.choice(['<<', '>>'])}({self.operand()}&7))"
        return f"(({self.value(depth - 1)}){self.random.choice(INFIX)}({self.value(depth - 1)}))"

    def statement(self, depth):
        kind = self.random.random()
        if kind < 0.4 or self.left < 25:
            self.pay(4)
            return f"{self.random.choice(self.names)}={self.value(2)};"
        if kind < 0.65 or depth == 0:
            self.pay(6)
            return f"putchar({self.value(1)});"
        if kind < 0.85:
            self.pay(4)
            branch = f"if({self.value(1)}){{{self.statement(depth - 1)}}}"
            return branch + (f"else{{{self.statement(depth - 1)}}}" if self.left > 20 else "")
        self.pay(18)
        turns = self.random.randint(1, 5)
        return f"{{int n={turns};while(n){{{self.statement(0)}n=n-1;}}}}"

    def text(self):
        declarations = ""
        for k in range(self.random.randint(1, 4)):
            self.pay(4)
            kind = self.random.choice(TYPES)
            declarations += f"{kind} v{k}={self.number()};"
            self.names.append(f"v{k}")
        statements = ""
        while self.left > 20:
            statements += self.statement(2)
        return f"int main(void){{{declarations}{statements}putchar({self.names[0]});return {self.names[-1]}&255;}}"


def program(seed):
    """The first program of a weight within the limit, by the seed and the numbers behind it."""
    for k in range(1000):
        p = Program(seed * 1000 + k)
        text = p.text()
        if p.left >= -12:
            return text
    raise SystemExit("programs.py: no program within the limit")


if __name__ == "__main__":
    print(program(int(sys.argv[1])))
