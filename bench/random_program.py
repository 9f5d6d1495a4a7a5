"""Makes random C90 programs without floating types, each by its seed.

A *tame* program does nothing that C90 leaves undefined but for signed overflow, reads no byte of an address, and has no side effect
on whose order its value depends; so every compiler for a 32-bit machine with the same sizes makes it print the same. A *wild* one
also misses its arrays, uses freed blocks and takes integers for addresses."""

import random

SIZES = {"char": 1, "short": 2, "int": 4, "long": 4}
INTS = ("signed char", "unsigned char", "char", "short", "unsigned short", "int", "unsigned", "long", "unsigned long")
BINARY = ("+", "-", "*", "&", "|", "^", "<", ">", "<=", ">=", "==", "!=", "&&", "||", "<<", ">>", "/", "%", ",")
ASSIGN = ("=", "+=", "-=", "*=", "&=", "|=", "^=", "<<=", ">>=", "/=", "%=")
HEAD = """#include <stdlib.h>
#include <string.h>
#include <stdarg.h>
#include <stddef.h>
#include <stdio.h>
int main(void);
static void put_number(unsigned n)
{
    int i;
    for (i = 28; i >= 0; i -= 4) putchar("0123456789abcdef"[n >> i & 15]);
    putchar('\\n');
}
static int sum_of(int count, ...)
{
    va_list rest;
    int sum = 0;
    va_start(rest, count);
    while (count-- > 0) sum = sum * 3 + va_arg(rest, int);
    va_end(rest);
    return sum;
}
"""


class Array:
    """An array, or what a pointer to its first element leads to: its name, its elements' type, and its length, a power of two."""

    def __init__(self, name, kind, length):
        self.name, self.kind, self.length = name, kind, length

    def size(self):
        """Its size in bytes."""
        return SIZES.get(self.kind.split()[-1], 4) * self.length

    def is_passed(self):
        """Whether it may go where a function reads four of int."""
        return self.kind == "int" and self.length >= 4


class Program:
    """A program in the making: what its names are, and its text."""

    def __init__(self, seed, wild):
        self.random = random.Random(seed)
        self.wild = wild
        self.lines = [HEAD]
        self.count = 0
        self.scalars, self.arrays, self.functions = [], [], []
        self.loops = 0

    # ---- choices

    def name(self, kind):
        self.count += 1
        return f"{kind}{self.count}"

    def chance(self, percent):
        return self.random.randrange(100) < percent

    def pick(self, *kinds):
        return self.random.choice(kinds)

    # ---- values

    def literal(self):
        number = self.pick(0, 1, 2, 3, 7, 8, 31, 127, 128, 255, 256, 32767, 32768, 65535, 65536, 2147483647, self.random.randrange(1 << 32))
        form = self.pick("{}", "0x{:x}", "0{:o}", "{}u", "{}l", "0x{:X}UL", "'\\x{:02x}'", "(-{})")
        if "'" in form:
            return form.format(number % 128)
        if form in ("{}", "{}l", "(-{})") and number > 2147483647:
            form += "u" if form == "{}" else ""
            number = number if form == "{}u" else number % 2147483647
        return form.format(number)

    def index(self, length, depth):
        """An index into an array of that length, a power of two."""
        if self.wild and self.chance(2):
            return self.pick(str(length), "-1", f"({self.value(depth)}) & {length * 2 - 1}", str(length * 16))
        if depth <= 0 or self.chance(40):
            return str(self.random.randrange(length))
        return f"({self.value(depth - 1)}) & {length - 1}"

    def place(self, depth):
        """An expression for an object of integer type that may be assigned."""
        if self.arrays and self.chance(45):
            array = self.random.choice(self.arrays)
            index = self.index(array.length, depth)
            return self.pick(f"{array.name}[{index}]", f"{array.name}[{index}]", f"*({array.name} + ({index}))", f"({index})[{array.name}]")
        return self.random.choice(self.scalars)

    def through_number(self, depth):
        """An object that an address leads to which was an integer in between."""
        array = self.random.choice(self.arrays)
        at = f"&{array.name}[{self.index(array.length, depth)}]"
        kind = self.pick("unsigned", "long", "int")
        change, back = self.pick(("+ 4", "- 4"), ("^ 3", "^ 3"), ("+ 1000", "- 1000"), ("& -1", "| 0"))
        number = f"((({kind}){at} {change}) {back})"
        return f"*({array.kind} *){number} + ({number} == ({kind}){at}) + sizeof *({at})"

    def call(self, depth):
        """A call of a function that was made before. Its side effects must not change what stands beside it."""
        name, wants = self.random.choice(self.functions)
        lists = [array.name for array in self.arrays if array.is_passed()]
        given = [self.random.choice(lists) if want == "*" else self.value(depth - 1) for want in wants]
        return f"{name}({', '.join(given)})"

    def binary(self, depth):
        sign = self.random.choice(BINARY)
        left, right = self.value(depth - 1), self.value(depth - 1)
        if sign in ("<<", ">>"):
            right = f"(({right}) & 31)"
            left = f"(unsigned)({left})" if sign == "<<" else left
        if sign in ("/", "%"):
            right = f"((({right}) & 1023) + 1)"
        if sign == ",":
            return f"({left}, {right})"
        return f"({left} {sign} {right})"

    def value(self, depth):
        """An expression of integer type."""
        if depth <= 0:
            return self.literal() if self.chance(35) else self.place(0)
        kind = self.random.randrange(100)
        if kind < 46:
            return self.binary(depth)
        if kind < 56:
            return f"{self.pick('-', '~', '!', '+')}({self.value(depth - 1)})"
        if kind < 66:
            return f"(({self.random.choice(INTS)})({self.value(depth - 1)}))"
        if kind < 74:
            return f"({self.value(depth - 1)} ? {self.value(depth - 1)} : {self.value(depth - 1)})"
        if kind < 77:
            return f"sizeof({self.pick(*INTS, 'char *', 'int[7]', 'struct record', '+' + self.place(0))})"
        if kind < 80 and self.arrays:
            return f"({self.through_number(depth - 1)})"
        if kind < 83:
            return f"sum_of({self.pick(0, 1, 2, 3)}, (int)({self.value(depth - 1)}), {self.pick(1, 5, 9)}, (int)({self.value(depth - 1)}))"
        return self.place(depth)

    def condition(self):
        """A full expression that is tested."""
        return self.call(2) if self.functions and self.chance(15) else self.value(2)

    # ---- statements

    def assign(self):
        if self.functions and self.chance(25):
            return f"{{ {self.random.choice(INTS)} got = {self.call(3)}; {self.place(1)} {self.pick('=', '+=', '^=')} got; }}"
        sign = self.random.choice(ASSIGN)
        place, value = self.place(1), self.value(3)
        if sign in ("<<=", ">>="):
            value = f"({value}) & 7"
        if sign in ("/=", "%="):
            value = f"(({value}) & 255) + 1"
        return f"{place} {sign} {value};"

    def step(self):
        place = self.random.choice(self.scalars)
        return self.pick(f"{place}++;", f"--{place};", f"++{place};", f"{place}--;")

    def loop(self, depth):
        self.loops += 1
        counter = self.name("i")
        self.scalars.append(counter)
        body = self.block(depth - 1)
        self.scalars.remove(counter)
        times = self.random.randrange(1, 6)
        guard = self.pick("", f"if ({self.condition()}) continue; ", f"if ({self.condition()}) break; ")
        head = f"for ({counter}_ = 0; {counter}_ < {times}; {counter}_++)"
        kind = self.random.randrange(3)
        if kind == 0:
            text = f"{head} {{ {guard}{body} }}"
        elif kind == 1:
            text = f"{counter}_ = {times}; while ({counter}_-- > 0) {{ {guard}{body} }}"
        else:
            text = f"{counter}_ = 0; do {{ {guard}{body} }} while (++{counter}_ < {times});"
        return f"{{ int {counter}_, {counter} = {self.literal()}; {text} }}"

    def switch(self, depth):
        labels = self.random.sample(range(-3, 12), self.random.randrange(1, 5))
        arms = [f"case {label}: {self.block(depth - 1)} {self.pick('break;', 'break;', '')}" for label in labels]
        if self.chance(60):
            arms.insert(self.random.randrange(len(arms) + 1), f"default: {self.block(depth - 1)} {self.pick('break;', '')}")
        return f"switch (({self.condition()}) {self.pick('& 7', '% 9', '& 15')}) {{ {' '.join(arms)} }}"

    def jump(self, depth):
        label = self.name("l")
        return f"if ({self.condition()}) goto {label}; {self.block(depth - 1)} {label}: ;"

    def copies(self):
        one, other = self.random.choice(self.arrays), self.random.choice(self.arrays)
        size = self.random.randrange(1, min(one.size(), other.size()) + 1) if not (self.wild and self.chance(5)) else 1000
        return self.pick(
            f"memmove({one.name}, {other.name}, {size});",
            f"memset({one.name}, (int)({self.value(1)}), {size});",
            f"if (memcmp({one.name}, {other.name}, {size}) > 0) {self.step()}",
        )

    def records(self):
        return self.pick(
            "first = second;", "second = changed(first);", "table[1] = table[0];", "first.in = second.in;",
            f"first.low = {self.value(2)};", f"second.signed_bits = {self.value(2)};", f"table[({self.value(1)}) & 1].in.b = {self.value(1)};",
            f"both.whole = {self.value(2)};", f"both.part[({self.value(1)}) & 3] = {self.value(1)};", f"both.half[1] = {self.value(1)};",
        )

    def blocks(self):
        length = self.pick(1, 2, 4, 8, 16)
        name = self.name("m")
        kind = self.random.choice(INTS)
        late = f" {name}[0] = 1;" if self.wild and self.chance(10) else ""
        at = self.pick("0", str(length - 1), str(length) if self.wild and self.chance(20) else "0")
        return (f"{{ {kind} *{name} = malloc({length} * sizeof({kind})); if ({name}) {{ memset({name}, 0, {length} * sizeof *{name}); "
                f"{name}[{at}] = {self.value(2)}; put_number({name}[{at}]); free({name});{late} }} }}")

    def wild_step(self):
        array = self.random.choice(self.arrays)
        return self.pick(
            f"*(int *){self.literal()} = 1;", f"put_number(*({self.random.choice(INTS)} *)({array.name} + 1));",
            f"put_number((unsigned){array.name} & 15);", f"((int (*)(void)){self.pick('main', '1234', array.name)})();",
            f"*(unsigned short *)((unsigned){array.name} + 1) = 5;", f"put_number(*(unsigned *)((char *){array.name} + {self.random.randrange(9)}));",
        )

    def statement(self, depth):
        kind = self.random.randrange(100)
        if self.wild and self.chance(1):
            return self.wild_step()
        if kind < 36 or depth <= 0:
            return self.assign()
        if kind < 44:
            return self.step()
        if kind < 56:
            return f"if ({self.condition()}) {{ {self.block(depth - 1)} }}" + self.pick("", f" else {{ {self.block(depth - 1)} }}")
        if kind < 64 and self.loops < 5:
            return self.loop(depth)
        if kind < 70:
            return self.switch(depth)
        if kind < 75:
            return self.jump(depth)
        if kind < 80 and self.arrays:
            return self.copies()
        if kind < 88:
            return self.records()
        if kind < 92:
            return self.blocks()
        return f"put_number({self.value(3)});"

    def block(self, depth):
        return " ".join(self.statement(depth) for _ in range(self.random.randrange(1, 4)))

    # ---- declarations

    def initial(self, length):
        shown = self.random.randrange(1, length + 1)
        return "{" + ", ".join(self.literal() for _ in range(shown)) + "}"

    def declare(self, storage):
        """One more object: its declaration."""
        kind = self.random.choice(INTS)
        if self.chance(45):
            array = Array(self.name("a"), kind, self.pick(1, 2, 4, 8))
            text = f"{storage}{kind} {array.name}[{array.length}] = {self.initial(array.length)};"
            self.arrays.append(array)
            return text
        name = self.name("x")
        text = f"{storage}{kind} {name} = {self.literal()};"
        self.scalars.append(name)
        return text

    def function(self):
        """One more function, which calls only those before it."""
        name, kind = self.name("f"), self.random.choice(INTS)
        kept = list(self.scalars), list(self.arrays)
        wants, shown = [], []
        for _ in range(self.random.randrange(4)):
            if self.chance(25):
                array = Array(self.name("p"), "int", 4)
                self.arrays.append(array)
                wants.append("*")
                shown.append(("int *", array.name))
            else:
                self.scalars.append(self.name("v"))
                wants.append("")
                shown.append((self.random.choice(INTS) + " ", self.scalars[-1]))
        if self.chance(20) and shown and all("char" not in it[0] and "short" not in it[0] for it in shown):
            head = f"{kind} {name}({', '.join(it[1] for it in shown)}) {' '.join(it[0] + it[1] + ';' for it in shown)}"
        else:
            head = f"{kind} {name}({', '.join(it[0] + it[1] for it in shown) or 'void'})"
        self.loops = 0
        inner = [self.declare(self.pick("", "", "", "static ", "const ", "register ")) for _ in range(self.random.randrange(4))]
        self.lines.append(f"{self.pick('', 'static ')}{head}\n{{")
        self.lines += self.cleaned(inner)
        for _ in range(self.random.randrange(1, 7)):
            self.lines.append("    " + self.statement(3))
        self.lines.append(f"    return {self.value(2)};\n}}")
        self.scalars, self.arrays = kept
        self.functions.append((name, wants))

    def cleaned(self, inner):
        """Declarations inside a function; those that are const or have no address are taken only for what they may be."""
        shown = []
        for line in inner:
            for word in ("const ", "register "):
                line = line.replace(word, "", 1) if line.startswith(word) and "[" in line or line.startswith("const ") else line
            shown.append("    " + line)
        return shown

    def made(self):
        """The text of the program."""
        self.lines.append("struct inner { short a; signed char b; };")
        self.lines.append("struct record { unsigned low : 3; int signed_bits : 7; struct inner in; int rest[2]; unsigned last : 20; };")
        self.lines.append("union whole { unsigned whole; unsigned char part[4]; unsigned short half[2]; };")
        self.lines.append("struct record first = {5, -3, {1, 2}, {3, 4}, 99}, second, table[2];\nunion whole both = {0x12345678};")
        self.lines.append("static struct record changed(struct record it)\n{\n    it.in.a++;\n    it.rest[1] -= it.low;\n    it.last += 7;\n    return it;\n}")
        globals_ = [self.declare(self.pick("", "static ")) for _ in range(self.random.randrange(3, 9))]
        self.arrays.append(Array("g", "int", 4))
        self.lines += ["int g[4] = {1, 2, 3, 4};", *globals_]
        self.scalars += ["first.low", "second.in.b", "table[0].rest[1]", "both.part[2]", "both.half[0]", "first.signed_bits", "second.last"]
        self.scalars.append("first.in.a")
        for _ in range(self.random.randrange(1, 6)):
            self.function()
        self.main()
        return "\n".join(self.lines) + "\n"

    def main(self):
        self.lines.append("int main(void)\n{\n    unsigned i;")
        self.loops = 0
        for _ in range(self.random.randrange(2, 9)):
            self.lines.append("    " + self.statement(3))
        for name in self.scalars:
            self.lines.append(f"    put_number({name});")
        for array in self.arrays:
            self.lines.append(f"    for (i = 0; i < {array.length}; i++) put_number({array.name}[i]);")
        self.lines.append(f"    return ({self.value(2)}) & 127;\n}}")


def program(seed, wild=False):
    """The text of the program with that seed."""
    return Program(seed, wild).made()


if __name__ == "__main__":
    import sys

    print(program(int(sys.argv[1]), len(sys.argv) > 2), end="")
