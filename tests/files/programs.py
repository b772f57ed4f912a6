"""Random programs of the language, with all that its text may have: prototypes, comments, include lines, literals of each
base, globals that are hidden, loops of each kind, recursion, and sums at the end of the range.
"""
import random
from dataclasses import dataclass, field

GAPS = (
    " ", " ", " ", "\n", "\t", " /* a comment; assert(0); */ ", " // to the end\n", "\r\n", "\n#include <assert.h>\n", "\f", "\v")
TYPES = ("int", "long", "long long", "long int", "long long int")
LITERALS = ("0", "1", "2", "3", "7", "010", "0x1F", "0XaL", "5ll", "100LL", "9223372036854775807",
            "0x7fffffffffffffff", "4611686018427387904")
COMPARISONS = ("<", "<=", ">", ">=", "==", "!=")


@dataclass
class Maker:
    """Makes one program."""

    chance: random.Random
    procedures: list[tuple[str, int, bool]] = field(default_factory=list)
    globals: list[str] = field(default_factory=list)
    scopes: list[list[str]] = field(default_factory=list)
    slots: int = 0
    asserts: int = 0
    operators: int = 0

    def one(self, *texts: str) -> str:
        """One of these."""
        return self.chance.choice(texts)

    def gap(self) -> str:
        """What may stand between tokens."""
        return self.one(*GAPS) if self.chance.random() < 0.1 else " "

    def joined(self, *parts: str) -> str:
        """Tokens with gaps between them."""
        return "".join(part + self.gap() for part in parts)

    # Expressions

    def names(self) -> list[str]:
        """The variables in scope."""
        return [it for scope in self.scopes for it in scope] + self.globals

    def constant(self) -> str:
        """A constant expression without side effects and of a small value."""
        return self.one("1", "2", "3", "(1 + 2)", "-2", "+4", "(10 - 3)", "0x10", "5L", "-(3)")

    def expression(self, depth: int = 3) -> str:
        """An expression."""
        self.operators += 2
        how = self.chance.random()
        if depth == 0 or how < 0.3 or self.operators > 60:
            return self.leaf()
        a, b = self.expression(depth - 1), self.expression(depth - 1)
        if how < 0.5:
            return self.joined("(", a, self.one("+", "-"), b, ")")
        if how < 0.57:
            is_first = self.chance.random() < 0.5
            return self.joined(*((self.constant(), "*", "(", a, ")") if is_first else ("(", a, ")", "*", self.constant())))
        if how < 0.64:
            return self.joined("(", a, ")", self.one("/", "%"), self.constant())
        if how < 0.78:
            return self.joined("(", a, self.one(*COMPARISONS), b, ")")
        if how < 0.86:
            return self.joined("(", a, self.one("&&", "||"), b, ")")
        if how < 0.92:
            return self.joined(self.one("!", "- ", "+ "), "(", a, ")")
        return self.call(depth) if self.procedures else a

    def leaf(self) -> str:
        """A name, a literal or an input."""
        names, how = self.names(), self.chance.random()
        if names and how < 0.55:
            return self.chance.choice(names)
        return "input()" if how > 0.85 else self.one("0", "1", "2", "-1") if how < 0.75 else self.one(*LITERALS)

    def call(self, depth: int, is_statement: bool = False) -> str:
        """A call of a procedure."""
        fitting = [it for it in self.procedures if is_statement or not it[2]]
        if not fitting:
            return self.leaf() if not is_statement else "input()"
        name, count, _ = self.chance.choice(fitting)
        return self.joined(name, "(", ", ".join(self.expression(depth - 1) for _ in range(count)), ")")

    def whole(self, depth: int = 3) -> str:
        """A full expression."""
        self.operators = 0
        return self.expression(depth)

    # Statements

    def fresh(self) -> str:
        """A name for a variable of the innermost scope; it may hide another one."""
        free = [it for it in ("a", "b", "c", "x", "y", "n", "g", "h", "main", "p0") if it not in self.scopes[-1]]
        return self.chance.choice(free)

    def declaration(self) -> str:
        """A declaration of one or two variables."""
        parts = []
        for _ in range(self.chance.randint(1, 2)):
            if self.slots >= 20 or len(self.scopes[-1]) >= 8:
                break
            value = self.joined("=", self.whole(2)) if self.chance.random() < 0.7 else ""
            name = self.fresh()
            self.scopes[-1].append(name)
            self.slots += 1
            parts.append(f"{name} {value}")
        return self.joined(self.one(*TYPES), ", ".join(parts), ";") if parts else ";"

    def simple(self) -> str:
        """An assignment or a call."""
        names, how = self.names(), self.chance.random()
        if not names or how < 0.12:
            return self.call(2, True) if self.chance.random() < 0.6 else "input()"
        name = self.chance.choice(names)
        if how < 0.3:
            return self.one(f"{name}++", f"++ {name}", f"{name}--", f"--{name}")
        if how < 0.5:
            return self.joined(name, self.one("+=", "-="), self.whole(2))
        if how < 0.6:
            return self.joined(name, self.one("*=", "/=", "%="), self.constant())
        return self.joined(name, "=", self.whole())

    def statement(self, depth: int, loops: int) -> str:
        """A statement other than a declaration."""
        how = self.chance.random()
        if depth == 0 or how < 0.3:
            return self.simple() + ";"
        if how < 0.45:
            tail = self.joined("else", self.statement(depth - 1, loops)) if self.chance.random() < 0.5 else ""
            return self.joined("if", "(", self.whole(2), ")", self.statement(depth - 1, loops), tail)
        if how < 0.6:
            return self.loop(depth, loops)
        if how < 0.7:
            return self.block(depth - 1, loops)
        if how < 0.78 and self.asserts < 30:
            self.asserts += 1
            return self.joined("assert", "(", self.whole(2), ")", ";")
        if how < 0.82:
            return self.joined("assume", "(", self.whole(1), ")", ";")
        if how < 0.88:
            return self.joined("return", self.result, ";") if self.chance.random() < 0.6 else self.joined("return", ";")
        if how < 0.94 and loops:
            return self.one("break;", "continue;")
        return ";"

    @property
    def result(self) -> str:
        """What a procedure may give."""
        return "" if self.is_void else self.whole(2)

    is_void: bool = False

    def loop(self, depth: int, loops: int) -> str:
        """A loop of one of the three kinds, most of which end."""
        names = self.names()
        test = self.joined(self.chance.choice(names), self.one("<", "!=", ">"), self.one("3", "5", "0")) if names else "input()"
        how = self.chance.random()
        if how < 0.35:
            return self.joined("while", "(", test, ")", self.statement(depth - 1, loops + 1))
        if how < 0.6:
            return self.joined("do", self.statement(depth - 1, loops + 1), "while", "(", test, ")", ";")
        self.scopes.append([])
        if self.slots < 20 and self.chance.random() < 0.6:
            self.slots += 1
            self.scopes[-1].append("i")
            head = self.joined("int i =", self.one("0", "1", "input()"), "; i <", self.one("2", "4", "3"), ";", self.one("i++", "i += 2", "++i"))
        else:
            head = self.joined(self.one("", self.simple()), ";", self.one("", test), ";", self.one("", self.simple()))
        text = self.joined("for", "(", head, ")", self.statement(depth - 1, loops + 1))
        self.scopes.pop()
        return text

    def block(self, depth: int, loops: int, names: list[str] | None = None) -> str:
        """A block; that of a procedure has its parameters in its scope."""
        self.scopes.append(list(names or []))
        parts = []
        for _ in range(self.chance.randint(1, 5)):
            is_declaration = self.chance.random() < 0.3 and self.slots < 20
            parts.append(self.declaration() if is_declaration else self.statement(depth, loops))
        self.scopes.pop()
        return self.joined("{", *parts, "}")

    # Files

    def procedure(self, name: str, count: int, is_void: bool) -> str:
        """A procedure."""
        parameters = ["a", "b", "c", "g"][:count]
        self.slots, self.is_void = count, is_void
        head = ", ".join(f"{self.one(*TYPES)} {it}" for it in parameters) or self.one("", "void")
        return self.joined("void" if is_void else self.one(*TYPES), name, "(", head, ")", self.block(3, 0, parameters))

    def program(self) -> str:
        """A whole source."""
        parts = ["#include <assert.h>\n", "int input(void);\nvoid assume(int e);\n"] if self.chance.random() < 0.3 else []
        shapes = [(f"p{at}", self.chance.randint(0, 3), self.chance.random() < 0.3) for at in range(self.chance.randint(0, 3))]
        self.procedures = shapes
        for name in ("g", "h", "main")[: self.chance.randint(0, 3)]:
            self.globals.append(name)
            parts.append(self.joined(self.one(*TYPES), name, self.one("", "= 3", "= -1", "= +0x10"), ";"))
        if shapes and self.chance.random() < 0.5:
            parts.append(f"extern int {shapes[0][0]}(int, long long x);\n")
        order = [*shapes, ("main", 0, False)]
        self.chance.shuffle(order)
        parts += [self.procedure(*it) + "\n" for it in order]
        return "".join(parts)


def program_of(seed: int) -> str:
    """The program of a number."""
    return Maker(random.Random(seed)).program()


def inputs_of(seed: int) -> tuple[int, ...]:
    """A list of inputs for the program of a number."""
    chance = random.Random(-seed - 1)
    pool = (0, 1, 2, 3, 4, 5, -1, -2, 7, 10, 100, 2**63 - 1, -(2**63), 2**62, chance.randint(-50, 50))
    return tuple(chance.choice(pool) for _ in range(chance.choice((0, 1, 3, 10, 40))))
