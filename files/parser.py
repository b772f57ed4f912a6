"""The syntax tree of a text that the proved program accepts.

Names, types and limits aren't checked: only texts that were accepted are read here, and a text that doesn't fit raises
`Fault`.
"""
import sys

from files.lexer import Fault, Token, literal_value, tokens
from files.tree import (
    Binary, Block, Call, CallStatement, Declarator, Declare, DoWhile, Expression, File, Global, If, Jump, Literal, Loop,
    Name, Parameter, Parenthesis, Procedure, Return, Set, Span, Statement, Unary,
)

TIGHTNESS = {"||": 1, "&&": 2, "==": 3, "!=": 3, "<": 4, "<=": 4, ">": 4, ">=": 4, "+": 5, "-": 5, "*": 6, "/": 6, "%": 6}
CHANGES = ("+=", "-=", "*=", "/=", "%=")
# Enough for 256 operators inside one another, in calls that nest as deep as Python's own frames allow.
FRAMES = 2_000_000


def parse(text: str) -> File:
    """The tree of a text, or `Fault`."""
    sys.setrecursionlimit(max(sys.getrecursionlimit(), FRAMES))
    return Parser(text).file()


class Parser:
    """Recursive descent over the tokens of one text."""

    def __init__(self, text: str) -> None:
        self.tokens = list(tokens(text))
        self.at = 0
        self.result = File()

    # Tokens

    @property
    def next(self) -> Token:
        """The token at hand."""
        return self.tokens[self.at]

    def peek(self, distance: int) -> Token:
        """A token further on, or the end."""
        return self.tokens[min(self.at + distance, len(self.tokens) - 1)]

    def take(self, *texts: str) -> Token | None:
        """The token at hand, if it is one of these marks or words, and goes on behind it."""
        it = self.next
        if it.kind not in ("mark", "word") or it.text not in texts:
            return None
        self.at += 1
        return it

    def expect(self, *texts: str) -> Token:
        """As `take`, or a fault."""
        it = self.take(*texts)
        if it is None:
            raise Fault(f"unexpected token at byte {self.next.offset}")
        return it

    def name(self) -> Token:
        """A name."""
        it = self.next
        if it.kind != "name":
            raise Fault(f"no name at byte {it.offset}")
        self.at += 1
        return it

    def end(self) -> int:
        """The offset behind the last token taken."""
        return self.tokens[self.at - 1].end

    # Files

    def file(self) -> File:
        """The whole text."""
        while self.next.kind != "end":
            self.item()
        return self.result

    def item(self) -> None:
        """A prototype, a procedure or a declaration of globals."""
        start = self.next.offset
        is_extern = self.take("extern") is not None
        is_void = self.take("void") is not None
        if not is_void:
            self.type()
        if self.peek(1).text != "(" and not is_void and not is_extern:
            self.globals(start)
            return
        head_end = self.next.end
        name = self.name()
        if is_extern or self.is_prototype():
            while not self.take(";"):
                self.at += 1
            self.result.prototypes.append((start, self.end()))
            return
        self.procedure(start, head_end, name, is_void)

    def is_prototype(self) -> bool:
        """Whether the parameters at hand are those of a prototype: nothing in them nests."""
        at = self.at
        while self.tokens[at].text not in (")", ""):
            at += 1
        return self.tokens[min(at + 1, len(self.tokens) - 1)].text == ";"

    def type(self) -> None:
        """A type of numbers."""
        start = self.next.offset
        if not self.take("int"):
            self.expect("long")
            self.take("long")
            self.take("int")
        self.result.types.append((start, self.end()))

    def globals(self, start: int) -> None:
        """The names of a declaration outside every procedure."""
        while True:
            name, value = self.name(), 0
            if self.take("="):
                sign = self.take("-", "+")
                value = self.literal().value * (-1 if sign and sign.text == "-" else 1)
            self.result.globals.append(Global((name.offset, self.end()), name.text, value, len(self.result.procedures)))
            if self.expect(",", ";").text == ";":
                return

    def procedure(self, start: int, head_end: int, name: Token, is_void: bool) -> None:
        """A procedure behind its name."""
        parameters: list[Parameter] = []
        self.expect("(")
        if not (self.next.text == ")" or (self.next.text == "void" and self.take("void"))):
            while True:
                first = self.next.offset
                self.type()
                parameters.append(Parameter((first, self.next.end), self.name().text))
                if not self.take(","):
                    break
        self.expect(")")
        body = self.block()
        self.result.procedures.append(
            Procedure((start, self.end()), (start, head_end), name.text, name.offset, is_void, parameters, body))

    # Statements

    def block(self) -> Block:
        """Declarations and statements in braces."""
        start = self.expect("{").offset
        statements: list[Statement] = []
        while not self.take("}"):
            statements.append(self.declaration() if self.next.text in ("int", "long") else self.statement())
        return Block((start, self.end()), statements)

    def declaration(self) -> Declare:
        """A declaration with its semicolon."""
        start = self.next.offset
        self.type()
        declarators: list[Declarator] = []
        while True:
            name = self.name()
            value = self.expression() if self.take("=") else None
            declarators.append(Declarator((name.offset, self.end()), name.text, value))
            if self.expect(",", ";").text == ";":
                return Declare((start, self.end()), declarators)

    def statement(self) -> Statement:
        """A statement other than a declaration."""
        it = self.next
        if it.text == "{":
            return self.block()
        if self.take(";"):
            return Block((it.offset, it.end), [])
        if it.kind == "word":
            return self.worded(it)
        simple = self.simple()
        self.expect(";")
        return simple

    def worded(self, word: Token) -> Statement:
        """A statement that begins with a word."""
        self.expect("if", "while", "do", "for", "break", "continue", "return")
        if word.text == "if":
            return self.choice(word.offset)
        if word.text == "for":
            return self.for_loop(word.offset)
        if word.text == "while":
            condition = self.condition()
            body = self.statement()
            return Loop((word.offset, self.end()), None, condition, None, body, False)
        if word.text == "do":
            body = self.statement()
            self.expect("while")
            condition = self.condition()
            self.expect(";")
            return DoWhile((word.offset, self.end()), body, condition)
        if word.text == "return":
            value = None if self.next.text == ";" else self.expression()
            self.expect(";")
            return Return((word.offset, self.end()), value)
        self.expect(";")
        return Jump((word.offset, self.end()), word.text)

    def choice(self, start: int) -> If:
        """An `if` behind its word."""
        condition = self.condition()
        then = self.statement()
        otherwise = self.statement() if self.take("else") else None
        return If((start, self.end()), condition, then, otherwise)

    def for_loop(self, start: int) -> Loop:
        """A `for` behind its word."""
        self.expect("(")
        begin: Declare | Set | CallStatement | None = None
        if self.next.text in ("int", "long"):
            begin = self.declaration()
        elif not self.take(";"):
            begin = self.simple()
            self.expect(";")
        condition = None if self.next.text == ";" else self.expression()
        self.expect(";")
        step = None if self.next.text == ")" else self.simple()
        self.expect(")")
        body = self.statement()
        return Loop((start, self.end()), begin, condition, step, body, True)

    def simple(self) -> Set | CallStatement:
        """An assignment, a step by one, or a call."""
        start = self.next.offset
        before = self.take("++", "--")
        name = self.name()
        if before is None and self.next.text == "(":
            call = self.call(name)
            return CallStatement(call.span, call)
        mark = before or self.expect("=", "++", "--", *CHANGES)
        if mark.text in ("++", "--"):
            return Set((start, self.end()), name.text, name.offset, mark.text[0], None)
        value = self.expression()
        return Set((start, self.end()), name.text, name.offset, mark.text[:-1], value)

    # Expressions

    def condition(self) -> Expression:
        """A condition in parentheses."""
        self.expect("(")
        it = self.expression()
        self.expect(")")
        return it

    def expression(self, least: int = 1) -> Expression:
        """An expression of operators that bind at least so tightly; they group to the left."""
        left = self.unary()
        while self.next.kind == "mark" and TIGHTNESS.get(self.next.text, 0) >= least:
            mark = self.expect(self.next.text)
            right = self.expression(TIGHTNESS[mark.text] + 1)
            left = Binary((left.span[0], right.span[1]), mark.text, left, right)
        return left

    def unary(self) -> Expression:
        """Signs and `!` before a literal, a name, a call or parentheses."""
        it = self.next
        if self.take("!", "-", "+"):
            operand = self.unary()
            return Unary((it.offset, operand.span[1]), it.text, operand)
        if self.take("("):
            inner = self.expression()
            self.expect(")")
            return Parenthesis((it.offset, self.end()), inner)
        if it.kind == "literal":
            return self.literal()
        name = self.name()
        return self.call(name) if self.next.text == "(" else Name((name.offset, name.end), name.text)

    def literal(self) -> Literal:
        """A literal."""
        it = self.next
        if it.kind != "literal":
            raise Fault(f"no literal at byte {it.offset}")
        self.at += 1
        span: Span = (it.offset, it.end)
        self.result.literals.append(span)
        return Literal(span, literal_value(it.text))

    def call(self, name: Token) -> Call:
        """A call behind its name."""
        self.expect("(")
        arguments: list[Expression] = []
        if not self.take(")"):
            arguments.append(self.expression())
            while self.expect(",", ")").text == ",":
                arguments.append(self.expression())
        return Call((name.offset, self.end()), name.text, arguments)
