"""The text of a model to clauses of linear atoms, for each predicate that can be read so."""

from collections.abc import Iterable
from dataclasses import dataclass
from fractions import Fraction
from math import lcm

from outside.invariants import Invariants
from outside.linear import Clause, Term, combination, tightened
from outside.plan import Plan, Predicate
from outside.texts import Expression, Unreadable, expression_text, expressions, words_of

MAX_CLAUSES = 4_000
MAX_STEPS = 400_000
MAX_TEXT = 4_000_000

Clauses = list[Clause]
TRUE: Clauses = []
FALSE: Clauses = [()]

_COMPARISONS = {"<=", "<", ">=", ">"}
_CONNECTIVES = {"and", "or", "not", "=>", "xor", "distinct", "true", "false"} | _COMPARISONS


@dataclass(frozen=True)
class Rational:
    """A sum of columns with rational coefficients."""

    parts: dict[int, Fraction | int]
    constant: Fraction | int


def _sum(summands: Iterable[tuple[Fraction | int, Rational]]) -> Rational:
    parts: dict[int, Fraction | int] = {}
    constant: Fraction | int = 0
    for factor, term in summands:
        for column, coefficient in term.parts.items():
            parts[column] = parts.get(column, 0) + factor * coefficient
        constant += factor * term.constant
    return Rational({x: a for x, a in parts.items() if a}, constant)


def _integral(term: Rational) -> Term:
    """The least multiple of the term without fractions."""
    numbers = [*term.parts.values(), term.constant]
    factor = lcm(*(Fraction(number).denominator for number in numbers))
    parts = sorted((x, int(a * factor)) for x, a in term.parts.items())
    return Term(tuple(parts), int(term.constant * factor))


def _numeral(word: str) -> Fraction | int | None:
    """A numeral's value; none for any other word."""
    whole = word[:-2] if word.endswith(".0") else word
    if whole.isascii() and whole.isdigit():
        if len(whole) > 40:
            raise Unreadable("a numeral of more than 40 digits")
        return int(whole)
    return None


def atom_clauses(atom: Term) -> Clauses:
    """An atom as clauses: itself, or nothing where it has no columns."""
    if not atom.parts:
        return TRUE if atom.constant <= 0 else FALSE
    return [(tightened(atom),)]


def joined_clause(left: Clause, right: Clause) -> Clause | None:
    """A clause of the literals of both; none where it always holds.

    Of atoms with the same parts the weaker one stays.
    """
    bounds = {atom.parts: atom.constant for atom in left}
    for atom in right:
        bounds[atom.parts] = min(atom.constant, bounds.get(atom.parts, atom.constant))
    for parts, constant in bounds.items():
        opposite = bounds.get(tuple((x, -a) for x, a in parts))
        if opposite is not None and constant + opposite <= 1:
            return None
    return tuple(Term(parts, constant) for parts, constant in bounds.items())


def implies(strong: Clause, weak: Clause) -> bool:
    """Whether each literal of a clause stands in another one, at least as weak."""
    bounds = {atom.parts: atom.constant for atom in weak}
    return all(bounds.get(a.parts, a.constant + 1) <= a.constant for a in strong)


def without_weaker(clauses: Clauses) -> Clauses:
    """The clauses without those that another one implies, short ones first."""
    kept: Clauses = []
    for clause in sorted(dict.fromkeys(clauses), key=len):
        if not any(implies(other, clause) for other in kept):
            kept.append(clause)
    return kept


def either(left: Clauses, right: Clauses) -> Clauses:
    """The clauses of a disjunction."""
    if len(left) * len(right) > 20 * MAX_CLAUSES:
        raise Unreadable("too many clauses")
    joined = (joined_clause(a, b) for a in left for b in right)
    clauses = [clause for clause in joined if clause is not None]
    if len(clauses) > 40:
        clauses = without_weaker(clauses) if len(clauses) <= MAX_CLAUSES else clauses
    if len(clauses) > MAX_CLAUSES:
        raise Unreadable("too many clauses")
    return clauses


class Scope:
    """Names: columns of arguments, and what `let` binds, which is read where it is needed."""

    def __init__(self, outer: "Scope | None", bound: dict[str, Expression]) -> None:
        self.outer = outer
        self.bound = bound
        self.terms: dict[str, Rational] = {}
        self.clauses: dict[tuple[str, bool], Clauses] = {}

    def home(self, name: str) -> "Scope":
        """The scope that has the name."""
        scope: Scope | None = self
        while scope is not None:
            if name in scope.bound or name in scope.terms:
                return scope
            scope = scope.outer
        raise Unreadable(f"the name {name[:40]}")


def _binding(expression: Expression) -> tuple[str, Expression]:
    match expression:
        case [str(name), value]:
            return name, value
    raise Unreadable("a let without a name")


class Reader:
    """Reads formulas as clauses, with a bound on the work."""

    def __init__(self) -> None:
        self.steps = 0

    def step(self) -> None:
        """Counts one step of the work."""
        self.steps += 1
        if self.steps > MAX_STEPS:
            raise Unreadable("too large")

    def inner(self, expression: Expression, scope: Scope) -> tuple[Expression, Scope]:
        """What stands inside all the `let`s round an expression."""
        while isinstance(expression, list) and len(expression) == 3 and expression[0] == "let":
            if not isinstance(expression[1], list):
                raise Unreadable("a let without a list")
            scope = Scope(scope, dict(map(_binding, expression[1])))
            expression = expression[2]
        return expression, scope

    def is_formula(self, expression: Expression, scope: Scope) -> bool:
        """Whether an expression is true or false, and no number."""
        expression, scope = self.inner(expression, scope)
        if isinstance(expression, str):
            if expression in ("true", "false"):
                return True
            if _numeral(expression) is not None:
                return False
            home = scope.home(expression)
            if expression in home.terms:
                return False
            return self.is_formula(home.bound[expression], home.outer or home)
        if expression and expression[0] == "ite" and len(expression) == 4:
            return self.is_formula(expression[2], scope)
        return bool(expression) and expression[0] in (*_CONNECTIVES, "=")

    def term(self, expression: Expression, scope: Scope) -> Rational:
        """A linear term."""
        self.step()
        expression, scope = self.inner(expression, scope)
        if isinstance(expression, str):
            return self.named_term(expression, scope)
        if not expression:
            raise Unreadable("an empty term")
        operator, terms = expression[0], expression[1:]
        match operator:
            case "+" | "-" | "*" | "/":
                return self.operation(operator, [self.term(e, scope) for e in terms])
            case "to_real" if len(terms) == 1:
                return self.term(terms[0], scope)
        raise Unreadable(f"the operator {expression_text(operator)[:40]}")

    def named_term(self, name: str, scope: Scope) -> Rational:
        """A numeral, an argument, or what a name is bound to."""
        number = _numeral(name)
        if number is not None:
            return Rational({}, number)
        home = scope.home(name)
        if name not in home.terms:
            if home.outer is None:
                raise Unreadable(f"the name {name[:40]}")
            home.terms[name] = self.term(home.bound[name], home.outer)
        return home.terms[name]

    def operation(self, operator: str, terms: list[Rational]) -> Rational:
        """A sum, a difference, or a product or quotient with numbers."""
        if not terms:
            raise Unreadable("an operator without operands")
        if operator == "+":
            return _sum((1, term) for term in terms)
        if operator == "-":
            first = -1 if len(terms) == 1 else 1
            return _sum([(first, terms[0]), *((-1, term) for term in terms[1:])])
        value = terms[0]
        for term in terms[1:]:
            if operator == "/":
                if term.parts or not term.constant:
                    raise Unreadable("a quotient")
                value = _sum([(Fraction(1) / term.constant, value)])
            elif not term.parts:
                value = _sum([(term.constant, value)])
            elif not value.parts:
                value = _sum([(value.constant, term)])
            else:
                raise Unreadable("a product")
        return value

    def formula(self, expression: Expression, scope: Scope, holds: bool) -> Clauses:
        """The clauses of a formula, or of its negation."""
        self.step()
        expression, scope = self.inner(expression, scope)
        if isinstance(expression, str):
            return self.named_formula(expression, scope, holds)
        if not expression or not isinstance(expression[0], str):
            raise Unreadable("no formula")
        operator, items = expression[0], expression[1:]
        match operator:
            case "and" | "or":
                return self.all_or_any(items, scope, holds, (operator == "and") == holds)
            case "not" if len(items) == 1:
                return self.formula(items[0], scope, not holds)
            case "=>" if len(items) == 2:
                return self.formula(["or", ["not", items[0]], items[1]], scope, holds)
            case "ite" if len(items) == 3:
                return self.choice(items[0], (items[1], holds), (items[2], holds), scope)
            case "=" | "<=" | "<" | ">=" | ">" if len(items) == 2:
                return self.comparison(operator, items, scope, holds)
            case "distinct" if len(items) == 2:
                return self.comparison("=", items, scope, not holds)
        raise Unreadable(f"the operator {operator[:40]}")

    def named_formula(self, name: str, scope: Scope, holds: bool) -> Clauses:
        """A constant, or what a name is bound to."""
        if name in ("true", "false"):
            return TRUE if (name == "true") == holds else FALSE
        home = scope.home(name)
        if home.outer is None:
            raise Unreadable(f"the name {name[:40]} as a formula")
        if (name, holds) not in home.clauses:
            home.clauses[name, holds] = self.formula(home.bound[name], home.outer, holds)
        return home.clauses[name, holds]

    def all_or_any(
        self, items: list[Expression], scope: Scope, holds: bool, all_of_them: bool
    ) -> Clauses:
        """A conjunction or a disjunction of the items, or of their negations."""
        clauses = TRUE if all_of_them else FALSE
        for item in items:
            more = self.formula(item, scope, holds)
            clauses = clauses + more if all_of_them else either(clauses, more)
            self.steps += len(clauses) // 4
            if len(clauses) > MAX_CLAUSES:
                raise Unreadable("too many clauses")
        return clauses

    def choice(
        self,
        test: Expression,
        met: tuple[Expression, bool],
        unmet: tuple[Expression, bool],
        scope: Scope,
    ) -> Clauses:
        """One formula where a test holds, and another one where it doesn't."""
        first = either(self.formula(test, scope, False), self.formula(met[0], scope, met[1]))
        second = either(self.formula(test, scope, True), self.formula(unmet[0], scope, unmet[1]))
        return first + second

    def comparison(
        self, operator: str, items: list[Expression], scope: Scope, holds: bool
    ) -> Clauses:
        """A comparison of two numbers, or an equality of two formulas."""
        left, right = items
        if operator == "=" and self.is_formula(left, scope):
            return self.choice(left, (right, holds), (right, not holds), scope)
        below = _sum([(1, self.term(left, scope)), (-1, self.term(right, scope))])
        above = _sum([(-1, below)])
        at_most, at_least = _integral(below), _integral(above)
        less, greater = (combination([(1, t)], 1) for t in (at_most, at_least))
        if operator == "=":
            if holds:
                return atom_clauses(at_most) + atom_clauses(at_least)
            return either(atom_clauses(less), atom_clauses(greater))
        if not holds:
            operator = {"<=": ">", "<": ">=", ">=": "<", ">": "<="}[operator]
        return atom_clauses({"<=": at_most, "<": less, ">=": at_least, ">": greater}[operator])


def definitions(text: str) -> dict[str, list[Expression]]:
    """The definitions of a model by their names: `(define-fun NAME (ARGUMENTS) SORT BODY)`."""
    if len(text) > MAX_TEXT:
        raise Unreadable("a model of more than 4 MB")
    found: dict[str, list[Expression]] = {}
    for outer in expressions(text):
        for item in outer if isinstance(outer, list) else []:
            match item:
                case ["define-fun", str(name), list(), str(), _]:
                    found[name] = item
    return found


def clauses_of(predicate: Predicate, definition: list[Expression]) -> Clauses:
    """What a definition says of a predicate's columns."""
    arguments = definition[2]
    if not isinstance(arguments, list) or len(arguments) != len(predicate.columns):
        raise Unreadable(f"{predicate.name} with another number of arguments")
    scope = Scope(None, {})
    for argument, column in zip(arguments, predicate.columns):
        name, _ = _binding(argument)
        scope.terms[name] = Rational({column: 1}, 0)
    return without_weaker(Reader().formula(definition[4], scope, True))


def readable(plan: Plan, text: str) -> tuple[dict[str, Clauses], dict[str, str], list[str]]:
    """The predicates that a model defines readably: their clauses, their texts; and the others."""
    known = definitions(text)
    clauses: dict[str, Clauses] = {}
    texts: dict[str, str] = {}
    others: list[str] = []
    for predicate in plan.predicates():
        definition = known.get(predicate.name)
        try:
            if definition is None:
                raise Unreadable("not defined")
            if words_of(definition[4]) & (known.keys() | {"exists", "forall"}):
                raise Unreadable("quantifiers, or other definitions")
            clauses[predicate.name] = clauses_of(predicate, definition)
            texts[predicate.name] = expression_text(definition)
        except Unreadable:
            others.append(predicate.name)
    return clauses, texts, others


def invariants_of(plan: Plan, clauses: dict[str, Clauses]) -> Invariants:
    """The clauses of predicates as invariants."""
    invariants = Invariants()
    for predicate in plan.predicates():
        if predicate.name not in clauses:
            continue
        found = clauses[predicate.name]
        match predicate.kind:
            case "node":
                invariants.node[predicate.procedure, predicate.node] = found
            case "summary":
                invariants.summary[predicate.procedure] = found
            case _:
                invariants.failure[predicate.procedure] = found
    return invariants
