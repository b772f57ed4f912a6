"""The text of Horn clauses, in SMT-LIB."""

from collections.abc import Iterable, Sequence

from outside.linear import (
    FIRST_ENTRY,
    FIRST_EXIT,
    FIRST_SYMBOL,
    MAX_VALUE,
    MIN_VALUE,
    Atom,
    Clause,
    Term,
)
from outside.plan import Plan, Predicate
from outside.rules import Application, Rule, rules_of


def column_name(column: int) -> str:
    """The variable that stands for a column."""
    if column < FIRST_ENTRY:
        return f"s{column}"
    if column < FIRST_EXIT:
        return f"e{column - FIRST_ENTRY}"
    if column < FIRST_SYMBOL:
        return f"x{column - FIRST_EXIT}"
    return f"i{column - FIRST_SYMBOL}"


def number_text(number: int) -> str:
    """An integer."""
    return str(number) if number >= 0 else f"(- {-number})"


def term_text(term: Term) -> str:
    """A sum."""
    summands = [
        column_name(x) if a == 1 else f"(* {number_text(a)} {column_name(x)})"
        for x, a in term.parts
    ]
    if term.constant or not summands:
        summands.append(number_text(term.constant))
    return summands[0] if len(summands) == 1 else f"(+ {' '.join(summands)})"


def atom_text(atom: Atom) -> str:
    """An atom, with what is positive on the left and the rest on the right."""
    left = tuple((x, a) for x, a in atom.parts if a > 0)
    right = tuple((x, -a) for x, a in atom.parts if a < 0)
    above = Term(left, max(atom.constant, 0))
    below = Term(right, max(-atom.constant, 0))
    return f"(<= {term_text(above)} {term_text(below)})"


def joined_text(word: str, empty: str, parts: Sequence[str]) -> str:
    """Formulas joined by `and` or `or`."""
    if len(parts) < 2:
        return parts[0] if parts else empty
    return f"({word} {' '.join(parts)})"


def clauses_text(clauses: Iterable[Clause]) -> str:
    """A conjunction of clauses."""
    parts = [joined_text("or", "false", [*map(atom_text, clause)]) for clause in clauses]
    return joined_text("and", "true", parts)


def application_text(application: Application) -> str:
    """A predicate of its arguments."""
    name, arguments = application
    if not arguments:
        return name
    return f"({name} {' '.join(map(term_text, arguments))})"


def declaration(predicate: Predicate) -> str:
    """A predicate that is to be found."""
    return f"(declare-fun {predicate.name} ({' '.join(['Int'] * len(predicate.columns))}) Bool)"


def definition(predicate: Predicate, clauses: Iterable[Clause]) -> str:
    """A predicate that is these clauses."""
    names = " ".join(f"({column_name(x)} Int)" for x in predicate.columns)
    return f"(define-fun {predicate.name} ({names}) Bool {clauses_text(clauses)})"


def body_texts(rule: Rule, ranges: bool) -> list[str]:
    """What a rule asks for, part by part."""
    parts = [*map(application_text, rule.body), *map(atom_text, rule.guards)]
    if ranges:
        least, most = number_text(MIN_VALUE), number_text(MAX_VALUE)
        parts += [f"(<= {least} {column_name(x)} {most})" for x in rule.columns()]
    return parts


def rule_text(rule: Rule, ranges: bool) -> str:
    """A rule as an assertion for all values."""
    head = application_text(rule.head) if rule.head else "false"
    whole = f"(=> {joined_text('and', 'true', body_texts(rule, ranges))} {head})"
    names = " ".join(f"({column_name(x)} Int)" for x in rule.columns())
    return f"(assert (forall ({names}) {whole}))" if names else f"(assert {whole})"


def horn_text(plan: Plan) -> str:
    """The clauses of a plan, and the question for a model."""
    lines = ["(set-logic HORN)", *map(declaration, plan.predicates())]
    lines += [rule_text(rule, plan.style.ranges) for rule in rules_of(plan)]
    return "\n".join([*lines, "(check-sat)", "(get-model)", ""])
