"""Invariants from z3's Spacer: the clauses are asked twice, so that the models can be read.

With its inlining Spacer is faster, but what it says of an inlined predicate has quantifiers. So the
predicates that can be read are defined, and a second question without inlining gives the others.
"""

from collections.abc import Sequence

from outside.clock import now
from outside.horn import definition, horn_text
from outside.invariants import GaveUp, Invariants
from outside.model import Clauses, invariants_of, readable
from outside.plan import Plan, straight_procedures
from outside.processes import TimeOver
from outside.solving import SolverFault, ask
from outside.texts import Unreadable

ENGINE = "fp.engine=spacer"
WITHOUT_INLINING = ("fp.xform.inline_linear=false", "fp.xform.inline_eager=false")
WITHOUT_EQUALITIES = ("fp.spacer.eq_prop=false",)


class Reached(GaveUp):
    """The engine says that a run fails at the assertion."""


class Stalled(GaveUp):
    """The engine has no answer within its seconds; with more it may have one."""


def with_definitions(text: str, definitions: dict[str, str]) -> str:
    """The clauses with definitions in the places of declarations."""
    lines = []
    for line in text.split("\n"):
        name = line.removeprefix("(declare-fun ").partition(" ")[0]
        declared = line.startswith("(declare-fun ") and name in definitions
        lines.append(definitions[name] if declared else line)
    return "\n".join(lines)


def question(text: str, options: Sequence[str], deadline: float) -> str:
    """The model of clauses, if z3 finds one."""
    left = deadline - now()
    if left <= 0:
        raise Stalled("out of time")
    try:
        verdict, model = ask(text, (ENGINE, *options), left)
    except TimeOver:
        raise Stalled("z3 found no answer in time") from None
    except SolverFault as fault:
        raise GaveUp(str(fault)) from None
    if verdict == "unsat":
        raise Reached("z3 says that the assertion can fail")
    return model


def needed(plan: Plan, others: Sequence[str]) -> bool:
    """Whether predicates without clauses are those of a callee that isn't walked along its paths."""
    walked = straight_procedures(plan.graphs) | {plan.graphs.main}
    callees = (*plan.returns.values(), *plan.failures.values())
    return any(p.name in others for p in callees if p.procedure not in walked)


def _second(text: str, texts: dict[str, str], deadline: float) -> str:
    """The model of the predicates that the first one left open."""
    defined = with_definitions(text, texts)
    try:
        half = now() + (deadline - now()) / 2
        return question(defined, WITHOUT_INLINING, half)
    except GaveUp:
        return question(defined, (*WITHOUT_INLINING, *WITHOUT_EQUALITIES), deadline)


def _read(plan: Plan, model: str) -> tuple[dict[str, Clauses], dict[str, str], list[str]]:
    try:
        return readable(plan, model)
    except Unreadable as why:
        raise GaveUp(f"z3's model can't be read: {why}") from None


def filled_invariants(plan: Plan, known: dict[str, Clauses], deadline: float) -> Invariants:
    """Invariants of all predicates of a plan, where those of some are known."""
    defined = {p.name: p for p in plan.predicates() if p.name in known and p.kind != "failure"}
    texts = {name: definition(p, known[name]) for name, p in defined.items()}
    more, _, others = _read(plan, _second(horn_text(plan), texts, deadline))
    if needed(plan, others):
        raise GaveUp("a callee's clauses can't be read")
    return invariants_of(plan, more | {name: known[name] for name in defined})


def spacer_invariants(plan: Plan, options: Sequence[str], deadline: float) -> Invariants:
    """Invariants of a plan's predicates, or a `GaveUp`."""
    text = horn_text(plan)
    clauses, texts, others = _read(plan, question(text, options, deadline))
    if others:
        try:
            more, _, _ = _read(plan, _second(text, texts, deadline))
            clauses = more | clauses
        except GaveUp as why:
            if needed(plan, others):
                raise GaveUp(f"no clauses of {', '.join(others)[:60]}: {why}") from None
    return invariants_of(plan, clauses)
