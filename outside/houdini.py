"""A second way to invariants: candidates from random runs, of which those stay that keep each other.

Z3 answers plain questions here. Rule by rule it looks for a state that all candidates before the
rule allow and some candidate after it doesn't, and what such states violate goes, until there are
none. Of what is left the clauses are taken that the assertion needs, and those that these need.
"""

from collections.abc import Iterable, Sequence
from dataclasses import dataclass

from outside.candidates import Candidates
from outside.clock import now
from outside.horn import (
    application_text,
    body_texts,
    clauses_text,
    column_name,
    definition,
    joined_text,
    term_text,
)
from outside.invariants import GaveUp
from outside.linear import Clause, substituted, value_of
from outside.plan import Plan, Predicate
from outside.processes import TimeOver
from outside.rules import Application, Rule, rules_of
from outside.solving import SolverFault, printed_by_solver
from outside.texts import Expression, Unreadable, expressions
from outside.walks import Walks, constants_of

WALK_STEPS = 60_000
GROUPS = 4
MAX_ROUNDS = 200
QUESTION = "(set-option :timeout 20000)"

Kept = dict[str, list[Clause]]


@dataclass(frozen=True)
class Counterexample:
    """The values of a head's arguments where a step leads out of the candidates."""

    name: str
    values: tuple[int, ...]


@dataclass(frozen=True)
class Step:
    """Rules with the same applications before them and the same predicate after them."""

    body: tuple[Application, ...]
    head: Predicate | None
    rules: tuple[Rule, ...]

    def heads(self) -> list[str]:
        """The names of the values after the step."""
        return [f"h{i}" for i in range(len(self.head.columns))] if self.head else []

    def declared(self) -> list[str]:
        """The declarations of its columns, and of the values after it."""
        columns = {x for rule in self.rules for x in rule.columns()}
        names = [*map(column_name, sorted(columns)), *self.heads()]
        return [f"(declare-const {name} Int)" for name in names]

    def text(self, ranges: bool) -> str:
        """That one of the rules is taken."""
        ways = []
        for rule in self.rules:
            parts = body_texts(Rule((), rule.guards, rule.head), ranges)
            values = rule.head[1] if rule.head else ()
            parts += [f"(= {name} {term_text(v)})" for name, v in zip(self.heads(), values)]
            ways.append(joined_text("and", "true", parts))
        return joined_text("or", "false", ways)


def steps_of(rules: Iterable[Rule], predicates: dict[str, Predicate]) -> list[Step]:
    """Rules by their applications and heads."""
    groups: dict[tuple, list[Rule]] = {}
    for rule in rules:
        groups.setdefault((rule.body, rule.head and rule.head[0]), []).append(rule)
    return [
        Step(body, predicates[head] if head else None, tuple(group))
        for (body, head), group in groups.items()
    ]


def number_of(expression: Expression) -> int:
    """An integer that z3 prints."""
    match expression:
        case str(text) if text.isascii() and text.isdigit() and len(text) < 40:
            return int(text)
        case ["-", str(text)]:
            return -number_of(text)
    raise Unreadable("no number")


class Houdini:
    """The rules, and the candidates that are left."""

    def __init__(self, plan: Plan, deadline: float) -> None:
        self.plan = plan
        self.deadline = deadline
        self.rules = rules_of(plan)
        self.predicates = {predicate.name: predicate for predicate in plan.predicates()}
        self.steps = steps_of(self.rules, self.predicates)
        self.kept: Kept = {}

    def ask(self, lines: Sequence[str]) -> list[Expression]:
        """What z3 prints for questions."""
        left = self.deadline - now()
        if left <= 0:
            raise GaveUp("no time for candidates")
        try:
            text = printed_by_solver("\n".join([QUESTION, *lines, ""]), (), left)
            return expressions(text)
        except TimeOver:
            raise GaveUp("candidates took too long") from None
        except SolverFault as fault:
            raise GaveUp(str(fault)) from None
        except Unreadable as why:
            raise GaveUp(f"z3's answer can't be read: {why}") from None

    def begin(self, wide: bool) -> None:
        """Makes the candidates, few or many."""
        walks = Walks(self.plan)
        samples = walks.collect(WALK_STEPS, (now() + self.deadline) / 2)
        constants = constants_of(self.plan.graphs)
        main = self.plan.failures.get(self.plan.graphs.main)
        if main and samples[main.name]:
            raise GaveUp("a random run fails at the assertion")
        for name, predicate in self.predicates.items():
            found = Candidates(predicate, samples[name], self.rules, constants)
            self.kept[name] = found.clauses(wide)

    def filter(self) -> None:
        """Drops candidates until the rest keep each other."""
        for _ in range(MAX_ROUNDS):
            found = self.counterexamples()
            if not found:
                return
            for example in found:
                self.drop(example)
        raise GaveUp("too many rounds of candidates")

    def drop(self, example: Counterexample) -> None:
        """Drops the candidates that a state violates."""
        columns = self.predicates[example.name].columns
        point = dict(zip(columns, example.values))
        cache: dict[tuple, int] = {}

        def is_met(clause: Clause) -> bool:
            """Whether a literal of the clause holds."""
            for atom in clause:
                if atom.parts not in cache:
                    cache[atom.parts] = value_of(atom, point) - atom.constant
                if cache[atom.parts] + atom.constant <= 0:
                    return True
            return False

        self.kept[example.name] = [c for c in self.kept[example.name] if is_met(c)]

    def counterexamples(self) -> list[Counterexample]:
        """States to which steps lead, and that some candidate doesn't allow."""
        lines = [definition(p, self.kept[name]) for name, p in self.predicates.items()]
        asked: list[str] = []
        for step in self.steps:
            if step.head is None or not self.kept[step.head.name]:
                continue
            lines += ["(push)", *step.declared()]
            lines += [f"(assert {application_text(application)})" for application in step.body]
            lines.append(f"(assert {step.text(self.plan.style.ranges)})")
            for group in self.groups(step.head.name):
                lines += self.question(step.head, step.heads(), group)
                asked.append(step.head.name)
            lines.append("(pop)")
        return list(self.read(self.ask(lines), asked))

    def groups(self, name: str) -> list[list[Clause]]:
        """The candidates of a predicate in a few groups."""
        kept = self.kept[name]
        size = max(10, -(-len(kept) // GROUPS))
        return [kept[i : i + size] for i in range(0, len(kept), size)]

    def question(self, head: Predicate, names: list[str], group: list[Clause]) -> list[str]:
        """Whether a step leads to where one of these clauses doesn't hold."""
        renamed = Predicate("head", head.kind, 0, 0, head.columns)
        applied = f"(head {' '.join(names)})" if names else "head"
        return [
            "(push)",
            definition(renamed, group),
            f"(assert (not {applied}))",
            "(check-sat)",
            f"(get-value ({' '.join(names)}))" if names else '(echo "none")',
            "(pop)",
        ]

    def read(self, answers: list[Expression], asked: list[str]) -> Iterable[Counterexample]:
        """The states in z3's answers."""
        if len(answers) != 2 * len(asked):
            raise GaveUp("z3's answer about candidates can't be read")
        for name, verdict, values in zip(asked, answers[::2], answers[1::2]):
            if verdict == "sat":
                yield Counterexample(name, self.values(values))
            elif verdict != "unsat":
                raise GaveUp("z3 doesn't know about a candidate")

    def values(self, answer: Expression) -> tuple[int, ...]:
        """The values that z3 gives to terms."""
        if answer == "none":
            return ()
        try:
            return tuple(number_of(pair[1]) for pair in answer)
        except (Unreadable, IndexError, TypeError):
            raise GaveUp("z3's values can't be read") from None

    def cores(self) -> Kept:
        """Of what is left the clauses that the assertion needs, and those that these need."""
        needed: Kept = {name: [] for name in self.predicates}
        found = self.needs([(step, []) for step in self.steps if step.head is None])
        while found:
            new: Kept = {}
            for name, clause in found:
                if clause not in needed[name]:
                    needed[name].append(clause)
                    new.setdefault(name, []).append(clause)
            waiting = [(s, new[s.head.name]) for s in self.steps if s.head and s.head.name in new]
            found = self.needs(waiting)
        return needed

    def needs(self, waiting: Sequence[tuple[Step, list[Clause]]]) -> list[tuple[str, Clause]]:
        """The candidates before steps with which these clauses hold after them."""
        if not waiting:
            return []
        lines = ["(set-option :produce-unsat-cores true)", "(set-option :smt.core.minimize true)"]
        labels: list[list[tuple[str, Clause]]] = []
        for step, clauses in waiting:
            texts, named = self.core_question(step, clauses)
            lines += texts
            labels.append(named)
        answers = self.ask(lines)
        found: list[tuple[str, Clause]] = []
        for named, verdict, words in zip(labels, answers[::2], answers[1::2]):
            if verdict != "unsat" or not isinstance(words, list):
                raise GaveUp("the candidates that are left don't prove the assertion")
            found += [named[int(str(word)[1:])] for word in words]
        return list(dict.fromkeys(found))

    def core_question(
        self, step: Step, clauses: list[Clause]
    ) -> tuple[list[str], list[tuple[str, Clause]]]:
        """A step with its candidates by name, and the opposite of clauses after it."""
        named: list[tuple[str, Clause]] = []
        lines = ["(push)", *step.declared()]
        for name, arguments in step.body:
            values = dict(zip(self.predicates[name].columns, arguments))
            for candidate in self.kept[name]:
                atoms = tuple(substituted(atom, values.get) for atom in candidate)
                lines.append(f"(assert (! {clauses_text([atoms])} :named c{len(named)}))")
                named.append((name, candidate))
        lines.append(f"(assert {step.text(self.plan.style.ranges)})")
        if step.head:
            names = " ".join(step.heads())
            renamed = Predicate("head", step.head.kind, 0, 0, step.head.columns)
            lines.append(definition(renamed, clauses))
            lines.append(f"(assert (not {f'(head {names})' if names else 'head'}))")
        return [*lines, "(check-sat)", "(get-unsat-core)", "(pop)"], named


def kept_candidates(plan: Plan, wide: bool, deadline: float) -> Kept:
    """Clauses of a plan's predicates with which no run fails at the assertion, or a `GaveUp`."""
    houdini = Houdini(plan, deadline)
    houdini.begin(wide)
    houdini.filter()
    return houdini.cores()
