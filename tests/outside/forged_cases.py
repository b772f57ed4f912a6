"""Nothing that fails is accepted: not with forged invariants, and not with changed bundles.

Models that z3 finds for assertions that hold are changed at random (from a fixed seed), read again,
and used for assertions of the same program that fail, and for those that hold. What is written of
them may be rejected; it is never accepted where the assertion fails.
"""

import random
import re
from collections.abc import Callable, Iterator
from pathlib import Path

from settings import Case, Label, Setting, labels, refused_claim

from outside.bundle import print_bundle
from outside.claims import prove
from outside.clock import now
from outside.horn import horn_text
from outside.invariants import GaveUp
from outside.linear import TooWide
from outside.model import invariants_of, readable
from outside.plan import Plan, Style, make_plan
from outside.spacer import WITHOUT_EQUALITIES, question
from outside.texts import Unreadable

SHARE = 12
TEXTS = 1_000
PROVE_SECONDS = 0.15
WORDS = ("and", "or", "not", "<=", ">=", "<", ">", "=", "+", "-", "*", "true", "false", "let", "ite")


# What is changed in a model, and what comes in its place.
CHANGES: list[tuple[str, Callable[[random.Random, str], str]]] = [
    (r"\b\d+\b", lambda chance, old: str(int(old) + chance.choice((-1, 1, 7)))),
    (r"(?<=\()(?:and|or|not|<=|>=|[-+*=])", lambda chance, _: chance.choice(WORDS)),
    (r"\bx!\d+\b", lambda chance, _: f"x!{chance.randrange(6)}"),
    (r"[()]", lambda chance, _: chance.choice(("", "(", ")"))),
    (r"(?<=Bool\n)[^()]*\([^()]*\)", lambda chance, _: chance.choice(("true", "false"))),
]


def changed_model(text: str, chance: random.Random) -> str:
    """A model with one to four changes of numbers, words, brackets or definitions."""
    for _ in range(chance.randint(1, 4)):
        pattern, new = chance.choice(CHANGES)
        places = list(re.finditer(pattern, text))
        if places:
            place = chance.choice(places)
            text = text[: place.start()] + new(chance, place[0]) + text[place.end() :]
    return text


def forged_bundle(setting: Setting, plan: Plan, text: str, target: Label) -> bytes | None:
    """The bundle that a model gives for an assertion, if it gives one."""
    try:
        clauses, _, _ = readable(plan, text)
        invariants = invariants_of(plan, clauses)
        deadline = now() + PROVE_SECONDS
        bundle = prove(plan.graphs, target.number - 1, invariants, deadline)
    except (Unreadable, GaveUp, TooWide):
        return None
    return print_bundle(bundle, target.path.read_bytes())


def forged(setting: Setting, holds: Label, fails: Label, share: int) -> list[str]:
    """Changed models of an assertion that holds, used for one that fails."""
    graphs = setting.read_graphs(holds.path)
    plan = make_plan(graphs, holds.number - 1, Style(False, 1))
    try:
        model = question(horn_text(plan), WITHOUT_EQUALITIES, now() + 10)
    except GaveUp:
        model = "\n".join(f"(define-fun {p.name} () Bool\nfalse)" for p in plan.predicates())
    chance = random.Random(f"{holds.path.name} {holds.number}")
    faults: list[str] = []
    for text in [model, *(changed_model(model, chance) for _ in range(share))]:
        bundle = forged_bundle(setting, plan, text, fails)
        if bundle is not None:
            faults += refused_claim(setting, bundle, f"{fails.path.name} {fails.place}")
        forged_bundle(setting, plan, text, holds)
    return faults


def renamed(setting: Setting, holds: Label, fails: Label) -> list[str]:
    """An accepted bundle that is changed to name an assertion that fails."""
    found = setting.bridge(holds.path, holds.number, 20.0)
    if found.returncode != 0:
        return []
    old, new = (f"\nassert {x.number}\n".encode() for x in (holds, fails))
    other = found.stdout.replace(old, new)
    ends = re.sub(rb"( fail) %d\n" % (holds.number - 1), rb"\1 %d\n" % (fails.number - 1), other)
    faults = [] if setting.recheck(found.stdout) == f"accepted {holds.place}\n" else ["not accepted"]
    for bundle in (other, ends):
        faults += refused_claim(setting, bundle, f"{fails.path.name} {fails.place}")
    return faults


def unaided(setting: Setting, fails: Label) -> list[str]:
    """The bridge alone writes no bundle for an assertion that fails."""
    found = setting.bridge(fails.path, fails.number, 2.0)
    if found.returncode == 0:
        return ["a bundle for an assertion that fails", *refused_claim(setting, found.stdout, fails.place)]
    return [] if found.returncode in (1, 2) else [found.stderr.decode("utf-8", "replace")]


def pairs(folder: Path) -> list[tuple[Label, Label]]:
    """Of each program that has both an assertion that holds and one that fails."""
    found: dict[Path, dict[str, Label]] = {}
    for known in labels(folder):
        found.setdefault(known.path, {}).setdefault(known.truth, known)
    return [(x["proved"], x["found"]) for x in found.values() if len(x) == 2]


def cases(setting: Setting) -> Iterator[Case]:
    """A share of them, the same each time, or all."""
    both = pairs(setting.labelled)
    failing = [x for x in labels(setting.labelled) if x.truth == "found"]
    chosen = both if setting.all else both[:: len(both) // SHARE + 1]
    share = TEXTS // len(both) + 1 if setting.all else 4
    alone = failing if setting.all else failing[:: len(failing) // SHARE + 1]
    for holds, fails in chosen:
        name = f"{holds.path.parent.name}/{holds.path.name}"
        yield Case(f"forged {name}", forged, (holds, fails, share))
        yield Case(f"renamed {name}", renamed, (holds, fails))
    for fails in alone:
        yield Case(f"fails {fails.path.parent.name}/{fails.path.name} {fails.number}", unaided, (fails,))
