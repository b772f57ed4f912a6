"""Proofs that are kept in a folder: one file for each proved assertion, named by the source and the assertion's number."""
import os
import urllib.parse

from files.engine import Engine, is_proof
from files.program import Late, Program
from files.reports import Malformed, bundle_of
from files.results import OPEN, PROVED, Assertion, Checked
from files.settling import SECOND
from files.writing import written

SUFFIX = ".bundle"


def file_of(folder: str, name: str, number: int) -> str:
    """Where the proof of an assertion is kept."""
    return os.path.join(folder, f"{urllib.parse.quote(os.fsencode(name), safe='')}.{number}{SUFFIX}")


def sources_in(folder: str) -> list[str]:
    """The names of the sources of which a folder keeps proofs."""
    names = set()
    for entry in os.listdir(folder):
        name, _, number = entry.removesuffix(SUFFIX).rpartition(".")
        if entry.endswith(SUFFIX) and name and number.isdigit():
            names.add(os.fsdecode(urllib.parse.unquote_to_bytes(name)))
    return sorted(names)


def keep(program: Program, engine: Engine | None, checked: Checked, folder: str, seconds: float) -> None:
    """Keeps a proof of each proved assertion of a file, and warns of those that have none."""
    for it in checked.assertions:
        if it.state != PROVED or checked.text is None:
            continue
        bundle = it.bundle or own_proof(program, checked.text, it, seconds) or engine_proof(engine, checked.text, it, seconds)
        if bundle is None:
            checked.warnings.append(f"{it.place[0]}:{it.place[1]}: proved by {it.stage}, and no proof of it could be kept")
            continue
        path = file_of(folder, checked.name, it.number)
        try:
            written(path, bundle)
            it.proof = path
        except OSError as fault:
            checked.warnings.append(f"{it.place[0]}:{it.place[1]}: {path} can't be written: {fault.strerror}")


def own_proof(program: Program, text: bytes, it: Assertion, seconds: float) -> bytes | None:
    """The program's own proof, if it writes one in time and accepts it."""
    try:
        bundle = program.bundle(text, it.number, SECOND, seconds)
        return bundle if is_proof(program, bundle, text, it.number, it.place, seconds) else None
    except (Late, Malformed):
        return None


def engine_proof(engine: Engine | None, text: bytes, it: Assertion, seconds: float) -> bytes | None:
    """A proof from the outside, where the program has none of its own, as of what `sweep` proved."""
    try:
        return engine.proof(text, it.number, it.place, seconds)[0] if engine and engine.is_there() else None
    except Late:
        return None


def recheck(program: Program, checked: Checked, folder: str, seconds: float) -> None:
    """Settles each assertion of a file by the proof that is kept of it, and by nothing else."""
    for it in checked.assertions:
        it.state, it.inputs, it.stage = OPEN, (), ""
        it.reasons = {"proof": fault_of(program, checked, it, folder, seconds)}
        if not it.reasons["proof"]:
            it.state, it.stage, it.reasons = PROVED, "recheck", {}


def fault_of(program: Program, checked: Checked, it: Assertion, folder: str, seconds: float) -> str:
    """Why the proof that is kept of an assertion doesn't hold of the file's bytes, or nothing where it does."""
    path = file_of(folder, checked.name, it.number)
    try:
        with open(path, "rb") as file:
            bundle = file.read()
    except FileNotFoundError:
        return "no proof of it is kept"
    except OSError as fault:
        return f"{path} can't be read: {fault.strerror}"
    held = bundle_of(bundle)
    if held is None:
        return f"{path} is no proof"
    if held != (checked.text, it.number):
        return "the proof that is kept is of another text" if held[0] != checked.text else f"{path} is of another assertion"
    try:
        place = program.recheck(bundle, seconds)
    except (Late, Malformed) as fault:
        return f"{seconds:.3g} s in recheck" if isinstance(fault, Late) else str(fault)
    it.proof = path if place == it.place else ""
    return "" if place == it.place else "the proof that is kept is rejected"
