"""The run that fails, step by step, by the small interpreter; its end is compared with that of the proved `replay`."""
from files.compiler import load
from files.lexer import Fault
from files.program import Late, Program
from files.recorder import Recorder, TooLong
from files.reports import Malformed
from files.results import FOUND, Checked, Step

FUEL = 1_000_000
# Lines of a run that isn't told whole: so many from its beginning and its end, and one that says how many are left out.
FIRST, LAST = 7, 12


def trace(program: Program, text: bytes, inputs: tuple[int, ...], is_whole: bool, seconds: float) -> tuple[list[Step], str]:
    """The steps of a run, or none and why."""
    try:
        told = program.replay(text, inputs, FUEL, seconds)
    except (Late, Malformed) as fault:
        return [], f"no trace: {'the replay was stopped' if isinstance(fault, Late) else fault}"
    if not told.startswith("failed"):
        return [], f"no trace: the program's replay says '{told}'"
    source = text.decode("latin-1")
    recorder = Recorder(source)
    try:
        machine = load(source, recorder)
        recorder.machine = machine
        end = machine.run(inputs, FUEL).line()
    except Fault as fault:
        return [], f"no trace: the interpreter can't read the source: {fault}"
    except (TooLong, RecursionError, MemoryError):
        return [], "no trace: the run is too long"
    if end != told:
        return [], f"no trace: the interpreter says '{end}', and the program's replay '{told}'"
    chosen = range(len(recorder.events)) if is_whole else recorder.slice()
    events = [recorder.events[at] for at in chosen]
    return [Step(machine.lines.place(it.offset), it.text, it.input) for it in events], ""


def shortened(steps: list[Step]) -> tuple[list[Step], int, list[Step]]:
    """The steps of a run on at most 20 lines: the first ones, how many are left out, and the last ones."""
    if len(steps) <= FIRST + LAST + 1:
        return steps, 0, []
    return steps[:FIRST], len(steps) - FIRST - LAST, steps[-LAST:]


def add_traces(program: Program, checked: Checked, is_whole: bool, seconds: float) -> None:
    """Puts the steps of its run to each assertion that can fail."""
    for it in checked.assertions:
        if it.state == FOUND and checked.text is not None:
            it.steps, it.trace_fault = trace(program, checked.text, it.inputs, is_whole, seconds)
