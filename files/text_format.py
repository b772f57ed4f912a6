"""The default text, in the form of gcc's diagnostics: a line that editors find, the source's line, a caret, the run."""
import re
from collections.abc import Sequence

from files.reports import Place
from files.results import FOUND, OPEN, PROVED, Assertion, Checked, Step
from files.trace import shortened

COLOURS = {"error": "\033[1;31m", "warning": "\033[1;35m", "note": "\033[1;36m", "bold": "\033[1m", "caret": "\033[1;32m"}
PLAIN = "\033[0m"
# More inputs than these aren't all on the line; so wide is the part of a source's line that is shown.
INPUTS, FIRST_INPUTS, WIDTH = 100, 20, 160


def shown(name: str) -> str:
    """A file's name on one line: control characters are written as escapes."""
    return re.sub(r"[\x00-\x1f\x7f]", lambda it: {"\n": "\\n", "\t": "\\t", "\r": "\\r"}.get(it[0], f"\\x{ord(it[0]):02x}"), name)


def counted(number: int, what: str, several: str = "") -> str:
    """A number with its word."""
    return f"{number} {what if number == 1 else several or what + 's'}"


def failing(inputs: Sequence[int]) -> str:
    """How an assertion can fail."""
    if not inputs:
        return "assertion can fail, without any input"
    if len(inputs) > INPUTS:
        return f"assertion can fail on {len(inputs)} inputs: {', '.join(map(str, inputs[:FIRST_INPUTS]))}, .."
    return f"assertion can fail on input{'s' if len(inputs) > 1 else ''} {', '.join(map(str, inputs))}"


class TextFormat:
    """Writes what is known of each file as lines."""

    def __init__(self, is_coloured: bool = False, is_verbose: bool = False, is_whole: bool = False) -> None:
        self.is_coloured, self.is_verbose, self.is_whole = is_coloured, is_verbose, is_whole

    def painted(self, text: str, colour: str) -> str:
        """A text in a colour, on a terminal."""
        return f"{COLOURS[colour]}{text}{PLAIN}" if self.is_coloured else text

    def line(self, name: str, place: Place | None, severity: str, text: str) -> str:
        """A line that an editor finds."""
        where = f"{shown(name)}:" + (f"{place[0]}:{place[1]}:" if place else "")
        return f"{self.painted(where, 'bold')} {self.painted(severity + ':', severity)} {text}"

    def excerpt(self, text: bytes, place: Place) -> list[str]:
        """The source's line with a caret under the column, which counts bytes."""
        lines = text.split(b"\n")
        if not place[0] <= len(lines):
            return []
        whole = lines[place[0] - 1]
        start = max(0, place[1] - 1 - WIDTH // 2) if len(whole) > WIDTH else 0
        before, behind = whole[start: place[1] - 1], whole[place[1] - 1: start + WIDTH]
        blanks = re.sub(r"[^\t]", " ", printable(before))
        margin = f"{place[0]:5} | "
        return [
            f"{margin}{printable(before)}{printable(behind)}",
            f"{' ' * (len(margin) - 2)}| {blanks}{self.painted('^', 'caret')}",
        ]

    # Files

    def file(self, checked: Checked) -> list[str]:
        """All lines of a file."""
        if checked.text is None:
            return [self.line(checked.name, None, "error", f"can't be read: {checked.fault}")]
        if checked.refusal is not None:
            return self.refused(checked)
        lines = [line for it in checked.assertions for line in self.assertion(checked, it)]
        lines += [self.line(checked.name, None, "warning", it) for it in checked.warnings]
        if checked.fault:
            lines.append(self.line(checked.name, None, "warning", f"not settled: {checked.fault}"))
        return lines

    def refused(self, checked: Checked) -> list[str]:
        """A file that isn't in the language, and what to write instead."""
        refusal, text = checked.refusal, checked.text
        assert refusal is not None and text is not None
        lines = [self.line(checked.name, refusal.place, "error", f"not in the language: {refusal.text} (docs/LANGUAGE.md)")]
        if refusal.place:
            lines += self.excerpt(text, refusal.place)
        for it in checked.hints:
            lines.append(self.line(checked.name, it.place, "note", f"in place of {it.construct}: {it.remedy}"))
        return lines

    def assertion(self, checked: Checked, it: Assertion) -> list[str]:
        """The lines of an assertion: none where it is proved, if nothing else is said."""
        if it.state == PROVED:
            return self.proved(checked.name, it)
        known = "known: " if it.is_known else ""
        if it.is_known and not self.is_verbose:
            return []
        if it.state == OPEN:
            return [self.line(checked.name, it.place, "note" if known else "warning", f"{known}not settled: {it.reason}")]
        lines = [self.line(checked.name, it.place, "note" if known else "error", known + failing(it.inputs))]
        return lines + self.excerpt(checked.text or b"", it.place) + self.run(it)

    def proved(self, name: str, it: Assertion) -> list[str]:
        """A proved assertion is told where no run gets to it, and else where everything is."""
        if it.is_unreached:
            return [self.line(name, it.place, "warning", "proved, but no run gets here")]
        kept = f", kept as {shown(it.proof)}" if it.proof else ""
        return [self.line(name, it.place, "note", f"proved by {it.stage}{kept}")] if self.is_verbose else []

    def run(self, it: Assertion) -> list[str]:
        """The run that fails, step by step."""
        if it.trace_fault:
            return [f"  {it.trace_fault}"]
        first, left_out, last = (it.steps, 0, []) if self.is_whole else shortened(it.steps)
        width = max((len(str(step.place[0])) for step in it.steps), default=1)
        gap = [f"  .. {counted(left_out, 'step')} more, all of them with --trace"] if left_out else []
        return [step_line(step, width) for step in first] + gap + [step_line(step, width) for step in last]

    def summary(self, files: Sequence[Checked]) -> str:
        """The last line."""
        every = [it for checked in files for it in checked.assertions]
        open_ones = [it for it in every if not it.is_known]
        parts = [
            f"{sum(it.state == PROVED for it in every)} proved",
            f"{sum(it.state == FOUND for it in open_ones)} can fail",
            f"{sum(it.state == OPEN for it in open_ones)} not settled",
        ]
        more = {
            "known": sum(it.is_known for it in every), "not reached": sum(it.is_unreached for it in every),
            "refused": sum(it.refusal is not None for it in files), "unreadable": sum(it.text is None for it in files),
            "stopped": sum(bool(it.fault) and it.text is not None for it in files),
        }
        parts += [f"{number} {word}" for word, number in more.items() if number]
        return f"{counted(len(files), 'file')}: {', '.join(parts)}"


def step_line(step: Step, width: int) -> str:
    """A line of a run."""
    taken = f" (input {step.input})" if step.input and not step.text.startswith("input ") else ""
    return f"  line {step.place[0]:{width}}  {step.text}{taken}"


def printable(text: bytes) -> str:
    """A part of a source's line; what no terminal should get is a question mark."""
    return re.sub(r"[^\t\x20-\x7e\xa0-\U0010ffff]", "?", text.decode("utf-8", "replace"))
