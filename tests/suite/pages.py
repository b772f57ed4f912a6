"""Pages: that the files which they name are there, and that the newest version of CHANGELOG.md is the released one."""
import re
from collections.abc import Iterator
from functools import partial
from pathlib import Path

from suite.cases import Case, Outcome, Setting, difference

PAGES = ("CONTRIBUTING.md", "tests/README.md")
# A path in a page, from the top; one with a word in capitals stands for many.
PATH = re.compile(r"`((?:crates|docs|bench|tests|examples|\.ci)/[^`\s]+)`")
BRACES = re.compile(r"\{([^{}]*)\}")
VERSION = re.compile(r"(?m)^## (\S+)")


def page_cases(top: Path) -> Iterator[Case]:
    """Each page that names files, and the versions."""
    for name in PAGES:
        yield Case(f"pages/{name}", partial(named_outcome, name))
    if (top / "release" / "VERSION").exists():
        yield Case("pages/CHANGELOG.md", version_outcome)


def named_outcome(page: str, setting: Setting) -> Outcome:
    """Whether all files are there that a page names."""
    named = PATH.findall((setting.top / page).read_text(encoding="utf-8"))
    paths = [path for name in named if not re.search(r"\b[A-Z]{3,}\b(?!\.md)", name) for path in spelled_out(name)]
    missing = [path for path in paths if not any(setting.top.glob(path))]
    return Outcome(difference("files that aren't there", [], missing) + difference("whether it names files", True, bool(paths)))


def spelled_out(path: str) -> list[str]:
    """The paths that one with braces stands for."""
    match = BRACES.search(path)
    if match is None:
        return [path]
    return [it for word in match[1].split(",") for it in spelled_out(path[: match.start()] + word + path[match.end() :])]


def version_outcome(setting: Setting) -> Outcome:
    """Whether the newest version of CHANGELOG.md is that of release/VERSION."""
    released = (setting.top / "release" / "VERSION").read_text(encoding="utf-8").strip()
    newest = VERSION.search((setting.top / "CHANGELOG.md").read_text(encoding="utf-8"))
    return Outcome(difference("newest version of CHANGELOG.md", released, newest[1] if newest else "none"))
