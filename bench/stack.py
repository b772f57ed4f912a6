"""How much machine stack the built program needs on the deepest input that it takes. bench/stack.sh has the usage."""
import os
import resource
import subprocess
import sys

sys.dont_write_bytecode = True
import bundle_text
from bundles import first_kill

TOP = os.path.dirname(os.path.dirname(os.path.realpath(__file__)))
# KiB: what docs/USING.md says is enough, and more and less than that.
ENOUGH, AMPLE, SMALL, SECONDS = 2048, 65536, (1024, 512), 120
# What bounds nesting: docs/LANGUAGE.md has the limits.
STATEMENTS, OPERATORS, SPLITS = 64, 256, 512
# So many calls deep an assertion is found with the greatest budget, and isn't.
QUERIES = (12, 20)
NEGATED = "- " * OPERATORS


def main_of(body):
    return f"int main() {{ {body} }}".encode()


def nested(open_text, inner, close_text, deep):
    return open_text * deep + inner + close_text * deep


def sources():
    """A name and the bytes of each source that nests as deep as may be."""
    tests, conditions = "if (x == 1) { ", nested("!(x == 1 || ", "x == 0", ")", OPERATORS // 4 - 1)
    return [
        ("blocks", b"int main()" + nested("{", "", "}", STATEMENTS).encode()),
        ("negations", main_of(f"return {'!' * OPERATORS}0;")),
        ("parentheses", main_of(f"return {nested('(', '0', ')', OPERATORS)};")),
        ("differences to the left", main_of(f"int x = input(); x = x{' - 1' * OPERATORS}; assert(x != 7); return 0;")),
        ("differences to the right", main_of(f"int x = input(); x = {nested('1 - (', 'x', ')', OPERATORS // 2)}; assert(x != 7); return 0;")),
        ("conditions", main_of(f"int x = input(); assert({conditions}); return 0;")),
        ("tests", main_of(f"int x = 1; {nested(tests, f'x = {NEGATED}x;', ' }', STATEMENTS // 2 - 1)} assert(x == 1); return 0;")),
        ("loops", main_of(f"int x = input(); {'while (x > 0) ' * (STATEMENTS - 1)}x = {NEGATED}x; assert(x <= 0); return 0;")),
        ("chains of else if", main_of(f"int x = input(); {'if (x == 1) ; else ' * (STATEMENTS - 1)}x = {NEGATED}x; assert(x != 7); return 0;")),
        ("calls in arguments", b"int f(int n) { return n; } " + main_of(f"assert({nested('f(', '0', ')', OPERATORS - 2)} == 0); return 0;")),
    ]


# 511 splits prove it, inside one another to half of them; with 256 in place of 255 there would be too many.
SPLIT = main_of("int x = input(); int y = input(); int z = input(); assume(2 * x + 2 * y == z); assume(x >= 0); assume(x <= 255); assert(z != 7); return 0;")
RECURSION = b"int f(int n) { if (n <= 0) return 0; return 1 + f(n - 1); } int main() { return f(input()); }"
NEVER = b"int main() { int x = 1; if (x > 3) assert(0); return 0; }"


def called_source(deep):
    """So many procedures, each called by the next; the assertion stands in the first."""
    calls = [f"int f{at}(int n) {{ return f{at - 1}(n); }} " for at in range(1, deep)]
    return f"int f0(int n) {{ assert(n != 7); return n; }} {''.join(calls)}".encode() + main_of(f"return f{deep - 1}(input());")


def bundle_of(program, source):
    return subprocess.run([program, "bundle", "1"], input=source, capture_output=True).stdout


def branched(program, deep, in_low):
    """A right bundle, whose first certificate stands under so many branches, each in the low or in the high part of the one
    before; it is the other part of each too."""
    it = bundle_text.read(bundle_of(program, NEVER))
    kill = first_kill(it.claims)
    made = closed = kill.by
    for _ in range(deep):
        made = bundle_text.Branch([], 0, 0, *((made, closed) if in_low else (closed, made)))
    kill.by = made
    return bundle_text.printed(it)


def of_splits(program):
    """The runs whose questions or certificates are split as often as may be: without an end, and to a proof."""
    with open(f"{TOP}/examples/splits.c", "rb") as it:
        endless = it.read()
    for name, source in (("splits without an end", endless), ("splits to a proof", SPLIT)):
        for words in (["check", "--workers", "1"], ["check"], ["bundle", "1"], ["sweep"]):
            yield f"{words[0]}: {name}" + (", 4 workers" if words == ["check"] else ""), words, source
        yield f"edit: {name}", ["edit", "--workers", "1", str(len(source))], source + source
    yield "recheck: splits to a proof", ["recheck"], bundle_of(program, SPLIT)
    for part, in_low in (("low", True), ("high", False)):
        yield f"recheck: branches in {part} parts", ["recheck"], branched(program, SPLITS, in_low)


def cases(program):
    """A name, the words and the input of each run."""
    for name, source in sources():
        for words in (["check", "--workers", "1", "--budget", "100"], ["replay", "[0]"], ["sweep", "--edges", "200"]):
            yield f"{words[0]}: {name}", words, source
    for deep in QUERIES:
        for words in (["check", "--workers", "1", "--budget", "20000"], ["check", "--budget", "20000"]):
            yield f"check: {deep} calls deep" + ("" if "--workers" in words else ", 4 workers"), words, called_source(deep)
    yield "replay: 100,000 calls deep", ["replay", "[100000]", "--fuel", "10000000"], RECURSION
    yield from of_splits(program)


def ended(program, words, source, stack):
    """The status and the output with so many KiB of stack; a signal's as its negative number."""
    def limit():
        resource.setrlimit(resource.RLIMIT_STACK, (stack * 1024, resource.getrlimit(resource.RLIMIT_STACK)[1]))
    try:
        it = subprocess.run([program, *words], input=source, capture_output=True, preexec_fn=limit, timeout=SECONDS)
        return it.returncode, it.stdout + it.stderr
    except subprocess.TimeoutExpired:
        return "none in time", b""
    except OSError as why:
        return f"not begun: {why.strerror}", b""


def least_stack(program, words, source, due):
    """The least KiB, to 4 KiB, with which a run ends as is due, where more of them do no harm."""
    low, high = 0, ENOUGH
    while high - low > 4:
        middle = (low + high) // 8 * 4
        if ended(program, words, source, middle) == due:
            high = middle
        else:
            low = middle
    return high


def row(program, name, words, source):
    """The line of a run, and whether it ends with what is said to be enough as it does with more."""
    due = ended(program, words, source, AMPLE)
    right = due[0] in (0, 1, 2) and ended(program, words, source, ENOUGH) == due
    small = " | ".join("yes" if ended(program, words, source, size) == due else "no" for size in SMALL)
    least = least_stack(program, words, source, due) if right else "more"
    said = due[1].decode("latin-1").split("\n")[0][:40]
    return f"| {name} | {due[0]} | `{said}` | {least} | {small} |" + ("" if right else " MISSED"), right


def main(program):
    missed = 0
    print("| run | status | says | KiB of stack | with 1,024 | with 512 |\n|---|---|---|---|---|---|")
    for name, words, source in cases(program):
        line, right = row(program, name, words, source)
        missed += not right
        print(line, flush=True)
    return 1 if missed else 0


if __name__ == "__main__":
    sys.exit(main(os.path.realpath(sys.argv[1])))
