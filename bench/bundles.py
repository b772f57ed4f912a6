"""Makes the bundle of each proved assertion of the programs of folders, checks it again, and says what each takes.

usage: bundles.py [--limit SECONDS] [--budgets N,N..] PROGRAM FOLDER..
       bundles.py --long PROGRAM [FOLDER..]     the texts of 16 MiB alone

With each budget (200, 2000 and 20000) a program is checked by one worker, once. `bundle` of an assertion that isn't proved
has to say the line of `check`, which is tried with the least budget alone; of one that is proved it has to give a text that
`recheck` accepts at the assertion's place. `check` and `bundle` work at all assertions of a program, so their seconds are
compared as they stand. Where one is missed that took a tenth of a second, all three are the least of three runs.

A line is of an assertion and a budget: the bytes of the bundle, the seconds of user and system time of `check`, `bundle` and
`recheck`, and the most memory of `recheck`. The status is 1 where something isn't as wanted, or a limit is missed.
"""
import collections
import sys

sys.dont_write_bytecode = True
import bundle_text
from running import TOP, least_of, missed, options, peak, places_of, programs, ran

LIMIT_BYTES = 16_777_216
# Less memory isn't told apart from that of the process itself, and less time from its start.
FLOOR_KB, TELLS = 16_384, 0.1
Made = collections.namedtuple("Made", "name number budget bytes check bundle recheck memory")


def ratios(it):
    return it.bundle / max(it.check, 1e-9), it.recheck / max(it.bundle, 1e-9)


def faults_of_time(it):
    """Where a time that tells is beside its limit."""
    longer, again = ratios(it)
    faults = missed("bundles", "any", it.budget, "longer", round(longer, 2)) if it.bundle >= TELLS else []
    return faults + (missed("bundles", "any", it.budget, "again", round(again, 2)) if it.recheck >= TELLS else [])


def timed_again(program, source, it, text):
    """The least seconds of three runs."""
    words = ["--budget", str(it.budget)]
    check = least_of(3, [program, "check", "--workers", "1", *words], source, 120)
    bundle = least_of(3, [program, "bundle", str(it.number), *words], source, 120)
    recheck = least_of(3, [program, "recheck"], text, 120)
    return it._replace(check=min(check.seconds, it.check), bundle=min(bundle.seconds, it.bundle), recheck=min(recheck.seconds, it.recheck))


def of_proved(program, name, source, number, budget, checked, limit):
    """What the bundle of a proved assertion takes, and what is wrong with it."""
    bundle = ran([program, "bundle", str(number), "--budget", str(budget)], source, 2 * limit + 10)
    text = bundle.text.encode("latin-1")
    if bundle.status != 0:
        return None, [f"{number}: bundle has status {bundle.status}, and says {bundle.text[:80]!r}"]
    again = ran([program, "recheck"], text, 2 * limit + 10)
    line, column = places_of(source)[number - 1]
    faults = []
    if (again.status, again.text) != (0, f"accepted {line}:{column}\n"):
        faults.append(f"{number}: recheck has status {again.status}, and says {again.text[:80]!r}")
    if not bundle_text.is_bundle(text):
        faults.append(f"{number}: no bundle by the grammar")
    it = Made(name, number, budget, len(text), checked.seconds, bundle.seconds, again.seconds, peak([program, "recheck"], text))
    if faults_of_time(it):
        it = timed_again(program, source, it, text)
    faults += faults_of_time(it)
    if it.memory > FLOOR_KB:
        faults += missed("bundles", "any", budget, "memory", round(it.memory * 1024 / len(text), 1))
    return it, faults


def of_others(program, source, number, budget, line, limit):
    """What is wrong with the answer of `bundle` where an assertion isn't proved."""
    said = ran([program, "bundle", str(number), "--budget", str(budget)], source, 2 * limit + 10)
    status = 1 if ": found " in line else 2
    return [] if (said.status, said.text) == (status, f"{line}\n") else [f"{number}: bundle says {said.text[:80]!r}, and check {line!r}"]


def shown(it):
    return f"{it.name:30} {it.number:3} {it.budget:6} {it.bytes:9} bytes {it.check:8.3f} {it.bundle:8.3f} {it.recheck:8.3f} s {it.memory:8} KB"


def of_program(program, name, source, budget, limit, tries_others):
    """What the bundles of a program take with a budget, and how many faults there were; nothing where its check takes too long."""
    checked = ran([program, "check", "--workers", "1", "--budget", str(budget)], source, limit)
    if checked.status not in (0, 1, 2):
        print(f"{name:30} {budget:10} {'no check in time' if checked.status is None else checked.text.strip()}", flush=True)
        return [], 0
    made, wrong = [], 0
    for number, line in enumerate(checked.text.split("\n")[:-2], 1):
        it, faults = None, []
        if line.endswith(": proved"):
            it, faults = of_proved(program, name, source, number, budget, checked, limit)
        elif tries_others:
            faults = of_others(program, source, number, budget, line, limit)
        if it:
            made.append(it)
            print(shown(it))
        for fault in faults:
            print(f"    WRONG {name} {fault}")
        wrong += bool(faults)
        sys.stdout.flush()
    return made, wrong


def summed(made, budgets):
    """For each budget the sums, and where the ratios are greatest."""
    for budget in budgets:
        of_it = [it for it in made if it.budget == budget]
        if not of_it:
            continue
        sums = [sum(getattr(it, what) for it in of_it) for what in ("bytes", "check", "bundle", "recheck")]
        tell = [it for it in of_it if it.bundle >= TELLS]
        most = f", bundle at most {max(ratios(it)[0] for it in tell):.2f} times as long as check, of {len(tell)}" if tell else ""
        print(f"budget {budget}: {len(of_it)} bundles, {sums[0]} bytes, {sums[1]:.2f} s of check, {sums[2]:.2f} s of bundle, {sums[3]:.2f} s of recheck{most}")
    print("the ten largest:")
    for it in sorted(made, key=lambda it: -it.bytes)[:10]:
        print(f"    {shown(it)}")


# Loops of more and more turns, whose memory is told and not held

def loops(program):
    """What bundles of a loop take with its turns."""
    wrong = 0
    for turns in (100, 200, 400):
        source = f"int main() {{\n    int x = 0;\n    while (x < {turns}) x++;\n    assert(x == {turns});\n    return 0;\n}}\n".encode()
        checked = ran([program, "check", "--workers", "1", "--budget", "20000"], source, 60)
        it, faults = of_proved(program, f"a loop of {turns} turns", source, 1, 20000, checked, 60)
        print(shown(it) if it else "no bundle", flush=True)
        wrong += told(f"a loop of {turns} turns", [fault for fault in faults if ": memory is" not in fault])
    return wrong


# Long texts of one claim

NO_ROWS = "cube 0\n"
CALLED = b"int main(){return 0;} int f(){assert(0);return 0;}"


def of_length(total, made):
    """A text of so many bytes: `made` has a number of units and of blanks behind the source."""
    one, two = len(made(1, 0)), len(made(2, 0))
    units = (total - one) // (two - one)
    while True:
        blanks = total - len(made(units, 0))
        for less in range(6):
            if blanks >= less and len(text := made(units, blanks - less)) == total:
                return text
        units -= 1


def text_of(claims, source, blanks):
    source = source + b" " * blanks
    return f"smash-bundle 1\nsource {len(source)}\n".encode() + source + f"\nassert 1\nclaims 1\n{claims}".encode()


def of_rows(many, blanks):
    return text_of(f"claim 0 fail 0\ncube {many}\n" + "row 0 0\n" * many + f"{NO_ROWS}moves 0\n", CALLED, blanks)


def of_wide_rows(many, blanks):
    row = "row 1024 " + "".join(f"{at} 1 " for at in range(1024)) + "0\n"
    return text_of(f"claim 0 fail 0\ncube {many}\n" + row * many + "cube 0\nmoves 0\n", CALLED, blanks)


def of_moves(many, blanks):
    return text_of(f"claim 0 fail 0\ncube 0\ncube 0\nmoves {many}\n" + "kill 0 0 0\nclose 0\n" * many, CALLED, blanks)


def of_certificates(many, blanks):
    return text_of(f"claim 0 fail 0\ncube 0\ncube 0\nmoves 1\ncall 0 0 0 0 {many}\n" + "close 0\n" * many, CALLED, blanks)


def first_kill(claims):
    return next(it for it in claims[0].moves if isinstance(it, bundle_text.Kill) and isinstance(it.by, bundle_text.Close))


def of_derived(program):
    """As a right bundle, with so many rows more before the last one of its first certificate: the sum of nothing is 0."""
    source = b"int main() { int x = 1; if (x > 3) assert(0); return 0; }"
    it = bundle_text.read(ran([program, "bundle", "1"], source).text.encode("latin-1"))
    mark = bundle_text.Derived([], 1, bundle_text.Row([], 7))
    first_kill(it.claims).by.rows.insert(-1, mark)
    start, end = bundle_text.printed(it).split(bundle_text.of_derived(mark).encode())
    rows = len(first_kill(it.claims).by.rows)
    head, counted = start.rsplit(f"close {rows}\n".encode(), 1)

    def made(many, blanks):
        text = head + f"close {rows - 1 + many}\n".encode() + counted + b"derive 0 1\nrow 0 0\n" * many + end
        padded = source + b" " * blanks
        return text.replace(f"source {len(source)}\n".encode() + source, f"source {len(padded)}\n".encode() + padded, 1)
    return made


def splits(program):
    """A right text of many splits of one region, whose pieces share their rows: told, and not held."""
    wrong = 0
    for many in (1000, 20_000, 100_000):
        moves = f"moves {many}\n" + "split 0 3 3\ncube 1\nrow 0 0\n" * many
        text = text_of(f"claim 0 fail 0\n{NO_ROWS}{NO_ROWS}{moves}", CALLED, 0)
        said = ran([program, "recheck"], text, 120)
        print(f"{len(text)} bytes of {many} splits of a region: {said.seconds:.2f} s, {peak([program, 'recheck'], text)} KB: {said.text.strip()[:40]}")
        wrong += told("splits", [] if said.text == "accepted 1:31\n" else [f"{many}: {said.text[:80]!r}"])
    return wrong


def long_texts(program):
    """Texts of 16 MiB of one claim, and what is wrong with what is said of them."""
    shapes = [("rows", of_rows, "rejected claim 0\n"), ("wide rows", of_wide_rows, "rejected claim 0\n"), ("moves", of_moves, "rejected claim 0\n"),
              ("certificates", of_certificates, "rejected claim 0\n"), ("derived rows", of_derived(program), "accepted 1:36\n")]
    wrong = 0
    for name, made, wanted in shapes:
        text = of_length(LIMIT_BYTES, made)
        said = least_of(3, [program, "recheck"], text, 120)
        faults = [] if said.text == wanted else [f"{said.text[:80]!r}, where {wanted!r} is wanted"]
        faults += missed("bundles", name, LIMIT_BYTES, "seconds", round(said.seconds, 2))
        print(f"{len(text)} bytes of one claim of {name}: {said.seconds:.2f} s, {peak([program, 'recheck'], text)} KB: {said.text.strip()[:40]}")
        wrong += told(name, faults) + told(name, faults_of_more(program, name, text + b"\n"))
    return wrong


def faults_of_more(program, name, text):
    said = ran([program, "recheck"], text, 60)
    right = (said.status, said.text) == (3, f"refused: bundle longer than {LIMIT_BYTES} bytes\n")
    return [] if right else [f"{len(text)} bytes of {name}: status {said.status}, {said.text[:80]!r}"]


def told(name, faults):
    for fault in faults:
        print(f"    WRONG {name}: {fault}", flush=True)
    return bool(faults)


def main(words):
    given, (program, *folders) = options(words, {"limit": 20.0, "budgets": "200,2000,20000", "long": False}, __doc__, 1)
    wrong, made = 0, []
    budgets = [int(it) for it in given["budgets"].split(",")]
    print(f"{'program':30} {'':3} {'budget':>6} {'':15} {'check':>8} {'bundle':>8} {'recheck':>8}")
    for folder in [] if given["long"] else folders:
        for name, source in programs(folder):
            for budget in budgets:
                more, faults = of_program(program, name, source, budget, given["limit"], budget == min(budgets))
                made, wrong = made + more, wrong + faults
    if made:
        summed(made, budgets)
    wrong += 0 if given["long"] else loops(program)
    wrong += long_texts(program) + splits(program)
    print(f"{len(made)} bundles, {wrong} wrong")
    return 1 if wrong else 0


if __name__ == "__main__":
    sys.exit(main(sys.argv[1:]))
