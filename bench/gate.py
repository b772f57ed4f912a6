"""See bench/gate.sh. `rt ci` keeps no times, so the processes that it starts are looked at five times a second while it
runs: a check of a crate's own folder is its proof, one with --test that of its tests, and one of a changed copy an edit's
(or the check of the crate as it stands with which its edits begin). The table has what /proc last said of each process,
so up to a fifth of a second of each is lost. A crate that was kept from an earlier run costs nothing, and keeps its row.
"""
import os
import re
import subprocess
import sys
import time

TOP = os.path.dirname(os.path.dirname(os.path.realpath(__file__)))
NOTED = f"{TOP}/out/gate.tsv"
PARTS = ("proof", "tests", "edits")
TICK = os.sysconf("SC_CLK_TCK")


def read(path):
    try:
        with open(path, "rb") as it:
            return it.read()
    except OSError:
        return b""


def processes():
    """Each process by its number: its parent, its name, and its processor seconds without those of its children."""
    found = {}
    for name in os.listdir("/proc"):
        if name.isdigit():
            head, _, rest = read(f"/proc/{name}/stat").decode(errors="replace").rpartition(")")
            fields = rest.split()
            if len(fields) > 12:
                found[int(name)] = int(fields[1]), head.partition("(")[2], (int(fields[11]) + int(fields[12])) / TICK
    return found


def words_of(number):
    return read(f"/proc/{number}/cmdline").decode(errors="replace").split("\0")


def running_gates(found):
    """The processes that run the whole gate in a checkout: `rt ci`."""
    gates = []
    for number, (_, name, _) in found.items():
        words = words_of(number) if name.startswith(("rt", "python")) else []
        at = next((i for i, it in enumerate(words) if os.path.basename(it) == "rt"), None)
        if at is not None and words[at + 1 : at + 2] == ["ci"]:
            gates.append(number)
    return gates


def is_below(number, top, found):
    while number in found:
        if number == top:
            return True
        number = found[number][0]
    return False


def part_of(number):
    """The crate and the part of the gate that a process of rattle works for."""
    words = words_of(number)
    if "--crate-name" not in words:
        return None
    crate = words[words.index("--crate-name") + 1]
    try:
        folder = os.readlink(f"/proc/{number}/cwd")
    except OSError:
        return None
    if os.path.basename(folder).startswith("rt-edit"):
        return crate, "edits"
    return crate, "tests" if "--test" in words else "proof"


def watched(top, is_over):
    """The processor seconds of each crate and part, and the seconds of the whole, until the run is over."""
    spent, begin = {}, time.time()
    while not is_over():
        found = processes()
        for number, (_, name, seconds) in found.items():
            if name == "rattle" and is_below(number, top, found):
                part = spent.get(number, (None,))[0] or part_of(number)
                if part:
                    spent[number] = part, seconds
        time.sleep(0.2)
    sums = {}
    for part, seconds in spent.values():
        sums[part] = sums.get(part, 0) + seconds
    return sums, time.time() - begin


def noted():
    rows = {}
    for line in read(NOTED).decode().splitlines()[1:]:
        crate, *values = line.split("\t")
        rows[crate] = dict(zip(PARTS, map(float, values)))
    return rows


def note(sums, elapsed):
    rows = noted()
    for (crate, part), seconds in sums.items():
        rows.setdefault(crate, {})[part] = seconds
    rows["elapsed"] = {"proof": elapsed}
    os.makedirs(os.path.dirname(NOTED), exist_ok=True)
    with open(NOTED, "w", encoding="utf-8") as it:
        it.write("\t".join(("crate", *PARTS)) + "\n")
        for crate, row in rows.items():
            it.write("\t".join((crate, *(f"{row.get(part, 0):.1f}" for part in PARTS))) + "\n")


def print_table():
    rows = noted()
    elapsed = rows.pop("elapsed", {}).get("proof", 0)
    if not rows:
        print("no run was noted yet: bench/gate.sh run, or bench/gate.sh watch beside one")
    else:
        order = [it.split(":")[0].split()[0] for it in read(f"{TOP}/crates.txt").decode().splitlines() if ":" in it.split("#")[0]]
        print(f"{'crate':16} {'proof':>8} {'tests':>8} {'edits':>8} {'all':>8}   (processor seconds)")
        whole = dict.fromkeys(PARTS, 0)
        for crate in sorted(rows, key=lambda it: order.index(it) if it in order else 99):
            row = rows[crate]
            whole = {part: whole[part] + row.get(part, 0) for part in PARTS}
            print(f"{crate:16} " + " ".join(f"{row.get(part, 0):8.0f}" for part in PARTS) + f" {sum(row.values()):8.0f}")
        print(f"{'all':16} " + " ".join(f"{whole[part]:8.0f}" for part in PARTS) + f" {sum(whole.values()):8.0f}")
        print(f"{sum(whole.values()) / 60:.0f} processor minutes; the last run took {elapsed / 60:.0f} minutes")
    print_largest()


def print_largest():
    """What a module of a proof takes of the disk goes with what its check takes of the processor."""
    found = []
    for folder, _, files in os.walk(f"{TOP}/crates"):
        if "/out/incremental/" in folder:
            found += [(os.path.getsize(f"{folder}/{it}"), it) for it in files if it.endswith(".oantt")]
    if found:
        print("\nlargest modules of what rt check kept, in MB")
    for size, name in sorted(found, reverse=True)[:10]:
        print(f"{size / 1e6:8.1f} {re.sub(r'^Rattle-|[.]oantt$', '', name)}")


def main(words):
    if words == ["run"]:
        with subprocess.Popen([f"{TOP}/.ci/run"]) as gate:
            note(*watched(gate.pid, lambda: gate.poll() is not None))
        return gate.returncode
    if words == ["watch"]:
        gates = running_gates(processes())
        if len(gates) != 1:
            print(f"{len(gates)} processes run rt ci, and one is watched")
            return 1
        note(*watched(gates[0], lambda: not os.path.exists(f"/proc/{gates[0]}")))
    elif words:
        print("usage: bench/gate.sh [run | watch]")
        return 4
    print_table()
    return 0


if __name__ == "__main__":
    sys.exit(main(sys.argv[1:]))
