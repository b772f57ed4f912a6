"""Mutations: a change of the parser or of a stage that drops or turns a verdict is caught by the tests."""
import os
import shutil
import subprocess
import sys
import tempfile
import unittest
from concurrent.futures import ThreadPoolExecutor

from setting import HERE, TOP, Case

# The file, what stands there, what stands there instead, and the tests that have to fail.
MUTATIONS = (
    ("reports.py", '        return Verdict(place, "proved")\n', '        return Verdict(place, "unknown", reason="budget 1 spent")\n',
     "test_formats.Gcc.test_proved"),
    ("reports.py", "    if it[4]:\n", "    if False:\n", "test_formats.Gcc.test_found"),
    ("reports.py", 'return Verdict(place, "unknown", reason=it[5])', 'return Verdict(place, "proved")',
     "test_formats.Gcc.test_unknown"),
    ("reports.py", "    verdicts = [verdict_of(line) for line in lines]\n", "    verdicts = [verdict_of(line) for line in lines[1:]]\n",
     "test_formats.Gcc.test_proved"),
    ("reports.py", "[int(it) for it in summary.groups()] != counts", "False", "test_formats.Strict.test_malformed"),
    ("reports.py", "    if status != (1 if counts[1] else 2 if counts[2] else 0):\n", "    if False:\n",
     "test_formats.Strict.test_malformed"),
    ("reports.py", "    if places != sorted(set(places)):\n", "    if False:\n", "test_formats.Strict.test_malformed"),
    ("reports.py", 'int(it) for it in inner.split(", ")', 'int(it) for it in inner.split(", ")[1:]',
     "test_formats.Gcc.test_found"),
    ("reports.py", "    if status == 3:\n", "    if status == 33:\n", "test_formats.Gcc.test_refusals"),
    ("reports.py", "    if status != 0:\n        return None\n    lines", "    lines",
     "test_settling.EngineStage.test_accepted"),
    ("reports.py", "if len(lines) == 1 else None", "if lines else None", "test_settling.EngineStage.test_accepted"),
    ("reports.py", "    if status != REPLAY_STATUS", "    if False and status != REPLAY_STATUS",
     "test_settling.Stages.test_lists_are_confirmed"),
    ("settling.py", "failure_of(line) == (place, len(inputs))", "failure_of(line)",
     "test_settling.Stages.test_lists_are_confirmed"),
    ("settling.py", "            if it.place == place and", "            if", "test_settling.Stages.test_order"),
    ("settling.py", "        if it.state != OPEN:\n            return\n", "", "test_settling.Stages.test_order"),
    ("settling.py", "if state != OPEN and it.state not in (OPEN, state):", "if False:",
     "test_settling.Stages.test_contradiction"),
    ("settling.py", '[it.place for it in report.verdicts] != [it.place for it in self.assertions]', "False",
     "test_settling.Stages.test_other_places"),
    ("settling.py", '        self.report("sweep"', '        0 and self.report("sweep"',
     "test_settling.Stages.test_order"),
    ("settling.py", '        self.report("check"', '        0 and self.report("check"',
     "test_settling.Stages.test_order"),
    ("settling.py", "        self.search()\n", "", "test_settling.Stages.test_order"),
    ("settling.py", "        if proof is None:\n", "        if False:\n", "test_settling.EngineStage.test_statuses"),
    ("engine.py", "    if bundle_of(bundle) != (text, number):\n", "    if not bundle_of(bundle):\n",
     "test_settling.EngineStage.test_of_another_text"),
    ("engine.py", "== place\n", "is not None\n", "test_settling.EngineStage.test_accepted"),
    ("engine.py", "        if ran.status != 0:\n", "        if False:\n", "test_settling.EngineStage.test_statuses"),
    ("proofs.py", "    if held != (checked.text, it.number):\n", "    if False:\n",
     "test_extras.Proofs.test_wrong_proofs"),
    ("proofs.py", 'return "" if place == it.place else', 'return "" if place is None else',
     "test_extras.Proofs.test_keep_and_recheck"),
    ("reach.py", 'found.word == "proved"', 'found.word != "found"', "test_extras.Reach.test_unknown"),
    ("processes.py", "        signalled(child.pid, signal.SIGKILL)\n", "",
     "test_settling.Limits.test_children_that_stay"),
    ("processes.py", "status = child.returncode if is_over", "status = child.returncode if True",
     "test_settling.Limits.test_all_late"),
    ("trace.py", "    if end != told:\n", "    if False:\n", "test_trace.Difference.test_no_trace"),
    ("compiler.py", "            return 0 if operand(slots) else 1\n", "            return operand(slots)\n",
     "test_trace.Ends.test_operators"),
    ("operators.py", "return magnitude if (left < 0) == (right < 0) else -magnitude", "return left // right",
     "test_trace.Ends.test_quotients"),
    ("baseline.py", "key for key in keys_of(checked, it) if left[key] > 0", "key for key in keys_of(checked, it)",
     "test_extras.Baseline.test_baseline"),
    ("json_format.py", 'FOUND: "can fail"', 'FOUND: "proved"', "test_formats.Machines.test_json"),
    ("sarif.py", 'result("can-fail", failing(it.inputs)', 'result("proved", failing(it.inputs)',
     "test_formats.Machines.test_sarif"),
)


class Mutations(Case):
    """A copy with one change."""

    def copy(self) -> str:
        """A copy of what is tested, beside nothing else."""
        top = tempfile.mkdtemp(dir=self.room)
        for name in ("files", "docs"):
            shutil.copytree(os.path.join(TOP, name), os.path.join(top, name), ignore=shutil.ignore_patterns("__pycache__"))
        shutil.copy(os.path.join(TOP, "smash-files"), top)
        return top

    def passes(self, top: str, *tests: str) -> bool:
        """Whether tests pass on a copy."""
        done = subprocess.run([sys.executable, "-B", "-m", "unittest", "-f", *tests], cwd=HERE, capture_output=True,
                              env=os.environ | {"SMASH_FILES_TOP": top}, timeout=3000)
        return done.returncode == 0

    def test_unchanged(self) -> None:
        """an unchanged copy passes the tests that the changes have to fail"""
        self.assertTrue(self.passes(self.copy(), *sorted({it[3] for it in MUTATIONS})))

    def fault_of(self, name: str, old: str, new: str, test: str) -> str:
        """What is wrong with a change, tried in a copy of its own: that it can't be made, or that its test doesn't see it."""
        top = self.copy()
        path = os.path.join(top, "files", name)
        with open(path, encoding="utf-8") as file:
            whole = file.read()
        if whole.count(old) != 1:
            return f"{old} stands {whole.count(old)} times in {name}"
        with open(path, "w", encoding="utf-8") as file:
            file.write(whole.replace(old, new))
        return f"{test} doesn't see {new} in {name}" if self.passes(top, test) else ""

    def test_mutations(self) -> None:
        """each change of a stage or a parser that drops or turns a verdict fails a test"""
        with ThreadPoolExecutor(max(2, len(os.sched_getaffinity(0)))) as pool:
            faults = list(pool.map(lambda it: self.fault_of(*it), MUTATIONS))
        self.assertEqual([it for it in faults if it], [])


if __name__ == "__main__":
    unittest.main()
