"""Labelled programs: nothing that is told is wrong, and no two stages contradict each other."""
import os
import subprocess
import unittest

from labels import Labelled, labelled, truth_of
from setting import PROGRAM, REPOSITORY, Case

from files.reports import list_text

STAGE = os.environ.get("SMASH_FILES_STAGE", "0.2")
FOLDERS = [it for it in [os.path.join(REPOSITORY, "tests"), *os.environ.get("SMASH_LABELLED", "").split(":")]
           if it and os.path.exists(os.path.join(it, "truth.tsv"))]


class Truth(Case):
    """What is true."""

    @unittest.skipUnless(FOLDERS, "there is no folder of labelled programs")
    def test_labelled(self) -> None:
        """on all labelled programs each verdict is true, each list fails in the replay, and no stages contradict"""
        programs = {it.path: it for folder in FOLDERS for it in labelled(folder)}
        self.assertGreater(len(programs), 100)
        held = self.json([*programs, "--stage-time", STAGE, "--time", "600"])
        self.assertEqual([it["file"] for it in held["files"]], list(programs))
        settled = 0
        for it in held["files"]:
            with self.subTest(file=it["file"]):
                settled += self.right(programs[it["file"]], it)
        self.assertGreater(settled, 100)

    def right(self, known: Labelled, told: dict[str, object]) -> int:
        """Sees that what is told of a file is true; how many assertions are settled."""
        self.assertRegex(str(told.get("fault", "0 s in check")), r"^[\d.]+ s in check")
        assertions = told["assertions"]
        assert isinstance(assertions, list)
        with open(known.path, "rb") as file:
            source = file.read()
        for it in assertions:
            truth = truth_of(known, (it["line"], it["column"]), it["number"])
            if it["state"] == "proved":
                self.assertEqual(truth, "proved", it)
            if it["state"] == "can fail":
                self.assertEqual(truth, "found", it)
                words = [PROGRAM, "replay", "--fuel", "1000000000", list_text(tuple(it["inputs"]))]
                line = subprocess.run(words, input=source, capture_output=True).stdout.decode()
                self.assertEqual(line, f"failed {it['line']}:{it['column']}, inputs used {len(it['inputs'])}\n")
                self.assertNotIn("interpreter", it.get("no_run", ""))
        return sum(it["state"] != "not settled" for it in assertions)


if __name__ == "__main__":
    unittest.main()
