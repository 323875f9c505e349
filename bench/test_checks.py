#!/usr/bin/python3
"""Shows that wrong outputs are found, and that a run that takes too long is stopped.

    bench/test_checks.py        # needs g++ and a peer
"""
import tempfile
import unittest
from pathlib import Path

from programs import Program, compile_program, peers
from runs import Runner

TEXT = "p inccnf\n1 2 0\n-1 3 0\na -2 1 0\na -2 -1 0\n"
RIGHT = "j 1 SATISFIABLE\nv 1 -2 3 0\nj 2 UNSATISFIABLE\nf -2 -1 0\nend 2\n"

# a change of the right output, and a word of what is found
WRONG = {
    "a false clause": ("v 1 -2 3 0", "v 1 -2 -3 0", "clause"),
    "a false cube": ("v 1 -2 3 0", "v 1 2 3 0", "cube"),
    "a variable left out": ("v 1 -2 3 0", "v 1 -2 0", "length"),
    "a part that isn't the cube's": ("f -2 -1 0", "f -2 3 0", "literal"),
    "a part that has a model": ("f -2 -1 0", "f -2 0", "model"),
    "another job": ("j 2 UNSATISFIABLE", "j 3 UNSATISFIABLE", "last line"),
    "a last line that isn't there": ("end 2\n", "", "last line"),
}


class Checks(unittest.TestCase):
    @classmethod
    def setUpClass(cls):
        assert compile_program("stopwatch") and compile_program("check")
        cls.peers = peers()

    def run_on(self, output, *command):
        """The run of a program that prints this, or of the command."""
        with tempfile.TemporaryDirectory() as name:
            folder = Path(name)
            runner = Runner(folder, 0.5, self.peers)
            runner.text.write_text(TEXT)
            (folder / "printed").write_text(output)
            return runner.run(Program("tarmo", command or ["cat", str(folder / "printed")], True))

    def test_a_right_output_is_accepted(self):
        run = self.run_on(RIGHT)
        self.assertEqual((run.wrong, run.ended, run.verdicts, run.unchecked), ("", True, "SU", 0))

    def test_wrong_outputs_are_found(self):
        for name, (old, new, word) in WRONG.items():
            with self.subTest(name):
                run = self.run_on(RIGHT.replace(old, new))
                self.assertIn(word, run.wrong)
                self.assertFalse(run.ended)

    def test_a_run_beyond_the_limit_is_stopped_and_counts_as_the_limit(self):
        run = self.run_on("", "sleep", "5")
        self.assertEqual((run.wrong, run.ended, run.seconds, run.first), ("", False, 0.5, None))

    def test_an_end_without_an_answer_is_found(self):
        self.assertEqual(self.run_on("", "false").wrong, "the last line is missing")
        self.assertEqual(self.run_on("", "sh", "-c", "exit 3").wrong, "exit 3")

    def test_peers_agree_on_the_right_output(self):
        for peer in self.peers:
            if peer.blocks:
                with self.subTest(peer.name):
                    self.assertEqual(self.run_on("", *peer.command).verdicts, "SU")


if __name__ == "__main__":
    unittest.main()
