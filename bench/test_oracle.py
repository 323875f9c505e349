#!/usr/bin/python3
"""Shows that the judge of small outputs finds what is wrong with one.

    bench/test_oracle.py
"""
import unittest

from oracle import Judge, Statement, Unfit, Words, written

TEXT = [Statement("clause", [1, 2]), Statement("clause", [-1]), Statement("cube", []),
        Statement("cube", [-2, 3])]
RIGHT = "j 1 SATISFIABLE\nv -1 2 0\nj 2 UNSATISFIABLE\nf -2 0\nend 2\n"

# a change of the right output, and the status
WRONG = {
    "a false clause": ("v -1 2 0", "v 1 2 0", 0),
    "a variable left out": ("v -1 2 0", "v 2 0", 0),
    "a part that isn't the cube's": ("f -2 0", "f -2 1 0", 0),
    "a part that has a model": ("f -2 0", "f 3 0", 0),
    "another job": ("j 2 UN", "j 3 UN", 0),
    "no budget": ("UNSATISFIABLE\nf -2 0", "UNKNOWN", 1),
    "nothing that cancels": ("UNSATISFIABLE\nf -2 0", "CANCELLED", 1),
    "a block left out": ("j 2 UNSATISFIABLE\nf -2 0\n", "", 0),
    "another status": ("", "", 1),
    "no last line": ("end 2\n", "", 0),
    "no line feed": ("end 2\n", "end 2", 0),
}


def judge(conflicts=None, first=False):
    return Judge(TEXT, Words(conflicts, first))


class Oracle(unittest.TestCase):
    def test_a_text_is_written_as_it_stands(self):
        self.assertEqual(written(TEXT), "p inccnf\n1 2 0\n-1 0\na 0\na -2 3 0\n")

    def test_a_right_output_and_its_fronts_are_accepted(self):
        judge().whole(RIGHT, 0)
        for size in range(len(RIGHT) + 1):
            judge().front(RIGHT[:size])

    def test_wrong_outputs_are_found(self):
        for name, (old, new, status) in WRONG.items():
            with self.subTest(name), self.assertRaises(Unfit):
                judge().whole(RIGHT.replace(old, new, 1), status)

    def test_a_budget_and_a_model_are_causes(self):
        given_up = RIGHT.replace("UNSATISFIABLE\nf -2 0", "UNKNOWN")
        judge(conflicts=27).whole(given_up, 1)
        self.assertRaises(Unfit, judge(conflicts=28).whole, given_up, 1)
        judge(first=True).whole(RIGHT.replace("UNSATISFIABLE\nf -2 0", "CANCELLED"), 1)


if __name__ == "__main__":
    unittest.main()
