"""What an output may say of a small text, found by trying all assignments.

A set of assignments is one whole number, a bit for each: bit i stands for the assignment that makes
variable v true where i has bit v - 1.
"""
from collections import namedtuple

# A text is a list of statements; kind is "clause" or "cube".
Statement = namedtuple("Statement", "kind lits")

# A job: the clauses before its cube, the cube, and the greatest variable of both.
Job = namedtuple("Job", "clauses cube variables")

# What the words of a run allow: a budget in learnt clauses or None, and whether --first stands.
Words = namedtuple("Words", "conflicts first")


def written(statements):
    """The text of the statements."""
    marks = {"clause": [], "cube": ["a"]}
    lines = [" ".join([*marks[it.kind], *map(str, it.lits), "0"]) for it in statements]
    return "\n".join(["p inccnf", *lines, ""])


def jobs_of(statements):
    clauses, found = [], []
    for statement in statements:
        if statement.kind == "clause":
            clauses.append(statement.lits)
            continue
        used = [abs(lit) for lits in [*clauses, statement.lits] for lit in lits]
        found.append(Job(list(clauses), statement.lits, max(used, default=0)))
    return found


class Truths:
    """The assignments of so many variables that make literals, clauses and cubes true."""

    def __init__(self, variables):
        self.all = (1 << (1 << variables)) - 1
        self._true = [0]
        for variable in range(variables):
            run = ((1 << (1 << variable)) - 1) << (1 << variable)
            width = 2 << variable
            while width < 1 << variables:
                run |= run << width
                width *= 2
            self._true.append(run)

    def of_literal(self, lit):
        return self._true[lit] if lit > 0 else self.all & ~self._true[-lit]

    def of_clause(self, lits):
        union = 0
        for lit in lits:
            union |= self.of_literal(lit)
        return union

    def of_all(self, clauses, cube):
        """Where all the clauses and all literals of the cube are true."""
        left = self.all
        for clause in clauses:
            left &= self.of_clause(clause)
        for lit in cube:
            left &= self.of_literal(lit)
        return left


class Judge:
    """Reads an output line by line; what is wrong is an `Unfit` with a sentence."""

    def __init__(self, statements, words):
        self._jobs, self._words = jobs_of(statements), words
        self._truths = Truths(max((job.variables for job in self._jobs), default=0))
        self.verdicts = []

    def whole(self, output, status):
        """Judges an output with its last line, and the status of its run."""
        lines = output.split("\n")
        if lines.pop() != "":
            raise Unfit("no line feed at the end")
        last = self._blocks(lines)
        if last == "memory" and status == 6:
            return
        if last != f"end {len(self._jobs)}" or len(self.verdicts) != len(self._jobs):
            raise Unfit(f"the last line is {last!r} behind {len(self.verdicts)} blocks")
        wanted = 6 if "NOMEMORY" in self.verdicts else int(
            bool({"UNKNOWN", "CANCELLED"} & set(self.verdicts)))
        if status != wanted:
            raise Unfit(f"status {status} in place of {wanted}")

    def front(self, output):
        """Judges a front of an output: its last block or line may be cut off anywhere."""
        lines = output.split("\n")[:-1]
        while lines and self._is_cut(lines):
            lines.pop()
        last = self._blocks(lines)
        if last not in ("", "memory", f"end {len(self._jobs)}"):
            raise Unfit(f"the line {last!r} is in no output")

    @staticmethod
    def _is_cut(lines):
        """Whether the last line is the head of a block whose second line is missing."""
        return lines[-1].endswith("SATISFIABLE")

    def _blocks(self, lines):
        """Judges the blocks, and gives the line behind them."""
        at = 0
        while at < len(lines) and lines[at].startswith("j "):
            shown = lines[at + 1] if at + 1 < len(lines) else ""
            at += 1 + self._block(lines[at], shown)
            while at < len(lines) and lines[at].startswith("t "):
                at += 1
        if at + 1 < len(lines):
            raise Unfit(f"{lines[at]!r} isn't the last line")
        return lines[at] if at < len(lines) else ""

    def _block(self, head, shown):
        """Judges a block by its first line and the next; gives how many more lines it has."""
        number = len(self.verdicts) + 1
        mark, named, verdict = head.split(" ")
        if number > len(self._jobs) or named != str(number):
            raise Unfit(f"{head!r} in the place of job {number}")
        job = self._jobs[number - 1]
        self.verdicts.append(verdict)
        if verdict == "SATISFIABLE":
            self._model(job, number, lits_of(shown, "v"))
        elif verdict == "UNSATISFIABLE":
            self._part(job, number, lits_of(shown, "f"))
        elif not self._is_allowed(job, verdict):
            raise Unfit(f"job {number} is {verdict}")
        return int(verdict in ("SATISFIABLE", "UNSATISFIABLE"))

    def _model(self, job, number, model):
        if [abs(lit) for lit in model] != list(range(1, job.variables + 1)):
            raise Unfit(f"the model of job {number} names other variables than the job's")
        true = set(model)
        if not all(lit in true for lit in job.cube):
            raise Unfit(f"the model of job {number} makes its cube false")
        if not all(any(lit in true for lit in clause) for clause in job.clauses):
            raise Unfit(f"the model of job {number} makes a clause false")

    def _part(self, job, number, part):
        if not set(part) <= set(job.cube):
            raise Unfit(f"the part of job {number} has a literal that its cube hasn't")
        if self._truths.of_all(job.clauses, part):
            raise Unfit(f"the part of job {number} has a model")

    def _is_allowed(self, job, verdict):
        if verdict == "UNKNOWN":
            budget = self._words.conflicts
            return budget is not None and budget <= 3**job.variables
        if verdict == "CANCELLED":
            return self._words.first and "SATISFIABLE" in self.verdicts[:-1]
        return verdict == "NOMEMORY"


class Unfit(Exception):
    """What is wrong with an output."""


def lits_of(line, mark):
    first, *numbers = line.split(" ")
    if first != mark or not numbers or numbers.pop() != "0":
        raise Unfit(f"the line {line!r} has another form")
    return [int(number) for number in numbers]
