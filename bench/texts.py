"""Writing iCNF texts statement by statement, and building circuits as clauses."""


class Text:
    """An iCNF text that is written to an open file. Literals are integers other than 0."""

    def __init__(self, file):
        self._file = file
        self.variables = 0  # the greatest variable that was named or given out
        self.clauses = 0
        self.jobs = 0
        self.cubes_at_end = True  # no clause stands behind a cube
        file.write("p inccnf\n")

    def new(self):
        """A variable that stands in no clause yet."""
        self.variables += 1
        return self.variables

    def several(self, count):
        return [self.new() for _ in range(count)]

    def clause(self, *lits):
        self._statement("", lits)
        self.clauses += 1
        self.cubes_at_end = self.cubes_at_end and self.jobs == 0

    def cube(self, *lits):
        """One job: whether the clauses so far and these literals have a model."""
        self._statement("a ", lits)
        self.jobs += 1

    def _statement(self, before, lits):
        self.variables = max(self.variables, *map(abs, lits), 0, 0)
        self._file.write(f"{before}{' '.join(map(str, (*lits, 0)))}\n")


class Circuit:
    """Gates over a text, each a new variable with the clauses that define it.

    Gates with a constant input are simplified, as every encoder does it.
    """

    def __init__(self, text):
        self.text = text
        self.true = text.new()
        text.clause(self.true)

    def input(self, width):
        return self.text.several(width)

    def zeros(self, width):
        return [-self.true] * width

    def both(self, one, other):
        if one == -self.true or other == -self.true or one == -other:
            return -self.true
        if one == self.true or one == other:
            return other
        if other == self.true:
            return one
        gate = self.text.new()
        self.text.clause(-gate, one)
        self.text.clause(-gate, other)
        self.text.clause(gate, -one, -other)
        return gate

    def either(self, one, other):
        return -self.both(-one, -other)

    def differ(self, one, other):
        if abs(one) == self.true:
            return other if one == -self.true else -other
        if abs(other) == self.true:
            return one if other == -self.true else -one
        if abs(one) == abs(other):
            return -self.true if one == other else self.true
        gate = self.text.new()
        self.text.clause(-gate, one, other)
        self.text.clause(-gate, -one, -other)
        self.text.clause(gate, -one, other)
        self.text.clause(gate, one, -other)
        return gate

    def all_of(self, lits):
        result = self.true
        for lit in lits:
            result = self.both(result, lit)
        return result

    def any_of(self, lits):
        return -self.all_of([-lit for lit in lits])

    def choose(self, condition, one, other):
        """One where the condition holds, the other where not."""
        if one == other:
            return one
        return self.either(self.both(condition, one), self.both(-condition, other))

    def choose_word(self, condition, one, other):
        return [self.choose(condition, *pair) for pair in zip(one, other)]

    def equal(self, one, other):
        return self.all_of([-self.differ(*pair) for pair in zip(one, other)])

    def full_adder(self, one, other, carry):
        """Sum and carry."""
        half = self.differ(one, other)
        carried = self.either(self.both(one, other), self.both(half, carry))
        return self.differ(half, carry), carried

    def sum(self, one, other):
        """The sum of two words of one width, lowest bit first, without its last carry."""
        carry, bits = -self.true, []
        for pair in zip(one, other):
            bit, carry = self.full_adder(*pair, carry)
            bits.append(bit)
        return bits

    def increment(self, word, condition):
        """The word, and one more where the condition holds."""
        carry, bits = condition, []
        for bit in word:
            bits.append(self.differ(bit, carry))
            carry = self.both(bit, carry)
        return bits

    def is_number(self, word, number):
        bits = [bit if number >> place & 1 else -bit for place, bit in enumerate(word)]
        return self.all_of(bits)

    def product(self, one, other):
        """The low half of the product of two words of one width, by rows of adders."""
        total = self.zeros(len(one))
        for shift, factor in enumerate(other):
            row = [self.both(factor, bit) for bit in one[: len(one) - shift]]
            total = self.sum(total, self.zeros(shift) + row)
        return total
