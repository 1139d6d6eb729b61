"""Puzzles as formulas in clauses, for SAT solvers."""


class Formula:
    """A formula in clauses, with its variables numbered from 1."""

    def __init__(self):
        self.variables, self.clauses = 0, []

    def variable(self):
        self.variables += 1
        return self.variables

    def add(self, *literals):
        """Adds a clause. A literal that is True makes it needless, one that is False is left out."""
        if not any(literal is True for literal in literals):
            self.clauses.append([literal for literal in literals if literal is not False])

    def write(self, path):
        with open(path, "w") as file:
            file.write(f"p cnf {self.variables} {len(self.clauses)}\n")
            file.writelines(" ".join(map(str, [*clause, 0])) + "\n" for clause in self.clauses)


def negated(literal):
    return not literal if isinstance(literal, bool) else -literal


def add_line(formula, cells, runs):
    """Says that the runs of filled cells along a line are these. A variable for each run and cell says that the run starts
    there or before."""
    least, starts = 0, []
    slack = len(cells) - sum(runs) - max(0, len(runs) - 1)
    if slack < 0:
        formula.add(False)
        return
    for run in runs:
        begun = {cell: formula.variable() for cell in range(least, least + slack)}
        starts.append(lambda cell, begun=begun, least=least: begun.get(cell, cell >= least))
        for cell in range(least + 1, least + slack):
            formula.add(-begun[cell - 1], begun[cell])
        least += run + 1
    for number, run in enumerate(runs[1:], 1):
        for cell in range(len(cells)):
            formula.add(negated(starts[number](cell)), starts[number - 1](cell - runs[number - 1] - 1))
    for index, cell in enumerate(cells):
        covers = []
        for begun, run in zip(starts, runs):
            here, past = begun(index), begun(index - run)
            formula.add(negated(here), past, cell)
            if here is True and past is False:
                covers.append(True)
            elif here is not False and past is not True:
                covered = formula.variable()
                formula.add(-covered, here)
                formula.add(-covered, negated(past))
                covers.append(covered)
        formula.add(-cell, *covers)


def formula_of(nin):
    """Returns the formula of a puzzle, a text in .nin as the program writes it. Its first variables are the cells, by rows."""
    (width, height), *clues = ([int(number) for number in line.split()] for line in nin.splitlines())
    formula = Formula()
    grid = [[formula.variable() for _ in range(width)] for _ in range(height)]
    for cells, clue in zip([*grid, *zip(*grid)], clues):
        add_line(formula, cells, [run for run in clue if run])
    return formula
