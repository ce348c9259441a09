"""Base matrices: the form that an image asks of one, and families that are made by name."""
from ..faults import InputFault
from ..random_words import RandomWords

# Draws of one column before a short cycle is let through.
MOST_DRAWS = 200


def fault_of_entry(matrix, lifting):
    """The first entry that is neither -1 nor a shift, as its place and what is wrong, or None."""
    for i, base_row in enumerate(matrix):
        for j, entry in enumerate(base_row):
            if not -1 <= entry < lifting:
                return i, j, f"{entry} isn't in -1 to {lifting - 1}"
    return None


def fault_of_parity(matrix):
    """What is wrong with the first parity column, as the place of the entry and the text, or None."""
    rows, first = len(matrix), len(matrix[0]) - len(matrix)
    column = [base_row[first] for base_row in matrix]
    if column[0] == -1:
        return 0, first, "-1 isn't a shift, which the first parity column has in its first row"
    seen = 0
    for i in range(1, rows - 1):
        if column[i] not in (-1, 0) or column[i] == 0 and seen:
            return i, first, f"{column[i]} isn't right: the first parity column has one 0 and else -1 in its middle rows"
        seen += column[i] == 0
    if column[-1] != column[0]:
        return rows - 1, first, f"{column[-1]} isn't the shift {column[0]} of the first row of the first parity column"
    if not seen:
        return rows - 1, first, "the first parity column has no 0 in its middle rows"
    return None


def fault_of_diagonal(matrix):
    """The first entry that breaks the double diagonal, as its place and what is wrong, or None."""
    rows, first = len(matrix), len(matrix[0]) - len(matrix)
    for i in range(rows):
        for t in range(1, rows):
            due = 0 if i in (t - 1, t) else -1
            if matrix[i][first + t] != due:
                return i, first + t, f"{matrix[i][first + t]} isn't {due}, which the double diagonal has here"
    return None


def check_matrix(matrix, lifting):
    """Raises the first fault of a matrix, by entries, first parity column and double diagonal."""
    found = fault_of_entry(matrix, lifting) or fault_of_parity(matrix) or fault_of_diagonal(matrix)
    if found:
        i, j, text = found
        raise InputFault(f"row {i}, column {j}: {text}", field="code.matrix")


def with_parity_part(message_rows):
    """Message columns with the dual-diagonal parity columns after them."""
    rows, middle = len(message_rows), len(message_rows) // 2
    matrix = []
    for i, message_row in enumerate(message_rows):
        first = 1 if i in (0, rows - 1) else 0 if i == middle else -1
        matrix.append([*message_row, first, *[0 if i in (t - 1, t) else -1 for t in range(1, rows)]])
    return matrix


class Cycles:
    """The differences of shifts between two rows: the same twice is a cycle of four edges."""

    def __init__(self, lifting):
        self.lifting, self.seen = lifting, set()

    def of(self, column):
        """The differences in a column, given as row and shift."""
        return {(i, j, (s - t) % self.lifting) for i, s in column for j, t in column if i < j}

    def closes_one(self, column):
        """Whether a column closes a cycle of four with those that were taken."""
        return not self.seen.isdisjoint(self.of(column))

    def take(self, column):
        """Takes a column."""
        self.seen |= self.of(column)


def random_family(rows, columns, lifting, words, weight):
    """Columns of `weight` blocks in the emptiest rows, with shifts that close as few short cycles as can be."""
    cycles = Cycles(lifting)
    parity = with_parity_part([[] for _ in range(rows)])
    for j in range(rows):
        cycles.take([(i, parity[i][j]) for i in range(rows) if parity[i][j] >= 0])
    message, filled = [[-1] * (columns - rows) for _ in range(rows)], [0] * rows
    for j in range(columns - rows):
        order = list(range(rows))
        words.shuffle(order)
        order.sort(key=lambda i: filled[i])
        for draw in range(MOST_DRAWS):
            column = sorted((i, words.below(lifting)) for i in order[:weight])
            if not cycles.closes_one(column):
                break
        cycles.take(column)
        for i, shift in column:
            message[i][j], filled[i] = shift, filled[i] + 1
    return with_parity_part(message)


def staggered_family(rows, columns, lifting, words, _weight):
    """Shifts where (row + column) mod 8 is 0, 3 or 5, the next word mod the lifting size each."""
    message = [[words.word() % lifting if (i + j) % 8 in (0, 3, 5) else -1 for j in range(columns - rows)]
               for i in range(rows)]
    return with_parity_part(message)


def array_family(rows, columns, lifting, _words, _weight):
    """The shift row * column mod the lifting size everywhere, as in array codes."""
    return with_parity_part([[i * j % lifting for j in range(columns - rows)] for i in range(rows)])


FAMILIES = {"random": random_family, "staggered": staggered_family, "array": array_family}
SEEDED = ("random", "staggered")


def matrix_of_family(family, rows, columns, lifting, seed, weight):
    """The matrix of a family by name. A seed is of use to the families in SEEDED alone."""
    return FAMILIES[family](rows, columns, lifting, RandomWords(seed or 0), weight)
