"""Poseidon2 by its matrices, as the paper has it."""

# M_4, and the one that the library of the paper's authors takes.
CIRCULANT = ((2, 3, 1, 1), (1, 2, 3, 1), (1, 1, 2, 3), (3, 1, 1, 2))
OF_THE_AUTHORS = ((5, 7, 1, 3), (4, 6, 1, 1), (1, 3, 5, 7), (1, 1, 4, 6))


def external_matrix(width, four):
    """Returns M_E: circ(2 M_4, M_4, .., M_4)."""
    return [[(2 if i // 4 == j // 4 else 1) * four[i % 4][j % 4] for j in range(width)] for i in range(width)]


def internal_matrix(diagonal):
    """Returns M_I: 1 everywhere, and on the diagonal so much more."""
    return [[1 + more if i == j else 1 for j in range(len(diagonal))] for i, more in enumerate(diagonal)]


def times(order, matrix, cells):
    """Returns a matrix times the cells."""
    return [sum(entry * cell for entry, cell in zip(row, cells)) % order for row in matrix]


def permuted(it, constants, cells, four=CIRCULANT):
    """Returns what the permutation of a set with these constants makes of the cells."""
    external, internal = external_matrix(it.width, four), internal_matrix(constants.diagonal)

    def external_round(cells, added):
        return times(it.order, external, [pow(x + y, it.degree, it.order) for x, y in zip(cells, added)])

    cells = times(it.order, external, cells)
    for added in constants.initial:
        cells = external_round(cells, added)
    for added in constants.internal:
        cells = times(it.order, internal, [pow(cells[0] + added, it.degree, it.order), *cells[1:]])
    for added in constants.terminal:
        cells = external_round(cells, added)
    return cells
