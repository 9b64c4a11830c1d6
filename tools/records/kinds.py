"""The eight kinds of request, their ways and the codes of an answer, each named once."""
from typing import NamedTuple, Tuple


class Kind(NamedTuple):
    number: int
    name: str
    job: str                    # eigen, svd, cholesky or solve
    size: int                   # of the matrix: 2 or 3
    matrix: Tuple[str, ...]     # its numbers, in the order of the record
    right_side: Tuple[str, ...]  # those of a solve's right side

    @property
    def needs(self):
        return len(self.matrix) + len(self.right_side)

    @property
    def makes_rotations(self):
        """Whether it is answered by rotations, so that byte 7 can say that they left something."""
        return self.job in ('eigen', 'svd')

    @property
    def has_old_way(self):
        """Whether byte 5 of a request can choose: its matrix is scaled, or worked as it is given."""
        return self.makes_rotations

    @property
    def counts_rotations(self):
        """Whether byte 6 counts them: a 2x2 makes one, and it is not counted."""
        return self.size == 3 and self.makes_rotations


# A symmetric matrix is its upper triangle, column by column; a square one is all of its columns.
SYMMETRIC = {2: ('A11', 'A12', 'A22'), 3: ('A11', 'A12', 'A22', 'A13', 'A23', 'A33')}
SQUARE = {2: ('A11', 'A21', 'A12', 'A22'),
          3: ('A11', 'A21', 'A31', 'A12', 'A22', 'A32', 'A13', 'A23', 'A33')}
RIGHT_SIDE = {2: ('b1', 'b2'), 3: ('b1', 'b2', 'b3')}

KINDS = (
    Kind(1, 'eigen2', 'eigen', 2, SYMMETRIC[2], ()),
    Kind(2, 'eigen3', 'eigen', 3, SYMMETRIC[3], ()),
    Kind(3, 'svd2', 'svd', 2, SQUARE[2], ()),
    Kind(4, 'svd3', 'svd', 3, SQUARE[3], ()),
    Kind(5, 'cholesky2', 'cholesky', 2, SYMMETRIC[2], ()),
    Kind(6, 'cholesky3', 'cholesky', 3, SYMMETRIC[3], ()),
    Kind(7, 'solve2', 'solve', 2, SYMMETRIC[2], RIGHT_SIDE[2]),
    Kind(8, 'solve3', 'solve', 3, SYMMETRIC[3], RIGHT_SIDE[3]),
)
BY_NUMBER = {kind.number: kind for kind in KINDS}
BY_NAME = {kind.name: kind for kind in KINDS}

# byte 5 of a request
DEFAULT_WAY, OLD_WAY = 0, 1

ANSWERED, WRONG_LENGTH, UNKNOWN_KIND, BAD_PIVOT, NOT_FINITE, NAN_PIVOT = 0, 1, 3, 6, 7, 9

# With these byte 6 has the number of the refused pivot.
PIVOT_FAULTS = {BAD_PIVOT: 'is <= 0', NAN_PIVOT: 'is NaN'}

# Codes 2, 8 and 14 are of calls alone, so no file has them.
MEANINGS = {
    ANSWERED: 'answered',
    WRONG_LENGTH: 'the request has the wrong length',
    UNKNOWN_KIND: 'the kind is not 1 to 8',
    4: 'a reserved byte or an unused number is not all zero bits, or the kind has no such way',
    5: 'a used number of the request is NaN or infinite',
    BAD_PIVOT: f'a pivot {PIVOT_FAULTS[BAD_PIVOT]}',
    NOT_FINITE: 'a number of the answer or of the worked matrix is NaN or infinite',
    NAN_PIVOT: f'a pivot {PIVOT_FAULTS[NAN_PIVOT]}',
}

REQUEST_SIZE = 104
ANSWER_SIZE = 176
MOST_ROTATIONS = 25
LARGEST_EVENT = 2 ** 32 - 1
