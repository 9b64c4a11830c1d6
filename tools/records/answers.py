"""The bytes of an answer file, taken apart, and what in it cannot be an answer."""
import math
import struct
from typing import NamedTuple, Optional, Tuple

from records.kinds import (ANSWERED, ANSWER_SIZE, BAD_PIVOT, BY_NUMBER, Kind, MEANINGS, MOST_ROTATIONS, NOT_FINITE,
                           PIVOT_FAULTS, UNKNOWN_KIND, WRONG_LENGTH)

# event number, kind, code, count, mark, three values, nine numbers left and nine right
LAYOUT = struct.Struct('<IBBBB21d')
COUNT_AT, MARK_AT, VALUES_AT, LEFT_AT, RIGHT_AT = 6, 7, 8, 32, 104
NUMBER = 8


class Answer(NamedTuple):
    offset: int
    event: Optional[int]        # None where the request had the wrong length
    kind: Optional[Kind]        # None where there is none of that number
    kind_byte: int
    code: int
    rotations: Optional[int]    # None where they are not counted
    settled: Optional[bool]     # None where nothing was answered
    pivot: Optional[int]        # the refused one
    values: Tuple[float, ...]
    left: Tuple[float, ...]
    right: Tuple[float, ...]

    @property
    def kind_name(self):
        if self.code == WRONG_LENGTH:
            return ''
        return self.kind.name if self.kind else f'unknown {self.kind_byte}'

    @property
    def meaning(self):
        fault = PIVOT_FAULTS.get(self.code)
        return f'pivot {self.pivot} {fault}' if fault else MEANINGS[self.code]


class Foreign(NamedTuple):
    """A record's bytes that no request is answered with."""
    offset: int
    reason: str


class LeftOver(NamedTuple):
    """The bytes behind the last whole record."""
    offset: int
    count: int


def places(kind):
    """The numbers that an answer of a kind has: how many values, left and right."""
    square, packed = kind.size * kind.size, len(kind.matrix)
    return {
        'eigen': (kind.size, square, 0),
        'svd': (kind.size, square, square),
        'cholesky': (0, packed, 0),
        'solve': (kind.size, packed, 0),
    }[kind.job]


def nonzero(record, offset, first, end):
    """The first byte of a part that is to be zero and is not, told by its place in the file."""
    for at in range(first, end):
        if record[at]:
            return f'byte {offset + at} is {record[at]} and must be 0'
    return None


def pivots_of(kind, code):
    """The pivots that a kind can refuse with a code. Where the matrix is finite, the first two are never NaN."""
    if kind.job not in ('cholesky', 'solve'):
        return ()
    return tuple(range(1 if code == BAD_PIVOT else 3, kind.size + 1))


def is_given(kind, code):
    """Whether a request of a kind can be refused with a code."""
    if kind is None or code == UNKNOWN_KIND:
        return kind is None and code == UNKNOWN_KIND
    if code in PIVOT_FAULTS:
        return bool(pivots_of(kind, code))
    # a number of a factor that is NaN or infinite makes a pivot NaN or -infinity, and that is refused first
    return code != NOT_FINITE or kind.job != 'cholesky'


def refused_fault(record, offset):
    """A refused record keeps event, kind, code and the pivot's number."""
    kind, code, count = BY_NUMBER.get(record[4]), record[5], record[COUNT_AT]
    if code == WRONG_LENGTH:
        return nonzero(record, offset, 0, 5) or nonzero(record, offset, COUNT_AT, ANSWER_SIZE)
    if not is_given(kind, code):
        return f'code {code} is not given for kind {record[4]}'
    if code not in PIVOT_FAULTS:
        return nonzero(record, offset, COUNT_AT, ANSWER_SIZE)
    pivots = pivots_of(kind, code)
    if count not in pivots:
        those = ' to '.join(str(k) for k in sorted({pivots[0], pivots[-1]}))
        return f'the refused pivot is {count}, and with code {code} {kind.name} has {those}'
    return nonzero(record, offset, MARK_AT, ANSWER_SIZE)


def can_be_unsettled(kind, count):
    """Whether an answer with code 0 and so many rotations can have the mark 0. Without a rotation nothing is left to settle."""
    return kind.makes_rotations and (count > 0 or not kind.counts_rotations)


def head_fault(record, kind):
    """The count and the mark of an answer with code 0."""
    count, mark = record[COUNT_AT], record[MARK_AT]
    most = MOST_ROTATIONS if kind.counts_rotations else 0
    if count > most:
        return f'the count of rotations is {count}, and {kind.name} has at most {most}'
    if mark > 1:
        return f'the settled mark is {mark}, and must be 0 or 1'
    if mark == 0 and not can_be_unsettled(kind, count):
        return f'{kind.name} is marked unsettled without a rotation'
    return None


def answered_fault(record, offset):
    """An answer with code 0 has finite numbers in its kind's places and zero bytes in all others."""
    kind = BY_NUMBER.get(record[4])
    if kind is None:
        return f'code 0 is not given for kind {record[4]}'
    fault = head_fault(record, kind)
    ends = (LEFT_AT, RIGHT_AT, ANSWER_SIZE)
    for begin, count, end in zip((VALUES_AT, LEFT_AT, RIGHT_AT), places(kind), ends):
        for at in range(begin, begin + count * NUMBER, NUMBER):
            if not math.isfinite(struct.unpack_from('<d', record, at)[0]):
                fault = fault or f'the number at byte {offset + at} is NaN or infinite'
        fault = fault or nonzero(record, offset, begin + count * NUMBER, end)
    return fault


def fault_of(record, offset):
    """Why a record's bytes cannot be an answer, or None."""
    code = record[5]
    if code not in MEANINGS:
        return f'code {code} is none that an answer has'
    return answered_fault(record, offset) if code == ANSWERED else refused_fault(record, offset)


def taken_apart(record, offset):
    """The answer that a record's bytes are, or why they are none."""
    reason = fault_of(record, offset)
    if reason:
        return Foreign(offset, reason)
    event, kind_byte, code, count, mark, *numbers = LAYOUT.unpack(record)
    kind, done = BY_NUMBER.get(kind_byte), code == ANSWERED
    values, left, right = places(kind) if done else (0, 0, 0)
    return Answer(
        offset=offset, event=None if code == WRONG_LENGTH else event, kind=kind, kind_byte=kind_byte, code=code,
        rotations=count if done and kind.counts_rotations else None,
        settled=bool(mark) if done else None,
        pivot=count if code in PIVOT_FAULTS else None,
        values=tuple(numbers[:values]), left=tuple(numbers[3:3 + left]), right=tuple(numbers[12:12 + right]))


def read_answers(source):
    """All that an answer file holds, one record after the other: only one is held at a time."""
    offset = 0
    while True:
        record = source.read(ANSWER_SIZE)
        if len(record) < ANSWER_SIZE:
            break
        yield taken_apart(record, offset)
        offset += ANSWER_SIZE
    if record:
        yield LeftOver(offset, len(record))


def columns(numbers, size):
    """A square matrix's columns, from its numbers."""
    return [numbers[i * size:(i + 1) * size] for i in range(size)]


def lower_rows(numbers):
    """A packed factor's rows: L11, then L21 L22, then L31 L32 L33."""
    rows, at = [], 0
    while at < len(numbers):
        rows.append(numbers[at:at + len(rows) + 1])
        at += len(rows)
    return rows
