"""The listing of a tally, as the program `tally` writes it: what is in which line, and how listings add up."""
import re
from typing import List, NamedTuple

from records.kinds import ANSWERED, KINDS, MEANINGS, MOST_ROTATIONS

# ---- the lines and columns, from the lists of kinds and codes: nothing below has a number of its own

MARKS = ('settled', 'unsettled')
CODES = tuple(MEANINGS)
ANSWERED_AT = CODES.index(ANSWERED)
COLUMNS = tuple(f'code {code}' for code in CODES) + MARKS
# kinds that the list does not have share the last row
ROWS = tuple(str(kind.number) for kind in KINDS) + ('other',)
TURNING = tuple(kind for kind in KINDS if kind.counts_rotations)
TURN_COLUMNS = tuple(f'kind {kind.number}' for kind in TURNING)
TURNS = tuple(str(n) for n in range(MOST_ROTATIONS + 1))

LARGEST = 2 ** 64 - 1
NUMBER = re.compile('0|[1-9][0-9]{0,19}')
# no line of a listing is so long, and what is no listing may have no lines
LONGEST_LINE = 4096


class Number(NamedTuple):
    """A number of a listing, with the names of its line and its column."""
    kind: str       # '' where it is of the whole file
    what: str
    value: int

    @property
    def name(self):
        line = f'kind {self.kind}' if self.kind.isdigit() else self.kind
        return ', '.join(word for word in (line, self.what) if word)


class Tally(NamedTuple):
    rows: List[List[int]]       # by ROWS and COLUMNS
    foreign: int
    left_over: int
    turns: List[List[int]]      # by TURNS and TURNING

    @property
    def total(self):
        return [sum(column) for column in zip(*self.rows)]

    @property
    def records(self):
        """Each record has one code, or is foreign."""
        return sum(self.total[:len(CODES)]) + self.foreign

    def numbers(self):
        """Every number of the listing, in its order."""
        for kind, counts in zip(ROWS + ('total',), self.rows + [self.total]):
            yield from (Number(kind, what, n) for what, n in zip(COLUMNS, counts))
        yield Number('', 'records', self.records)
        yield Number('', 'foreign', self.foreign)
        yield Number('', 'left over', self.left_over)
        for made, counts in zip(TURNS, self.turns):
            yield from (Number(str(kind.number), f'rotations {made}', n) for kind, n in zip(TURNING, counts))

    def too_large(self):
        """The first number that passes 64 bits, or None."""
        return next((number for number in self.numbers() if number.value > LARGEST), None)


def plus(some, more):
    """Count by count."""
    if isinstance(some, int):
        return some + more
    return [plus(x, y) for x, y in zip(some, more)]


def sum_of(tallies):
    first, *others = tallies
    for other in others:
        first = Tally(*plus(first, other))
    return first


# ---- reading

class BadListing(ValueError):
    """A line that no listing has there; the text says which, and why."""


class Lines:
    """The lines of a file that is to hold listings."""

    def __init__(self, source):
        self.source, self.number = source, 0
        self.ahead = source.readline(LONGEST_LINE)

    def bad(self, reason, number=None):
        return BadListing(f'{number or self.number}: {reason}')

    def take(self, name):
        """The fields of the next line, where it begins with this name."""
        line, self.ahead = self.ahead, self.source.readline(LONGEST_LINE)
        self.number += 1
        if not line:
            raise self.bad(f'the file ends before the line {name!r}')
        if not line.endswith(b'\n'):
            raise self.bad('the line is cut short')
        first, *fields = line[:-1].decode('utf-8', errors='replace').split('\t')
        if first != name:
            raise self.bad(f'a listing has the line {name!r} here, and not {first[:20]!r}')
        return fields

    def heading(self, name, columns):
        if tuple(self.take(name)) != columns:
            raise self.bad(f"the columns behind {name!r} are: {', '.join(columns)}")

    def counts(self, name, columns):
        fields = self.take(name)
        if len(fields) != len(columns):
            raise self.bad(f'{name!r} has {len(columns)} numbers, and here are {len(fields)}')
        for field in fields:
            if not NUMBER.fullmatch(field) or int(field) > LARGEST:
                raise self.bad(f'{field[:30]!r} is not a whole number from 0 to {LARGEST}')
        return [int(field) for field in fields]

    def count(self, name):
        return self.counts(name, (name,))[0]

    def same(self, what, found, parts, expected, number=None):
        if found != expected:
            raise self.bad(f'{what} is {found}, and {parts} add up to {expected}', number)


def read_row(lines, name):
    counts = lines.counts(name, COLUMNS)
    lines.same('code 0', counts[ANSWERED_AT], ' and '.join(MARKS), sum(counts[len(CODES):]))
    return counts


def read_tally(lines):
    """The next listing. What follows from its counts must be as it says: one that was damaged or mended by hand is refused."""
    lines.heading('kind', COLUMNS)
    tally = Tally([read_row(lines, name) for name in ROWS], 0, 0, [])
    for what, found, expected in zip(COLUMNS, lines.counts('total', COLUMNS), tally.total):
        lines.same(f'the total of {what}', found, 'the rows', expected)
    records, at = lines.count('records'), lines.number
    tally = tally._replace(foreign=lines.count('foreign'))
    lines.same('records', records, 'the totals of the codes and foreign', tally.records, at)
    tally = tally._replace(left_over=lines.count('left over'))
    lines.heading('turns', TURN_COLUMNS)
    tally = tally._replace(turns=[lines.counts(made, TURN_COLUMNS) for made in TURNS])
    for kind, made in zip(TURNING, zip(*tally.turns)):
        answered = tally.rows[ROWS.index(str(kind.number))][ANSWERED_AT]
        lines.same(f'code 0 of kind {kind.number}', answered, 'its rotations', sum(made))
    return tally


def read_tallies(source):
    """All listings of a file, one after the other. A file that has none is no listing of nothing."""
    lines = Lines(source)
    while True:
        yield read_tally(lines)
        if not lines.ahead:
            return
