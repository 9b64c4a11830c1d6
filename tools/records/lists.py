"""Requests from a list that people write: one line to a request, as text or as CSV."""
import csv
import io
import struct
from typing import List, NamedTuple

from records.kinds import BY_NAME, BY_NUMBER, DEFAULT_WAY, KINDS, LARGEST_EVENT, OLD_WAY
from records.numbers import BadNumber, read_number

# event number, kind, way, two reserved bytes, nine numbers and three
LAYOUT = struct.Struct('<IBB2x12d')
MATRIX_PLACES = 9
RIGHT_SIDE_PLACES = 3

# behind the kind, in a request that is to be worked in the old way
OLD = 'old'


class Line(NamedTuple):
    number: int
    words: List[str]


class Fault(NamedTuple):
    line: int
    reason: str


def text_lines(text):
    """The lines that hold something, without what follows a #."""
    for number, line in enumerate(io.StringIO(text, newline=None), start=1):
        words = line.partition('#')[0].split()
        if words:
            yield Line(number, words)


def csv_lines(text):
    """The rows below the header, without the empty cells that a spreadsheet puts behind a short row."""
    rows = csv.reader(io.StringIO(text, newline=''))
    for row in rows:
        words = [cell.strip() for cell in row]
        while words and not words[-1]:
            words.pop()
        if words or rows.line_num == 1:
            yield Line(rows.line_num, words)


def read_event(word):
    if not (word.isascii() and word.isdigit()):
        raise BadNumber(f'event {word!r} is not a whole number from 0 to {LARGEST_EVENT}')
    # int() refuses thousands of digits, and none so long is an event's number
    if len(word.lstrip('0')) > 10 or int(word) > LARGEST_EVENT:
        raise BadNumber(f'event {word} is above {LARGEST_EVENT}, the largest that a record holds')
    return int(word)


def read_kind(word):
    if word.lower() in BY_NAME:
        return BY_NAME[word.lower()]
    if word in map(str, BY_NUMBER):
        return BY_NUMBER[int(word)]
    names = ', '.join(kind.name for kind in KINDS)
    raise BadNumber(f'kind {word!r} is unknown: write one of {names}, or a number from 1 to 8')


def read_way(kind, words, old_way):
    """The way of a request, the words behind it, and the reasons why the kind does not have it."""
    if words and words[0].lower() == OLD:
        return OLD_WAY, words[1:], [] if kind.has_old_way else [f'{kind.name} has no old way: leave out {words[0]!r}']
    return (OLD_WAY if old_way and kind.has_old_way else DEFAULT_WAY), words, []


def read_numbers(kind, words):
    """The numbers of a request, and the reasons why some of the words are none."""
    numbers, reasons = [], []
    if len(words) != kind.needs:
        order = ' '.join(kind.matrix + kind.right_side)
        reasons.append(f'{kind.name} needs {kind.needs} numbers ({order}), and here are {len(words)}')
    for word in words:
        try:
            numbers.append(read_number(word))
        except BadNumber as e:
            reasons.append(str(e))
    return numbers, reasons


def pack(event, kind, way, numbers):
    """The bytes of a request. Places that the kind does not use are zero."""
    matrix, right_side = numbers[:len(kind.matrix)], numbers[len(kind.matrix):]
    matrix = matrix + [0.0] * (MATRIX_PLACES - len(matrix))
    right_side = right_side + [0.0] * (RIGHT_SIDE_PLACES - len(right_side))
    return LAYOUT.pack(event, kind.number, way, *matrix, *right_side)


def read_line(line, old_way):
    """A line's request as bytes, or None, and the reasons why it is none."""
    if len(line.words) < 2:
        return None, ['a line is: event number, kind, numbers']
    event, kind, way, numbers, reasons = None, None, DEFAULT_WAY, [], []
    # a cell of CSV can have the kind and the word behind it
    name, *words = line.words[1].split() or ['']
    try:
        event = read_event(line.words[0])
    except BadNumber as e:
        reasons.append(str(e))
    try:
        kind = read_kind(name)
    except BadNumber as e:
        reasons.append(str(e))
    else:
        way, words, faults = read_way(kind, words + line.words[2:], old_way)
        numbers, more = read_numbers(kind, words)
        reasons += faults + more
    return (None if reasons else pack(event, kind, way, numbers)), reasons


def read_list(text, is_csv, old_way=False):
    """All requests of a list, as bytes, and all faults. With a fault the bytes are no answer to the list. With old_way each request
    of a kind that has an old way is in that way."""
    requests, faults = bytearray(), []
    lines = csv_lines(text) if is_csv else text_lines(text)
    try:
        if is_csv:
            header = next(lines, Line(1, []))
            if [word.lower() for word in header.words[:2]] != ['event', 'kind']:
                faults.append(Fault(1, 'the header of a CSV list begins with: event,kind'))
        for line in lines:
            request, reasons = read_line(line, old_way)
            faults += [Fault(line.number, reason) for reason in reasons]
            requests += request or b''
    except csv.Error as e:
        faults.append(Fault(text.count('\n') + 1, f'the CSV cannot be read to its end: {e}'))
    return bytes(requests), faults
