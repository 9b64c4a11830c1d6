"""An answer file as aligned text, as CSV and as JSON lines. A view takes what stands in the file, in order."""
import csv
import json

from records.answers import Answer, Foreign, columns, lower_rows
from records.numbers import decimal, hexadecimal

MARKS = {None: '-', True: 'yes', False: 'no'}
EIGEN_LABELS = {2: ('smaller', 'larger'), 3: ('smallest', 'middle', 'largest')}


def said_of(damage):
    """What is foreign or left over, in words."""
    if isinstance(damage, Foreign):
        return f'foreign: {damage.reason}'
    return f"left over: {damage.count} byte{'s' * (damage.count != 1)}, and an answer has 176"


def parts_of(answer):
    """The numbers of an answer by name: values, axes, U and V by columns, factor by rows, solution."""
    if not answer.kind or not answer.left:
        return {}
    size, job = answer.kind.size, answer.kind.job
    if job == 'eigen':
        return {'values': answer.values, 'axes': columns(answer.left, size)}
    if job == 'svd':
        return {'values': answer.values, 'U': columns(answer.left, size), 'V': columns(answer.right, size)}
    factor = {'factor': lower_rows(answer.left)}
    return {'solution': answer.values, **factor} if job == 'solve' else factor


def has_ground_axes(answer):
    """Whether an answer's axes have a trend and a plunge, once a frame is named: those of 3x3 tensors."""
    return bool(answer.left) and answer.kind.name == 'eigen3'


class TextView:
    """A line for each answer, and below it its numbers in columns."""
    # an event's number has up to 10 digits, a double up to 24 characters
    HEAD = '{:>10}  {:<11}  {:>9}  {:<7}  {}'
    ROW = ' ' * 12 + '{:<8}' + '  {:>24}' * 4

    def __init__(self, out, show=decimal, frame=None):
        self.out, self.show, self.frame = out, show, frame

    def line(self, form, *cells):
        self.out.write(form.format(*cells).rstrip() + '\n')

    def begin(self):
        self.line(self.HEAD, 'event', 'kind', 'rotations', 'settled', 'code')
        ground = '   trend  plunge' if self.frame else ''
        self.line(self.ROW + '{}', '', 'value', 'x', 'y', 'z', ground)

    def put(self, item):
        if not isinstance(item, Answer):
            self.out.write(f'at byte {item.offset}, {said_of(item)}\n')
            return
        event = '-' if item.event is None else item.event
        rotations = '-' if item.rotations is None else item.rotations
        self.line(self.HEAD, event, item.kind_name or '-', rotations, MARKS[item.settled], f'{item.code} {item.meaning}')
        parts = parts_of(item)
        for i, axis in enumerate(parts.get('axes', ())):
            self.row(EIGEN_LABELS[len(axis)][i], item.values[i], axis, self.ground(item, axis))
        for name in ('U', 'V'):
            for i, column in enumerate(parts.get(name, ())):
                self.row(f'{name}{i + 1}', item.values[i] if name == 'U' else None, column)
        for i, row in enumerate(parts.get('factor', ())):
            self.row(f'L row {i + 1}', None, row)
        if 'solution' in parts:
            self.row('solution', None, parts['solution'])

    def ground(self, answer, axis):
        found = self.frame and has_ground_axes(answer) and self.frame.trend_and_plunge(axis)
        return '  {:6.1f}  {:6.1f}'.format(*found) if found else ''

    def row(self, label, value, numbers, ground=''):
        cells = ['' if value is None else self.show(value)] + [self.show(x) for x in numbers]
        self.line(self.ROW + '{}', label, *cells, *[''] * (4 - len(cells)), ground)


class CsvView:
    """One header for all kinds; a cell is empty where an answer has no such number."""
    HEAD = ['offset', 'event', 'kind', 'code', 'meaning', 'pivot', 'rotations', 'settled']
    VALUES = ['value_1', 'value_2', 'value_3']
    VECTORS = [f'{name}_{i}_{part}' for name in ('axis', 'U', 'V') for i in '123' for part in 'xyz']
    FACTOR = ['L11', 'L21', 'L22', 'L31', 'L32', 'L33']
    SOLUTION = ['solution_x', 'solution_y', 'solution_z']
    GROUND = [f'axis_{i}_{angle}' for i in '123' for angle in ('trend', 'plunge')]

    def __init__(self, out, show=decimal, frame=None):
        self.show, self.frame = show, frame
        names = self.HEAD + self.VALUES + self.VECTORS + self.FACTOR + self.SOLUTION + (self.GROUND if frame else [])
        self.rows = csv.DictWriter(out, names, restval='', lineterminator='\n')

    def begin(self):
        self.rows.writeheader()

    def put(self, item):
        if not isinstance(item, Answer):
            self.rows.writerow({'offset': item.offset, 'meaning': said_of(item)})
            return
        settled = '' if item.settled is None else int(item.settled)
        row = dict(zip(self.HEAD, (item.offset, item.event, item.kind_name, item.code, item.meaning, item.pivot,
                                   item.rotations, settled)))
        row.update((name, self.show(x)) for name, x in self.numbers(item))
        row.update(self.ground(item))
        self.rows.writerow(row)

    def numbers(self, answer):
        parts = parts_of(answer)
        yield from zip(self.VALUES, parts.get('values', ()))
        yield from zip(self.SOLUTION, parts.get('solution', ()))
        for name, vectors in (('axis', parts.get('axes')), ('U', parts.get('U')), ('V', parts.get('V'))):
            for i, vector in enumerate(vectors or (), start=1):
                yield from ((f'{name}_{i}_{part}', x) for part, x in zip('xyz', vector))
        for i, row in enumerate(parts.get('factor', ()), start=1):
            yield from ((f'L{i}{k}', x) for k, x in enumerate(row, start=1))

    def ground(self, answer):
        if not self.frame or not has_ground_axes(answer):
            return
        for i, axis in enumerate(columns(answer.left, 3), start=1):
            found = self.frame.trend_and_plunge(axis)
            yield from zip((f'axis_{i}_trend', f'axis_{i}_plunge'), found or ('', ''))


class JsonView:
    """An object to a line. Hexadecimals are texts, since JSON has no such number."""

    def __init__(self, out, show=decimal, frame=None):
        self.out, self.frame = out, frame
        self.number = hexadecimal if show is hexadecimal else float

    def begin(self):
        pass

    def put(self, item):
        self.out.write(json.dumps(self.object_of(item)) + '\n')

    def object_of(self, item):
        if isinstance(item, Foreign):
            return {'offset': item.offset, 'foreign': item.reason}
        if not isinstance(item, Answer):
            return {'offset': item.offset, 'left_over': item.count}
        return {
            'offset': item.offset, 'event': item.event, 'kind': item.kind_name or None,
            'code': item.code, 'meaning': item.meaning, 'pivot': item.pivot,
            'rotations': item.rotations, 'settled': item.settled,
            **{name: self.shown(part) for name, part in parts_of(item).items()},
            **self.ground(item),
        }

    def shown(self, part):
        return [self.shown(x) for x in part] if isinstance(part, (list, tuple)) else self.number(part)

    def ground(self, answer):
        if not self.frame or not has_ground_axes(answer):
            return {}
        found = [self.frame.trend_and_plunge(axis) or (None, None) for axis in columns(answer.left, 3)]
        return {'trends': [trend for trend, _ in found], 'plunges': [plunge for _, plunge in found]}


VIEWS = {'text': TextView, 'csv': CsvView, 'json': JsonView}
