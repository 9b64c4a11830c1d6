"""A tally as an aligned table, as CSV, as JSON, and as the program's own listing again."""
import csv
import io
import json

from records.kinds import ANSWERED, KINDS, MEANINGS
from records.tallies import CODES, COLUMNS, MARKS, ROWS, TURNING, TURNS, TURN_COLUMNS

NAMES = {str(kind.number): kind.name for kind in KINDS}


# ---- for people

def cell(n):
    """A zero is a dot, so that what is there stands out."""
    return str(n) if n else '.'


def aligned(table):
    """The lines of a table: names to the left, numbers to the right, each column as wide as it must be."""
    widths = [max(map(len, column)) for column in zip(*table)]
    for name, *cells in table:
        yield '  '.join([name.ljust(widths[0])] + [text.rjust(width) for text, width in zip(cells, widths[1:])])


def labelled(kind):
    return f'{kind} {NAMES[kind]}' if kind in NAMES else kind


def text_of(tally):
    rows = [[labelled(kind), *map(cell, counts)] for kind, counts in zip(ROWS, tally.rows)]
    rows.append(['total', *map(cell, tally.total)])
    lines = list(aligned([['kind', *COLUMNS]] + rows)) + ['']
    seen = [code for code, n in zip(CODES, tally.total) if n and code != ANSWERED]
    lines += [f'code {code}: {MEANINGS[code]}' for code in seen] + [''] * bool(seen)
    lines += aligned([['records', str(tally.records)], ['foreign', str(tally.foreign)], ['bytes left over', str(tally.left_over)]])
    made = [[n, *map(cell, counts)] for n, counts in zip(TURNS, tally.turns) if any(counts)]
    if made:
        lines += ['', *aligned([['rotations', *(labelled(str(kind.number)) for kind in TURNING)]] + made)]
    return ''.join(f'{line}\n' for line in lines)


# ---- for programs

def csv_of(tally):
    out = io.StringIO()
    rows = csv.writer(out, lineterminator='\n')
    rows.writerow(['kind', 'what', 'count'])
    rows.writerows(tally.numbers())
    return out.getvalue()


def object_of(counts):
    return {'codes': dict(zip(map(str, CODES), counts)), **dict(zip(MARKS, counts[len(CODES):]))}


def json_of(tally):
    return json.dumps({
        'kinds': {kind: {'name': NAMES.get(kind), **object_of(counts)} for kind, counts in zip(ROWS, tally.rows)},
        'total': object_of(tally.total),
        'records': tally.records, 'foreign': tally.foreign, 'left_over': tally.left_over,
        'rotations': {str(kind.number): made for kind, made in zip(TURNING, zip(*tally.turns))},
    }) + '\n'


def listing_of(tally):
    table = [['kind', *COLUMNS], *([kind, *counts] for kind, counts in zip(ROWS, tally.rows)), ['total', *tally.total],
             ['records', tally.records], ['foreign', tally.foreign], ['left over', tally.left_over],
             ['turns', *TURN_COLUMNS], *([made, *counts] for made, counts in zip(TURNS, tally.turns))]
    return ''.join('\t'.join(map(str, line)) + '\n' for line in table)


VIEWS = {'text': text_of, 'csv': csv_of, 'json': json_of, 'listing': listing_of}
