"""show-tally: each form of output, sums up to the largest count and above it, and listings that are none."""
import csv
import io
import json
import os
import subprocess
import sys
import unittest

from support import KINDS, TOP, ToolTest
from records.tallies import BadListing, read_tallies

HEADING = ['kind', 'code 0', 'code 1', 'code 3', 'code 4', 'code 5', 'code 6', 'code 7', 'code 9', 'settled', 'unsettled']
ROWS = ['1', '2', '3', '4', '5', '6', '7', '8', 'other']
LARGEST = 18446744073709551615
# the line of each part
TOTAL, RECORDS, FOREIGN, LEFT_OVER, TURNS, LAST = 11, 12, 13, 14, 15, 41


def listing(cells=(), turns=(), foreign=0, left_over=0):
    """A listing with these counts: {(row, column): n} and {(rotations, 2 or 4): n}. All that follows from them is right."""
    cells, turns = dict(cells), dict(turns)
    table = [[row] + [cells.get((row, column), 0) for column in HEADING[1:]] for row in ROWS]
    total = [sum(column) for column in list(zip(*table))[1:]]
    lines = [HEADING, *table, ['total', *total], ['records', sum(total[:8]) + foreign], ['foreign', foreign],
             ['left over', left_over], ['turns', 'kind 2', 'kind 4']]
    lines += [[n, turns.get((n, 2), 0), turns.get((n, 4), 0)] for n in range(26)]
    return '\n'.join('\t'.join(map(str, line)) for line in lines) + '\n'


def answered(row, settled, unsettled=0):
    return {(row, 'code 0'): settled + unsettled, (row, 'settled'): settled, (row, 'unsettled'): unsettled}


EMPTY = listing()
ONE = listing({**answered('1', 3), **answered('2', 12, 1), ('2', 'code 5'): 2, ('other', 'code 3'): 100}, {(9, 2): 12, (25, 2): 1},
              foreign=7, left_over=175)
TWO = listing({**answered('2', 5), **answered('4', 40), ('8', 'code 6'): 1, ('8', 'code 9'): 4, ('other', 'code 1'): 1},
              {(9, 2): 4, (10, 2): 1, (0, 4): 40}, foreign=1)
BOTH = listing({**answered('1', 3), **answered('2', 17, 1), **answered('4', 40), ('2', 'code 5'): 2, ('8', 'code 6'): 1,
                ('8', 'code 9'): 4, ('other', 'code 3'): 100, ('other', 'code 1'): 1}, {(9, 2): 16, (10, 2): 1, (25, 2): 1, (0, 4): 40},
               foreign=8, left_over=175)

UNSETTLED = listing({**answered('1', 3, 2), **answered('2', 12, 1), **answered('3', 0, 4), **answered('4', 7, 5)},
                    {(1, 2): 13, (1, 4): 12})


class TallyTest(ToolTest):
    def show(self, text, *words):
        status, out, err = self.run_tool('show-tally', *words, given=text.encode('utf-8'))
        self.assertEqual((status, err), (0, ''))
        return out.decode('utf-8')


class Text(TallyTest):
    def test_the_whole_table(self):
        self.assertEqual(self.show(ONE), (
            'kind         code 0  code 1  code 3  code 4  code 5  code 6  code 7  code 9  settled  unsettled\n'
            '1 eigen2          3       .       .       .       .       .       .       .        3          .\n'
            '2 eigen3         13       .       .       .       2       .       .       .       12          1\n'
            '3 svd2            .       .       .       .       .       .       .       .        .          .\n'
            '4 svd3            .       .       .       .       .       .       .       .        .          .\n'
            '5 cholesky2       .       .       .       .       .       .       .       .        .          .\n'
            '6 cholesky3       .       .       .       .       .       .       .       .        .          .\n'
            '7 solve2          .       .       .       .       .       .       .       .        .          .\n'
            '8 solve3          .       .       .       .       .       .       .       .        .          .\n'
            'other             .       .     100       .       .       .       .       .        .          .\n'
            'total            16       .     100       .       2       .       .       .       15          1\n'
            '\n'
            'code 3: the kind is not 1 to 8\n'
            'code 5: a used number of the request is NaN or infinite\n'
            '\n'
            'records          125\n'
            'foreign            7\n'
            'bytes left over  175\n'
            '\n'
            'rotations  2 eigen3  4 svd3\n'
            '9                12       .\n'
            '25                1       .\n'))

    def test_every_kind_that_makes_rotations_can_be_unsettled(self):
        lines = self.show(UNSETTLED).splitlines()
        self.assertEqual([line.split()[-2:] for line in lines[1:12] if line],
                         [['3', '2'], ['12', '1'], ['.', '4'], ['7', '5']] + [['.', '.']] * 5 + [['22', '12']])
        self.assertIn('foreign           0', lines)

    def test_the_codes_of_pivots_in_words(self):
        lines = self.show(TWO).splitlines()
        self.assertEqual(lines[8].split(), ['8', 'solve3', '.', '.', '.', '.', '.', '1', '.', '4', '.', '.'])
        self.assertEqual(lines[12:15], ['code 1: the request has the wrong length', 'code 6: a pivot is <= 0', 'code 9: a pivot is NaN'])

    def test_nothing_counted(self):
        lines = self.show(EMPTY).splitlines()
        self.assertEqual(lines[11:], ['', 'records          0', 'foreign          0', 'bytes left over  0'])

    def test_columns_stay_aligned(self):
        wide = listing({**answered('4', 10 ** 12), ('1', 'code 7'): 10 ** 18}, {(0, 4): 10 ** 12}, foreign=10 ** 15)
        for text in (ONE, TWO, wide):
            parts = self.show(text).split('\n\n')
            for part in (parts[0], parts[2], parts[3]):
                self.assertEqual(len({len(line) for line in part.splitlines()}), 1, part)
            heads = parts[0].splitlines()[0]
            for line in parts[0].splitlines()[1:]:
                for name in HEADING[1:]:
                    end = heads.index(f' {name}') + 1 + len(name)
                    self.assertNotEqual(line[end - 1], ' ', line)
                    self.assertIn(line[end:end + 2], ('  ', ''), line)


class Adding(TallyTest):
    def test_files_standard_input_and_both(self):
        self.put('one.tally', ONE.encode())
        self.put('two.tally', TWO.encode())
        self.put('many.tally', (ONE + TWO).encode())
        for words, given in ((('one.tally', 'two.tally'), ''), (('two.tally', 'one.tally'), ''), (('one.tally', '-'), TWO),
                             (('many.tally',), ''), ((), ONE + TWO), (('-', 'two.tally'), ONE)):
            self.assertEqual(self.show(given, '--listing', *words), BOTH, words)

    def test_nothing_is_added_by_nothing(self):
        self.assertEqual(self.show(EMPTY + ONE + EMPTY, '--listing'), ONE)

    def test_the_listing_is_the_same_again(self):
        for text in (EMPTY, ONE, TWO, BOTH):
            self.assertEqual(self.show(text, '--listing'), text)

    def test_up_to_the_largest_count(self):
        large = listing(answered('1', LARGEST - 1), left_over=LARGEST - 1)
        self.assertEqual(self.show(large + listing(answered('1', 1), left_over=1), '--listing'),
                         listing(answered('1', LARGEST), left_over=LARGEST))

    def refused(self, text, name, *words):
        told = f'show-tally: a count passes 64 bits (14): the sum of {name} is above {LARGEST}, so no counts are shown\n'
        self.one_line(*self.run_tool('show-tally', *words, given=text.encode()), told)

    def test_above_it(self):
        for name, some, one in (
                ('kind 1, code 0', listing(answered('1', LARGEST)), listing(answered('1', 1))),
                ('kind 2, code 0', listing(answered('2', LARGEST), {(3, 2): LARGEST}), listing(answered('2', 1), {(3, 2): 1})),
                ('other, code 3', listing({('other', 'code 3'): LARGEST}), listing({('other', 'code 3'): 1})),
                ('kind 6, code 9', listing({('6', 'code 9'): LARGEST}), listing({('6', 'code 9'): 1})),
                # the number of all records stands first in the listing
                ('records', listing(foreign=LARGEST), listing(foreign=1)),
                ('left over', listing(left_over=LARGEST), listing(left_over=1))):
            self.refused(some + one, name)
            self.refused(one + EMPTY + some, name)
        for words in ('--csv', '--json', '--listing'):
            self.refused(some + one, name, words)

    def test_a_total_above_it(self):
        half = 2 ** 63
        self.refused(listing({('1', 'code 4'): half}) + listing({('3', 'code 4'): half}), 'total, code 4')
        self.refused(listing({('1', 'code 4'): half}) + listing({('3', 'code 5'): half}), 'records')
        self.refused(listing({('1', 'code 4'): half}) + listing({('6', 'code 9'): half}), 'records')
        self.refused(listing({('1', 'code 4'): half}) + listing(foreign=half), 'records')


class ForPrograms(TallyTest):
    def test_csv_has_every_number_once(self):
        rows = list(csv.DictReader(io.StringIO(self.show(ONE, '--csv'))))
        counts = {(row['kind'], row['what']): int(row['count']) for row in rows}
        self.assertEqual((len(rows), len(counts)), (10 * 10 + 3 + 2 * 26,) * 2)
        filled = {**answered('1', 3), **answered('2', 12, 1), ('2', 'code 5'): 2, ('other', 'code 3'): 100, **answered('total', 15, 1),
                  ('total', 'code 5'): 2, ('total', 'code 3'): 100, ('', 'records'): 125, ('', 'foreign'): 7, ('', 'left over'): 175,
                  ('2', 'rotations 9'): 12, ('2', 'rotations 25'): 1}
        self.assertEqual({key: n for key, n in counts.items() if n}, {key: n for key, n in filled.items() if n})
        self.assertIn(('4', 'rotations 0'), counts)

    def test_json(self):
        made = json.loads(self.show(ONE + TWO, '--json'))
        self.assertEqual(list(made), ['kinds', 'total', 'records', 'foreign', 'left_over', 'rotations'])
        self.assertEqual(list(made['kinds']), ROWS)
        self.assertEqual([made['kinds'][row]['name'] for row in ROWS], KINDS + [None])
        self.assertEqual(made['kinds']['2'], {
            'name': 'eigen3', 'codes': {'0': 18, '1': 0, '3': 0, '4': 0, '5': 2, '6': 0, '7': 0, '9': 0}, 'settled': 17, 'unsettled': 1})
        self.assertEqual(made['kinds']['8']['codes'], {'0': 0, '1': 0, '3': 0, '4': 0, '5': 0, '6': 1, '7': 0, '9': 4})
        self.assertEqual(made['kinds']['other']['codes'], {'0': 0, '1': 1, '3': 100, '4': 0, '5': 0, '6': 0, '7': 0, '9': 0})
        self.assertEqual(made['total'], {'codes': {'0': 61, '1': 1, '3': 100, '4': 0, '5': 2, '6': 1, '7': 0, '9': 4}, 'settled': 60, 'unsettled': 1})
        self.assertEqual((made['records'], made['foreign'], made['left_over']), (177, 8, 175))
        self.assertEqual(made['rotations'], {'2': [0] * 9 + [16, 1] + [0] * 14 + [1], '4': [40] + [0] * 25})

    def test_unsettled_answers(self):
        rows = csv.DictReader(io.StringIO(self.show(UNSETTLED, '--csv')))
        counts = {row['kind']: int(row['count']) for row in rows if row['what'] == 'unsettled'}
        expected = {**dict.fromkeys(ROWS, 0), '1': 2, '2': 1, '3': 4, '4': 5, 'total': 12}
        self.assertEqual(counts, expected)
        made = json.loads(self.show(UNSETTLED, '--json'))
        self.assertEqual({**{row: made['kinds'][row]['unsettled'] for row in ROWS}, 'total': made['total']['unsettled']}, expected)
        self.assertEqual(self.show(UNSETTLED, '--listing'), UNSETTLED)

    def test_json_keeps_every_digit(self):
        self.assertEqual(json.loads(self.show(listing(left_over=LARGEST), '--json'))['left_over'], LARGEST)


class BadListings(TallyTest):
    def refused(self, text, line, reason):
        """Told with its line, first in a file and behind a good listing."""
        for before, lines in (('', 0), (ONE, LAST)) if text else (('', 0),):
            stream = io.BytesIO((before + text).encode('utf-8', 'surrogateescape'))
            with self.assertRaises(BadListing) as told:
                list(read_tallies(stream))
            self.assertTrue(str(told.exception).startswith(f'{line + lines}: {reason}'), told.exception)

    def changed(self, line, text):
        lines = ONE.split('\n')
        lines[line - 1] = text
        return '\n'.join(lines)

    def test_told_with_file_and_line(self):
        bad = self.changed(FOREIGN, 'foreign\tx').encode()
        self.put('bad.tally', bad)
        self.put('good.tally', ONE.encode())
        reason = f"{FOREIGN}: 'x' is not a whole number from 0 to {LARGEST}\n"
        for words, name in ((('bad.tally',), 'bad.tally'), (('good.tally', 'bad.tally'), 'bad.tally'), ((), 'standard input'),
                            (('good.tally', '-', 'bad.tally'), 'standard input')):
            self.one_line(*self.run_tool('show-tally', *words, given=bad), f'show-tally: {name}:{reason}')
        self.one_line(*self.run_tool('show-tally'), "show-tally: standard input:1: the file ends before the line 'kind'")

    def test_no_listing(self):
        self.refused('', 1, "the file ends before the line 'kind'")
        self.refused('\n' + ONE, 1, "a listing has the line 'kind' here, and not ''")
        self.refused('Hello\n', 1, "a listing has the line 'kind' here, and not 'Hello'")
        self.refused('\udcff' * 10000, 1, 'the line is cut short')

    def test_headings(self):
        columns = 'are: code 0, code 1, code 3, code 4, code 5, code 6, code 7, code 9, settled, unsettled'
        for heading in ('kind', 'kind\tcode 0', '\t'.join(HEADING[:9] + HEADING[:8:-1]), '\t'.join(HEADING) + '\r', '\t'.join(HEADING + ['code 8']),
                        '\t'.join(name for name in HEADING if name != 'code 9')):
            self.refused(self.changed(1, heading), 1, f"the columns behind 'kind' {columns}")
        self.refused(self.changed(TURNS, 'turns\tkind 4\tkind 2'), TURNS, "the columns behind 'turns' are: kind 2, kind 4")

    def test_lines(self):
        lines = ONE.splitlines(keepends=True)
        for n in range(1, LAST + 1):
            name = lines[n - 1].split('\t')[0].rstrip()
            self.refused(self.changed(n, 'Other\t1'), n, f"a listing has the line '{name}' here, and not 'Other'")
        self.refused(''.join(lines[:4] + lines[5:]), 5, "a listing has the line '4' here, and not '5'")
        self.refused(''.join(lines[:5] + lines[4:]), 6, "a listing has the line '5' here, and not '4'")
        self.refused(ONE + 'more\n', LAST + 1, "a listing has the line 'kind' here, and not 'more'")

    def test_numbers(self):
        for field in ('', '-1', '+1', '01', '1.0', '1e3', 'x', ' 1', '1 ', '1,000', '0x1', '١', '1\r', str(LARGEST + 1), '9' * 3000):
            reason = f'{field[:30]!r} is not a whole number from 0 to {LARGEST}'
            self.refused(self.changed(FOREIGN, f'foreign\t{field}'), FOREIGN, reason)
        self.refused(self.changed(3, '2\t13\t0'), 3, "'2' has 10 numbers, and here are 2")
        self.refused(self.changed(3, '2' + '\t0' * 9), 3, "'2' has 10 numbers, and here are 9")
        self.refused(self.changed(3, '2' + '\t0' * 11), 3, "'2' has 10 numbers, and here are 11")
        self.refused(self.changed(LEFT_OVER, 'left over'), LEFT_OVER, "'left over' has 1 numbers, and here are 0")
        self.refused(self.changed(LAST, '25\t1'), LAST, "'25' has 2 numbers, and here are 1")

    def test_numbers_that_do_not_add_up(self):
        self.refused(self.changed(2, '1\t3\t0\t0\t0\t0\t0\t0\t0\t2\t0'), 2, 'code 0 is 3, and settled and unsettled add up to 2')
        self.refused(self.changed(TOTAL, 'total\t16\t0\t100\t0\t3\t0\t0\t0\t15\t1'), TOTAL, 'the total of code 5 is 3, and the rows add up to 2')
        self.refused(self.changed(TOTAL, 'total\t16\t0\t100\t0\t2\t0\t0\t1\t15\t1'), TOTAL, 'the total of code 9 is 1, and the rows add up to 0')
        self.refused(self.changed(RECORDS, 'records\t124'), RECORDS, 'records is 124, and the totals of the codes and foreign add up to 125')
        self.refused(self.changed(FOREIGN, 'foreign\t8'), RECORDS, 'records is 125, and the totals of the codes and foreign add up to 126')
        self.refused(self.changed(LAST, '25\t2\t0'), LAST, 'code 0 of kind 2 is 13, and its rotations add up to 14')
        self.refused(self.changed(LAST, '25\t1\t1'), LAST, 'code 0 of kind 4 is 0, and its rotations add up to 1')

    def test_cut_anywhere(self):
        for at in range(1, len(ONE)):
            reason = 'the file ends before the line' if ONE[at - 1] == '\n' else 'the line is cut short'
            self.refused(ONE[:at], ONE[:at].count('\n') + 1, reason)

    def test_answers_in_place_of_a_listing(self):
        answers = os.path.join(TOP, 'examples', 'night.answers')
        self.one_line(*self.run_tool('show-tally', answers), 'night.answers:1: ')


class Streams(TallyTest):
    def test_what_cannot_be_read(self):
        os.mkdir(self.path('folder'))
        self.one_line(*self.run_tool('show-tally', 'folder'), 'folder: cannot be read')
        self.put('one.tally', ONE.encode())
        self.one_line(*self.run_tool('show-tally', 'one.tally', 'none.tally'), 'none.tally: cannot be read')

    def test_a_full_disk(self):
        with open('/dev/full', 'wb') as full:
            done = subprocess.run([sys.executable, '-B', os.path.join(TOP, 'tools', 'show-tally')], input=ONE.encode(), stdout=full,
                                  stderr=subprocess.PIPE, check=False)
        self.assertEqual(done.returncode, 1)
        self.assertIn(b'standard output: cannot be written', done.stderr)

    def test_words(self):
        for words in (('--csv', '--json'), ('--plot',)):
            self.assertEqual(self.run_tool('show-tally', *words, given=ONE.encode())[:2], (2, b''))


if __name__ == '__main__':
    unittest.main()
