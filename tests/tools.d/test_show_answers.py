"""show-answers: each form of output, on answers of every kind and every code, and files that are damaged."""
import csv
import io
import json
import os
import struct
import subprocess
import sys
import unittest

from support import (ANSWERED, BLIND, CHOLESKY2, CHOLESKY3, CUT, EIGEN2, EIGEN3, H, IDENTITY, KINDS, REFUSED, SOLVE2, SOLVE3,
                     SVD2, SVD3, TOP, UNSETTLED, ToolTest, answer, spoilt)

FRAME = '--frame=x=north,y=east,z=down'


class Text(ToolTest):
    def lines(self, records, *words):
        """The lines below the two of the heading, each as its words."""
        return [line.split() for line in self.shown(records, *words).splitlines()[2:]]

    def test_the_whole_example(self):
        self.assertEqual(self.shown(EIGEN2), (
            '     event  kind         rotations  settled  code\n'
            '                                         value                         x'
            '                         y                         z\n'
            '         7  eigen2               -  yes      0 answered\n'
            '            smaller                          1        0.7071067811865476       -0.7071067811865476\n'
            '            larger                           3        0.7071067811865476        0.7071067811865476\n'))

    def test_each_kind(self):
        h = '0.7071067811865476'
        for record, rows in (
                (EIGEN2, [f'smaller 1 {h} -{h}', f'larger 3 {h} {h}']),
                (EIGEN3, ['smallest -1 0 1 -0', 'middle 0.5 0 0 1', 'largest 2 1 0 0']),
                (SVD2, ['U1 2 -0 -1', 'U2 1 1 0', 'V1 0 1', 'V2 1 0']),
                (SVD3, ['U1 3 1 0 0', 'U2 2 0 1 0', 'U3 1 0 0 1', 'V1 0 0 1', 'V2 0 1 0', 'V3 1 0 0']),
                (CHOLESKY2, ['L row 1 2', 'L row 2 1 2']),
                (CHOLESKY3, ['L row 1 1', 'L row 2 2 3', 'L row 3 4 5 6']),
                (SOLVE2, ['L row 1 2', 'L row 2 1 2', 'solution 1.25 1.5']),
                (SOLVE3, ['L row 1 1', 'L row 2 2 3', 'L row 3 4 5 6', 'solution 0.1 0.2 0.3'])):
            with self.subTest(rows=rows):
                self.assertEqual(self.lines(record)[1:], [row.split() for row in rows])

    def test_heads(self):
        heads = [line for line in self.lines(b''.join(ANSWERED + (UNSETTLED,) + REFUSED)) if line[0].isdigit() or line[0] == '-']
        rotations = ['-', '4', '-', '3', '-', '-', '-', '-']
        expected = [f'{7 + i} {KINDS[i]} {rotations[i]} yes 0 answered' for i in range(8)]
        expected += ['15 eigen3 25 no 0 answered',
                     '- - - - 1 the request has the wrong length',
                     '16 unknown 9 - - 3 the kind is not 1 to 8',
                     '17 eigen2 - - 4 a reserved byte or an unused number is not all zero bits, or the kind has no such way',
                     '18 eigen3 - - 5 a used number of the request is NaN or infinite',
                     '19 cholesky3 - - 6 pivot 3 is <= 0',
                     '20 solve3 - - 7 a number of the answer or of the worked matrix is NaN or infinite',
                     '21 solve3 - - 9 pivot 3 is NaN']
        self.assertEqual(heads, [line.split() for line in expected])

    def test_columns_stay_aligned(self):
        widest = answer(4294967295, 2, count=25, mark=0, values=(-sys.float_info.max, 0, sys.float_info.max),
                        left=(-2.2250738585072014e-308,) * 9)
        for words in ((), ('--hex',)):
            lines = self.shown(EIGEN3 + widest, *words).splitlines()
            ends = {len(line) for line in lines if line.split()[0] in ('value', 'smallest', 'middle', 'largest')}
            self.assertEqual(ends, {len(lines[1])}, lines)

    def test_hex(self):
        self.assertEqual(self.lines(EIGEN2, '--hex')[1:], [
            ['smaller', '0x1p+0', '0x1.6a09e667f3bcdp-1', '-0x1.6a09e667f3bcdp-1'],
            ['larger', '0x1.8p+1', '0x1.6a09e667f3bcdp-1', '0x1.6a09e667f3bcdp-1']])
        self.assertEqual(self.lines(EIGEN3, '--hex')[1], ['smallest', '-0x1p+0', '0x0p+0', '0x1p+0', '-0x0p+0'])

    def test_numbers_read_back_exactly(self):
        numbers = [2.0 ** -1074, -1 / 3, 1e22, 123456789012345678.0, -0.0, 5e-324, 0.1, -2.5e-310, sys.float_info.max]
        record = answer(1, 4, values=(3, 2, 1), left=numbers, right=numbers)
        bits = [struct.pack('<d', x) for x in numbers]
        for words, read in (((), float), (('--hex',), float.fromhex)):
            got = [read(x) for line in self.lines(record, *words)[4:] for x in line[1:]]
            self.assertEqual([struct.pack('<d', x) for x in got], bits, words)

    def test_frame(self):
        lines = self.lines(EIGEN3 + EIGEN2, FRAME)
        self.assertEqual([line[-2:] for line in lines[1:4]], [['90.0', '0.0'], ['0.0', '90.0'], ['0.0', '0.0']])
        self.assertEqual(len(lines[5]), 4)
        self.assertIn('trend  plunge', self.shown(EIGEN3, FRAME).splitlines()[1])

    def test_no_frame_no_geography(self):
        for words in ((), ('--csv',), ('--json',)):
            out = self.shown(b''.join(ANSWERED), *words).lower()
            for word in ('north', 'east', 'south', 'west', 'down', 'trend', 'plunge'):
                self.assertNotIn(word, out)

    def test_empty(self):
        self.assertEqual(len(self.shown(b'').splitlines()), 2)


class Csv(ToolTest):
    def rows(self, records, *words, status=0):
        return list(csv.DictReader(io.StringIO(self.shown(records, '--csv', *words, status=status))))

    def filled(self, record, *words):
        """The cells that are not empty, from the first number on."""
        row = self.rows(record, *words)[0]
        return {name: cell for name, cell in list(row.items())[8:] if cell}

    def test_heads(self):
        rows = self.rows(b''.join(ANSWERED + (UNSETTLED,) + REFUSED))
        self.assertEqual([row['kind'] for row in rows], KINDS + ['eigen3', '', 'unknown 9', 'eigen2', 'eigen3', 'cholesky3', 'solve3', 'solve3'])
        self.assertEqual([row['code'] for row in rows], ['0'] * 9 + ['1', '3', '4', '5', '6', '7', '9'])
        self.assertEqual([row['event'] for row in rows], [str(i) for i in range(7, 16)] + [''] + [str(i) for i in range(16, 22)])
        self.assertEqual([row['offset'] for row in rows], [str(176 * i) for i in range(16)])
        self.assertEqual([row['settled'] for row in rows], ['1'] * 8 + ['0'] + [''] * 7)
        self.assertEqual([row['rotations'] for row in rows if row['rotations']], ['4', '3', '25'])
        self.assertEqual([(row['code'], row['pivot'], row['meaning']) for row in rows if row['pivot']],
                         [('6', '3', 'pivot 3 is <= 0'), ('9', '3', 'pivot 3 is NaN')])

    def test_numbers(self):
        self.assertEqual(self.filled(EIGEN3), {
            'value_1': '-1', 'value_2': '0.5', 'value_3': '2', 'axis_1_x': '0', 'axis_1_y': '1', 'axis_1_z': '-0',
            'axis_2_x': '0', 'axis_2_y': '0', 'axis_2_z': '1', 'axis_3_x': '1', 'axis_3_y': '0', 'axis_3_z': '0'})
        self.assertEqual(self.filled(SVD2), {
            'value_1': '2', 'value_2': '1', 'U_1_x': '-0', 'U_1_y': '-1', 'U_2_x': '1', 'U_2_y': '0',
            'V_1_x': '0', 'V_1_y': '1', 'V_2_x': '1', 'V_2_y': '0'})
        self.assertEqual(self.filled(CHOLESKY3), dict(zip(('L11', 'L21', 'L22', 'L31', 'L32', 'L33'), '123456')))
        self.assertEqual(self.filled(SOLVE2), {
            'L11': '2', 'L21': '1', 'L22': '2', 'solution_x': '1.25', 'solution_y': '1.5'})
        self.assertEqual(self.filled(CHOLESKY2, '--hex'), {'L11': '0x1p+1', 'L21': '0x1p+0', 'L22': '0x1p+1'})
        for record in REFUSED:
            self.assertEqual(self.filled(record), {})

    def test_frame(self):
        filled = self.filled(EIGEN3, FRAME)
        self.assertEqual([filled[f'axis_{i}_trend'] for i in '123'], ['90.0', '0.0', '0.0'])
        self.assertEqual([filled[f'axis_{i}_plunge'] for i in '123'], ['0.0', '90.0', '0.0'])

    def test_damage(self):
        rows = self.rows(EIGEN2 + spoilt(EIGEN2, 5, 8) + b'abc', status=1)
        self.assertEqual([(row['offset'], row['event'], row['meaning']) for row in rows[1:]], [
            ('176', '', 'foreign: code 8 is none that an answer has'),
            ('352', '', 'left over: 3 bytes, and an answer has 176')])


class Json(ToolTest):
    def objects(self, records, *words, status=0):
        return [json.loads(line) for line in self.shown(records, '--json', *words, status=status).splitlines()]

    def test_whole_objects(self):
        self.assertEqual(self.objects(EIGEN2)[0], {
            'offset': 0, 'event': 7, 'kind': 'eigen2', 'code': 0, 'meaning': 'answered', 'pivot': None, 'rotations': None,
            'settled': True, 'values': [1.0, 3.0], 'axes': [[H, -H], [H, H]]})
        self.assertEqual(self.objects(SOLVE2)[0], {
            'offset': 0, 'event': 13, 'kind': 'solve2', 'code': 0, 'meaning': 'answered', 'pivot': None, 'rotations': None,
            'settled': True, 'solution': [1.25, 1.5], 'factor': [[2.0], [1.0, 2.0]]})
        self.assertEqual(self.objects(CUT)[0], {
            'offset': 0, 'event': None, 'kind': None, 'code': 1, 'meaning': 'the request has the wrong length', 'pivot': None,
            'rotations': None, 'settled': None})

    def test_every_kind_and_code(self):
        objects = self.objects(b''.join(ANSWERED + REFUSED))
        self.assertEqual([o['kind'] for o in objects[:8]], KINDS)
        self.assertEqual([o['code'] for o in objects], [0] * 8 + [1, 3, 4, 5, 6, 7, 9])
        self.assertEqual(objects[3]['V'], [[0, 0, 1], [0, 1, 0], [1, 0, 0]])
        self.assertEqual([(o['code'], o['pivot']) for o in objects if o['pivot'] is not None], [(6, 3), (9, 3)])

    def test_hex_and_frame(self):
        made = self.objects(EIGEN3, '--hex', FRAME)[0]
        self.assertEqual(made['values'], ['-0x1p+0', '0x1p-1', '0x1p+1'])
        self.assertEqual((made['trends'], made['plunges']), ([90.0, 0.0, 0.0], [0.0, 90.0, 0.0]))
        self.assertNotIn('trends', self.objects(EIGEN2, FRAME)[0])

    def test_damage(self):
        self.assertEqual(self.objects(spoilt(EIGEN2, 5, 2) + b'a', status=1), [
            {'offset': 0, 'foreign': 'code 2 is none that an answer has'}, {'offset': 176, 'left_over': 1}])


class Unsettled(ToolTest):
    """Each kind that makes rotations can be unsettled. A view says so, and all else is as it is of a settled answer."""
    both = b''.join(record + spoilt(record, 7, 1) for record in BLIND)

    def test_text(self):
        for record, head in zip(BLIND, ('22 eigen2 -', '23 eigen3 1', '24 svd2 -', '25 svd3 1')):
            unsettled, settled = (self.shown(one).splitlines()[2:] for one in (record, spoilt(record, 7, 1)))
            self.assertEqual(unsettled[0].split(), f'{head} no 0 answered'.split())
            self.assertEqual(settled[0].split(), f'{head} yes 0 answered'.split())
            self.assertEqual(unsettled[1:], settled[1:])
        self.assertEqual(self.shown(BLIND[0]).splitlines()[2:], [
            '        22  eigen2               -  no       0 answered',
            '            smaller                         -1        0.7071067811865476       -0.7071067811865476',
            '            larger                           1        0.7071067811865476        0.7071067811865476'])

    def test_csv(self):
        rows = list(csv.DictReader(io.StringIO(self.shown(self.both, '--csv'))))
        self.assertEqual([(row['kind'], row['settled']) for row in rows], [(kind, mark) for kind in KINDS[:4] for mark in '01'])
        self.all_else_is_the_same(rows)

    def test_json(self):
        objects = [json.loads(line) for line in self.shown(self.both, '--json').splitlines()]
        self.assertEqual([(o['kind'], o['settled']) for o in objects], [(kind, mark) for kind in KINDS[:4] for mark in (False, True)])
        self.assertEqual([o['rotations'] for o in objects[::2]], [None, 1, None, 1])
        self.all_else_is_the_same(objects)

    def all_else_is_the_same(self, shown):
        for unsettled, settled in zip(shown[::2], shown[1::2]):
            for name in ('offset', 'settled'):
                self.assertNotEqual(unsettled.pop(name), settled.pop(name))
            self.assertEqual(unsettled, settled)

    def test_after_any_rotation(self):
        """One that is blind may be the only one or one of 25."""
        for record in (BLIND[1], BLIND[3]):
            records = b''.join(spoilt(record, 6, count) for count in range(1, 26))
            shown = [json.loads(line) for line in self.shown(records, '--json').splitlines()]
            self.assertEqual([(o['rotations'], o['settled']) for o in shown], [(count, False) for count in range(1, 26)])


class Damage(ToolTest):
    """A record that cannot be an answer stands behind one that can, and is told with its offset."""

    def foreign(self, cases):
        """Each of the (record, reason), all in one file; a reason may be a function of the record's offset."""
        status, out, err = self.run_tool('show-answers', given=b''.join(CHOLESKY2 + record for record, _ in cases))
        lines = out.decode('utf-8').splitlines()[2:]
        self.assertEqual(len(lines), 4 * len(cases))
        for i, (_, reason) in enumerate(cases):
            begin = 352 * i + 176
            self.assertEqual(lines[4 * i:4 * i + 3], lines[:3])
            told = reason(begin) if callable(reason) else reason
            self.assertEqual(lines[4 * i + 3], f'at byte {begin}, foreign: {told}')
        self.assertEqual((status, err), (1, f'show-answers: standard input: {len(cases)} foreign records, the first at byte 176\n'))

    def test_heads(self):
        self.foreign((
            (spoilt(EIGEN2, 5, 2), 'code 2 is none that an answer has'),
            (spoilt(EIGEN2, 5, 8), 'code 8 is none that an answer has'),
            (spoilt(EIGEN2, 5, 10), 'code 10 is none that an answer has'),
            (spoilt(EIGEN2, 5, 255), 'code 255 is none that an answer has'),
            (spoilt(EIGEN2, 4, 0), 'code 0 is not given for kind 0'),
            (spoilt(EIGEN2, 4, 9), 'code 0 is not given for kind 9'),
            (spoilt(EIGEN3, 7, 2), 'the settled mark is 2, and must be 0 or 1'),
            (spoilt(EIGEN3, 6, 26), 'the count of rotations is 26, and eigen3 has at most 25'),
            (spoilt(SVD3, 6, 26), 'the count of rotations is 26, and svd3 has at most 25'),
            (spoilt(EIGEN2, 6, 1), 'the count of rotations is 1, and eigen2 has at most 0'),
            (spoilt(SOLVE3, 6, 1), 'the count of rotations is 1, and solve3 has at most 0'),
            (answer(1, 2, mark=0, values=(1, 2, 3), left=IDENTITY), 'eigen3 is marked unsettled without a rotation'),
            (answer(1, 4, mark=0, values=(3, 2, 1), left=IDENTITY, right=IDENTITY), 'svd3 is marked unsettled without a rotation'),
            (spoilt(CHOLESKY2, 7, 0), 'cholesky2 is marked unsettled without a rotation'),
            (spoilt(CHOLESKY3, 7, 0), 'cholesky3 is marked unsettled without a rotation'),
            (spoilt(SOLVE2, 7, 0), 'solve2 is marked unsettled without a rotation'),
            (spoilt(SOLVE3, 7, 0), 'solve3 is marked unsettled without a rotation'),
            (spoilt(BLIND[0], 7, 2), 'the settled mark is 2, and must be 0 or 1'),
            (spoilt(BLIND[2], 6, 25), 'the count of rotations is 25, and svd2 has at most 0'),
            (answer(1, 6, code=6, count=0), 'the refused pivot is 0, and with code 6 cholesky3 has 1 to 3'),
            (answer(1, 8, code=6, count=4), 'the refused pivot is 4, and with code 6 solve3 has 1 to 3'),
            (answer(1, 7, code=6, count=3), 'the refused pivot is 3, and with code 6 solve2 has 1 to 2'),
            (answer(1, 6, code=9, count=0), 'the refused pivot is 0, and with code 9 cholesky3 has 3'),
            (answer(1, 8, code=9, count=2), 'the refused pivot is 2, and with code 9 solve3 has 3'),
            (answer(1, 8, code=9, count=4), 'the refused pivot is 4, and with code 9 solve3 has 3')))

    def test_codes_of_each_kind(self):
        """Each kind, and one that is none, with each code of a refusal and with every byte for the pivot."""
        pivots = {6: {5: (1, 2), 6: (1, 2, 3), 7: (1, 2), 8: (1, 2, 3)}, 9: {6: (3,), 8: (3,)}}
        kinds = {3: (9,), 4: range(1, 9), 5: range(1, 9), 6: range(5, 9), 7: (1, 2, 3, 4, 7, 8), 9: (6, 8)}
        given = {(kind, code, pivot) for code in kinds for kind in kinds[code] for pivot in pivots.get(code, {}).get(kind, (0,))}
        tried = [(kind, code, pivot) for kind in range(1, 10) for code in kinds for pivot in range(256)]
        records = b''.join(answer(1, kind, code=code, count=pivot) for kind, code, pivot in tried)
        shown = [json.loads(line) for line in self.shown(records, '--json', status=1).splitlines()]
        self.assertEqual(len(shown), len(tried))
        self.assertEqual({head for head, item in zip(tried, shown) if 'foreign' not in item}, given)
        for (kind, code, pivot), item in zip(tried, shown):
            if kind not in kinds[code]:
                self.assertEqual(item['foreign'], f'code {code} is not given for kind {kind}')
            elif 'foreign' not in item:
                self.assertEqual((item['code'], item['pivot']), (code, pivot or None))

    def test_places_that_must_be_zero(self):
        places = [(EIGEN2, 24), (EIGEN2, 64), (EIGEN2, 104), (EIGEN3, 175), (SVD2, 64), (SVD2, 136), (CHOLESKY2, 8),
                  (CHOLESKY2, 56), (CHOLESKY3, 80), (SOLVE2, 24), (SOLVE3, 104), (REFUSED[3], 6)]
        places += [(record, at) for record in REFUSED[1:] for at in (7, 8, 175)]
        places += [(CUT, at) for at in (0, 3, 4, 6, 7, 100)]
        # 128 in the last byte of a number is the sign of a zero
        self.foreign([(spoilt(record, at, 128), lambda begin, at=at: f'byte {begin + at} is 128 and must be 0')
                      for record, at in places])

    def test_numbers_that_are_not_finite(self):
        cases = []
        for x in (float('nan'), float('inf'), float('-inf')):
            cases += [(answer(1, 1, values=(1, x), left=(1, 0, 0, 1)), 16),
                      (answer(1, 4, values=(1, 1, 1), left=(1,) * 9, right=(1,) * 8 + (x,)), 168)]
        self.foreign([(record, lambda begin, at=at: f'the number at byte {begin + at} is NaN or infinite')
                      for record, at in cases])

    def test_left_over(self):
        for count, words in ((1, '1 byte'), (175, '175 bytes')):
            status, out, err = self.run_tool('show-answers', given=EIGEN2 + EIGEN3[:count])
            self.assertEqual(out.decode().splitlines()[-1], f'at byte 176, left over: {words}, and an answer has 176')
            self.assertEqual((status, err), (1, f'show-answers: standard input: {words} left over at the end, the first at byte 176\n'))

    def test_requests_in_place_of_answers(self):
        _, requests, _ = self.run_tool('make-requests', given=b'7 eigen2 2 1 2\n' * 5)
        status, out, _ = self.run_tool('show-answers', given=requests)
        self.assertEqual(status, 1)
        self.assertIn('at byte 176, foreign: ', out.decode())


class Pipes(ToolTest):
    def command(self, *words):
        return [sys.executable, '-B', os.path.join(TOP, 'tools', 'show-answers'), *words]

    def test_a_closed_pipe_is_quiet(self):
        name = self.put('many.answers', b''.join(ANSWERED) * 3000)
        for words in ((), ('--csv',), ('--json',)):
            with subprocess.Popen(self.command(name, *words), stdout=subprocess.PIPE, stderr=subprocess.PIPE) as tool:
                tool.stdout.readline()
                tool.stdout.close()
                self.assertEqual((tool.stderr.read(), tool.wait()), (b'', 0))

    def test_parts_of_records_on_a_pipe(self):
        with subprocess.Popen(self.command(), stdin=subprocess.PIPE, stdout=subprocess.PIPE) as tool:
            for at in range(0, 352, 50):
                tool.stdin.write((EIGEN2 + EIGEN3)[at:at + 50])
                tool.stdin.flush()
            tool.stdin.close()
            self.assertEqual(tool.stdout.read().decode(), self.shown(EIGEN2 + EIGEN3))
            self.assertEqual(tool.wait(), 0)

    def test_a_file_and_standard_input_give_the_same(self):
        self.put('some.answers', b''.join(ANSWERED))
        self.assertEqual(self.run_tool('show-answers', 'some.answers')[1].decode(), self.shown(b''.join(ANSWERED)))
        self.assertEqual(self.shown(EIGEN2, '-'), self.shown(EIGEN2))

    def test_what_cannot_be_read(self):
        os.mkdir(self.path('folder'))
        self.one_line(*self.run_tool('show-answers', 'folder'), 'folder: cannot be read')
        self.one_line(*self.run_tool('show-answers', 'none.answers'), 'none.answers: cannot be read')


if __name__ == '__main__':
    unittest.main()
