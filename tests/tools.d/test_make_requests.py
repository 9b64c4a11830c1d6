"""make-requests: bytes from a list, and bad lines."""
import os
import struct
import subprocess
import sys
import unittest

from support import TOP, ToolTest

# event 7, kind 1, numbers 2, 1, 2, as the record has them
WHOLE_EXAMPLE = (bytes.fromhex('07000000 01 000000')
                 + bytes.fromhex('0000000000000040 000000000000F03F 0000000000000040') + bytes(72))


# the same in the old way
OLD_EXAMPLE = WHOLE_EXAMPLE[:5] + b'\1' + WHOLE_EXAMPLE[6:]


class Lists(ToolTest):
    def made(self, text, *words):
        status, out, err = self.run_tool('make-requests', *words, given=text.encode('utf-8'))
        self.assertEqual((status, err), (0, ''))
        return out

    def test_whole_example(self):
        self.assertEqual(self.made('7 eigen2 2 1 2\n'), WHOLE_EXAMPLE)
        self.assertEqual(self.made('7 1 2 1 2'), WHOLE_EXAMPLE)

    def test_comments_blank_lines_and_line_ends(self):
        text = '# the night\n\n  7\tEIGEN2 2. +1 2e0  # as in the scope\r\n   \n'
        self.assertEqual(self.made(text), WHOLE_EXAMPLE)
        self.assertEqual(self.made('# nothing\n'), b'')
        self.assertEqual(self.made(''), b'')

    def test_every_kind_by_name_and_number(self):
        kinds = (('eigen2', 3, 0), ('eigen3', 6, 0), ('svd2', 4, 0), ('svd3', 9, 0), ('cholesky2', 3, 0),
                 ('cholesky3', 6, 0), ('solve2', 3, 2), ('solve3', 6, 3))
        for number, (name, nine, three) in enumerate(kinds, start=1):
            numbers = list(range(1, nine + three + 1))
            places = numbers[:nine] + [0] * (9 - nine) + numbers[nine:] + [0] * (3 - three)
            expected = struct.pack('<IB3x12d', 4294967295, number, *places)
            old = expected[:5] + bytes([number <= 4]) + expected[6:]
            line = ' '.join(map(str, numbers))
            self.assertEqual(self.made(f'4294967295 {name} {line}'), expected, name)
            self.assertEqual(self.made(f'4294967295 {number} {line}'), expected, name)
            self.assertEqual(self.made(f'4294967295 {name} {line}', '--old-way'), old, name)
            if number <= 4:
                self.assertEqual(self.made(f'4294967295 {number} old {line}'), old, name)

    def test_the_old_way(self):
        for text in ('7 eigen2 old 2 1 2', '7 1 OLD 2 1 2 # as before'):
            self.assertEqual(self.made(text), OLD_EXAMPLE, text)
            self.assertEqual(self.made(text, '--old-way'), OLD_EXAMPLE, text)
        self.assertEqual(self.made('7 eigen2 old 2 1 2\n7 eigen2 2 1 2\n'), OLD_EXAMPLE + WHOLE_EXAMPLE)
        self.assertEqual(self.made('event,kind,n\n7,eigen2 old,2,1,2\n7, 1  Old ,2,1,2,,\n', '--csv'), OLD_EXAMPLE * 2)
        self.assertEqual(self.made('event,kind,n\n7,eigen2,2,1,2\n', '--csv', '--old-way'), OLD_EXAMPLE)

    def test_numbers_are_exact(self):
        cases = {'0x1.8p+3': 12.0, '-0x1p-1074': -2.0 ** -1074, '0x1.fffffffffffffp+1023': sys.float_info.max,
                 '-0': -0.0, '0x.8p1': 1.0, '0XAp0': 10.0, '0.1': 0.1, '1e-400': 0.0, '.5': 0.5, '0x10': 16.0}
        for text, number in cases.items():
            out = self.made(f'0 eigen2 {text} 0 0')
            self.assertEqual(out[8:16], struct.pack('<d', number), text)

    def test_csv(self):
        text = '\ufeffEvent,Kind,n1,n2,n3\r\n7,eigen2,2,1,2\r\n,,,,\r\n"7", 1 ,2,1,2,,,\r\n'
        self.assertEqual(self.made(text, '--csv'), WHOLE_EXAMPLE * 2)
        self.put('night.csv', text.encode('utf-8'))
        status, out, _ = self.run_tool('make-requests', 'night.csv')
        self.assertEqual((status, out), (0, WHOLE_EXAMPLE * 2))
        self.assertEqual(self.made('event,kind\n', '--csv'), b'')


class BadLines(ToolTest):
    def refused(self, text, *expected, words=()):
        """Each of the expected (line, reason) is told, in order, and nothing else; nothing is written."""
        status, out, err = self.run_tool('make-requests', '-o', 'out.requests', *words, given=text.encode('utf-8'))
        self.assertEqual((status, out, self.files()), (1, b'', []))
        told = err.splitlines()
        self.assertEqual(len(told), len(expected) + 1, err)
        for line, (number, reason) in zip(told, expected):
            self.assertTrue(line.startswith(f'standard input:{number}: '), line)
            self.assertIn(reason, line)
        lines = len({number for number, _ in expected})
        self.assertEqual(told[-1], f"make-requests: {lines} bad line{'s' * (lines > 1)}, nothing is written")

    def test_each_reason(self):
        cases = (
            ('1 eigen4 1 2 3', "kind 'eigen4' is unknown: write one of eigen2, "),
            ('1 0 1 2 3', "kind '0' is unknown"),
            ('1 9 1 2 3', "kind '9' is unknown"),
            ('1 01 1 2 3', "kind '01' is unknown"),
            ('1 eigen2 1 2', 'eigen2 needs 3 numbers (A11 A12 A22), and here are 2'),
            ('1 solve3 1 2 3 4 5 6 7 8 9 10', 'solve3 needs 9 numbers (A11 A12 A22 A13 A23 A33 b1 b2 b3), and here are 10'),
            ('1 eigen2', 'eigen2 needs 3 numbers'),
            ('1', 'a line is: event number, kind, numbers'),
            ('1 cholesky2 old 1 2 3', "cholesky2 has no old way: leave out 'old'"),
            ('1 8 Old 1 2 3 4 5 6 7 8 9', "solve3 has no old way: leave out 'Old'"),
            ('1 old 1 2 3', "kind 'old' is unknown"),
            ('1 eigen2 1 old 2', "'old' is not a number"),
            ('1 eigen2 old', 'eigen2 needs 3 numbers (A11 A12 A22), and here are 0'),
            ('1 eigen2 1 2 three', "'three' is not a number"),
            ('1 eigen2 1 2 1_0', "'1_0' is not a number"),
            ('1 eigen2 1 2 0x', "'0x' is not a number"),
            ('1 eigen2 1 2 ٣', "'٣' is not a number"),
            ('1 eigen2 1 2 NaN', 'NaN is refused: the recorder would answer 5'),
            ('1 eigen2 1 2 -inf', '-inf is refused: the recorder would answer 5'),
            ('1 eigen2 1 2 Infinity', 'Infinity is refused: the recorder would answer 5'),
            ('1 eigen2 1 2 1e309', '1e309 is too large for a double: the recorder would answer 5'),
            ('1 eigen2 1 2 0x1p1024', '0x1p1024 is too large for a double'),
            ('1 eigen2 1 2 0x1.00000000000008p0', 'is no double: it has digits that would be lost'),
            ('1 eigen2 1 2 0x1p-1075', 'is no double'),
            ('-1 eigen2 1 2 3', "event '-1' is not a whole number from 0 to 4294967295"),
            ('1.0 eigen2 1 2 3', "event '1.0' is not a whole number"),
            ('4294967296 eigen2 1 2 3', 'event 4294967296 is above 4294967295'),
            ('9' * 5000 + ' eigen2 1 2 3', 'is above 4294967295'))
        # a comment comes first, so line 2 is the first case's
        text = '# bad lines\n' + ''.join(f'{line}\n' for line, _ in cases)
        self.refused(text, *((number, reason) for number, (_, reason) in enumerate(cases, start=2)))

    def test_all_bad_lines_are_listed(self):
        self.refused('7 eigen2 2 1 2\n8 eigen 1\n\n9 svd2 1 2 3 x y\n-3 eigen2 nan 1 1\n10 eigen2 2 1 2\n',
                     (2, 'unknown'), (4, 'svd2 needs 4 numbers'), (4, "'x' is"), (4, "'y' is"), (5, "event '-3'"), (5, 'nan'))

    def test_csv_lines_are_counted_from_the_header(self):
        self.refused('event,kind,n\n7,eigen2,2,1,2\n8,eigen2,2,,2\n', (3, "'' is not a number"), words=['--csv'])
        self.refused('7,eigen2,2,1,2\n', (1, 'the header of a CSV list begins with: event,kind'), words=['--csv'])
        self.refused('', (1, 'the header'), words=['--csv'])

    def test_bytes_that_are_no_text(self):
        status, out, err = self.run_tool('make-requests', given=b'7 eigen2 2 1 \xff\n')
        self.assertEqual((status, out), (1, b''))
        self.assertIn('standard input:1: ', err)

    def test_nothing_goes_to_standard_output(self):
        status, out, _ = self.run_tool('make-requests', given=b'7 eigen2 2 1 2\n8 none\n')
        self.assertEqual((status, out), (1, b''))

    def test_an_old_file_stays(self):
        self.put('out.requests', b'old')
        status, _, _ = self.run_tool('make-requests', '-o', 'out.requests', given=b'8 none\n')
        self.assertEqual((status, self.get('out.requests'), self.files()), (1, b'old', ['out.requests']))


class Output(ToolTest):
    def test_a_whole_file(self):
        self.put('out.requests', b'old')
        os.symlink('out.requests', self.path('link'))
        status, out, err = self.run_tool('make-requests', '-o', 'link', given=b'7 eigen2 2 1 2\n')
        self.assertEqual((status, out, err), (0, b'', ''))
        self.assertEqual(self.get('out.requests'), WHOLE_EXAMPLE)
        self.assertEqual(self.files(), ['link', 'out.requests'])
        self.assertTrue(os.path.islink(self.path('link')))

    def test_what_cannot_be_written(self):
        os.mkdir(self.path('folder'))
        for target in ('folder', os.devnull):
            self.one_line(*self.run_tool('make-requests', '-o', target, given=b'7 1 2 1 2'), 'is not a plain file')
        self.one_line(*self.run_tool('make-requests', '-o', 'none/x', given=b'7 1 2 1 2'), 'none/x: cannot be written')

    def test_the_list_is_not_written_over(self):
        self.put('list.txt', b'7 1 2 1 2')
        self.one_line(*self.run_tool('make-requests', 'list.txt', '-o', './list.txt'), 'is the list itself')
        self.assertEqual(self.get('list.txt'), b'7 1 2 1 2')

    def test_what_cannot_be_read(self):
        os.mkdir(self.path('folder'))
        self.one_line(*self.run_tool('make-requests', 'folder'), 'folder: cannot be read')
        self.one_line(*self.run_tool('make-requests', 'none.txt'), 'none.txt: cannot be read')

    def test_a_full_output(self):
        with open('/dev/full', 'wb') as full:
            done = subprocess.run([sys.executable, '-B', os.path.join(TOP, 'tools', 'make-requests')], input=b'7 1 2 1 2',
                                  stdout=full, stderr=subprocess.PIPE, check=False)
        self.assertEqual(done.returncode, 1)
        self.assertEqual(done.stderr.decode().count('\n'), 1, done.stderr)
        self.assertIn(b'standard output: cannot be written', done.stderr)


if __name__ == '__main__':
    unittest.main()
