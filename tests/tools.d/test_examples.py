"""The examples: the list, how the night was made, and what it is answered with."""
import collections
import csv
import io
import json
import os
import struct
import subprocess
import sys
import unittest

from support import KINDS, TOP, ToolTest

EXAMPLES = os.path.join(TOP, 'examples')
ANSWERS = os.path.join(EXAMPLES, 'night.answers')
TALLY = os.path.join(EXAMPLES, 'night.tally')


def content(path):
    with open(path, 'rb') as f:
        return f.read()


class List(ToolTest):
    def test_the_list_has_every_kind(self):
        status, out, err = self.run_tool('make-requests', os.path.join(EXAMPLES, 'events.txt'))
        self.assertEqual((status, err, len(out) % 104), (0, '', 0))
        self.assertEqual({out[at + 4] for at in range(0, len(out), 104)}, set(range(1, 9)))


class Night(ToolTest):
    def setUp(self):
        super().setUp()
        self.requests = content(os.path.join(EXAMPLES, 'night.requests'))
        self.whole = [self.requests[at:at + 104] for at in range(0, len(self.requests) - 103, 104)]

    def test_it_is_made_by_its_script(self):
        made = subprocess.run([sys.executable, '-B', os.path.join(EXAMPLES, 'make-night')], capture_output=True, check=True)
        self.assertEqual(made.stdout, self.requests)

    def test_what_is_in_it(self):
        kinds = collections.Counter(request[4] for request in self.whole)
        self.assertTrue(all(kinds[kind] >= 10 for kind in range(1, 9)), kinds)
        self.assertTrue(any(kind not in range(1, 9) for kind in kinds), kinds)
        self.assertIn(f'{len(self.whole)} requests', content(os.path.join(EXAMPLES, 'README.md')).decode('utf-8'))
        self.assertTrue(0 < len(self.requests) % 104)
        isotropic = struct.pack('<6d', 2.0 ** 30, 2.0 ** -24, 2.0 ** 30, 2.0 ** -24, 0, 2.0 ** 30)
        self.assertEqual([request[5] for request in self.whole if request[4] == 2 and request[8:56] == isotropic], [0, 1])
        shear = struct.pack('<9d', 0, 1, 2.0 ** -60, 0, 0, 2.0 ** -60, 0, 0, 0)
        self.assertEqual([request[4:80] for request in self.whole[-2:]],
                         [b'\1\0\0\0' + shear[:24] + bytes(48), b'\2\0\0\0' + shear])

    def test_its_answers(self):
        status, out, err = self.run_tool('show-answers', '--json', ANSWERS)
        self.assertEqual((status, err), (0, ''))
        shown = [json.loads(line) for line in out.splitlines()]
        self.assertEqual(len(shown), len(self.whole) + 1)
        self.assertEqual([answer['event'] for answer in shown[:-1]], [struct.unpack('<I', r[:4])[0] for r in self.whole])
        self.assertEqual([content(ANSWERS)[176 * i + 4] for i in range(len(self.whole))], [r[4] for r in self.whole])
        codes = collections.Counter(answer['code'] for answer in shown)
        self.assertEqual(codes, {0: len(self.whole) - 17, 1: 1, 3: 3, 4: 4, 5: 3, 6: 4, 7: 2, 9: 1})
        self.assertEqual(shown[-1]['code'], 1)
        self.assertEqual([(answer['kind'], answer['rotations']) for answer in shown if answer['settled'] is False],
                         [('eigen3', 25), ('eigen2', None), ('eigen3', 1)])
        self.assertEqual({answer['kind'] for answer in shown if answer['code'] == 0}, set(KINDS))

    def test_its_tiny_tensors(self):
        """Those in reduced units are turned, and unturned in the old way. The examples' page names their events."""
        _, out, _ = self.run_tool('show-answers', '--json', ANSWERS)
        ways = {0: [], 1: []}
        for request, answer in zip(self.whole, map(json.loads, out.splitlines())):
            numbers = struct.unpack('<6d', request[8:56])
            if request[4] == 2 and 0 < max(map(abs, numbers)) < 1e-12:
                ways[request[5]].append(answer['event'])
                self.assertTrue(answer['settled'])
                self.assertEqual(answer['rotations'] in range(7, 10), request[5] == 0, answer)
                if request[5]:
                    self.assertEqual(answer['values'], sorted(numbers[i] for i in (0, 2, 5)))
        self.assertEqual((len(ways[0]), ways[1]), (6, ways[0][-2:]))
        page = ' '.join(content(os.path.join(EXAMPLES, 'README.md')).decode('utf-8').split())
        self.assertIn(f"{', '.join(map(str, ways[0][:-1]))} and {ways[0][-1]}.", page)

    def test_its_tally(self):
        """The listing has what is found by looking at each answer."""
        _, out, _ = self.run_tool('show-answers', '--json', ANSWERS)
        expected = collections.Counter()
        for answer in map(json.loads, out.splitlines()):
            row = str(KINDS.index(answer['kind']) + 1) if answer['kind'] in KINDS else 'other'
            expected[row, f"code {answer['code']}"] += 1
            expected['total', f"code {answer['code']}"] += 1
            expected['', 'records'] += 1
            if answer['code'] == 0:
                mark = 'settled' if answer['settled'] else 'unsettled'
                expected[row, mark] += 1
                expected['total', mark] += 1
            if answer['rotations'] is not None:
                expected[row, f"rotations {answer['rotations']}"] += 1
        status, out, err = self.run_tool('show-tally', '--csv', TALLY)
        self.assertEqual((status, err), (0, ''))
        rows = csv.DictReader(io.StringIO(out.decode('utf-8')))
        self.assertEqual({(row['kind'], row['what']): int(row['count']) for row in rows if row['count'] != '0'}, expected)


if __name__ == '__main__':
    unittest.main()
