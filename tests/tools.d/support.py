"""What the tests of tools/ share: running a tool, a room for files, and answers made byte by byte."""
import os
import struct
import subprocess
import sys
import tempfile
import unittest

TOP = os.path.dirname(os.path.dirname(os.path.dirname(os.path.abspath(__file__))))
sys.path.insert(0, os.path.join(TOP, 'tools'))

KINDS = ['eigen2', 'eigen3', 'svd2', 'svd3', 'cholesky2', 'cholesky3', 'solve2', 'solve3']
H = struct.unpack('<d', bytes.fromhex('CD3B7F669EA0E63F'))[0]


def answer(event, kind, code=0, count=0, mark=None, values=(), left=(), right=()):
    """The 176 bytes of an answer; the mark is 1 with code 0 if none is given."""
    numbers = []
    for part, room in ((values, 3), (left, 9), (right, 9)):
        numbers += [float(x) for x in part] + [0.0] * (room - len(part))
    return struct.pack('<IBBBB21d', event, kind, code, count, int(code == 0) if mark is None else mark, *numbers)


def spoilt(record, at, byte):
    return record[:at] + bytes([byte]) + record[at + 1:]


IDENTITY = (1, 0, 0, 0, 1, 0, 0, 0, 1)
EIGEN2 = answer(7, 1, values=(1, 3), left=(H, -H, H, H))
EIGEN3 = answer(8, 2, count=4, values=(-1, 0.5, 2), left=(0, 1, -0.0, 0, 0, 1, 1, 0, 0))
SVD2 = answer(9, 3, values=(2, 1), left=(-0.0, -1, 1, 0), right=(0, 1, 1, 0))
SVD3 = answer(10, 4, count=3, values=(3, 2, 1), left=IDENTITY, right=(0, 0, 1, 0, 1, 0, 1, 0, 0))
CHOLESKY2 = answer(11, 5, left=(2, 1, 2))
CHOLESKY3 = answer(12, 6, left=(1, 2, 3, 4, 5, 6))
SOLVE2 = answer(13, 7, values=(1.25, 1.5), left=(2, 1, 2))
SOLVE3 = answer(14, 8, values=(0.1, 0.2, 0.3), left=(1, 2, 3, 4, 5, 6))
ANSWERED = (EIGEN2, EIGEN3, SVD2, SVD3, CHOLESKY2, CHOLESKY3, SOLVE2, SOLVE3)
UNSETTLED = answer(15, 2, count=25, mark=0, values=(1, 1, 1), left=IDENTITY)
# of each kind that makes rotations: 1 stands beside the diagonal, and on it are 0 and 2^-60, which no rotation looks at
BLIND = (answer(22, 1, mark=0, values=(-1, 1), left=(H, -H, H, H)),
         answer(23, 2, count=1, mark=0, values=(-1, 2.0 ** -60, 1), left=(H, -H, 0, 0, 0, 1, H, H, 0)),
         answer(24, 3, mark=0, values=(1, 1), left=(-H, H, H, H), right=(H, -H, H, H)),
         answer(25, 4, count=1, mark=0, values=(1, 1, 2.0 ** -60), left=(-H, H, 0, H, H, 0, 0, 0, 1),
                right=(H, -H, 0, H, H, 0, 0, 0, 1)))
CUT = answer(0, 0, code=1)
REFUSED = (CUT, answer(16, 9, code=3), answer(17, 1, code=4), answer(18, 2, code=5),
           answer(19, 6, code=6, count=3), answer(20, 8, code=7), answer(21, 8, code=9, count=3))


class ToolTest(unittest.TestCase):
    """A test that runs tools in a folder of its own."""

    def setUp(self):
        room = tempfile.TemporaryDirectory()
        self.addCleanup(room.cleanup)
        self.room = room.name

    def path(self, name):
        return os.path.join(self.room, name)

    def put(self, name, content):
        with open(self.path(name), 'wb') as f:
            f.write(content)
        return self.path(name)

    def get(self, name):
        with open(self.path(name), 'rb') as f:
            return f.read()

    def files(self):
        return sorted(os.listdir(self.room))

    def run_tool(self, tool, *words, given=b''):
        done = subprocess.run([sys.executable, '-B', os.path.join(TOP, 'tools', tool), *words],
                              input=given, capture_output=True, cwd=self.room, check=False)
        return done.returncode, done.stdout, done.stderr.decode('utf-8')

    def shown(self, records, *words, status=0):
        """What show-answers writes of these bytes, as text."""
        got, out, err = self.run_tool('show-answers', *words, given=records)
        self.assertEqual(got, status, err)
        self.assertEqual(bool(err), bool(status), err)
        return out.decode('utf-8')

    def one_line(self, status, out, err, words):
        """One line on standard error that has these words, status 1, and nothing on standard output."""
        self.assertEqual((status, out), (1, b''))
        self.assertEqual(err.count('\n'), 1, err)
        self.assertIn(words, err)
