"""old-way: one byte of a request, and nothing else."""
import os
import unittest

from support import TOP, ToolTest

SIZE = 104


def request(kind, way=0):
    """A request with different bytes in all other places."""
    return bytes([7, 8, 9, 10, kind, way]) + bytes(range(11, 11 + SIZE - 6))


def with_byte(record, at, byte):
    return record[:at] + bytes([byte]) + record[at + 1:]


class Bytes(ToolTest):
    def made(self, requests):
        status, out, err = self.run_tool('old-way', given=requests)
        self.assertEqual((status, err), (0, ''))
        return out

    def test_every_kind(self):
        given = b''.join(request(kind) for kind in range(256))
        due = b''.join(request(kind, 1 if kind in (1, 2, 3, 4) else 0) for kind in range(256))
        self.assertEqual(self.made(given), due)

    def test_every_way(self):
        given = b''.join(request(kind, way) for kind in (1, 4, 5) for way in range(256))
        due = with_byte(with_byte(given, 5, 1), 256 * SIZE + 5, 1)
        self.assertEqual(self.made(given), due)

    def test_twice_is_once(self):
        once = self.made(b''.join(map(request, range(10))))
        self.assertEqual(self.made(once), once)

    def test_an_incomplete_request_stays(self):
        for part in (0, 1, 4, 5, 6, 7, 103):
            given = request(2) + request(3)[:part]
            self.assertEqual(self.made(given), request(2, 1) + request(3)[:part], part)
        self.assertEqual(self.made(b''), b'')

    def test_more_than_is_held(self):
        self.assertEqual(self.made(request(1) * 10000 + b'x'), request(1, 1) * 10000 + b'x')

    def test_the_example_night(self):
        with open(os.path.join(TOP, 'examples', 'night.requests'), 'rb') as f:
            night = f.read()
        made = self.made(night)
        changed = [at for at, (old, new) in enumerate(zip(night, made)) if old != new]
        self.assertEqual(len(made), len(night))
        self.assertTrue(changed)
        for at in changed:
            self.assertEqual((at % SIZE, night[at], made[at]), (5, 0, 1))


class Files(ToolTest):
    def test_from_a_file_to_a_file(self):
        self.put('night.requests', request(2) + request(5))
        status, out, err = self.run_tool('old-way', 'night.requests', '-o', 'old.requests')
        self.assertEqual((status, out, err), (0, b'', ''))
        self.assertEqual(self.get('old.requests'), request(2, 1) + request(5))
        self.assertEqual(self.get('night.requests'), request(2) + request(5))

    def test_in_place(self):
        self.put('night.requests', request(2) * 5000)
        self.assertEqual(self.run_tool('old-way', 'night.requests', '-o', 'night.requests'), (0, b'', ''))
        self.assertEqual(self.get('night.requests'), request(2, 1) * 5000)
        self.assertEqual(self.files(), ['night.requests'])

    def test_what_cannot_be_read(self):
        self.one_line(*self.run_tool('old-way', 'none.requests', '-o', 'out'), 'none.requests: cannot be read')
        self.assertEqual(self.files(), [])


if __name__ == '__main__':
    unittest.main()
