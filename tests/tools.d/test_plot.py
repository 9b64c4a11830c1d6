"""The picture of axes, and the frame that a user names."""
import math
import os
import unittest
import xml.etree.ElementTree as xml

from support import (ANSWERED, BLIND, EIGEN2, EIGEN3, IDENTITY, REFUSED, TOP, UNSETTLED, ToolTest, answer, spoilt)
from records.frame import BadFrame, Frame
from records.net import CENTRE_X, CENTRE_Y, RADIUS, distance

SVG = '{http://www.w3.org/2000/svg}'
NED = 'x=north,y=east,z=down'


class Plot(ToolTest):
    def picture(self, records, *words, status=0):
        got, out, err = self.run_tool('show-answers', '--plot', 'axes.svg', *words, given=records)
        self.assertEqual((got, out), (status, b''), err)
        self.assertEqual(self.files(), ['axes.svg'])
        return xml.fromstring(self.get('axes.svg'))

    def marks(self, picture):
        """Each mark as (what it is, settled or not, x, y), the place from the centre with the rim at 1."""
        found = []
        for mark in picture.find(f"{SVG}g[@id='marks']"):
            rank, settled = mark.get('class').split()
            if mark.tag == SVG + 'circle':
                x, y = float(mark.get('cx')), float(mark.get('cy'))
            elif mark.tag == SVG + 'rect':
                x = float(mark.get('x')) + float(mark.get('width')) / 2
                y = float(mark.get('y')) + float(mark.get('height')) / 2
            else:
                x, y = (float(part) for part in mark.get('d')[1:].split('l')[0].split())
                y += 5.52
            found.append((rank, settled, (x - CENTRE_X) / RADIUS, (CENTRE_Y - y) / RADIUS))
        return found

    def near(self, mark, rank, x, y):
        self.assertEqual(mark[0], rank)
        self.assertAlmostEqual(mark[2], x, delta=1e-3)
        self.assertAlmostEqual(mark[3], y, delta=1e-3)

    def words(self, picture):
        return [node.text for node in picture.iter(SVG + 'text')]

    def test_marks(self):
        picture = self.picture(b''.join(ANSWERED + REFUSED) + UNSETTLED + EIGEN3)
        marks = self.marks(picture)
        self.assertEqual(len(marks), 9)
        self.assertEqual([settled for _, settled, _, _ in marks], ['settled'] * 6 + ['unsettled'] * 3)
        self.assertEqual([rank for rank, _, _, _ in marks], ['smallest', 'middle', 'largest'] * 3)
        self.assertIn('.unsettled { fill: #fff', picture.find(SVG + 'style').text)
        self.assertEqual({mark.get('class').split()[0]: mark.tag for mark in picture.find(f"{SVG}g[@id='marks']")},
                         {'smallest': SVG + 'rect', 'middle': SVG + 'path', 'largest': SVG + 'circle'})

    def test_the_legend_counts(self):
        words = self.words(self.picture(b''.join(ANSWERED + REFUSED) + UNSETTLED + spoilt(EIGEN2, 5, 8) + b'abc', status=1))
        for line in ('2 tensors (eigen3, code 0)', '1 of them unsettled', '14 of other kinds or refused, not drawn',
                     '1 foreign record not drawn', '3 bytes left over at the end', "the recorder's own x, y, z",
                     'hemisphere z ≥ 0, seen from +z:', '+x', '+y', '−x', '−y', '+z'):
            self.assertIn(line, words)
        self.assertIn('0 tensors (eigen3, code 0)', self.words(self.picture(b'')))

    def test_unsettled_tensors_are_hollow(self):
        """Whichever way they are unsettled. A 2x2 answer has no axes in space, and none is drawn."""
        picture = self.picture(b''.join(BLIND) + EIGEN3 + UNSETTLED)
        self.assertEqual([settled for _, settled, _, _ in self.marks(picture)], ['settled'] * 3 + ['unsettled'] * 6)
        for line in ('3 tensors (eigen3, code 0)', '2 of them unsettled', '3 of other kinds or refused, not drawn', 'hollow: unsettled'):
            self.assertIn(line, self.words(picture))

    def test_an_axis_is_drawn_by_one_end(self):
        one, two = (0.6, 0.0, 0.8), (-0.6, 0.0, -0.8)
        marks = self.marks(self.picture(answer(1, 2, values=(1, 2, 3), left=one + two + (0, -1, 0))))
        self.near(marks[0], 'smallest', math.sqrt(1 - 0.8), 0)
        self.near(marks[1], 'middle', math.sqrt(1 - 0.8), 0)
        self.near(marks[2], 'largest', 0, 1)

    def test_areas_are_equal(self):
        self.assertAlmostEqual(distance(90), 1)
        self.assertAlmostEqual(distance(60) ** 2, 0.5)

    def test_a_frame_turns_the_net(self):
        picture = self.picture(answer(1, 2, values=(1, 2, 3), left=IDENTITY), '--frame', NED)
        marks = self.marks(picture)
        self.near(marks[0], 'smallest', 0, 1)
        self.near(marks[1], 'middle', 1, 0)
        self.near(marks[2], 'largest', 0, 0)
        words = self.words(picture)
        for line in ('N', 'E', 'S', 'W', 'x = north, y = east, z = down', 'lower hemisphere, seen from above'):
            self.assertIn(line, words)
        self.assertNotIn('+x', words)

    def test_up_is_seen_through_its_lower_end(self):
        # north, east and up in equal parts: the lower end points south-west
        third = math.sqrt(1 / 3)
        up = answer(1, 2, values=(1, 2, 3), left=(third, third, third, 0, 1, 0, 1, 0, 0))
        mark = self.marks(self.picture(up, '--frame', 'x=east,y=north,z=up'))[0]
        away = math.sqrt(1 - third) * math.sqrt(0.5)
        self.near(mark, 'smallest', -away, -away)

    def test_no_frame_no_geography(self):
        self.picture(b''.join(ANSWERED))
        text = self.get('axes.svg').decode('utf-8').lower()
        for word in ('north', 'east', 'south', 'west', 'plunge', 'trend', 'lower', 'upper', '>n<', '>e<'):
            self.assertNotIn(word, text)

    def test_an_axis_of_length_0(self):
        picture = self.picture(answer(1, 2, values=(1, 2, 3), left=(0,) * 9))
        self.assertEqual(self.marks(picture), [])
        self.assertIn('axes of length 0, not drawn: 3', self.words(picture))

    def test_a_name_with_marks_of_xml(self):
        name = self.put('a<&>b.answers', EIGEN3)
        status, _, err = self.run_tool('show-answers', os.path.basename(name), '--plot', 'axes.svg')
        self.assertEqual((status, err), (0, ''))
        self.assertIn('a<&>b.answers', xml.fromstring(self.get('axes.svg')).find(SVG + 'title').text)

    def test_nothing_is_left_when_the_file_cannot_be_read(self):
        self.one_line(*self.run_tool('show-answers', 'none.answers', '--plot', 'axes.svg'), 'none.answers: cannot be read')
        os.mkdir(self.path('folder'))
        self.one_line(*self.run_tool('show-answers', 'folder', '--plot', 'axes.svg'), 'folder: cannot be read')
        self.assertEqual(self.files(), ['folder'])

    def test_only_a_picture_is_written_over(self):
        name = self.put('night.answers', EIGEN3)
        status, out, err = self.run_tool('show-answers', '--plot', name)
        self.assertEqual((status, out, self.get('night.answers')), (2, b'', EIGEN3))
        self.assertIn('the name of a picture ends in .svg', err)


class Frames(unittest.TestCase):
    def test_real_frames(self):
        for words, left_handed in ((NED, False), ('x=east,y=north,z=up', False), ('x=north,y=east,z=up', True),
                                   ('z=down, y=West, X=South', False), ('x=up,y=east,z=north', False)):
            with self.subTest(words=words):
                self.assertEqual(Frame(words).left_handed, left_handed)

    def test_no_frames(self):
        for words in ('', 'north,east,down', 'x=north,y=east', 'x=north,y=south,z=down', 'x=north,y=north,z=down',
                      'x=north,y=east,z=north', 'x=north,x=east,z=down', 'x=north,y=east,z=below', 'x=north,y=east,z=down,w=up',
                      'x=,y=east,z=down'):
            with self.subTest(words=words), self.assertRaises(BadFrame):
                Frame(words)

    def test_trend_and_plunge(self):
        frame, half = Frame(NED), math.sqrt(0.5)
        for axis, expected in (((1, 0, 0), (0, 0)), ((-1, 0, 0), (0, 0)), ((0, 1, 0), (90, 0)), ((0, 0, -1), (0, 90)),
                               ((half, 0, half), (0, 45)), ((-half, 0, half), (180, 45)), ((0, half, -half), (270, 45)),
                               ((1, -1e-6, 1e-9), (0, 0)), ((1e300, 1e300, 0), (45, 0)), ((1e-320, 0, 1e-320), (0, 45))):
            with self.subTest(axis=axis):
                self.assertEqual(frame.trend_and_plunge(axis), expected)
        self.assertEqual(Frame('x=east,y=north,z=up').trend_and_plunge((0, half, half)), (180, 45))
        self.assertIsNone(frame.trend_and_plunge((0, 0, 0)))

    def test_a_bad_frame_is_told(self):
        test = ToolTest()
        test.room = TOP
        status, out, err = test.run_tool('show-answers', '--frame', 'x=north,y=south,z=up')
        self.assertEqual((status, out), (2, b''))
        self.assertIn('one of x, y, z is along north or south', err)


if __name__ == '__main__':
    unittest.main()
