"""The axes of 3x3 tensors on an equal-area (Schmidt) net, as an SVG picture."""
import math
import shutil
import tempfile
from xml.sax.saxutils import escape

from records.answers import Answer, Foreign, LeftOver, columns
from records.frame import end_towards
from records.numbers import decimal
from records.views import has_ground_axes

WIDTH, HEIGHT = 980, 640
CENTRE_X, CENTRE_Y, RADIUS = 320, 335, 265
LEGEND_X, LEGEND_Y, LINE = 660, 92, 21
SIZE = 4.6

RANKS = ('smallest', 'middle', 'largest')

# Three colours that colour-blind readers tell apart; the shapes say the same once more.
STYLE = '''
  text { font-family: "DejaVu Sans", Verdana, Arial, sans-serif; font-size: 13px; fill: #222 }
  .title { font-size: 17px; font-weight: bold }
  .rim { fill: none; stroke: #222; stroke-width: 1.4 }
  .grid { fill: none; stroke: #ddd; stroke-width: 0.7 }
  .strong { stroke: #aaa }
  .degrees { font-size: 11px; fill: #666; paint-order: stroke; stroke: #fff; stroke-width: 3px }
  .direction { font-size: 16px; font-weight: bold; text-anchor: middle }
  .heading { font-weight: bold }
  .largest { fill: #d55e00; stroke: #d55e00 }
  .middle { fill: #009e73; stroke: #009e73 }
  .smallest { fill: #0072b2; stroke: #0072b2 }
  .settled { stroke: #fff; stroke-width: 0.7 }
  .unsettled { fill: #fff; stroke-width: 2 }
'''


def distance(degrees):
    """How far from the centre, of 1 at the rim, a direction lies that is so far from the middle one."""
    return math.sqrt(1 - math.cos(math.radians(degrees)))


def shape(rank, settled, x, y, title=''):
    """A mark: a disc for the largest value, a triangle for the middle one, a square for the smallest."""
    named = f'class="{rank} {"settled" if settled else "unsettled"}"'
    inside = f'><title>{escape(title)}</title></' if title else None
    if rank == 'largest':
        tag, place = 'circle', f'cx="{x:.2f}" cy="{y:.2f}" r="{SIZE}"'
    elif rank == 'middle':
        wide, high = SIZE * 1.15, SIZE * 1.2
        tag, place = 'path', f'd="M{x:.2f} {y - high:.2f}l{wide:.2f} {high * 1.7:.2f}h{-2 * wide:.2f}z"'
    else:
        side = SIZE * 1.75
        tag = 'rect'
        place = f'x="{x - side / 2:.2f}" y="{y - side / 2:.2f}" width="{side:.2f}" height="{side:.2f}"'
    return f'<{tag} {named} {place}' + (f'{inside}{tag}>' if inside else '/>') + '\n'


def text(x, y, words, named=''):
    return f'<text x="{x}" y="{y}"' + (f' class="{named}"' if named else '') + f'>{escape(words)}</text>\n'


def plural(count, noun):
    return f"{count} {noun}{'s' * (count != 1)}"


def short(name, most=48):
    """A long name without its middle, for a title of one line."""
    return name if len(name) <= most else f'{name[:most // 2 - 1]}…{name[-most // 2:]}'


class Net:
    """Takes what stands in an answer file, in order. The marks go out as they come, so memory does not grow."""

    def __init__(self, out, source, frame=None):
        self.out, self.source, self.frame = out, source, frame
        self.tensors = self.unsettled = self.others = self.foreign = self.left_over = self.pointless = 0
        # unsettled marks are drawn last, so that no other hides them
        self.last = tempfile.TemporaryFile('w+', encoding='utf-8')

    def begin(self):
        self.out.write(
            f'<svg xmlns="http://www.w3.org/2000/svg" width="{WIDTH}" height="{HEIGHT}" viewBox="0 0 {WIDTH} {HEIGHT}">\n'
            f'<title>Axes of the 3x3 tensors of {escape(self.source)}</title>\n<style>{STYLE}</style>\n'
            f'<rect width="{WIDTH}" height="{HEIGHT}" fill="#fff"/>\n')
        self.out.write(text(32, 36, f'Axes of the 3x3 tensors of {short(self.source)}', 'title'))
        self.draw_grid()
        self.out.write('<g id="marks">\n')

    def draw_grid(self):
        self.out.write('<g id="net">\n')
        for degrees in range(10, 90, 10):
            strong = ' strong' if degrees % 30 == 0 else ''
            self.out.write(f'<circle class="grid{strong}" cx="{CENTRE_X}" cy="{CENTRE_Y}" '
                           f'r="{RADIUS * distance(degrees):.2f}"/>\n')
        for degrees in range(0, 360, 30):
            strong = ' strong' if degrees % 90 == 0 else ''
            right, up = math.sin(math.radians(degrees)), math.cos(math.radians(degrees))
            self.out.write(f'<path class="grid{strong}" d="M{CENTRE_X} {CENTRE_Y}'
                           f'L{CENTRE_X + RADIUS * right:.2f} {CENTRE_Y - RADIUS * up:.2f}"/>\n')
        self.out.write(f'<circle class="rim" cx="{CENTRE_X}" cy="{CENTRE_Y}" r="{RADIUS}"/>\n</g>\n')

    def draw_labels(self):
        """The directions at the rim, and the degrees, above the marks so that they stay readable."""
        top, right, bottom, left = ('N', 'E', 'S', 'W') if self.frame else ('+y', '+x', '−y', '−x')
        for words, x, y in ((top, 0, -RADIUS - 10), (right, RADIUS + 18, 6), (bottom, 0, RADIUS + 24),
                            (left, -RADIUS - 18, 6)):
            self.out.write(text(CENTRE_X + x, CENTRE_Y + y, words, 'direction'))
        if not self.frame:
            self.draw_z()
        for degrees in (30, 60):
            shown = 90 - degrees if self.frame else degrees
            away = RADIUS * distance(degrees) * math.sqrt(0.5)
            self.out.write(text(f'{CENTRE_X + away - 10:.1f}', f'{CENTRE_Y + away + 4:.1f}', f'{shown}°', 'degrees'))

    def draw_z(self):
        """The sign of an arrow that comes out of the page: its point in a ring."""
        self.out.write(f'<circle class="rim" cx="{CENTRE_X}" cy="{CENTRE_Y}" r="5"/>\n'
                       f'<circle cx="{CENTRE_X}" cy="{CENTRE_Y}" r="1.6" fill="#222"/>\n')
        self.out.write(text(CENTRE_X - 16, CENTRE_Y + 18, '+z', 'direction'))

    def put(self, item):
        if isinstance(item, Foreign):
            self.foreign += 1
        elif isinstance(item, LeftOver):
            self.left_over = item.count
        elif isinstance(item, Answer) and has_ground_axes(item):
            self.tensors += 1
            self.unsettled += not item.settled
            for rank, value, axis in zip(RANKS, item.values, columns(item.left, 3)):
                self.mark(item, rank, value, axis)
        else:
            self.others += 1

    def mark(self, answer, rank, value, axis):
        end = end_towards(self.frame.in_ground(axis) if self.frame else axis)
        if end is None:
            self.pointless += 1
            return
        right, up = (end[1], end[0]) if self.frame else (end[0], end[1])
        flat = math.hypot(right, up)
        # 1 - z loses digits near the middle, where the flat part has them
        away = flat / math.sqrt(1 + end[2])
        x = CENTRE_X + (RADIUS * away * right / flat if flat else 0)
        y = CENTRE_Y - (RADIUS * away * up / flat if flat else 0)
        title = f'event {answer.event}, {rank} value {decimal(value)}'
        (self.out if answer.settled else self.last).write(shape(rank, answer.settled, x, y, title))

    def finish(self):
        self.last.seek(0)
        shutil.copyfileobj(self.last, self.out)
        self.last.close()
        self.out.write('</g>\n')
        self.draw_labels()
        self.draw_legend()
        self.out.write('</svg>\n')

    def projection(self):
        """What the legend says of the net."""
        if self.frame:
            hand = ['(a left-handed frame)'] if self.frame.left_handed else []
            return [str(self.frame)] + hand + [
                'lower hemisphere, seen from above', 'plunge 0° at the rim, 90° at the centre']
        return ["the recorder's own x, y, z", 'hemisphere z ≥ 0, seen from +z:', 'x to the right, y up, z out of the page',
                'angle from z: 0° at the centre, 90° at the rim']

    def counted(self):
        """What the legend says of the file."""
        lines = [f"{plural(self.tensors, 'tensor')} (eigen3, code 0)", f'{self.unsettled} of them unsettled']
        for count, words in ((self.others, f'{self.others} of other kinds or refused, not drawn'),
                             (self.foreign, f"{plural(self.foreign, 'foreign record')} not drawn"),
                             (self.pointless, f'axes of length 0, not drawn: {self.pointless}'),
                             (self.left_over, f"{plural(self.left_over, 'byte')} left over at the end")):
            lines += [words] if count else []
        return lines

    def draw_legend(self):
        y = LEGEND_Y
        self.out.write('<g id="legend">\n')
        self.out.write(text(LEGEND_X, y, 'Axis of the', 'heading'))
        for rank in reversed(RANKS):
            y += LINE
            self.out.write(shape(rank, True, LEGEND_X + 8, y - 4))
            self.out.write(text(LEGEND_X + 50, y, f'{rank} value'))
        y += LINE
        for i, rank in enumerate(reversed(RANKS)):
            self.out.write(shape(rank, False, LEGEND_X + 8 + 13 * i, y - 4))
        self.out.write(text(LEGEND_X + 50, y, 'hollow: unsettled'))
        for heading, lines in (('In the file', self.counted()), ('Equal-area (Schmidt) net', self.projection()),
                               ('An axis is a line', ['its end in this hemisphere is drawn'])):
            y += LINE * 3 // 2
            self.out.write(text(LEGEND_X, y, heading, 'heading'))
            for line in lines:
                y += LINE
                self.out.write(text(LEGEND_X, y, line))
        self.out.write('</g>\n')
