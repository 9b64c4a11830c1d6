"""How the recorder's x, y, z lie in the ground, where the user says so: trend and plunge of an axis."""
import math

# north, east and down
DIRECTIONS = {
    'north': (1, 0, 0), 'south': (-1, 0, 0),
    'east': (0, 1, 0), 'west': (0, -1, 0),
    'down': (0, 0, 1), 'up': (0, 0, -1),
}
FORM = 'write it like x=north,y=east,z=down'


class BadFrame(ValueError):
    """The words name no frame; the text says why."""


class Frame:
    """Where x, y and z point."""

    def __init__(self, text):
        self.x, self.y, self.z = read_frame(text)

    def __str__(self):
        return f'x = {self.x}, y = {self.y}, z = {self.z}'

    @property
    def left_handed(self):
        rows = [DIRECTIONS[name] for name in (self.x, self.y, self.z)]
        (a, b, c), (d, e, f), (g, h, i) = rows
        return a * (e * i - f * h) - b * (d * i - f * g) + c * (d * h - e * g) < 0

    def in_ground(self, axis):
        """The north, east and down of a direction that is given in x, y and z."""
        rows = [DIRECTIONS[name] for name in (self.x, self.y, self.z)]
        return tuple(sum(part * row[i] for part, row in zip(axis, rows)) for i in range(3))

    def trend_and_plunge(self, axis):
        """In degrees, of the axis's lower end; both to a tenth. An axis without direction has neither."""
        down_end = end_towards(self.in_ground(axis))
        if down_end is None:
            return None
        # a zero with a sign would turn what points straight down to the south
        north, east, down = (part + 0.0 for part in down_end)
        trend = math.degrees(math.atan2(east, north)) % 360
        plunge = math.degrees(math.atan2(down, math.hypot(north, east)))
        # what rounds to a full turn is north
        return round(trend, 1) % 360, round(plunge, 1)


def read_frame(text):
    named = {}
    for part in text.lower().replace(' ', '').split(','):
        letter, equals, direction = part.partition('=')
        if letter not in ('x', 'y', 'z') or not equals or letter in named:
            raise BadFrame(f'{text!r} is no frame: {FORM}')
        if direction not in DIRECTIONS:
            raise BadFrame(f"{direction!r} is no direction: take {', '.join(DIRECTIONS)}")
        named[letter] = direction
    if len(named) != 3:
        raise BadFrame(f'{text!r} does not say where each of x, y and z points: {FORM}')
    lines = {tuple(map(abs, DIRECTIONS[direction])) for direction in named.values()}
    if len(lines) != 3:
        raise BadFrame(f'{text!r} is no frame: one of x, y, z is along north or south, one along east or west, '
                       'and one along up or down')
    return named['x'], named['y'], named['z']


def end_towards(axis):
    """The end of an axis, of length 1, whose last component is not below zero; None if it has no direction.

    An axis is a line. Of one that lies flat the end is taken whose first nonzero component is above zero."""
    largest = max(map(abs, axis))
    if largest == 0:
        return None
    # scaled first, so that no square leaves the range of a double
    scaled = [part / largest for part in axis]
    length = math.hypot(*scaled)
    first, second, third = (part / length for part in scaled)
    if third < 0 or (third == 0 and (first < 0 or (first == 0 and second < 0))):
        first, second, third = -first, -second, -third
    return first, second, third
