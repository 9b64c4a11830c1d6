"""Doubles as people write and read them: decimal, or exact hexadecimal as C prints it with %a."""
import math
import re
from fractions import Fraction

DECIMAL = re.compile(r'[+-]?(\d+\.?\d*|\.\d+)([eE][+-]?\d+)?', re.ASCII)
HEXADECIMAL = re.compile(
    r'(?P<sign>[+-]?)0[xX](?P<whole>[0-9a-fA-F]*)\.?(?P<part>[0-9a-fA-F]*)([pP](?P<power>[+-]?\d{1,5}))?',
    re.ASCII)
NOT_FINITE = re.compile(r'[+-]?(nan|inf|infinity)', re.IGNORECASE)


class BadNumber(ValueError):
    """What is written is no number that a request can hold; the text says why."""


def read_number(text):
    """The double that a text stands for: a decimal is rounded to the nearest, a hexadecimal is exact."""
    if NOT_FINITE.fullmatch(text):
        raise BadNumber(f'{text} is refused: the recorder would answer 5')
    if DECIMAL.fullmatch(text):
        number = float(text)
    else:
        number = read_hexadecimal(text)
    if math.isinf(number):
        raise BadNumber(f'{text} is too large for a double: the recorder would answer 5')
    return number


def read_hexadecimal(text):
    written = HEXADECIMAL.fullmatch(text)
    if not written or not written['whole'] + written['part']:
        raise BadNumber(f'{text!r} is not a number: write it like -12.5, 1e-3 or 0x1.8p+3')
    digits = int(written['whole'] + written['part'], 16)
    power = int(written['power'] or 0) - 4 * len(written['part'])
    try:
        number = float.fromhex(text)
    except OverflowError:
        return math.inf
    # A hexadecimal is written to say every bit, so one that had to be rounded is a mistake.
    if abs(Fraction(number)) != digits * Fraction(2) ** power:
        raise BadNumber(f'{text} is no double: it has digits that would be lost')
    return number


def decimal(x):
    """The shortest decimal that reads back as the same double."""
    text = repr(x)
    return text[:-2] if text.endswith('.0') else text


def hexadecimal(x):
    """Every bit of a double, without the zeros at the end."""
    digits, power = x.hex().split('p')
    return f"{digits.rstrip('0').rstrip('.')}p{power}"
