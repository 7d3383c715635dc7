#!/usr/bin/env python3
"""Computes what crates/values_tour must print: font sizes and lengths, in exact arithmetic with one rounding a step.

Usage: python3 tools/values.py < crates/values_tour/stdin > crates/values_tour/stdout

It shares no code with the library. Every number is a Fraction, or one of inf, -inf and nan; an operation is done
exactly and rounded once to the nearest f32, ties to even. The formulas are those of CSS's and SVG's lengths.
"""
import re
import sys
from fractions import Fraction

UNITS = ['', 'px', 'em', 'ex', 'in', 'cm', 'mm', 'pt', 'pc', '%']
NUMERAL = re.compile(r'[+-]?([0-9]+\.?[0-9]*|\.[0-9]+)([eE][+-]?[0-9]+)?\Z')
SPECIAL = re.compile(r'[+-]?(inf|infinity|nan)\Z', re.IGNORECASE)


class F32:
    """An f32: a sign and a magnitude, which is a Fraction, 'inf' or 'nan'."""

    def __init__(self, negative, magnitude):
        self.negative, self.magnitude = negative, magnitude


NAN = F32(False, 'nan')


def rounded(negative, exact):
    """The f32 nearest to an exact magnitude."""
    if exact == 0:
        return F32(negative, Fraction(0))
    exponent = -149
    while exact / Fraction(2) ** exponent >= 2 ** 24:
        exponent += 1
    scaled = exact / Fraction(2) ** exponent
    whole = scaled.numerator // scaled.denominator
    rest = scaled - whole
    if rest > Fraction(1, 2) or (rest == Fraction(1, 2) and whole % 2 == 1):
        whole += 1
    result = whole * Fraction(2) ** exponent
    return F32(negative, 'inf' if result >= Fraction(2) ** 128 else result)


def decimal(text):
    return rounded(text.startswith('-'), abs(Fraction(text)))


def times(a, b):
    negative = a.negative != b.negative
    if 'nan' in (a.magnitude, b.magnitude):
        return NAN
    if 'inf' in (a.magnitude, b.magnitude):
        return NAN if 0 in (a.magnitude, b.magnitude) else F32(negative, 'inf')
    return rounded(negative, a.magnitude * b.magnitude)


def over(a, b):
    negative = a.negative != b.negative
    if a.magnitude == 'nan':
        return NAN
    if a.magnitude == 'inf':
        return F32(negative, 'inf')
    return rounded(negative, a.magnitude / b.magnitude)


def shown(x):
    """The shortest decimal that reads as the same f32, without an exponent."""
    if x.magnitude == 'nan':
        return 'NaN'
    sign = '-' if x.negative else ''
    if x.magnitude == 'inf':
        return sign + 'inf'
    if x.magnitude == 0:
        return sign + '0'
    for digits in range(1, 10):
        text = '%.*e' % (digits - 1, float(x.magnitude))
        if rounded(False, Fraction(text)).magnitude == x.magnitude:
            break
    mantissa, exponent = text.split('e')
    figures, point = mantissa.replace('.', '').rstrip('0') or '0', int(exponent) + 1
    if point <= 0:
        return sign + '0.' + '0' * -point + figures
    if point >= len(figures):
        return sign + figures + '0' * (point - len(figures))
    return sign + figures[:point] + '.' + figures[point:]


ONE, STEP = decimal('1'), decimal('1.2')
SQUARE = times(STEP, STEP)
CUBE = times(STEP, SQUARE)
ABSOLUTE = {
    'xx-small': over(ONE, CUBE), 'x-small': over(ONE, SQUARE), 'small': over(ONE, STEP), 'medium': ONE,
    'large': STEP, 'x-large': SQUARE, 'xx-large': CUBE,
}
RELATIVE = {'smaller': over(ONE, STEP), 'larger': STEP}


def absolute(number, unit, dpi, size):
    """A length that is no percent."""
    formulas = {
        '': lambda: number, 'px': lambda: number,
        'em': lambda: times(number, size), 'ex': lambda: over(times(number, size), decimal('2')),
        'in': lambda: times(number, dpi), 'cm': lambda: over(times(number, dpi), decimal('2.54')),
        'mm': lambda: over(times(number, dpi), decimal('25.4')), 'pt': lambda: over(times(number, dpi), decimal('72')),
        'pc': lambda: over(times(number, dpi), decimal('6')),
    }
    return formulas[unit]() if unit in formulas else None


def length_of(word):
    """A word as a number and a unit, the longest unit first."""
    for width in (2, 1, 0):
        if width <= len(word):
            number, unit = word[:len(word) - width], word[len(word) - width:]
            if unit in UNITS and NUMERAL.match(number):
                return decimal(number), unit
            if unit in UNITS and SPECIAL.match(number):
                return None, unit
    return None


def resized(word, settings, around):
    length = length_of(word)
    if length:
        number, unit = length
        if unit == '%':
            return times(times(number, around), decimal('0.01'))
        return absolute(number, unit, settings[0], around)
    if word in ABSOLUTE:
        return times(settings[1], ABSOLUTE[word])
    return times(around, RELATIVE.get(word, ONE))


EACH_UNIT = [('1.5', ''), ('-2.25', 'px'), ('0.1', 'em'), ('0.3', 'ex'), ('0.7', 'in'), ('1.1', 'cm'), ('3.3', 'mm'),
             ('10', 'pt'), ('0.9', 'pc'), ('33.3', '%')]
AXES = [('x', 2), ('y', 3), ('dx', 2), ('dy', 3), ('letter-spacing', 4)]


def card(line, settings):
    sizes, around = [], settings[1]
    for depth, word in enumerate(line.split(' ')):
        length = length_of(word)
        # A number beyond every f32 is no reading that a card may hold.
        if length and (length[0] is None or length[0].magnitude == 'inf'):
            return ['refused 7 %d' % (depth + 2)]
        around = resized(word, settings, around)
        sizes.append(around)
    lines = ['sizes ' + ' '.join(shown(x) for x in sizes)]
    for name, index in AXES:
        values = []
        for number, unit in EACH_UNIT:
            n = decimal(number)
            value = absolute(n, unit, settings[0], around)
            values.append(over(times(settings[index], n), decimal('100')) if unit == '%' else value)
        lines.append(name + ' ' + ' '.join(shown(x) for x in values))
    return lines


def setting(word):
    if SPECIAL.match(word):
        return None
    value = decimal(word)
    return None if value.negative or value.magnitude in (0, 'inf') else value


def main():
    settings = [decimal(x) for x in ('96', '12', '100', '100', '100')]
    for line in sys.stdin.read().split('\n'):
        if not line or line.startswith('#'):
            continue
        if line.startswith('settings '):
            words = line.split(' ')[1:]
            bad = [i for i, word in enumerate(words) if setting(word) is None]
            if bad:
                print('refused 14 %d' % bad[0])
            else:
                settings = [decimal(word) for word in words]
            continue
        print('\n'.join(card(line, settings)))


if __name__ == '__main__':
    main()
