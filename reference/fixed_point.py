"""Fixed-point types, rounding, overflow, and the types that a fimath gives to products and sums."""
from collections import namedtuple

import constants

WORD_LIMIT = 64
PRODUCT_LIMIT = 64
FRACTION_LOW, FRACTION_HIGH = -256, 256

NumericType = namedtuple('NumericType', 'signed word fraction')
Fimath = namedtuple('Fimath', 'rounding overflow product_mode product_word product_fraction '
                              'sum_mode sum_word sum_fraction cast_before_sum')
USUAL = Fimath('Nearest', 'Saturate', 'FullPrecision', 32, 30, 'FullPrecision', 32, 30, True)

ROUNDINGS = ('Ceiling', 'Floor', 'Zero', 'Nearest', 'Round', 'Convergent')
OVERFLOWS = ('Saturate', 'Wrap')
MODES = ('FullPrecision', 'KeepLSB', 'KeepMSB', 'SpecifyPrecision')
PROPERTIES = {
    'RoundingMethod': ('rounding', ROUNDINGS), 'OverflowAction': ('overflow', OVERFLOWS),
    'ProductMode': ('product_mode', MODES), 'ProductWordLength': ('product_word', range(1, 129)),
    'ProductFractionLength': ('product_fraction', range(FRACTION_LOW, FRACTION_HIGH + 1)),
    'SumMode': ('sum_mode', MODES), 'SumWordLength': ('sum_word', range(1, 129)),
    'SumFractionLength': ('sum_fraction', range(FRACTION_LOW, FRACTION_HIGH + 1)),
    'CastBeforeSum': ('cast_before_sum', range(0, 2)),
}


class OutOfLimits(Exception):
    """The first type made that is out of its limits; its word length is tested before its fraction length."""

    def __init__(self, code, number):
        Exception.__init__(self, code, number)
        self.code, self.number = code, number


def fimath_text(math):
    return ','.join(('true' if part else 'false') if isinstance(part, bool) else str(part) for part in math)


def within(numeric, word_limit=None):
    limit = WORD_LIMIT if word_limit is None else word_limit
    if not 1 <= numeric.word <= limit:
        raise OutOfLimits('E14', numeric.word)
    if not FRACTION_LOW <= numeric.fraction <= FRACTION_HIGH:
        raise OutOfLimits('E15', numeric.fraction)
    return numeric


def low(numeric):
    return -(1 << (numeric.word - 1)) if numeric.signed else 0


def high(numeric):
    return (1 << (numeric.word - 1)) - 1 if numeric.signed else (1 << numeric.word) - 1


def round_number(method, number):
    """The whole number that the method gives for an exact number."""
    below = number.numerator // number.denominator
    rest = number - below
    if rest == 0:
        return below
    if method in ('Floor', 'Ceiling', 'Zero'):
        up = method == 'Ceiling' or method == 'Zero' and number < 0
    elif rest * 2 != 1:
        up = rest * 2 > 1
    elif method == 'Round':
        up = number > 0
    else:
        up = method == 'Nearest' or below % 2 == 1
    return below + up


def fit(action, numeric, number):
    if action == 'Saturate':
        return min(max(number, low(numeric)), high(numeric))
    number %= 1 << numeric.word
    return number - (1 << numeric.word) if number > high(numeric) else number


def quantise(numeric, math, number):
    """The stored integer of an exact number: rounded once, then fitted once."""
    return fit(math.overflow, numeric, round_number(math.rounding, number * constants.power_of_two(numeric.fraction)))


def exact_value(numeric, stored):
    return stored * constants.power_of_two(-numeric.fraction)


def full_product(a, b):
    return within(NumericType(a.signed or b.signed, a.word + b.word, a.fraction + b.fraction), PRODUCT_LIMIT)


def full_sum(a, b):
    """The full type of a sum or a difference."""
    signed = a.signed or b.signed
    fraction = max(a.fraction, b.fraction)
    whole = max(x.word + (signed and not x.signed) - x.fraction for x in (a, b))
    return within(NumericType(signed, whole + fraction + 1, fraction))


def by_mode(full, mode, word, fraction):
    if mode == 'FullPrecision':
        return within(full)
    if mode == 'KeepLSB':
        return within(NumericType(full.signed, word, full.fraction))
    if mode == 'KeepMSB':
        return within(NumericType(full.signed, word, word - (full.word - full.fraction)))
    return within(NumericType(full.signed, word, fraction))


def product_type(math, a, b):
    return by_mode(full_product(a, b), math.product_mode, math.product_word, math.product_fraction)


def sum_of_two_type(math, a, b):
    return by_mode(full_sum(a, b), math.sum_mode, math.sum_word, math.sum_fraction)


def element_product_type(math, a, b, both_complex):
    """The type of a product; two complex factors give a sum of two products."""
    product = product_type(math, a, b)
    return sum_of_two_type(math, product, product) if both_complex else product


def sum_type(math, a, count):
    """The type of a sum of so many addends of one type."""
    full = within(NumericType(a.signed, a.word + (count - 1).bit_length(), a.fraction))
    result = by_mode(full, math.sum_mode, math.sum_word, math.sum_fraction)
    if not math.cast_before_sum:
        full_sum(result, a)
    return result


def beside(numeric, constant):
    """The type that a constant takes beside a fixed-point operand, whatever its fraction length."""
    fraction = constants.best_fraction(numeric.signed, numeric.word, constants.parts(constant))
    return NumericType(numeric.signed, numeric.word, fraction)


def is_exact_in(numeric, constant):
    for number in constants.parts(constant):
        stored = number * constants.power_of_two(numeric.fraction)
        if stored.denominator != 1 or not low(numeric) <= stored <= high(numeric):
            return False
    return True
