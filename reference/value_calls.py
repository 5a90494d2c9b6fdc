"""Built-in functions on values."""
from fractions import Fraction

import constants
import fixed_point
from constants import SHAPE_ONE, Constant, element, elements_of
from fixed_point import NumericType, fit
from node_types import FimathObject, NumericTypeObject, Text
from values import (FiValue, LogicalValue, accumulated, conjugate, govern, is_real, joint, pattern_of, per_part,
                    quantised, require, stored, usual, within_limits)


class Argument:
    """An argument: its value, and 1 or 0 where it is the plain word `true` or `false`."""

    def __init__(self, value, word):
        self.value, self.word = value, word

    def whole(self):
        if self.word is not None:
            return self.word
        number = constants.whole_number(self.value) if isinstance(self.value, Constant) else None
        require(number is not None)
        return number

    def fi(self):
        require(isinstance(self.value, FiValue))
        return self.value

    def real_fi(self):
        require(is_real(self.fi()))
        return self.value

    def math(self):
        require(isinstance(self.value, FimathObject))
        return self.value.math

    def is_text(self, text):
        return isinstance(self.value, Text) and self.value.text == text


def stated_type(sign, word, fraction):
    require(sign in (0, 1) and word >= 1)
    return fixed_point.within(NumericType(sign == 1, word, fraction))


def call_fi(arguments):
    require(1 <= len(arguments) <= 5)
    value, rest = arguments[0].value, arguments[1:]
    require(isinstance(value, (Constant, FiValue, LogicalValue)))
    if rest and isinstance(rest[0].value, NumericTypeObject):
        require(len(rest) <= 2)
        attached = rest[1].math() if len(rest) == 2 else None
        return quantised(value, rest[0].value.numeric, usual(attached), attached)
    sign = rest[0].whole() if rest else 1
    word = rest[1].whole() if len(rest) > 1 else 16
    attached = None
    if len(rest) < 3 or len(rest) == 3 and isinstance(rest[2].value, FimathObject):
        if len(rest) == 3:
            attached = rest[2].math()
        require(isinstance(value, Constant))
        stated_type(sign, word, 0)
        numeric = stated_type(sign, word, constants.best_fraction(sign == 1, word, constants.parts(value)))
    else:
        numeric = stated_type(sign, word, rest[2].whole())
        if len(rest) == 4:
            attached = rest[3].math()
    return quantised(value, numeric, usual(attached), attached)


def call_numerictype(arguments):
    if len(arguments) == 1:
        return NumericTypeObject(arguments[0].fi().numeric)
    require(len(arguments) == 3)
    return NumericTypeObject(stated_type(*[argument.whole() for argument in arguments]))


def call_fimath(arguments):
    require(len(arguments) % 2 == 0)
    stated = {}
    for name, value in zip(arguments[::2], arguments[1::2]):
        require(isinstance(name.value, Text) and name.value.text in fixed_point.PROPERTIES)
        field, allowed = fixed_point.PROPERTIES[name.value.text]
        found = value.value.text if isinstance(value.value, Text) else value.whole()
        require(field not in stated and found in allowed)
        stated[field] = found == 1 if field == 'cast_before_sum' else found
    return FimathObject(fixed_point.USUAL._replace(**stated))


def call_setfimath(arguments):
    require(len(arguments) == 2)
    return arguments[0].fi()._replace(math=arguments[1].math())


def call_removefimath(arguments):
    require(len(arguments) == 1)
    return arguments[0].fi()._replace(math=None)


def cast_like(value, pattern):
    require(isinstance(value, (Constant, FiValue, LogicalValue)))
    require(is_real(value) or not is_real(pattern))
    found = quantised(value, pattern.numeric, usual(pattern.math), pattern.math)
    if not is_real(pattern) and is_real(found):
        found = found._replace(imaginary=(0,) * len(found.real))
    return found


def call_cast(arguments):
    require(len(arguments) == 3 and arguments[1].is_text('like'))
    return cast_like(arguments[0].value, arguments[2].fi())


def filled(number):
    def call(arguments):
        pattern = None
        if len(arguments) in (3, 4):
            require(arguments[-2].is_text('like'))
            arguments, pattern = arguments[:-2], arguments[-1].fi()
        require(len(arguments) in (1, 2))
        sizes = [argument.whole() for argument in arguments]
        require(min(sizes) >= 1)
        shape = within_limits((sizes[0], sizes[-1]))
        value = Constant(shape, (Fraction(number),) * elements_of(shape), None)
        return value if pattern is None else cast_like(value, pattern)
    return call


def shape_of(argument):
    require(isinstance(argument.value, (Constant, FiValue, LogicalValue)))
    return argument.value.shape


def call_numel(arguments):
    require(len(arguments) == 1)
    return constants.scalar(elements_of(shape_of(arguments[0])))


def call_length(arguments):
    require(len(arguments) == 1)
    return constants.scalar(max(shape_of(arguments[0])))


def dimension(argument):
    require(argument.whole() in (1, 2))
    return argument.whole()


def call_size(arguments):
    require(len(arguments) == 2)
    return constants.scalar(shape_of(arguments[0])[dimension(arguments[1]) - 1])


def logical(truth):
    def call(arguments):
        require(not arguments)
        return LogicalValue(SHAPE_ONE, (truth,))
    return call


def call_abs(arguments):
    require(len(arguments) == 1)
    value = arguments[0].real_fi()
    overflow = usual(value.math).overflow
    return value._replace(real=tuple(fit(overflow, value.numeric, abs(z)) for z in value.real))


def call_real(arguments):
    require(len(arguments) == 1)
    return arguments[0].fi()._replace(imaginary=None)


def call_imag(arguments):
    require(len(arguments) == 1)
    value = arguments[0].fi()
    return value._replace(real=value.imaginary or (0,) * len(value.real), imaginary=None)


def call_conj(arguments):
    require(len(arguments) == 1)
    return conjugate(arguments[0].fi())


def two_of_one_type(arguments):
    require(len(arguments) == 2)
    left, right = arguments[0].real_fi(), arguments[1].real_fi()
    require(left.numeric == right.numeric)
    shape = joint(left.shape, right.shape)
    _, attached = govern(left, right)
    pairs = [(element(left.real, i), element(right.real, i)) for i in range(elements_of(shape))]
    return left.numeric, attached, shape, pairs


def call_complex(arguments):
    numeric, attached, shape, pairs = two_of_one_type(arguments)
    return FiValue(numeric, attached, shape, tuple(a for a, _ in pairs), tuple(b for _, b in pairs))


def bits_of_two(change):
    def call(arguments):
        numeric, attached, shape, pairs = two_of_one_type(arguments)
        return FiValue(numeric, attached, shape, tuple(
            stored(numeric, change(pattern_of(numeric, a), pattern_of(numeric, b))) for a, b in pairs), None)
    return call


def call_sum(arguments):
    require(len(arguments) in (1, 2))
    value = arguments[0].fi()
    rows, columns = value.shape
    if len(arguments) == 2:
        return accumulated(value, dimension(arguments[1]))
    return accumulated(value, 1 if rows > 1 or columns == 1 else 2)


def call_bitcmp(arguments):
    require(len(arguments) == 1)
    value = arguments[0].fi()
    real, imaginary = per_part(value, lambda z: stored(value.numeric, ~z))
    return value._replace(real=real, imaginary=imaginary)


def shifted(change):
    def call(arguments):
        require(len(arguments) == 2)
        value, count = arguments[0].fi(), arguments[1].whole()
        require(0 <= count < value.numeric.word)
        real, imaginary = per_part(value, lambda z: change(value.numeric, z, count))
        return value._replace(real=real, imaginary=imaginary)
    return call


def call_bitconcat(arguments):
    require(len(arguments) >= 2)
    found = [argument.real_fi() for argument in arguments]
    shape = SHAPE_ONE
    for value in found:
        shape = joint(shape, value.shape)
    numeric = fixed_point.within(NumericType(False, sum(value.numeric.word for value in found), 0))
    numbers = []
    for i in range(elements_of(shape)):
        bits = 0
        for value in found:
            bits = bits << value.numeric.word | pattern_of(value.numeric, element(value.real, i))
        numbers.append(bits)
    return FiValue(numeric, None, shape, tuple(numbers), None)


def call_bitsliceget(arguments):
    require(len(arguments) == 3)
    value, left, right = arguments[0].fi(), arguments[1].whole(), arguments[2].whole()
    require(1 <= right <= left <= value.numeric.word)
    numeric = NumericType(False, left - right + 1, 0)
    real, imaginary = per_part(value, lambda z: (pattern_of(value.numeric, z) >> (right - 1)) % (1 << numeric.word))
    return FiValue(numeric, None, value.shape, real, imaginary)


CALLS = {
    'fi': call_fi, 'numerictype': call_numerictype, 'fimath': call_fimath, 'setfimath': call_setfimath,
    'removefimath': call_removefimath, 'cast': call_cast, 'zeros': filled(0), 'ones': filled(1), 'numel': call_numel,
    'length': call_length, 'size': call_size, 'true': logical(True), 'false': logical(False), 'abs': call_abs,
    'real': call_real, 'imag': call_imag, 'conj': call_conj, 'complex': call_complex, 'sum': call_sum,
    'bitand': bits_of_two(lambda a, b: a & b), 'bitor': bits_of_two(lambda a, b: a | b),
    'bitxor': bits_of_two(lambda a, b: a ^ b), 'bitcmp': call_bitcmp,
    'bitsll': shifted(lambda numeric, z, count: stored(numeric, pattern_of(numeric, z) << count)),
    'bitsrl': shifted(lambda numeric, z, count: stored(numeric, pattern_of(numeric, z) >> count)),
    'bitsra': shifted(lambda numeric, z, count: z >> count),
    'bitconcat': call_bitconcat, 'bitsliceget': call_bitsliceget,
}


def call(name, arguments):
    require(name in CALLS)
    return CALLS[name](arguments)
