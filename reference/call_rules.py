"""The names of built-in functions, and the types of their calls over the types of their arguments."""
import constants
import fixed_point
from constants import SHAPE_ONE, elements_of
from fixed_point import NumericType
from node_types import (Fi, FimathObject, Logical, Number, NumericTypeObject, Text, is_complex, is_object, shape_of)
from operator_rules import govern, made, meet, shapes_text

UNSUPPORTED = frozenset('''single double int8 int16 int32 int64 uint8 uint16 uint32 uint64 logical bitshift bitget
bitset accumpos accumneg max min prod mean sqrt sin cos atan2 exp log floor ceil round fix nearest convergent reshape
repmat any all find isempty mpy add plus minus times mtimes sfi ufi pi inf Inf nan NaN eps globalfimath varargin
varargout nargin nargout'''.split())
DIVISION_NAMES = frozenset('mod rem divide idivide'.split())


class Argument:
    """An argument: its type, and 1 or 0 where it is the plain word `true` or `false`."""

    def __init__(self, node_type, word):
        self.type, self.word = node_type, word

    def whole(self):
        """The whole number that a constant argument is, or None."""
        if self.word is not None:
            return self.word
        return constants.whole_number(self.type.constant) if isinstance(self.type, Number) else None


def is_value(node_type):
    return isinstance(node_type, (Number, Fi, Logical))


def is_fi(argument):
    return isinstance(argument.type, Fi)


def is_real_fi(argument):
    return is_fi(argument) and not argument.type.complex


def is_words(argument, text):
    return isinstance(argument.type, Text) and argument.type.text == text


def result(node, node_type):
    node.shape = shape_of(node_type)
    return node_type


def number_result(node, number):
    return result(node, Number(constants.scalar(number)))


def require(node, condition):
    if not condition:
        node.miss('E18')


def signedness_and_word(node, arguments):
    """The signedness and word length of a constructor; None where they are refused."""
    sign, word = arguments[0].whole(), 16
    require(node, sign in (0, 1))
    if len(arguments) > 1:
        word = arguments[1].whole()
        require(node, word is not None and word >= 1)
    return sign == 1, word


def constructed(node, sign, word, fraction):
    """The type stated in a constructor."""
    return made(node, lambda: fixed_point.within(NumericType(sign, word, fraction)))


def call_fi(node, arguments):
    value, rest = arguments[0].type, arguments[1:]
    require(node, is_value(value))
    math = None
    if rest and isinstance(rest[0].type, NumericTypeObject):
        require(node, len(rest) <= 2)
        if len(rest) > 1:
            require(node, isinstance(rest[1].type, FimathObject))
            math = rest[1].type
        if not node.holds():
            return None
        numeric = rest[0].type.numeric
        node.shape = shape_of(value)
    else:
        sign, word = signedness_and_word(node, rest[:2]) if rest else (True, 16)
        best = len(rest) < 3
        fraction = None
        if len(rest) == 3 and isinstance(rest[2].type, FimathObject):
            best, math = True, rest[2].type
        elif len(rest) >= 3:
            fraction = rest[2].whole()
            require(node, fraction is not None)
        if len(rest) == 4:
            require(node, isinstance(rest[3].type, FimathObject))
            math = rest[3].type
        if best:
            require(node, isinstance(value, Number))
        if not node.holds():
            return None
        node.shape = shape_of(value)
        if best and word <= fixed_point.WORD_LIMIT:
            fraction = constants.best_fraction(sign, word, constants.parts(value.constant))
        numeric = constructed(node, sign, word, fraction)
    return Fi(numeric, math and math.math, is_complex(value), node.shape)


def call_numerictype(node, arguments):
    if len(arguments) == 1:
        require(node, is_fi(arguments[0]))
        return result(node, NumericTypeObject(arguments[0].type.numeric)) if node.holds() else None
    sign, word = signedness_and_word(node, arguments[:2])
    fraction = arguments[2].whole()
    require(node, fraction is not None)
    if not node.holds():
        return None
    node.shape = SHAPE_ONE
    return NumericTypeObject(constructed(node, sign, word, fraction))


def call_fimath(node, arguments):
    stated = {}
    for name, value in zip(arguments[::2], arguments[1::2]):
        known = isinstance(name.type, Text) and name.type.text in fixed_point.PROPERTIES
        require(node, known)
        if not known:
            continue
        field, allowed = fixed_point.PROPERTIES[name.type.text]
        found = value.type.text if isinstance(value.type, Text) else value.whole()
        require(node, field not in stated and found is not None and found in allowed)
        stated[field] = found == 1 if field == 'cast_before_sum' else found
    return result(node, FimathObject(fixed_point.USUAL._replace(**stated))) if node.holds() else None


def call_setfimath(node, arguments):
    require(node, is_fi(arguments[0]) and isinstance(arguments[1].type, FimathObject))
    return result(node, arguments[0].type._replace(math=arguments[1].type.math)) if node.holds() else None


def call_removefimath(node, arguments):
    require(node, is_fi(arguments[0]))
    return result(node, arguments[0].type._replace(math=None)) if node.holds() else None


def like(value, pattern):
    return pattern._replace(shape=shape_of(value))


def call_cast(node, arguments):
    value, words, pattern = arguments
    require(node, is_value(value.type) and is_words(words, 'like') and is_fi(pattern))
    require(node, not is_complex(value.type) or is_complex(pattern.type))
    return result(node, like(value.type, pattern.type)) if node.holds() else None


def call_filled(node, arguments, number):
    """`zeros` and `ones`."""
    pattern = None
    sizes = arguments
    if len(arguments) > 2:
        sizes, (words, pattern) = arguments[:-2], arguments[-2:]
        require(node, is_words(words, 'like') and is_fi(pattern))
    for size in sizes:
        whole = size.whole()
        if is_object(size.type) or isinstance(size.type, Number) and whole is None:
            node.miss('E18')
        elif whole is None or whole < 1:
            node.miss('E12')
    if not node.holds():
        return None
    node.shape = sizes[0].whole(), sizes[-1].whole()
    if pattern is not None:
        return pattern.type._replace(shape=node.shape)
    count = elements_of(node.shape)
    return Number(constants.Constant(node.shape, (constants.Fraction(number),) * count, None)) if count <= 4096 else None


def call_zeros(node, arguments):
    return call_filled(node, arguments, 0)


def call_ones(node, arguments):
    return call_filled(node, arguments, 1)


def call_numel(node, arguments):
    require(node, is_value(arguments[0].type))
    return number_result(node, elements_of(shape_of(arguments[0].type))) if node.holds() else None


def call_length(node, arguments):
    require(node, is_value(arguments[0].type))
    return number_result(node, max(shape_of(arguments[0].type))) if node.holds() else None


def call_size(node, arguments):
    require(node, is_value(arguments[0].type) and arguments[1].whole() in (1, 2))
    return number_result(node, shape_of(arguments[0].type)[arguments[1].whole() - 1]) if node.holds() else None


def call_logical(node, arguments):
    return result(node, Logical(SHAPE_ONE))


def call_abs(node, arguments):
    require(node, is_fi(arguments[0]))
    return result(node, arguments[0].type) if node.holds() else None


def call_part(node, arguments):
    """`real` and `imag`."""
    require(node, is_fi(arguments[0]))
    return result(node, arguments[0].type._replace(complex=False)) if node.holds() else None


def call_complex(node, arguments):
    pair = call_bits_of_two(node, arguments)
    return pair and pair._replace(complex=True)


def call_sum(node, arguments):
    require(node, is_fi(arguments[0]))
    if len(arguments) > 1:
        require(node, arguments[1].whole() in (1, 2))
    if not node.holds():
        return None
    source = arguments[0].type
    rows, columns = source.shape
    along = arguments[1].whole() if len(arguments) > 1 else 2 if rows == 1 and columns > 1 else 1
    node.shape = (1, columns) if along == 1 else (rows, 1)
    math = source.math or fixed_point.USUAL
    numeric = made(node, lambda: fixed_point.sum_type(math, source.numeric, source.shape[along - 1]))
    return source._replace(numeric=numeric, shape=node.shape)


def call_bits_of_two(node, arguments):
    left, right = arguments
    require(node, is_real_fi(left) and is_real_fi(right) and left.type.numeric == right.type.numeric)
    if not node.holds():
        return None
    node.shape = meet(node, left.type.shape, right.type.shape)
    _, attached = govern(node, left.type.math, right.type.math)
    return Fi(left.type.numeric, attached, False, node.shape)


def call_same(node, arguments):
    """`bitcmp` and `conj`."""
    require(node, is_fi(arguments[0]))
    return result(node, arguments[0].type) if node.holds() else None


def call_shift(node, arguments):
    count = arguments[1].whole()
    require(node, is_fi(arguments[0]) and count is not None and 0 <= count < arguments[0].type.numeric.word)
    return result(node, arguments[0].type) if node.holds() else None


def call_bitconcat(node, arguments):
    require(node, all(is_real_fi(argument) for argument in arguments))
    if not node.holds():
        return None
    shapes = [argument.type.shape for argument in arguments if argument.type.shape != SHAPE_ONE]
    other = next((shape for shape in shapes if shape != shapes[0]), None)
    if other is not None:
        node.miss('E11', shapes_text(shapes[0], other))
        return None
    node.shape = shapes[0] if shapes else SHAPE_ONE
    word = sum(argument.type.numeric.word for argument in arguments)
    return Fi(constructed(node, False, word, 0), None, False, node.shape)


def call_bitsliceget(node, arguments):
    left, right = arguments[1].whole(), arguments[2].whole()
    require(node, is_fi(arguments[0]) and left is not None and right is not None
            and 1 <= right <= left <= arguments[0].type.numeric.word)
    if not node.holds():
        return None
    source = arguments[0].type
    return result(node, source._replace(numeric=NumericType(False, left - right + 1, 0), math=None))


BUILT_INS = {
    'fi': (range(1, 6), call_fi), 'numerictype': ((1, 3), call_numerictype), 'fimath': (None, call_fimath),
    'setfimath': ((2,), call_setfimath), 'removefimath': ((1,), call_removefimath), 'cast': ((3,), call_cast),
    'zeros': (range(1, 5), call_zeros), 'ones': (range(1, 5), call_ones), 'numel': ((1,), call_numel),
    'length': ((1,), call_length), 'size': ((2,), call_size), 'true': ((0,), call_logical),
    'false': ((0,), call_logical), 'abs': ((1,), call_abs), 'real': ((1,), call_part), 'imag': ((1,), call_part),
    'conj': ((1,), call_same), 'complex': ((2,), call_complex), 'sum': ((1, 2), call_sum),
    'bitand': ((2,), call_bits_of_two), 'bitor': ((2,), call_bits_of_two), 'bitxor': ((2,), call_bits_of_two),
    'bitcmp': ((1,), call_same), 'bitsll': ((2,), call_shift), 'bitsrl': ((2,), call_shift),
    'bitsra': ((2,), call_shift), 'bitconcat': (None, call_bitconcat), 'bitsliceget': ((3,), call_bitsliceget),
}


def wanted_count(name, have):
    """None where the built-in takes so many arguments, else how many it wants."""
    if name == 'fimath':
        return None if have % 2 == 0 else have + 1
    if name == 'bitconcat':
        return None if have >= 2 else 2
    taken = BUILT_INS[name][0]
    if have in taken:
        return None
    return min((count for count in taken if count > have), default=max(taken))


def built_in(node, name, arguments, outputs):
    """The type of a call of a built-in; an argument is None for a colon."""
    wanted = wanted_count(name, len(arguments))
    if name == 'abs' and arguments and arguments[0] is not None \
            and isinstance(arguments[0].type, Fi) and arguments[0].type.complex:
        node.miss('E19')
    if wanted is not None:
        node.miss('E05', '%d for %d' % (len(arguments), wanted))
    elif outputs != 1:
        node.miss('E05', '%d for 1' % outputs)
    if any(argument is None for argument in arguments):
        node.miss('E18')
    if not node.holds():
        return None
    return BUILT_INS[name][1](node, arguments)
