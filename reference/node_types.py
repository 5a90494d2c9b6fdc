"""The static types of expressions and how refusals and rows show them."""
from collections import namedtuple

from constants import SHAPE_ONE
from fixed_point import fimath_text

Fi = namedtuple('Fi', 'numeric math complex shape')
Logical = namedtuple('Logical', 'shape')
Number = namedtuple('Number', 'constant')
Index = namedtuple('Index', 'low high')
Text = namedtuple('Text', 'text')
FimathObject = namedtuple('FimathObject', 'math')
NumericTypeObject = namedtuple('NumericTypeObject', 'numeric')


def same(left, right):
    """Whether two types are equal; namedtuples of different classes may hold equal parts."""
    return type(left) is type(right) and left == right


def is_object(node_type):
    """A text, a fimath or a numerictype."""
    return isinstance(node_type, (Text, FimathObject, NumericTypeObject))


def shape_of(node_type):
    if isinstance(node_type, Number):
        return node_type.constant.shape
    return node_type.shape if isinstance(node_type, (Fi, Logical)) else SHAPE_ONE


def is_complex(node_type):
    if isinstance(node_type, Fi):
        return node_type.complex
    return isinstance(node_type, Number) and node_type.constant.imaginary is not None


def math_of(node_type):
    return node_type.math if isinstance(node_type, Fi) else None


def shape_text(shape):
    return '%dx%d' % shape


def numeric_text(numeric):
    return '%s%d.%d' % ('s' if numeric.signed else 'u', numeric.word, numeric.fraction)


def row_text(node_type):
    """The type as rows spell it: without the fimath, an index with its interval."""
    if isinstance(node_type, Fi):
        return '%s:%s%s' % (numeric_text(node_type.numeric), shape_text(node_type.shape), ':c' * node_type.complex)
    if isinstance(node_type, Logical):
        return 'b:' + shape_text(node_type.shape)
    if isinstance(node_type, Number):
        return 'number:' + shape_text(node_type.constant.shape)
    if isinstance(node_type, Index):
        return 'index %d..%d' % node_type
    return {Text: 'text', FimathObject: 'fimath', NumericTypeObject: 'numerictype'}[type(node_type)]


def shown_text(node_type):
    """The type as a refusal shows it."""
    if isinstance(node_type, Index):
        return 'index'
    math = math_of(node_type)
    return row_text(node_type) + ('' if math is None else ':' + fimath_text(math))


def row_text_with_math(node_type):
    math = math_of(node_type)
    return row_text(node_type) + ('' if math is None else ' ' + fimath_text(math))
