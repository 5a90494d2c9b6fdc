"""Subscripts: what an access selects, and the types of reads and of subscripted assignments."""
import constants
from constants import SHAPE_ONE, elements_of
from node_types import Fi, Index, Logical, Number, Text, is_complex, shape_of, shown_text
from operator_rules import ELEMENTS_LIMIT, shapes_text

SUBSCRIPT_WORD_LIMIT = 31
COLON = None


def is_subscript(subscript):
    """Whether a value may be a subscript; a logical one has a refusal of its own."""
    if subscript is COLON or isinstance(subscript, (Index, Logical)):
        return True
    if isinstance(subscript, Number):
        constant = subscript.constant
        return constant.imaginary is None and all(number.denominator == 1 for number in constant.real)
    return isinstance(subscript, Fi) and not subscript.complex and subscript.shape == SHAPE_ONE \
        and subscript.numeric.fraction == 0 and subscript.numeric.word <= SUBSCRIPT_WORD_LIMIT


def extent(shape, position, count):
    """The extent of one of so many subscripts."""
    if count == 1:
        return elements_of(shape)
    return shape[position] if position < 2 else 1


def selected_shape(shape, subscripts):
    """The shape of what one or two subscripts select of a value of this shape."""
    if len(subscripts) == 2:
        return tuple(shape[position] if subscript is COLON else elements_of(shape_of(subscript))
                     for position, subscript in enumerate(subscripts))
    subscript = subscripts[0]
    if subscript is COLON:
        return elements_of(shape), 1
    own = shape_of(subscript)
    one_extent = (shape[0] == 1) != (shape[1] == 1)
    if one_extent and 1 in own:
        count = elements_of(own)
        return (1, count) if shape[0] == 1 else (count, 1)
    return own


def items_of(subscript, whole):
    return range(1, whole + 1) if subscript is COLON else [number.numerator for number in subscript.constant.real]


def lies_within(shape, subscripts):
    """Whether every item of constant subscripts lies within its extent."""
    return all(1 <= item <= extent(shape, position, len(subscripts))
               for position, subscript in enumerate(subscripts) if isinstance(subscript, Number)
               for item in items_of(subscript, 0))


def selected_constant(constant, subscripts, shape):
    rows = constant.shape[0]
    if len(subscripts) == 1:
        places = [item - 1 for item in items_of(subscripts[0], elements_of(constant.shape))]
    else:
        firsts, seconds = (items_of(subscript, constant.shape[position])
                           for position, subscript in enumerate(subscripts))
        places = [first - 1 + (second - 1) * rows for second in seconds for first in firsts]
    return constants.of_pairs(shape, [(constant.real[place], None if constant.imaginary is None
                                       else constant.imaginary[place]) for place in places],
                              constant.imaginary is not None)


def access(node, subscripts):
    """The conditions on the subscripts of every access."""
    if len(subscripts) not in (1, 2) or not all(is_subscript(subscript) for subscript in subscripts):
        node.miss('E18', 'subscript')
    if any(isinstance(subscript, Logical) for subscript in subscripts):
        node.miss('E12')


def read(node, variable, subscripts):
    access(node, subscripts)
    if not isinstance(variable, (Fi, Logical, Number)):
        node.miss('E18', 'subscript')
    if isinstance(variable, Number) and node.none_before('E08'):
        fixed = [subscript for subscript in subscripts if subscript is not COLON]
        if any(isinstance(subscript, (Index, Fi)) for subscript in fixed) \
                or not lies_within(variable.constant.shape, subscripts):
            node.miss('E18', 'subscript')
    if not node.holds():
        return None
    node.shape = selected_shape(shape_of(variable), subscripts)
    if not isinstance(variable, Number):
        return variable._replace(shape=node.shape)
    if elements_of(node.shape) > ELEMENTS_LIMIT:
        return None
    return Number(selected_constant(variable.constant, subscripts, node.shape))


def store(node, variable, subscripts, value):
    """The conditions of a whole subscripted assignment."""
    access(node, subscripts)
    if isinstance(value, (Index, Text)):
        node.miss('E08')
    if node.holds():
        shape = selected_shape(shape_of(variable), subscripts)
        own = shape_of(value)
        fits = elements_of(own) == elements_of(shape) if len(subscripts) == 1 else own == shape
        if own != SHAPE_ONE and not fits:
            node.miss('E11', shapes_text(own, shape))
    into_fi = isinstance(variable, Fi) and isinstance(value, (Fi, Number))
    into_logical = isinstance(variable, Logical) and isinstance(value, Logical)
    if not (into_fi or into_logical) or is_complex(value) and not is_complex(variable):
        node.miss('E10', '%s into %s' % (shown_text(value), shown_text(variable)))
