"""The types of operators, brackets and ranges over the types of their operands."""
import constants
import fixed_point
from constants import SHAPE_ONE, joint_shape
from fixed_point import OutOfLimits, fimath_text
from node_types import Fi, Index, Logical, Number, is_complex, is_object, shape_of, shape_text
from source_tree import Number as NumberLeaf, Parenthesis, Unary

INDEX_LIMIT = 2 ** 31 - 1
ELEMENTS_LIMIT = 4096
DIVISIONS = ('/', './', '\\', '.\\')
POWERS = ('^', '.^')
SHORT = ('&&', '||')
BOTH = ('&', '|')
EQUALITIES = ('==', '~=')
ORDERINGS = ('<', '<=', '>', '>=')
COMPARISONS = EQUALITIES + ORDERINGS


def shapes_text(left, right):
    return '%s with %s' % (shape_text(left), shape_text(right))


def meet(node, left, right):
    """The joint shape of an elementwise operation."""
    shape = joint_shape(left, right)
    if shape is None:
        node.miss('E11', shapes_text(left, right))
    return shape


def govern(node, left, right):
    """The governing fimath and the attached one of two fimaths, each of which may be none."""
    if left is not None and right is not None and left != right:
        node.miss('E13', '%s differs from %s' % (fimath_text(left), fimath_text(right)))
    attached = right if left is None else left
    return (fixed_point.USUAL if attached is None else attached), attached


def made(node, make):
    """A type made at the node, or None where the first type made is out of its limits."""
    try:
        return make()
    except OutOfLimits as out:
        node.miss(out.code, out.number)
        return None


def shown_constant(expression, operator):
    """How an inexact constant beside an operand is shown: one literal with at most one minus, else the operator."""
    minus = 0
    while isinstance(expression, Parenthesis) or isinstance(expression, Unary) and expression.operator == '-':
        if isinstance(expression, Unary):
            minus += 1
            expression = expression.operand
        else:
            expression = expression.inner
    if isinstance(expression, NumberLeaf) and minus <= 1:
        return '-' * minus + expression.text
    return operator


def is_whole_in_limits(node_type):
    """Whether a constant may stand beside an index or bound a range."""
    number = constants.whole_number(node_type.constant)
    return number is not None and abs(number) <= INDEX_LIMIT


def interval_of(node_type):
    if isinstance(node_type, Index):
        return node_type.low, node_type.high
    number = constants.whole_number(node_type.constant)
    return number, number


def unary(node, operator, operand):
    if operator == '~':
        if not isinstance(operand, Logical):
            node.miss('E18')
            return None
        node.shape = operand.shape
        return operand
    if is_object(operand):
        node.miss('E18')
        return None
    if isinstance(operand, Logical):
        node.miss('E08')
        return None
    node.shape = shape_of(operand)
    if operator == '+' or isinstance(operand, Fi):
        return operand
    if isinstance(operand, Index):
        return Index(-operand.high, -operand.low)
    return Number(constants.negate(operand.constant))


def transpose(node, operator, operand):
    if is_object(operand):
        node.miss('E18')
        return None
    rows, columns = shape_of(operand)
    node.shape = (columns, rows)
    if isinstance(operand, Number):
        return Number(constants.transpose(operand.constant, operator == "'"))
    return operand if isinstance(operand, Index) else operand._replace(shape=(columns, rows))


def binary(node, operator, left, right, left_expression, right_expression):
    """The type of every operator between two operands but for the nesting of `&&` and `||`."""
    if operator in DIVISIONS:
        node.miss('E09')
        return None
    if operator in POWERS:
        return power(node, left, right)
    if operator in SHORT + BOTH:
        return logic(node, operator, left, right)
    if is_object(left) or is_object(right):
        node.miss('E18')
        return None
    kinds = {type(left), type(right)}
    if Logical in kinds and not (operator in EQUALITIES and kinds == {Logical}):
        node.miss('E08')
    if kinds == {Index, Fi}:
        node.miss('E08')
    if operator in ORDERINGS and (is_complex(left) or is_complex(right)):
        node.miss('E21')
    if Index in kinds and kinds <= {Index, Number}:
        return of_indices(node, operator, left, right)
    if not node.none_before('E22'):
        return None
    if kinds == {Logical}:
        node.shape = meet(node, left.shape, right.shape)
        return Logical(node.shape)
    as_matrices = operator == '*' and SHAPE_ONE not in (shape_of(left), shape_of(right))
    if kinds == {Number}:
        return of_numbers(node, operator, left.constant, right.constant, as_matrices)
    return of_fis(node, operator, left, right, left_expression, right_expression, as_matrices)


def shape_for(node, left, right, as_matrices):
    if not as_matrices:
        return meet(node, left, right)
    if left[1] != right[0]:
        node.miss('E11', shapes_text(left, right))
        return None
    return left[0], right[1]


def logic(node, operator, left, right):
    if not (isinstance(left, Logical) and isinstance(right, Logical)):
        node.miss('E18')
        return None
    if operator in BOTH:
        node.shape = meet(node, left.shape, right.shape)
        return Logical(node.shape)
    if not left.shape == right.shape == SHAPE_ONE:
        node.miss('E11', shapes_text(left.shape, right.shape))
    node.shape = SHAPE_ONE
    return Logical(SHAPE_ONE)


def power(node, base, exponent):
    if not (isinstance(base, Number) and isinstance(exponent, Number)):
        node.miss('E19')
        return None
    base, exponent = base.constant, exponent.constant
    if constants.is_complex(base, exponent) or any(
            number.denominator != 1 or abs(number) > constants.EXPONENT_LIMIT for number in exponent.real):
        node.miss('E18')
    if not base.shape == exponent.shape == SHAPE_ONE:
        node.miss('E11', shapes_text(base.shape, exponent.shape))
    if not node.holds():
        return None
    node.shape = SHAPE_ONE
    try:
        return Number(constants.scalar(constants.raise_to(base.real[0], exponent.real[0].numerator)))
    except constants.NotConstant:
        node.miss('E16')
        return None


def of_indices(node, operator, left, right):
    """An index with an index or a whole constant."""
    if any(isinstance(side, Number) and not is_whole_in_limits(side) for side in (left, right)):
        node.miss('E22')
        return None
    node.shape = SHAPE_ONE
    if operator in COMPARISONS:
        return Logical(SHAPE_ONE)
    (a, b), (c, d) = interval_of(left), interval_of(right)
    if operator == '+':
        ends = [a + c, b + d]
    elif operator == '-':
        ends = [a - d, b - c]
    else:
        ends = [a * c, a * d, b * c, b * d]
    if max(abs(end) for end in ends) > INDEX_LIMIT:
        node.miss('E22')
    return Index(min(ends), max(ends))


def of_numbers(node, operator, left, right, as_matrices):
    node.shape = shape_for(node, left.shape, right.shape, as_matrices)
    if node.shape is None:
        return None
    if operator in COMPARISONS:
        return Logical(node.shape)
    try:
        if operator in ('+', '-'):
            return Number(constants.add(left, right, 1 if operator == '+' else -1))
        return Number((constants.matrix_multiply if as_matrices else constants.multiply)(left, right))
    except constants.NotConstant:
        node.miss('E16')
        return None


def of_fis(node, operator, left, right, left_expression, right_expression, as_matrices):
    """A fi with a fi or a constant."""
    own_types, numerics = [], []
    for side, other, expression in ((left, right, left_expression), (right, left, right_expression)):
        if isinstance(side, Number):
            numeric = fixed_point.beside(other.numeric, side.constant)
            if not fixed_point.is_exact_in(numeric, side.constant):
                node.miss('E16', shown_constant(expression, operator))
            own_types.append(numeric)
        else:
            numeric = side.numeric
        numerics.append(numeric)
    left_shape, right_shape = shape_of(left), shape_of(right)
    node.shape = shape_for(node, left_shape, right_shape, as_matrices)
    maths = [side.math if isinstance(side, Fi) else None for side in (left, right)]
    math, attached = govern(node, *maths)
    if node.shape is None:
        return None
    both_complex = is_complex(left) and is_complex(right)

    def make():
        for numeric in own_types:
            fixed_point.within(numeric)
        if operator in COMPARISONS:
            return None
        if operator in ('+', '-'):
            return fixed_point.sum_of_two_type(math, *numerics)
        product = fixed_point.element_product_type(math, *numerics, both_complex)
        return fixed_point.sum_type(math, product, left_shape[1]) if as_matrices else product
    numeric = made(node, make)
    if operator in COMPARISONS:
        return Logical(node.shape)
    return Fi(numeric, attached, is_complex(left) or is_complex(right), node.shape)


def bounds(node, found):
    """The conditions on the bounds of every range."""
    if any(is_object(bound) or isinstance(bound, Number) and not is_whole_in_limits(bound) for bound in found):
        node.miss('E18')
    kinds = {type(bound) for bound in found}
    if Logical in kinds or {Index, Fi} <= kinds:
        node.miss('E08')
    if kinds & {Index, Fi}:
        node.miss('E12')


def steps(found):
    """The first item, the step and the last bound of a range of whole constants."""
    numbers = [constants.whole_number(bound.constant) for bound in found]
    return tuple(numbers) if len(numbers) == 3 else (numbers[0], 1, numbers[1])


def range_value(node, found):
    """A range as a value: a row of numbers."""
    bounds(node, found)
    if not node.holds():
        return None
    first, step, last = steps(found)
    count = constants.range_count(first, step, last)
    if count == 0:
        node.miss('E12')
        return None
    node.shape = (1, count)
    if count > ELEMENTS_LIMIT:
        return None
    return Number(constants.Constant((1, count), tuple(constants.Fraction(first + step * i) for i in range(count)), None))


def bracket(node, rows):
    found = [item for row in rows for item in row]
    if not found:
        node.miss('E12')
        return None
    first = found[0]
    kinds = {type(item) for item in found}
    if len(kinds) > 1 or not kinds <= {Fi, Logical, Number}:
        node.miss('E18')
        return None
    if isinstance(first, Fi) and any(item._replace(shape=first.shape) != first for item in found):
        node.miss('E18')
        return None
    joined = []
    for row in rows:
        shapes = [shape_of(item) for item in row]
        other = next((shape for shape in shapes if shape[0] != shapes[0][0]), None)
        if other is not None:
            node.miss('E11', shapes_text(shapes[0], other))
            return None
        joined.append((shapes[0][0], sum(shape[1] for shape in shapes)))
    other = next((shape for shape in joined if shape[1] != joined[0][1]), None)
    if other is not None:
        node.miss('E11', shapes_text(joined[0], other))
        return None
    node.shape = (sum(shape[0] for shape in joined), joined[0][1])
    if not isinstance(first, Number):
        return first._replace(shape=node.shape)
    if constants.elements_of(node.shape) > ELEMENTS_LIMIT:
        return None
    return Number(join_constants(rows, node.shape))


def join_constants(rows, shape):
    constant_rows = [[item.constant for item in row] for row in rows]
    has_imaginary = constants.is_complex(*[item for row in constant_rows for item in row])
    lines = []
    for row in constant_rows:
        height = row[0].shape[0]
        for r in range(height):
            lines.append([constants.pair_at_place(item, r + c * height)
                          for item in row for c in range(item.shape[1])])
    pairs = [(line[column][0], line[column][1] or constants.ZERO) for column in range(shape[1]) for line in lines]
    return constants.of_pairs(shape, pairs, has_imaginary)
