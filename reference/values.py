"""Values and what operators make of them. Types are computed from the operands as they come; where no rule gives a
result, NoRule is raised."""
from collections import namedtuple
from fractions import Fraction

import constants
import fixed_point
import node_types
from constants import SHAPE_ONE, Constant, element, elements_of
from fixed_point import exact_value, fit, quantise

FiValue = namedtuple('FiValue', 'numeric math shape real imaginary')
LogicalValue = namedtuple('LogicalValue', 'shape elements')
ELEMENTS_LIMIT = 4096
INDEX_LIMIT = 2 ** 31 - 1


class NoRule(Exception):
    """No rule gives a result at this node."""


def require(condition):
    if not condition:
        raise NoRule()


def is_real(value):
    return isinstance(value, LogicalValue) or value.imaginary is None


def shape_of(value):
    return value.shape if isinstance(value, (FiValue, LogicalValue, Constant)) else SHAPE_ONE


def type_of(value):
    """The static type that a value belongs to."""
    if isinstance(value, FiValue):
        return node_types.Fi(value.numeric, value.math, value.imaginary is not None, value.shape)
    if isinstance(value, LogicalValue):
        return node_types.Logical(value.shape)
    return node_types.Number(value) if isinstance(value, Constant) else value


def within_limits(shape):
    require(elements_of(shape) <= ELEMENTS_LIMIT)
    return shape


def joint(left, right):
    shape = constants.joint_shape(left, right)
    require(shape is not None)
    return shape


def usual(math):
    return fixed_point.USUAL if math is None else math


def govern(left, right):
    """The governing fimath and the attached one."""
    require(left.math is None or right.math is None or left.math == right.math)
    attached = right.math if left.math is None else left.math
    return usual(attached), attached


def per_part(value, change):
    """The same change of every stored integer."""
    return (tuple(change(z) for z in value.real),
            None if value.imaginary is None else tuple(change(z) for z in value.imaginary))


def beside(constant, other):
    """A constant beside a fi as a fi."""
    numeric = fixed_point.beside(other.numeric, constant)
    require(fixed_point.is_exact_in(numeric, constant))
    fixed_point.within(numeric)
    scale = constants.power_of_two(numeric.fraction)
    return FiValue(numeric, None, constant.shape, *per_part(constant, lambda number: int(number * scale)))


def operands(left, right):
    """Two fis or two constants."""
    if isinstance(left, FiValue) and isinstance(right, Constant):
        return left, beside(right, left)
    if isinstance(left, Constant) and isinstance(right, FiValue):
        return beside(left, right), right
    require(type(left) is type(right) and isinstance(left, (FiValue, Constant)))
    return left, right


def sum_of_two(math, numeric, a_type, a, b_type, b, sign):
    """One sum or difference of stored integers."""
    x, y = exact_value(a_type, a), exact_value(b_type, b)
    if math.cast_before_sum:
        return fit(math.overflow, numeric, quantise(numeric, math, x) + sign * quantise(numeric, math, y))
    return quantise(numeric, math, x + sign * y)


def add(left, right, sign):
    left, right = operands(left, right)
    shape = joint(left.shape, right.shape)
    if isinstance(left, Constant):
        return constants.add(left, right, sign)
    math, attached = govern(left, right)
    numeric = fixed_point.sum_of_two_type(math, left.numeric, right.numeric)

    def part(a, b):
        return tuple(sum_of_two(math, numeric, left.numeric, element(a, i), right.numeric, element(b, i), sign)
                     for i in range(elements_of(shape)))
    imaginary = None
    if not (is_real(left) and is_real(right)):
        imaginary = part(left.imaginary or (0,), right.imaginary or (0,))
    return FiValue(numeric, attached, shape, part(left.real, right.real), imaginary)


class Product:
    """The products of single elements of two fis."""

    def __init__(self, math, left, right):
        self.math, self.left, self.right = math, left, right
        self.step = fixed_point.product_type(math, left.numeric, right.numeric)
        self.is_complex = not (is_real(left) and is_real(right))
        self.numeric = self.step
        if not is_real(left) and not is_real(right):
            self.numeric = fixed_point.sum_of_two_type(math, self.step, self.step)

    def one(self, a, b):
        return quantise(self.step, self.math, exact_value(self.left.numeric, a) * exact_value(self.right.numeric, b))

    def both(self, a, b, sign):
        return sum_of_two(self.math, self.numeric, self.step, a, self.step, b, sign)

    def at(self, i, j):
        a, b = self.left.real[i], self.right.real[j]
        c = None if is_real(self.left) else self.left.imaginary[i]
        d = None if is_real(self.right) else self.right.imaginary[j]
        if c is None:
            return self.one(a, b), 0 if d is None else self.one(a, d)
        if d is None:
            return self.one(a, b), self.one(c, b)
        return self.both(self.one(a, b), self.one(c, d), -1), self.both(self.one(a, d), self.one(c, b), 1)


def of_pairs(numeric, math, shape, pairs, is_complex):
    return FiValue(numeric, math, shape, tuple(x for x, _ in pairs), tuple(y for _, y in pairs) if is_complex else None)


def multiply(left, right):
    left, right = operands(left, right)
    shape = joint(left.shape, right.shape)
    if isinstance(left, Constant):
        return constants.multiply(left, right)
    math, attached = govern(left, right)
    product = Product(math, left, right)
    pairs = [product.at(i if len(left.real) > 1 else 0, i if len(right.real) > 1 else 0)
             for i in range(elements_of(shape))]
    return of_pairs(product.numeric, attached, shape, pairs, product.is_complex)


def matrix_multiply(left, right):
    left, right = operands(left, right)
    require(left.shape[1] == right.shape[0])
    rows, inner, columns = left.shape[0], left.shape[1], right.shape[1]
    within_limits((rows, columns))
    if isinstance(left, Constant):
        return constants.matrix_multiply(left, right)
    math, attached = govern(left, right)
    product = Product(math, left, right)
    numeric = fixed_point.sum_type(math, product.numeric, inner)
    pairs = []
    for column in range(columns):
        for row in range(rows):
            x = y = 0
            for k in range(inner):
                u, v = product.at(row + k * rows, k + column * inner)
                x = sum_of_two(math, numeric, numeric, x, product.numeric, u, 1)
                y = sum_of_two(math, numeric, numeric, y, product.numeric, v, 1) if product.is_complex else 0
            pairs.append((x, y))
    return of_pairs(numeric, attached, (rows, columns), pairs, product.is_complex)


def power(base, exponent):
    require(isinstance(base, Constant) and isinstance(exponent, Constant))
    require(base.shape == exponent.shape == SHAPE_ONE and base.imaginary is None)
    whole = constants.whole_number(exponent)
    require(whole is not None and abs(whole) <= constants.EXPONENT_LIMIT)
    return constants.scalar(constants.raise_to(base.real[0], whole))


def compare(operator, left, right):
    tests = {'==': lambda a, b: a == b, '~=': lambda a, b: a != b, '<': lambda a, b: a < b,
             '<=': lambda a, b: a <= b, '>': lambda a, b: a > b, '>=': lambda a, b: a >= b}
    test = tests[operator]
    if isinstance(left, LogicalValue) and isinstance(right, LogicalValue):
        require(operator in ('==', '~='))
        shape = joint(left.shape, right.shape)
        return LogicalValue(shape, tuple(test(element(left.elements, i), element(right.elements, i))
                                         for i in range(elements_of(shape))))
    left, right = operands(left, right)
    shape = joint(left.shape, right.shape)
    require(operator in ('==', '~=') or is_real(left) and is_real(right))
    if isinstance(left, FiValue):
        govern(left, right)

    def exact(value, numbers, i):
        number = element(numbers, i) if numbers else 0
        return exact_value(value.numeric, number) if isinstance(value, FiValue) else number
    found = []
    for i in range(elements_of(shape)):
        a, b = exact(left, left.real, i), exact(right, right.real, i)
        if is_real(left) and is_real(right):
            found.append(test(a, b))
        else:
            found.append(test((a, exact(left, left.imaginary, i)), (b, exact(right, right.imaginary, i))))
    return LogicalValue(shape, tuple(found))


def binary(operator, left, right):
    """Every operator between two operands but `&&` and `||`."""
    if operator in ('+', '-'):
        return add(left, right, 1 if operator == '+' else -1)
    if operator in ('*', '.*'):
        as_matrices = operator == '*' and SHAPE_ONE not in (shape_of(left), shape_of(right))
        return matrix_multiply(left, right) if as_matrices else multiply(left, right)
    if operator in ('^', '.^'):
        return power(left, right)
    if operator in ('==', '~=', '<', '<=', '>', '>='):
        return compare(operator, left, right)
    require(operator in ('&', '|') and isinstance(left, LogicalValue) and isinstance(right, LogicalValue))
    shape = joint(left.shape, right.shape)
    pairs = [(element(left.elements, i), element(right.elements, i)) for i in range(elements_of(shape))]
    return LogicalValue(shape, tuple((a and b) if operator == '&' else (a or b) for a, b in pairs))


def unary(operator, operand):
    if operator == '~':
        require(isinstance(operand, LogicalValue))
        return LogicalValue(operand.shape, tuple(not x for x in operand.elements))
    require(isinstance(operand, (FiValue, Constant)))
    if operator == '+':
        return operand
    if isinstance(operand, Constant):
        return constants.negate(operand)
    overflow = usual(operand.math).overflow
    real, imaginary = per_part(operand, lambda z: fit(overflow, operand.numeric, -z))
    return operand._replace(real=real, imaginary=imaginary)


def conjugate(value):
    if is_real(value):
        return value
    overflow = usual(value.math).overflow
    return value._replace(imaginary=tuple(fit(overflow, value.numeric, -z) for z in value.imaginary))


def transpose(operator, operand):
    require(isinstance(operand, (FiValue, Constant, LogicalValue)))
    if isinstance(operand, Constant):
        return constants.transpose(operand, operator == "'")
    rows, columns = operand.shape

    def turned(numbers):
        return numbers and tuple(numbers[row + column * rows] for row in range(rows) for column in range(columns))
    if isinstance(operand, LogicalValue):
        return LogicalValue((columns, rows), turned(operand.elements))
    if operator == "'":
        operand = conjugate(operand)
    return operand._replace(shape=(columns, rows), real=turned(operand.real), imaginary=turned(operand.imaginary))


def bounds(found):
    """The first item, the step and the last bound of a range."""
    numbers = []
    for bound in found:
        number = constants.whole_number(bound) if isinstance(bound, Constant) else None
        require(number is not None and abs(number) <= INDEX_LIMIT)
        numbers.append(number)
    return tuple(numbers) if len(numbers) == 3 else (numbers[0], 1, numbers[1])


def range_value(found):
    first, step, last = bounds(found)
    count = constants.range_count(first, step, last)
    require(1 <= count <= ELEMENTS_LIMIT)
    return Constant((1, count), tuple(Fraction(first + step * i) for i in range(count)), None)


def bracket(rows):
    found = [item for row in rows for item in row]
    require(found)
    first = found[0]
    require(isinstance(first, (FiValue, LogicalValue, Constant)) and all(type(item) is type(first) for item in found))
    if isinstance(first, FiValue):
        require(all((item.numeric, item.math, is_real(item)) == (first.numeric, first.math, is_real(first))
                    for item in found))
    lines = []
    widths = set()
    for row in rows:
        height = row[0].shape[0]
        require(all(item.shape[0] == height for item in row))
        widths.add(sum(item.shape[1] for item in row))
        for r in range(height):
            lines.append([(item, r + c * height) for item in row for c in range(item.shape[1])])
    require(len(widths) == 1)
    shape = within_limits((len(lines), len(lines[0])))
    cells = [line[column] for column in range(shape[1]) for line in lines]
    if isinstance(first, LogicalValue):
        return LogicalValue(shape, tuple(item.elements[place] for item, place in cells))
    real = tuple(item.real[place] for item, place in cells)
    imaginary = None
    if not all(is_real(item) for item in found):
        imaginary = tuple(Fraction(0) if item.imaginary is None else item.imaginary[place] for item, place in cells)
    if isinstance(first, Constant):
        return Constant(shape, real, imaginary)
    return FiValue(first.numeric, first.math, shape, real, imaginary)


def quantised(value, numeric, math, attached):
    """A value taken to a type."""
    if isinstance(value, Constant):
        real, imaginary = per_part(value, lambda number: quantise(numeric, math, number))
    elif isinstance(value, FiValue):
        real, imaginary = per_part(value, lambda z: quantise(numeric, math, exact_value(value.numeric, z)))
    else:
        require(isinstance(value, LogicalValue))
        real, imaginary = tuple(quantise(numeric, math, Fraction(int(x))) for x in value.elements), None
    return FiValue(numeric, attached, value.shape, real, imaginary)


def accumulated(value, along):
    """`sum` along a dimension: from 0 in ascending order."""
    rows, columns = value.shape
    math = usual(value.math)
    numeric = fixed_point.sum_type(math, value.numeric, value.shape[along - 1])
    if along == 1:
        shape, groups = (1, columns), [[r + c * rows for r in range(rows)] for c in range(columns)]
    else:
        shape, groups = (rows, 1), [[r + c * rows for c in range(columns)] for r in range(rows)]

    def sums(numbers):
        found = []
        for group in groups:
            total = 0
            for place in group:
                total = sum_of_two(math, numeric, numeric, total, value.numeric, numbers[place], 1)
            found.append(total)
        return tuple(found)
    return FiValue(numeric, value.math, shape, sums(value.real), value.imaginary and sums(value.imaginary))


def pattern_of(numeric, z):
    """A stored integer as bits."""
    return z % (1 << numeric.word)


def stored(numeric, bits):
    """Bits as a stored integer."""
    bits %= 1 << numeric.word
    return bits - (1 << numeric.word) if numeric.signed and bits >> (numeric.word - 1) else bits
