"""Evaluation of a source: `Ends` with outputs, a fault, past the bound of a loop, or wrong at a place. It has no
inference: types are those of the values as they come."""
import constants
import value_calls
import values
from constants import SHAPE_ONE, Constant, NotConstant, element, elements_of
from fixed_point import OutOfLimits
from node_types import FimathObject, NumericTypeObject, Text
from source_tokens import START
from source_tree import Apply, Name, Range, parse
from value_calls import Argument
from values import FiValue, LogicalValue, NoRule, require

ITEMS_LIMIT = 1048576
CALL_DEPTH_LIMIT = 16


class Wrong(Exception):
    """No rule gives a result at this place."""


class Fault(Exception):
    """A subscript lies outside its extent; the site of the access is told."""


class Over(Exception):
    """A loop ran past the bound."""


class Jump(Exception):
    """A `break` or `continue` on its way to its loop."""

    def __init__(self, place, leaves):
        Exception.__init__(self)
        self.place, self.leaves = place, leaves


def items_of(subscript):
    """The whole numbers of a subscript and its shape; None for a colon."""
    if subscript is None:
        return None, None
    if isinstance(subscript, Constant):
        require(subscript.imaginary is None and all(number.denominator == 1 for number in subscript.real))
        return [number.numerator for number in subscript.real], subscript.shape
    require(isinstance(subscript, FiValue) and subscript.shape == SHAPE_ONE and subscript.imaginary is None)
    require(subscript.numeric.fraction == 0 and subscript.numeric.word <= 31)
    return list(subscript.real), SHAPE_ONE


def selection(shape, subscripts):
    """The places from 0 that subscripts select, None where one is outside the extent, and the shape."""
    require(len(subscripts) in (1, 2))
    found = [items_of(subscript) for subscript in subscripts]
    if len(found) == 1:
        items, own = found[0]
        count = elements_of(shape)
        if items is None:
            return list(range(count)), (count, 1)
        if (shape[0] == 1) != (shape[1] == 1) and 1 in own:
            own = (1, len(items)) if shape[0] == 1 else (len(items), 1)
        return [item - 1 if 1 <= item <= count else None for item in items], own
    rows, columns = shape
    firsts, seconds = (range(1, extent + 1) if items is None else items for (items, _), extent in zip(found, shape))
    places = [first - 1 + (second - 1) * rows if 1 <= first <= rows and 1 <= second <= columns else None
              for second in seconds for first in firsts]
    return places, (len(firsts), len(seconds))


def read(value, subscripts, site):
    require(isinstance(value, (FiValue, LogicalValue, Constant)))
    places, shape = selection(value.shape, subscripts)
    values.within_limits(shape)
    if isinstance(value, Constant):
        require(None not in places and not any(isinstance(subscript, FiValue) for subscript in subscripts))
    if None in places:
        raise Fault(site)

    def picked(numbers):
        return None if numbers is None else tuple(numbers[place] for place in places)
    if isinstance(value, LogicalValue):
        return LogicalValue(shape, picked(value.elements))
    return value._replace(shape=shape, real=picked(value.real), imaginary=picked(value.imaginary))


def store(target, subscripts, value, site):
    into_fi = isinstance(target, FiValue) and isinstance(value, (FiValue, Constant))
    require(into_fi or isinstance(target, LogicalValue) and isinstance(value, LogicalValue))
    require(values.is_real(value) or not values.is_real(target))
    places, shape = selection(target.shape, subscripts)
    if value.shape != SHAPE_ONE:
        require(elements_of(value.shape) == len(places) if len(subscripts) == 1 else value.shape == shape)
    if None in places:
        raise Fault(site)

    def stored(old, new):
        found = list(old)
        for position, place in enumerate(places):
            found[place] = element(new, position)
        return tuple(found)
    if isinstance(target, LogicalValue):
        return LogicalValue(target.shape, stored(target.elements, value.elements))
    new = values.quantised(value, target.numeric, values.usual(target.math), target.math)
    imaginary = target.imaginary and stored(target.imaginary, new.imaginary or (0,))
    return target._replace(real=stored(target.real, new.real), imaginary=imaginary)


class Frame:
    def __init__(self, function):
        self.function = function
        self.names = {}


class Evaluation:
    """`observe` is called with the place and value of each node that gives one."""

    def __init__(self, functions, turns, observe=None):
        self.functions = {}
        for function in functions:
            self.functions.setdefault(function.name.text, function)
        self.turns = turns
        self.observe = observe or (lambda place, value: None)
        self.running = []

    def node(self, place, make, *arguments):
        try:
            value = make(*arguments)
        except (NoRule, OutOfLimits, NotConstant):
            raise Wrong(place)
        self.observe(place, value)
        return value

    # Expressions. `ends` is the name, position and number of subscripts of the innermost variable round a place.

    def expression(self, frame, tree, ends):
        return getattr(self, 'evaluate_' + type(tree).__name__)(frame, tree, ends)

    def evaluate_Number(self, frame, tree, ends):
        def make():
            number = constants.literal(tree.text)
            return Constant(SHAPE_ONE, (constants.ZERO,), (number,)) if tree.imaginary else constants.scalar(number)
        return self.node(tree.place, make)

    def evaluate_Words(self, frame, tree, ends):
        return self.node(tree.place, Text, tree.text)

    def evaluate_Parenthesis(self, frame, tree, ends):
        inner = self.expression(frame, tree.inner, ends)
        return self.node(tree.place, lambda: inner)

    def evaluate_End(self, frame, tree, ends):
        def make():
            require(ends is not None and ends[0] in frame.names)
            name, position, count = ends
            shape = values.shape_of(frame.names[name])
            return constants.scalar(elements_of(shape) if count == 1 else shape[position] if position < 2 else 1)
        return self.node(tree.place, make)

    def evaluate_Unary(self, frame, tree, ends):
        return self.node(tree.place, values.unary, tree.operator, self.expression(frame, tree.operand, ends))

    def evaluate_Transpose(self, frame, tree, ends):
        return self.node(tree.place, values.transpose, tree.operator, self.expression(frame, tree.operand, ends))

    def evaluate_Binary(self, frame, tree, ends):
        left = self.expression(frame, tree.left, ends)
        if tree.operator not in ('&&', '||'):
            return self.node(tree.place, values.binary, tree.operator, left, self.expression(frame, tree.right, ends))

        def is_truth(value):
            return isinstance(value, LogicalValue) and value.shape == SHAPE_ONE
        if is_truth(left) and left.elements[0] == (tree.operator == '||'):
            return self.node(tree.place, lambda: left)
        right = self.expression(frame, tree.right, ends)

        def make():
            require(is_truth(left) and is_truth(right))
            return right
        return self.node(tree.place, make)

    def bounds_of(self, frame, tree, ends):
        return [self.expression(frame, bound, ends) for bound in (tree.first, tree.step, tree.last) if bound is not None]

    def evaluate_Range(self, frame, tree, ends):
        return self.node(tree.place, values.range_value, self.bounds_of(frame, tree, ends))

    def evaluate_Matrix(self, frame, tree, ends):
        rows = [[self.expression(frame, item, ends) for item in row] for row in tree.rows]
        return self.node(tree.place, values.bracket, rows)

    def evaluate_Name(self, frame, tree, ends):
        return self.call_or_read(frame, tree, None, ends, 1)[0]

    def evaluate_Apply(self, frame, tree, ends):
        return self.call_or_read(frame, tree, tree.arguments, ends, 1)[0]

    def call_or_read(self, frame, tree, trees, ends, outputs):
        """The values of a name or of an access or call; `trees` is None without parentheses."""
        name = tree.name
        if name in frame.function.variables:
            subscripts = None
            if trees is not None:
                subscripts = [None if argument is None else self.expression(frame, argument, (name, i, len(trees)))
                              for i, argument in enumerate(trees)]

            def make():
                require(name in frame.names and outputs == 1)
                value = frame.names[name]
                return value if subscripts is None else read(value, subscripts, tree.parenthesis.offset + 1)
            return [self.node(tree.place, make)]
        arguments = [None if argument is None else
                     Argument(self.expression(frame, argument, ends), self.word_of(frame, argument))
                     for argument in trees or []]
        if name in self.functions:
            return self.call_function(tree.place, self.functions[name], arguments, outputs)

        def make():
            require(outputs == 1 and None not in arguments)
            return value_calls.call(name, arguments)
        return [self.node(tree.place, make)]

    def word_of(self, frame, tree):
        if isinstance(tree, Name) and tree.name in ('true', 'false') \
                and tree.name not in frame.function.variables and tree.name not in self.functions:
            return 1 if tree.name == 'true' else 0
        return None

    def call_function(self, place, function, arguments, outputs):
        if function.name.text in self.running or len(self.running) > CALL_DEPTH_LIMIT \
                or len(arguments) != len(function.inputs) or outputs > len(function.outputs) or None in arguments:
            raise Wrong(place)
        found = self.run(function, [argument.value for argument in arguments])[:outputs]
        self.observe(place, found[0])
        return found

    def run(self, function, inputs, is_entry=False):
        frame = Frame(function)
        for ident, value in zip(function.inputs, inputs):
            frame.names[ident.text] = value
        self.running.append(function.name.text)
        try:
            self.block(frame, function.body)
        except Jump as jump:
            raise Wrong(jump.place)
        self.running.pop()
        for ident in function.outputs:
            value = frame.names.get(ident.text)
            if value is None or is_entry and isinstance(value, (Text, FimathObject, NumericTypeObject)):
                raise Wrong(ident.place)
        return [frame.names[ident.text] for ident in function.outputs]

    # Statements

    def block(self, frame, statements):
        for statement in statements:
            getattr(self, 'run_' + type(statement).__name__)(frame, statement)

    def run_Assign(self, frame, statement):
        frame.names[statement.name.text] = self.expression(frame, statement.value, None)

    def run_Store(self, frame, statement):
        value = self.expression(frame, statement.value, None)
        name, trees = statement.name.text, statement.arguments
        if name not in frame.names:
            raise Wrong(statement.name.place)
        subscripts = [None if tree is None else self.expression(frame, tree, (name, i, len(trees)))
                      for i, tree in enumerate(trees)]
        try:
            frame.names[name] = store(frame.names[name], subscripts, value, statement.parenthesis.offset + 1)
        except NoRule:
            raise Wrong(statement.name.place)

    def run_Multi(self, frame, statement):
        call = statement.call
        trees = call.arguments if isinstance(call, Apply) else None
        found = self.call_or_read(frame, call, trees, None, len(statement.targets))
        for target, value in zip(statement.targets, found):
            frame.names[target.text] = value

    def truth(self, frame, tree):
        value = self.expression(frame, tree, None)
        if isinstance(value, LogicalValue) and value.shape == SHAPE_ONE:
            return value.elements[0]
        if isinstance(value, Constant) and value.shape == SHAPE_ONE and value.imaginary is None:
            return value.real[0] != 0
        raise Wrong(tree.place)

    def run_If(self, frame, statement):
        for condition, body in statement.arms:
            if self.truth(frame, condition):
                self.block(frame, body)
                return
        self.block(frame, statement.other or [])

    def turn(self, frame, body):
        """Whether the loop goes on after this turn."""
        try:
            self.block(frame, body)
        except Jump as jump:
            return not jump.leaves
        return True

    def run_For(self, frame, statement):
        name = statement.name
        if not isinstance(statement.range, Range):
            raise Wrong(name.place)
        found = self.bounds_of(frame, statement.range, None)
        try:
            first, step, last = values.bounds(found)
        except NoRule:
            raise Wrong(statement.range.place)
        count = constants.range_count(first, step, last)
        if count > ITEMS_LIMIT:
            raise Wrong(name.place)
        for i in range(count):
            frame.names[name.text] = constants.scalar(first + i * step)
            if not self.turn(frame, statement.body):
                break
        frame.names.pop(name.text, None)

    def run_While(self, frame, statement):
        turns = 0
        while self.truth(frame, statement.condition):
            if turns == self.turns:
                raise Over()
            turns += 1
            if not self.turn(frame, statement.body):
                break

    def run_Break(self, frame, statement):
        raise Jump(statement.place, True)

    def run_Continue(self, frame, statement):
        raise Jump(statement.place, False)


def evaluate(source, entry, inputs, turns, observe=None):
    """The outcome of a source that has a tree: `ends`, `fault`, `over` or `wrong`, and what belongs to it."""
    evaluation = Evaluation(parse(source), turns, observe)
    try:
        if entry not in evaluation.functions:
            raise Wrong(START)
        function = evaluation.functions[entry]
        if len(inputs) != len(function.inputs):
            raise Wrong(function.name.place)
        return 'ends', evaluation.run(function, inputs, True)
    except Wrong as wrong:
        return 'wrong', wrong.args[0]
    except Fault as fault:
        return 'fault', fault.args[0]
    except Over:
        return 'over', None
