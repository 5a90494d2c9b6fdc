"""The walk over a source: a list of typed nodes, or the first refusal."""
import sys

import call_rules
import constants
import operator_rules
import subscript_rules
from call_rules import Argument
from conditions import Conditions
from constants import SHAPE_ONE, elements_of
from node_types import Fi, Index, Logical, Number, Text, is_complex, same, shape_of, shown_text
from source_tokens import START, Refused
from source_tree import Apply, Name, Range, has_own_jump, parse

ELEMENTS_LIMIT = 4096
ALL_ELEMENTS_LIMIT = 1048576
NODES_LIMIT = 200000
CALL_DEPTH_LIMIT = 16
NESTING_LIMIT = 100
ITEMS_LIMIT = 1048576

sys.setrecursionlimit(100000)


class Frame:
    """What the walk knows inside one call of a function."""

    def __init__(self, function):
        self.function = function
        self.types = {}             # the type of each name that has one
        self.assigned = set()       # the names that are assigned on every path
        self.jumped = False         # whether nothing runs from here to the end of the block
        self.loops = []             # the variables of the `for` loops round the statement
        self.loop_depth = 0         # how many loops of this function are round the statement
        self.in_while = False       # whether a `while` condition is being walked

    def is_readable(self, name):
        return name in self.assigned or self.jumped and name in self.types

    def give(self, name, node_type):
        self.types[name] = node_type
        self.assigned.add(name)


class Walk:
    def __init__(self, functions):
        self.functions = {}
        for function in functions:
            self.functions.setdefault(function.name.text, function)
        self.nodes = []             # the place and type of each node, in the order of the walk
        self.node_count = 0
        self.element_count = 0
        self.nesting = 0
        self.running = []           # the functions whose bodies are being walked

    # Nodes

    def count(self, node, shapes):
        """Counts a node with the shapes of its values, behind the conditions that go before the counts."""
        sizes = [elements_of(shape) for shape in shapes if shape is not None and elements_of(shape) > 1]
        if any(size > ELEMENTS_LIMIT for size in sizes):
            node.miss('E20', ELEMENTS_LIMIT)
        self.element_count += sum(sizes)
        if self.element_count > ALL_ELEMENTS_LIMIT:
            node.miss('E20', ALL_ELEMENTS_LIMIT)
        self.node_count += 1
        if self.node_count > NODES_LIMIT:
            node.miss('E20', NODES_LIMIT)

    def finish(self, node, node_type):
        self.count(node, [node.shape])
        node.decide()
        self.nodes.append((node.place, node_type))
        return node_type

    # Expressions. `ends` is the name, position and number of subscripts of the innermost variable round a place.

    def expression(self, frame, tree, ends):
        return getattr(self, 'walk_' + type(tree).__name__)(frame, tree, ends)

    def walk_Number(self, frame, tree, ends):
        node = Conditions(tree.place, tree.text)
        node.shape = SHAPE_ONE
        try:
            number = constants.literal(tree.text)
        except constants.NotConstant:
            node.miss('E16')
            return self.finish(node, None)
        constant = constants.scalar(number)
        if tree.imaginary:
            constant = constants.Constant(SHAPE_ONE, (constants.ZERO,), (number,))
        return self.finish(node, Number(constant))

    def walk_Words(self, frame, tree, ends):
        return self.finish(Conditions(tree.place, tree.text), Text(tree.text))

    def walk_Parenthesis(self, frame, tree, ends):
        inner = self.expression(frame, tree.inner, ends)
        node = Conditions(tree.place, '(')
        node.shape = shape_of(inner)
        return self.finish(node, inner)

    def walk_End(self, frame, tree, ends):
        node = Conditions(tree.place, 'end')
        if ends is None:
            node.miss('E18')
            return self.finish(node, None)
        name, position, count = ends
        if name not in frame.types:
            node.miss('E07', name)
            return self.finish(node, None)
        extent = subscript_rules.extent(shape_of(frame.types[name]), position, count)
        return self.finish(node, Number(constants.scalar(extent)))

    def walk_Unary(self, frame, tree, ends):
        operand = self.expression(frame, tree.operand, ends)
        node = Conditions(tree.place, tree.operator)
        return self.finish(node, operator_rules.unary(node, tree.operator, operand))

    def walk_Transpose(self, frame, tree, ends):
        operand = self.expression(frame, tree.operand, ends)
        node = Conditions(tree.place, tree.operator)
        return self.finish(node, operator_rules.transpose(node, tree.operator, operand))

    def walk_Binary(self, frame, tree, ends):
        left = self.expression(frame, tree.left, ends)
        node = Conditions(tree.place, tree.operator)
        nested = tree.operator in operator_rules.SHORT
        self.nesting += nested
        right = self.expression(frame, tree.right, ends)
        node_type = operator_rules.binary(node, tree.operator, left, right, tree.left, tree.right)
        self.count(node, [node.shape])
        if nested and self.nesting > NESTING_LIMIT:
            node.miss('E20', NESTING_LIMIT)
        self.nesting -= nested
        node.decide()
        self.nodes.append((node.place, node_type))
        return node_type

    def bounds_of(self, tree):
        return [bound for bound in (tree.first, tree.step, tree.last) if bound is not None]

    def walk_Range(self, frame, tree, ends):
        found = [self.expression(frame, bound, ends) for bound in self.bounds_of(tree)]
        node = Conditions(tree.place, ':')
        return self.finish(node, operator_rules.range_value(node, found))

    def walk_Matrix(self, frame, tree, ends):
        rows = [[self.expression(frame, item, ends) for item in row] for row in tree.rows]
        node = Conditions(tree.place, '[')
        return self.finish(node, operator_rules.bracket(node, rows))

    def walk_Name(self, frame, tree, ends, outputs=1):
        if tree.name in frame.function.variables:
            node = Conditions(tree.place, tree.name)
            if self.may_read(frame, node, tree.name, outputs):
                node.shape = shape_of(frame.types[tree.name])
            return self.finish(node, frame.types.get(tree.name))
        return self.call(frame, tree, [], outputs)

    def may_read(self, frame, node, name, outputs):
        if not frame.is_readable(name):
            node.miss('E07')
        if outputs != 1:
            node.miss('E05', '%d for 1' % outputs)
        return node.holds()

    def walk_Apply(self, frame, tree, ends, outputs=1):
        if tree.name not in frame.function.variables:
            arguments = []
            for argument in tree.arguments:
                if argument is None:
                    arguments.append(None)
                else:
                    arguments.append(Argument(self.expression(frame, argument, ends), self.word_of(frame, argument)))
            return self.call(frame, tree, arguments, outputs)
        subscripts = self.subscripts(frame, tree.name, tree.arguments)
        node = Conditions(tree.place, tree.name)
        node_type = None
        if self.may_read(frame, node, tree.name, outputs):
            node_type = subscript_rules.read(node, frame.types[tree.name], subscripts)
        return self.finish(node, node_type)

    def subscripts(self, frame, name, arguments):
        return [None if argument is None else self.expression(frame, argument, (name, position, len(arguments)))
                for position, argument in enumerate(arguments)]

    def word_of(self, frame, tree):
        """1 or 0 where an argument is the plain word `true` or `false`."""
        if isinstance(tree, Name) and tree.name in ('true', 'false') \
                and tree.name not in frame.function.variables and tree.name not in self.functions:
            return 1 if tree.name == 'true' else 0
        return None

    # Calls

    def call(self, frame, tree, arguments, outputs):
        name = tree.name
        node = Conditions(tree.place, name)
        if name in self.functions:
            return self.call_function(frame, node, self.functions[name], arguments, outputs)
        if name in call_rules.BUILT_INS:
            return self.finish(node, call_rules.built_in(node, name, arguments, outputs))
        if name in call_rules.UNSUPPORTED:
            node.miss('E19')
        elif name in call_rules.DIVISION_NAMES:
            node.miss('E09')
        else:
            node.miss('E06')
        return self.finish(node, None)

    def call_function(self, frame, node, function, arguments, outputs):
        if frame.in_while:
            node.miss('E19')
        if function.name.text in self.running:
            node.miss('E17')
        if len(arguments) != len(function.inputs):
            node.miss('E05', '%d for %d' % (len(arguments), len(function.inputs)))
        elif outputs > len(function.outputs):
            node.miss('E05', '%d for %d' % (outputs, len(function.outputs)))
        if any(argument is None for argument in arguments):
            node.miss('E18')
        elif any(isinstance(argument.type, (Index, Text)) for argument in arguments):
            node.miss('E08')
        if len(self.running) > CALL_DEPTH_LIMIT:
            node.miss('E20', CALL_DEPTH_LIMIT)
        node.decide()
        found = self.run(function, [argument.type for argument in arguments])[:outputs]
        self.count(node, [shape_of(output) for output in found])
        node.decide()
        self.nodes.append((node.place, found[0]))
        self.outputs_of_call = found
        return found[0]

    def run(self, function, inputs, is_entry=False):
        """Walks a function with inputs of these types and gives the types of its outputs."""
        frame = Frame(function)
        for ident, node_type in zip(function.inputs, inputs):
            frame.give(ident.text, node_type)
        self.running.append(function.name.text)
        self.block(frame, function.body)
        for ident in function.outputs:
            node = Conditions(ident.place, ident.text)
            if not frame.is_readable(ident.text):
                node.miss('E07')
            elif is_entry and not isinstance(frame.types[ident.text], (Fi, Logical)):
                node.miss('E08')
            node.decide()
        self.running.pop()
        return [frame.types[ident.text] for ident in function.outputs]

    # Statements

    def block(self, frame, statements):
        jumped = frame.jumped
        for statement in statements:
            getattr(self, 'walk_' + type(statement).__name__)(frame, statement)
        if frame.jumped:
            frame.assigned = set(frame.types)
        frame.jumped = jumped

    def assign(self, frame, ident, node_type):
        node = Conditions(ident.place, ident.text)
        if isinstance(node_type, (Index, Text)):
            node.miss('E08')
        if ident.text in frame.function.loop_variables:
            node.miss('E22')
        before = frame.types.get(ident.text)
        if before is not None and not same(before, node_type):
            node.miss('E10', '%s into %s' % (shown_text(node_type), shown_text(before)))
        node.decide()
        frame.give(ident.text, node_type)

    def walk_Assign(self, frame, statement):
        self.assign(frame, statement.name, self.expression(frame, statement.value, None))

    def walk_Store(self, frame, statement):
        value = self.expression(frame, statement.value, None)
        name = statement.name.text
        node = Conditions(statement.name.place, name)
        if not frame.is_readable(name):
            node.miss('E07')
        if name in frame.function.loop_variables:
            node.miss('E22')
        node.decide()
        subscripts = self.subscripts(frame, name, statement.arguments)
        node = Conditions(statement.name.place, name)
        subscript_rules.store(node, frame.types[name], subscripts, value)
        node.decide()

    def walk_Multi(self, frame, statement):
        call, outputs = statement.call, len(statement.targets)
        self.outputs_of_call = None
        walk = self.walk_Apply if isinstance(call, Apply) else self.walk_Name
        first = walk(frame, call, None, outputs)
        is_function = call.name not in frame.function.variables and call.name in self.functions
        for target, node_type in zip(statement.targets, self.outputs_of_call if is_function else [first]):
            self.assign(frame, target, node_type)

    def condition(self, frame, tree):
        node_type = self.expression(frame, tree, None)
        node = Conditions(tree.place, 'condition')
        if shape_of(node_type) != SHAPE_ONE or is_complex(node_type) or not isinstance(node_type, (Logical, Number)):
            node.miss('E18')
        node.decide()

    def nest(self, place):
        self.nesting += 1
        if self.nesting > NESTING_LIMIT:
            raise Refused(place, 'E20', NESTING_LIMIT)

    def walk_If(self, frame, statement):
        before, outside = set(frame.assigned), self.nesting
        left = []
        for condition, body in statement.arms:
            frame.assigned = set(before)
            self.condition(frame, condition)
            self.nest(statement.place)
            self.block(frame, body)
            left.append(frame.assigned)
        frame.assigned = set(before)
        if statement.other is not None:
            self.block(frame, statement.other)
        left.append(frame.assigned)
        frame.assigned = set.intersection(*left)
        self.nesting = outside

    def walk_While(self, frame, statement):
        before = set(frame.assigned)
        self.nest(statement.place)
        frame.in_while = True
        self.condition(frame, statement.condition)
        frame.in_while = False
        frame.loop_depth += 1
        self.block(frame, statement.body)
        frame.loop_depth -= 1
        frame.assigned = before
        self.nesting -= 1

    def walk_For(self, frame, statement):
        name = statement.name.text
        self.nest(statement.place)
        variable = Conditions(statement.name.place, name)
        if not isinstance(statement.range, Range):
            variable.miss('E22')
            variable.decide()
        self.nesting -= 1
        found = [self.expression(frame, bound, None) for bound in self.bounds_of(statement.range)]
        self.nesting += 1
        node = Conditions(statement.range.place, ':')
        operator_rules.bounds(node, found)
        node.decide()
        first, step, last = operator_rules.steps(found)
        items = constants.range_count(first, step, last)
        if name in frame.loops or any(ident.text == name for ident in frame.function.inputs):
            variable.miss('E22')
        if items > ITEMS_LIMIT:
            variable.miss('E20', ITEMS_LIMIT)
        variable.decide()
        before = set(frame.assigned)
        end = first + step * max(items - 1, 0)
        frame.give(name, Index(min(first, end), max(first, end)))
        frame.loops.append(name)
        frame.loop_depth += 1
        self.block(frame, statement.body)
        frame.loop_depth -= 1
        frame.loops.pop()
        del frame.types[name]
        stays = items >= 1 and not has_own_jump(statement.body)
        frame.assigned = (frame.assigned if stays else before) - {name}
        self.nesting -= 1

    def jump(self, frame, statement, keyword):
        if frame.loop_depth == 0:
            raise Refused(statement.place, 'E18', keyword)
        frame.jumped = True

    def walk_Break(self, frame, statement):
        self.jump(frame, statement, 'break')

    def walk_Continue(self, frame, statement):
        self.jump(frame, statement, 'continue')


def check_headers(functions):
    """Names of headers in textual order: outputs, the name, inputs."""
    names = set()
    for function in functions:
        outputs, inputs = set(), set()
        header = [(ident, outputs) for ident in function.outputs] + [(function.name, names)] \
            + [(ident, inputs) for ident in function.inputs]
        for ident, before in header:
            if ident.text in ('varargin', 'varargout'):
                raise Refused(ident.place, 'E19', ident.text)
            if ident.text in before:
                raise Refused(ident.place, 'E18', ident.text)
            before.add(ident.text)


def infer(source, entry, declared):
    """The nodes of a source at these types of the entry's inputs, or its refusal as an exception."""
    functions = parse(source)
    function = next((found for found in functions if found.name.text == entry), None)
    if function is None:
        raise Refused(START, 'E04', entry)
    check_headers(functions)
    if len(declared) != len(function.inputs):
        raise Refused(function.name.place, 'E05', '%d for %d' % (len(declared), len(function.inputs)))
    walk = Walk(functions)
    walk.output_types = walk.run(function, declared, True)
    return walk
