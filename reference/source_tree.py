"""The tree of a source and its parser. At each token the depth that is still left is known, so that the first token
with which every continuation is too deep is the one that is refused."""
from collections import namedtuple

from source_tokens import Refused, shown_token, tokens

DEPTH_LIMIT = 100

Ident = namedtuple('Ident', 'text place')


class Node:
    """An expression or statement: its kind is its class, its parts are its fields."""
    fields = ()

    def __init__(self, *values, depth):
        assert len(values) == len(self.fields)
        for field, value in zip(self.fields, values):
            setattr(self, field, value)
        self.depth = depth


def kind(name, fields):
    return type(name, (Node,), {'fields': tuple(fields.split())})


Number = kind('Number', 'place text imaginary')
Words = kind('Words', 'place text')
Name = kind('Name', 'place name')
Apply = kind('Apply', 'place name parenthesis arguments')       # an argument is None for a colon
End = kind('End', 'place')
Unary = kind('Unary', 'place operator operand')
Binary = kind('Binary', 'place operator left right')
Transpose = kind('Transpose', 'place operator operand')
Range = kind('Range', 'place first step last')
Parenthesis = kind('Parenthesis', 'place inner')
Matrix = kind('Matrix', 'place rows')

Assign = kind('Assign', 'name value')
Store = kind('Store', 'name parenthesis arguments value')
Multi = kind('Multi', 'targets call')
If = kind('If', 'place arms other')
For = kind('For', 'place name range body')
While = kind('While', 'place condition body')
Break = kind('Break', 'place')
Continue = kind('Continue', 'place')


class Function:
    def __init__(self, name, inputs, outputs, body):
        self.name, self.inputs, self.outputs, self.body = name, inputs, outputs, body
        self.loop_variables = frozenset(loops_of(body))
        self.variables = frozenset(targets_of(body)) | self.loop_variables | frozenset(
            ident.text for ident in inputs + outputs)


def blocks_of(statement):
    if isinstance(statement, If):
        return [body for _, body in statement.arms] + ([] if statement.other is None else [statement.other])
    if isinstance(statement, (For, While)):
        return [statement.body]
    return []


def targets_of(block):
    for statement in block:
        if isinstance(statement, (Assign, Store)):
            yield statement.name.text
        elif isinstance(statement, Multi):
            for target in statement.targets:
                yield target.text
        for inner in blocks_of(statement):
            yield from targets_of(inner)


def loops_of(block):
    for statement in block:
        if isinstance(statement, For):
            yield statement.name.text
        for inner in blocks_of(statement):
            yield from loops_of(inner)


def has_own_jump(block):
    """Whether a `break` or `continue` of the loop with this body stands in it."""
    for statement in block:
        if isinstance(statement, (Break, Continue)):
            return True
        if isinstance(statement, If) and any(has_own_jump(inner) for inner in blocks_of(statement)):
            return True
    return False


def deepest(parts):
    return max((part.depth for part in parts if part is not None), default=0)


BINARY_LEVELS = (('||',), ('&&',), ('|',), ('&',), ('==', '~=', '<', '<=', '>', '>='), None,
                 ('+', '-'), ('*', '.*', '/', './', '\\', '.\\'))
RANGE_LEVEL = 5


class Parser:
    def __init__(self, source):
        self.source = source
        self.tokens = tokens(source)
        self.at = 0
        self.functions_end = None

    @property
    def token(self):
        return self.tokens[self.at]

    def bad(self):
        raise Refused(self.token.place, 'E03', shown_token(self.source, self.token))

    def need(self, depth, left):
        """The least tree with this token has this depth, and so much is left."""
        if depth > left:
            raise Refused(self.token.place, 'E20', DEPTH_LIMIT)

    def is_operator(self, *texts):
        return self.token.kind == 'operator' and self.token.text in texts

    def is_keyword(self, *texts):
        return self.token.kind == 'keyword' and self.token.text in texts

    def operator(self, text):
        if not self.is_operator(text):
            self.bad()
        self.at += 1

    def is_separation(self):
        return self.token.kind == 'newline' or self.is_operator(';', ',')

    def skip_separations(self):
        while self.is_separation():
            self.at += 1

    def name(self):
        token = self.token
        if token.kind != 'name':
            self.bad()
        self.at += 1
        return Ident(token.text, token.place)

    def file(self):
        functions = []
        self.skip_separations()
        while self.token.kind != 'finish':
            functions.append(self.function())
        return functions

    def function(self):
        if not self.is_keyword('function'):
            self.bad()
        self.at += 1
        if self.is_operator('['):
            self.at += 1
            outputs = self.bracket(self.name, True)[0]
        else:
            outputs = [self.name()]
        self.operator('=')
        name = self.name()
        inputs = []
        if self.is_operator('('):
            self.at += 1
            if not self.is_operator(')'):
                inputs.append(self.name())
                while self.is_operator(','):
                    self.at += 1
                    inputs.append(self.name())
            self.operator(')')
        if not self.is_separation():
            self.bad()
        body = self.block(DEPTH_LIMIT)
        if self.is_keyword('end'):
            if self.functions_end is False:
                self.bad()
            self.functions_end = True
            self.at += 1
            self.skip_separations()
            if not (self.is_keyword('function') or self.token.kind == 'finish'):
                self.bad()
        elif self.is_keyword('function') or self.token.kind == 'finish':
            if self.functions_end is True:
                self.bad()
            self.functions_end = False
        else:
            self.bad()
        return Function(name, inputs, outputs, body)

    def is_row_end(self):
        return self.is_operator(';') or self.token.kind == 'newline'

    def bracket(self, element, names_alone):
        """The rows behind an opening bracket, up to and with the closing one."""
        rows, row = [], []
        while True:
            if self.is_row_end():
                self.at += 1
                if row:
                    rows.append(row)
                    row = []
            elif self.is_operator(']'):
                if names_alone and not rows and not row:
                    self.bad()
                self.at += 1
                return rows + [row] if row else rows
            elif self.is_operator(',') and not row:
                self.at += 1
                if not (self.is_row_end() or self.is_operator(']')):
                    self.bad()
            elif names_alone and rows:
                self.bad()
            else:
                row.append(element())
                if self.is_operator(','):
                    self.at += 1
                    if self.is_operator(','):
                        self.bad()
                elif self.token.kind == 'separator':
                    self.at += 1
                elif not (self.is_row_end() or self.is_operator(']')):
                    self.bad()

    def block(self, left):
        statements = []
        self.skip_separations()
        while True:
            statement = self.statement(left)
            if statement is None:
                return statements
            statements.append(statement)
            if not self.is_separation():
                return statements
            self.skip_separations()

    def statement(self, left):
        token = self.token
        if token.kind == 'name':
            self.need(2, left)
            return self.assignment(left)
        if self.is_operator('['):
            self.need(2, left)
            return self.list_of_targets(left)
        if self.is_keyword('if'):
            self.need(2, left)
            return self.choice(left)
        if self.is_keyword('for'):
            self.need(2, left)
            self.at += 1
            name = self.name()
            self.operator('=')
            values = self.expression(left - 1, False)
            body = self.closed_block(left - 1)
            return For(token.place, name, values, body, depth=1 + max(values.depth, deepest(body)))
        if self.is_keyword('while'):
            self.need(2, left)
            self.at += 1
            condition = self.expression(left - 1, False)
            body = self.closed_block(left - 1)
            return While(token.place, condition, body, depth=1 + max(condition.depth, deepest(body)))
        if self.is_keyword('break', 'continue'):
            self.need(1, left)
            self.at += 1
            return (Break if token.text == 'break' else Continue)(token.place, depth=1)
        return None

    def closed_block(self, left):
        body = self.block(left)
        if not self.is_keyword('end'):
            self.bad()
        self.at += 1
        return body

    def assignment(self, left):
        name = self.name()
        if self.is_operator('='):
            self.at += 1
            value = self.expression(left - 1, False)
            return Assign(name, value, depth=1 + value.depth)
        if not self.is_operator('('):
            self.bad()
        parenthesis = self.token.place
        self.at += 1
        arguments = self.arguments(left - 1, False)
        self.operator('=')
        value = self.expression(left - 1, False)
        return Store(name, parenthesis, arguments, value, depth=1 + max(value.depth, deepest(arguments)))

    def list_of_targets(self, left):
        self.at += 1
        targets = self.bracket(self.name, True)[0]
        self.operator('=')
        name = self.name()
        if self.is_operator('('):
            parenthesis = self.token.place
            self.at += 1
            arguments = self.arguments(left - 2, True)
            call = Apply(name.place, name.text, parenthesis, arguments, depth=1 + deepest(arguments))
        else:
            call = Name(name.place, name.text, depth=1)
        return Multi(targets, call, depth=1 + call.depth)

    def choice(self, left):
        place = self.token.place
        arms, other = [], None
        while self.is_keyword('if') and not arms or self.is_keyword('elseif') and arms:
            self.at += 1
            condition = self.expression(left - 1, False)
            arms.append((condition, self.block(left - 1)))
        if self.is_keyword('else'):
            self.at += 1
            other = self.block(left - 1)
        if not self.is_keyword('end'):
            self.bad()
        self.at += 1
        parts = [part for condition, body in arms for part in [condition] + body] + (other or [])
        return If(place, arms, other, depth=1 + deepest(parts))

    def arguments(self, left, may_be_none):
        """The arguments behind an opening parenthesis, up to and with the closing one."""
        if may_be_none and self.is_operator(')'):
            self.at += 1
            return []
        found = []
        while True:
            if self.is_operator(':'):
                self.at += 1
                found.append(None)
            else:
                found.append(self.expression(left, True))
            if self.is_operator(','):
                self.at += 1
                continue
            self.operator(')')
            return found

    def expression(self, left, in_call):
        return self.level(0, left, in_call)

    def joins(self, operand, left):
        """An operator that takes this operand as its left one stands here."""
        self.need(max(operand.depth + 1, 2), left)

    def level(self, number, left, in_call):
        if number == len(BINARY_LEVELS):
            return self.signed(left, in_call)
        if number == RANGE_LEVEL:
            return self.range(left, in_call)
        operand = self.level(number + 1, left, in_call)
        while self.is_operator(*BINARY_LEVELS[number]):
            token = self.token
            self.joins(operand, left)
            self.at += 1
            right = self.level(number + 1, left - 1, in_call)
            operand = Binary(token.place, token.text, operand, right, depth=1 + max(operand.depth, right.depth))
        return operand

    def range(self, left, in_call):
        first = self.level(RANGE_LEVEL + 1, left, in_call)
        if not self.is_operator(':'):
            return first
        place = self.token.place
        self.joins(first, left)
        self.at += 1
        second = self.level(RANGE_LEVEL + 1, left - 1, in_call)
        if not self.is_operator(':'):
            return Range(place, first, None, second, depth=1 + max(first.depth, second.depth))
        self.at += 1
        third = self.level(RANGE_LEVEL + 1, left - 1, in_call)
        return Range(place, first, second, third, depth=1 + max(first.depth, second.depth, third.depth))

    def signed(self, left, in_call):
        if not self.is_operator('+', '-', '~'):
            return self.power(left, in_call)
        token = self.token
        self.need(2, left)
        self.at += 1
        operand = self.signed(left - 1, in_call)
        return Unary(token.place, token.text, operand, depth=1 + operand.depth)

    def power(self, left, in_call):
        operand = self.primary(left, in_call)
        while True:
            token = self.token
            if self.is_operator("'", ".'"):
                self.need(operand.depth + 1, left)
                self.at += 1
                operand = Transpose(token.place, token.text, operand, depth=1 + operand.depth)
            elif self.is_operator('^', '.^'):
                self.joins(operand, left)
                self.at += 1
                signs, inner = [], left - 1
                while self.is_operator('+', '-', '~'):
                    self.need(2, inner)
                    signs.append(self.token)
                    inner -= 1
                    self.at += 1
                exponent = self.primary(inner, in_call)
                for sign in reversed(signs):
                    exponent = Unary(sign.place, sign.text, exponent, depth=1 + exponent.depth)
                operand = Binary(token.place, token.text, operand, exponent,
                                 depth=1 + max(operand.depth, exponent.depth))
                if signs:
                    return operand
            else:
                return operand

    def primary(self, left, in_call):
        token = self.token
        if token.kind == 'number':
            self.need(1, left)
            self.at += 1
            return Number(token.place, token.text[0], token.text[1], depth=1)
        if token.kind == 'words':
            self.need(1, left)
            self.at += 1
            return Words(token.place, token.text, depth=1)
        if token.kind == 'name':
            self.need(1, left)
            self.at += 1
            if not self.is_operator('('):
                return Name(token.place, token.text, depth=1)
            parenthesis = self.token.place
            self.at += 1
            arguments = self.arguments(left - 1, True)
            return Apply(token.place, token.text, parenthesis, arguments, depth=1 + deepest(arguments))
        if self.is_operator('('):
            self.need(2, left)
            self.at += 1
            inner = self.expression(left - 1, in_call)
            self.operator(')')
            return Parenthesis(token.place, inner, depth=1 + inner.depth)
        if self.is_operator('['):
            self.need(1, left)
            self.at += 1
            rows = self.bracket(lambda: self.expression(left - 1, in_call), False)
            return Matrix(token.place, rows, depth=1 + deepest([part for row in rows for part in row]))
        if self.is_keyword('end') and in_call:
            self.need(1, left)
            self.at += 1
            return End(token.place, depth=1)
        self.bad()


def parse(source):
    """The functions of a source, or its refusal."""
    return Parser(source).file()
