"""Random sources with types of their inputs. A source grows by statements at random places as long as the walk accepts
it; one that is refused may be kept as the last step."""
import random

from rows import Row, walk_of
from source_tokens import Refused

WORDS = (1, 2, 4, 8, 8, 8, 16, 16, 31, 32, 33, 64)
FRACTIONS = (0, 0, 0, 0, 1, 4, 7, 15, -2, 30, 200, -200)
SHAPES = ('', '', '', '', ':1x2', ':1x3', ':3x1', ':2x2', ':2x3', ':3x2', ':1x4', ':4x1')
LITERALS = ('0', '1', '1', '2', '2', '3', '4', '0.5', '0.25', '8', '127', '128', '129', '255', '1.5', '1i', '2i', '0.1',
            '1e3', '5e-1', '100', '2^-3', '2^-250', '64', '4096')
BINARY = ('+', '+', '+', '-', '-', '*', '*', '.*', '==', '~=', '<', '<=', '>', '>=', '&', '|', '&&', '||', '^', '.^', '/',
          './', ':')
FIMATHS = ("fimath", "fimath('RoundingMethod','Floor')", "fimath('OverflowAction','Wrap')",
           "fimath('SumMode','KeepLSB','SumWordLength',%d)", "fimath('SumMode','KeepMSB','SumWordLength',%d)",
           "fimath('ProductMode','SpecifyPrecision','ProductWordLength',%d,'ProductFractionLength',8)",
           "fimath('ProductMode','KeepMSB','ProductWordLength',%d,'CastBeforeSum',false)",
           "fimath('CastBeforeSum',0,'SumMode','SpecifyPrecision','SumWordLength',%d,'SumFractionLength',4)",
           "fimath('RoundingMethod','Convergent','OverflowAction','Wrap','CastBeforeSum',true)")
LOCALS = ('t', 'u', 'w', 'x')
# How often a refused statement is kept, which ends the source; codes that come often are kept seldom.
KEPT = {'E03': 0.002, 'E05': 0.1, 'E06': 0.004, 'E07': 0.01, 'E08': 0.03, 'E09': 0.02, 'E10': 0.02, 'E11': 0.06, 'E12': 0.05,
        'E13': 1.0, 'E14': 0.05, 'E15': 0.15, 'E16': 0.05, 'E17': 0.2, 'E18': 0.01, 'E19': 0.02, 'E20': 1.0, 'E21': 0.1,
        'E22': 0.08}
UNSUPPORTED = ('sqrt', 'max', 'mod', 'pi', 'isempty', 'nothing', 'idivide')


class Function:
    """A function of the source as lists of statements; a statement is a text or a list of heads and blocks."""

    def __init__(self, name, inputs, outputs):
        self.name, self.inputs, self.outputs = name, inputs, outputs
        self.body = []
        self.known = inputs + outputs

    def blocks(self):
        """Every block of the function."""
        pending = [self.body]
        while pending:
            block = pending.pop()
            yield block
            for statement in block:
                if isinstance(statement, list):
                    pending.extend(inner for _, inner in statement)

    def lines(self):
        outputs = self.outputs[0] if len(self.outputs) == 1 else '[%s]' % ', '.join(self.outputs)
        inputs = '(%s)' % ', '.join(self.inputs) if self.inputs else ''
        return ['function %s = %s%s' % (outputs, self.name, inputs)] + self.of_block(self.body, '') + ['end']

    def of_block(self, block, blanks):
        found = []
        for statement in block:
            if isinstance(statement, str):
                found.append(blanks + statement)
            else:
                for head, inner in statement:
                    found.append(blanks + head)
                    found += self.of_block(inner, blanks + '  ')
                found.append(blanks + 'end')
        return found


class Generator:
    kept = KEPT

    def __init__(self, seed):
        self.random = random.Random(seed)
        self.functions = []
        self.scope = None           # the function that a statement is made for

    def pick(self, choices):
        return self.random.choice(choices)

    def chance(self, share):
        return self.random.random() < share

    def declared(self):
        text = self.pick('ssu') + '%d.%d' % (self.pick(WORDS), self.pick(FRACTIONS)) + self.pick(SHAPES)
        if self.chance(0.15):
            text += ('' if ':' in text else ':1x1') + ':c'
        return text

    # Expressions

    def name(self):
        return self.pick(LOCALS + ('k', 'j', 'nothing')) if self.chance(0.02) else self.pick(self.scope.known)

    def leaf(self):
        if self.chance(0.65):
            return self.name()
        if self.chance(0.85):
            return self.pick(LITERALS)
        return self.pick(('true', 'false', "'x'", 'fimath', 'end', 'numerictype(1,8,0)', "'like'"))

    def expression(self, depth):
        if depth == 0 or self.chance(0.15):
            return self.leaf()
        kind = self.random.random()
        if kind < 0.42:
            left, right = self.expression(depth - 1), self.expression(depth - 1)
            operator = self.pick(BINARY)
            if self.chance(0.3):
                left = '(%s)' % left
            if self.chance(0.3):
                right = '(%s)' % right
            return left + self.pick(('%s', ' %s ')) % operator + right
        if kind < 0.50:
            return self.pick(('-', '-', '+', '~')) + self.expression(depth - 1)
        if kind < 0.55:
            return '(%s)%s' % (self.expression(depth - 1), self.pick(("'", "'", ".'")))
        if kind < 0.58:
            return '(%s)' % self.expression(depth - 1)
        if kind < 0.64:
            return self.bracket(depth - 1)
        if kind < 0.76:
            return '%s(%s)' % (self.name(), self.subscripts(depth - 1))
        if kind < 0.79:
            return self.pick(UNSUPPORTED) + '(%s)' % self.expression(depth - 1)
        if kind < 0.86 and len(self.functions) > 1:
            return self.call()
        return self.built_in(depth - 1)

    def bracket(self, depth):
        width, height = self.random.randint(1, 3), self.random.randint(1, 2)
        return '[%s]' % '; '.join(', '.join(self.expression(depth) for _ in range(width)) for _ in range(height))

    def subscript(self, depth):
        simple = ('1', '2', ':', 'end', 'k', 'j', '[1 2]', '[2;1]', '1:2', 'end-1', 'k+1', '1:end', '2*k', '[1 end]', 'true')
        return self.pick(simple) if self.chance(0.85) else self.expression(depth)

    def subscripts(self, depth):
        count = self.pick((1, 1, 1, 2, 2)) if self.chance(0.97) else self.pick((0, 3))
        return ', '.join(self.subscript(depth) for _ in range(count))

    def call(self):
        function = self.pick(self.functions[1:])
        count = len(function.inputs) + (self.pick((-1, 1)) if self.chance(0.05) else 0)
        return '%s(%s)' % (function.name, ', '.join(self.expression(1) for _ in range(count)))

    def fimath(self):
        text = self.pick(FIMATHS)
        return text % self.pick((8, 16, 24, 32, 65)) if '%' in text else text

    def constructor(self, value):
        sign, word, fraction = self.pick('110'), self.pick((4, 8, 8, 16, 16, 32, 65)), self.pick((0, 0, 4, 8, -1, 300))
        form = self.random.randrange(8)
        if form == 0:
            return 'fi(%s)' % value
        if form == 1:
            return 'fi(%s, %s, %d)' % (value, sign, word)
        if form < 5:
            return 'fi(%s, %s, %d, %d)' % (value, sign, word, fraction)
        if form < 6:
            return 'fi(%s, %s, %d, %d, %s)' % (value, sign, word, fraction, self.fimath())
        if form < 7:
            return 'fi(%s, numerictype(%s,%d,%d))' % (value, sign, word, fraction)
        return 'fi(%s, %s, %d, %s)' % (value, sign, word, self.fimath())

    def built_in(self, depth):
        one, two = self.expression(depth), self.expression(depth)
        small = self.pick(('0', '1', '1', '2', '3', '4'))
        forms = [self.constructor(one)] * 6 + [
            'setfimath(%s, %s)' % (one, self.fimath()), 'setfimath(%s, %s)' % (one, self.fimath()), 'removefimath(%s)' % one,
            "cast(%s, 'like', %s)" % (one, two), "cast(%s, 'like', %s)" % (one, self.name()),
            'zeros(%s)' % small, 'ones(%s,%s)' % (small, self.pick('123')),
            "zeros(%s,'like',%s)" % (small, self.name()), "ones(1,%s,'like',%s)" % (small, self.name()),
            'numel(%s)' % one, 'length(%s)' % one, 'size(%s, %s)' % (one, self.pick('1123')), 'true', 'false',
            'abs(%s)' % one, 'real(%s)' % one, 'imag(%s)' % one, 'conj(%s)' % one, 'complex(%s, %s)' % (one, two),
            'complex(%s, %s)' % (one, one), 'sum(%s)' % one, 'sum(%s, %s)' % (one, self.pick('122')),
            'bitand(%s, %s)' % (one, two), 'bitor(%s, %s)' % (one, one), 'bitxor(%s, %s)' % (one, two), 'bitcmp(%s)' % one,
            'bitsll(%s, %s)' % (one, small), 'bitsrl(%s, %s)' % (one, small), 'bitsra(%s, %s)' % (one, small),
            'bitconcat(%s, %s)' % (one, two), 'bitconcat(%s, %s, %s)' % (one, two, one),
            'bitsliceget(%s, %s, %s)' % (one, self.pick('34'), small), self.fimath(), 'numerictype(%s)' % one]
        if self.chance(0.02):
            return '%s(%s)' % (self.pick(('fi', 'sum', 'abs', 'zeros', 'bitconcat', 'size', 'cast', 'true')),
                               ', '.join(self.pick((one, two, ':', '1')) for _ in range(self.random.randrange(7))))
        return self.pick(forms)

    # Statements

    def condition(self):
        if self.chance(0.5):
            return '%s %s %s' % (self.expression(1), self.pick(('<', '>', '==', '~=')), self.expression(1))
        return self.pick(('true', 'false', '1', '0')) if self.chance(0.3) else self.expression(2)

    def range(self):
        fixed = ('1:3', '1:2', '1:1', '1:0', '3:-1:1', '0:2', '2:2:6', '1:numel(%s)' % self.name(), '1:length(%s)' % self.name(),
                 '-1:1')
        return self.pick(fixed) if self.chance(0.9) else self.expression(2)

    def target(self):
        if self.chance(0.03):
            return self.pick(('k', 'j', self.name()))
        return self.pick(tuple(LOCALS) + tuple(self.scope.outputs))

    def statement(self):
        kind = self.random.random()
        if kind < 0.45:
            return '%s = %s;' % (self.target(), self.expression(self.random.randint(1, 3)))
        if kind < 0.65:
            return '%s(%s) = %s;' % (self.target(), self.subscripts(1), self.expression(self.random.randint(0, 2)))
        if kind < 0.72 and len(self.functions) > 1:
            function = self.pick(self.functions[1:])
            count = self.random.randint(1, len(function.outputs) + self.chance(0.05))
            targets = [self.target() for _ in range(count)]
            return '[%s] = %s;' % (', '.join(targets), self.call())
        if kind < 0.80:
            arms = [['if %s' % self.condition(), [self.statement()]]]
            if self.chance(0.3):
                arms.append(['elseif %s' % self.condition(), [self.statement()]])
            if self.chance(0.6):
                arms.append(['else', [self.statement()] if self.chance(0.8) else []])
            return arms
        if kind < 0.90:
            return [['for %s = %s' % (self.pick('kkj'), self.range()), [self.statement()]]]
        if kind < 0.95:
            return [['while %s' % self.condition(), [self.statement()]]]
        return self.pick(('break', 'continue'))

    # Sources

    def row(self, name):
        lines = []
        for function in self.functions:
            lines += function.lines()
        return Row(name, lines, 'f', self.types, [])

    def refusal(self):
        try:
            walk = walk_of(self.row('trial'))
        except Refused as refused:
            return refused
        for function in self.functions:
            function.known = sorted(walk.functions[function.name].variables)
        return None

    def make(self, name, steps):
        """A row without its outcome."""
        count = self.random.randint(1, 3)
        self.types = [self.declared() for _ in range(count)]
        entry = Function('f', list('abc'[:count]), ['y'] if self.chance(0.8) else ['y', 'z'])
        entry.body = ['%s = %s;' % (output, self.pick(entry.inputs)) for output in entry.outputs]
        self.functions = [entry]
        for index in range(self.pick((0, 0, 1, 1, 2, 3))):
            function = Function('gh'[index % 2] + str(index), list('pqr'[:self.pick((0, 1, 1, 2))]),
                                ['r%d' % i for i in range(self.pick((1, 1, 2)))])
            function.body = ['%s = %s;' % (output, self.pick(function.inputs) if function.inputs else 'fi(1,1,8,0)')
                             for output in function.outputs]
            self.functions.append(function)
        for local in LOCALS:
            if self.chance(0.4):
                self.try_at(entry.body, len(entry.body), '%s = %s;' % (local, self.start()))
        for _ in range(steps):
            self.scope = self.pick([entry, self.pick(self.functions)])
            block = self.pick(list(self.scope.blocks()))
            position = self.random.randint(0, len(block)) if self.chance(0.4) else len(block)
            if not self.try_at(block, position, self.statement()):
                break
        return self.row(name)

    def start(self):
        """A first value of a local variable, so that names hold values of all classes."""
        name = self.pick(self.functions[0].inputs)
        return self.pick(('setfimath(%s, %s)' % (name, self.fimath()), 'setfimath(%s, %s)' % (name, self.fimath()),
                          'fi(%s, 1, 8, 0, %s)' % (name, self.fimath()), 'fi(%s, 1, 8, 0, %s)' % (name, self.fimath()),
                          '[%s, %s]' % (name, name), '%s > 0' % name, "%s'" % name, self.pick(LITERALS), '[1 2 3]',
                          self.fimath(), 'numerictype(%s)' % name, 'complex(%s, %s)' % (name, name)))

    def try_at(self, block, position, statement):
        """Puts a statement in where the walk then accepts the source; False where it is refused and kept."""
        block.insert(position, statement)
        refused = self.refusal()
        if refused is not None:
            if self.chance(self.kept[refused.code]):
                return False
            del block[position]
        return True


def random_row(seed, steps=None):
    generator = Generator(seed)
    return generator.make('random %d' % seed, generator.random.randint(5, 60) if steps is None else steps)


class ControlGenerator(Generator):
    """Sources of one type whose statements are choices, loops, jumps, and copies between names."""
    NAMES = ('x', 'z', 't')
    kept = {'E07': 0.08, 'E18': 0.01, 'E22': 0.05, 'E06': 0.1}

    def statement(self):
        kind = self.random.random()
        if kind < 0.25:
            return '%s = a;' % self.pick(self.NAMES)
        if kind < 0.50:
            return 'y = %s;' % self.pick(self.NAMES)
        if kind < 0.55:
            return '%s(1) = a;' % self.pick(self.NAMES)
        if kind < 0.72:
            arms = [['if c', self.inner()]]
            if self.chance(0.25):
                arms.append(['elseif c', self.inner()])
            if self.chance(0.65):
                arms.append(['else', self.inner()])
            return arms
        if kind < 0.83:
            return [['for %s = %s' % (self.pick('kj'), self.pick(('1:3', '1:3', '1:1', '1:0'))), self.inner()]]
        if kind < 0.89:
            return [['while c', self.inner()]]
        if kind < 0.91:
            return 'y(k) = a;'
        return self.pick(('break', 'continue'))

    def inner(self):
        return [self.statement() for _ in range(self.pick((0, 1, 1, 2)))]

    def make(self, name, steps):
        self.types = ['s8.0']
        entry = Function('f', ['a'], ['y'])
        entry.body = ['c = a > 0;', 'y = a;', 'x = a;', 'z = a;', 't = a;']
        self.functions = [entry]
        self.scope = entry
        for _ in range(steps):
            block = self.pick(list(entry.blocks()))
            last = len(block) - 3 if block is entry.body else len(block)
            position = self.random.randint(2 if block is entry.body else 0, last)
            if not self.try_at(block, position, self.statement()):
                break
        return self.row(name)


def random_control_row(seed):
    generator = ControlGenerator(seed)
    return generator.make('random control %d' % seed, generator.random.randint(5, 40))


def row_of(seed):
    """A random source; every fourth one has choices, loops, jumps and copies alone."""
    return random_control_row(seed) if seed % 4 == 3 else random_row(seed)
