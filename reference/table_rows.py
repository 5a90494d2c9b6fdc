"""python3 table_rows.py FOLDER: writes the tables whose outcomes the reference computes: every operator, built-in, access
and statement by the classes of its parts."""
import os
import sys

from rows import Row, short_outcome

DECLARED = 's8.4 u8.0 s8.0:1x3 s8.0:3x1 s8.0:2x3 s8.0:1x1:c s8.0:1x3:c'
# A line per class of value; `k` is the variable of the loop round the expression.
SETTING = ['function y = f(a, u, v, w, m, c, d)', 'y = a;', "F = fimath('OverflowAction','Wrap');", 'T = numerictype(1,8,0);',
           'g = setfimath(a, F);', "h = setfimath(v, fimath('RoundingMethod','Floor'));", 'n = 2;', 'o = [1 2 3];', 'i = 3i;',
           'e = 129;', 'p = true;', 'l = v > 0;', 'for k = 1:3']
SCALARS = ('a', 'u', 'c', 'g', 'n', 'i', 'e', 'p', 'k')
ARRAYS = ('v', 'w', 'm', 'd', 'h', 'o', 'l')
OBJECTS = ("'x'", 'F', 'T')
SAMPLES = SCALARS + ARRAYS + OBJECTS
FEW = ('a', 'v', 'c', 'n', 'p', 'k', "'x'")


class Tables:
    def __init__(self, folder, subject):
        self.file = open(os.path.join(folder, subject + '.txt'), 'w', encoding='ascii')
        self.file.write('# Written by table_rows.py; the outcomes are those of the reference.\n\n')

    def table(self, name, expressions, lines, types=DECLARED):
        self.file.write('table %s\n' % name)
        for line in lines:
            self.file.write('| %s\n' % line)
        self.file.write('entry f\n')
        if types:
            self.file.write('types %s\n' % types)
        for expression in expressions:
            row = Row(name, [line.replace('@', expression) for line in lines], 'f', types.split(), [])
            self.file.write('= %s -> %s\n' % (expression, short_outcome(row)))
        self.file.write('\n')

    def values(self, name, expressions):
        """Expressions as values of an assignment inside the loop of the setting."""
        self.table(name, expressions, SETTING + ['x = @;', 'end', 'end'])

    def statements(self, name, statements):
        self.table(name, statements, SETTING + ['@', 'end', 'end'])


def operators(tables):
    for operator in ('+', '*', '.*', '==', '<', '^', '&', '&&', '/', ':'):
        tables.values('the operator %s' % operator,
                      ['%s %s %s' % (left, operator, right) for left in SAMPLES for right in SAMPLES])
    for operator in ('-', '~=', '<=', '>', '>=', '.^', '|', '||', './', '\\', '.\\'):
        tables.values('the operator %s' % operator,
                      ['%s %s %s' % (left, operator, right) for left in FEW for right in FEW])
    tables.values('operators of one operand',
                  [form % sample for form in ('-%s', '+%s', '~%s', "(%s)'", "(%s).'", '(%s)') for sample in SAMPLES])
    # the value of an index can't be assigned, so its type is seen in a subscript
    tables.table('operators of an index', ['%s%s%s' % pair for sample in ('k', '1', '-7', '65536', '0.5')
                                           for pair in [('k', operator, sample) for operator in
                                                        ('+', '-', '*', '.*', '==', '<')]]
                 + ["k'", "k.'", '-k', '+k', '-(-k)', 'k*k*k', '2-k', '2*k-1', '-3*k', '(k)'],
                 ['function y = f(a)', 'y = a;', 'for k = -3:2:5', 'y(@) = a(1);', 'end', 'end'], 's8.0:1x4')
    tables.values('ranges of three bounds', ['1:%s:3' % sample for sample in SAMPLES] + ['1:1:%s' % sample for sample in SAMPLES])


def brackets(tables):
    tables.values('brackets of one element', ['[%s]' % sample for sample in SAMPLES])
    tables.values('brackets of two elements in a row', ['[%s, %s]' % (left, right) for left in SAMPLES for right in SAMPLES])
    tables.values('brackets of two rows', ['[%s; %s]' % (left, right) for left in SAMPLES for right in SAMPLES])
    shapes = ('v', 'w', 'm', "m'", '[v v]', 'v(1)')
    tables.values('brackets of three elements', ['[%s, %s; %s]' % (one, two, three)
                                                 for one in shapes for two in shapes for three in shapes])


ARGUMENTS = {
    'fi': ['n', '1', '8', '0', 'F'], 'numerictype': ['1', '8', '0'], 'fimath': ["'SumMode'", "'KeepLSB'"],
    'setfimath': ['a', 'F'], 'removefimath': ['g'], 'cast': ['a', "'like'", 'v'], 'zeros': ['2', '3', "'like'", 'a'],
    'ones': ['2', '3', "'like'", 'g'], 'numel': ['v'], 'length': ['v'], 'size': ['v', '1'], 'true': [], 'false': [],
    'abs': ['a'], 'real': ['c'], 'imag': ['c'], 'conj': ['c'], 'complex': ['v', 'v'], 'sum': ['m', '1'],
    'bitand': ['v', 'v'], 'bitor': ['v', 'v'], 'bitxor': ['v', 'v'], 'bitcmp': ['v'], 'bitsll': ['a', '1'],
    'bitsrl': ['a', '1'], 'bitsra': ['a', '1'], 'bitconcat': ['a', 'a', 'a'], 'bitsliceget': ['a', '4', '2'],
}
OTHERS = (':', 'true', 'false', '(true)', '0', '-1', '0.5', '64', '65', '257', '-257', 'q', '1:3', '[1 2]')


def built_ins(tables):
    for name, arguments in ARGUMENTS.items():
        calls = [name, name + '()']
        for count in range(1, 7):
            given = (arguments + ['1'] * 6)[:count]
            calls.append('%s(%s)' % (name, ', '.join(given)))
            calls.append('%s(%s)' % (name, ', '.join(given[:-1] + [':'])))
        for count in sorted({len(arguments), 1, 2, 3} & set(range(1, len(arguments) + 1))):
            for position in range(count):
                for sample in SAMPLES + OTHERS:
                    given = list(arguments[:count])
                    given[position] = sample
                    calls.append('%s(%s)' % (name, ', '.join(given)))
        tables.values('the call of ' + name, list(dict.fromkeys(calls)))
    for name in ('sqrt', 'mod', 'nothing', 'pi', 'rem', 'bitshift'):
        tables.values('the name ' + name, [name, name + '()', name + '(:)', name + '(q)', name + "('x', 1)"])
    tables.values('constructors of two to four arguments',
                  ['fi(%s, %s, %s)' % (value, sign, word) for value in ('n', 'a', 'p', 'i', '0')
                   for sign in ('0', '1', 'T', '2') for word in ('1', '8', '64', '65', '0', 'F')]
                  + ['fi(%s, %s, %s, %s)' % (value, sign, word, last) for value in ('n', 'a', 'p', 'i') for sign in ('0', 'T')
                     for word in ('8', '65', '0', 'F') for last in ('0', '256', '257', 'F', 'T', '0.5')])
    properties = ('RoundingMethod', 'OverflowAction', 'ProductMode', 'ProductWordLength', 'ProductFractionLength', 'SumMode',
                  'SumWordLength', 'SumFractionLength', 'CastBeforeSum', 'Signedness')
    found = ("'Floor'", "'Nearest'", "'Wrap'", "'KeepLSB'", "'SpecifyPrecision'", '0', '1', '128', '129', '-256', '-257', '256',
             '257', '0.5', 'true', '(true)', 'p', 'a', 'F', '1i', '[1 2]')
    tables.values('properties of a fimath', ["fimath('%s',%s)" % (name, value) for name in properties for value in found])


def accesses(tables):
    subscripts = SAMPLES + (':', '1', '4', '0', '-1', '0.5', 'end', 'end+1', '[1 2]', '[1;2]', '[1 1;2 2]', '[]', 'true', 'q',
                            'zeros(1,0)', 'u')
    variables = ('a', 'v', 'w', 'm', 'd', 'l', 'o', 'k', 'F', 'q')
    for variable in variables:
        tables.values('one subscript of ' + variable, ['%s(%s)' % (variable, subscript) for subscript in subscripts])
        tables.values('two subscripts of ' + variable,
                      ['%s(%s, %s)' % (variable, one, two) for one in (':', '1', 'u', 'end') for two in subscripts])
    tables.values('other numbers of subscripts', ['%s(%s)' % (variable, found) for variable in ('v', 'o', 'l', 'k', 'F')
                                                  for found in ('', ':,:,:', '1,1,1', '1,1,end', 'end,end,end', '1,1,1,1')])
    places = ('v(%s)', 'v(1,%s)', 'v(%s,1)', 'm(%s)', 'm(%s,1)', 'm(1,%s)', 'm(1,1,%s)', 'w(%s)', 'w(%s,1)', 'l(%s)', 'o(%s)',
              'k(%s)', 'F(%s)', 'a(%s)', 'later(%s)', 'abs(%s)', 'numel(%s)', 'nothing(%s)', 'v(m(%s))', 'm(v(1),%s)')
    tables.table('end in every place', [place % inner for place in places for inner in
                                        ('end', '(end)', '-end', 'zeros(1,end)', 'zeros(end)', 'abs(end)', '[1 end]', '1:end')],
                 SETTING + ['x = @;', 'end', 'later = a;', 'end'])


def stores(tables):
    values = SAMPLES + ('1', 'true', 'v(1)', "v'", '[1 2]', '[c c]', 'zeros(1,3)')
    for target in ('y', 'v', 'm', 'd', 'h', 'l', 'o', 'F', 'k', 'later', 'i'):
        for found in ('1', ':', '[1 2]'):
            tables.statements('assignments to %s(%s)' % (target, found),
                              ['%s(%s) = %s;' % (target, found, value) for value in values])
    subscripts = SAMPLES + (':', '4', '0', '0.5', 'end', 'true', '1,1', ':,1', '1,:', '1,2', 'true,1', '0.5,true', '1,1,1', 'u,u',
                            '[1 2],1', ':,:', 'end,end', 'q')
    for value in ('a', 'v', "'x'", 'k'):
        tables.statements('subscripts of an assignment of ' + value, ['m(%s) = %s;' % (found, value) for found in subscripts])


def assignments(tables):
    olds = ('a', 'v', 'c', 'g', 'n', 'o', 'i', 'p', 'l', 'F', 'T')
    for old in olds:
        tables.table('assignments to a variable that holds ' + old,
                     ['x = %s;' % new for new in SAMPLES + ('2', '[1 2 3]', '3i', 'y')],
                     SETTING[:-1] + ['x = %s;' % old, SETTING[-1], '@', 'end', 'end'])
    tables.statements('assignments to the variable of a loop', ['k = %s;' % value for value in SAMPLES])


def statements(tables):
    tables.statements('conditions of a choice',
                      ['if %s, y = a; end' % sample for sample in SAMPLES + ('q', '0', '1:1', '[]', '~p')])
    tables.statements('conditions of a later arm', ['if p, y = a; elseif %s, y = a; end' % sample for sample in SAMPLES])
    tables.statements('conditions of a while',
                      ['while %s, y = a; end' % sample for sample in SAMPLES + ('q', '0', '1:1', 'f(a)')])
    bounds = ['for j = %s, y = a; end' % text for sample in SAMPLES + ('q', '0.5', '3', '-3', '2^31', '2^31-1')
              for text in (sample + ':3', '1:' + sample, '1:%s:3' % sample, sample, '(1:%s)' % sample)]
    tables.statements('ranges of a loop', bounds)
    bounds = ('k', 'a', 'p', "'x'", 'F', '0.5', '2', 'v', 'i')
    tables.statements('ranges of a loop with two bounds',
                      ['for j = %s:%s, y = a; end' % (one, two) for one in bounds for two in bounds])
    tables.values('ranges as values with two bounds', ['%s:%s' % (one, two) for one in bounds for two in bounds])
    tables.statements('names of a loop', ['for %s = 1:3, y = a; end' % name for name in
                                          ('k', 'j', 'a', 'y', 'n', 'l', 'F', 'abs', 'f', 'sqrt')])
    tables.statements('names of a loop that takes no item or too many',
                      ['for %s = %s, y = a; end' % (name, found) for name in ('k', 'j', 'a')
                       for found in ('1:0', '1:1048576', '1:1048577', 'a', 'q', '1:a')])
    tables.table('outputs of the entry', ['y = %s;' % sample for sample in SAMPLES[:8] + ARRAYS + OBJECTS + ('1', 'p', 'q')],
                 SETTING[:1] + SETTING[2:-1] + ['@', 'end'])
    callee = ['function r = same(x)', 'r = x;', 'end', 'function [r, s] = two(x, z)', 'r = x;', 's = z;', 'end']
    tables.table('arguments of a function of the file',
                 ['same(%s)' % sample for sample in SAMPLES + (':', 'true', 'q', '[]')]
                 + ['two(%s, a)' % sample for sample in SAMPLES + (':',)] + ['two(a, %s)' % sample for sample in SAMPLES + (':',)]
                 + ['two(%s)' % sample for sample in SAMPLES] + ['same(same(%s))' % sample for sample in SAMPLES],
                 SETTING + ['t = @;', 'end', 'end'] + callee)
    calls = ('two(a, a)', 'two(v, a)', 'same(a)', 'same', 'a', 'v(1)', 'later', 'abs(a)', 'size(v,1)', 'true', 'fi', 'sqrt',
             'nothing(1)', 'mod', "two('x', a)", 'two(:, a)', 'two(q, a)')
    tables.table('targets of a list',
                 ['[%s] = %s;' % (targets, call) for targets in ('t', 't, z', 't, t', 't, z, b', 'k', 'y, t', 't, k')
                  for call in calls],
                 SETTING + ['@', 'end', 'later = a;', 'end'] + callee)


def modes(tables):
    """Types of products and sums by the modes of the governing fimath."""
    lines = ['function y = f(a, b, c, v)', 'y = a;', "G = fimath(@);", 'x = setfimath(a, G) %s;', 'end']
    settings = []
    for mode in ('KeepLSB', 'KeepMSB', 'SpecifyPrecision'):
        for word in (1, 8, 20, 64, 65, 128):
            for kind in ('Product', 'Sum'):
                fractions = (0, 256, -256) if mode == 'SpecifyPrecision' else (30,)
                for fraction in fractions:
                    settings.append("'%sMode','%s','%sWordLength',%d,'%sFractionLength',%d"
                                    % (kind, mode, kind, word, kind, fraction))
    settings += ["'CastBeforeSum',false,'SumMode','KeepMSB','SumWordLength',%d" % word for word in (8, 40, 63, 64)]
    settings += ["'CastBeforeSum',false,'SumMode','SpecifyPrecision','SumWordLength',%d,'SumFractionLength',%d" % pair
                 for pair in ((8, 0), (64, 0), (60, 0), (64, 60), (8, 250), (1, -256))]
    for rest in ('+ a', '+ b', '- b', '* a', '* b', '.* v', '* c', '+ c', '* setfimath(c, G)', '* 3', '+ 3'):
        tables.table('modes of x %s' % rest, settings, [line.replace('%s', rest) for line in lines],
                     's8.4 u16.8 s8.0:1x1:c s8.0:1x3')
    for call in ('sum(setfimath(v, G))', "setfimath(v, G)*v'", "setfimath(v, G)'*v", 'setfimath(c, G)*c',
                 "setfimath(d, G)*d'", 'abs(setfimath(a, G))', 'setfimath(a, G) < b'):
        tables.table('modes of ' + call.replace("'", ''), settings,
                     ['function y = f(a, b, c, v, d)', 'y = a;', 'G = fimath(@);', 'x = %s;' % call, 'end'],
                     's8.4 u16.8 s8.0:1x1:c s8.0:1x5 s8.0:1x2:c')


def limits_of_types(tables):
    """Operands whose full types lie round the limits."""
    declared = 's32.0 s33.0 u32.0 u31.0 s64.0 u64.0 s8.128 s8.129 s8.-128 s8.-129'
    names = 'abcdefghij'
    lines = ['function y = f(%s)' % ', '.join('p' + name for name in names), 'y = pa;', 'x = @;', 'end']
    pairs = [('p' + left, 'p' + right) for left in names for right in names]
    tables.table('products and sums round the limits of types',
                 ['%s %s %s' % (left, operator, right) for operator in ('*', '+', '-') for left, right in pairs], lines, declared)
    numbers = ('1', '-1', '0', '2^-200', '2^200', '2^62', '2^63', '2^64', '2^-128', '255', '0.5', '2^300', '2^-300')
    tables.table('constants round the limits of types',
                 ['p%s %s %s' % (name, operator, number) for operator in ('*', '+', '<') for name in names for number in numbers],
                 lines, declared)


def main():
    folder = sys.argv[1]
    for subject in (operators, brackets, built_ins, accesses, stores, assignments, statements, modes, limits_of_types):
        subject(Tables(folder, 'table_' + subject.__name__))


if __name__ == '__main__':
    main()
