"""Rows as theorems that hold by computing: the checker compares each row's outcome with what the definition of the walk gives.

    python3 theorems.py rows/hand_worked.txt > ../crates/source_typing/proofs/Rows.antt     # these stand there
    python3 theorems.py --apart FILE .. > ../crates/source_typing/proofs/Rows.antt

Rows whose source is outside the grammar are left out, since the definition begins at the tree. `rt check` in the crate's folder tries
them, about half a second a row. With `--apart` each row is a theorem of its own, and those that don't hold are named.
"""
import glob
import os
import re
import sys

import source_tree as tree
from rows import is_short, read_rows
from source_tokens import Refused

CRATES = os.path.join(os.path.dirname(os.path.abspath(__file__)), '..', 'crates')

# The crates whose definitions are computed.
DEFINING = ['fic_base', 'num_type', 'shape_rules', 'mat_ast', 'fi_math', 'fi_quant', 'fi_ops', 'const_eval', 'const_rules', 'fi_rules',
            'fi_eval', 'walk_scope', 'fi_values', 'fi_meaning', 'node_rules', 'typed_ir', 'source_typing']

CODES = dict(E04='NoEntry', E05='ArgCount', E06='UnknownName', E07='NotAssigned', E08='FloatOperand', E09='Division', E10='TypeChange',
             E11='SizeMismatch', E12='DynamicSize', E13='FimathDiffers', E14='TooWide', E15='FractionOut', E16='LiteralInexact',
             E17='Recursion', E18='BadArgument', E19='Unsupported', E20='Limit', E21='ComplexOrder', E22='LoopVariable')
SIGNS = {'+': 'Plus', '-': 'Minus', '~': 'Not'}
OPERATORS = {'||': 'OrOr', '&&': 'AndAnd', '|': 'Or', '&': 'And', '==': 'Eq', '~=': 'Ne', '<': 'Lt', '<=': 'Le', '>': 'Gt', '>=': 'Ge',
             '+': 'Add', '-': 'Sub', '*': 'Mul', '.*': 'ElemMul', '/': 'Div', './': 'ElemDiv', '\\': 'LeftDiv', '.\\': 'ElemLeftDiv',
             '^': 'Pow', '.^': 'ElemPow'}
MARKS = {"'": 'CTranspose', ".'": 'Transpose'}

HEAD = '''-- Worked rows of the walk, by computing. Written by reference/theorems.py.
use Rattle.std.proofs.Common.{◌≡◌, refl, ℕ, ℤ, true, false, Bool, [], ◌∷◌, List, None}
use Rattle.std.specs.Prelude.{pos, neg_ℤ, codes}
use Rattle.std.specs.Fmt as fmt
use Rattle.fic_base.specs.declared.code.Code.TheVariants as code
use Rattle.fic_base.specs.declared.place.Place.{Place}
use Rattle.mat_ast.specs.declared.tree.Ident.{Ident}
use Rattle.mat_ast.specs.declared.tree.UnOp.TheVariants as un
use Rattle.mat_ast.specs.declared.tree.BinOp.TheVariants as bin
use Rattle.mat_ast.specs.declared.tree.PostOp.TheVariants as post
use Rattle.mat_ast.specs.Tree.{Number, Words, Name, Apply, End, Unary, Binary, Post, Range, RangeBy, Paren, Matrix, NoArgs, Whole, Item, RowEnd, Cell, NoRows, RowOn, Assign, Store, Multi, IfOnly, IfElse, ForEach, WhileTrue, BreakOff, GoOn, NoArms, Arm, Block, Block, Done, Next, Fun}
use Rattle.node_rules.specs.Types.{NodeTy, FiNode}
use Rattle.walk_scope.specs.Told.{Refuses}
use Rattle.source_typing.specs.Functions.{source_typed}
use Rattle.source_typing.specs.Listed.{node_lines, last_line}
'''

SHORT = '''
abbrev pl : ℕ → ℕ → ℕ → Place
pl offset line col = record { offset = offset; line = line; col = col }

abbrev ident : List ℕ → Place → Ident
ident text place = record { text = text; place = place }

abbrev fun : Ident → List Ident → List Ident → Block → Fun
fun name inputs outputs body = record { name = name; inputs = inputs; outputs = outputs; body = body }

-- an input: signed, word length, fraction length, complex, rows, columns
abbrev input : Bool → ℕ → ℤ → Bool → ℕ → ℕ → NodeTy
input s w f c m n = FiNode (record { signed = s; word = w; fraction = f }) None c (record { rows = m; columns = n })
'''


def text(string):
    return '(codes "%s")' % string.replace('\\', '\\\\').replace('"', '\\"') if string else '[]'


def place(at):
    return '(pl %d %d %d)' % (at.offset, at.line, at.column)


def ident(name):
    return '(ident %s %s)' % (text(name.text), place(name.place))


def truth(is_so):
    return 'true' if is_so else 'false'


def items(parts):
    return '(%s[])' % ''.join(part + ' ∷ ' for part in parts)


def linked(parts, link, end):
    """A list of parts as a chain of constructors."""
    chain = end
    for part in reversed(parts):
        chain = '(%s %s)' % (link(part), chain)
    return chain


def arguments(parts):
    return linked(parts, lambda part: 'Whole' if part is None else 'Item ' + expression(part), 'NoArgs')


def expression(node):
    at = place(node.place)
    if isinstance(node, tree.Number):
        return '(Number %s %s %s)' % (at, text(node.text), truth(node.imaginary))
    if isinstance(node, tree.Words):
        return '(Words %s %s)' % (at, text(node.text))
    if isinstance(node, tree.Name):
        return '(Name %s %s)' % (at, text(node.name))
    if isinstance(node, tree.Apply):
        return '(Apply %s %s %s %s)' % (at, text(node.name), place(node.parenthesis), arguments(node.arguments))
    if isinstance(node, tree.End):
        return '(End %s)' % at
    if isinstance(node, tree.Unary):
        return '(Unary %s un.%s %s)' % (at, SIGNS[node.operator], expression(node.operand))
    if isinstance(node, tree.Binary):
        return '(Binary %s bin.%s %s %s)' % (at, OPERATORS[node.operator], expression(node.left), expression(node.right))
    if isinstance(node, tree.Transpose):
        return '(Post %s post.%s %s)' % (at, MARKS[node.operator], expression(node.operand))
    if isinstance(node, tree.Range) and node.step is None:
        return '(Range %s %s %s)' % (at, expression(node.first), expression(node.last))
    if isinstance(node, tree.Range):
        return '(RangeBy %s %s %s %s)' % (at, expression(node.first), expression(node.step), expression(node.last))
    if isinstance(node, tree.Parenthesis):
        return '(Paren %s %s)' % (at, expression(node.inner))
    rows = linked(node.rows, lambda row: 'RowOn ' + linked(row, lambda cell: 'Cell ' + expression(cell), 'RowEnd'), 'NoRows')
    return '(Matrix %s %s)' % (at, rows)


def statement(node):
    if isinstance(node, tree.Assign):
        return '(Assign %s %s)' % (ident(node.name), expression(node.value))
    if isinstance(node, tree.Store):
        return '(Store %s %s %s %s)' % (ident(node.name), place(node.parenthesis), arguments(node.arguments), expression(node.value))
    if isinstance(node, tree.Multi):
        return '(Multi %s %s)' % (items([ident(name) for name in node.targets]), expression(node.call))
    if isinstance(node, tree.If):
        arms = linked(node.arms, lambda arm: 'Arm %s %s' % (expression(arm[0]), block(arm[1])), 'NoArms')
        if node.other is None:
            return '(IfOnly %s %s)' % (place(node.place), arms)
        return '(IfElse %s %s %s)' % (place(node.place), arms, block(node.other))
    if isinstance(node, tree.For):
        return '(ForEach %s %s %s %s)' % (place(node.place), ident(node.name), expression(node.range), block(node.body))
    if isinstance(node, tree.While):
        return '(WhileTrue %s %s %s)' % (place(node.place), expression(node.condition), block(node.body))
    return '(%s %s)' % ('BreakOff' if isinstance(node, tree.Break) else 'GoOn', place(node.place))


def block(statements):
    return linked(statements, lambda one: 'Next ' + statement(one), 'Done')


def function(one):
    names = [items([ident(name) for name in names]) for names in (one.inputs, one.outputs)]
    return '(fun %s %s %s %s)' % (ident(one.name), names[0], names[1], block(one.body))


def declared(type_text):
    sign, word, fraction, rows, columns, is_complex = re.fullmatch(r'([su])(\d+)\.(-?\d+)(?::(\d+)x(\d+))?(:c)?', type_text).groups()
    fraction = '(neg_ℤ (pos %s))' % fraction[1:] if fraction.startswith('-') else '(pos %s)' % fraction
    return '(input %s %s %s %s %s %s)' % (truth(sign == 's'), word, fraction, truth(is_complex), rows or 1, columns or 1)


def refusal(line, source):
    at, code, shown = re.fullmatch(r'refused (\d+:\d+) (E\d\d) (.*)', line).groups()
    row, column = (int(part) for part in at.split(':'))
    offset = sum(len(part) + 1 for part in source.split(b'\n')[:row - 1]) + column - 1
    return 'Refuses code.%s (pl %d %d %d) %s' % (CODES[code], offset, row, column, text(shown))


def claim(row):
    """What a row says of the definition."""
    functions = items([function(one) for one in tree.parse(row.source())])
    typed = 'source_typed %s %s %s' % (functions, text(row.entry), items([declared(one) for one in row.types]))
    last = row.expected if is_short(row) else row.expected[-1]
    if last.startswith('refused'):
        return '%s ≡ %s' % (typed, refusal(last, row.source()))
    if last == 'typed':
        lines = [text(line[len('node '):]) for line in row.expected[:-1]]
        return 'node_lines (%s) ≡ %s' % (typed, items(lines))
    return 'last_line (%s) ≡ %s' % (typed, text(last[len('typed '):]))


def computed():
    """The definitions that are computed, by their modules."""
    modules = []
    for crate in DEFINING:
        for path in sorted(glob.glob(os.path.join(CRATES, crate, 'specs', '*.antt'))):
            names = re.findall(r'^ *unfoldable pub (\S+) :', open(path, encoding='utf-8').read(), re.M)
            if names:
                modules.append(('Rattle.%s.specs.%s' % (crate, os.path.basename(path)[:-5]), names))
    return modules


def claims(paths):
    """The name of each row and its claim."""
    for path in paths:
        with open(path, encoding='latin-1') as lines:
            for row in read_rows(lines):
                try:
                    yield row.name, claim(row)
                except Refused:
                    continue


def main(paths, apart):
    modules = computed()
    print(HEAD + '\n'.join('use %s as d%d' % (module, k) for k, (module, _) in enumerate(modules)) + '\n' + SHORT)
    unfolded = 'unfolding %s fmt.digits' % ' '.join('d%d.%s' % (k, name) for k, (_, names) in enumerate(modules) for name in names)
    rows = list(claims(paths))
    if apart:
        for number, (name, said) in enumerate(rows, 1):
            print('-- %s\nr%d : %s\n%s\nr%d = refl\n' % (name, number, said, unfolded, number))
    else:
        print('rows :\n    %s' % '\n    × '.join('(%s)' % said for _, said in rows))
        print('%s\nrows = (%s)' % (unfolded, ', '.join('refl' for _ in rows)))


if __name__ == '__main__':
    main([word for word in sys.argv[1:] if word != '--apart'], '--apart' in sys.argv)
