"""Rows: sources with the outcome of their inference, as text."""
from fixed_point import NumericType
from node_types import Fi, row_text_with_math
from source_tokens import Refused
from walk import infer


def read_declared(text):
    """A declared type as rows write it: `s8.4`, `s16.15:1x4`, `u8.0:2x2:c`."""
    parts = text.split(':')
    word, fraction = parts[0][1:].split('.')
    numeric = NumericType(parts[0][0] == 's', int(word), int(fraction))
    is_complex = parts[-1] == 'c'
    shapes = [part for part in parts[1:] if part != 'c']
    shape = tuple(int(extent) for extent in shapes[0].split('x')) if shapes else (1, 1)
    return Fi(numeric, None, is_complex, shape)


class Row:
    def __init__(self, name, lines, entry, types, expected, line_number=0):
        self.name, self.lines, self.entry, self.types = name, lines, entry, types
        self.expected, self.line_number = expected, line_number

    def source(self):
        return ('\n'.join(self.lines) + '\n').encode('latin-1')


def node_lines(nodes):
    return ['node %d:%d %s' % (place.line, place.column, row_text_with_math(node_type)) for place, node_type in nodes]


def walk_of(row):
    return infer(row.source(), row.entry, [read_declared(text) for text in row.types])


def outcome(row):
    """The lines of the row's outcome."""
    try:
        return node_lines(walk_of(row).nodes) + ['typed']
    except Refused as refused:
        return ['refused %s' % refused]


def short_outcome(row):
    """The outcome as a line of a table has it."""
    try:
        return 'typed ' + row_text_with_math(walk_of(row).nodes[-1][1])
    except Refused as refused:
        return 'refused %s' % refused


def row_lines(row):
    lines = ['row ' + row.name] + ['| ' + line if line else '|' for line in row.lines] + ['entry ' + row.entry]
    if row.types:
        lines.append('types ' + ' '.join(row.types))
    return lines + row.expected


def read_rows(lines):
    """Rows of a text; a line of a table is a row whose outcome is one short line."""
    current = None
    for number, line in enumerate(lines, 1):
        line = line.rstrip('\n')
        word, _, rest = line.partition(' ')
        if not line or word == '#':
            continue
        if word in ('row', 'table'):
            current = Row(rest, [], None, [], [], number)
        elif word == '|':
            current.lines.append(rest)
        elif word == 'entry':
            current.entry = rest
        elif word == 'types':
            current.types = rest.split()
        elif word == '=':
            expression, _, expected = rest.rpartition(' -> ')
            yield Row('%s = %s' % (current.name, expression), [part.replace('@', expression) for part in current.lines],
                      current.entry, current.types, expected, number)
        elif word in ('refused', 'node', 'typed'):
            current.expected.append(line)
            if word != 'node':
                yield current
        else:
            raise ValueError('line %d: %r' % (number, line))


def is_short(row):
    return isinstance(row.expected, str)


def found_outcome(row):
    return short_outcome(row) if is_short(row) else outcome(row)
