"""Tokens of a source: the longest token at each place, or the refusal of its bytes."""
import bisect
from collections import namedtuple

KEYWORDS = frozenset('function end if elseif else for while break continue'.split())
RESERVED = frozenset('switch case otherwise return try catch global persistent parfor spmd classdef'.split())
LONG_OPERATORS = ('.*', './', '.\\', '.^', ".'", '==', '~=', '<=', '>=', '&&', '||')
SHORT_OPERATORS = "+-*/\\^<>&|~=:,;()[]"
SOURCE_LIMIT = 1048576
NAME_LIMIT = 63

Place = namedtuple('Place', 'offset line column')
START = Place(0, 1, 1)


class Refused(Exception):
    """A source is refused for one reason."""

    def __init__(self, place, code, shown):
        Exception.__init__(self, place, code, shown)
        self.place, self.code, self.shown = place, code, str(shown)

    def __str__(self):
        return '%d:%d %s %s' % (self.place.line, self.place.column, self.code, self.shown)


class Token:
    """A token; its kind is name, number, words, keyword, reserved, operator, newline, separator or finish."""
    __slots__ = ('kind', 'text', 'place', 'length', 'blank_before')

    def __init__(self, kind, text, place, length, blank_before):
        self.kind, self.text, self.place = kind, text, place
        self.length, self.blank_before = length, blank_before


def is_letter(byte):
    return 65 <= byte <= 90 or 97 <= byte <= 122


def is_digit(byte):
    return 48 <= byte <= 57


def is_name_byte(byte):
    return is_letter(byte) or is_digit(byte) or byte == 95


def ends_operand(token):
    """Whether an operand may end with this token."""
    return token is not None and (
        token.kind in ('name', 'number', 'words')
        or token.kind == 'operator' and token.text in (')', ']', "'", ".'")
        or token.kind == 'keyword' and token.text == 'end')


class Tokenizer:
    def __init__(self, source):
        self.source = source
        self.size = len(source)
        self.starts = [0] + [i + 1 for i, byte in enumerate(source) if byte == 10]
        self.tokens = []
        self.open_brackets = []
        self.blank = False
        self.at_line_start = True
        self.here = 0

    def place(self, offset):
        line = bisect.bisect_right(self.starts, offset)
        return Place(offset, line, offset - self.starts[line - 1] + 1)

    def byte(self, offset):
        return self.source[offset] if offset < self.size else -1

    def is_blank(self, offset):
        byte = self.byte(offset)
        return byte in (32, 9) or byte == 13 and self.byte(offset + 1) == 10

    def line_end(self, offset):
        end = self.source.find(b'\n', offset)
        return self.size if end < 0 else end

    def has_only(self, offset, mark):
        """Whether the line that starts here has only blanks and the mark."""
        end = self.line_end(offset)
        line = self.source[offset:end]
        if end < self.size and line.endswith(b'\r'):
            line = line[:-1]
        return line.strip(b' \t') == mark

    def put(self, kind, text, start, end):
        before = self.tokens[-1] if self.tokens else None
        inside = self.open_brackets and self.open_brackets[-1] == '['
        if inside and self.blank and ends_operand(before) and self.begins_element(kind, text, end):
            self.tokens.append(Token('separator', '', self.place(start), 0, True))
        self.tokens.append(Token(kind, text, self.place(start), end - start, self.blank))
        if kind == 'operator':
            if text in ('(', '['):
                self.open_brackets.append(text)
            elif text in (')', ']') and self.open_brackets:
                self.open_brackets.pop()
        self.blank = False
        self.here = end

    def begins_element(self, kind, text, end):
        if kind in ('name', 'number', 'words') or kind == 'keyword' and text == 'end':
            return True
        if kind != 'operator':
            return False
        if text in ('+', '-'):
            return not (self.is_blank(end) or self.source[end:end + 3] == b'...')
        return text in ('(', '[', '~')

    def skip_block_comment(self):
        line = self.source[self.here:self.line_end(self.here)]
        opening = self.here + len(line) - len(line.lstrip(b' \t'))
        depth, at = 0, self.here
        while True:
            if at >= self.size:
                raise Refused(self.place(opening), 'E02', '%{')
            if self.has_only(at, b'%{'):
                depth += 1
            elif self.has_only(at, b'%}'):
                depth -= 1
                if depth == 0:
                    break
            end = self.line_end(at)
            if end >= self.size:
                raise Refused(self.place(opening), 'E02', '%{')
            at = end + 1
        self.here = self.line_end(at)
        self.blank = True

    def run(self):
        if self.size > SOURCE_LIMIT:
            raise Refused(START, 'E20', SOURCE_LIMIT)
        while True:
            if self.at_line_start:
                self.at_line_start = False
                if self.here < self.size and self.has_only(self.here, b'%{'):
                    self.skip_block_comment()
            if self.here >= self.size:
                break
            self.one()
        self.tokens.append(Token('finish', '', self.place(self.size), 0, self.blank))
        return self.tokens

    def one(self):
        here, byte = self.here, self.source[self.here]
        if self.is_blank(here):
            self.blank = True
            self.here += 1
        elif byte == 10:
            self.put('newline', '\n', here, here + 1)
            self.at_line_start = True
        elif byte == 37:
            self.here = self.line_end(here)
            self.blank = True
        elif self.source[here:here + 3] == b'...':
            end = self.line_end(here)
            self.blank = True
            self.at_line_start = end < self.size
            self.here = min(end + 1, self.size)
        elif is_letter(byte):
            self.word(here)
        elif is_digit(byte) or byte == 46 and is_digit(self.byte(here + 1)):
            self.number(here)
        elif byte in (39, 34):
            self.quote(here, byte)
        else:
            self.operator(here)

    def word(self, here):
        end = here
        while is_name_byte(self.byte(end)):
            end += 1
        text = self.source[here:end].decode('ascii')
        if text in KEYWORDS:
            self.put('keyword', text, here, end)
        elif text in RESERVED:
            self.put('reserved', text, here, end)
        elif end - here > NAME_LIMIT:
            raise Refused(self.place(here), 'E20', NAME_LIMIT)
        else:
            self.put('name', text, here, end)

    def number(self, here):
        end = here
        while is_digit(self.byte(end)):
            end += 1
        point = self.byte(end) == 46
        if end == here or point and not (self.byte(end + 1) in b"*/\\^'" or self.source[end:end + 3] == b'...'):
            end += 1
            while is_digit(self.byte(end)):
                end += 1
        if self.byte(end) in (68, 69, 100, 101):
            digits = end + 1
            if self.byte(digits) in (43, 45):
                digits += 1
            if is_digit(self.byte(digits)):
                end = digits
                while is_digit(self.byte(end)):
                    end += 1
        text = self.source[here:end].decode('ascii')
        imaginary = self.byte(end) in (105, 106) and not is_name_byte(self.byte(end + 1))
        self.put('number', (text, imaginary), here, end + imaginary)

    def quote(self, here, byte):
        before = self.tokens[-1] if self.tokens else None
        directly = before is not None and before.place.offset + before.length == here and not self.blank
        if byte == 39 and directly and before.kind != 'words' and ends_operand(before):
            self.put('operator', "'", here, here + 1)
            return
        end, content = here + 1, bytearray()
        while True:
            if not 32 <= self.byte(end) <= 126:
                raise Refused(self.place(here), 'E02', chr(byte))
            if self.byte(end) == byte:
                if self.byte(end + 1) != byte:
                    break
                end += 1
            content.append(self.byte(end))
            end += 1
        self.put('words', content.decode('ascii'), here, end + 1)

    def operator(self, here):
        for length, operators in ((2, LONG_OPERATORS), (1, SHORT_OPERATORS)):
            text = self.source[here:here + length].decode('latin-1')
            if text and text in operators:
                self.put('operator', text, here, here + length)
                return
        raise Refused(self.place(here), 'E01', '%02x' % self.source[here])


def tokens(source):
    return Tokenizer(source).run()


def shown_token(source, token):
    """How the refusal of a token shows it."""
    if token.kind == 'newline':
        return 'end of line'
    if token.kind == 'finish':
        return 'end of file'
    start = token.place.offset
    return source[start:start + min(token.length, 40)].decode('latin-1')
