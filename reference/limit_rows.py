"""python3 limit_rows.py > rows/hand_limits.txt: sources at the edges of the limits, too long to write by hand. The outcomes
are worked out by hand and stand in this file."""


def table(name, lines, types, cases):
    print('table ' + name)
    for line in lines:
        print('| ' + line)
    print('entry f')
    print('types ' + types)
    for expression, outcome in cases:
        print('= %s -> %s' % (expression, outcome))
    print()


def elements_in_all():
    table('1,048,576 elements are 256 reads of 4,096',
          ['function y = f(v)'] + ['x = v;'] * 255 + ['y = @;', 'end'], 's8.0:1x4096',
          [('v', 'typed s8.0:1x4096'),
           ('(v)', 'refused 257:5 E20 1048576'),
           ('-v', 'refused 257:5 E20 1048576'),
           ("v'", 'refused 257:6 E20 1048576'),
           ('v + 1', 'refused 257:7 E20 1048576'),
           ('v == v', 'refused 257:10 E20 1048576'),
           ('v(1)', 'typed s8.0:1x1'),
           ('v(:)', 'typed s8.0:4096x1'),
           ('v(:) == 1', 'refused 257:10 E20 1048576'),
           ('v(1:2)', 'typed s8.0:1x2'),
           ('v(1:4096)', 'refused 257:5 E20 1048576'),
           ('[v(1:2048) v(1:2)]', 'refused 257:19 E20 1048576'),
           ('zeros(1,4097)', 'refused 257:5 E20 4096'),
           ('zeros(64)', 'refused 1:10 E08 y'),
           ('zeros(64) + 1', 'refused 257:15 E20 1048576'),
           ('g(v)', 'refused 257:5 E06 g'),
           ('sum(v)', 'typed s20.0:1x1'),
           ("sum(v) + sum(v')", 'refused 257:18 E20 1048576'),
           ('numel(v) + numel(v)', 'refused 257:22 E20 1048576')])
    table('a call counts the elements of the outputs that it asks for',
          ['function y = f(v)'] + ['x = v;'] * 252 + ['@', 'y = x(1);', 'end']
          + ['function [p, q] = two(a)', 'p = a;', 'q = p;', 'end'], 's8.0:1x4096',
          [('p = two(v);', 'typed s8.0:1x1'),
           ('[p, q] = two(v);', 'refused 254:10 E20 1048576'),
           ('[p] = two(v);', 'typed s8.0:1x1'),
           ('p = two(v(1)); p = two(v(1)); p = two(v(1));', 'typed s8.0:1x1'),
           ('p = v; [r, s] = two(v(1));', 'typed s8.0:1x1'),
           ('p = -v; [r, s] = two(v);', 'refused 259:5 E20 1048576'),
           ('p = v; p = two(v);', 'refused 254:12 E20 1048576'),
           ('p = two(-v);', 'refused 254:5 E20 1048576')])


def elements_at_every_kind_of_node():
    table('256 reads of 4,096 elements, and then any array',
          ['function y = f(v)', 'y = v;'] + ['x = v;'] * 255 + ['z = @;', 'end'], 's8.0:1x4096',
          [('[1 1]', 'refused 258:5 E20 1048576'),
           ('zeros(1,2)', 'refused 258:5 E20 1048576'),
           ('1:2', 'refused 258:6 E20 1048576'),
           ('v', 'refused 258:5 E20 1048576'),
           ('v(:)', 'refused 258:5 E20 1048576'),
           ('v(1)', 'typed s8.0:1x1'),
           ('v([1 1])', 'refused 258:7 E20 1048576'),
           ('[1]', 'typed number:1x1'),
           ('sum(v)', 'refused 258:9 E20 1048576'),
           ('numel(v)', 'refused 258:11 E20 1048576'),
           ('v(1) > 0', 'typed b:1x1'),
           ('[1 2] == 1', 'refused 258:5 E20 1048576'),
           ('zeros(1,4097)', 'refused 258:5 E20 4096'),
           ('1:4097', 'refused 258:6 E20 4096'),
           ('q', 'refused 258:5 E06 q'),
           ('[1 q]', 'refused 258:8 E06 q'),
           ("[1 'x']", 'refused 258:5 E18 ['),
           ('2:1', 'refused 258:6 E12 :')])


def elements_beside_other_conditions():
    table('4,096 elements beside other conditions',
          ['function y = f(w, t, s)', 'y = s;', "F = setfimath(t, fimath('OverflowAction','Wrap'));",
           "G = setfimath(t, fimath('RoundingMethod','Floor'));", 'x = @;', 'end'], 's64.0:65x1 s8.0:65x1 s8.0',
          [("w*w'", 'refused 5:6 E20 4096'),
           ("w*t'", 'refused 5:6 E20 4096'),
           ("t*t'", 'refused 5:6 E20 4096'),
           ("F*G'", 'refused 5:6 E20 4096'),
           ('t*(129*ones(1,65))', 'refused 5:6 E16 *'),
           ('(ones(65,1)*2^400)*(ones(1,65)*2^53)', 'refused 5:23 E16 *'),
           ('ones(65,1)*ones(1,65)', 'refused 5:15 E20 4096'),
           ('ones(65,1)*ones(2,65)', 'refused 5:15 E11 65x1 with 2x65'),
           ('ones(64,1)*ones(1,64)', 'typed number:64x64'),
           ('w*1', 'refused 5:6 E14 128'),
           ("w'*w", 'refused 5:7 E14 128'),
           ("t'*t", 'typed s23.0:1x1')])
    lines = ['function y = f(v, w)', "p = setfimath(w, fimath('OverflowAction','Wrap'));",
             "q = setfimath(w, fimath('RoundingMethod','Floor'));"] + ['x = v;'] * 250 + ['y = @;', 'end']
    # 254 nodes of 4,096 elements stand before line 254
    table('1,048,576 elements beside other conditions', lines, 's64.0:1x4096 s8.0:1x4096',
          [('v .* v', 'refused 254:7 E20 1048576'),
           ('p + q', 'refused 254:7 E20 1048576'),
           ('p + p', 'refused 254:7 E20 1048576'),
           ('(w)*129', 'refused 254:8 E16 129'),
           ('(w) < 1i', 'refused 254:9 E21 <'),
           ("(w) + 'x'", 'refused 254:9 E18 +'),
           ('(w) + true', 'refused 254:9 E08 +'),
           ('(w)/2', 'refused 254:8 E09 /'),
           ('(w)^2', 'refused 254:8 E19 ^'),
           ('~(w)', 'refused 254:5 E18 ~'),
           ("(w)'", 'refused 254:8 E20 1048576'),
           ('abs((w))', 'refused 254:5 E20 1048576'),
           ('abs((w), 1)', 'refused 254:5 E05 2 for 1'),
           ('fi((w), 1, 65, 0)', 'refused 254:5 E20 1048576'),
           ('fi((w), 1, 8, 300)', 'refused 254:5 E20 1048576'),
           ('fi((w), 2, 8, 0)', 'refused 254:5 E18 fi'),
           ('sum((w))', 'typed s20.0:1x1'),
           ('w(:)', 'typed s8.0:4096x1')])


def nodes():
    """A level's body has ten calls of the level below, each with its argument and itself: 1, 30, 320, 3220, 32220 nodes."""
    levels = ['function r = n0(p)', 'r = p;', 'end']
    for level in range(1, 5):
        levels += ['function r = n%d(p)' % level] + ['r = n%d(p);' % (level - 1)] * 10 + ['end']
    entry = ['function y = f(a)'] + ['y = n4(a);'] * 6 + ['y = n3(a);'] * 2 + ['y = n1(a);'] * 6 + ['y = @;', 'end']
    # 6 * 32222 + 2 * 3222 + 7 * 32 = 200,000
    table('200,000 nodes', entry + levels, 's8.0',
          [('n1(a)', 'typed s8.0:1x1'),
           ('n1(a) + a', 'refused 16:13 E20 200000'),
           ('(n1(a))', 'refused 16:5 E20 200000'),
           ('-n1(a)', 'refused 16:5 E20 200000'),
           ('n1(+a)', 'refused 16:5 E20 200000'),
           ('n1(+(a))', 'refused 31:5 E20 200000'),
           ('n1(+(+a))', 'refused 19:5 E20 200000'),
           ('n1(+(+(a)))', 'refused 31:8 E20 200000'),
           ('n1(q)', 'refused 16:8 E06 q'),
           ('n1(a) + q', 'refused 16:13 E06 q'),
           ('n1(a)*64', 'refused 16:11 E20 200000'),
           ('n1(a)(1)', 'refused 16:10 E03 ('),
           ('a', 'typed s8.0:1x1')])


def call_depth():
    chain = []
    for level in range(1, 18):
        chain += ['function r = c%d(p)' % level, 'r = c%d(p);' % (level + 1) if level < 17 else 'r = p;', 'end']
    # c1 begins on line 4, and c16 on line 49
    lines = ['function y = f(a)', 'y = @;', 'end'] + chain
    table('a call of depth 17', lines, 's8.0',
          [('c1(a)', 'refused 50:5 E20 16'),
           ('c2(a)', 'typed s8.0:1x1'),
           ('c17(c17(c17(a)))', 'typed s8.0:1x1'),
           ('c1(c2(a))', 'refused 50:5 E20 16'),
           ("c1('x')", 'refused 2:5 E08 c1')])
    lines = ['function y = f(a)', 'y = c2(a);', 'end'] + chain[:-9] + [
        'function r = c15(p)', 'r = c16(p);', 'end', 'function r = c16(p)', 'r = c17(p);', 'end',
        'function r = c17(p)', 'r = @;', 'end', 'function r = last(p)', 'r = p;', 'end']
    table('what goes before the depth of a call', lines, 's8.0',
          [('p', 'typed s8.0:1x1'),
           ('last(p)', 'refused 53:5 E20 16'),
           ('last(p, p)', 'refused 53:5 E05 2 for 1'),
           ("last('x')", 'refused 53:5 E08 last'),
           ('last(:)', 'refused 53:5 E18 last'),
           ('c2(p)', 'refused 53:5 E17 c2'),
           ('last(q)', 'refused 53:10 E06 q'),
           ('abs(p)', 'typed s8.0:1x1')])


def nesting():
    """Sixty choices round a call, and more in the callee."""
    def choices(count, inner):
        return ['if a > 0'] * count + [inner] + ['end'] * count
    for count, outcome in ((40, 'typed s8.0:1x1'), (41, 'refused 167:1 E20 100')):
        lines = ['function y = f(a)', 'y = a;'] + choices(60, 'y = g(a);') + ['end', 'function y = g(a)', 'y = a;'] \
            + choices(count, '@') + ['end']
        # the callee's header is on line 125, its first `if` on line 127
        table('60 choices round a call of a function with %d' % count, lines, 's8.0',
              [('y = a;', outcome),
               ('while a > 0, y = a; end', 'refused 167:1 E20 100'),
               ('for k = 1:2, y = a; end', 'refused 167:1 E20 100'),
               ('for k = q, y = a; end', 'refused 167:1 E20 100'),
               ('for k = 1:q, y = a; end', 'refused 167:1 E20 100'),
               ('while q, y = a; end', 'refused 167:1 E20 100'),
               ('if q, y = a; end', 'refused 167:4 E06 q' if count == 40 else 'refused 167:1 E20 100'),
               ('if a, y = a; end', 'refused 167:4 E18 condition' if count == 40 else 'refused 167:1 E20 100'),
               ('b = true && q;', 'refused 167:13 E06 q' if count == 40 else 'refused 167:1 E20 100'),
               ('b = true && true;', 'refused 167:10 E20 100' if count == 40 else 'refused 167:1 E20 100'),
               ('b = true || true;', 'refused 167:10 E20 100' if count == 40 else 'refused 167:1 E20 100'),
               ('b = true && 1;', 'refused 167:10 E18 &&' if count == 40 else 'refused 167:1 E20 100'),
               ('b = true & true;', 'typed s8.0:1x1' if count == 40 else 'refused 167:1 E20 100')])
    many = ['function y = f(a)', 'y = a;', 'if a > 0'] + ['elseif a > 0'] * 98 + ['@', 'end', 'end']
    # 99 arms; the body of the last one is nested 99 deep
    table('99 arms', many, 's8.0',
          [('y = a;', 'typed s8.0:1x1'),
           ('if a > 0, y = a; end', 'typed s8.0:1x1'),
           ('if a > 0, if a > 0, y = a; end, end', 'refused 102:11 E20 100'),
           ('while a > 0, y = a; end', 'typed s8.0:1x1'),
           ('while a > 0 && a > 1, y = a; end', 'refused 102:13 E20 100'),
           ('while a > 0, while a > 0, y = a; end, end', 'refused 102:14 E20 100'),
           ('for k = 1:2, y = a; end', 'typed s8.0:1x1'),
           ('for k = 1:2, if a > 0, y = a; end, end', 'refused 102:14 E20 100'),
           ('for k = 1:2, for j = 1:2, y = a; end, end', 'refused 102:14 E20 100'),
           ('elseif a > 0, y = a;', 'typed s8.0:1x1'),
           ('elseif a > 0 && a > 1, y = a;', 'typed s8.0:1x1'),
           ('elseif a > 0, elseif a > 0, y = a;', 'refused 3:1 E20 100'),
           ('elseif a > 0, elseif q, y = a;', 'refused 102:22 E06 q'),
           ('elseif a > 0, elseif a, y = a;', 'refused 102:22 E18 condition'),
           ('elseif a > 0, elseif a > 0 && a > 1, y = a;', 'refused 102:28 E20 100'),
           ('else, y = a;', 'typed s8.0:1x1'),
           ('else, if a > 0, y = a; end', 'typed s8.0:1x1'),
           ('else, if a > 0, if a > 0, y = a; end, end', 'refused 102:17 E20 100'),
           ('if a > 0 && a > 1, y = a; end', 'typed s8.0:1x1'),
           ('if a > 0 && (a > 1 && a > 2), y = a; end', 'refused 102:20 E20 100'),
           ('if (a > 0 && a > 1) && a > 2, y = a; end', 'typed s8.0:1x1'),
           ('if a > 0 && a > 1 && a > 2, y = a; end', 'typed s8.0:1x1'),
           ('if a > 0, b = a > 0 && a > 1; end', 'refused 102:21 E20 100'),
           ('for k = 1:2, b = a > 0 && a > 1; end', 'refused 102:24 E20 100')])


def depth_of_the_tree():
    for count in (98, 99):
        print('row %d parentheses' % count)
        print('| function y = f(a)\n| y = %sa%s;\n| end\nentry f\ntypes s8.0' % ('(' * count, ')' * count))
        if count == 98:
            print('node 2:103 s8.0:1x1')
            for column in range(102, 4, -1):
                print('node 2:%d s8.0:1x1' % column)
            print('typed\n')
        else:
            print('refused 2:103 E20 100\n')
    for length, outcome in ((63, 'refused 2:5 E06 ' + 'n' * 63), (64, 'refused 2:5 E20 63')):
        print('row a name of %d bytes' % length)
        print('| function y = f(a)\n| y = %s;\n| end\nentry f\ntypes s8.0\n%s\n' % ('n' * length, outcome))


def depth_by_kind():
    """A leaf is 1 deep, and every node and statement is 1 deeper than its deepest part: an assignment, 98 nodes and a leaf."""
    table('the depth of an expression', ['function y = f(a)', 'y = a;', 'x = @;', 'end'], 's8.0',
          [('-' * 98 + 'a', 'typed s8.0:1x1'), ('-' * 99 + 'a', 'refused 3:103 E20 100'),
           ('|'.join(['true'] * 99), 'typed b:1x1'), ('|'.join(['true'] * 100), 'refused 3:499 E20 100'),
           ('a' + "'" * 98, 'typed s8.0:1x1'), ('a' + "'" * 99, 'refused 3:104 E20 100'),
           ('abs(' * 98 + 'a' + ')' * 98, 'typed s8.0:1x1'), ('abs(' * 99 + 'a' + ')' * 99, 'refused 3:401 E20 100'),
           ('abs(' * 99 + ':' + ')' * 99, 'refused 3:397 E18 abs'),
           ('[' * 98 + 'a' + ']' * 98, 'typed s8.0:1x1'), ('[' * 99 + 'a' + ']' * 99, 'refused 3:104 E20 100'),
           ('[' * 99 + ']' * 99, 'refused 3:103 E12 ['),
           ('(' * 98 + 'a' + ')' * 98, 'typed s8.0:1x1'), ('(' * 99 + 'a' + ')' * 99, 'refused 3:103 E20 100'),
           ('2' + '^1' * 98, 'typed number:1x1'), ('2' + '^1' * 99, 'refused 3:202 E20 100'),
           ('2^' + '-' * 97 + '1', 'typed number:1x1'), ('2^' + '-' * 98 + '1', 'refused 3:104 E20 100')])
    table('the depth of a statement', ['function y = f(a)', 'y = a;', '@', 'end'], 's8.0',
          [('while true, ' * 99 + 'break, ' + 'end, ' * 98 + 'end', 'typed b:1x1'),
           ('while true, ' * 100 + 'break, ' + 'end, ' * 99 + 'end', 'refused 3:1189 E20 100'),
           ('if a > 0, ' * 98 + 'y = a; ' + 'end, ' * 97 + 'end', 'typed s8.0:1x1'),
           ('if a > 0, ' * 99 + 'y = a; ' + 'end, ' * 98 + 'end', 'refused 3:986 E20 100'),
           ('if true, ' * 98 + 'y = a; ' + 'end, ' * 97 + 'end', 'typed s8.0:1x1'),
           ('if true, ' * 99 + 'y = a; ' + 'end, ' * 98 + 'end', 'refused 3:892 E20 100')])


def main():
    print('# Written by limit_rows.py, where the outcomes stand as they were worked out by hand.\n')
    elements_in_all()
    elements_at_every_kind_of_node()
    elements_beside_other_conditions()
    nodes()
    call_depth()
    nesting()
    depth_of_the_tree()
    depth_by_kind()


if __name__ == '__main__':
    main()
