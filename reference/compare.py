"""python3 compare.py COUNT FIRST COMMAND [ARGUMENT ..]: tries random sources on a program.

Makes COUNT rows of random sources from the seed FIRST on, with the outcomes of the reference, and feeds them to the
command, which reads rows on standard input and names each row whose outcome is another. Its output and status are handed
on. With `-` as the command the rows go to standard output. Every fourth source is one of loops, choices and jumps alone.
"""
import multiprocessing
import subprocess
import sys

import rows
from source_generator import row_of


def made(seed):
    row = row_of(seed)
    row.expected = rows.outcome(row)
    return '\n'.join(rows.row_lines(row)) + '\n\n'


def main():
    count, first, command = int(sys.argv[1]), int(sys.argv[2]), sys.argv[3:]
    program = None if command == ['-'] else subprocess.Popen(command, stdin=subprocess.PIPE)
    stream = sys.stdout.buffer if program is None else program.stdin
    try:
        with multiprocessing.Pool(2) as pool:
            for text in pool.imap(made, range(first, first + count), 16):
                stream.write(text.encode('ascii'))
    except BrokenPipeError:
        pass
    if program is None:
        return 0
    try:
        program.stdin.close()
    except BrokenPipeError:
        pass
    return program.wait()


if __name__ == '__main__':
    sys.exit(main())
