"""python3 random_rows.py FOLDER: writes rows of random sources, whose outcomes the reference computes."""
import os
import sys

import rows
from source_generator import random_control_row, random_row

MOST_NODES = 60         # of a row that is accepted, so that files stay readable


def write(path, make, count, most_of_a_code):
    """Rows of the first seeds, with at most so many that are refused with one code."""
    counts, written, seed = {}, 0, 0
    with open(path, 'w', encoding='ascii') as file:
        file.write('# Written by random_rows.py; the outcomes are those of the reference.\n\n')
        while written < count:
            row = make(seed)
            seed += 1
            row.expected = rows.outcome(row)
            code = row.expected[0].split()[2] if row.expected[0].startswith('refused') else 'typed'
            if counts.get(code, 0) >= most_of_a_code or len(row.expected) > MOST_NODES:
                continue
            counts[code] = counts.get(code, 0) + 1
            file.write('\n'.join(rows.row_lines(row)) + '\n\n')
            written += 1
    return counts


def main():
    folder = sys.argv[1]
    print(write(os.path.join(folder, 'random_sources.txt'), random_row, 400, 60))
    print(write(os.path.join(folder, 'random_control.txt'), random_control_row, 300, 160))


if __name__ == '__main__':
    main()
