"""python3 check_rows.py [FILE ..]: names the rows whose outcome differs from the reference's, and counts them."""
import glob
import os
import sys

import rows


def files():
    if len(sys.argv) > 1:
        return sys.argv[1:]
    return sorted(glob.glob(os.path.join(os.path.dirname(os.path.abspath(__file__)), 'rows', '*.txt')))


def main():
    total = refused = in_tables = differing = 0
    for path in files():
        with open(path, encoding='latin-1') as lines:
            for row in rows.read_rows(lines):
                total += 1
                in_tables += rows.is_short(row)
                expected = [row.expected] if rows.is_short(row) else row.expected
                refused += expected[-1].startswith('refused')
                try:
                    found = rows.found_outcome(row)
                except Exception as failure:
                    found = 'failure %s %s' % (type(failure).__name__, failure)
                if found != row.expected:
                    differing += 1
                    print('%s:%d %s' % (os.path.basename(path), row.line_number, row.name))
                    print('  row:       %s' % ' / '.join(expected))
                    print('  reference: %s' % (found if isinstance(found, str) else ' / '.join(found)))
    print('%d rows (%d of them in tables), %d refused, %d differ' % (total, in_tables, refused, differing))
    return 1 if differing else 0


if __name__ == '__main__':
    sys.exit(main())
