"""python3 select_rows.py MOST < ROWS: hands on every row, and of each table at most so many lines of each outcome (of each
code, and of those that are typed)."""
import sys


def outcome_of(line):
    words = line.rpartition(' -> ')[2].split()
    return words[2] if words[0] == 'refused' else words[0]


def main():
    most = int(sys.argv[1])
    counts = {}
    for line in sys.stdin:
        if line.startswith('table '):
            counts = {}
        if line.startswith('= '):
            outcome = outcome_of(line)
            counts[outcome] = counts.get(outcome, 0) + 1
            if counts[outcome] > most:
                continue
        sys.stdout.write(line)


if __name__ == '__main__':
    main()
