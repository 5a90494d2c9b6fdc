"""python3 soundness.py FIRST COUNT: random sources that the walk accepts are evaluated on random inputs. Evaluation must
never be wrong, and each value must have one of the types that the walk gave to its node."""
import random
import sys
from collections import Counter

import constants
import fixed_point
import node_types
import values
from evaluation import evaluate
from rows import read_declared, walk_of
from source_generator import row_of
from source_tokens import Refused


def random_value(chooser, declared):
    def numbers():
        low, high = fixed_point.low(declared.numeric), fixed_point.high(declared.numeric)
        near = [low, high, 0, 1, 2, 3]
        return tuple(min(max(chooser.choice(near + [chooser.randint(low, high)]), low), high)
                     for _ in range(constants.elements_of(declared.shape)))
    return values.FiValue(declared.numeric, None, declared.shape, numbers(), numbers() if declared.complex else None)


def belongs(value_type, node_type):
    if isinstance(node_type, node_types.Index):
        number = constants.whole_number(value_type.constant) if isinstance(value_type, node_types.Number) else None
        return number is not None and node_type.low <= number <= node_type.high
    return node_types.same(value_type, node_type)


def check(row, chooser, counts):
    try:
        walk = walk_of(row)
    except Refused as refused:
        counts[refused.code] += 1
        return []
    counts['accepted'] += 1
    types_at = {}
    for place, node_type in walk.nodes:
        types_at.setdefault(place, []).append(node_type)
    faults = []

    def observe(place, value):
        value_type = values.type_of(value)
        if not any(belongs(value_type, node_type) for node_type in types_at.get(place, [])):
            faults.append('%d:%d has %s' % (place.line, place.column, node_types.shown_text(value_type)))
    for _ in range(3):
        inputs = [random_value(chooser, read_declared(text)) for text in row.types]
        kind, found = evaluate(row.source(), row.entry, inputs, 5, observe)
        counts[kind] += 1
        if kind == 'wrong':
            faults.append('wrong at %d:%d' % (found.line, found.column))
        elif kind == 'ends':
            for value, node_type in zip(found, walk.output_types):
                if not node_types.same(values.type_of(value), node_type):
                    faults.append('an output has %s' % node_types.shown_text(values.type_of(value)))
    return faults


def main():
    first, count = int(sys.argv[1]), int(sys.argv[2])
    counts, bad = Counter(), 0
    for seed in range(first, first + count):
        row = row_of(seed)
        faults = check(row, random.Random(seed), counts)
        if faults:
            bad += 1
            print('random %d: %s' % (seed, '; '.join(sorted(set(faults))[:3])))
            print('\n'.join(row.lines), row.types)
    print(dict(counts.most_common()))
    return 1 if bad else 0


if __name__ == '__main__':
    sys.exit(main())
