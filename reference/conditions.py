"""The missing conditions of one node. The first one in the order of codes refuses the source."""
from source_tokens import Refused

ORDER = ('E06', 'E07', 'E19', 'E09', 'E17', 'E05', 'E18', 'E08', 'E21', 'E22', 'E16', 'E11', 'E12', 'E20', 'E13',
         'E14', 'E15', 'E10')
# Of the types that a node makes only the first one out of its limits is told, so that E14 and E15 never miss together.
RANK = {code: rank for rank, code in enumerate(ORDER)}


class Conditions:
    """`place` and `shown` are the node's own: those of the operator, name, bracket or literal."""

    def __init__(self, place, shown):
        self.place, self.shown = place, shown
        self.missing = []
        self.shape = None           # of the node's value, as soon as the conditions before it allow one

    def miss(self, code, shown=None):
        self.missing.append((RANK[code], code, self.shown if shown is None else shown))

    def none_before(self, code):
        """Whether every condition that goes before this code holds."""
        return all(rank >= RANK[code] for rank, _, _ in self.missing)

    def holds(self):
        return not self.missing

    def decide(self):
        if self.missing:
            _, code, shown = min(self.missing, key=lambda entry: entry[0])
            raise Refused(self.place, code, shown)
