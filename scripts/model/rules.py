"""What is done otherwise from version to version of the tables: docs/TABLES.md.

A store of an older version was filled by the rules of its time. What became next in it stays as it was taken.
"""
from collections import namedtuple

# whether a message may replace a list; whether a full container is kept off an empty one; whether gross weights are read
Rules = namedtuple('Rules', 'may_replace spares_empty reads_weight')

RULES = {
    1: Rules(may_replace=False, spares_empty=False, reads_weight=False),
    2: Rules(may_replace=True, spares_empty=False, reads_weight=False),
    3: Rules(may_replace=True, spares_empty=True, reads_weight=True),
}
NEWEST = 3
