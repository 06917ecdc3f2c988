"""The limits of `pls`, as `docs/FORMATS.md` has them."""

MOST_NODES = 32_768
MOST_PORTS = 262_144
MOST_WORD = 2**32 - 1  # an identity, a weight, a mark, a port
MOST_NUMBER = 2**62  # the number in a state
MOST_CODED = 2**63 - 2  # the greatest number that has a code
MOST_BITS = 2**28  # of all labels together
MOST_EVENTS = 2**20  # lines of a schedule, of edits or of a watch
MOST_ROUNDS = 128  # lines `round` or `look`
MOST_NAMES = 8  # names in an expression, and its depth
MOST_DIAMETER = 32_767
