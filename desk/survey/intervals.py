"""The exact interval of a Poisson number (F. Garwood, Biometrika 28, 1936): of so many seen, between which means the number expected lies.

The lower end is the mean at which so many or more are seen once in forty times, the upper that at which so many or fewer are; of none
seen the lower end is 0. Each end is found by halving.
"""

import math
from functools import lru_cache

CERTAINTY = 0.95
TAIL = (1 - CERTAINTY) / 2
HALVINGS = 200


def at_most(seen, mean):
    """How likely it is that so many or fewer are seen where so many are expected."""
    if seen < 0:
        return 0.0
    return math.fsum(math.exp(count * math.log(mean) - mean - math.lgamma(count + 1)) for count in range(seen + 1)) if mean > 0 else 1.0


def halved(low, high, is_above):
    """Where a question's answer turns from no to yes."""
    for _ in range(HALVINGS):
        middle = (low + high) / 2
        if middle in (low, high):
            break
        low, high = (low, middle) if is_above(middle) else (middle, high)
    return (low + high) / 2


@lru_cache
def interval(seen):
    """The lower and the upper end."""
    far = seen + 10 * math.sqrt(seen + 1) + 20
    low = halved(0.0, seen, lambda mean: 1 - at_most(seen - 1, mean) > TAIL) if seen else 0.0
    return low, halved(seen, far, lambda mean: at_most(seen, mean) < TAIL)
