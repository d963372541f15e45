"""The sizes on both sides of each limit, which the cases try."""

import reference as R

TABLES = tuple(sorted(R.LIMITS))  # the sizes of a table
ABOUT = tuple(n + more for n in sorted(R.LIMITS.values()) for more in (-1, 0, 1, 2))  # roots, coefficients, slots of a list
ABOUT_TABLES = tuple(n + more for n in TABLES for more in (-1, 0, 1))  # slots of a table
COEFFICIENTS = tuple(n for n in ABOUT if n <= R.MOST_COEFFICIENTS)  # those that are accepted


def room(rng):
    """The slots of a list that is long enough, mostly just so."""
    return R.MOST_ROOTS + rng.choice((0, 0, 1, 8))


def sized(table, slots):
    """The front of a table in so many slots: zeros are put behind it, or slots are cut off."""
    return (tuple(table) + (0,) * slots)[:slots]
