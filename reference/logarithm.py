"""Document 01, "Logarithm", in the range of request E2."""

from functools import lru_cache

from reference.limits import BOTH_SAMPLES

SCALE = 1024


def follows_rule(n, k):
    """2^k <= n^1024 < 2^(k+1)."""
    power = n**SCALE
    return 2**k <= power < 2 ** (k + 1)


@lru_cache(maxsize=None)
def L(n):
    """The whole number k that follows the rule, for n from 1 to 4,096; L(0) is 0 by convention."""
    if not 0 <= n <= BOTH_SAMPLES:
        raise ValueError(f"L({n}) is not asked for")
    if n == 0:
        return 0
    k = (n**SCALE).bit_length() - 1
    # The rule decides, however k was found.
    if not follows_rule(n, k):
        raise AssertionError(f"L({n}) is not {k}")
    return k
