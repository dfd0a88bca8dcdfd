"""Figures of several ratios, and how they are rounded."""
from __future__ import annotations

from decimal import ROUND_HALF_UP, Decimal
from math import exp, log
from typing import Optional, Sequence


def geometric_mean(values: Sequence[float]) -> Optional[float]:
    """None of no values."""
    return exp(sum(map(log, values)) / len(values)) if values else None


def fixed(value: Optional[float], digits: int) -> str:
    """A number with so many digits behind the point, half of the last one rounded up, as a browser does; nothing of None."""
    if value is None:
        return ""
    return f"{Decimal(value).quantize(Decimal(1).scaleb(-digits), ROUND_HALF_UP):f}"


def percent(part: float, whole: int = 1) -> str:
    return f"{fixed(100 * part / whole, 0)} %"


def brief(share: Optional[float]) -> str:
    """A share with three significant digits, as 0.0120 or 1.23e-09, but 0 and 1 where it is just that; nothing of None."""
    if share is None:
        return ""
    return str(int(share)) if share in (0, 1) else f"{share:#.3g}"
