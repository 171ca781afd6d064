"""Numbers as the programs read them: an optional sign, digits, and optionally a point and digits; no exponent."""
from __future__ import annotations

TYPE_CHECKING = False
if TYPE_CHECKING:
    from fractions import Fraction

# more digits than any value that is taken has; the others would only make it greater
ENOUGH_DIGITS = 40
# more decimals than any value that is written needs
ENOUGH_DECIMALS = 12


def parts_of(text: str) -> tuple[str, str, str] | None:
    """The sign of a number, the digits before the point and those behind it; None if it is no number."""
    sign = text[:1] if text[:1] in ("+", "-") else ""
    whole, _, fraction = text[len(sign):].partition(".")
    digits = whole + fraction
    return (sign, whole, fraction) if digits.isascii() and digits.isdigit() else None


def scaled(text: str, decimals: int) -> int | None:
    """The number times ten to the power `decimals`, further decimals dropped towards zero; None if it is no number."""
    parts = parts_of(text)
    if parts is None:
        return None
    sign, whole, fraction = parts
    digits = whole.lstrip("0")[:ENOUGH_DIGITS] + fraction[:decimals].ljust(decimals, "0")
    value = int(digits or "0")
    return -value if sign == "-" else value


def decimals_beyond(text: str, decimals: int) -> bool:
    """Whether a number has more decimals than so many, and one of the further ones is not 0."""
    parts = parts_of(text)
    return parts is not None and bool(parts[2][decimals:].strip("0"))


def multiplied(text: str, factor: Fraction) -> str | None:
    """The number times a factor, with as many decimals as it has, further ones dropped.

    None if it is no number, or below 0.
    """
    parts = parts_of(text)
    decimals = min(len(parts[2]), ENOUGH_DECIMALS) if parts else 0
    value = scaled(text, decimals)
    if value is None or value < 0:
        return None
    whole, rest = divmod(value * factor.numerator // factor.denominator, 10**decimals)
    return f"{whole}.{rest:0{decimals}}" if decimals else str(whole)
