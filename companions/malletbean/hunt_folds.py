"""Which periods a hunt folds, in which levels and at which delays.

Each octave of periods is folded where a period has some hundred spectra: the longer the period, the more spectra are
averaged into one. A fold adds the first 2^N periods of the observation.
"""
from __future__ import annotations

import math
from collections.abc import Sequence
from dataclasses import dataclass
from statistics import NormalDist

from .headers import Header
from .hunt_plan import Sought, level_header
from .manifest import SearchPass

# a period has at least so many spectra, and if a level allows it so many
LEAST_SPECTRA, GOOD_SPECTRA = 32, 128
# a delay is off by at most half of such a part of a period
PART_OF_PERIOD = 32
# what one search folds at most: delays, values of a fold, rows as a power of two, and a sum
MOST_DELAYS, MOST_VALUES, MOST_ROWS, SUMS = 64, 2**22, 12, 2**32
# noise alone gives about so many lines in an octave
NOISE_FOLDS = 1.0


@dataclass(frozen=True)
class Folds:
    """The passes that fold, and what of the periods is not folded."""

    passes: tuple[SearchPass, ...]
    left_out: tuple[str, ...]


def folds_planned(head: Header, sought: Sought, periods: tuple[float, float],
                  searches: Sequence[SearchPass]) -> Folds:
    """The folds of a range of periods in seconds, by octaves, in the levels that are searched anyway."""
    passes, left_out = list[SearchPass](), list[str]()
    low, high = periods
    while low < high:
        until = min(2 * low, high)
        level = level_for(low, searches, head)
        if level is None:
            left_out.append(f"{low:.6g} to {until:.6g} s: a period has fewer than {LEAST_SPECTRA} spectra")
        else:
            some, why = octave(head, sought, (low, until), level, len(passes))
            passes += some
            left_out += why
        low = until
    return Folds(tuple(passes), tuple(left_out))


def level_for(period: float, searches: Sequence[SearchPass], head: Header) -> SearchPass | None:
    """The pass with the longest delays of the level in which a period has a good number of spectra, or else enough."""
    usual = [search for search in searches if search.zero_dm]
    for wanted in (GOOD_SPECTRA, LEAST_SPECTRA):
        fit = [one for one in usual if period >= wanted * one.average * head.seconds]
        if fit:
            return max(fit, key=lambda one: (one.average, one.max_delay))
    return None


def octave(head: Header, sought: Sought, periods: tuple[float, float], search: SearchPass,
           number: int) -> tuple[list[SearchPass], list[str]]:
    """The folds of an octave, each of 64 delays at most, and what is not folded."""
    level = level_header(head, search.average)
    low, high = math.floor(periods[0] / level.seconds), math.ceil(periods[1] / level.seconds)
    named = f"{periods[0]:.6g} to {periods[1]:.6g} s"
    rows = rows_of(level, high, search.max_delay)
    if rows < 1:
        return [], [f"{named}: there are fewer than two periods that can be added"]
    first = max(0, math.floor(level.delay(sought.dm_low)))
    wanted = math.ceil(level.delay(sought.dm_high))
    last = min(wanted, search.max_delay)
    step = max(1, low // PART_OF_PERIOD)
    trials = ((last - first) // step + 1) * sum(period * 2**rows for period in range(low, high + 1))
    snr = max(sought.snr, round(-NormalDist().inv_cdf(min(0.5, NOISE_FOLDS / trials)), 2))
    found = list[SearchPass]()
    for begin in range(first, last + 1, MOST_DELAYS * step):
        end = min(last, begin + MOST_DELAYS * step - 1)
        found.append(fold_pass(head, sought, search, (begin, end), (low, high), rows, step, snr, number + len(found)))
    left_out = [f"{named}: DM {level.dm(last):.1f} and above, which this level does not reach"] if last < wanted else []
    used = 2**rows * high
    if 2 * used < level.spectra:
        left_out.append(f"{named}: what lies behind the first {used * level.seconds:.3g} s")
    return found, left_out


def rows_of(level: Header, period: int, max_delay: int) -> int:
    """The greatest number of rows of a fold, as a power of two, that the data and the search allow."""
    greatest = level.polarisations * (2**level.bits - 1) * (level.channels + max_delay)
    most = min((level.spectra - max_delay) // period, MOST_VALUES // period, (SUMS - 1) // greatest)
    return min(MOST_ROWS, int(most).bit_length() - 1) if most > 0 else 0


def fold_pass(head: Header, sought: Sought, search: SearchPass, delays: tuple[int, int], periods: tuple[int, int],
              rows: int, step: int, snr: float, number: int) -> SearchPass:
    """One search that folds, as the description of the hunt has it."""
    name, level = f"folds{number}", level_header(head, search.average)
    return SearchPass(
        name=name, average=search.average, zero_dm=search.zero_dm, level=search.level, output=f"{name}.text", widths=1,
        min_delay=delays[0], max_delay=delays[1], dm_low=level.dm(delays[0]), dm_high=level.dm(delays[1]),
        mean=search.mean, sd=search.sd, snr=snr, spectra=level.spectra, fold_min=periods[0], fold_max=periods[1],
        fold_rows=rows, fold_step=step)
