"""The plan of a hunt: which averaged spectra are searched for which delays, with which boxes and threshold.

As DDplan's plans do, this one averages more spectra into one the greater the dispersion measure is. Besides, every
fourth averaging is searched from the least dispersion measure on, with boxes of up to eight spectra: so a pulse of any
width up to the widest has a box of about its width that begins within an eighth of it. Where a path stays in a channel
for several spectra, wide boxes share most of their samples, and find little more: there boxes of two spectra do.
"""
from __future__ import annotations

import math
from collections.abc import Sequence
from dataclasses import dataclass, replace
from functools import lru_cache

import numpy as np

from .arrays import Array
from .headers import Header
from .manifest import LevelFile, SearchPass
from .paths import GREATEST_DELAY, box_noise_cells, path_cells, shared_cells
from .refusal import WORDS, Refusal

# what psr_level --fast makes: the mean and deviation of a value, and its bits; and the most spectra that it averages
LEVEL_MEAN, LEVEL_DEVIATION, LEVEL_BITS, MOST_AVERAGED = 14.0, 2.8, 8, 64
# the greatest value of a level: five deviations above the mean, as 0 is below it. In a pulse of S/N 150 no sample of
# 1024 channels is as great, but interference in some channels is
LEVEL_MOST = 28
# levels that are searched from the least DM on: each averages so many times as many spectra as the one before
WIDE_STEP = 4
# the widest box of them, and of the longer delays
WIDE_BOX, NARROW_BOX = 8, 2
# the last level alone may have wider boxes, for the widest pulses
WIDEST_BOX = 32
# from so many delays for a channel on, twice as many averaged spectra lose little: a path stays as long in a channel
LONG_DELAYS = 12
# a pulse may be found some delays off its own
DELAYS_OFF = 6
# a level has at least so many spectra, if it isn't the observation itself
LEAST_SPECTRA = 64
# how many lines noise alone may give for a spectrum
NOISE_LINES = 0.02
# at how many delays the noise is judged
JUDGED_DELAYS = 40
# levelled stretches: so many seconds, but at least so many times as long as a pulse in a channel, and so many spectra
LEVEL_SECONDS, TIMES_PULSE, LEAST_STRETCH, MOST_STRETCH = 0.5, 16, 128, 2**20
# pulses that a zero-DM filter takes away sweep the band in less than so many of their widths; the drift of the level
# that is made without it is followed over so many times as many spectra as its widest box has, and stretches are four
# times as long as that
SHORT_SWEEP, TIMES_BOX = 6, 16


@dataclass(frozen=True)
class Sought:
    """What is looked for: dispersion measures, pulses of widths up to so many spectra, and from which true S/N on."""

    dm_low: float
    dm_high: float
    widest: int
    snr: float


@dataclass(frozen=True)
class Range:
    """Delays of a level that are searched with boxes up to one."""

    average: int
    min_delay: int
    max_delay: int
    widths: int
    zero_dm: bool = True


def level_header(head: Header, average: int) -> Header:
    """The header of a level: values of 8 bits, and so many spectra averaged into one."""
    spectrum_bytes = head.channels * head.polarisations * LEVEL_BITS // 8
    return head.changed(bits=LEVEL_BITS, sample_ns=head.sample_ns * average,
                        data_bytes=head.spectra // average * spectrum_bytes)


def greatest_dm(head: Header) -> float:
    """The greatest dispersion measure that a hunt reaches."""
    return head.dm(1) * GREATEST_DELAY * MOST_AVERAGED


def reach(head: Header, average: int, native: float) -> int:
    """The greatest delay of a level, where the greatest of all is `native` spectra that are not averaged."""
    wanted = math.ceil(native / average) + DELAYS_OFF
    if average < MOST_AVERAGED and wanted > usual_limit(head):
        return usual_limit(head)
    return min(wanted, GREATEST_DELAY)


def usual_limit(head: Header) -> int:
    """The delay up to which a level is searched where the next one goes on."""
    return min(GREATEST_DELAY, LONG_DELAYS * head.channels)


def averages(head: Header, sought: Sought) -> list[tuple[int, int]]:
    """The levels: how many spectra are averaged, and the least delay that is searched."""
    low, native = head.delay(sought.dm_low), head.delay(sought.dm_high)
    found, reached, average, wide = [], 0.0, 1, 1
    while average <= MOST_AVERAGED:
        is_wide = average == wide and average * WIDE_BOX < 2 * max(sought.widest, WIDE_BOX)
        if average == wide:
            wide *= WIDE_STEP
        is_further = reached < native
        if is_wide or is_further:
            begin = low if is_wide else max(low, reached)
            found.append((average, max(0, math.floor(begin / average) - DELAYS_OFF)))
        reached = max(reached, float(reach(head, average, native) * average))
        average *= 2
    return found


def ranges(head: Header, sought: Sought) -> list[Range]:
    """The passes of the plan, level by level."""
    native = head.delay(sought.dm_high)
    levels = averages(head, sought)
    found = list[Range]()
    for average, first in levels:
        level = level_header(head, average)
        last = min(reach(head, average, native), level.spectra - 1)
        if average > 1 and level.spectra < LEAST_SPECTRA:
            continue
        wide = WIDE_BOX
        if average == levels[-1][0]:
            wide = max(wide, min(WIDEST_BOX, power_above(sought.widest / average)))
        wide = min(wide, max(1, power_above(sought.widest / average)))
        narrow = min(wide, NARROW_BOX)
        near = near_delay(head, first, last)
        mine = [Range(average, low, high, quiet_box(level, low, high, box, sought.snr))
                for low, high, box in ((first, min(near, last), wide), (max(first, near + 1), last, narrow))
                if low <= high]
        if len({one.widths for one in mine}) == 1:
            mine = [replace(mine[0], max_delay=mine[-1].max_delay)]
        found += mine
    return found


def plain_range(head: Header, sought: Sought) -> Range | None:
    """The pass without zero DM, for pulses whose sweep is not above a few of their widths; None if there are none.

    It begins at a delay of 0, so that interference of the whole band is found at its own.
    """
    average = min(MOST_AVERAGED, power_above(sought.widest / WIDEST_BOX))
    level = level_header(head, average)
    longest = SHORT_SWEEP * sought.widest
    if head.delay(sought.dm_low) >= longest or level.spectra < LEAST_SPECTRA:
        return None
    last = min(math.ceil(min(longest, head.delay(sought.dm_high)) / average), level.spectra - 1, GREATEST_DELAY)
    widest = min(WIDEST_BOX, power_above(sought.widest / average))
    return Range(average, 0, last, quiet_box(level, 0, last, widest, sought.snr), zero_dm=False)


def near_delay(head: Header, first: int, last: int) -> int:
    """Up to which delay wide boxes are searched. No pass is made for a few delays alone."""
    if 2 * last <= 3 * head.channels:
        return last
    return head.channels if 4 * first <= 3 * head.channels else first - 1


def power_above(value: float) -> int:
    """The least power of two that is at least so great."""
    return 1 << max(0, math.ceil(math.log2(value))) if value > 1 else 1


def overstatement(level: Header, delays: Array, width: int) -> Array:
    """By how many times the printed ratio of a box is greater than the true one, at each delay."""
    grid, ratios = overstatements(level.edges_khz, level.masked)
    return np.interp(delays, grid, ratios[:, width.bit_length() - 1])


@lru_cache(maxsize=4)
def overstatements(edges_khz: tuple[int, ...], masked: tuple[int, ...]) -> tuple[Array, Array]:
    """Delays over all that are searched, and by how many times printed ratios are too great there, by box."""
    grid = np.unique(np.geomspace(1, GREATEST_DELAY, JUDGED_DELAYS).astype(int) - 1)
    cells = np.delete(path_cells(edges_khz, grid), list(masked), axis=0)
    boxes = [1 << place for place in range(WIDEST_BOX.bit_length())]
    noise = np.array([[box_noise_cells(shared_cells(some), box) for box in boxes] for some in cells.T])
    return grid, np.sqrt(noise / (cells.sum(axis=0)[:, None] * boxes))


def noise_lines(level: Header, low: int, high: int, widths: int, snr: float) -> float:
    """How many lines noise alone gives for a spectrum, in boxes of up to some spectra."""
    delays = np.linspace(low, high, JUDGED_DELAYS)
    boxes = [1 << place for place in range(widths.bit_length())]
    chances = [math.erfc(snr / ratio / math.sqrt(2)) / 2
               for box in boxes for ratio in overstatement(level, delays, box)]
    return sum(chances) / len(delays) * (high - low + 1)


def quiet_box(level: Header, low: int, high: int, widest: int, snr: float) -> int:
    """The widest box, up to one, for which noise alone gives few lines.

    The threshold is the true S/N, which the ratio of a line is never below. So every box that is truly above it has a
    line, but so have those whose printed ratio is too great.
    """
    while widest > 1 and noise_lines(level, low, high, widest, snr) > NOISE_LINES:
        widest //= 2
    return widest


def stretch_of(level: Header, last: int, widths: int) -> int:
    """How many spectra of a level are levelled as one stretch."""
    usual = LEVEL_SECONDS / level.seconds
    longest = widths + int(path_cells(level.edges_khz, np.array([last])).max())
    wanted = max(usual, TIMES_PULSE * longest, LEAST_STRETCH)
    return min(MOST_STRETCH, 1 << round(math.log2(wanted)))


def level_name(average: int, zero_dm: bool) -> str:
    """How a level is called."""
    return f"k{average}" if zero_dm else f"k{average}-plain"


def planned(head: Header, sought: Sought,
            has_plain: bool = False) -> tuple[tuple[LevelFile, ...], tuple[SearchPass, ...]]:
    """The levels, still without their commands, and the passes over an observation whose header counts all its
    spectra; `has_plain` asks for the pass without zero DM too."""
    if sought.dm_high > greatest_dm(head):
        raise Refusal(WORDS, f"--dm: {sought.dm_high:g} is above {greatest_dm(head):.0f}, the greatest that is reached "
                             f"by {MOST_AVERAGED} averaged spectra and delays to {GREATEST_DELAY}")
    if head.delay(sought.dm_low) >= head.spectra:
        raise Refusal(WORDS, f"--dm: a pulse of {sought.dm_low:g} takes longer across the band than the observation")
    passes = ranges(head, sought)
    plain = plain_range(head, sought) if has_plain else None
    if plain is not None:
        passes.append(plain)
    levels = []
    for average, zero_dm in dict.fromkeys((one.average, one.zero_dm) for one in passes):
        level, path = level_header(head, average), f"levels/{level_name(average, zero_dm)}.dada"
        mine = [one for one in passes if (one.average, one.zero_dm) == (average, zero_dm)]
        widths = max(one.widths for one in mine)
        stretch = stretch_of(level, max(one.max_delay for one in mine), widths)
        if not zero_dm:
            stretch = min(MOST_STRETCH, power_above(4 * max(TIMES_BOX * widths, LEVEL_SECONDS / level.seconds)))
        levels.append(LevelFile(average, zero_dm, path, "", stretch, level.spectra))
    return tuple(levels), tuple(pass_of(head, sought, one, passes) for one in passes)


def pass_of(head: Header, sought: Sought, one: Range, passes: Sequence[Range]) -> SearchPass:
    """A pass as the description of the hunt has it, with the noise that a level is made with."""
    level, name = level_header(head, one.average), level_name(one.average, one.zero_dm)
    many = sum((other.average, other.zero_dm) == (one.average, one.zero_dm) for other in passes) > 1
    label = f"{name}-box{one.widths}" if many else name
    kept = len(head.kept) / head.channels
    return SearchPass(
        name=label, average=one.average, zero_dm=one.zero_dm, level=f"levels/{name}.dada",
        output=f"{label}.text", widths=one.widths, min_delay=one.min_delay, max_delay=one.max_delay,
        dm_low=level.dm(one.min_delay), dm_high=level.dm(one.max_delay), mean=LEVEL_MEAN * head.polarisations,
        sd=LEVEL_DEVIATION * math.sqrt(head.polarisations * kept), snr=sought.snr, spectra=level.spectra)
