"""Which channels stand out: an estimate that a person judges."""
from __future__ import annotations

import math
import warnings

import numpy as np

from .arrays import Array
from .headers import Header
from .masks import STANDS_OUT, is_far, usual_distance
from .noise import Measured

# deviations follow the means where their ratio spreads so many times less; then so many channels have about the same
# mean, and ratios that are alike up to such a part
TIMES_EVEN, ABOUT_SAME, RATIO_ERROR = 5, 17, 0.02
# means that lie a part of a deviation off do no harm; a zero-DM filter moves some by half a value
MEAN_ERROR = 0.05
# a channel is held against pairs of so many on either side of it, and against the nearest ones on each side
BESIDE, NEAR = 8, 4
# in fewer channels none has enough beside it
LEAST_CHANNELS = 2 * BESIDE
# low channels are those below this part of the others beside them
LOW_PART = 0.5
# rounding to whole values changes smaller deviations
LEAST_DEVIATION = 0.5


def stand_out(measured: Measured) -> Array:
    """Which channels lie far off the others: by each of several figures fewer than half.

    Those that never change stand out as well, and the others are held against one another alone.
    """
    are_out = measured.deviations == 0
    if not are_out.all():
        are_out[~are_out] = are_far(measured.of_channels(~are_out))
    named: Array = are_out & ~are_out.all()
    return named


def are_far(measured: Measured) -> Array:
    """Which channels, all of which change, lie far off the others, by mean, by deviation or by their ratio; or change
    much more than those beside them.

    Low ones only count if they lie far off those beside them as well: a band falls off at its edges.
    """
    usual = float(np.median(measured.deviations))
    far = have_other_ratio(measured)
    for values, error in ((measured.means, MEAN_ERROR), (measured.deviations, RATIO_ERROR)):
        counts = (values > np.median(values)) | are_below_neighbours(values)
        far = far | is_far(values, usual * max(error, 1 / math.sqrt(measured.spectra))) & counts
    for deviations in (measured.deviations, measured.within):
        far = far | are_above_neighbours(deviations, measured)
    return far


def are_below_neighbours(values: Array) -> Array:
    """Which values lie below a part of those on either side of them; all where that can't be told."""
    if len(values) < LEAST_CHANNELS or not (values > 0).all():
        return np.ones(len(values), bool)
    lower = np.minimum(*sides(values))
    # at the edges of the band there is no other side
    below: Array = values < LOW_PART * np.where(np.isnan(lower), 0, lower)
    return below


def have_other_ratio(measured: Measured) -> Array:
    """Which channels have a ratio of deviation to mean far off that of channels with about the same mean.

    It tells only where deviations follow the means over the band, so that ratios spread less by far, and where values
    aren't rounded too coarsely.
    """
    ratios = measured.deviations / np.where(measured.means > 0, measured.means, np.inf)
    if not (measured.means > 0).all() or TIMES_EVEN * spread(ratios) > spread(measured.deviations):
        return np.zeros(len(ratios), bool)
    error = max(RATIO_ERROR, 1 / math.sqrt(measured.spectra))
    other: Array = is_far(ratios / usual_ratios(measured), error) & (measured.deviations >= 1)
    return other


def spread(values: Array) -> float:
    """By what part of their median values usually lie off it."""
    return usual_distance(values) / float(np.median(values))


def usual_ratios(measured: Measured) -> Array:
    """For each channel the median ratio of deviation to mean of those that have about the same mean."""
    order = np.argsort(measured.means)
    ratios = (measured.deviations / measured.means)[order]
    count = min(ABOUT_SAME, len(ratios))
    firsts = np.clip(np.arange(len(ratios)) - count // 2, 0, len(ratios) - count)
    usual = np.empty(len(ratios))
    usual[order] = np.median(ratios[firsts[:, None] + np.arange(count)], axis=1)
    return usual


def are_above_neighbours(deviations: Array, measured: Measured) -> Array:
    """Which channels have a deviation far above that of the channels beside them, as tones that come and go give.

    A band that is rolled off at its edges, or tilted, has no such channels. Those whose mean is higher by the same
    factor have another gain, and don't count.
    """
    if len(deviations) < LEAST_CHANNELS or not (deviations > 0).all():
        return np.zeros(len(deviations), bool)
    above = above_neighbours(np.log(deviations))
    if (measured.means > 0).all():
        above = np.minimum(above, above - above_neighbours(np.log(measured.means)))
    error = max(RATIO_ERROR, 1 / math.sqrt(measured.spectra))
    far: Array = above - np.median(above) > STANDS_OUT * max(usual_distance(above), error)
    return far & (deviations >= LEAST_DEVIATION)


def above_neighbours(values: Array) -> Array:
    """By how much each value lies above the course of those beside it, whatever a few of them do.

    That course is no lower than the nearer values on either side: at the shoulders of a band it falls to one side.
    """
    left, right = sides(values)
    course = np.fmax(np.fmax(left, right), np.nanmedian(pairs(values), axis=0))
    for ordered, usual in ((values, course), (values[::-1], course[::-1])):
        for place in range(NEAR // 2):
            near, far = (np.median(ordered[place + first:][:NEAR]) for first in (1, 1 + NEAR))
            usual[place] = max(near, 2 * near - far)
    above: Array = values - course
    return above


def sides(values: Array) -> tuple[Array, Array]:
    """The medians of the nearest values on the left and on the right of each; NaN where there are too few."""
    padded = np.pad(values, NEAR, constant_values=np.nan)
    windows = np.lib.stride_tricks.sliding_window_view(padded, NEAR)
    with warnings.catch_warnings():
        # where there are no values
        warnings.simplefilter("ignore", RuntimeWarning)
        medians = np.nanmedian(windows, axis=1)
    medians[np.isnan(windows).sum(axis=1) > NEAR // 2] = np.nan
    return medians[:len(values)], medians[NEAR + 1:]


def pairs(values: Array) -> Array:
    """For each value the means of pairs on both sides of it, in which even slopes cancel; NaN where there are none."""
    padded = np.pad(values, BESIDE, constant_values=np.nan)
    places = BESIDE + np.arange(len(values))
    means: Array = np.array([padded[places - lag] + padded[places + lag] for lag in range(1, BESIDE + 1)]) / 2
    means[:, [0, -1]] = values[[0, -1]]
    return means


def file_numbers(head: Header, are_named: Array) -> Array:
    """The numbers of channels, which stand the highest first, in the order of the file."""
    return np.flatnonzero(are_named if head.is_falling else are_named[::-1])
