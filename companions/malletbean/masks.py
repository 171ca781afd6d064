"""Masks of channels, in the words of `psr_mask`: channels are counted from 0 in the order of the file."""
from __future__ import annotations

import re

import numpy as np

from .arrays import Array
from .refusal import MASK, Refusal

# a value that is so many deviations off the median of all lies far off
STANDS_OUT = 6
# deviations of a normal distribution in the median of the distances from its median
MEDIAN_DISTANCE = 0.6745
ITEM = re.compile(r"([0-9]{1,9})(?:-([0-9]{1,9}))?")


def mask_text(channels: Array) -> str:
    """Channels that rise as single numbers and ranges, parted by commas, or `none`."""
    runs = np.split(channels, np.flatnonzero(np.diff(channels) > 1) + 1)
    items = [str(run[0]) if len(run) == 1 else f"{run[0]}-{run[-1]}" for run in runs if len(run)]
    return ",".join(items) or "none"


def masked_channels(text: str, channels: int) -> Array:
    """The channels of so many that a mask names."""
    is_masked = np.zeros(channels, bool)
    for item in [] if text == "none" else text.split(","):
        match = ITEM.fullmatch(item)
        if match is None:
            raise Refusal(MASK, f"mask refused: {text} is no mask like 3,17-19, or none")
        first, last = sorted((int(match[1]), int(match[2] or match[1])))
        if last >= channels:
            raise Refusal(MASK, f"mask refused: there are {channels} channels, and it names {last}")
        is_masked[first:last + 1] = True
    if is_masked.all():
        raise Refusal(MASK, "mask refused: it leaves no channel")
    return np.flatnonzero(is_masked)


def usual_distance(values: Array) -> float:
    """How far off their median values usually lie, as a deviation, whatever a few of them do."""
    return float(np.median(np.abs(values - np.median(values)))) / MEDIAN_DISTANCE


def is_far(values: Array, error: float) -> Array:
    """Which values lie far off their median, by the usual distance from it, but no less than the error of each."""
    far: Array = np.abs(values - np.median(values)) > STANDS_OUT * max(usual_distance(values), error)
    return far
