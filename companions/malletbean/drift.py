"""Drifts of the whole band, and bursts of interference in it, which are taken out of a level with its mean of each
spectrum.

A zero-DM filter takes both out, and with them pulses whose sweep of the band is not above a few of their widths. So one
level of a hunt is made without it. There the sum of each spectrum over the band is followed by a polynomial over a
quarter of a stretch, which a pulse is much shorter than, and this is taken out. Spectra that are still far off are
replaced by the mean.
"""
from __future__ import annotations

import os
from collections.abc import Iterator

import numpy as np
from scipy.ndimage import median_filter  # type: ignore[import]
from scipy.signal import savgol_filter  # type: ignore[import]

from .arrays import Array
from .headers import Header, header, with_value
from .hunt_plan import LEVEL_DEVIATION, LEVEL_MEAN, LEVEL_MOST
from .manifest import Hunt, LevelFile
from .masks import usual_distance
from .output import whole_file
from .refusal import bytes_of

# a part of a stretch over which the band is followed, the order of the polynomial, and how often spectra that are far
# off it are left out and it is followed again
PARTS, ORDER, ROUNDS = 4, 2, 4
# a median over such a part of this span is what it begins with
MEDIAN_PARTS = 4
# from so many deviations on a spectrum is interference, if the hunt wasn't given another number
FAR = 5.0
# the keyword of the header of a level that was freed of its drift
MARK = "BAND_DRIFT"
# how many values are worked on at a time: few enough for the caches
AT_A_TIME = 2**18


def without_drift(folder: str, hunt: Hunt, level: LevelFile) -> None:
    """Takes the drift of the whole band and its bursts out of a level, if that was not done before."""
    path = os.path.join(folder, level.path)
    head = header(path).without(hunt.mask)
    if MARK in head.fields:
        return
    values = np.memmap(path, np.uint8, "r", head.size, (head.spectra, head.channels, head.polarisations))
    drift, are_far = followed(sums_above(values, head), level.stretch, hunt.clip or FAR)
    text = bytes_of(path, head.size)
    marked = with_value(text.rstrip(b"\0"), MARK, "removed").ljust(head.size, b"\0")
    with whole_file(path) as beside, open(beside, "wb") as file:
        file.write(marked if len(marked) == head.size else text)
        for piece in levelled(values, head, drift, are_far):
            file.write(piece)


def pieces_of(head: Header) -> Iterator[slice]:
    """The spectra of a level in pieces."""
    count = max(1, AT_A_TIME // head.spectrum_bytes)
    yield from (slice(begin, min(head.spectra, begin + count)) for begin in range(0, head.spectra, count))


def are_kept(head: Header) -> Array:
    """Which values of a spectrum are in channels that are not masked."""
    kept = np.ones((head.channels, head.polarisations), bool)
    kept[head.masked_in_file] = False
    return kept.reshape(-1)


def sums_above(values: Array, head: Header) -> Array:
    """By how many deviations of noise the sum of each spectrum, in channels that are not masked, is above its mean."""
    kept = are_kept(head)
    left_out = head.masked_in_file
    sums = np.concatenate([
        values[piece].sum(axis=(1, 2), dtype=np.int64) - values[piece][:, left_out].sum(axis=(1, 2), dtype=np.int64)
        for piece in pieces_of(head)])
    above: Array = (sums - LEVEL_MEAN * kept.sum()) / deviation_of(kept)
    return above


def deviation_of(kept: Array) -> float:
    """The deviation of a sum over the values that are kept."""
    return float(LEVEL_DEVIATION * np.sqrt(kept.sum()))


def followed(sums: Array, stretch: int, far: float) -> tuple[Array, Array]:
    """The drift of sums that were levelled in stretches, and which of them are farther than so many deviations off it,
    or beside such a one."""
    drift, are_far = np.zeros(len(sums)), np.zeros(len(sums), bool)
    begins = range(0, max(1, len(sums) - stretch + 1), stretch)
    for begin, until in zip(begins, [*begins[1:], len(sums)]):
        # a stretch begins with another gain, so nothing is followed across its ends
        piece = sums[begin:until]
        span = min(stretch // PARTS, len(piece) - 1) | 1
        drift[begin:until], are_far[begin:until] = followed_within(piece, span, far)
    are_beside = are_far.copy()
    are_beside[1:] |= are_far[:-1]
    are_beside[:-1] |= are_far[1:]
    return drift, are_beside


def followed_within(sums: Array, span: int, far: float) -> tuple[Array, Array]:
    """The drift of sums, by a polynomial over so many of them, and which are far off it."""
    if span <= ORDER or span > len(sums):
        drift = np.full(len(sums), np.median(sums))
        return drift, np.abs(sums - drift) > far * max(1.0, usual_distance(sums - drift))
    drift = median_filter(sums, max(3, span // MEDIAN_PARTS), mode="nearest")
    for _ in range(ROUNDS):
        left = sums - drift
        are_far = np.abs(left) > far * max(1.0, usual_distance(left))
        drift = savgol_filter(np.where(are_far, drift, sums), span, ORDER, mode="interp")
    left = sums - drift
    return drift, np.abs(left) > far * max(1.0, usual_distance(left))


def levelled(values: Array, head: Header, drift: Array, are_far: Array) -> Iterator[bytes]:
    """The values of a level without the drift, in pieces; those of spectra that are far off become the mean.

    What is taken out of a spectrum is a whole number, spread evenly over the values that are kept.
    """
    kept = are_kept(head)
    before, count = np.append(0, kept.cumsum()).astype(np.int32), int(kept.sum())
    for piece in pieces_of(head):
        level = values[piece].reshape(-1, len(kept)).astype(np.int32)
        taken = np.rint(drift[piece] * deviation_of(kept)).astype(np.int32)
        level -= np.diff(taken[:, None] * before // np.int32(count), axis=1)
        level[are_far[piece]] = round(LEVEL_MEAN)
        yield level.clip(0, LEVEL_MOST, out=level).astype(np.uint8).tobytes()
