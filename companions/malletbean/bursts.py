"""Bursts of interference in a part of the band, which levels of a hunt are freed of.

A burst in a sixteenth of the band may have a hundred times the deviation of its sum, and so gives lines at all delays:
millions of them. It is known by that strength in a level with spectra of about a millisecond, and there its values are
replaced by the mean. A dispersed pulse is as strong in most parts of the band, one after another, and is left alone.
"""
from __future__ import annotations

import math
import os
import sys
from collections.abc import Iterator, Sequence

import numpy as np

from .arrays import Array
from .drift import without_drift
from .headers import Header, header
from .hunt_plan import LEVEL_MEAN
from .manifest import Burst, Hunt, LevelFile, read_manifest

# in how many parts of the band bursts are looked for, and in boxes of up to how many spectra
PARTS, WIDEST = 16, 64
# a burst has so many deviations of its part; a pulse has so many in so many parts within its sweep of the band
BURST, PULSE, PULSE_PARTS = 12.0, 6.0, 8
# bursts are looked for in the level whose spectra are nearest to this, in seconds, so many spectra at a time
SPECTRUM, AT_A_TIME = 1e-3, 2**14


def level_for_bursts(hunt: Hunt) -> LevelFile:
    """The level in which bursts are looked for."""
    seconds = hunt.observation.tsamp
    levels = [level for level in hunt.levels if level.zero_dm]
    return min(levels, key=lambda level: abs(math.log(level.average * seconds / SPECTRUM)))


def opened(path: str, head: Header, mode: str) -> Array:
    """The values of a level: by spectrum, channel in the order of the file, and polarisation."""
    shape = (head.spectra, head.channels, head.polarisations)
    values: Array = np.memmap(path, f"<u{head.bits // 8}", mode, head.size, shape)  # type: ignore[call-overload]
    return values


def bursts_of(folder: str, hunt: Hunt, level: LevelFile) -> tuple[Burst, ...]:
    """The bursts that stand out in a level that was measured."""
    head = header(os.path.join(folder, level.path)).without(hunt.mask)
    values = opened(os.path.join(folder, level.path), head, "r")
    parts = [part for part in np.array_split(np.arange(head.channels), min(PARTS, head.channels)) if len(part)]
    series = np.array(list(part_series(values, head, level, parts)))
    found, are_hot = list[tuple[int, int, int, float]](), np.zeros(series.shape, bool)
    for number, one in enumerate(series):
        for begin in range(0, len(one), AT_A_TIME):
            piece = one[begin:begin + AT_A_TIME + WIDEST]
            are_hot[number, begin:begin + len(piece)] |= boxes(piece).max(axis=0) >= PULSE
            found += [(number, begin + first, begin + until, strength) for first, until, strength in strongest(piece)]
    sweep = int(head.delay(hunt.dm_high)) + WIDEST
    bursts = []
    for number, first, until, strength in found:
        near = are_hot[:, max(0, first - sweep):until + sweep].any(axis=1).sum()
        if near < min(PULSE_PARTS, (len(parts) + 1) // 2):
            channels = parts[number]
            bursts.append(Burst(first * head.seconds, until * head.seconds, int(channels[0]), int(channels[-1]) + 1,
                                round(strength, 1)))
    return tuple(sorted(bursts, key=lambda burst: burst.begin))


def part_series(values: Array, head: Header, level: LevelFile, parts: Sequence[Array]) -> Iterator[Array]:
    """The sum of each part of the band over time, in its deviations. A masked channel has the mean alone."""
    assert level.mean is not None and level.deviation is not None
    kept = np.setdiff1d(np.arange(head.channels), head.masked_in_file)
    for part in parts:
        mine = np.intersect1d(part, kept)
        if not len(mine):
            yield np.zeros(head.spectra)
            continue
        sums = np.concatenate([
            values[begin:begin + AT_A_TIME, part[0]:part[-1] + 1][:, mine - part[0]].sum(axis=(1, 2), dtype=np.float64)
            for begin in range(0, head.spectra, AT_A_TIME)])
        yield (sums - level.mean * len(mine)) / (level.deviation * np.sqrt(len(mine)))


def boxes(series: Array) -> Array:
    """The strength of boxes of 1, 2, 4, .. spectra that begin at each spectrum, in rows."""
    total: Array = np.zeros(len(series) + 1)
    total[1:] = series.cumsum()
    rows = np.full((WIDEST.bit_length(), len(series)), -np.inf)
    for place in range(WIDEST.bit_length()):
        width = 1 << place
        if width <= len(series):
            rows[place, :len(series) - width + 1] = (total[width:] - total[:-width]) / np.sqrt(width)
    return rows


def strongest(series: Array) -> Iterator[tuple[int, int, float]]:
    """The strongest box, then that of what is left, and so on: its first spectrum, the one behind it, its strength."""
    left = series.copy()
    while True:
        rows = boxes(left)
        place, first = np.unravel_index(int(rows.argmax()), rows.shape)
        if rows[place, first] < BURST:
            return
        begin, until = max(0, int(first) - 1), min(len(left), int(first) + (1 << int(place)) + 1)
        yield begin, until, float(rows[place, first])
        left[begin:until] = 0


def freed(folder: str, hunt: Hunt, level: LevelFile) -> None:
    """Frees a level of bursts, and if it was made without zero DM of the drift of the band."""
    quiet(folder, hunt, level)
    if not level.zero_dm:
        without_drift(folder, hunt, level)


def quiet(folder: str, hunt: Hunt, level: LevelFile) -> None:
    """Replaces the values of a level by the mean where there are bursts."""
    head = header(os.path.join(folder, level.path))
    values = opened(os.path.join(folder, level.path), head, "r+")
    for burst in hunt.bursts or ():
        first, until = int(burst.begin / head.seconds), int(np.ceil(burst.until / head.seconds))
        values[first:until, burst.first_channel:burst.stop_channel] = round(LEVEL_MEAN)
    values.flush()  # type: ignore[attr-defined]


def main(folder: str) -> None:
    """Frees all levels of a hunt of its bursts and drifts: a line of its commands."""
    hunt = read_manifest(folder)
    for level in hunt.levels:
        freed(folder, hunt, level)


if __name__ == "__main__":
    main(sys.argv[1])
