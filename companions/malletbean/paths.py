"""Paths of delays over a band, how path sums share samples, and so the true noise of their sums."""
from __future__ import annotations

from collections.abc import Sequence

import numpy as np

from .arrays import Array

# the greatest delay that a search takes, in spectra
GREATEST_DELAY = 8192


def split(high: int, middle: int, low: int, delay: int) -> int:
    """Of a delay between two edges of the band, the part above a third, rounded to whole spectra, halves up."""
    part = (high**2 - middle**2) * low**2
    whole = (high**2 - low**2) * middle**2
    return (2 * delay * part + whole) // (2 * whole)


def delay_paths(edges_khz: Sequence[int], delays: Array) -> Array:
    """For each edge of the band, from the top down, and each delay: how many spectra after the top it is passed."""
    channels = len(edges_khz) - 1
    entries = np.zeros((channels + 1, len(delays)), np.int32)
    entries[channels] = delays
    nodes = [(0, channels)]
    while nodes:
        high, low = nodes.pop()
        if low - high < 2:
            continue
        middle = high + (low - high) // 2
        parts = entries[low] - entries[high]
        edges = edges_khz[high], edges_khz[middle], edges_khz[low]
        least, most = int(parts.min(initial=0)), int(parts.max(initial=0))
        splits = np.array([split(*edges, delay) for delay in range(least, most + 1)], np.int32)
        entries[middle] = entries[high] + splits[parts - least]
        nodes += [(high, middle), (middle, low)]
    return entries


def path_cells(edges_khz: Sequence[int], delays: Array) -> Array:
    """How many samples a path sum of each delay takes in each channel, the highest channel first."""
    return np.diff(delay_paths(edges_khz, delays), axis=0) + 1


def shared_cells(cells: Array) -> Array:
    """Of the cells per channel of one delay: how many samples two of its path sums share that end 0, 1, .. apart."""
    channels_from = np.bincount(cells)[::-1].cumsum()[::-1]
    return channels_from[1:][::-1].cumsum()[::-1]


def box_noise_cells(shared: Array, width: int) -> int:
    """How many independent samples have the noise of a box of `width` path sums that share samples so."""
    lags = np.arange(1, min(width, len(shared)))
    return int(width * shared[0] + 2 * ((width - lags) * shared[lags]).sum())


def fold_shifts(rows: int, trials: Array) -> Array:
    """How far each trial (first axis) shifts each of `rows` rows (second axis), in spectra."""
    halvings = rows.bit_length() - 1
    numbers = np.arange(rows)
    shifts = np.zeros((len(trials), rows), np.int64)
    for halving in range(halvings):
        is_shifted = numbers >> (halvings - 1 - halving) & 1
        shifts += (trials[:, None] // 2**halving + 1) // 2 * is_shifted
    return shifts


def fold_places(period: Array, rows: int, trial: Array, phase: Array) -> Array:
    """Of folds of `rows` rows: which path sums of their delay they add, one in each row, counted from the first."""
    shifted = (phase[:, None] + fold_shifts(rows, trial)) % period[:, None]
    places: Array = np.arange(rows) * period[:, None] + shifted
    return places


def fold_noise_cells(shared: Array, places: Array) -> Array:
    """How many independent samples have the noise of folds that add these path sums (rows along the second axis).

    `shared` has a line for each fold; from its last entry on, which is 0, path sums share nothing.
    """
    lines = np.arange(len(places))[:, None]
    total = places.shape[1] * shared[:, 0]
    for apart in range(1, places.shape[1]):
        lags = np.minimum(places[:, apart:] - places[:, :-apart], shared.shape[1] - 1)
        if lags.min(initial=shared.shape[1]) >= shared.shape[1] - 1:
            break
        total = total + 2 * shared[lines, lags].sum(axis=1)
    return total
