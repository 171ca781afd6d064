"""Which candidates are strong in a part of the band alone, as interference is: by the samples that their boxes add."""
from __future__ import annotations

import os
from collections.abc import Sequence

import numpy as np

from .arrays import Array
from .headers import Header, header
from .manifest import Hunt, SearchPass
from .paths import delay_paths

# how many parts the band has, of which a quarter, the strongest ones, are left out; and a pulse that fills the band
# keeps at least such a part of its S/N in the others, also with noise
PARTS, LEFT_OUT, LEAST_PART = 16, 4, 0.25


def are_narrow(folder: str, hunt: Hunt, table: Array) -> Array:
    """Which candidates of a table have nearly all their strength in a quarter of the band."""
    found = np.zeros(len(table), bool)
    for search in hunt.searches:
        rows = np.flatnonzero(table["search"] == search.name)
        path = os.path.join(folder, search.level)
        if len(rows) and os.path.exists(path):
            found[rows] = narrow_in_level(path, hunt, search, table[rows])
    return found


def narrow_in_level(path: str, hunt: Hunt, search: SearchPass, rows: Array) -> Array:
    """Which candidates of a pass are narrow."""
    head = header(path).without(hunt.mask)
    level = hunt.level(search)
    values = np.memmap(path, f"<u{head.bits // 8}", "r", head.size, (head.spectra, head.channels, head.polarisations))
    noise = search.mean, search.sd if level.deviation is None else level.deviation
    delays, places = np.unique(rows["delay"], return_inverse=True)
    entries = delay_paths(head.edges_khz, delays)
    return np.array([is_narrow(*strengths(values, head, entries[:, place], (int(row["end"]), int(row["width"])), noise))
                     for row, place in zip(rows, places)])


def strengths(values: Array, head: Header, entries: Array, box: tuple[int, int],
              noise: tuple[float, float]) -> tuple[Array, Array]:
    """What a box adds above the mean in each channel that is not masked, the highest first, and its variance."""
    end, width = box
    firsts, cells = end - width + 1 - entries[-1] + entries[:-1], np.diff(entries) + 1
    above, variances = np.zeros(head.channels), np.zeros(head.channels)
    for count in np.unique(cells):
        # how often the path sums of the box take each sample of a channel
        often = np.convolve(np.ones(count), np.ones(width))
        mine = np.flatnonzero(cells == count)
        times = firsts[mine, None] + np.arange(len(often))
        channels = mine if head.is_falling else head.channels - 1 - mine
        samples = values[times, channels[:, None]].sum(axis=2, dtype=np.float64)
        above[mine] = (samples - noise[0]) @ often
        variances[mine] = noise[1]**2 * (often**2).sum()
    return above[head.kept], variances[head.kept]


def is_narrow(above: Array, variances: Array) -> bool:
    """Whether so much above the mean in each channel, with so much noise, lies in a quarter of the band."""
    parts = np.array_split(np.arange(len(above)), min(PARTS, len(above)))
    sums = np.array([above[part].sum() for part in parts])
    squares = np.array([variances[part].sum() for part in parts])
    weakest = np.argsort(sums / np.sqrt(squares))[:max(1, len(parts) - LEFT_OUT)]
    rest = sums[weakest].sum() / np.sqrt(squares[weakest].sum())
    return bool(rest < LEAST_PART * sums.sum() / np.sqrt(squares.sum()))


def with_flag(flags: Array, are_flagged: Sequence[bool] | Array, name: str) -> Array:
    """Flags, with one more where it holds."""
    return np.array([f"{flag} {name}".strip() if more else flag for flag, more in zip(flags.tolist(), are_flagged)],
                    flags.dtype)
