"""The candidates of a text by the header of its observation: signal-to-noise ratios and times."""
from __future__ import annotations

from collections.abc import Iterator

import numpy as np

from .arrays import Array
from .headers import Header
from .paths import box_noise_cells, fold_noise_cells, fold_places, path_cells, shared_cells
from .texts import Found, refused

# how many values of folds, and how many delays, are worked on at a time
VALUES_AT_A_TIME = 2**22
DELAYS_AT_A_TIME = 256


def check_fits(path: str, found: Found, head: Header, mean: float, deviation: float) -> None:
    """Refuses a text whose lines say other cells or dispersion measures than the header makes, or ratios below 0."""
    for lines, counted in ((found.pulses, found.pulses["width"]), (found.folds, found.folds["rows"])):
        delays, firsts, places = np.unique(lines["delay"], return_index=True, return_inverse=True)
        if (lines["cells"] != counted.astype(np.int64) * cells_by_delay(head, delays)[places]).any():
            raise refused(path, "its CELLS are not those of this header: does it belong to another file or mask?")
        if any(head.dm(int(delay)) != lines["dm"][first] for delay, first in zip(delays, firsts)):
            raise refused(path, "its DM are not those of this header: does it belong to another file?")
        if (printed_ratio(lines, mean, deviation) < 0).any():
            raise refused(path, "some of its ratios are below 0: MEAN and SD are not those of its search")


def printed_ratio(lines: Array, mean: float, deviation: float) -> Array:
    """The ratio by which the search judges: all samples of a sum are taken to be independent."""
    return true_ratio(lines, lines["cells"], mean, deviation)


def true_ratio(lines: Array, noise_cells: Array, mean: float, deviation: float) -> Array:
    """The ratio to the true noise of the sums, which count the samples that their path sums share several times."""
    ratios: Array = (lines["sum"] - lines["cells"] * mean) / (deviation * np.sqrt(noise_cells))
    return ratios


def pulse_noise_cells(pulses: Array, head: Header) -> Array:
    """For each PULSE line: how many independent samples have the noise of its box."""
    delays = np.unique(pulses["delay"])
    widths = np.unique(pulses["width"])
    table = np.empty((len(delays), len(widths)), np.int64)
    for row, shared in enumerate(shared_by_delay(head, delays)):
        table[row] = [box_noise_cells(shared, int(width)) for width in widths]
    return table[np.searchsorted(delays, pulses["delay"]), np.searchsorted(widths, pulses["width"])]


def fold_noise(folds: Array, head: Header) -> Array:
    """For each FOLD line: how many independent samples have the noise of its fold."""
    delays = np.unique(folds["delay"])
    shares = shared_by_delay(head, delays)
    longest = max((len(shared) for shared in shares), default=0)
    table = np.array([np.pad(shared, (0, longest + 1 - len(shared))) for shared in shares])
    noise = np.empty(len(folds), np.int64)
    for rows in np.unique(folds["rows"]):
        those = np.flatnonzero(folds["rows"] == rows)
        for part in np.array_split(those, len(those) * int(rows) // VALUES_AT_A_TIME + 1):
            some = folds[part]
            places = fold_places(some["period"].astype(np.int64), int(rows), some["trial"], some["phase"])
            noise[part] = fold_noise_cells(table[np.searchsorted(delays, some["delay"])], places)
    return noise


def cells_by_delay(head: Header, delays: Array) -> Array:
    """For each delay how many samples its path sums add, in channels that are not masked."""
    if not head.masked:
        return head.channels + delays.astype(np.int64)
    return np.concatenate([cells.sum(axis=0) for cells in kept_cells(head, delays)])


def kept_cells(head: Header, delays: Array) -> Iterator[Array]:
    """For some delays at a time how many samples their path sums take in each channel that is not masked."""
    for part in np.array_split(delays, len(delays) // DELAYS_AT_A_TIME + 1):
        yield path_cells(head.edges_khz, part)[head.kept]


def shared_by_delay(head: Header, delays: Array) -> list[Array]:
    """For each delay how many samples two of its path sums share, by how far apart they end."""
    return [shared_cells(cells) for part in kept_cells(head, delays) for cells in part.T]


def top_spectra(pulses: Array) -> Array:
    """The spectrum at which each pulse leaves the top of the band."""
    spectra: Array = pulses["end"] - pulses["delay"]
    return spectra


def utc(spectra: Array, head: Header) -> Array:
    """The time of these spectra, counted from the first one of the file that has the header."""
    return head.start + (spectra * head.sample_ns).astype("timedelta64[ns]")


def pulse_table(pulses: Array, head: Header, mean: float, deviation: float) -> Array:
    """PULSE lines with both ratios, the times at the top and the foot of the band in s, and UTC at the top."""
    tops = top_spectra(pulses)
    columns = {
        "ratio": printed_ratio(pulses, mean, deviation),
        "snr": true_ratio(pulses, pulse_noise_cells(pulses, head), mean, deviation),
        "time_top": tops * head.seconds,
        "time_foot": pulses["end"] * head.seconds,
        "utc_top": utc(tops, head),
    }
    return with_columns(pulses, columns)


def fold_table(folds: Array, head: Header, mean: float, deviation: float) -> Array:
    """FOLD lines with both ratios and the period in s."""
    columns = {
        "ratio": printed_ratio(folds, mean, deviation),
        "snr": true_ratio(folds, fold_noise(folds, head), mean, deviation),
        "period_s": (folds["period"] + folds["trial"] / (folds["rows"] - 1)) * head.seconds,
    }
    return with_columns(folds, columns)


def with_columns(lines: Array, columns: dict[str, Array]) -> Array:
    """The lines with further columns behind their own."""
    table = np.empty(len(lines), lines.dtype.descr + [(name, column.dtype.str) for name, column in columns.items()])
    for name in lines.dtype.names or ():
        table[name] = lines[name]
    for name, column in columns.items():
        table[name] = column
    return table


def are_near_periods(folds: Array, one: np.void) -> Array:
    """Which folds drift by less than a turn against a fold over its rows."""
    periods = folds["period"] + folds["trial"] / (folds["rows"] - 1)
    period = one["period"] + one["trial"] / (one["rows"] - 1)
    are_near: Array = np.abs(periods - period) * one["rows"] < period
    return are_near


def strongest(folds: Array, ratio: Array, count: int) -> tuple[Array, Array]:
    """The strongest line of each of the `count` strongest groups of folds of one period, and how many lines each has.

    The strongest line that is left takes all of its period out, and so on.
    """
    left = np.argsort(-ratio, kind="stable")
    best: list[int] = []
    sizes: list[int] = []
    while len(left) and len(best) < count:
        joined = are_near_periods(folds[left], folds[left[0]])
        best.append(int(left[0]))
        sizes.append(int(joined.sum()))
        left = left[~joined]
    return np.array(best, np.int64), np.array(sizes, np.int64)
