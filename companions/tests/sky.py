"""Observations of a level band with bursts by the exact dispersion law and interference, and a plain search of them."""
from __future__ import annotations

from collections.abc import Sequence
from dataclasses import dataclass
from pathlib import Path

import numpy as np

from malletbean.headers import Header, header
from malletbean.paths import delay_paths
from malletbean.samples import Samples

HEADER = """HDR_VERSION 1.0
HDR_SIZE 4096
SOURCE {source}
TELESCOPE Effelsberg
NCHAN {channels}
NBIT 8
NPOL 1
NDIM 1
TSAMP {tsamp}
FREQ {centre}
BW {width}
UTC_START 2024-01-02-03:04:05
OBS_OFFSET 0
"""
MEAN, DEVIATION = 64, 8
# into how many parts a channel is cut to sweep a burst within it
PARTS = 16


@dataclass(frozen=True)
class Burst:
    """A burst: when its middle passes the top of the band, and its width, in seconds, and the S/N that it can have."""

    time: float
    dm: float
    width: float
    snr: float


@dataclass(frozen=True)
class Band:
    """A receiver: frequencies in MHz, the time of a spectrum in microseconds."""

    channels: int = 64
    centre: float = 1400
    width: float = -300
    tsamp: float = 256

    @property
    def seconds(self) -> float:
        """The time of a spectrum."""
        return self.tsamp * 1e-6

    @property
    def ends(self) -> tuple[float, float]:
        """The top and the foot of the band."""
        return self.centre + abs(self.width) / 2, self.centre - abs(self.width) / 2

    def delay(self, dm: float) -> float:
        """The delay across the band in seconds."""
        top, foot = self.ends
        return dm / 2.41e-4 * (foot**-2 - top**-2)


def shape_of(band: Band, burst: Burst) -> tuple[np.ndarray, np.ndarray]:
    """What part of each sample a burst of height 1 fills, a row of each channel; and the first spectrum of each row."""
    top, foot = band.ends
    places = (np.arange(band.channels * PARTS) + 0.5) / (band.channels * PARTS)
    frequencies = (top - places * (top - foot)).reshape(band.channels, PARTS)
    later = band.delay(burst.dm) * (frequencies**-2 - top**-2) / (foot**-2 - top**-2)
    width = burst.width / band.seconds
    begins = (burst.time + later) / band.seconds - width / 2
    first = np.floor(begins[:, 0]).astype(int)
    count = int(np.ceil((begins[:, -1] - begins[:, 0]).max() + width)) + 2
    bounds = first[:, None] + np.arange(count + 1)
    filled = sum(np.clip(bounds - part[:, None], 0, width) for part in begins.T) / PARTS
    return np.diff(filled, axis=1), first


def make_sky(path: Path, band: Band, spectra: int, bursts: Sequence[Burst] = (), impulses: Sequence[tuple] = (),
             seed: int = 1, pulsar: tuple[float, Burst] | None = None) -> None:
    """Makes a file. Impulses are (spectrum, spectra, deviations, first channel, channels) at the same time in each.

    A pulsar repeats its burst at a period in seconds.
    """
    values = np.random.default_rng(seed).normal(MEAN, DEVIATION, (band.channels, spectra)).astype(np.float32)
    every = list(bursts)
    if pulsar is not None:
        period, one = pulsar
        times = np.arange(one.time, spectra * band.seconds, period)
        every += [Burst(time, one.dm, one.width, one.snr) for time in times]
    for burst in every:
        shape, first = shape_of(band, burst)
        shape *= burst.snr * DEVIATION / np.sqrt((shape**2).sum())
        for channel, (row, begin) in enumerate(zip(shape, first)):
            low, high = max(begin, 0), min(begin + len(row), spectra)
            if low < high:
                values[channel, low:high] += row[low - begin:high - begin]
    for begin, count, height, first_channel, channels in impulses:
        values[first_channel:first_channel + channels, begin:begin + count] += height * DEVIATION
    write_file(path, band, values)


def write_file(path: Path, band: Band, values: np.ndarray) -> None:
    """Writes values, a row of each channel from the highest down, as they are nearest to 0 to 255."""
    text = HEADER.format(source="J0000+0000", channels=band.channels, tsamp=band.tsamp, centre=band.centre,
                         width=band.width)
    ordered = np.clip(np.rint(values), 0, 255).astype(np.uint8).T
    if band.width > 0:
        ordered = ordered[:, ::-1]
    path.write_bytes(text.encode().ljust(4096, b"\0") + ordered.tobytes())


def average_sky(path: Path, out: Path, band: Band, times: int) -> Band:
    """Writes the same sky with so many spectra averaged into one, and answers its band."""
    samples = Samples([str(path)])
    count = samples.spectra // times
    values = samples.read(0, count * times).astype(float).reshape(count, times, band.channels).sum(axis=1).T
    values = MEAN + (values - MEAN * times) / np.sqrt(times) + np.random.default_rng(times).random(values.shape) - 0.5
    later = Band(band.channels, band.centre, band.width, band.tsamp * times)
    write_file(out, later, values)
    return later


def search(path: str, snr: float, widths: int, max_delay: int, min_delay: int = 0, mean: float = MEAN,
           deviation: float = DEVIATION) -> str:
    """The text of a search, as psr_search writes it."""
    samples = Samples([path])
    head, spectra = samples.header, samples.spectra
    total = np.pad(samples.read(0, spectra).T.astype(np.int64).cumsum(axis=1), ((0, 0), (1, 0)))
    lines = []
    for delay in range(min_delay, max_delay + 1):
        lines += lines_of_delay(head, total, delay, (snr, mean, deviation), widths)
    lines.sort()
    text = "".join(f"PULSE {end} {delay} {head.dm(delay):.3f} {width} {total} {cells}\n"
                   for end, delay, width, total, cells in lines)
    return f"{text}END {len(lines)} 0 {spectra}\n"


def lines_of_delay(head: Header, total: np.ndarray, delay: int, noise: tuple[float, float, float],
                   widths: int) -> list[tuple[int, int, int, int, int]]:
    """The boxes of a delay that stand out."""
    snr, mean, deviation = noise
    entries = delay_paths(head.edges_khz, np.array([delay]))[:, 0]
    count = total.shape[1] - 1 - delay
    sums = np.zeros(max(count, 0), np.int64)
    for channel, (enters, leaves) in enumerate(zip(entries, entries[1:])):
        sums += total[channel, leaves + 1:leaves + 1 + count] - total[channel, enters:enters + count]
    boxes = np.concatenate(([0], sums.cumsum()))
    lines = []
    width = 1
    while width <= widths and width <= count:
        found = boxes[width:] - boxes[:-width]
        cells = width * (head.channels + delay)
        for place in np.flatnonzero(found > cells * mean + snr * deviation * cells**0.5).tolist():
            lines.append((place + width - 1 + delay, delay, width, int(found[place]), cells))
        width *= 2
    return lines


def header_of(path: Path) -> Header:
    """The header of a file."""
    return header(str(path))
