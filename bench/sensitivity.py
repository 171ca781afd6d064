#!/usr/bin/python3
"""What part of a pulse's strength a search finds.

Pulses follow the exact dispersion law, are swept within each channel, last some spectra at each frequency (a top hat),
begin anywhere within a spectrum, and have any delay within half a spectrum of a whole one. The strongest sum that a
search takes of them, over its delays and boxes, each by its true noise, is divided by the greatest S/N that any
weighted sum of the samples can have, which is that of weights like the pulse itself. Then the same with noise: pulses
whose greatest S/N is 15, and how far off the delay of the strongest sum is. Then one narrow pulse as it is found where
neighbouring channels were added, or where spectra are shorter. Last, pulses of a long delay as they are found where
neighbouring spectra were averaged.
"""
from __future__ import annotations

import os
import sys
from collections.abc import Callable
from dataclasses import dataclass, replace

import numpy as np

sys.path.insert(0, os.path.join(os.path.dirname(os.path.abspath(__file__)), "..", "companions"))

from malletbean.headers import edge_khz  # noqa: E402
from malletbean.paths import box_noise_cells, delay_paths, shared_cells  # noqa: E402

BOXES = (1, 2, 4, 8, 16, 32)
WIDTHS = (0.5, 1, 2, 4, 8, 16)
BEGINNINGS = 8
NOISE_TRIALS = 2
SNR = 15.0
# a band as it can be recorded: how many channels it has, and how many spectra stand for one
FORMS = ((1024, 1), (512, 1), (256, 1), (1024, 2), (1024, 4))
NARROW = ((100, 0.5), (100, 1), (400, 0.5), (400, 1))
# a long delay, how many spectra are averaged into one, and channels and widths
LONG_DELAY = 12000
AVERAGED = (1, 2, 4, 8)
LONG = ((256, 1), (1024, 1), (1024, 4), (1024, 16), (4096, 1), (4096, 4), (4096, 16))
# into how many parts a channel is cut to sweep a pulse within it
PARTS = 64


@dataclass(frozen=True)
class Receiver:
    """A band in MHz, and the delays in spectra that are tried."""

    name: str
    channels: int
    centre: float
    width: float
    delays: tuple[int, ...]

    @property
    def edges_khz(self) -> tuple[int, ...]:
        """The edges as a search takes them, from the top of the band down."""
        hertz = int(self.centre * 1e6), int(self.width * 1e6)
        return tuple(edge_khz(*hertz, self.channels, number) for number in range(self.channels + 1))


RECEIVERS = (
    Receiver("96 channels, 1230 to 1518 MHz", 96, 1374, 288, (40, 160, 640)),
    Receiver("512 channels, 1210 to 1510 MHz", 512, 1360, 300, (100, 400, 1600)),
    Receiver("1024 channels, 1182 to 1582 MHz", 1024, 1382, 400, (100, 400, 1600)),
    Receiver("1024 channels, 400 to 800 MHz", 1024, 600, 400, (100, 400, 1600)),
)


@dataclass(frozen=True)
class Searched:
    """What a search of one receiver needs around one delay: its delays, paths, and the noise of its boxes."""

    delays: np.ndarray
    entries: np.ndarray
    noise: np.ndarray


def searched(receiver: Receiver, delay: int, reach: int) -> Searched:
    """The delays no farther than `reach` off one, their paths, and the noise of each box."""
    delays = np.arange(max(0, delay - reach), delay + reach + 1)
    entries = delay_paths(receiver.edges_khz, delays)
    shares = [shared_cells(cells) for cells in (np.diff(entries, axis=0) + 1).T]
    noise = np.sqrt([[box_noise_cells(shared, box) for box in BOXES] for shared in shares])
    return Searched(delays, entries, noise)


def arrivals(receiver: Receiver, delay: float) -> np.ndarray:
    """How long after the top of the band the parts of each channel (second axis) are reached, in spectra."""
    top, foot = receiver.centre + receiver.width / 2, receiver.centre - receiver.width / 2
    places = (np.arange(receiver.channels * PARTS) + 0.5) / (receiver.channels * PARTS)
    frequencies = (top - places * receiver.width).reshape(receiver.channels, PARTS)
    return delay * (frequencies**-2 - top**-2) / (foot**-2 - top**-2)


def pulse(reached: np.ndarray, width: float, begin: float, margin: int) -> tuple[np.ndarray, np.ndarray]:
    """The samples of a pulse, a row of each channel, and the spectrum with which each row begins."""
    begins = reached + begin
    first = np.floor(begins[:, 0]).astype(np.int64) - margin
    length = int(np.ceil(begins[:, -1] - begins[:, 0]).max() + np.ceil(width)) + 2 + 2 * margin
    bounds = first[:, None] + np.arange(length + 1)
    reached_by = np.zeros(bounds.shape)
    for part in begins.T:
        reached_by += np.clip(bounds - part[:, None], 0, width)
    return np.diff(reached_by, axis=1) / PARTS, first


def ratios(samples: np.ndarray, first: np.ndarray, search: Searched, margin: int) -> np.ndarray:
    """The greatest S/N of each delay (first axis) and box (second axis), where samples have a deviation of 1."""
    total = np.pad(samples.cumsum(axis=1), ((0, 0), (1, 0)))
    channel = np.arange(len(samples))[:, None]
    begins = np.arange(-margin - max(BOXES), margin + 1) + int(first[0]) + margin
    greatest = np.empty(search.noise.shape)
    for number, entries in enumerate(search.entries.T):
        enters = np.clip(begins + entries[:-1, None] - first[:, None], 0, samples.shape[1])
        leaves = np.clip(begins + entries[1:, None] + 1 - first[:, None], 0, samples.shape[1])
        sums = (total[channel, leaves] - total[channel, enters]).sum(axis=0).cumsum()
        sums = np.concatenate(([0], sums))
        for place, box in enumerate(BOXES):
            greatest[number, place] = (sums[box:] - sums[:-box]).max() / search.noise[number, place]
    return greatest


@dataclass(frozen=True)
class Result:
    """What part is found, and how many spectra the delay is off, of each pulse without noise and with it."""

    parts: np.ndarray
    misses: np.ndarray
    noisy_parts: np.ndarray
    noisy_misses: np.ndarray


def tried(receiver: Receiver, delay: int, width: float, generator: np.random.Generator) -> Result:
    """Pulses of one receiver, delay and width."""
    reach = int(np.ceil(width)) + 4
    margin = reach + int(np.ceil(width)) + 2
    search = searched(receiver, delay, reach)
    plain, noisy = [], []
    for begin in (np.arange(BEGINNINGS) + 0.5) / BEGINNINGS:
        true_delay = delay + generator.uniform(-0.5, 0.5)
        samples, first = pulse(arrivals(receiver, true_delay), width, begin, margin)
        samples /= np.sqrt((samples**2).sum())
        found = ratios(samples, first, search, margin)
        plain.append((found.max(), miss(found, search, true_delay)))
        for _ in range(NOISE_TRIALS):
            found = ratios(samples + generator.normal(scale=1 / SNR, size=samples.shape), first, search, margin)
            noisy.append((found.max(), miss(found, search, true_delay)))
    return Result(*np.array(plain).T, *np.array(noisy).T)


def miss(found: np.ndarray, search: Searched, true_delay: float) -> float:
    """How many spectra the delay of the strongest sum is off."""
    return abs(float(search.delays[found.max(axis=1).argmax()]) - true_delay)


def strength(form: tuple[int, float], delay: int, width: float,
             generator: np.random.Generator) -> tuple[float, float]:
    """The S/N of the strongest sum of one pulse in a form of the third receiver, and the greatest there is, on average.

    Delay and width are in spectra of the first form, in which a sample has a deviation of 1, and a pulse the height 1.
    """
    channels, spectra = form
    receiver = replace(RECEIVERS[2], channels=channels)
    height = np.sqrt(RECEIVERS[2].channels / channels / spectra)
    reach = int(np.ceil(width * spectra)) + 4
    margin = reach + int(np.ceil(width * spectra)) + 2
    search = searched(receiver, round(delay * spectra), reach)
    found, greatest = [], []
    for begin in (np.arange(BEGINNINGS) + 0.5) / BEGINNINGS:
        true_delay = delay * spectra + generator.uniform(-0.5, 0.5)
        samples, first = pulse(arrivals(receiver, true_delay), width * spectra, begin, margin)
        found.append(ratios(height * samples, first, search, margin).max())
        greatest.append(height * np.sqrt((samples**2).sum()))
    return float(np.mean(found)), float(np.mean(greatest))


def print_forms(generator: np.random.Generator) -> None:
    """Prints how much of narrow pulses is found in each form, where 1 is the greatest S/N in the first form."""
    print("\nOf one pulse in the band of the third receiver, by channels and by spectra for one:\n")
    print("| Delay | Width | " + " | ".join(f"{channels}, {spectra}" for channels, spectra in FORMS) + " |")
    print("|---|---|" + "---|" * len(FORMS))
    for delay, width in NARROW:
        results = [strength(form, delay, width, generator) for form in FORMS]
        cells = [f"{found / results[0][1]:.2f}" for found, _ in results]
        print(f"| {delay} | {width:g} | " + " | ".join(cells) + " |")


def print_averaged(generator: np.random.Generator) -> None:
    """Prints how much is found of pulses of a long delay where spectra were averaged, 1 being the greatest S/N before.

    Without averaging, no search reaches this delay.
    """
    print(f"\nOf one pulse in that band, of a delay of {LONG_DELAY}, by how many spectra are averaged into one:\n")
    print("| Channels | Width | " + " | ".join(map(str, AVERAGED)) + " |")
    print("|---|---|" + "---|" * len(AVERAGED))
    for channels, width in LONG:
        results = [strength((channels, 1 / times), LONG_DELAY, width, generator) for times in AVERAGED]
        cells = [f"{found / results[0][1]:.2f}" for found, _ in results]
        print(f"| {channels} | {width:g} | " + " | ".join(cells) + " |")


def main() -> None:
    """Prints tables in Markdown: a row for each receiver and delay, a column for each width of a pulse."""
    generator = np.random.default_rng(1)
    rows = [(f"{receiver.name} | {delay}", [tried(receiver, delay, width, generator) for width in WIDTHS])
            for receiver in RECEIVERS for delay in receiver.delays]
    print("The part that is found, on average (and at worst), by the width of the pulse in spectra:\n")
    print_table(rows, lambda result: f"{result.parts.mean():.2f} ({result.parts.min():.2f})")
    print("\nHow many spectra the delay of the strongest sum is off at most:\n")
    print_table(rows, lambda result: f"{result.misses.max():.1f}")
    print(f"\nWith noise, at S/N {SNR:g}: the part on average, and how many spectra the delay is off at most:\n")
    print_table(rows, lambda result: f"{result.noisy_parts.mean():.2f}, {result.noisy_misses.max():.1f}")
    print_forms(np.random.default_rng(2))
    print_averaged(np.random.default_rng(3))


def print_table(rows: list[tuple[str, list[Result]]], cell: Callable[[Result], str]) -> None:
    """Prints a table whose columns are the widths of pulses."""
    print("| Band | Delay | " + " | ".join(f"{width:g}" for width in WIDTHS) + " |")
    print("|---|---|" + "---|" * len(WIDTHS))
    for name, results in rows:
        print(f"| {name} | " + " | ".join(map(cell, results)) + " |")


if __name__ == "__main__":
    main()
