"""`psr_series`: the dedispersed series of an observation, for PRESTO and SIGPROC, and folds of it as pictures."""
from __future__ import annotations

import argparse
import os
from collections.abc import Iterator, Sequence
from dataclasses import dataclass

import numpy as np
from matplotlib.axes import Axes  # type: ignore[import]
from matplotlib.figure import Figure  # type: ignore[import]

from .arrays import Array
from .candidates import cells_by_delay
from .headers import Header
from .manifest import Hunt, LevelFile
from .masks import usual_distance
from .number import scaled
from .output import whole_file
from .paths import delay_paths
from .presto import even, inf_text
from .program import Words
from .refusal import WORDS, Refusal
from .samples import SAMPLES_AT_A_TIME, Samples, path_sums
from .sigproc import SERIES, header_bytes

# of a fold: bins of a turn, parts of the time and of the band
BINS, PARTS, BANDS = 128, 64, 32


def psr_series(words: Sequence[str]) -> None:
    """Writes the series, and the pictures of folds, that the words ask for."""
    asked = parsed(words)
    samples = Samples([asked.file, *asked.next], asked.mask)
    delays = delays_of(asked, samples)
    for delay, values in zip(delays, series_of(samples, delays)):
        name = series_name(asked.output, samples.header, delay)
        write_series(samples, delay, values, name)
        print(f"psr_series: {name}.dat, .inf and .tim: {even(len(values))} values of DM {samples.header.dm(delay):.3f}")
        if asked.fold is not None:
            with whole_file(f"{name}_fold.png") as path:
                fold_picture(samples, fold_of(samples, delay, asked.fold)).savefig(path, format="png", dpi=110)
            print(f"psr_series: {name}_fold.png")


def parsed(words: Sequence[str]) -> argparse.Namespace:
    """The words of the command."""
    parser = Words(prog="psr_series", description="Writes dedispersed series: .dat with .inf for PRESTO, and .tim.")
    parser.add_argument("file", metavar="FILE", help="a DADA file of filterbank samples, the first of an observation")
    parser.add_argument("dms", metavar="DM", nargs="*", type=measure, help="dispersion measures in pc/cm^3")
    parser.add_argument("--delay", metavar="D", nargs="+", type=int, default=[],
                        help="delays across the band in spectra, as psr_search prints them")
    parser.add_argument("-o", "--output", metavar="NAME", required=True,
                        help="the files are NAME_DM12.345.dat, .inf and .tim; existing ones are replaced")
    parser.add_argument("--fold", metavar="SECONDS", type=period, help="also draw a fold at this period")
    parser.add_argument("--next", metavar="FILE", nargs="+", default=[], help="the files of the observation after FILE")
    parser.add_argument("--mask", metavar="MASK", default="none", help="channels to leave out, as psr_mask names them")
    asked = parser.parse_args(words)
    if not asked.dms and not asked.delay:
        raise Refusal(WORDS, "give a DM or --delay")
    return asked


def measure(text: str) -> float:
    """A dispersion measure."""
    value = scaled(text, 6)
    if value is None or value < 0:
        raise argparse.ArgumentTypeError(f"{text} is not a dispersion measure (7, 7.5 or .5)")
    return value / 10**6


def period(text: str) -> float:
    """A period in seconds, with twelve decimals."""
    value = scaled(text, 12)
    if value is None or value <= 0:
        raise argparse.ArgumentTypeError(f"{text} is not a period in seconds")
    return value / 10**12


def delays_of(asked: argparse.Namespace, samples: Samples) -> list[int]:
    """The delays that are asked for, each once; one that is as long as the data is refused."""
    delays = [*dict.fromkeys([*(round(samples.header.delay(dm)) for dm in asked.dms), *asked.delay])]
    for delay in delays:
        if not 0 <= delay < samples.spectra:
            raise Refusal(WORDS, f"a delay of {delay} spectra is not within the {samples.spectra} of the data")
    return delays


def series_name(name: str, head: Header, delay: int) -> str:
    """What the files of a delay are called, without what follows their point."""
    return f"{name}_DM{head.dm(delay):.3f}"


def blocks(samples: Samples, delay: int) -> Iterator[tuple[int, int, Array]]:
    """Spectra in pieces: the first one, how many paths of a delay begin in the piece, and these with what they reach.
    """
    count = samples.spectra - delay
    at_a_time = max(1, SAMPLES_AT_A_TIME // samples.header.channels, delay)
    for first in range(0, count, at_a_time):
        so_many = min(at_a_time, count - first)
        yield first, so_many, by_channel(samples.read(first, so_many + delay))


def by_channel(spectra: Array) -> Array:
    """The same spectra with each channel by itself in memory, as its samples are added; copied in tiles that fit a
    cache, which is four times as fast as numpy's own copy."""
    count, channels = spectra.shape
    rows = np.empty((channels, count), spectra.dtype)
    for first in range(0, count, 512):
        for channel in range(0, channels, 128):
            tile = np.ascontiguousarray(spectra[first:first + 512, channel:channel + 128])
            rows[channel:channel + 128, first:first + 512] = tile.T
    return rows.T


def series_of(samples: Samples, delays: Sequence[int]) -> list[Array]:
    """For each delay the mean of the samples along its path, by the spectrum in which it begins at the top."""
    head = samples.header
    entries = delay_paths(head.edges_khz, np.array(delays)).T
    found: list[list[Array]] = [[] for _ in delays]
    longest = max(delays)
    for first, count, spectra in blocks(samples, longest):
        is_last = first + count + longest == samples.spectra
        for some, along, delay in zip(found, entries, delays):
            # the last piece has all that shorter paths reach
            some.append(path_sums(spectra, along)[:None if is_last else count])
    cells = cells_by_delay(head, np.array(delays))
    return [(np.concatenate(some) / number).astype("<f4") for some, number in zip(found, cells)]


def write_series(samples: Samples, delay: int, values: Array, name: str) -> None:
    """Writes a series as NAME.dat with NAME.inf, and as NAME.tim: an even number of values."""
    head, values = samples.header, values[:even(len(values))]
    dm = head.dm(delay)
    top, foot = head.edges_khz[0] / 1000, head.edges_khz[-1] / 1000
    tim = header_bytes(head, 0, {"data_type": SERIES, "refdm": float(dm), "fch1": top, "foff": foot - top, "nchans": 1,
                                 "nbits": 32, "nifs": 1})
    notes = f"Each value is the mean of the samples along the path of DM {dm:.3f}, by the time at the top of the band"
    inf = inf_text(head, dm, len(values), os.path.basename(name), notes)
    for suffix, data in ((".dat", values.tobytes()), (".inf", inf.encode("ascii", "replace")),
                         (".tim", tim + values.tobytes())):
        with whole_file(name + suffix) as path, open(path, "wb") as file:
            file.write(data)


def candidate_delays(hunt: Hunt, table: Array, most: int) -> list[tuple[LevelFile, list[int]]]:
    """The levels in which the first `most` candidates of a hunt were found, and the delays of each, each once."""
    found = []
    for level in hunt.levels:
        passes = [search.name for search in hunt.searches if search.level == level.path]
        rows = table[:most][np.isin(table["search"][:most], passes)]
        if len(rows):
            found.append((level, [*dict.fromkeys(rows["delay"].tolist())]))
    return found


def write_level_series(folder: str, mask: str, level: LevelFile, delays: Sequence[int]) -> list[str]:
    """Writes the series of some delays of a level of the hunt in a folder; answers their names, without what follows
    the point."""
    samples = Samples([os.path.join(folder, level.path)], mask)
    kind = "" if level.zero_dm else "-plain"
    names = []
    for delay, values in zip(delays, series_of(samples, delays)):
        names.append(series_name(os.path.join(folder, f"averaged{level.average}{kind}"), samples.header, delay))
        write_series(samples, delay, values, names[-1])
    return names


@dataclass(frozen=True)
class Fold:
    """A fold of an observation: sums by part of the time, of the band, and of a turn; and how many values each adds."""

    delay: int
    period: float
    sums: Array
    counts: Array

    @property
    def by_time(self) -> Array:
        """S/N by part of the time and bin."""
        return ratios_of(self.sums.sum(axis=1), self.counts)

    @property
    def by_band(self) -> Array:
        """S/N by part of the band, the highest first, and bin."""
        return ratios_of(self.sums.sum(axis=0), self.counts.sum(axis=0))

    @property
    def profile(self) -> Array:
        """S/N of each bin of a turn."""
        filled = np.maximum(self.counts, 1)
        rows = self.by_time * np.sqrt(filled)
        profile: Array = rows.sum(axis=0) / np.sqrt(filled.sum(axis=0))
        return profile - float(np.median(profile))


def ratios_of(sums: Array, counts: Array) -> Array:
    """S/N of means in rows: how far each is off the median of its row, in deviations by how far most of them are."""
    means = sums / np.maximum(counts, 1)
    far = (means - np.median(means, axis=1, keepdims=True)) * np.sqrt(counts)
    deviation = usual_distance(far)
    ratios: Array = far / deviation if deviation > 0 else far
    return ratios


def fold_of(samples: Samples, delay: int, seconds: float) -> Fold:
    """The fold of a whole observation at a delay and a period in seconds."""
    head = samples.header
    total = samples.spectra - delay
    # half a millionth of a bin, lest a whole number be a little less
    bins = min(BINS, int(seconds / head.seconds + 5e-7))
    if bins < 2 or total * head.seconds < seconds:
        raise Refusal(WORDS, f"a period of {seconds:g} s is shorter than two spectra, or longer than the data")
    parts = min(PARTS, int(total * head.seconds / seconds))
    entries = delay_paths(head.edges_khz, np.array([delay]))[:, 0]
    bounds = np.linspace(0, head.channels, min(BANDS, head.channels) + 1).astype(int).tolist()
    sums, counts = np.zeros((parts, len(bounds) - 1, bins)), np.zeros((parts, bins))
    for first, count, spectra in blocks(samples, delay):
        places = np.arange(first, first + count)
        turns = (places + 0.5) * head.seconds / seconds
        cells = places * parts // total * bins + np.minimum((turns % 1 * bins).astype(np.int64), bins - 1)
        counts += np.bincount(cells, minlength=parts * bins).reshape(parts, bins)
        for band, (high, low) in enumerate(zip(bounds, bounds[1:])):
            values = path_sums(spectra[:, high:low], entries[high:low + 1])[:count]
            sums[:, band] += np.bincount(cells, values, parts * bins).reshape(parts, bins)
    return Fold(delay, seconds, sums, counts)


def fold_picture(samples: Samples, fold: Fold) -> Figure:
    """A fold as prepfold shows it: the profile over two turns, and two turns against time and against frequency."""
    head = samples.header
    figure = Figure(figsize=(9, 6.5), layout="constrained")
    profile_panel, _ = (panels := figure.subplots(2, 2, gridspec_kw={"height_ratios": [1, 2.2]}))[0]
    panels[0][1].set_axis_off()
    draw_turns(profile_panel, fold.profile)
    duration = (samples.spectra - fold.delay) * head.seconds
    top, foot = head.edges_khz[0] / 1000, head.edges_khz[-1] / 1000
    draw_image(panels[1][0], fold.by_time, (0, duration), "time / s")
    draw_image(panels[1][1], fold.by_band[::-1], (foot, top), "frequency / MHz")
    lines = [*head.words_of("SOURCE", "TELESCOPE"), f"period {fold.period * 1000:.6f} ms",
             f"DM {head.dm(fold.delay):.3f} pc/cm$^3$", f"{duration:.3f} s, {duration / fold.period:.1f} turns",
             f"{fold.sums.shape[2]} bins, the greatest S/N of one is {fold.profile.max():.1f}"]
    panels[0][1].text(0, 0.95, "\n".join(lines), va="top", fontsize=9, transform=panels[0][1].transAxes)
    return figure


def draw_turns(panel: Axes, profile: Array) -> None:
    """A profile over two turns."""
    turns = np.arange(2 * len(profile)) / len(profile)
    panel.step(turns, np.tile(profile, 2), where="post", color="black", linewidth=0.9)
    panel.set(xlabel="phase / turns", ylabel="S/N", xlim=(0, 2))


def draw_image(panel: Axes, rows: Array, ends: tuple[float, float], label: str) -> None:
    """Rows over two turns, in grey: dark is strong."""
    low, high = np.percentile(rows, (1, 99.7))
    panel.imshow(np.tile(rows, 2), aspect="auto", origin="lower", extent=(0, 2, *ends), interpolation="nearest",
                 cmap="Greys", vmin=low, vmax=max(high, low + 1))
    panel.set(xlabel="phase / turns", ylabel=label)
