"""PULSE lines of several searches of one observation as single candidates.

Searches may differ in how many spectra were averaged into one, in widths, in delays, and in whether the mean of each
spectrum was taken out. So lines are compared in seconds: their delay across the band, the width of their box, and the
time at which the middle of the box passes the middle of its delay. In these, the lines of a pulse make a bow tie: boxes
of a delay that is off by d cross the pulse within the band where their time is off by no more than d / 2.

1. Lines lie in cells of time and delay which are as large as their boxes are wide. Each cell has its strongest line.
2. From cell to neighbouring cell the way leads up to a peak. Peaks with hardly a dip between them are one.
3. The strongest peak that is left takes those that it explains: they cross it within the band, and are no stronger than
   a pulse of its width can be at their delay. So a burst that stands above the skirt of another keeps its own line.
"""
from __future__ import annotations

from collections.abc import Iterator, Sequence
from dataclasses import dataclass

import numpy as np
from scipy.special import erf  # type: ignore[import]

from .arrays import Array
from .candidates import pulse_noise_cells, true_ratio
from .headers import Header

# cells of a level are twice as large as those of the level before
LEVEL_BITS, TIME_BITS, DELAY_BITS = 6, 36, 21
# a dip between two peaks that noise makes: so much of S/N, or such a part of the lower peak's
DIP, DIP_PART = 2.0, 0.15
# what noise adds to the S/N of the strongest of many boxes, and how far a pulse is from the one that is reckoned with
NOISE_ADDS, SHAPE_ADDS = 3.0, 1.25
# within so many widths, of the narrower one, two peaks are one
NEAR = 3.0
# deviations of a delay, in widths, times S/N: where half the square of the S/N of a pulse falls by 1/2
DELAY_ERROR = 1.47
# where S/N falls by 1, in widths divided by the root of S/N; and from how many widths on that says that the pulse is
# wider than its box. Then noise may make the strongest of the many boxes in it anywhere within this reach
ONE_LESS, WIDER = 2.08, 2.0
# zeta of Cordes and McLaughlin (2003) for a delay that is off by one width
ZETA = 0.8325
# so many candidates within a second, each of such a part of the S/N at least, are a crowd
CROWD, CROWD_PART = 100, 0.7
# what a person would see at once: strongest at DM 0; strongest at the end of the delays that were searched; a curve of
# S/N against DM that no dispersed pulse of this width has; the same second as a hundred others
FLAGS = ("dm0", "edge", "curve", "crowd")
CANDIDATE = np.dtype([
    ("snr", "f8"), ("dm", "f8"), ("dm_error", "f8"), ("time_top", "f8"), ("time_foot", "f8"), ("mjd_infinite", "f8"),
    ("utc_top", "M8[ns]"), ("width_ms", "f8"), ("width", "i4"), ("delay", "i4"), ("averaged", "i4"), ("lines", "i8"),
    ("flag", "U32"), ("utc_infinite", "M8[ns]"), ("end", "i8"), ("sum", "i8"), ("cells", "i8"), ("search", "U32"),
    ("zero_dm", "?"),
])
# the first day of MJD, and a day in nanoseconds
DAY_ZERO = np.datetime64("1858-11-17", "ns")
DAY = 86_400 * 10**9


@dataclass(frozen=True)
class Searched:
    """The PULSE lines of one search, and what is needed to judge them.

    The header is that of the file that was searched, without the channels that are masked. `deviation` is that of a
    sample in the other channels, and SUM - CELLS * mean is a sum of these alone.
    """

    pulses: Array
    head: Header
    mean: float
    deviation: float
    averaged: int = 1
    zero_dm: bool = False
    name: str = ""
    # the delays that were searched, where they are known
    min_delay: int | None = None
    max_delay: int | None = None
    # from which spectrum on up to which one the threshold was higher than elsewhere
    raised: tuple[tuple[int, int], ...] = ()

    @property
    def shortest(self) -> float:
        """The shortest delay that was searched, in seconds: if it is not known, that of the lines."""
        known = self.pulses["delay"].min(initial=2**30) if self.min_delay is None else self.min_delay
        return float(known * self.head.seconds)

    @property
    def longest(self) -> float:
        """The longest delay that was searched, in seconds: if it is not known, that of the lines."""
        known = self.pulses["delay"].max(initial=0) if self.max_delay is None else self.max_delay
        return float(known * self.head.seconds)


@dataclass(frozen=True)
class Lines:
    """Lines of all searches: true S/N; delay, middle and width in seconds; the box in spectra; which search each is of,
    and its place there.

    The width is how long the box, with the path that it follows, stays in a channel.
    """

    snr: Array
    delay: Array
    middle: Array
    width: Array
    box: Array
    search: Array
    place: Array

    def __len__(self) -> int:
        return len(self.snr)

    def at(self, places: Array | slice) -> Lines:
        """Some of the lines."""
        return Lines(self.snr[places], self.delay[places], self.middle[places], self.width[places], self.box[places],
                     self.search[places], self.place[places])


@dataclass(frozen=True)
class Groups:
    """Candidates, the strongest first: the line that each is named by, and of which candidate each line is a part.

    The energy of a candidate is the S/N of a box that lasts a second and catches all of it.
    """

    lines: Lines
    best: Array
    energy: Array
    of_line: Array

    @property
    def sizes(self) -> Array:
        """How many lines each candidate has."""
        return np.bincount(self.of_line, minlength=len(self.best))


def lines_of(searches: Sequence[Searched]) -> Lines:
    """The lines of all searches, in seconds."""
    parts = []
    for number, search in enumerate(searches):
        pulses, seconds = search.pulses, search.head.seconds
        delay = pulses["delay"].astype(np.float64)
        noise = pulse_noise_cells(pulses, search.head)
        parts.append((
            true_ratio(pulses, noise, search.mean, search.deviation),
            delay * seconds,
            (pulses["end"] + 1 - (pulses["width"] + delay) / 2) * seconds,
            (pulses["width"] + delay / search.head.channels) * seconds,
            pulses["width"].astype(np.int64),
            np.full(len(pulses), number, np.int16),
            np.arange(len(pulses)),
        ))
    return Lines(*(np.concatenate(column) for column in zip(*parts)))


def grouped(searches: Sequence[Searched]) -> Groups:
    """The candidates of several searches of one observation, made of lines that are neighbours."""
    lines = lines_of(searches)
    if not len(lines):
        return Groups(lines, np.empty(0, np.int64), np.empty(0), np.empty(0, np.int64))
    base = min(search.head.seconds for search in searches)
    cell_of_line, best = cells_of(lines, base)
    cells = lines.at(best)
    peak_of_cell = peaks_of(cells, base)
    peaks, peak_number = np.unique(peak_of_cell, return_inverse=True)
    # the most that a box of the peak caught
    energy = np.zeros(len(peaks))
    np.maximum.at(energy, peak_number, cells.snr * np.sqrt(cells.width))
    owner = explained(cells.at(peaks), energy, dispersion_density(searches[0].head))
    named, group_of_peak = np.unique(owner, return_inverse=True)
    strongest = best[peaks[named]]
    order = np.argsort(-lines.snr[strongest], kind="stable")
    rank = np.empty(len(order), np.int64)
    rank[order] = np.arange(len(order))
    return Groups(lines, strongest[order], energy[named][order], rank[group_of_peak][peak_number][cell_of_line])


def levels_of(lines: Lines, base: float) -> Array:
    """The level of the cells in which lines lie: their size is the width of the box, rounded to a power of two."""
    levels: Array = np.rint(np.log2(lines.width / base)).astype(np.int64)
    np.clip(levels, 0, 2**LEVEL_BITS - 1, out=levels)
    return levels


def cell_numbers(levels: Array, times: Array, delays: Array) -> Array:
    """Cells by level, time and delay, as one number each."""
    # a time or a delay one step before the first has a place too
    return (levels << TIME_BITS | times + 1) << DELAY_BITS | delays + 1


def places_in_cells(lines: Lines, base: float) -> tuple[Array, Array, Array]:
    """The level, the time and the delay of the cell of each line."""
    levels = levels_of(lines, base)
    sizes = base * np.exp2(levels)
    return levels, np.floor(lines.middle / sizes).astype(np.int64), np.floor(lines.delay / sizes).astype(np.int64)


def cells_of(lines: Lines, base: float) -> tuple[Array, Array]:
    """The cell of each line, and the strongest line of each cell."""
    numbers = cell_numbers(*places_in_cells(lines, base))
    order = np.lexsort((-lines.snr, numbers))
    is_first = np.diff(numbers[order], prepend=-1) != 0
    cell_of_line = np.empty(len(lines), np.int64)
    cell_of_line[order] = np.cumsum(is_first) - 1
    return cell_of_line, order[is_first]


def neighbours(cells: Lines, base: float) -> Iterator[tuple[Array, Array]]:
    """Pairs of cells that touch: those of one level, and those of the next level that have cells within them.

    The cells stand in the order of their numbers. Each pair comes once.
    """
    levels, times, delays = places_in_cells(cells, base)
    numbers = cell_numbers(levels, times, delays)
    beside = ((0, 1), (1, -1), (1, 0), (1, 1))
    others = [cell_numbers(levels, times + later, delays + longer) for later, longer in beside]
    others.append(cell_numbers(levels + 1, times >> 1, delays >> 1))
    for wanted in others:
        places = np.minimum(np.searchsorted(numbers, wanted), len(numbers) - 1)
        are_there = np.flatnonzero(numbers[places] == wanted)
        yield are_there, places[are_there]


def peaks_of(cells: Lines, base: float) -> Array:
    """For each cell the one at the top of the way up, where peaks that noise may have parted are one."""
    pairs = list(neighbours(cells, base))
    ones, others = (np.concatenate(column) for column in zip(*pairs))
    rank = np.empty(len(cells), np.int64)
    rank[np.argsort(cells.snr, kind="stable")] = np.arange(len(cells))
    # the strongest neighbour of each cell, or itself
    highest = rank.copy()
    np.maximum.at(highest, ones, rank[others])
    np.maximum.at(highest, others, rank[ones])
    by_rank = np.argsort(rank)
    peak = followed(by_rank[highest])
    saddle = np.minimum(cells.snr[ones], cells.snr[others])
    return without_dips(cells.snr, rank, peak, (ones, others, saddle))


def followed(above: Array) -> Array:
    """Where the way from each place ends, if it leads from each place to the one above it."""
    while True:
        further = above[above]
        if (further == above).all():
            return above
        above = further


def without_dips(snr: Array, rank: Array, peak: Array, edges: tuple[Array, Array, Array]) -> Array:
    """Peaks of cells, where a peak that hardly rises above the way to a higher one became a part of that."""
    ones, others, saddle = edges
    order = np.argsort(saddle, kind="stable")
    ones, others, saddle = ones[order], others[order], saddle[order]
    while True:
        one, other = peak[ones], peak[others]
        differ = one != other
        ones, others, saddle, one, other = (some[differ] for some in (ones, others, saddle, one, other))
        is_lower = rank[one] < rank[other]
        low, high = np.where(is_lower, one, other), np.where(is_lower, other, one)
        dip = snr[low] - saddle
        is_small = dip <= np.maximum(DIP, DIP_PART * snr[low])
        if not is_small.any():
            return peak
        # the edges stand by their saddles, so each lower peak goes on by its highest one
        above = np.arange(len(peak))
        above[low[is_small]] = high[is_small]
        peak = followed(above)[peak]


def dispersion_density(head: Header) -> float:
    """How much denser than on average the band is passed by a delay, where it is passed at its densest: at the top."""
    top, foot = head.edges_khz[0], head.edges_khz[-1]
    return (foot**-2 - top**-2) * top**3 / (2 * (top - foot))


def most_at(energy: Array | float, width: Array | float, box: Array, off: Array, density: float) -> Array:
    """The greatest S/N that a box can have of a pulse of this energy and width whose delay is off by `off`."""
    # a pulse is caught whole, or what a box that is as wide as it, or as wide as its spread, would leave of it
    spread = np.maximum(np.maximum(box, width), off / density)
    most: Array = energy * np.sqrt(box) / spread
    return most


def curve_at(off: Array, width: float) -> Array:
    """What part of its S/N a box as wide as its pulse has where the delay is off (Cordes and McLaughlin 2003)."""
    zeta = np.maximum(ZETA * np.abs(off) / width, 1e-9)
    part: Array = np.sqrt(np.pi) / 2 * erf(zeta) / zeta
    return part


def explained(peaks: Lines, energy: Array, density: float) -> Array:
    """For each peak, with the energy of its pulse, the stronger one that explains it, or itself."""
    order = np.argsort(peaks.middle, kind="stable")
    places, left = order, peaks.at(order)
    owner = np.full(len(peaks), -1)
    least, widest = float(peaks.snr.min()), float(peaks.width.max())
    room = max(least - NOISE_ADDS, 1)
    taken = 0
    is_left = np.ones(len(order), bool)
    for peak in np.argsort(-peaks.snr, kind="stable").tolist():
        if owner[peak] >= 0:
            continue
        width, middle = float(peaks.width[peak]), float(peaks.middle[peak])
        reach = max(SHAPE_ADDS * float(energy[peak]) * density * widest**0.5 / room, NEAR * widest)
        span = reach / 2 + 2 * widest
        begin, stop = left.middle.searchsorted((middle - span, middle + span)).tolist()
        owner[peak] = peak
        if stop - begin == 1:
            is_left[begin] = False
            taken += 1
        else:
            some = left.at(slice(begin, stop))
            off = np.abs(some.delay - peaks.delay[peak])
            wider, narrower = np.maximum(some.width, width), np.minimum(some.width, width)
            # they pass each other by no more than the wider one is wide
            does_cross = np.abs(some.middle - middle) <= off / 2 + (some.width + width) / 2 + wider
            most = SHAPE_ADDS * most_at(energy[peak], width, some.width, off, density) + NOISE_ADDS
            is_mine = does_cross & ((off <= NEAR * narrower) | (some.snr <= most)) & is_left[begin:stop]
            owner[places[begin:stop][is_mine]] = peak
            is_left[begin:stop][is_mine] = False
            taken += int(is_mine.sum())
        if taken * 2 > len(is_left):
            places, left, is_left, taken = places[is_left], left.at(is_left), is_left[is_left], 0
    return owner


def candidate_table(searches: Sequence[Searched], count: int | None = None) -> Array:
    """The candidates of several searches of one observation, the strongest first: all of them, or the first `count`."""
    groups = grouped(searches)
    table = np.zeros(len(groups.best), CANDIDATE)
    for number, search in enumerate(searches):
        rows = np.flatnonzero(groups.lines.search[groups.best] == number)
        table[rows] = rows_of(search, search.pulses[groups.lines.place[groups.best[rows]]])
    table["snr"] = groups.lines.snr[groups.best]
    table["lines"] = groups.sizes
    table["dm_error"] = dm_errors(searches, groups)
    table["flag"] = flags_of(searches, groups, table)
    return table[:count]


def rows_of(search: Searched, pulses: Array) -> Array:
    """The rows of candidates that lines of one search name, but for what depends on other lines."""
    head = search.head
    table = np.zeros(len(pulses), CANDIDATE)
    for name in ("dm", "width", "delay", "end", "sum", "cells"):
        table[name] = pulses[name]
    middle = pulses["end"] + 1 - pulses["width"] / 2
    table["time_foot"] = middle * head.seconds
    table["time_top"] = (middle - pulses["delay"]) * head.seconds
    table["width_ms"] = pulses["width"] * head.seconds * 1000
    table["averaged"], table["search"], table["zero_dm"] = search.averaged, search.name, search.zero_dm
    table["utc_top"] = head.start + nanoseconds(table["time_top"])
    before_top = pulses["delay"] * head.seconds * above_top(head)
    table["utc_infinite"] = head.start + nanoseconds(table["time_top"] - before_top)
    table["mjd_infinite"] = mjd_of(table["utc_infinite"])
    return table


def nanoseconds(seconds: Array) -> Array:
    """Seconds as a difference of times."""
    found: Array = np.rint(seconds * 1e9).astype("timedelta64[ns]")
    return found


def above_top(head: Header) -> float:
    """How long a pulse takes from an infinite frequency to the top of the band, in delays across the band."""
    top, foot = head.edges_khz[0], head.edges_khz[-1]
    return foot**2 / (top**2 - foot**2)


def mjd_of(times: Array) -> Array:
    """Times as MJD in UTC, to a microsecond; what is not known is NaN."""
    return np.where(np.isnat(times), np.nan, (times - DAY_ZERO).astype(np.int64) / DAY)


def dm_errors(searches: Sequence[Searched], groups: Groups) -> Array:
    """How far off the dispersion measure of each candidate is, as a deviation.

    Half the square of S/N is the logarithm of how likely a line is the true one, so the lines of a candidate say how
    far off the strongest one usually lies. Since paths follow a pulse in whole spectra alone, the noise of neighbouring
    delays differs more than it would, and the error of a smooth curve comes in addition. In a pulse that is wider than
    its box the strongest line is that of the strongest noise. There the delays of lines that are weaker by 1 at most
    say how far off it may be.
    """
    lines, best = groups.lines, groups.best[groups.of_line]
    steps = np.array([search.head.seconds for search in searches])[lines.search]
    likely = np.exp((lines.snr**2 - lines.snr[best]**2) / 2) * steps**2
    square = (lines.delay - lines.delay[best])**2 + steps**2 / 12
    count = len(groups.best)
    square = np.bincount(groups.of_line, likely * square, count) / np.bincount(groups.of_line, likely, count)
    snr = lines.snr[groups.best]
    width = np.maximum(lines.width[groups.best], (groups.energy / snr)**2)
    is_near = lines.snr >= lines.snr[best] - 1
    reach = np.zeros(count)
    np.maximum.at(reach, groups.of_line[is_near], np.abs(lines.delay - lines.delay[best])[is_near])
    is_wider = reach * np.sqrt(snr) / ONE_LESS > WIDER * width
    errors: Array = np.sqrt(square + (DELAY_ERROR * width / snr)**2 + np.where(is_wider, reach / 2, 0)**2)
    errors *= dm_per_delay(searches[0].head) / searches[0].head.seconds
    return errors


def dm_per_delay(head: Header) -> float:
    """The dispersion measure of a delay of one spectrum."""
    return 1 / head.delay(1)


def flags_of(searches: Sequence[Searched], groups: Groups, table: Array) -> Array:
    """The flags of each candidate, parted by blanks."""
    lines, best = groups.lines, groups.best
    delay = lines.delay[best]
    step = np.array([search.head.seconds for search in searches])[lines.search[best]]
    longest = max(np.inf if search.max_delay is None else search.longest for search in searches)
    # a search without zero DM begins at a delay of 0, and finds wide pulses alone there
    shortest = np.array([min(0 if other.min_delay is None else other.shortest for other in searches
                             if other.zero_dm == search.zero_dm) for search in searches])[lines.search[best]]
    is_flagged = {
        "dm0": table["dm"] <= np.maximum(2 * table["dm_error"], table["dm"] * step / np.maximum(delay, step)),
        "edge": (delay > longest - step) | (shortest > 0) & (delay < shortest + step),
        "curve": ~fits_curve(searches, groups),
        "crowd": others_in_second(lines.middle[best], table["snr"]) >= CROWD,
    }
    return np.array([" ".join(name for name in FLAGS if is_flagged[name][row]) for row in range(len(best))], "U32")


def others_in_second(times: Array, ratios: Array) -> Array:
    """For each candidate how many others that are not much weaker lie no farther than half a second off it."""
    order = np.argsort(times, kind="stable")
    ordered, strengths = times[order], ratios[order]
    begins, stops = np.searchsorted(ordered, times - 0.5), np.searchsorted(ordered, times + 0.5, "right")
    counts: Array = stops - begins - 1
    for one in np.flatnonzero(counts >= CROWD).tolist():
        counts[one] = np.count_nonzero(strengths[begins[one]:stops[one]] >= CROWD_PART * ratios[one]) - 1
    return counts


def fits_curve(searches: Sequence[Searched], groups: Groups) -> Array:
    """Which candidates have an S/N against DM that a dispersed pulse of their width can have.

    It doesn't fit where a line is stronger than a pulse can be there, or where there is no line so far off on one side
    though a pulse would be well above the threshold there.
    """
    lines, count = groups.lines, len(groups.best)
    best = groups.best[groups.of_line]
    off = lines.delay - lines.delay[best]
    wider = np.maximum(lines.width, lines.width[best])
    most = most_at(groups.energy[groups.of_line], lines.width[best], lines.width, np.abs(off),
                   dispersion_density(searches[0].head))
    is_too_strong = (np.abs(off) > NEAR * wider) & (lines.snr > SHAPE_ADDS * most + NOISE_ADDS + 1)
    # of a pulse that is wider than all boxes one only knows that it is
    times = lines.box * np.array([search.head.seconds for search in searches])[lines.search]
    is_too_strong &= times[best] < 0.99 * times.max(initial=0)
    fits: Array = np.bincount(groups.of_line[is_too_strong], minlength=count) == 0
    for side in (1, -1):
        farthest = np.zeros(count)
        np.maximum.at(farthest, groups.of_line, side * off)
        fits &= farthest >= expected_reach(searches, groups, side)
    return fits


def expected_reach(searches: Sequence[Searched], groups: Groups, side: int) -> Array:
    """How far off, at longer delays (1) or shorter ones (-1), a pulse like each candidate must have lines."""
    lines, best = groups.lines, groups.best
    # the threshold of a search is that of its weakest line with as wide a box
    kinds = lines.search * (lines.box.max(initial=0) + 1) + lines.box
    weakest = np.full(kinds.max(initial=0) + 1, np.inf)
    np.minimum.at(weakest, kinds, lines.snr)
    least = (weakest[kinds[best]] + NOISE_ADDS) * SHAPE_ADDS / lines.snr[best]
    zeta = np.linspace(0, 10, 2000)
    reach: Array = np.interp(-least, -curve_at(zeta / ZETA, 1.0), zeta) / ZETA * lines.width[best]
    for number, search in enumerate(searches):
        rows, seconds = np.flatnonzero(lines.search[best] == number), search.head.seconds
        room = side * ((search.longest if side > 0 else search.shortest) - lines.delay[best[rows]])
        reach[rows] = np.floor(np.minimum(reach[rows], room) / seconds) * seconds
        ends = search.pulses["end"][lines.place[best[rows]]]
        for first, until in search.raised:
            reach[rows[(ends >= first) & (ends < until)]] = 0
    return reach
