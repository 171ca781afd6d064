"""The pictures by which an astronomer judges a candidate, and the overview of all of them."""
from __future__ import annotations

from dataclasses import dataclass

import numpy as np
from matplotlib.axes import Axes  # type: ignore[import]
from matplotlib.colors import TwoSlopeNorm  # type: ignore[import]
from matplotlib.figure import Figure  # type: ignore[import]
from matplotlib.lines import Line2D  # type: ignore[import]

from .arrays import Array
from .candidates import pulse_noise_cells
from .grouping import Searched, curve_at
from .headers import Header
from .paths import delay_paths
from .plot import areas, strongest_of_cells
from .samples import Samples

# how many boxes of the candidate are shown before and behind it, but at least and at most so many spectra
BOXES_SHOWN, LEAST_SHOWN, MOST_SHOWN = 12, 24, 512
# how many widths, but at least how many spectra, delays are off at most, and how many delays are tried
WIDTHS_OFF, LEAST_OFF, DELAYS_TRIED = 6, 12, 61
# rows of the waterfall, and columns of all pictures of time
BANDS, COLUMNS = 64, 160
FOUND, CURVE, FLAGGED = "tab:blue", "tab:orange", "tab:red"
# how high a panel with a legend is, in times of its highest point
LEGEND_ROOM = 1.25
# what is drawn of many lines beside their candidates
LINES_DRAWN = 4000


@dataclass(frozen=True)
class Near:
    """What lies around a candidate, in deviations of its noise.

    `times` are spectra off the middle of the box, at the edges of columns. The waterfall has a row for each part of the
    band, the highest first, NaN where it is masked; `bow` a row for each delay of `delays`.
    """

    times: Array
    profile: Array
    waterfall: Array
    delays: Array
    bow: Array
    ratios: Array
    # how long the box stays in a channel
    width: float


def near(samples: Samples, search: Searched, row: np.void) -> Near:
    """What the samples have around a candidate, which is a row of the table of candidates."""
    head = search.head
    delay, box, end = int(row["delay"]), int(row["width"]), int(row["end"])
    width = box + delay / head.channels
    shown = max(int(np.clip(BOXES_SHOWN * width, LEAST_SHOWN, MOST_SHOWN)), 2 * box)
    columns = max(1, 2 * shown // COLUMNS)
    shown = -(-shown // columns) * columns
    delays = delays_near(delay, width)
    # so many spectra before the box passes the top up to so many after its path left the foot, at each delay
    most_off = int(np.abs(delays - delay).max())
    before = shown + box + most_off
    first = end - delay - box + 1 - before
    values = values_of(samples, search, first, delay + box + 2 * before + most_off)
    total = np.pad(values.cumsum(axis=1), ((0, 0), (1, 0)))
    begin = before - shown
    entries = delay_paths(head.edges_khz, np.append(delays, delay))
    narrow = row_sums(total, entries[:, -1], begin + box // 2, 2 * shown)
    profile = narrow.reshape(-1, columns).sum(axis=1) / noises(search, np.array([delay]), columns)
    noise = noises(search, delays, box)
    bow = np.empty((len(delays), 2 * shown // columns))
    ratios = np.empty(len(delays))
    for number, off in enumerate((delays - delay).tolist()):
        # boxes that pass the middle of their delay when the candidate does stand in the middle
        sums = row_sums(total, entries[:, number], begin - off // 2, 2 * shown + box).cumsum()
        boxes = (sums[box:] - sums[:-box]) / noise[number]
        bow[number] = boxes.reshape(-1, columns).max(axis=1)
        reach = min(abs(off) // 2 + box, shown)
        ratios[number] = boxes[shown - reach:shown + reach + 1].max()
    waterfall = waterfall_of(values, head, entries[:, -1], begin + box // 2, (2 * shown, columns))
    # a box of an odd width has its middle within a spectrum
    times = np.arange(-shown, shown + 1, columns) + box // 2 - box / 2
    return Near(times, profile, waterfall, delays, bow, ratios, width)


def delays_near(delay: int, width: float) -> Array:
    """The delays that are tried around one: as far off as its S/N falls to a small part."""
    off = max(LEAST_OFF, round(WIDTHS_OFF * width))
    step = max(1, 2 * off // DELAYS_TRIED)
    off = off // step * step
    delays = np.arange(delay - off, delay + off + 1, step)
    return delays[delays >= 0]


def values_of(samples: Samples, search: Searched, first: int, count: int) -> Array:
    """Samples in deviations off the mean, a row of each channel; masked ones, and those outside the data, are 0."""
    head = search.head
    found = np.zeros((head.channels, count), np.float32)
    begin, stop = max(first, 0), min(first + count, samples.spectra)
    if begin < stop:
        read = (samples.read(begin, stop - begin).T.astype(np.float32) - search.mean) / search.deviation
        read[list(head.masked)] = 0
        found[:, begin - first:stop - first] = read
    return found


def row_sums(total: Array, entries: Array, first: int, count: int) -> Array:
    """The sums along a path that begins at each of so many spectra, by the running sums of all channels."""
    places = first + np.arange(count)
    channels = np.arange(len(total))[:, None]
    last = total.shape[1] - 1
    enters = np.clip(entries[:-1, None] + places, 0, last)
    leaves = np.clip(entries[1:, None] + 1 + places, 0, last)
    sums: Array = (total[channels, leaves] - total[channels, enters]).sum(axis=0)
    return sums


def noises(search: Searched, delays: Array, box: int) -> Array:
    """The deviation of a box of path sums of each delay, in deviations of a sample."""
    lines = np.zeros(len(delays), [("delay", "i8"), ("width", "i8")])
    lines["delay"], lines["width"] = delays, box
    found: Array = np.sqrt(pulse_noise_cells(lines, search.head))
    return found


def waterfall_of(values: Array, head: Header, entries: Array, first: int, shape: tuple[int, int]) -> Array:
    """The dedispersed samples, in parts of the band and of so many spectra."""
    count, columns = shape
    middles = (entries[:-1] + entries[1:] + 1) // 2
    places = np.clip(middles[:, None] + first + np.arange(count), 0, values.shape[1] - 1)
    straight = np.take_along_axis(values, places, axis=1)
    bounds = np.linspace(0, head.channels, min(BANDS, head.channels) + 1).astype(int)
    kept = np.add.reduceat(~head.are_masked, bounds[:-1])
    bands = np.add.reduceat(straight, bounds[:-1], axis=0).reshape(len(kept), -1, columns).sum(axis=2)
    with np.errstate(invalid="ignore", divide="ignore"):
        ratios: Array = np.where(kept[:, None] > 0, bands / np.sqrt(kept * columns)[:, None], np.nan)
    return ratios


def candidate_picture(samples: Samples, search: Searched, row: np.void) -> Figure:
    """The profile, the dedispersed waterfall, S/N against DM with the curve of a pulse, and DM against time."""
    head = search.head
    around = near(samples, search, row)
    milliseconds = around.times * head.seconds * 1000
    half = float(row["width_ms"]) / 2
    figure = Figure(figsize=(9.6, 5.6))
    grid = figure.add_gridspec(2, 2, height_ratios=(1, 2.1), left=0.075, right=0.985, bottom=0.085, top=0.885,
                               hspace=0.3, wspace=0.2)
    profile, waterfall, curve, bow = (figure.add_subplot(grid[place]) for place in ((0, 0), (1, 0), (0, 1), (1, 1)))
    figure.suptitle(f"S/N {row['snr']:.1f}   DM {row['dm']:.2f} ± {row['dm_error']:.2f}   {row['width_ms']:.3g} ms   "
                    f"{row['time_top']:.4f} s" + (f"   {row['flag']}" if row["flag"] else ""),
                    fontsize=11, x=0.075, ha="left", parse_math=False)
    profile.step(milliseconds, np.append(around.profile, around.profile[-1]), where="post", color="black",
                 linewidth=0.8)
    profile.axvspan(-half, half, color=CURVE, alpha=0.25, linewidth=0)
    profile.set(ylabel="S/N", xlim=(milliseconds[0], milliseconds[-1]), title="profile, and the box that was found")
    top, foot = head.edges_khz[0] / 1000, head.edges_khz[-1] / 1000
    draw_waterfall(waterfall, around.waterfall, (milliseconds[0], milliseconds[-1], foot, top))
    draw_curve(curve, around, row, head)
    draw_bow(bow, around, row, head, milliseconds)
    for panel in (profile, waterfall, curve, bow):
        panel.tick_params(labelsize=8)
        panel.title.set_fontsize(9)
        panel.xaxis.label.set_fontsize(9)
        panel.yaxis.label.set_fontsize(9)
    return figure


def draw_waterfall(panel: Axes, rows: Array, extent: tuple[float, float, float, float]) -> None:
    """Frequency against time, dedispersed; what is masked is white."""
    most = max(4.0, float(np.nanpercentile(rows, 99.5)))
    panel.set_facecolor("white")
    panel.imshow(rows, aspect="auto", extent=extent, interpolation="nearest", cmap="viridis",
                 vmin=-2, vmax=most)
    panel.set(xlabel="time after the middle of the box / ms", ylabel="frequency / MHz", title="dedispersed")


def draw_curve(panel: Axes, around: Near, row: np.void, head: Header) -> None:
    """S/N against DM as it was found, and as a pulse of this width must have it."""
    dms = around.delays * float(row["dm"]) / max(int(row["delay"]), 1) if row["delay"] else around.delays * head.dm(1)
    fine = np.linspace(around.delays[0], around.delays[-1], 400)
    panel.plot(dms, around.ratios, ".-", color=FOUND, markersize=4, linewidth=0.8, label="found, with this box")
    panel.plot(np.interp(fine, around.delays, dms), row["snr"] * curve_at(fine - int(row["delay"]), around.width),
               color=CURVE, linewidth=1.6, label="a pulse of this width")
    panel.axvline(float(row["dm"]), color="tab:grey", linewidth=0.6)
    # the legend stands in the room above the highest point
    highest = LEGEND_ROOM * max(float(around.ratios.max()), float(row["snr"]))
    panel.set(xlim=(dms[0], dms[-1]), ylim=(min(0, float(around.ratios.min())), highest), ylabel="S/N",
              title="S/N against DM / (pc/cm³)")
    panel.legend(fontsize=7, loc="upper center", ncols=2, frameon=False)


def draw_bow(panel: Axes, around: Near, row: np.void, head: Header, milliseconds: Array) -> None:
    """DM against the time at which a box passes the middle of its delay."""
    unit = float(row["dm"]) / int(row["delay"]) if row["delay"] else head.dm(1)
    step = (around.delays[1] - around.delays[0]) * unit
    low, high = around.delays[0] * unit - step / 2, around.delays[-1] * unit + step / 2
    strength = TwoSlopeNorm(3, -2, max(6.0, float(around.bow.max())))
    panel.imshow(around.bow, aspect="auto", origin="lower", extent=(milliseconds[0], milliseconds[-1], low, high),
                 interpolation="nearest", cmap="magma", norm=strength)
    panel.axhline(float(row["dm"]), color="white", linewidth=0.5, alpha=0.6)
    panel.set(xlabel="time at the middle of the delay / ms", ylabel="DM / (pc/cm³)", title="S/N by DM and time")


def overview(lines: Array, table: Array) -> Figure:
    """All candidates, and their lines: S/N against DM, how many there are of each DM, and DM against time.

    `lines` has the time at the top, DM and S/N of all lines.
    """
    figure = Figure(figsize=(10, 6.4))
    grid = figure.add_gridspec(2, 2, height_ratios=(1, 1.5), left=0.065, right=0.985, bottom=0.08, top=0.95,
                               hspace=0.28, wspace=0.16)
    ratios, numbers = figure.add_subplot(grid[0, 0]), figure.add_subplot(grid[0, 1])
    times = figure.add_subplot(grid[1, :])
    order = np.argsort(table["snr"], kind="stable")
    ordered = table[order]
    is_flagged = ordered["flag"] != ""
    colors = np.where(is_flagged, FLAGGED, FOUND)
    some = lines[np.argsort(lines["snr"], kind="stable")]
    for panel, along, up in ((ratios, "dm", "snr"), (times, "time", "dm")):
        those = strongest_of_cells(some[along], some[up])[-LINES_DRAWN:] if len(some) else np.empty(0, int)
        panel.scatter(some[along][those], some[up][those], s=1.5, color="0.75", linewidths=0, rasterized=True)
    ratios.scatter(ordered["dm"], ordered["snr"], s=12, color=colors, linewidths=0)
    ratios.set(xlabel="DM / (pc/cm³)", ylabel="S/N", title="S/N against DM")
    if len(table) and table["snr"].max() > 5 * table["snr"].min():
        ratios.set_yscale("log")
        ratios.yaxis.set_major_formatter("{x:g}")
        ratios.yaxis.set_minor_formatter("{x:g}")
        ratios.tick_params(axis="y", which="minor", labelsize=6)
    numbers.hist([ordered["dm"][~is_flagged], ordered["dm"][is_flagged]], bins=60, stacked=True, color=[FOUND, FLAGGED])
    numbers.yaxis.get_major_locator().set_params(integer=True)
    numbers.set(xlabel="DM / (pc/cm³)", ylabel="candidates", title="number of candidates")
    times.scatter(ordered["time_top"], ordered["dm"], s=areas(ordered["snr"]) if len(table) else [], color=colors,
                  alpha=0.7, linewidths=0.4, edgecolors="white")
    times.set(xlabel="time at the top of the band / s", ylabel="DM / (pc/cm³)",
              title="DM against time: circles grow with S/N")
    marks = [Line2D([], [], marker="o", linestyle="", color=color, label=label, markersize=size)
             for color, label, size in ((FOUND, "candidate", 5), (FLAGGED, "with a flag", 5), ("0.75", "lines", 2))]
    times.legend(handles=marks, fontsize=8, loc="lower right", bbox_to_anchor=(1, 1), ncols=3, frameon=False,
                 borderaxespad=0.2)
    for panel in (ratios, numbers, times):
        panel.tick_params(labelsize=8)
        panel.title.set_fontsize(10)
    return figure
