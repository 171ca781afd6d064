"""`psr_plot`: a picture of the candidates of a text, as astronomers know it from other searches."""
from __future__ import annotations

import argparse
import os
from collections.abc import Sequence
from dataclasses import dataclass

import matplotlib  # type: ignore[import]
import numpy as np
from matplotlib.axes import Axes  # type: ignore[import]
from matplotlib.figure import Figure  # type: ignore[import]

from .arrays import Array
from .candidates import fold_table, pulse_table
from .headers import Header
from .output import whole_file
from .program import Words, add_search_words, check_entries, check_output, entries_by, only_entry
from .refusal import OUTPUT, TEXT, WORDS, Refusal
from .samples import Samples, fold_profile, path_sums_of
from .texts import Found

SUFFIXES = (".png", ".svg", ".pdf")
# so many lines are all drawn; of more, the strongest of each cell of a panel: cells along it and up
MOST_DRAWN = 20_000
CELLS = (500, 250)
# areas of the least and the greatest circle in square points, and over how much of S/N they grow at least
LEAST_AREA, GREATEST_AREA, LEAST_GROWTH = 5.0, 150.0, 20.0
# from so many circles on they are drawn as dots of a raster also in SVG and PDF
RASTER_FROM = 4000
# the colour of lines that psr_beams marked as interference
MARKED = "tab:red"


@dataclass(frozen=True)
class Picture:
    """What is drawn: the tables of the lines, weaker ones first, and the profile of a fold in S/N with its line."""

    title: str
    pulses: Array
    folds: Array
    profile: Array | None
    fold: np.void | None


def psr_plot(words: Sequence[str]) -> None:
    """Reads a text and draws what the words ask for."""
    asked = parsed(words)
    samples = Samples([asked.file, *asked.next], asked.mask)
    entries = entries_by(asked)
    if entries[0].is_beam and len(entries) > 1 and asked.fold is None:
        check_entries("psr_plot", asked, entries, samples.header)
        finish(draw_beams(new_figure(asked.show), asked, samples.header, entries), asked)
        return
    found = only_entry(asked, entries)
    check_entries("psr_plot", asked, [found], samples.header)
    pulses = pulse_table(found.pulses, samples.header, asked.mean, asked.deviation)
    folds = fold_table(found.folds, samples.header, asked.mean, asked.deviation)
    fold = chosen(folds, asked) if asked.fold is not None else None
    profile = profile_of(samples, fold, asked) if fold is not None else None
    figure = new_figure(asked.show)
    title = title_of(asked, samples.header, found.spectra)
    draw(figure, Picture(title, by_strength(pulses), by_strength(folds), profile, fold))
    finish(figure, asked)


def finish(figure: Figure, asked: argparse.Namespace) -> None:
    """Writes the picture, or shows it."""
    if asked.output is not None:
        with whole_file(asked.output) as name:
            figure.savefig(name)
    if asked.show:
        matplotlib.pyplot.show()


def parsed(words: Sequence[str]) -> argparse.Namespace:
    """The words of the command."""
    parser = Words(prog="psr_plot", description="Draws the output of a search, and beams side by side.")
    add_search_words(parser)
    parser.add_argument("-o", "--output", metavar="PICTURE",
                        help="the picture to write: .png, .svg or .pdf; an existing one is replaced")
    parser.add_argument("--show", action="store_true", help="show the picture in a window")
    parser.add_argument("--fold", metavar="K", help="add the profile of FOLD line K, counted from 0, or of the `best`")
    parser.add_argument("--next", metavar="FILE", nargs="+", default=[], help="the files of the observation after FILE")
    asked = parser.parse_args(words)
    if asked.output is None and not asked.show:
        raise Refusal(WORDS, "give -o PICTURE or --show")
    check_output(asked, SUFFIXES)
    if asked.fold not in (None, "best") and not asked.fold.isdecimal():
        raise Refusal(WORDS, f"argument --fold: {asked.fold} is neither a whole number nor best")
    return asked


def title_of(asked: argparse.Namespace, head: Header, spectra: int) -> str:
    """What stands above the picture."""
    names = head.words_of("SOURCE", "TELESCOPE")
    start = [] if np.isnat(head.start) else [f"from {np.datetime_as_string(head.start, 's')}"]
    length = f"{spectra} spectra, {spectra * head.seconds:.3f} s"
    noise = f"mean {asked.mean:g}, sd {asked.deviation:g}"
    return ", ".join([*names, os.path.basename(asked.file), length, *start, noise])


def chosen(folds: Array, asked: argparse.Namespace) -> np.void:
    """The FOLD line whose profile is asked for."""
    place = int(np.argmax(folds["snr"])) if asked.fold == "best" and len(folds) else len(folds)
    if asked.fold != "best":
        place = int(asked.fold)
    if place >= len(folds):
        raise Refusal(TEXT, f"{asked.text} has {len(folds)} FOLD lines, and not the one that --fold names")
    fold: np.void = folds[place]
    return fold


def profile_of(samples: Samples, fold: np.void, asked: argparse.Namespace) -> Array:
    """The profile of a fold, made from the data: S/N at each phase by the noise of its line."""
    delay, period, rows, trial = (int(fold[name]) for name in ("delay", "period", "rows", "trial"))
    profile = fold_profile(path_sums_of(samples, delay, rows * period), period, rows, trial)
    if profile[fold["phase"]] != fold["sum"]:
        raise Refusal(TEXT, f"{asked.text} refused: the SUM of the fold is not that of the data of {asked.file}")
    excess = profile - int(fold["cells"]) * asked.mean
    ratios: Array = excess * (fold["snr"] / excess[fold["phase"]])
    return ratios


def new_figure(is_shown: bool) -> Figure:
    """An empty picture, in a window where it is to be shown."""
    if not is_shown:
        return Figure(layout="constrained")
    from matplotlib import pyplot
    figure = pyplot.figure(layout="constrained")
    if matplotlib.get_backend().lower() == "agg":
        raise Refusal(OUTPUT, "no window can be opened here: give -o PICTURE")
    return figure


def draw(figure: Figure, picture: Picture) -> None:
    """Draws the panels: those of PULSE lines where there are any or no others, of FOLD lines, and of a profile."""
    are_pulses = len(picture.pulses) > 0 or len(picture.folds) == 0
    rows, heights = [], []
    if are_pulses:
        rows += [["snr", "number"], ["time", "time"]]
        heights += [1.0, 1.3]
    if len(picture.folds):
        rows.append(["periods", "fold_dms"])
        heights.append(1.0)
    if picture.profile is not None:
        rows.append(["profile", "profile"])
        heights.append(0.8)
    figure.set_size_inches(10, 2.6 * sum(heights))
    figure.suptitle(picture.title, fontsize=9, parse_math=False)
    panels = figure.subplot_mosaic(rows, gridspec_kw={"height_ratios": heights})
    if are_pulses:
        draw_snr(panels["snr"], picture.pulses, "PULSE")
        draw_number(panels["number"], picture.pulses)
        draw_time(panels["time"], picture.pulses)
    if len(picture.folds):
        draw_periods(panels["periods"], picture.folds)
        draw_snr(panels["fold_dms"], picture.folds, "FOLD")
    if picture.profile is not None and picture.fold is not None:
        draw_profile(panels["profile"], picture.profile, picture.fold)


def draw_beams(figure: Figure, asked: argparse.Namespace, head: Header, beams: Sequence[Found]) -> Figure:
    """Draws the beams side by side: time against DM of each, with the same axes, and marked lines in their colour."""
    figure.set_size_inches(max(10, 2.6 * len(beams)), 5)
    figure.suptitle(title_of(asked, head, max(beam.spectra for beam in beams)), fontsize=9, parse_math=False)
    panels = figure.subplots(1, len(beams), sharex=True, sharey=True, squeeze=False)[0]
    for panel, beam in zip(panels, beams):
        pulses = by_strength(pulse_table(beam.pulses, head, asked.mean, asked.deviation))
        draw_beam(panel, pulses, f"beam {beam.number}: {len(pulses)} lines, {int(beam.are_marked.sum())} RFI")
    panels[0].set_ylabel("DM / (pc/cm$^3$)")
    return figure


def draw_beam(panel: Axes, pulses: Array, title: str) -> None:
    """Time against DM of a beam, in circles whose area grows with S/N: marked lines first, then those that are not."""
    panel.set(xlabel="time at the top of the band / s")
    panel.set_title(title, fontsize=9)
    are_marked = pulses["word"] == b"RFI"
    for lines, color, label in ((pulses[are_marked], MARKED, "RFI"), (pulses[~are_marked], "tab:blue", "PULSE")):
        if not len(lines):
            continue
        those = strongest_of_cells(lines["time_top"], lines["dm"])
        panel.scatter(lines["time_top"][those], lines["dm"][those], s=areas(lines["snr"][those]), color=color,
                      linewidths=0, alpha=0.6, rasterized=len(those) > RASTER_FROM, label=label)
    if len(pulses):
        panel.legend(fontsize=7, loc="upper right", framealpha=0.3)


def draw_snr(panel: Axes, lines: Array, word: str) -> None:
    """S/N against DM, and the greatest printed ratio of each DM besides."""
    panel.set(xlabel="DM / (pc/cm$^3$)", ylabel="S/N", title=f"{len(lines)} {word} lines")
    if not len(lines):
        return
    those = strongest_of_cells(lines["dm"], lines["snr"])
    colors = np.where(lines["word"][those] == b"RFI", MARKED, "tab:blue")
    panel.scatter(lines["dm"][those], lines["snr"][those], s=3, color=colors, linewidths=0,
                  rasterized=len(those) > RASTER_FROM, label="true noise")
    greatest = np.zeros(lines["delay"].max() + 1)
    np.maximum.at(greatest, lines["delay"], lines["ratio"])
    delays = np.flatnonzero(greatest)
    panel.plot(dm_of_delays(lines)[delays], greatest[delays], color="tab:grey", linewidth=0.8,
               label="greatest printed ratio")
    panel.legend(fontsize=7, loc="upper right", framealpha=0.3)


def draw_number(panel: Axes, pulses: Array) -> None:
    """How many lines each DM has."""
    panel.set(xlabel="DM / (pc/cm$^3$)", ylabel="PULSE lines of a DM", title="number")
    if not len(pulses):
        return
    counts = np.bincount(pulses["delay"])
    delays = np.flatnonzero(counts)
    panel.vlines(dm_of_delays(pulses)[delays], 0, counts[delays], color="tab:blue", linewidth=1)
    panel.set_ylim(bottom=0)


def draw_time(panel: Axes, pulses: Array) -> None:
    """Time against DM in circles whose area grows with S/N, and marked lines with an edge."""
    panel.set(xlabel="time at the top of the band / s", ylabel="DM / (pc/cm$^3$)")
    if not len(pulses):
        return
    those = strongest_of_cells(pulses["time_top"], pulses["dm"])
    ratios = pulses["snr"][those]
    edges = np.where(pulses["word"][those] == b"RFI", 1.0, 0.0)
    circles = panel.scatter(pulses["time_top"][those], pulses["dm"][those], s=areas(ratios), c=ratios, linewidths=edges,
                            edgecolors=MARKED, alpha=0.8, rasterized=len(those) > RASTER_FROM)
    panel.figure.colorbar(circles, ax=panel, label="S/N")
    if len(those) < len(pulses):
        panel.set_title(f"{len(those)} of {len(pulses)} lines: the strongest of each of "
                        f"{CELLS[0]} x {CELLS[1]} cells", fontsize=9)


def draw_periods(panel: Axes, folds: Array) -> None:
    """S/N of folds against their period."""
    milliseconds = folds["period_s"] * 1000
    those = strongest_of_cells(milliseconds, folds["snr"])
    panel.scatter(milliseconds[those], folds["snr"][those], s=3, color="tab:orange", linewidths=0,
                  rasterized=len(those) > RASTER_FROM)
    panel.set(xlabel="period / ms", ylabel="S/N", title=f"{len(folds)} FOLD lines")


def draw_profile(panel: Axes, profile: Array, fold: np.void) -> None:
    """The profile of a fold over two turns, with the phase of the fold in the middle of each."""
    turn = len(profile)
    shifts = np.arange(2 * turn) - turn // 2
    panel.step(shifts / turn, profile[(fold["phase"] + shifts) % turn], where="mid", linewidth=0.8)
    for number in (0, 1):
        panel.axvline(number, color="tab:grey", linewidth=0.6)
    panel.set(xlabel=f"turns from phase {fold['phase']} of {turn} spectra", ylabel="S/N",
              title=f"fold: DM {fold['dm']:.3f}, {fold['period_s'] * 1000:.6f} ms, {fold['rows']} rows, "
                    f"S/N {fold['snr']:.1f}")


def dm_of_delays(lines: Array) -> Array:
    """The dispersion measure of each delay, by the lines."""
    dms = np.zeros(lines["delay"].max() + 1)
    dms[lines["delay"]] = lines["dm"]
    return dms


def by_strength(lines: Array) -> Array:
    """The lines, weaker ones first, so that stronger ones are drawn above them."""
    return lines[np.argsort(lines["snr"], kind="stable")]


def strongest_of_cells(along: Array, up: Array) -> Array:
    """Of many points that stand weaker ones first, the strongest in each cell of a panel, in their order."""
    if len(along) <= MOST_DRAWN:
        return np.arange(len(along))
    best = np.full(CELLS[0] * CELLS[1], -1)
    best[cell_numbers(along, CELLS[0]) * CELLS[1] + cell_numbers(up, CELLS[1])] = np.arange(len(along))
    return np.sort(best[best >= 0])


def cell_numbers(values: Array, count: int) -> Array:
    """In which of `count` cells between the least and the greatest value each of them lies."""
    least, greatest = values.min(), values.max()
    if least == greatest:
        return np.zeros(len(values), np.int64)
    cells: Array = np.minimum(((values - least) * (count / (greatest - least))).astype(np.int64), count - 1)
    return cells


def areas(ratios: Array) -> Array:
    """The areas of circles in square points: they grow with S/N, from the least one on."""
    least, greatest = ratios.min(), ratios.max()
    grown: Array = (GREATEST_AREA - LEAST_AREA) * (ratios - least) / max(greatest - least, LEAST_GROWTH)
    return LEAST_AREA + grown
