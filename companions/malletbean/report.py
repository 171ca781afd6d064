"""The report of a hunt: `report.html`, one file that opens without a network."""
from __future__ import annotations

import base64
import io
import os
import shlex
from collections.abc import Callable, Sequence
from dataclasses import replace
from datetime import datetime, timezone
from itertools import repeat
from typing import Any

import jinja2
import numpy as np
from matplotlib.figure import Figure  # type: ignore[import]

from .arrays import Array
from .candidates import fold_table, strongest
from .grouping import Searched, lines_of
from .headers import header
from .listing import candidates_of, csv_values, searched, searches_of
from .manifest import Hunt, SearchPass, read_manifest
from .output import whole_file
from .page import PAGE
from .pictures import candidate_picture, overview
from .refusal import Refusal
from .samples import Samples
from .series import fold_of, fold_picture
from .texts import read
from .workers import workers

# rows of the table, folds that get a picture, and dots of an inch
MOST_ROWS, MOST_FOLDS, DOTS = 2000, 6, 100
# so many stretches of a search with a higher threshold are named
MOST_RAISED = 8
# periods that differ by no more than such a part are one
SAME_PERIOD = 0.002
FLAG_MEANINGS = (
    ("dm0", "strongest at DM 0"), ("edge", "strongest at the end of the delays that were searched"),
    ("curve", "S/N against DM fits no dispersed pulse of this width"),
    ("crowd", "in the same second as a hundred others"), ("narrow", "strong in a quarter of the band alone"),
)
COLUMNS = (
    ("number", "#", "rank by S/N", "{}"), ("snr", "S/N", "true signal-to-noise ratio", "{:.2f}"),
    ("dm", "DM", "pc/cm³", "{:.2f}"), ("dm_error", "±", "error of DM, one deviation", "{:.2f}"),
    ("time_top", "time / s", "at the top of the band, after the first spectrum", "{:.6f}"),
    ("mjd_infinite", "MJD at infinite frequency", "UTC at the telescope", "{}"),
    ("width_ms", "width / ms", "of the box", "{:.3g}"), ("averaged", "averaged", "spectra in one", "{}"),
    ("lines", "lines", "lines of the search in this candidate", "{}"), ("search", "search", "which search", "{}"),
    ("flag", "flags", "why one may doubt it", "{}"),
)


def write_report(folder: str, most: int = 20) -> None:
    """Writes the report of the hunt in a folder, with a picture of each of the first `most` candidates."""
    hunt = read_manifest(folder)
    searches = searches_of(folder, hunt)
    table, folds = candidates_of(folder, hunt, searches), folds_of(folder, hunt)
    text = jinja2.Environment(autoescape=True).from_string(PAGE).render(
        **said_of(hunt, table, folds), **rows_of(table, most), **searches_said(folder, hunt),
        observation=observation_lines(hunt), header=header_of(folder, hunt),
        overview=embedded(overview(dots_of(searches), table)), folds=folds,
        pictures=pictures_of(folder, hunt, searches, table[:most]),
    )
    with whole_file(os.path.join(folder, "report.html")) as name, open(name, "w", encoding="utf-8") as file:
        file.write(text)


def said_of(hunt: Hunt, table: Array, folds: Sequence[dict[str, str]]) -> dict[str, Any]:
    """What stands at the top and at the end of the page."""
    sky = hunt.observation
    top, foot = sky.freq + abs(sky.bw) / 2, sky.freq - abs(sky.bw) / 2
    clean = table[table["flag"] == ""]
    strongest_one = f"{clean['snr'][0]:.1f} at DM {clean['dm'][0]:.1f}" if len(clean) else "none"
    source = sky.source or os.path.basename(hunt.inputs[0])
    named = [sky.telescope, sky.utc_start, f"{sky.spectra * sky.tsamp:.1f} s", f"{foot:g} to {top:g} MHz"]
    return {
        "title": f"{source}: candidates at DM {hunt.dm_low:g} to {hunt.dm_high:g}",
        "subtitle": ", ".join(part for part in named if part),
        "tiles": [(len(clean), "candidates without a flag"), (len(table) - len(clean), "candidates with a flag"),
                  (strongest_one, "strongest S/N without a flag"),
                  *((one["brief"], "strongest fold") for one in folds[:1]),
                  (f"{hunt.dm_low:g} to {hunt.dm_high:g}", "DM in pc/cm³"), (f"{hunt.snr:g}", "least S/N looked for")],
        "flags": FLAG_MEANINGS,
        "plan": hunt.plan,
        "arguments": shlex.join(hunt.arguments),
        "commands": hunt.commands,
        "programs": hunt.programs,
        "written": datetime.now(timezone.utc).strftime("%Y-%m-%d %H:%M:%S"),
    }


def rows_of(table: Array, most: int) -> dict[str, Any]:
    """The table of the page: its columns, and the rows of the first candidates."""
    some = table[:MOST_ROWS]
    columns: dict[str, Sequence[Any]] = {name: csv_values(some, name) for name, *_ in COLUMNS[1:]}
    columns["number"] = range(1, len(some) + 1)
    rows = []
    for place in range(len(some)):
        cells = []
        for name, _, _, form in COLUMNS:
            value = columns[name][place]
            link = f"#candidate-{place + 1}" if name == "number" and place < most else ""
            cells.append({"value": value, "shown": form.format(value), "link": link, "kind": kind_of(name)})
        rows.append({"snr": columns["snr"][place], "dm": columns["dm"][place], "flag": columns["flag"][place],
                     "cells": cells})
    heads = [{"title": title, "meaning": meaning, "kind": kind_of(name)} for name, title, meaning, _ in COLUMNS]
    return {"columns": heads, "rows": rows, "count": len(table)}


def kind_of(name: str) -> str:
    """How a column is set: words stand at the left."""
    return {"search": "text", "flag": "text flag"}.get(name, "")


def observation_lines(hunt: Hunt) -> list[tuple[str, str]]:
    """What was observed and how, by name."""
    sky = hunt.observation
    return [
        ("Files", ", ".join(hunt.inputs)), ("Source", sky.source), ("Telescope", sky.telescope),
        ("Begin (UTC)", sky.utc_start), ("Begin (MJD)", "" if sky.mjd_start is None else f"{sky.mjd_start:.9f}"),
        ("Band", f"{sky.freq - abs(sky.bw) / 2:g} to {sky.freq + abs(sky.bw) / 2:g} MHz, {sky.nchan} channels, the "
                 f"{'highest' if sky.bw < 0 else 'lowest'} first"),
        ("Samples", f"{sky.nbit} bits every {sky.tsamp * 1e6:g} us, polarisations: {sky.npol}"),
        ("Length", f"{sky.spectra} spectra, {sky.spectra * sky.tsamp:.3f} s"),
        ("Mask", hunt.mask), ("Zero DM", "the mean of each spectrum was taken out" + (
            "" if hunt.zero_dm else ", except in levels whose searches say no")),
        ("Clip", "no" if hunt.clip is None else f"spectra farther than {hunt.clip:g} deviations off"),
        ("Bursts", "not looked for" if hunt.bursts is None else
         f"of interference in parts of the band, replaced by the mean: {len(hunt.bursts)}"),
    ]


def header_of(folder: str, hunt: Hunt) -> str:
    """The header of the first file that was searched, as it is."""
    path = os.path.join(folder, hunt.observation.paths[0])
    try:
        return "".join(f"{keyword:<16} {value}\n" for keyword, value in header(path).fields.items())
    except Refusal as refusal:
        return refusal.line


def searches_said(folder: str, hunt: Hunt) -> dict[str, Any]:
    """The rows of all searches, and what was searched with a higher threshold."""
    rows, raised = [], []
    for one in hunt.searches:
        found = read(os.path.join(folder, one.output))[0]
        cells = [one.average, "yes" if one.zero_dm else "no", f"{one.dm_low:.2f}", f"{one.dm_high:.2f}",
                 f"{one.min_delay} to {one.max_delay}", one.widths, f"{one.mean:g}", f"{one.sd:g}", f"{one.snr:g}",
                 one.spectra, len(found.folds if one.fold_max else found.pulses)]
        rows.append({"name": one.name, "cells": cells})
        raised += [f"{one.name}: the spectra {part.first} to {part.until} had too many lines, and were searched from "
                   f"the ratio {part.snr:g} on" for part in one.raised[:MOST_RAISED]]
        if len(one.raised) > MOST_RAISED:
            raised.append(f"{one.name}: so were {len(one.raised) - MOST_RAISED} more stretches")
    return {"searches": rows, "raised": raised}


def dots_of(searches: Sequence[Searched]) -> Array:
    """The time at the top, DM and S/N of all lines."""
    lines = lines_of(searches)
    dots = np.zeros(len(lines), [("time", "f8"), ("dm", "f8"), ("snr", "f8")])
    dots["time"], dots["snr"] = lines.middle - lines.delay / 2, lines.snr
    dots["dm"] = np.concatenate([search.pulses["dm"] for search in searches])
    return dots


def embedded(figure: Figure) -> str:
    """A picture as it stands in a page."""
    file = io.BytesIO()
    figure.savefig(file, format="png", dpi=DOTS)
    return "data:image/png;base64," + base64.b64encode(file.getvalue()).decode()


def pictures_of(folder: str, hunt: Hunt, searches: Sequence[Searched], table: Array) -> list[dict[str, Any]]:
    """The pictures of some candidates, several of them at a time; why there is none where there is none."""
    levels = {one.name: (os.path.join(folder, hunt.level(one).path), hunt.mask) for one in hunt.searches}
    # the lines of a search are not needed for a picture, and are many
    bare = {one.name: replace(one, pulses=one.pulses[:0]) for one in searches}
    asked = [(*levels[row["search"]], bare[row["search"]], row) for row in table]
    pictures = beside_each_other(candidate_source, asked)
    return [{"number": number + 1, "source": source, "why": why} for number, (source, why) in enumerate(pictures)]


def candidate_source(path: str, mask: str, search: Searched, row: np.void) -> Figure:
    """The picture of a candidate that a level has."""
    return candidate_picture(Samples([path], mask), search, row)


def fold_source(path: str, mask: str, delay: int, period: float) -> Figure:
    """The picture of a fold of a level."""
    samples = Samples([path], mask)
    return fold_picture(samples, fold_of(samples, delay, period))


def beside_each_other(draw: Callable[..., Figure], asked: Sequence[tuple[Any, ...]]) -> list[tuple[str, str]]:
    """Pictures as they stand in a page, drawn on all cores; in place of one that can't be drawn, why that is so."""
    if not asked:
        return []
    cores = min(len(os.sched_getaffinity(0)), len(asked))
    with workers(cores) as pool:
        return [*pool.map(drawn, repeat(draw), asked)]


def drawn(draw: Callable[..., Figure], asked: tuple[Any, ...]) -> tuple[str, str]:
    """A picture, or why there is none."""
    try:
        return embedded(draw(*asked)), ""
    except Refusal as refusal:
        return "", refusal.line


def folds_of(folder: str, hunt: Hunt) -> list[dict[str, str]]:
    """The strongest folds, each period once, with their pictures."""
    best = []
    for one in hunt.searches:
        if not one.fold_max:
            continue
        search = searched(folder, hunt, one)
        found = read(os.path.join(folder, one.output))[0].folds
        table = fold_table(found, search.head, search.mean, search.deviation)
        best += [(one, row) for row in table[strongest(table, table["snr"], MOST_FOLDS)[0]]]
    chosen: list[tuple[SearchPass, np.void]] = []
    for one, row in sorted(best, key=lambda fold: -float(fold[1]["snr"])):
        if all(abs(row["period_s"] / other["period_s"] - 1) > SAME_PERIOD for _, other in chosen):
            chosen.append((one, row))
    chosen = chosen[:MOST_FOLDS]
    asked = [(os.path.join(folder, hunt.level(one).path), hunt.mask, int(row["delay"]), float(row["period_s"]))
             for one, row in chosen]
    return [{"title": f"{row['period_s'] * 1000:.6f} ms at DM {row['dm']:.3f}: S/N {row['snr']:.1f} over {row['rows']} "
                      f"periods ({one.name})", "brief": f"{row['snr']:.1f} at {row['period_s'] * 1000:.6g} ms",
             "source": source, "why": why}
            for (one, row), (source, why) in zip(chosen, beside_each_other(fold_source, asked))]
