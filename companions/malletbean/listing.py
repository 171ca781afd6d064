"""Candidates as files that people and other programs read."""
from __future__ import annotations

import json
import os
from collections.abc import Callable, Sequence
from typing import IO, Any

import numpy as np

from .arrays import Array
from .bands import are_narrow, with_flag
from .candidates import check_fits
from .grouping import DAY, DAY_ZERO, Searched, candidate_table
from .headers import Header, header
from .manifest import Hunt, SearchPass, read_manifest
from .output import whole_file
from .presto import inf_text
from .refusal import TEXT, Refusal
from .texts import read

# how a column is written where not as it is
FORMATS = {
    "dm": "%.3f", "dm_error": "%.3f", "ratio": "%.3f", "snr": "%.3f", "time_top": "%.9f", "time_foot": "%.9f",
    "period_s": "%.9f", "width_ms": "%.6f",
}
JSON_VERSION = 1
# a pulse may be found so many errors of its dispersion measure below it
DM_ERRORS = 3


def write_candidates(folder: str) -> Array:
    """Writes the candidates of the hunt in a folder as candidates.csv, .json, .cand, and .singlepulse with .inf."""
    hunt = read_manifest(folder)
    searches = searches_of(folder, hunt)
    table = candidates_of(folder, hunt, searches)
    finest = min(searches, key=lambda search: search.averaged).head
    for suffix, write in FORMS.items():
        with whole_file(os.path.join(folder, f"candidates{suffix}")) as name:
            with open(name, "w", encoding="ascii") as file:
                write(file, table, finest)
    # PRESTO looks for it beside candidates.singlepulse
    with whole_file(os.path.join(folder, "candidates.inf")) as name, open(name, "w", encoding="ascii",
                                                                          errors="replace") as file:
        file.write(inf_text(finest, 0, finest.spectra, "candidates", "Candidates of psr_hunt, whose DMs differ"))
    return table


def candidates_of(folder: str, hunt: Hunt, searches: Sequence[Searched]) -> Array:
    """The candidates of a hunt, the strongest first, with all their flags."""
    table = candidate_table(searches)
    # lines of wide boxes have a greater ratio than their true S/N; searches begin below the least dispersion measure
    is_low = table["dm"] + DM_ERRORS * table["dm_error"] < hunt.dm_low
    table = table[(table["snr"] >= hunt.snr) & ~is_low]
    table["flag"] = with_flag(table["flag"], are_narrow(folder, hunt, table), "narrow")
    return table


def searches_of(folder: str, hunt: Hunt) -> list[Searched]:
    """The lines of all searches of a hunt. Those that fold have the pulses of others once more."""
    return [searched(folder, hunt, search) for search in hunt.searches if not search.fold_max]


def searched(folder: str, hunt: Hunt, search: SearchPass) -> Searched:
    """The lines of one search of a hunt. A search counts masked channels, which have the mean alone, as cells."""
    level = hunt.level(search)
    head = header(os.path.join(folder, level.path))
    text = os.path.join(folder, search.output)
    entries = read(text)
    if len(entries) != 1:
        raise Refusal(TEXT, f"{text} refused: it has several observations")
    check_fits(text, entries[0], head, search.mean, search.sd)
    return Searched(
        pulses=entries[0].pulses,
        head=head.without(hunt.mask),
        mean=search.mean,
        deviation=search.sd if level.deviation is None else level.deviation,
        averaged=search.average,
        zero_dm=search.zero_dm,
        name=search.name,
        min_delay=search.min_delay,
        max_delay=search.max_delay,
        raised=tuple((one.first, one.until) for one in search.raised),
    )


def write_csv(file: IO[str], table: Array) -> None:
    """Writes a line of names and a line for each row."""
    names = [name for name in table.dtype.names or () if name != "word"]
    file.write(",".join(names) + "\n")
    form = ",".join(FORMATS.get(name, "%s") for name in names) + "\n"
    columns = [csv_values(table, name) for name in names]
    file.writelines(form % row for row in zip(*columns))


def csv_values(table: Array, name: str) -> Sequence[Any]:
    """A column as values that can be written; a time that is not known is empty."""
    column = table[name]
    if name == "mjd_infinite":
        return mjd_texts(table["utc_infinite"])
    if column.dtype.kind == "M":
        return ["" if text == "NaT" else text for text in np.datetime_as_string(column).tolist()]
    if column.dtype.kind == "b":
        column = column.astype(int)
    values: list[Any] = column.tolist()
    return values


def mjd_texts(times: Array) -> list[str]:
    """Times as MJD in UTC with 12 decimals, which hold a ten millionth of a second; empty where it is not known."""
    since = (times - DAY_ZERO).astype(np.int64).tolist()
    # a nanosecond is 1/86.4 of the last decimal
    return ["" if unknown else f"{one // DAY}.{one % DAY * 10 // 864:012d}"
            for one, unknown in zip(since, np.isnat(times).tolist())]


def json_rows(table: Array) -> list[dict[str, Any]]:
    """The rows as objects; a time that is not known is null, and flags are a list."""
    columns: dict[str, Sequence[Any]] = {}
    for name in table.dtype.names or ():
        if table[name].dtype.kind == "M":
            columns[name] = [text or None for text in csv_values(table, name)]
        elif name == "flag":
            columns[name] = [text.split() for text in table[name].tolist()]
        elif table[name].dtype.kind == "f":
            columns[name] = [None if value != value else round(value, 9) for value in table[name].tolist()]
        else:
            columns[name] = table[name].tolist()
    return [dict(zip(columns, row)) for row in zip(*columns.values())]


def write_json(file: IO[str], table: Array) -> None:
    """Writes an object of the schema docs/candidates.schema.json."""
    json.dump({"version": JSON_VERSION, "candidates": json_rows(table)}, file, indent=1)
    file.write("\n")


def samples_of(table: Array, finest: Header) -> tuple[Array, Array]:
    """In spectra of the finest file: which one passes the top of the band at the middle of each box, and its width."""
    widths = np.maximum(np.rint(table["width_ms"] / 1000 / finest.seconds), 1).astype(np.int64)
    # half a thousandth of a spectrum, lest a whole number be a little less
    return np.floor(table["time_top"] / finest.seconds + 0.0005).astype(np.int64), widths


def write_cand(file: IO[str], table: Array, finest: Header) -> None:
    """Writes the columns of Heimdall: S/N, sample, time, filter, trial, DM, members, first and last sample.

    Times are those at the top of the band, samples are spectra of the finest file, the filter is the logarithm to the
    base 2 of the width, and the trial is the delay in spectra of its own search.
    """
    samples, widths = samples_of(table, finest)
    begins = samples - widths // 2
    columns = (table["snr"], samples, table["time_top"], np.rint(np.log2(widths)), table["delay"], table["dm"],
               table["lines"], begins, begins + widths)
    write_rows(file, "%.4f\t%d\t%.6f\t%d\t%d\t%.3f\t%d\t%d\t%d\n", columns)


def write_presto(file: IO[str], table: Array, finest: Header) -> None:
    """Writes what PRESTO's tools read, in spectra of the finest file."""
    samples, widths = samples_of(table, finest)
    write_singlepulse(file, (table["dm"], table["snr"], samples * finest.seconds, samples, widths))


def write_singlepulse(file: IO[str], columns: Sequence[Array]) -> None:
    """Writes DM, S/N, time and sample at which the middle of a box passes the top of the band, and the width."""
    file.write("# DM      Sigma      Time (s)     Sample    Downfact\n")
    write_rows(file, "%7.2f %7.2f %13.6f %10d     %3d\n", columns)


def write_rows(file: IO[str], form: str, columns: Sequence[Array]) -> None:
    """Writes a line of this form for each row of some columns."""
    file.writelines(form % row for row in zip(*(column.tolist() for column in columns)))


# how candidates are written, by the end of the file's name
FORMS: dict[str, Callable[[IO[str], Array, Header], None]] = {
    ".csv": lambda file, table, _: write_csv(file, table),
    ".json": lambda file, table, _: write_json(file, table),
    ".cand": write_cand,
    ".singlepulse": write_presto,
}
