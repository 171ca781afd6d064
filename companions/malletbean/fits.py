"""`psr_fits`: the DADA file of search-mode PSRFITS files."""
from __future__ import annotations

import argparse
import sys
from collections.abc import Iterator, Sequence

import numpy as np

from .arrays import Array
from .conversion import (PICOSECONDS, VALUES_AT_A_TIME, VALUES_TO_LEVEL_BY, Observed, convert, even_pieces, native,
                         raised)
from .headers import refused
from .masks import mask_text
from .program import Words
from .psrfits import Layout, Rows, rows_of
from .refusal import WORDS, Refusal

# which polarisations a search adds, by POL_TYPE and NPOL: the first of IQUV is the intensity, and of AABBCRCI the first
# two are powers
POWERS = {"AABB": 2, "XXYY": 2, "LLRR": 2, "PPQQ": 2, "AABBCRCI": 2, "XXYYCRCI": 2, "IQUV": 1, "AA+BB": 1,
          "INTEN": 1, "I": 1}
# a row follows another to so much of a spectrum
FOLLOWS = 0.5
# what files of one observation have in common
COMMON = ("channels", "polarisations", "pol_type", "bits", "is_signed", "in_row", "seconds", "first", "step")


def psr_fits(words: Sequence[str]) -> None:
    """Writes the DADA file that the words ask for."""
    asked = parsed(words)
    files = [rows_of(path) for path in asked.files]
    observation = Observation(files, chosen_polarisations(files[0].layout, asked.only))
    for rows in files:
        if rows.is_cut:
            print(f"psr_fits: {rows.path} was cut: only {len(rows)} of its rows are there", file=sys.stderr)
    convert("psr_fits", asked.output, observation.observed(), observation, observation.said())


def parsed(words: Sequence[str]) -> argparse.Namespace:
    """The words of the command."""
    parser = Words(prog="psr_fits", description="Converts search-mode PSRFITS files to a DADA file.")
    parser.add_argument("files", metavar="FITS", nargs="+",
                        help="a search-mode PSRFITS file, or several of one observation that follow one another")
    parser.add_argument("output", metavar="OUT", help="the DADA file to write: a new file")
    parser.add_argument("--pol", metavar="K", dest="only", type=int,
                        help="take this polarisation alone, counted from 0 (those that a search adds, by POL_TYPE)")
    return parser.parse_args(words)


def chosen_polarisations(layout: Layout, only: int | None) -> tuple[int, ...]:
    """Which polarisations are written: the intensity, or the two whose powers a search adds."""
    count = layout.polarisations
    if only is not None:
        if not 0 <= only < count:
            raise Refusal(WORDS, f"argument --pol: {layout.path} has {count} polarisations, counted from 0")
        return (only,)
    powers = POWERS.get(layout.pol_type, count)
    if powers > 2 or powers > count:
        raise refused(layout.path, f"it has {count} polarisations of POL_TYPE {layout.pol_type or 'none'}: choose one "
                                   "by --pol K, K from 0 on")
    return tuple(range(powers))


class Observation:
    """The values of one observation in PSRFITS files that follow one another."""

    def __init__(self, files: Sequence[Rows], chosen: tuple[int, ...]) -> None:
        self._files, self._chosen = files, chosen
        count = 0
        for rows in files:
            check_follows(rows, files[0], count)
            count += len(rows) * rows.layout.in_row
        self._uniform = self._uniform_scales()
        bits = files[0].layout.bits
        self.bits = None if self._uniform is None or bits == 32 else max(bits, 8)

    def observed(self) -> Observed:
        """What the header of the DADA file says."""
        layout = self._files[0].layout
        return Observed(layout.channels, len(self._chosen), layout.seconds,
                        layout.first + layout.step * (layout.channels - 1) / 2, layout.step * layout.channels,
                        layout.start, layout.others)

    def said(self) -> Iterator[str]:
        """What was made of scales, offsets and weights."""
        layout = self._files[0].layout
        names = [layout.pol_type or "no POL_TYPE", f"{len(self._chosen)} of {layout.polarisations} polarisations"]
        yield ", ".join(names)
        if self._uniform is None:
            yield "DAT_SCL, DAT_OFFS or DAT_WTS change from row to row: they were applied"
            return
        yield "DAT_SCL and DAT_OFFS of a channel are the same in all rows: its values stay as they are in the file"
        without = np.flatnonzero(self._uniform == 0)
        if len(without):
            yield f"without weight in all rows, so 0 or the mean: mask to try: {mask_text(without)}"

    def pieces(self) -> Iterator[Array]:
        """All values, row by row."""
        for rows in self._files:
            for number in range(len(rows)):
                yield from self._row(rows, number)

    def sampled(self) -> Sequence[Array]:
        """Rows that lie evenly in the observation, or parts of them."""
        places = [(rows, number) for rows in self._files for number in range(len(rows))]
        layout = self._files[0].layout
        in_row = layout.in_row * layout.channels * len(self._chosen)
        several = even_pieces(len(places), max(VALUES_TO_LEVEL_BY // in_row, 1))
        taken = [places[place] for first, count in several for place in range(first, first + count)]
        most = max(1, VALUES_TO_LEVEL_BY // len(taken) // (layout.channels * len(self._chosen)))
        return [np.concatenate(list(self._row(*place)))[:most] for place in taken]

    def _row(self, rows: Rows, number: int) -> Iterator[Array]:
        """The values of a row in pieces, by spectrum, channel and polarisation."""
        raw = rows.raw(number)[:, self._chosen, :]
        at_a_time = max(1, VALUES_AT_A_TIME // raw[0].size)
        scales, offsets, weights = rows.scales(number)
        for begin in range(0, len(raw), at_a_time):
            values = raw[begin:begin + at_a_time]
            if self._uniform is None:
                values = values.astype(np.float32) - np.float32(rows.layout.zero)
                values = values * scales[self._chosen, :] + offsets[self._chosen, :]
                values[:, :, weights == 0] = np.nan
            elif self.bits is None:
                values = np.where(self._uniform == 0, np.nan, values)
            else:
                is_signed = rows.layout.is_signed
                values = raised(native(values), rows.layout.bits) if is_signed else values.copy()
                values[:, :, self._uniform == 0] = 0
            yield values.transpose(0, 2, 1)

    def _uniform_scales(self) -> Array | None:
        """The weights of channels, where scales, offsets and whether there is a weight are the same in all rows."""
        first = self._files[0].scales(0)
        for rows in self._files:
            for number in range(len(rows)):
                scales, offsets, weights = rows.scales(number)
                is_same = (np.array_equal(scales, first[0]) and np.array_equal(offsets, first[1])
                           and np.array_equal(weights == 0, first[2] == 0))
                if not is_same:
                    return None
        return None if (first[0] <= 0).any() else first[2]


def check_follows(rows: Rows, first: Rows, count: int) -> None:
    """Refuses a file that doesn't go on where so many spectra of the first one and those after it end, and rows between
    which some are missing."""
    layout = rows.layout
    for name in COMMON:
        if getattr(layout, name) != getattr(first.layout, name):
            raise refused(rows.path, f"its {name} differs from that of the first file")
    early = (layout.start - first.layout.start) / PICOSECONDS / layout.seconds - count
    if abs(early) > FOLLOWS:
        raise refused(rows.path, f"it begins {early:.1f} spectra after the end of the file before it")
    apart = rows.starts() - np.arange(len(rows)) * float(layout.in_row)
    gaps = np.flatnonzero(np.abs(np.diff(apart)) > FOLLOWS)
    if len(gaps):
        row = int(gaps[0])
        missing = apart[row + 1] - apart[row]
        raise refused(rows.path, f"between its rows {row} and {row + 1}, counted from 0, {missing:.1f} spectra are "
                                 "missing")
