"""Headers and rows of search-mode PSRFITS files."""
from __future__ import annotations

import os
import warnings
from dataclasses import dataclass
from fractions import Fraction
from typing import Any

import numpy as np
from astropy.io import fits  # type: ignore[import]
from astropy.utils.exceptions import AstropyWarning  # type: ignore[import]

from .arrays import Array
from .conversion import PICOSECONDS, SECONDS_IN_DAY
from .headers import refused
from .refusal import opened, some_of, unread

# bits of values, with the kind of numbers in which they are stored
BITS = {1: "u", 2: "u", 4: "u", 8: "u", 16: "i", 32: "f"}
# fields of the header of DADA that those of PSRFITS become
KEPT = {"SOURCE": "SRC_NAME", "TELESCOPE": "TELESCOP", "RECEIVER": "FRONTEND", "INSTRUMENT": "BACKEND", "RA": "RA",
        "DEC": "DEC"}
# channels lie evenly to so much of their width
EVEN = 0.1


@dataclass(frozen=True)
class Layout:
    """What the headers of a PSRFITS file say of its data. Frequencies are in MHz."""

    path: str
    channels: int
    polarisations: int
    pol_type: str
    bits: int
    # in two's complement, or as FITS has 16 bits
    is_signed: bool
    # which stored value stands for 0
    zero: float
    # spectra of a row
    in_row: int
    seconds: float
    # of the first channel's centre, and from one channel to the next
    first: float
    step: float
    # of the file's first spectrum, in picoseconds after the beginning of day 0 of MJD
    start: int
    others: dict[str, str]


class Rows:
    """The rows of one PSRFITS file."""

    def __init__(self, path: str) -> None:
        self.path = path
        primary, table, columns, place = headers_of(path)
        self._table = table
        size = int(table["NAXIS1"])
        rows = min(int(table["NAXIS2"]), max(os.path.getsize(path) - place, 0) // size)
        self.is_cut = rows < int(table["NAXIS2"])
        if rows == 0:
            raise refused(path, "its SUBINT table has no whole row")
        if columns.dtype.itemsize != size:
            raise refused(path, f"a row of its SUBINT table has {size} bytes, and its columns {columns.dtype.itemsize}")
        try:
            self._rows = np.memmap(path, columns.dtype.newbyteorder(">"), "r", place, (rows,))
        except (OSError, ValueError) as fault:
            raise refused(path, f"its rows can't be read: {fault}") from fault
        self._columns: tuple[str, ...] = self._rows.dtype.names or ()
        self.layout = self._layout(primary)
        self._check_size()

    def __len__(self) -> int:
        return len(self._rows)

    def starts(self) -> Array:
        """When the rows begin, in spectra after the first one of the file; counted where the table doesn't say it."""
        layout = self.layout
        counted = np.arange(len(self)) * float(layout.in_row)
        if "OFFS_SUB" not in self._columns:
            return counted
        middles = np.array(self._rows["OFFS_SUB"], float)
        starts: Array = (middles - middles[0]) / layout.seconds
        return starts if middles.any() else counted

    def raw(self, number: int) -> Array:
        """The values of a row as they are stored, by spectrum, polarisation and channel."""
        layout = self.layout
        data = np.array(self._rows["DATA"][number]).reshape(-1)
        if layout.bits < 8:
            # the first value is in the high bits
            shifts = np.arange(8 - layout.bits, -1, -layout.bits, dtype=np.uint8)
            data = (data.view(np.uint8)[:, None] >> shifts & np.uint8(2**layout.bits - 1)).reshape(-1)
        elif layout.bits == 8:
            data = data.view(np.int8 if layout.is_signed else np.uint8)
        shaped: Array = data.reshape(layout.in_row, layout.polarisations, layout.channels)
        return shaped

    def scales(self, number: int) -> tuple[Array, Array, Array]:
        """Scale and offset of each polarisation and channel of a row, and the weight of each channel."""
        layout, names = self.layout, self._columns
        shape = layout.polarisations, layout.channels

        def column(name: str, default: float) -> Array:
            values = np.full(shape, default, np.float32)
            if name in names:
                stored = np.array(self._rows[name][number], np.float32).reshape(-1)
                values = stored[:shape[0] * shape[1]].reshape(shape)
            return values

        weights = np.ones(layout.channels)
        if "DAT_WTS" in names:
            weights = np.array(self._rows["DAT_WTS"][number], float).reshape(-1)
        return column("DAT_SCL", 1), column("DAT_OFFS", 0), weights

    def _check_size(self) -> None:
        layout, data = self.layout, self._rows["DATA"][0]
        bits = layout.in_row * layout.channels * layout.polarisations * layout.bits
        if 8 * data.nbytes != bits or data.dtype.base.kind != BITS[layout.bits]:
            raise refused(self.path, f"DATA has {data.nbytes} bytes of type {data.dtype.base} in a row, where "
                                     f"{bits / 8:g} of {layout.bits} bits are expected")

    def _layout(self, primary: fits.Header) -> Layout:
        table, path = self._table, self.path
        bits = int(self._number("NBITS", self._number("NBIT", 8)))
        if bits not in BITS:
            raise refused(path, f"it has {bits} bits, and only {', '.join(map(str, BITS))} are taken")
        channels, seconds = int(self._number("NCHAN")), float(self._number("TBIN"))
        if not seconds > 0:
            raise refused(path, f"its TBIN is {seconds}")
        first, step = self._frequencies(primary, channels)
        start = Fraction(int(primary.get("STT_IMJD", 0)) * SECONDS_IN_DAY + int(primary.get("STT_SMJD", 0)))
        start += Fraction(float(primary.get("STT_OFFS", 0))) + Fraction(self._first_offset(seconds))
        return Layout(
            path=path,
            channels=channels,
            polarisations=int(self._number("NPOL", 1)),
            pol_type=str(table.get("POL_TYPE", "")).strip().upper(),
            bits=bits,
            is_signed=bool(int(self._number("SIGNINT", 0))) or bits == 16,
            zero=float(self._number("ZERO_OFF", 0)) - self._number(f"TZERO{self._columns.index('DATA') + 1}", 0),
            in_row=int(self._number("NSBLK")),
            seconds=seconds,
            first=first,
            step=step,
            start=round(start * PICOSECONDS),
            others={field: str(primary.get(keyword, "")).strip() for field, keyword in KEPT.items()},
        )

    def _number(self, keyword: str, default: float | None = None) -> float | int:
        value = self._table.get(keyword, default)
        if isinstance(value, str) and value.strip() in ("*", ""):
            value = default
        try:
            return value if isinstance(value, (int, float)) else float(str(value))
        except ValueError:
            raise refused(self.path, f"its {keyword} is {'missing' if value is None else 'no number'}") from None

    def _frequencies(self, primary: fits.Header, channels: int) -> tuple[float, float]:
        """The centre of the first channel, and how far the next ones lie apart."""
        if "DAT_FREQ" in self._columns:
            centres = np.array(self._rows["DAT_FREQ"][0], float).reshape(-1)[:channels]
            if len(centres) == channels and channels > 1:
                step = float(centres[-1] - centres[0]) / (channels - 1)
                if np.abs(centres - centres[0] - step * np.arange(channels)).max() > EVEN * abs(step):
                    raise refused(self.path, "its channels don't lie evenly (DAT_FREQ)")
                return float(centres[0]), step
        width = float(primary.get("OBSBW", 0))
        if not width:
            raise refused(self.path, "it has neither DAT_FREQ nor OBSBW")
        return float(primary["OBSFREQ"]) - width / 2 + width / channels / 2, width / channels

    def _first_offset(self, seconds: float) -> float:
        """When the first row begins, in seconds after STT."""
        in_row = float(self._number("NSBLK")) * seconds
        if "OFFS_SUB" in self._columns and float(self._rows["OFFS_SUB"][0]):
            return float(self._rows["OFFS_SUB"][0]) - in_row / 2
        return float(self._number("NSUBOFFS", 0)) * in_row


def rows_of(path: str) -> Rows:
    """The rows of a PSRFITS file, or the refusal of one whose headers no program can read."""
    try:
        return Rows(path)
    except (fits.VerifyError, ValueError, TypeError, AttributeError, LookupError, ArithmeticError) as fault:
        why = " ".join(str(fault).split())
        raise refused(path, f"its headers can't be read: {why or type(fault).__name__}") from fault


def headers_of(path: str) -> tuple[fits.Header, fits.Header, Any, int]:
    """The headers of a PSRFITS file and of its table of data, the columns of this, and where its rows begin."""
    with opened(path) as file:
        front = some_of(path, file, 9)
    if front != b"SIMPLE  =":
        raise refused(path, "it is no FITS file")
    try:
        with warnings.catch_warnings():
            # a file that was cut is said in one line
            warnings.simplefilter("ignore", AstropyWarning)
            with fits.open(path, memmap=True) as whole:
                return table_of(path, whole)
    except OSError as fault:
        if fault.strerror:
            raise unread(path, fault) from fault
        raise refused(path, f"it is no whole FITS file: {fault}") from fault


def table_of(path: str, whole: fits.HDUList) -> tuple[fits.Header, fits.Header, Any, int]:
    """What `headers_of` answers, of an open file."""
    primary = whole[0].header
    if str(primary.get("FITSTYPE", "PSRFITS")).strip() != "PSRFITS" or "SUBINT" not in whole:
        raise refused(path, "it is a FITS file, but no PSRFITS file with a SUBINT table")
    mode = str(primary.get("OBS_MODE", "SEARCH")).strip().upper()
    if mode not in ("SEARCH", "SRCH"):
        raise refused(path, f"its OBS_MODE is {mode}, and not SEARCH")
    table = whole["SUBINT"]
    if "DATA" not in table.columns.names:
        raise refused(path, "its SUBINT table has no DATA")
    return primary, table.header, table.columns, int(table.fileinfo()["datLoc"])
