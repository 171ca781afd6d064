"""Headers of SIGPROC filterbanks, as they are read."""
from __future__ import annotations

import os
import struct
from collections.abc import Iterator
from dataclasses import dataclass
from typing import BinaryIO

import numpy as np

from .headers import refused
from .refusal import Refusal, some_of

# the kind of each keyword's number; some keywords have a string, and some nothing
KINDS = {keyword: "i" for keyword in (
    "machine_id", "telescope_id", "data_type", "barycentric", "pulsarcentric", "nbits", "nsamples", "nchans", "nifs",
    "nbeams", "ibeam", "nbins",
)} | {keyword: "d" for keyword in (
    "az_start", "za_start", "src_raj", "src_dej", "tstart", "tsamp", "fch1", "foff", "fchannel", "refdm", "period",
)} | {"signed": "b", "npuls": "q"} | dict.fromkeys(("source_name", "rawdatafile"), "s") | dict.fromkeys(
    ("FREQUENCY_START", "FREQUENCY_END"), "")
# the kinds that --keyword names
KIND_NAMES = {"int": "i", "long": "q", "double": "d", "byte": "b", "string": "s", "none": ""}
LONGEST_KEYWORD, LONGEST_STRING = 80, 4096
# the numbers that SIGPROC and its users gave telescopes
TELESCOPES = {0: "Fake", 1: "Arecibo", 2: "Ooty", 3: "Nancay", 4: "Parkes", 5: "Jodrell", 6: "GBT", 7: "GMRT",
              8: "Effelsberg", 9: "ATA", 10: "SRT", 11: "LOFAR", 12: "VLA", 20: "CHIME", 21: "FAST", 64: "MeerKAT",
              65: "KAT-7"}
# what the kinds of data are, where they aren't filterbanks
DATA_TYPES = {2: "a time series", 3: "profiles of pulses", 6: "dedispersed sub-bands"}
# numbers that become fields, with the keyword of DADA
KEPT = {"data_type": "DATA_TYPE", "barycentric": "BARYCENTRIC", "pulsarcentric": "PULSARCENTRIC", "refdm": "REFDM",
        "machine_id": "MACHINE_ID", "telescope_id": "TELESCOPE_ID", "nbeams": "NBEAM", "ibeam": "IBEAM",
        "az_start": "AZ_START", "za_start": "ZA_START"}

Number = int | float
Entries = dict[str, list[Number | str]]


@dataclass(frozen=True)
class Filterbank:
    """What the header of a SIGPROC filterbank says of its data."""

    channels: int
    bits: int
    ifs: int
    is_signed: bool
    seconds: float
    # of the first channel's centre, and from one channel to the next, in MHz
    first: float
    step: float
    start: float | None
    # how many spectra there are, where the header says it
    spectra: int | None
    others: dict[str, str]
    # what is said of the data on standard error
    warnings: tuple[str, ...]

    @property
    def in_one(self) -> int:
        """How many values a spectrum has."""
        return self.ifs * self.channels

    @property
    def together(self) -> int:
        """How many spectra fill whole bytes."""
        return next(count for count in (1, 2, 4, 8) if count * self.in_one * self.bits % 8 == 0)


@dataclass(frozen=True)
class Source:
    """The file that is read, from its first byte to its last."""

    path: str
    file: BinaryIO
    kinds: dict[str, str]

    def some(self, count: int) -> bytes:
        """The next bytes, fewer only at the end."""
        return some_of(self.path, self.file, count)

    def refused(self, why: str) -> Refusal:
        """The refusal of the header."""
        return refused(self.path, why)

    def part(self, count: int) -> bytes:
        """The next bytes of the header."""
        some = self.some(count)
        if len(some) < count:
            raise self.refused("it ends before HEADER_END")
        return some

    def number(self, kind: str) -> Number:
        """The next number of the header, the low byte first."""
        value: Number = struct.unpack(f"<{kind}", self.part(struct.calcsize(f"<{kind}")))[0]
        return value

    def word(self, longest: int) -> str:
        """The next word of the header: how many bytes it has, and these."""
        length = int(self.number("i"))
        if not 0 <= length <= longest:
            raise self.refused("it is no header of a SIGPROC filterbank")
        return self.part(length).decode("latin-1")

    def entries(self) -> Entries:
        """The values of each keyword of the header, behind which the data begin."""
        entries: Entries = {}
        if self.word(LONGEST_KEYWORD) != "HEADER_START":
            raise self.refused("it does not begin with HEADER_START")
        while (keyword := self.word(LONGEST_KEYWORD)) != "HEADER_END":
            kind = self.kinds.get(keyword)
            if kind is None:
                raise self.refused(f"{ascii(keyword)} is no keyword that is known: if you know the kind of its value, "
                                   f"pass it over by --keyword {keyword}=KIND, with one of {', '.join(KIND_NAMES)}")
            if kind:
                value = self.word(LONGEST_STRING) if kind == "s" else self.number(kind)
                entries.setdefault(keyword, []).append(value)
        return entries

    def bank(self) -> Filterbank:
        """The filterbank of the header."""
        return bank_of(self, self.entries())


def bank_of(source: Source, entries: Entries) -> Filterbank:
    """The filterbank of a header's values."""
    def number(keyword: str, default: Number | None = None) -> Number:
        value = entries[keyword][0] if keyword in entries else default
        if not isinstance(value, (int, float)):
            raise source.refused(f"it has no {keyword}")
        if not np.isfinite(value):
            raise source.refused(f"its {keyword} is no number")
        return value

    def text(keyword: str) -> str:
        return str(entries.get(keyword, [""])[0])

    centres = [float(value) for value in entries.get("fchannel", [])]
    channels = int(number("nchans", len(centres) or None))
    if len(centres) > 1:
        step = (centres[-1] - centres[0]) / (len(centres) - 1)
        even = centres[0] + step * np.arange(len(centres))
        # the edges of channels are taken to a kHz
        if len(centres) != channels or np.abs(even - centres).max() > 0.0005:
            raise source.refused("its channels don't lie evenly")
        entries = entries | {"fch1": [centres[0]], "foff": [step]}
    bits = int(number("nbits"))
    if bits not in (1, 2, 4, 8, 16, 32):
        raise source.refused(f"it has {bits} bits, and only 1, 2, 4, 8, 16 and 32 are taken")
    kept = {field: f"{entries[keyword][0]}" for keyword, field in KEPT.items() if keyword in entries}
    named = {
        "SOURCE": text("source_name"),
        "TELESCOPE": TELESCOPES.get(int(number("telescope_id", -1)), ""),
        "RA": sexagesimal(number("src_raj")) if "src_raj" in entries else "",
        "DEC": sexagesimal(number("src_dej")) if "src_dej" in entries else "",
        "RAW_FILE": os.path.basename(text("rawdatafile")),
    }
    return Filterbank(
        channels=channels,
        bits=bits,
        ifs=int(number("nifs", 1)),
        is_signed=number("signed", 0) != 0 and bits in (8, 16),
        seconds=number("tsamp"),
        first=number("fch1"),
        step=number("foff"),
        start=number("tstart") if "tstart" in entries else None,
        spectra=int(number("nsamples", 0)) or None,
        others=named | kept,
        warnings=tuple(warnings_of(source.path, entries)),
    )


def warnings_of(path: str, entries: Entries) -> Iterator[str]:
    """What a search of these data has to know, and doesn't by itself."""
    def value(keyword: str) -> Number | str:
        return entries.get(keyword, [0])[0]

    if value("barycentric") or value("pulsarcentric"):
        where = "barycentre" if value("barycentric") else "pulsar"
        yield f"{path} was corrected to the {where}: times in it are no times of a telescope"
    kind = value("data_type")
    if kind in DATA_TYPES:
        yield f"{path} has {DATA_TYPES[int(kind)]} (data_type {kind}), and is taken as a filterbank"
    if value("refdm") and kind != 1:
        yield f"{path} was dedispersed, by its header, at DM {value('refdm')}: what is found lies that much higher"


def sexagesimal(value: Number) -> str:
    """Hours or degrees, minutes and seconds, with colons, of a number as 43715.81: 4 h, 37 min and 15.81 s."""
    whole, fraction = divmod(round(abs(value) * 1000), 1000)
    rest, seconds = divmod(whole, 100)
    upper, minutes = divmod(rest, 100)
    return f"{'-' if value < 0 else ''}{upper:02}:{minutes:02}:{seconds:02}.{fraction:03}"
