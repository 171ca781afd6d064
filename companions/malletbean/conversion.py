"""DADA files that are made of observations in another form: their headers, and how values become those of a search."""
from __future__ import annotations

import sys
from collections.abc import Iterable, Iterator, Mapping, Sequence
from dataclasses import dataclass, field
from datetime import datetime, timedelta
from fractions import Fraction
from typing import Protocol

import numpy as np

from .arrays import Array
from .headers import LEAST_SIZE, TAKEN, fields_of, header_of, refused, with_value
from .level import COUNT_BYTES
from .number import multiplied
from .output import new_file
from .scaling import Scaler

# how many values are turned at a time: few enough for the caches
VALUES_AT_A_TIME = 2**20
# so many values at the most tell the scale of floats; a pipe of floats is turned so many at a time
VALUES_TO_LEVEL_BY = 2**23
# they come from so many pieces at the most, each of so many spectra at least
MOST_PIECES, LEAST_PIECE = 64, 128
# the most channels that are added into one
MOST_JOINED = 4096
# day 0 of MJD, and the days on which there were telescopes
DAY_ZERO = datetime(1858, 11, 17)
DAYS = range(1, 200_000)
SECONDS_IN_DAY = 86400
PICOSECONDS = 10**12
# a length of spectra that is taken as so much longer or shorter is said
SMALL_DRIFT = 1e-9


@dataclass(frozen=True)
class Observed:
    """What the header of a DADA file says of an observation. Frequencies are in MHz."""

    channels: int
    polarisations: int
    seconds: float
    centre: float
    # negative where the first channel is the highest
    width: float
    # of the first spectrum, in picoseconds after the beginning of day 0 of MJD
    start: int | None
    # further fields, of which those without a value are left out
    others: Mapping[str, str] = field(default_factory=dict)
    # the header that is changed, where there is one, and how many bits a spectrum has under it
    text: bytes = b""
    size: int = LEAST_SIZE
    spectrum_bits: int = 0


class Values(Protocol):
    """The values of an observation, by spectrum, channel and polarisation."""

    # what the values are written with, if they are whole numbers: None for floats
    bits: int | None

    def pieces(self) -> Iterator[Array]:
        """All values, in order."""
        ...

    def sampled(self) -> Sequence[Array] | None:
        """Pieces that lie evenly in the data; None where the data can be read only once."""
        ...


def convert(program: str, output: str, observed: Observed, values: Values, said: Iterable[str] = ()) -> None:
    """Writes a DADA file, and then says what is worth knowing of it."""
    joined = channels_to_join(output, observed.channels)
    scaler, count = None, 0
    head = header_bytes(output, observed, joined, 8 if joined > 1 else values.bits or 8)
    if values.bits is None or joined > 1:
        sampled = values.sampled()
        scaler = Scaler(None if sampled is None else [with_joined(piece, joined) for piece in sampled])
    with new_file(output) as out:
        out.write(head)
        for piece in values.pieces():
            written = piece if scaler is None else scaler.of(with_joined(piece, joined))
            out.write(written.astype(f"<u{written.dtype.itemsize}", copy=False).tobytes())
            count += len(piece)
    for line in (*said, *notes(observed, joined), *([] if scaler is None else scaler.said())):
        print(f"{program}: {line}")
    for line in [] if scaler is None else scaler.warned():
        print(f"{program}: {line}", file=sys.stderr)
    channels = observed.channels // joined
    print(f"{program}: {count} spectra of {channels} channels; psr_look {output} prints a first search")


def channels_to_join(path: str, channels: int) -> int:
    """How many neighbouring channels are added into one, so that a search takes them."""
    most = TAKEN["NCHAN"][-1]
    if channels <= most:
        return 1
    numbers = [count for count in range(2, MOST_JOINED + 1) if channels % count == 0 and 2 <= channels // count <= most]
    if not numbers:
        raise refused(path, f"{channels} channels can't be added to {most} or fewer of the same width")
    return numbers[0]


def with_joined(values: Array, joined: int) -> Array:
    """The values with so many neighbouring channels added into one."""
    if joined == 1:
        return values
    spectra, channels, polarisations = values.shape
    added: Array = values.reshape(spectra, channels // joined, joined, polarisations).sum(axis=2, dtype=np.float64)
    return added


def header_bytes(path: str, observed: Observed, joined: int, bits: int) -> bytes:
    """The header of a DADA file, which is one that a search takes."""
    form = {"NCHAN": str(observed.channels // joined), "NBIT": str(bits), "NPOL": str(observed.polarisations),
            "NDIM": "1"}
    text = changed_text(observed, form, joined, bits) if observed.text else new_text(observed, form)
    if len(text) >= observed.size:
        raise refused(path, f"Overfull {len(text)} {observed.size}")
    header_of(path, fields_of(text), observed.size, 0)
    return text.ljust(observed.size, b"\0")


def new_text(observed: Observed, form: Mapping[str, str]) -> bytes:
    """The text of a header that says what is known of an observation."""
    fields = {"HDR_VERSION": "1.0", "HDR_SIZE": str(observed.size)} | dict(form) | {
        "TSAMP": f"{observed.seconds * 1e6:.3f}",
        "FREQ": f"{observed.centre:.6f}",
        "BW": f"{observed.width:.6f}",
    } | start_fields(observed.start) | {keyword: word(value) for keyword, value in observed.others.items()}
    return "".join(f"{keyword} {value}\n" for keyword, value in fields.items() if value).encode()


def changed_text(observed: Observed, form: Mapping[str, str], joined: int, bits: int) -> bytes:
    """The text of the header of an observation, with the form of its values changed, and what counts bytes."""
    text, fields = observed.text, fields_of(observed.text)
    factor = Fraction(observed.channels // joined * observed.polarisations * bits, observed.spectrum_bits)
    counts = {keyword: multiplied(fields.get(keyword, ""), factor) for keyword in COUNT_BYTES}
    for keyword, value in (dict(form) | dict(observed.others) | counts).items():
        if value is not None and fields.get(keyword) != value:
            text = with_value(text, keyword, value)
    return text


def word(text: str) -> str:
    """A text as a value of a header: one word of ASCII without #, or nothing."""
    joined = "_".join(text.split("\0")[0].replace("#", "_").split())
    return joined if joined.isascii() and joined.isprintable() else ""


def start_fields(start: int | None) -> dict[str, str]:
    """The time of the first spectrum: the second, and what lies past it; nothing for a time that no telescope saw."""
    seconds, rest = divmod(start or 0, PICOSECONDS)
    if seconds // SECONDS_IN_DAY not in DAYS:
        return {}
    return {"UTC_START": f"{DAY_ZERO + timedelta(seconds=seconds):%Y-%m-%d-%H:%M:%S}", "PICOSECONDS": str(rest)}


def notes(observed: Observed, joined: int) -> list[str]:
    """What the header can't say."""
    lines = []
    if joined > 1:
        lines.append(f"{joined} neighbouring channels each were added: a search takes {TAKEN['NCHAN'][-1]} at the most")
    taken = round(observed.seconds * 1e9)
    drift = observed.seconds * 1e9 / taken - 1
    if abs(drift) > SMALL_DRIFT:
        lines.append(f"TSAMP is taken to a nanosecond: times are wrong by {abs(drift) * 3.6e6:.3g} ms after an hour")
    return lines


def native(values: Array) -> Array:
    """The values in this machine's order of bytes."""
    return values.astype(values.dtype.newbyteorder("="), copy=False)


def raised(values: Array, bits: int) -> Array:
    """Signed whole numbers of so many bits as unsigned ones: the least becomes 0."""
    kind = np.dtype(f"u{values.dtype.itemsize}")
    unsigned: Array = np.ascontiguousarray(values).view(kind) ^ kind.type(2**(bits - 1))
    return unsigned


def even_pieces(spectra: int, most: int) -> list[tuple[int, int]]:
    """Where pieces that lie evenly in so many spectra begin, and how many each has: together `most` at the most."""
    taken = min(spectra, max(most, 1))
    pieces = min(MOST_PIECES, max(taken // LEAST_PIECE, 1))
    bounds = np.linspace(0, taken, pieces + 1).astype(int)
    begins = bounds[:-1] + np.linspace(0, spectra - taken, len(bounds) - 1).astype(int)
    return list(zip(begins.tolist(), np.diff(bounds).tolist()))
