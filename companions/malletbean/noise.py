"""The noise of an observation, estimated from pieces of its data or from all that a pipe gives."""
from __future__ import annotations

import math
from collections.abc import Iterator
from dataclasses import dataclass, replace

import numpy as np

from .arrays import Array
from .headers import Header
from .masks import is_far
from .samples import Samples
from .stream import Stream

# how many values are worked on at a time
VALUES_AT_A_TIME = 2**20
# in how many pieces the data are held against each other; of a pipe in up to twice as many
PIECES = 16
# in how many parts of the band bursts are looked for
PARTS = 16
# the forms that values may have; psr_search takes the first
FORMS = {"<u": "unsigned, the low byte first", "<i": "signed", ">u": "unsigned, the high byte first",
         ">i": "signed, the high byte first"}
FORM_WORDS = {"<i": "--signed", ">u": "--high-byte-first", ">i": "--signed --high-byte-first"}
# how many values tell the form
FORM_VALUES = 2**20
# the most bytes that are read of a pipe
MOST_BYTES = 2**48


@dataclass(frozen=True)
class Measured:
    """Estimates from pieces of the data: each channel's mean and deviation, the highest first, and each piece's mean.

    `spectra` counts those that were read, and `reach` those from the first to the last of them. `within` are the
    deviations of channels within pieces: without what comes and goes more slowly.
    """

    spectra: int
    reach: int
    means: Array
    deviations: Array
    within: Array
    piece_means: Array

    @property
    def mean(self) -> float:
        """The mean of a sample."""
        return float(self.means.mean())

    @property
    def deviation(self) -> float:
        """The deviation of a sample from its channel's mean, which is what the noise of sums is made of."""
        return float(np.sqrt((self.deviations**2).mean()))

    def of_channels(self, are_kept: Array) -> Measured:
        """The same of some channels alone, but for the means of pieces."""
        return replace(self, means=self.means[are_kept], deviations=self.deviations[are_kept],
                       within=self.within[are_kept])

    def averaged(self, times: int) -> Measured:
        """The same where so many neighbouring spectra are averaged into one, if their noise is white."""
        return replace(self, spectra=self.spectra // times, reach=self.reach // times,
                       deviations=self.deviations / math.sqrt(times), within=self.within / math.sqrt(times))


@dataclass(frozen=True)
class Piece:
    """How many spectra a piece has, and each channel's sum and sum of squares."""

    spectra: int
    sums: Array
    squares: Array

    def __add__(self, other: Piece) -> Piece:
        return Piece(self.spectra + other.spectra, self.sums + other.sums, self.squares + other.squares)

    @property
    def variances(self) -> Array:
        """The squared deviation of each channel."""
        variances: Array = np.maximum(self.squares / self.spectra - (self.sums / self.spectra)**2, 0)
        return variances


@dataclass(frozen=True)
class Divided:
    """A piece, and that of its spectra without bursts."""

    whole: Piece
    quiet: Piece

    def __add__(self, other: Divided) -> Divided:
        return Divided(self.whole + other.whole, self.quiet + other.quiet)


@dataclass(frozen=True)
class Estimates:
    """Estimates from all spectra that were read, and from those without bursts."""

    whole: Measured
    quiet: Measured


def divided(values: Array) -> Divided:
    """The piece that has these values: by spectrum, channel and polarisation, the highest channel first."""
    samples = values.sum(axis=2, dtype=np.float64)
    whole = piece_of(samples)
    are_kept = are_quiet(samples, whole)
    return Divided(whole, whole if are_kept.all() else piece_of(samples[are_kept]))


def piece_of(samples: Array) -> Piece:
    """The piece that has these samples, spectra in rows."""
    return Piece(len(samples), samples.sum(axis=0), np.einsum("tc,tc->c", samples, samples))


def are_quiet(samples: Array, piece: Piece) -> Array:
    """Which spectra of a piece have no burst: no part of the band whose sum lies far off; all if those are few."""
    begins = np.linspace(0, samples.shape[1], min(PARTS, samples.shape[1]), endpoint=False).astype(int)
    sums = np.add.reduceat(samples, begins, axis=1)
    errors = np.sqrt(np.add.reduceat(piece.variances, begins))
    quiet: Array = ~np.any([is_far(one, error) for one, error in zip(sums.T, errors)], axis=0)
    return quiet if 2 * quiet.sum() >= len(quiet) else np.ones(len(quiet), bool)


def estimate(pieces: list[Piece], reach: int) -> Measured:
    """Estimates from pieces that lie evenly in so many spectra."""
    whole = sum(pieces[1:], pieces[0])
    within = sum((piece.spectra * piece.variances for piece in pieces), np.zeros(1)) / whole.spectra
    piece_means = np.array([piece.sums.mean() / piece.spectra for piece in pieces])
    return Measured(whole.spectra, reach, whole.sums / whole.spectra, np.sqrt(whole.variances), np.sqrt(within),
                    piece_means)


def estimates(pieces: list[Divided], reach: int) -> Estimates:
    """Estimates from pieces that lie evenly in so many spectra, with and without bursts."""
    whole, quiet = [piece.whole for piece in pieces], [piece.quiet for piece in pieces]
    return Estimates(estimate(whole, reach), estimate(quiet, reach))


def measure(samples: Samples, most: int, kind: str = "<u") -> Estimates:
    """Estimates from pieces that lie evenly in the data, of `most` spectra at the most, but two at least.

    The kind of values is one of FORMS.
    """
    head = samples.header
    spectra = min(samples.spectra, max(most, 2))
    bounds = np.linspace(0, spectra, min(PIECES, spectra) + 1).astype(int)
    begins = bounds[:-1] + np.linspace(0, samples.spectra - spectra, len(bounds) - 1).astype(int)
    at_a_time = max(1, VALUES_AT_A_TIME // (head.channels * head.polarisations))
    pieces = []
    for begin, count in zip(begins.tolist(), np.diff(bounds).tolist()):
        parts = [divided(highest_first(head, samples.values(first, min(at_a_time, begin + count - first), kind)))
                 for first in range(begin, begin + count, at_a_time)]
        pieces.append(sum(parts[1:], parts[0]))
    return estimates(pieces, samples.spectra)


def form_of(samples: Samples) -> str:
    """The one of FORMS in which the first values spread least."""
    head = samples.header
    count = min(samples.spectra, max(1, FORM_VALUES // (head.channels * head.polarisations)))
    return form_of_values(samples.values(0, count))


def form_of_values(values: Array) -> str:
    """The one of FORMS in which values, as psr_search takes them, spread least, if by less than half as much."""
    spreads = {kind: float(values.view(f"{kind}{values.dtype.itemsize}").std()) for kind in FORMS}
    least = min(FORMS, key=spreads.__getitem__)
    return least if 2 * spreads[least] < spreads["<u"] else "<u"


def highest_first(head: Header, values: Array) -> Array:
    """Values with the highest channel first."""
    return values if head.is_falling else values[:, ::-1]


def measure_stream(stream: Stream) -> tuple[Header, Estimates | None, str]:
    """The header of a stream, estimates from all of its data, and the one of FORMS that they have.

    There are no estimates where it has fewer than two spectra.
    """
    head = stream.header
    pieces: list[Divided] = []
    form, in_piece = "<u", 1
    for number, values in enumerate(parts_of(stream)):
        if number == 0:
            form = form_of_values(values)
        latest = divided(highest_first(head, values.view(f"{form}{values.dtype.itemsize}")))
        if number % in_piece:
            pieces[-1] += latest
        else:
            pieces.append(latest)
        if len(pieces) == 2 * PIECES and (number + 1) % in_piece == 0:
            pieces = [first + second for first, second in zip(pieces[::2], pieces[1::2])]
            in_piece *= 2
    head = head.changed(data_bytes=stream.count)
    return head, estimates(pieces, head.spectra) if head.spectra > 1 else None, form


def parts_of(stream: Stream) -> Iterator[Array]:
    """The values of a stream in parts, as the file has them: of each channel in its order, each polarisation."""
    head = stream.header
    size = head.spectrum_bytes
    space = bytearray(max(1, VALUES_AT_A_TIME * head.bits // 8 // size) * size)
    filled = len(space)
    while filled == len(space):
        filled = stream.fill(memoryview(space))
        if filled >= size:
            values = np.frombuffer(bytes(space[:filled // size * size]), f"<u{head.bits // 8}")
            yield values.reshape(-1, head.channels, head.polarisations)
