"""`psr_fil`: the DADA file of a SIGPROC filterbank."""
from __future__ import annotations

import argparse
import os
import sys
from collections.abc import Iterator, Sequence
from contextlib import ExitStack
from fractions import Fraction

import numpy as np

from .arrays import Array
from .conversion import (PICOSECONDS, SECONDS_IN_DAY, VALUES_AT_A_TIME, VALUES_TO_LEVEL_BY, Observed, convert,
                         even_pieces, raised)
from .filterbank import KIND_NAMES, KINDS, Filterbank, Source
from .program import Words
from .refusal import WORDS, Refusal, opened

# what files of one observation have in common
COMMON = ("channels", "bits", "ifs", "is_signed", "seconds", "first", "step")
# two numbers of days tell how far they are apart to so many seconds
TSTART_ERROR = 2e-6


def psr_fil(words: Sequence[str]) -> None:
    """Writes the DADA file that the words ask for."""
    asked = parsed(words)
    kinds = KINDS | dict(asked.keyword or [])
    if len(asked.files) > 1 and all(map(os.path.isfile, asked.files)):
        spectra_in(asked.files, kinds)
    with ExitStack() as stack:
        source = Source(asked.files[0], stack.enter_context(opened(asked.files[0])), kinds)
        banks = Filterbanks(asked.files, source, asked.only, stack)
        for line in banks.bank.warnings:
            print(f"psr_fil: {line}", file=sys.stderr)
        convert("psr_fil", asked.output, banks.observed(), banks, banks.notes)


def parsed(words: Sequence[str]) -> argparse.Namespace:
    """The words of the command."""
    parser = Words(prog="psr_fil", description="Converts a SIGPROC filterbank to a DADA file.")
    parser.add_argument("files", metavar="FIL", nargs="+",
                        help="a SIGPROC filterbank of 1, 2, 4, 8, 16 or 32 bits, or several that follow one another")
    parser.add_argument("output", metavar="OUT", help="the DADA file to write: a new file")
    parser.add_argument("--if", metavar="K", dest="only", type=int,
                        help="take this IF alone, counted from 0 (all of one or two)")
    parser.add_argument("--keyword", metavar="NAME=KIND", type=keyword_kind, action="append",
                        help="skip this keyword, which SIGPROC doesn't have, with a value of this KIND: "
                             f"{', '.join(KIND_NAMES)}")
    return parser.parse_args(words)


def keyword_kind(text: str) -> tuple[str, str]:
    """A keyword of a header, and the kind of its value."""
    name, _, kind = text.partition("=")
    if kind not in KIND_NAMES:
        raise argparse.ArgumentTypeError(f"{text} is no NAME=KIND, with one of {', '.join(KIND_NAMES)}")
    return name, KIND_NAMES[kind]


class Filterbanks:
    """The values of one observation in one or more filterbanks that follow one another."""

    def __init__(self, paths: Sequence[str], source: Source, only: int | None, stack: ExitStack) -> None:
        self._paths, self._source, self._stack = paths, source, stack
        self.bank = source.bank()
        self._chosen = chosen_ifs(source, self.bank, only)
        self.bits = {16: 16, 32: None}.get(self.bank.bits, 8)
        self.notes: list[str] = []

    def observed(self) -> Observed:
        """What the header of the DADA file says."""
        bank = self.bank
        # a number of days tells microseconds, and no more
        microseconds = None if bank.start is None else round(Fraction(bank.start) * SECONDS_IN_DAY * 10**6)
        start = None if microseconds is None else microseconds * (PICOSECONDS // 10**6)
        centre = bank.first + bank.step * (bank.channels - 1) / 2
        return Observed(bank.channels, len(self._chosen), bank.seconds, centre, bank.step * bank.channels, start,
                        bank.others)

    def pieces(self) -> Iterator[Array]:
        """All values, file by file."""
        count = 0
        for number, path in enumerate(self._paths):
            source, bank = self._source, self.bank
            if number:
                source, bank = self._opened(path)
                check_follows(source, bank, self.bank, count)
            before = count
            for values in spectra_of(source, bank):
                count += len(values)
                yield self._ordered(values)
            if bank.spectra not in (None, count - before):
                self.notes.append(f"{path} has {count - before} spectra, where nsamples says {bank.spectra}")

    def sampled(self) -> Sequence[Array] | None:
        """Pieces that lie evenly in each file; None where one is a pipe."""
        if not all(map(os.path.isfile, self._paths)):
            return None
        pieces = []
        for path in self._paths:
            source, bank = self._opened(path)
            begin, unit = source.file.tell(), bank.together * bank.in_one * bank.bits // 8
            units = (os.path.getsize(path) - begin) // unit
            most = VALUES_TO_LEVEL_BY // (len(self._paths) * bank.together * bank.in_one)
            for first, count in even_pieces(units, most):
                source.file.seek(begin + first * unit)
                pieces.append(self._ordered(values_of(source.some(count * unit), bank)))
        return pieces or None

    def _opened(self, path: str) -> tuple[Source, Filterbank]:
        source = Source(path, self._stack.enter_context(opened(path)), self._source.kinds)
        return source, source.bank()

    def _ordered(self, values: Array) -> Array:
        return values[:, self._chosen, :].transpose(0, 2, 1)


def chosen_ifs(source: Source, bank: Filterbank, only: int | None) -> tuple[int, ...]:
    """Which IFs are written: as the polarisations that a search adds."""
    if only is not None:
        if not 0 <= only < bank.ifs:
            raise Refusal(WORDS, f"argument --if: {source.path} has {bank.ifs} IFs, counted from 0")
        return (only,)
    if bank.ifs not in (1, 2):
        raise source.refused(f"it has {bank.ifs} IFs: choose one with --if K, K from 0 on")
    return tuple(range(bank.ifs))


def spectra_in(paths: Sequence[str], kinds: dict[str, str] = KINDS) -> int:
    """How many spectra files have, by their headers and sizes; those that don't follow one another are refused."""
    first, count = None, 0
    for path in paths:
        with opened(path) as file:
            source = Source(path, file, kinds)
            bank = source.bank()
            first = first or bank
            check_follows(source, bank, first, count)
            count += (os.path.getsize(path) - file.tell()) * 8 // (bank.in_one * bank.bits)
    return count


def check_follows(source: Source, bank: Filterbank, first: Filterbank, count: int) -> None:
    """Refuses a file that doesn't go on where so many spectra of the first one and those after it end."""
    for name in COMMON:
        if getattr(bank, name) != getattr(first, name):
            raise source.refused(f"its {name} differs from that of the first file")
    if first.start is None or bank.start is None:
        return
    apart = (bank.start - first.start) * 86400 / first.seconds - count
    if abs(apart) > 0.5 + TSTART_ERROR / first.seconds:
        raise source.refused(f"by its tstart it begins {apart:.1f} spectra after the end of the file before it")


def spectra_of(source: Source, bank: Filterbank) -> Iterator[Array]:
    """The values in pieces, by spectrum, IF and channel: unsigned or floats, one to an entry."""
    at_a_time = VALUES_TO_LEVEL_BY if bank.bits == 32 else VALUES_AT_A_TIME
    units = max(1, at_a_time // (bank.in_one * bank.together))
    size = units * bank.together * bank.in_one * bank.bits // 8
    while some := source.some(size):
        values = values_of(some, bank)
        if len(values):
            yield values


def values_of(some: bytes, bank: Filterbank) -> Array:
    """The values of some bytes, by spectrum, IF and channel; those of an incomplete last spectrum are left out."""
    values = unpacked(np.frombuffer(some, np.uint8), bank)
    whole = len(values) // bank.in_one
    spectra: Array = values[:whole * bank.in_one].reshape(whole, bank.ifs, bank.channels)
    return spectra


def unpacked(raw: Array, bank: Filterbank) -> Array:
    """The values of some bytes: unsigned, the first in the low bits, or floats."""
    if bank.bits < 8:
        shifts = np.arange(0, 8, bank.bits, dtype=np.uint8)
        low_first: Array = (raw[:, None] >> shifts & np.uint8(2**bank.bits - 1)).reshape(-1)
        return low_first
    kind = "f" if bank.bits == 32 else "u"
    values: Array = raw[:len(raw) // (bank.bits // 8) * (bank.bits // 8)].view(f"<{kind}{bank.bits // 8}")
    return raised(values, bank.bits) if bank.is_signed else values
