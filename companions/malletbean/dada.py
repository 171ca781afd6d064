"""`psr_dada`: the DADA file that a search takes, of one of another form."""
from __future__ import annotations

import argparse
from collections.abc import Iterator, Sequence
from dataclasses import dataclass

import numpy as np

from .arrays import Array
from .conversion import VALUES_AT_A_TIME, VALUES_TO_LEVEL_BY, Observed, convert, even_pieces, native, raised
from .headers import KEYWORDS, fields_of, header_text, number_of, refused
from .program import Words
from .refusal import GAP, WORDS, Refusal

# how many products each state of detected data has, and how many of the first ones a search adds
STATES = {"INTENSITY": (1, 1), "PP": (1, 1), "QQ": (1, 1), "PPQQ": (2, 2), "COHERENCE": (4, 2), "STOKES": (4, 1)}
VOLTAGES = ("ANALYTIC", "NYQUIST")
# bits of values, with the kind of numbers
KINDS = {1: "u", 2: "u", 4: "u", 8: "u", 16: "u", 32: "u", -32: "f", -64: "f"}
USUAL_ORDER = "TFP"
# floats are numbers of ordinary size, where whole numbers would be tiny ones
LEAST_FLOAT, MOST_FLOAT, MOST_ARE_FLOATS, FLOATS_TO_TRY = 1e-30, 1e30, 0.9, 65536


@dataclass(frozen=True)
class Form:
    """How the values lie in the files: in which order time (T), channels (F) and polarisations (P) follow each other,
    the slowest first; and the dimensions of each value last."""

    channels: int
    polarisations: int
    dimensions: int
    bits: int
    kind: str
    order: str
    state: str

    @property
    def in_one(self) -> int:
        """How many values a spectrum has."""
        return self.channels * self.polarisations * self.dimensions

    @property
    def together(self) -> int:
        """How many spectra fill whole bytes."""
        return next(count for count in (1, 2, 4, 8) if count * self.in_one * self.bits % 8 == 0)


def psr_dada(words: Sequence[str]) -> None:
    """Writes the DADA file that the words ask for."""
    asked = parsed(words)
    observation = Observation(asked)
    convert("psr_dada", asked.output, observation.observed(), observation, [observation.said()])


def parsed(words: Sequence[str]) -> argparse.Namespace:
    """The words of the command."""
    parser = Words(prog="psr_dada", description="Converts DADA files that no search takes to one that it takes.")
    parser.add_argument("files", metavar="FILE", nargs="+", help="the DADA files of one observation, in order")
    parser.add_argument("output", metavar="OUT", help="the DADA file to write: a new file")
    parser.add_argument("--state", metavar="STATE", type=str.upper, help="what the values are, in place of STATE: "
                        f"{', '.join(state.capitalize() for state in STATES)}")
    parser.add_argument("--order", metavar="ORDER", type=str.upper,
                        help=f"how the values follow each other, in place of ORDER ({USUAL_ORDER}): T time, F channel, "
                             "P polarisation, the slowest first")
    parser.add_argument("--pol", metavar="K", dest="only", type=int,
                        help="take this polarisation alone, counted from 0 (those that a search adds, by STATE)")
    parser.add_argument("--values", choices=("int", "float"), help="what values of 32 bits are (what they look like)")
    parser.add_argument("--signed", action="store_true", help="whole numbers are signed")
    parser.add_argument("--high-byte-first", action="store_true", help="the high byte of a value is first")
    return parser.parse_args(words)


class Observation:
    """The values of an observation in DADA files of some form."""

    def __init__(self, asked: argparse.Namespace) -> None:
        self._paths: list[str] = asked.files
        text, self._size = header_text(self._paths[0])
        self._text, self._fields = text, fields_of(text)
        self.form = self._form(asked)
        self._sign = "i" if asked.signed and self.form.kind == "u" else self.form.kind
        self._swap = ">" if asked.high_byte_first else "<"
        self._chosen = self._chosen_products(asked.only)
        self._files = self._mapped()
        is_small = self.form.kind == "u" and self.form.bits <= 16
        self.bits = max(8, self.form.bits) if is_small else None

    def observed(self) -> Observed:
        """What the header of the DADA file says."""
        form, path = self.form, self._paths[0]
        numbers = {keyword: number_of(path, self._fields, keyword) for keyword in ("TSAMP", "FREQ", "BW", "OBS_OFFSET")}
        return Observed(form.channels, len(self._chosen), numbers["TSAMP"] * 1e-9, numbers["FREQ"] / 1e6,
                        numbers["BW"] / 1e6, None, {"ORDER": USUAL_ORDER} if "ORDER" in self._fields else {},
                        self._text, self._size, form.in_one * form.bits)

    def said(self) -> str:
        """How the files were taken."""
        form = self.form
        kind = "floats" if form.kind == "f" else "signed whole numbers" if self._sign == "i" else "whole numbers"
        state = f", {form.state.capitalize()}" if form.state else ""
        return (f"{kind} of {form.bits} bits in the order {form.order}{state}: {len(self._chosen)} of "
                f"{form.polarisations * form.dimensions} values of a channel")

    def pieces(self) -> Iterator[Array]:
        """All values, file by file."""
        at_a_time = VALUES_AT_A_TIME // self.form.in_one // self.form.together * self.form.together
        for number, data in enumerate(self._files):
            count = self._spectra(data)
            step = max(at_a_time, self.form.together)
            for first in range(0, count, step):
                yield self._values(number, first, min(step, count - first))

    def sampled(self) -> Sequence[Array]:
        """Pieces that lie evenly in each file."""
        pieces, unit = [], self.form.together
        for number, data in enumerate(self._files):
            most = VALUES_TO_LEVEL_BY // (len(self._files) * self.form.in_one * unit)
            for first, count in even_pieces(self._spectra(data) // unit, most):
                pieces.append(self._values(number, first * unit, count * unit))
        return pieces

    def _form(self, asked: argparse.Namespace) -> Form:
        path = self._paths[0]

        def number(keyword: str) -> int:
            return number_of(path, self._fields, keyword)

        bits, dimensions = number("NBIT"), number("NDIM")
        if bits not in KINDS:
            raise refused(path, f"it has {bits} bits, and only {', '.join(map(str, KINDS))} are taken")
        order = (asked.order or self._fields.get("ORDER", USUAL_ORDER)).upper()
        if sorted(order) == ["F", "T"]:
            order += "P"
        if sorted(order) != ["F", "P", "T"]:
            raise refused(path, f"its ORDER is {order}, which is no order of T, F and P")
        kind = KINDS[bits]
        if bits == 32:
            looks_float = looks_like_floats(path, self._size, ">" if asked.high_byte_first else "<")
            kind = "f" if asked.values == "float" or asked.values is None and looks_float else "u"
        state = (asked.state or self._fields.get("STATE", "")).upper()
        form = Form(number("NCHAN"), number("NPOL"), dimensions, abs(bits), kind, order, state)
        for keyword, value in (("NCHAN", form.channels), ("NPOL", form.polarisations), ("NDIM", form.dimensions)):
            if value < 1:
                raise refused(path, f"OutOfRange {keyword}")
        return form

    def _chosen_products(self, only: int | None) -> tuple[int, ...]:
        form, path = self.form, self._paths[0]
        count = form.polarisations * form.dimensions
        if only is not None:
            if not 0 <= only < count:
                raise Refusal(WORDS, f"argument --pol: {path} has {count} values of a channel, counted from 0")
            return (only,)
        if form.state in VOLTAGES:
            raise refused(path, f"its STATE is {form.state.capitalize()}: voltages have to be detected first, by "
                                "DSPSR's digifil for example")
        if form.dimensions == 1 and count <= 2:
            return tuple(range(count))
        products, added = STATES.get(form.state, (0, 0))
        if products != count:
            raise refused(path, f"it has {count} values of a channel, and its STATE is {form.state or 'missing'}: say "
                                "what they are by --state, or choose one by --pol K, K from 0 on")
        return tuple(range(added))

    def _mapped(self) -> list[Array]:
        """The data bytes of each file."""
        files: list[Array] = []
        form, count = self.form, 0
        first = number_of(self._paths[0], self._fields, "OBS_OFFSET")
        for number, path in enumerate(self._paths):
            text, size = header_text(path)
            fields = fields_of(text)
            for keyword in KEYWORDS:
                is_same = keyword == "OBS_OFFSET" or fields.get(keyword) == self._fields.get(keyword)
                if not is_same:
                    raise refused(path, f"Differs {keyword}")
            offset = number_of(path, fields, "OBS_OFFSET")
            if offset != first + count:
                raise Refusal(GAP, f"file {number} ({path}) has OBS_OFFSET {offset} where {first + count} was expected")
            data = data_bytes(path, size)
            is_last = number + 1 == len(self._paths)
            if not is_last and len(data) * 8 % (form.together * form.in_one * form.bits):
                raise refused(path, "it was cut within a spectrum: make one file of this one and the next")
            if form.order[0] != "T" and len(self._paths) > 1:
                raise refused(path, f"data in the order {form.order} are taken from one file alone")
            if form.order[0] != "T" and form.bits < 8:
                raise refused(path, f"{form.bits} bits in the order {form.order} are not taken")
            files.append(data)
            count += len(data)
        return files

    def _spectra(self, data: Array) -> int:
        return len(data) * 8 // (self.form.in_one * self.form.bits)

    def _values(self, number: int, first: int, count: int) -> Array:
        """So many spectra of a file, by spectrum, channel and polarisation."""
        form, data = self.form, self._files[number]
        if form.order[0] == "T":
            bits = form.in_one * form.bits
            part = data[first * bits // 8:-(-(first + count) * bits // 8)]
            shaped = self._unpacked(part)[:count * form.in_one].reshape(self._shape(count))
        else:
            spectra = self._spectra(data)
            whole = data[:spectra * form.in_one * form.bits // 8].view(self._number_kind())
            whole = whole.reshape(self._shape(spectra))
            shaped = native(whole.take(range(first, first + count), axis=form.order.index("T")))
        ordered = shaped.transpose(*(form.order.index(axis) for axis in "TFP"), 3)
        values: Array = ordered.reshape(count, form.channels, -1)[:, :, self._chosen]
        return raised(values, form.bits) if self._sign == "i" and self.bits is not None else values

    def _shape(self, spectra: int) -> tuple[int, ...]:
        sizes = {"T": spectra, "F": self.form.channels, "P": self.form.polarisations}
        return *(sizes[axis] for axis in self.form.order), self.form.dimensions

    def _number_kind(self) -> np.dtype[np.generic]:
        return np.dtype(f"{self._swap}{self._sign}{self.form.bits // 8}")

    def _unpacked(self, raw: Array) -> Array:
        """The values of some bytes, those of fewer than 8 bits with the first in the low bits."""
        bits = self.form.bits
        if bits >= 8:
            return native(raw.view(self._number_kind()))
        shifts = np.arange(0, 8, bits, dtype=np.uint8)
        low_first: Array = (raw[:, None] >> shifts & np.uint8(2**bits - 1)).reshape(-1)
        return low_first


def data_bytes(path: str, size: int) -> Array:
    """The data bytes of a file behind its header."""
    try:
        mapped: Array = np.memmap(path, np.uint8, "r")
    except (OSError, ValueError) as fault:
        raise refused(path, f"its data can't be read: {fault}") from fault
    return mapped[size:]


def looks_like_floats(path: str, size: int, swap: str) -> bool:
    """Whether most values of 32 bits would be numbers of ordinary size, or 0, as floats."""
    data = data_bytes(path, size)[:4 * FLOATS_TO_TRY]
    with np.errstate(invalid="ignore"):
        values = np.abs(data[:len(data) // 4 * 4].view(f"{swap}f4").astype(np.float64))
    known = values[values != 0]
    is_usual = (known > LEAST_FLOAT) & (known < MOST_FLOAT)
    return bool(len(known) and is_usual.mean() > MOST_ARE_FLOATS)
