"""Headers of DADA files, by the rules of the manual: what `psr_search` takes, and why it refuses the others."""
from __future__ import annotations

import os

from .number import scaled
from .refusal import GAP, HEADER, READ, Refusal, opened, some_of

# psr_pieces reads headers, and has to start soon: so what not every header needs is imported where it is needed
TYPE_CHECKING = False
if TYPE_CHECKING:
    from typing import Any, BinaryIO

    import numpy as np

    from .arrays import Array

LEAST_SIZE = 4096
MOST_SIZE = 65536
TOP_KHZ = 2**24
# how files of other forms begin
OTHER_FORMS = (
    (4, b"HEADER_START", "a SIGPROC filterbank: psr_fil makes a DADA file of it"),
    (0, b"SIMPLE  =", "a FITS file: psr_fits makes a DADA file of it, if it is a PSRFITS file in search mode"),
)
# the value of a line is its second word
SECOND_WORD = rb"\s*[^\s#]+\s+([^\s#]+)"
UTC_FORM = r"(\d{4}-\d\d-\d\d)-(\d\d:\d\d:\d\d)(\.\d{1,12})?"
# each keyword with its decimals, and what it is where it is missing; they are judged in this order
KEYWORDS: dict[str, tuple[int, int | None]] = {
    "NCHAN": (0, None),
    "NBIT": (0, None),
    "NPOL": (0, 1),
    "NDIM": (0, 1),
    "TSAMP": (3, None),
    "FREQ": (6, None),
    "BW": (6, None),
    "OBS_OFFSET": (0, 0),
}
# which numbers are taken; BW is judged by the edges of the band
TAKEN: dict[str, range | tuple[int, ...]] = {
    "NCHAN": range(2, 4097),
    "NBIT": (8, 16),
    "NPOL": (1, 2),
    "NDIM": (1,),
    "TSAMP": range(1, 2**30 + 1),
    "FREQ": range(1000, 16_000_000_001),
    "OBS_OFFSET": range(10**15 + 1),
}
# what the files of one observation have in common, in the order in which it is judged
IN_COMMON = {"channels": "NCHAN", "bits": "NBIT", "polarisations": "NPOL", "sample_ns": "TSAMP", "centre_hz": "FREQ",
             "width_hz": "BW", "is_falling": "BW"}


class Header:
    """What a header says of its observation, how many bytes of data its file has, and which channels are left out."""

    def __init__(self, *, size: int, fields: dict[str, str], channels: int, bits: int, polarisations: int,
                 sample_ns: int, centre_hz: int, width_hz: int, is_falling: bool, offset: int, data_bytes: int,
                 masked: tuple[int, ...] = ()) -> None:
        self.size = size
        self.fields = fields
        self.channels = channels
        self.bits = bits
        self.polarisations = polarisations
        self.sample_ns = sample_ns
        self.centre_hz = centre_hz
        self.width_hz = width_hz
        self.is_falling = is_falling
        self.offset = offset
        self.data_bytes = data_bytes
        # counted from the highest frequency
        self.masked = masked
        self._edges_khz: tuple[int, ...] = ()

    def changed(self, **values: Any) -> Header:
        """The same header with other values."""
        return Header(**{name: value for name, value in vars(self).items() if name[0] != "_"} | values)

    def without(self, mask: str) -> Header:
        """The same observation without the channels that a mask of `psr_mask` names."""
        from .masks import masked_channels
        named = masked_channels(mask, self.channels)
        ordered = named if self.is_falling else self.channels - 1 - named
        return self.changed(masked=tuple(sorted(ordered.tolist())))

    @property
    def kept(self) -> Array:
        """The channels that are not left out, counted from the highest frequency."""
        import numpy as np
        return np.setdiff1d(np.arange(self.channels), np.array(self.masked, int))

    @property
    def are_masked(self) -> Array:
        """Which channels are left out, the highest first."""
        import numpy as np
        return np.isin(np.arange(self.channels), self.masked)

    @property
    def masked_in_file(self) -> Array:
        """The channels that are left out, counted in the order of the file."""
        import numpy as np
        masked = np.array(self.masked, int)
        return masked if self.is_falling else self.channels - 1 - masked

    @property
    def spectrum_bytes(self) -> int:
        """Bytes of one spectrum."""
        return self.channels * self.polarisations * self.bits // 8

    @property
    def spectra(self) -> int:
        """Whole spectra in the file."""
        return self.data_bytes // self.spectrum_bytes

    @property
    def seconds(self) -> float:
        """Seconds from one spectrum to the next."""
        return self.sample_ns * 1e-9

    @property
    def edges_khz(self) -> tuple[int, ...]:
        """All edges in kHz, from the top of the band down."""
        if not self._edges_khz:
            centre, width, channels = self.centre_hz, self.width_hz, self.channels
            self._edges_khz = tuple(edge_khz(centre, width, channels, number) for number in range(channels + 1))
        return self._edges_khz

    @property
    def dispersion_span(self) -> int:
        """1 / (1 / foot^2 - 1 / top^2) in kHz^2, rounded down."""
        top, foot = self.edges_khz[0] ** 2, self.edges_khz[-1] ** 2
        return top * foot // (top - foot)

    def dm(self, delay: int) -> float:
        """The dispersion measure in pc/cm^3 of a delay in spectra, with three decimals, as the programs print it."""
        return delay * self.sample_ns * 241 * self.dispersion_span // 10**18 / 1000

    def delay(self, dm: float) -> float:
        """The delay across the band in spectra of a dispersion measure in pc/cm^3."""
        return dm * 1e21 / (self.sample_ns * 241 * self.dispersion_span)

    def words_of(self, *keywords: str) -> list[str]:
        """The values of those of these keywords that the header has, as they can be shown."""
        values = [self.fields[keyword] for keyword in keywords if keyword in self.fields]
        return [value if value.isprintable() else ascii(value) for value in values]

    @property
    def start(self) -> np.datetime64:
        """The time of the file's first spectrum. The observation begins PICOSECONDS after UTC_START, unless UTC_START
        has a fraction of its own.

        NaT where the header has no UTC_START of the usual form, or the time is none that numpy counts in nanoseconds.
        """
        import re

        import numpy as np
        match = re.fullmatch(UTC_FORM, self.fields.get("UTC_START", ""))
        if match is None:
            return np.datetime64("NaT", "ns")
        later = match[3].ljust(13, "0")[1:] if match[3] else self.fields.get("PICOSECONDS", "0")
        picoseconds = scaled(later, 0) or 0
        nanoseconds = picoseconds // 1000 + self.offset * self.sample_ns // self.spectrum_bytes
        if not 1970 <= int(match[1][:4]) < 2200 or not 0 <= nanoseconds < 2**61:
            return np.datetime64("NaT", "ns")
        try:
            begun = np.datetime64(f"{match[1]}T{match[2]}", "ns")
        except ValueError:
            return np.datetime64("NaT", "ns")
        return begun + np.timedelta64(nanoseconds, "ns")


def header(path: str) -> Header:
    """The header of a file."""
    # what is read twice has to be there twice
    if os.path.exists(path) and not os.path.isfile(path) and not os.path.isdir(path):
        raise Refusal(READ, f"can't read {path}: it is a pipe or a device, and has to be a file")
    text, size = header_text(path)
    try:
        data_bytes = os.path.getsize(path) - size
    except OSError as fault:
        raise Refusal(READ, f"can't read {path}: {fault.strerror}") from fault
    return header_of(path, fields_of(text), size, data_bytes)


def header_text(path: str) -> tuple[bytes, int]:
    """The text of a file's header, and how many bytes the header has."""
    with opened(path) as file:
        text, whole = read_header(path, file)
    return text, len(whole)


def read_header(path: str, file: BinaryIO) -> tuple[bytes, bytes]:
    """The text of the header with which an open file or pipe begins, and all bytes of it."""
    front = some_of(path, file, LEAST_SIZE)
    for place, mark, form in OTHER_FORMS:
        if front[place:].startswith(mark):
            raise refused(path, f"it is {form}")
    if len(front) < LEAST_SIZE:
        raise refused(path, f"Short {len(front)}")
    size = scaled(fields_of(before_nul(front)).get("HDR_SIZE", str(LEAST_SIZE)), 0)
    if size is None or not LEAST_SIZE <= size <= MOST_SIZE:
        raise refused(path, "BadSize")
    whole = front + some_of(path, file, size - LEAST_SIZE)
    if len(whole) < size:
        raise refused(path, f"Short {len(whole)}")
    text = before_nul(whole)
    for place, byte in enumerate(text):
        if byte > 127:
            raise refused(path, f"NotText {place}")
    return text, whole


def before_nul(some: bytes) -> bytes:
    """What stands before the first NUL."""
    return some.split(b"\0", 1)[0]


def fields_of(text: bytes) -> dict[str, str]:
    """The fields of a header's text: of each keyword the first line that gives it a value."""
    fields: dict[str, str] = {}
    for line in text.split(b"\n"):
        words = line.split(b"#", 1)[0].split()
        if len(words) >= 2:
            fields.setdefault(words[0].decode("latin-1"), words[1].decode("latin-1"))
    return fields


def with_value(text: bytes, key: str, value: str) -> bytes:
    """The text of a header in which a keyword has another value: in the place of its first one, where that is at least
    as long, and else in a line at the end."""
    lines = text.split(b"\n")
    at = [number for number, line in enumerate(lines) if fields_of(line).keys() == {key}]
    if at and len(fields_of(lines[at[0]])[key]) >= len(value):
        lines[at[0]] = overwritten(lines[at[0]], value.encode())
        return b"\n".join(lines)
    for number in at:
        shown = len(lines[number].split(b"#", 1)[0])
        lines[number] = b" " * shown + lines[number][shown:]
    text = b"\n".join(lines)
    line_end = b"" if text.endswith(b"\n") or not text else b"\n"
    return text + line_end + f"{key} {value}\n".encode()


def overwritten(line: bytes, value: bytes) -> bytes:
    """A line of a header with another value, which is no longer than that of the line."""
    import re
    match = re.match(SECOND_WORD, line)
    assert match is not None
    return line[:match.start(1)] + value.ljust(len(match[1])) + line[match.end(1):]


def header_of(path: str, fields: dict[str, str], size: int, data_bytes: int) -> Header:
    """The header of these fields, or the first refusal, in the order of the keywords."""
    numbers: dict[str, int] = {}
    for keyword in KEYWORDS:
        numbers[keyword] = number_of(path, fields, keyword)
        if not is_taken(keyword, numbers):
            fault = "OutOfProfile" if keyword in ("NBIT", "NPOL", "NDIM") else "OutOfRange"
            can_be_turned = fault == "OutOfProfile" or keyword == "NCHAN" and numbers[keyword] > TAKEN["NCHAN"][-1]
            advice = ": psr_dada may turn it into a file that is searched" if can_be_turned else ""
            raise refused(path, f"{fault} {keyword}{advice}")
    width, channels = abs(numbers["BW"]), numbers["NCHAN"]
    if width < 1000 * channels:
        raise refused(path, f"TooNarrow {width} {channels}")
    return Header(
        size=size,
        fields=fields,
        channels=channels,
        bits=numbers["NBIT"],
        polarisations=numbers["NPOL"],
        sample_ns=numbers["TSAMP"],
        centre_hz=numbers["FREQ"],
        width_hz=width,
        is_falling=numbers["BW"] < 0,
        offset=numbers["OBS_OFFSET"],
        data_bytes=data_bytes,
    )


def number_of(path: str, fields: dict[str, str], keyword: str) -> int:
    """The number of a keyword, in the unit of its last decimal."""
    decimals, default = KEYWORDS[keyword]
    if keyword not in fields:
        if default is None:
            raise refused(path, f"Missing {keyword}")
        return default
    value = scaled(fields[keyword], decimals)
    if value is None:
        raise refused(path, f"BadNumber {keyword}")
    return value


def is_taken(keyword: str, numbers: dict[str, int]) -> bool:
    """Whether the number of a keyword lies in its range, where those of the keywords before it do."""
    value = numbers[keyword]
    if keyword == "BW":
        channels, centre = numbers["NCHAN"], numbers["FREQ"]
        foot, top = (edge_khz(centre, abs(value), channels, number) for number in (channels, 0))
        return value != 0 and foot >= 1 and top <= TOP_KHZ
    return value in TAKEN[keyword]


def edge_khz(centre_hz: int, width_hz: int, channels: int, number: int) -> int:
    """The edge of that number in kHz: 0 is the top of the band, and the number of channels its foot."""
    return (2 * centre_hz * channels + width_hz * channels - 2 * width_hz * number) // (2000 * channels)


def check_follows(path: str, first: Header, later: Header, number: int, data_bytes: int) -> None:
    """Refuses file `number` of an observation, of which the files before it have so many bytes, if it is no part of it.
    """
    for name, keyword in IN_COMMON.items():
        if getattr(later, name) != getattr(first, name):
            raise refused(path, f"Differs {keyword}")
    if later.offset != first.offset + data_bytes:
        expected = first.offset + data_bytes
        raise Refusal(GAP, f"file {number} ({path}) has OBS_OFFSET {later.offset} where {expected} was expected")


def refused(path: str, why: str) -> Refusal:
    """The refusal of a header, in the words of `psr_search`."""
    return Refusal(HEADER, f"header of {path} refused: {why}")
