"""Headers of SIGPROC files, as they are written."""
from __future__ import annotations

import struct
from collections.abc import Mapping

from .filterbank import TELESCOPES
from .grouping import DAY, DAY_ZERO
from .headers import Header

# what kinds of data there are, and how long a word is at most
FILTERBANK, SERIES = 1, 2
MOST_BYTES = 80


def header_bytes(head: Header, first: int, more: Mapping[str, int | float]) -> bytes:
    """The header of data that begin with a spectrum of an observation; what depends on their kind is `more`."""
    fields = head.fields
    telescope = fields.get("TELESCOPE", "").lower()
    numbers = {name.lower(): number for number, name in TELESCOPES.items()}
    entries: dict[str, int | float | str] = {
        "telescope_id": numbers.get(telescope, 0),
        "machine_id": 0,
        "source_name": fields.get("SOURCE", "unknown"),
        "src_raj": joined(fields.get("RA", "")),
        "src_dej": joined(fields.get("DEC", "")),
        "barycentric": int(fields.get("BARYCENTRIC", "0") not in ("0", "0.0")),
        "tsamp": head.seconds,
        **more,
    }
    start = mjd(head, first)
    if start is not None:
        entries["tstart"] = start
    return b"".join([word("HEADER_START"), *(entry(*one) for one in entries.items()), word("HEADER_END")])


def entry(keyword: str, value: int | float | str) -> bytes:
    """A keyword with its value, as its kind is written."""
    if isinstance(value, str):
        return word(keyword) + word(value)
    return word(keyword) + struct.pack("<i" if isinstance(value, int) else "<d", value)


def word(text: str) -> bytes:
    """A word: how many bytes it has, and these. SIGPROC takes 1 to 80."""
    some = (text or "unknown").encode("ascii", "replace")[:MOST_BYTES]
    return struct.pack("<i", len(some)) + some


def joined(sexagesimal: str) -> float:
    """Hours or degrees, minutes and seconds as one number: 437:15.81 is 43715.81; 0 where nothing is known."""
    try:
        parts = [float(part) for part in sexagesimal.lstrip("+-").split(":")]
    except ValueError:
        return 0.0
    value = sum(part * factor for part, factor in zip(parts, (10000, 100, 1)))
    return -value if sexagesimal.startswith("-") else value


def mjd(head: Header, first: int) -> float | None:
    """When a spectrum of an observation began, as MJD; None where it is not known."""
    days = mjd_parts(head, first)
    return None if days is None else days[0] + days[1] / DAY


def mjd_parts(head: Header, first: int) -> tuple[int, int] | None:
    """The day and the nanoseconds of that day in which a spectrum of an observation began."""
    since = head.start - DAY_ZERO
    if since != since:
        return None
    day, nanoseconds = divmod(int(since.astype("int64")) + first * head.sample_ns, DAY)
    return day, nanoseconds
