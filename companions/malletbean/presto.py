"""What PRESTO reads beside its data: the lines of an .inf file."""
from __future__ import annotations

from .grouping import DAY
from .headers import Header
from .sigproc import mjd_parts


def even(count: int) -> int:
    """How many values a series of PRESTO has: its Fourier transforms take even numbers alone."""
    return count - count % 2


def inf_text(head: Header, dm: float, count: int, name: str, notes: str) -> str:
    """What PRESTO has to know of a series, or of candidates, in files of this name: its lines, in its order."""
    top, foot = head.edges_khz[0] / 1000, head.edges_khz[-1] / 1000
    channel = (top - foot) / head.channels
    start = mjd_parts(head, 0)
    day, nanoseconds = start or (0, 0)
    masked = f"; masked: {len(head.masked)} channels" if head.masked else ""
    lines = {
        "Data file name without suffix": name,
        "Telescope used": head.fields.get("TELESCOPE", "Unknown"),
        "Instrument used": head.fields.get("INSTRUMENT", "Unknown"),
        "Object being observed": head.fields.get("SOURCE", "Unknown"),
        "J2000 Right Ascension (hh:mm:ss.ssss)": head.fields.get("RA", "00:00:00.0000"),
        "J2000 Declination     (dd:mm:ss.ssss)": head.fields.get("DEC", "00:00:00.0000"),
        "Data observed by": head.fields.get("OBSERVER", "Unknown"),
        "Epoch of observation (MJD)": f"{day}.{nanoseconds * 10**15 // DAY:015d}",
        "Barycentered?           (1=yes, 0=no)": int(head.fields.get("BARYCENTRIC", "0") not in ("0", "0.0")),
        "Number of bins in the time series": count,
        "Width of each time series bin (sec)": f"{head.seconds:.15g}",
        "Any breaks in the data? (1=yes, 0=no)": 0,
        "Type of observation (EM band)": "Radio",
        "Beam diameter (arcsec)": 0,
        "Dispersion measure (cm-3 pc)": f"{dm:.12g}",
        "Central freq of low channel (MHz)": f"{foot + channel / 2:.12g}",
        "Total bandwidth (MHz)": f"{top - foot:.12g}",
        "Number of channels": head.channels,
        "Channel bandwidth (MHz)": f"{channel:.12g}",
        "Data analyzed by": "Malletbean",
    }
    known = "" if start else "; the epoch is not known"
    text = "".join(f" {keyword:<38} =  {value}\n" for keyword, value in lines.items())
    return f"{text} Any additional notes:\n    {notes}{masked}{known}.\n\n"
