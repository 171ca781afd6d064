"""Headers by the rules of the manual."""
from __future__ import annotations

from pathlib import Path

import numpy as np
import pytest

from malletbean import Refusal, header
from malletbean.number import scaled

TELESCOPE = """HDR_VERSION 1.0
HDR_SIZE    4096
TELESCOPE   Parkes
SOURCE      J0437-4715
FREQ        1382.0     # centre of the band in MHz
BW          -400.0     # MHz; negative: the first channel of a spectrum is the highest
NCHAN       1024
NBIT        8
NPOL        1
NDIM        1
TSAMP       64         # microseconds
UTC_START   2024-01-02-03:04:05
OBS_OFFSET  2048
"""


def written(folder: Path, text: str, size: int = 4096, data: int = 0) -> str:
    """A file with a header of this text and so many data bytes."""
    path = folder / "a.dada"
    path.write_bytes(text.encode("latin-1").ljust(size, b"\0") + bytes(data))
    return str(path)


def test_a_telescopes_header(tmp_path: Path) -> None:
    head = header(written(tmp_path, TELESCOPE, data=5000))
    assert (head.channels, head.bits, head.polarisations, head.sample_ns) == (1024, 8, 1, 64000)
    assert (head.centre_hz, head.width_hz, head.is_falling) == (1382_000_000, 400_000_000, True)
    assert (head.edges_khz[0], head.edges_khz[1], head.edges_khz[-1]) == (1582000, 1581609, 1182000)
    assert (head.spectrum_bytes, head.spectra, head.offset) == (1024, 4, 2048)
    assert head.words_of("SOURCE", "RECEIVER", "TELESCOPE") == ["J0437-4715", "Parkes"]
    assert head.start == np.datetime64("2024-01-02T03:04:05.000128")


def test_dispersion_measures_are_those_of_the_programs(tmp_path: Path) -> None:
    head = header(written(tmp_path, TELESCOPE))
    assert [head.dm(delay) for delay in (0, 19, 20)] == [0, 0.926, 0.975]
    assert head.delay(head.dm(8192)) == pytest.approx(8192, abs=0.01)


@pytest.mark.parametrize("text, decimals, value", [
    ("64", 3, 64000), ("+64.0009", 3, 64000), ("-0.5", 0, 0), (".5", 1, 5), ("5.", 1, 50), ("-400.25", 6, -400250000),
    ("", 0, None), (".", 3, None), ("-", 0, None), ("6.4e1", 3, None), ("1.2.3", 3, None), ("--1", 0, None),
    ("\u0661", 0, None), ("0" * 5000 + "7", 0, 7),
])
def test_numbers(text: str, decimals: int, value: int | None) -> None:
    assert scaled(text, decimals) == value


@pytest.mark.parametrize("change, channels", [
    (("NCHAN       1024", "NCHAN 512\nNCHAN 1024"), 512),
    (("NCHAN       1024", "NCHAN\nNCHAN 512"), 512),
    (("NCHAN       1024", "NCHAN#1024\nNCHAN\t512#3"), 512),
    (("NCHAN       1024", "\r\v\fNCHAN\r\f512\v7"), 512),
    (("OBS_OFFSET  2048\n", "OBS_OFFSET 0\n\0NCHAN ten\n\xff"), 1024),
])
def test_lines(tmp_path: Path, change: tuple[str, str], channels: int) -> None:
    assert header(written(tmp_path, TELESCOPE.replace(*change))).channels == channels


def test_a_long_header(tmp_path: Path) -> None:
    text = "HDR_SIZE 8192\n" + "#" * 4090 + "\n" + TELESCOPE.replace("HDR_SIZE    4096\n", "")
    assert header(written(tmp_path, text, 8192, 1024)).spectra == 1
    late = "#" * 4096 + "\nHDR_SIZE 8192\n"
    with pytest.raises(Refusal, match="Missing NCHAN"):
        header(written(tmp_path, late, 8192))


@pytest.mark.parametrize("change, why", [
    (("HDR_SIZE    4096", "HDR_SIZE 4095"), "BadSize"),
    (("HDR_SIZE    4096", "HDR_SIZE 65537"), "BadSize"),
    (("HDR_SIZE    4096", "HDR_SIZE big"), "BadSize"),
    (("HDR_SIZE    4096", "HDR_SIZE 8192"), "Short 4096"),
    (("HDR_VERSION", "\xe4"), "NotText 0"),
    (("NCHAN ", "CHANS "), "Missing NCHAN"),
    (("TSAMP       64 ", "TSAMP 6.4e1 "), "BadNumber TSAMP"),
    (("NBIT        8", "NBIT 4"), "OutOfProfile NBIT: psr_dada may turn it into a file that is searched"),
    (("NPOL        1", "NPOL 4"), "OutOfProfile NPOL: psr_dada may turn it into a file that is searched"),
    (("NDIM        1", "NDIM 2"), "OutOfProfile NDIM: psr_dada may turn it into a file that is searched"),
    (("NCHAN       1024", "NCHAN 8192"), "OutOfRange NCHAN: psr_dada may turn it into a file that is searched"),
    (("NCHAN       1024", "NCHAN 1"), "OutOfRange NCHAN"),
    (("TSAMP       64 ", "TSAMP 0.000064 "), "OutOfRange TSAMP"),
    (("FREQ        1382.0", "FREQ 1382000000"), "OutOfRange FREQ"),
    (("BW          -400.0", "BW 0"), "OutOfRange BW"),
    (("BW          -400.0", "BW -2764.0"), "OutOfRange BW"),
    (("OBS_OFFSET  2048", "OBS_OFFSET -1"), "OutOfRange OBS_OFFSET"),
    (("BW          -400.0", "BW -0.4"), "TooNarrow 400000 1024"),
])
def test_refusals(tmp_path: Path, change: tuple[str, str], why: str) -> None:
    with pytest.raises(Refusal) as caught:
        header(written(tmp_path, TELESCOPE.replace(*change)))
    assert caught.value.status == 3
    assert caught.value.line.endswith(f"refused: {why}")


def test_the_first_refusal_counts(tmp_path: Path) -> None:
    text = TELESCOPE.replace("BW          -400.0", "BW 0").replace("OBS_OFFSET  2048", "OBS_OFFSET x")
    with pytest.raises(Refusal, match="OutOfRange BW"):
        header(written(tmp_path, text))


def test_a_short_file(tmp_path: Path) -> None:
    (tmp_path / "short").write_bytes(b"NCHAN 8\n")
    with pytest.raises(Refusal, match="Short 8"):
        header(str(tmp_path / "short"))


def test_no_file(tmp_path: Path) -> None:
    with pytest.raises(Refusal) as caught:
        header(str(tmp_path / "none"))
    assert caught.value.status == 6


def test_a_start_of_another_form(tmp_path: Path) -> None:
    for other in ("2024-01-02T03:04:05", "2024-13-02-03:04:05"):
        assert np.isnat(header(written(tmp_path, TELESCOPE.replace("2024-01-02-03:04:05", other))).start)


def test_a_start_between_two_seconds(tmp_path: Path) -> None:
    whole = header(written(tmp_path, TELESCOPE)).start
    later = header(written(tmp_path, TELESCOPE.replace("UTC_START", "PICOSECONDS 730000000000\nUTC_START"))).start
    assert later - whole == np.timedelta64(730, "ms")


@pytest.mark.parametrize("front, form", [
    (b"\x0c\0\0\0HEADER_START", "it is a SIGPROC filterbank: psr_fil makes a DADA file of it"),
    (b"SIMPLE  =                    T", "it is a FITS file: psr_fits makes a DADA file of it"),
])
def test_files_of_another_form(tmp_path: Path, front: bytes, form: str) -> None:
    (tmp_path / "other").write_bytes(front.ljust(8192, b"\0"))
    with pytest.raises(Refusal, match=form):
        header(str(tmp_path / "other"))
