"""What psr_fits makes of search-mode PSRFITS files, and which ones it refuses."""
from __future__ import annotations

from collections.abc import Sequence
from pathlib import Path

import numpy as np
import pytest
from astropy.io import fits

from malletbean.fits import psr_fits
from malletbean.headers import header
from malletbean.refusal import Refusal
from malletbean.samples import Samples

SECONDS = 64e-6
PRIMARY = {"FITSTYPE": "PSRFITS", "OBS_MODE": "SEARCH", "TELESCOP": "Parkes", "FRONTEND": "MULTI", "BACKEND": "PDFB3",
           "SRC_NAME": "J0437 4715", "RA": "04:37:15.8", "DEC": "-47:15:08.5", "STT_IMJD": 60311, "STT_SMJD": 11045,
           "STT_OFFS": 0.25, "OBSFREQ": 1382.0, "OBSBW": -400.0}


def packed(values: np.ndarray, bits: int) -> np.ndarray:
    """The values of rows as PSRFITS stores them: below 8 bits the first in the high bits."""
    if bits > 8:
        return values.astype(">i2" if bits == 16 else ">f4")
    each = np.unpackbits(values.astype(np.uint8)[..., None], axis=-1)[..., 8 - bits:]
    return np.packbits(each.reshape(len(values), -1), axis=1)


def write(path: Path, values: np.ndarray, bits: int = 8, scales: object = 1.0, offsets: object = 0.0,
          weights: object = 1.0, starts: Sequence[float] | None = None, primary: dict[str, object] | None = None,
          dim: str | None = None, **table: object) -> str:
    """A file of values by row, spectrum, polarisation and channel; rows begin at `starts`, in spectra."""
    rows, in_row, polarisations, channels = values.shape
    begins = np.arange(rows) * in_row if starts is None else np.array(starts)
    step = -400 / channels

    def column(name: str, form: str, data: object, size: int) -> fits.Column:
        return fits.Column(name, f"{size}{form}", array=np.broadcast_to(data, (rows, size)).copy())

    stored = packed(values, bits).reshape(rows, -1)
    form = {16: "I", 32: "E"}.get(bits, "B")
    columns = [
        column("OFFS_SUB", "D", ((begins + in_row / 2) * SECONDS)[:, None], 1),
        column("DAT_FREQ", "D", 1582 + step / 2 + step * np.arange(channels), channels),
        column("DAT_WTS", "E", weights, channels),
        column("DAT_OFFS", "E", offsets, channels * polarisations),
        column("DAT_SCL", "E", scales, channels * polarisations),
        fits.Column("DATA", f"{stored.shape[1]}{form}", array=stored, dim=dim),
    ]
    hdu = fits.BinTableHDU.from_columns(columns, name="SUBINT")
    keywords = {"NPOL": polarisations, "POL_TYPE": {1: "AA+BB", 2: "AABB", 4: "IQUV"}[polarisations], "TBIN": SECONDS,
                "NBITS": bits, "NCHAN": channels, "NSBLK": in_row, "NSUBOFFS": 0, "ZERO_OFF": 0, "SIGNINT": 0} | table
    for keyword, value in keywords.items():
        hdu.header[keyword] = value
    first = fits.PrimaryHDU()
    first.header.update(PRIMARY | (primary or {}))
    fits.HDUList([first, hdu]).writeto(path)
    return str(path)


def noise(rows: int = 3, in_row: int = 100, polarisations: int = 1, channels: int = 16, bits: int = 8) -> np.ndarray:
    """Whole numbers of so many bits."""
    return np.random.default_rng(bits + polarisations).integers(0, 2**bits, (rows, in_row, polarisations, channels))


@pytest.mark.parametrize("bits", [1, 2, 4, 8])
@pytest.mark.parametrize("polarisations, taken", [(1, 1), (2, 2), (4, 1)])
def test_whole_numbers(tmp_path: Path, capsys: pytest.CaptureFixture[str], bits: int, polarisations: int,
                       taken: int) -> None:
    out, values = tmp_path / "out.dada", noise(polarisations=polarisations, bits=bits)
    psr_fits([write(tmp_path / "a.fits", values, bits), str(out)])
    written = Samples([str(out)]).values(0, 300)
    wanted = values[:, :, :taken].reshape(300, taken, 16).transpose(0, 2, 1)
    assert (written == wanted).all()
    head = header(str(out))
    assert (head.channels, head.polarisations, head.spectra, head.sample_ns) == (16, taken, 300, 64000)
    assert head.is_falling and head.centre_hz == 1382_000_000 and head.width_hz == 400_000_000
    assert str(head.start) == "2024-01-02T03:04:05.250000000"
    assert head.fields["SOURCE"] == "J0437_4715" and head.fields["TELESCOPE"] == "Parkes"
    assert head.fields["RA"] == "04:37:15.8" and head.fields["INSTRUMENT"] == "PDFB3"
    said = capsys.readouterr().out
    assert f", {taken} of {polarisations} polarisations\n" in said
    assert "are the same in all rows: its values stay as they are in the file\n" in said


def test_signed_values(tmp_path: Path) -> None:
    for bits, table in ((8, {"SIGNINT": 1}), (16, {})):
        values = noise(bits=bits) - 2**(bits - 1)
        out = tmp_path / f"{bits}.dada"
        psr_fits([write(tmp_path / f"{bits}.fits", values, bits, **table), str(out)])
        assert (Samples([str(out)]).values(0, 300)[..., 0] == values.reshape(300, 16) + 2**(bits - 1)).all()


def test_floats(tmp_path: Path) -> None:
    random = np.random.default_rng(1).normal(size=(10, 400, 1, 16))
    values = random * np.linspace(1, 3, 16) - 7
    psr_fits([write(tmp_path / "a.fits", values, 32), str(tmp_path / "out.dada")])
    written = Samples([str(tmp_path / "out.dada")]).values(0, 4000)[..., 0]
    assert np.abs(written - (64 + 8 * random.reshape(4000, 16))).max() < 3


def test_scales_that_change_are_applied(tmp_path: Path, capsys: pytest.CaptureFixture[str]) -> None:
    """Rows that a writer levelled by itself, as many backends do, are put together again."""
    random = np.random.default_rng(2).normal(size=(20, 200, 2, 16))
    gains = np.random.default_rng(3).uniform(1, 1.3, (20, 1, 2, 16))
    stored = np.rint(100 + 20 * random / gains).clip(0, 255)
    weights = np.ones((20, 16))
    weights[3:, 5] = 0
    weights[7, 2] = 0
    path = write(tmp_path / "a.fits", stored, scales=gains.reshape(20, 32), offsets=(-100 * gains).reshape(20, 32),
                 weights=weights)
    psr_fits([path, str(tmp_path / "out.dada")])
    assert "DAT_WTS change from row to row: they were applied\n" in capsys.readouterr().out
    written = Samples([str(tmp_path / "out.dada")]).values(0, 4000)
    wanted = 64 + 8 * random.reshape(4000, 2, 16).transpose(0, 2, 1)
    for channel in (0, 8, 15):
        assert np.abs(written[:, channel] - wanted[:, channel]).max() < 3
    assert (written[1400:1600, 2] == 64).all() and (written[600:, 5] == 64).all()


def test_a_column_with_its_shape(tmp_path: Path) -> None:
    values = noise(polarisations=2)
    psr_fits([write(tmp_path / "a.fits", values, dim="(16,2,100)"), str(tmp_path / "out.dada")])
    written = Samples([str(tmp_path / "out.dada")]).values(0, 300)
    assert (written == values.reshape(300, 2, 16).transpose(0, 2, 1)).all()


def test_unsigned_values_of_16_bits(tmp_path: Path) -> None:
    """FITS stores them as signed ones, with a zero."""
    values = noise(rows=20, bits=16) // 16
    gains = np.linspace(1, 2, 20)[:, None]
    stored = np.rint(values / gains[..., None, None]) - 32768
    path = write(tmp_path / "a.fits", stored, 16, scales=gains)
    raw = Path(path).read_bytes()
    place = raw.index(b"TTYPE6")
    entry = b"TZERO6  =                32768".ljust(80)
    Path(path).write_bytes(raw[:place] + entry + raw[place:].replace(b" " * 80, b"", 1))
    with pytest.raises(Refusal):
        psr_fits([path, str(tmp_path / "out.dada"), "--pol", "1"])
    psr_fits([path, str(tmp_path / "out.dada")])
    written = Samples([str(tmp_path / "out.dada")]).values(0, 2000)[..., 0]
    assert np.corrcoef(written[:, 3], values.reshape(2000, 16)[:, 3])[0, 1] > 0.999


def test_channels_without_weight(tmp_path: Path, capsys: pytest.CaptureFixture[str]) -> None:
    weights = np.ones(16)
    weights[[3, 4, 9]] = 0
    values = noise()
    psr_fits([write(tmp_path / "a.fits", values, weights=weights), str(tmp_path / "out.dada")])
    assert "mask to try: 3-4,9\n" in capsys.readouterr().out
    written = Samples([str(tmp_path / "out.dada")]).values(0, 300)[..., 0]
    assert (written[:, [3, 4, 9]] == 0).all() and (written[:, 5] == values.reshape(300, 16)[:, 5]).all()


@pytest.mark.parametrize("by", ["row numbers", "times of rows"])
def test_files_that_follow_one_another(tmp_path: Path, by: str) -> None:
    values = noise(rows=6)
    if by == "row numbers":
        first, second = {}, {"NSUBOFFS": 3, "starts": [-50] * 3}
        first["starts"] = [-50] * 3
    else:
        first, second = {}, {"starts": [300, 400, 500]}
    names = [write(tmp_path / f"{number}.fits", part, **more)
             for number, (part, more) in enumerate(((values[:3], first), (values[3:], second)))]
    psr_fits([*names, str(tmp_path / "out.dada")])
    assert (Samples([str(tmp_path / "out.dada")]).values(0, 600)[..., 0] == values.reshape(600, 16)).all()
    with pytest.raises(Refusal, match="it begins -300.0 spectra after the end of the file before it"):
        psr_fits([names[0], names[0], str(tmp_path / "other.dada")])


def test_one_polarisation_that_is_named(tmp_path: Path) -> None:
    values = noise(polarisations=4)
    path = write(tmp_path / "a.fits", values, POL_TYPE="AABBCRCI")
    for words, taken in (([], [0, 1]), (["--pol", "1"], [1])):
        out = tmp_path / f"{len(taken)}.dada"
        psr_fits([path, str(out), *words])
        wanted = values[:, :, taken].reshape(300, len(taken), 16).transpose(0, 2, 1)
        assert (Samples([str(out)]).values(0, 300) == wanted).all()


def test_a_file_that_was_cut(tmp_path: Path, capsys: pytest.CaptureFixture[str]) -> None:
    path = write(tmp_path / "a.fits", noise(rows=40))
    raw = Path(path).read_bytes()
    Path(path).write_bytes(raw[:-20000])
    psr_fits([path, str(tmp_path / "out.dada")])
    assert "was cut: only " in capsys.readouterr().err
    assert 2000 < header(str(tmp_path / "out.dada")).spectra < 4000


@pytest.mark.parametrize("more, line", [
    ({"starts": [0, 100, 250]}, "between its rows 1 and 2, counted from 0, 50.0 spectra are missing"),
    ({"NBITS": 64}, "it has 64 bits, and only 1, 2, 4, 8, 16, 32 are taken"),
    ({"NBITS": 4}, "DATA has 1600 bytes of type uint8 in a row, where 800 of 4 bits are expected"),
    ({"NCHAN": "*"}, "its NCHAN is missing"),
    ({"TBIN": 0.0}, "its TBIN is 0"),
    ({"primary": {"OBS_MODE": "PSR"}}, "its OBS_MODE is PSR, and not SEARCH"),
])
def test_what_is_refused(tmp_path: Path, more: dict[str, object], line: str) -> None:
    with pytest.raises(Refusal) as refusal:
        psr_fits([write(tmp_path / "a.fits", noise(), **more), str(tmp_path / "out.dada")])  # type: ignore[arg-type]
    assert refusal.value.status == 3 and line in refusal.value.line and not (tmp_path / "out.dada").exists()


@pytest.mark.parametrize("day", [0, 10**12])
def test_a_day_that_no_telescope_saw(tmp_path: Path, day: int) -> None:
    psr_fits([write(tmp_path / "a.fits", noise(), primary={"STT_IMJD": day}), str(tmp_path / "out.dada")])
    assert "UTC_START" not in header(str(tmp_path / "out.dada")).fields


@pytest.mark.parametrize("card", [b"TFORM3  ", b"TTYPE6  ", b"TBIN    ", b"NSBLK   "])
def test_damaged_headers(tmp_path: Path, card: bytes) -> None:
    path = Path(write(tmp_path / "a.fits", noise()))
    raw = path.read_bytes()
    place = raw.index(card)
    path.write_bytes(raw[:place] + (card + b"= 'a\xff").ljust(80) + raw[place + 80:])
    with pytest.raises(Refusal) as refusal:
        psr_fits([str(path), str(tmp_path / "out.dada")])
    assert refusal.value.status == 3 and "\n" not in refusal.value.line


def test_polarisations_of_an_unknown_kind(tmp_path: Path) -> None:
    with pytest.raises(Refusal, match="4 polarisations of POL_TYPE RLXX: choose one by --pol K"):
        psr_fits([write(tmp_path / "a.fits", noise(polarisations=4), POL_TYPE="RLXX"), str(tmp_path / "out.dada")])


def test_files_of_another_form(tmp_path: Path) -> None:
    (tmp_path / "a.txt").write_text("no FITS file")
    with pytest.raises(Refusal, match="it is no FITS file"):
        psr_fits([str(tmp_path / "a.txt"), str(tmp_path / "out.dada")])
    fits.PrimaryHDU(np.zeros((3, 3))).writeto(tmp_path / "image.fits")
    with pytest.raises(Refusal, match="no PSRFITS file with a SUBINT table"):
        psr_fits([str(tmp_path / "image.fits"), str(tmp_path / "out.dada")])
    (tmp_path / "cut.fits").write_bytes((tmp_path / "image.fits").read_bytes()[:1000])
    with pytest.raises(Refusal) as refusal:
        psr_fits([str(tmp_path / "cut.fits"), str(tmp_path / "out.dada")])
    assert refusal.value.status == 3
    with pytest.raises(Refusal) as refusal:
        psr_fits([str(tmp_path / "nowhere.fits"), str(tmp_path / "out.dada")])
    assert refusal.value.status == 6
