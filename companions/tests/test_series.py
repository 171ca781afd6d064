"""Dedispersed series and filterbanks, by what the public descriptions of their formats say; and folds."""
from __future__ import annotations

import re
import struct
from pathlib import Path

import numpy as np
import pytest

from conftest import DATA
from malletbean import Refusal
from malletbean.cut import psr_cut
from malletbean.fil import psr_fil
from malletbean.paths import delay_paths
from malletbean.samples import Samples
from malletbean.series import fold_of, fold_picture, psr_series, series_of
from sky import Band, Burst, make_sky

KINDS = {"telescope_id": "i", "machine_id": "i", "data_type": "i", "barycentric": "i", "nchans": "i", "nbits": "i",
         "nifs": "i", "nsamples": "i", "source_name": "s", "src_raj": "d", "src_dej": "d", "tstart": "d", "tsamp": "d",
         "fch1": "d", "foff": "d", "refdm": "d"}


def sigproc(path: Path) -> tuple[dict[str, object], bytes]:
    """The header of a SIGPROC file and the data behind it."""
    data, place = path.read_bytes(), 0

    def word() -> str:
        nonlocal place
        length, = struct.unpack_from("<i", data, place)
        assert 1 <= length <= 80
        place += 4 + length
        return data[place - length:place].decode()

    assert word() == "HEADER_START"
    found: dict[str, object] = {}
    while (keyword := word()) != "HEADER_END":
        kind = KINDS[keyword]
        if kind == "s":
            found[keyword] = word()
            continue
        found[keyword], = struct.unpack_from(f"<{kind}", data, place)
        place += struct.calcsize(f"<{kind}")
    return found, data[place:]


# the lines of an .inf file of the radio band as PRESTO reads them, one after another, whatever stands before the `=`
INF = ["Data file name without suffix", "Telescope used", "Instrument used", "Object being observed",
       "J2000 Right Ascension (hh:mm:ss.ssss)", "J2000 Declination     (dd:mm:ss.ssss)", "Data observed by",
       "Epoch of observation (MJD)", "Barycentered?           (1=yes, 0=no)", "Number of bins in the time series",
       "Width of each time series bin (sec)", "Any breaks in the data? (1=yes, 0=no)", "Type of observation (EM band)",
       "Beam diameter (arcsec)", "Dispersion measure (cm-3 pc)", "Central freq of low channel (MHz)",
       "Total bandwidth (MHz)", "Number of channels", "Channel bandwidth (MHz)", "Data analyzed by"]


def inf(path: Path) -> dict[str, str]:
    """The lines of an .inf file. PRESTO takes what stands behind an `=` in column 41, riptide what stands behind the
    last one of a line; both parts of a time or an angle by colons."""
    lines = path.read_bytes().decode("ascii").splitlines()
    found = {}
    for keyword, line in zip(INF, lines):
        assert len(line) < 200 and line[40] == "=" and line[:40].strip() == keyword
        found[keyword] = line[41:].strip()
        assert found[keyword] == line.split("=")[-1].strip() != ""
    assert lines[len(INF)] == " Any additional notes:" and len(lines[len(INF) + 1]) < 200
    for keyword in INF[4:6]:
        assert re.fullmatch(r"-?\d\d:\d\d:\d\d(\.\d+)?", found[keyword])
    assert re.fullmatch(r"\d+\.\d{15}", found["Epoch of observation (MJD)"])
    assert found["Type of observation (EM band)"] == "Radio" and found["Any breaks in the data? (1=yes, 0=no)"] == "0"
    # a transform takes no odd number of values
    assert int(found["Number of bins in the time series"]) % 2 == 0
    return found


def dedispersed(path: str, delay: int, mask: str = "none") -> np.ndarray:
    """The series of a delay, sample by sample."""
    samples = Samples([path], mask)
    spectra = samples.read(0, samples.spectra).astype(float)
    entries = delay_paths(samples.header.edges_khz, np.array([delay]))[:, 0]
    count = len(spectra) - delay
    total, cells = np.zeros(count), 0
    for channel in samples.header.kept:
        for later in range(entries[channel], entries[channel + 1] + 1):
            total += spectra[later:later + count, channel]
            cells += 1
    return total / cells


@pytest.mark.parametrize("name, mask", [("made", "none"), ("made", "3,17-19"), ("rising", "none")])
def test_series(files: dict[str, str], tmp_path: Path, name: str, mask: str) -> None:
    psr_series([files[name], "--delay", "20", "0", "7", "--mask", mask, "-o", str(tmp_path / "a")])
    samples = Samples([files[name]])
    for delay in (20, 0, 7):
        series = tmp_path / f"a_DM{samples.header.dm(delay):.3f}"
        expected = dedispersed(files[name], delay, mask)
        expected = expected[:len(expected) // 2 * 2]
        values = np.fromfile(f"{series}.dat", "<f4")
        assert values == pytest.approx(expected, rel=1e-6)
        lines = inf(Path(f"{series}.inf"))
        assert lines["Data file name without suffix"] == series.name
        assert int(lines["Number of bins in the time series"]) == len(expected)
        assert float(lines["Width of each time series bin (sec)"]) == 64e-6
        assert float(lines["Dispersion measure (cm-3 pc)"]) == samples.header.dm(delay)
        # 2024-01-02-03:04:05
        assert lines["Epoch of observation (MJD)"] == f"60311.{(3 * 3600 + 4 * 60 + 5) * 10**15 // 86400:015}"
        width = samples.header.width_hz / 1e6
        assert float(lines["Total bandwidth (MHz)"]) == width
        assert float(lines["Central freq of low channel (MHz)"]) == pytest.approx(
            1382 - width / 2 + width / samples.header.channels / 2)
        header, data = sigproc(Path(f"{series}.tim"))
        assert np.frombuffer(data, "<f4").tolist() == values.tolist()
        assert (header["data_type"], header["nbits"], header["nchans"], header["nifs"]) == (2, 32, 1, 1)
        assert (header["refdm"], header["tsamp"]) == (samples.header.dm(delay), pytest.approx(64e-6, rel=1e-14))
        assert header["tstart"] == pytest.approx(60311 + (3 * 3600 + 4 * 60 + 5) / 86400, abs=1e-10)


def test_series_of_several_pieces(files: dict[str, str], monkeypatch: pytest.MonkeyPatch) -> None:
    samples = Samples([files["folds"]])
    whole = series_of(samples, [100, 3, 40])
    monkeypatch.setattr("malletbean.series.SAMPLES_AT_A_TIME", 32 * 300)
    for one, other in zip(whole, series_of(samples, [100, 3, 40])):
        assert one.tolist() == other.tolist()
    assert [len(one) for one in whole] == [2048 - 100, 2048 - 3, 2048 - 40]


def test_a_dm_becomes_the_nearest_delay(files: dict[str, str], tmp_path: Path,
                                        capsys: pytest.CaptureFixture[str]) -> None:
    psr_series([files["made"], "0.97", "-o", str(tmp_path / "a")])
    assert capsys.readouterr().out == f"psr_series: {tmp_path}/a_DM0.975.dat, .inf and .tim: 236 values of DM 0.975\n"
    assert sorted(one.name for one in tmp_path.iterdir()) == ["a_DM0.975.dat", "a_DM0.975.inf", "a_DM0.975.tim"]


@pytest.mark.parametrize("words, status, line", [
    ([], 2, "give a DM or --delay"),
    (["--delay", "256"], 2, "a delay of 256 spectra is not within the 256 of the data"),
    (["--delay", "-1"], 2, "a delay of -1 spectra is not within"),
    (["1e3"], 2, "1e3 is not a dispersion measure"),
    (["1", "--fold", "0.0001"], 2, "shorter than two spectra, or longer than the data"),
    (["1", "--fold", "1"], 2, "shorter than two spectra, or longer than the data"),
])
def test_what_is_refused(files: dict[str, str], tmp_path: Path, words: list[str], status: int, line: str) -> None:
    with pytest.raises(Refusal) as caught:
        psr_series([files["made"], *words, "-o", str(tmp_path / "a")])
    assert caught.value.status == status and line in caught.value.line


@pytest.fixture(scope="module")
def pulsar(tmp_path_factory: pytest.TempPathFactory) -> str:
    """A pulsar with a period of 0.1537 s at DM 56.8, whose first pulse passes the top at 0.05 s."""
    path = tmp_path_factory.mktemp("pulsar") / "pulsar.dada"
    make_sky(path, Band(64, 1400, -300, 256), 16384, pulsar=(0.1537, Burst(0.05, 56.8, 0.004, 4)))
    return str(path)


def test_a_fold_of_the_whole_file(pulsar: str, monkeypatch: pytest.MonkeyPatch) -> None:
    samples = Samples([pulsar])
    delay = round(samples.header.delay(56.8))
    fold = fold_of(samples, delay, 0.1537)
    assert fold.counts.sum() == samples.spectra - delay
    assert fold.sums.sum() == pytest.approx(dedispersed(pulsar, delay).sum() * (64 + delay))
    assert fold.profile.argmax() / len(fold.profile) == pytest.approx(0.05 / 0.1537, abs=0.02)
    assert fold.profile.max() > 10 and np.sort(fold.profile)[-8] < 5
    assert (fold.by_time.argmax(axis=1) == fold.profile.argmax()).mean() > 0.2
    monkeypatch.setattr("malletbean.series.SAMPLES_AT_A_TIME", 64 * 1000)
    other = fold_of(samples, delay, 0.1537)
    assert other.sums.tolist() == fold.sums.tolist() and other.counts.tolist() == fold.counts.tolist()


def test_the_picture_of_a_fold(pulsar: str, tmp_path: Path) -> None:
    psr_series([pulsar, "56.8", "-o", str(tmp_path / "a"), "--fold", "0.1537"])
    assert next(tmp_path.glob("*_fold.png")).read_bytes().startswith(b"\x89PNG")
    samples = Samples([pulsar])
    figure = fold_picture(samples, fold_of(samples, 200, 0.1537))
    profile, _, by_time, by_band = figure.axes
    assert profile.get_xlim() == (0, 2)
    assert by_time.get_ylabel() == "time / s" and by_band.get_ylabel() == "frequency / MHz"
    assert by_band.images[0].get_extent() == (0, 2, 1250, 1550)


@pytest.mark.parametrize("name", ["made", "rising", "second"])
def test_a_filterbank_comes_back(files: dict[str, str], tmp_path: Path, name: str) -> None:
    """psr_fil makes the same samples and band of what psr_cut wrote."""
    psr_cut([files[name], str(tmp_path / "a.fil")])
    psr_fil([str(tmp_path / "a.fil"), str(tmp_path / "a.dada")])
    one, other = Samples([files[name]]), Samples([str(tmp_path / "a.dada")])
    assert (one.values(0, one.spectra) == other.values(0, other.spectra)).all()
    for value in ("channels", "bits", "polarisations", "sample_ns", "centre_hz", "width_hz", "is_falling", "start"):
        assert getattr(one.header, value) == getattr(other.header, value)


def test_a_part_of_the_time(files: dict[str, str], tmp_path: Path) -> None:
    psr_cut([files["folds"], str(tmp_path / "a.fil"), "--from", "0.0064", "--length", "0.032"])
    header, data = sigproc(tmp_path / "a.fil")
    assert (header["nsamples"], header["nchans"], header["nbits"], header["data_type"]) == (500, 32, 8, 1)
    assert (header["fch1"], header["foff"]) == (1382 + 200 - 6.25, -12.5)
    assert header["tstart"] == pytest.approx(60311 + (3 * 3600 + 4 * 60 + 5.0064) / 86400, abs=1e-10)
    assert data == Path(files["folds"]).read_bytes()[4096 + 100 * 32:4096 + 600 * 32]


@pytest.mark.parametrize("words, status, line", [
    (["--from", "1"], 2, "are not within them"),
    (["--length", "0.2"], 2, "are not within them"),
    (["--length", "0"], 2, "are not within them"),
    (["--from", "-1"], 2, "-1 is not a time in seconds"),
])
def test_a_part_that_is_not_there(files: dict[str, str], tmp_path: Path, words: list[str], status: int,
                                  line: str) -> None:
    with pytest.raises(Refusal) as caught:
        psr_cut([files["folds"], str(tmp_path / "a.fil"), *words])
    assert caught.value.status == status and line in caught.value.line and not (tmp_path / "a.fil").exists()


def test_a_filterbank_is_not_written_over(files: dict[str, str]) -> None:
    with pytest.raises(Refusal, match="it exists already"):
        psr_cut([files["made"], str(DATA / "made.txt")])
