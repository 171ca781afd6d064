"""What psr_fil makes of SIGPROC filterbanks, and which ones it refuses."""
from __future__ import annotations

import os
import struct
import threading
from pathlib import Path

import numpy as np
import pytest

import made
from malletbean import fil
from malletbean.fil import psr_fil, spectra_in
from malletbean.headers import header
from malletbean.refusal import Refusal
from malletbean.samples import Samples

# the header of a file of made.make
USUAL = {"nchans": 64, "nbits": 8, "nifs": 1, "tsamp": 64e-6, "fch1": 1578.875, "foff": -6.25,
         "tstart": 60311.12783564815}


def word(text: str) -> bytes:
    """A word of a SIGPROC header."""
    return struct.pack("<i", len(text)) + text.encode()


def entry(keyword: str, value: object) -> bytes:
    """A keyword and its value."""
    kind = {int: "<i", float: "<d"}.get(type(value))
    return word(keyword) + (word(str(value)) if kind is None else struct.pack(kind, value))


def write(path: Path, data: bytes, other: bytes = b"", **changed: object) -> str:
    """Makes a filterbank of these data; a value that is None is left out."""
    values = {keyword: value for keyword, value in (USUAL | changed).items() if value is not None}
    entries = b"".join(entry(keyword, value) for keyword, value in values.items())
    path.write_bytes(word("HEADER_START") + entries + other + word("HEADER_END") + data)
    return str(path)


def test_a_made_observation(tmp_path: Path, monkeypatch: pytest.MonkeyPatch,
                            capsys: pytest.CaptureFixture[str]) -> None:
    monkeypatch.setattr(fil, "VALUES_AT_A_TIME", 1000)
    path, out = tmp_path / "made.dada", tmp_path / "out.dada"
    made.make(path)
    psr_fil([write(tmp_path / "a.fil", path.read_bytes()[4096:] + b"cut", source_name="J0437 4715"), str(out)])
    assert capsys.readouterr().out.startswith("psr_fil: 4096 spectra of 64 channels; psr_look ")
    assert out.read_bytes()[4096:] == path.read_bytes()[4096:]
    before, after = header(str(path)), header(str(out))
    assert (after.edges_khz, after.sample_ns, after.start) == (before.edges_khz, before.sample_ns, before.start)
    assert after.is_falling and after.fields["SOURCE"] == "J0437_4715" and after.fields["PICOSECONDS"] == "0"


@pytest.mark.parametrize("bits", [1, 2, 4])
@pytest.mark.parametrize("channels", [5, 64])
def test_values_of_few_bits(tmp_path: Path, bits: int, channels: int) -> None:
    out = tmp_path / "out.dada"
    values = np.random.default_rng(1).integers(0, 2**bits, (16, channels), np.uint8)
    each = np.unpackbits(values.reshape(-1, 1), axis=1, count=bits, bitorder="little")
    data = np.packbits(each.reshape(-1), bitorder="little").tobytes()
    psr_fil([write(tmp_path / "a.fil", data, nchans=channels, nbits=bits), str(out)])
    assert out.read_bytes()[4096:] == values.tobytes()


def test_ifs_alternate_within_a_channel(tmp_path: Path) -> None:
    values = np.arange(3 * 2 * 64, dtype="<u2").reshape(3, 2, 64)
    path = write(tmp_path / "a.fil", values.tobytes(), nifs=2, nbits=16, foff=6.25)
    psr_fil([path, str(tmp_path / "both.dada")])
    assert Samples([str(tmp_path / "both.dada")]).read(0, 3).tolist() == values.sum(axis=1)[:, ::-1].tolist()
    psr_fil([path, str(tmp_path / "one.dada"), "--if", "1"])
    assert Samples([str(tmp_path / "one.dada")]).read(0, 3).tolist() == values[:, 1, ::-1].tolist()


@pytest.mark.parametrize("bits", [8, 16])
def test_signed_values(tmp_path: Path, bits: int) -> None:
    values = np.arange(-64, 64, dtype=f"<i{bits // 8}")
    path = write(tmp_path / "a.fil", values.tobytes(), word("signed") + b"\1", nbits=bits)
    psr_fil([path, str(tmp_path / "out.dada")])
    written = np.frombuffer((tmp_path / "out.dada").read_bytes()[4096:], f"<u{bits // 8}")
    assert written.tolist() == (values.astype(int) + 2 ** (bits - 1)).tolist()


def noise_and_file(path: Path, spectra: int = 4000) -> tuple[np.ndarray, np.ndarray]:
    """Noise of deviation 1, and the same with another mean and gain in each channel, as floats."""
    noise = np.random.default_rng(3).normal(size=(spectra, 64)).astype(np.float32)
    return noise, noise * np.linspace(1, 2, 64, dtype=np.float32) + np.linspace(90, 120, 64, dtype=np.float32)


def turned(path: Path, values: np.ndarray) -> np.ndarray:
    """What psr_fil makes of floats."""
    out = path.with_suffix(".dada")
    psr_fil([write(path, values.astype("<f4").tobytes(), nbits=32), str(out)])
    return Samples([str(out)]).read(0, len(values)).astype(int)


def test_floats(tmp_path: Path, capsys: pytest.CaptureFixture[str]) -> None:
    noise, values = noise_and_file(tmp_path)
    values[:, 9] = values[:, 9] * 40
    values[0, 7], values[1, 7], values[:, 8] = np.nan, np.inf, 3
    written = turned(tmp_path / "a.fil", values)
    assert np.abs(written[:2, 7] - 64).max() <= 1 and np.all(written[:, 8] == 64)
    usual = np.delete(np.arange(64), (7, 8))
    assert np.abs(written[:, usual] - (64 + 8 * noise[:, usual])).max() < 3
    said = capsys.readouterr()
    assert "; 0 of 256000 values were cut, and 2 that are no numbers became the mean; mask to try: 8-9\n" in said.out
    assert said.err == ""


@pytest.mark.parametrize("front", ["zeros", "unknown", "a spectrum of 1e30", "ten of interference"])
def test_floats_whose_beginning_tells_nothing(tmp_path: Path, capsys: pytest.CaptureFixture[str], front: str) -> None:
    noise, values = noise_and_file(tmp_path)
    if front == "zeros":
        values[:500] = 0
    elif front == "unknown":
        values[:500] = np.nan
    elif front == "a spectrum of 1e30":
        values[0] = 1e30
    else:
        values[:10] *= 50
    written = turned(tmp_path / "a.fil", values)
    assert np.abs(written[500:] - (64 + 8 * noise[500:])).max() < 3
    warning = "values were cut" in capsys.readouterr().err
    assert warning == (front in ("zeros", "ten of interference"))


@pytest.mark.parametrize("place, step", [(0.1, 3), (0.5, 3), (0.9, 3), (0.5, 0.2), (0.9, 0.2)])
def test_a_step_of_gain(tmp_path: Path, capsys: pytest.CaptureFixture[str], place: float, step: float) -> None:
    """Few values are cut, and each part keeps enough digits; so that it can be levelled."""
    noise, values = noise_and_file(tmp_path)
    first = int(place * 4000)
    values[first:] *= step
    written = turned(tmp_path / "a.fil", values)
    assert (written == 255).sum() + (written == 0).sum() < 0.0001 * written.size
    for part, truth in ((written[:first], noise[:first]), (written[first:], noise[first:])):
        for channel in (0, 33, 63):
            if len(part) > 200:
                assert np.corrcoef(part[:, channel], truth[:, channel])[0, 1] > 0.85
    assert capsys.readouterr().err == ""


def test_a_pipe_of_floats(tmp_path: Path, monkeypatch: pytest.MonkeyPatch) -> None:
    """Stretch by stretch, and a stretch of zeros leaves the scale as it was."""
    monkeypatch.setattr(fil, "VALUES_TO_LEVEL_BY", 64 * 1000)
    noise, values = noise_and_file(tmp_path)
    values[2000:] *= 3
    values[1000:2000] = 0
    path, pipe = Path(write(tmp_path / "a.fil", values.astype("<f4").tobytes(), nbits=32)), tmp_path / "pipe"
    os.mkfifo(pipe)
    writer = threading.Thread(target=lambda: pipe.write_bytes(path.read_bytes()))
    writer.start()
    psr_fil([str(pipe), str(tmp_path / "out.dada")])
    writer.join()
    written = Samples([str(tmp_path / "out.dada")]).read(0, 4000).astype(int)
    assert np.abs(written[2000:] - (64 + 8 * noise[2000:])).max() < 5
    assert (written[1000:2000] == 0).all()


def test_tones_among_floats(tmp_path: Path, capsys: pytest.CaptureFixture[str]) -> None:
    """Tones that come and go are named, whatever the unit of the values is."""
    _, values = noise_and_file(tmp_path)
    values[np.arange(4000) // 500 % 3 == 0, 20] += 5
    turned(tmp_path / "a.fil", values * 1e-3)
    assert "mask to try: 20\n" in capsys.readouterr().out


def test_what_a_header_says_is_kept(tmp_path: Path, capsys: pytest.CaptureFixture[str]) -> None:
    out = tmp_path / "out.dada"
    path = write(tmp_path / "a.fil", bytes(640), telescope_id=4, machine_id=10, src_raj=43715.81, src_dej=-471508.5,
                 barycentric=1, refdm=2.64, data_type=6, rawdatafile="/data/" + "long" * 40 + ".raw", ibeam=3,
                 other=word("npuls") + struct.pack("<q", 7) + entry("nbins", 64))
    psr_fil([path, str(out)])
    fields = header(str(out)).fields
    wanted = {"TELESCOPE": "Parkes", "RA": "04:37:15.810", "DEC": "-47:15:08.500", "BARYCENTRIC": "1", "REFDM": "2.64",
              "DATA_TYPE": "6", "MACHINE_ID": "10", "IBEAM": "3", "RAW_FILE": "long" * 40 + ".raw"}
    assert wanted.items() <= fields.items()
    said = capsys.readouterr().err
    assert "corrected to the barycentre" in said and "dedispersed sub-bands" in said and "at DM 2.64" in said


def test_keywords_that_sigproc_does_not_have(tmp_path: Path) -> None:
    path = write(tmp_path / "a.fil", bytes(640), colour=1, shade="dark", other=word("nothing"))
    with pytest.raises(Refusal, match="'colour' is no keyword that is known: .* by --keyword colour=KIND"):
        psr_fil([path, str(tmp_path / "out.dada")])
    psr_fil([path, str(tmp_path / "out.dada"), "--keyword", "colour=int", "--keyword", "shade=string", "--keyword",
             "nothing=none"])
    assert header(str(tmp_path / "out.dada")).spectra == 10


def test_more_channels_than_a_search_takes(tmp_path: Path, capsys: pytest.CaptureFixture[str]) -> None:
    values = np.random.default_rng(5).integers(40, 60, (400, 12288), np.uint8)
    path = write(tmp_path / "a.fil", values.tobytes(), nchans=12288, foff=-0.03)
    psr_fil([path, str(tmp_path / "out.dada")])
    assert "3 neighbouring channels each were added: a search takes 4096" in capsys.readouterr().out
    head = header(str(tmp_path / "out.dada"))
    assert (head.channels, head.spectra) == (4096, 400) and head.width_hz == 368_640_000
    written = Samples([str(tmp_path / "out.dada")]).read(0, 400)
    joined = values.reshape(400, 4096, 3).sum(axis=2)
    assert np.corrcoef(written[:, 7], joined[:, 7])[0, 1] > 0.99
    with pytest.raises(Refusal, match="4099 channels can't be added to 4096 or fewer"):
        psr_fil([write(tmp_path / "b.fil", bytes(4099), nchans=4099, foff=-0.03), str(tmp_path / "other.dada")])


@pytest.mark.parametrize("start", [0.0, -1.5, 1e300])
def test_a_day_that_no_telescope_saw(tmp_path: Path, start: float) -> None:
    psr_fil([write(tmp_path / "a.fil", bytes(640), tstart=start), str(tmp_path / "out.dada")])
    assert "UTC_START" not in header(str(tmp_path / "out.dada")).fields


def test_a_sampling_time_with_more_decimals(tmp_path: Path, capsys: pytest.CaptureFixture[str]) -> None:
    psr_fil([write(tmp_path / "a.fil", bytes(640), tsamp=65.4766e-6), str(tmp_path / "out.dada")])
    assert header(str(tmp_path / "out.dada")).sample_ns == 65477
    assert "TSAMP is taken to a nanosecond: times are wrong by 22 ms after an hour\n" in capsys.readouterr().out


def test_a_table_of_frequencies(tmp_path: Path) -> None:
    table = [entry("fchannel", 1400.0 - 0.5 * channel) for channel in range(4)]
    other = word("FREQUENCY_START") + b"".join(table) + word("FREQUENCY_END")
    psr_fil([write(tmp_path / "a.fil", bytes(8), other, nchans=4, fch1=None, foff=None), str(tmp_path / "out.dada")])
    assert header(str(tmp_path / "out.dada")).edges_khz == (1400250, 1399750, 1399250, 1398750, 1398250)


@pytest.mark.parametrize("changed, status, line", [
    ({"nbits": 64}, 3, "it has 64 bits, and only 1, 2, 4, 8, 16 and 32 are taken"),
    ({"nifs": 4}, 3, "it has 4 IFs: choose one with --if K, K from 0 on"),
    ({"nchans": 1}, 3, "OutOfRange NCHAN"),
    ({"tsamp": None}, 3, "it has no tsamp"),
    ({"tsamp": float("nan")}, 3, "its tsamp is no number"),
    ({"foff": 0.0}, 3, "OutOfRange BW"),
    ({"colour": 1}, 3, "'colour' is no keyword that is known"),
    ({"other": word("FREQUENCY_START") + entry("fchannel", 1400.0) + entry("fchannel", 1399.0)}, 3, "don't lie evenly"),
])
def test_what_is_refused(tmp_path: Path, changed: dict[str, object], status: int, line: str) -> None:
    out = tmp_path / "out.dada"
    with pytest.raises(Refusal) as refusal:
        psr_fil([write(tmp_path / "a.fil", bytes(640), **changed), str(out)])
    assert refusal.value.status == status and line in refusal.value.line and not out.exists()


def test_a_header_that_was_cut(tmp_path: Path) -> None:
    whole = Path(write(tmp_path / "a.fil", b""))
    for length in range(0, whole.stat().st_size, 7):
        (tmp_path / "cut.fil").write_bytes(whole.read_bytes()[:length])
        with pytest.raises(Refusal) as refusal:
            psr_fil([str(tmp_path / "cut.fil"), str(tmp_path / "out.dada")])
        assert refusal.value.status == 3 and refusal.value.line.endswith("it ends before HEADER_END")


def test_a_file_that_was_cut(tmp_path: Path, capsys: pytest.CaptureFixture[str]) -> None:
    psr_fil([write(tmp_path / "a.fil", bytes(640), nsamples=20), str(tmp_path / "out.dada")])
    assert "a.fil has 10 spectra, where nsamples says 20\n" in capsys.readouterr().out


def test_files_that_follow_one_another(tmp_path: Path) -> None:
    data = np.random.default_rng(2).integers(0, 256, 64 * 3000, np.uint8).tobytes()
    parts = [write(tmp_path / f"{first}.fil", data[64 * first:64 * (first + 1000)],
                   tstart=USUAL["tstart"] + first * 64e-6 / 86400) for first in (0, 1000, 2000)]
    psr_fil([*parts, str(tmp_path / "out.dada")])
    assert (tmp_path / "out.dada").read_bytes()[4096:] == data
    with pytest.raises(Refusal, match="begins 1000.0 spectra after the end of the file before it"):
        psr_fil([parts[0], parts[2], str(tmp_path / "other.dada")])
    with pytest.raises(Refusal, match="its bits differs from that of the first file"):
        psr_fil([parts[0], write(tmp_path / "wide.fil", b"", nbits=16), str(tmp_path / "other.dada")])
    assert not (tmp_path / "other.dada").exists()
    assert spectra_in(parts) == 3000
    with pytest.raises(Refusal, match="begins -1000.0 spectra after the end of the file before it"):
        spectra_in([parts[0], parts[0]])


def test_coarse_floats(tmp_path: Path, capsys: pytest.CaptureFixture[str]) -> None:
    """Values of a few steps have coarse medians and quantiles, and no channel stands out for that."""
    steps = np.random.default_rng(6).choice([-3.0, -1.0, 1.0, 3.0], (4000, 64), p=[0.16, 0.34, 0.34, 0.16])
    written = turned(tmp_path / "a.fil", steps)
    assert len(np.unique(written)) <= 4 * 64 and "mask to try: none\n" in capsys.readouterr().out
    assert written.std(axis=0) == pytest.approx(8, rel=0.05)
