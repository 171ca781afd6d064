"""What psr_dada makes of DADA files that no search takes, and which ones it refuses."""
from __future__ import annotations

from pathlib import Path

import numpy as np
import pytest

from malletbean.dada import psr_dada
from malletbean.headers import header
from malletbean.refusal import Refusal
from malletbean.samples import Samples

TEXT = """HDR_VERSION 1.0
HDR_SIZE 4096
SOURCE J0437-4715
NCHAN {channels}
NBIT {bits}
NPOL {polarisations}
NDIM {dimensions}
STATE {state}
ORDER {order}
TSAMP 64 # us
FREQ 1382
BW -400
UTC_START 2024-01-02-03:04:05
OBS_OFFSET {offset}
"""


def write(path: Path, data: bytes, channels: int = 16, bits: int = 8, polarisations: int = 1, dimensions: int = 1,
          state: str = "Intensity", order: str = "TFP", offset: int = 0) -> str:
    """A file of these data."""
    text = TEXT.format(channels=channels, bits=bits, polarisations=polarisations, dimensions=dimensions, state=state,
                       order=order, offset=offset)
    path.write_bytes(text.encode().ljust(4096, b"\0") + data)
    return str(path)


def turned(path: str, *words: str) -> np.ndarray:
    """The values that psr_dada writes, by spectrum, channel and polarisation."""
    out = f"{path}.out"
    psr_dada([path, out, *words])
    samples = Samples([out])
    return samples.values(0, samples.spectra)


def noise(*shape: int, most: int = 256) -> np.ndarray:
    """Whole numbers."""
    return np.random.default_rng(1).integers(0, most, shape)


@pytest.mark.parametrize("bits", [1, 2, 4])
def test_few_bits(tmp_path: Path, bits: int) -> None:
    values = noise(101, 3, most=2**bits)
    each = np.unpackbits(values.astype(np.uint8).reshape(-1, 1), axis=1, count=bits, bitorder="little")
    path = write(tmp_path / "a.dada", np.packbits(each.reshape(-1), bitorder="little").tobytes(), channels=3, bits=bits)
    assert (turned(path)[..., 0] == values).all()


@pytest.mark.parametrize("bits", [8, 16])
@pytest.mark.parametrize("order", ["TFP", "TPF", "PTF", "FTP", "FPT", "PFT"])
def test_orders(tmp_path: Path, bits: int, order: str) -> None:
    values = noise(1000, 16, 2, most=2**bits)
    stored = values.transpose(*("TFP".index(axis) for axis in order)).astype(f"<u{bits // 8}")
    path = write(tmp_path / "a.dada", stored.tobytes(), bits=bits, polarisations=2, order=order)
    assert (turned(path) == values).all()
    head = header(f"{path}.out")
    assert head.fields["ORDER"] == "TFP" and head.fields["SOURCE"] == "J0437-4715" and head.sample_ns == 64000


def test_an_order_that_the_header_does_not_say(tmp_path: Path) -> None:
    values = noise(100, 16)
    path = write(tmp_path / "a.dada", values.T.astype(np.uint8).tobytes())
    assert (turned(path, "--order", "FT")[..., 0] == values).all()


@pytest.mark.parametrize("polarisations, dimensions, state, taken", [
    (2, 1, "PPQQ", [0, 1]), (1, 2, "PPQQ", [0, 1]), (4, 1, "Coherence", [0, 1]), (2, 2, "Coherence", [0, 1]),
    (1, 4, "Coherence", [0, 1]), (4, 1, "Stokes", [0]), (1, 4, "Stokes", [0]),
])
@pytest.mark.parametrize("order", ["TFP", "TPF"])
def test_detected_polarisations(tmp_path: Path, polarisations: int, dimensions: int, state: str, taken: list[int],
                                order: str) -> None:
    values = noise(50, 16, polarisations, dimensions)
    stored = values.transpose(*("TFP".index(axis) for axis in order), 3).astype(np.uint8)
    path = write(tmp_path / "a.dada", stored.tobytes(), polarisations=polarisations, dimensions=dimensions, state=state,
                 order=order)
    assert (turned(path) == values.reshape(50, 16, -1)[:, :, taken]).all()
    assert (header(f"{path}.out").polarisations, header(f"{path}.out").fields["NDIM"]) == (len(taken), "1")


def test_one_polarisation_that_is_named(tmp_path: Path) -> None:
    values = noise(50, 16, 4)
    path = write(tmp_path / "a.dada", values.astype(np.uint8).tobytes(), polarisations=4, state="Odd")
    with pytest.raises(Refusal, match="4 values of a channel, and its STATE is ODD: .* --state, or choose one by"):
        turned(path)
    assert (turned(path, "--pol", "2") == values[:, :, 2:3]).all()


@pytest.mark.parametrize("bits, kind", [(-32, "<f4"), (32, "<f4"), (32, "<u4"), (32, ">i4"), (-64, "<f8")])
def test_values_of_32_bits(tmp_path: Path, capsys: pytest.CaptureFixture[str], bits: int, kind: str) -> None:
    random = np.random.default_rng(2).normal(size=(4000, 16))
    values = np.rint(5000 * random + (0 if "i" in kind else 10**6)) if "f" not in kind else random * 1e-3 + 7
    path = write(tmp_path / "a.dada", values.astype(kind).tobytes(), bits=bits)
    words = ["--signed", "--high-byte-first"] if kind == ">i4" else []
    assert np.abs(turned(path, *words)[..., 0] - (64 + 8 * random)).max() < 3
    said = capsys.readouterr().out
    assert ("floats of" if "f" in kind else "whole numbers of") in said and "values were cut; mask to try: none" in said


def test_signed_values(tmp_path: Path) -> None:
    values = noise(50, 16) - 128
    path = write(tmp_path / "a.dada", values.astype(np.int8).tobytes(), polarisations=1, order="FT")
    assert turned(path, "--signed", "--order", "TF")[..., 0].tolist() == (values + 128).tolist()


def test_many_channels(tmp_path: Path, capsys: pytest.CaptureFixture[str]) -> None:
    values = noise(300, 8192)
    path = write(tmp_path / "a.dada", values.astype(np.uint8).tobytes(), channels=8192)
    written = turned(path)
    assert "2 neighbouring channels each were added: a search takes 4096" in capsys.readouterr().out
    joined = values.reshape(300, 4096, 2).sum(axis=2)
    assert np.corrcoef(written[:, 9, 0], joined[:, 9])[0, 1] > 0.99


def test_several_files(tmp_path: Path) -> None:
    values = noise(60, 16, 4)
    raw = values.astype(np.uint8).tobytes()
    parts = [write(tmp_path / f"{first}.dada", raw[64 * first:64 * (first + 30)], polarisations=4, state="Stokes",
                   offset=6400 + 64 * first) for first in (0, 30)]
    psr_dada([*parts, str(tmp_path / "out.dada")])
    samples = Samples([str(tmp_path / "out.dada")])
    assert (samples.values(0, 60)[..., 0] == values[..., 0]).all()
    # what came before has a fourth of the bytes
    assert samples.header.offset == 1600
    with pytest.raises(Refusal, match="has OBS_OFFSET 6400 where 8320 was expected"):
        psr_dada([parts[0], parts[0], str(tmp_path / "other.dada")])


@pytest.mark.parametrize("form, line", [
    ({"bits": 12}, "it has 12 bits, and only 1, 2, 4, 8, 16, 32, -32, -64 are taken"),
    ({"order": "TFQ"}, "its ORDER is TFQ, which is no order of T, F and P"),
    ({"dimensions": 2, "state": "Analytic"}, "voltages have to be detected first"),
    ({"dimensions": 2, "state": ""}, "its STATE is missing: say what they are by --state"),
    ({"bits": 4, "order": "FT"}, "4 bits in the order FTP are not taken"),
])
def test_what_is_refused(tmp_path: Path, form: dict[str, object], line: str) -> None:
    path = write(tmp_path / "a.dada", bytes(640), **form)  # type: ignore[arg-type]
    with pytest.raises(Refusal) as refusal:
        psr_dada([path, str(tmp_path / "out.dada")])
    assert refusal.value.status == 3 and line in refusal.value.line and not (tmp_path / "out.dada").exists()
