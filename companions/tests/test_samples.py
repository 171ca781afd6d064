"""Samples, path sums and folds of made observations, against plain sums and against what the programs wrote."""
from __future__ import annotations

import hashlib
from pathlib import Path

import numpy as np
import pytest

import made
from conftest import DATA
from malletbean import Refusal, header, read
from malletbean.paths import delay_paths
from malletbean.samples import Samples, fold_profile, path_sums_of


def cut(path: str, folder: Path, places: list[int]) -> list[str]:
    """The files of one observation that a file gives, cut at these data bytes."""
    head, data = Path(path).read_bytes()[:4096], Path(path).read_bytes()[4096:]
    names = []
    for first, stop in zip([0, *places], [*places, len(data)]):
        text = head.replace(b"OBS_OFFSET 0\n", b"OBS_OFFSET %d\n" % first)[:4096]
        names.append(str(folder / f"part{first}.dada"))
        Path(names[-1]).write_bytes(text + data[first:stop])
    return names


def test_made_observations_are_those_of_psr_make(tmp_path: Path) -> None:
    made.make(tmp_path / "zero.dada", height=0)
    assert hashlib.md5((tmp_path / "zero.dada").read_bytes()).hexdigest() == "6eb8a80f3654fb359dfa7c1619efda57"


@pytest.mark.parametrize("bits, polarisations, width", [(8, 1, -400), (8, 2, 400), (16, 1, 400), (16, 2, -400)])
def test_samples(tmp_path: Path, bits: int, polarisations: int, width: int) -> None:
    path = tmp_path / "some.dada"
    wanted = made.make(path, channels=5, spectra=40, delay=3, bits=bits, polarisations=polarisations, width=width)
    samples = Samples([str(path)])
    assert samples.spectra == 40
    assert (samples.read(0, 40) == wanted).all()
    assert (samples.read(7, 3) == wanted[7:10]).all()


def test_several_files(files: dict[str, str], tmp_path: Path) -> None:
    whole = Samples([files["rising"]])
    parts = Samples(cut(files["rising"], tmp_path, [1, 5000, 50001]))
    assert parts.spectra == whole.spectra == 512
    assert (parts.read(0, 512) == whole.read(0, 512)).all()


def test_files_that_do_not_follow(files: dict[str, str], tmp_path: Path) -> None:
    parts = cut(files["made"], tmp_path, [1000, 2000])
    with pytest.raises(Refusal, match="OBS_OFFSET 2000 where 1000 was expected"):
        Samples([parts[0], parts[2]])
    with pytest.raises(Refusal, match="Differs NCHAN"):
        Samples([files["made"], files["rising"]])


@pytest.mark.parametrize("name, number, text", [
    ("made", 0, "made"), ("folds", 0, "folds"), ("rising", 0, "two"), ("second", 1, "two"),
])
def test_sums_are_those_of_the_programs(files: dict[str, str], name: str, number: int, text: str) -> None:
    found = read(str(DATA / f"{text}.txt"))[number]
    samples = Samples([files[name]])
    assert len(found.pulses)
    for line in found.pulses:
        sums = path_sums_of(samples, int(line["delay"]), samples.spectra - int(line["delay"]))
        last = line["end"] - line["delay"] + 1
        assert sums[last - line["width"]:last].sum() == line["sum"]


def test_folds_are_those_of_the_programs(files: dict[str, str]) -> None:
    folds = read(str(DATA / "folds.txt"))[0].folds
    assert len(folds)
    for line in folds:
        delay, period, rows, trial = (int(line[name]) for name in ("delay", "period", "rows", "trial"))
        profile = fold_profile(path_sums_of(Samples([files["folds"]]), delay, rows * period), period, rows, trial)
        assert profile[line["phase"]] == line["sum"]


def test_path_sums_go_piece_by_piece(files: dict[str, str], monkeypatch: pytest.MonkeyPatch) -> None:
    samples = Samples([files["made"]])
    whole = path_sums_of(samples, 20, 236)
    monkeypatch.setattr("malletbean.samples.SAMPLES_AT_A_TIME", 1000)
    assert (path_sums_of(samples, 20, 236) == whole).all()
    entries = delay_paths(header(files["made"]).edges_khz, np.array([20]))[:, 0]
    values = samples.read(0, 256)
    for begin in (0, 100, 235):
        plain = sum(values[begin + entries[c]:begin + entries[c + 1] + 1, c].sum() for c in range(32))
        assert whole[begin] == plain
    with pytest.raises(Refusal, match="257 spectra are needed"):
        path_sums_of(samples, 20, 237)
