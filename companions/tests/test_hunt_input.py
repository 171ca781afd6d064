"""What psr_hunt takes: the same observation in several forms is hunted in the same way."""
from __future__ import annotations

import os
import shutil
import sys
from pathlib import Path

import pytest

import made
import test_dada
import test_fil
import test_fits
from conftest import HERE
from malletbean import hunt
from malletbean.hunt import psr_hunt
from malletbean.hunt_input import converted, converter_of, masked_megahertz
from malletbean.headers import header
from malletbean.ending import run
from malletbean.refusal import Refusal

needs_search = pytest.mark.skipif(shutil.which("psr_part") is None, reason="psr_part is not on the PATH")
CHANNELS, SPECTRA = 64, 8192


@pytest.fixture(scope="module")
def forms(tmp_path_factory: pytest.TempPathFactory) -> dict[str, list[str]]:
    """The files of one observation, by the companion that turns them."""
    folder = tmp_path_factory.mktemp("forms")
    values = made.make(folder / "sky.dada", number=3, channels=CHANNELS, spectra=SPECTRA, delay=100, period=1000,
                       height=4)
    data = values.astype("u1").tobytes()
    rows = values.reshape(8, -1, 1, CHANNELS)
    step = -400 / CHANNELS
    halves = [test_fits.write(folder / f"{number}.fits", half, primary={"STT_OFFS": 0.25 + number * 0.262144})
              for number, half in enumerate((rows[:4], rows[4:]))]
    return {
        "": [str(folder / "sky.dada")],
        "psr_fil": [test_fil.write(folder / "sky.fil", data, nchans=CHANNELS, fch1=1582 + step / 2, foff=step,
                                   tsamp=64e-6, nbits=8)],
        "psr_fits": halves,
        "psr_dada": [test_dada.write(folder / "wide.dada", values.astype("<u4").tobytes(), CHANNELS, 32)],
    }


def hunted(monkeypatch: pytest.MonkeyPatch, *words: str) -> int:
    """The status of psr_hunt."""
    monkeypatch.setenv("PATH", f"{os.environ['PATH']}:{HERE.parent}")
    monkeypatch.setattr(hunt, "write_report", lambda *_, **__: None)
    monkeypatch.setattr(sys, "argv", ["psr_hunt", *words])
    return run("psr_hunt", psr_hunt)


@pytest.mark.parametrize("name", ["", "psr_fil", "psr_fits", "psr_dada"])
def test_forms_are_known(forms: dict[str, list[str]], name: str) -> None:
    assert converter_of(forms[name]) == (name or None)


def test_several_forms_are_refused(forms: dict[str, list[str]]) -> None:
    with pytest.raises(Refusal, match="the files have different formats"):
        converter_of([*forms[""], *forms["psr_fil"]])


@pytest.mark.parametrize("count, line", [(60, "it ends before HEADER_END"), (-1, "fewer than two spectra")])
def test_a_file_that_is_too_short_is_named(forms: dict[str, list[str]], tmp_path: Path, count: int, line: str,
                                           monkeypatch: pytest.MonkeyPatch, capsys: pytest.CaptureFixture[str]) -> None:
    path = tmp_path / "short.fil"
    whole = Path(forms["psr_fil"][0]).read_bytes()
    path.write_bytes(whole[:count] if count > 0 else whole[:whole.index(b"HEADER_END") + 11])
    assert hunted(monkeypatch, str(path), "--dm", "0", "20", "-o", str(tmp_path / "hunt"), "--dry-run") == 3
    said = capsys.readouterr().err
    assert line in said and str(path) in said and "front" not in said


def test_filterbanks_that_do_not_follow_one_another(forms: dict[str, list[str]], tmp_path: Path,
                                                    monkeypatch: pytest.MonkeyPatch,
                                                    capsys: pytest.CaptureFixture[str]) -> None:
    """They are refused before any is turned."""
    words = [*forms["psr_fil"], *forms["psr_fil"], "--dm", "0", "20", "-o", str(tmp_path / "hunt")]
    assert hunted(monkeypatch, *words, "--dry-run") == hunted(monkeypatch, *words) == 3
    assert "begins -8192.0 spectra after the end of the file before it" in capsys.readouterr().err


@pytest.mark.parametrize("high, is_said", [("20", False), ("500", True)])
def test_a_sweep_past_the_data(forms: dict[str, list[str]], tmp_path: Path, monkeypatch: pytest.MonkeyPatch,
                               capsys: pytest.CaptureFixture[str], high: str, is_said: bool) -> None:
    words = [*forms["psr_fil"], "--dm", "0", high, "-o", str(tmp_path / "hunt"), "--dry-run"]
    assert hunted(monkeypatch, *words) == 0
    assert ("not found    pulses above DM 399.6: they take longer" in capsys.readouterr().out) == is_said


@pytest.mark.parametrize("name", ["psr_fil", "psr_fits"])
def test_dry_runs_are_the_same(forms: dict[str, list[str]], tmp_path: Path, monkeypatch: pytest.MonkeyPatch,
                               capsys: pytest.CaptureFixture[str], name: str) -> None:
    said = []
    for form in ("", name):
        assert hunted(monkeypatch, *forms[form], "--dm", "0", "20", "-o", str(tmp_path / "hunt"), "--dry-run") == 0
        lines = capsys.readouterr().out.splitlines()
        said.append([line for line in lines if not line.startswith(("observation", "length", "disk"))])
    assert said[0] == said[1]
    assert list(tmp_path.iterdir()) == []


@needs_search
@pytest.mark.parametrize("name", ["psr_fil", "psr_fits"])
def test_hunts_are_the_same(forms: dict[str, list[str]], tmp_path: Path, monkeypatch: pytest.MonkeyPatch,
                            name: str) -> None:
    found = []
    for form in ("", name):
        folder = tmp_path / f"hunt{form}"
        assert hunted(monkeypatch, *forms[form], "--dm", "0", "20", "-o", str(folder)) == 0
        found.append({path.name: path.read_bytes() for path in folder.glob("*.text")})
    assert found[0] == found[1] and any(b"PULSE" in text for text in found[0].values())
    assert not (folder / "observation.dada").exists()


def test_a_conversion_is_shown(tmp_path: Path) -> None:
    script, out, seen = tmp_path / "turn", tmp_path / "out", list[int]()
    script.write_text(f"#!/bin/bash\nprintf half > '{tmp_path}'/.$$.out\nsleep 0.5\n"
                      f"mv '{tmp_path}'/.$$.out '{out}'\necho said >&2\n")
    script.chmod(0o755)
    assert converted([str(script), str(out)], seen.append) == "said\n"
    assert 4 in seen and out.read_text() == "half"


@needs_search
def test_stopped_while_it_is_turned(forms: dict[str, list[str]], tmp_path: Path,
                                    monkeypatch: pytest.MonkeyPatch) -> None:
    folder = tmp_path / "hunt"
    folder.mkdir()
    (folder / ".99999999.observation.dada").write_text("a part")
    (folder / "observation.dada").write_text("of other files")
    assert hunted(monkeypatch, *forms["psr_fil"], "--dm", "0", "20", "-o", str(folder)) == 0
    assert not [path for path in folder.iterdir() if path.name.endswith("observation.dada")]


@needs_search
def test_wide_numbers_are_hunted(forms: dict[str, list[str]], tmp_path: Path, monkeypatch: pytest.MonkeyPatch) -> None:
    words = [*forms["psr_dada"], "--dm", "0", "20", "-o", str(tmp_path / "hunt")]
    assert hunted(monkeypatch, *words) == 0
    assert "4.8" in (tmp_path / "hunt" / "candidates.csv").read_text()


def test_masks_in_megahertz(forms: dict[str, list[str]]) -> None:
    head = header(forms[""][0])
    assert masked_megahertz(head) == ""
    assert masked_megahertz(head.without("0-1,63")) == "1569.500-1582.000, 1182.000-1188.250"
