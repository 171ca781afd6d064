"""The tables of psr_table."""
from __future__ import annotations

import json
import subprocess
import sys
from pathlib import Path

import numpy as np
import pytest

from conftest import DATA, HERE
from malletbean import Refusal
from malletbean.plot import psr_plot
from malletbean.table import VIEW, psr_table

MADE, FOLDS, TWO = (str(DATA / f"{name}.txt") for name in ("made", "folds", "two"))


def table(capsys: pytest.CaptureFixture[str], *words: str) -> list[str]:
    """The lines that the program prints."""
    psr_table(words)
    return capsys.readouterr().out.splitlines()


def test_pulses(files: dict[str, str], capsys: pytest.CaptureFixture[str]) -> None:
    names, *lines = table(capsys, files["made"], "16", "2.828", MADE)
    assert names == "end,delay,dm,width,sum,cells,ratio,snr,time_top,time_foot,utc_top"
    assert lines[2] == ("120,19,0.926,1,1214,51,19.707,19.707,0.006464000,0.007680000,"
                        "2024-01-02T03:04:05.006464000")
    assert len(lines) == 5


def test_folds(files: dict[str, str], capsys: pytest.CaptureFixture[str]) -> None:
    names, *lines = table(capsys, files["folds"], "16", "2.828", FOLDS, "--folds")
    assert names == "delay,dm,period,rows,trial,phase,sum,cells,ratio,snr,period_s"
    assert len(lines) == 32


def test_one_of_several_observations(files: dict[str, str], capsys: pytest.CaptureFixture[str]) -> None:
    assert len(table(capsys, files["second"], "32", "4", TWO, "--obs", "1")) == 81


def test_one_of_several_beams(files: dict[str, str], tmp_path: Path, capsys: pytest.CaptureFixture[str]) -> None:
    text = tmp_path / "beams"
    text.write_text("BEAM 0\nEND 0 0 9\nBEAM 1\n" + Path(MADE).read_text().replace("PULSE 120", "RFI 120"))
    names, *lines = table(capsys, files["made"], "16", "2.828", str(text), "--beam", "1")
    assert names.endswith(",rfi")
    assert [line.rsplit(",", 1)[1] for line in lines] == ["0", "0", "1", "1", "0"]


def test_a_masked_text_and_a_part(files: dict[str, str], tmp_path: Path, capsys: pytest.CaptureFixture[str]) -> None:
    text = tmp_path / "masked"
    text.write_text("PULSE 20 20 0.975 1 1053 45\nEND 7 0 256\n")
    names, line = table(capsys, files["made"], "16", "2.828", str(text), "--mask", "3,17-19", "--part")
    ratio = (1053 - 45 * 16) / (2.828 * 45**0.5)
    assert line.split(",")[6:8] == [f"{ratio:.3f}"] * 2


COLUMNS = ("snr,dm,dm_error,time_top,time_foot,mjd_infinite,utc_top,width_ms,width,delay,averaged,lines,flag,"
           "utc_infinite,end,sum,cells,search,zero_dm")


def test_a_view(files: dict[str, str], capsys: pytest.CaptureFixture[str]) -> None:
    words = [files["second"], "32", "4", TWO, "--obs", "1"]
    first, names, *lines = table(capsys, *words, "--best", "2")
    assert first == f"# {VIEW}" and "not a result of the search" in VIEW
    assert names == COLUMNS
    rows = [dict(zip(names.split(","), line.split(","))) for line in lines]
    assert [(row["delay"], row["averaged"]) for row in rows] == [("20", "1")] * 2
    assert sum(int(row["lines"]) for row in rows) <= 80
    assert len(table(capsys, *words, "--best", "100")) == 2 + 3


@pytest.mark.parametrize("suffix", [".csv", ".json", ".cand", ".singlepulse", ".npz"])
def test_files_of_a_view(files: dict[str, str], tmp_path: Path, suffix: str) -> None:
    name = tmp_path / f"a{suffix}"
    psr_table([files["second"], "32", "4", TWO, "--obs", "1", "--best", "9", "-o", str(name)])
    if suffix == ".npz":
        with np.load(name) as arrays:
            assert arrays["pulses"]["flag"].tolist() == ["", "", ""]
    elif suffix == ".json":
        assert len(json.loads(name.read_text())["candidates"]) == 3
    else:
        assert len(name.read_text().splitlines()) == 3 + (suffix != ".cand")


def test_a_view_of_a_beam(files: dict[str, str], tmp_path: Path, capsys: pytest.CaptureFixture[str]) -> None:
    text = tmp_path / "beams"
    text.write_text("BEAM 0\n" + Path(MADE).read_text().replace("PULSE 120", "RFI 120"))
    _, names, *lines = table(capsys, files["made"], "16", "2.828", str(text), "--beam", "0", "--best", "9")
    assert names == COLUMNS + ",rfi"
    assert [line.rsplit(",", 1)[1] for line in lines] == ["0", "1", "0"]


def test_the_text_and_the_file_are_no_output(files: dict[str, str], tmp_path: Path) -> None:
    text = tmp_path / "text.csv"
    text.write_text(Path(MADE).read_text())
    (tmp_path / "link.csv").symlink_to(text)
    for name in (text, tmp_path / "link.csv"):
        with pytest.raises(Refusal, match="is what is read"):
            psr_table([files["made"], "16", "2.828", str(text), "-o", str(name)])
    assert text.read_text() == Path(MADE).read_text()


def test_a_pipe(files: dict[str, str], tmp_path: Path) -> None:
    for program, more in (("psr_table", []), ("psr_plot", ["-o", str(tmp_path / "a.png")])):
        command = [sys.executable, str(HERE.parent / program), files["made"], "16", "2.828", "/dev/stdin", *more]
        answer = subprocess.run(command, input=Path(MADE).read_text(), capture_output=True, text=True)
        assert (answer.returncode, answer.stderr) == (0, "")
        assert len(answer.stdout.splitlines()) == (6 if program == "psr_table" else 0)


def test_a_text_that_grows(files: dict[str, str], tmp_path: Path, capsys: pytest.CaptureFixture[str]) -> None:
    text = tmp_path / "live"
    lines = Path(MADE).read_text().splitlines()
    text.write_text("\n".join([*lines[:2], "CHECK 100 2", "MANY 110 70000", "CHECK 110 2", lines[2][:9]]))
    psr_table([files["made"], "16", "2.828", str(text)])
    answer = capsys.readouterr()
    assert len(answer.out.splitlines()) == 3
    said = (f"{{}}: {text} goes on behind its last CHECK line: it was read up to spectrum 110\n"
            f"{{}}: {text} has no pulses of parts that had too many: those that end at 110\n")
    assert answer.err == said.format("psr_table", "psr_table")
    psr_plot([files["made"], "16", "2.828", str(text), "-o", str(tmp_path / "a.png")])
    assert capsys.readouterr().err == said.format("psr_plot", "psr_plot") and (tmp_path / "a.png").stat().st_size > 1000


def test_arrays(files: dict[str, str], tmp_path: Path) -> None:
    name = str(tmp_path / "a.npz")
    psr_table([files["folds"], "16", "2.828", FOLDS, "-o", name])
    with np.load(name) as arrays:
        assert (len(arrays["pulses"]), len(arrays["folds"])) == (2, 32)
        assert arrays["pulses"]["utc_top"].dtype == np.dtype("M8[ns]")
        assert arrays["folds"]["period_s"][0] > 0.006


def test_singlepulse(files: dict[str, str], tmp_path: Path) -> None:
    """A box of width w is named by the sample that PRESTO's boxes of w samples have in their middle."""
    name = tmp_path / "a.singlepulse"
    psr_table([files["second"], "32", "4", TWO, "--obs", "1", "-o", str(name)])
    lines = name.read_text().splitlines()
    assert lines[0].split() == ["#", "DM", "Sigma", "Time", "(s)", "Sample", "Downfact"]
    columns = np.loadtxt(name)
    assert columns.shape == (80, 5)
    found = np.loadtxt(TWO, usecols=(1, 2, 4), skiprows=98, max_rows=80, dtype=int)
    firsts = columns[:, 3] - found[:, 2] // 2
    assert (firsts == found[:, 0] - found[:, 1] - found[:, 2] + 1).all()
    assert columns[:, 2] == pytest.approx(columns[:, 3] * 64e-6, abs=1e-6)


def test_a_file_without_a_start(files: dict[str, str], tmp_path: Path, capsys: pytest.CaptureFixture[str]) -> None:
    path = tmp_path / "no start.dada"
    path.write_bytes(Path(files["made"]).read_bytes().replace(b"UTC_START", b"UTC_OTHER"))
    assert table(capsys, str(path), "16", "2.828", MADE)[1].endswith(",0.001280000,")
