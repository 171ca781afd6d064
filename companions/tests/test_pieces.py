"""Stretches of the time, the pieces of files that they are searched in, and the jobs of plans."""
from __future__ import annotations

import shlex
import shutil
import subprocess
import sys
from pathlib import Path

import pytest

import made
from malletbean.cluster import plan, scripts
from malletbean.pieces import cuts, stretches
from malletbean.ending import run
from malletbean.samples import Samples

needs_search = pytest.mark.skipif(None in (shutil.which("psr_search"), shutil.which("psr_part")),
                                  reason="psr_search and psr_part are not on the PATH")


def test_stretches_follow_one_another() -> None:
    for spectra, count, lead in ((100, 4, 10), (101, 4, 30), (3, 9, 5), (1, 1, 0)):
        found = stretches(spectra, count, lead)
        assert len(found) == min(count, spectra)
        assert found[0].begin == 0 and found[-1].until is None
        for one, later in zip(found, found[1:]):
            assert one.until == later.begin
        for one in found:
            assert one.first == max(0, one.begin - lead)
            assert one.check == f"CHECK {one.begin - one.first} 0\n"


def parted(path: Path, folder: Path, bounds: list[int]) -> list[str]:
    """The data of a file in several files, cut at these bytes."""
    whole = path.read_bytes()
    text, data = whole[:4096], whole[4096:]
    paths = []
    for begin, end in zip([0, *bounds], [*bounds, len(data)]):
        part = folder / f"part{begin}.dada"
        part.write_bytes(text.replace(b"OBS_OFFSET 0\n", f"OBS_OFFSET {begin}\n".encode())[:4096].ljust(4096, b"\0")
                         + data[begin:end])
        paths.append(str(part))
    return paths


def test_cuts_are_the_piece(tmp_path: Path) -> None:
    path = tmp_path / "whole.dada"
    made.make(path, channels=32, spectra=256, delay=20, period=100, height=8)
    data = path.read_bytes()[4096:]
    for paths in ([str(path)], parted(path, tmp_path, [1000, 4000, 4001])):
        samples = Samples(paths)
        for part in stretches(256, 5, 40):
            read = b""
            for file, skipped, count in cuts(samples, part):
                read += Path(file).read_bytes()[skipped:skipped + count]
            end = len(data) if part.until is None else (part.until + 1) * 32
            assert read == Path(paths[0]).read_bytes()[:4096] + data[part.first * 32:end]


def called(words: list[str], monkeypatch: pytest.MonkeyPatch) -> int:
    """The status of cluster/plan."""
    monkeypatch.setattr(sys, "argv", ["plan", *words])
    return run("plan", plan)


def part(*words: str) -> subprocess.CompletedProcess[str]:
    """What cluster/part answers."""
    return subprocess.run([f"{scripts()}/part", *words], capture_output=True, text=True)


def test_a_part_reads_its_piece_alone(tmp_path: Path) -> None:
    path = tmp_path / "whole.dada"
    made.make(path, channels=32, spectra=256)
    piece = stretches(256, 4, 10)[2]
    words = [str(one) for cut in cuts(Samples([str(path)]), piece) for one in cut]
    script = "wc -c >&2; printf 'PULSE 5 1 0.1 1 7 9\\nCHECK 70 1\\n'"
    answer = part(f"{tmp_path}/out.text", "118", *words, "--", "bash", "-c", script)
    # a job that says something failed
    assert answer.returncode == 6 and answer.stderr == f"out: status 6: {4096 + 75 * 32}\n"
    assert not (tmp_path / "out.text").exists()
    answer = part(f"{tmp_path}/out.text", "118", *words, "--", "bash", "-c", script.replace(">&2", ">/dev/null"))
    assert (answer.returncode, answer.stderr) == (0, "")
    assert (tmp_path / "out.text").read_text() == "PULSE 123 1 0.1 1 7 9\nCHECK 188 1\n"
    assert sorted(one.name for one in tmp_path.iterdir()) == ["out.text", "whole.dada"]


def test_a_piece_that_cannot_be_read(tmp_path: Path) -> None:
    answer = part(f"{tmp_path}/out.text", "0", f"{tmp_path}/missing.dada", "0", "4096", "--", "cat")
    assert answer.returncode == 6 and "missing.dada" in answer.stderr
    assert [one.name for one in tmp_path.iterdir()] == ["out.error"]


def test_a_part_that_fails_and_one_that_is_there(tmp_path: Path) -> None:
    answer = part(f"{tmp_path}/out.dada", "--", "bash", "-c", "echo why >&2; exit 9")
    assert answer.returncode == 9 and answer.stderr == "out: status 9: why\n"
    assert (tmp_path / "out.error").read_text() == "why\n"
    (tmp_path / "out.dada").write_text("here")
    assert part(f"{tmp_path}/out.dada", "--", "false").returncode == 0
    assert (tmp_path / "out.dada").read_text() == "here"


@pytest.mark.parametrize("words, status, line", [
    (["JOBS"], 2, "arguments refused: plan FOLDER JOBS"),
    (["FOLDER", "0", "FILE"], 2, "JOBS is '0'"),
    (["FOLDER", "4", "--mean", "16", "FILE"], 2, "--sd is missing"),
    (["FOLDER", "4", "--mean", "16", "--sd", "2", "/nowhere"], 2, "there is no file /nowhere"),
    (["FOLDER", "4", "--mean", "16", "--sd", "2", "FILE", "--record"], 2, "record by psr_record"),
    (["FOLDER", "4", "--mean", "16", "--sd", "2", "FILE", "+", "FILE"], 2, "several observations"),
    (["FOLDER", "4", "--mean", "16", "--sd", "2", "--max-delay", "1e3", "FILE"], 2, "--max-delay is '1e3'"),
    (["FOLDER", "4", "--mean", "16", "--sd", "2", "--min-delay", "300", "FILE"], 2, "above --max-delay 256"),
    (["FOLDER", "4", "--mean", "16", "--sd", "2", "--spectra", "9", "--fold-max", "8", "FILE"], 2, "without --spectra"),
])
def test_plans_that_are_refused(files: dict[str, str], tmp_path: Path, monkeypatch: pytest.MonkeyPatch,
                                capsys: pytest.CaptureFixture[str], words: list[str], status: int, line: str) -> None:
    given = [files["made"] if one == "FILE" else str(tmp_path / "plan") if one == "FOLDER" else one for one in words]
    assert called(given, monkeypatch) == status
    answer = capsys.readouterr()
    assert line in answer.err and answer.err.count("\n") == 1 and answer.out == ""
    assert not (tmp_path / "plan").exists()


@pytest.fixture
def stand_ins(tmp_path: Path, monkeypatch: pytest.MonkeyPatch) -> None:
    """Programs that take any words."""
    for name in ("psr_search", "psr_part"):
        place = tmp_path / "bin" / name
        place.parent.mkdir(exist_ok=True)
        place.write_text("#!/bin/sh\nexit 3\n")
        place.chmod(0o755)
        monkeypatch.setenv(name.upper(), str(place))


def test_ranges_of_delays(files: dict[str, str], tmp_path: Path, monkeypatch: pytest.MonkeyPatch,
                          capsys: pytest.CaptureFixture[str], stand_ins: None) -> None:
    usual = ["--mean", "16", "--sd=2", files["made"]]
    for number, (words, bounds) in enumerate([
        ([], [(0, 63), (64, 127), (128, 191), (192, 256)]),
        (["--min-delay", "7", "--max-delay", "301", "--fold-step=37", "--fold-max", "90"],
         [(7, 80), (81, 154), (155, 228), (229, 301)]),
        (["--max-delay", "1"], [(0, 0), (1, 1)]),
        (["--max-delay", "9", "--shards", "5"], [(0, 4), (5, 9)]),
    ]):
        folder = tmp_path / f"plan{number}"
        assert called([str(folder), "4", *words, *usual], monkeypatch) == 0
        assert capsys.readouterr().out.startswith(f"{len(bounds)} jobs, to be run by one of\n")
        assert (folder / "parts").read_text().split() == [f"delays-{low:04}-{high:04}" for low, high in bounds]
        for line, (low, high) in zip((folder / "jobs").read_text().splitlines(), bounds):
            given = shlex.split(line)
            assert given[-4:] == [f"--min-delay={low}", f"--max-delay={high}", "--", files["made"]]
    assert called([str(folder), "4", *usual], monkeypatch) == 11


def test_short_stretches_are_said(files: dict[str, str], tmp_path: Path, monkeypatch: pytest.MonkeyPatch,
                                  capsys: pytest.CaptureFixture[str], stand_ins: None) -> None:
    words = [str(tmp_path / "plan"), "4", "--spectra", "256", "--mean", "16", "--sd", "2", files["made"]]
    assert called(words, monkeypatch) == 0
    assert "each job searches 264 spectra before its 64" in capsys.readouterr().err


@needs_search
@pytest.mark.parametrize("several", [False, True])
def test_joined_pieces_are_one_search(tmp_path: Path, monkeypatch: pytest.MonkeyPatch, several: bool) -> None:
    path = tmp_path / "whole.dada"
    # pulses of 100 spectra, one of which begins in each piece and ends in the next one
    made.make(path, number=3, channels=64, spectra=4096, delay=100, period=256, height=2)
    paths = parted(path, tmp_path, [1000, 70_000, 70_001]) if several else [str(path)]
    words = ["--mean=16", "--sd=2.828", "--snr=8", "--max-delay=128"]
    whole = subprocess.run(["psr_search", *words, str(path)], capture_output=True, check=True).stdout
    assert whole.count(b"PULSE") > 100
    for jobs in (1, 3, 7):
        folder = tmp_path / f"plan{jobs}"
        assert called([str(folder), str(jobs), "--spectra", "4096", *words, *paths], monkeypatch) == 0
        subprocess.run(["bash", folder / "jobs"], check=True)
        assert subprocess.run([f"{scripts()}/join", folder], capture_output=True, check=True).stdout == whole


@needs_search
def test_a_missing_piece_is_noticed(tmp_path: Path, monkeypatch: pytest.MonkeyPatch) -> None:
    path = tmp_path / "whole.dada"
    made.make(path, channels=32, spectra=1024)
    words = ["--mean=16", "--sd=2.828", "--max-delay=32", "--spectra=2048", str(path)]
    assert called([str(tmp_path / "plan"), "4", *words], monkeypatch) == 0
    subprocess.run(["bash", tmp_path / "plan" / "jobs"], capture_output=True)
    # half of the spectra that were said are there
    answer = subprocess.run([f"{scripts()}/join", tmp_path / "plan"], capture_output=True, text=True)
    assert answer.returncode in (3, 4) and answer.stdout == ""
