"""A hunt as it is run: on the cores of this machine and by the engines of cluster/; stopped, failed, and gone on
with."""
from __future__ import annotations

import os
import re
import shutil
import signal
import subprocess
import sys
import time
from pathlib import Path

import pytest

import made
from conftest import HERE
from malletbean import hunt, hunt_pieces, hunt_text
from malletbean.cluster import scripts
from malletbean.hunt import FAILED, psr_hunt
from malletbean.manifest import SearchPass, read_manifest
from malletbean.ending import run

PROGRAMS = ("psr_level", "psr_search", "psr_part")
needs_search = pytest.mark.skipif(None in map(shutil.which, PROGRAMS), reason="psr_level, psr_search and psr_part are "
                                                                              "not on the PATH")
DM = 4.878
STAND_IN = """#!/bin/bash
# a psr_part that does what its first line says, but for the words that are judged
{}
exec {} "$@"
"""


@pytest.fixture(scope="module")
def observation(tmp_path_factory: pytest.TempPathFactory) -> str:
    """Pulses of DM 4.878 every 1000 spectra."""
    path = tmp_path_factory.mktemp("sky") / "sky.dada"
    made.make(path, number=3, channels=64, spectra=8192, delay=100, period=1000, height=4)
    return str(path)


@pytest.fixture(autouse=True)
def programs(request: pytest.FixtureRequest, monkeypatch: pytest.MonkeyPatch) -> None:
    """Three pieces of each pass, and but for one test no report, which takes its time."""
    monkeypatch.setattr(hunt_pieces, "piece_count", lambda *_: 3)
    if "report" not in request.node.name:
        monkeypatch.setattr(hunt, "write_report", lambda *_, **__: None)


def hunted(monkeypatch: pytest.MonkeyPatch, *words: str) -> int:
    """The status of psr_hunt."""
    monkeypatch.setattr(sys, "argv", ["psr_hunt", *words])
    return run("psr_hunt", psr_hunt)


def stand_in(folder: Path, line: str) -> str:
    """A psr_part that runs a line first."""
    path = folder / "psr_part"
    path.write_text(STAND_IN.format(line, shutil.which("psr_part")))
    path.chmod(0o755)
    return str(path)


def texts(folder: Path) -> dict[str, bytes]:
    """The outputs of all passes."""
    return {path.name: path.read_bytes() for path in folder.glob("*.text")}


def one_search(folder: Path, search: SearchPass) -> bytes:
    """The output of one search of the whole level of a pass."""
    words = [f"--mean={search.mean:.3f}", f"--sd={search.sd:.3f}", f"--snr={search.snr:.2f}",
             f"--min-delay={search.min_delay}", f"--max-delay={search.max_delay}", f"--widths={search.widths}",
             "--max-candidates=1048576", str(folder / search.level)]
    return subprocess.run(["psr_search", *words], capture_output=True, check=True).stdout


@needs_search
def test_a_hunt(observation: str, tmp_path: Path, monkeypatch: pytest.MonkeyPatch,
                capsys: pytest.CaptureFixture[str]) -> None:
    folder = tmp_path / "hunt"
    words = [observation, "--dm", "0", "20", "-o", str(folder), "--keep", "--mask", "3,10-11"]
    assert hunted(monkeypatch, *words) == 0
    said = capsys.readouterr().out
    assert len(said.splitlines()) <= 10 and said.startswith("searched ")
    strongest = re.search(r"strongest +S/N ([0-9.]+) at DM ([0-9.]+)", said)
    assert strongest and float(strongest[1]) > 12 and abs(float(strongest[2]) - DM) < 0.2
    done = read_manifest(str(folder))
    for search in done.searches:
        # one search of the whole level, over the bounds of three pieces
        level = done.level(search)
        assert level.mean is not None and abs(level.mean - 14) < 0.1
        parts = (folder / "searches" / search.name / "parts").read_text().split()
        assert len(parts) == 3
        assert (folder / search.output).read_bytes() == one_search(folder, search)
    assert sum(text.count(b"PULSE") for text in texts(folder).values()) > 50
    # the same words again say the same, and do nothing
    before = {path: path.stat().st_mtime_ns for path in folder.rglob("*")}
    assert hunted(monkeypatch, *words) == 0
    assert capsys.readouterr().out == said
    assert {path: path.stat().st_mtime_ns for path in folder.rglob("*")} == before
    # the commands give the same again, line by line
    joined = texts(folder)
    for path in [*folder.glob("*.text"), *folder.glob("searches/*/*.text"), *folder.glob("levels/*.dada")]:
        path.unlink()
    lines = (folder / "commands").read_text().splitlines()
    subprocess.run(["bash", "-e", folder / "commands"], check=True, capture_output=True)
    assert texts(folder) == joined and lines[0] == f"cd {folder}"


@needs_search
def test_a_report_is_written_and_what_is_of_no_more_use_goes(observation: str, tmp_path: Path,
                                                             monkeypatch: pytest.MonkeyPatch) -> None:
    assert hunted(monkeypatch, observation, "--dm", "0", "20", "-o", str(tmp_path / "hunt")) == 0
    left = [path for path in (tmp_path / "hunt").rglob("*") if path.suffix in (".dada", ".error", ".out")]
    assert left == [] and not list((tmp_path / "hunt").glob("searches/*/*.text"))
    assert all((tmp_path / "hunt" / name).exists() for name in ("candidates.csv", "report.html"))
    series = {path.stem for path in (tmp_path / "hunt").glob("averaged*.dat")}
    assert series and series == {path.stem for path in (tmp_path / "hunt").glob("averaged*.inf")}


@needs_search
def test_a_job_that_fails(observation: str, tmp_path: Path, monkeypatch: pytest.MonkeyPatch,
                          capsys: pytest.CaptureFixture[str]) -> None:
    folder, words = tmp_path / "hunt", [observation, "--dm", "0", "20", "--keep", "-o"]
    monkeypatch.setenv("PSR_PART", stand_in(tmp_path, 'case $2 in *k4*682.check) echo no memory >&2; exit 5;; esac'))
    assert hunted(monkeypatch, *words, str(folder), "--cores", "2") == FAILED
    said = capsys.readouterr().err
    assert "status 5: no memory; its command: " in said and "give the same command again" in said
    command = re.search(r"its command: (.*);", said)
    assert command and subprocess.run(["bash", "-c", command[1]], capture_output=True).returncode == 5
    # what is there already stays
    before = {path: path.stat().st_mtime_ns for path in folder.glob("searches/*/*.text")}
    monkeypatch.delenv("PSR_PART")
    for path in folder.glob("searches/*/jobs"):
        path.write_text(path.read_text().replace(str(tmp_path / "psr_part"), shutil.which("psr_part") or ""))
    assert hunted(monkeypatch, *words, str(folder)) == 0
    assert {path: path.stat().st_mtime_ns for path in before} == before
    assert hunted(monkeypatch, *words, str(tmp_path / "other")) == 0
    assert texts(folder) == texts(tmp_path / "other")


@needs_search
def test_a_full_disk(observation: str, tmp_path: Path, monkeypatch: pytest.MonkeyPatch,
                     capsys: pytest.CaptureFixture[str]) -> None:
    folder = tmp_path / "hunt"
    words = [observation, "--dm", "0", "20", "-o", str(folder)]
    # a file may not become as large as the level of all spectra
    script = f"ulimit -f 200; exec {sys.executable} {HERE.parent}/psr_hunt {' '.join(words)}"
    answer = subprocess.run(["bash", "-c", script], capture_output=True, text=True)
    assert answer.returncode == FAILED
    # the system ends a program that goes past this limit by a signal; on a full disk its status is 10
    assert "levels/k1.dada failed: status 153: " in answer.stderr and answer.stderr.count("\n") == 1
    assert (folder / "levels" / "k16.dada").exists()
    assert hunted(monkeypatch, *words) == 0


@needs_search
def test_too_many_lines(observation: str, tmp_path: Path, monkeypatch: pytest.MonkeyPatch,
                        capsys: pytest.CaptureFixture[str]) -> None:
    folder = tmp_path / "hunt"
    monkeypatch.setattr(hunt_pieces, "most_lines", lambda _: 60)
    assert hunted(monkeypatch, observation, "--dm", "0", "20", "-o", str(folder), "--keep") == 0
    searches = read_manifest(str(folder)).searches
    raised = [one for search in searches for one in search.raised]
    assert raised and all(one.snr > 6.5 and one.first < one.until for one in raised)
    pieces = {one.name: len((folder / "searches" / one.name / "parts").read_text().split()) for one in searches}
    assert max(pieces.values()) > 3
    for search in searches:
        whole, found = one_search(folder, search).splitlines(), (folder / search.output).read_bytes().splitlines()
        assert set(found[:-1]) <= set(whole)
        # what is missing lies where the threshold was raised
        ends = [int(line.split()[1]) for line in set(whole[:-1]) - set(found[:-1])]
        assert all(any(one.first <= end < one.until for one in search.raised) for end in ends)
    assert "had too many lines: searched from S/N " in capsys.readouterr().out
    # the lists of jobs say how it was searched
    jobs = "".join(path.read_text() for path in folder.glob("searches/*/jobs"))
    assert f"--snr={raised[0].snr:.2f}" in jobs


@needs_search
@pytest.mark.parametrize("number", [signal.SIGTERM, signal.SIGINT, signal.SIGHUP, signal.SIGKILL])
def test_stopped_and_gone_on_with(observation: str, tmp_path: Path, monkeypatch: pytest.MonkeyPatch,
                                  number: signal.Signals) -> None:
    folder, hangs = tmp_path / "hunt", tmp_path / "hangs"
    hangs.touch()
    monkeypatch.setenv("PSR_PART", stand_in(tmp_path, f"[ -e {hangs} ] && [ $# -gt 4 ] && exec sleep 47.11"))
    words = [sys.executable, str(HERE.parent / "psr_hunt"), observation, "--dm", "0", "20", "-o", str(folder),
             "--cores", "2", "--keep"]
    process = subprocess.Popen(words, stdout=subprocess.PIPE, stderr=subprocess.PIPE, text=True)
    last = time.monotonic() + 60
    while time.monotonic() < last and len(list(folder.glob("searches/*/*.error"))) < 2:
        time.sleep(0.05)
    process.send_signal(number)
    said = process.communicate()[1]
    assert process.returncode == -number
    if number != signal.SIGKILL:
        assert f"stopped by {number.name}; give the same command again to continue" in said
        left = [path for path in folder.rglob("*") if path.suffix == ".error" or path.name.split(".")[-1].isdigit()]
        assert left == []
    hangs.unlink()
    assert subprocess.run(words, capture_output=True, text=True).stderr == ""
    monkeypatch.delenv("PSR_PART")
    assert hunted(monkeypatch, *words[2:-5], "-o", str(tmp_path / "other")) == 0
    assert texts(folder) == texts(tmp_path / "other")


@needs_search
@pytest.mark.parametrize("engine", ["--slurm", "--parallel"])
def test_engines(observation: str, tmp_path: Path, monkeypatch: pytest.MonkeyPatch, engine: str) -> None:
    if engine == "--slurm":
        # what Slurm does with an array, one job after another
        path = tmp_path / "bin" / "sbatch"
        path.parent.mkdir()
        path.write_text('#!/bin/bash\necho 17\nwhile [[ $1 == --* ]]; do [[ $1 != --array=1-* ]] || n=${1#--array=1-}; '
                        'shift; done\nfor ((k = 1; k <= n; k++)); do SLURM_ARRAY_TASK_ID=$k bash "$@" || s=$?; done; '
                        'exit "${s:-0}"\n')
        path.chmod(0o755)
        monkeypatch.setenv("PATH", f"{path.parent}:{os.environ['PATH']}")
    elif shutil.which("parallel") is None:
        pytest.skip("GNU parallel is not there")
    words = [observation, "--dm", "0", "20", "-o"]
    given = [engine] if engine == "--slurm" else [engine, "--jobs 2"]
    assert hunted(monkeypatch, *words, str(tmp_path / "hunt"), *given) == 0
    assert hunted(monkeypatch, *words, str(tmp_path / "other")) == 0
    assert texts(tmp_path / "hunt") == texts(tmp_path / "other")
    # a job that fails is named
    monkeypatch.setenv("PSR_PART", stand_in(tmp_path, "[ $# -lt 4 ] || { echo no memory >&2; exit 5; }"))
    assert hunted(monkeypatch, *words, str(tmp_path / "third"), *given) == FAILED


@needs_search
def test_folds(tmp_path: Path, monkeypatch: pytest.MonkeyPatch, capsys: pytest.CaptureFixture[str]) -> None:
    path = tmp_path / "pulsar.dada"
    made.make(path, number=7, channels=32, spectra=8192, delay=20, period=100, height=2)
    words = [str(path), "--dm", "0", "2", "-o", str(tmp_path / "hunt"), "--periods", "0.006", "0.0068"]
    assert hunted(monkeypatch, *words) == 0
    folds = [one for one in read_manifest(str(tmp_path / "hunt")).searches if one.fold_max]
    assert folds and all("END" in (tmp_path / "hunt" / one.output).read_text() for one in folds)
    found = re.search(r"folds +[0-9]+ lines: S/N ([0-9.]+) at ([0-9.]+) s, DM", capsys.readouterr().out)
    assert found and float(found[1]) > 20 and abs(float(found[2]) - 0.0064) < 0.00002


def test_a_dry_run_writes_nothing(observation: str, tmp_path: Path, monkeypatch: pytest.MonkeyPatch,
                                  capsys: pytest.CaptureFixture[str]) -> None:
    monkeypatch.chdir(tmp_path)
    words = [observation, "--dm", "0", "20", "-o", "hunt", "--dry-run", "--periods", "0.00001", "0.01", "--mask", "3"]
    assert hunted(monkeypatch, *words) == 0
    said = capsys.readouterr().out
    for part in ("k1-box8   0-64 ", "(--mask 3)", "MHz", "not folded: 1e-05 to", "disk ", "memory "):
        assert part in said
    assert list(tmp_path.iterdir()) == []


@pytest.mark.parametrize("name, line", [("free_disk", "are free"), ("free_memory", "give fewer --cores")])
def test_too_little_room(observation: str, tmp_path: Path, monkeypatch: pytest.MonkeyPatch,
                         capsys: pytest.CaptureFixture[str], name: str, line: str) -> None:
    monkeypatch.setattr(hunt_text, name, lambda *_: 1000)
    assert hunted(monkeypatch, observation, "--dm", "0", "20", "-o", str(tmp_path / "hunt")) in (5, 10)
    assert line in capsys.readouterr().err
    assert list(tmp_path.iterdir()) == []


@pytest.mark.parametrize("words, status, line", [
    ([], 2, "the following arguments are required"),
    (["FILE", "-o", "FOLDER"], 2, "--dm; --help lists the options"),
    (["FILE", "-dm", "0", "9", "-o", "FOLDER"], 2, "there is no -dm: did you mean --dm?"),
    (["FILE", "--dm", "20", "10", "-o", "FOLDER"], 2, "argument --dm: LOW, 20, is not below HIGH, 10"),
    (["FILE", "--dm", "0", "1e3", "-o", "FOLDER"], 2, "1e3 is not a number"),
    (["FILE", "--dm", "0", "99999999", "-o", "FOLDER"], 2, "the greatest that is reached"),
    (["FILE", "--dm", "0", "9", "-o", "FOLDER", "--snr", "0"], 2, "argument --snr: it has to be above 0"),
    (["FILE", "--dm", "0", "9", "-o", "FOLDER", "--mask", "64"], 12, "mask refused"),
    (["FILE", "--dm", "0", "9", "-o", "FOLDER", "--slurm", "--parallel", ""], 2, "not allowed with"),
    (["/nowhere/a.dada", "--dm", "0", "9", "-o", "FOLDER"], 6, "can't read /nowhere/a.dada"),
    (["/dev/null", "--dm", "0", "9", "-o", "FOLDER"], 6, "can't read /dev/null: it is no regular file"),
    ([__file__, "--dm", "0", "9", "-o", "FOLDER"], 3, "is no SIGPROC filterbank, PSRFITS or DADA file: header of "),
    pytest.param(["FILE", "--dm", "0", "9", "-o", "FILE"], 10, "can't make ", marks=needs_search),
])
def test_what_is_refused(observation: str, tmp_path: Path, monkeypatch: pytest.MonkeyPatch,
                         capsys: pytest.CaptureFixture[str], words: list[str], status: int, line: str) -> None:
    given = [observation if one == "FILE" else str(tmp_path / "hunt") if one == "FOLDER" else one for one in words]
    assert hunted(monkeypatch, *given) == status
    answer = capsys.readouterr()
    assert line in answer.err and answer.err.count("\n") == 1 and answer.out == ""
    assert list(tmp_path.iterdir()) == []


def test_programs_that_are_not_there(observation: str, tmp_path: Path, monkeypatch: pytest.MonkeyPatch,
                                     capsys: pytest.CaptureFixture[str]) -> None:
    words = [observation, "--dm", "0", "9", "-o", str(tmp_path / "hunt")]
    monkeypatch.setenv("PATH", "/nowhere")
    for more, line in (([], "there is no psr_level on the PATH"),
                       (["--slurm"], "argument --slurm: sbatch is not on the PATH"),
                       (["--parallel", "-j 2"], "argument --parallel: parallel is not on the PATH")):
        assert hunted(monkeypatch, *words, *more) == 2
        assert line in capsys.readouterr().err
    assert list(tmp_path.iterdir()) == []


@needs_search
def test_other_folders(observation: str, tmp_path: Path, monkeypatch: pytest.MonkeyPatch,
                       capsys: pytest.CaptureFixture[str]) -> None:
    folder, words = tmp_path / "hunt", [observation, "--dm", "0", "20", "-o"]
    (tmp_path / "full").mkdir()
    (tmp_path / "full" / "mine").touch()
    assert hunted(monkeypatch, *words, str(tmp_path / "full")) == 10
    assert "exists, and is not the folder of a hunt" in capsys.readouterr().err
    copy = shutil.copy(observation, tmp_path / "copy.dada")
    words[0] = str(copy)
    assert hunted(monkeypatch, *words, str(folder)) == 0
    assert hunted(monkeypatch, *words, str(folder), "--snr", "8") == 10
    assert "is the folder of another hunt: psr_hunt " in capsys.readouterr().err
    os.utime(copy, ns=(0, 0))
    assert hunted(monkeypatch, *words, str(folder)) == 10
    assert "have changed since" in capsys.readouterr().err


def test_the_scripts_are_there() -> None:
    for name in ("part", "join", "slurm.batch", "parallel.bash"):
        assert os.access(os.path.join(scripts(), name), os.X_OK)
