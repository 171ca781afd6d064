"""The programs as they are called: their statuses, and the one line that says why."""
from __future__ import annotations

import subprocess
import sys
from pathlib import Path

import pytest

from conftest import DATA, HERE
from malletbean.cut import psr_cut
from malletbean.dada import psr_dada
from malletbean.fil import psr_fil
from malletbean.fits import psr_fits
from malletbean.look import psr_look
from malletbean.plot import psr_plot
from malletbean.ending import run
from malletbean.series import psr_series
from malletbean.table import psr_table

PROGRAMS = {one.__name__: one for one in (
    psr_cut, psr_dada, psr_fil, psr_fits, psr_look, psr_plot, psr_series, psr_table)}
MADE, TWO = str(DATA / "made.txt"), str(DATA / "two.txt")


def called(program: str, *words: str) -> subprocess.CompletedProcess[str]:
    """What the program answers."""
    return subprocess.run([sys.executable, str(HERE.parent / program), *words], capture_output=True, text=True)


@pytest.mark.parametrize("program", PROGRAMS)
def test_the_commands(program: str) -> None:
    answer = called(program, "--help")
    assert answer.returncode == 0 and answer.stdout.startswith(f"usage: {program}")


@pytest.mark.parametrize("program, words, status, line", [
    ("psr_look", [], 2, "the following arguments are required: FILE"),
    ("psr_look", ["FILE", "--megabyts", "8"], 2, "there is no --megabyts: did you mean --megabytes? --help lists"),
    ("psr_look", ["FILE", "-mask", "3"], 2, "; there is no -mask: did you mean --mask? --help lists the options"),
    ("psr_look", ["FILE", "1e3"], 2, "1e3 is no dispersion measure"),
    ("psr_look", ["/nowhere/a.dada"], 6, "can't read /nowhere/a.dada"),
    ("psr_look", [MADE], 3, f"header of {MADE} refused: Short"),
    ("psr_look", ["/dev/null"], 3, "header of /dev/null refused: Short 0"),
    ("psr_look", ["/"], 6, "can't read /: Is a directory"),
    ("psr_fil", ["FILE", "OUT"], 3, "refused: it is no header of a SIGPROC filterbank"),
    ("psr_fil", ["/nowhere/a.fil", "OUT"], 6, "can't read /nowhere/a.fil"),
    ("psr_fits", ["FILE", "OUT"], 3, "refused: it is no FITS file"),
    ("psr_fits", ["/nowhere/a.fits", "OUT"], 6, "can't read /nowhere/a.fits"),
    ("psr_dada", ["FILE"], 2, "the following arguments are required: OUT"),
    ("psr_dada", ["FILE", MADE], 10, f"can't write {MADE}: it exists already"),
    ("psr_dada", ["FILE", "OUT", "--pol", "1"], 2, "argument --pol: "),
    ("psr_series", ["FILE", "1"], 2, "the following arguments are required: -o"),
    ("psr_series", ["FILE", "1", "-o", "/nowhere/a"], 10, "can't write /nowhere/a_DM0.975.dat: No such"),
    ("psr_cut", ["FILE", MADE], 10, f"can't write {MADE}: it exists already"),
    ("psr_cut", ["FILE", "/nowhere/a.fil"], 10, "can't write /nowhere/a.fil: No such"),
    ("psr_table", ["FILE", "16", "2.828", MADE, "-o", MADE], 2, "ends in none of"),
    ("psr_table", ["FILE", "1e3", "1", MADE], 2, "1e3 is not a number"),
    ("psr_table", ["FILE", "16", "0", MADE], 2, "argument SD: it is 0"),
    ("psr_table", ["FILE", "16", "2.828", "/nowhere/text"], 6, "can't read /nowhere/text"),
    ("psr_table", ["FILE", "16", "2.828", __file__], 4, "no END line"),
    ("psr_table", ["FILE", "160", "2.828", MADE], 4, "MEAN and SD are not those of its search"),
    ("psr_table", ["FILE", "16", "2.828", TWO], 4, "has 2 observations"),
    ("psr_table", ["FILE", "16", "2.828", TWO, "--obs", "2"], 4, "has no observation 2"),
    ("psr_table", ["FILE", "16", "2.828", MADE, "--beam", "0"], 4, "has no beam 0"),
    ("psr_table", ["FILE", "16", "2.828", MADE, "--mask", "3"], 4, "another file or mask"),
    ("psr_plot", ["FILE", "16", "2.828", MADE, "-o", "a.png", "--mask", "0-31"], 12, "mask refused: it leaves no"),
    ("psr_table", ["FILE", "16", "2.828", MADE, "-o", "a.txt"], 2, "ends in none of"),
    ("psr_table", ["FILE", "16", "2.828", MADE, "-o", "/nowhere/a.csv"], 10, "can't write /nowhere/a.csv: No such"),
    ("psr_table", ["FILE", "16", "2.828", MADE, "--best", "0"], 2, "below 1"),
    ("psr_plot", ["FILE", "16", "2.828", MADE], 2, "give -o PICTURE or --show"),
    ("psr_plot", ["FILE", "16", "2.828", MADE, "-o", "/nowhere/a.png"], 10, "can't write /nowhere/a.png: No such"),
    ("psr_plot", ["FILE", "16", "2.828", MADE, "-o", "a.gif"], 2, "ends in none of"),
])
def test_statuses(files: dict[str, str], monkeypatch: pytest.MonkeyPatch, capsys: pytest.CaptureFixture[str],
                  program: str, words: list[str], status: int, line: str) -> None:
    monkeypatch.setattr(sys, "argv", [program, *(files["made"] if word == "FILE" else word for word in words)])
    assert run(program, PROGRAMS[program]) == status
    answer = capsys.readouterr()
    assert line in answer.err and answer.err.count("\n") == 1 and answer.err.startswith(f"{program}: ")
    assert answer.out == ""


def test_a_full_disk(files: dict[str, str], tmp_path: Path) -> None:
    text = tmp_path / "long"
    text.write_text("PULSE 20 20 0.975 1 1253 52\n" * 20000 + "END 20000 0 256\n")
    command = f"'{sys.executable}' '{HERE.parent}/psr_table' '{files['made']}' 16 2.828 '{text}'"
    limited = f"ulimit -f 8; {command} > '{tmp_path}/out'"
    answer = subprocess.run(["bash", "-c", limited], capture_output=True, text=True)
    assert answer.returncode == 10
    assert answer.stderr == "psr_table: can't write: File too large\n"


def test_a_closed_output(files: dict[str, str], tmp_path: Path) -> None:
    text = tmp_path / "long"
    line = "PULSE 20 20 0.975 1 1253 52\n"
    text.write_text(line * 20000 + "END 20000 0 256\n")
    command = f"'{sys.executable}' '{HERE.parent}/psr_table' '{files['made']}' 16 2.828 '{text}'"
    script = f"{command} | head -1; exit ${{PIPESTATUS[0]}}"
    answer = subprocess.run(["bash", "-c", script], capture_output=True, text=True)
    assert answer.returncode == 10
    assert answer.stderr == "psr_table: the output was closed\n"
