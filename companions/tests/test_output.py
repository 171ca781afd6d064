"""Files that are written whole or not at all, also if a signal ends the program."""
from __future__ import annotations

import os
import signal
import subprocess
import sys
from pathlib import Path

import pytest

from conftest import HERE
from malletbean import Refusal
from malletbean.output import new_file, whole_file

WAITS = """
import sys, time
from malletbean.output import new_file, whole_file
from malletbean.ending import run

def program(words):
    with {kind}(words[0]) as made:
        file = made if hasattr(made, "write") else open(made, "wb")
        file.write(b"half")
        file.flush()
        print("written", flush=True)
        time.sleep(60)

sys.exit(run("waits", program))
"""


def test_a_new_file_is_there_once_it_is_whole(tmp_path: Path) -> None:
    path = tmp_path / "a"
    with new_file(str(path)) as file:
        file.write(b"whole")
        assert not path.exists()
    assert path.read_bytes() == b"whole" and os.listdir(tmp_path) == ["a"]
    with pytest.raises(Refusal, match="it exists already"), new_file(str(path)):
        pass
    assert path.read_bytes() == b"whole"


def test_a_file_that_appears_meanwhile_is_kept(tmp_path: Path) -> None:
    path = tmp_path / "a"
    with pytest.raises(Refusal, match="it exists already"), new_file(str(path)) as file:
        file.write(b"mine")
        path.write_bytes(b"another")
    assert path.read_bytes() == b"another" and os.listdir(tmp_path) == ["a"]


@pytest.mark.parametrize("kind", ["new_file", "whole_file"])
def test_a_failure_leaves_nothing(tmp_path: Path, kind: str) -> None:
    path = tmp_path / "a"
    with pytest.raises(ValueError), {"new_file": new_file, "whole_file": whole_file}[kind](str(path)):
        raise ValueError
    assert os.listdir(tmp_path) == []


def test_a_link_stays(tmp_path: Path) -> None:
    (tmp_path / "link").symlink_to(tmp_path / "place")
    with whole_file(str(tmp_path / "link")) as name:
        Path(name).write_bytes(b"whole")
    assert (tmp_path / "link").is_symlink() and (tmp_path / "place").read_bytes() == b"whole"


@pytest.mark.parametrize("kind", ["new_file", "whole_file"])
@pytest.mark.parametrize("number", [signal.SIGTERM, signal.SIGHUP, signal.SIGINT])
def test_signals_leave_nothing(tmp_path: Path, kind: str, number: signal.Signals) -> None:
    program = subprocess.Popen([sys.executable, "-c", WAITS.format(kind=kind), str(tmp_path / "out")], text=True,
                               stdout=subprocess.PIPE, stderr=subprocess.PIPE, cwd=HERE.parent)
    assert program.stdout is not None and program.stdout.readline() == "written\n"
    program.send_signal(number)
    _, said = program.communicate(timeout=30)
    assert program.returncode == -number
    assert said == f"waits: stopped by {number.name}\n"
    assert os.listdir(tmp_path) == []


def test_nohup_is_kept(tmp_path: Path) -> None:
    command = f"trap '' HUP; exec '{sys.executable}' -c '{WAITS.format(kind='new_file')}' '{tmp_path}/out'"
    program = subprocess.Popen(["bash", "-c", command], text=True, stdout=subprocess.PIPE, stderr=subprocess.PIPE,
                               cwd=HERE.parent)
    assert program.stdout is not None and program.stdout.readline() == "written\n"
    program.send_signal(signal.SIGHUP)
    program.send_signal(signal.SIGTERM)
    assert program.communicate(timeout=30)[1] == "waits: stopped by SIGTERM\n"
