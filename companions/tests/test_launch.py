"""The commands as they are found by their names, whatever Python runs them."""
from __future__ import annotations

import subprocess
import sys
from pathlib import Path

import pytest

from conftest import HERE
from malletbean import launch


def test_each_companion_is_a_command() -> None:
    texts = {path.name: path.read_text(encoding="ascii") for path in HERE.parent.glob("psr_*")
             if path.name != "psr_why"}
    assert set(texts) == {name for name in launch.COMMANDS if name not in ("plan", "psr_plan")}
    assert "from malletbean.launch import main\n" in texts.pop("psr_pieces")
    assert len(set(texts.values())) == 1


def test_a_name_that_is_none(monkeypatch: pytest.MonkeyPatch, capsys: pytest.CaptureFixture[str]) -> None:
    monkeypatch.setattr(sys, "argv", ["/bin/psr_lok"])
    assert launch.main() == 2
    assert capsys.readouterr().err.startswith("psr_lok: the companions are plan, psr_cut")


def test_a_python_without_packages(monkeypatch: pytest.MonkeyPatch, capsys: pytest.CaptureFixture[str]) -> None:
    monkeypatch.setattr(launch, "DEBIAN", "/nowhere/python3")
    assert launch.without("psr_look", "numpy") == 1
    assert capsys.readouterr().err == f"psr_look: {sys.executable} has no numpy: install it (Debian: python3-numpy)\n"


def test_debians_python_takes_over(tmp_path: Path) -> None:
    (tmp_path / "other").write_text("#!/bin/sh\necho \"$@\"\n", encoding="ascii")
    (tmp_path / "other").chmod(0o755)
    script = f"import sys; sys.argv = ['psr_look', 'FILE']; sys.path[:0] = ['{HERE.parent}']\n" \
             f"from malletbean import launch; launch.DEBIAN = '{tmp_path}/other'; launch.without('psr_look', 'numpy')"
    answer = subprocess.run([sys.executable, "-c", script], capture_output=True, text=True)
    assert answer.stdout == "psr_look FILE\n"


def test_the_plan_of_cluster() -> None:
    plan = HERE.parent.parent / "cluster" / "plan"
    answer = subprocess.run([sys.executable, str(plan), "--help"], capture_output=True, text=True)
    assert answer.returncode == 0 and answer.stdout.startswith("usage: plan FOLDER JOBS ")
