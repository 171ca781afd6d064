"""What a search was given, beside its text."""
from __future__ import annotations

import shutil
from pathlib import Path

import pytest

from conftest import DATA
from malletbean import Refusal
from malletbean.plot import psr_plot
from malletbean.settings import SUFFIX, Settings, read_settings, write_settings
from malletbean.table import psr_table


@pytest.fixture
def text(tmp_path: Path) -> str:
    """A text that can have a file beside it."""
    return str(shutil.copy(DATA / "made.txt", tmp_path / "text"))


def test_settings_are_read_as_they_were_written(text: str) -> None:
    assert read_settings(text) is None
    settings = Settings(16, 2.828, "3,7-9", "psr_mask 3,7-9 --mean 16 --sd 2.828 made.dada")
    write_settings(text, settings)
    assert read_settings(text) == settings


@pytest.mark.parametrize("words, line", [
    (["16", "2.828"], None),
    (["16.001", "2.828"], "MEAN is 16.001 here, and was 16 in the search"),
    (["16", "2.83"], "SD is 2.83 here, and was 2.828 in the search"),
])
def test_another_noise_is_refused(files: dict[str, str], text: str, capsys: pytest.CaptureFixture[str],
                                  words: list[str], line: str | None) -> None:
    write_settings(text, Settings(16, 2.828))
    for program, more in ((psr_table, []), (psr_plot, ["-o", f"{text}.png"])):
        if line is None:
            program([files["made"], *words, text, *more])
            continue
        with pytest.raises(Refusal) as caught:
            program([files["made"], *words, text, *more])
        assert line in caught.value.line and caught.value.status == 4


def test_another_mask_is_refused(files: dict[str, str], text: str) -> None:
    write_settings(text, Settings(16, 2.828, "3"))
    with pytest.raises(Refusal, match="the mask differs from that of the search of .*, --mask 3 "):
        psr_table([files["made"], "16", "2.828", text])


@pytest.mark.parametrize("content", ["", "[]", "{}", '{"mean": "a", "sd": 1, "mask": "none", "command": ""}'])
def test_a_file_of_another_form_is_refused(text: str, content: str) -> None:
    Path(text + SUFFIX).write_text(content)
    with pytest.raises(Refusal, match="refused"):
        read_settings(text)
