"""Texts of the programs as arrays."""
from __future__ import annotations

from pathlib import Path

import pytest

from conftest import DATA
from malletbean import Refusal, read

MADE = (DATA / "made.txt").read_text()


def text_of(folder: Path, text: str) -> str:
    """A file with this text."""
    path = folder / "text"
    path.write_text(text)
    return str(path)


def test_a_text_of_pulses() -> None:
    found, = read(str(DATA / "made.txt"))
    assert (found.number, found.spectra, len(found.folds)) == (0, 256, 0)
    assert found.pulses.dtype.names == ("word", "end", "delay", "dm", "width", "sum", "cells")
    assert found.pulses[3].tolist() == (b"PULSE", 120, 20, 0.975, 1, 1241, 52)


def test_a_text_of_pulses_and_folds() -> None:
    found, = read(str(DATA / "folds.txt"))
    assert (len(found.pulses), len(found.folds), found.spectra) == (2, 32, 2048)
    assert found.folds.dtype.names == ("word", "delay", "dm", "period", "rows", "trial", "phase", "sum", "cells")
    assert found.folds["rows"].tolist() == [16] * len(found.folds)


def test_a_text_of_several_observations() -> None:
    first, second = read(str(DATA / "two.txt"))
    assert (first.number, first.spectra, second.number, second.spectra) == (0, 512, 1, 256)
    assert (len(first.pulses), len(second.pulses)) == (95, 80)


def test_a_text_without_candidates(tmp_path: Path) -> None:
    found, = read(text_of(tmp_path, "END 0 0 7\n"))
    assert (len(found.pulses), len(found.folds), found.spectra) == (0, 0, 7)


BEAMS = "BEAM 0\nRFI 1 1 0.104 1 30 3\nEND 1 0 3\nBEAM 1\nEND 0 0 4\n"


def test_a_text_of_beams(tmp_path: Path) -> None:
    first, second = read(text_of(tmp_path, BEAMS))
    assert (first.number, first.spectra, second.number, second.spectra) == (0, 3, 1, 4)
    assert first.is_beam and second.is_beam
    assert first.pulses[0].tolist() == (b"RFI", 1, 1, 0.104, 1, 30, 3)
    assert first.are_marked.tolist() == [True] and second.are_marked.tolist() == []
    assert not read(str(DATA / "made.txt"))[0].are_marked.any()


def test_a_part_that_ends_in_a_checkpoint(tmp_path: Path) -> None:
    front = MADE.replace("END 5 0 256", "CHECK 221 8")
    found, = read(text_of(tmp_path, front))
    assert (len(found.pulses), found.spectra, found.counted, found.is_checkpoint) == (5, 221, 8, True)


def test_a_last_part_counts_those_before(tmp_path: Path) -> None:
    last = MADE.replace("END 5 0 256", "END 9 0 256")
    found, = read(text_of(tmp_path, last), is_part=True)
    assert (len(found.pulses), found.spectra, found.counted, found.is_checkpoint) == (5, 256, 9, False)
    assert read(str(DATA / "made.txt"))[0].counted == 5


LINES = MADE.splitlines(keepends=True)
# parts up to 100 with two pulses, up to 200 with too many, up to 250 with none, and up to 256 with one
LIVE = "".join([*LINES[:2], "CHECK 100 2\n", "MANY 200 70000\n", "CHECK 200 2\n", "CHECK 250 2\n", LINES[4],
                "END 3 0 256\n"])


def test_a_text_of_parts(tmp_path: Path) -> None:
    found, = read(text_of(tmp_path, LIVE))
    assert (len(found.pulses), found.spectra, found.counted) == (3, 256, 3)
    assert found.many.tolist() == [(200, 70000)]
    assert not found.is_checkpoint and not found.is_growing
    assert found.pulses["sum"].tolist() == [int(line.split()[5]) for line in (LINES[0], LINES[1], LINES[4])]


def test_a_text_that_grows(tmp_path: Path) -> None:
    """Whatever of a part is there, the text is read up to the last part that is whole."""
    first = LIVE.index("CHECK 100 2\n") + len("CHECK 100 2\n")
    for stop in range(first, len(LIVE)):
        found, = read(text_of(tmp_path, LIVE[:stop]))
        whole = LIVE[:stop].count("\nCHECK 100 2\n") + LIVE[:stop].count("\nCHECK 200 2\n") \
            + LIVE[:stop].count("\nCHECK 250 2\n")
        assert found.spectra == [100, 200, 250][whole - 1] and found.is_checkpoint
        assert len(found.pulses) == 2 and len(found.many) == (whole > 1)
        assert found.is_growing == (not LIVE[:stop].endswith(("100 2\n", "200 2\n", "250 2\n")))
    with pytest.raises(Refusal, match="no END line"):
        read(text_of(tmp_path, LIVE[:first - 1]))


def test_a_text_of_parts_that_goes_on(tmp_path: Path) -> None:
    later = LIVE.replace("CHECK 100 2", "CHECK 100 9").replace(" 2\n", " 9\n").replace("END 3", "END 10")
    found, = read(text_of(tmp_path, later))
    assert (len(found.pulses), found.counted) == (3, 10)


@pytest.mark.parametrize("text, why", [
    (LIVE.replace("CHECK 250", "CHECK 200"), "its part behind spectrum 200 ends at 200"),
    (LIVE.replace("CHECK 250", "CHECK 150"), "its part behind spectrum 200 ends at 150"),
    (LIVE.replace("CHECK 200 2", "CHECK 200 3"), "up to spectrum 200 has other lines than are counted"),
    (LIVE.replace("END 3", "END 2"), "up to spectrum 256 has other lines than are counted"),
    (LIVE.replace("CHECK 200 2\n", ""), "behind MANY 200 no line counts the pulses"),
    (LIVE.replace("MANY 200", "MANY 199"), "behind MANY 199 no line counts the pulses"),
    ("", "no END line"),
    ("END 0 0 7", "no END line"),
    (MADE.replace("END 5 0 256\n", ""), "no END line"),
    (MADE[:-5], "no END line"),
    (MADE + "PULSE 1 1 0.000 1 1 1\n", "no END line"),
    (MADE.replace("END 5", "END 6"), "has 5 PULSE and 0 FOLD lines"),
    (MADE.replace("END 5", "END 6"), "its last line counts others; of a last part of psr_part give --part"),
    (MADE.replace("END 5 0", "END 5 1"), "has 5 PULSE and 0 FOLD lines"),
    (MADE.replace("PULSE 120 19", "OTHER 120 19"), "begins with OTHER"),
    (MADE.replace("PULSE 120 19", "PULSE 120"), "number of columns"),
    (MADE.replace(" 1224 51", " 1224 51 9", 1), "number of columns"),
    (MADE.replace("1253", "12e53"), "its PULSE lines"),
    ("OBS 0\n" + MADE, None),
    ("OBS 0\n" + MADE + "OBS 1\n", "no END line"),
    ("OBS 0\n" + MADE + "OBS 2\n" + MADE, "do not count from 0"),
    (MADE + "OBS 1\n" + MADE, "number of columns"),
    (BEAMS.replace("BEAM 1", "BEAM 2"), "its BEAM lines do not count from 0"),
    (BEAMS.replace("RFI", "RF"), "begins with RF"),
    (BEAMS.replace("BEAM 1\n", "OBS 1\n"), "number of columns"),
    (MADE.replace("END 5 0 256", "CHECK 221 4"), "its last line counts others"),
    (MADE.replace("END 5 0 256", "CHECK 221"), "no END line"),
    (MADE.replace("PULSE 120 19", "FOLD 120 19"), "number of columns"),
    (MADE.replace("PULSE 120 19", "PULSE 120.0 19"), "its PULSE lines"),
])
def test_what_is_refused(tmp_path: Path, text: str, why: str | None) -> None:
    path = text_of(tmp_path, text)
    if why is None:
        assert len(read(path)) == 1
        return
    with pytest.raises(Refusal) as caught:
        read(path)
    assert caught.value.status == 4
    assert why in caught.value.line and "\n" not in caught.value.line
