"""Ratios and times of candidates, and groups of folds."""
from __future__ import annotations

import numpy as np
import pytest

from conftest import DATA
from malletbean import Refusal, header, read
from malletbean.candidates import check_fits, fold_table, pulse_table, strongest
from malletbean.texts import FOLD, Found


def test_ratios_and_times_of_pulses(files: dict[str, str]) -> None:
    table = pulse_table(read(str(DATA / "made.txt"))[0].pulses, header(files["made"]), 16, 2.828)
    assert table["ratio"][1] == pytest.approx((1253 - 52 * 16) / (2.828 * 52**0.5))
    assert table["snr"].tolist() == table["ratio"].tolist()
    assert table["time_foot"][2] == pytest.approx(120 * 64e-6)
    assert table["time_top"][2] == pytest.approx(101 * 64e-6)
    assert table["utc_top"][2] == np.datetime64("2024-01-02T03:04:05.006464")


def test_wide_boxes_have_less_than_their_printed_ratio(files: dict[str, str]) -> None:
    table = pulse_table(read(str(DATA / "two.txt"))[0].pulses, header(files["rising"]), 32, 4)
    is_wide = table["width"] > 1
    assert is_wide.any() and (~is_wide).any()
    assert (table["snr"][is_wide] < table["ratio"][is_wide]).all()
    assert (table["snr"] * np.sqrt(table["width"]) >= table["ratio"] - 1e-9).all()
    assert (table["snr"][~is_wide] == table["ratio"][~is_wide]).all()


def test_ratios_of_folds(files: dict[str, str]) -> None:
    folds = read(str(DATA / "folds.txt"))[0].folds
    table = fold_table(folds, header(files["folds"]), 16, 2.828)
    assert (table["snr"] <= table["ratio"] + 1e-9).all()
    assert (table["snr"] > 0.95 * table["ratio"]).all()
    assert table["period_s"].tolist() == pytest.approx(((folds["period"] + folds["trial"] / 15) * 64e-6).tolist())


def test_a_text_of_another_file_is_refused(files: dict[str, str]) -> None:
    found = read(str(DATA / "made.txt"))[0]
    check_fits("text", found, header(files["made"]), 16, 2.828)
    with pytest.raises(Refusal, match="CELLS"):
        check_fits("text", found, header(files["rising"]), 16, 2.828)
    other = Found(0, found.pulses.copy(), found.folds, 256)
    other.pulses["dm"] += 0.001
    with pytest.raises(Refusal, match="DM"):
        check_fits("text", other, header(files["made"]), 16, 2.828)


def test_groups_of_folds() -> None:
    folds = np.zeros(4, FOLD)
    folds["period"], folds["rows"], folds["trial"] = [100, 101, 100, 150], 16, [0, 0, 8, 0]
    best, sizes = strongest(folds, np.array([9.0, 8.0, 7.0, 6.0]), 9)
    assert best.tolist() == [0, 3]
    assert sizes.tolist() == [3, 1]


def test_nothing_to_group() -> None:
    best, sizes = strongest(np.empty(0, FOLD), np.empty(0), 3)
    assert len(best) == len(sizes) == 0
