"""Pictures, by what was drawn."""
from __future__ import annotations

from pathlib import Path

import numpy as np
import pytest
from matplotlib.axes import Axes
from matplotlib.figure import Figure

from conftest import DATA
from malletbean import Refusal, header, read
from malletbean.candidates import fold_table, pulse_table
from malletbean.plot import CELLS, Picture, areas, by_strength, draw, psr_plot, strongest_of_cells

MADE, FOLDS, TWO = (str(DATA / f"{name}.txt") for name in ("made", "folds", "two"))


def drawn(pulses: np.ndarray, folds: np.ndarray, profile: np.ndarray | None = None) -> list[Axes]:
    """The panels of a picture of these tables."""
    figure = Figure()
    draw(figure, Picture("a $title_{", by_strength(pulses), by_strength(folds), profile,
                         folds[0] if profile is not None else None))
    return [panel for panel in figure.axes if panel.get_label() != "<colorbar>"]


def tables(files: dict[str, str], name: str, text: str, number: int, mean: float) -> tuple[np.ndarray, np.ndarray]:
    """The tables of pulses and folds of a stored text."""
    found, head = read(text)[number], header(files[name])
    return pulse_table(found.pulses, head, mean, 4.0), fold_table(found.folds, head, mean, 4.0)


def test_panels_of_pulses(files: dict[str, str]) -> None:
    pulses, folds = tables(files, "second", TWO, 1, 32)
    snr, number, time = drawn(pulses, folds)
    circles = time.collections[0]
    assert len(circles.get_offsets()) == 80
    shown = {(time, dm, ratio) for (time, dm), ratio in zip(circles.get_offsets().tolist(), circles.get_array())}
    assert shown == set(zip(pulses["time_top"], pulses["dm"], pulses["snr"]))
    assert circles.get_array()[-1] == pulses["snr"].max() and (np.diff(circles.get_sizes()) >= 0).all()
    assert len(snr.collections[0].get_offsets()) == 80
    assert snr.lines[0].get_ydata().max() == pulses["ratio"].max()
    heights = [segment[1][1] for segment in number.collections[0].get_segments()]
    assert sum(heights) == 80 and len(heights) == len(np.unique(pulses["delay"]))
    assert "DM" in snr.get_xlabel() and snr.get_ylabel() == "S/N"
    assert "time" in time.get_xlabel() and "DM" in time.get_ylabel()


def test_panels_of_folds_and_a_profile(files: dict[str, str]) -> None:
    pulses, folds = tables(files, "folds", FOLDS, 0, 16)
    panels = drawn(pulses, folds, np.arange(100.0))
    assert len(panels) == 6
    assert len(drawn(pulses[:0], folds)) == 2 and len(drawn(pulses[:0], folds[:0])) == 3
    periods, dms, profile = panels[-3:]
    assert "period" in periods.get_xlabel() and "DM" in dms.get_xlabel() and "phase" in profile.get_xlabel()
    assert len(periods.collections[0].get_offsets()) == 32
    turns, values = profile.lines[0].get_data()
    assert len(turns) == 200 and turns[0] == -0.5 and values[50] == values[150] == folds[0]["phase"]


def test_beams_stand_side_by_side(files: dict[str, str], tmp_path: Path, monkeypatch: pytest.MonkeyPatch) -> None:
    lines = Path(MADE).read_text().splitlines()[:-1]
    marked = [line.replace("PULSE 120", "RFI 120") for line in lines]
    text = tmp_path / "beams"
    text.write_text("\n".join(["BEAM 0", *marked, "END 5 0 256", "BEAM 1", "END 0 0 256", "BEAM 2", *lines[2:4],
                               "END 2 0 250", ""]))
    figures: list[Figure] = []
    monkeypatch.setattr("malletbean.plot.finish", lambda figure, asked: figures.append(figure))
    psr_plot([files["made"], "16", "2.828", str(text), "-o", "a.png"])
    panels = figures[0].axes
    assert [panel.get_title() for panel in panels] == [
        "beam 0: 5 lines, 2 RFI", "beam 1: 0 lines, 0 RFI", "beam 2: 2 lines, 0 RFI"]
    red, blue = panels[0].collections
    assert (len(red.get_offsets()), len(blue.get_offsets()), len(panels[1].collections)) == (2, 3, 0)
    assert tuple(red.get_facecolor()[0][:3]) != tuple(blue.get_facecolor()[0][:3])
    assert sorted(dm for _, dm in red.get_offsets()) == [0.926, 0.975]
    assert panels[0].get_xlim() == panels[2].get_xlim() and panels[0].get_ylim() == panels[2].get_ylim()


def test_one_beam_has_edges_where_it_is_marked(files: dict[str, str]) -> None:
    pulses, folds = tables(files, "made", MADE, 0, 16)
    pulses["word"][2:4] = b"RFI"
    circles = drawn(pulses, folds)[2].collections[0]
    assert sorted(circles.get_linewidths()) == [0, 0, 0, 1, 1]


def test_a_picture_of_nothing(files: dict[str, str]) -> None:
    pulses, folds = tables(files, "made", MADE, 0, 16)
    assert len(drawn(pulses[:0], folds)) == 3


def test_the_strongest_of_each_cell_is_drawn() -> None:
    generator = np.random.default_rng(1)
    along, up = generator.uniform(size=(2, 500_000))
    strength = np.sort(generator.uniform(size=500_000))
    those = strongest_of_cells(along, up)
    assert len(those) <= CELLS[0] * CELLS[1]
    assert those[-1] == 499_999 and (np.diff(strength[those]) > 0).all()
    cell = np.minimum((along * CELLS[0]).astype(int), CELLS[0] - 1)
    assert len(np.unique(cell[those])) == CELLS[0]


def test_circles_grow() -> None:
    assert (np.diff(areas(np.array([7.0, 8.0, 20.0, 200.0]))) > 0).all()
    assert len(set(areas(np.array([7.0, 7.0])))) == 1


@pytest.mark.parametrize("suffix, begin", [(".png", b"\x89PNG"), (".svg", b"<?xml"), (".pdf", b"%PDF")])
def test_files(files: dict[str, str], tmp_path: Path, suffix: str, begin: bytes) -> None:
    name = tmp_path / f"a{suffix}"
    psr_plot([files["folds"], "16", "2.828", FOLDS, "-o", str(name), "--fold", "best"])
    assert name.read_bytes().startswith(begin)


def test_the_fold_that_is_named(files: dict[str, str], tmp_path: Path) -> None:
    words = [files["folds"], "16", "2.828", FOLDS, "-o", str(tmp_path / "a.png"), "--fold"]
    psr_plot([*words, "31"])
    with pytest.raises(Refusal, match="has 32 FOLD lines"):
        psr_plot([*words, "32"])
    with pytest.raises(Refusal, match="neither a whole number nor best"):
        psr_plot([*words, "-1"])


def test_a_fold_of_other_data_is_refused(files: dict[str, str], tmp_path: Path) -> None:
    other = tmp_path / "other.dada"
    data = bytearray(Path(files["folds"]).read_bytes())
    data[4096:] = bytes(len(data) - 4096)
    other.write_bytes(data)
    with pytest.raises(Refusal, match="not that of the data"):
        psr_plot([str(other), "16", "2.828", FOLDS, "-o", str(tmp_path / "a.png"), "--fold", "0"])


def test_no_window(files: dict[str, str], monkeypatch: pytest.MonkeyPatch) -> None:
    from matplotlib import pyplot
    pyplot.switch_backend("agg")
    with pytest.raises(Refusal, match="no window"):
        psr_plot([files["made"], "16", "2.828", MADE, "--show"])
