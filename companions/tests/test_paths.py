"""Paths, and the noise of sums, against counting cell by cell."""
from __future__ import annotations

from collections import Counter
from pathlib import Path

import numpy as np
import pytest

import made
from malletbean import header
from malletbean.paths import (
    box_noise_cells, delay_paths, fold_noise_cells, fold_places, fold_shifts, path_cells, shared_cells, split,
)
from malletbean.samples import Samples, path_sums_of

EDGES = tuple(range(1582, 1181, -25)) + (1150,)


def entry(edges: tuple[int, ...], low: int, high: int, start: int, delay: int, edge: int) -> int:
    """The path at one edge, by going down the halving tree to it alone."""
    if high - low < 2:
        return start + delay if edge >= high else start
    middle = low + (high - low) // 2
    upper = split(edges[low], edges[middle], edges[high], delay)
    if edge <= middle:
        return entry(edges, low, middle, start, upper, edge)
    return entry(edges, middle, high, start + upper, delay - upper, edge)


def cells_of(path: np.ndarray, late: int) -> Counter[tuple[int, int]]:
    """The cells of a path that begins `late` spectra after the first, each with how often it is added."""
    channels = range(len(path) - 1)
    return Counter((c, late + t) for c in channels for t in range(path[c], path[c + 1] + 1))


def squares(paths: list[Counter[tuple[int, int]]]) -> int:
    """The variance of a sum over all cells of these paths, where one cell has the variance 1."""
    return sum(count**2 for count in sum(paths, Counter()).values())


def test_paths_follow_the_halving_tree() -> None:
    delays = np.array([0, 1, 7, 40, 333])
    paths = delay_paths(EDGES, delays)
    channels = len(EDGES) - 1
    for place, delay in enumerate(delays):
        assert paths[:, place].tolist() == [entry(EDGES, 0, channels, 0, int(delay), k) for k in range(channels + 1)]
    assert (path_cells(EDGES, delays).sum(axis=0) == channels + delays).all()


def test_a_split_is_exact_where_numbers_are_great() -> None:
    assert split(2**24, 2**24 - 1, 2**24 - 2, 1) == 0
    assert split(2**24, 2**24 - 1, 2**24 - 2, 8192) == 4096


@pytest.mark.parametrize("delay", [0, 3, 17, 90])
@pytest.mark.parametrize("width", [1, 2, 4, 8, 16, 32])
def test_the_noise_of_a_box(delay: int, width: int) -> None:
    path = delay_paths(EDGES, np.array([delay]))[:, 0]
    cells = np.diff(path) + 1
    counted = squares([cells_of(path, late) for late in range(width)])
    assert box_noise_cells(shared_cells(cells), width) == counted
    less, more = np.minimum(cells, width), np.maximum(cells, width)
    assert (less**2 * (more - less + 1) + (less - 1) * less * (2 * less - 1) // 3).sum() == counted


def test_shifts_are_those_of_the_bits_of_rows() -> None:
    for rows, trial in ((2, 1), (8, 5), (16, 15)):
        halvings = rows.bit_length() - 1
        wanted = [sum((trial // 2**k + 1) // 2 for k in range(halvings) if row // 2 ** (halvings - 1 - k) % 2)
                  for row in range(rows)]
        assert fold_shifts(rows, np.array([trial])).tolist() == [wanted]


@pytest.mark.parametrize("period, delay", [(2, 90), (5, 90), (30, 17), (3, 0)])
def test_the_noise_of_a_fold(period: int, delay: int) -> None:
    path = delay_paths(EDGES, np.array([delay]))[:, 0]
    shared = np.append(shared_cells(np.diff(path) + 1), 0)
    for trial in (0, 3, 7):
        for phase in range(period):
            places = fold_places(np.array([period]), 8, np.array([trial]), np.array([phase]))
            counted = squares([cells_of(path, int(late)) for late in places[0]])
            assert fold_noise_cells(shared[None, :], places).tolist() == [counted]


def test_the_noise_that_sums_have(tmp_path: Path) -> None:
    """In made noise, boxes of width 8 at a delay of four times the channels have half the stated ratio."""
    path = tmp_path / "noise.dada"
    made.make(path, number=3, channels=64, spectra=16384, height=0)
    sums = path_sums_of(Samples([str(path)]), 256, 16000)
    boxes = np.convolve(sums, np.ones(8, int), "valid")
    shared = shared_cells(path_cells(header(str(path)).edges_khz, np.array([256]))[:, 0])
    noise = np.sqrt(8 * box_noise_cells(shared, 8))
    assert boxes.std() == pytest.approx(noise, rel=0.03)
    assert noise / np.sqrt(8 * 8 * (64 + 256)) == pytest.approx(2.0, abs=0.05)
