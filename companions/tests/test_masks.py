"""Masks of channels: their texts, and what the companions make of a masked search."""
from __future__ import annotations

import numpy as np
import pytest

from malletbean import Refusal, header
from malletbean.candidates import cells_by_delay, check_fits, fold_noise, pulse_noise_cells
from malletbean.masks import mask_text, masked_channels
from malletbean.paths import path_cells
from malletbean.samples import Samples, path_sums_of
from malletbean.texts import FOLD, PULSE, Found


@pytest.mark.parametrize("channels, text", [
    ([], "none"), ([3], "3"), ([3, 17, 18, 19, 20], "3,17-20"), ([0, 1, 5], "0-1,5"),
])
def test_mask_texts(channels: list[int], text: str) -> None:
    assert mask_text(np.array(channels, int)) == text
    assert masked_channels(text, 64).tolist() == channels


@pytest.mark.parametrize("text, channels", [
    ("5-3", [3, 4, 5]), ("000000007", [7]), ("1,1,0-2", [0, 1, 2]), ("7-7", [7]),
])
def test_other_texts_of_masks(text: str, channels: list[int]) -> None:
    assert masked_channels(text, 8).tolist() == channels


@pytest.mark.parametrize("text, why", [
    ("", "is no mask"), ("1,", "is no mask"), ("1-2-3", "is no mask"), ("none,1", "is no mask"), ("-1", "is no mask"),
    ("1 ", "is no mask"), ("1234567890", "is no mask"), ("8", "there are 8 channels, and it names 8"),
    ("9-1", "it names 9"), ("0-7", "leaves no channel"),
])
def test_masks_that_are_refused(text: str, why: str) -> None:
    with pytest.raises(Refusal, match=why) as caught:
        masked_channels(text, 8)
    assert caught.value.status == 12


def test_a_mask_counts_in_the_order_of_the_file(files: dict[str, str]) -> None:
    assert header(files["made"]).without("1,3-4").masked == (1, 3, 4)
    assert header(files["rising"]).without("1,3-4").masked == (43, 44, 46)
    assert header(files["made"]).without("none").kept.tolist() == list(range(32))


def test_masked_samples_and_cells(files: dict[str, str]) -> None:
    for name, masked in (("made", [0, 30, 31]), ("rising", [16, 17, 47])):
        whole, left = Samples([files[name]]), Samples([files[name]], "0,30-31")
        assert left.header.masked == tuple(masked)
        wanted = whole.read(5, 90)
        wanted[:, masked] = 0
        assert (left.read(5, 90) == wanted).all()
        delays = np.array([0, 7, 40])
        cells = path_cells(whole.header.edges_khz, delays)
        assert (cells_by_delay(left.header, delays) == cells.sum(axis=0) - cells[masked].sum(axis=0)).all()
        assert (cells_by_delay(whole.header, delays) == cells.sum(axis=0)).all()
        gone = whole.read(0, 100)[:, masked]
        sums = path_sums_of(whole, 0, 100) - path_sums_of(left, 0, 100)
        assert (sums == gone.sum(axis=1)).all()


def test_a_text_of_another_mask_is_refused(files: dict[str, str]) -> None:
    head = header(files["made"]).without("3,17-19")
    cells = int(cells_by_delay(head, np.array([20]))[0])
    pulses = np.array([(b"PULSE", 20, 20, head.dm(20), 2, 2000, 2 * cells)], PULSE)
    found = Found(0, pulses, np.empty(0, FOLD), 256)
    check_fits("text", found, head, 16, 2.828)
    for other in (header(files["made"]), header(files["made"]).without("3,17-18")):
        with pytest.raises(Refusal, match="another file or mask"):
            check_fits("text", found, other, 16, 2.828)


def test_noise_of_what_is_kept(files: dict[str, str]) -> None:
    """At width 1 the noise is that of the cells that are kept; of a wide box it is more."""
    head = header(files["made"]).without("3,17-19")
    cells = int(cells_by_delay(head, np.array([20]))[0])
    pulses = np.array([(b"PULSE", 30, 20, 0.0, width, 0, width * cells) for width in (1, 8)], PULSE)
    narrow, wide = pulse_noise_cells(pulses, head)
    assert narrow == cells and 8 * cells < wide < 64 * cells
    folds = np.array([(b"FOLD", 20, 0.0, 100, 2, 0, 0, 0, 2 * cells)], FOLD)
    assert fold_noise(folds, head).tolist() == [2 * cells]
