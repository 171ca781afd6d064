"""Levels that are made without zero DM: drifts and bursts of the whole band go, and wide pulses of low DM stay."""
from __future__ import annotations

from dataclasses import replace
from pathlib import Path

import numpy as np
import pytest

from malletbean.bursts import freed
from malletbean.drift import MARK, followed, without_drift
from malletbean.headers import header
from malletbean.manifest import Hunt
from malletbean.paths import delay_paths
from test_bursts import CHANNELS, SPECTRA, written

STRETCH = 2048
# of a pulse: delay and width in spectra, and where it begins at the top
DELAY, WIDTH, BEGIN = 40, 20, 900


def of_level(folder: Path, values: np.ndarray, mask: str = "none") -> Hunt:
    """A hunt with one level of these values, made without zero DM."""
    hunt = replace(written(folder, values), mask=mask, bursts=())
    return replace(hunt, levels=(replace(hunt.levels[0], zero_dm=False, stretch=STRETCH),))


def values_of(folder: Path) -> np.ndarray:
    """The values of the level."""
    path = folder / "levels" / "k1.dada"
    return np.frombuffer(path.read_bytes(), np.uint8)[4096:].reshape(SPECTRA, CHANNELS).astype(float)


def sums_of(values: np.ndarray) -> np.ndarray:
    """The sums over the band, in deviations of noise."""
    return (values - 14).sum(axis=1) / (2.8 * np.sqrt(values.shape[1]))


def pulse_of(folder: Path) -> np.ndarray:
    """What part of each sample the pulse fills."""
    entries = delay_paths(header(str(folder / "levels" / "k1.dada")).edges_khz, np.array([DELAY]))[:, 0]
    shape = np.zeros((SPECTRA, CHANNELS))
    for channel, enters in enumerate(entries[:-1]):
        shape[BEGIN + enters:BEGIN + enters + WIDTH, channel] = 1
    return shape


def drifting(generator: np.random.Generator) -> np.ndarray:
    """Noise with a drift of the whole band, which begins anew with each stretch."""
    times = np.arange(SPECTRA)
    drift = 1.5 * np.sin(times / 400) + np.where(times < STRETCH, 0.5, -0.7)
    return generator.normal(14, 2.8, (SPECTRA, CHANNELS)) + drift[:, None]


def test_a_drift_goes_and_a_pulse_stays(tmp_path: Path) -> None:
    values = drifting(np.random.default_rng(1))
    hunt = of_level(tmp_path, values)
    shape = pulse_of(tmp_path)
    height = 0.4 * 2.8
    of_level_with = tmp_path / "other"
    of_level_with.mkdir()
    hunt = of_level(of_level_with, values + height * shape)
    assert np.abs(sums_of(values_of(of_level_with))).max() > 6
    without_drift(str(of_level_with), hunt, hunt.levels[0])
    left = values_of(of_level_with)
    assert sums_of(left)[:BEGIN].std() < 1.05 and np.abs(sums_of(left[:BEGIN]).cumsum()).max() < 60
    # of the height of the pulse so much is left, where a zero-DM filter leaves 0.7
    kept = (left * shape).sum() / shape.sum() - 14
    assert 0.85 * height < kept < 1.1 * height
    zero_dm = left - left.mean(axis=1, keepdims=True)
    assert (zero_dm * shape).sum() / shape.sum() < 0.75 * height
    assert header(str(of_level_with / "levels" / "k1.dada")).fields[MARK] == "removed"
    # what was freed stays as it is
    before = (of_level_with / "levels" / "k1.dada").read_bytes()
    freed(str(of_level_with), hunt, hunt.levels[0])
    assert (of_level_with / "levels" / "k1.dada").read_bytes() == before


def test_bursts_of_the_band_become_the_mean(tmp_path: Path) -> None:
    values = drifting(np.random.default_rng(2))
    values[1000:1025] += 2.8
    values[2500] += 2 * 2.8
    hunt = of_level(tmp_path, values, "3,200-203")
    without_drift(str(tmp_path), hunt, hunt.levels[0])
    left = values_of(tmp_path)
    assert (left[999:1026] == 14).all() and (left[2499:2502] == 14).all()
    assert (left == 14).all(axis=1).mean() < 0.02
    assert np.abs(sums_of(np.delete(left, [3, *range(200, 204)], axis=1))).max() < 6


@pytest.mark.parametrize("count", [1, 2, 3, 10, 500, 3000])
def test_short_levels(count: int) -> None:
    sums = np.random.default_rng(3).normal(5, 1, count)
    drift, are_far = followed(sums, STRETCH, 5.0)
    assert drift.shape == are_far.shape == (count,) and not are_far.any()
    assert np.abs(sums - drift).max() < 5
