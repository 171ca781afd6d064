"""Bursts of interference in a part of the band, and bright pulses, which are none."""
from __future__ import annotations

from dataclasses import replace
from pathlib import Path

import numpy as np
import pytest

from malletbean.bursts import bursts_of, level_for_bursts, main, quiet, strongest
from malletbean.headers import header
from malletbean.hunt_tasks import measured
from malletbean.manifest import Hunt, write_manifest
from malletbean.paths import delay_paths
from test_manifest import HUNT, LEVEL

CHANNELS, SPECTRA = 256, 4096
TEXT = f"NCHAN {CHANNELS}\nNBIT 8\nTSAMP 1024\nFREQ 1382\nBW -400\n"


def sky(generator: np.random.Generator) -> np.ndarray:
    """Noise as a level has it."""
    return generator.normal(14, 2.8, (SPECTRA, CHANNELS))


def written(folder: Path, values: np.ndarray) -> Hunt:
    """A hunt with one level of these values."""
    (folder / "levels").mkdir()
    data = np.clip(np.rint(values), 0, 28).astype(np.uint8).tobytes()
    (folder / "levels" / "k1.dada").write_bytes(TEXT.encode().ljust(4096, b"\0") + data)
    level = replace(LEVEL, average=1, path="levels/k1.dada", spectra=SPECTRA)
    sky_of = replace(HUNT.observation, tsamp=1.024e-3, nchan=CHANNELS, spectra=SPECTRA)
    hunt = replace(HUNT, levels=(level,), searches=(), observation=sky_of, mask="none", dm_high=500.0, bursts=None)
    return replace(hunt, levels=(measured(str(folder), hunt, level),))


def test_a_burst_is_found_and_replaced(tmp_path: Path) -> None:
    values = sky(np.random.default_rng(1))
    values[1000:1020, 64:96] += 2 * 2.8
    values[3000, 40:44] += 9 * 2.8
    hunt = written(tmp_path, values)
    path = tmp_path / "levels" / "k1.dada"
    found = bursts_of(str(tmp_path), hunt, hunt.levels[0])
    assert {(one.first_channel, one.stop_channel) for one in found} == {(64, 80), (80, 96)}
    for one in found:
        begin, until = one.begin / 1.024e-3, one.until / 1.024e-3
        assert begin == pytest.approx(1000, abs=5) and until == pytest.approx(1020, abs=15) and one.snr > 20
    before = path.read_bytes()
    hunt = replace(hunt, bursts=found)
    quiet(str(tmp_path), hunt, hunt.levels[0])
    after = path.read_bytes()
    assert after[:4096] == before[:4096] and len(after) == len(before)
    changed = np.flatnonzero(np.frombuffer(after, np.uint8) != np.frombuffer(before, np.uint8)) - 4096
    assert set(changed % CHANNELS) == set(range(64, 96))
    assert (np.frombuffer(after, np.uint8)[changed + 4096] == 14).all()
    # nothing is left, and a line of the commands does the same
    assert bursts_of(str(tmp_path), hunt, hunt.levels[0]) == ()
    path.write_bytes(before)
    write_manifest(str(tmp_path), hunt)
    main(str(tmp_path))
    assert path.read_bytes() == after


@pytest.mark.parametrize("width", [1, 10, 40])
def test_a_bright_pulse_is_none(tmp_path: Path, width: int) -> None:
    values = sky(np.random.default_rng(2))
    hunt = written(tmp_path, values)
    entries = delay_paths(header(str(tmp_path / "levels" / "k1.dada")).edges_khz, np.array([600]))[:, 0]
    height = 100 / np.sqrt(width * CHANNELS)
    for channel in range(CHANNELS):
        values[1000 + entries[channel]:1000 + entries[channel] + width, channel] += 2.8 * height
    (tmp_path / "levels" / "k1.dada").unlink()
    (tmp_path / "levels").rmdir()
    hunt = written(tmp_path, values)
    assert bursts_of(str(tmp_path), hunt, hunt.levels[0]) == ()


def test_noise_has_none(tmp_path: Path) -> None:
    hunt = written(tmp_path, sky(np.random.default_rng(3)))
    assert bursts_of(str(tmp_path), hunt, hunt.levels[0]) == ()


def test_the_level_is_that_of_a_millisecond() -> None:
    levels = tuple(replace(LEVEL, average=average, path=f"k{average}") for average in (1, 4, 16, 64))
    for seconds, wanted in ((64e-6, 16), (1e-3, 1), (1e-5, 64), (3e-4, 4)):
        hunt = replace(HUNT, levels=levels, observation=replace(HUNT.observation, tsamp=seconds))
        assert level_for_bursts(hunt).average == wanted


def test_boxes_one_after_another() -> None:
    series = np.zeros(300)
    series[50:66] = 5
    series[200] = 13
    found = list(strongest(series))
    assert [(first, until) for first, until, _ in found] == [(49, 67), (199, 202)]
    assert [strength for *_, strength in found] == [20, 13]
