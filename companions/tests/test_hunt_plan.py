"""The plan of a hunt: levels, passes, folds and costs."""
from __future__ import annotations

import math

import numpy as np
import pytest

from malletbean.headers import Header, header_of
from malletbean.hunt_cost import memory_bytes, search_seconds
from malletbean.hunt_folds import folds_planned
from malletbean.hunt_plan import (GREATEST_DELAY, LONG_DELAYS, NOISE_LINES, Sought, level_header, noise_lines,
                                  overstatement, planned, power_above)
from malletbean.refusal import Refusal


def receiver(channels: int, centre: float, width: float, microseconds: float, spectra: int = 1_000_000,
             polarisations: int = 1) -> Header:
    """The header of an observation."""
    fields = {"NCHAN": str(channels), "NBIT": "16", "NPOL": str(polarisations), "TSAMP": f"{microseconds:.3f}",
              "FREQ": str(centre), "BW": str(width)}
    return header_of("file", fields, 4096, spectra * channels * polarisations * 2)


PARKES, MEERKAT = receiver(1024, 1382, -400, 64), receiver(4096, 1284, 856, 76.56)
CHIME, FEW = receiver(1024, 600, -400, 983.04), receiver(16, 1382, -400, 64)


@pytest.mark.parametrize("head, low, high", [
    (PARKES, 0, 1000), (PARKES, 300, 12000), (MEERKAT, 20, 2500), (CHIME, 0, 3000), (FEW, 0, 1000), (PARKES, 0, 1),
])
@pytest.mark.parametrize("widest", [1, 8, 512])
def test_every_dm_is_searched(head: Header, low: float, high: float, widest: int) -> None:
    levels, searches = planned(head, Sought(low, high, widest, 6.5))
    assert len({one.name for one in searches}) == len({one.output for one in searches}) == len(searches)
    assert {one.level for one in searches} == {level.path for level in levels}
    headers = {level.average: level_header(head, level.average) for level in levels}
    for dm in np.linspace(low, high, 200):
        # by the level that is averaged least: a path then stays in a channel for long, or it is the first one
        fit = [one for one in searches
               if one.min_delay <= round(headers[one.average].delay(dm)) <= one.max_delay]
        finest = min(fit, key=lambda one: one.average)
        limit = min(GREATEST_DELAY, LONG_DELAYS * head.channels)
        assert finest.average == 1 or 2 * headers[finest.average].delay(dm) >= limit
    for search in searches:
        level = headers[search.average]
        assert search.max_delay <= GREATEST_DELAY and search.snr == 6.5
        assert noise_lines(level, search.min_delay, search.max_delay, search.widths, 6.5) <= NOISE_LINES
        assert search.dm_low == level.dm(search.min_delay) and search.spectra == level.spectra


def test_every_width_is_searched() -> None:
    _, searches = planned(PARKES, Sought(0, 1000, 512, 6.5))
    for dm in (0, 50, 300, 900):
        boxes = {one.average * 2**place for one in searches for place in range(one.widths.bit_length())
                 if one.min_delay <= round(level_header(PARKES, one.average).delay(dm)) <= one.max_delay}
        assert max(boxes) == 512
        for width in 2 ** np.arange(10):
            assert any(width / 2 <= box <= width for box in boxes) or dm > 500


def test_delays_follow_one_another_in_a_level() -> None:
    levels, searches = planned(PARKES, Sought(0, 1000, 512, 6.5))
    for level in levels:
        mine = sorted((one.min_delay, one.max_delay) for one in searches if one.level == level.path)
        for (_, last), (first, _) in zip(mine, mine[1:]):
            assert first == last + 1


def test_stretches_are_half_a_second() -> None:
    levels, _ = planned(PARKES, Sought(0, 1000, 512, 6.5))
    for level in levels:
        assert 0.35 < level.stretch * level.average * PARKES.seconds < 0.71
    # a pulse of a long delay stays in a channel for long
    levels, _ = planned(FEW, Sought(0, 1000, 512, 6.5))
    assert levels[-1].stretch * levels[-1].average * FEW.seconds > 1


def test_wide_pulses_of_low_dm_have_a_pass_without_zero_dm() -> None:
    for head, low, high in ((PARKES, 0, 1000), (PARKES, 10, 20), (MEERKAT, 20, 2500)):
        levels, searches = planned(head, Sought(low, high, 512, 6.5), has_plain=True)
        plain, = (one for one in searches if not one.zero_dm)
        assert searches[-1] == plain and levels[-1].path == plain.level and not levels[-1].zero_dm
        assert (plain.average, plain.widths, plain.min_delay) == (16, 32, 0)
        assert plain.max_delay == math.ceil(min(6 * 512, head.delay(high)) / 16)
        # drifts are followed over 16 times the widest box
        assert levels[-1].stretch >= 4 * 16 * plain.widths
    # a pulse of DM 100 sweeps this band in more than six times 32 ms
    assert all(one.zero_dm for one in planned(CHIME, Sought(100, 1000, 32, 6.5), has_plain=True)[1])
    assert all(one.zero_dm for one in planned(PARKES, Sought(0, 1000, 512, 6.5))[1])


def test_a_low_threshold_takes_narrow_boxes() -> None:
    _, usual = planned(PARKES, Sought(0, 400, 8, 6.5))
    _, lower = planned(PARKES, Sought(0, 400, 8, 4.5))
    assert max(one.widths for one in usual) == 8
    assert {one.widths for one in lower if one.max_delay > 5000} == {1}


def test_printed_ratios_are_never_below_the_true_ones() -> None:
    ratios = overstatement(PARKES, np.arange(0, 8192, 400), 8)
    assert (ratios >= 1).all() and ratios.max() == pytest.approx(2.38, abs=0.03)
    assert (overstatement(PARKES, np.arange(0, 8192, 400), 1) == 1).all()


def test_what_is_out_of_reach() -> None:
    with pytest.raises(Refusal, match="the greatest that is reached"):
        planned(PARKES, Sought(0, 30000, 8, 6.5))
    with pytest.raises(Refusal, match="longer across the band than the observation"):
        planned(receiver(1024, 1382, -400, 64, 1000), Sought(500, 1000, 8, 6.5))


@pytest.mark.parametrize("spectra", [2, 40, 1000, 20000])
def test_short_observations(spectra: int) -> None:
    head = receiver(1024, 1382, -400, 64, spectra)
    levels, searches = planned(head, Sought(0, 1000, 512, 6.5))
    assert searches[0].average == 1 and searches[0].min_delay == 0
    for one in searches:
        assert one.max_delay < one.spectra and (one.average == 1 or one.spectra >= 64)
    assert {one.level for one in searches} == {level.path for level in levels}


def test_powers() -> None:
    assert [power_above(one) for one in (0.1, 1, 1.1, 2, 3, 500, 512)] == [1, 1, 2, 2, 4, 512, 512]


def test_folds() -> None:
    sought = Sought(0, 1000, 512, 6.5)
    _, searches = planned(PARKES, sought)
    folds = folds_planned(PARKES, sought, (0.0001, 5.0), searches)
    assert folds.left_out[0].startswith("0.0001 to 0.0002 s: a period has fewer than 32 spectra")
    for one in folds.passes:
        level = level_header(PARKES, one.average)
        assert 32 <= one.fold_min <= one.fold_max <= 2**20
        assert (one.max_delay - one.min_delay) // one.fold_step < 64
        assert one.fold_max << one.fold_rows <= min(2**22, level.spectra)
        assert (255 * (1024 + one.max_delay)) << one.fold_rows < 2**32
        assert one.snr >= 6.5 and one.widths == 1
    # periods of a tenth of a second are folded at each DM
    mine = sorted((one.dm_low, one.dm_high) for one in folds.passes if one.fold_min * one.average * 64e-6 <= 0.1 <=
                  one.fold_max * one.average * 64e-6)
    assert mine[0][0] == 0 and mine[-1][1] >= 999


def test_costs_grow_with_delays_and_cores() -> None:
    levels, searches = planned(PARKES, Sought(0, 1000, 512, 6.5))
    by_name = {one.name: one for one in searches}
    assert search_seconds(PARKES, by_name["k1-box2"], 10**6) > 5 * search_seconds(PARKES, by_name["k1-box8"], 10**6)
    assert memory_bytes(PARKES, levels, searches, 8) > memory_bytes(PARKES, levels, searches, 4)
