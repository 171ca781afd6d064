"""Lines of several searches as candidates: what is found, what is hidden, and what is flagged."""
from __future__ import annotations

import time
from dataclasses import replace
from pathlib import Path

import numpy as np
import pytest

from malletbean import header, read
from malletbean.arrays import Array
from malletbean.grouping import Searched, candidate_table, cells_of, curve_at, grouped, most_at, neighbours
from malletbean.grouping import lines_of as lines_of_searches
from malletbean.texts import PULSE
from sky import DEVIATION, MEAN, Band, Burst, average_sky, make_sky, search

BAND = Band()
BURSTS = (
    Burst(0.30, 80, 0.0005, 12), Burst(0.62, 150, 0.002, 11), Burst(0.95, 40, 0.004, 15), Burst(1.30, 200, 0.001, 40),
    Burst(1.60, 120, 0.0003, 12), Burst(2.00, 30, 0.001, 25), Burst(2.40, 220, 0.006, 20),
    Burst(2.75, 60, 0.0015, 10.5),
)
# bursts of interference in the whole band, which the delays of the last bursts cross
IMPULSES = tuple((int(when / BAND.seconds), 4, 2.0, 0, 64) for when in (0.40, 0.75, 1.01, 1.35, 1.70, 2.02, 2.50, 2.77))
AVERAGED = (1, 2, 4)


@pytest.fixture(scope="module")
def searches(tmp_path_factory: pytest.TempPathFactory) -> list[Searched]:
    """Searches of one sky: at widths to 1, after 1, 2 and 4 spectra were averaged."""
    folder = tmp_path_factory.mktemp("sky")
    path = folder / "1.dada"
    make_sky(path, BAND, 12288, BURSTS, IMPULSES)
    return [searched(folder, path, times) for times in AVERAGED]


def searched(folder: Path, path: Path, times: int, max_dm: float = 240, widths: int = 1) -> Searched:
    """A search of a sky in which so many spectra are averaged into one, in boxes of up to some widths."""
    one = folder / f"{times}.dada"
    band = BAND if times == 1 else average_sky(path, one, BAND, times)
    max_delay = int(band.delay(max_dm) / band.seconds) + 1
    text = folder / f"{times}.text"
    text.write_text(search(str(one), 6.3, widths, max_delay))
    return Searched(read(str(text))[0].pulses, header(str(one)), MEAN, DEVIATION, times, name=f"k{times}", min_delay=0,
                    max_delay=max_delay)


def found(table: Array, burst: Burst) -> Array:
    """The candidates that are a burst by time and DM."""
    middle = table["time_top"] / 2 + table["time_foot"] / 2
    dm_room = 3 * table["dm_error"] + burst.dm * 0.01
    off = np.abs(middle - burst.time - BAND.delay(burst.dm) / 2)
    return table[(off < 0.01) & (np.abs(table["dm"] - burst.dm) < dm_room)]


def test_each_burst_is_one_candidate(searches: list[Searched]) -> None:
    """Also those whose boxes cross stronger interference: nothing is hidden, and nothing is listed twice."""
    table = candidate_table(searches)
    assert [len(found(table, burst)) for burst in BURSTS] == [1] * len(BURSTS)
    is_impulse = [(table["delay"] < 8) & (np.abs(table["time_top"] - (begin + count / 2) * BAND.seconds) < 0.003)
                  for begin, count, *_ in IMPULSES]
    assert [int(some.sum()) for some in is_impulse] == [1] * len(IMPULSES)
    assert len(table) <= len(BURSTS) + len(IMPULSES) + 3
    assert (np.diff(table["snr"]) <= 0).all()
    assert table["lines"].sum() == sum(len(one.pulses) for one in searches)


def test_flags_of_bursts_and_impulses(searches: list[Searched]) -> None:
    table = candidate_table(searches)
    assert [found(table, burst)["flag"][0] for burst in BURSTS] == [""] * len(BURSTS)
    assert all("dm0" in flag for flag in table["flag"][table["delay"] < 3])


def test_what_a_candidate_says(searches: list[Searched]) -> None:
    """Times are those of the middle of the box, within a few widths, and DM lies within its error."""
    table = candidate_table(searches)
    top, foot = BAND.ends
    for burst in BURSTS:
        row = found(table, burst)[0]
        room = 0.6 * row["width_ms"] / 1000 + burst.width / 2 + BAND.delay(row["dm_error"])
        assert abs(row["time_top"] - burst.time) < room
        assert abs(row["time_foot"] - burst.time - BAND.delay(burst.dm)) < room
        assert abs(row["dm"] - burst.dm) < 3 * row["dm_error"]
        assert row["snr"] == pytest.approx(burst.snr, abs=0.25 * burst.snr + 2)
        infinite = row["time_top"] - row["dm"] / 2.41e-4 * top**-2
        begun = np.datetime64("2024-01-02T03:04:05", "ns")
        assert (row["utc_infinite"] - begun) / np.timedelta64(1, "s") == pytest.approx(infinite, abs=1e-5)
        assert (row["utc_top"] - begun) / np.timedelta64(1, "s") == pytest.approx(row["time_top"], abs=1e-8)
        mjd = 60311 + (3 * 3600 + 4 * 60 + 5 + infinite) / 86400
        assert row["mjd_infinite"] == pytest.approx(mjd, abs=2e-10)
        step = BAND.seconds * row["averaged"]
        assert row["width_ms"] == pytest.approx(row["width"] * step * 1000)
        assert row["time_top"] == pytest.approx((row["end"] - row["delay"] + 1 - row["width"] / 2) * step)
        assert row["search"] == f"k{row['averaged']}"


def test_a_narrow_burst_beside_a_wide_one_is_not_hidden(tmp_path: Path) -> None:
    """Also if a box of the wide one would cover it in time and in delay."""
    path = tmp_path / "1.dada"
    wide, narrow = Burst(0.5, 60, 0.016, 40), Burst(0.475, 110, 0.0005, 18)
    make_sky(path, BAND, 4096, (wide, narrow))
    table = candidate_table([searched(tmp_path, path, times, 120, times // 4 or 1) for times in (1, 16)])
    assert len(found(table, narrow)) == len(found(table, wide)) == 1
    assert table["width_ms"][0] > 10


def test_one_search_alone(searches: list[Searched]) -> None:
    for one in searches[:2]:
        table = candidate_table([one])
        assert all(len(found(table, burst)) == 1 for burst in BURSTS if burst.snr > 14)


def test_a_narrow_band_fits_no_pulse(tmp_path: Path) -> None:
    """Interference in some channels is as strong over many more DMs than a pulse as wide can be."""
    path = tmp_path / "1.dada"
    make_sky(path, BAND, 4096, (), [(2000, 2, 9.0, 10, 6)])
    table = candidate_table([searched(tmp_path, path, times, 120) for times in AVERAGED])
    assert len(table) < 10
    assert "curve" in table["flag"][0]


def test_the_end_of_the_delays(searches: list[Searched]) -> None:
    short = [replace(one, pulses=one.pulses[one.pulses["delay"] <= 722], max_delay=722) for one in searches[:1]]
    table = candidate_table(short)
    at_end = table[table["delay"] >= 721]
    assert len(at_end) and all("edge" in flag for flag in at_end["flag"])
    unknown = candidate_table([replace(one, max_delay=None) for one in short])
    assert not any("edge" in flag for flag in unknown["flag"])


def test_a_crowd(searches: list[Searched]) -> None:
    """A hundred candidates within a second are flagged, and one an hour later is not."""
    lines = np.zeros(122, PULSE)
    lines["word"], lines["width"], lines["delay"] = b"PULSE", 1, 30
    lines["end"] = np.arange(122) * 15 + 1000
    lines["end"][121] = 14_000_000
    lines["cells"] = BAND.channels + 30
    lines["sum"] = lines["cells"] * MEAN + 9 * DEVIATION * np.sqrt(lines["cells"])
    # a burst that is much stronger than the others is none of the crowd
    strong = lines["cells"][60] * MEAN + 20 * DEVIATION * np.sqrt(lines["cells"][60])
    for total, is_one in ((lines["sum"][60], True), (strong, False)):
        lines["sum"][60] = total
        table = candidate_table([replace(searches[0], pulses=lines)])
        assert len(table) == 122
        flagged = [("crowd" in flag) for flag in table["flag"][np.argsort(table["time_top"])]]
        assert flagged == [True] * 60 + [is_one] + [True] * 60 + [False]


def test_nothing_to_group(searches: list[Searched]) -> None:
    assert len(candidate_table([replace(one, pulses=one.pulses[:0]) for one in searches])) == 0
    some = [searches[0], replace(searches[1], pulses=searches[1].pulses[:0])]
    assert len(candidate_table(some)) > 0


def test_the_order_of_lines_and_searches_does_not_matter(searches: list[Searched]) -> None:
    order = np.random.default_rng(3)
    mixed = [replace(one, pulses=order.permutation(one.pulses)) for one in searches[::-1]]
    for name in ("snr", "time_top", "dm", "lines", "flag"):
        assert candidate_table(mixed)[name].tolist() == candidate_table(searches)[name].tolist()


def test_neighbours_are_those_that_touch(searches: list[Searched]) -> None:
    """By trying all pairs of some cells of one level."""
    lines = lines_of_searches(searches[:1])
    base = BAND.seconds
    cells = lines.at(cells_of(lines, base)[1])
    pairs = {tuple(sorted(pair)) for ones, others in neighbours(cells, base) for pair in zip(ones, others)}
    size = base * np.exp2(np.rint(np.log2(cells.width / base)))
    when, delay = np.floor(cells.middle / size), np.floor(cells.delay / size)
    some = np.random.default_rng(1).choice(len(cells), 200)
    for one in some.tolist():
        touch = (size == size[one]) & (np.abs(when - when[one]) <= 1) & (np.abs(delay - delay[one]) <= 1)
        touch[one] = False
        above = (size == 2 * size[one]) & (when == when[one] // 2) & (delay == delay[one] // 2)
        for other in np.flatnonzero(touch | above).tolist():
            assert tuple(sorted((one, other))) in pairs


def test_the_curve_of_a_pulse() -> None:
    """Cordes and McLaughlin: half of the S/N where zeta is 1.77, and all of it at the right DM."""
    assert curve_at(np.array([0.0]), 1.0)[0] == pytest.approx(1)
    assert curve_at(np.array([1.77 / 0.8325]), 1.0)[0] == pytest.approx(0.494, abs=0.002)
    assert (np.diff(curve_at(np.linspace(0, 9, 50), 1.0)) < 0).all()


def test_no_box_of_another_delay_catches_more() -> None:
    off = np.linspace(0, 50, 100)
    assert most_at(10.0, 1.0, np.array(1.0), off, 1.4).max() == pytest.approx(10)
    assert most_at(10.0, 1.0, np.array(4.0), np.array(0.0), 1.4) == pytest.approx(5)
    assert (np.diff(most_at(10.0, 1.0, np.array(1.0), off, 1.4)) <= 0).all()


def test_a_million_lines_take_seconds(searches: list[Searched]) -> None:
    """Bright bursts in many boxes, and lines everywhere."""
    order = np.random.default_rng(2)
    pulses = np.concatenate([one.pulses for one in searches[:1]] * (500_000 // len(searches[0].pulses)))
    pulses["end"] += np.repeat(np.arange(len(pulses) // len(searches[0].pulses)), len(searches[0].pulses)) * 12288
    lines = np.zeros(500_000, PULSE)
    lines["word"], lines["width"] = b"PULSE", 1
    lines["delay"] = order.integers(0, 800, len(lines))
    lines["end"] = order.integers(800, int(pulses["end"].max()), len(lines))
    lines["cells"] = BAND.channels + lines["delay"]
    lines["sum"] = lines["cells"] * MEAN + order.uniform(6.3, 7, len(lines)) * DEVIATION * np.sqrt(lines["cells"])
    every = replace(searches[0], pulses=np.concatenate([pulses, lines]))
    begun = time.process_time()
    groups = grouped([every])
    assert len(groups.of_line) > 900_000
    assert time.process_time() - begun < 30
