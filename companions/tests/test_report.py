"""Candidates and report of a hunt, from its folder; and the report in a real browser, where there is one."""
from __future__ import annotations

import csv
import json
import re
import shutil
import subprocess
from dataclasses import replace
from pathlib import Path

import numpy as np
import pytest

from conftest import HERE
from malletbean import header
from malletbean.arrays import Array
from malletbean.candidates import cells_by_delay
from malletbean.listing import searches_of, write_candidates
from malletbean.manifest import (Command, Hunt, LevelFile, Observation, Program, SearchPass, read_manifest,
                                 write_manifest)
from malletbean.pictures import near
from malletbean.report import write_report
from malletbean.samples import Samples, fold_profile, path_sums_of
from malletbean.series import candidate_delays, write_level_series
from sky import DEVIATION, MEAN, Band, Burst, average_sky, make_sky, search

BAND = Band(64, 1400, -300, 256)
BURSTS = (Burst(0.5, 80, 0.001, 30), Burst(1.0, 150, 0.002, 14), Burst(1.5, 40, 0.004, 18), Burst(2.0, 120, 0.001, 11))
IMPULSES = ((6000, 4, 2.5, 0, 64),)
PERIOD, ROWS = 593, 16
CHROMIUM = shutil.which("chromium")


@pytest.fixture(scope="module")
def folder(tmp_path_factory: pytest.TempPathFactory) -> str:
    """The folder of a hunt after its searches: two averagings of one sky, and a fold; channel 3 is masked."""
    place = tmp_path_factory.mktemp("hunt")
    pulsar = PERIOD * BAND.seconds, Burst(0.05, 80, 0.004, 4)
    make_sky(place / "k1.dada", BAND, 12288, BURSTS, IMPULSES, pulsar=pulsar)
    mask_channel(place / "k1.dada", 3)
    average_sky(place / "k1.dada", place / "k4.dada", BAND, 4)
    mask_channel(place / "k4.dada", 3)
    levels, searches = [], []
    for times in (1, 4):
        name = f"k{times}"
        delay = int(BAND.delay(200) / BAND.seconds / times)
        (place / f"{name}.text").write_text(search(str(place / f"{name}.dada"), 6.5, 1, delay))
        levels.append(LevelFile(times, False, f"{name}.dada", f"psr_level > {name}.dada", 1024, 12288 // times, MEAN,
                                DEVIATION))
        searches.append(SearchPass(name, times, False, f"{name}.dada", f"{name}.text", 1, 0, delay, 0, 200, MEAN,
                                   DEVIATION, 6.5, 12288 // times))
    (place / "folds.text").write_text(fold_text(str(place / "k1.dada")))
    searches.append(SearchPass("folds", 1, False, "k1.dada", "folds.text", 1, 280, 280, 77, 78, MEAN, DEVIATION, 6.5,
                               12288, PERIOD, PERIOD, 4, 1))
    sky = Observation((str(place / "k1.dada"),), "J0000+0000", "Effelsberg", 1400, -300, 64, 1, 8, 256e-6,
                      "2024-01-02-03:04:05", 60311.1278, 12288)
    write_manifest(str(place), Hunt(
        1, ("sky.dada", "--dm", "0", "200"), ("sky <&>.dada",), sky, "3", False, None, 6.5, 0, 200, tuple(levels),
        tuple(searches), plan="level  averaged\nk1     1",
        programs=(Program("psr_search", "/bin/psr_search", "ab" * 32),),
        commands=(Command("k1", "psr_search --mean 64 <k1.dada >k1.text", 1.25, 0),)))
    return str(place)


def mask_channel(path: Path, channel: int) -> None:
    """Writes the mean into a channel."""
    data = np.frombuffer(path.read_bytes(), np.uint8).copy()
    data[4096:].reshape(-1, 64)[:, channel] = MEAN
    path.write_bytes(data.tobytes())


def fold_text(path: str) -> str:
    """The text of one fold."""
    samples, delay = Samples([path]), 280
    profile = fold_profile(path_sums_of(samples, delay, PERIOD * ROWS), PERIOD, ROWS, 0)
    phase, cells = int(profile.argmax()), int(cells_by_delay(samples.header, np.array([delay]))[0]) * ROWS
    return (f"FOLD {delay} {samples.header.dm(delay):.3f} {PERIOD} {ROWS} 0 {phase} {profile[phase]} {cells}\n"
            f"END 0 1 {samples.spectra}\n")


@pytest.fixture(scope="module")
def table(folder: str) -> Array:
    """The candidates, as they were written."""
    return write_candidates(folder)


@pytest.fixture(scope="module")
def report(folder: str, table: Array) -> str:
    """The page."""
    write_report(folder, most=3)
    return (Path(folder) / "report.html").read_text()


def test_files_of_candidates(folder: str, table: Array) -> None:
    place = Path(folder)
    with open(place / "candidates.csv", encoding="ascii", newline="") as file:
        rows = list(csv.DictReader(file))
    assert list(rows[0])[:13] == ["snr", "dm", "dm_error", "time_top", "time_foot", "mjd_infinite", "utc_top",
                                  "width_ms", "width", "delay", "averaged", "lines", "flag"]
    assert len(rows) == len(table) and [float(row["snr"]) for row in rows] == pytest.approx(table["snr"], abs=0.001)
    for burst in BURSTS:
        near_it = [row for row in rows if abs(float(row["time_top"]) - burst.time) < 0.01
                   and abs(float(row["dm"]) - burst.dm) < 5]
        assert len(near_it) == 1 and near_it[0]["flag"] == ""
    assert [row["flag"].split()[0] for row in rows if float(row["dm"]) < 2] == ["dm0"]
    first = rows[0]
    day, fraction = first["mjd_infinite"].split(".")
    assert day == "60311" and len(fraction) == 12
    assert float("0." + fraction) == pytest.approx(float(table["mjd_infinite"][0]) % 1, abs=1e-10)


def test_candidates_below_the_least_dm(folder: str, table: Array, tmp_path: Path) -> None:
    """They are left out, whatever the searches begin at."""
    shutil.copytree(folder, tmp_path / "a")
    place = str(tmp_path / "a")
    write_manifest(place, replace(read_manifest(place), dm_low=60))
    kept = write_candidates(place)
    assert (table["dm"] < 2).any() and (kept["dm"] > 2).all()
    assert {burst.dm for burst in BURSTS if burst.dm > 60} == {
        burst.dm for burst in BURSTS if (np.abs(kept["dm"] - burst.dm) < 5).any()}


def test_the_schema(folder: str, table: Array) -> None:
    """Each property is there, and nothing else, and has a type that the schema names."""
    schema = json.loads((HERE.parent.parent / "docs" / "candidates.schema.json").read_text())
    found = json.loads((Path(folder) / "candidates.json").read_text())
    assert sorted(found) == sorted(schema["required"]) and found["version"] == schema["properties"]["version"]["const"]
    row = schema["properties"]["candidates"]["items"]
    kinds = {"number": (int, float), "integer": int, "string": str, "boolean": bool, "null": type(None), "array": list}
    assert len(found["candidates"]) == len(table)
    for one in found["candidates"]:
        assert sorted(one) == sorted(row["properties"]) == sorted(row["required"])
        for name, value in one.items():
            kind = row["properties"][name]["type"]
            allowed = [kind] if isinstance(kind, str) else kind
            assert any(isinstance(value, kinds[one_kind]) for one_kind in allowed), name
        assert set(one["flag"]) <= set(row["properties"]["flag"]["items"]["enum"])


def test_columns_of_heimdall_and_presto(folder: str, table: Array) -> None:
    cand = np.loadtxt(Path(folder) / "candidates.cand", ndmin=2)
    assert cand.shape == (len(table), 9)
    assert cand[:, 0] == pytest.approx(table["snr"], abs=1e-4) and cand[:, 5] == pytest.approx(table["dm"], abs=1e-3)
    assert (2 ** cand[:, 3] == table["width"] * table["averaged"]).all()
    assert (np.abs(cand[:, 1] * BAND.seconds - table["time_top"]) <= BAND.seconds).all()
    assert (cand[:, 7] <= cand[:, 1]).all() and (cand[:, 8] > cand[:, 1]).all()
    assert (cand[:, 8] - cand[:, 7] == 2 ** cand[:, 3]).all()
    presto = np.loadtxt(Path(folder) / "candidates.singlepulse", ndmin=2)
    assert (presto[:, 3] == cand[:, 1]).all() and (presto[:, 4] == 2 ** cand[:, 3]).all()
    assert presto[:, 2] == pytest.approx(presto[:, 3] * BAND.seconds, abs=1e-6)


def test_what_lies_around_a_candidate(folder: str, table: Array) -> None:
    """In the middle stands the S/N of the candidate, and it is the greatest at its DM and time."""
    hunt = read_manifest(folder)
    for one in searches_of(folder, hunt):
        samples = Samples([str(Path(folder) / f"{one.name}.dada")], hunt.mask)
        for row in table[table["search"] == one.name]:
            around = near(samples, one, row)
            place = int(np.flatnonzero(around.delays == row["delay"])[0])
            assert around.ratios[place] == pytest.approx(row["snr"], rel=1e-4)
            if row["snr"] > 14:
                assert around.ratios.argmax() == place
                assert around.times[:-1][around.profile.argmax()] == pytest.approx(0, abs=2 * around.width)
            assert np.isnan(around.waterfall).all(axis=1).tolist() == [number == 3 for number in range(64)]


def test_the_report_asks_nothing_of_a_network(report: str) -> None:
    links = re.findall(r"""(?:src|href|url)\s*[=(]\s*["']?([^"'\s>)]*)""", report)
    assert links and all(link.startswith(("data:", "#")) for link in links)
    assert "@import" not in report and "fetch(" not in report
    assert report.count("data:image/png;base64,") == 1 + 3 + 1


def test_what_the_report_says(report: str, table: Array) -> None:
    for text in ("J0000+0000", "sky &lt;&amp;&gt;.dada", "psr_hunt sky.dada --dm 0 200",
                 "psr_search --mean 64 &lt;k1.dada", "ab" * 32, "1.25", "level  averaged", "Mask</th><td>3",
                 f"{PERIOD * BAND.seconds * 1000:.6f} ms",
                 f" at {PERIOD * BAND.seconds * 1000:.6g} ms</b><span>strongest fold"):
        assert text in report, text
    assert report.count("<tr data-snr") == len(table)
    assert all(f'id="candidate-{number}"' in report for number in (1, 2, 3))
    assert 'href="#candidate-4"' not in report


def test_a_report_of_nothing(folder: str, tmp_path: Path) -> None:
    shutil.copytree(folder, tmp_path / "a")
    for name in ("k1", "k4", "folds"):
        spectra = header(str(tmp_path / "a" / "k1.dada")).spectra
        (tmp_path / "a" / f"{name}.text").write_text(f"END 0 0 {spectra}\n")
    assert len(write_candidates(str(tmp_path / "a"))) == 0
    write_report(str(tmp_path / "a"))
    text = (tmp_path / "a" / "report.html").read_text()
    assert "There is no candidate." in text and "strongest fold" not in text


def test_series_of_candidates(folder: str, table: Array) -> None:
    hunt = read_manifest(folder)
    names = [name for level in candidate_delays(hunt, table, 2) for name in write_level_series(folder, hunt.mask, *level)]
    assert 1 <= len(names) <= 2
    for name in names:
        values = np.fromfile(f"{name}.dat", "<f4")
        assert (values.max() - values.mean()) / values.std() > 5 and Path(f"{name}.inf").exists()


# what a person does to the page, and what is then shown
ACTS = """
<script>window.faults = []; window.addEventListener("error", event => window.faults.push(event.message));</script>
"""
TRIES = """
<script>
const shown = name => Array.from(document.querySelectorAll("#candidates tbody tr")).filter(row => !row.hidden)
  .map(row => row.cells[name].dataset.value);
const set = (id, value) => { const box = document.getElementById(id);
  if (box.type === "checkbox") box.checked = value; else box.value = value; box.dispatchEvent(new Event("input")); };
const head = number => document.querySelectorAll("#candidates thead th")[number];
const seen = { first: shown(1) };
head(2).click(); seen.falling = shown(2);
head(2).click(); seen.rising = shown(2);
head(9).click(); seen.words = shown(9);
set("least-snr", 12); seen.snr = shown(1);
set("least-snr", ""); set("least-dm", 50); set("most-dm", 100); seen.dm = shown(2);
set("least-dm", ""); set("most-dm", ""); set("no-flags", true); seen.flags = shown(10);
set("no-flags", false); set("some-text", "k4"); seen.text = shown(9);
seen.count = document.getElementById("shown").textContent;
seen.pictures = Array.from(document.images).map(image => image.complete && image.naturalWidth > 300);
seen.faults = window.faults;
const out = document.createElement("pre");
out.id = "seen"; out.textContent = JSON.stringify(seen);
document.body.append(out);
</script>
"""


@pytest.mark.skipif(CHROMIUM is None, reason="chromium is not there")
def test_the_report_in_a_browser(report: str, table: Array, tmp_path: Path) -> None:
    """It loads without a fault and without a request, sorts and filters, and shows its pictures."""
    page = tmp_path / "page.html"
    # pictures that are not in view would be loaded later
    tried = report.replace("<head>", f"<head>{ACTS}").replace(' loading="lazy"', "")
    page.write_text(tried.replace("</body>", f"{TRIES.replace('<script>', '<script defer>')}</body>"))
    answer = subprocess.run(
        [str(CHROMIUM), "--headless", "--no-sandbox", "--disable-gpu", f"--user-data-dir={tmp_path}/profile",
         "--host-resolver-rules=MAP * ~NOTFOUND", "--enable-logging=stderr", "--dump-dom", page.as_uri()],
        capture_output=True, text=True, timeout=180)
    assert "CONSOLE" not in answer.stderr
    match = re.search(r'<pre id="seen">(.*?)</pre>', answer.stdout, re.DOTALL)
    assert match is not None
    seen = json.loads(match[1])
    ratios = [float(text) for text in seen["first"]]
    assert len(ratios) == len(table) and ratios == sorted(ratios, reverse=True)
    falling, rising = ([float(text) for text in seen[name]] for name in ("falling", "rising"))
    assert falling == sorted(falling, reverse=True) and rising == sorted(rising)
    assert seen["words"] == sorted(seen["words"], reverse=True)
    assert [float(text) for text in seen["snr"]] and all(float(text) >= 12 for text in seen["snr"])
    assert len(seen["snr"]) == (table["snr"] >= 12).sum()
    assert seen["dm"] and all(50 <= float(text) <= 100 for text in seen["dm"])
    assert set(seen["flags"]) == {""}
    assert set(seen["text"]) == {"k4"} and seen["count"] == str(len(seen["text"]))
    assert seen["pictures"] == [True] * 5
    assert seen["faults"] == []
