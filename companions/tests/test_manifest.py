"""The description of a hunt, written and read again."""
from __future__ import annotations

from dataclasses import replace
from pathlib import Path

import pytest

from malletbean.manifest import (Burst, Command, Hunt, LevelFile, Observation, Program, Raised, SearchPass,
                                 read_manifest, write_manifest)
from malletbean.refusal import Refusal

SKY = Observation(paths=("/data/a.dada",), source="B0329+54", telescope="", freq=1382.0, bw=-400.0, nchan=1024, npol=1,
                  nbit=8, tsamp=64e-6, utc_start="2024-01-02-03:04:05", mjd_start=60311.12, spectra=1000)
LEVEL = LevelFile(average=2, zero_dm=True, path="k2.dada", command="psr_level ..", stretch=512, spectra=500)
PASS = SearchPass(name="k2", average=2, zero_dm=True, level="k2.dada", output="k2.text", widths=2, min_delay=0,
                  max_delay=256, dm_low=0.0, dm_high=25.0, mean=14.0, sd=2.8, snr=6.3, spectra=500,
                  raised=(Raised(0, 250, 12.0),))
HUNT = Hunt(version=1, arguments=("a.dada", "--dm", "0", "25"), inputs=("/data/a.dada",), observation=SKY, mask="3,5-7",
            zero_dm=True, clip=None, snr=6.3,
            bursts=(Burst(1.0, 1.01, 0, 64, 30.0),), dm_low=0.0, dm_high=25.0, levels=(LEVEL,), searches=(PASS,),
            programs=(Program("psr_search", "/usr/bin/psr_search", "00"),), commands=(Command("k2", "line", 1.5, 0),),
            form=("--signed",), states=(("/data/a.dada", 5096, 17),))


def test_it_is_read_as_it_was_written(tmp_path: Path) -> None:
    for hunt in (HUNT, replace(HUNT, mask="none", searches=(), clip=5.0)):
        write_manifest(str(tmp_path), hunt)
        assert read_manifest(str(tmp_path)) == hunt
    assert HUNT.level(PASS) is LEVEL


@pytest.mark.parametrize("text", ["", "{", "[]", '{"version": 2}', '{"version": 1, "observation": {}}'])
def test_another_file_is_refused(tmp_path: Path, text: str) -> None:
    (tmp_path / "hunt.json").write_text(text)
    with pytest.raises(Refusal, match="hunt.json refused"):
        read_manifest(str(tmp_path))
