"""Which candidates are strong in a part of the band alone."""
from __future__ import annotations

import numpy as np
import pytest

from malletbean.bands import PARTS, is_narrow, strengths, with_flag
from malletbean.headers import header_of
from malletbean.paths import box_noise_cells, delay_paths, shared_cells
from malletbean.samples import path_sums


@pytest.mark.parametrize("width", [-400, 400])
def test_strengths_add_up_to_the_box(width: int) -> None:
    fields = {"NCHAN": "32", "NBIT": "8", "TSAMP": "64", "FREQ": "1382", "BW": str(width)}
    head = header_of("file", fields, 4096, 32 * 200).without("3,10-11")
    values = np.random.default_rng(1).integers(0, 40, (200, 32, 1)).astype(np.uint8)
    falling = values[:, :, 0] if width < 0 else values[:, ::-1, 0]
    spectra = falling.astype(np.int64)
    spectra[:, list(head.masked)] = 14
    entries = delay_paths(head.edges_khz, np.array([70]))[:, 0]
    for end, box in ((120, 1), (150, 4), (199, 8)):
        above, variances = strengths(values, head, entries, (end, box), (14.0, 2.8))
        sums = path_sums(spectra, entries)[end - 70 - box + 1:end - 70 + 1]
        assert above.sum() == pytest.approx((sums - 14 * (32 + 70)).sum())
        assert len(above) == len(variances) == 29
        cells = np.diff(entries)[head.kept] + 1
        assert variances.sum() == pytest.approx(2.8**2 * box_noise_cells(shared_cells(cells), box))


def test_what_is_narrow() -> None:
    generator = np.random.default_rng(2)
    noise, variances = generator.standard_normal((400, 1024)), np.ones(1024)
    whole = noise + 8 / 32
    part = noise.copy()
    part[:, 300:364] += 8 / 8
    assert sum(is_narrow(one, variances) for one in whole) <= 4
    assert sum(is_narrow(one, variances) for one in part) >= 370
    # half of the band
    half = noise.copy()
    half[:, 512:] += 12 / np.sqrt(512)
    assert sum(is_narrow(one, variances) for one in half) < 200
    for channels in (2, 3, PARTS, PARTS + 1):
        assert not is_narrow(np.full(channels, 9.0), np.ones(channels))


def test_flags_are_added() -> None:
    flags = with_flag(np.array(["", "dm0", "dm0"], "U32"), [True, True, False], "narrow")
    assert flags.tolist() == ["narrow", "dm0 narrow", "dm0"]
