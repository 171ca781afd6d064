"""Observations as `psr_make` makes them, by numpy."""
from __future__ import annotations

import shutil
import subprocess
from pathlib import Path

import numpy as np
import pytest

from malletbean.headers import header
from malletbean.paths import delay_paths

needs_level = pytest.mark.skipif(shutil.which("psr_level") is None, reason="psr_level is not on the PATH")
HEADER = """HDR_VERSION 1.0
HDR_SIZE 4096
INSTRUMENT psr_make
NCHAN {channels}
NBIT {bits}
NPOL {polarisations}
NDIM 1
TSAMP 64
FREQ 1382
BW {width}
UTC_START 2024-01-02-03:04:05
OBS_OFFSET 0
"""


def noise(number: int, count: int) -> np.ndarray:
    """How many of the low 32 bits are set in each of the first words of SplitMix64, seeded with a number."""
    with np.errstate(over="ignore"):
        word = np.uint64(number) + np.arange(1, count + 1, dtype=np.uint64) * np.uint64(0x9E3779B97F4A7C15)
        for shift, factor in ((30, 0xBF58476D1CE4E5B9), (27, 0x94D049BB133111EB)):
            word = (word ^ word >> np.uint64(shift)) * np.uint64(factor)
    low = (word ^ word >> np.uint64(31)).astype(np.uint32)
    return np.unpackbits(low.view(np.uint8)).reshape(count, 32).sum(axis=1)


def make(path: Path, number: int = 0, channels: int = 64, spectra: int = 4096, delay: int = 64, period: int = 256,
         height: int = 2, bits: int = 8, polarisations: int = 1, width: int = -400) -> np.ndarray:
    """Makes a file, and answers its samples: spectra in rows, polarisations added, the highest channel first.

    With a positive width, the same samples stand in a band whose lowest channel comes first.
    """
    text = HEADER.format(channels=channels, bits=bits, polarisations=polarisations, width=width)
    path.write_bytes(text.encode().ljust(4096, b"\0"))
    entries = delay_paths(header(str(path)).edges_khz, np.array([delay]))[:, 0]
    values = noise(number, spectra * channels * polarisations).reshape(spectra, channels, polarisations)
    is_on = np.zeros((spectra, channels, 1), bool)
    for start in range(0, spectra - delay, period):
        for channel in range(channels):
            is_on[start + entries[channel]:start + entries[channel + 1] + 1, channel] = True
    values = values + height * is_on
    ordered = values if width < 0 else values[:, ::-1]
    with path.open("ab") as file:
        file.write(ordered.astype(f"<u{bits // 8}").tobytes())
    return values.sum(axis=2)


def level(path: Path | str, out: Path | str, *words: str) -> str:
    """Makes the file that psr_level writes of another, and answers its name."""
    Path(out).write_bytes(levelled(str(path), *words))
    return str(out)


def levelled(*words: str) -> bytes:
    """What psr_level writes."""
    return subprocess.run(["psr_level", *words], stdout=subprocess.PIPE, check=True).stdout
