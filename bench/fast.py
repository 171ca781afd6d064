#!/usr/bin/python3
"""What `psr_level --fast` costs and gains: fast.py [BINDIR]

BINDIR has psr_level and psr_search; without it they are those of the PATH. Noise over an uneven band, with pulses of a
known strength on delay paths, is levelled with the default and with --fast, and both files are searched with the mean
and deviation that they have. A row for each number of channels: how many pulses the default finds, the S/N with --fast
to that (mean and least), and the least time of the search to that of the default. The files lie in memory (/dev/shm).
"""
from __future__ import annotations

import os
import subprocess
import sys
import tempfile
import time

import numpy as np

sys.path.insert(0, os.path.join(os.path.dirname(os.path.abspath(__file__)), "..", "companions"))

from malletbean.headers import edge_khz  # noqa: E402
from malletbean.paths import delay_paths  # noqa: E402

FREQ, BAND = 1382, 400
DELAYS, WIDTHS = (100, 300, 700), (1, 4, 16)
SNR, SEEDS, STRETCH = 12.0, 3, 4096
# channels and spectra
SHAPES = ((64, 65536), (256, 32768), (1024, 16384))
WAYS: dict[str, list[str]] = {"default": [], "fast": ["--fast"]}


def made(path: str, channels: int, spectra: int, seed: int) -> list[tuple[int, int]]:
    """Makes an observation, and answers where its pulses end and their delays."""
    random = np.random.default_rng(seed)
    edges = tuple(edge_khz(FREQ * 1000000, BAND * 1000000, channels, number) for number in range(channels + 1))
    paths = delay_paths(edges, np.array(DELAYS))
    gain = 1 + 0.3 * np.sin(5 * np.arange(channels) / channels)
    noise = random.standard_normal((spectra, channels)).astype(np.float32)
    pulses, at = list[tuple[int, int]](), 1200
    for number, delay in enumerate(DELAYS):
        for width in WIDTHS:
            if at + delay + width > spectra:
                break
            for channel in range(channels):
                begin = at + paths[channel, number]
                noise[begin:begin + width, channel] += SNR / np.sqrt(channels * width)
            pulses.append((at + delay + width - 1, delay))
            at += delay + 600
    header = (f"HDR_SIZE 4096\nNCHAN {channels}\nNBIT 8\nTSAMP 64\nFREQ {FREQ}\nBW {-BAND}\n"
              "UTC_START 2024-01-02-03:04:05\n").encode()
    with open(path, "wb") as file:
        file.write(header.ljust(4096, b"\0"))
        file.write(np.clip(np.rint(gain * (100 + 20 * noise)), 0, 255).astype(np.uint8).tobytes())
    return pulses


def searched(psr_search: str, path: str, channels: int, pulses: list[tuple[int, int]]) -> tuple[list[float], float]:
    """The greatest S/N beside each pulse, or 0 if nothing is found there, and how long a search takes."""
    samples = np.fromfile(path, np.uint8, offset=4096)[:STRETCH * channels]
    mean, deviation = samples.mean(), samples.std()
    words = [psr_search, "--mean", f"{mean:.3f}", "--sd", f"{deviation:.3f}", "--snr", "6.5", "--widths", "32",
             "--max-delay", "740", "--max-candidates", "1000000", path]
    times = list[float]()
    for _ in range(3):
        begun = time.monotonic()
        text = subprocess.run(words, capture_output=True, check=True, text=True).stdout
        times.append(time.monotonic() - begun)
    lines = np.array([[int(line.split()[place]) for place in (1, 2, 5, 6)]
                      for line in text.splitlines() if line.startswith("PULSE")])
    strength = (lines[:, 2] - mean * lines[:, 3]) / (deviation * np.sqrt(lines[:, 3]))
    near = [(abs(lines[:, 0] - end) < 40) & (abs(lines[:, 1] - delay) < 40) for end, delay in pulses]
    return [float(strength[one].max(initial=0)) for one in near], min(times)


def main() -> None:
    """Prints the table."""
    psr_level, psr_search = (os.path.join(sys.argv[1], name) if sys.argv[1:] else name
                             for name in ("psr_level", "psr_search"))
    print("| Channels | Pulses | S/N to the default: mean, least | Time to the default |\n|---|---|---|---|")
    with tempfile.TemporaryDirectory(dir="/dev/shm") as folder:
        raw, level = os.path.join(folder, "raw.dada"), os.path.join(folder, "level.dada")
        for channels, spectra in SHAPES:
            ratios, times = list[float](), dict.fromkeys(WAYS, float("inf"))
            for seed in range(SEEDS):
                pulses, found = made(raw, channels, spectra, seed), dict[str, list[float]]()
                for way, options in WAYS.items():
                    with open(level, "wb") as file:
                        subprocess.run([psr_level, "--spectra", str(STRETCH), *options, raw], stdout=file, check=True)
                    found[way], took = searched(psr_search, level, channels, pulses)
                    times[way] = min(times[way], took)
                ratios += [fast / plain for fast, plain in zip(found["fast"], found["default"]) if plain > 0]
            print(f"| {channels} | {len(ratios)} | {np.mean(ratios):.3f}, {min(ratios):.3f} "
                  f"| {times['fast'] / times['default']:.2f} |", flush=True)


if __name__ == "__main__":
    main()
