#!/usr/bin/python3
"""How well psr_hunt finds: hunt.py [FOLDER] [--receivers K ..] [--seeds N ..] [--low] [ARGUMENT ..]; what it does not
know goes to psr_hunt.

Filterbanks of three receivers are made in FOLDER (a temporary one): noise in an uneven band that drifts, with bad
channels, bursts of interference in all channels and in some, thirty pulses and two pulsars. Pulses follow the exact
dispersion law, are swept within each channel, and last as long at each frequency. Their S/N is the greatest that any
weighted sum of the good channels has. psr_hunt searches each file, and a pulse counts as found if a candidate without a
flag has its DM and time. A candidate without a flag that is none of these is false. The programs are those on the PATH.
--low makes pulses that a zero-DM filter weakens: of low DMs, and wide.
"""
from __future__ import annotations

import argparse
import csv
import os
import resource
import struct
import subprocess
import sys
import tempfile
import time
from dataclasses import dataclass, field
from typing import BinaryIO

import numpy as np

HERE = os.path.dirname(os.path.abspath(__file__))
sys.path[:0] = [HERE, os.path.join(HERE, "..", "companions")]

import sensitivity  # noqa: E402
from malletbean.arrays import Array  # noqa: E402

PULSES, BURSTS, BAD = 30, 24, 6
DMS, WIDTHS, RATIOS = (20.0, 2500.0), (0.5e-3, 30e-3), (6.0, 50.0)
LOW_DMS, LOW_WIDTHS = (10.0, 100.0), (5e-3, 30e-3)
# the mean of a channel where the band is strongest, and how many deviations of noise it is
TOP_MEAN, TIMES_DEVIATION = 96.0, 8.0
PIECE = 4096
# of pulsars: period in s, DM, width as a part of the period, and the S/N of a pulse
PULSARS = ((0.412, 67.0, 0.02, 3.0), (0.973, 180.0, 0.015, 4.0))
# a candidate has the DM and the time of a pulse if its delay across the band, and its time at the top and the foot, are
# off by less than so many widths and so many of its own spectra
WIDTHS_OFF, SPECTRA_OFF = 2.0, 8.0
DISPERSION = 1 / 2.41e-4


@dataclass(frozen=True)
class Receiver:
    """A band in MHz, the seconds of a spectrum, and the seconds that are recorded."""

    name: str
    channels: int
    centre: float
    width: float
    sample: float
    length: float

    @property
    def spectra(self) -> int:
        """How many spectra are recorded."""
        return int(self.length / self.sample)

    def delay(self, dm: float) -> float:
        """The delay of a dispersion measure across the band in seconds."""
        top, foot = self.centre + self.width / 2, self.centre - self.width / 2
        return float(dm * DISPERSION * (foot**-2 - top**-2))


RECEIVERS = (
    Receiver("1182 to 1582 MHz, 1024 channels, 64 us", 1024, 1382, 400, 64e-6, 64),
    Receiver("400 to 800 MHz, 1024 channels, 983 us", 1024, 600, 400, 983.04e-6, 256),
    Receiver("856 to 1712 MHz, 512 channels, 306 us", 512, 1284, 856, 306.24e-6, 128),
)


@dataclass(frozen=True)
class Pulse:
    """A pulse: DM, width in s, S/N, and the time at which its middle is at the top of the band."""

    dm: float
    width: float
    ratio: float
    time: float
    is_pulsar: bool = False


@dataclass
class Sky:
    """What is in a file besides noise: pulses, and channels that are bad."""

    pulses: list[Pulse]
    bad: Array
    # of each pulse its samples, a row of each channel from the highest down, and the spectrum with which a row begins
    shapes: list[tuple[Array, Array]] = field(default_factory=list)


def sky_of(receiver: Receiver, generator: np.random.Generator, is_low: bool = False) -> Sky:
    """Pulses and bad channels by chance."""
    def among(low: float, high: float) -> float:
        return float(np.exp(generator.uniform(np.log(low), np.log(high))))

    dms, widths = (LOW_DMS, LOW_WIDTHS) if is_low else (DMS, WIDTHS)
    pulses = []
    for _ in range(PULSES):
        dm, width, ratio = among(*dms), among(*widths), among(*RATIOS)
        # a pulse that lasts a part of a spectrum can't be told from one that lasts all of it
        width = max(width, receiver.sample / 2)
        last = receiver.length - receiver.delay(dm) - 1
        pulses.append(Pulse(dm, width, ratio, generator.uniform(0.5, last)))
    for period, dm, part, ratio in PULSARS:
        times = np.arange(generator.uniform(0.1, period), receiver.length - receiver.delay(dm) - 0.1, period)
        pulses += [Pulse(dm, part * period, ratio, float(one), True) for one in times]
    sky = Sky(pulses, generator.choice(receiver.channels, BAD, replace=False))
    for pulse in pulses:
        sky.shapes.append(shape_of(receiver, pulse, sky.bad))
    return sky


def shape_of(receiver: Receiver, pulse: Pulse, bad: Array) -> tuple[Array, Array]:
    """The samples of a pulse in deviations of the noise, and the spectra with which they begin."""
    model = sensitivity.Receiver("", receiver.channels, receiver.centre, receiver.width, ())
    reached = sensitivity.arrivals(model, receiver.delay(pulse.dm) / receiver.sample)
    begin = (pulse.time - pulse.width / 2) / receiver.sample
    samples, first = sensitivity.pulse(reached, pulse.width / receiver.sample, begin % 1, 0)
    samples[bad] = 0
    return samples * (pulse.ratio / np.sqrt((samples**2).sum())), first + int(begin)


def noise_piece(receiver: Receiver, sky: Sky, begin: int, count: int, bursts: Array,
                generator: np.random.Generator) -> Array:
    """So many spectra in deviations of the noise, with pulses and interference."""
    values = generator.standard_normal((count, receiver.channels), np.float32)
    for samples, first in sky.shapes:
        if first[0] > begin + count or first[-1] + samples.shape[1] < begin:
            continue
        rows = first[:, None] + np.arange(samples.shape[1]) - begin
        inside = (rows >= 0) & (rows < count)
        channels = np.broadcast_to(np.arange(receiver.channels)[:, None], rows.shape)
        values[rows[inside], channels[inside]] += samples[inside].astype(np.float32)
    for start, length, low, high, height in bursts:
        values[max(0, int(start) - begin):max(0, int(start + length) - begin), int(low):int(high)] += height
    times = (begin + np.arange(count)) * receiver.sample
    for number, channel in enumerate(sky.bad):
        # a tone that comes and goes, a channel that is dead, and one with more noise
        if number % 3 == 0:
            values[:, channel] += 4 * (np.sin(2 * np.pi * times / (0.3 + number)) > 0.3)
        elif number % 3 == 1:
            values[:, channel] *= 2.2
        else:
            values[:, channel] = 0
    return values


def bursts_of(receiver: Receiver, generator: np.random.Generator) -> Array:
    """Interference: begin and length in spectra, the channels, and the height in deviations."""
    found = []
    for number in range(BURSTS):
        begin, length = generator.uniform(0, receiver.spectra), generator.uniform(1e-3, 30e-3) / receiver.sample
        low, high = 0, receiver.channels
        if number % 2:
            low = int(generator.integers(0, receiver.channels - receiver.channels // 16))
            high = low + receiver.channels // 16
        found.append((begin, max(1, length), low, high, generator.uniform(0.3, 3)))
    return np.array(found)


def make(receiver: Receiver, sky: Sky, path: str, generator: np.random.Generator) -> None:
    """Writes the filterbank: 8 bits, the highest channel first."""
    place = np.linspace(-1, 1, receiver.channels)
    shape = (1 - 0.6 * place**4) * (1 + 0.08 * np.sin(23 * place))
    means = (TOP_MEAN * shape / shape.max()).astype(np.float32)
    bursts = bursts_of(receiver, generator)
    with open(path, "wb") as file:
        write_header(receiver, file)
        for begin in range(0, receiver.spectra, PIECE):
            count = min(PIECE, receiver.spectra - begin)
            values = noise_piece(receiver, sky, begin, count, bursts, generator)
            times = (begin + np.arange(count)) * receiver.sample
            drift = 1 + 0.04 * np.sin(2 * np.pi * times / 11) + 0.02 * np.sin(2 * np.pi * times / 2.3)
            values = means * (1 + values / TIMES_DEVIATION) * drift[:, None].astype(np.float32)
            file.write(np.clip(np.rint(values), 0, 255).astype(np.uint8).tobytes())


def write_header(receiver: Receiver, file: BinaryIO) -> None:
    """Writes the header of a SIGPROC filterbank."""
    def word(text: str) -> bytes:
        return struct.pack("<i", len(text)) + text.encode()

    step = receiver.width / receiver.channels
    values: list[tuple[str, str, float | int]] = [
        ("nchans", "i", receiver.channels), ("nbits", "i", 8), ("nifs", "i", 1), ("tsamp", "d", receiver.sample),
        ("fch1", "d", receiver.centre + receiver.width / 2 - step / 2), ("foff", "d", -step), ("tstart", "d", 60311.5)]
    file.write(word("HEADER_START") + word("source_name") + word("made"))
    for name, kind, value in values:
        file.write(word(name) + struct.pack(f"<{kind}", value))
    file.write(word("HEADER_END"))


@dataclass(frozen=True)
class Score:
    """What a hunt found: of pulses from an S/N on how many and of how many, false candidates, and its time and memory.
    """

    found: dict[int, tuple[int, int]]
    # among them those that have a flag alone
    flagged_pulses: int
    false: dict[float, int]
    flagged: int
    candidates: int
    seconds: float
    megabytes: float
    missed: list[Pulse]
    # of each pulse that was found, how many of its errors its DM is off
    errors: list[float]


def hunted(receiver: Receiver, sky: Sky, path: str, folder: str, words: list[str]) -> Score:
    """Hunts in a file, and compares the candidates with what is in it."""
    begun = time.monotonic()
    answer = subprocess.run([os.path.join(HERE, "..", "companions", "psr_hunt"), path, "--dm", "10", "2800", "-o",
                             folder, *words], stdout=subprocess.PIPE, text=True)
    seconds = time.monotonic() - begun
    if answer.returncode:
        sys.exit(f"psr_hunt ended with status {answer.returncode}")
    with open(os.path.join(folder, "candidates.csv"), encoding="utf-8", newline="") as file:
        rows = list(csv.DictReader(line for line in file if not line.startswith("#")))
    clean, flagged = [row for row in rows if not row["flag"]], [row for row in rows if row["flag"]]
    single = [(pulse, any(fits(receiver, pulse, row) for row in clean)) for pulse in sky.pulses if not pulse.is_pulsar]
    errors = [min(errors_off(pulse, row) for row in clean if fits(receiver, pulse, row)) for pulse, found in single
              if found]
    false = [row for row in clean if not any(fits(receiver, pulse, row) for pulse in sky.pulses)]
    return Score(
        found={least: (sum(found for pulse, found in single if pulse.ratio >= least),
                       sum(pulse.ratio >= least for pulse, _ in single)) for least in (8, 10)},
        false={least: sum(float(row["snr"]) >= least for row in false) for least in (0.0, 8.0)},
        flagged_pulses=sum(any(fits(receiver, pulse, row) for row in flagged) for pulse, found in single if not found),
        flagged=len(flagged), candidates=len(rows), seconds=seconds,
        megabytes=resource.getrusage(resource.RUSAGE_CHILDREN).ru_maxrss / 1000,
        missed=[pulse for pulse, found in single if not found and pulse.ratio >= 8], errors=errors)


def errors_off(pulse: Pulse, row: dict[str, str]) -> float:
    """How many of its errors the DM of a candidate is off."""
    return abs(float(row["dm"]) - pulse.dm) / float(row["dm_error"])


def fits(receiver: Receiver, pulse: Pulse, row: dict[str, str]) -> bool:
    """Whether a candidate has the DM and the time of a pulse."""
    own = max(float(row["width_ms"]) / 1000, pulse.width)
    spectra = SPECTRA_OFF * receiver.sample * int(row["averaged"])
    allowed = WIDTHS_OFF * own + spectra
    late = float(row["time_top"]) - pulse.time
    wide = receiver.delay(float(row["dm"])) - receiver.delay(pulse.dm)
    return abs(late) <= allowed and abs(late + wide) <= allowed and abs(wide) <= allowed


def main() -> None:
    """Prints a table, and the pulses that were missed."""
    parser = argparse.ArgumentParser(description=__doc__.splitlines()[0] if __doc__ else None)
    parser.add_argument("folder", nargs="?")
    parser.add_argument("--receivers", type=int, nargs="+", default=list(range(len(RECEIVERS))))
    parser.add_argument("--seeds", type=int, nargs="+", default=[1])
    parser.add_argument("--low", action="store_true")
    asked, words = parser.parse_known_args()
    with tempfile.TemporaryDirectory(prefix="hunt.") as made:
        folder = asked.folder or made
        print("| Receiver | S/N 10 and more | 8 and more | flagged alone | false candidates an hour | of S/N 8 "
              "| flagged | DM within 1 error, 3 errors | time | memory |")
        print("|---|---|---|---|---|---|---|---|---|---|")
        missed = []
        for number in asked.receivers:
            for seed in asked.seeds:
                receiver = RECEIVERS[number]
                name = f"{number}-{seed}{'-low' if asked.low else ''}"
                score = tried(receiver, folder, name, np.random.default_rng([seed, number]), words, asked.low)
                near = [sum(error <= most for error in score.errors) for most in (1, 3)]
                hours = receiver.length / 3600
                print(f"| {receiver.name}, {receiver.length:g} s | {score.found[10][0]} of {score.found[10][1]} | "
                      f"{score.found[8][0]} of {score.found[8][1]} | {score.flagged_pulses} | "
                      f"{score.false[0.0] / hours:.0f} | "
                      f"{score.false[8.0] / hours:.0f} | {score.flagged} of {score.candidates} | "
                      f"{near[0]}, {near[1]} of {len(score.errors)} | {score.seconds:.0f} s | "
                      f"{score.megabytes:.0f} MB |", flush=True)
                missed += [(receiver.name, pulse) for pulse in score.missed]
        for name, pulse in missed:
            print(f"missed: {name}: S/N {pulse.ratio:.1f}, DM {pulse.dm:.1f}, {pulse.width * 1000:.2f} ms, at "
                  f"{pulse.time:.3f} s")


def tried(receiver: Receiver, folder: str, name: str, generator: np.random.Generator, words: list[str],
          is_low: bool) -> Score:
    """Makes a file, if it is not there yet, and hunts in it."""
    path = os.path.join(folder, f"{name}.fil")
    sky = sky_of(receiver, generator, is_low)
    if not os.path.exists(path):
        make(receiver, sky, path, generator)
    out = tempfile.mkdtemp(prefix=f"{name}-", dir=folder)
    return hunted(receiver, sky, path, os.path.join(out, "hunt"), words)


if __name__ == "__main__":
    main()
