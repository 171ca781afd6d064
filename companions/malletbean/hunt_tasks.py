"""The jobs of a hunt, each a line for a shell that leaves one output, and those of them that make levels."""
from __future__ import annotations

import math
import os
import shlex
from dataclasses import dataclass, replace

import numpy as np

from .asked import program_at
from .cluster import scripts
from .headers import Header
from .hunt_cost import level_seconds
from .hunt_plan import LEVEL_MEAN, LEVEL_MOST
from .jobs import Job, write_jobs
from .manifest import Hunt, LevelFile
from .refusal import HEADER, Refusal, bytes_of
from .samples import Samples

# from how many pieces of a level its noise is measured, and from how many megabytes
PIECES, MEASURED_BYTES = 32, 2**24


@dataclass(frozen=True)
class Task:
    """A job: what it is called, the file that it leaves, its line, how many seconds of a core it may take, and the
    folder of the plan that lists it."""

    name: str
    output: str
    line: str
    seconds: float
    plan: str

    @property
    def is_done(self) -> bool:
        """Whether the output is there, which is whole then."""
        return os.path.exists(self.output)

    @property
    def fault(self) -> str:
        """What the job said on standard error, if it failed."""
        path = os.path.splitext(self.output)[0] + ".error"
        if not os.path.exists(path):
            return "it left no output"
        return bytes_of(path).decode(errors="replace").strip() or "it left no output"


def level_task(folder: str, hunt: Hunt, level: LevelFile, head: Header) -> Task:
    """The job that makes a level."""
    output = os.path.join(folder, level.path)
    words = [os.path.join(scripts(), "part"), output, "--", program_at("psr_level"), *level_words(folder, hunt, level)]
    return Task(level.path, output, shlex.join(words), level_seconds(head), os.path.dirname(output))


def level_tasks(folder: str, hunt: Hunt, head: Header) -> list[Task]:
    """The jobs that make the levels."""
    tasks = [level_task(folder, hunt, level, head) for level in hunt.levels]
    os.makedirs(os.path.join(folder, "levels"), exist_ok=True)
    write_jobs(os.path.join(folder, "levels"), [Job(task.name, task.line) for task in tasks])
    return tasks


def level_words(folder: str, hunt: Hunt, level: LevelFile) -> list[str]:
    """The words of psr_level for a level, where the observation is seen from a folder."""
    words = ["--fast", "--most", str(LEVEL_MOST), "--average", str(level.average), "--spectra", str(level.stretch)]
    if hunt.mask != "none":
        words += ["--mask", hunt.mask]
    if hunt.clip is not None and level.zero_dm:
        words += ["--clip", f"{hunt.clip:g}"]
    if level.zero_dm:
        words.append("--zero-dm")
    return [*words, *hunt.form, *(os.path.join(folder, path) for path in hunt.observation.paths)]


def measured(folder: str, hunt: Hunt, level: LevelFile) -> LevelFile:
    """A level with the noise that its samples have, in channels that are not masked, whatever a few stretches do."""
    path = os.path.join(folder, level.path)
    samples = Samples([path], hunt.mask)
    head, kept = samples.header, samples.header.kept
    count = max(1, min(MEASURED_BYTES // head.spectrum_bytes, samples.spectra) // PIECES)
    begins = np.linspace(0, samples.spectra - count, PIECES).astype(int)
    pieces = [samples.read(int(begin), count)[:, kept].astype(np.float64) for begin in np.unique(begins)]
    mean, deviation = float(np.median([piece.mean() for piece in pieces])), float(np.median([
        piece.std() for piece in pieces]))
    if deviation == 0:
        raise Refusal(HEADER, f"{', '.join(hunt.inputs)}: nothing changes in the data: {level.path} has the mean alone")
    return replace(level, mean=round(mean, 4), deviation=round(deviation, 4))


def with_noise(hunt: Hunt, level: LevelFile, head: Header) -> Hunt:
    """The hunt with a level that was measured, and with the noise that its passes are given by it.

    A masked channel has the mean of the level alone.
    """
    assert level.mean is not None and level.deviation is not None
    part = len(head.kept) / head.channels
    mean = part * level.mean + (1 - part) * LEVEL_MEAN * head.polarisations
    deviation = math.sqrt(part) * level.deviation
    searches = [replace(one, mean=round(mean, 3), sd=max(0.001, round(deviation, 3)))
                if one.level == level.path else one for one in hunt.searches]
    levels = [level if one.path == level.path else one for one in hunt.levels]
    return replace(hunt, searches=tuple(searches), levels=tuple(levels))
