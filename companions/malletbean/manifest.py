"""The one description of a hunt: `hunt.json` in its folder, which grouping, pictures and the report read.

All paths in it are relative to the folder of the hunt, but for the files that the hunt was given, which are absolute.
Frequencies are in MHz, times in seconds, delays, widths and `spectra` in spectra of what they speak of.
"""
from __future__ import annotations

import dataclasses
import json
import os
from collections.abc import Mapping
from dataclasses import dataclass
from typing import Any

from .output import whole_file
from .refusal import TEXT, Refusal, bytes_of

NAME = "hunt.json"
VERSION = 1


@dataclass(frozen=True)
class Observation:
    """What was observed: the fields of the header of `path`, which has the samples as DADA, before levelling."""

    # of the first DADA file; an input that is one stands here by itself
    paths: tuple[str, ...]
    source: str
    telescope: str
    freq: float
    bw: float
    nchan: int
    npol: int
    nbit: int
    tsamp: float
    utc_start: str
    # of the first spectrum; None where the header has no UTC_START
    mjd_start: float | None
    spectra: int


@dataclass(frozen=True)
class LevelFile:
    """A levelled file: `average` spectra of the observation are one of it, and `zero_dm` says if means were removed."""

    average: int
    zero_dm: bool
    path: str
    # a line for a shell, run in the folder of the hunt
    command: str
    stretch: int
    spectra: int
    # of a sample in a channel that is not masked, polarisations added; None until the file was made
    mean: float | None = None
    deviation: float | None = None


@dataclass(frozen=True)
class Raised:
    """A stretch of a search that had too many candidates, and was searched with a higher threshold instead."""

    first: int
    until: int
    snr: float


@dataclass(frozen=True)
class SearchPass:
    """One search of one levelled file. `output` has its lines as one psr_search writes them, masked channels included.

    A masked channel has the mean M alone. So SUM - CELLS * mean is that of the other channels, and the noise of a sum
    is `deviation` of the level, times the noise of the cells in channels that are not masked.
    """

    # a name that no other pass of this hunt has, as `k4` or `k4-wide`
    name: str
    average: int
    zero_dm: bool
    level: str
    output: str
    # the widest box, in spectra of the levelled file; all smaller powers of two are searched too
    widths: int
    min_delay: int
    max_delay: int
    dm_low: float
    dm_high: float
    # what the search was given: of all samples, masked channels included
    mean: float
    sd: float
    # the printed threshold
    snr: float
    spectra: int
    # what is folded, in spectra of the levelled file; 0 where nothing is
    fold_min: int = 0
    fold_max: int = 0
    fold_rows: int = 0
    fold_step: int = 0
    raised: tuple[Raised, ...] = ()


@dataclass(frozen=True)
class Burst:
    """A burst of interference in a part of the band, whose values were replaced in all levels: when it is, in seconds
    from the first spectrum, which channels it is in, in the order of the file, and how many deviations it has."""

    begin: float
    until: float
    first_channel: int
    stop_channel: int
    snr: float


@dataclass(frozen=True)
class Program:
    """A program that a hunt ran: where it lies, its sha256, and the commit that it says, if it says one."""

    name: str
    path: str
    sha256: str
    commit: str = ""


@dataclass(frozen=True)
class Command:
    """A command as it was run in the folder of the hunt, how long it took, and its status."""

    name: str
    line: str
    seconds: float
    status: int


@dataclass(frozen=True)
class Hunt:
    """A hunt: what it was asked for, what it looked at, and what it searched."""

    version: int
    # of psr_hunt, without its name
    arguments: tuple[str, ...]
    inputs: tuple[str, ...]
    observation: Observation
    mask: str
    zero_dm: bool
    clip: float | None
    # the true S/N from which on everything is meant to be found
    snr: float
    dm_low: float
    dm_high: float
    levels: tuple[LevelFile, ...]
    searches: tuple[SearchPass, ...]
    # the words by which psr_level reads values that are signed, or have their high byte first
    form: tuple[str, ...] = ()
    # None until they were looked for
    bursts: tuple[Burst, ...] | None = None
    # the plan as `--dry-run` prints it
    plan: str = ""
    programs: tuple[Program, ...] = ()
    commands: tuple[Command, ...] = ()
    # what was read from the observation and is told apart from one that was changed: path, bytes, time of change in ns
    states: tuple[tuple[str, int, int], ...] = ()

    def level(self, search: SearchPass) -> LevelFile:
        """The levelled file that a pass searched."""
        return next(level for level in self.levels if level.path == search.level)


def write_manifest(folder: str, hunt: Hunt) -> None:
    """Writes the description of a hunt into its folder, whole or not at all."""
    text = json.dumps(dataclasses.asdict(hunt), indent=1, ensure_ascii=False)
    with whole_file(os.path.join(folder, NAME)) as path:
        with open(path, "w", encoding="utf-8") as file:
            file.write(text + "\n")


def read_manifest(folder: str) -> Hunt:
    """The description of the hunt in a folder."""
    path = os.path.join(folder, NAME)
    try:
        found = json.loads(bytes_of(path))
    except ValueError as fault:
        raise Refusal(TEXT, f"{path} refused: {fault}") from fault
    if not isinstance(found, dict) or found.get("version") != VERSION:
        raise Refusal(TEXT, f"{path} refused: it is no description of a hunt of version {VERSION}")
    try:
        return hunt_of(found)
    except (KeyError, TypeError, ValueError) as fault:
        raise Refusal(TEXT, f"{path} refused: {type(fault).__name__} {fault}") from fault


def hunt_of(found: Mapping[str, Any]) -> Hunt:
    """The hunt of a decoded description."""
    values = dict(found)
    values["observation"] = Observation(**listed(found["observation"], "paths"))
    values["levels"] = tuple(LevelFile(**one) for one in found["levels"])
    values["searches"] = tuple(search_of(one) for one in found["searches"])
    if found["bursts"] is not None:
        values["bursts"] = tuple(Burst(**one) for one in found["bursts"])
    values["programs"] = tuple(Program(**one) for one in found["programs"])
    values["commands"] = tuple(Command(**one) for one in found["commands"])
    values["states"] = tuple((str(path), int(size), int(time)) for path, size, time in found["states"])
    return Hunt(**listed(values, "arguments", "inputs", "form"))


def search_of(found: Mapping[str, Any]) -> SearchPass:
    """The pass of a decoded description."""
    values = dict(found)
    values["raised"] = tuple(Raised(**one) for one in found["raised"])
    return SearchPass(**values)


def listed(found: Mapping[str, Any], *names: str) -> dict[str, Any]:
    """The values of a decoded description, with tuples under these names."""
    return {**found, **{name: tuple(found[name]) for name in names}}
