"""The jobs of a plan of cluster/, and the files of its folder that say what they are."""
from __future__ import annotations

import os
import shlex
from collections.abc import Sequence
from dataclasses import dataclass

from .files import Files
from .output import whole_file
from .pieces import Stretch, cuts, with_block


@dataclass(frozen=True)
class Job:
    """A job of a plan of cluster/: its part, whose output is PART.text, and its command line."""

    part: str
    line: str


def jobs_by_time(folder: str, cluster: str, program: str, options: Sequence[str], files: Files,
                 parts: Sequence[Stretch]) -> list[Job]:
    """A job for each stretch, which leaves its output in a folder of a plan."""
    found = []
    for part in parts:
        place = os.path.join(folder, part.name)
        pieces = [str(one) for cut in cuts(files, part) for one in cut]
        words = [os.path.join(cluster, "part"), f"{place}.text", str(part.first), *pieces, "--",
                 program, part.stop, f"{place}.check", *with_block(options, files), "/dev/stdin"]
        found.append(Job(part.name, shlex.join(words)))
    return found


def write_checks(folder: str, parts: Sequence[Stretch]) -> None:
    """Writes the checkpoints at which the stretches begin."""
    for part in parts:
        with open(os.path.join(folder, f"{part.name}.check"), "w", encoding="ascii") as file:
            file.write(part.check)


def write_jobs(folder: str, jobs: Sequence[Job]) -> None:
    """Writes the lists of a plan: the names of the parts, and a command line for each."""
    for name, lines in (("parts", [job.part for job in jobs]), ("jobs", [job.line for job in jobs])):
        with whole_file(os.path.join(folder, name)) as path:
            with open(path, "w", encoding="utf-8", errors="surrogateescape") as file:
                file.writelines(f"{line}\n" for line in lines)
