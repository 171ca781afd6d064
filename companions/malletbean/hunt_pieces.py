"""The searches of a hunt: each pass in pieces of the time, and those that fold.

A piece that has too many lines, of interference or of a bright pulsar, is divided. If it is as short as what is
searched before it, its threshold is raised. So only the seconds that are full of lines are searched less deeply.
"""
from __future__ import annotations

import math
import os
import re
import shlex
from collections.abc import Sequence
from dataclasses import dataclass, replace

from .asked import program_at
from .cluster import scripts
from .files import Files
from .headers import Header
from .hunt_cost import search_seconds
from .hunt_tasks import Task
from .jobs import Job, jobs_by_time, write_checks, write_jobs
from .manifest import Hunt, Raised, SearchPass
from .number import scaled
from .pieces import Stretch, stretches
from .refusal import bytes_of

# each core gets so many jobs; a job takes at most so many seconds, and its piece is at least so many times the lead
JOBS_FOR_CORE, MOST_SECONDS, TIMES_LEAD = 4, 120.0, 8
# lines of all passes if each short piece had the most that it may have, and the least and greatest number that that is
ALL_LINES, FEW_LINES, MOST_LINES = 80_000_000, 2**12, 2**16
# the lines of a search that folds
MOST_FOLDS = 2**20
# a piece that has too many lines is divided into so many, or else its threshold becomes so many times as great
DIVIDED, RAISED, GREATEST_SNR = 8, 1.5, 1000.0
TOO_MANY = re.compile(r"[0-9]+ candidates, limit [0-9]+")
SNR = re.compile(r"--snr=([0-9.]+)")


@dataclass(frozen=True)
class Fewer:
    """The jobs that take the place of one that had too many lines, and the threshold that was raised, if one was."""

    tasks: list[Task]
    raised: Raised | None = None


def searches_at(folder: str, search: SearchPass) -> str:
    """The plan of cluster/ with the pieces of a pass."""
    return os.path.join(folder, "searches", search.name)


def lead_of(search: SearchPass) -> int:
    """How many spectra are searched before a piece."""
    return search.max_delay + search.widths


def search_tasks(folder: str, hunt: Hunt, search: SearchPass, head: Header, cores: int) -> list[Task]:
    """The jobs of a pass. What an earlier call has written of them stands."""
    place = searches_at(folder, search)
    if not os.path.exists(os.path.join(place, "jobs")):
        os.makedirs(place, exist_ok=True)
        if search.fold_max:
            write_jobs(place, [fold_job(folder, search)])
        else:
            parts = stretches(search.spectra, piece_count(head, hunt, search, cores), lead_of(search))
            write_checks(place, parts)
            write_jobs(place, pass_jobs(folder, hunt, search, parts))
    jobs = jobs_in(place)
    seconds = seconds_of(search, head) / len(jobs)
    return [task_of(folder, search, job, seconds) for job in jobs]


def task_of(folder: str, search: SearchPass, job: Job, seconds: float) -> Task:
    """A job of a pass."""
    place = searches_at(folder, search)
    if search.fold_max:
        return Task(search.name, os.path.join(folder, search.output), job.line, seconds, place)
    return Task(f"{search.name}/{job.part}", os.path.join(place, f"{job.part}.text"), job.line, seconds, place)


def seconds_of(search: SearchPass, head: Header) -> float:
    """Seconds of a core that a pass takes: a search that folds adds some two thousand million values in a second."""
    if not search.fold_max:
        return search_seconds(head, search, search.spectra)
    delays = (search.max_delay - search.min_delay) // search.fold_step + 1
    periods = search.fold_max - search.fold_min + 1
    values = delays * periods * (1 << search.fold_rows) * (search.fold_min + search.fold_max) / 2 * search.fold_rows
    return values / 2e9 + search_seconds(head, search, folded_spectra(search))


def piece_count(head: Header, hunt: Hunt, search: SearchPass, cores: int) -> int:
    """In how many pieces a pass is searched: jobs of about the same time, much longer than what they read before."""
    total = sum(search_seconds(head, one, one.spectra) for one in hunt.searches)
    aim = min(MOST_SECONDS, max(total / (cores * JOBS_FOR_CORE), 0.2))
    wanted = math.ceil(search_seconds(head, search, search.spectra) / aim)
    return max(1, min(wanted, search.spectra // (TIMES_LEAD * lead_of(search))))


def most_lines(hunt: Hunt) -> int:
    """How many lines a piece may have: fewer the more short pieces all passes could have."""
    pieces = sum(max(1, one.spectra // lead_of(one)) for one in hunt.searches if not one.fold_max)
    return min(MOST_LINES, max(FEW_LINES, ALL_LINES // pieces))


def search_options(search: SearchPass, most: int) -> list[str]:
    """The options of a pass."""
    return [f"--mean={search.mean:.3f}", f"--sd={search.sd:.3f}", f"--snr={search.snr:.2f}",
            f"--min-delay={search.min_delay}", f"--max-delay={search.max_delay}", f"--widths={search.widths}",
            f"--max-candidates={most}"]


def pass_jobs(folder: str, hunt: Hunt, search: SearchPass, parts: Sequence[Stretch]) -> list[Job]:
    """A job for each stretch of a pass."""
    files = Files([os.path.join(folder, search.level)])
    return jobs_by_time(searches_at(folder, search), scripts(), program_at("psr_part"),
                        search_options(search, most_lines(hunt)), files, parts)


def fold_job(folder: str, search: SearchPass) -> Job:
    """The job of folds: only the first spectra, which are folded, are read."""
    files = Files([os.path.join(folder, search.level)])
    size = files.header.size + min(search.spectra, folded_spectra(search)) * files.header.spectrum_bytes
    words = [os.path.join(scripts(), "part"), os.path.join(folder, search.output), "0", files.paths[0], "0",
             str(size), "--", program_at("psr_search"), *search_options(search, MOST_FOLDS),
             f"--fold-min={search.fold_min}", f"--fold-max={search.fold_max}", f"--fold-rows={search.fold_rows}",
             f"--fold-step={search.fold_step}", "/dev/stdin"]
    return Job(search.name, shlex.join(words))


def folded_spectra(search: SearchPass) -> int:
    """How many spectra folds of a pass read."""
    return int((1 << search.fold_rows) * (search.fold_max + 1) + search.max_delay)


def jobs_in(place: str) -> list[Job]:
    """The jobs of a plan."""
    parts, lines = (bytes_of(os.path.join(place, name)).decode(errors="surrogateescape").splitlines()
                    for name in ("parts", "jobs"))
    return [Job(part, line) for part, line in zip(parts, lines)]


def fewer_lines(folder: str, hunt: Hunt, search: SearchPass, task: Task) -> Fewer | None:
    """What takes the place of a job that had too many lines; None if it failed for another reason."""
    if not TOO_MANY.search(task.fault):
        return None
    place, jobs = searches_at(folder, search), jobs_in(searches_at(folder, search))
    at = next(number for number, job in enumerate(jobs) if job.line == task.line)
    begins = [0 if search.fold_max else int(job.part.rpartition("-")[2]) for job in jobs] + [search.spectra]
    count = min(DIVIDED, (begins[at + 1] - begins[at]) // lead_of(search))
    if count > 1 and not search.fold_max:
        parts = divided(search, begins[at], begins[at + 1], count)
        write_checks(place, parts)
        others = pass_jobs(folder, hunt, search, parts)
        raised = None
    else:
        match = SNR.search(task.line)
        snr = round((scaled(match[1], 2) or 0) / 100 * RAISED, 2) if match else 0.0
        if not 0 < snr <= GREATEST_SNR:
            return None
        others = [replace(jobs[at], line=SNR.sub(f"--snr={snr:.2f}", task.line))]
        raised = Raised(begins[at], begins[at + 1], snr)
    write_jobs(place, [*jobs[:at], *others, *jobs[at + 1:]])
    return Fewer([task_of(folder, search, job, task.seconds / len(others)) for job in others], raised)


def divided(search: SearchPass, begin: int, end: int, count: int) -> list[Stretch]:
    """A stretch of a pass as several. The last one of all goes on to the end of the data."""
    bounds = [begin + (end - begin) * number // count for number in range(count + 1)]
    return [Stretch(max(0, low - lead_of(search)), low, None if high == search.spectra else high)
            for low, high in zip(bounds, bounds[1:])]
