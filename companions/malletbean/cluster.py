"""`cluster/plan`: the jobs of a search on many machines, by ranges of delays or by stretches of the time."""
from __future__ import annotations

import os
import re
import shlex
import sys
from collections.abc import Sequence

from .asked import Asked, asked_by, judge, program_at
from .files import Files
from .jobs import Job, jobs_by_time, write_checks, write_jobs
from .pieces import stretches
from .refusal import WORDS, Refusal

# the status where the folder of a plan can't be made
FOLDER = 11
MOST_JOBS = 9999
USAGE = "arguments refused: plan FOLDER JOBS [--spectra N] --mean V --sd V [OPTION V ..] FILE [FILE ..]"


def scripts() -> str:
    """The folder cluster/, which lies beside the one that this package lies in."""
    return os.path.join(os.path.dirname(os.path.dirname(os.path.dirname(os.path.realpath(__file__)))), "cluster")


def plan(words: Sequence[str]) -> None:
    """Makes the plan that the words ask for, and says how to run it."""
    if list(words) == ["--help"]:
        print(f"usage: {USAGE.removeprefix('arguments refused: ')}")
        return
    if len(words) < 3:
        raise Refusal(WORDS, USAGE)
    folder, count, *rest = words
    if not re.fullmatch("[1-9][0-9]{0,3}", count):
        raise Refusal(WORDS, f"JOBS is '{count}', not a number from 1 to {MOST_JOBS}")
    asked = asked_by(rest, USAGE, {"spectra": 0})
    for path in asked.files:
        if not os.path.exists(path):
            raise Refusal(WORDS, f"there is no file {path}")
    by_time = asked.numbers["spectra"] > 0
    if by_time and asked.numbers["fold-max"] > 0:
        raise Refusal(WORDS, "folds can only be parted by delays, without --spectra")
    program = program_at("psr_part" if by_time else "psr_search")
    judge(program, by_time, asked.words("spectra"))
    jobs = plan_by_time(folder, int(count), program, asked) if by_time else \
        plan_by_delays(folder, int(count), program, asked)
    at, cluster = shlex.quote(os.path.abspath(folder)), scripts()
    print(f"""{jobs} jobs, to be run by one of
    sbatch --array=1-{jobs} {shlex.quote(os.path.join(cluster, "slurm.batch"))} {at}
    {shlex.quote(os.path.join(cluster, "parallel.bash"))} {at}
and then
    {shlex.quote(os.path.join(cluster, "join"))} {at} >text""")


def plan_by_time(folder: str, count: int, program: str, asked: Asked) -> int:
    """Makes a plan of stretches of the time, and answers how many jobs it has."""
    lead, files = asked.lead, Files(asked.files)
    parts = stretches(asked.numbers["spectra"], count, lead)
    place = made(folder)
    write_checks(place, parts)
    write_jobs(place, jobs_by_time(place, scripts(), program, asked.words("spectra"), files, parts))
    length = asked.numbers["spectra"] // len(parts)
    if len(parts) > 1 and length < lead:
        print(f"plan: each job searches {lead} spectra before its {length}: plan fewer jobs, or by delays",
              file=sys.stderr)
    return len(parts)


def plan_by_delays(folder: str, count: int, program: str, asked: Asked) -> int:
    """Makes a plan of ranges of delays, and answers how many jobs it has.

    Folded delays are every fold-step-th from the least one on: each range begins at one. It has a delay for each shard.
    """
    first, last, shards = asked.numbers["min-delay"], asked.numbers["max-delay"], asked.numbers["shards"]
    step = asked.numbers["fold-step"] if asked.numbers["fold-max"] > 0 else 1
    for name, value in (("fold-step", step), ("shards", shards)):
        if value == 0:
            raise Refusal(WORDS, f"--{name} is 0")
    steps = (last - first) // step + 1
    count = max(1, min(count, steps, (last - first + 1) // shards))
    bounds = [first + steps * number // count * step for number in range(count)] + [last + 1]
    place = made(folder)
    jobs = []
    for low, high in zip(bounds, bounds[1:]):
        part = f"delays-{low:04}-{high - 1:04}"
        words = [os.path.join(scripts(), "part"), os.path.join(place, f"{part}.text"), "--", program,
                 *asked.words("spectra", "min-delay", "max-delay"), f"--min-delay={low}", f"--max-delay={high - 1}",
                 "--", *asked.files]
        jobs.append(Job(part, shlex.join(words)))
    write_jobs(place, jobs)
    return count


def made(folder: str) -> str:
    """The new folder of a plan."""
    try:
        os.mkdir(folder)
    except OSError as fault:
        raise Refusal(FOLDER, f"can't make {folder}: {fault.strerror}") from fault
    return os.path.abspath(folder)
