"""`psr_hunt`: from the files of a telescope to candidates, by one command."""
from __future__ import annotations

import argparse
import fcntl
import hashlib
import math
import os
import re
import shlex
import shutil
import subprocess
import sys
import time
from collections.abc import Iterator, Sequence
from contextlib import closing, contextmanager, suppress
from dataclasses import dataclass, field, replace
from functools import partial
from operator import attrgetter

import numpy as np

from .asked import program_at
from .bursts import bursts_of, freed, level_for_bursts
from .cluster import scripts
from .ending import Stopped, say
from .headers import Header
from .hunt_folds import folds_planned
from .hunt_input import (Look, companion, conversion, converted, converter_of, looked_at, planned_header)
from .hunt_pieces import fewer_lines, search_tasks, searches_at
from .hunt_plan import Sought, planned, power_above
from .hunt_run import Cores, Engine, Failure, Progress, clear_unfinished, parallel, slurm
from .hunt_tasks import Task, level_tasks, level_words, measured, with_noise
from .hunt_text import plan_text, predicted_seconds, room_missing, summary_lines
from .manifest import NAME, VERSION, Command, Hunt, LevelFile, Observation, Program, read_manifest, write_manifest
from .number import scaled
from .listing import write_candidates
from .output import whole_file
from .program import Words
from .refusal import MEMORY, OUTPUT, WORDS, Refusal, bytes_of
from .report import write_report
from .samples import Samples
from .series import candidate_delays, write_level_series
from .settings import Settings, write_settings
from .workers import workers

# the status where a job failed
FAILED = 14
# the widest pulse where none is said, in seconds
USUAL_WIDEST = 0.032
USUAL_SNR = 6.5
# how many candidates get a picture in the report
MOST_PICTURES = 20
# of how many the dedispersed series is written
MOST_SERIES = 5
MJD_ZERO = np.datetime64("1858-11-17", "ns")
CONVERTED = "observation.dada"


def psr_hunt(words: Sequence[str]) -> None:
    """Hunts for what the words ask for."""
    asked = parsed(words)
    begun, count = time.monotonic(), 0
    paths = [os.path.abspath(path) for path in asked.files]
    converter = converter_of(paths)
    if asked.dry_run or not os.path.exists(os.path.join(asked.folder, NAME)):
        hunt, head = first_plan(asked, paths, converter)
        if asked.dry_run:
            print(hunt.plan)
            return
        check_room(asked, hunt, head, converter is not None)
        count = head.data_bytes
    check_engine(asked)
    programs = programs_of(converter)
    with hunt_folder(asked.folder) as folder:
        try:
            hunt = begun_hunt(asked, folder, paths, converter, programs, count)
            if os.path.exists(os.path.join(folder, "summary")):
                sys.stdout.write(bytes_of(os.path.join(folder, "summary")).decode())
            else:
                run_hunt(asked, folder, hunt, begun)
        except Stopped as stopped:
            stopped.advice = "; give the same command again to continue"
            raise


def parsed(words: Sequence[str]) -> argparse.Namespace:
    """The words of the command."""
    parser = Words(prog="psr_hunt", description="Hunts for dispersed pulses: from a telescope's files to candidates.")
    parser.add_argument("files", metavar="FILE", nargs="+",
                        help="the files of one observation, in order: DADA, SIGPROC filterbanks or PSRFITS")
    parser.add_argument("--dm", metavar=("LOW", "HIGH"), nargs=2, type=decimal, required=True,
                        help="the dispersion measures to search, in pc/cm^3")
    parser.add_argument("-o", "--output", metavar="FOLDER", dest="folder", required=True,
                        help="the folder for all output; the same command continues a hunt that was stopped")
    parser.add_argument("--snr", metavar="S", type=decimal, default=USUAL_SNR,
                        help=f"the minimum true S/N of the pulses to find ({USUAL_SNR})")
    parser.add_argument("--widths", metavar="W", type=int,
                        help="the widest pulse to look for, in spectra of FILE (those of 32 ms)")
    parser.add_argument("--mask", metavar="MASK", default="auto",
                        help="channels to leave out: auto (those that look bad; the default), none, or a mask like "
                             "3,17-19, counted from 0 in file order")
    parser.add_argument("--clip", metavar="Z", type=decimal,
                        help="leave out spectra whose sum over the band is more than Z deviations off (off)")
    parser.add_argument("--keep-bursts", action="store_true",
                        help="also search bursts of interference in parts of the band (the mean replaces them)")
    parser.add_argument("--cores", metavar="C", type=int, default=len(os.sched_getaffinity(0)),
                        help="how many jobs run at a time (one on each core)")
    engine = parser.add_mutually_exclusive_group()
    engine.add_argument("--slurm", action="store_true", help="run the jobs as arrays of Slurm")
    engine.add_argument("--parallel", metavar="ARGUMENTS",
                        help="run the jobs by GNU parallel, with these arguments of its own, as one argument")
    parser.add_argument("--periods", metavar=("LOW", "HIGH"), nargs=2, type=decimal,
                        help="also fold at these periods, in seconds")
    parser.add_argument("--keep", action="store_true", help="keep levelled files, the jobs and their outputs")
    parser.add_argument("--dry-run", action="store_true", help="print the plan, write nothing, and end")
    asked = parser.parse_args(words)
    for name, low, high in (("--dm", *asked.dm), ("--periods", *(asked.periods or (0, 1)))):
        if low >= high:
            raise Refusal(WORDS, f"argument {name}: LOW, {low:g}, is not below HIGH, {high:g}")
    for name, value in (("--snr", asked.snr), ("--widths", asked.widths), ("--cores", asked.cores),
                        ("--clip", asked.clip)):
        if value is not None and value <= 0:
            raise Refusal(WORDS, f"argument {name}: it has to be above 0")
    return asked


def decimal(text: str) -> float:
    """A number that is not below 0, with up to six decimals."""
    value = scaled(text, 6)
    if value is None or value < 0:
        raise argparse.ArgumentTypeError(f"{text} is not a number of 0 or more (7, 7.5 or .5)")
    return value / 1e6


def first_plan(asked: argparse.Namespace, paths: Sequence[str], converter: str | None) -> tuple[Hunt, Header]:
    """The plan before anything is written: of other files than DADA ones by their sizes and by the front of one."""
    if converter is None:
        samples = Samples(paths)
        look = looked_at(samples, mask_of(asked))
        return hunt_of(asked, paths, paths, look), look.head
    look = planned_header(converter, paths, mask_of(asked))
    return hunt_of(asked, paths, [CONVERTED], look), look.head


def mask_of(asked: argparse.Namespace) -> str | None:
    """The mask that is said; None if it is looked for."""
    return None if asked.mask == "auto" else str(asked.mask)


def hunt_of(asked: argparse.Namespace, inputs: Sequence[str], paths: Sequence[str], look: Look) -> Hunt:
    """The hunt that is asked for, over an observation that was looked at."""
    head = look.head
    widest = asked.widths or power_above(USUAL_WIDEST / head.seconds)
    sought = Sought(asked.dm[0], asked.dm[1], widest, asked.snr)
    levels, searches = planned(head, sought, has_plain=True)
    folds = folds_planned(head, sought, (asked.periods[0], asked.periods[1]), searches) if asked.periods else None
    if folds is not None:
        searches += folds.passes
    hunt = Hunt(
        version=VERSION, arguments=meaning(asked), inputs=tuple(inputs), observation=observation_of(head, paths),
        mask=look.mask, zero_dm=all(level.zero_dm for level in levels), clip=asked.clip, snr=asked.snr,
        dm_low=asked.dm[0], dm_high=asked.dm[1], levels=levels, searches=searches, form=look.form,
        states=tuple(state_of(path) for path in inputs))
    hunt = replace(hunt, levels=tuple(replace(level, command=level_line(hunt, level)) for level in levels))
    left_out = () if folds is None else folds.left_out
    return replace(hunt, plan=plan_text(hunt, head, asked.cores, left_out, tuple(paths) != tuple(inputs)))


def level_line(hunt: Hunt, level: LevelFile) -> str:
    """The command that makes a level, as a line in the folder of the hunt."""
    return f"{shlex.join(['psr_level', *level_words('.', hunt, level)])} > {level.path}"


def meaning(asked: argparse.Namespace) -> tuple[str, ...]:
    """The arguments that say what is hunted for, in one form; how it is run is not among them."""
    words = [*map(os.path.abspath, asked.files), "--dm", *(f"{dm:g}" for dm in asked.dm), "--snr", f"{asked.snr:g}",
             "--mask", asked.mask]
    for name, value in (("--widths", asked.widths), ("--clip", asked.clip)):
        words += [] if value is None else [name, f"{value:g}"]
    words += ["--keep-bursts"] if asked.keep_bursts else []
    return (*words, *(() if asked.periods is None else ("--periods", *(f"{one:g}" for one in asked.periods))))


def observation_of(head: Header, paths: Sequence[str]) -> Observation:
    """What the manifest says of an observation."""
    start = None if np.isnat(head.start) else float((head.start - MJD_ZERO) / np.timedelta64(1, "D"))
    return Observation(
        paths=tuple(paths), source=" ".join(head.words_of("SOURCE")), telescope=" ".join(head.words_of("TELESCOPE")),
        freq=head.centre_hz / 1e6, bw=math.copysign(head.width_hz / 1e6, -1 if head.is_falling else 1),
        nchan=head.channels, npol=head.polarisations, nbit=head.bits, tsamp=head.seconds,
        utc_start=" ".join(head.words_of("UTC_START")), mjd_start=start, spectra=head.spectra)


def state_of(path: str) -> tuple[str, int, int]:
    """By what a file that was changed is known."""
    found = os.stat(path)
    return path, found.st_size, found.st_mtime_ns


def check_room(asked: argparse.Namespace, hunt: Hunt, head: Header, is_converted: bool) -> None:
    """Refuses a hunt that there is no room for, before anything is written."""
    missing = room_missing(hunt, head, asked.folder, asked.cores, is_converted)
    if missing is not None:
        raise Refusal(MEMORY if "memory" in missing else OUTPUT, missing)


@contextmanager
def hunt_folder(path: str) -> Iterator[str]:
    """The folder of a hunt, which one psr_hunt at a time works in."""
    folder = os.path.abspath(path)
    try:
        os.makedirs(folder, exist_ok=True)
        place = os.open(folder, os.O_RDONLY | os.O_DIRECTORY)
    except OSError as fault:
        raise Refusal(OUTPUT, f"can't make {path}: {fault.strerror}") from fault
    try:
        try:
            fcntl.flock(place, fcntl.LOCK_EX | fcntl.LOCK_NB)
        except OSError as fault:
            raise Refusal(OUTPUT, f"{path} is in use by another psr_hunt") from fault
        clear_unfinished(folder)
        if not os.path.exists(os.path.join(folder, NAME)):
            # a hunt that was stopped before it had a plan left this at most
            remove(os.path.join(folder, CONVERTED))
            if os.listdir(folder):
                raise Refusal(OUTPUT, f"{path} exists, and is not the folder of a hunt: give a new one")
        yield folder
    finally:
        os.close(place)


def begun_hunt(asked: argparse.Namespace, folder: str, paths: Sequence[str], converter: str | None,
               programs: tuple[Program, ...], count: int) -> Hunt:
    """The hunt of a folder: the one that an earlier call began, or a new one of so many bytes."""
    if os.path.exists(os.path.join(folder, NAME)):
        hunt = read_manifest(folder)
        if hunt.arguments != meaning(asked):
            raise Refusal(OUTPUT, f"{asked.folder} is the folder of another hunt: psr_hunt "
                                  f"{shlex.join(hunt.arguments)}; give a new one")
        if hunt.states != tuple(state_of(path) for path in paths):
            raise Refusal(OUTPUT, f"the files of the hunt in {asked.folder} have changed since: give a new folder")
        return hunt
    own = list(paths)
    if converter is not None:
        own = [CONVERTED]
        with closing(Progress(count)) as progress:
            said = converted(conversion(converter, paths, os.path.join(folder, CONVERTED)),
                             partial(progress.reach, "conversion"))
        sys.stderr.write(said)
    look = looked_at(Samples([os.path.join(folder, path) for path in own]), mask_of(asked))
    hunt = replace(hunt_of(asked, paths, own, look), programs=programs)
    write_manifest(folder, hunt)
    return hunt


def programs_of(converter: str | None) -> tuple[Program, ...]:
    """The programs that a hunt runs, with their checksums."""
    paths = [(name, program_at(name)) for name in ("psr_level", "psr_part", "psr_search")]
    paths += [(name, companion(name)) for name in ("psr_hunt", converter) if name]
    return tuple(Program(name, path, hashlib.sha256(bytes_of(path)).hexdigest(), built_of(name, path))
                 for name, path in paths)


def built_of(name: str, path: str) -> str:
    """Of what an installed program was built, as the list beside it says."""
    listed = os.path.join(os.path.dirname(path), "..", "share", "doc", "malletbean", "BUILT")
    if not os.path.exists(listed):
        return ""
    match = re.search(rf"^# {name}: (.*)$", bytes_of(listed).decode(errors="replace"), re.MULTILINE)
    return match[1] if match else ""


@dataclass
class Running:
    """The jobs of a hunt as they end, and what follows from them."""

    folder: str
    hunt: Hunt
    head: Header
    cores: int
    # whether levels are freed of bursts, and which of them wait until these are known
    is_freed: bool
    waiting: list[str] = field(default_factory=list)

    def done(self, task: Task, seconds: float) -> list[Task]:
        """A level is measured, and its passes can begin."""
        self.note(task, seconds, 0)
        level = next((one for one in self.hunt.levels if one.path == task.name), None)
        if level is None:
            return []
        self.waiting.append(level.path)
        if self.hunt.bursts is None:
            if level.path != level_for_bursts(self.hunt).path:
                return []
            level = measured(self.folder, self.hunt, level)
            self.hunt = replace(self.hunt, bursts=bursts_of(self.folder, self.hunt, level) if self.is_freed else ())
        tasks = [task for path in self.waiting for task in self.searches_of(path)]
        self.waiting.clear()
        return tasks

    def searches_of(self, path: str) -> list[Task]:
        """The jobs of the passes over a level, which is freed of bursts and measured first."""
        level = next(one for one in self.hunt.levels if one.path == path)
        if level.mean is None:
            freed(self.folder, self.hunt, level)
            self.hunt = with_noise(self.hunt, measured(self.folder, self.hunt, level), self.head)
            write_manifest(self.folder, self.hunt)
        return [task for search in self.hunt.searches if search.level == path and not self.is_joined(search.name)
                for task in search_tasks(self.folder, self.hunt, search, self.head, self.cores)]

    def again(self, task: Task) -> list[Task]:
        """A piece that had too many lines is searched in shorter ones, or with a higher threshold."""
        search = next((one for one in self.hunt.searches if task.plan == searches_at(self.folder, one)), None)
        fewer = None if search is None else fewer_lines(self.folder, self.hunt, search, task)
        if search is None or fewer is None:
            return []
        if fewer.raised is not None:
            others = [one for one in search.raised if one.first != fewer.raised.first]
            raised = replace(search, raised=tuple(sorted([*others, fewer.raised], key=attrgetter("first"))))
            self.hunt = replace(self.hunt, searches=tuple(raised if one.name == search.name else one
                                                          for one in self.hunt.searches))
            write_manifest(self.folder, self.hunt)
        return fewer.tasks

    def note(self, task: Task, seconds: float, status: int) -> None:
        """A job was run."""
        if seconds:
            self.hunt = replace(self.hunt, commands=(*self.hunt.commands,
                                                     Command(task.name, task.line, round(seconds, 3), status)))

    def is_joined(self, name: str) -> bool:
        """Whether the output of a pass is there."""
        return os.path.exists(os.path.join(self.folder, f"{name}.text"))


def run_hunt(asked: argparse.Namespace, folder: str, hunt: Hunt, begun: float) -> None:
    """Runs what is not there yet, and says what was found."""
    head = Samples([os.path.join(folder, path) for path in hunt.observation.paths], hunt.mask).header
    head = head.changed(data_bytes=hunt.observation.spectra * head.spectrum_bytes)
    running = Running(folder, hunt, head, asked.cores, not asked.keep_bursts)
    write_commands(folder, hunt, head)
    engine = engine_of(asked, folder)
    lines = list[str]()
    with closing(Progress(predicted_seconds(hunt, head))) as progress:
        try:
            failures = engine.run(level_tasks(folder, hunt, head), running, progress)
            if not failures:
                progress.show("joins")
                for search in running.hunt.searches:
                    join(running, search.name)
        finally:
            write_manifest(folder, running.hunt)
        if not failures:
            progress.show("candidates and report")
            lines = finish(asked, running, begun)
    if failures:
        raise failed(running, failures)
    print("\n".join(lines))


def check_engine(asked: argparse.Namespace) -> None:
    """Refuses an engine that is not there."""
    for is_asked, word, name in ((asked.slurm, "--slurm", "sbatch"), (asked.parallel is not None, "--parallel",
                                                                      "parallel")):
        if is_asked and shutil.which(name) is None:
            raise Refusal(WORDS, f"argument {word}: {name} is not on the PATH")


def engine_of(asked: argparse.Namespace, folder: str) -> Engine:
    """The engine that runs the jobs."""
    if asked.slurm:
        return slurm(folder)
    if asked.parallel is not None:
        return parallel(folder, asked.parallel)
    return Cores(asked.cores)


def join(running: Running, name: str) -> None:
    """Makes the output of a pass of those of its pieces."""
    folder, output = running.folder, os.path.join(running.folder, f"{name}.text")
    search = next(one for one in running.hunt.searches if one.name == name)
    if not os.path.exists(output):
        begun = time.monotonic()
        with whole_file(output) as beside, open(beside, "wb") as file:
            answer = subprocess.run([os.path.join(scripts(), "join"), searches_at(folder, search)], stdout=file,
                                    stderr=subprocess.PIPE, stdin=subprocess.DEVNULL)
            if answer.returncode:
                raise Refusal(FAILED, answer.stderr.decode(errors="replace").strip())
        running.hunt = replace(running.hunt, commands=(*running.hunt.commands, Command(
            f"join {name}", join_line(name), round(time.monotonic() - begun, 3), 0)))
    write_settings(output, Settings(search.mean, search.sd, "none", f"psr_hunt {shlex.join(running.hunt.arguments)}"))


def join_line(name: str) -> str:
    """The command that joins the pieces of a pass, as a line in the folder of the hunt."""
    return f"{shlex.quote(os.path.join(scripts(), 'join'))} searches/{name} > {name}.text"


def write_commands(folder: str, hunt: Hunt, head: Header) -> None:
    """Writes the commands of a hunt as lines for a shell."""
    lines = [f"cd {shlex.quote(folder)}"]
    if hunt.observation.paths == (CONVERTED,):
        converter = converter_of(hunt.inputs)
        assert converter is not None
        lines.append(f"[ -e {CONVERTED} ] || {shlex.join(conversion(converter, hunt.inputs, CONVERTED))}")
    lines += ["mkdir -p levels", *(level.command for level in hunt.levels)]
    # what psr_hunt found in the levels, as hunt.json has it
    lines.append(f"PYTHONPATH={shlex.quote(companion(''))} {shlex.quote(sys.executable)} -m malletbean.bursts .")
    for search in hunt.searches:
        lines.append(f"bash searches/{search.name}/jobs")
        if not search.fold_max:
            lines.append(join_line(search.name))
    with whole_file(os.path.join(folder, "commands")) as path, open(path, "w", encoding="utf-8",
                                                                    errors="surrogateescape") as file:
        file.writelines(f"{line}\n" for line in lines)


def failed(running: Running, failures: Sequence[Failure]) -> Refusal:
    """The refusal of a hunt whose jobs failed, each of which is named with its command and what it said."""
    for failure in failures[:-1]:
        say("psr_hunt", 0, failure_line(failure))
    for failure in failures:
        running.note(failure.task, 0.0, 1)
    return Refusal(FAILED, f"{failure_line(failures[-1])}; mend the cause, and give the same command again")


def failure_line(failure: Failure) -> str:
    """What is said of a job that failed."""
    return f"{failure.task.name} failed: {failure.line}; its command: {failure.task.line}"


def finish(asked: argparse.Namespace, running: Running, begun: float) -> list[str]:
    """Writes candidates, report and summary, removes what is of no more use, and answers the summary."""
    folder = running.folder
    table = write_candidates(folder)
    with workers(asked.cores) as pool:
        series = [pool.submit(write_level_series, folder, running.hunt.mask, *level)
                  for level in candidate_delays(running.hunt, table, MOST_SERIES)]
        write_report(folder, most=MOST_PICTURES)
        for one in series:
            one.result()
    lines = summary_lines(folder, running.hunt, running.head, count_lines(running), time.monotonic() - begun)
    if not asked.keep:
        clear(running)
    with whole_file(os.path.join(folder, "summary")) as path, open(path, "w", encoding="utf-8") as file:
        file.writelines(f"{line}\n" for line in lines)
    return lines


def count_lines(running: Running) -> int:
    """How many lines all passes have, by their last lines."""
    total = 0
    for search in running.hunt.searches:
        with open(os.path.join(running.folder, search.output), "rb") as file:
            file.seek(-min(128, os.path.getsize(file.name)), os.SEEK_END)
            words = file.read().split(b"\n")[-2].split()
            total += int(words[2 if search.fold_max else 1])
    return total


def clear(running: Running) -> None:
    """Removes levels, pieces, and the observation that was made of other files."""
    shutil.rmtree(os.path.join(running.folder, "levels"), ignore_errors=True)
    for search in running.hunt.searches:
        place = searches_at(running.folder, search)
        for name in os.listdir(place):
            if name.endswith(".text"):
                remove(os.path.join(place, name))
    if running.hunt.observation.paths == (CONVERTED,):
        remove(os.path.join(running.folder, CONVERTED))


def remove(path: str) -> None:
    """Removes a file, if it is there."""
    with suppress(FileNotFoundError):
        os.unlink(path)
