"""How the jobs of a hunt are run: on the cores of this machine, or by the engines of cluster/."""
from __future__ import annotations

import os
import re
import shlex
import signal
import socket
import subprocess
import time
from collections.abc import Callable, Sequence
from contextlib import suppress
from dataclasses import dataclass, field
from typing import Any, Protocol

from tqdm import tqdm  # type: ignore[import]

from .cluster import scripts
from .hunt_tasks import Task
from .refusal import WORDS, Refusal

# seconds between two looks at what runs, here and elsewhere
NAP, LONG_NAP = 0.02, 0.5
# how long a job that was asked to end may take to do so
PATIENCE = 10.0
# a job that runs counts for at most such a part of its predicted time
MOST_OF_RUNNING = 0.95


@dataclass(frozen=True)
class Failure:
    """A job that failed, and what it said."""

    task: Task
    line: str


class Flow(Protocol):
    """What follows from a job."""

    def done(self, task: Task, seconds: float) -> Sequence[Task]:
        """The jobs that can begin since this one is done."""

    def again(self, task: Task) -> Sequence[Task]:
        """The jobs that are run in place of one that failed, if there are any."""


class Progress:
    """A bar over the predicted seconds of all jobs, or the bytes of a file, with the time that is left."""

    def __init__(self, total: float) -> None:
        self.done = 0.0
        self.bar: Any = tqdm(total=total, disable=None, leave=False, dynamic_ncols=True,
                             bar_format="{desc}{percentage:3.0f}% |{bar}| {elapsed}, {remaining} left")

    def add(self, task: Task) -> None:
        """A job is done."""
        self.done += task.seconds

    def reach(self, what: str, done: float) -> None:
        """Draws the bar up to a place."""
        self.done = done
        self.show(what)

    def show(self, what: str, running: Sequence[tuple[Task, float]] = ()) -> None:
        """Draws the bar; of each job that runs, it is told for how long."""
        part = sum(min(MOST_OF_RUNNING * task.seconds, seconds) for task, seconds in running)
        self.bar.set_description_str(f"{what}: ", refresh=False)
        self.bar.n = min(self.done + part, self.bar.total or 0.0)
        self.bar.refresh()

    def close(self) -> None:
        """Takes the bar away."""
        self.bar.close()


class Engine(Protocol):
    """A way to run jobs."""

    def run(self, tasks: Sequence[Task], flow: Flow, progress: Progress) -> list[Failure]:
        """Runs jobs and all that follow from them, and answers those that failed."""


@dataclass
class Cores:
    """The cores of this machine: one process on each. Once a job has failed, no other begins."""

    count: int
    running: dict[subprocess.Popen[bytes], tuple[Task, float]] = field(default_factory=dict)

    def run(self, tasks: Sequence[Task], flow: Flow, progress: Progress) -> list[Failure]:
        """Runs the jobs in their order, and those that follow from them, the longest first."""
        first, later, failures = list(tasks), list[Task](), list[Failure]()
        try:
            while self.running or ((first or later) and not failures):
                while (first or later) and len(self.running) < self.count and not failures:
                    task = first.pop(0) if first else later.pop()
                    if task.is_done:
                        later = longest_last([*later, *flow.done(task, 0)])
                        progress.add(task)
                    else:
                        self.running[started(task.line)] = task, time.monotonic()
                for process in [process for process in self.running if process.poll() is not None]:
                    task, begun = self.running.pop(process)
                    if task.is_done:
                        later = longest_last([*later, *flow.done(task, time.monotonic() - begun)])
                        progress.add(task)
                    elif others := flow.again(task):
                        later = longest_last([*later, *others])
                    else:
                        failures.append(Failure(task, f"status {process.returncode}: {task.fault}"))
                now = time.monotonic()
                running = [(task, now - begun) for task, begun in self.running.values()]
                progress.show("levels" if any(task.name.startswith("levels/") for task, _ in running) else "searches",
                              running)
                time.sleep(NAP)
        finally:
            stop(list(self.running))
            self.running.clear()
        return failures


@dataclass
class Cluster:
    """An engine of cluster/, which runs the jobs of plans: levels first, then all passes."""

    folder: str
    # the command that runs so many jobs of plans and waits for their end
    command: Callable[[int, Sequence[str]], list[str]]
    # the command that cancels what this said on standard output, if there is one
    cancel: Callable[[str], list[str]] | None = None

    def run(self, tasks: Sequence[Task], flow: Flow, progress: Progress) -> list[Failure]:
        """Runs the jobs of all plans of a stage, then those that follow from them."""
        waiting, failures, stage = list(tasks), list[Failure](), "levels"
        while waiting and not failures:
            left = [task for task in waiting if not task.is_done]
            for task in waiting:
                if task.is_done:
                    progress.add(task)
            begun = time.monotonic()
            said = self.run_plans(left, progress, stage) if left else ""
            following, stage = list[Task](), "searches"
            for task in waiting:
                if task.is_done:
                    following += flow.done(task, time.monotonic() - begun if task in left else 0.0)
                elif others := flow.again(task):
                    following += others
                else:
                    failures.append(Failure(task, task.fault + said))
            waiting = following
        return failures

    def run_plans(self, tasks: Sequence[Task], progress: Progress, stage: str) -> str:
        """Runs the jobs of the plans of some jobs, and answers what the engine said, if it failed."""
        plans = list(dict.fromkeys(task.plan for task in tasks))
        count = sum(len(lines_of(plan)) for plan in plans)
        output = os.path.join(self.folder, "engine")
        with open(output, "w+b") as said:
            process = subprocess.Popen(self.command(count, plans), stdin=subprocess.DEVNULL, stdout=said, stderr=said,
                                       start_new_session=True)
            try:
                while process.poll() is None:
                    progress.show(stage, [(task, task.seconds) for task in tasks if task.is_done])
                    time.sleep(LONG_NAP)
            except BaseException:
                stop([process])
                said.seek(0)
                if self.cancel is not None:
                    subprocess.run(self.cancel(said.read().decode(errors="replace")), capture_output=True)
                raise
            for task in tasks:
                if task.is_done:
                    progress.add(task)
            said.seek(0)
            text = said.read().decode(errors="replace").strip()
        os.unlink(output)
        return f" ({text.splitlines()[-1]})" if process.returncode and text else ""


def slurm(folder: str) -> Cluster:
    """Slurm: an array of all jobs. Its own options come from the variables SBATCH_PARTITION and their like."""
    def command(count: int, plans: Sequence[str]) -> list[str]:
        return ["sbatch", "--parsable", "--wait", f"--array=1-{count}", f"--output={folder}/slurm-%A_%a.out",
                os.path.join(scripts(), "slurm.batch"), *plans]

    def cancel(said: str) -> list[str]:
        return ["scancel", said.split(";")[0].split("\n")[0]]

    return Cluster(folder, command, cancel)


def parallel(folder: str, words: str) -> Cluster:
    """GNU parallel, with words of its own."""
    try:
        options = shlex.split(words)
    except ValueError as fault:
        raise Refusal(WORDS, f"argument --parallel: {fault}") from fault

    def command(count: int, plans: Sequence[str]) -> list[str]:
        return [os.path.join(scripts(), "parallel.bash"), *options, "--", *plans]

    return Cluster(folder, command)


def lines_of(plan: str) -> list[str]:
    """The lines of the jobs of a plan."""
    with open(os.path.join(plan, "jobs"), encoding="utf-8", errors="surrogateescape") as file:
        return file.read().splitlines()


def longest_last(tasks: Sequence[Task]) -> list[Task]:
    """Jobs by how long they take."""
    return sorted(tasks, key=lambda task: task.seconds)


def started(line: str) -> subprocess.Popen[bytes]:
    """A job in a session of its own, so that all its processes can be ended."""
    return subprocess.Popen(["bash", "-c", f"exec {line}"], stdin=subprocess.DEVNULL, stdout=subprocess.DEVNULL,
                            stderr=subprocess.DEVNULL, start_new_session=True)


def stop(processes: Sequence[subprocess.Popen[bytes]]) -> None:
    """Ends jobs and all their processes, also those that outlive the job."""
    running = [process for process in processes if process.poll() is None]
    for number in (signal.SIGTERM, signal.SIGKILL):
        for process in running:
            with suppress(ProcessLookupError):
                os.killpg(process.pid, number)
        last = time.monotonic() + PATIENCE
        while time.monotonic() < last and any(process.poll() is None for process in processes):
            time.sleep(NAP)


def clear_unfinished(folder: str) -> None:
    """Removes what jobs of this machine and companions left that were killed: files with the number of a process."""
    unfinished = re.compile(rf".*\.{re.escape(socket.gethostname())}\.([0-9]+)(?:\.counted)?|\.([0-9]+)\..*")
    for place, _, names in os.walk(folder):
        for name in names:
            match = unfinished.fullmatch(name)
            if match and not os.path.exists(f"/proc/{match[1] or match[2]}"):
                os.unlink(os.path.join(place, name))
