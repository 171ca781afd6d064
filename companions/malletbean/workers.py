"""Processes that work beside this one."""
from __future__ import annotations

import multiprocessing
import signal
from concurrent.futures import ProcessPoolExecutor


def workers(count: int) -> ProcessPoolExecutor:
    """At most `count` processes, which leave it to this one to say why they ended."""
    return ProcessPoolExecutor(count, multiprocessing.get_context("fork"), left_to_parent)


def left_to_parent() -> None:
    """Makes a process end by signals without a word: the one that waits for it says it."""
    signal.signal(signal.SIGINT, signal.SIG_IGN)
    signal.signal(signal.SIGTERM, signal.SIG_DFL)
    signal.signal(signal.SIGHUP, signal.SIG_DFL)
