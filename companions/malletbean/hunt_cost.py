"""What a hunt will cost: seconds of a core, bytes of disk and memory, by rates that were measured.

The rates are those of the tables of the manual and of docs/SPEED.md, for one thread of a quiet machine. An older or a
busy machine may take twice as long.
"""
from __future__ import annotations

import math
import os
import shutil
from collections.abc import Sequence

import numpy as np

from .arrays import Array
from .headers import Header
from .hunt_plan import level_header
from .manifest import LevelFile, SearchPass

# spectra a second that a search of one thread takes, and its megabytes, by channels (rows) and the greatest delay
RATE_CHANNELS, RATE_DELAYS = (16, 64, 256, 1024, 4096), (256, 1024, 4096, 8192)
SEARCH_RATES = 15625 * np.array([
    [400, 156, 25, 3.3], [216, 111, 15, 2.8], [167, 75, 17, 2.4], [69, 39, 9.3, 2.7], [19, 15, 5.6, 2.1]])
SEARCH_MEGABYTES = np.array([[5, 8, 22, 70], [6, 8, 25, 76], [6, 9, 27, 80], [7, 10, 31, 135], [10, 14, 40, 150]])
# input bytes a second that psr_level takes, and what it needs besides a stretch
LEVEL_RATE, LEVEL_MEGABYTES = 5e8, 16
# what psr_hunt itself needs for its libraries, its tables and pictures, and the output besides lines and levels
OWN_MEGABYTES, OWN_DISK = 400, 50_000_000


def at(table: Array, channels: int, delay: int) -> float:
    """The value of a table between its rows and columns, beyond them that at its edge."""
    row = float(np.interp(math.log(channels), np.log(RATE_CHANNELS), np.arange(len(RATE_CHANNELS))))
    column = float(np.interp(math.log(max(delay, 1)), np.log(RATE_DELAYS), np.arange(len(RATE_DELAYS))))
    low, left = min(int(row), len(RATE_CHANNELS) - 2), min(int(column), len(RATE_DELAYS) - 2)
    down, right = row - low, column - left
    corners = np.log(table[low:low + 2, left:left + 2])
    return float(np.exp(np.array([1 - down, down]) @ corners @ np.array([1 - right, right])))


def search_seconds(head: Header, search: SearchPass, spectra: int) -> float:
    """Seconds of a core for so many spectra of a pass."""
    whole = 1 / at(SEARCH_RATES, head.channels, search.max_delay)
    # of the rows of shorter delays only the lowest are made
    part = (search.max_delay - search.min_delay) / max(search.max_delay, 1)
    return spectra * whole * (0.3 + 0.7 * part)


def level_seconds(head: Header) -> float:
    """Seconds of a core for a level."""
    return head.data_bytes / LEVEL_RATE


def level_bytes(head: Header, levels: Sequence[LevelFile]) -> int:
    """Bytes of the levels of an observation."""
    return sum(level_header(head, level.average).data_bytes + head.size for level in levels)


def disk_bytes(head: Header, levels: Sequence[LevelFile], converted: bool) -> int:
    """Bytes of disk that a hunt takes while it runs."""
    return level_bytes(head, levels) + (head.data_bytes if converted else 0) + OWN_DISK


def memory_bytes(head: Header, levels: Sequence[LevelFile], searches: Sequence[SearchPass], cores: int) -> int:
    """Bytes of memory that a hunt takes at most, if no search finds too many lines."""
    search = max(at(SEARCH_MEGABYTES, head.channels, one.max_delay) for one in searches) * 1e6
    level = max(one.stretch * level_header(head, one.average).spectrum_bytes for one in levels) + LEVEL_MEGABYTES * 1e6
    return int(cores * max(search, level) + OWN_MEGABYTES * 1e6)


def free_disk(folder: str) -> int:
    """Bytes that are free where a folder is, or will be."""
    place = os.path.abspath(folder)
    while not os.path.exists(place):
        place = os.path.dirname(place)
    return shutil.disk_usage(place).free


def free_memory() -> int:
    """Bytes of memory that can be had."""
    try:
        with open("/proc/meminfo", encoding="ascii") as file:
            lines = dict(line.split(":", 1) for line in file)
        return int(lines["MemAvailable"].split()[0]) * 1024
    except (OSError, KeyError, ValueError):
        return os.sysconf("SC_PAGE_SIZE") * os.sysconf("SC_PHYS_PAGES")
