"""Gives the bytes of files to a program through a pipe, into which the pages of the files go without a copy."""
from __future__ import annotations

import fcntl
import os
from errno import EINVAL

TYPE_CHECKING = False
if TYPE_CHECKING:
    from collections.abc import Sequence

# bytes that a pipe is made to hold, those that it holds anyway, and those that are copied if a file can't be spliced
PIPE, SMALL, COPIED = 2**20, 2**16, 2**18


def widen(into: int) -> None:
    """Lets a pipe hold as many bytes as it may: so many large ones may not be allowed."""
    size = PIPE
    while size > SMALL:
        try:
            fcntl.fcntl(into, fcntl.F_SETPIPE_SZ, size)
            break
        except (OSError, AttributeError):
            size //= 2


def pour(into: int, parts: Sequence[tuple[str, int, int]]) -> tuple[str, OSError] | None:
    """Gives parts of files: of each so many bytes behind the first ones. Answers which file can't be read, and why.

    A program that ends before it has all bytes says why itself.
    """
    for path, skipped, count in parts:
        try:
            fill(into, path, skipped, count)
        except BrokenPipeError:
            return None
        except OSError as fault:
            return path, fault
    return None


def fill(into: int, path: str, skipped: int, count: int) -> None:
    """Gives bytes of a file: so many behind the first ones, or those that there are."""
    source = os.open(path, os.O_RDONLY)
    try:
        while count > 0:
            try:
                done = os.splice(source, into, min(count, PIPE), offset_src=skipped)
            except (OSError, AttributeError) as fault:
                # not all file systems can do it
                if getattr(fault, "errno", EINVAL) != EINVAL:
                    raise
                done = write_all(into, os.pread(source, min(count, COPIED), skipped))
            if done == 0:
                break
            skipped += done
            count -= done
    finally:
        os.close(source)


def write_all(into: int, some: bytes) -> int:
    """Writes bytes, and answers how many they are."""
    rest = memoryview(some)
    while rest:
        rest = rest[os.write(into, rest):]
    return len(some)
