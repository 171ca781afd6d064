"""Files that a companion makes: each is written beside its place, and gets its name once it is whole."""
from __future__ import annotations

import os
from collections.abc import Iterator
from contextlib import contextmanager, suppress
from typing import BinaryIO

from .refusal import OUTPUT, Refusal


@contextmanager
def new_file(path: str) -> Iterator[BinaryIO]:
    """A file to write that must not be there yet. If what writes it fails, nothing is left of it."""
    if os.path.lexists(path):
        raise is_there(path)
    with written_beside(path, path) as beside:
        with open(beside, "xb") as file:
            yield file
        try:
            # unlike a rename, a link never takes the place of a file that appeared meanwhile
            os.link(beside, path)
        except FileExistsError as fault:
            raise is_there(path) from fault
        except OSError:
            # a file system without links
            os.rename(beside, path)


@contextmanager
def whole_file(path: str) -> Iterator[str]:
    """The name of a file that takes the place of the one at the path once it is written. If what writes it fails, the
    one at the path stays as it was."""
    place = os.path.realpath(path)
    with written_beside(place, path) as beside:
        yield beside
        os.replace(beside, place)


@contextmanager
def written_beside(place: str, path: str) -> Iterator[str]:
    """A name beside a place for a file that is not whole yet; whatever has that name in the end is removed."""
    beside = unfinished(place, os.getpid())
    try:
        yield beside
    except OSError as fault:
        raise Refusal(OUTPUT, f"can't write {path}: {fault.strerror}") from fault
    finally:
        with suppress(OSError):
            os.unlink(beside)


def unfinished(place: str, process: int) -> str:
    """The name of a file that a process writes beside its place."""
    return os.path.join(os.path.dirname(place), f".{process}.{os.path.basename(place)}")


def is_there(path: str) -> Refusal:
    """The refusal of a new file that isn't new."""
    return Refusal(OUTPUT, f"can't write {path}: it exists already")
