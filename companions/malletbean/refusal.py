"""What a companion says where it can't do what was asked: one line and a status."""
from __future__ import annotations

TYPE_CHECKING = False
if TYPE_CHECKING:
    from typing import BinaryIO

WORDS = 2
HEADER = 3
TEXT = 4
MEMORY = 5
READ = 6
GAP = 7
MORE = 8
OUTPUT = 10
MASK = 12


class Refusal(Exception):
    """A status, and the line that says why."""

    def __init__(self, status: int, line: str) -> None:
        super().__init__(line)
        self.status = status
        self.line = line

    def __reduce__(self) -> tuple[type[Refusal], tuple[int, str]]:
        """How a refusal comes from another process."""
        return Refusal, (self.status, self.line)


def opened(path: str) -> BinaryIO:
    """A file or a pipe to read."""
    try:
        return open(path, "rb")
    except OSError as fault:
        raise unread(path, fault) from fault


def some_of(path: str, file: BinaryIO, count: int = -1) -> bytes:
    """The next `count` bytes of an open file or pipe, fewer only at its end; or all that are left."""
    try:
        return file.read(count)
    except OSError as fault:
        raise unread(path, fault) from fault


def bytes_of(path: str, count: int = -1) -> bytes:
    """The first `count` bytes of a file, or all of them."""
    with opened(path) as file:
        return some_of(path, file, count)


def unread(path: str, fault: OSError) -> Refusal:
    """The refusal of a file that can't be read."""
    return Refusal(READ, f"can't read {path}: {fault.strerror}")
