"""The data of an observation as they come: in files or pipes that follow one another, each opened once."""
from __future__ import annotations

from collections.abc import Sequence
from contextlib import ExitStack
from types import TracebackType
from typing import BinaryIO

from .headers import Header, check_follows, fields_of, header_of, read_header
from .refusal import MORE, Refusal, opened, unread


class Stream:
    """The data bytes of one observation, up to a number of them, each read once."""

    def __init__(self, paths: Sequence[str], most: int) -> None:
        self.paths = list(paths)
        self.most = most
        self.count = 0
        self.number = 0
        self._stack = ExitStack()
        self._file, self.text, self.header = self._opened()

    def __enter__(self) -> Stream:
        return self

    def __exit__(self, kind: type[BaseException] | None, fault: BaseException | None,
                 trace: TracebackType | None) -> None:
        self._stack.close()

    def fill(self, space: memoryview) -> int:
        """Fills a space with the next bytes, and answers how many there are: fewer only where the data end."""
        filled = 0
        while filled < len(space):
            count = self._some(space[filled:])
            filled += count
            if not count and not self._goes_on():
                break
        return filled

    def _opened(self) -> tuple[BinaryIO, bytes, Header]:
        path = self.paths[self.number]
        file = self._stack.enter_context(opened(path))
        text, whole = read_header(path, file)
        return file, text, header_of(path, fields_of(text), len(whole), 0)

    def _some(self, space: memoryview) -> int:
        # one byte past the greatest number shows that there are more
        space = space[:self.most + 1 - self.count]
        try:
            count = self._file.readinto(space)  # type: ignore[attr-defined]
        except OSError as fault:
            raise unread(self.paths[self.number], fault) from fault
        self.count += count
        if self.count > self.most:
            raise Refusal(MORE, f"more than {self.most} bytes")
        return int(count)

    def _goes_on(self) -> bool:
        """Opens the next file, where there is one."""
        if self.number + 1 == len(self.paths):
            return False
        self._stack.close()
        self.number += 1
        self._file, _, later = self._opened()
        check_follows(self.paths[self.number], self.header, later, self.number, self.count)
        return True
