"""The files of an observation, by their headers."""
from __future__ import annotations

from .headers import Header, check_follows, header

TYPE_CHECKING = False
if TYPE_CHECKING:
    from collections.abc import Sequence


class Files:
    """One or more files, which follow one another, and the bytes of data before each of them and behind the last."""

    def __init__(self, paths: Sequence[str]) -> None:
        self.paths: list[str] = []
        self.headers: list[Header] = []
        self.begins = [0]
        for path in paths:
            self.add(path)

    def add(self, path: str) -> None:
        """Takes the next file."""
        later = header(path)
        check_follows(path, (self.headers or [later])[0], later, len(self.paths), self.begins[-1])
        self.paths.append(path)
        self.headers.append(later)
        self.begins.append(self.begins[-1] + later.data_bytes)

    @property
    def header(self) -> Header:
        """The header of the first file."""
        return self.headers[0]

    @property
    def spectra(self) -> int:
        """Whole spectra in all files."""
        return self.begins[-1] // self.header.spectrum_bytes
