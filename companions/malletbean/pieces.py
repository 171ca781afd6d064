"""Stretches of the time of an observation, each searched by a psr_part that reads its own piece of the files alone.

A piece of a stretch has the spectra before it in which its first pulses begin, and one more behind it. So a piece whose
data are there ends in a CHECK line, and the last one in an END line: `cluster/join` takes no other order.
"""
from __future__ import annotations

import os

TYPE_CHECKING = False
if TYPE_CHECKING:
    from collections.abc import Sequence

    from .files import Files

# the greatest UNTIL of psr_part, and more bytes than a file has
LAST = 2**48
# unless --size is given, a block of psr_part has so many spectra, but so many bytes at least and at most: blocks
# smaller than the usual ones, which are the greatest here, stay in the caches of a core
BLOCK_SPECTRA, LEAST_BLOCK, GREATEST_BLOCK = 64, 2**16, 2**19


class Stretch:
    """The pulses that end at `begin` and before `until` (None: up to the end), searched from `first` on."""

    def __init__(self, first: int, begin: int, until: int | None) -> None:
        self.first = first
        self.begin = begin
        self.until = until

    @property
    def name(self) -> str:
        """What its output is called."""
        return f"spectra-{self.begin:015}"

    @property
    def check(self) -> str:
        """The checkpoint of psr_part at which the stretch begins, in its piece."""
        return f"CHECK {self.begin - self.first} 0\n"

    @property
    def stop(self) -> str:
        """The UNTIL of psr_part, in its piece."""
        return str(LAST if self.until is None else self.until - self.first)


def stretches(spectra: int, count: int, lead: int) -> list[Stretch]:
    """So many spectra in `count` stretches at most, each searched from `lead` spectra before it on."""
    count = max(1, min(count, spectra))
    begins = [number * (spectra // count) for number in range(count)]
    return [Stretch(max(0, begin - lead), begin, until) for begin, until in zip(begins, [*begins[1:], None])]


def cuts(files: Files, stretch: Stretch) -> list[tuple[str, int, int]]:
    """The bytes of the files that are the stretch's piece: of each file how many are passed over, and how many taken.

    The header of the first file comes first.
    """
    size = files.header.spectrum_bytes
    low, high = stretch.first * size, LAST if stretch.until is None else (stretch.until + 1) * size
    taken = [(files.paths[0], 0, files.header.size)]
    for number, (path, head) in enumerate(zip(files.paths, files.headers)):
        begin, end = files.begins[number], files.begins[number + 1]
        # a last file may have grown
        if number == len(files.paths) - 1:
            end = LAST
        if max(low, begin) < min(high, end):
            taken.append((path, head.size + max(low, begin) - begin, min(high, end) - max(low, begin)))
    return [(os.path.abspath(path), skipped, count) for path, skipped, count in taken]


def with_block(options: Sequence[str], files: Files) -> list[str]:
    """The options of a psr_part on a piece of the files, with the size of its blocks."""
    size = max(LEAST_BLOCK, min(BLOCK_SPECTRA * files.header.spectrum_bytes, GREATEST_BLOCK))
    return [*options, *([] if any(word.startswith("--size=") for word in options) else [f"--size={size}"])]
