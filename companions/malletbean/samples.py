"""The samples of an observation, and its path sums and folds, made from them."""
from __future__ import annotations

from collections.abc import Sequence

import numpy as np

from .arrays import Array
from .files import Files
from .paths import delay_paths, fold_shifts
from .refusal import READ, TEXT, Refusal

# how many samples are worked on at a time
SAMPLES_AT_A_TIME = 2**24


class Samples(Files):
    """The samples of one observation in one or more files, which follow one another."""

    def __init__(self, paths: Sequence[str], mask: str = "none") -> None:
        super().__init__(paths)
        self.headers = [head.without(mask) for head in self.headers]

    def read(self, first: int, count: int) -> Array:
        """So many spectra from one on, each a row, polarisations added, the highest channel first, masked ones 0."""
        values = self.values(first, count)
        one = self.header.polarisations == 1
        added: Array = values[:, :, 0].astype(np.uint32) if one else values.sum(axis=2, dtype=np.uint32)
        ordered: Array = added if self.header.is_falling else added[:, ::-1]
        ordered[:, list(self.header.masked)] = 0
        return ordered

    def values(self, first: int, count: int, kind: str = "<u") -> Array:
        """So many spectra from one on, as the file has them: of each channel in its order, each polarisation."""
        head = self.header
        size = head.spectrum_bytes
        data = b"".join(self._bytes(first * size, (first + count) * size))
        values: Array = np.frombuffer(data, f"{kind}{head.bits // 8}").reshape(-1, head.channels, head.polarisations)
        return values

    def _bytes(self, first: int, stop: int) -> list[bytes]:
        """The data bytes from one place up to another, file by file."""
        pieces = []
        for path, head, begin, end in zip(self.paths, self.headers, self.begins, self.begins[1:]):
            low, high = max(first, begin), min(stop, end)
            if low >= high:
                continue
            try:
                with open(path, "rb") as file:
                    file.seek(head.size + low - begin)
                    pieces.append(file.read(high - low))
            except OSError as fault:
                raise Refusal(READ, f"can't read {path}: {fault.strerror}") from fault
        return pieces


def path_sums(spectra: Array, entries: Array) -> Array:
    """The sums along a path with these entries at the edges, for each spectrum at which it can begin among these."""
    count = len(spectra) - int(entries[-1])
    sums = np.zeros(count, np.int64)
    for channel, (enters, leaves) in enumerate(zip(entries, entries[1:])):
        total: Array = np.append(0, spectra[:, channel].cumsum(dtype=np.int64))
        sums += total[leaves + 1:leaves + 1 + count] - total[enters:enters + count]
    return sums


def path_sums_of(samples: Samples, delay: int, count: int) -> Array:
    """The first `count` path sums of a delay, from the one that begins at the first spectrum on."""
    if count + delay > samples.spectra:
        raise Refusal(TEXT, f"{count + delay} spectra are needed, and the data have {samples.spectra}: name all files")
    entries = delay_paths(samples.header.edges_khz, np.array([delay]))[:, 0]
    at_a_time = max(1, SAMPLES_AT_A_TIME // samples.header.channels)
    pieces = []
    for first in range(0, count, at_a_time):
        so_many = min(at_a_time, count - first)
        pieces.append(path_sums(samples.read(first, so_many + delay), entries))
    return np.concatenate(pieces)


def fold_profile(sums: Array, period: int, rows: int, trial: int) -> Array:
    """The fold of path sums at a period and a trial: at each phase the sum of one value of each row."""
    shifts = fold_shifts(rows, np.array([trial]))[0]
    shifted = [np.roll(row, -shift) for row, shift in zip(sums[:rows * period].reshape(rows, period), shifts)]
    profile: Array = np.sum(shifted, axis=0)
    return profile
