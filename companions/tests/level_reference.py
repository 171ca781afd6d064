"""What psr_level writes, by its definition alone: value by value, in whole numbers of any size."""
from __future__ import annotations

import math
from collections.abc import Iterator, Sequence
from dataclasses import dataclass, field

# gains, offsets and what is carried on are counted in units, of which a written value has so many
UNIT = 2**20
MOST_GAIN = 2**40
# values farther off than so many deviations have no part in the moments
REACH = 4


@dataclass
class Reference:
    """A definition with its settings; mean, deviation and clip are thousandths."""

    mean: int
    deviation: int
    most: int
    stretch: int
    # which cells of a spectrum (channel by channel, each polarisation) are kept
    kept: Sequence[bool]
    clip: int | None = None
    zero_dm: bool = False
    carried: list[int] = field(default_factory=list)

    def written(self, spectra: Sequence[Sequence[int]]) -> list[list[int]]:
        """The levelled spectra of an observation."""
        self.carried = [0] * len(self.kept)
        scales: list[tuple[int, int]] = []
        out = []
        for begin in range(0, len(spectra), self.stretch):
            part = spectra[begin:begin + self.stretch]
            if len(part) == self.stretch or not scales:
                scales = [self.scale([spectrum[cell] for spectrum in part], is_kept)
                          for cell, is_kept in enumerate(self.kept)]
            out += [self.finished(list(self.levelled(spectrum, scales))) for spectrum in part]
        return out

    def scale(self, values: Sequence[int], is_kept: bool) -> tuple[int, int]:
        """Gain and offset of a cell that has these values in a stretch."""
        n, s, spread = moments(values)
        within = [x for x in values if (n * x - s)**2 <= REACH**2 * spread]
        n, s, spread = moments(within or values)
        d = math.isqrt(spread)
        gain = min(self.deviation * n * UNIT // (1000 * d), MOST_GAIN) if d and is_kept else 0
        return gain, (self.mean * n * UNIT // 1000 - gain * s) // n

    def levelled(self, spectrum: Sequence[int], scales: Sequence[tuple[int, int]]) -> Iterator[int]:
        """The values of a spectrum; what a cell's value leaves over is carried on to its next one."""
        for cell, (x, (gain, offset)) in enumerate(zip(spectrum, scales)):
            whole, self.carried[cell] = divmod(gain * x + offset + self.carried[cell], UNIT)
            yield self.cut(whole)

    def finished(self, values: list[int]) -> list[int]:
        """A levelled spectrum, clipped and without its mean, where that is asked for."""
        kept = [value for value, is_kept in zip(values, self.kept) if is_kept]
        n, total = len(kept), sum(kept)
        if self.clip is not None and (1000 * total - n * self.mean)**2 * 10**6 > self.clip**2 * self.deviation**2 * n:
            values = [self.mean // 1000] * len(values)
            total = n * (self.mean // 1000)
        if self.zero_dm:
            above, i = total - self.mean * n // 1000, 0
            for cell, is_kept in enumerate(self.kept):
                if is_kept:
                    values[cell] = self.cut(values[cell] - ((i + 1) * above // n - i * above // n))
                    i += 1
        return values

    def cut(self, value: int) -> int:
        """The value between the least and the greatest."""
        return min(max(value, 0), self.most)


def moments(values: Sequence[int]) -> tuple[int, int, int]:
    """How many values there are, their sum, and the square of their deviation times that of their count."""
    n, s = len(values), sum(values)
    return n, s, n * sum(x**2 for x in values) - s**2
