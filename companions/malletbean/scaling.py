"""Floats as values of 8 bits, each channel of each polarisation by a gain and an offset of its own."""
from __future__ import annotations

from collections.abc import Sequence

import numpy as np

from .arrays import Array
from .bad_channels import stand_out
from .level import LEVELS, REACH
from .masks import mask_text
from .noise import Piece, estimate

MEAN, DEVIATION, MOST = LEVELS[8].mean // 1000, LEVELS[8].deviation // 1000, LEVELS[8].most
# what has to fit between 0 and the greatest value: so many deviations below and above the mean of each piece
BELOW, ABOVE = 6, 12
# pieces whose values lie beyond those of this part of all on either side need not fit
ODD_PIECES = 0.05
# in so many parts a stretch is looked at
PARTS = 16
# the deviation that rounding would spoil
LEAST_DEVIATION = 1
# of a normal distribution, so much lies below a deviation above the mean
BELOW_DEVIATION = 0.8413
# more cut values than this part are said on standard error
FEW_CUT = 1e-3


class Scaler:
    """Turns floats into values of 8 bits, and counts those that it cuts.

    The scale comes from pieces that lie evenly in the whole data, or else from each stretch of values by itself.
    """

    def __init__(self, pieces: Sequence[Array] | None) -> None:
        self.count = self.cut = self.unknown = 0
        # the channels that lie far off the others
        self.mask = "none"
        # of channels in which nothing has changed so far
        self._gains, self._offsets = np.zeros(1), np.full(1, float(MEAN))
        self._is_fixed = pieces is not None
        self._has_mask = False
        if pieces is not None:
            self._fit(pieces)

    def of(self, values: Array) -> Array:
        """The values, by spectrum, channel and polarisation, with 8 bits. NaN and infinite ones become the mean."""
        if not self._is_fixed:
            self._fit(np.array_split(values, min(PARTS, len(values))))
        # 24 bits are enough for values that have no more
        kind = np.float32 if values.dtype.itemsize <= 4 and values.dtype.kind == "f" else np.float64
        with np.errstate(over="ignore", invalid="ignore"):
            level: Array = values.astype(kind) * self._gains.astype(kind)
            level += self._offsets.astype(kind)
        is_unknown = ~np.isfinite(values)
        level[is_unknown] = MEAN
        np.rint(level, out=level)
        written = np.clip(level, 0, MOST)
        self.count += level.size
        self.cut += int(np.count_nonzero(written != level))
        self.unknown += int(np.count_nonzero(is_unknown))
        return written.astype(np.uint8)

    def said(self) -> list[str]:
        """What is worth knowing of the values: lines for standard output."""
        unknown = f", and {self.unknown} that are no numbers became the mean" if self.unknown else ""
        return [f"floats became 8 bits, most channels with the mean {MEAN} and the deviation {DEVIATION}; "
                f"{self.cut} of {self.count} values were cut{unknown}; mask to try: {self.mask}"]

    def warned(self) -> list[str]:
        """What has to be known: lines for standard error."""
        if self.cut <= FEW_CUT * self.count:
            return []
        part = 100 * self.cut / self.count
        return [f"{part:.2g} % of the values were cut, {self.cut} of {self.count}: they lie too far off the others of "
                "their channel"]

    def _fit(self, pieces: Sequence[Array]) -> None:
        """Gain and offset of each channel and polarisation, by the means and deviations of pieces of values."""
        means, deviations = (np.array(several) for several in zip(*map(noise_of, pieces)))
        if not self._has_mask:
            self.mask, self._has_mask = mask_by(pieces, means, deviations), True
        # what never changes in a piece tells nothing there
        changes = deviations > 0
        has_any = changes.any(axis=0)
        means[~changes], deviations[~changes] = np.nan, np.nan
        means[:, ~has_any], deviations[:, ~has_any] = 0, 1
        middle, deviation = np.nanmedian(means, axis=0), np.nanmedian(deviations, axis=0)
        low = np.nanquantile(means - BELOW * deviations, ODD_PIECES, axis=0)
        high = np.nanquantile(means + ABOVE * deviations, 1 - ODD_PIECES, axis=0)
        gains = np.minimum(DEVIATION / deviation, np.maximum(MOST / (high - low), LEAST_DEVIATION / deviation))
        offsets = np.minimum(np.maximum(MEAN - gains * middle, -gains * low), MOST - gains * high)
        self._gains = np.where(has_any, gains, self._gains)
        self._offsets = np.where(has_any, offsets, self._offsets)


def mask_by(pieces: Sequence[Array], means: Array, deviations: Array) -> str:
    """The mask of the channels that stand out in any polarisation of pieces with these means and deviations."""
    sums = []
    # the usual deviation becomes that of values that are written, beside which rounding is small
    unit = float(np.median(deviations)) / DEVIATION or 1.0
    for values, mean, deviation in zip(pieces, means, deviations):
        # a few values that lie far off say nothing of a channel
        known = np.where(np.isfinite(values), values, mean).astype(np.float64)
        near = np.clip(known, mean - ABOVE * deviation, mean + ABOVE * deviation) / unit
        sums.append(Piece(len(values), near.sum(axis=0), (near**2).sum(axis=0)))
    standing_out = np.zeros(means.shape[1], bool)
    for polarisation in range(means.shape[2]):
        mine = [Piece(one.spectra, one.sums[:, polarisation], one.squares[:, polarisation]) for one in sums]
        standing_out |= stand_out(estimate(mine, sum(one.spectra for one in mine)))
    return mask_text(np.flatnonzero(standing_out))


def noise_of(values: Array) -> tuple[Array, Array]:
    """The mean and the deviation of each channel and polarisation, whatever a few of its values are.

    They are those of the values near the median, since quantiles of values of a few steps are coarse. Both are 0 if no
    value is a number.
    """
    is_known = np.isfinite(values)
    # those that are no numbers come last
    ordered = np.sort(np.where(is_known, values, np.inf), axis=0).astype(np.float64)
    counts = is_known.sum(axis=0)
    below, median, above = (at_part(ordered, counts, part) for part in (1 - BELOW_DEVIATION, 0.5, BELOW_DEVIATION))
    reach = np.where(above > below, REACH * (above - below) / 2, np.inf)
    known = np.where(is_known, values, median).astype(np.float64)
    near = is_known & (np.abs(known - median) <= reach)
    counts = np.maximum(near.sum(axis=0), 1)
    means = np.where(near, known, 0).sum(axis=0) / counts
    return means, np.sqrt((np.where(near, known - means, 0)**2).sum(axis=0) / counts)


def at_part(ordered: Array, counts: Array, part: float) -> Array:
    """Of the first `counts` values in order, the one that has this part of them below it."""
    places = np.rint(np.maximum(counts - 1, 0) * part).astype(int)
    values: Array = np.take_along_axis(ordered, places[None], axis=0)[0]
    return np.where(counts > 0, values, 0)
