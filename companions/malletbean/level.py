"""What psr_level makes of values, as far as the companions have to know it."""
from __future__ import annotations

from dataclasses import dataclass

# the keywords whose numbers count bytes of a time
COUNT_BYTES = ("OBS_OFFSET", "BYTES_PER_SECOND", "FILE_SIZE", "OBS_SIZE", "TRANSFER_SIZE")
# values that lie farther off than so many deviations have no part in the moments
REACH = 4


@dataclass(frozen=True)
class Level:
    """How levelled values are: their bits, mean and deviation in thousandths, and the greatest that there is."""

    bits: int
    mean: int
    deviation: int
    most: int


# by the bits of a file
LEVELS = {8: Level(8, 64_000, 8_000, 2**8 - 1), 16: Level(16, 1_000_000, 50_000, 2**16 - 1)}
# values up to 40 are those that psr_search adds in 16 bits for longest
FAST = Level(8, 14_000, 2_800, 40)
