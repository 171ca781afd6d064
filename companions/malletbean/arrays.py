"""The type of an array, whatever it has."""
from __future__ import annotations

from typing import Any

from numpy.typing import NDArray

Array = NDArray[Any]
