"""What a search was given, in a file beside its text: so that another mean, deviation or mask is noticed."""
from __future__ import annotations

import dataclasses
import json
import os
from dataclasses import dataclass

import numpy as np

from .headers import Header
from .masks import masked_channels
from .output import whole_file
from .refusal import TEXT, Refusal, bytes_of

SUFFIX = ".settings.json"
# how far a mean or a deviation of three decimals may be off
NOISE_ERROR = 0.0005


@dataclass(frozen=True)
class Settings:
    """The noise that a search was given, the mask whose channels it left out, and its command."""

    mean: float
    sd: float
    mask: str = "none"
    command: str = ""


def write_settings(text: str, settings: Settings) -> None:
    """Writes the settings of the search whose text has, or will have, this path."""
    with whole_file(text + SUFFIX) as name, open(name, "w", encoding="utf-8") as file:
        json.dump(dataclasses.asdict(settings), file, indent=1)
        file.write("\n")


def read_settings(text: str) -> Settings | None:
    """The settings of the search of a text, if they lie beside it."""
    path = text + SUFFIX
    if not os.path.isfile(path):
        return None
    try:
        found = json.loads(bytes_of(path))
        return Settings(float(found["mean"]), float(found["sd"]), str(found["mask"]), str(found["command"]))
    except (ValueError, KeyError, TypeError) as fault:
        raise Refusal(TEXT, f"{path} refused: {type(fault).__name__} {fault}") from fault


def check_settings(text: str, head: Header, mean: float, deviation: float) -> None:
    """Refuses a mean, a deviation or a mask that is not that of the search of a text, if its settings lie beside it."""
    settings = read_settings(text)
    if settings is None:
        return
    for name, given, right in (("MEAN", mean, settings.mean), ("SD", deviation, settings.sd)):
        if abs(given - right) > NOISE_ERROR:
            raise Refusal(TEXT, f"{name} is {given:g} here, and was {right:g} in the search of {text} "
                                f"({text + SUFFIX})")
    if not np.array_equal(masked_channels(settings.mask, head.channels), np.sort(head.masked_in_file)):
        raise Refusal(TEXT, f"the mask differs from that of the search of {text}, --mask {settings.mask} "
                            f"({text + SUFFIX})")
