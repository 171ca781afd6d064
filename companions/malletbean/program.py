"""What the programs have in common: their words."""
from __future__ import annotations

import argparse
import os
import sys
from collections.abc import Sequence
from difflib import get_close_matches
from typing import NoReturn

from .candidates import check_fits
from .ending import say
from .headers import Header
from .number import scaled
from .refusal import TEXT, WORDS, Refusal
from .settings import SUFFIX, check_settings
from .texts import Found, read

# of so many parts with too many pulses it is said where they end
MOST_NAMED = 8


class Words(argparse.ArgumentParser):
    """A parser that says in one line what is wrong with the words."""

    def error(self, message: str) -> NoReturn:
        """Ends with the status of words."""
        raise Refusal(WORDS, f"{message}; {self.meant()}--help lists the options")

    def meant(self) -> str:
        """The option nearest to the first one of the command that is unknown, as a question."""
        names = [name for name in self._option_string_actions if name.startswith("--")]
        for word in sys.argv[1:]:
            given = word.partition("=")[0]
            if len(given) > 2 and given[0] == "-" and not any(name.startswith(given) for name in names):
                near = get_close_matches(f"--{given.lstrip('-')}", names, n=1)
                if near:
                    return f"there is no {given}: did you mean {near[0]}? "
        return ""


def add_search_words(words: Words) -> None:
    """The words that say which search a text is of."""
    words.add_argument("file", metavar="FILE", help="the first file of the observation that was searched")
    words.add_argument("mean", metavar="MEAN", type=noise_value, help="the mean that the search was given")
    words.add_argument("deviation", metavar="SD", type=noise_value, help="the deviation that the search was given")
    words.add_argument("text", metavar="TEXT", help="the output of the search")
    words.add_argument("--obs", metavar="K", type=int, help="the observation to take, if the output has several")
    words.add_argument("--beam", metavar="K", type=int, help="the beam to take, of psr_beams")
    words.add_argument("--mask", metavar="MASK", default="none", help="the mask that psr_mask was given")
    words.add_argument("--part", action="store_true",
                       help="TEXT is a last part of psr_part, whose END line counts the pulses of earlier parts too")


def check_output(words: argparse.Namespace, suffixes: tuple[str, ...]) -> None:
    """Refuses an output that ends in none of these, or that is one of the files which the words name as input."""
    if words.output is None:
        return
    if not words.output.endswith(suffixes):
        raise Refusal(WORDS, f"argument -o: {words.output} ends in none of {', '.join(suffixes)}")
    for path in (words.file, words.text, words.text + SUFFIX):
        if os.path.exists(path) and os.path.exists(words.output) and os.path.samefile(path, words.output):
            raise Refusal(WORDS, f"argument -o: {words.output} is what is read")


def noise_value(text: str) -> float:
    """A mean or a deviation of a sample, with three decimals."""
    value = scaled(text, 3)
    if value is None or not 0 <= value <= 200_000_000:
        raise argparse.ArgumentTypeError(f"{text} is not a number from 0 to 200000")
    return value / 1000


def entries_by(words: argparse.Namespace) -> list[Found]:
    """What the search found in the observations or beams that the words name: in all of them where none is named."""
    if words.deviation == 0:
        raise Refusal(WORDS, "argument SD: it is 0")
    entries = read(words.text, words.part)
    for kind, number, is_kind in (("observation", words.obs, False), ("beam", words.beam, True)):
        if number is None:
            continue
        if entries[0].is_beam != is_kind or not 0 <= number < len(entries):
            raise Refusal(TEXT, f"{words.text} has no {kind} {number}")
        return [entries[number]]
    return entries


def only_entry(words: argparse.Namespace, entries: Sequence[Found]) -> Found:
    """What the search found in the one observation or beam that the words name."""
    if len(entries) > 1:
        kind, word = ("beams", "--beam") if entries[0].is_beam else ("observations", "--obs")
        raise Refusal(TEXT, f"{words.text} has {len(entries)} {kind}: choose one with {word} K, K from 0 on")
    return entries[0]


def check_entries(name: str, words: argparse.Namespace, entries: Sequence[Found], head: Header) -> None:
    """Refuses what isn't of this header and noise, and says on standard error what the text leaves out."""
    check_settings(words.text, head, words.mean, words.deviation)
    for found in entries:
        check_fits(words.text, found, head, words.mean, words.deviation)
        if found.is_growing:
            say(name, 0, f"{words.text} goes on behind its last CHECK line: it was read up to spectrum {found.spectra}")
        if len(found.many):
            ends = ", ".join(map(str, found.many["until"][:MOST_NAMED]))
            more = f" and {len(found.many) - MOST_NAMED} more" if len(found.many) > MOST_NAMED else ""
            say(name, 0, f"{words.text} has no pulses of parts that had too many: those that end at {ends}{more}")
