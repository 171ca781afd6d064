"""What the words of a search ask for, as far as it takes to divide it, and the program that judges the rest."""
from __future__ import annotations

import os

from .refusal import WORDS, Refusal

TYPE_CHECKING = False
if TYPE_CHECKING:
    from collections.abc import Sequence

# what psr_search takes where nothing is said; only --fold-max above 0 turns folding on
USUAL = {"min-delay": 0, "max-delay": 256, "widths": 8, "fold-step": 64, "fold-max": 0, "shards": 1, "hands": 1,
         "max-candidates": 65536, "max-bytes": 2**40}
# how many digits a value may have
MOST_DIGITS, DIGITS = 9, {"spectra": 15, "max-bytes": 15}


class Asked:
    """What a search is given: its options with their values, its files, and the whole numbers that divide it."""

    def __init__(self, own: dict[str, int]) -> None:
        self.options: dict[str, str] = {}
        self.files: list[str] = []
        # with those of the options that the program which divides it has besides
        self.numbers = USUAL | own

    @property
    def lead(self) -> int:
        """How many spectra are searched before a stretch of the time."""
        return self.numbers["max-delay"] + self.numbers["widths"]

    def words(self, *left_out: str) -> list[str]:
        """The options as one word each, without some of them."""
        return [f"--{name}={value}" for name, value in self.options.items() if name not in left_out]


def asked_by(words: Sequence[str], usage: str, own: dict[str, int]) -> Asked:
    """What the words of a search ask for, with the options that the program which divides it has besides."""
    asked, left = Asked(own), list(words)
    while left:
        word = left.pop(0)
        if word == "--":
            for path in left:
                add_file(asked, path)
            break
        if not word.startswith("--"):
            if word.startswith("-") and word != "-":
                raise Refusal(WORDS, f"{word} is no option: options begin with two hyphens. Such a file is ./{word}")
            add_file(asked, word)
            continue
        if word == "--record":
            raise Refusal(WORDS, "each job would record the same files: record by psr_record")
        name, joined, value = word[2:].partition("=")
        if not name:
            raise Refusal(WORDS, usage)
        if not joined:
            if not left:
                raise Refusal(WORDS, f"{word} has no value")
            value = left.pop(0)
            if value.startswith("-") and value != "-":
                raise Refusal(WORDS, f"a value that begins with - is joined to its option, as {word}={value}")
        add_option(asked, name, value)
    if not asked.files:
        raise Refusal(WORDS, usage)
    for name in ("mean", "sd"):
        if name not in asked.options:
            raise Refusal(WORDS, f"--{name} is missing")
    if asked.numbers["min-delay"] > asked.numbers["max-delay"]:
        raise Refusal(WORDS, "--min-delay {min-delay} is above --max-delay {max-delay}".format_map(asked.numbers))
    return asked


def add_file(asked: Asked, path: str) -> None:
    """Takes the name of a file."""
    if path == "+":
        raise Refusal(WORDS, "several observations: search each by a command of its own")
    asked.files.append(os.path.abspath(path))


def add_option(asked: Asked, name: str, value: str) -> None:
    """Takes an option and its value."""
    if name in asked.numbers:
        digits = DIGITS.get(name, MOST_DIGITS)
        if not (value.isascii() and value.isdigit() and len(value) <= digits):
            raise Refusal(WORDS, f"--{name} is '{value}', not a whole number of at most {digits} digits")
        asked.numbers[name] = int(value)
    if name in asked.options:
        raise Refusal(WORDS, f"--{name} is given twice")
    asked.options[name] = value


def program_at(name: str) -> str:
    """Where a program is: at the path that a variable of its name in capitals says, or on the PATH."""
    given = os.environ.get(name.upper(), name)
    places = [""] if os.path.dirname(given) else os.environ.get("PATH", os.defpath).split(os.pathsep)
    for place in places:
        path = os.path.join(place, given)
        if os.path.isfile(path) and os.access(path, os.X_OK):
            return os.path.abspath(path)
    raise Refusal(WORDS, f"there is no {name} on the PATH: put it there, or name it by the variable {name.upper()}")


def judge(program: str, by_time: bool, words: Sequence[str]) -> None:
    """Lets the program judge the options: it does so before it opens a file, and the one it is given is none."""
    import subprocess

    from .why import why
    words = [*(["1", "/dev/null"] if by_time else []), *words, "/dev/null"]
    told = subprocess.run([program, *words], capture_output=True, text=True)
    if told.returncode == 2:
        raise Refusal(WORDS, why(program, words) or f"{os.path.basename(program)}: {told.stderr.strip()}")
