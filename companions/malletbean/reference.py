"""The tables of REFERENCE.md: the options and statuses of each program, and the values that an option takes."""
from __future__ import annotations

import re
from collections.abc import Iterator
from dataclasses import dataclass
from fractions import Fraction
from functools import cache
from pathlib import Path

from .number import scaled

NUMBERS = {"one": 1, "two": 2, "three": 3, "six": 6}
# a whole number has at most this many digits, unless its row says fewer
MOST_DIGITS = 19
BETWEEN = re.compile(r"(?P<least>[0-9.]+) to (?P<greatest>[0-9.]+|[a-z-]+)\b")
CHOICES = re.compile(r"(?P<choices>[0-9]+(?:, [0-9]+)* or [0-9]+)\b")
DECIMALS = re.compile(r"(\w+) decimals?\b")
DIGITS = re.compile(r"at most ([0-9]+) digits")
MULTIPLE = re.compile(r"multiples? of ([0-9]+)")
# a list of names behind the word `order`
ORDER = re.compile(r"\border\b[^.]*?((?:[a-z-]+, ){2,}[A-Za-z-]+)")
HEADING = re.compile(r"(#+) (.*)")


@dataclass(frozen=True)
class Option:
    """An option or an argument of a program. One that is not used has its value checked, and changes nothing."""

    name: str
    values: str
    default: str
    meaning: str
    is_used: bool = True

    @property
    def is_flag(self) -> bool:
        """Whether it takes no value."""
        return self.values == "flag"

    @property
    def is_number(self) -> bool:
        """Whether its value is a number."""
        return bool(self.choices or self.limits)

    @property
    def is_required(self) -> bool:
        """Whether it has to be given."""
        return self.default == "required"

    @property
    def choices(self) -> tuple[str, ...]:
        """The values, if they are few and named one by one."""
        match = CHOICES.match(self.values)
        return tuple(re.findall("[0-9]+", match["choices"])) if match else ()

    @property
    def decimals(self) -> int | None:
        """How many decimals a value may have; None if it is a whole number without a sign."""
        match = DECIMALS.search(self.values)
        return NUMBERS[match[1]] if match else None

    @property
    def most_digits(self) -> int:
        """How many digits a whole number may have."""
        match = DIGITS.search(self.values)
        return int(match[1]) if match else MOST_DIGITS

    @property
    def step(self) -> int:
        """The number of which a value has to be a multiple."""
        match = MULTIPLE.search(self.values)
        return int(match[1]) if match else 1

    @property
    def limits(self) -> tuple[Fraction, Fraction | str] | None:
        """The minimum and the maximum, which may be the name of another option; None if no two numbers are named."""
        match = BETWEEN.match(self.values)
        if match is None:
            return None
        greatest = match["greatest"]
        return Fraction(match["least"]), Fraction(greatest) if greatest[0].isdigit() else greatest

    def value_of(self, text: str) -> Fraction | None:
        """The number that a text gives as the program reads it, or None if it has another form."""
        if self.decimals is None:
            return Fraction(text) if re.fullmatch(f"[0-9]{{1,{self.most_digits}}}", text) else None
        value = scaled(text, self.decimals)
        return None if value is None else Fraction(value, 10**self.decimals)


@dataclass(frozen=True)
class Status:
    """A row of the table of statuses: the number, the line on standard error, and what to do."""

    number: str
    line: str
    meaning: str


class Reference:
    """A document with tables whose column `Programs` says which programs a row is for.

    A table without that column is for the program in whose section it stands.
    """

    def __init__(self, text: str) -> None:
        self.sections: dict[str, list[str]] = {}
        section: list[str] = []
        for line in text.splitlines():
            match = HEADING.match(line)
            if match and len(match[1]) == 2:
                section = self.sections.setdefault(match[2], [])
            else:
                section.append(line)

    @property
    def programs(self) -> list[str]:
        """The programs, each of which has a section."""
        return [name for name in self.sections if re.fullmatch(r"(psr|ring)_[a-z]+", name)]

    def synopsis(self, program: str) -> str:
        """The command of a program: the first block of code in its section."""
        block = [line for line in self.sections[program] if line.startswith("    ")]
        return block[0].strip() if block else program

    def leading(self, program: str) -> list[str]:
        """The arguments that stand before all options."""
        words = self.synopsis(program).split()[1:]
        options = next((at for at, word in enumerate(words) if word.startswith(("-", "["))), 0)
        return words[:options]

    def options(self, program: str) -> list[Option]:
        """The arguments and options of a program."""
        found = []
        for row in self.rows("Option", program):
            name, values = plain(row["Option"]), plain(row["Range"])
            found.append(Option(name, values, plain(row["Default"]), row["Meaning"], row["Programs"] != "()"))
        return found

    def statuses(self, program: str) -> list[Status]:
        """The exit statuses of a program."""
        return [Status(*(row[head] for head in row if head != "Programs")) for row in self.rows("Status", program)]

    def order(self, program: str) -> list[str]:
        """The names of options in the order in which a program judges their values: the list that has most of them."""
        names = {option.name.lstrip("-") for option in self.options(program)}
        text = plain(" ".join(line for section in self.sections.values() for line in section))
        lists = [match[1].split(", ") for match in ORDER.finditer(text)]
        return max(lists, key=lambda found: len(names & set(found)), default=[])

    def rows(self, head: str, program: str) -> Iterator[dict[str, str]]:
        """The rows of a program in the tables whose first column has this head.

        In the column `Programs` of such a row stands the program alone, or `()` if its name stood in brackets.
        """
        for name, lines in self.sections.items():
            for row in rows_of(lines):
                if next(iter(row)) != head:
                    continue
                names = plain(row.get("Programs", name if name in self.programs else ""))
                said = {part.strip() for part in names.split(",")}
                short = program.split("_")[1]
                if said & {"all", program, short}:
                    yield {**row, "Programs": program}
                elif said & {f"({program})", f"({short})"}:
                    yield {**row, "Programs": "()"}


@cache
def reference() -> Reference:
    """REFERENCE.md: installed beside this module, else that of docs/."""
    installed = Path(__file__).with_name("REFERENCE.md")
    path = installed if installed.exists() else Path(__file__).resolve().parents[2] / "docs" / "REFERENCE.md"
    return Reference(path.read_text(encoding="utf-8"))


def cells_of(line: str) -> list[str]:
    """The cells of a row of a table."""
    return [cell.strip().replace("\\|", "|") for cell in re.split(r"(?<!\\)\|", line.strip().strip("|"))]


def rows_of(lines: list[str]) -> Iterator[dict[str, str]]:
    """The rows of all tables among lines, each as its cells by the heads of the columns."""
    heads: list[str] = []
    for line in lines:
        if not line.lstrip().startswith("|"):
            heads = []
        elif not heads:
            heads = cells_of(line)
        elif not re.fullmatch(r"[\s|:-]+", line):
            yield dict(zip(heads, cells_of(line)))


def plain(text: str) -> str:
    """A text without the marks of code."""
    return text.replace("`", "")
