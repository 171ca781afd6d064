"""The programs with their synopses and options: those of the proved ones as REFERENCE.md has them, those of companions
and of scripts of cluster/ as `--help` prints them."""
from __future__ import annotations

import os
import re
import subprocess
import sys
from dataclasses import dataclass, field
from pathlib import Path

ROOT = Path(__file__).resolve().parent.parent
sys.path.insert(0, str(ROOT / "companions"))

from malletbean.reference import Option, reference  # noqa: E402

__all__ = ["Interface", "Option", "head_of", "others", "proved", "reference"]

# scripts that are installed under another name
SCRIPTS = {"psr_plan": ROOT / "cluster" / "plan", "psr_join": ROOT / "cluster" / "join"}


@dataclass
class Interface:
    """A program's name, what it does in one sentence, how it is called, and its options."""

    name: str
    does: str
    synopsis: str
    options: list[Option] = field(default_factory=list)

    @property
    def words(self) -> list[str]:
        """The options that change something, as they are typed."""
        return [option.name for option in self.options if option.name.startswith("-") and option.is_used]


def proved() -> list[Interface]:
    """The programs of REFERENCE.md."""
    found = []
    for name in reference().programs:
        first = next(line for line in reference().sections[name] if line)
        found.append(Interface(name, first.rstrip("."), reference().synopsis(name), reference().options(name)))
    return found


def others() -> list[Interface]:
    """The companions and the scripts of cluster/, by what `--help` prints; a proved program takes a companion's place."""
    programs = {path.name: path for path in sorted((ROOT / "companions").glob("psr_*"))} | SCRIPTS
    return [of_help(name, help_of(path)) for name, path in programs.items() if name not in reference().programs]


def help_of(path: Path) -> str:
    """What a program prints of itself, without a break in its lines."""
    python = [sys.executable] if b"python" in path.read_bytes().split(b"\n", 1)[0] else []
    answer = subprocess.run([*python, str(path), "--help"], capture_output=True, text=True, check=True,
                            env={**os.environ, "COLUMNS": "1000"})
    return answer.stdout


def of_help(name: str, text: str) -> Interface:
    """The program whose `--help` is this text: `usage:`, a sentence, and options with their meanings."""
    usage, *rest = re.split(r"\n\n+", text.strip())
    command = re.sub(r"\s+", " ", usage.removeprefix("usage:")).strip()
    command = command.replace(" [-h]", "").replace(" ...]", " ..]").replace(" ...", " ARGUMENT ..")
    said = [block for block in rest if not re.match(r"(positional arguments|options):", block)]
    does = " ".join(said[0].split()) if said else " ".join(head_of(SCRIPTS[name])).split(": ")[0]
    does = re.split(r"(?<=\.)\s", does)[0].rstrip(".")
    return Interface(name, does, re.sub(r"^\S+", name, command), options_in(rest))


def head_of(script: Path) -> list[str]:
    """The lines of the comment at the head of a script."""
    text = script.read_text(encoding="utf-8")
    docstring = re.search(r'^"""(.*?)"""', text, re.S | re.M)
    if docstring:
        return docstring[1].split("\n")
    return [line.lstrip("# ") for line in re.findall(r"^#(?!!).*$", text.split("\nset ")[0], re.M)]


def options_in(blocks: list[str]) -> list[Option]:
    """The entries of the lists of arguments and options, but that of help."""
    found: list[list[str]] = []
    for block in blocks:
        if not re.match(r"(positional arguments|options):", block):
            continue
        for line in block.split("\n")[1:]:
            if re.match(r"  \S", line):
                found.append([*re.split(r"\s{2,}", line.strip(), maxsplit=1), ""][:2])
            else:
                found[-1][1] = f"{found[-1][1]} {line.strip()}".strip()
    options = []
    for names, meaning in found:
        if names.startswith("-h,"):
            continue
        name, _, value = names.split(", ")[-1].partition(" ")
        options.append(Option(name, value.replace(" ...]", " ..]"), "", meaning))
    return options
