"""Says in one sentence why a program refuses its arguments, as the tables of REFERENCE.md have them."""
from __future__ import annotations

import argparse
import os
import re
import sys
from collections.abc import Iterable, Sequence
from dataclasses import dataclass, field
from difflib import get_close_matches
from fractions import Fraction
from typing import TYPE_CHECKING, NoReturn

from .launch import COMMANDS as COMPANIONS
from .reference import Option, reference
from .refusal import Refusal

if TYPE_CHECKING:
    from . import headers

FOUND, NOT_FOUND, REFUSED = 0, 1, 2
MOST_OBSERVATIONS = 8
NO_HYPHENS = "\u2010\u2011\u2012\u2013\u2014\u2212"
# what the options of other programs and of habit are called here
OTHER_NAMES = {
    "--dm": "delays are given in spectra, by --max-delay: psr_look FILE DM prints the delay of a DM",
    "--help": "the programs have no --help: read `man {program}`",
    "--jobs": "the number of threads is --hands",
    "--nsub": "the number of ranges of delays is --shards",
    "--output": "the output goes to standard output: write `> NAME` at the end",
    "--sigma": "the minimum ratio is --snr",
    "--std": "the standard deviation is --sd",
    "--threads": "the number of threads is --hands",
    "--threshold": "the minimum ratio is --snr",
    "--version": "the programs have no --version: the file BUILT in share/doc/malletbean names it",
    "-h": "the programs have no -h: read `man {program}`",
    "-o": "the output goes to standard output: write `> NAME` at the end",
}
CHECKPOINT = re.compile(rb"CHECK ([0-9]{1,15}) ([0-9]{1,15})\n")
MOST_COUNT = 2**48


class Wrong(Exception):
    """What is wrong with the arguments, in one sentence."""


@dataclass
class Given:
    """What the arguments give: the leading ones by their names, the options, and the names of files."""

    leading: dict[str, str] = field(default_factory=dict)
    options: dict[str, str] = field(default_factory=dict)
    names: list[str] = field(default_factory=list)


def why(program: str, arguments: Sequence[str]) -> str | None:
    """Why a program refuses these arguments or the headers of their files; None if nothing is seen to be wrong.

    `program` is its name or its path; nothing is seen of one that is not proved. Nothing is run, and no data are read.
    """
    name = name_of(program)
    if name not in reference().programs:
        return None
    try:
        given = walked(name, arguments)
        check_required(name, given)
        check_values(name, given)
        check_names(name, given)
        check_one_search(name, given)
        check_files(name, given)
        check_headers(name, given)
    except Wrong as wrong:
        return str(wrong)
    return None


def name_of(program: str) -> str:
    """The name of the program at a path."""
    return os.path.basename(program).removesuffix("_main")


def perhaps(name: str, names: Iterable[str]) -> str:
    """The nearest of some names, as a question."""
    near = get_close_matches(name, list(names), n=1, cutoff=0.6)
    return f": did you mean {near[0]}?" if near else ""


def either(names: Sequence[str], last: str = "or") -> str:
    """Names as they are listed in a sentence."""
    return f" {last} ".join(filter(None, (", ".join(names[:-1]), names[-1])))


# the walk over the arguments


def walked(program: str, arguments: Sequence[str]) -> Given:
    """What the arguments give, or the first that can't stand where it is."""
    for place, argument in enumerate(arguments, 1):
        if any("\udc80" <= character <= "\udcff" for character in argument):
            raise Wrong(f"argument {place}, {argument!a}, is not UTF-8")
    options = {option.name: option for option in reference().options(program)}
    given = Given()
    leading = reference().leading(program)
    for name, argument in zip(leading, arguments):
        check_leading(program, options[name], argument)
        given.leading[name] = argument
    if len(arguments) < len(leading):
        raise Wrong(f"{leading[len(arguments)]} is missing: {reference().synopsis(program)}")
    rest = list(arguments[len(leading):])
    are_names = not any(name.startswith("--") for name in options)
    while rest:
        argument = rest.pop(0)
        if are_names or argument == "-" or not argument.startswith("-"):
            given.names.append(argument)
        elif argument == "--":
            are_names = True
        else:
            take_option(program, options, given, argument, rest)
    return given


def check_leading(program: str, option: Option, argument: str) -> None:
    """Whether an argument may stand before the options."""
    stands = reference().synopsis(program)
    if argument.startswith("-"):
        raise Wrong(f"{argument} stands where {option.name} has to be: {stands}")
    if option.limits is None:
        return
    fault = value_fault(option, argument, {})
    if fault and os.path.isfile(argument):
        raise Wrong(f"the file {argument} stands where {option.name} has to be: {stands}")
    if fault:
        raise Wrong(fault)


def take_option(program: str, options: dict[str, Option], given: Given, argument: str, rest: list[str]) -> None:
    """Takes an option, and its value, which may be the first of the rest of the arguments."""
    name, equals, value = argument.partition("=")
    option = options.get(name)
    if option is None or not name.startswith("--"):
        raise Wrong(unknown(program, options, name))
    if option.is_flag:
        if equals:
            raise Wrong(f"{name} takes no value, and {value or 'an empty one'} is given")
        value = ""
    elif not equals:
        value = next_value(option, rest)
    if name in given.options:
        raise Wrong(f"{name} is given twice")
    given.options[name] = value


def next_value(option: Option, rest: list[str]) -> str:
    """The value of an option in the argument behind it."""
    name = option.name
    if not rest:
        raise Wrong(f"{name} has no value: it takes {option.values}")
    value = rest.pop(0)
    if value == "-" or not value.startswith("-"):
        return value
    if value.startswith("--"):
        raise Wrong(f"{name} has no value, since {value} stands behind it: it takes {option.values}")
    joined = f"a value that begins with - is joined to its option, as {name}={value}"
    fault = value_fault(option, value, {})
    raise Wrong(f"{joined}; but {fault}" if fault else joined)


def unknown(program: str, options: dict[str, Option], name: str) -> str:
    """Why an argument that looks like an option is none."""
    if name in OTHER_NAMES:
        return f"{program} has no option {name}: " + OTHER_NAMES[name].format(program=program)
    if not name.startswith("--"):
        near = perhaps(f"-{name}", options)
        return f"{name} is no option: options begin with two hyphens{near or f'. A file of this name is ./{name}'}"
    others = [other for other in reference().programs if name in (option.name for option in reference().options(other))]
    if others:
        return f"{program} has no option {name}: it is one of {either(others, 'and')}"
    longer = [option for option in options if option.startswith(name)]
    if longer:
        return f"{name} is no option: names are written whole, as {either(longer)}"
    return f"{program} has no option {name}{perhaps(name, options)}"


# the values of options


def check_required(program: str, given: Given) -> None:
    """Whether every option that has to be given is there."""
    missing = [option.name for option in reference().options(program)
               if option.is_required and option.name.startswith("--") and option.name not in given.options]
    if missing:
        raise Wrong(f"{either(missing, 'and')} {'is' if len(missing) == 1 else 'are'} missing{swallowed(given)}")


def swallowed(given: Given) -> str:
    """A hint, if a name is one that a dash of another kind or a missing hyphen made."""
    for name in given.names:
        if name[:1] and name[0] in NO_HYPHENS:
            return f", and {name} begins with a dash that is no hyphen: write --"
        if re.fullmatch(r"(mean|sd)(=.*)?", name) and not os.path.exists(name):
            return f", and {name} stands without --"
    return ""


def check_values(program: str, given: Given) -> None:
    """Whether the value of each option lies in its range, in the order in which the program judges them."""
    options = {option.name: option for option in reference().options(program)}
    ordered = [f"--{name}" for name in reference().order(program)]
    for name in sorted(given.options, key=lambda name: ordered.index(name) if name in ordered else len(ordered)):
        if not options[name].is_flag:
            check_value(options[name], given.options[name], options_with(options, given))


def options_with(options: dict[str, Option], given: Given) -> dict[str, tuple[str, str]]:
    """The value of each option, and how it is told: as given, or as it is without."""
    usual = {name: (option.default, f"{name}, which is {option.default} unless given")
             for name, option in options.items()}
    return usual | {name: (value, f"{name} {value}") for name, value in given.options.items()}


def check_value(option: Option, value: str, others: dict[str, tuple[str, str]]) -> None:
    """Whether a value has the form and lies in the range of its option."""
    fault = value_fault(option, value, others)
    if fault:
        raise Wrong(fault)


def value_fault(option: Option, value: str, others: dict[str, tuple[str, str]]) -> str | None:
    """Why an option doesn't take a value."""
    name = option.name
    if value == "":
        return f"{name} has an empty value: it takes {option.values}"
    if not option.is_number:
        return None
    number = option.value_of(value)
    if number is None:
        return f"{name} is {value}{form_hint(option, value)}: it takes {option.values}"
    if option.choices:
        return None if value.lstrip("0") in option.choices else f"{name} is {value}, and takes {option.values}"
    assert option.limits is not None
    least, greatest = option.limits
    if isinstance(greatest, str):
        text, told = others.get(f"--{greatest}", ("", ""))
        if text.isdigit() and number > int(text):
            return f"{name} is {value}, above {told}"
        return None
    if not least <= number <= greatest or option.decimals is None and number % option.step:
        return f"{name} is {value}, and takes {option.values}"
    return None


def form_hint(option: Option, value: str) -> str:
    """What is wrong with the form of a value."""
    if re.fullmatch(r"[+-]?[0-9]*,[0-9]*", value):
        return ", with a comma in place of a point" if option.decimals else ", and no whole number"
    if re.fullmatch(r"[+-]?[0-9.]+[eE][+-]?[0-9]+", value):
        return ", with an exponent, which no value has"
    if option.decimals is None and re.fullmatch(r"[+-]?[0-9]*\.?[0-9]*", value) and re.search("[0-9]", value):
        return f", and a whole number without a sign and of at most {option.most_digits} digits is wanted"
    if re.match(r"[0-9.]+[a-zA-Z]", value):
        return ", with a unit, which no value has"
    return ", and no number"


# the names of files


def check_names(program: str, given: Given) -> None:
    """Whether there are as many names as the program takes."""
    options = {option.name: option for option in reference().options(program)}
    name = next((name for name in ("FILE", "NAME", "NUMBER") if name in options), None)
    if name is None:
        return
    if not given.names:
        raise Wrong(f"{name} is missing: {reference().synopsis(program)}")
    limits = options[name].limits
    if name == "FILE" and limits is not None:
        check_observations(given.names)
        count = sum(name != "+" for name in given.names)
        if not limits[0] <= count <= Fraction(limits[1]):
            named = "1 file is" if count == 1 else f"{count} files are"
            raise Wrong(f"{named} named, and {program} takes {options[name].values}")
    elif len(given.names) > 1:
        raise Wrong(f"there is one {name}, and {given.names[1]} stands behind it")
    elif limits is not None:
        check_value(options[name], given.names[0], {})


def check_observations(names: list[str]) -> None:
    """Whether `+` parts the names into observations that each have one."""
    observations = " ".join("+" if name == "+" else "." for name in names).split("+")
    if len(observations) > MOST_OBSERVATIONS:
        raise Wrong(f"+ parts {len(observations)} observations, and at most {MOST_OBSERVATIONS} are taken")
    if not all(observation.strip() for observation in observations):
        raise Wrong("+ stands between the files of two observations, and here no file stands before or behind one")


def check_one_search(program: str, given: Given) -> None:
    """Whether a program that searches one observation on its own is asked for more."""
    if not reference().leading(program):
        return
    if "+" in given.names:
        raise Wrong(f"{program} searches one observation, and + begins another")
    options = {option.name: option for option in reference().options(program)}
    folds = [options_with(options, given)[name][0] for name in ("--fold-min", "--fold-max") if name in options]
    if folds and not options["--fold-max"].is_used and int(folds[0]) <= int(folds[1]):
        raise Wrong(f"{program} folds nothing: leave --fold-min and --fold-max out, and fold by psr_search")


# the files


def check_files(program: str, given: Given) -> None:
    """Whether every file that is read can be opened."""
    if program == "psr_make":
        check_new(given)
    if program in ("psr_make", "psr_demo"):
        return
    check = given.leading.get("CHECK", "new")
    if check != "new":
        check_checkpoint(given, check)
    for name in given.names:
        if name != "+":
            check_file(name, swapped(program, given, name))


def check_new(given: Given) -> None:
    """Whether a file of psr_make can be made."""
    for name in given.names:
        if os.path.lexists(name):
            raise Wrong(f"{name} exists already, and no file is overwritten: name another, or remove it")


def swapped(program: str, given: Given, name: str) -> str:
    """A hint, if an argument that has to lead was given as a file."""
    mask = given.leading.get("MASK")
    if mask is not None and os.path.exists(mask):
        return f". {mask}, which is a file, stands where MASK has to be: {reference().synopsis(program)}"
    return ""


def check_file(path: str, hint: str = "") -> None:
    """Whether a file can be opened and read."""
    if not os.path.lexists(path):
        raise Wrong(f"{path} is not there{hint or near_file(path)}")
    if os.path.isdir(path):
        raise Wrong(f"{path} is a folder, and a file is wanted")
    if not os.path.exists(path):
        raise Wrong(f"{path} is a link to {os.readlink(path)}, which is not there")
    if not os.access(path, os.R_OK):
        raise Wrong(f"{path} can't be read: you lack the permission")


def near_file(path: str) -> str:
    """A hint to the file that was meant."""
    folder, name = os.path.split(path)
    if name[:1] and name[0] in NO_HYPHENS:
        return ", and begins with a dash that is no hyphen: write --"
    if path == "-":
        return ": standard input is /dev/stdin"
    if any(character in name for character in "*?["):
        return ": no file has a name of this pattern"
    if folder and not os.path.isdir(folder):
        return f": there is no folder {folder}"
    try:
        near = get_close_matches(name, os.listdir(folder or "."), n=1, cutoff=0.75)
    except OSError:
        return ""
    return f": did you mean {os.path.join(folder, near[0])}?" if near else ""


def check_checkpoint(given: Given, path: str) -> None:
    """Whether CHECK has a checkpoint that lies before UNTIL."""
    check_file(path, ": CHECK is `new`, or the file of a checkpoint" if not os.path.lexists(path) else "")
    if not os.path.isfile(path):
        return
    with open(path, "rb") as file:
        text = file.read(64)
    match = CHECKPOINT.fullmatch(text)
    if match is None or max(int(match[1]), int(match[2])) > MOST_COUNT:
        raise Wrong(f"{path} is not one line CHECK P C: take the last line of the part before (tail -n 1)")
    until = given.leading.get("UNTIL")
    if until is not None and int(until) <= int(match[1]):
        raise Wrong(f"UNTIL is {until}, and {path} goes on at spectrum {match[1].decode()}: give more")


# the headers


def check_headers(program: str, given: Given) -> None:
    """Whether the headers of files that can be read twice are taken, and belong together."""
    if program in ("psr_make", "psr_demo", "ring_trace"):
        return
    try:
        from . import headers, masks
    except ImportError:  # numpy is missing: what the programs say of headers names the cause itself
        return
    heads: list[headers.Header] = []
    try:
        for name in given.names:
            if name == "+":
                heads = []
            elif not os.path.isfile(name):
                return
            else:
                heads.append(headers.header(name))
                check_next(program, name, heads)
        mask = given.leading.get("MASK", given.options.get("--mask"))
        if mask is not None:
            masks.masked_channels(mask, heads[0].channels)
    except Refusal as refusal:
        raise Wrong(refusal.line) from refusal


def check_next(program: str, name: str, heads: Sequence[headers.Header]) -> None:
    """Whether the last of some headers, which is that of a file, goes on where those before it end."""
    first, last = heads[0], heads[-1]
    for keyword, one, other in (
        ("NCHAN", first.channels, last.channels),
        ("NBIT", first.bits, last.bits),
        ("NPOL", first.polarisations, last.polarisations),
        ("TSAMP", first.sample_ns, last.sample_ns),
        ("FREQ", first.centre_hz, last.centre_hz),
        ("BW", (first.width_hz, first.is_falling), (last.width_hz, last.is_falling)),
    ):
        if one != other:
            parts = "beams" if program == "psr_beams" else "files"
            raise Wrong(f"{name} has another {keyword} than the first file, and {parts} of one observation have the"
                        " same; + stands before the first file of another one")
    expected = first.offset
    if program != "psr_beams":
        expected += sum(head.data_bytes for head in heads[:-1])
    if last.offset != expected:
        raise Wrong(f"{name} has OBS_OFFSET {last.offset} where {expected} is expected: a file is missing before it,"
                    " the order is another, or it begins another observation and lacks a + before it")


class Arguments(argparse.ArgumentParser):
    """A parser that says in one line what is wrong with the arguments of psr_why."""

    def error(self, message: str) -> NoReturn:
        """Ends with the status of arguments."""
        print(f"psr_why: {message}", file=sys.stderr)
        sys.exit(REFUSED)


def main(arguments: Sequence[str]) -> int:
    """Says why the command that the arguments are is refused, and answers the status of psr_why."""
    parser = Arguments("psr_why", description="Says in one sentence why a proved program refuses its arguments.")
    parser.add_argument("program", metavar="PROGRAM", help="a proved program, for example psr_search")
    parser.add_argument("arguments", metavar="ARGUMENT", nargs=argparse.REMAINDER, help="its arguments")
    asked = parser.parse_args(arguments)
    name = name_of(asked.program)
    if name in COMPANIONS:
        parser.error(f"{name} is a companion, and says itself what is wrong; psr_why is for the proved programs")
    if name not in reference().programs:
        parser.error(f"{name} is none of the proved programs{perhaps(name, reference().programs)}")
    said = why(asked.program, asked.arguments)
    print(f"{name}: {said}" if said else f"{name}: nothing is seen here that is refused before the data are read")
    return FOUND if said else NOT_FOUND
