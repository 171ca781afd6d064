"""psr_why over mistyped commands; the programs themselves, where they are on the PATH, refuse each with its status."""
from __future__ import annotations

import os
import shlex
import shutil
import subprocess
import sys
from pathlib import Path

import pytest

import made
from conftest import HERE
from malletbean.reference import Option, Reference, reference
from malletbean.why import value_fault, why

# in each command SEARCH stands for these options
SEARCH = "--mean 16 --sd 2.828"
MISTYPED = [
    # words refused
    ("psr_search", 2, "--mean and --sd are missing"),
    ("psr_search obs.dada", 2, "--mean and --sd are missing"),
    ("psr_search --mean 16 obs.dada", 2, "--sd is missing"),
    ("psr_search SEARCH", 2, "FILE is missing: psr_search --mean V --sd V"),
    ("psr_search SEARCH --snrr 8 obs.dada", 2, "no option --snrr: did you mean --snr?"),
    ("psr_search SEARCH --max-dealy 8 obs.dada", 2, "did you mean --max-delay?"),
    ("psr_search SEARCH --width 8 obs.dada", 2, "names are written whole, as --widths"),
    ("psr_search SEARCH --max 8 obs.dada", 2, "are written whole, as --max-delay, --max-candidates or --max-bytes"),
    ("psr_search SEARCH --maxdelay 8 obs.dada", 2, "did you mean --max-delay?"),
    ("psr_search SEARCH --max_delay 8 obs.dada", 2, "did you mean --max-delay?"),
    ("psr_search SEARCH --SNR 8 obs.dada", 2, "no option --SNR"),
    ("psr_search SEARCH --dm 100 obs.dada", 2, "delays are given in spectra, by --max-delay"),
    ("psr_search SEARCH --threads 4 obs.dada", 2, "the number of threads is --hands"),
    ("psr_search SEARCH --threshold 8 obs.dada", 2, "the minimum ratio is --snr"),
    ("psr_search SEARCH --delay 8 obs.dada", 2, "it is one of psr_make"),
    ("psr_search --help", 2, "read `man psr_search`"),
    ("psr_search --version", 2, "the programs have no --version"),
    ("psr_search -h", 2, "read `man psr_search`"),
    ("psr_search SEARCH obs.dada -o found", 2, "the output goes to standard output"),
    ("psr_search -mean 16 -sd 2.828 obs.dada", 2, "options begin with two hyphens: did you mean --mean?"),
    ("psr_search SEARCH -x obs.dada", 2, "-x is no option: options begin with two hyphens"),
    ("psr_search \u2013mean 16 \u2013sd 2.828 obs.dada", 2, "begins with a dash that is no hyphen"),
    ("psr_search mean=16 sd=2.828 obs.dada", 2, "and mean=16 stands without --"),
    ("psr_search SEARCH --mean 17 obs.dada", 2, "--mean is given twice"),
    ("psr_search SEARCH --record obs.dada --record", 2, "--record is given twice"),
    ("psr_search SEARCH --snr=8 --snr=8 obs.dada", 2, "--snr is given twice"),
    ("psr_search --sd 2.828 obs.dada --mean", 2, "--mean has no value: it takes 0 to 200000"),
    ("psr_search --mean --sd 2.828 obs.dada", 2, "--mean has no value, since --sd stands behind it"),
    ("psr_search --mean -1 --sd 2.828 obs.dada", 2, "as --mean=-1; but --mean is -1, and takes 0 to 200000"),
    ("psr_search --mean -0 --sd 2.828 obs.dada", 2, "a value that begins with - is joined to its option, as --mean=-0"),
    ("psr_search SEARCH --record=yes obs.dada", 2, "--record takes no value, and yes is given"),
    ("psr_search SEARCH -- --snr 8 obs.dada", 6, "--snr is not there"),
    ("psr_record --snr 8 obs.dada", 2, "has no option --snr: it is one of psr_search, psr_mask, psr_part, psr_live"),
    ("psr_record --record obs.dada", 2, "psr_record has no option --record: it is one of psr_search"),
    ("psr_record", 2, "FILE is missing"),
    ("psr_make", 2, "NAME is missing"),
    ("psr_make new.dada more.dada", 2, "there is one NAME, and more.dada stands behind it"),
    ("psr_make --channels 32 new.dada", 2, "psr_make has no option --channels: did you mean --nchan?"),
    ("psr_mask", 2, "MASK is missing: psr_mask MASK --mean V"),
    ("psr_mask SEARCH obs.dada", 2, "--mean stands where MASK has to be"),
    ("psr_mask none SEARCH --record obs.dada", 2, "psr_mask has no option --record"),
    ("psr_mask none SEARCH obs.dada + obs.dada", 2, "psr_mask searches one observation, and + begins another"),
    ("psr_part SEARCH obs.dada", 2, "--mean stands where UNTIL has to be"),
    ("psr_part 100 SEARCH obs.dada", 2, "--mean stands where CHECK has to be"),
    ("psr_part 0 new SEARCH obs.dada", 2, "UNTIL is 0, and takes 1 to 281474976710656"),
    ("psr_part 1e6 new SEARCH obs.dada", 2, "UNTIL is 1e6, with an exponent"),
    ("psr_part 0000000000000100 new SEARCH obs.dada", 2, "of at most 15 digits is wanted"),
    ("psr_part 100 new SEARCH --fold-max 90 obs.dada", 2, "psr_part folds nothing"),
    ("psr_beams 2 SEARCH obs.dada obs.dada", 2, "--mean stands where MORE has to be"),
    ("psr_beams 2 7 SEARCH obs.dada obs.dada", 2, "MORE is 7, and takes 1 to 6 beams"),
    ("psr_beams 65537 2 SEARCH obs.dada obs.dada", 2, "WITHIN is 65537, and takes 0 to 65536 spectra"),
    ("psr_beams obs.dada obs.dada SEARCH", 2, "the file obs.dada stands where WITHIN has to be"),
    ("psr_beams 2 1 SEARCH obs.dada", 2, "1 file is named, and psr_beams takes 2 to 7 files"),
    ("psr_beams 2 1 SEARCH obs.dada + obs.dada", 2, "psr_beams searches one observation, and + begins another"),
    ("psr_demo", 2, "NUMBER is missing"),
    ("psr_demo 1 2", 2, "there is one NUMBER, and 2 stands behind it"),
    ("psr_demo -1", 2, "NUMBER is -1"),
    ("psr_demo 9223372036854775808", 2, "NUMBER is 9223372036854775808, and takes 0 to 9223372036854775807"),
    ("ring_trace", 2, "FILE is missing"),
    # option --X refused
    ("psr_search --mean 16,5 --sd 2.828 obs.dada", 2, "--mean is 16,5, with a comma in place of a point"),
    ("psr_search --mean 1.6e1 --sd 2.828 obs.dada", 2, "--mean is 1.6e1, with an exponent"),
    ("psr_search --mean 16 --sd 0 obs.dada", 2, "--sd is 0, and takes 0.001 to 200000"),
    ("psr_search --mean 16 --sd 0.0009 obs.dada", 2, "--sd is 0.0009, and takes 0.001 to 200000"),
    ("psr_search --mean=-1 --sd 2.828 obs.dada", 2, "--mean is -1, and takes 0 to 200000"),
    ("psr_search --mean= --sd 2.828 obs.dada", 2, "--mean has an empty value"),
    ("psr_search --mean = 16 --sd 2.828 obs.dada", 2, "--mean is =, and no number"),
    ("psr_search SEARCH --snr 0 obs.dada", 2, "--snr is 0, and takes 0.01 to 1000"),
    ("psr_search SEARCH --snr high obs.dada", 2, "--snr is high, and no number"),
    ("psr_search SEARCH --widths 6 obs.dada", 2, "--widths is 6, and takes 1, 2, 4, 8, 16 or 32 spectra"),
    ("psr_search SEARCH --widths 64 obs.dada", 2, "--widths is 64, and takes 1, 2, 4, 8, 16 or 32 spectra"),
    ("psr_search SEARCH --widths 1,2,4 obs.dada", 2, "--widths is 1,2,4, and no number"),
    ("psr_search SEARCH --max-delay 100000 obs.dada", 2, "--max-delay is 100000, and takes 0 to 8192 spectra"),
    ("psr_search SEARCH --max-delay 12.5 obs.dada", 2, "--max-delay is 12.5, and a whole number without a sign"),
    ("psr_search SEARCH --max-delay 20ms obs.dada", 2, "--max-delay is 20ms, with a unit"),
    ("psr_search SEARCH --max-delay +20 obs.dada", 2, "--max-delay is +20, and a whole number without a sign"),
    ("psr_search SEARCH --min-delay 300 obs.dada", 2, "is 300, above --max-delay, which is 256 unless given"),
    ("psr_search SEARCH --min-delay 30 --max-delay 20 obs.dada", 2, "--min-delay is 30, above --max-delay 20"),
    ("psr_search SEARCH --shards 8 obs.dada", 2, "--shards is 8, and takes 1 to 7"),
    ("psr_search SEARCH --hands 10 --shards 8 obs.dada", 2, "--shards is 8, and takes 1 to 7"),
    ("psr_search SEARCH + obs.dada", 2, "no file stands before or behind one"),
    ("psr_search SEARCH obs.dada +", 2, "no file stands before or behind one"),
    ("psr_search SEARCH obs.dada + + obs.dada", 2, "no file stands before or behind one"),
    ("psr_search SEARCH" + 8 * " obs.dada +" + " obs.dada", 2, "+ parts 9 observations, and at most 8 are taken"),
    ("psr_mask none SEARCH --shards 0 obs.dada", 2, "--shards is 0, and takes 1 to 7"),
    ("psr_make --nbit 32 new.dada", 2, "--nbit is 32, and takes 8 or 16 bits"),
    ("psr_make --npol 4 new.dada", 2, "--npol is 4, and takes 1 or 2"),
    # read fault
    ("psr_search SEARCH nothing.dada", 6, "nothing.dada is not there"),
    ("psr_search SEARCH obs.dad", 6, "obs.dad is not there: did you mean obs.dada?"),
    ("psr_search SEARCH 'no*.dada'", 6, "no file has a name of this pattern"),
    ("psr_search SEARCH nowhere/obs.dada", 6, "there is no folder nowhere"),
    ("psr_search SEARCH folder", 6, "folder is a folder, and a file is wanted"),
    ("psr_search SEARCH - < obs.dada", 6, "- is not there: standard input is /dev/stdin"),
    ("psr_search SEARCH obs.dada \u2013snr", 6, "begins with a dash that is no hyphen"),
    ("psr_search SEARCH link.dada", 6, "link.dada is a link to nothing.dada, which is not there"),
    ("psr_search SEARCH obs.dada nothing.dada", 6, "nothing.dada is not there"),
    ("psr_record nothing.dada", 6, "nothing.dada is not there"),
    ("psr_mask obs.dada SEARCH 3,17-19", 6, "obs.dada, which is a file, stands where MASK has to be"),
    ("psr_part 100 check SEARCH obs.dada", 6, "CHECK is `new`, or the file of a checkpoint"),
    ("psr_beams 2 1 SEARCH obs.dada nothing.dada", 6, "nothing.dada is not there"),
    ("ring_trace nothing.trace", 6, "nothing.trace is not there"),
    # what other lines name, said with the name of the file
    ("psr_search SEARCH short.dada", 3, "header of short.dada refused: Short 9"),
    ("psr_search SEARCH own.fil", 3, "own.fil refused: it is a SIGPROC filterbank: psr_fil makes a DADA file"),
    ("psr_search SEARCH obs.dada other.dada", 3, "other.dada has another NCHAN than the first file"),
    ("psr_search SEARCH obs.dada obs.dada", 7, "obs.dada has OBS_OFFSET 0 where 8192 is expected"),
    ("psr_record obs.dada other.dada", 3, "other.dada has another NCHAN than the first file"),
    ("psr_beams 2 1 SEARCH obs.dada next.dada", 7, "next.dada has OBS_OFFSET 8192 where 0 is expected"),
    ("psr_mask 3,,4 SEARCH obs.dada", 12, "mask refused: 3,,4 is no mask"),
    ("psr_mask 40 SEARCH obs.dada", 12, "mask refused: there are 32 channels, and it names 40"),
    ("psr_mask 0-31 SEARCH obs.dada", 12, "mask refused: it leaves no channel"),
    ("psr_part 100 part.text SEARCH obs.dada", 13, "part.text is not one line CHECK P C"),
    ("psr_part 100 later SEARCH obs.dada", 13, "UNTIL is 100, and later goes on at spectrum 200"),
    ("psr_make obs.dada", 11, "obs.dada exists already, and no file is overwritten"),
]
RIGHT = [
    "psr_search SEARCH obs.dada",
    "psr_search --mean=16 --sd=2.828 --snr=15 --widths 08 -- obs.dada",
    "psr_search --mean=-0 --sd 2.828 --max-candidates 0 --snr 1000 obs.dada",
    "psr_search SEARCH --max-delay 20 --min-delay 20 obs.dada next.dada",
    "psr_search obs.dada + other.dada SEARCH",
    "psr_mask 3,17-19 SEARCH --shards 2 obs.dada",
    "psr_part 100 new SEARCH obs.dada",
    "psr_part 300 later SEARCH --fold-min 3 obs.dada",
    "psr_beams 0 1 SEARCH obs.dada obs.dada",
    "psr_record --hands 3 obs.dada",
    "psr_make --number 9223372036854775807 --nbit 16 new.dada",
    "psr_demo 1",
]


@pytest.fixture
def folder(tmp_path: Path, monkeypatch: pytest.MonkeyPatch) -> Path:
    """The folder in which the commands are typed."""
    monkeypatch.chdir(tmp_path)
    for name, channels in (("obs", 32), ("next", 32), ("other", 16)):
        made.make(tmp_path / f"{name}.dada", channels=channels, spectra=256, delay=20, height=0)
    later = Path("next.dada").read_bytes().replace(b"OBS_OFFSET 0\n", b"OBS_OFFSET 8192\n", 1)
    Path("next.dada").write_bytes(later[:4096].rstrip(b"\0").ljust(4096, b"\0") + later[-8192:])
    Path("short.dada").write_bytes(b"NCHAN 32\n")
    Path("own.fil").write_bytes(b"\x0c\0\0\0HEADER_START".ljust(5000, b"\0"))
    Path("part.text").write_text("PULSE 20 19 0.926 1 1224 51\nCHECK 100 1\n", encoding="ascii")
    Path("later").write_text("CHECK 200 1\n", encoding="ascii")
    Path("folder").mkdir()
    Path("1").touch()
    Path("link.dada").symlink_to("nothing.dada")
    return tmp_path


def typed(command: str) -> list[str]:
    """The words of a command, as the shell parts them; `< obs.dada` is left out."""
    return shlex.split(command.replace("SEARCH", SEARCH).replace(" < obs.dada", ""))


@pytest.mark.parametrize("command, status, sentence", MISTYPED)
def test_a_mistyped_command(folder: Path, command: str, status: int, sentence: str) -> None:
    program, *arguments = typed(command)
    answer = why(program, arguments)
    assert answer is not None and sentence in answer and "\n" not in answer


@pytest.mark.parametrize("command", RIGHT)
def test_a_right_command(folder: Path, command: str) -> None:
    program, *arguments = typed(command)
    assert why(program, arguments) is None


@pytest.mark.parametrize("command, status", [row[:2] for row in MISTYPED] + [(command, 0) for command in RIGHT])
def test_the_program_itself(folder: Path, command: str, status: int) -> None:
    program, *arguments = typed(command)
    if shutil.which(program) is None:
        pytest.skip(f"{program} is not on the PATH")
    answer = subprocess.run([program, *arguments], stdin=subprocess.DEVNULL, capture_output=True)
    assert answer.returncode == status, answer.stderr


def test_what_is_no_program() -> None:
    assert why("psr_serch", []) is None
    assert why("/usr/bin/psr_search", [SEARCH]) is not None


def test_an_argument_that_is_not_utf_8() -> None:
    assert "argument 1, '\\udcff', is not UTF-8" in (why("psr_search", [os.fsdecode(b"\xff")]) or "")


@pytest.mark.parametrize("words, status, line", [
    ([], 2, "psr_why: the following arguments are required: PROGRAM"),
    (["--mean", "16"], 2, "psr_why: "),
    (["--help"], 0, "usage: psr_why [-h] PROGRAM"),
    (["psr_search", "--help"], 0, "psr_search: psr_search has no option --help"),
    (["psr_serch"], 2, "psr_why: psr_serch is none of the proved programs: did you mean psr_search?"),
    (["psr_hunt", "own.fil"], 2, "psr_why: psr_hunt is a companion, and says itself what is wrong"),
    (["psr_search", "--mean", "16"], 0, "psr_search: --sd is missing"),
    (["psr_make", "new.dada"], 1, "psr_make: nothing is seen here that is refused"),
])
def test_the_command(folder: Path, words: list[str], status: int, line: str) -> None:
    answer = subprocess.run([sys.executable, str(HERE.parent / "psr_why"), *words], capture_output=True, text=True)
    assert answer.returncode == status
    assert (answer.stdout + answer.stderr).startswith(line)


def test_every_row_can_be_read() -> None:
    free = {"MASK", "--mask", "CHECK", "FILE", "NAME"}
    for program in reference().programs:
        options = reference().options(program)
        assert options, program
        for option in options:
            assert option.is_flag or option.choices or option.limits or option.name in free, (program, option)
            # what stands behind a semicolon holds for other data
            usual = option.default.split(";")[0]
            if option.is_number and usual not in ("required", "off"):
                assert option.value_of(usual) is not None, (program, option)
        assert {option.name[2:] for option in options if option.is_number and option.name.startswith("--")} \
            <= set(reference().order(program)), program


def test_a_multiple() -> None:
    option = Option("EVERY", "512 to 281474976710656 spectra, a multiple of 512", "required", "")
    assert option.step == 512
    assert value_fault(option, "1024", {}) is None
    assert value_fault(option, "1000", {}) == f"EVERY is 1000, and takes {option.values}"


def test_the_forms_of_a_table() -> None:
    text = """
## Options

| Option | Range | Default | Programs | Meaning |
|---|---|---|---|---|
| `--a` | 1, 2 or 4 things | 1 | search, (mask) | a |
| `--b` | 0.5 to 7, two decimals | 1 | all | b \\| c |
| `--c` | flag | off | record | c |

Values are judged in the order b, a,
c, FILE.

## psr_search

    psr_search A [OPTION ..]

## psr_mask

    psr_mask B C --a V

| Option | Range | Default | Meaning |
|---|---|---|---|
| `B` | 1 to 6, at most 2 digits | required | b |
"""
    tables = Reference(text)
    assert tables.programs == ["psr_search", "psr_mask"]
    assert tables.leading("psr_search") == ["A"] and tables.leading("psr_mask") == ["B", "C"]
    assert tables.order("psr_search") == ["b", "a", "c", "FILE"]
    a, b, own = tables.options("psr_mask")
    assert a == Option("--a", "1, 2 or 4 things", "1", "a", False) and a.choices == ("1", "2", "4")
    assert b.decimals == 2 and b.meaning == "b | c" and b.is_used
    assert own.most_digits == 2 and own.is_required and own.value_of("007") is None
    assert [option.name for option in tables.options("psr_search")] == ["--a", "--b"]
