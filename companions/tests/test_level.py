"""What psr_level writes, against its definition; what psr_look says of it, and what a search finds in it."""
from __future__ import annotations

import os
import re
import subprocess
import threading
from pathlib import Path

import numpy as np
import pytest

import made
from conftest import HERE
from level_reference import Reference
from made import needs_level
from malletbean import level
from malletbean.candidates import cells_by_delay
from malletbean.headers import header
from malletbean.look import psr_look
from malletbean.paths import delay_paths
from malletbean.samples import Samples, path_sums


def form_line(path: Path, capsys: pytest.CaptureFixture[str]) -> str:
    """What psr_look says of the form of the values."""
    capsys.readouterr()
    psr_look([str(path)])
    return "".join(line[12:] for line in capsys.readouterr().out.splitlines() if line.startswith("values"))


def changed(path: Path, kind: str, change: np.ndarray, into: str) -> None:
    """The values of the file times a change, written as another kind."""
    raw = path.read_bytes()
    values = np.frombuffer(raw[4096:], kind).reshape(-1, *change.shape) * change
    path.write_bytes(raw[:4096] + values.round().astype(into).tobytes())


def values_of(data: bytes, bits: int, channels: int) -> np.ndarray:
    """The values of a file with a header of 4096 bytes, spectrum by spectrum."""
    return np.frombuffer(data[4096:], f"<u{bits // 8}").reshape(-1, channels)


# settings of the reference, and the words that give them
CASES: dict[str, tuple[dict[str, object], list[str]]] = {
    "usual": ({}, []),
    "fast": ({"mean": 14000, "deviation": 2800, "most": 40}, ["--fast"]),
    "decimals": ({"mean": 20333, "deviation": 3007, "most": 99},
                 ["--mean", "20.333", "--deviation", "3.007", "--most", "99"]),
    "clipped": ({"clip": 1500}, ["--clip", "1.5"]),
    "zero dm": ({"zero_dm": True}, ["--zero-dm"]),
    "steep": ({"mean": 65535000, "deviation": 1000000}, ["--mean", "65535", "--deviation", "1000"]),
    "both": ({"mean": 20333, "deviation": 9000, "most": 50, "clip": 2250, "zero_dm": True},
             ["--clip", "2.25", "--zero-dm", "--mean", "20.333", "--deviation", "9", "--most", "50"]),
}
KINDS = [("<u1", 1, 1, -400, []), ("<u1", 3, 2, 400, []), ("i1", 1, 2, -400, ["--signed"]),
         ("<u2", 2, 1, 400, []), (">i2", 1, 2, -400, ["--signed", "--high-byte-first"])]


def case_values(kind: str, spectra: int, cells: int, polarisations: int) -> np.ndarray:
    """Values with channels that never change, that do so once and that have two values, and with a burst."""
    random, limits = np.random.default_rng(cells), np.iinfo(kind)
    values = random.normal(limits.min / 2 + limits.max / 2, random.uniform(0, limits.max / 8, cells), (spectra, cells))
    values[:, 2 * polarisations:3 * polarisations] = limits.max
    values[:, 3 * polarisations] = [7 if number == 50 else 1 for number in range(spectra)]
    values[:, 4 * polarisations] = random.integers(0, 2, spectra)
    values[70:73] += limits.max / 3
    return values.round().clip(limits.min, limits.max).astype(kind)


def case_words(path: Path, case: str, kind: str, average: int, polarisations: int, width: int,
               form: list[str]) -> tuple[list[str], np.ndarray]:
    """The words of a case, whose file is made, and the values of the file once they are averaged."""
    channels, spectra = 11, 131 * average + average - 1
    bits = 8 * int(kind[-1])
    made.make(path, channels=channels, spectra=1, delay=0, bits=bits, polarisations=polarisations, width=width)
    values = case_values(kind, spectra, channels * polarisations, polarisations)
    path.write_bytes(path.read_bytes()[:4096] + values.tobytes())
    added = values[:131 * average].reshape(131, average, -1).sum(axis=1, dtype=int)
    return ["--spectra", "40", "--average", str(average), "--mask", "6,1", *form, *CASES[case][1], str(path)], added


@needs_level
@pytest.mark.parametrize("case", CASES)
@pytest.mark.parametrize("kind, average, polarisations, width, form", KINDS)
def test_what_is_written_is_what_the_definition_says(
        tmp_path: Path, case: str, kind: str, average: int, polarisations: int, width: int, form: list[str]) -> None:
    words, added = case_words(tmp_path / "made.dada", case, kind, average, polarisations, width, form)
    kept = np.ones((11, polarisations), bool)
    kept[[1, 6]] = False
    bits = 8 * int(kind[-1])
    usual = level.LEVELS[bits]
    reference = Reference(**{"mean": usual.mean, "deviation": usual.deviation, "most": usual.most, "stretch": 40,
                             "kept": kept.reshape(-1).tolist()} | CASES[case][0])
    written = values_of(made.levelled(*words), 8 if case == "fast" else bits, 11 * polarisations)
    assert written.tolist() == reference.written(added.tolist())


TESTS = HERE.parent.parent / "crates/program_tests/src/level"
OPTIONS = {"--mean": "mean", "--deviation": "deviation", "--clip": "clip"}


def table_of(file: str, name: str) -> list[list[str]]:
    """The rows of a table of program_tests, each of five fields."""
    text = re.search(rf'const {name}: &str = "\n(.*?)\n";', (TESTS / file).read_text(), re.S)
    assert text
    joined = re.sub(r"\\\n *", "", text[1])
    return [[*(field.strip() for field in line.split("|")), "", "", ""][:5] for line in joined.splitlines()]


def values_in(row: list[str]) -> list[int]:
    """The values of a file of program_tests."""
    pairs = [word.split("*") if "*" in word else ("1", word) for word in row[3].split()]
    return [int(value) for count, value in pairs for _ in range(int(count))]


def written_by(words: list[str], row: list[str]) -> list[int]:
    """What the definition makes of a file of program_tests by these words."""
    text = " ".join(row[1].split(";"))
    bits, channels = (int(re.search(rf"{key} +(\d+)", text)[1]) for key in ("NBIT", "NCHAN"))  # type: ignore[index]
    polarisations = 2 if "NPOL 2" in text else 1
    cells = channels * polarisations
    given = dict(pair for pair in zip(words, [*words[1:], ""]) if pair[0].startswith("--"))
    masked = {int(word) for word in re.findall(r"\d+", given.get("--mask", ""))}
    usual = level.FAST if "--fast" in given else level.LEVELS[bits]
    settings = {"mean": usual.mean, "deviation": usual.deviation} | {
        name: round(1000 * float(given[option])) for option, name in OPTIONS.items() if option in given}
    times = int(given.get("--average", 1))
    values = values_in(row)
    count = len(values) // (cells * times)
    spectra = np.array(values[:count * cells * times], int).reshape(count, times, cells).sum(axis=1)
    kept = [channel not in masked for channel in range(channels) for _ in range(polarisations)]
    reference = Reference(most=int(given.get("--most", usual.most)), stretch=int(given.get("--spectra", 16384)),
                          kept=kept, zero_dm="--zero-dm" in given, **settings)  # type: ignore[arg-type]
    return [value for spectrum in reference.written(spectra.tolist()) for value in spectrum]


def test_the_rows_of_the_proved_tests_are_those_of_the_definition() -> None:
    """Each run of crates/program_tests that reads one file and ends with 0."""
    files = {row[0]: row for row in table_of("files.rt", "FILES")}
    tried = 0
    for words, _, status, output, _ in table_of("cases.rt", "RUNS"):
        split = words.replace("=", " ").split()
        names = [word for word in split if word in files]
        if status == "0" and len(names) == 1:
            assert written_by(split, files[names[0]]) == values_in(files[output]), words
            tried += 1
    assert tried >= 20


@needs_level
@pytest.mark.parametrize("bits, mean, deviation", [(8, 64, 8), (16, 2000, 50 * 2**0.5)])
def test_a_tilted_band_that_drifts(tmp_path: Path, bits: int, mean: float, deviation: float) -> None:
    path, out = tmp_path / "tilted.dada", tmp_path / "out.dada"
    polarisations = bits // 8
    made.make(path, spectra=8192 + 100, height=0, bits=bits, polarisations=polarisations)
    gains = np.linspace(0.9, 1.1, 64)[:, None] * np.linspace(1, 1.2, 8192 + 100)[:, None, None]
    changed(path, f"<u{polarisations}", np.broadcast_to(gains, (8292, 64, polarisations)), f"<u{polarisations}")
    made.level(path, out, "--spectra", "2048")
    assert out.read_bytes()[:4096] == path.read_bytes()[:4096] and out.stat().st_size == path.stat().st_size
    samples = Samples([str(out)]).read(0, 8292)
    for first in range(0, 8192, 2048):
        stretch = samples[first:first + 2048]
        assert stretch.mean(axis=0) == pytest.approx(mean, abs=0.05 * deviation)
        assert stretch.std(axis=0) == pytest.approx(deviation, rel=0.1)


@needs_level
def test_a_pulse_keeps_its_strength(tmp_path: Path) -> None:
    path, out = tmp_path / "pulse.dada", tmp_path / "out.dada"
    before = made.make(path, delay=0, period=2000, height=6)
    made.level(path, out)
    after = Samples([str(out)]).read(0, 4096)
    strength = [(sums[2000] - sums.mean()) / sums[2001:4000].std()
                for sums in (before.sum(axis=1), after.sum(axis=1, dtype=int))]
    assert strength[1] == pytest.approx(strength[0], rel=0.02)


@needs_level
@pytest.mark.parametrize("bits, polarisations, width, words, mean", [
    (8, 1, -400, [], 64), (16, 2, 400, [], 1000), (16, 1, 400, ["--fast", "--average", "4"], 14),
])
def test_masked_channels_have_the_mean(tmp_path: Path, capsys: pytest.CaptureFixture[str], bits: int,
                                       polarisations: int, width: int, words: list[str], mean: int) -> None:
    path, out, other = (tmp_path / f"{name}.dada" for name in ("made", "out", "other"))
    made.make(path, bits=bits, polarisations=polarisations, width=width)
    made.level(path, other, *words)
    made.level(path, out, "--mask", "3,19-17", *words)
    wanted = Samples([str(other)]).values(0, header(str(other)).spectra).copy()
    wanted[:, [3, 17, 18, 19]] = mean
    assert (Samples([str(out)]).values(0, len(wanted)) == wanted).all()
    psr_look([str(out)])
    assert "\nmask to try: 3,17-19\n" in capsys.readouterr().out


@needs_level
def test_a_masked_search_and_a_levelled_mask_are_alike(tmp_path: Path) -> None:
    """Masked channels count as cells without noise, and the deviation of all of them makes up for that."""
    path, out = tmp_path / "made.dada", tmp_path / "out.dada"
    made.make(path, delay=64, period=4096, height=6)
    made.level(path, out, "--mask", "3,17-19,40,60")
    ratios = []
    for mask in ("none", "3,17-19,40,60"):
        samples = Samples([str(out)], mask)
        spectra, head = samples.read(0, 4096), samples.header
        kept = spectra[:, head.kept]
        cells = int(cells_by_delay(head, np.array([64]))[0])
        first = path_sums(spectra, delay_paths(head.edges_khz, np.array([64]))[:, 0])[0]
        ratios.append((first - 64 * cells) / (np.sqrt(kept.var(axis=0).mean()) * np.sqrt(cells)))
    assert 20 < ratios[1] and ratios[0] == pytest.approx(ratios[1], rel=0.02)


@needs_level
@pytest.mark.parametrize("into, words", [
    ("<i2", "--signed"), (">u2", "--high-byte-first"), (">i2", "--signed --high-byte-first"), ("i1", "--signed"),
])
def test_other_forms_are_known_and_turned(tmp_path: Path, capsys: pytest.CaptureFixture[str], into: str,
                                          words: str) -> None:
    path, out = tmp_path / "other.dada", tmp_path / "out.dada"
    bits = 8 if into == "i1" else 16
    made.make(path, spectra=2048, height=0, bits=bits, polarisations=2)
    assert form_line(path, capsys) == ""
    raw = path.read_bytes()
    values = np.frombuffer(raw[4096:], f"<u{bits // 8}").astype(int) - (16 if "i" in into else 0)
    path.write_bytes(raw[:4096] + values.astype(into).tobytes())
    assert f"psr_level {words} " in form_line(path, capsys)
    made.level(path, out, *words.split())
    assert form_line(out, capsys) == ""
    mean, deviation = level.LEVELS[bits].mean / 1000, level.LEVELS[bits].deviation / 1000
    samples = Samples([str(out)]).read(0, 2048)
    assert samples.mean() == pytest.approx(2 * mean, abs=0.01 * deviation)
    assert samples.std() == pytest.approx(2**0.5 * deviation, rel=0.02)


@needs_level
def test_a_dispersed_pulse_wider_than_what_is_averaged(tmp_path: Path) -> None:
    path, out = tmp_path / "made.dada", tmp_path / "out.dada"
    made.make(path, channels=16, spectra=30000, delay=12000, period=6667, height=1)
    made.level(path, out, "--average", "2")
    strengths = []
    for file, delay, deviation, starts in ((path, 12000, 8**0.5, (0, 6667, 13334)), (out, 6000, 8, (0, 3333, 6667))):
        samples = Samples([str(file)])
        entries = delay_paths(samples.header.edges_khz, np.array([delay]))[:, 0]
        sums = path_sums(samples.read(0, samples.spectra), entries)
        heights = (sums - np.median(sums)) / (deviation * (16 + delay)**0.5)
        strengths.append([heights[max(0, start - 2):start + 3].max() for start in starts])
    assert min(strengths[0]) > 25 and strengths[1] == pytest.approx(strengths[0], rel=0.03)


def parts_of(path: str, folder: Path, places: list[int]) -> list[str]:
    """The files of one observation that a file gives, cut at these data bytes."""
    head, data = Path(path).read_bytes()[:4096], Path(path).read_bytes()[4096:]
    names = []
    for first, stop in zip([0, *places], [*places, len(data)]):
        names.append(str(folder / f"part{first}.dada"))
        text = head.replace(b"OBS_OFFSET 0\n", b"OBS_OFFSET %d\n" % first)[:4096]
        Path(names[-1]).write_bytes(text + data[first:stop])
    return names


@needs_level
def test_several_files_and_pipes(tmp_path: Path) -> None:
    path = tmp_path / "made.dada"
    made.make(path, spectra=1000)
    wanted = made.levelled(str(path), "--spectra", "100")
    parts = parts_of(str(path), tmp_path, [1, 5000, 50001])
    assert made.levelled(*parts, "--spectra", "100") == wanted
    pipe = tmp_path / "pipe"
    os.mkfifo(pipe)
    writer = threading.Thread(target=lambda: pipe.write_bytes(Path(parts[1]).read_bytes()))
    writer.start()
    assert made.levelled(parts[0], str(pipe), *parts[2:], "--spectra", "100") == wanted
    writer.join()


@needs_level
def test_it_writes_as_the_data_come(tmp_path: Path) -> None:
    """A block of 65536 bytes at a time."""
    path = tmp_path / "made.dada"
    made.make(path, spectra=1300)
    raw = path.read_bytes()
    with subprocess.Popen(["psr_level", "/dev/stdin", "--spectra", "128"], stdin=subprocess.PIPE,
                          stdout=subprocess.PIPE) as program:
        assert program.stdin is not None and program.stdout is not None
        program.stdin.write(raw[:4096 + 65536])
        program.stdin.flush()
        first = program.stdout.read(4096 + 65536)
        rest, _ = program.communicate(raw[4096 + 65536:])
    assert program.returncode == 0
    assert first + rest == made.levelled(str(path), "--spectra", "128")
