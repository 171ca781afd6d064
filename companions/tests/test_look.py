"""What psr_look says of made observations."""
from __future__ import annotations

import os
import shlex
import threading
from pathlib import Path

import numpy as np
import pytest

import made
from malletbean import Refusal, header
from malletbean.bad_channels import stand_out
from malletbean.candidates import shared_by_delay
from malletbean.look import psr_look
from malletbean.noise import form_of, measure
from malletbean.paths import box_noise_cells
from malletbean.samples import Samples


def all_said(capsys: pytest.CaptureFixture[str], *words: str) -> list[tuple[str, str]]:
    """The lines that are said: a name and what follows it."""
    capsys.readouterr()
    psr_look(words)
    return [(line[:12].strip(), line[12:]) for line in capsys.readouterr().out.splitlines()]


def said(capsys: pytest.CaptureFixture[str], *words: str) -> dict[str, str]:
    """What is said first under each name; the first line under the name `first`."""
    lines = all_said(capsys, *words)
    return {"first": "".join(lines[0])} | dict(reversed(lines))


def levelled(path: Path, factors: np.ndarray) -> str:
    """The file with the samples of each channel, the highest first, times a factor."""
    head, data = path.read_bytes()[:4096], np.frombuffer(path.read_bytes()[4096:], np.uint8)
    path.write_bytes(head + (data.reshape(-1, len(factors)) * factors).round().astype(np.uint8).tobytes())
    return str(path)


def test_a_flat_band(tmp_path: Path, capsys: pytest.CaptureFixture[str]) -> None:
    made.make(tmp_path / "a file.dada", height=0)
    lines = said(capsys, str(tmp_path / "a file.dada"), "5")
    assert "psr_look estimates, from all data" in lines["first"]
    assert "nothing of what it says is proved" in lines["first"]
    mean, deviation = (float(word) for word in lines["noise"].split() if word[0].isdigit())
    assert mean == pytest.approx(16, abs=0.02) and deviation == pytest.approx(2.828, abs=0.01)
    assert lines["mask to try:"] == " none" and not {"masked", "level first", "order", "tsamp", "values"} & set(lines)
    assert lines["delay"].startswith("DM 5 takes 102.5 spectra")
    assert "256 spectra across the band are DM 12.487" in lines["reach"]
    assert "8192 spectra across the band are DM 399.610" in lines["reach"]
    assert lines["hunt"].startswith(f"psr_hunt '{tmp_path}/a file.dada' --dm 0 5 -o FOLDER ")


def options_of(text: str) -> dict[str, str]:
    """The options of a command and what follows them."""
    words = shlex.split(text)
    return {word: words[place + 1] for place, word in enumerate(words[:-1]) if word.startswith("--")}


def test_the_searches_of_a_level_file(tmp_path: Path, capsys: pytest.CaptureFixture[str]) -> None:
    """They leave no dispersion measure and no width out, and name a true S/N."""
    made.make(tmp_path / "made.dada", channels=64, spectra=32768, delay=0, height=0)
    lines = all_said(capsys, str(tmp_path / "made.dada"), "100")
    searches = [text for name, text in lines if name in ("words", "wider")]
    assert searches[0].startswith("psr_search --mean 1") and "psr_level" not in searches[0]
    reach, widest = 0, 0
    for text in searches:
        options = options_of(text)
        average = int(options.get("--average", 1))
        assert options["--snr"] == "7" and options["--max-candidates"] == "1048576"
        assert int(options.get("--min-delay", 0)) * average <= reach + average
        reach = max(reach, int(options["--max-delay"]) * average)
        widest = max(widest, int(options["--widths"]) * average)
        assert average == 1 or " | psr_search --mean 14 --sd 2.8" in text and text.endswith(" /dev/stdin")
    # DM 100 is 2050 spectra, and 32 ms are 500
    assert reach >= 2050 and widest >= 500


@made.needs_level
def test_searches_that_are_said_run(tmp_path: Path, capsys: pytest.CaptureFixture[str]) -> None:
    """What psr_level is told to make is as the search is told."""
    made.make(tmp_path / "made.dada", channels=64, spectra=32768, delay=0, height=0)
    wider = [text for name, text in all_said(capsys, str(tmp_path / "made.dada"), "100", "--mask", "5-20")
             if name == "wider"]
    assert wider
    for text in wider:
        level, search = (shlex.split(part) for part in text.split(" | "))
        (tmp_path / "level.dada").write_bytes(made.levelled(*level[1:]))
        samples = Samples([str(tmp_path / "level.dada")])
        values = samples.read(0, samples.spectra)
        assert values.mean() == pytest.approx(float(search[2]), abs=0.05)
        assert np.sqrt(values.var(axis=0).mean()) == pytest.approx(float(search[4]), rel=0.03)


def test_polarisations_are_added(files: dict[str, str], capsys: pytest.CaptureFixture[str]) -> None:
    lines = said(capsys, files["rising"])
    mean = float(lines["noise"].split()[5])
    assert 32 < mean < 33
    assert "16 bits, two polarisations" in lines["samples"] and "the lowest first" in lines["band"]


def test_file_size_cuts_between_spectra(tmp_path: Path, capsys: pytest.CaptureFixture[str]) -> None:
    made.make(tmp_path / "odd.dada", channels=96, spectra=9000, delay=1, polarisations=2, bits=16)
    text = said(capsys, str(tmp_path / "odd.dada"), "100")["file size"]
    size, times = int(text.split()[1]), int(text.split("multiple of ")[1].split(",")[0])
    assert times > 1 and size % (384 * times) == 0 and 2**30 - 384 * times < size <= 2**30


@made.needs_level
def test_a_tilted_band_and_channels_that_stand_out(tmp_path: Path, capsys: pytest.CaptureFixture[str]) -> None:
    path = tmp_path / "tilted.dada"
    made.make(path, channels=64, spectra=8192, height=0)
    flat = said(capsys, str(path))
    factors = np.linspace(0.9, 1.1, 64)
    factors[[3, 17, 18, 19]] = 3
    uneven = said(capsys, levelled(path, factors), "5")
    assert uneven["mask to try:"] == " 3,17-19"
    assert ratio_of(flat["even"]) < 1 < ratio_of(uneven["even"])
    assert "words" not in uneven and uneven["level first"].startswith("psr_level --spectra ")
    words = shlex.split(uneven["level first"].split(", then psr_look OUT 5: ")[0])
    assert words[3:5] == ["--mask", "3,17-19"] and words[-2:] == [">", "OUT"]
    (tmp_path / "level.dada").write_bytes(made.levelled(*words[1:-2]))
    after = said(capsys, str(tmp_path / "level.dada"), "5")
    # masked channels never change, so the noise of all is right for a search without a mask
    assert after["mask to try:"] == " 3,17-19" and "level first" not in after and "masked" not in after
    assert after["words"].startswith("psr_search --mean 64.0")


def drifted(path: Path, bits: int, height: float) -> str:
    """A file of 64 channels whose mean rises and falls once by so much, its values times 2 and 8 more."""
    made.make(path, spectra=16384, height=0, bits=bits)
    raw = path.read_bytes()
    values = np.frombuffer(raw[4096:], f"<u{bits // 8}").reshape(16384, 64)
    drift = height * np.sin(np.linspace(0, 2 * np.pi, 16384))[:, None]
    path.write_bytes(raw[:4096] + (2 * (values + drift) + 8).round().astype(f"<u{bits // 8}").tobytes())
    return str(path)


@made.needs_level
@pytest.mark.parametrize("bits", [8, 16])
def test_what_is_to_be_levelled_first(tmp_path: Path, capsys: pytest.CaptureFixture[str], bits: int) -> None:
    assert "level first" not in said(capsys, drifted(tmp_path / "flat.dada", bits, 0), "5")
    lines = said(capsys, drifted(tmp_path / "a drift.dada", bits, 1), "5")
    assert not {"words", "wider", "masked"} & set(lines)
    words = shlex.split(lines["level first"].split(", then psr_look OUT 5: ")[0])
    assert words == ["psr_level", "--spectra", "512", "--zero-dm", f"{tmp_path}/a drift.dada", ">", "OUT"]
    made.level(words[-3], tmp_path / "level.dada", *words[1:-3])
    assert "level first" not in said(capsys, str(tmp_path / "level.dada"), "5")
    made.level(words[-3], tmp_path / "less.dada", "--spectra", "10000")
    assert said(capsys, str(tmp_path / "less.dada"), "5")["level first"].startswith("psr_level again, from the file as")


def test_a_stretch_is_longer_than_a_pulse(tmp_path: Path, capsys: pytest.CaptureFixture[str]) -> None:
    file = drifted(tmp_path / "drift.dada", 8, 12)
    short, long = (int(options_of(said(capsys, file, dm)["level first"])["--spectra"]) for dm in ("5", "390"))
    assert short == 256 and long >= 2048


def band_of(path: Path, means: np.ndarray, deviations: np.ndarray) -> str:
    """A file of 8 bits whose channels have these means and deviations."""
    made.make(path, channels=len(means), spectra=1, delay=0)
    values = np.random.default_rng(1).normal(means, deviations, (4096, len(means)))
    path.write_bytes(path.read_bytes()[:4096] + values.round().clip(0, 255).astype(np.uint8).tobytes())
    return str(path)


def wavy(least: float, most: float) -> np.ndarray:
    """Numbers of 256 channels that rise and fall."""
    return least + (most - least) * (1 + np.sin(np.linspace(0, 9, 256))) / 2


@made.needs_level
@pytest.mark.parametrize("least, channels, mask", [(15, [], "none"), (3, [], "none"), (15, [100], "100"),
                                                   (4, [100, 101, 200], "100-101,200")])
def test_interference_in_an_uneven_band(tmp_path: Path, capsys: pytest.CaptureFixture[str], least: float,
                                        channels: list[int], mask: str) -> None:
    means = wavy(least, 150)
    deviations = 0.1313 * means
    deviations[channels] *= 1.4
    file = band_of(tmp_path / "band.dada", means, deviations)
    assert said(capsys, file)["mask to try:"] == f" {mask}"
    made.level(file, tmp_path / "level.dada")
    assert said(capsys, str(tmp_path / "level.dada"))["mask to try:"] == " none"


@pytest.mark.parametrize("means, deviations", [
    (wavy(15, 150), np.full(256, 3.0)), (wavy(60, 120), wavy(2, 14)), (np.full(256, 64.0), wavy(2, 12)),
    (wavy(40, 100)[::-1], wavy(2, 12)**2 / 12), (wavy(80, 90), wavy(14, 2)), (wavy(15, 150) + 30, wavy(2, 20)),
    (wavy(15, 150), np.hypot(wavy(2, 20), 3)),
])
def test_deviations_that_do_not_follow_the_means(tmp_path: Path, capsys: pytest.CaptureFixture[str],
                                                 means: np.ndarray, deviations: np.ndarray) -> None:
    assert said(capsys, band_of(tmp_path / "band.dada", means, deviations))["mask to try:"] == " none"


def rolled_off(path: Path, tones: dict[int, float], gains: float = 0.0) -> Samples:
    """A band of 512 channels that is rolled off at both edges and drifts. Tones that come and go raise deviations by
    factors. Gains of neighbours differ by a part."""
    made.make(path, channels=512, spectra=1, delay=0)
    random = np.random.default_rng(5)
    places = np.linspace(-1, 1, 512)
    shape = 1 / (1 + (np.abs(places) / 0.88)**24) * (1 + gains * random.normal(size=512))
    spectra = 8192
    values = random.normal(100, 9, (spectra, 512)) * shape
    for channel, factor in tones.items():
        is_on = np.arange(spectra) // 700 % 3 == channel % 3
        # on for a third of the time
        height = 9 * shape[channel] * np.sqrt((factor**2 - 1) / (1 / 3 - 1 / 9))
        values[is_on, channel] += height
    values *= np.linspace(1, 1.1, spectra)[:, None]
    path.write_bytes(path.read_bytes()[:4096] + values.round().clip(0, 255).astype(np.uint8).tobytes())
    return Samples([str(path)])


TONES = {40: 2.7, 41: 1.9, 120: 1.5, 255: 2.0, 300: 1.6, 470: 2.2}


@pytest.mark.parametrize("tones, gains", [({}, 0), (TONES, 0), ({}, 0.04), (TONES, 0.04)])
def test_tones_in_a_rolled_off_band(tmp_path: Path, tones: dict[int, float], gains: float) -> None:
    samples = rolled_off(tmp_path / "band.dada", tones, gains)
    assert np.flatnonzero(stand_out(measure(samples, samples.spectra).whole)).tolist() == list(tones)


def test_channels_that_never_change(tmp_path: Path, capsys: pytest.CaptureFixture[str]) -> None:
    """They stand out, be they more than half or in an uneven band."""
    for number, (dead, mask) in enumerate(((range(10, 200), "10-199"), ([3], "3"))):
        means = wavy(15, 150)
        deviations = 0.1313 * means
        deviations[dead] = 0
        assert said(capsys, band_of(tmp_path / f"{number}.dada", means, deviations))["mask to try:"] == f" {mask}"


def test_constant_data(tmp_path: Path, capsys: pytest.CaptureFixture[str]) -> None:
    lines = said(capsys, band_of(tmp_path / "constant.dada", wavy(15, 150), np.zeros(256)), "5")
    assert "nothing to search" in lines["constant"] and not {"words", "level first", "hunt", "wider"} & set(lines)


@made.needs_level
@pytest.mark.parametrize("into, words", [("<i2", "--signed"), (">u2", "--high-byte-first")])
def test_values_of_another_form(tmp_path: Path, capsys: pytest.CaptureFixture[str], into: str, words: str) -> None:
    """All that is said is of the values as they are, and no search takes them as they aren't."""
    path = tmp_path / "other.dada"
    made.make(path, height=0, bits=16)
    values = np.frombuffer(path.read_bytes()[4096:], "<u2").astype(int) - (16 if "i" in into else 0)
    path.write_bytes(path.read_bytes()[:4096] + values.astype(into).tobytes())
    lines = said(capsys, str(path), "5")
    assert f"psr_level {words} turns them" in lines["values"]
    assert float(lines["noise"].split()[-1]) == pytest.approx(2.83, abs=0.02)
    assert not {"words", "wider", "masked"} & set(lines)
    command = shlex.split(lines["level first"].split(", then")[0])
    assert words in command
    (tmp_path / "level.dada").write_bytes(made.levelled(*command[1:-2]))
    assert "words" in said(capsys, str(tmp_path / "level.dada"), "5")


def with_fields(path: Path, **fields: str) -> str:
    """The file with further fields in front of its own."""
    text = "".join(f"{keyword} {value}\n" for keyword, value in fields.items()).encode() + path.read_bytes()[:4096]
    path.write_bytes(text.rstrip(b"\0").ljust(4096, b"\0") + path.read_bytes()[4096:])
    return str(path)


@pytest.mark.parametrize("order, polarisations, is_said", [
    ("TF", 1, False), ("TFP", 2, False), ("TPF", 1, False), ("TPF", 2, True), ("FT", 1, True), ("PFT", 2, True),
    ("UNKNOWN", 1, False),
])
def test_another_order(tmp_path: Path, capsys: pytest.CaptureFixture[str], order: str, polarisations: int,
                       is_said: bool) -> None:
    path = tmp_path / "made.dada"
    made.make(path, polarisations=polarisations)
    lines = said(capsys, with_fields(path, ORDER=order), "5")
    assert ("order" in lines) == is_said
    if is_said:
        assert "psr_dada FILE OUT turns them" in lines["order"]
        assert not {"words", "wider", "masked", "hunt", "level first"} & set(lines)


def test_times_of_a_header(tmp_path: Path, capsys: pytest.CaptureFixture[str]) -> None:
    path = tmp_path / "made.dada"
    made.make(path)
    lines = said(capsys, with_fields(path, TSAMP="64.00062", UTC_START="2024-01-02-03:04:05.125"))
    assert lines["tsamp"] == "TSAMP 64.00062 is taken to a nanosecond: times are wrong by 34.9 ms after an hour"
    assert lines["length"].endswith(", from 2024-01-02T03:04:05.125")


@made.needs_level
def test_a_pipe(tmp_path: Path, capsys: pytest.CaptureFixture[str], monkeypatch: pytest.MonkeyPatch) -> None:
    monkeypatch.setattr("malletbean.noise.VALUES_AT_A_TIME", 5000)
    path, pipe = tmp_path / "made.dada", tmp_path / "pipe"
    made.make(path, spectra=8192, polarisations=2, width=400)
    os.mkfifo(pipe)
    writer = threading.Thread(target=lambda: pipe.write_bytes(made.levelled("--spectra", "2048", str(path))))
    writer.start()
    piped = said(capsys, str(pipe), "5")
    writer.join()
    made.level(path, tmp_path / "level.dada", "--spectra", "2048")
    plain = said(capsys, str(tmp_path / "level.dada"), "5")
    assert plain["words"].replace(str(tmp_path / "level.dada"), "FILE") == piped["words"]
    for name in ("header", "length", "noise", "channels", "even", "mask to try:", "threshold"):
        assert piped[name] == plain[name]


@pytest.mark.parametrize("kind", ["file", "pipe"])
def test_one_spectrum_is_too_few(tmp_path: Path, kind: str) -> None:
    path = tmp_path / "one.dada"
    made.make(path, spectra=1, delay=0)
    name = str(path)
    if kind == "pipe":
        name = str(tmp_path / "pipe")
        os.mkfifo(name)
        threading.Thread(target=lambda: Path(name).write_bytes(path.read_bytes())).start()
    with pytest.raises(Refusal, match="its data have 64 bytes, fewer than two spectra"):
        psr_look([name])


def test_little_memory(tmp_path: Path, monkeypatch: pytest.MonkeyPatch) -> None:
    """Pieces are read in parts."""
    path = tmp_path / "made.dada"
    made.make(path, spectra=8192)
    whole = measure(Samples([str(path)]), 8192).whole
    monkeypatch.setattr("malletbean.noise.VALUES_AT_A_TIME", 64 * 100)
    counts: list[int] = []
    plain = Samples.values

    def counted(samples: Samples, first: int, count: int, kind: str = "<u") -> np.ndarray:
        counts.append(count)
        return plain(samples, first, count, kind)

    monkeypatch.setattr(Samples, "values", counted)
    parts = measure(Samples([str(path)]), 8192).whole
    assert max(counts) == 100 and sum(counts) == 8192
    assert parts.means == pytest.approx(whole.means) and parts.within == pytest.approx(whole.within)
    assert form_of(Samples([str(path)])) == "<u"


def ratio_of(text: str) -> float:
    """The printed ratio that a line names."""
    return float(text.split("up to ")[1].split()[0].rstrip(","))


def test_channels_are_counted_in_the_order_of_the_file(tmp_path: Path, capsys: pytest.CaptureFixture[str]) -> None:
    path = tmp_path / "rising.dada"
    made.make(path, channels=64, spectra=4096, height=0, width=400)
    factors = np.ones(64)
    factors[5] = 3
    assert said(capsys, levelled(path, factors))["mask to try:"] == " 5"
    psr_look([str(path), "--channels"])
    lines = capsys.readouterr().out.splitlines()
    number, middle, mean, _ = lines[lines.index("CHANNEL MHZ MEAN SD") + 1 + 5].split()
    assert (number, middle) == ("5", "1216.375") and float(mean) > 40


@pytest.mark.parametrize("mean, deviation, says", [
    (64, 8, "psr_level again, from the file as it was, with --zero-dm or --clip 6, against bursts,"),
    (14, 2.8, "psr_level again, from the file as it was, with --zero-dm or --clip 6, against bursts,"),
    (70, 8, "psr_level --spectra "),
])
def test_a_level_file_full_of_bursts(tmp_path: Path, capsys: pytest.CaptureFixture[str], mean: float, deviation: float,
                                     says: str) -> None:
    """It is known by the spectra between them, and fewer --spectra would not help."""
    path = tmp_path / "bursts.dada"
    made.make(path, spectra=1, delay=0)
    values = np.random.default_rng(3).normal(mean, deviation, (2**16, 64))
    for begin in range(50, 2**16, 2621):
        values[begin:begin + 20] += 20 * deviation
    path.write_bytes(path.read_bytes()[:4096] + values.round().clip(0, 255).astype(np.uint8).tobytes())
    lines = said(capsys, str(path), "50")
    assert ratio_of(lines["steady"]) > 1 and lines["level first"].startswith(says)
    assert measure(Samples([str(path)]), 2**16).quiet.deviation == pytest.approx(deviation, rel=0.01)


def test_a_delay_past_every_search(tmp_path: Path, capsys: pytest.CaptureFixture[str]) -> None:
    """The longest delays are searched in averaged spectra."""
    path = tmp_path / "a file.dada"
    made.make(path, spectra=32768, height=0)
    lines = all_said(capsys, str(path), "1000")
    assert dict(lines)["delay"].endswith(" ms; a search takes 8192 at most")
    reached = [int(options_of(text).get("--average", 1)) * int(options_of(text)["--max-delay"])
               for name, text in lines if name in ("words", "wider")]
    assert max(reached) >= header(str(path)).delay(1000)


def test_a_delay_past_all_averages(tmp_path: Path, capsys: pytest.CaptureFixture[str]) -> None:
    path = tmp_path / "made.dada"
    made.make(path, channels=4, spectra=2**20, height=0, delay=0)
    lines = said(capsys, str(path), "26000")
    assert lines["delay"].endswith("of up to 64 averaged spectra: average twice")
    assert not {"words", "wider", "hunt"} & set(lines) and "file size" in lines


@pytest.mark.parametrize("spectra, dm", [(4000, "196"), (4000, "1000"), (20000, "1000")])
def test_a_delay_past_the_data(tmp_path: Path, capsys: pytest.CaptureFixture[str], spectra: int, dm: str) -> None:
    made.make(tmp_path / "made.dada", spectra=spectra, height=0)
    lines = said(capsys, str(tmp_path / "made.dada"), dm, "--mask", "3")
    assert lines["delay"].endswith(" ms, longer than the data: no pulse of it can be found in this file alone")
    assert not {"wider", "words", "masked", "hunt"} & set(lines)
    assert {"words", "wider"} & set(said(capsys, str(tmp_path / "made.dada"), "195"))


def test_a_drift_at_the_end_of_a_long_file(tmp_path: Path, capsys: pytest.CaptureFixture[str]) -> None:
    path = tmp_path / "late.dada"
    made.make(path, spectra=32768, height=0)
    raw = np.frombuffer(path.read_bytes(), np.uint8).copy()
    raw[4096 + 24576 * 64:] += 2
    path.write_bytes(raw.tobytes())
    lines = said(capsys, str(path), "--megabytes", "0.5")
    assert lines["first"].startswith("psr_look estimates, from 16 pieces of the data (0.5 MB)")
    assert lines["level first"].startswith("psr_level --spectra ")


def test_the_threshold_of_wide_boxes(files: dict[str, str], capsys: pytest.CaptureFixture[str]) -> None:
    lines = said(capsys, files["made"], "3.07")
    max_delay = int(lines["threshold"].split("delays to ")[1].split(",")[0])
    shares = shared_by_delay(header(files["made"]), np.arange(max_delay + 1))
    factors = [box_noise_cells(shared, width) / (width * shared[0]) for shared in shares for width in (1, 2, 4, 8)]
    assert 0 <= float(lines["threshold"].split()[7]) - 7 * max(factors)**0.5 <= 0.1


def test_a_mask_that_is_said(tmp_path: Path, capsys: pytest.CaptureFixture[str]) -> None:
    path = tmp_path / "made.dada"
    made.make(path, height=0)
    lines = said(capsys, str(path), "--mask", "3,17-19")
    assert lines["mask to try:"] == " none" and lines["masked"].startswith("psr_mask 3,17-19 --mean ")
    assert " --mask 3,17-19 --zero-dm " in lines["wider"] and " --mask 3,17-19 -o FOLDER " in lines["hunt"]
    with pytest.raises(Refusal, match="mask refused"):
        psr_look([str(path), "--mask", "64"])
