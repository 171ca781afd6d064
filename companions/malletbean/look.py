"""`psr_look`: what a header says, and what the data tell for the arguments of a search. It estimates."""
from __future__ import annotations

import argparse
import math
import os
import shlex
from collections.abc import Iterator, Sequence
from dataclasses import dataclass

import numpy as np

from .arrays import Array
from .bad_channels import file_numbers, stand_out
from .candidates import cells_by_delay, pulse_noise_cells
from .headers import Header, refused
from .hunt_plan import Sought, greatest_dm, planned, power_above
from .level import FAST, LEVELS, Level
from .manifest import LevelFile, SearchPass
from .masks import mask_text
from .noise import FORM_WORDS, FORMS, MOST_BYTES, PIECES, Estimates, Measured, form_of, measure, measure_stream
from .number import decimals_beyond, scaled
from .paths import GREATEST_DELAY, path_cells
from .program import Words
from .refusal import Refusal
from .samples import Samples
from .stream import Stream

# the greatest delay of a search where none is said, and the widest box that a threshold is said for
USUAL_DELAY, USUAL_WIDTH = 256, 8
# the true S/N of a first search, and its widest pulse in seconds
USUAL_SNR, USUAL_WIDEST = 7, 0.032
# the most lines that a search may have: a bright pulse gives many thousands
MOST_LINES = 2**20
# the usual and greatest size of recorded files
USUAL_FILE_SIZE = 2**30
# below this, printed ratios are moved by little
LITTLE_MOVED = 1
FALSE_LINES = "searched as it is, this file gives false lines, or too many (status 9)"
# stretches to level by are at least so many times as long as a pulse in a channel
TIMES_PULSE = 16


@dataclass(frozen=True)
class Look:
    """What was seen of a file or pipe: its header, without the masked channels, and its noise."""

    # how commands name it
    name: str
    head: Header
    measured: Measured
    # the same without the spectra that have bursts
    quiet: Measured
    # one of FORMS
    form: str
    # the mask of the channels that stand out, and the one that was given or else that one
    to_try: str
    mask: str
    # the greatest dispersion measure of a search, if it was given
    dm: float | None

    @property
    def max_delay(self) -> int:
        """The greatest delay of a search: that of the dispersion measure, as far as a search goes."""
        return USUAL_DELAY if self.dm is None else min(GREATEST_DELAY, math.ceil(self.head.delay(self.dm)) + 1)

    @property
    def uneven(self) -> float:
        """How far printed ratios are moved by the means of channels, as it is printed."""
        return round(uneven_ratio(self.head, self.measured, self.max_delay), 1)

    @property
    def drift(self) -> float:
        """How far printed ratios are moved by a drift of the mean, as it is printed."""
        return round(drift_ratio(self.head, self.measured, self.max_delay), 1)

    @property
    def has_bursts(self) -> bool:
        """Whether bursts alone keep the file from being searched."""
        if self.form != "<u" or self.quiet.deviation == 0:
            return False
        return max(ratio(self.head, self.quiet, self.max_delay) for ratio in (uneven_ratio, drift_ratio)) < LITTLE_MOVED

    @property
    def has_noisy_mask(self) -> bool:
        """Whether any masked channel changes."""
        return bool((self.measured.deviations[self.head.are_masked] > 0).any())

    @property
    def can_be_searched(self) -> bool:
        """Whether a search of the file as it is finds what is there, and little else."""
        return self.form == "<u" and max(self.uneven, self.drift) < LITTLE_MOVED


def psr_look(words: Sequence[str]) -> None:
    """Prints what the words ask for."""
    asked = parsed(words)
    look, part = look_at_pipe(asked) if is_pipe(asked.file) else look_at_file(asked)
    taken = look.measured.spectra * look.head.spectrum_bytes / 1e6
    print(f"psr_look estimates, from {part} data ({taken:.3g} MB); nothing of what it says is proved.")
    for name, text in said(look):
        print(f"{name:<12}{text}")
    if asked.channels:
        print_channels(look.head, look.measured)


def parsed(words: Sequence[str]) -> argparse.Namespace:
    """The words of the command."""
    parser = Words(prog="psr_look", description="Examines a file, and prints the commands that search it.")
    parser.add_argument("file", metavar="FILE", help="a DADA file of filterbank samples, or a pipe")
    parser.add_argument("dm", metavar="DM", nargs="?", type=dispersion_measure, help="a dispersion measure in pc/cm^3")
    parser.add_argument("--megabytes", metavar="N", type=positive, default=64.0,
                        help="how much of a file is read (64); a pipe is read to its end")
    parser.add_argument("--mask", metavar="MASK", help="channels to leave out (those that look bad)")
    parser.add_argument("--channels", action="store_true", help="also print the mean and deviation of each channel")
    return parser.parse_args(words)


def dispersion_measure(text: str) -> float:
    """A dispersion measure in pc/cm^3."""
    value = scaled(text, 6)
    if value is None or value < 0:
        raise argparse.ArgumentTypeError(f"{text} is no dispersion measure")
    return value / 1e6


def positive(text: str) -> float:
    """A number above 0."""
    value = scaled(text, 6)
    if value is None or value <= 0:
        raise argparse.ArgumentTypeError(f"{text} is no number above 0")
    return value / 1e6


def is_pipe(path: str) -> bool:
    """Whether a path names a pipe or a device, which can be read only once."""
    return os.path.exists(path) and not os.path.isfile(path) and not os.path.isdir(path)


def look_at_file(asked: argparse.Namespace) -> tuple[Look, str]:
    """What is seen of pieces of a file, and which part of its data they are."""
    samples = Samples([asked.file])
    head = samples.header
    if head.spectra < 2:
        raise too_few(asked.file, head)
    form = form_of(samples)
    found = measure(samples, int(asked.megabytes * 1e6) // head.spectrum_bytes, form)
    part = "all" if found.whole.spectra == head.spectra else f"{PIECES} pieces of the"
    return look_of(asked, shlex.quote(asked.file), head, found, form), part


def look_at_pipe(asked: argparse.Namespace) -> tuple[Look, str]:
    """What is seen of a pipe."""
    with Stream([asked.file], MOST_BYTES) as stream:
        head, found, form = measure_stream(stream)
    if found is None:
        raise too_few(asked.file, head)
    return look_of(asked, "FILE", head, found, form), "all"


def too_few(path: str, head: Header) -> Refusal:
    """The refusal of data that tell nothing."""
    return refused(path, f"its data have {head.data_bytes} bytes, fewer than two spectra")


def look_of(asked: argparse.Namespace, name: str, head: Header, found: Estimates, form: str) -> Look:
    """What is seen, with the mask that was given or stands out."""
    to_try = mask_text(file_numbers(head, stand_out(found.whole)))
    mask = to_try if asked.mask is None else asked.mask
    return Look(name, head.without(mask), found.whole, found.quiet, form, to_try, mask, asked.dm)


def said(look: Look) -> Iterator[tuple[str, str]]:
    """What is said of a file, line by line."""
    head, measured = look.head, look.measured
    yield from header_lines(head)
    if look.form != "<u":
        yield ("values", f"they look {FORMS[look.form]}; psr_search would take them as {FORMS['<u']}: "
                         f"psr_level {FORM_WORDS[look.form]} turns them")
    yield "noise", f"a sample has the mean {measured.mean:.3f} and the deviation {measured.deviation:.3f}"
    yield ("channels", f"means from {measured.means.min():.3f} to {measured.means.max():.3f}, "
                       f"deviations from {measured.deviations.min():.3f} to {measured.deviations.max():.3f}")
    if measured.deviation == 0:
        yield "constant", "the values of each channel never change: there is nothing to search"
        return
    yield ("even", f"that channels have other means moves printed ratios by up to {look.uneven:.1f}, "
                   f"at width {USUAL_WIDTH} and delays to {look.max_delay}; below {LITTLE_MOVED} is well")
    yield "steady", f"that the mean drifts moves them by up to {look.drift:.1f}"
    yield "mask to try:", f" {look.to_try}"
    yield ("threshold", f"a true S/N of {USUAL_SNR} is --snr {wide_threshold(head, look.max_delay)} at widths to "
                        f"{USUAL_WIDTH} and delays to {look.max_delay}, and --snr {USUAL_SNR} at --widths 1")
    if look.dm is not None:
        yield "delay", delay_text(head, look.dm)
    yield "reach", ", ".join(f"{delay} spectra across the band are DM {head.dm(delay):.3f}"
                             for delay in (USUAL_DELAY, GREATEST_DELAY))
    yield from plan_lines(look)


def header_lines(head: Header) -> Iterator[tuple[str, str]]:
    """What the header says."""
    names = head.words_of("SOURCE", "TELESCOPE", "RECEIVER", "INSTRUMENT")
    order = "the highest first" if head.is_falling else "the lowest first"
    pair = "two polarisations, which are added" if head.polarisations == 2 else "one polarisation"
    start = "" if np.isnat(head.start) else f", from {start_text(head)}"
    left = head.data_bytes % head.spectrum_bytes
    rest = f", and {left} bytes of an incomplete one" if left else ""
    yield "header", ", ".join([f"{head.size} bytes", *names])
    yield ("band", f"{head.channels} channels from {head.edges_khz[-1] / 1000:.3f} to {head.edges_khz[0] / 1000:.3f} "
                   f"MHz, {order} in a spectrum")
    yield ("samples", f"{head.bits} bits, {pair}; a spectrum of {head.spectrum_bytes} bytes "
                      f"every {head.sample_ns / 1000:.3f} us")
    yield "length", f"{head.spectra} spectra{rest}, {head.spectra * head.seconds:.3f} s{start}"
    if other_order(head):
        yield ("order", f"ORDER is {head.fields['ORDER']}, but psr_search takes the values as TFP: psr_dada FILE OUT "
                        "turns them. Until then all below is wrong")
    drift = tsamp_drift(head)
    if drift:
        yield ("tsamp", f"TSAMP {head.fields['TSAMP']} is taken to a nanosecond: times are wrong by "
                        f"{drift * 3.6e6:.3g} ms after an hour")


def start_text(head: Header) -> str:
    """The time of the first spectrum, with as many decimals as say something."""
    whole, _, decimals = str(head.start).partition(".")
    return whole + ("." + decimals.rstrip("0") if decimals.strip("0") else "")


def other_order(head: Header) -> bool:
    """Whether the header says that values lie in another order than a search takes them in."""
    order = head.fields.get("ORDER", "").upper()
    if head.polarisations == 1:
        order = order.replace("P", "")
    return sorted(order) in (["F", "T"], ["F", "P", "T"]) and order not in ("TF", "TFP")


def tsamp_drift(head: Header) -> float:
    """By what part TSAMP is longer than what is taken of it."""
    text = head.fields.get("TSAMP", "")
    return 0.0 if not decimals_beyond(text, 3) else float(text) * 1000 / head.sample_ns - 1


def plan_lines(look: Look) -> Iterator[tuple[str, str]]:
    """The commands of a first search, and how recorded files are cut for them."""
    head, dm = look.head, look.dm
    if other_order(head):
        return
    if dm is not None and (is_past_data(head, dm) or dm > greatest_dm(head)):
        yield "file size", file_size_text(head, 1)
        return
    sought = Sought(0.0, max(head.dm(USUAL_DELAY) if dm is None else dm, head.dm(1)),
                    power_above(USUAL_WIDEST / head.seconds), float(USUAL_SNR))
    levels, passes = planned(head, sought)
    yield "file size", file_size_text(head, max(level.average for level in levels))
    if look.can_be_searched:
        for search in passes:
            level = next(level for level in levels if level.path == search.level)
            yield search_line(look, level, search)
    else:
        yield "level first", level_first(look, levels[0])
    mask = "" if look.mask == "none" else f" --mask {look.mask}"
    yield "hunt", f"psr_hunt {look.name} --dm 0 {dm_text(sought.dm_high)}{mask} -o FOLDER does all of it by itself"


def search_line(look: Look, level: LevelFile, search: SearchPass) -> tuple[str, str]:
    """The command of a search: of the file itself, or of averaged spectra for wide pulses and long delays."""
    limits = [f"--snr {search.snr:g}", f"--widths {search.widths}"]
    limits += [f"--min-delay {search.min_delay}"] if search.min_delay else []
    limits += [f"--max-delay {search.max_delay}", f"--max-candidates {MOST_LINES}"]
    if search.average > 1:
        options = level_options(look, level.average, level.stretch, level.zero_dm)
        noise = f"--mean {search.mean:g} --sd {search.sd:.3f}"
        words = ["psr_level --fast", *options, look.name, "| psr_search", noise, *limits, "/dev/stdin"]
        return "wider", " ".join(words)
    if look.has_noisy_mask:
        kept = look.measured.of_channels(~look.head.are_masked)
        return "masked", " ".join([f"psr_mask {look.mask}", noise_words(kept), *limits, look.name])
    return "words", " ".join(["psr_search", noise_words(look.measured), *limits, look.name])


def noise_words(measured: Measured) -> str:
    """The options of a search that say its noise."""
    return f"--mean {measured.mean:.3f} --sd {max(measured.deviation, 0.001):.3f}"


def level_first(look: Look, level: LevelFile) -> str:
    """How psr_level makes a file that can be searched."""
    head, measured = look.head, look.measured
    usual = [one for one in (LEVELS[head.bits], FAST) if one.bits == head.bits]
    if any(are_at(one, head, some) for one in usual for some in (measured, look.quiet)):
        more = "with --zero-dm or --clip 6, against bursts," if look.has_bursts else "with fewer --spectra"
        return f"psr_level again, from the file as it was, {more} and its other options: {FALSE_LINES}"
    # a mean that moves ratios by `drift` over the data moves them by about 1 over a part of these, if it goes evenly;
    # half of that is taken, for one that goes up and down
    steady = measured.reach / max(2 * look.drift, 1)
    longest = USUAL_WIDTH + int(path_cells(head.edges_khz, np.array([look.max_delay])).max())
    stretch = min(level.stretch, max(power_below(steady), power_above(TIMES_PULSE * longest)))
    dm = "" if look.dm is None else f" {dm_text(look.dm)}"
    options = " ".join(level_options(look, 1, stretch, level.zero_dm))
    return f"psr_level {options} {look.name} > OUT, then psr_look OUT{dm}: {FALSE_LINES}"


def level_options(look: Look, average: int, stretch: int, zero_dm: bool) -> list[str]:
    """The options of psr_level."""
    options = [f"--average {average}"] if average > 1 else []
    options += [f"--spectra {stretch}"]
    options += [f"--mask {look.mask}"] if look.mask != "none" else []
    options += ["--zero-dm"] if zero_dm else []
    return options + ([FORM_WORDS[look.form]] if look.form != "<u" else [])


def power_below(value: float) -> int:
    """The greatest power of two that is no greater, at least 2."""
    return int(max(2, 2**(int(value).bit_length() - 1)))


def are_at(level: Level, head: Header, measured: Measured) -> bool:
    """Whether all channels are as psr_level makes them at this level."""
    far_means = np.abs(measured.means - level.mean / 1000 * head.polarisations)
    far_deviations = np.abs(measured.deviations - level.deviation / 1000 * math.sqrt(head.polarisations))
    near = level.deviation / 4000
    return bool(((far_means < near) & ((far_deviations < near) | (measured.deviations == 0))).all())


def uneven_ratio(head: Header, measured: Measured, max_delay: int) -> float:
    """By how many of its stated deviations a box of the usual width is moved at most by the means of channels.

    64 delays at the most are tried.
    """
    delays = np.unique(np.linspace(0, max_delay, 64).astype(int))
    excess = (measured.means - measured.mean) @ path_cells(head.edges_khz, delays)
    ratios: Array = math.sqrt(USUAL_WIDTH) * excess / (measured.deviation * np.sqrt(head.channels + delays))
    return float(np.abs(ratios).max())


def drift_ratio(head: Header, measured: Measured, max_delay: int) -> float:
    """By how many of its stated deviations a box of the usual width is moved at most by the means of pieces.

    Of each mean, three times its own error is no drift.
    """
    cells = USUAL_WIDTH * (head.channels + max_delay)
    error = measured.deviation / math.sqrt(head.channels * measured.spectra / len(measured.piece_means))
    farthest = np.abs(measured.piece_means - measured.mean).max()
    drift = math.sqrt(max(0, farthest**2 - (3 * error)**2))
    return float(drift * math.sqrt(cells) / measured.deviation)


def is_past_data(head: Header, dm: float) -> bool:
    """Whether a pulse of a dispersion measure takes longer across the band than the data of the file."""
    return head.delay(dm) >= head.spectra


def wide_threshold(head: Header, max_delay: int) -> float:
    """Which threshold a true S/N is, where wide boxes have more noise than the search reckons with.

    It is rounded up to a decimal. 64 delays at the most are tried.
    """
    delays = np.unique(np.linspace(0, max_delay, 64).astype(int))
    widths = np.array([2**level for level in range(USUAL_WIDTH.bit_length())])
    lines = np.zeros(len(delays) * len(widths), [("delay", int), ("width", int)])
    lines["delay"], lines["width"] = np.repeat(delays, len(widths)), np.tile(widths, len(delays))
    cells = cells_by_delay(head, lines["delay"]) * lines["width"]
    greatest = math.sqrt((pulse_noise_cells(lines, head) / cells).max())
    return math.ceil(10 * USUAL_SNR * greatest) / 10


def file_size_text(head: Header, times: int) -> str:
    """The greatest size of recorded files that lets each be searched alone, also averaged up to so many times."""
    unit = times * head.spectrum_bytes
    text = f"--file-size {max(1, USUAL_FILE_SIZE // unit) * unit} cuts recorded files between spectra"
    return text if times == 1 else f"{text}, each of a multiple of {times}, so that they can be averaged one by one"


def dm_text(dm: float) -> str:
    """A dispersion measure as it can be given to a program."""
    return f"{dm:.6f}".rstrip("0").rstrip(".")


def delay_text(head: Header, dm: float) -> str:
    """The delay of a dispersion measure, and whether any search reaches it."""
    delay = head.delay(dm)
    text = f"DM {dm_text(dm)} takes {delay:.1f} spectra across the band, {delay * head.seconds * 1000:.3f} ms"
    if is_past_data(head, dm):
        return f"{text}, longer than the data: no pulse of it can be found in this file alone"
    if dm > greatest_dm(head):
        return f"{text}; a search takes {GREATEST_DELAY} at most, of up to 64 averaged spectra: average twice"
    return text if delay <= GREATEST_DELAY else f"{text}; a search takes {GREATEST_DELAY} at most"


def print_channels(head: Header, measured: Measured) -> None:
    """A line for each channel, in the order of the file: its number, middle in MHz, mean and deviation."""
    print("CHANNEL MHZ MEAN SD")
    order = range(head.channels) if head.is_falling else range(head.channels - 1, -1, -1)
    for number, channel in enumerate(order):
        middle = (head.edges_khz[channel] + head.edges_khz[channel + 1]) / 2000
        print(f"{number} {middle:.3f} {measured.means[channel]:.3f} {measured.deviations[channel]:.3f}")
