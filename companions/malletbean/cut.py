"""`psr_cut`: an observation, or a part of its time, as a SIGPROC filterbank."""
from __future__ import annotations

import argparse
from collections.abc import Sequence

import numpy as np

from .number import scaled
from .output import new_file
from .program import Words
from .refusal import WORDS, Refusal
from .samples import SAMPLES_AT_A_TIME, Samples
from .sigproc import FILTERBANK, header_bytes


def psr_cut(words: Sequence[str]) -> None:
    """Writes the filterbank that the words ask for."""
    asked = parsed(words)
    samples = Samples([asked.file, *asked.next])
    head = samples.header
    first = round(asked.begin / head.seconds)
    count = samples.spectra - first if asked.length is None else round(asked.length / head.seconds)
    if count < 1 or first + count > samples.spectra:
        raise Refusal(WORDS, f"the data last {samples.spectra * head.seconds:.6f} s: {count} spectra from {first} on "
                             f"are not within them")
    with new_file(asked.output) as file:
        file.write(filterbank_header(samples, first, count))
        at_a_time = max(1, SAMPLES_AT_A_TIME // head.channels)
        for begin in range(first, first + count, at_a_time):
            values = samples.values(begin, min(at_a_time, first + count - begin))
            # a filterbank has all channels of an IF, and then those of the next
            file.write(np.ascontiguousarray(values.transpose(0, 2, 1)).tobytes())
    print(f"psr_cut: {asked.output}: {count} spectra from {first} on")


def parsed(words: Sequence[str]) -> argparse.Namespace:
    """The words of the command."""
    parser = Words(prog="psr_cut", description="Writes an observation, or a part of its time, as a SIGPROC filterbank.")
    parser.add_argument("file", metavar="FILE", help="a DADA file of filterbank samples, the first of an observation")
    parser.add_argument("output", metavar="FIL", help="the filterbank to write: a new file")
    parser.add_argument("--from", metavar="SECONDS", dest="begin", type=seconds, default=0.0,
                        help="where the part begins, after the beginning of FILE (0)")
    parser.add_argument("--length", metavar="SECONDS", type=seconds, help="how long the part is (up to the end)")
    parser.add_argument("--next", metavar="FILE", nargs="+", default=[], help="the files of the observation after FILE")
    return parser.parse_args(words)


def seconds(text: str) -> float:
    """A time in seconds, with nine decimals."""
    value = scaled(text, 9)
    if value is None or value < 0:
        raise argparse.ArgumentTypeError(f"{text} is not a time in seconds")
    return value / 10**9


def filterbank_header(samples: Samples, first: int, count: int) -> bytes:
    """The header of some spectra; channels stay in the order of the file."""
    head = samples.header
    step = head.width_hz / head.channels / 1e6
    centre = head.centre_hz / 1e6
    first_channel = (centre + (head.channels - 1) / 2 * step) if head.is_falling else (
        centre - (head.channels - 1) / 2 * step)
    return header_bytes(head, first, {
        "data_type": FILTERBANK, "fch1": first_channel, "foff": -step if head.is_falling else step,
        "nchans": head.channels, "nbits": head.bits, "nifs": head.polarisations, "nsamples": count,
    })
