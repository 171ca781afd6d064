"""What a hunt is given: the files of one observation, turned into a DADA file if they are none, and looked at."""
from __future__ import annotations

import io
import os
import re
import subprocess
import sys
import tempfile
from collections.abc import Callable, Iterator, Sequence
from contextlib import redirect_stderr, redirect_stdout, suppress
from dataclasses import dataclass, replace

import numpy as np

from .arrays import Array
from .bad_channels import file_numbers, stand_out
from .cluster import scripts
from .conversion import Values, convert
from .fil import spectra_in
from .headers import TAKEN, Header, fields_of, header_text
from .masks import mask_text
from .noise import FORM_WORDS, form_of, measure
from .number import scaled
from .output import unfinished
from .refusal import HEADER, OUTPUT, READ, Refusal, bytes_of, opened
from .samples import Samples

# how other files begin, and which companion turns them into a DADA file
CONVERTERS = ((4, b"HEADER_START", "psr_fil"), (0, b"SIMPLE  =", "psr_fits"))
# what a search takes of a DADA file; psr_dada turns others
SEARCHED = {"NBIT": ("8", "16"), "NPOL": ("1", "2"), "NDIM": ("1",), "ORDER": ("TFP", "TF")}
MOST_CHANNELS = TAKEN["NCHAN"][-1]
# how much is looked at, and how much of a filterbank is turned to plan a hunt
LOOKED_AT, TRIED = 64_000_000, 2**25
# seconds between two looks at how far a converter is
NAP = 0.1


@dataclass(frozen=True)
class Look:
    """What a look at the samples found: their header with the mask, and how psr_level has to read them."""

    head: Header
    mask: str
    form: tuple[str, ...]


def converter_of(paths: Sequence[str]) -> str | None:
    """The companion that turns these files into a DADA file; None if they are ones that a search takes."""
    found = [converter_of_one(path) for path in paths]
    if len(set(found)) > 1:
        raise Refusal(HEADER, f"the files have different formats, and are not of one observation: {', '.join(paths)}")
    return found[0]


def converter_of_one(path: str) -> str | None:
    """The companion that turns one file."""
    if os.path.exists(path) and not os.path.isfile(path):
        raise Refusal(READ, f"can't read {path}: it is no regular file")
    front = bytes_of(path, 16)
    for place, mark, name in CONVERTERS:
        if front[place:].startswith(mark):
            return name
    try:
        fields = fields_of(header_text(path)[0])
        if not fields.keys() & {"HDR_SIZE", "HDR_VERSION", "NCHAN", "NBIT"}:
            raise Refusal(HEADER, f"header of {path} refused: Missing NCHAN")
    except Refusal as refusal:
        line = f"{path} is no SIGPROC filterbank, PSRFITS or DADA file: {refusal.line}"
        raise Refusal(refusal.status, line) from refusal
    is_searched = all(fields.get(keyword, taken[0]) in taken for keyword, taken in SEARCHED.items())
    channels = scaled(fields.get("NCHAN", "0"), 0) or 0
    return None if is_searched and channels <= MOST_CHANNELS else "psr_dada"


def companion(name: str) -> str:
    """Where a companion lies."""
    return os.path.join(os.path.dirname(scripts()), "companions", name)


def conversion(converter: str, paths: Sequence[str], output: str) -> list[str]:
    """The command that makes a DADA file."""
    return [companion(converter), *paths, output]


def converted(words: Sequence[str], show: Callable[[int], None] | None = None) -> str:
    """Runs a converter, whose last word is its output, and answers what it says on standard error. Its refusal is that
    of the hunt. Meanwhile it is shown how many bytes of the output are there."""
    process = subprocess.Popen(words, stdin=subprocess.DEVNULL, stdout=subprocess.PIPE, stderr=subprocess.PIPE,
                               text=True, errors="surrogateescape")
    said = None
    try:
        while said is None:
            with suppress(subprocess.TimeoutExpired):
                said = process.communicate(timeout=NAP)[1]
            if show is not None:
                show(size_of(unfinished(words[-1], process.pid)))
    except BaseException:
        process.terminate()
        process.wait()
        raise
    if process.returncode:
        line = said.strip().splitlines()[-1:] or [f"status {process.returncode}"]
        raise Refusal(process.returncode if process.returncode > 0 else OUTPUT, line[0])
    return said


def size_of(path: str) -> int:
    """How many bytes a file has; 0 if it isn't there."""
    with suppress(OSError):
        return os.path.getsize(path)
    return 0


def tried(converter: str, paths: Sequence[str], folder: str) -> tuple[Samples, int]:
    """A part of the samples, turned into a DADA file in a folder, and how many spectra all files have, about."""
    front, output = os.path.join(folder, "front"), os.path.join(folder, "front.dada")
    if converter == "psr_fits":
        # such a file can't be cut anywhere
        spectra = tried_fits(paths, output)
        return Samples([output]), spectra
    known = spectra_in(paths) if converter == "psr_fil" else None
    with opened(paths[0]) as file, open(front, "wb") as cut:
        some = file.read(TRIED)
        cut.write(some)
    sys.stderr.write(converted(conversion(converter, [front], output)))
    samples = Samples([output])
    about = int(samples.spectra * sum(map(os.path.getsize, paths)) / len(some))
    return samples, about if known is None else known


class Sampled:
    """Pieces of the values of an observation in place of all."""

    def __init__(self, values: Values) -> None:
        self.bits, self._pieces = values.bits, values.sampled() or []

    def pieces(self) -> Iterator[Array]:
        """The pieces in order."""
        return iter(self._pieces)

    def sampled(self) -> Sequence[Array]:
        """The pieces once more."""
        return self._pieces


def tried_fits(paths: Sequence[str], output: str) -> int:
    """Turns pieces of PSRFITS files, and answers how many spectra the files have."""
    try:
        # astropy is needed for these files alone
        from .fits import Observation, chosen_polarisations
        from .psrfits import rows_of
    except ImportError as missing:
        raise Refusal(READ, f"{missing}: PSRFITS needs astropy (Debian: python3-astropy)") from missing
    files = [rows_of(path) for path in paths]
    observation = Observation(files, chosen_polarisations(files[0].layout, None))
    with redirect_stdout(io.StringIO()), redirect_stderr(io.StringIO()):
        convert("psr_fits", output, observation.observed(), Sampled(observation))
    return sum(len(rows) * rows.layout.in_row for rows in files)


def planned_header(converter: str, paths: Sequence[str], mask: str | None) -> Look:
    """A look at a part of the samples, with the header that the DADA file of these files will have, about."""
    with tempfile.TemporaryDirectory(prefix="psr_hunt.") as folder:
        try:
            samples, spectra = tried(converter, paths, folder)
            look = looked_at(samples, mask)
        except Refusal as refusal:
            # what is cut out of the first file has its name
            line = re.sub(rf"{re.escape(folder)}/front(\.dada)?", paths[0].replace("\\", r"\\"), refusal.line)
            raise Refusal(refusal.status, line) from refusal
        return replace(look, head=look.head.changed(data_bytes=spectra * look.head.spectrum_bytes))


def looked_at(samples: Samples, mask: str | None) -> Look:
    """A look at an observation: with this mask, or the one that stands out."""
    head = samples.header.changed(data_bytes=samples.begins[-1])
    if samples.spectra < 2:
        raise Refusal(HEADER, f"{samples.paths[0]}: its data have {head.data_bytes} bytes, fewer than two spectra")
    form = form_of(samples)
    words = tuple(FORM_WORDS[form].split()) if form in FORM_WORDS else ()
    if mask is None:
        whole = measure(samples, LOOKED_AT // head.spectrum_bytes, form).whole
        mask = mask_text(file_numbers(head, stand_out(whole)))
    return Look(head.without(mask), mask, words)


def masked_megahertz(head: Header) -> str:
    """The frequencies of the channels of a mask, as ranges in MHz."""
    masked = np.array(sorted(head.masked))
    if not len(masked):
        return ""
    runs = np.split(masked, np.flatnonzero(np.diff(masked) > 1) + 1)
    edges = head.edges_khz
    return ", ".join(f"{edges[run[-1] + 1] / 1000:.3f}-{edges[run[0]] / 1000:.3f}" for run in runs)
