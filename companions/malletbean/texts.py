"""The texts that the programs write, as arrays."""
from __future__ import annotations

import io
import re
import warnings
from collections.abc import Sequence
from dataclasses import dataclass, field, replace

import numpy as np
import numpy.typing as npt

from .arrays import Array
from .refusal import TEXT, Refusal, bytes_of

# The first word of a line is kept, up to eight letters of it.
PULSE = np.dtype([
    ("word", "S8"), ("end", "i8"), ("delay", "i4"), ("dm", "f8"), ("width", "i4"), ("sum", "i8"), ("cells", "i8"),
])
FOLD = np.dtype([
    ("word", "S8"), ("delay", "i4"), ("dm", "f8"), ("period", "i4"), ("rows", "i4"), ("trial", "i4"),
    ("phase", "i4"), ("sum", "i8"), ("cells", "i8"),
])
# of a part of psr_live that had too many pulses: where it ends, and how many it had
MANY = np.dtype([("until", "i8"), ("count", "i8")])
PULSE_WORDS, FOLD_WORDS = (b"PULSE", b"RFI"), (b"FOLD",)
END_LINE = re.compile(rb"END ([0-9]{1,20}) ([0-9]{1,20}) ([0-9]{1,20})\n")
CHECK_LINE = re.compile(rb"CHECK ([0-9]{1,15}) ([0-9]{1,18})\n")
# the lines between the PULSE lines of parts
MARK_LINE = re.compile(rb"^(CHECK|MANY) ([0-9]{1,15}) ([0-9]{1,18})\n", re.MULTILINE)
# the lines before each observation of `psr_search`, and before each beam of `psr_beams`
HEAD_LINES = {word: re.compile(rb"^%s ([0-9]{1,20})\n" % word, re.MULTILINE) for word in (b"OBS", b"BEAM")}


@dataclass(frozen=True)
class Found:
    """What a search found in one observation or beam: its number, its lines as arrays, and how many spectra it has.

    `pulses` are the PULSE lines, among them the RFI lines of marked pulses, and `folds` the FOLD lines. END, delay,
    width, period, phase count spectra; dm is in pc/cm^3. `spectra` are those before the checkpoint where the text is a
    part that ends in a CHECK line. `counted` is how many pulses the last line counts: of a part those before it too.
    `many` are the parts of psr_live whose pulses were too many to be written. `is_growing` says that the text goes on
    behind its last CHECK line with a part that is not whole, which is left out.
    """

    number: int
    pulses: Array
    folds: Array
    spectra: int
    counted: int = 0
    is_beam: bool = False
    is_checkpoint: bool = False
    many: Array = field(default_factory=lambda: np.empty(0, MANY))
    is_growing: bool = False

    @property
    def are_marked(self) -> Array:
        """Which pulses are marked as interference."""
        return np.equal(self.pulses["word"], b"RFI")


def read(path: str, is_part: bool = False) -> list[Found]:
    """What stands in a text, an entry for each observation or beam; a text that is not whole is refused.

    The last line of a part of `psr_part` may count more pulses than the text has. A text of `psr_live` that is still
    growing is read up to its last CHECK line.
    """
    text = bytes_of(path)
    word = next((word for word in HEAD_LINES if text.startswith(word + b" ")), None)
    if word is None or not (heads := list(HEAD_LINES[word].finditer(text))):
        return [found_in(path, text, is_part)]
    stops = [head.start() for head in heads[1:]] + [len(text)]
    if [int(head[1]) for head in heads] != list(range(len(heads))):
        raise refused(path, f"its {word.decode()} lines do not count from 0")
    entries = [found_in(path, text[head.end():stop], is_part) for head, stop in zip(heads, stops)]
    return [replace(entry, number=number, is_beam=word == b"BEAM") for number, entry in enumerate(entries)]


def found_in(path: str, text: bytes, is_part: bool) -> Found:
    """What stands in the text of one observation, beam or part."""
    marks = list(MARK_LINE.finditer(text))
    begun = text.rfind(b"\n", 0, -1) + 1
    end = END_LINE.fullmatch(text, begun)
    is_growing = end is None and CHECK_LINE.fullmatch(text, begun) is None
    if is_growing:
        while marks and marks[-1][1] != b"CHECK":
            marks.pop()
        if not marks:
            raise refused(path, "it has no END line and no CHECK line, so the search did not end, or its output was "
                                "cut")
        text = text[:marks[-1].end()]
    last = end or marks[-1]
    first_fold = text.find(b"FOLD ")
    folds_begin = last.start() if first_fold < 0 else first_fold
    pieces = pieces_between(text[:folds_begin], marks)
    pulses = lines_of(path, b"".join(pieces), PULSE_WORDS, PULSE)
    folds = lines_of(path, text[folds_begin:last.start()], FOLD_WORDS, FOLD)
    counted, spectra = (int(end[1]), int(end[3])) if end else (int(last[3]), int(last[2]))
    before = check_marks(path, marks, pieces, end)
    if before < 0 or (before > 0 and not marks and not is_part) or len(folds) != (int(end[2]) if end else 0):
        hint = "; of a last part of psr_part give --part" if before > 0 and end else ""
        raise refused(path, f"it has {len(pulses)} PULSE and {len(folds)} FOLD lines, and its last line counts others"
                            f"{hint}")
    many = np.array([(int(mark[2]), int(mark[3])) for mark in marks if mark[1] == b"MANY"], MANY)
    return Found(0, pulses, folds, spectra, counted=counted, is_checkpoint=end is None, many=many,
                 is_growing=is_growing)


def pieces_between(text: bytes, marks: Sequence[re.Match[bytes]]) -> list[bytes]:
    """The lines before each of these marks, and those behind the last one."""
    begins = [0, *(mark.end() for mark in marks)]
    stops = [*(mark.start() for mark in marks), len(text)]
    return [text[begin:stop] for begin, stop in zip(begins, stops)]


def check_marks(path: str, marks: Sequence[re.Match[bytes]], pieces: Sequence[bytes],
                end: re.Match[bytes] | None) -> int:
    """Refuses marks that don't follow one another, and answers how many pulses were counted before the text began."""
    # each line that counts pulses: its spectra, what it counts, and the piece that ends with it
    counts = [(int(mark[2]), int(mark[3]), number) for number, mark in enumerate(marks) if mark[1] == b"CHECK"]
    if end:
        counts.append((int(end[3]), int(end[1]), len(marks)))
    lines = np.cumsum([piece.count(b"\n") for piece in pieces])
    before = counts[0][1] - int(lines[counts[0][2]])
    for (until, counted, _), (later_until, later_counted, piece) in zip(counts, counts[1:]):
        if later_until <= until:
            raise refused(path, f"its part behind spectrum {until} ends at {later_until}")
        if later_counted - before != lines[piece]:
            raise refused(path, f"its part up to spectrum {later_until} has other lines than are counted there")
    ends = {(until, piece) for until, _, piece in counts}
    for number, mark in enumerate(marks):
        if mark[1] == b"MANY" and (int(mark[2]), number + 1) not in ends:
            raise refused(path, f"behind MANY {int(mark[2])} no line counts the pulses of its part")
    return before


def lines_of(path: str, text: bytes, words: tuple[bytes, ...], form: npt.DTypeLike) -> Array:
    """Lines that begin with one of these words, as an array."""
    if not text:
        return np.empty(0, form)
    try:
        with warnings.catch_warnings():
            # numpy would take 1e3 for a whole number, and warn
            warnings.simplefilter("error", DeprecationWarning)
            lines = np.loadtxt(io.BytesIO(text), form, comments=None, delimiter=" ", ndmin=1)
    except (ValueError, DeprecationWarning) as fault:
        why = str(fault).splitlines()[0].split(";")[0]
        raise refused(path, f"its {words[0].decode()} lines: {why}") from fault
    others = lines["word"][~np.isin(lines["word"], words)]
    if len(others):
        raise refused(path, f"a line among its {words[0].decode()} lines begins with {others[0].decode('latin-1')}")
    return lines


def refused(path: str, why: str) -> Refusal:
    """The refusal of a text."""
    return Refusal(TEXT, f"{path} refused: {why}")
