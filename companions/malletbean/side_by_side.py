"""`psr_pieces`: a search on the cores of this machine, by a psr_part for each stretch of the time.

Each psr_part gets its piece of the files through a pipe. What they print is kept until all have ended well: then their
lines follow one another as those of one search.
"""
from __future__ import annotations

import _thread
import os
from errno import EACCES, ENOENT, ENOEXEC

from .asked import asked_by, judge, program_at
from .ending import signals
from .feeding import pour, widen, write_all
from .files import Files
from .headers import header_text
from .pieces import cuts, stretches, with_block
from .refusal import MEMORY, MORE, OUTPUT, READ, TEXT, WORDS, Refusal, unread

TYPE_CHECKING = False
if TYPE_CHECKING:
    from collections.abc import Iterator, Sequence

    from .asked import Asked
    from .pieces import Stretch

MOST_PIECES, MOST_BY_ITSELF = 9999, 64
# a piece is at least so many times as long as what is searched before it, unless --pieces says otherwise
TIMES_LEAD = 2
# the statuses where there are more lines than --max-candidates, and where a checkpoint lies beyond the data
MANY, BEYOND = 9, 13
# bytes of lines that are worked on at a time
LINES = 2**20
USAGE = "psr_pieces [--pieces N] --mean V --sd V [OPTION V ..] FILE [FILE ..]"
HELP = f"""usage: {USAGE}

Searches one observation on several cores, in pieces of the time.

options:
  --pieces N  in how many pieces (default: the number of cores, 64 at most, and fewer for short files)

All other options are those of psr_search, without folds and --record.
"""


def psr_pieces(words: Sequence[str]) -> None:
    """Prints what one psr_search prints."""
    if list(words) == ["--help"]:
        print(HELP, end="")
        return
    asked = asked_by(words, f"arguments refused: {USAGE}", {"pieces": 0})
    check(asked)
    open_standard_files()
    program = program_at("psr_part")
    files = files_of(program, asked)
    cores = len(os.sched_getaffinity(0))
    parts = stretches(files.spectra, count_of(asked, files.spectra, cores), asked.lead)
    search = Search(program, asked, files)
    search.run([Piece(part) for part in parts], cores)
    search.write(1)


def check(asked: Asked) -> None:
    """Refuses what pieces of the time can't do."""
    if asked.numbers["fold-max"] > 0:
        raise Refusal(WORDS, "pieces of the time fold nothing: leave --fold-max out, and fold by psr_search")
    for name in ("shards", "hands"):
        if asked.numbers[name] > 1:
            raise Refusal(WORDS, f"each piece is searched by one thread: leave --{name} out")
    if "pieces" in asked.options and not 1 <= asked.numbers["pieces"] <= MOST_PIECES:
        raise Refusal(WORDS, f"--pieces is {asked.options['pieces']}, not a number from 1 to {MOST_PIECES}")


def count_of(asked: Asked, spectra: int, cores: int) -> int:
    """In how many pieces so many spectra are searched."""
    if "pieces" in asked.options:
        return asked.numbers["pieces"]
    return max(1, min(cores, MOST_BY_ITSELF, spectra // max(1, TIMES_LEAD * asked.lead)))


def files_of(program: str, asked: Asked) -> Files:
    """The files, or the first refusal of psr_search, which judges the options and its plan before later files."""
    files, most = Files([]), asked.numbers["max-bytes"]
    try:
        for path in asked.files:
            if os.path.exists(path) and not os.path.isfile(path) and not os.path.isdir(path):
                raise Refusal(WORDS, f"{path} is a pipe or a device, which can't be divided: search it by psr_search")
            files.add(path)
            if files.begins[-1] > most:
                raise Refusal(MORE, f"more than {most} bytes")
    except Refusal:
        judge(program, True, asked.words("pieces"))
        if files.headers:
            check_plan(program, asked)
        raise
    return files


def check_plan(program: str, asked: Asked) -> None:
    """Refuses what psr_part refuses of the options and the first header alone."""
    import subprocess
    text, size = header_text(asked.files[0])
    told = subprocess.run([program, "1", "new", *asked.words("pieces"), "/dev/stdin"], input=text.ljust(size, b"\0"),
                          capture_output=True)
    if told.returncode > 0:
        raise Refusal(told.returncode, told.stderr.decode(errors="replace").strip())


class Piece:
    """A stretch while it is searched."""

    def __init__(self, stretch: Stretch) -> None:
        self.stretch = stretch
        # what psr_part prints, and what it says
        self.output = self.notes = -1
        # why its bytes could not be read
        self.fault: Refusal | None = None
        # its lines, once it has ended well, as it counts spectra
        self.lines = b""


class Search:
    """The pieces of a search that run, and what those that ended have printed."""

    def __init__(self, program: str, asked: Asked, files: Files) -> None:
        self.program, self.asked, self.files = program, asked, files
        self.most = asked.numbers["max-candidates"]
        self.words = with_block(asked.words("pieces"), files)
        self.running: dict[int, Piece] = {}
        self.pieces: list[Piece] = []
        self.count = self.spectra = 0

    def run(self, pieces: list[Piece], cores: int) -> None:
        """Searches the pieces, at most so many at a time, the last ones first: the first one has the least to search.

        If one fails, all end.
        """
        self.pieces, waiting = pieces, list(pieces)
        try:
            while waiting or self.running:
                while waiting and len(self.running) < cores:
                    self.start(waiting.pop())
                process, status = os.waitpid(-1, 0)
                if process in self.running:
                    piece = self.running.pop(process)
                    if status == 0 and waiting:
                        self.start(waiting.pop())
                    self.take(piece, os.waitstatus_to_exitcode(status))
        finally:
            self.stop()
        if self.count > self.most:
            raise Refusal(MANY, f"{self.count} candidates, limit {self.most}")

    def start(self, piece: Piece) -> None:
        """Starts the psr_part of a piece, and a thread that gives it its bytes."""
        stretch = piece.stretch
        piece.output, piece.notes = unnamed_file(), os.memfd_create("notes")
        # psr_part opens its checkpoint by its name
        place = os.memfd_create("check", 0)
        os.write(place, stretch.check.encode())
        source, into = os.pipe()
        widen(into)
        words = [self.program, stretch.stop, f"/dev/fd/{place}", *self.words, "/dev/stdin"]
        ends = [(os.POSIX_SPAWN_DUP2, end, number) for number, end in enumerate((source, piece.output, piece.notes))]
        try:
            process = os.posix_spawn(self.program, words, os.environ, file_actions=ends,
                                     setsigdef=[signals.SIGPIPE, signals.SIGXFSZ])
        except OSError as fault:
            status = WORDS if fault.errno in (EACCES, ENOENT, ENOEXEC) else MEMORY
            raise Refusal(status, f"can't run {self.program}: {fault.strerror}") from fault
        self.running[process] = piece
        os.close(source)
        os.close(place)
        try:
            _thread.start_new_thread(feed, (piece, cuts(self.files, stretch), into))
        except RuntimeError as fault:
            raise Refusal(MEMORY, f"{fault}: give fewer --pieces") from fault

    def take(self, piece: Piece, status: int) -> None:
        """Takes what a piece has printed that ended with this status."""
        text, said = content(piece.output), content(piece.notes).decode(errors="replace").strip()
        os.close(piece.output)
        os.close(piece.notes)
        if piece.fault is not None:
            raise piece.fault
        if status == MANY:
            self.count += int(said.split()[0])
        elif status == 0:
            self.count += self.take_lines(piece, text)
        else:
            self.refuse(status, said)
        if self.count > self.most:
            # nothing will be printed
            for one in self.pieces:
                one.lines = b""

    def take_lines(self, piece: Piece, text: bytes) -> int:
        """Takes the lines of a piece, and answers how many they are."""
        first, until = piece.stretch.first, piece.stretch.until
        begin = text.rfind(b"\n", 0, -1) + 1
        count, last = text.count(b"\n") - 1, text[begin:]
        spectra = last.rpartition(b" ")[2].rstrip(b"\n")
        if last == b"END %d 0 %b\n" % (count, spectra) and spectra.isdigit():
            self.spectra = first + int(spectra)
            if until is not None or self.spectra < self.files.spectra:
                raise self.shorter
        elif until is None or last != b"CHECK %d %d\n" % (until - first, count):
            count = -1
        piece.lines = text[:begin]
        if piece.lines.count(b"PULSE ") != count:
            raise Refusal(TEXT, f"{self.program} printed no whole part")
        return count

    @property
    def shorter(self) -> Refusal:
        """The refusal of data that had more spectra before."""
        return Refusal(READ, f"{self.files.paths[-1]} became shorter while it was read")

    def refuse(self, status: int, said: str) -> None:
        """Refuses what psr_part refused, or why it ended."""
        if status < 0:
            from signal import Signals
            raise Refusal(128 - status, f"{self.program} was ended by {Signals(-status).name}")
        if status == WORDS:
            judge(self.program, True, self.words)
        if status == BEYOND:
            raise self.shorter
        if status == OUTPUT:
            said = f"no room for what {os.path.basename(self.program)} prints: name a folder by TMPDIR"
        raise Refusal(status, said or f"{self.program} ended with status {status}")

    def stop(self) -> None:
        """Ends the pieces that run."""
        for process in self.running:
            os.kill(process, signals.SIGKILL)
        for process in self.running:
            os.waitpid(process, 0)

    def write(self, into: int) -> None:
        """Writes the lines of all pieces, and the last one."""
        for piece in self.pieces:
            for lines in moved(piece.lines, piece.stretch.first):
                write_all(into, lines)
        write_all(into, b"END %d 0 %d\n" % (self.count, self.spectra))


def feed(piece: Piece, parts: Sequence[tuple[str, int, int]], into: int) -> None:
    """Gives a psr_part the bytes of its piece. What can't be read ends it early, and is the fault of the piece."""
    try:
        fault = pour(into, parts)
        if fault is not None:
            piece.fault = unread(*fault)
    finally:
        os.close(into)


def open_standard_files() -> None:
    """Lets no other file take the place of a standard one that is closed. What is written there fails."""
    for number in range(3):
        try:
            os.fstat(number)
        except OSError:
            os.open(os.devnull, os.O_RDONLY)


def unnamed_file() -> int:
    """A new file without a name, in the folder for such files."""
    try:
        return os.open(os.environ.get("TMPDIR") or "/tmp", os.O_TMPFILE | os.O_RDWR, 0o600)
    except OSError:
        # not all file systems can do it
        import tempfile
        file, path = tempfile.mkstemp()
        os.unlink(path)
        return file


def content(file: int) -> bytes:
    """All bytes of a file."""
    found, size = b"", os.fstat(file).st_size
    while len(found) < size and (some := os.pread(file, size - len(found), len(found))):
        found += some
    return found


def moved(lines: bytes, first: int) -> Iterator[bytes]:
    """PULSE lines that count from a spectrum, as lines that count from the first one of the observation."""
    begin = 0
    while begin < len(lines):
        until = lines.find(b"\n", begin + LINES) + 1 or len(lines)
        yield b"".join(moved_lines(lines[begin:until], first)) if first else lines[begin:until]
        begin = until


def moved_lines(lines: bytes, first: int) -> list[bytes]:
    """Some of these lines. Many neighbours have the same END."""
    found, before, after = [], b"", b""
    for line in lines.split(b"PULSE ")[1:]:
        if not before or not line.startswith(before):
            before = line[:line.index(b" ") + 1]
            after = b"PULSE %d " % (int(before) + first)
        found.append(after + line[len(before):])
    return found
