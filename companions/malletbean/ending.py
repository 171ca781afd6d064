"""How the programs end: with a status and a line, or by a signal."""
from __future__ import annotations

import io
import os
import sys

from .refusal import MEMORY, OUTPUT, Refusal

try:
    # the same as `signal` without its enumerations, which take as long to import as psr_pieces takes to start
    import _signal as signals  # type: ignore[import]
except ImportError:
    import signal as signals  # type: ignore[no-redef]

TYPE_CHECKING = False
if TYPE_CHECKING:
    from collections.abc import Callable, Sequence
    from types import FrameType, TracebackType

# the signals that ask a program to end: of a scheduler, of a terminal that closes, and of Ctrl-C
STOPS = (signals.SIGTERM, signals.SIGHUP, signals.SIGINT)


def run(name: str, program: Callable[[Sequence[str]], None]) -> int:
    """Runs a program over the words of the command, and answers its status."""
    if isinstance(sys.stdout, io.TextIOWrapper):
        # a name of a file need not be text
        sys.stdout.reconfigure(errors="surrogateescape")
    try:
        with StoppedBySignals():
            program(sys.argv[1:])
            if sys.stdout is not None:
                sys.stdout.flush()
    except Stopped as stopped:
        say(name, 0, f"stopped by {stopped.name}{stopped.advice}")
        # who waits for the program has to see that a signal ended it
        signals.signal(stopped.number, signals.SIG_DFL)
        os.kill(os.getpid(), stopped.number)
        return 128 + stopped.number
    except Refusal as refusal:
        return say(name, refusal.status, refusal.line)
    except MemoryError:
        return say(name, MEMORY, "no memory")
    except BrokenPipeError:
        os.dup2(os.open(os.devnull, os.O_WRONLY), sys.stdout.fileno())
        return say(name, OUTPUT, "the output was closed")
    except OSError as fault:
        named = "" if fault.filename is None else f" {fault.filename}"
        return say(name, OUTPUT, f"can't write{named}: {fault.strerror}")
    return 0


class Stopped(BaseException):
    """A signal that asks the program to end."""

    def __init__(self, number: int) -> None:
        super().__init__(number)
        self.number = number
        # what follows the line that says so
        self.advice = ""

    @property
    def name(self) -> str:
        """What the signal is called."""
        from signal import Signals
        return Signals(self.number).name


class StoppedBySignals:
    """Within it, the signals that ask a program to end raise `Stopped`, so that what is half written is removed."""

    def __enter__(self) -> None:
        # nohup ignores SIGHUP, and a shell ignores SIGINT for jobs in the background
        self.before = {number: signals.getsignal(number) for number in STOPS}
        self.caught = [number for number in STOPS if self.before[number] != signals.SIG_IGN]
        for number in self.caught:
            signals.signal(number, self.stop)

    def __exit__(self, kind: type[BaseException] | None, fault: BaseException | None,
                 trace: TracebackType | None) -> None:
        for number in self.caught:
            signals.signal(number, self.before[number])

    def stop(self, number: int, _: FrameType | None) -> None:
        """Ends what runs; a second signal does not."""
        for caught in self.caught:
            signals.signal(caught, signals.SIG_IGN)
        raise Stopped(number)


def say(name: str, status: int, line: str) -> int:
    """Says a line on standard error, and answers the status."""
    if sys.stderr is not None:
        print(f"{name}: {line}", file=sys.stderr)
    return status
