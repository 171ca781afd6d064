"""A search in pieces of the time at once: by a stand-in of psr_part, and by the programs if they are on the PATH."""
from __future__ import annotations

import os
import shutil
import signal
import subprocess
import sys
import time
from errno import EINVAL
from pathlib import Path

import pytest

import made
from conftest import HERE
from malletbean import side_by_side
from malletbean.asked import asked_by
from malletbean.ending import run
from malletbean.feeding import fill
from malletbean.side_by_side import count_of, moved, psr_pieces
from test_pieces import parted

SEARCH = ["--mean=16", "--sd=2.828", "--snr=8", "--max-delay=128"]
needs_search = pytest.mark.skipif(None in (shutil.which("psr_search"), shutil.which("psr_part")),
                                  reason="psr_search and psr_part are not on the PATH")
# prints a pulse for each spectrum of 32 channels whose first value is above 16, or ends as STATUS says in the piece
# that begins at spectrum FAILS; or it leaves its number in the folder STAYS, and waits
STAND_IN = f"""#!{sys.executable} -S
import os, sys, time
until, check, words = int(sys.argv[1]), sys.argv[2], sys.argv[3:]
if "--nonsense=1" in words or words[-1] == "/dev/null":
    sys.exit(2 if "--nonsense=1" in words else 13)
begin = int(open(check).read().split()[1]) if check != "new" else 0
if "STAYS" in os.environ:
    open(os.path.join(os.environ["STAYS"], str(os.getpid())), "w").close()
    time.sleep(60)
data = open("/dev/stdin", "rb").read()[4096:]
spectra = len(data) // 32
if os.environ.get("FAILS") == str(begin):
    print("the line", file=sys.stderr)
    sys.exit(int(os.environ["STATUS"]))
ends = [at for at in range(begin, min(until, spectra)) if data[32 * at] > 16]
limit = next((int(word.partition("=")[2]) for word in words if word.startswith("--max-candidates=")), 65536)
if len(ends) > limit:
    print(len(ends), "candidates, limit", limit, file=sys.stderr)
    sys.exit(9)
sys.stdout.writelines(f"PULSE {{at}} 1 0.048 1 {{data[32 * at]}} 33\\n" for at in ends)
print(f"CHECK {{until}} {{len(ends)}}" if spectra > until else f"END {{len(ends)}} 0 {{spectra}}")
"""


def called(*words: str, **settings: str) -> subprocess.CompletedProcess[bytes]:
    """What psr_pieces answers."""
    return subprocess.run([sys.executable, "-S", str(HERE.parent / "psr_pieces"), *words], capture_output=True,
                          env={**os.environ, **settings})


@pytest.fixture
def stand_in(tmp_path: Path, monkeypatch: pytest.MonkeyPatch) -> Path:
    """An observation, and a psr_part that finds something in it."""
    place = tmp_path / "bin" / "psr_part"
    place.parent.mkdir()
    place.write_text(STAND_IN)
    place.chmod(0o755)
    monkeypatch.setenv("PSR_PART", str(place))
    made.make(tmp_path / "whole.dada", channels=32, spectra=1000)
    return tmp_path / "whole.dada"


def whole_text(path: Path) -> bytes:
    """What the stand-in finds in all data."""
    data = path.read_bytes()[4096:]
    spectra = len(data) // 32
    ends = [at for at in range(spectra) if data[32 * at] > 16]
    return b"".join([*(b"PULSE %d 1 0.048 1 %d 33\n" % (at, data[32 * at]) for at in ends),
                     b"END %d 0 %d\n" % (len(ends), spectra)])


def test_lines_are_moved(monkeypatch: pytest.MonkeyPatch) -> None:
    ends = [0, 0, 7, 7, 9, 10, 99, 100, 1009, 10090]
    lines = [b"PULSE %d 5 0.243 8 %d 77\n" % (end, end) for end in ends]
    later = [b"PULSE %d 5 0.243 8 %d 77\n" % (end + 12345, end) for end in ends]
    for at_a_time in (1, 30, 2**20):
        monkeypatch.setattr(side_by_side, "LINES", at_a_time)
        assert b"".join(moved(b"".join(lines), 0)) == b"".join(lines)
        assert b"".join(moved(b"".join(lines), 12345)) == b"".join(later)
    assert list(moved(b"", 5)) == []


def test_a_million_lines_are_moved_soon() -> None:
    lines = b"".join(b"PULSE %d 512 24.973 8 123456 1536\n" % (at // 4) for at in range(250_000))
    begun = time.process_time()
    assert sum(map(len, moved(lines, 10**9))) > len(lines)
    assert time.process_time() - begun < 2


def test_in_how_many_pieces() -> None:
    for words, spectra, cores, count in (
        ([], 10**6, 4, 4), ([], 10**6, 100, 64), ([], 4 * 528, 8, 4), ([], 4 * 528 - 1, 8, 3), ([], 500, 8, 1),
        ([], 0, 8, 1), (["--max-delay", "0", "--widths", "1"], 7, 8, 3), (["--pieces", "9"], 10, 4, 9),
    ):
        asked = asked_by(["--mean=16", "--sd=2", *words, "FILE"], "usage", {"pieces": 0})
        assert count_of(asked, spectra, cores) == count


@pytest.mark.parametrize("kind", ["spliced", "copied", "without splice"])
def test_a_pipe_is_filled(tmp_path: Path, monkeypatch: pytest.MonkeyPatch, kind: str) -> None:
    if kind == "copied":
        def refused(*words: int, offset_src: int) -> int:
            raise OSError(EINVAL, "Invalid argument")
        monkeypatch.setattr(os, "splice", refused, raising=False)
    if kind == "without splice":
        monkeypatch.delattr(os, "splice", raising=False)
    path = tmp_path / "file"
    path.write_bytes(os.urandom(30_000))
    for skipped, count in ((0, 10), (4097, 20_000), (29_000, 2**48), (30_000, 5), (10, 0)):
        source, into = os.pipe()
        fill(into, str(path), skipped, count)
        os.close(into)
        with open(source, "rb") as file:
            assert file.read() == path.read_bytes()[skipped:skipped + count]


def test_pieces_are_one_search(stand_in: Path, tmp_path: Path) -> None:
    cut = tmp_path / "cut.dada"
    cut.write_bytes(stand_in.read_bytes()[:-17])
    for path in (stand_in, cut):
        for paths in ([str(path)], parted(path, tmp_path, [1000, 4000, 4001, 31_000])):
            for words in ([], ["--pieces", "1"], ["--pieces=3"], ["--pieces=7"], ["--pieces", "40"]):
                answer = called(*SEARCH, *words, *paths)
                assert (answer.returncode, answer.stderr) == (0, b"")
                assert answer.stdout == whole_text(path)


def test_data_without_a_spectrum(stand_in: Path) -> None:
    stand_in.write_bytes(stand_in.read_bytes()[:4100])
    assert called(*SEARCH, str(stand_in)).stdout == b"END 0 0 0\n"


def test_the_limit_holds_for_the_whole(stand_in: Path) -> None:
    count = whole_text(stand_in).count(b"PULSE")
    # that of all pieces together, and of one piece alone
    for limit in (count - 1, count // 4 + 30, 10):
        answer = called(*SEARCH, "--pieces=4", f"--max-candidates={limit}", str(stand_in))
        assert (answer.returncode, answer.stdout) == (9, b"")
        assert answer.stderr == b"psr_pieces: %d candidates, limit %d\n" % (count, limit)
    assert called(*SEARCH, "--pieces=4", f"--max-candidates={count}", str(stand_in)).returncode == 0


def test_a_piece_that_fails(stand_in: Path) -> None:
    # each piece but the first begins 136 spectra before it
    for fails, status in (("0", 4), ("136", 5)):
        answer = called(*SEARCH, "--pieces=4", str(stand_in), FAILS=fails, STATUS=str(status))
        assert (answer.returncode, answer.stdout, answer.stderr) == (status, b"", b"psr_pieces: the line\n")


def test_what_is_no_part(stand_in: Path) -> None:
    answer = called(*SEARCH, str(stand_in), PSR_PART=shutil.which("echo") or "")
    assert answer.returncode == 4 and answer.stderr.endswith(b"echo printed no whole part\n")


def left_by(process: subprocess.Popen[bytes], folder: Path, count: int) -> list[str]:
    """The numbers of the processes that it has started, once they are so many."""
    until = time.monotonic() + 30
    while len(numbers := [path.name for path in folder.iterdir()]) < count:
        assert process.poll() is None and time.monotonic() < until
        time.sleep(0.01)
    return numbers


@pytest.mark.parametrize("number", [signal.SIGTERM, signal.SIGINT, signal.SIGHUP])
def test_a_signal_ends_all(stand_in: Path, tmp_path: Path, number: signal.Signals) -> None:
    place, spare = tmp_path / "stays", tmp_path / "spare"
    place.mkdir()
    spare.mkdir()
    cores = min(4, len(os.sched_getaffinity(0)))
    with subprocess.Popen([sys.executable, "-S", str(HERE.parent / "psr_pieces"), *SEARCH, "--pieces=4", str(stand_in)],
                          stdout=subprocess.PIPE, stderr=subprocess.PIPE,
                          env={**os.environ, "STAYS": str(place), "TMPDIR": str(spare)}) as process:
        numbers = left_by(process, place, cores)
        process.send_signal(number)
        out, said = process.communicate()
    assert (process.returncode, out, said) == (-number, b"", f"psr_pieces: stopped by {number.name}\n".encode())
    assert not any(os.path.exists(f"/proc/{one}") for one in numbers)
    assert list(spare.iterdir()) == []


def test_a_killed_piece_ends_all(stand_in: Path, tmp_path: Path) -> None:
    place = tmp_path / "stays"
    place.mkdir()
    cores = min(4, len(os.sched_getaffinity(0)))
    with subprocess.Popen([sys.executable, "-S", str(HERE.parent / "psr_pieces"), *SEARCH, "--pieces=4", str(stand_in)],
                          stdout=subprocess.PIPE, stderr=subprocess.PIPE,
                          env={**os.environ, "STAYS": str(place)}) as process:
        numbers = left_by(process, place, cores)
        os.kill(int(numbers[-1]), signal.SIGKILL)
        out, said = process.communicate()
    assert (process.returncode, out) == (137, b"") and said.endswith(b"psr_part was ended by SIGKILL\n")
    assert not any(os.path.exists(f"/proc/{one}") for one in numbers)


@pytest.mark.parametrize("closed", ["<&-", ">&-", "2>&-", "<&- >&- 2>&-"])
def test_standard_files_that_are_closed(stand_in: Path, closed: str) -> None:
    words = [sys.executable, "-S", str(HERE.parent / "psr_pieces"), *SEARCH, "--pieces=3", str(stand_in)]
    answer = subprocess.run(["bash", "-c", f'"$@" {closed}', "bash", *words], capture_output=True)
    is_open = ">&-" not in closed.replace("2>&-", "")
    assert answer.returncode == (0 if is_open else 10)
    assert answer.stdout == (whole_text(stand_in) if is_open else b"")


@pytest.mark.parametrize("words, status, line", [
    ([], 2, "arguments refused: psr_pieces [--pieces N] --mean"),
    (["--sd", "2", "FILE"], 2, "--mean is missing"),
    (["--pieces", "0", "--mean=16", "--sd=2", "FILE"], 2, "--pieces is 0, not a number from 1"),
    (["--pieces", "1e3", "--mean=16", "--sd=2", "FILE"], 2, "--pieces is '1e3'"),
    (["--mean=16", "--sd=2", "--fold-max", "90", "FILE"], 2, "leave --fold-max out"),
    (["--mean=16", "--sd=2", "--record", "FILE"], 2, "record by psr_record"),
    (["--mean=16", "--sd=2", "FILE", "+", "FILE"], 2, "several observations"),
    (["--mean=16", "--sd=2", "--shards=2", "FILE"], 2, "leave --shards out"),
    (["--mean=16", "--sd=2", "--hands", "3", "FILE"], 2, "leave --hands out"),
    (["--mean=16", "--sd=2", "-snr", "3", "FILE"], 2, "-snr is no option"),
    (["--mean", "-0", "--sd=2", "FILE"], 2, "is joined to its option, as --mean=-0"),
    (["--mean=16", "--sd=2", "--nonsense=1", "FILE"], 2, "psr_part has no option --nonsense"),
    (["--mean=16", "--sd=2", "--nonsense=1", "/nowhere"], 2, "psr_part has no option --nonsense"),
    (["--mean=16", "--sd=2", "PIPE"], 2, "is a pipe or a device, which can't be divided"),
    (["--mean=16", "--sd=2", "/nowhere/a.dada"], 6, "can't read /nowhere/a.dada: No such"),
    (["--mean=16", "--sd=2", "FILE", "/nowhere/a.dada"], 6, "can't read /nowhere/a.dada: No such"),
    (["--mean=16", "--sd=2", "/"], 6, "can't read /: Is a directory"),
    (["--mean=16", "--sd=2", __file__], 3, "refused: Missing NCHAN"),
    (["--mean=16", "--sd=2", "FILE", "FILE"], 7, "has OBS_OFFSET 0 where 32000 was expected"),
    (["--mean=16", "--sd=2", "--max-bytes=31999", "FILE", "/nowhere"], 8, "more than 31999 bytes"),
])
def test_what_is_refused(stand_in: Path, tmp_path: Path, monkeypatch: pytest.MonkeyPatch,
                         capfd: pytest.CaptureFixture[str], words: list[str], status: int, line: str) -> None:
    os.mkfifo(tmp_path / "pipe")
    names = {"FILE": str(stand_in), "PIPE": str(tmp_path / "pipe")}
    monkeypatch.setattr(sys, "argv", ["psr_pieces", *(names.get(word, word) for word in words)])
    assert run("psr_pieces", psr_pieces) == status
    answer = capfd.readouterr()
    assert line in answer.err and answer.err.count("\n") == 1 and answer.out == ""


def test_it_starts_soon(stand_in: Path) -> None:
    """Nothing that takes long is imported before the pieces run."""
    answer = subprocess.run([sys.executable, "-S", "-X", "importtime", str(HERE.parent / "psr_pieces"), *SEARCH,
                             str(stand_in)], capture_output=True, text=True, check=True)
    imported = {line.rpartition("|")[2].strip() for line in answer.stderr.splitlines()}
    assert "malletbean.side_by_side" in imported
    assert not imported & {"numpy", "re", "enum", "dataclasses", "typing", "argparse", "subprocess", "collections",
                           "functools", "contextlib", "threading", "signal"}


@needs_search
@pytest.mark.parametrize("several", [False, True])
def test_the_programs_print_one_search(tmp_path: Path, several: bool) -> None:
    path = tmp_path / "whole.dada"
    # pulses of 100 spectra, and data that end within a spectrum
    made.make(path, number=3, channels=64, spectra=4096, delay=100, period=256, height=2)
    path.write_bytes(path.read_bytes()[:-33])
    paths = parted(path, tmp_path, [1000, 70_000, 70_001]) if several else [str(path)]
    whole = subprocess.run(["psr_search", *SEARCH, str(path)], capture_output=True, check=True).stdout
    assert whole.count(b"PULSE") > 100
    for words in ([], ["--pieces=1"], ["--pieces", "3"], ["--pieces=8"], ["--size", "1000"]):
        answer = called(*words, *SEARCH, *paths)
        assert (answer.returncode, answer.stdout, answer.stderr) == (0, whole, b"")


@needs_search
@pytest.mark.parametrize("words", [
    ["FILE", "FILE"], ["/nowhere"], ["FILE", "/nowhere"], ["--max-candidates=3", "FILE"], ["--max-bytes=8191", "FILE"],
    ["--max-bytes=8192", "FILE"], ["--widths=3", "FILE"], ["--max-bytes=0", "/nowhere"], ["EMPTY"], [__file__],
    ["--max-delay=8192", "--widths=32", "--mean=16", "--sd=1", "FILE", "/nowhere"], ["--hands=0", "FILE"],
    ["--shards=7", "--max-delay=2", "FILE"], ["CUT", "FILE"], ["/"], ["FILE", "EMPTY"],
])
def test_the_status_is_that_of_a_search(files: dict[str, str], tmp_path: Path, words: list[str]) -> None:
    cut = tmp_path / "cut.dada"
    cut.write_bytes(Path(files["made"]).read_bytes()[:4000])
    (tmp_path / "empty").touch()
    names = {"FILE": files["made"], "CUT": str(cut), "EMPTY": str(tmp_path / "empty")}
    usual = [] if "--sd=1" in words else ["--mean=16", "--sd=2.828"]
    given = [*usual, *(names.get(word, word) for word in words)]
    whole = subprocess.run(["psr_search", *given], capture_output=True)
    answer = called(*given)
    if "--shards=7" not in words:
        assert answer.returncode == whole.returncode
    assert answer.stdout == whole.stdout and answer.stderr.count(b"\n") == (answer.returncode > 0)
