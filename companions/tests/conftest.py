"""Where the package and the stored texts are, and the observations that these texts are of."""
from __future__ import annotations

import signal
import sys
from pathlib import Path

import pytest

HERE = Path(__file__).parent
DATA = HERE / "data"
sys.path[:0] = [str(HERE), str(HERE.parent)]

import made  # noqa: E402

# a shell ignores SIGINT for jobs in the background, and nohup ignores SIGHUP; so would the programs that tests stop
signal.signal(signal.SIGINT, signal.default_int_handler)
signal.signal(signal.SIGHUP, signal.SIG_DFL)


@pytest.fixture(scope="session")
def files(tmp_path_factory: pytest.TempPathFactory) -> dict[str, str]:
    """The observations of the stored texts, by their names."""
    folder = tmp_path_factory.mktemp("files")
    words = {
        "made": dict(number=5, channels=32, spectra=256, delay=20, period=100, height=8),
        "folds": dict(number=7, channels=32, spectra=2048, delay=20, period=100, height=2),
        "rising": dict(number=8, channels=48, spectra=512, delay=30, period=150, height=6, bits=16, polarisations=2,
                       width=400),
        "second": dict(number=9, channels=32, spectra=256, delay=20, period=100, height=8, polarisations=2),
    }
    for name, values in words.items():
        made.make(folder / f"{name}.dada", **values)
    return {name: str(folder / f"{name}.dada") for name in words}
