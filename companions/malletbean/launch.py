"""Runs the companion whose name the command has."""
from __future__ import annotations

import os
import sys

from .ending import run

# the module of each command, and its function
COMMANDS = {
    "plan": "cluster.plan",
    "psr_cut": "cut.psr_cut",
    "psr_dada": "dada.psr_dada",
    "psr_fil": "fil.psr_fil",
    "psr_fits": "fits.psr_fits",
    "psr_hunt": "hunt.psr_hunt",
    "psr_look": "look.psr_look",
    "psr_pieces": "side_by_side.psr_pieces",
    "psr_plan": "cluster.plan",
    "psr_plot": "plot.psr_plot",
    "psr_series": "series.psr_series",
    "psr_table": "table.psr_table",
}
# the Python that Debian's packages are for
DEBIAN = "/usr/bin/python3"


def main() -> int:
    """Runs the command over its arguments, and answers its status."""
    name = os.path.basename(sys.argv[0])
    if name not in COMMANDS:
        print(f"{name}: the companions are {', '.join(COMMANDS)}", file=sys.stderr)
        return 2
    module, function = COMMANDS[name].split(".")
    try:
        # `importlib` is not imported, since psr_pieces has to start soon
        program = getattr(__import__(f"malletbean.{module}", fromlist=[function]), function)
    except ModuleNotFoundError as missing:
        package = (missing.name or "malletbean").split(".")[0]
        if package == "malletbean":
            raise
        return without(name, package)
    status: int = run(name, program)
    return status


def without(name: str, package: str) -> int:
    """Runs the command by Debian's Python where this one lacks a package, or says so."""
    run_by_debian()
    print(f"{name}: {sys.executable} has no {package}: install it (Debian: python3-{package})", file=sys.stderr)
    return 1


def run_by_debian() -> None:
    """Runs the command by Debian's Python, if there is one and it is another than this one."""
    if os.access(DEBIAN, os.X_OK) and not os.path.samefile(DEBIAN, sys.executable):
        os.execv(DEBIAN, [DEBIAN, *sys.argv])
