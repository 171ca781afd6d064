"""`psr_table`: the candidates of a text as a table."""
from __future__ import annotations

import argparse
import sys
from collections.abc import Sequence

import numpy as np

from .arrays import Array
from .candidates import fold_table, pulse_table, strongest, top_spectra, with_columns
from .grouping import Searched, candidate_table
from .headers import Header, header
from .listing import FORMS, write_csv, write_singlepulse
from .output import whole_file
from .program import Words, add_search_words, check_entries, check_output, entries_by, only_entry
from .refusal import WORDS, Refusal
from .texts import Found

SUFFIXES = (".csv", ".npz", ".singlepulse")
# those of candidates alone
GROUP_SUFFIXES = (".json", ".cand")
VIEW = "a view: neighbouring lines as candidates, each named by its strongest line, not a result of the search"


def psr_table(words: Sequence[str]) -> None:
    """Reads a text and writes the table that the words ask for."""
    asked = parsed(words)
    head = header(asked.file).without(asked.mask)
    found = only_entry(asked, entries_by(asked))
    check_entries("psr_table", asked, [found], head)
    folds = fold_table(found.folds, head, asked.mean, asked.deviation)
    if asked.best is None:
        pulses = pulse_table(found.pulses, head, asked.mean, asked.deviation)
        if found.is_beam:
            pulses = with_columns(pulses, {"rfi": found.are_marked.astype(int)})
    else:
        pulses, folds = best_pulses(found, asked, head), best_folds(folds, asked.best)
    write_tables(asked, head, pulses, folds)


def write_tables(asked: argparse.Namespace, head: Header, pulses: Array, folds: Array) -> None:
    """Writes the tables as the words ask for, whole or not at all."""
    table = folds if asked.folds else pulses
    if asked.output is None:
        if asked.best is not None:
            sys.stdout.write(f"# {VIEW}\n")
        write_csv(sys.stdout, table)
        return
    with whole_file(asked.output) as name:
        if asked.output.endswith(".npz"):
            # a file, since numpy would add the end of the name
            with open(name, "wb") as arrays:
                np.savez(arrays, pulses=pulses, folds=folds)
            return
        with open(name, "w", encoding="ascii") as file:
            if asked.output.endswith(".csv"):
                write_csv(file, table)
            elif asked.best is not None:
                FORMS[asked.output[asked.output.rindex("."):]](file, pulses, head)
            else:
                middles = top_spectra(pulses) - (pulses["width"] - 1) // 2
                write_singlepulse(file, (pulses["dm"], pulses["snr"], middles * head.seconds, middles, pulses["width"]))


def parsed(words: Sequence[str]) -> argparse.Namespace:
    """The words of the command."""
    parser = Words(prog="psr_table",
                   description="Writes the lines of a search's output, or its candidates, as a table.")
    add_search_words(parser)
    parser.add_argument("-o", "--output", metavar="NAME",
                        help="NAME.csv, NAME.npz or NAME.singlepulse, with --best also NAME.json or NAME.cand; "
                             "standard output as .csv without it")
    parser.add_argument("--folds", action="store_true", help="write FOLD lines as .csv, in place of PULSE lines")
    parser.add_argument("--best", metavar="N", type=int,
                        help="write the N strongest candidates instead, each a group of neighbouring lines")
    asked = parser.parse_args(words)
    if asked.best is not None and asked.best < 1:
        raise Refusal(WORDS, "argument --best: it is below 1")
    check_output(asked, SUFFIXES if asked.best is None else SUFFIXES + GROUP_SUFFIXES)
    return asked


def best_pulses(found: Found, asked: argparse.Namespace, head: Header) -> Array:
    """The strongest candidates; of a beam, with a last column that says whether their line is marked."""
    table = candidate_table([Searched(found.pulses, head, asked.mean, asked.deviation)], asked.best)
    if not found.is_beam:
        return table
    marked = {tuple(line) for line in found.pulses[found.are_marked][["end", "delay", "width"]].tolist()}
    return with_columns(table, {"rfi": np.array(
        [int(tuple(row) in marked) for row in table[["end", "delay", "width"]].tolist()], int)})


def best_folds(table: Array, count: int) -> Array:
    """The strongest line of each of the strongest groups of folds; the last column is how many lines a group has."""
    best, sizes = strongest(table, table["snr"], count)
    return with_columns(table[best], {"lines": sizes})
