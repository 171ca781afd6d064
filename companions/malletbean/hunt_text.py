"""What a hunt says: its plan, and the summary at its end."""
from __future__ import annotations

import csv
import math
import os
from collections.abc import Sequence
from itertools import groupby

import numpy as np

from .candidates import fold_table
from .headers import Header, header
from .hunt_cost import disk_bytes, free_disk, free_memory, level_seconds, memory_bytes
from .hunt_input import masked_megahertz
from .hunt_plan import level_header, noise_lines, overstatement
from .hunt_pieces import seconds_of
from .manifest import Hunt, SearchPass
from .masks import masked_channels
from .texts import read

# how many ranges of frequencies are named
MOST_NAMED = 8


def plan_text(hunt: Hunt, head: Header, cores: int, not_folded: Sequence[str], converted: bool) -> str:
    """The plan, as a dry run prints it."""
    sky = hunt.observation
    lines = [f"observation  {named(hunt)}",
             f"band         {head.channels} channels from {head.edges_khz[-1] / 1000:.3f} to "
             f"{head.edges_khz[0] / 1000:.3f} MHz, {sky.nbit} bits",
             f"length       {sky.spectra} spectra of {sky.tsamp * 1e6:.6g} us, {sky.spectra * sky.tsamp:.3f} s",
             f"mask         {mask_line(hunt, head)}",
             f"looked for   DM {hunt.dm_low:g} to {hunt.dm_high:g}, pulses of {width_range(hunt)} ms, true S/N from "
             f"{hunt.snr:g} on", *(f"not found    {one}" for one in too_long(hunt, head)), "",
             "level  averaged  spectra of ms  levelled by s  zero DM"]
    for level in hunt.levels:
        seconds = level_header(head, level.average).seconds
        lines.append(f"{os.path.basename(level.path)[:-5]:<6} {level.average:>8}  {seconds * 1000:>13.6g}  "
                     f"{level.stretch * seconds:>13.3g}  {'yes' if level.zero_dm else 'no'}")
    lines += ["", "pass      delays       DM                  boxes  --snr  printed / true   lines of noise  core s"]
    lines += [pass_line(head, one) for one in hunt.searches if not one.fold_max]
    lines += fold_lines(hunt, head, not_folded)
    return "\n".join([*lines, "", *cost_lines(hunt, head, cores, converted)])


def too_long(hunt: Hunt, head: Header) -> list[str]:
    """Which pulses take longer across the band than the observation, if any that are looked for do."""
    longest = head.dm(head.spectra)
    if hunt.dm_high <= longest:
        return []
    return [f"pulses above DM {longest:.1f}: they take longer across the band than the observation"]


def named(hunt: Hunt) -> str:
    """Which observation it is."""
    sky = hunt.observation
    first = hunt.inputs[0] + (f" and {len(hunt.inputs) - 1} more" if len(hunt.inputs) > 1 else "")
    return ", ".join(part for part in (first, sky.source, sky.telescope, sky.utc_start) if part)


def mask_line(hunt: Hunt, head: Header) -> str:
    """The mask, by channels and by frequencies."""
    if hunt.mask == "none":
        return "none"
    ranges = masked_megahertz(head).split(", ")
    more = f" and {len(ranges) - MOST_NAMED} more" if len(ranges) > MOST_NAMED else ""
    count = len(masked_channels(hunt.mask, head.channels))
    return f"{count} of {head.channels} channels: {', '.join(ranges[:MOST_NAMED])}{more} MHz (--mask {hunt.mask})"


def width_range(hunt: Hunt) -> str:
    """From which to which width pulses have a box of their own, in ms."""
    boxes = [one.average * one.widths for one in hunt.searches if not one.fold_max]
    return f"{hunt.observation.tsamp * 1000:.3g} to {max(boxes) * hunt.observation.tsamp * 1000:.3g}"


def pass_line(head: Header, search: SearchPass) -> str:
    """A line of the plan for a pass."""
    level = level_header(head, search.average)
    most = float(overstatement(level, np.array([search.max_delay]), search.widths)[0])
    lines = noise_count(level, search)
    return (f"{search.name:<9} {f'{search.min_delay}-{search.max_delay}':<12} "
            f"{f'{search.dm_low:.1f} to {search.dm_high:.1f}':<19} {f'1-{search.widths}':<6} {search.snr:>5.2f}  "
            f"{f'1.00 to {most:.2f}':<15}  {lines:>14.0f}  {seconds_of(search, head):>6.1f}")


def noise_count(level: Header, search: SearchPass) -> float:
    """How many lines noise alone gives in a pass."""
    return noise_lines(level, search.min_delay, search.max_delay, search.widths, search.snr) * search.spectra


def fold_lines(hunt: Hunt, head: Header, not_folded: Sequence[str]) -> list[str]:
    """What is folded, and what is not."""
    folds = [one for one in hunt.searches if one.fold_max]
    if not folds and not not_folded:
        return []
    lines = ["", "folds of s          searches  level  rows   DM                  --snr  core s"]
    for _, some in groupby(folds, key=lambda one: (one.level, one.fold_min)):
        mine = list(some)
        first, last, seconds = mine[0], mine[-1], level_header(head, mine[0].average).seconds
        periods = f"{first.fold_min * seconds:.5g} to {first.fold_max * seconds:.5g}"
        lines.append(f"{periods:<19} {len(mine):>8}  {f'k{first.average}':<6} {1 << first.fold_rows:<6} "
                     f"{f'{first.dm_low:.1f} to {last.dm_high:.1f}':<19} {first.snr:>5.2f}  "
                     f"{sum(seconds_of(one, head) for one in mine):>6.1f}")
    return [*lines, *(f"not folded: {one}" for one in not_folded)]


def predicted_seconds(hunt: Hunt, head: Header) -> float:
    """Seconds of a core for all jobs."""
    return sum(seconds_of(one, head) for one in hunt.searches) + level_seconds(head) * len(hunt.levels)


def cost_lines(hunt: Hunt, head: Header, cores: int, converted: bool) -> list[str]:
    """What the hunt takes, by measured rates."""
    seconds = predicted_seconds(hunt, head)
    disk, memory = disk_bytes(head, hunt.levels, converted), memory_bytes(head, hunt.levels, hunt.searches, cores)
    return [f"time         about {duration(seconds)} of one core, {duration(seconds / cores)} on {cores} "
            "(levels and searches alone, on a quiet machine with AVX2; twice as long on an older one)",
            f"disk         {size(disk)} while it runs", f"memory       {size(memory)}"]


def duration(seconds: float) -> str:
    """A time as a person says it."""
    for unit, count in (("h", 3600), ("min", 60)):
        if seconds >= 2 * count:
            return f"{seconds / count:.0f} {unit}"
    return f"{max(1, math.ceil(seconds))} s"


def size(count: float) -> str:
    """A number of bytes as a person says it."""
    for unit, scale in (("TB", 1e12), ("GB", 1e9)):
        if count >= scale:
            return f"{count / scale:.3g} {unit}"
    return f"{max(1, round(count / 1e6))} MB"


def room_missing(hunt: Hunt, head: Header, folder: str, cores: int, converted: bool) -> str | None:
    """What is too little for the hunt, if something is."""
    disk, memory = disk_bytes(head, hunt.levels, converted), memory_bytes(head, hunt.levels, hunt.searches, cores)
    if disk > free_disk(folder):
        return f"it needs {size(disk)} in {folder}, where {size(free_disk(folder))} are free"
    if memory > free_memory():
        return f"it needs {size(memory)} of memory, and {size(free_memory())} can be had: give fewer --cores"
    return None


def summary_lines(folder: str, hunt: Hunt, head: Header, lines: int, seconds: float) -> list[str]:
    """The summary at the end of a hunt."""
    sky, found = hunt.observation, candidates_in(folder)
    flagged = sum(bool(one.get("flag")) for one in found)
    return [
        f"searched    {named(hunt)}",
        f"            {sky.spectra * sky.tsamp:.1f} s at DM {hunt.dm_low:g} to {hunt.dm_high:g}, pulses of "
        f"{width_range(hunt)} ms, true S/N from {hunt.snr:g} on, in {duration(seconds)}",
        *(f"            without {one}" for one in too_long(hunt, head)),
        f"found       {len(found)} candidates, {flagged} of them flagged, from {lines} lines",
        *(f"{name:<11} {strongest_line(one)}" for name, one in strongest(found)),
        *fold_summary(folder, hunt),
        f"masked      {hunt.mask if len(hunt.mask) < 60 else hunt.mask[:57] + '..'}",
        f"cut         {cut_line(hunt)}",
        f"candidates  {os.path.join(folder, 'candidates.csv')}",
        f"report      {os.path.join(folder, 'report.html')}",
    ]


def strongest(found: Sequence[dict[str, str]]) -> list[tuple[str, dict[str, str]]]:
    """The strongest candidate without a flag, and the strongest with one if it is stronger."""
    clean = next((one for one in found if not one.get("flag")), None)
    lines = [("strongest", clean)] if clean else []
    if found and found[0].get("flag"):
        lines.append(("flagged", found[0]))
    return lines


def strongest_line(one: dict[str, str]) -> str:
    """What a candidate is."""
    text = (f"S/N {float(one['snr']):.1f} at DM {float(one['dm']):.2f}, {float(one['width_ms']):.3g} ms wide, "
            f"{float(one['time_top']):.4f} s after the beginning")
    return f"{text} ({one['flag']})" if one.get("flag") else text


def fold_summary(folder: str, hunt: Hunt) -> list[str]:
    """How many folds stand out, and the strongest of them."""
    best, count, text = 0.0, 0, ""
    folds = [one for one in hunt.searches if one.fold_max]
    for search in folds:
        level = hunt.level(search)
        lines = read(os.path.join(folder, search.output))[0].folds
        if not len(lines):
            continue
        head = header(os.path.join(folder, level.path)).without(hunt.mask)
        table = fold_table(lines, head, search.mean, level.deviation or search.sd)
        first = table[table["snr"].argmax()]
        count += len(table)
        if first["snr"] > best:
            best = float(first["snr"])
            text = f": S/N {best:.1f} at {first['period_s']:.6f} s, DM {first['dm']:.2f}"
    return [f"folds       {count} lines{text}"] if folds else []


def cut_line(hunt: Hunt) -> str:
    """What the hunt left out."""
    left = [f"spectra farther than {hunt.clip:g} deviations off"] if hunt.clip is not None else []
    if hunt.bursts:
        seconds = sum(one.until - one.begin for one in hunt.bursts)
        left.append(f"bursts of interference in parts of the band: {len(hunt.bursts)}, {seconds:.2f} s")
    for search in hunt.searches:
        if search.raised:
            seconds = sum(one.until - one.first for one in search.raised) * search.average * hunt.observation.tsamp
            ratios = sorted({f"{one.snr:g}" for one in search.raised}, key=float)
            left.append(f"{search.name}: {seconds:.1f} s had too many lines: searched from S/N "
                        f"{' to '.join(dict.fromkeys((ratios[0], ratios[-1])))} on")
    return "; ".join(left) or "nothing"


def candidates_in(folder: str) -> list[dict[str, str]]:
    """The candidates of a folder, the strongest first."""
    with open(os.path.join(folder, "candidates.csv"), encoding="utf-8", newline="") as file:
        return list(csv.DictReader(line for line in file if not line.startswith("#")))
