"""Roff of the markdown that the documents have: headings, paragraphs, lists, tables and blocks of code."""
from __future__ import annotations

import re

LONG_CELL = 40
LITERALS = (("\\", "\\e"), ("-", "\\-"), ("'", "\\(aq"), ("`", "\\(ga"), ("^", "\\(ha"), ("~", "\\(ti"))


def escaped(text: str) -> str:
    """Text as roff takes it literally."""
    for character, name in LITERALS:
        text = text.replace(character, name)
    return "\\&" + text if text.startswith(".") else text


def bold(text: str) -> str:
    """Text in bold letters."""
    return f"\\fB{escaped(text)}\\fR"


def inline(text: str) -> str:
    """A paragraph: code and strong words are bold, and a link is its words."""
    text = re.sub(r"\[([^]]*)\]\([^)]*\)", r"\1", text)
    parts = re.split(r"`([^`]*)`|\*\*(.+?)\*\*", text)
    made = []
    for number in range(0, len(parts), 3):
        made.append(escaped(parts[number]))
        if number + 1 < len(parts):
            code, strong = parts[number + 1:number + 3]
            made.append(bold(code if strong is None else strong.replace("`", "")))
    joined = "".join(made)
    return "\\&" + joined if joined.startswith((".", "\\(aq")) else joined


def code(lines: list[str]) -> list[str]:
    """A block of code."""
    return [".PP", ".in +4n", ".EX", *map(escaped, lines), ".EE", ".in"]


def entry(tag: str, text: str) -> list[str]:
    """An entry of a list of names and their meanings."""
    return [".TP", tag, inline(text)]


def dense(made: list[str]) -> list[str]:
    """Entries without blank lines between them."""
    return [".PD 0", *made, ".PD"] if made else []


def table(rows: list[dict[str, str]]) -> list[str]:
    """A table: columns side by side, or an entry for each row if a cell is long."""
    heads = list(rows[0])
    plain = [[text.replace("`", "") for text in row] for row in (heads, *(row.values() for row in rows))]
    if max(len(cell) for row in plain for cell in row) < LONG_CELL:
        widths = [max(map(len, column)) for column in zip(*plain)]
        return code(["  ".join(cell.ljust(width) for cell, width in zip(row, widths)).rstrip() for row in plain])
    made = []
    for row in rows:
        first, second, *rest = row.values()
        told = [f"{head}: {cell}" for head, cell in zip(heads[2:], rest) if cell]
        made += entry(inline(first), ". ".join([second, *told]))
    return dense(made)


def blocks(lines: list[str]) -> list[tuple[str, list[str]]]:
    """The blocks of a section, each with its kind."""
    found: list[tuple[str, list[str]]] = []
    for line in lines:
        body = line.strip()
        last = found[-1][0] if found else "blank"
        if not body:
            kind = "blank"
        elif re.match(r"#+ ", line):
            kind = "heading"
        elif body.startswith("|"):
            kind = "table"
        elif re.match(r"(- |\d+\. )", line):
            kind = "item"
        elif line.startswith("    ") and last in ("blank", "code"):
            kind = "code"
        elif last in ("item", "paragraph"):
            found[-1][1].append(body)
            continue
        else:
            kind = "paragraph"
        if kind in ("table", "code") and kind == last:
            found[-1][1].append(line)
        else:
            found.append((kind, [line]))
    return [block for block in found if block[0] != "blank"]
