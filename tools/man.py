"""Writes the manual pages that have the sentences of a document: docs/ipcd-protocol.7 and docs/ipcd-device.5.

    python3 tools/man.py

It takes from a document what this repository writes in one: headings, paragraphs, lists, tables, and blocks of code. A
row of a table becomes an entry of a list, since a terminal is narrow. tests/system/documents.py looks whether the pages are
what this makes.
"""

from __future__ import annotations

import re
from collections.abc import Iterator
from pathlib import Path
from typing import NamedTuple

DOCS = Path(__file__).resolve().parent.parent / "docs"
# What another document is called on a terminal.
CALLED = {"PROTOCOL.md": "ipcd-protocol(7)", "DEVICE.md": "ipcd-device(5)"}
SEE_ALSO = ["ipcd(8)", "ipcd-device(5)", "ipcd-protocol(7)", "mq_overview(7)", "sem_overview(7)", "shm_overview(7)"]
ENTRY = re.compile(r"( *)(-|[0-9]+\.) (.*)")


class Page(NamedTuple):
    document: str
    section: str
    what: str


PAGES = {
    "ipcd-protocol.7": Page("PROTOCOL.md", "Miscellaneous Information", "the frames between ipcd and its clients"),
    "ipcd-device.5": Page("DEVICE.md", "File Formats", "the bytes of a device of ipcd, and what a crash leaves of it"),
}


def escaped(text: str, code: bool = False) -> str:
    """Text as roff takes it. A hyphen between letters of prose may be broken after; any other is a minus."""
    text = text.replace("\\", "\\e").replace("^", "\\(ha").replace("~", "\\(ti")
    text = "".join(it if it.isascii() else f"\\[u{ord(it):04X}]" for it in text)
    if code:
        return text.replace("-", "\\-").replace("'", "\\(aq").replace("`", "\\(ga")
    return re.sub(r"(?<![A-Za-z])-|-(?![A-Za-z])", r"\\-", text)


def inline(text: str) -> str:
    """A line of prose: links lose their targets, and what is code or strong is bold."""
    text = re.sub(r"\[([^]]*)\]\([^)]*\)", lambda it: CALLED.get(it[1], it[1]), text)
    parts = re.split(r"(`[^`]*`|\*\*.*?\*\*)", text)
    return "".join(
        f"\\fB{escaped(part[1:-1], True)}\\fP"
        if part.startswith("`")
        else f"\\fB{inline(part[2:-2])}\\fP".replace("\\fP\\fP", "\\fP")
        if part.startswith("**")
        else escaped(part)
        for part in parts
    )


def lines_of(text: str) -> str:
    """Prose, a sentence a line. A line that begins with a control character has a mark before it."""
    sentences = re.sub(r"(?<=[A-Za-z0-9)`*]\.) (?=[A-Z`*])", "\n", text).splitlines()
    made = (inline(it) for it in sentences)
    return "".join(f"\\&{it}\n" if it[:1] in (".", "'") else f"{it}\n" for it in made)


def is_numbers(cells: list[str]) -> bool:
    return all(re.fullmatch(r"[0-9]+( to [0-9]+)?( each)?|", cell) for cell in cells)


def row(heads: list[str], cells: list[str], numbers: bool) -> str:
    """A row: what it is of, and then each of its other cells, after the head of its column if there are some."""
    tag, rest = (f"{heads[0]} {cells[0]}" if numbers or heads[0] == "sector" else cells[0]), 1
    if heads[0] in ("bytes", "size") and cells[0].isdigit():
        tag = f"{cells[0]} bytes" if cells[0] != "1" else "1 byte"
    if len(cells) > 1 and heads[1] in ("size", "call"):
        tag, rest = f"{tag}, size {cells[1]}" if heads[1] == "size" else f"{cells[0]} {cells[1]}", 2
    others = [(head, cell) for head, cell in zip(heads[rest:], cells[rest:]) if cell]
    told = [cell if len(heads) - rest == 1 or not head else f"{head}: {cell}" for head, cell in others]
    return f".TP\n\\fB{inline(tag)}\\fP\n".replace("\\fP\\fP", "\\fP") + (".br\n".join(map(lines_of, told)) or "\\&\n")


def table(rows: list[list[str]]) -> Iterator[str]:
    """A table with the same columns twice is one after the other. An empty first cell is the one above it."""
    heads, cells = rows[0], rows[2:]
    half = len(heads) // 2
    if half and heads[:half] == heads[half:]:
        yield from table([heads[:half], [], *(it[:half] for it in cells)])
        yield from table([heads[:half], [], *(it[half:] for it in cells)])
        return
    numbers, above = is_numbers([it[0] for it in cells]), ""
    for it in cells:
        above = it[0] or above
        if any(it):
            yield row(heads, [above, *it[1:]], numbers)


def code(lines: list[str]) -> str:
    while lines and not lines[-1].strip():
        lines.pop()
    return ".PP\n.EX\n.in +4n\n" + "".join(f"\\&{escaped(it, True)}\n" for it in lines) + ".in\n.EE\n"


def blocks(lines: list[str]) -> Iterator[str]:
    """The document's parts, one after another."""
    k = 0
    while k < len(lines):
        line = lines[k]
        first = k
        k += 1
        if line.startswith("```"):
            while not lines[k].startswith("```"):
                k += 1
            yield code(lines[first + 1 : k])
            k += 1
        elif line.startswith("    "):
            while k < len(lines) and (lines[k].startswith("    ") or not lines[k].strip()):
                k += 1
            yield code([it[4:] for it in lines[first:k]])
        elif line.startswith("|"):
            while k < len(lines) and lines[k].startswith("|"):
                k += 1
            yield from table([[cell.strip() for cell in it.strip("|").split("|")] for it in lines[first:k]])
        elif line.startswith("!["):
            continue
        elif line.startswith("#"):
            level, _, text = line.partition(" ")
            yield f".SH {escaped(text.upper())}\n" if level == "##" else f".SS {escaped(text)}\n"
        elif entry := ENTRY.match(line):
            mark = "\\(bu" if entry[2] == "-" else entry[2]
            inner = (".RS 4\n", ".RE\n") if entry[1] else ("", "")
            yield f"{inner[0]}.IP {mark} 4\n{lines_of(entry[3])}{inner[1]}"
        elif line.strip():
            yield f".PP\n{lines_of(line.strip())}"


def page(name: str) -> str:
    """What stands in the file of this name."""
    of = PAGES[name]
    title, section = name.rsplit(".", 1)
    version = re.search(r'"(ipcd [0-9.]+)"', (DOCS / "ipcd.8").read_text())[1]
    lines = (DOCS / of.document).read_text().splitlines()
    also = ",\n".join(f".BR {it[:-3]} {it[-3:]}" for it in SEE_ALSO if not it.startswith(f"{title}("))
    return (
        f'.\\" Made by tools/man.py of docs/{of.document}: change that, and make it anew.\n'
        f'.TH {title.upper()} {section} "" "{version}" "{of.section}"\n'
        f".SH NAME\n{title} \\- {of.what}\n.SH DESCRIPTION\n"
        f"{''.join(blocks(lines[1:]))}"
        f".SH SEE ALSO\n{also.replace(',', ' ,')}\n"
    )


def main() -> None:
    for name in PAGES:
        (DOCS / name).write_text(page(name))
        print(f"docs/{name}")


if __name__ == "__main__":
    main()
