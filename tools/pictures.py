"""Draws docs/pictures/: the crates and who stands on whom, the sectors of a device, and a commit and a save.

    python3 tools/pictures.py

The crates are those of crates.txt, the sectors those of crates/ipc_image/src/places.rt and format.rt.
tests/system/documents.py looks whether the pictures are what this draws.
"""

from __future__ import annotations

import re
from functools import cache
from pathlib import Path
from xml.sax.saxutils import escape

ROOT = Path(__file__).resolve().parent.parent
FOLDER = ROOT / "docs" / "pictures"
# The crate by which a band is entered, the band's name, and its colour. Whatever is below it is of the band, or of one
# before.
BANDS = {
    "ipc_engine": ("the machine: no input or output, no clock, no disk", "#dbeafe"),
    "ipc_store": ("the store: any disk of sectors", "#dcfce7"),
    "ipcd": ("the edge: sockets, scripts, the command line", "#fef3c7"),
    "": ("above them: trials, refusals and premises", "#f3e8ff"),
}
# Crates: height of a row, of a box, and where a band's boxes stand from left to right.
ROW, BOX = 74, 30
SPANS = {"ipc_engine": (20, 900), "ipc_store": (930, 1260), "ipcd": (20, 900), "": (930, 1260)}
# How far a box is moved to the right, so that no line runs behind another one.
MOVED = {"ipc_server": -160, "ipc_image": -90, "ipc_checkpoint": 82, "ipc_command": 150}
# Where lines from a crate far up go down, between the bands.
GUTTER = 910
STYLE = (
    "text{font-family:sans-serif;font-size:13px;fill:#111}.small{font-size:11px;fill:#444}"
    ".box{stroke:#444;stroke-width:1}.line{stroke:#888;stroke-width:1}.head{font-weight:bold}"
)


def picture(width: int, height: int, title: str, parts: list[str]) -> str:
    return (
        f'<svg xmlns="http://www.w3.org/2000/svg" viewBox="0 0 {width} {height}" width="{width}" height="{height}">\n'
        f"<title>{escape(title)}</title>\n<style>{STYLE}</style>\n"
        f'<rect width="{width}" height="{height}" fill="#fff"/>\n' + "\n".join(parts) + "\n</svg>\n"
    )


def box(x: int, y: int, width: int, height: int, colour: str) -> str:
    return f'<rect class="box" x="{x}" y="{y}" width="{width}" height="{height}" rx="4" fill="{colour}"/>'


def text(x: int, y: int, words: str, kind: str = "", middle: bool = True) -> str:
    anchor = ' text-anchor="middle"' if middle else ""
    named = f' class="{kind}"' if kind else ""
    return f'<text x="{x}" y="{y}"{anchor}{named}>{escape(words)}</text>'


def line(x: int, y: int, to_x: int, to_y: int) -> str:
    return f'<line class="line" x1="{x}" y1="{y}" x2="{to_x}" y2="{to_y}"/>'


@cache
def crates() -> dict[str, list[str]]:
    """The crates of crates.txt, in their order, each with those of them that it stands on."""
    lines = (it.partition("#")[0].partition(":") for it in (ROOT / "crates.txt").read_text().splitlines())
    found = {name.strip(): rest.split() for name, colon, rest in lines if colon}
    return {name: [it for it in rest if it in found] for name, rest in found.items()}


@cache
def below(crate: str) -> frozenset[str]:
    """All that a crate stands on, also by others."""
    lower = crates()[crate]
    return frozenset(lower).union(*map(below, lower))


@cache
def depth(crate: str) -> int:
    return max((depth(it) + 1 for it in crates()[crate]), default=0)


def band(crate: str) -> str:
    """The crate by which the band of this one is entered."""
    return next((top for top in BANDS if top and (crate == top or crate in below(top))), "")


def row_of(crate: str) -> int:
    """A row from below. A crate of the edge is above the store, also if it stands on little."""
    lowest = depth("ipc_store") + 1 if band(crate) in ("ipcd", "") else 0
    return max(depth(crate), lowest)


def places() -> dict[str, tuple[int, int, int]]:
    """Where the box of each crate is: its left and upper edge, and its width."""
    rows: dict[tuple[str, int], list[str]] = {}
    for crate in crates():
        rows.setdefault((band(crate), row_of(crate)), []).append(crate)
    top = max(map(row_of, crates()))
    found = {}
    for (of, row), them in rows.items():
        left, right = SPANS[of]
        each = (right - left) // len(them)
        width = min(each - 8, 130)
        for k, crate in enumerate(them):
            x = left + each * k + (each - width) // 2 + MOVED.get(crate, 0)
            found[crate] = (x, 50 + (top - row) * ROW, width)
    return found


def crates_picture() -> str:
    """Lines lead from each crate down to those that it stands on, but for those that one of them stands on too."""
    at = places()
    said = "Each crate stands on those to which a line leads down, and knows only what they promise."
    parts = [text(20, 24, said, "", False)]
    for crate, (x, y, width) in at.items():
        for lower in crates()[crate]:
            if not any(lower in below(it) for it in crates()[crate]):
                to_x, to_y, to_width = at[lower]
                way = [(x + width // 2, y + BOX), (to_x + to_width // 2, to_y)]
                if crate == "ipc_command":
                    way.insert(1, (GUTTER, to_y - BOX))
                parts += [line(*start, *end) for start, end in zip(way, way[1:])]
    for crate, (x, y, width) in at.items():
        parts.append(box(x, y, width, BOX, BANDS[band(crate)][1]))
        parts.append(text(x + width // 2, y + 20, crate, "small"))
    lowest = max(y for _, y, _ in at.values()) + BOX
    for k, (name, colour) in enumerate(BANDS.values()):
        parts.append(box(20 + 320 * k, lowest + 30, 18, 18, colour))
        parts.append(text(46 + 320 * k, lowest + 44, name, "small", False))
    return picture(1280, lowest + 64, "The crates of ipcd, and who stands on whom", parts)


def constant(file: str, name: str) -> int:
    """A number that a source of ipc_image has."""
    found = re.search(rf"\b{name}: u32 = ([0-9]+);", (ROOT / "crates/ipc_image/src" / file).read_text())
    assert found, f"{name} is not in {file}"
    return int(found[1])


def form() -> dict[str, int]:
    """The numbers of the form of devices that is made if no other is asked for."""
    body = (ROOT / "crates/ipc_image/src/format.rt").read_text().partition("pub const FORMAT: Format = Format {")[2]
    return {name: int(value) for name, value in re.findall(r"(\w+): ([0-9]+),", body.partition("}")[0])}


def device_picture() -> str:
    journal, root = constant("places.rt", "JOURNAL"), form()["root"]
    objects = journal + form()["journal"]
    assert constant("places.rt", "SUPERBLOCK") == 0
    unused = [it for it in range(1, journal) if it != root]
    last = objects - 1
    rows = [
        ("0", "superblock", "what the device is: version, sectors, limits", "#fee2e2"),
        *((str(it), "not used", "the root of version 1 was here", "#f5f5f5") for it in unused),
        (str(root), "root", "the epoch, and where the table of the objects is", "#fee2e2"),
        (str(journal), "journal's header", "its epoch, and how many sectors of the body count", "#fef3c7"),
        (f"{journal + 1} to {last}", "journal's body", "batches: the events since the last save", "#fef3c7"),
        (f"{objects} to the last", "object area", "the objects of the last save, their table, free sectors", "#dcfce7"),
    ]
    rows.sort(key=lambda it: int(it[0].split()[0]))
    parts = [text(20, 28, f"A device of version {form()['version']}, in sectors of 512 bytes", "head", False)]
    for k, (where, name, what, colour) in enumerate(rows):
        y, height = 46 + 52 * k, 40
        parts += [text(120, y + 25, where), box(200, y, 190, height, colour), text(295, y + 25, name)]
        parts.append(text(410, y + 25, what, "small", False))
    return picture(800, 56 + 52 * len(rows), "The sectors of a device", parts)


Step = tuple[str, str, str]
COMMIT: list[Step] = [
    ("write", "the batch, into free sectors of the journal's body", "the state before"),
    ("sync", "", "the state before: no header counts the batch"),
    ("write", "the header, one sector: the batch counts", "the state before, or with the batch"),
    ("sync", "", "the state with the batch; now replies are sent"),
]
SAVE: list[Step] = [
    ("write", "changed objects and a table, into free sectors", "the state before: the root leads to the old table"),
    ("sync", "", "the state before"),
    ("write", "the root, one sector: the next epoch", "the state before, or the one that was saved"),
    ("sync", "", "the one that was saved; the journal is of an earlier epoch, so it is empty"),
]


def steps(y: int, title: str, them: list[Step]) -> list[str]:
    parts = [text(20, y, title, "head", False)]
    parts.append(text(20, y + 24, "a step, and of what", "small", False))
    parts.append(text(540, y + 24, "what a crash after it, before the next one begins, leaves", "small", False))
    for k, (kind, what, after) in enumerate(them):
        top = y + 36 + 40 * k
        parts += [box(20, top, 140, 30, "#dbeafe" if kind == "write" else "#fef3c7")]
        parts += [text(90, top + 20, f"{k + 1}. {kind}"), text(175, top + 20, what, "small", False)]
        parts.append(text(540, top + 20, after, "small", False))
    return parts


def commit_picture() -> str:
    parts = steps(30, "A commit: what waits becomes a batch of the journal", COMMIT)
    parts += steps(250, "A save: the state becomes objects, if the journal has no room for the batch", SAVE)
    return picture(1000, 460, "One commit and one save, as writes and syncs", parts)


def pictures() -> dict[str, str]:
    """Each picture by the name of its file."""
    return {"crates.svg": crates_picture(), "device.svg": device_picture(), "commit.svg": commit_picture()}


def main() -> None:
    FOLDER.mkdir(exist_ok=True)
    for name, drawn in pictures().items():
        (FOLDER / name).write_text(drawn)
        print(f"docs/pictures/{name}")


if __name__ == "__main__":
    main()
