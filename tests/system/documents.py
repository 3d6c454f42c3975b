"""The documents: whether each link and path that they name leads somewhere, whether manual pages and pictures are what
tools/man.py and tools/pictures.py make, whether the pages are rendered without a warning, how many words there are, and
whether the prose keeps to docs/STYLE.md, and so do the texts that clients, examples and the Makefile print.

    python3 tests/system/documents.py

It needs groff to render a page: without groff it says so and refuses nothing. It takes a moment.
"""

from __future__ import annotations

import ast
import re
import shutil
import subprocess
import sys
from collections.abc import Iterator
from fnmatch import fnmatch
from functools import cache
from pathlib import Path

sys.dont_write_bytecode = True

ROOT = Path(__file__).resolve().parents[2]
sys.path.insert(0, str(ROOT / "tools"))

import man  # noqa: E402
import pictures  # noqa: E402

PAGES = ["*.md", "docs/*.md", "bench/*.md", "tests/*.md", "clients/*/*.md"]
MANUALS = ["docs/*.[1-8]", "clients/c/*.[1-8]"]
FOLDERS = ("bench", "clients", "contrib", "crates", "docs", "examples", "tests", "tools")
# Parts of a crate. A path that begins with one is of a crate that is named in the same section.
PARTS = ("src", "specs", "proofs", "edits", "must-fail")
KINDS = ("antt", "awk", "c", "edit", "hex", "md", "py", "record", "rt", "script", "sh", "svg", "txt")
PATH = re.compile(rf"(?:[\w.*-]+/)*[\w.*-]+\.(?:{'|'.join(KINDS)})|(?:{'|'.join(FOLDERS + PARTS)})/[\w.*/-]*")
LINK = re.compile(r"\]\(([^)\s]+)\)")
# What only runs make, and what stands for any name.
MADE = ("out", "NAME")
# The most words of a document, and of what stands below a heading of the definitions.
WORDS = {"README.md": 900, "docs/ARCHITECTURE.md": 1800, "docs/PROMISES.md": 2000}
MODEL, MODEL_WORDS = "docs/MODEL.md", 60
# The page of style, with the table of words; pages in which no sentence is longer, and those in which no line is.
STYLE, SENTENCE_WORDS, LINE_WORDS = "docs/STYLE.md", 45, 120
SHORT_SENTENCES = ["README.md", "docs/OPERATIONS.md", "docs/PROTOCOL.md", "clients/*/*.md", *MANUALS]
SHORT_LINES = ["docs/PROTOCOL.md"]
# Files whose texts people read: strings, which they print, and of Python the docstrings, which help() shows; of the
# others every line.
SPOKEN = ["clients/python/ipcd/*.py", "examples/*.py", "clients/c/*.c"]
READ = ["Makefile", "examples/*.sh", "contrib/*.yml", "contrib/*.json", "contrib/try"]
C_STRING = re.compile(r'"((?:[^"\\\n]|\\.)*)"')


def fail(text: str) -> None:
    sys.exit(f"documents: {text}")


def documents() -> list[Path]:
    return sorted(it for pattern in PAGES for it in ROOT.glob(pattern))


@cache
def names() -> set[str]:
    """The names of all files, but for those that runs make."""
    them = (it for folder in FOLDERS for it in (ROOT / folder).rglob("*") if "out" not in it.parts)
    return {it.name for it in them} | {it.name for it in ROOT.glob("*")}


@cache
def anchors(page: Path) -> set[str]:
    """What the headings of a page are called in links: a second one of a name has a number after it."""
    found: dict[str, int] = {}
    made = set()
    for line in page.read_text().splitlines():
        if re.match(r"#+ ", line):
            text = re.sub(r"\[([^]]*)\]\([^)]*\)", r"\1", line.partition(" ")[2]).lower()
            name = re.sub(r"[^\w\- ]", "", text).replace(" ", "-")
            made.add(f"{name}-{found[name]}" if name in found else name)
            found[name] = found.get(name, 0) + 1
    return made


def links(page: Path) -> Iterator[str]:
    """Each link that leads nowhere."""
    for target in LINK.findall(page.read_text()):
        if re.match(r"\w+:", target):
            continue
        file, _, anchor = target.partition("#")
        to = (page.parent / file).resolve() if file else page
        if not to.exists():
            yield f"a link to {target}"
        elif anchor and anchor not in anchors(to):
            yield f"a link to {target}, which has no such heading"


def sections(page: Path) -> Iterator[str]:
    """The parts of a page from one heading to the next, but for what is told of things as they were once."""
    for part in re.split(r"(?m)^(?=#+ )", page.read_text()):
        if not part.startswith("## Appendix"):
            yield part


def code(section: str) -> Iterator[str]:
    """The words that stand as code, in a line or in a block."""
    for line in section.splitlines():
        spans = [line] if line.startswith("    ") else re.findall(r"`([^`]+)`", line)
        for span in spans:
            yield from span.split()


def is_there(path: str, crates: list[str]) -> bool:
    path = path.rstrip("/.")
    first = path.partition("/")[0]
    if first in PARTS:
        return any(any((ROOT / "crates" / crate).glob(path)) for crate in crates)
    if first in FOLDERS:
        return any(ROOT.glob(path))
    return "*" in path or path.rpartition("/")[2] in names()


def paths(page: Path) -> Iterator[str]:
    """Each path that leads nowhere. A path in a crate is of one that its section names, or of the crate in a link."""
    crates = sorted(it.name for it in (ROOT / "crates").iterdir() if (it / "src").exists())
    for section in sections(page):
        named = [it for it in crates if re.search(rf"\b{it}\b", section)]
        for word in code(section):
            word = word.strip(",;:()'\"")
            if not PATH.fullmatch(word) or any(it in word.split("/") for it in MADE):
                continue
            if not is_there(word, named or crates) and not (page.parent / word).exists():
                yield f"`{word}` in the section '{section.partition(chr(10))[0][:50]}'"


def made() -> None:
    """Pages and pictures are those that their programs make of the documents and sources of today."""
    for name in man.PAGES:
        if (ROOT / "docs" / name).read_text() != man.page(name):
            fail(f"docs/{name} is not what its document says: python3 tools/man.py")
    for name, drawn in pictures.pictures().items():
        if (pictures.FOLDER / name).read_text() != drawn:
            fail(f"docs/pictures/{name} is not what the sources say: python3 tools/pictures.py")


def rendered() -> str:
    """Renders each manual page, and says what was done."""
    if shutil.which("groff") is None:
        return "groff is not here, so no manual page was rendered"
    pages = sorted(it for pattern in MANUALS for it in ROOT.glob(pattern))
    for page in pages:
        line = ["groff", "-man", "-ww", "-Tutf8", str(page)]
        ended = subprocess.run(line, stdin=subprocess.DEVNULL, capture_output=True, text=True, timeout=60)
        if ended.returncode or ended.stderr or not ended.stdout:
            fail(f"{page.relative_to(ROOT)}: {ended.stderr.strip() or 'nothing is rendered'}")
    return f"{len(pages)} manual pages are rendered without a warning"


def words() -> None:
    for name, most in WORDS.items():
        count = len((ROOT / name).read_text().split())
        if count > most:
            fail(f"{name} has {count} words, and {most} are the most")
    for part in re.split(r"(?m)^#+ ", (ROOT / MODEL).read_text()):
        heading, _, rest = part.partition("\n")
        if ".antt)" in heading and len(rest.split()) > MODEL_WORDS:
            fail(f"{MODEL}: {len(rest.split())} words below {heading}, and {MODEL_WORDS} are the most")


def paragraphs(page: Path) -> Iterator[str]:
    """The prose of a page: paragraphs, entries of lists and cells of tables, without code and without targets of links."""
    joined = ""
    fenced = False
    for line in [*page.read_text().splitlines(), ""]:
        fenced ^= line.startswith("```")
        is_code = fenced or line.startswith(("    ", "```"))
        line = re.sub(r"!?\[([^]]*)\]\([^)]*\)", r"\1", re.sub(r"`[^`]*`", "CODE", line))
        line = "" if is_code else line.strip()
        if line and not line.startswith(("#", "|", "- ")) and not re.match(r"[0-9]+\. ", line):
            joined += f" {line}"
            continue
        yield joined
        joined = re.sub(r"^(-|[0-9]+\.) ", "", line) if line and line[0] not in "#|" else ""
        if not joined:
            yield from line.split("|")


def rendered_paragraphs(page: Path) -> Iterator[str]:
    """The prose of a manual page in roff, without its requests and what stands between .EX and .EE or .nf and .fi."""
    joined, is_code = "", False
    for line in [*page.read_text().splitlines(), ".PP"]:
        name, _, rest = line.partition(" ")
        if name in (".EX", ".nf", ".EE", ".fi"):
            is_code = name in (".EX", ".nf")
        if is_code or name.startswith(('.\\"', "'")):
            continue
        if name in (".B", ".I", ".BR", ".RB", ".BI", ".IB", ".IR", ".RI"):
            separator = " " if len(name) == 2 else ""
            joined += " " + separator.join(re.findall(r'"[^"]*"|[^" ]+', rest)).replace('"', "")
        elif not line.startswith("."):
            joined += f" {line}"
        else:
            yield joined
            joined = ""
    yield joined


def prose(page: Path) -> Iterator[str]:
    return paragraphs(page) if page.suffix == ".md" else rendered_paragraphs(page)


def sentences(page: Path) -> Iterator[str]:
    for text in prose(page):
        yield from (it for it in re.split(r"(?<=[.?!])\)? ", text) if it.strip())


@cache
def replaced_words() -> re.Pattern[str]:
    """The words that STYLE.md replaces: those of the second column of its table."""
    rows = [line.strip("|").split("|") for line in (ROOT / STYLE).read_text().splitlines() if line.startswith("|")]
    found = [word.strip() for row in rows[2:] for word in row[1].split(",")]
    if not found or not all(found):
        fail(f"{STYLE} has no table of words")
    return re.compile(r"\b(" + "|".join(re.escape(it) for it in found) + r")\b", re.IGNORECASE)


def texts(file: Path) -> Iterator[str]:
    """What a file that is no document shows to people."""
    text = file.read_text()
    if file.suffix == ".py":
        constants = (it.value for it in ast.walk(ast.parse(text)) if isinstance(it, ast.Constant))
        yield from (it for it in constants if isinstance(it, str))
    elif file.suffix == ".c":
        yield from C_STRING.findall("\n".join(it for it in text.splitlines() if not it.lstrip().startswith("//")))
    else:
        yield from text.splitlines()


def spoken(file: Path) -> Iterator[str]:
    """Each word of a text that STYLE.md replaces."""
    for text in texts(file):
        for word in replaced_words().findall(text):
            yield f"'{word}', which {STYLE} replaces, in '{' '.join(text.split())[:60]}'"


def style(page: Path) -> Iterator[str]:
    """What in a page is not as STYLE.md has it."""
    name = str(page.relative_to(ROOT))
    if name != STYLE:
        for text in prose(page):
            for word in replaced_words().findall(text):
                yield f"'{word}', which {STYLE} replaces, in '{text.strip()[:60]}'"
    if any(fnmatch(name, it) for it in SHORT_SENTENCES):
        for sentence in sentences(page):
            if len(sentence.split()) > SENTENCE_WORDS:
                yield f"a sentence of {len(sentence.split())} words, '{sentence.strip()[:60]}'"
    if any(fnmatch(name, it) for it in SHORT_LINES):
        for line in page.read_text().splitlines():
            if len(line.split()) > LINE_WORDS:
                yield f"a line of {len(line.split())} words, '{line[:60]}'"


def main() -> None:
    pages = documents()
    wrong = [f"{it.relative_to(ROOT)}: {what}" for it in pages for what in (*links(it), *paths(it))]
    if wrong:
        fail("these lead nowhere:\n" + "\n".join(wrong))
    pages += sorted(it for pattern in MANUALS for it in ROOT.glob(pattern))
    wrong = [f"{it.relative_to(ROOT)}: {what}" for it in pages for what in style(it)]
    empty = [pattern for pattern in SPOKEN + READ if not any(ROOT.glob(pattern))]
    if empty:
        fail(f"no file is {' or '.join(empty)}")
    shown = sorted(it for pattern in SPOKEN + READ for it in ROOT.glob(pattern))
    wrong += [f"{it.relative_to(ROOT)}: {what}" for it in shown for what in spoken(it)]
    if wrong:
        fail(f"these are not as {STYLE} has it:\n" + "\n".join(wrong))
    made()
    words()
    keep = f"{len(pages)} pages and the texts of {len(shown)} files keep to {STYLE}"
    print(f"documents: {keep}, and the links and paths of the pages lead somewhere; {rendered()}")


if __name__ == "__main__":
    main()
