"""The wrong bodies of crates/NAME/edits/: the contracts of NAME must refuse each. The gate tries those of
crates/NAME/must-fail/, which have the same format (`rt help` says it); of these it looks at the record.

    python3 tests/edits.py --record        looks whether each can be applied, and whether its record is of today's sources
    python3 tests/edits.py [NAME ..]       tries these, each CRATE or CRATE/EDIT, or all, and writes their records

It tries them in a copy of the crate and of those below it, with what was proved of them in this folder: crates are best
proved first, as by `make program`. Up to six are tried by one check, each of a function of its own, and what that says
nothing of is tried alone. A record is a line of tests/edits.record, which only this program writes: the crate, the edit,
two sums, the verdict, and the goal that could not be proved. The sums are of what the check read: the first of the edit,
the crate's code, definitions and line of crates.txt, and the toolchain's logic; the second of the definitions and public
contracts of the crates below. Comments, proofs and private code of other crates count in neither. A record whose sums
differ today is stale, and `--record` fails. It fails too if a mutant has no record, but for those of the crates in
UNTRIED, which it counts: so a change of a crate tries its mutants again. It needs `rt` to try them.
"""

from __future__ import annotations

import hashlib
import os
import re
import shutil
import subprocess
import sys
import tempfile
import threading
import time
from collections.abc import Iterator
from concurrent.futures import ThreadPoolExecutor
from pathlib import Path

ROOT = Path(__file__).resolve().parent.parent
RECORD = ROOT / "tests" / "edits.record"
# Tries at a time, each with a copy of the crates.
LANES = int(os.environ.get("LANES", "2"))
# The most wrong bodies that one check tries, each of a function of its own.
MOST = 6
# Crates of which some mutants have no record yet. Each mutant of any other crate has one.
UNTRIED = set(
    "ipc_checkpoint ipc_command ipc_engine ipc_heap ipc_hub ipc_image ipc_script ipc_server ipc_state "
    "ipc_store ipc_wire ipcd posix_calls premises sysv_calls trials".split()
)
# Seconds after which a check has no verdict.
LIMIT = 1200
# Held while the records are read and written.
WRITING = threading.Lock()
# A goal for which there is no proof: none was written, or the one that is there proves something else.
OPEN = re.compile(r"^note: `(\S+)` of proofs/(\S+?)/\w+\.antt must prove: ", re.MULTILINE)
OTHER = re.compile(r"^(?:\./)?proofs/(\S+?)/\w+\.antt:\d+:\d+: error: `([^`]+)`: (.*)$", re.MULTILINE)
# A goal that has no proof, and values at which it is false.
FALSE = re.compile(
    r"^note: src/(\S+?)\.rt:(\d+):\d+: it is not proved that .* \(`(\S+)`\); the facts known there allow values at which",
    re.MULTILINE,
)
# The proof that is there speaks of a step or a goal that the wrong body has not.
LOST = re.compile(r"has no field|has no `|is not in scope|unknown name|not found|no such")


def fail(text: str) -> None:
    sys.exit(f"edits: {text}")


def crates() -> dict[str, list[str]]:
    """The crates of crates.txt, with what each stands on."""
    lines = (line.partition("#")[0].partition(":") for line in (ROOT / "crates.txt").read_text().splitlines())
    return {first.split()[0]: rest.split() for first, colon, rest in lines if colon}


def below(all_of: dict[str, list[str]], crate: str) -> set[str]:
    """The crates of this repository that a crate stands on, also by others."""
    lower = [name for name in all_of[crate] if name in all_of]
    return set(lower).union(*(below(all_of, name) for name in lower))


def edits_of(crate: str) -> list[Path]:
    return sorted((ROOT / "crates" / crate / "edits").glob("*.edit"))


def pairs(edit: Path) -> Iterator[tuple[str, str, str]]:
    """The changes of an edit: a file, what stands in it, and what takes its place."""
    name = old = ""
    for line in edit.read_text().splitlines():
        if line.startswith("file: "):
            name = line[6:]
        elif line.startswith("old: "):
            old = line[5:]
        elif line.startswith("new:"):
            yield name, old, line[5:]


def edited(crate: Path, edit: Path, texts: dict[Path, str]) -> None:
    """The files of a crate that an edit changes, as it leaves them."""
    changed = False
    for name, old, new in pairs(edit):
        file = crate / name
        text = texts.get(file) or file.read_text()
        if text.count(old) != 1:
            fail(f"{edit.relative_to(ROOT)}: not once in {name}: {old}")
        texts[file] = text.replace(old, new)
        changed = True
    if not changed:
        fail(f"{edit.relative_to(ROOT)}: it changes nothing")


def bare(file: Path) -> str:
    """A file without its comments and empty lines."""
    mark = {".rt": "//", ".antt": "--"}.get(file.suffix)
    lines = []
    for line in file.read_text().splitlines():
        if mark and line.lstrip().startswith(mark):
            continue
        head, comment, tail = line.partition(f" {mark} ")
        lines.append(head.rstrip() if comment and '"' not in tail else line.rstrip())
    return "\n".join(line for line in lines if line)


def digest(texts: list[str]) -> str:
    return hashlib.sha256("\0".join(texts).encode()).hexdigest()[:16]


def sources(crate: str, parts: tuple[str, ...]) -> list[str]:
    top = ROOT / "crates" / crate
    files = sorted(file for part in parts for file in (top / part).rglob("*") if file.is_file())
    return [f"{crate} {file.relative_to(top)}\n{bare(file)}" for file in files]


FUNCTION = re.compile(r"( *)(pub )?(?:pub\(crate\) )?(?:const )?fn \w")
# Where functions are public without a word: in a trait, or in an `impl` of one.
OF_TRAIT = re.compile(r"(?:pub )?trait |impl(?:<.*>)? .* for ")


def depth(line: str) -> int:
    """How many braces a line opens more than it closes, those in quotes left out."""
    bare_line = re.sub(r'"(?:[^"\\]|\\.)*"|\'[{}]\'', "", line)
    return bare_line.count("{") - bare_line.count("}")


def contracts(text: str) -> list[str]:
    """The lines of a file of code, laid out by `rt fmt`, that a crate above sees: no body, and no private function."""
    found: list[str] = []
    lines = text.splitlines()
    of_trait = False
    at = 0
    while at < len(lines):
        line = lines[at]
        begin = FUNCTION.match(line)
        if not begin:
            if re.match(r"(?:pub |impl\b|trait )", line):
                of_trait = bool(OF_TRAIT.match(line))
            if not re.match(r" *(?:use |mod )", line):
                found.append(line)
            at += 1
            continue
        seen = begin[2] is not None or (of_trait and begin[1] != "")
        open_braces = 0
        while True:
            line = lines[at]
            at += 1
            is_clause = re.match(r" *(?:ensures|requires)\b", line)
            last = line == f"{begin[1]}{{" or (open_braces == 0 and line.endswith(" {") and not is_clause)
            if seen:
                found.append(line)
            open_braces += depth(line)
            if last or (open_braces == 0 and line.endswith(("{}", ";"))):
                break
        if last:
            while lines[at] != f"{begin[1]}}}":
                at += 1
            at += 1
    return found


def seen_from_above(crate: str) -> list[str]:
    """The definitions and public contracts of a crate."""
    top = ROOT / "crates" / crate / "src"
    code = ["\n".join([f"{crate} {file.relative_to(top)}", *contracts(bare(file))]) for file in sorted(top.rglob("*.rt"))]
    return [*sources(crate, ("specs",)), *code]


class Sums:
    """The two sums of each edit, as the sources are today."""

    def __init__(self, logic: str) -> None:
        self.all_of = crates()
        self.logic = logic
        self.own: dict[str, str] = {}
        self.under: dict[str, str] = {}
        lower = {crate: seen_from_above(crate) for crate in self.all_of}
        for crate in self.all_of:
            self.own[crate] = digest([*self.all_of[crate], *sources(crate, ("src", "specs"))])
            self.under[crate] = digest([text for name in sorted(below(self.all_of, crate)) for text in lower[name]])

    def of(self, edit: Path) -> tuple[str, str]:
        crate = edit.parent.parent.name
        return digest([edit.read_text(), self.own[crate], self.logic]), self.under[crate]


def records() -> dict[tuple[str, str], list[str]]:
    if not RECORD.is_file():
        return {}
    rows = (line.split(" ", 5) for line in RECORD.read_text().splitlines() if line and line[0] != "#")
    return {(row[0], row[1]): row[2:] for row in rows}


def write(rows: dict[tuple[str, str], list[str]]) -> None:
    head = (
        "# Wrong bodies that were tried, as `make edits` writes it: the crate, the edit, the sum of the edit and its\n"
        "# crate, the sum of the crates below, the verdict, and the goal that could not be proved.\n"
    )
    RECORD.write_text(head + "".join(" ".join([*key, *row]) + "\n" for key, row in sorted(rows.items())))


def logic() -> str:
    said = subprocess.run(["rt", "version"], check=True, capture_output=True, text=True).stdout
    return said.split("logic ")[1].split()[0]


def look() -> None:
    """Whether each edit can be applied, and each record is of today's sources."""
    sums, rows = Sums(logic()), records()
    found = 0
    stale: list[tuple[str, str]] = []
    missing: dict[str, int] = {}
    for crate in sums.all_of:
        for edit in (*edits_of(crate), *sorted((ROOT / "crates" / crate / "must-fail").glob("*.edit"))):
            edited(ROOT / "crates" / crate, edit, {})
            found += 1
            if edit.parent.name != "edits":
                continue
            row = rows.pop((crate, edit.stem), None)
            if row is None:
                missing[crate] = missing.get(crate, 0) + 1
            elif row[2] != "refused" or tuple(row[:2]) != sums.of(edit):
                stale.append((crate, edit.stem))
    if stale or rows:
        wrong = "\n".join(" ".join(key) for key in (*stale, *rows))
        fail(f"these records are of other sources; `make edits` with their crates:\n{wrong}")
    lacking = [crate for crate in missing if crate not in UNTRIED]
    if lacking:
        fail(f"mutants of these crates have no record; `make edits CRATE=\"{' '.join(lacking)}\"`")
    if UNTRIED - missing.keys():
        fail(f"all mutants of these crates have a record, so UNTRIED need not name them: {' '.join(UNTRIED - missing.keys())}")
    print(f"edits: {found} mutants, each can be applied; {sum(missing.values())} of those in edits/ have no record of today's")
    print("edits: sources: " + (", ".join(f"{number} of {crate}" for crate, number in missing.items()) or "none"))


def copied(all_of: dict[str, list[str]], crate: str, folder: Path) -> Path:
    """A copy of a crate and those below it, with what was proved of them."""
    names = {crate} | below(all_of, crate)
    (folder / "crates").mkdir()
    shutil.copy(ROOT / "HANDLES", folder)
    for name in names:
        (folder / "crates" / name).mkdir()
        for part in ("src", "specs", "proofs", "out"):
            if (ROOT / "crates" / name / part).is_dir():
                subprocess.run(["cp", "-a", ROOT / "crates" / name / part, folder / "crates" / name], check=True)
    rows = [f"{name}: {' '.join(all_of[name])}\n" for name in sorted(names)]
    (folder / "crates.txt").write_text("".join(rows))
    return folder / "crates" / crate


def check(crate: Path) -> str:
    try:
        done = subprocess.run(
            ["rt", "check"], cwd=crate, stdout=subprocess.PIPE, stderr=subprocess.STDOUT, text=True, timeout=LIMIT
        )
    except subprocess.TimeoutExpired:
        return ""
    return done.stdout


BEGIN = re.compile(r"\s*(?:pub(?:\(crate\))? )?(?:const )?(fn|impl|struct|enum|trait)\b(?: (\w+))?")


def function_at(crate: Path, file: str, number: int) -> str:
    """The name of the function in which a line of a file stands, counted from 1; empty if that is in none."""
    begins = [BEGIN.match(line) for line in (crate / "src" / f"{file}.rt").read_text().splitlines()[:number]]
    last = next((begin for begin in reversed(begins) if begin), None)
    return last[2] if last and last[1] == "fn" else ""


def goals_of(said: str, crate: Path) -> list[tuple[str, str]]:
    """The goals that could not be proved, each with its place: a function's file, types and name."""
    # A long error goes on in lines of its own, which stand further in.
    said = re.sub(r"\n  +", " ", said)
    if "logic=not-proved" not in said or "error[" in said:
        return []
    goals = [(place, goal) for goal, place in OPEN.findall(said)]
    goals += [(place, goal) for place, goal, text in OTHER.findall(said) if not LOST.search(text)]
    goals += [(f"{file}/{function_at(crate, file, int(line))}", goal) for file, line, goal in FALSE.findall(said)]
    # A lemma of its own may stand before the goals in a proof.
    return sorted(goals, key=lambda row: not re.search("returns|requires|invariant", row[1]))


def verdict(said: str, crate: Path) -> tuple[str, str]:
    """What a check says of a wrong body: refused by a goal, or proved, or neither, as for a name or a limit."""
    if "logic=proved" in said:
        return "proved", "-"
    for place, goal in goals_of(said, crate):
        return "refused", f"{place} {goal}"
    wrong = re.search(r"^.*\berror\b.*$", said, re.MULTILINE)
    return "unread", wrong[0] if wrong else "no end"


def function_of(crate: Path, edit: Path) -> tuple[str, str] | None:
    """The file and name of the function that an edit changes; none if it changes something else, or more than one."""
    found = set()
    for name, old, _ in pairs(edit):
        if not name.startswith("src/"):
            return None
        before = (crate / name).read_text().partition(old)[0]
        found.add((name[4:-3], function_at(crate, name[4:-3], before.count("\n") + 1)))
    return found.pop() if len(found) == 1 and all(function for _, function in found) else None


def batches(crate: Path, edits: list[Path]) -> list[list[Path]]:
    """Wrong bodies that are tried by one check, since each is of another function: what a function's contract asks of
    its body does not depend on the bodies of others."""
    found: list[dict[tuple[str, str], Path]] = []
    alone = []
    for edit in edits:
        function = function_of(crate, edit)
        if function is None:
            alone.append([edit])
            continue
        fits = next((batch for batch in found if len(batch) < MOST and function not in batch), None)
        if fits is None:
            fits = {}
            found.append(fits)
        fits[function] = edit
    return [list(batch.values()) for batch in found] + alone


def check_with(copy: Path, edits: list[Path]) -> str:
    """Checks a crate with these wrong bodies in it."""
    texts: dict[Path, str] = {}
    for edit in edits:
        edited(copy, edit, texts)
    before = {file: file.read_text() for file in texts}
    for file, text in texts.items():
        file.write_text(text)
    said = check(copy)
    for file, text in before.items():
        file.write_text(text)
    return said


def tried(sums: Sums, crate: str, edits: list[Path]) -> dict[Path, tuple[str, str]]:
    """Tries wrong bodies of a crate, and writes their records."""
    all_of = sums.all_of
    found: dict[Path, tuple[str, str]] = {}

    def says(edit: Path, word: str, reason: str, began: float) -> None:
        print(f"edits: {crate} {edit.stem}: {word}, {time.monotonic() - began:.0f} s: {reason}", flush=True)
        note(sums, edit, word, reason)
        found[edit] = word, reason

    with tempfile.TemporaryDirectory(prefix="ipcd-edits.") as folder:
        copy = copied(all_of, crate, Path(folder))
        if "logic=proved" not in check(copy):
            fail(f"{crate} is not proved as it stands")
        for batch in batches(copy, edits):
            if len(batch) > 1:
                began = time.monotonic()
                goals = goals_of(check_with(copy, batch), copy)
                for edit in batch:
                    file, function = function_of(copy, edit) or ("", "")
                    of_it = [row for row in goals if row[0].startswith(f"{file}/") and row[0].endswith(f"/{function}")]
                    if of_it:
                        says(edit, "refused", " ".join(of_it[0]), began)
            # What a check of several says nothing of, as of a function that waits for another's proof.
            for edit in batch:
                if edit not in found:
                    began = time.monotonic()
                    says(edit, *verdict(check_with(copy, [edit]), copy), began)
    return found


def note(sums: Sums, edit: Path, word: str, reason: str) -> None:
    """Writes the record of a wrong body that was tried, which has none if it was not refused."""
    with WRITING:
        rows = records()
        key = edit.parent.parent.name, edit.stem
        rows.pop(key, None)
        if word == "refused":
            rows[key] = [*sums.of(edit), word, reason]
        write(rows)


def chosen(all_of: dict[str, list[str]], names: list[str]) -> dict[str, list[Path]]:
    """The wrong bodies that are named, by crate."""
    found: dict[str, list[Path]] = {}
    for name in names or all_of:
        crate, _, word = name.partition("/")
        if crate not in all_of:
            fail(f"crates.txt names no crate {crate}")
        edits = [edit for edit in edits_of(crate) if word in ("", edit.stem)]
        if word and not edits:
            fail(f"there is no crates/{crate}/edits/{word}.edit")
        found.setdefault(crate, []).extend(edits)
    return {crate: edits for crate, edits in found.items() if edits}


def try_all(names: list[str]) -> None:
    sums = Sums(logic())
    edits = chosen(sums.all_of, names)
    if not edits:
        fail(f"none of these crates has wrong bodies in edits/: {' '.join(names)}")
    accepted = []
    with ThreadPoolExecutor(LANES) as lanes:
        for found in lanes.map(lambda crate: tried(sums, crate, edits[crate]), edits):
            for edit, (word, reason) in found.items():
                if word != "refused":
                    accepted.append(f"{edit.parent.parent.name} {edit.stem}: {word}, {reason}")
            refused = sum(word == "refused" for word, _ in found.values())
            print(f"edits: {next(iter(found)).parent.parent.name}: {refused} of {len(found)} refused", flush=True)
    if accepted:
        fail("not each was refused:\n" + "\n".join(accepted))


if __name__ == "__main__":
    look() if sys.argv[1:] == ["--record"] else try_all(sys.argv[1:])
