"""Sessions as files: the cases of `crates/macbeth_cli/sessions`, whose README says how they are written."""

from __future__ import annotations

import re
import subprocess
import sys
from dataclasses import dataclass
from pathlib import Path
from typing import Dict, List, Tuple

from gate.program import TOP, Program, Wrong, expect_end

FOLDER = TOP / "crates" / "macbeth_cli" / "sessions"
# A generator that takes this many seconds has failed.
PATIENCE = 60

TYPED, WRITTEN = "typed", "written"
# How a line ends that only begins a certificate, and the line that stands for this certificate from there on.
BEGUN, AGAIN = b" ..\n", b"..\n"
ESCAPES = {b"n": b"\n", b"r": b"\r", b"t": b"\t", b"\\": b"\\"}

# Lines that are typed or written, in the order of the file.
Lines = List[Tuple[str, bytes]]


@dataclass(frozen=True)
class Case:
    """A case of a file: its lines, those that the file begins with among them."""

    name: str
    lines: Lines

    def holds(self, program: Program) -> None:
        """Types the lines, and holds all that is written to the case."""
        lines = self.lines
        at = next((at for at, (kind, text) in enumerate(lines) if kind == WRITTEN and begins(text)), None)
        if at is not None:
            certificate = printed(program, lines[:at], lines[at][1][: -len(BEGUN)])
            lines = [(kind, certificate if text == AGAIN or begins(text) else text) for kind, text in lines]
        expect_end(program.run(given=joined(lines, TYPED)), 0, joined(lines, WRITTEN))


def joined(lines: Lines, kind: str) -> bytes:
    """The lines of one kind."""
    return b"".join(text for which, text in lines if which == kind)


def begins(text: bytes) -> bool:
    """Whether the line is the beginning of a certificate."""
    return text.endswith(BEGUN) and text.startswith((b"least ", b"nothing "))


def printed(program: Program, before: Lines, begun: bytes) -> bytes:
    """The certificate that is written behind these lines, which begins so."""
    ended = program.run(given=joined(before, TYPED))
    known, output = joined(before, WRITTEN), ended.output or b""
    if not output.startswith(known + begun):
        expect_end(ended, 0, known + begun + BEGUN)
    return output[len(known) :]


def line_of(text: bytes) -> Lines:
    """What a line of a file says."""
    if text.startswith(b">"):
        return [(TYPED, text[2 if text.startswith(b"> ") else 1 :] + b"\n")]
    if text.startswith(b"\\ "):
        return [(TYPED, re.sub(rb"\\(?:x([0-9a-f]{2})|(.))", escaped, text[2:]))]
    if text and not text.startswith(b"#"):
        return [(WRITTEN, text + b"\n")]
    return []


def escaped(found: re.Match[bytes]) -> bytes:
    if found[1] is not None:
        return bytes([int(found[1], 16)])
    if found[2] not in ESCAPES:
        raise Wrong(f"no escape is {found[0]!r}")
    return ESCAPES[found[2]]


def cases_of(text: bytes) -> List[Case]:
    """The cases of a file: a line `== NAME` begins each, and those before the first belong to all."""
    head, *rest = re.split(rb"^== ", text, flags=re.MULTILINE)
    first = [line for text in head.split(b"\n") for line in line_of(text)]
    cases: Dict[str, Case] = {}
    for part in rest:
        name, *lines = part.split(b"\n")
        case = Case(name.decode(), first + [line for text in lines for line in line_of(text)])
        if case.name in cases:
            raise Wrong(f"two cases are called {case.name}")
        if not any(kind == TYPED for kind, _ in case.lines):
            raise Wrong(f"nothing is typed in {case.name}")
        cases[case.name] = case
    if not cases:
        raise Wrong("there is no case")
    return list(cases.values())


def text_of(path: Path) -> bytes:
    """A file of cases, or what a generator prints."""
    if path.suffix == ".session":
        return path.read_bytes()
    if path.suffix != ".py":
        raise Wrong("it is no file of cases, and prints none")
    made = subprocess.run(
        [sys.executable, "-B", path], stdin=subprocess.DEVNULL, stdout=subprocess.PIPE, timeout=PATIENCE, check=True
    )
    return made.stdout


def files() -> List[Path]:
    """What the folder holds, but for the page on it."""
    found = sorted(path for path in FOLDER.iterdir() if path.name not in ("README.md", "__pycache__"))
    if not found:
        raise Wrong("there are no sessions")
    return found
