"""Trials of the checks: programs that do something wrong, each of which the checks must refuse."""

from __future__ import annotations

import os
import shlex
import tempfile
from concurrent.futures import ThreadPoolExecutor
from dataclasses import dataclass
from typing import Iterator, List, Optional, Tuple

from gate import checks
from gate.checks import CHECKS, Check
from gate.program import Program
from gate.sessions import cases_of

# A wrong program may write so many bytes, more than any check wants.
ROOM = 4_194_304

# Cases of a file of sessions; to hold them is a check, too.
CASES = cases_of(
    b"""> criterion c A B
ok
== a scale
> scale c
scale 2
"A" 0
"B" 0
least 0 den 1 rows 0
== a certificate that is printed again
> cert c
least 0 den ..
> cert c
..
"""
)
ALL: List[Check] = [*CHECKS, *(case.holds for case in CASES)]


@dataclass(frozen=True)
class WrongProgram:
    """A program that does something wrong, as a shell's lines; `PROGRAM` is the right one in them."""

    what: str
    lines: str
    # Those that must refuse it, and what each refusal says.
    refused_by: List[Check]
    why: str = ""
    seconds: float = 60


def but(*passed: Check) -> List[Check]:
    """All checks but those that don't look at what is wrong."""
    return [check for check in ALL if check not in passed]


WRONG = [
    WrongProgram(
        "a program that writes nothing",
        "exec cat > /dev/null",
        but(checks.no_input_is_a_session_without_lines),
        seconds=5,
    ),
    # Nothing more comes out where nothing can be written.
    WrongProgram(
        "one that writes too much", "PROGRAM; status=$?; echo ok; exit $status", but(checks.a_full_device_is_4)
    ),
    WrongProgram("one that writes on and on", "exec yes", ALL, seconds=20),
    WrongProgram(
        "one that answers once the input has ended",
        'input=$(cat; echo .); printf %s "${input%.}" | PROGRAM',
        [
            checks.a_cut_input_is_answered_as_a_whole_one,
            checks.a_reply_comes_before_the_next_line_is_sent,
            checks.lines_in_hand_are_answered_before_more_is_read,
            checks.a_reply_goes_out_in_one_piece,
        ],
        " seconds",
        seconds=2,
    ),
    WrongProgram("one that writes to standard error", "echo a word >&2; exec PROGRAM", ALL, "standard error"),
    WrongProgram("one that hangs", "exec sleep 1000", ALL, " seconds", seconds=2),
    WrongProgram("one that hangs when it is done", "PROGRAM; exec sleep 1000", ALL, " seconds", seconds=5),
    WrongProgram("one that ends with another status", "PROGRAM; exit 7", ALL, "the exit status"),
    WrongProgram(
        "one that writes a reply in pieces",
        'PROGRAM | while read -r line; do printf %s "$line"; echo; done',
        [checks.a_reply_goes_out_in_one_piece],
        "the writes",
    ),
    WrongProgram(
        "one that writes replies together",
        "PROGRAM | dd bs=64k iflag=fullblock status=none",
        [checks.a_reply_goes_out_in_one_piece, checks.a_reply_comes_before_the_next_line_is_sent],
        seconds=5,
    ),
    WrongProgram(
        "one that reads before it looks at its words",
        "head -c 1 > /dev/null; exec PROGRAM",
        [checks.unknown_words_are_2],
        "how much was read",
    ),
]


def trials(program: Program) -> Iterator[Tuple[WrongProgram, List[str]]]:
    """Each wrong program with what misses it; they are tried side by side, as most of them make the checks wait."""
    with ThreadPoolExecutor(len(WRONG)) as pool:
        yield from zip(WRONG, pool.map(lambda wrong: misses(program, wrong), WRONG))


def misses(program: Program, wrong: WrongProgram) -> List[str]:
    """The checks that let this program pass, or refuse it for another reason."""
    with tempfile.TemporaryDirectory() as room:
        path = os.path.join(room, "wrong")
        right = shlex.quote(os.path.abspath(os.fsdecode(program.path)))
        with open(path, "w", encoding="utf-8") as script:
            script.write("#!/bin/sh\n" + wrong.lines.replace("PROGRAM", f'{right} "$@"') + "\n")
        os.chmod(path, 0o755)
        tried = Program(path, wrong.seconds, ROOM)
        with ThreadPoolExecutor(len(wrong.refused_by)) as pool:
            found = pool.map(lambda check: miss(tried, wrong, check), wrong.refused_by)
            return [one for one in found if one is not None]


def miss(program: Program, wrong: WrongProgram, check: Check) -> Optional[str]:
    """What one check doesn't see, if anything."""
    name = check.__name__.replace("_", " ")
    try:
        check(program)
    except Exception as why:
        return None if wrong.why in str(why) else f"{name} says: {why}"
    return f"{name} lets it pass"
