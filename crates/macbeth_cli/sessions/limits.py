#!/usr/bin/env python3
"""Prints sessions at the program's limits: steps of undo, options, long lines and large blocks."""

from typing import Iterable

# A line as long as a line of a block may be.
FULL = "x" * 65_535


def case(name: str, typed: Iterable[str], written: Iterable[str]) -> None:
    print(f"== {name}")
    print("\n".join([*(f"> {line}" for line in typed), *written, ""]))


def block(name: str, line: str, full: int, behind: Iterable[str], reply: str) -> None:
    """A line, full lines of its block, what is behind them, and the reply."""
    case(name, [*JUDGED, line, *[FULL] * full, *behind], [*["ok"] * len(JUDGED), reply])


JUDGED = ["criterion c A B C", "judge c A B 3", "judge c A C 4", "judge c B C 2"]
OPTIONS = [f"option o{place}" for place in range(1, 66)]

case(
    "thirty-two steps back and no more",
    [*OPTIONS[:33], *["undo"] * 33, *OPTIONS[:2]],
    [*["ok"] * 65, "refused 20 nothing to undo", "refused 11 name taken", "ok"],
)
case("an option too many", OPTIONS, [*["ok"] * 64, "refused 12 limit reached"])
case(
    "long lines",
    ["#" * 65_536, "weigh-order" + " c" * 27_000, "quit"],
    ["refused 9 unknown criterion", "ok"],
)
case("a line too long", ["a" * 65_537, "quit"], ["refused 1 line too long", "ok"])
LARGE, CUT = "refused 16 block too large", "refused 15 block cut by the end of input"
block("a block as large as may be", "verify c", 16, ["end"], "refused 19 bad certificate text: 1")
block("a block too large", "verify c", 16, ["", "end"], LARGE)
block("a table too large", "import c", 16, ["", "end"], LARGE)
block("a block too large that is cut", "verify c", 17, [], CUT)
block("the criterion comes before the cut", "verify d", 17, [], "refused 9 unknown criterion")
block("the criterion comes before the size", "import d", 16, ["", "end"], "refused 9 unknown criterion")
