"""A program that is run from outside, as a shell runs it: each wait has an end, and so has what is taken of it."""

from __future__ import annotations

import os
import selectors
import signal
import subprocess
import time
from contextlib import suppress
from dataclasses import dataclass
from itertools import zip_longest
from pathlib import Path
from types import TracebackType
from typing import IO, Dict, List, Optional, Sequence, Type, Union

TOP = Path(__file__).resolve().parent.parent.parent
EXAMPLES = TOP / "examples"

FIRST = b"criterion c A B C\njudge c A B 3\njudge c A C 4\njudge c B C 2\nfits c 5 2 0\nquit\n"
FIRST_REPLIES = b"ok\nok\nok\nok\nmeets\nok\n"

Word = Union[str, bytes]


class Wrong(Exception):
    """Something isn't as it must be."""


def shown(value: object) -> str:
    """A value as text; of a long one the beginning."""
    if isinstance(value, bytes) and len(value) > 1_000:
        return f"{value[:1_000]!r} and {len(value) - 1_000} bytes more"
    return repr(value)


def expect(what: str, found: object, wanted: object) -> None:
    if found != wanted:
        raise Wrong(f"{what} is {shown(found)}, and {shown(wanted)} is wanted")


def expect_text(what: str, found: Optional[bytes], wanted: Optional[bytes]) -> None:
    """The same of texts: where lines differ, the first that does is told."""
    if found is None or wanted is None or found == wanted:
        expect(what, found, wanted)
        return
    pairs = enumerate(zip_longest(found.splitlines(True), wanted.splitlines(True), fillvalue=b""), 1)
    at, (line, other) = next((at, pair) for at, pair in pairs if pair[0] != pair[1])
    expect(f"line {at} of {what}", line, other)


@dataclass(frozen=True)
class Ended:
    """What came of a run; the output is None where it went elsewhere."""

    status: int
    output: Optional[bytes]
    errors: bytes


@dataclass(frozen=True)
class Program:
    """A program by its path, how many seconds it has for each run, and how many bytes it may write."""

    path: Union[Word, Path]
    seconds: float = 60
    room: int = 64 * 1_048_576

    def start(
        self,
        words: Sequence[Word] = (),
        stdin: Union[int, IO[bytes]] = subprocess.PIPE,
        stdout: Union[int, IO[bytes]] = subprocess.PIPE,
    ) -> Running:
        command = [self.path, *words]
        process = subprocess.Popen(
            command, stdin=stdin, stdout=stdout, stderr=subprocess.PIPE, bufsize=0, start_new_session=True
        )
        return Running(process, time.monotonic() + self.seconds, self)

    def run(
        self,
        words: Sequence[Word] = (),
        given: bytes = b"",
        stdin: Union[int, IO[bytes]] = subprocess.PIPE,
        stdout: Union[int, IO[bytes]] = subprocess.PIPE,
    ) -> Ended:
        """Runs the program to its end; `given` is what it reads, unless another standard input is named."""
        with self.start(words, stdin, stdout) as running:
            return running.end(given)


class Running:
    """A program that runs. It is killed where it is left, and where it takes too long or writes too much."""

    def __init__(self, process: subprocess.Popen[bytes], until: float, program: Program):
        self.process = process
        self.until = until
        self.program = program
        self.heard: Dict[str, bytearray] = {"output": bytearray(), "errors": bytearray()}
        self.left = memoryview(b"")
        self.selector = selectors.DefaultSelector()
        for name, pipe in (("output", process.stdout), ("errors", process.stderr)):
            if pipe is not None:
                self.selector.register(pipe, selectors.EVENT_READ, name)

    def __enter__(self) -> Running:
        return self

    def __exit__(
        self, kind: Optional[Type[BaseException]], why: Optional[BaseException], trace: Optional[TracebackType]
    ) -> None:
        if self.process.poll() is None:
            os.killpg(self.process.pid, signal.SIGKILL)  # those that it started go too
            self.process.wait()
        self.selector.close()
        for pipe in (self.process.stdin, self.process.stdout, self.process.stderr):
            if pipe is not None and not pipe.closed:
                pipe.close()

    def step(self) -> None:
        """Waits until the program takes some of what is left, or writes, or closes what it writes to."""
        rest = self.until - time.monotonic()
        events = self.selector.select(rest) if rest > 0 else []
        if not events:
            raise Wrong(
                f"the program is still waited for after {self.program.seconds} seconds; so far it wrote "
                f"{shown(bytes(self.heard['output']))}, and {shown(bytes(self.heard['errors']))} as errors"
            )
        for key, _ in events:
            if key.data == "input":
                self.give(key.fd)
                continue
            piece = os.read(key.fd, 65_536)
            self.heard[key.data] += piece
            if not piece:
                self.selector.unregister(key.fileobj)
        if sum(map(len, self.heard.values())) > self.program.room:
            raise Wrong(f"the program writes more than {self.program.room} bytes")

    def give(self, to: int) -> None:
        """Gives the program as much as it takes now, and closes its input behind the last byte."""
        assert self.process.stdin is not None
        try:
            self.left = self.left[os.write(to, self.left[:4_096]) :]
        except BrokenPipeError:
            self.left = memoryview(b"")
        if not self.left:
            self.selector.unregister(self.process.stdin)
            self.process.stdin.close()

    def say(self, text: bytes) -> None:
        """Sends some bytes, fewer than a pipe holds. Whether the program still reads, what it writes tells."""
        assert self.process.stdin is not None
        with suppress(BrokenPipeError):
            self.process.stdin.write(text)

    def hear(self, wanted: bytes) -> None:
        """Waits for as many bytes as are wanted, while the program waits for input."""
        while len(self.heard["output"]) < len(wanted) and self.is_open("output"):
            self.step()
        expect("what was heard", bytes(self.heard["output"]), wanted)
        self.heard["output"].clear()

    def is_open(self, name: str) -> bool:
        return any(key.data == name for key in self.selector.get_map().values())

    def end(self, given: Optional[bytes] = None) -> Ended:
        """Gives the rest of the input and its end, or leaves it open where there is none; waits for the end."""
        if given is not None and self.process.stdin is not None:
            self.left = memoryview(given)
            self.selector.register(self.process.stdin, selectors.EVENT_WRITE, "input")
        while self.is_open("output") or self.is_open("errors"):
            self.step()
        output = bytes(self.heard["output"]) if self.process.stdout is not None else None
        return Ended(self.wait(), output, bytes(self.heard["errors"]))

    def wait(self) -> int:
        try:
            return self.process.wait(max(0.1, self.until - time.monotonic()))
        except subprocess.TimeoutExpired:
            raise Wrong(f"the program has no end after {self.program.seconds} seconds") from None


def expect_end(ended: Ended, status: int, wrote: Optional[bytes]) -> None:
    """The status, what was written, and never a word on standard error."""
    expect_text("standard error", ended.errors, b"")
    expect_text("standard output", ended.output, wrote)
    expect("the exit status", ended.status, status)


def packets(running: Running, reads: int) -> List[bytes]:
    """Each write that came through such a pipe, up to its end."""
    found: List[bytes] = []
    with selectors.DefaultSelector() as selector:
        selector.register(reads, selectors.EVENT_READ)
        while sum(map(len, found)) <= running.program.room:
            if not selector.select(max(0, running.until - time.monotonic())):
                raise Wrong(f"the writes have no end after {running.program.seconds} seconds: {shown(found)}")
            piece = os.read(reads, 65_536)
            if not piece:
                return found
            found.append(piece)
    raise Wrong(f"the program writes more than {running.program.room} bytes")
