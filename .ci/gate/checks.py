"""The checks: each takes a program, and its first line says what it wants."""

from __future__ import annotations

import json
import os
import re
import tempfile
from dataclasses import replace
from typing import Any, Callable, Dict, List, Tuple

from gate.program import EXAMPLES, FIRST, FIRST_REPLIES, TOP, Program, Wrong, expect, expect_end, packets
from gate.sessions import cases_of

Check = Callable[[Program], None]


def each_example_gives_its_transcript(program: Program) -> None:
    """A session's file is answered with the bytes of its transcript and status 0."""
    for session in sorted(EXAMPLES.glob("*.macbeth")):
        ended = program.run(given=session.read_bytes())
        try:
            expect_end(ended, 0, session.with_suffix(".transcript").read_bytes())
        except Wrong as why:
            raise Wrong(f"{session.name}: {why}") from None


def the_readme_shows_what_is_answered(program: Program) -> None:
    """The first block of the README is a session as a file of sessions has it."""
    shown = re.search(rb"\n((?: {4}.*\n)+)", (TOP / "README.md").read_bytes())
    if shown is None:
        raise Wrong("there is no block")
    for case in cases_of(b"== its session\n" + re.sub(rb"(?m)^ {4}", b"", shown[1])):
        case.holds(program)


def no_input_is_a_session_without_lines(program: Program) -> None:
    """An empty input ends with 0, and nothing is written."""
    expect_end(program.run(), 0, b"")


def a_cut_input_is_answered_as_a_whole_one(program: Program) -> None:
    """The first example, one byte at a time, has the same transcript and the same end."""
    with program.start() as running:
        for byte in FIRST:
            running.say(bytes([byte]))
        expect_end(running.end(), 0, FIRST_REPLIES)


def a_reply_comes_before_the_next_line_is_sent(program: Program) -> None:
    """Each line is answered while the program waits for the next; after `quit` it ends by itself."""
    with program.start() as running:
        for line, reply in zip(FIRST.splitlines(True), FIRST_REPLIES.splitlines(True)):
            running.say(line)
            running.hear(reply)
        expect_end(running.end(), 0, b"")


def lines_in_hand_are_answered_before_more_is_read(program: Program) -> None:
    """Two lines that come at once have both replies before a third is sent."""
    with program.start() as running:
        running.say(b"criterion c A B\nfits c 0 0\n")
        running.hear(b"ok\nmeets\n")
        expect_end(running.end(b"quit\n"), 0, b"ok\n")


def a_reply_goes_out_in_one_piece(program: Program) -> None:
    """Each reply is one write."""
    reads, writes = os.pipe2(os.O_DIRECT)  # such a pipe keeps the writes apart
    with open(reads, "rb", buffering=0), open(writes, "wb", buffering=0) as sink:
        with program.start(stdout=sink) as running:
            sink.close()  # so that the writes end where the program does
            running.say(FIRST)
            expect("the writes", packets(running, reads), FIRST_REPLIES.splitlines(True))
            expect_end(running.end(b""), 0, None)


def nothing_behind_quit_is_answered(program: Program) -> None:
    """Lines after `quit` have no reply."""
    expect_end(program.run(given=FIRST + b"fits c 5 2 0\n"), 0, FIRST_REPLIES)


def unknown_words_are_2(program: Program) -> None:
    """Words that are no form end with 2; nothing is read and nothing is written."""
    for words in (["no-such-form"], [""], ["no", "such", "form"]):
        with open(EXAMPLES / "first.macbeth", "rb", buffering=0) as source:
            expect_end(program.run(words, stdin=source), 2, b"")
            expect("how much was read", source.tell(), 0)


def a_word_that_is_not_utf8_is_2(program: Program) -> None:
    """Such a word is no form."""
    expect_end(program.run([b"\xff"]), 2, b"")
    expect_end(program.run([b"sample", b"1\xff"]), 2, b"")


def a_folder_as_input_is_3(program: Program) -> None:
    """Reading fails at once."""
    folder = os.open(TOP, os.O_RDONLY)
    try:
        expect_end(program.run(stdin=folder), 3, b"")
    finally:
        os.close(folder)


def a_full_device_is_4(program: Program) -> None:
    """The first reply can't be written."""
    with open("/dev/full", "wb", buffering=0) as full:
        expect_end(program.run(given=FIRST, stdout=full), 4, None)


def a_pipe_that_nobody_reads_is_4(program: Program) -> None:
    """Where the reader has gone the program ends by itself, and no signal stops it."""
    reads, writes = os.pipe()
    os.close(reads)
    with open(writes, "wb", buffering=0) as sink:
        expect_end(program.run(given=FIRST, stdout=sink), 4, None)


def an_endless_input_is_6(program: Program) -> None:
    """After 2^30 bytes without a newline the program ends, and nothing is answered."""
    with open("/dev/zero", "rb", buffering=0) as zeros:
        expect_end(program.run(stdin=zeros), 6, b"")


def the_longest_input_is_a_line(program: Program) -> None:
    """With one byte less the end is seen: the bytes are a line that is too long."""
    with tempfile.TemporaryFile() as sparse:
        sparse.truncate(2**30 - 1)
        expect_end(program.run(stdin=sparse), 0, b"refused 1 line too long\n")


def a_path_that_is_not_utf8_is_no_matter(program: Program) -> None:
    """The program runs under any name that the system has for it."""
    with tempfile.TemporaryDirectory() as room:
        path = os.path.join(os.fsencode(room), b"macbeth-\xff")
        os.symlink(os.fsencode(os.path.abspath(program.path)), path)
        named = replace(program, path=path)
        expect_end(named.run(given=FIRST), 0, FIRST_REPLIES)
        expect_end(named.run(["no-such-form"]), 2, b"")


def greatest_model() -> bytes:
    """As much as a model may hold, its names as long as names may be and each byte of them escaped: 11 criteria of 24
    elements, 64 options that perform on each, 32 groups one in the other, all judged, as JSON in short lines."""

    def name(kind: str, place: int) -> str:
        return f"{kind}{place:02}".ljust(64, "\\")

    elements = [name("e", place) for place in range(24)]
    pairs = [[p, q, 1, 6] for p in range(1, 25) for q in range(p + 1, 25)]
    groups = [{"name": name("g", place), **parent(name("g", place - 1) if place else "")} for place in range(32)]
    criteria = [
        {
            "name": name("c", place),
            "elements": elements,
            "judgements": pairs,
            "group": name("g", 31),
            "reach": 1_000_000,
        }
        for place in range(11)
    ]
    performances = {name("c", criterion): elements[23] for criterion in range(11)}
    options = [{"name": name("o", place), "performances": performances} for place in range(64)]
    swings = [[p, q, 1, 6] for p in range(1, 12) for q in range(p + 1, 13)]
    model = {
        "macbeth": 2,
        "groups": groups,
        "criteria": criteria,
        "options": options,
        "weighting": {"judgements": swings},
    }
    return json.dumps(model).replace("}, {", "},\n{").encode()


def parent(group: str) -> Dict[str, str]:
    """The key of a group's parent, none at the root."""
    return {"parent": group} if group else {}


def a_greatest_model_is_loaded_and_dumped(program: Program) -> None:
    """A greatest model's dump fits into a block, and loads as the model whose dump it is."""
    loaded = program.run(given=b"load\n" + greatest_model() + b"\nend\ndump\n")
    replies = (loaded.output or b"").split(b"\n", 2)
    if len(replies) < 3:
        expect_end(loaded, 0, b"ok\ndump and its lines\n")
    expect("the first two replies' heads", [replies[0], replies[1].split()[:1]], [b"ok", [b"dump"]])
    dumped = replies[2]
    expect("whether the dump fits into a block", len(dumped) <= 1_048_576, True)
    expect_end(loaded, 0, b"ok\n" + replies[1] + b"\n" + dumped)
    expect_end(program.run(given=b"load\n" + dumped + b"end\ndump\n"), 0, loaded.output)


def most_lines() -> Tuple[List[str], Dict[str, Any]]:
    """The lines that make a model with as many options, criteria, elements, performances and groups as there may be,
    and the model as it is dumped."""
    elements = [f"e{place}" for place in range(1, 25)]
    options = [f"o{place}" for place in range(1, 65)]
    criteria = [f"c{place}" for place in range(11, 22)]
    groups = [f"g{place}" for place in range(1, 33)]
    performed = {
        option: {criterion: elements[(at + place) % 24] for place, criterion in enumerate(criteria)}
        for at, option in enumerate(options)
    }
    performs = [(option, criterion, element) for option in options for criterion, element in performed[option].items()]
    lines = [f"option {option}" for option in options]
    lines += [f"criterion {criterion} {' '.join(elements)}" for criterion in criteria]
    lines += [f"perform {option} {criterion} {element}" for option, criterion, element in performs]
    lines += [f"group {group} {above}".rstrip() for group, above in zip(groups, ["", *groups])]
    lines += [f"place {criterion} {groups[-1]}" for criterion in criteria]
    kept = {"elements": elements, "good": elements[0], "neutral": elements[-1], "judgements": [], "reach": 1_000}
    model: Dict[str, Any] = {
        "macbeth": 2,
        "groups": [{"name": group, **parent(above)} for group, above in zip(groups, ["", *groups])],
        "criteria": [{"name": criterion, "group": groups[-1], **kept} for criterion in criteria],
        "options": [{"name": option, "performances": performed[option]} for option in options],
        "weighting": {"order": criteria, "judgements": []},
    }
    return lines, model


def a_greatest_model_takes_no_more(program: Program) -> None:
    """Made line by line, it is dumped as it is; each edit for which there is no room is refused and leaves it so, and
    `undo` goes back to it."""
    lines, model = most_lines()
    text = json.dumps(model, indent=2, sort_keys=True) + "\n"
    dump = f"dump {text.count(chr(10))}\n{text}"
    more = ["option more", "criterion more a b", "group more", "group more g1"]
    behind = [line for edit in more for line in (edit, "dump")]
    behind += ["drop-option o64", "option more", "undo", "undo", "dump", "quit"]
    replies = "ok\n" * len(lines) + f"refused 12 limit reached\n{dump}" * len(more) + "ok\n" * 4 + dump + "ok\n"
    expect_end(program.run(given="\n".join(["", *lines, *behind, ""]).encode()), 0, replies.encode())


CHECKS: List[Check] = [
    each_example_gives_its_transcript,
    the_readme_shows_what_is_answered,
    no_input_is_a_session_without_lines,
    a_cut_input_is_answered_as_a_whole_one,
    a_reply_comes_before_the_next_line_is_sent,
    lines_in_hand_are_answered_before_more_is_read,
    a_reply_goes_out_in_one_piece,
    nothing_behind_quit_is_answered,
    unknown_words_are_2,
    a_word_that_is_not_utf8_is_2,
    a_folder_as_input_is_3,
    a_full_device_is_4,
    a_pipe_that_nobody_reads_is_4,
    an_endless_input_is_6,
    the_longest_input_is_a_line,
    a_path_that_is_not_utf8_is_no_matter,
    a_greatest_model_is_loaded_and_dumped,
    a_greatest_model_takes_no_more,
]
