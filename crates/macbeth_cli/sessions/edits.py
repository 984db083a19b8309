#!/usr/bin/env python3
"""Prints sessions of a single edit each, behind a model that has all parts: it is refused and leaves the model as it
was, or changes what is named here and nothing else. What `dump` writes is compared with what a JSON library does."""

import json
from typing import Any, Dict, List

Json = Dict[str, Any]


def criterion(name: str, *elements: str, **more: Any) -> Json:
    """A criterion that nothing was done to."""
    first = {"name": name, "elements": [*elements], "good": elements[0], "neutral": elements[-1]}
    return {**first, "judgements": [], "reach": 1000, **more}


def weighting(order: str, *judgements: List[int]) -> Json:
    return {"order": order.split(), "judgements": [*judgements]}


def changed(whole: Json, **parts: Any) -> List[Json]:
    """The criteria, one of them with these parts."""
    return [{**it, **parts} if it is whole else it for it in CRITERIA]


def refuse(number: int, *edits: str) -> None:
    for edit in edits:
        case(edit, f"refused {number} {TEXTS[number]}", MODEL)


def accept(edit: str, **parts: Any) -> None:
    case(edit, "ok", {**MODEL, **parts})


def case(edit: str, reply: str, model: Json) -> None:
    print(f"== {edit}\n> {edit}\n{reply}")
    dump(model)


def dump(model: Json) -> None:
    text = json.dumps(model, indent=2, sort_keys=True)
    lines = text.count("\n") + 1
    print(f"> dump\ndump {lines}\n{text}\n")


FIRST = """option x
option y
criterion price low mid high
criterion size large small
criterion noise none weighting
group g
group h g
group k h
perform x price mid
perform y noise weighting
judge price low high 3..4
weigh-order size price noise
weigh size none 2
weigh price noise 1
place price h"""

PRICE = criterion("price", "low", "mid", "high", judgements=[[1, 3, 3, 4]], group="h")
SIZE = criterion("size", "large", "small")
NOISE = criterion("noise", "none", "weighting")
CRITERIA = [PRICE, SIZE, NOISE]
G, H, K = {"name": "g"}, {"name": "h", "parent": "g"}, {"name": "k", "parent": "h"}
X, Y = {"name": "x", "performances": {"price": "mid"}}, {"name": "y", "performances": {"noise": "weighting"}}
MODEL: Json = {
    "macbeth": 2,
    "criteria": CRITERIA,
    "groups": [G, H, K],
    "options": [X, Y],
    "weighting": weighting("size price noise", [1, 4, 2, 2], [2, 3, 1, 1]),
}

TEXTS = {
    8: "unknown option",
    9: "unknown criterion",
    10: "unknown element",
    11: "name taken",
    12: "limit reached",
    13: "against the listed order",
    14: "not a permutation",
    28: "unknown group",
}
LETTERS = "a b c d e f g h i j k l m n o p q r s t u v w x"

for line in FIRST.split("\n"):
    print(f"> {line}\nok")
print("== the model is made")
dump(MODEL)

refuse(11, "option x")
refuse(8, "drop-option z", "drop-option X")
refuse(11, "criterion price a b", "criterion cost a b a", f"criterion price {LETTERS} y")
refuse(11, f"criterion cost {LETTERS} a")
refuse(12, f"criterion cost {LETTERS} y")
refuse(9, "drop-criterion x", "refs cost low high")
refuse(10, "refs price large high", "refs price low small")
refuse(13, "refs price high low", "refs price mid mid")
refuse(9, "judge cost low high 1")
refuse(10, "judge price large high 1", "judge price low small 1")
refuse(13, "judge price high low 1", "judge price mid mid 1")
refuse(9, "unjudge cost low high")
refuse(10, "unjudge price large high", "unjudge price low small")
refuse(13, "unjudge price high low", "unjudge price mid mid")
refuse(8, "perform z cost huge")
refuse(9, "perform x cost huge")
refuse(10, "perform x price large")
refuse(9, "weigh-order size price cost", "weigh-order cost")
refuse(14, "weigh-order size price", "weigh-order size price price", "weigh-order size price noise size")
refuse(9, "weigh cost none 1", "weigh size cost 1")
refuse(13, "weigh price size 1", "weigh none size 1", "weigh size size 1")
refuse(9, "unweigh cost none", "unweigh size cost")
refuse(13, "unweigh price size", "unweigh none size", "unweigh size size")
refuse(9, "reach cost 100")
refuse(28, "group m z", "group g z")
refuse(11, "group g", "group h k")
refuse(28, "drop-group price")
refuse(9, "unplace cost", "place cost z")
refuse(28, "place price z")

accept("option z", options=[X, Y, {"name": "z", "performances": {}}])
accept("drop-option x", options=[Y])
accept("drop-option y", options=[X])
accept("perform x price high", options=[{"name": "x", "performances": {"price": "high"}}, Y])
accept("perform y size large", options=[X, {"name": "y", "performances": {"noise": "weighting", "size": "large"}}])

accept(
    "criterion cost a b",
    criteria=[*CRITERIA, criterion("cost", "a", "b")],
    weighting=weighting("size price noise cost", [1, 5, 2, 2], [2, 3, 1, 1]),
)
accept(
    f"criterion x {LETTERS.upper()}",
    criteria=[*CRITERIA, criterion("x", *LETTERS.upper().split())],
    weighting=weighting("size price noise x", [1, 5, 2, 2], [2, 3, 1, 1]),
)
accept(
    "drop-criterion price",
    criteria=[SIZE, NOISE],
    options=[{"name": "x", "performances": {}}, Y],
    weighting=weighting("size noise", [1, 3, 2, 2]),
)
accept("drop-criterion size", criteria=[PRICE, NOISE], weighting=weighting("price noise", [1, 2, 1, 1]))
accept(
    "drop-criterion noise",
    criteria=[PRICE, SIZE],
    options=[X, {"name": "y", "performances": {}}],
    weighting=weighting("size price", [1, 3, 2, 2]),
)

accept("refs price mid high", criteria=changed(PRICE, good="mid"))
accept("refs price low mid", criteria=changed(PRICE, neutral="mid"))
accept("judge price low high 6", criteria=changed(PRICE, judgements=[[1, 3, 6, 6]]))
accept("judge price mid high positive", criteria=changed(PRICE, judgements=[[1, 3, 3, 4], [2, 3, 1, 6]]))
accept("judge noise none weighting 0..6", criteria=changed(NOISE, judgements=[[1, 2, 0, 6]]))
accept("unjudge price low high", criteria=changed(PRICE, judgements=[]))
accept("unjudge price low mid")
accept("reach price 100", criteria=changed(PRICE, reach=100))
accept("reach size 1000000", criteria=changed(SIZE, reach=1_000_000))

accept("weigh-order noise price size", weighting=weighting("noise price size"))
accept("weigh-order size price noise", weighting=weighting("size price noise"))
accept("weigh size price 1..3", weighting=weighting("size price noise", [1, 2, 1, 3], [1, 4, 2, 2], [2, 3, 1, 1]))
accept("weigh noise none 6", weighting=weighting("size price noise", [1, 4, 2, 2], [2, 3, 1, 1], [3, 4, 6, 6]))
accept("unweigh size none", weighting=weighting("size price noise", [2, 3, 1, 1]))
accept("unweigh size price")

accept("group m", groups=[G, H, K, {"name": "m"}])
accept("group price k", groups=[G, H, K, {"name": "price", "parent": "k"}])
accept("drop-group g", groups=[{"name": "h"}, K])
accept("drop-group h", groups=[G, {"name": "k", "parent": "g"}], criteria=changed(PRICE, group="g"))
accept("drop-group k", groups=[G, H])
accept("unplace price", criteria=[{key: PRICE[key] for key in PRICE if key != "group"}, SIZE, NOISE])
accept("place price g", criteria=changed(PRICE, group="g"))
accept("place size k", criteria=changed(SIZE, group="k"))
