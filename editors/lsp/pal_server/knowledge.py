"""What the pages say of services, keys and words, as `words.json` has it."""

import json
from pathlib import Path

_WORDS = json.loads((Path(__file__).resolve().parent.parent / "words.json").read_text(encoding="utf-8"))

SERVICES: dict[str, dict] = _WORDS["services"]
CODES: dict[str, int] = _WORDS["codes"]
# By the kinds of rows, and the names of keys.
KEYS: dict[str, dict[str, dict]] = _WORDS["keys"]
VALUES: dict[str, dict[str, str]] = _WORDS["values"]
GRAMMAR: list[str] = _WORDS["grammar"]


def parts_of(call: str) -> tuple[list[str], list[str]]:
    """The arguments and the targets of a call, as a page writes it."""
    head, _, targets = call.rstrip(";").partition(" -> ")
    arguments = head.partition("(")[2].rstrip(")")
    return [it for it in arguments.split(", ") if it], [it for it in targets.split(", ") if it]
