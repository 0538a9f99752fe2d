"""Findings as an editor takes them: diagnostics, and the edits that mend them."""

import re
from typing import Any

from .judging import Finding
from .texts import Text

REPLACEMENT = re.compile(r"Did you mean `([^`]+)`\?")


def span_of(finding: Finding, text: Text) -> tuple[int, int]:
    """The place of a finding: that of a word, or of the whole line where `mb` names no column."""
    if finding.span:
        return finding.span
    return text.word_at(finding.line, finding.column) if finding.column else text.line_at(finding.line)


def diagnostic(finding: Finding, text: Text) -> dict[str, Any]:
    """The diagnostic of a finding. Its message ends with the advice."""
    said = f"{finding.message}. {finding.advice}" if finding.advice else finding.message
    found = {"range": text.range(*span_of(finding, text)), "severity": finding.severity, "source": "mb", "code": finding.rule, "message": said}
    replacement = REPLACEMENT.search(finding.advice)
    return found | {"data": {"replacement": replacement[1]}} if replacement else found


def is_within(one: dict[str, Any], other: dict[str, Any]) -> bool:
    """Whether two ranges touch."""
    places = [(it["line"], it["character"]) for it in (one["start"], one["end"], other["start"], other["end"])]
    return places[0] <= places[3] and places[2] <= places[1]


def quick_fixes(uri: str, text: Text, diagnostics: list[dict[str, Any]], wanted: dict[str, Any]) -> list[dict[str, Any]]:
    """The edits that mend what is wrong in a range: each writes the word that `mb` suggests. A word in quotes stays in them."""
    found = []
    for it in diagnostics:
        if "data" not in it or not is_within(it["range"], wanted):
            continue
        word, new = text.text[text.offset(it["range"]["start"]) : text.offset(it["range"]["end"])], it["data"]["replacement"]
        quote = word[0] if word[:1] in ("'", '"') else ""
        edit = {"range": it["range"], "newText": f"{quote}{new}{quote}"}
        found.append({"title": f"Write `{new}`", "kind": "quickfix", "diagnostics": [it], "isPreferred": True, "edit": {"changes": {uri: [edit]}}})
    return found
