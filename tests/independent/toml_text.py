"""A TOML 1.1 document, read by `tomllib`, which knows TOML 1.0.

Before that, what 1.1 allows besides is written as 1.0: line ends, comments and a last comma within an inline table, and the
escapes `\\e` and `\\xHH`.
"""

import re
import tomllib

from limits import GREATEST, LEAST

# So deep may brackets be nested, and so many parts may a key have.
DEEPEST = 80
SEPARATORS = ("\n", "=", ",", "[", "]", "{", "}")
# A quote that is a piece of its own begins a text that its line does not end.
QUOTES = ('"', "'")

PIECE = re.compile(
    r'"""(?:\\.|(?!""").)*?"{3,5}' r"|'''.*?'{3,5}" r'|"(?:\\.|[^"\\\n])*"' r"|'[^'\n]*'" r"|\#[^\n]*|[][{}\n,]|[ \t]+|.",
    re.S,
)


class NoDocument(Exception):
    """The bytes are no TOML document."""


def read(data):
    """The document that the bytes mean."""
    try:
        text = as_older(data.decode("utf-8").removeprefix("\ufeff"))
        document = tomllib.loads(text, parse_float=read_float)
    except (UnicodeDecodeError, tomllib.TOMLDecodeError, ValueError, RecursionError) as why:
        raise NoDocument from why
    judge(document)
    return document


def read_float(text):
    value = float(text.replace("_", ""))
    if abs(value) == float("inf") and "inf" not in text:
        raise ValueError("beyond the range of a float")
    return value


def judge(value):
    """Refuses an integer that does not fit 64 bits."""
    if isinstance(value, int) and not isinstance(value, bool) and not LEAST <= value <= GREATEST:
        raise NoDocument
    if isinstance(value, (dict, list)):
        for it in value.values() if isinstance(value, dict) else value:
            judge(it)


def as_older(text):
    """The text with the forms that only TOML 1.1 has written as those of 1.0."""
    out, open_brackets, dots = [], [], 0
    for piece in PIECE.findall(text.replace("\r\n", "\n")):
        piece = older_escapes(piece)
        if piece in ("{", "["):
            open_brackets.append(piece)
        elif piece in ("}", "]") and open_brackets:
            if piece == "}":
                drop_last_comma(out)
            open_brackets.pop()
        elif open_brackets and open_brackets[-1] == "{" and (piece == "\n" or piece.startswith("#")):
            piece = " "
        dots = dots + 1 if piece == "." else 0 if piece in SEPARATORS else dots
        if len(open_brackets) > DEEPEST or dots >= DEEPEST or piece in QUOTES:
            raise NoDocument
        out.append(piece)
    return "".join(out)


def older_escapes(piece):
    if not piece.startswith('"') or len(piece) < 2:
        return piece
    return re.sub(r"\\(e|x[0-9A-Fa-f]{2}|.)", older_escape, piece, flags=re.S)


def older_escape(found):
    word = found[1]
    if word == "e":
        return "\\u001B"
    return f"\\u00{word[1:]}" if len(word) == 3 else found[0]


def drop_last_comma(out):
    """Drops a comma before a closing brace, unless nothing is before it."""
    place = len(out) - 1
    while place >= 0 and out[place].isspace():
        place -= 1
    if place > 0 and out[place] == ",":
        before = place - 1
        while before >= 0 and out[before].isspace():
            before -= 1
        if out[before] not in ("{", ","):
            out[place] = ""
