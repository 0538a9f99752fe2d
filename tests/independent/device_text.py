"""Device texts and replay texts (TEXTS.md). Each is read as lines (tick, what, name, words), or refused with the number of its first wrong line."""

import re

import limits
from model import DEVICE
from refusal import Refusal

NUMBER = r"0|[1-9][0-9]*"
TICK = rf"(?P<tick>{NUMBER})"
NAME = r"(?P<name>[a-z][a-z0-9_]{0,29})"
WORDS = r"(?P<words>(?: (?:0|-?[1-9][0-9]*))+)"
LONGEST_WORD = len(str(limits.LEAST))
FAULT = re.compile(rf"{TICK} (?P<what>FAULT)(?: {NAME})?")


def message_form(what):
    return re.compile(rf"{TICK} (?P<what>{what}) {NAME}{WORDS}")


MSG, ARRIVE = message_form("MSG"), message_form("ARRIVE")


def read_lines(data, form, room_of, has_part):
    """`room_of` answers how many words a message of this name may have, or None; `has_part` whether a fault may have this name."""
    found, before = [], 0
    pieces = data.decode("latin-1").split("\n")
    for number, piece in enumerate(pieces):
        is_last = number == len(pieces) - 1
        if is_last and piece == "":
            break
        line = None if is_last else line_of(piece, form)
        judge(line, before, number, room_of, has_part)
        before = line[0]
        found.append(line)
    return found


def line_of(piece, form):
    """The line, or None if it has no form."""
    match = form.fullmatch(piece) or FAULT.fullmatch(piece)
    if match is None or len(match["tick"]) > 13 or int(match["tick"]) > limits.LONGEST_TIME:
        return None
    parts = match.groupdict()
    texts = (parts.get("words") or "").split()
    if not all(len(it) <= LONGEST_WORD and limits.is_word(int(it)) for it in texts):
        return None
    return int(parts["tick"]), parts["what"], parts["name"], [int(it) for it in texts]


def judge(line, before, count, room_of, has_part):
    if line is None:
        raise Refusal("device 1")
    tick, what, name, words = line
    if tick < before:
        raise Refusal("device 2")
    room = room_of(name) if what != "FAULT" else 0
    if room is None or (what == "FAULT" and name is not None and not has_part(name)):
        raise Refusal("device 3")
    if len(words) > room or count >= limits.LINES:
        raise Refusal("device 4")


def read_devices(data, table):
    rooms = {it.name: table.port(it.destinations[0]).words for it in table.channels if it.source == DEVICE}
    return read_lines(data, MSG, rooms.get, lambda name: table.number_of(name) is not None)


def read_inputs(data, row):
    rooms = {it.name: it.words for it in row.ports if it.direction == "DESTINATION"}
    return read_lines(data, ARRIVE, rooms.get, lambda name: name == row.name)
