#!/usr/bin/env python3
"""Makes hostile images: assembles the text of instructions, and writes them over instructions of a built image.

    hostile.py IMAGE PARTITION FIRST TEXT OUT

writes into OUT the image, in which the instructions of the partition from number FIRST on are those of the file TEXT. All other bytes stay,
so the image loads: the loader judges no instruction (docs/IMAGE.md). `mb dis` lists the instructions of an image with their numbers.

A text has an instruction a line: its name and its fields, x before v, as in docs/PROCESSOR.md. `#` begins a comment.

    PUSH 4          # the address; the data have the words 0 to 3
    PUSH 9          # the word
    STR 1           # into region 1, the data

`RAW op x v` writes these three numbers, whatever they mean; `RAW 99 0 0` is no instruction.
"""

import struct
import sys
from pathlib import Path

sys.dont_write_bytecode = True
sys.path.insert(0, str(Path(__file__).resolve().parent.parent / "independent"))
from image import load_image, write_image  # noqa: E402
from processor import INSTRUCTIONS, OPCODES  # noqa: E402
from refusal import Refusal  # noqa: E402


class Wrong(Exception):
    """A text that is no row of instructions, or an image that has no such place."""


def instruction(line):
    """The opcode and the fields of a line."""
    name, *words = line.split()
    try:
        numbers = [int(it) for it in words]
    except ValueError:
        raise Wrong(f"'{line}' has a field that is no number") from None
    if name == "RAW" and len(numbers) == 3:
        return tuple(numbers)
    if name not in OPCODES:
        raise Wrong(f"there is no instruction '{name}'")
    fields = INSTRUCTIONS[OPCODES[name]].fields.strip("-")
    if len(numbers) != len(fields):
        raise Wrong(f"'{line}': {name} has the fields {list(fields)}")
    values = dict(zip(fields, numbers))
    return OPCODES[name], values.get("x", 0), values.get("v", 0)


def overwritten(data, partition, first, text):
    """The image with the instructions of the text in place of those of a partition from a number on."""
    image = load_image(data)
    number = image.table.number_of(partition)
    if number is None:
        raise Wrong(f"the image has no partition '{partition}'")
    lines = (line.partition("#")[0].strip() for line in text.splitlines())
    made, code = [instruction(it) for it in lines if it], image.sections[number - 1].code
    if first < 0 or first + len(made) > len(code):
        raise Wrong(f"{len(made)} instructions from {first} on do not fit {len(code)}")
    code[first : first + len(made)] = made
    return write_image(image)


def main(words):
    if len(words) != 5:
        print(__doc__.partition("\n\n")[2].partition("\n\n")[0].strip(), file=sys.stderr)
        return 2
    name, partition, first, text, out = words
    try:
        changed = overwritten(Path(name).read_bytes(), partition, int(first), Path(text).read_text())
        Path(out).write_bytes(changed)
    except (OSError, ValueError, struct.error, Refusal, Wrong) as why:
        print(f"hostile: {why}", file=sys.stderr)
        return 1
    return 0


if __name__ == "__main__":
    sys.exit(main(sys.argv[1:]))
