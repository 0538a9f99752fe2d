#!/usr/bin/env python3
"""An independent second reading of the pages: the commands of `mb` that build and run modules.

    python3 tests/independent COMMAND WORDS..

The commands and their words are those of COMMANDS.md: check, build, run, inputs, replay, upgrade, cost, dis. For run, inputs and replay a table and its
sources may be in place of the image, with commas between them: `run table,a.pal,b.pal devices 128`. Then the sources run by their meaning.
"""

import sys

from commands import COMMANDS, Folder


def main():
    if len(sys.argv) < 2 or sys.argv[1] not in COMMANDS:
        sys.exit(__doc__)
    found = Folder().answer(sys.argv[1:])
    is_refused = found.startswith(b"mb: ")
    (sys.stderr if is_refused else sys.stdout).buffer.write(found)
    return int(is_refused)


if __name__ == "__main__":
    sys.exit(main())
