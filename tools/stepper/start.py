"""The words of the command line, and a session over lines or over the screen."""

import argparse
import sys
from pathlib import Path

from .module import Module, Refused
from .session import MOST_TICKS, Session, Wrong

NAME = Path(sys.argv[0]).name


def ticks(word: str) -> int:
    if not (word.isascii() and word.isdigit()) or int(word) > MOST_TICKS:
        raise argparse.ArgumentTypeError(f"'{word}' is no number of ticks up to {MOST_TICKS}")
    return int(word)


def words_of_line() -> argparse.Namespace:
    words = argparse.ArgumentParser(NAME, description="Steps through a run of a module, forwards and back. `help` lists the commands.")
    words.add_argument("table", metavar="TABLE", help="the module table")
    words.add_argument("devices", metavar="DEVICES", help="the device text")
    words.add_argument("sources", metavar="SOURCE", nargs="+", help="a source for each partition, in the order of the table")
    words.add_argument("--commands", action="store_true", help="read commands as lines of standard input, as is done anyway if that is no terminal")
    words.add_argument("--partition", metavar="P", help="show only this partition")
    words.add_argument("--end", metavar="TICK", type=ticks, default=MOST_TICKS, help="go no further than the state before this tick")
    words.add_argument("--search", metavar="TICKS", type=ticks, default=1 << 20, help="how far a search looks at most (1048576)")
    return words.parse_args()


def follow(session: Session) -> int:
    """Does the commands of standard input. The status is 3 if a search found nothing, and 2 at the first line that is no command."""
    for line in sys.stdin:
        print(f"> {line.rstrip()}")
        try:
            for it in session.do(line):
                print(it)
            sys.stdout.flush()
        except Wrong as why:
            sys.stdout.flush()
            print(f"{NAME}: {why}", file=sys.stderr)
            return 2
        if session.ended:
            break
    return 3 if session.missed else 0


def main() -> int:
    given = words_of_line()
    try:
        session = Session(Module(given.table, given.devices, given.sources), given.end, given.search, given.partition)
        if given.commands or not sys.stdin.isatty():
            return follow(session)
        from .screen import browse

        return browse(session)
    except (Refused, OSError) as why:
        print(f"{NAME}: {why}", file=sys.stderr)
        return 1
    except KeyboardInterrupt:
        return 130
