"""A session over the whole terminal: what a command shows above, the command that is written below."""

import curses
import time

from .session import Session, Wrong

BOLD_FIRST = ("before tick", "trace of", "code of", "changed since")
KEYS = "Enter repeats a command; `help` lists them; PgUp and PgDn scroll; Ctrl-C ends a search"
MOST_FAILED = 100
ENTER, ESCAPE, ERASE, END_OF_INPUT, AGAIN = ("\n", "\r"), "\x1b", ("\x7f", "\b"), "\x04", "\x0c"


class Screen:
    def __init__(self, window: curses.window, session: Session):
        self.window = window
        self.session = session
        self.shown = [*session.view(), "", *session.help([])]
        self.first = 0
        self.typed = ""
        self.told = KEYS
        self.drawn = 0.0
        session.watch = self.watch

    def watch(self, tick: int) -> None:
        """Says now and then how far a search is."""
        if time.monotonic() > self.drawn + 0.2:
            self.told = f"searching: tick {tick}; Ctrl-C ends it"
            self.draw()

    def room(self) -> int:
        return max(self.window.getmaxyx()[0] - 2, 1)

    def draw(self) -> None:
        height, width = self.window.getmaxyx()
        self.window.erase()
        for place, line in enumerate(self.shown[self.first : self.first + self.room()]):
            strong = line.startswith(BOLD_FIRST) or line.lstrip().startswith(">")
            self.put(place, line, width, curses.A_BOLD if strong else curses.A_NORMAL)
        rest = len(self.shown) - self.first - self.room()
        self.put(height - 2, self.told + (f"  [{rest} lines below: PgDn]" if rest > 0 else ""), width, curses.A_REVERSE)
        self.put(height - 1, f"> {self.typed}", width, curses.A_NORMAL)
        self.window.refresh()
        self.drawn = time.monotonic()

    def put(self, row: int, text: str, width: int, how: int) -> None:
        try:
            self.window.addnstr(row, 0, text, width - 1, how)
        except curses.error:
            pass  # a terminal of no rows

    def scroll(self, by: int) -> None:
        self.first = max(min(self.first + by, len(self.shown) - self.room()), 0)

    def enter(self) -> None:
        """Does the command that was typed."""
        line, self.typed = self.typed, ""
        try:
            shown = self.session.do(line)
            self.told = KEYS
            if len(shown) == 1:
                self.told = shown[0]
            elif shown:
                self.shown, self.first = shown, 0
        except Wrong as why:
            self.told = str(why)
        except KeyboardInterrupt:
            self.told = f"the search was ended; this is still the state before tick {self.session.at}"

    def key(self, key: str | int) -> None:
        scrolls = {curses.KEY_NPAGE: self.room(), curses.KEY_PPAGE: -self.room(), curses.KEY_DOWN: 1, curses.KEY_UP: -1}
        if key in scrolls:
            self.scroll(scrolls[key])
        elif key in ENTER or key == curses.KEY_ENTER:
            self.enter()
        elif key in ERASE or key == curses.KEY_BACKSPACE:
            self.typed = self.typed[:-1]
        elif key == ESCAPE:
            self.typed = ""
        elif key == AGAIN:
            self.window.clear()
        elif key == END_OF_INPUT and not self.typed:
            self.session.ended = True
        elif isinstance(key, str) and key.isprintable():
            self.typed += key


def browse(session: Session) -> int:
    """Shows the session until it ends."""

    def show(window: curses.window) -> None:
        screen, failed = Screen(window, session), 0
        while not session.ended:
            screen.draw()
            try:
                screen.key(window.get_wch())
                failed = 0
            except KeyboardInterrupt:
                screen.typed = ""
            except curses.error:
                # Another size of the terminal fails once. A terminal that is gone fails each time.
                failed += 1
                session.ended = failed == MOST_FAILED

    curses.wrapper(show)
    return 0
