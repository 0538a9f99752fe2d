"""A session: which state is shown, and what the commands do."""

from collections import deque
from collections.abc import Callable
from typing import Any

from .module import Module
from .rows import State, differences, has, words_of
from .searching import Changes, Exhausted, Lines, Watch, first_stop, last_stop
from .showing import DATA, HIDDEN, header_of, of_partition, of_source

MOST_LINES, MOST_CHANGES, MOST_TICKS = 12, 10, 1 << 40
HELP = """\
tick [N]          t   on by N ticks, by one without a number
line [WORD..]     l   on to the next line of the trace, or to one that has these words behind its tick; _ is any word
step [PROCESS]    s   on until the process is in another line of its source: one of this name, or the one that is shown
inst [PROCESS]    i   the same until it is at another instruction
until WORD..      u   on until a row of the state begins with these words; _ is any word, .. are any words
watch WORD..      w   watches the rows that begin with these words, or only the words for which _ stands; without words lists what is watched
drop N                no longer watches number N
run               r   on until something that is watched changes
to TICK           g   to the state before this tick
back COMMAND      b   back by one of tick, line, step, inst, until and run, as they go on; back alone: to the state shown before
rows [WORD..]         all rows of the state, or those that begin with these words
changes           c   all that changed since the state shown before
help              h   these lines
quit              q   ends
An empty line repeats the last command."""
SHORT = {"t": "tick", "l": "line", "s": "step", "i": "inst", "u": "until", "w": "watch", "r": "run", "g": "to", "b": "back", "c": "changes", "h": "help", "q": "quit"}
MOVING = ("tick", "line", "step", "inst", "until", "run", "to", "back")


class Wrong(Exception):
    """A command that is none."""


class Session:
    def __init__(self, module: Module, end: int, reach: int, partition: str | None, watch: Watch = lambda _: None):
        self.module = module
        self.end = end
        self.reach = reach
        self.partition = partition
        self.watch = watch
        self.at = 0
        self.shown: list[int] = []
        self.watched: list[list[str]] = []
        self.process: tuple[str, str] | None = None
        self.missed = False
        self.ended = False
        self.last: list[str] = []
        self.state()

    def state(self, tick: int | None = None) -> State:
        return self.module.state(self.at if tick is None else tick, self.partition)

    def do(self, line: str) -> list[str]:
        """Does a command, and returns what it shows."""
        words = line.split() or self.last
        if not words or words[0].startswith("#"):
            return []
        name, *rest = words
        name = SHORT.get(name, name)
        if name not in COMMANDS:
            raise Wrong(f"there is no command `{name}`; `help` lists them")
        self.last = words
        if name in MOVING and not {"step", "inst"} & {SHORT.get(it, it) for it in words[:2]}:
            self.process = None
        return COMMANDS[name](self, rest)

    # ---- moving

    def go(self, tick: int | None, where: int) -> list[str]:
        """Shows the state before a tick, or says that a search up to `where` found none."""
        if tick is None:
            self.missed = True
            ticks = f"{self.at} to {where}" if where > self.at else f"{where} to {self.at}"
            return [f"nothing found from tick {ticks}; this is still the state before tick {self.at}"]
        if tick == self.at:
            return [f"this is the state before tick {tick} already"]
        self.shown.append(self.at)
        self.at = tick
        return self.view()

    def tick(self, words: list[str], back: bool = False) -> list[str]:
        length = number(words[0]) if len(words) == 1 else None if words else 1
        if length is None:
            raise Wrong("tick [N]")
        return self.go(max(self.at - length, 0) if back else min(self.at + length, self.end), 0)

    def to(self, words: list[str]) -> list[str]:
        if len(words) != 1:
            raise Wrong("to TICK")
        return self.go(min(number(words[0]), self.end), 0)

    def search(self, search: Lines | Changes, back: bool) -> list[str]:
        begin, end = max(self.at - self.reach, 0), min(self.at + self.reach, self.end)
        try:
            found = last_stop(search, begin, self.at, self.watch) if back else first_stop(search, self.at, end, self.watch)
        except Exhausted as why:
            return self.go(None, why.tick)
        return self.go(found, begin if back else end)

    def line(self, words: list[str], back: bool = False) -> list[str]:
        self.judge_partition(words[:1])
        return self.search(Lines(self.module, words), back)

    def step(self, words: list[str], back: bool = False) -> list[str]:
        return self.follow(words, ("body", "line"), back)

    def inst(self, words: list[str], back: bool = False) -> list[str]:
        return self.follow(words, ("pc",), back)

    def follow(self, words: list[str], keys: tuple[str, ...], back: bool) -> list[str]:
        """Goes on until something is different in the innermost frame of a process."""
        self.process = self.named(words)
        partition, name = self.process

        def place(state: State) -> Any:
            frame = next((it for it in state.of("frame", partition) if it["process"] == name), None)
            return frame and [frame[it] for it in keys]

        return self.search(Changes(self.module, partition, place), back)

    def until(self, words: list[str], back: bool = False) -> list[str]:
        self.judge(words)
        search = Changes(self.module, self.partition_in(words), lambda state: any(has(it, words) for it in state.rows), bool, "owner" in words)
        return self.search(search, back)

    def run(self, words: list[str], back: bool = False) -> list[str]:
        if words or not self.watched:
            raise Wrong("run takes no words" if words else "nothing is watched; `watch WORD..` does")
        partitions = {self.partition_in(it) for it in self.watched}
        partition = partitions.pop() if len(partitions) == 1 else self.partition
        owner = any("owner" in it for it in self.watched)
        search = Changes(self.module, partition, lambda state: [state.said(it) for it in self.watched], with_owner=owner)
        came = self.at
        shown = self.search(search, back)
        old, new = (search.value(self.state(it)) for it in (self.at - 1, self.at))
        return shown if self.at == came else [*(f"watched {it}" for it, *values in zip(self.watch_rows([]), old, new) if values[0] != values[1]), *shown]

    def back(self, words: list[str]) -> list[str]:
        if not words:
            if not self.shown:
                raise Wrong("no state was shown before")
            self.at = self.shown.pop()
            return self.view()
        name, *rest = words
        name = SHORT.get(name, name)
        if name not in ("tick", "line", "step", "inst", "until", "run"):
            raise Wrong("back, or back with tick, line, step, inst, until or run")
        return COMMANDS[name](self, rest, True)

    # ---- words

    def judge_partition(self, words: list[str]) -> None:
        known = ["-", "_", *self.module.source]
        if any(it not in known for it in words):
            raise Wrong(f"the first word is a partition: {', '.join(known)}")

    def judge(self, words: list[str]) -> None:
        """Refuses words that are none of a row, or of what changes in every tick."""
        self.judge_partition(words[:1])
        if len(words) < 2:
            raise Wrong("the words are the first ones of a row, as `rows` shows them")
        if "tick" in words or "spent" in words:
            raise Wrong("`tick` and `spent` change with every tick")

    def partition_in(self, words: list[str]) -> str | None:
        return words[0] if words[0] in self.module.source else self.partition

    def named(self, words: list[str]) -> tuple[str, str]:
        """The process of these words: its name, with its partition before it if several have one of this name."""
        focus = self.focus()
        if not words and focus:
            return focus
        if not words:
            raise Wrong("no process runs here; step [PARTITION] PROCESS")
        *partition, name = words
        found = [(it["partition"], name) for it in self.state().of("process", *partition[:1]) if it["process"] == name]
        if len(found) != 1 or len(words) > 2:
            raise Wrong(f"{len(found)} processes are called `{' '.join(words)}`; step [PARTITION] PROCESS")
        return found[0]

    def focus(self) -> tuple[str, str] | None:
        """The process that is shown: that of the last `step`, or the one that runs."""
        owner = self.state().owner["owner"]
        mode = next(self.state().of("mode", owner), None) if owner else None
        return self.process or ((owner, mode["running"]) if mode and mode["running"] else None)

    # ---- showing

    def watch_rows(self, words: list[str]) -> list[str]:
        if words:
            self.judge(words)
            self.watched.append(words)
        return [f"{place} {' '.join(it)}" for place, it in enumerate(self.watched, 1)] or ["nothing is watched"]

    def drop(self, words: list[str]) -> list[str]:
        place = number(words[0]) if len(words) == 1 else 0
        if not 0 < place <= len(self.watched):
            raise Wrong("drop N, one of the numbers that `watch` lists")
        del self.watched[place - 1]
        return self.watch_rows([])

    def rows(self, words: list[str]) -> list[str]:
        self.judge_partition(words[:1])
        return [words_of(it) for it in self.state().rows if not words or has(it, words)] or ["no row begins with these words"]

    def changes(self, _: list[str]) -> list[str]:
        if not self.shown:
            return ["no state was shown before"]
        return [it for _, it in differences(self.state(self.shown[-1]), self.state())] or ["nothing changed"]

    def view(self) -> list[str]:
        """What is shown of a state."""
        before = self.shown[-1] if self.shown else self.at
        state = self.state()
        shown = [header_of(state), *self.trace(before if before < self.at else self.at - 1)]
        for mode in state.of("mode"):
            shown += of_partition(state, mode)
        if focus := self.focus():
            shown += of_source(state, self.module.source[focus[0]], *focus)
        return shown + self.changed(before)

    def trace(self, since: int) -> list[str]:
        """The last lines of the trace from a tick on, and before the tick of the state."""
        begin, count = max(since, self.at - self.reach, 0), 0
        last: deque[str] = deque(maxlen=MOST_LINES)
        for _, line in self.module.lines(begin, self.at):
            if self.partition in (None, line.split(" ", 2)[1]):
                last.append(f"  {line}")
                count += 1
        title = f"trace of tick {begin}" if begin + 1 == self.at else f"trace of ticks {begin} to {self.at - 1}"
        if self.at == 0:
            return []
        return [f"{title}: {count or 'no'} line{'s' if count != 1 else ''}{', the last are' if count > MOST_LINES else ''}", *last]

    def changed(self, before: int) -> list[str]:
        """What changed since another state, data first, and then objects and ports."""
        differs = sorted(differences(self.state(before), self.state()), key=lambda it: it[0] not in DATA)
        found = [f"  {it}" for kind, it in differs if kind not in HIDDEN]
        if not found:
            return []
        more = [f"  {len(found) - MOST_CHANGES} more; `changes` shows them"] if len(found) > MOST_CHANGES else []
        return [f"changed since the state before tick {before}:", *found[:MOST_CHANGES], *more]

    def help(self, _: list[str]) -> list[str]:
        return HELP.split("\n")

    def quit(self, _: list[str]) -> list[str]:
        self.ended = True
        return []


COMMANDS: dict[str, Callable[..., list[str]]] = {
    "tick": Session.tick,
    "line": Session.line,
    "step": Session.step,
    "inst": Session.inst,
    "until": Session.until,
    "watch": Session.watch_rows,
    "drop": Session.drop,
    "run": Session.run,
    "to": Session.to,
    "back": Session.back,
    "rows": Session.rows,
    "changes": Session.changes,
    "help": Session.help,
    "quit": Session.quit,
}


def number(word: str) -> int:
    """A number of ticks as `mb` takes it."""
    if not (word.isascii() and word.isdigit()) or int(word) > MOST_TICKS:
        raise Wrong(f"`{word}` is no number of ticks up to {MOST_TICKS}")
    return int(word)
