"""Where something happens in a run: the stops of a search. A stop is the state behind a tick in which it happens."""

from collections.abc import Callable, Iterator
from contextlib import closing
from typing import Any

from .module import Module
from .rows import State

# What a search does at each state, so that somebody may see how far it is.
Watch = Callable[[int], None]
# How many states a search looks at. Each is a call of `mb state`, so more would take minutes.
MOST_STATES = 10_000


class Exhausted(Exception):
    """A search has looked at too many states. It has come to this tick."""

    def __init__(self, tick: int):
        self.tick = tick


class Lines:
    """The ticks with a line of the trace with these words, or with any line."""

    def __init__(self, module: Module, words: list[str]):
        self.module = module
        self.words = words

    def fits(self, line: str) -> bool:
        """`mb run --until` has the same rule, if there are any words."""
        told = line.split()[1:]
        return not self.words or (len(told) == len(self.words) and all(it in ("_", other) for it, other in zip(self.words, told)))

    def stops(self, begin: int, end: int, _: Watch) -> Iterator[int]:
        last = None
        with closing(self.module.lines(begin, end)) as lines:
            for tick, line in lines:
                if tick != last and self.fits(line):
                    last = tick
                    yield tick + 1


class Changes:
    """The ticks in which what `value` makes of a state becomes another, and one that `wanted` accepts. The state is of one partition or of all, and the value
    does not depend on the tick itself, or on the ticks that an instruction has spent. Whose the tick is may count or not."""

    def __init__(self, module: Module, partition: str | None, value: Callable[[State], Any], wanted: Callable[[Any], bool] = lambda _: True, with_owner: bool = False):
        self.module = module
        self.partition = partition
        self.value = value
        self.wanted = wanted
        self.with_owner = with_owner
        self.looked = 0

    def state(self, tick: int) -> State:
        if self.looked == MOST_STATES:
            raise Exhausted(tick)
        self.looked += 1
        return self.module.state(tick, self.partition)

    def stops(self, begin: int, end: int, watch: Watch) -> Iterator[int]:
        old = self.value(self.state(begin))
        with closing(self.module.lines(begin, end)) as lines:
            ticks = (tick for tick, it in lines if self.partition is None or it.split(" ", 2)[1] in (self.partition, "-"))
            line = next(ticks, end)
            while begin < end:
                watch(begin)
                while line < begin:
                    line = next(ticks, end)
                begin = self.next_change(begin, min(line, end)) if line > begin else begin + 1
                new = self.value(self.state(begin))
                if new != old and self.wanted(new):
                    yield begin
                old = new

    def next_change(self, tick: int, end: int) -> int:
        """The first tick whose state may differ from the one before `tick`, if there is no line before `end`. Without a line no process is chosen and none
        stops. So only the one that runs changes something, when its instruction ends: then it has spent fewer ticks than have gone by."""
        state = self.state(tick)
        runners = {it["partition"]: state.running(it["partition"]) for it in state.of("mode")}
        if not self.with_owner and not any(runners.values()):
            return end
        if state.owner["ended"]:
            return tick + 1
        end = min(end, self.module.next_edge(state, tick) or end)
        owner = state.owner["owner"]
        begun = runners.get(owner)
        if not begun:
            return end

        def goes_on(at: int) -> bool:
            now = self.state(at).running(owner)
            return now == begun | {"spent": begun["spent"] + at - tick}

        least, step = tick, 1
        while least + step < end and goes_on(least + step):
            least, step = least + step, 2 * step
        most = min(least + step, end)
        while most - least > 1:
            middle = (least + most) // 2
            least, most = (middle, most) if goes_on(middle) else (least, middle)
        return most


def first_stop(search: Lines | Changes, begin: int, end: int, watch: Watch) -> int | None:
    with closing(search.stops(begin, end, watch)) as stops:
        return next(stops, None)


def last_stop(search: Lines | Changes, begin: int, end: int, watch: Watch) -> int | None:
    """The last stop before `end`. Later parts are searched first, each longer than the one before."""
    length = 64
    while begin < end:
        start = max(begin, end - length)
        found = None
        for found in search.stops(start, end - 1, watch):
            pass
        if found is not None:
            return found
        end, length = start + 1 if start > begin else begin, 4 * length
    return None
