"""Whose a tick is, where windows end, and the release points (section 2 of TABLE.md)."""

from bisect import bisect_right


class Schedule:
    def __init__(self, frame, windows):
        self.frame, self.windows, self.origin = frame, windows, 0
        self.begins, self.ends = [it.offset for it in windows], [it.end for it in windows]
        self.ended_at = {it.end % frame: it.partition for it in windows}
        self.edges = sorted({0, *self.begins, *self.ended_at})

    def place(self, tick):
        return (tick - self.origin) % self.frame

    def owner(self, tick):
        """The number of the partition that owns the tick, or None."""
        place = self.place(tick)
        last = bisect_right(self.begins, place) - 1
        return self.windows[last].partition if last >= 0 and place < self.ends[last] else None

    def ended(self, tick):
        """The number of the partition whose window ended with the tick before, or None."""
        return self.ended_at.get(self.place(tick)) if tick != self.origin else None

    def next_edge(self, tick):
        """The first tick after this one at which a window begins or ends, or the frame begins."""
        place = self.place(tick)
        later = bisect_right(self.edges, place)
        return tick - place + (self.edges[later] if later < len(self.edges) else self.frame)

    def next_place(self, tick, places):
        """The first tick after this one that has one of the places in the frame."""
        place = self.place(tick)
        return tick + min((it - place - 1) % self.frame + 1 for it in places)

    def next_release(self, partition, tick):
        return self.next_place(tick, [it.offset for it in self.windows if it.partition == partition and it.release])

    def first_own(self, partition, tick):
        """The first tick from this one on that the partition owns."""
        if self.owner(tick) == partition:
            return tick
        return self.next_place(tick, [it.offset for it in self.windows if it.partition == partition])
