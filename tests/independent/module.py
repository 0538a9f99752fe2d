"""The run of a module, tick by tick (KERNEL.md), and that of one partition without the others (ISOLATION.md)."""

from kernel.partition import FOREVER
from kernel.records import COLD_START, HM_MODULE_RESTART, NORMAL_START
from model import DEVICE
from schedule import Schedule


class Trace:
    """The lines of a trace."""

    def __init__(self):
        self.lines = []

    def __call__(self, tick, who, words):
        self.lines.append(f"{tick:013d} {who} {words}\n")

    def text(self):
        return "".join(self.lines).encode("ascii")


class Clock:
    """What a module and a lone partition share: the loop over the ticks."""

    def __init__(self, schedule, lines):
        self.schedule, self.lines, self.place = schedule, lines, 0
        self.now, self.is_shut = 0, False

    def run(self, ticks):
        """Makes the ticks up to this number; some may be made already."""
        if self.now == 0 and ticks > 0:
            self.start(0, NORMAL_START)
        while self.now < ticks and not self.is_shut:
            self.now = self.go_on(self.now, ticks)

    def start(self, now, condition):
        for it in self.partitions.values():
            it.now = now
            it.clear(COLD_START, condition)

    def next_line(self, limit):
        """The tick of the next line that comes from outside, if it comes before the limit."""
        return min(self.lines[self.place][0], limit) if self.place < len(self.lines) else limit

    def go_on(self, now, limit):
        """Makes this tick, and those after it in which only its owner does something; returns the next one."""
        while self.next_line(limit) == now and not self.is_shut:
            self.place += 1
            self.act(now, *self.lines[self.place - 1][1:])
        if self.is_shut:
            return limit
        self.move(now)
        stop = min(self.next_line(limit), self.schedule.next_edge(now))
        owner = self.partitions.get(self.schedule.owner(now))
        if owner is not None:
            owner.run(now, stop)
        if all(it.sleeps() for it in self.partitions.values()):
            return min(self.next_line(limit), self.next_waking(stop))
        return stop

    def move(self, now):
        number = self.schedule.ended(now)
        if number in self.partitions:
            self.partitions[number].move(now, lambda port, words: self.send(now, number, port, words))

    def module_fault(self, now, action):
        if action == "SHUTDOWN":
            self.is_shut = True
        elif action == "RESET":
            self.schedule.origin = now
            self.start(now, HM_MODULE_RESTART)

    def is_quiet(self):
        """Whether nothing happens any more."""
        lasting = all(it.sleeps() and it.next_due() == FOREVER for it in self.partitions.values())
        return self.is_shut or (self.now > 0 and lasting and self.place == len(self.lines))

    def next_waking(self, now):
        """The first tick in which something is due, where all partitions sleep."""
        dues = {number: it.next_due() for number, it in self.partitions.items()}
        return min((self.schedule.first_own(number, max(due, now)) for number, due in dues.items() if due != FOREVER), default=FOREVER)


class Module(Clock):
    """`make` makes a partition of its number, the schedule, and what takes the lines."""

    def __init__(self, table, make, lines, trace, watched=None):
        super().__init__(Schedule(table.frame, table.windows), lines)
        self.table, self.trace = table, trace
        self.watched, self.inputs = watched, []  # a partition, and what came to it
        self.partitions = {n: make(n, self.schedule, trace) for n in range(1, len(table.partitions) + 1)}
        self.channels = {it.source: it for it in table.channels if it.source != DEVICE}

    def note(self, number, text):
        if self.watched is not None and number in (self.watched, None):
            self.inputs.append(text)

    def act(self, now, what, name, words):
        if what == "MSG":
            for end in next(it for it in self.table.channels if it.name == name).destinations:
                self.arrive(now, end, words)
        elif name is not None:
            number = self.table.number_of(name)
            self.note(number, f"{now} FAULT {name}\n")
            self.partitions[number].hardware_fault(now)
        else:
            self.note(None, f"{now} FAULT\n")
            self.trace(now, "-", f"HM HARDWARE_FAULT - MODULE {self.table.action}")
            self.module_fault(now, self.table.action)

    def arrive(self, now, end, words):
        number, port = end
        self.note(number, f"{now} ARRIVE {self.table.port(end).name} {' '.join(map(str, words))}\n")
        self.partitions[number].arrive(now, port, words)

    def send(self, now, number, port, words):
        channel = self.channels.get((number, port))
        for end in channel.destinations if channel else []:
            if end == DEVICE:
                self.trace(now, self.table.partitions[number - 1].name, f"OUT {channel.name} {' '.join(map(str, words))}")
            else:
                self.arrive(now, end, words)


class LonePartition(Clock):
    """One partition with its replay text. Of the module it knows only its slice."""

    def __init__(self, table, number, make, lines, trace):
        super().__init__(Schedule(table.frame, table.windows_of(number)), lines)
        self.action, self.number, self.trace = table.action, number, trace
        self.name = table.partitions[number - 1].name
        self.ports = {it.name: n for n, it in enumerate(table.partitions[number - 1].ports, 1)}
        self.partitions = {number: make(number, self.schedule, trace)}
        self.outward = {it.source[1]: it.name for it in table.channels if it.source[0] == number and DEVICE in it.destinations}

    def act(self, now, what, name, words):
        if what == "ARRIVE":
            self.partitions[self.number].arrive(now, self.ports[name], words)
        elif name is not None:
            self.partitions[self.number].hardware_fault(now)
        else:
            self.module_fault(now, self.action)

    def send(self, now, number, port, words):
        if port in self.outward:
            self.trace(now, self.name, f"OUT {self.outward[port]} {' '.join(map(str, words))}")
