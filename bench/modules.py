"""The modules that are measured: for each its table, its sources and its device text.

`INPUTS` has the named ones, as docs/PERFORMANCE.md describes them. `GROWTH` has modules of any size, which show how a tick grows.
"""

from dataclasses import dataclass, field

ERRORS = "DEADLINE_MISSED APPLICATION_ERROR NUMERIC_ERROR ILLEGAL_REQUEST STACK_OVERFLOW MEMORY_VIOLATION HARDWARE_FAULT".split()


@dataclass
class Partition:
    """A row of the table, with the source of the partition. Where no duration is given, it is that of its windows."""

    name: str
    source: str
    ports: list = field(default_factory=list)
    duration: int = 0


@dataclass
class Module:
    """What `mb build` and `mb run` need, and how many ticks are worth a measure."""

    partitions: list
    # the length of one window of each partition; or all windows by partition and length, where "" is a time of none
    windows: int | list = 1000
    ticks: int = 100_000
    channels: list = field(default_factory=list)
    devices: str = ""
    # instructions that are written over those of a partition: its name, and their text
    wild: tuple = ()

    def table(self):
        """The module table."""
        windows = [(it.name, self.windows) for it in self.partitions] if isinstance(self.windows, int) else self.windows
        frame = sum(length for _, length in windows)
        text = [f"frame = {frame}", 'fault = "IGNORE"']
        for it in self.partitions:
            duration = it.duration or sum(length for name, length in windows if name == it.name)
            text += ["[[partition]]", f'name = "{it.name}"', f"period = {frame}", f"duration = {duration}"]
            text += ["[partition.hm]", *(f'{error} = "IGNORE"' for error in ERRORS)]
            for port in it.ports:
                text += ["[[partition.port]]", *(f"{key} = {quoted(value)}" for key, value in port.items())]
        offset = 0
        for name, length in windows:
            if name:
                text += ["[[window]]", f'partition = "{name}"', f"offset = {offset}", f"length = {length}", "release = true"]
            offset += length
        for name, source, destinations in self.channels:
            ends = ", ".join(f'"{end}"' for end in destinations)
            text += ["[[channel]]", f'name = "{name}"', f'source = "{source}"', f"destinations = [{ends}]"]
        return "\n".join(text) + "\n"


@dataclass
class Process:
    """A process, and how INIT starts it."""

    name: str
    priority: int
    body: str
    local: str = "r"
    stack: int = 48
    period: int = -1
    capacity: int = -1
    start: str = "START(i) -> r;"

    def text(self):
        head = f"process {self.name} priority {self.priority} period {self.period} capacity {self.capacity} stack {self.stack}"
        return f"{head} {{ {''.join(f'local {it}; ' for it in self.local.split())}{self.body} }}\n"


def quoted(value):
    """A value of the table."""
    return f'"{value}"' if isinstance(value, str) else value


def sampling(name, direction, words, refresh=0):
    """A sampling port."""
    return {"name": name, "kind": "SAMPLING", "direction": direction, "words": words, "refresh": refresh}


def queuing(name, direction, words, depth, discipline="FIFO"):
    """A queuing port."""
    return {"name": name, "kind": "QUEUING", "direction": direction, "words": words, "depth": depth, "discipline": discipline}


def created(kind, *names):
    """Creates these objects."""
    return "".join(f"CREATE_{kind}({name}) -> r, i; " for name in names)


def endless(text):
    """Does this for ever."""
    return f"while 1 {{ {text} }}"


def partition(name, *processes, head="", ports=(), first="", handler="", stack=32, duration=0):
    """A partition whose INIT creates its ports, does what comes first, and creates and starts the processes."""
    made = "".join(created(f"{it['kind']}_PORT", it["name"]) for it in ports) + first
    made += "".join(created("PROCESS", it.name) + it.start for it in processes)
    names = "".join(f" port {it['name']};" for it in ports)
    source = f"{head}{names} init stack {stack} {{ local r; local i; {made} SET_PARTITION_MODE(3) -> r; }}\n{handler}"
    return Partition(name, source + "".join(it.text() for it in processes), ports, duration)


def one(*processes, ticks=100_000, **others):
    """A module of one partition."""
    return Module([partition("a", *processes, **others)], ticks=ticks)


# ---- the named inputs

SUMS = """x := %d; y := x + 2; z := y + x + 3; w := 1; x := x + y + z; y := (x + z) + (w + 5); z := x + (y + (z + 1));
  w := x + y + z + w; x := w + (x + (y + (z + 11))); y := y + z + 2; z := (x + y) + (z + w) + (1 + 2); w := w + 1; x := z + w + y; """


def computing(name, value, rounds, middle, high, pause):
    """Six processes that add, in pairs of which one starts the other at its end: two report then, the others wait after each round."""
    processes = []
    for level, priority, count, wait in (("low", 5, rounds, 0), ("mid", 9, 6, middle), ("high", 20, 8, high)):
        for letter, other in (("a", 2), ("b", 1)):
            body = ""
            for k in range(count):
                store = "work 25;" if k % 3 == 1 else f"m[{k % 4}] := x + w; h := y;"
                body += SUMS % (value + k) + (f"TIMED_WAIT({wait + 17 * k}) -> r; n[{k % 3}] := x + h;" if wait else store)
            report = "m[0] := z; g := g + 1; GET_TIME() -> r, w; m[1] := w; m[2] := g; m[3] := h; REPORT_APPLICATION_MESSAGE(m, 4) -> r;"
            body += f"{f'work {pause};' if wait else report} START({len(processes) // 2 * 2 + other}) -> r;"
            processes.append(Process(f"{level}_{letter}", priority, body, "r x y z w", 32, start="START(i) -> r;" if letter == "a" else ""))
            value += 1
    return partition(name, *processes, head="var g; var h = 3; array m[4]; array n[3];", stack=16)


def busy():
    """Two partitions of six processes compute, and wait now and then."""
    return Module([computing("a", 4, 12, 190, 70, 3), computing("b", 6, 15, 260, 55, 5)], 500)


def messages():
    """Three partitions send messages, also to a device, with most kinds of objects."""

    def task(name, priority, local, body, **others):
        return Process(name, priority, endless(body), local, 64, **others)

    sample = """k := 0; while k < 2 { x := next(x + count); m[0] := count; m[1] := x; m[2] := x % 360; SEND_BUFFER(1, m, 3, 0) -> r;
        if r { missed := missed + 1; } count := (count + 1) % 1000000; k := k + 1; }
      m[3] := missed; WRITE_SAMPLING_MESSAGE(1, m, 4) -> r; SET_EVENT(1) -> r; PERIODIC_WAIT() -> r;"""
    smooth = """RECEIVE_BUFFER(1, f, -1) -> r, n; WAIT_SEMAPHORE(1, -1) -> r; mean := (mean * 3 + f[1] * gain) / 4; f[2] := mean;
      SIGNAL_SEMAPHORE(1) -> r; SEND_QUEUING_MESSAGE(2, f, 3, 100) -> r;"""
    obey = """RECEIVE_QUEUING_MESSAGE(3, o, 2400) -> r, n;
      if r = 0 { WAIT_SEMAPHORE(1, -1) -> r; gain := 1 + o[1] % 5; SIGNAL_SEMAPHORE(1) -> r; }"""
    tune = "WAIT_EVENT(1, -1) -> r; RESET_EVENT(1) -> r; READ_SAMPLING_MESSAGE(4, s) -> r, n, v; if v and r = 0 { missed := s[0]; } work 20;"
    sensor = partition(
        "sensor",
        task("sample", 30, "r x k", sample, period=1200, capacity=1200),
        task("filter", 20, "r n mean", smooth),
        task("obey", 15, "r n", obey),
        task("tune", 5, "r n v", tune),
        head="""var count; var gain = 2; var missed; array m[4]; array f[3]; array o[2]; array s[2]; array c[3];
          semaphore guard 1 1 priority; event fresh; buffer raw 3 4 fifo; proc next(x) { return (x * 75 + 74) % 65537; }""",
        ports=[
            sampling("position", "SOURCE", 4),
            queuing("samples", "SOURCE", 3, 4),
            queuing("orders", "DESTINATION", 2, 4, "PRIORITY"),
            sampling("setting", "DESTINATION", 2, 5000),
        ],
        first=created("SEMAPHORE", "guard") + created("EVENT", "fresh") + created("BUFFER", "raw"),
        stack=64,
        duration=350,
    )
    collect = """RECEIVE_QUEUING_MESSAGE(2, q, -1) -> r, n; sum := (sum + q[2]) % 1000000; seen := (seen + 1) % 1000000;
      a[0] := q[0]; a[1] := q[2]; SEND_BUFFER(1, a, 2, 50) -> r;"""
    decide = """RECEIVE_BUFFER(1, b, -1) -> r, n; thrust_now := (thrust_now + b[1]) / 2;
      DISPLAY_BLACKBOARD(1, b, 2) -> r; SIGNAL_SEMAPHORE(1) -> r;"""
    order = """WAIT_SEMAPHORE(1, -1) -> r; t[0] := thrust_now; SEND_QUEUING_MESSAGE(4, t, 1, 0) -> r;
      o[0] := seen; o[1] := thrust_now; SEND_QUEUING_MESSAGE(3, o, 2, 1200) -> r;"""
    watch = """READ_SAMPLING_MESSAGE(1, p) -> r, n, v; READ_BLACKBOARD(1, report, 0) -> r, n;
      if r = 0 { report[2] := v; REPORT_APPLICATION_MESSAGE(report, 3) -> r; } PERIODIC_WAIT() -> r;"""
    control = partition(
        "control",
        task("collect", 25, "r n", collect),
        task("decide", 15, "r n", decide),
        task("order", 10, "r", order),
        task("watch", 40, "r n v", watch, period=2400, capacity=600, start="DELAYED_START(i, 1300) -> r;"),
        head="""var sum; var seen; var thrust_now; array p[4]; array q[3]; array o[2]; array t[1]; array a[2]; array b[2]; array report[3];
          semaphore slots 0 4 fifo; blackboard state 2; buffer work_list 2 2 priority;""",
        ports=[
            sampling("position", "DESTINATION", 4, 1200),
            queuing("samples", "DESTINATION", 3, 8),
            queuing("orders", "SOURCE", 2, 2, "PRIORITY"),
            queuing("thrust", "SOURCE", 1, 4),
        ],
        first=created("SEMAPHORE", "slots") + created("BLACKBOARD", "state") + created("BUFFER", "work_list"),
        stack=64,
    )
    read = """READ_SAMPLING_MESSAGE(1, p) -> r, n, v; k := 0;
      while k < 3 { line[0] := k; line[1] := p[k]; SEND_BUFFER(1, line, 2, 30) -> r; k := k + 1; } PERIODIC_WAIT() -> r;"""
    draw = """RECEIVE_BUFFER(1, got, -1) -> r, n; sheet[got[0] * 2] := got[0]; sheet[got[0] * 2 + 1] := got[1] % 1000; work 6;
      if got[0] = 2 { SET_EVENT(1) -> r; }"""
    display = partition(
        "display",
        task("read", 20, "r n v k", read, period=1200),
        task("draw", 10, "r n", draw),
        task("send", 5, "r", "WAIT_EVENT(1, 2000) -> r; RESET_EVENT(1) -> r; WRITE_SAMPLING_MESSAGE(2, sheet, 8) -> r;"),
        head="array p[4]; array sheet[8]; array line[2]; array got[2]; buffer lines 2 4 fifo; event drawn;",
        ports=[sampling("position", "DESTINATION", 4, 1200), sampling("page", "SOURCE", 8)],
        first=created("BUFFER", "lines") + created("EVENT", "drawn"),
        stack=64,
    )
    channels = [
        ("position", "sensor.position", ["control.position", "display.position"]),
        ("samples", "sensor.samples", ["control.samples"]),
        ("orders", "control.orders", ["sensor.orders"]),
        ("thrust", "control.thrust", ["DEVICE"]),
        ("page", "display.page", ["DEVICE"]),
        ("setting", "DEVICE", ["sensor.setting"]),
    ]
    lines = "".join(f"{1000 + 5000 * i} MSG setting {i} {i * i}\n" for i in range(40))
    windows = [("sensor", 250), ("control", 350), ("sensor", 250), ("display", 350)]
    return Module([sensor, control, display], windows, channels=channels, devices=lines)


def processes():
    """31 processes in each of 16 partitions yield in turn."""
    body = endless("g := g + 1; work %d; TIMED_WAIT(0) -> r; if g > 1000000 { g := 0; }")
    adding = [Process(f"q{i + 1:02}", 5, body % (3 + i % 5), stack=24) for i in range(31)]
    return Module([partition(f"p{i:02}", *adding, head="var g;") for i in range(1, 17)], 100)


def due():
    """One of 31 processes is due in nearly each tick."""
    return one(*(Process(f"q{i + 1:02}", 5 + i, endless(f"TIMED_WAIT({20 + 3 * i}) -> r;"), stack=24) for i in range(31)))


def windows64():
    """32 partitions share 64 windows of seven ticks."""
    return with_windows(64)


def semaphores():
    """A process signals 16 semaphores, and one waits for each."""
    names = [f"s{i}" for i in range(1, 17)]
    waits = [Process(f"w{i}", 10 + i, endless(f"WAIT_SEMAPHORE({i}, -1) -> r;")) for i in range(1, 17)]
    signals = Process("g", 5, endless(" ".join(f"SIGNAL_SEMAPHORE({i}) -> r;" for i in range(1, 17))))
    head = "".join(f"semaphore {name} 0 4 priority; " for name in names)
    return one(*waits, signals, head=head, first=created("SEMAPHORE", *names), ticks=50_000)


def buffers1():
    """A process sends one word to a buffer, and another receives it."""
    sends = Process("p", 5, endless("SEND_BUFFER(1, m, 1, 0) -> r;"))
    receives = Process("q", 6, endless("RECEIVE_BUFFER(1, k, -1) -> r, n;"), "r n")
    return one(sends, receives, head="array m[64]; array k[64]; buffer b 1 32 fifo;", first=created("BUFFER", "b"))


def restart():
    """A partition of 31 processes starts again and again."""
    return one(*(Process(f"q{i}", 5, "SET_PARTITION_MODE(2) -> r;") for i in range(1, 32)), head="array m[2000];")


def lock():
    """Two processes lock preemption and unlock it."""
    often = Process("p", 5, endless("LOCK_PREEMPTION() -> r, l; x := x + 1; UNLOCK_PREEMPTION() -> r, l;"), "r l x")
    seldom = Process("q", 6, endless("LOCK_PREEMPTION() -> r, l; UNLOCK_PREEMPTION() -> r, l; TIMED_WAIT(40) -> r;"), "r l")
    return one(often, seldom, Process("s", 7, endless("TIMED_WAIT(25) -> r;")))


def handler():
    """An error handler reads the errors of two processes."""
    text = "handler stack 48 { local r; local c; local f; local n; r := 0; while r = 0 { GET_ERROR_STATUS(e) -> r, c, f, n; } }\n"
    often = Process("p", 5, endless("e[1] := 9; RAISE_APPLICATION_ERROR(1, e, 4) -> r; x := 1 / z;"), "r x z")
    seldom = Process("q", 6, endless("RAISE_APPLICATION_ERROR(1, e, 64) -> r; TIMED_WAIT(20) -> r;"))
    return one(often, seldom, head="array e[64];", first="CREATE_ERROR_HANDLER() -> r; ", handler=text)


def loops():
    """A process computes in three nested loops."""
    body = "s := s + i * j - k;"
    for name, count in (("k", 20), ("j", 50), ("i", 50)):
        body = f"{name} := 0; while {name} < {count} {{ {body} {name} := {name} + 1; }}"
    return one(Process("p", 5, endless(f"{body} s := 0; h := h + 1;"), "i j k s"), head="var h;")


def calls():
    """Two processes call functions that call others."""
    head = """var h; proc leaf(a, b) { return a * 3 + b; }
      proc mid(a, b, c) { local t; t := leaf(a, b); return t + leaf(b, c) % 1000; }
      proc top(a) { local s; local i; while i < 4 { s := s + mid(i, a, s % 97); i := i + 1; } return s % 100000; }"""
    often = Process("p", 5, endless("x := top(x % 1000); h := h + x % 7;"), "x")
    return one(often, Process("q", 10, endless("x := top(x % 100); TIMED_WAIT(2000) -> r;"), "x r"), head=head)


def idle():
    """Two partitions only let time pass."""
    works = Process("p", 5, endless("work 1000000;"), "", 16)
    return Module([partition(name, works, stack=16) for name in "ab"], 1_000_000, ticks=10_000_000)


def waiting():
    """Two partitions wait, and one gets a message."""
    receives = Process("w", 5, endless("RECEIVE_QUEUING_MESSAGE(1, m, -1) -> r, k; REPORT_APPLICATION_MESSAGE(m, k) -> r;"), "r k", 24)
    waits = Process("w", 5, "WAIT_EVENT(1, -1) -> r;", stack=24)
    return Module(
        [
            partition("a", receives, head="array m[2];", ports=[queuing("in", "DESTINATION", 2, 4)], duration=400),
            partition("b", waits, head="event e;", first=created("EVENT", "e"), duration=400),
        ],
        [("a", 450), ("", 50), ("b", 450), ("", 50)],
        ticks=10_000_000,
        channels=[("c", "DEVICE", ["a.in"])],
        devices="1000000 MSG c 7 8\n",
    )


# INIT of the wild partition asks for the time and reports it for ever; each round ends in a report that is refused.
WILD = """
SVC 20              # GET_TIME
STL 0
STL 0
PUSH 0              # an array that starts before the data
PUSH 90
PUSH 90
SVC 54              # REPORT_APPLICATION_MESSAGE
STL 0
JMP 0
"""


def hostile():
    """A partition runs wild code, and another computes."""
    wild = partition("wild", first="GET_TIME() -> r, i; " * 3)
    return Module([wild, computing("a", 4, 12, 190, 70, 3)], [("wild", 300), ("a", 700)], wild=("wild", WILD))


NAMED = (busy, messages, processes, due, windows64, semaphores, buffers1, restart, lock, handler, loops, calls, idle, waiting, hostile)
INPUTS = {it.__name__: it for it in NAMED}


# ---- modules of any size


def yielding(name, count):
    """A partition of so many processes of one priority that add, work a little and yield."""
    body = endless("g := (g + 1) %% 1000000; work %d; TIMED_WAIT(0) -> r;")
    return partition(name, *(Process(f"q{i + 1:02}", 5, body % (3 + i % 8)) for i in range(count)), head="var g;")


def with_processes(count):
    """One partition of so many processes that yield in turn."""
    return Module([yielding("a", count)])


def with_partitions(count):
    """So many partitions of one process that yields."""
    return Module([yielding(f"p{i:02}", 1) for i in range(1, count + 1)], 100)


def with_windows(count):
    """So many windows of seven ticks, for up to 32 partitions of two processes that yield in turn."""
    names = [f"p{i:02}" for i in range(1, min(count, 32) + 1)]
    return Module([yielding(name, 2) for name in names], [(names[i % 32], 7) for i in range(count)], ticks=20_000)


def with_ports(count):
    """One partition with so many sampling ports that are written in each frame, and one that gets them all."""
    names = [f"s{i:02}" for i in range(1, count + 1)]
    ends = [[sampling(name, direction, 1) for name in names] for direction in ("SOURCE", "DESTINATION")]
    writes = " ".join(f"WRITE_SAMPLING_MESSAGE({i}, m, 1) -> r;" for i in range(1, count + 1))
    writer = Process("p", 5, endless(f"{writes} PERIODIC_WAIT() -> r;"), period=1000, capacity=1000)
    partitions = [partition("a", writer, head="array m[1];", ports=ends[0]), partition("b", ports=ends[1])]
    return Module(partitions, 500, channels=[(name, f"a.{name}", [f"b.{name}"]) for name in names])


def with_lines(every):
    """One partition that works, and a line of the devices in each of so many ticks."""
    works = partition("a", Process("p", 5, endless("work 1000;")), ports=[sampling("in", "DESTINATION", 1)])
    lines = "".join(f"{tick} MSG c {tick}\n" for tick in range(0, 200_000, every)) if every else ""
    return Module([works], channels=[("c", "DEVICE", ["a.in"])], devices=lines)


GROWTH = {
    "processes of a partition": (with_processes, (1, 2, 4, 8, 16, 31)),
    "partitions": (with_partitions, (1, 2, 4, 8, 16)),
    "windows a frame": (with_windows, (1, 2, 4, 8, 16, 32, 64)),
    "ports that are written in each frame": (with_ports, (1, 2, 4, 8, 16)),
    "ticks between two lines of the devices": (with_lines, (0, 1000, 100, 10, 4)),
}
