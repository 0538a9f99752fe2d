"""Random module tables that keep the rules."""

import json
from dataclasses import dataclass

from model import COST_KEYS, ERRORS, MODULE_ACTIONS, PARTITION_ACTIONS, WRITTEN_COSTS

# The stages, each with all that those before it have.
FIRST, PREEMPTION, WINDOWS, WHOLE_PAL, PROCESSES, OBJECTS, PORTS, HEALTH, COSTS, LARGE = range(10)
STAGES = ("first", "preemption", "windows", "pal", "processes", "objects", "ports", "health", "costs", "large")


@dataclass
class Limits:
    """How large a module may be: those of a version, or smaller."""

    partitions: int = 4
    processes: int = 6
    words: int = 4


def small(random, stage):
    if stage < LARGE:
        partitions = 1 if stage < WINDOWS else random.choice((1, 2, 2, 3, 4))
        return Limits(partitions, 1 if stage == FIRST else random.randint(1, 6), random.choice((1, 2, 4)))
    partitions = random.choice((1, 2, 3, 5, 16, 17, 32))
    return Limits(partitions, random.choice((8, 31, 32, 63)) if partitions <= 5 else random.choice((2, 4)), random.choice((16, 17, 64)))


class TableMaker:
    def __init__(self, random, stage, size):
        self.random, self.stage, self.size = random, stage, size
        self.count = size.partitions
        self.names = random.sample([f"{word}{n}" for word in ("a", "fly_", "p", "part") for n in range(32)], self.count)
        self.ports = [[] for _ in range(self.count)]
        self.channels = []

    def document(self):
        self.make_windows()
        if self.stage >= PORTS:
            self.make_channels()
        document = {"frame": self.frame, "fault": self.action(MODULE_ACTIONS)}
        if self.stage >= COSTS and self.random.random() < 0.8:
            document["cost"] = self.costs()
        document["partition"] = [self.partition(n) for n in range(self.count)]
        document["window"] = self.windows
        if self.channels or self.random.random() < 0.1:
            document["channel"] = self.channels
        return document

    def action(self, words):
        return self.random.choice(words) if self.stage >= HEALTH else "IGNORE"

    def costs(self):
        most = self.random.choice((3, 12, 1000))
        return {key: self.random.randint(1, most) if self.random.random() < 0.5 else WRITTEN_COSTS[key] for key in COST_KEYS}

    # ---- windows

    def make_windows(self):
        random = self.random
        if self.stage < WINDOWS:
            self.frame = random.choice((16, 64, 128, 500))
            self.windows = [self.window(0, 0, self.frame, True)]
            self.periods = [self.frame]
            return
        self.periods = [random.choice((16, 24, 32, 48, 64, 96)) for _ in range(self.count)]
        self.frame = self.common(self.periods) * random.choice((1, 1, 2))
        owners = list(range(self.count)) + [random.randrange(self.count) for _ in range(random.randint(0, min(60 - self.count, 6)))]
        random.shuffle(owners)
        cuts = sorted(random.sample(range(self.frame + 1), min(2 * len(owners), self.frame // 2 * 2)))
        if random.random() < 0.5:
            cuts = self.adjoining(len(owners))
        self.windows = [self.window(it, cuts[2 * n], cuts[2 * n + 1], random.random() < 0.7) for n, it in enumerate(owners)]
        for n in range(self.count):
            own = [it for it in self.windows if it["partition"] == self.names[n]]
            own[0]["release"] = True

    def adjoining(self, count):
        """Places of windows that follow directly on one another."""
        inner = sorted(self.random.sample(range(1, self.frame), count - 1))
        edges = [0, *inner, self.frame]
        return [it for pair in zip(edges, edges[1:]) for it in pair]

    def common(self, periods):
        frame = 192
        return frame if all(frame % it == 0 for it in periods) else 192 * 2

    def window(self, owner, begin, end, release):
        return {"partition": self.names[owner], "offset": begin, "length": end - begin, "release": release}

    def offered(self, n):
        own, period = [it for it in self.windows if it["partition"] == self.names[n]], self.periods[n]
        ticks = [0] * (self.frame // period)
        for it in own:
            for tick in range(it["offset"], it["offset"] + it["length"]):
                ticks[tick // period] += 1
        return min(ticks)

    # ---- ports and channels

    def make_channels(self):
        for n in range(self.random.randint(1, 4 + self.count)):
            self.channel(f"c{n}")
        for n in range(self.count):
            while self.random.random() < 0.3 and len(self.ports[n]) < 16:
                kind = self.random.choice(("SAMPLING", "QUEUING"))
                self.port(n, kind, self.random.choice(("SOURCE", "DESTINATION")), self.random.randint(1, self.size.words))

    def port(self, n, kind, direction, words):
        """A new port of the partition; its end."""
        random = self.random
        port = {"name": f"{kind[0].lower()}{len(self.ports[n])}", "kind": kind, "direction": direction, "words": words}
        if kind == "SAMPLING":
            port["refresh"] = random.choice((0, 5, 100, 2**40))
        else:
            port["depth"], port["discipline"] = random.choice((1, 2, 3, 32)), random.choice(("FIFO", "PRIORITY"))
        self.ports[n].append(port)
        return f"{self.names[n]}.{port['name']}"

    def channel(self, name):
        random = self.random
        kind, words = random.choice(("SAMPLING", "QUEUING")), random.randint(1, self.size.words)
        free = [n for n in range(self.count) if len(self.ports[n]) < 14]
        source = random.choice([*free, None]) if free else None
        others = [n for n in free if n != source]
        count = 1 if kind == "QUEUING" else random.randint(1, 3)
        chosen = [random.choice(others) for _ in range(count)] if others else []
        ends = [self.port(n, kind, "DESTINATION", words) for n in chosen]
        if source is not None and (not ends or random.random() < 0.3):
            ends = ["DEVICE"] if kind == "QUEUING" else [*ends, "DEVICE"]
        if ends:
            start = "DEVICE" if source is None else self.port(source, kind, "SOURCE", words)
            self.channels.append({"name": name, "source": start, "destinations": ends})

    def partition(self, n):
        offered = min(self.offered(n), self.periods[n])
        row = {"name": self.names[n], "period": self.periods[n], "duration": self.random.choice((0, offered, self.random.randint(0, offered)))}
        row["hm"] = {it: self.action(PARTITION_ACTIONS) for it in ERRORS}
        if self.stage >= HEALTH and self.random.random() < 0.5:
            row["hm"] = dict.fromkeys(ERRORS, "IGNORE")
        if self.ports[n] or self.random.random() < 0.1:
            row["port"] = self.ports[n]
        return row


# ---- the text, in one of several ways to write it


def value_text(random, value):
    if isinstance(value, dict):
        items, way = [f"{key} = {value_text(random, it)}" for key, it in value.items()], random.random()
        if way < 0.9 or not items:
            return "{ " + ", ".join(items) + " }"
        return "{\n  " + (", # a comment\n  " if way < 0.95 else ",\n").join([*items, ""]) + "}"
    if isinstance(value, list):
        return "[" + ", ".join(value_text(random, it) for it in value) + "]"
    if isinstance(value, str) and random.random() < 0.1:
        return random.choice((f"'{value}'", f'"""{value}"""', f'"\\x{ord(value[0]):02x}{value[1:]}"', f"\'\'\'\n{value}\'\'\'"))
    return json.dumps(value)


def table_text(random, document):
    if random.random() < 0.15:
        return "\n".join(f"{key} = {value_text(random, it)}" for key, it in shuffled(random, document)) + "\n"
    lines = key_lines(random, document, ("frame", "fault"))
    if "cost" in document:
        lines += ["[cost]", *key_lines(random, document["cost"], COST_KEYS)]
    for key in ("partition", "window", "channel"):
        for row in document.get(key, []):
            lines += row_lines(random, key, row)
    return "\n".join(lines) + "\n"


def row_lines(random, key, row):
    later = [name for name in ("hm", "port") if name in row and random.random() < 0.8]
    lines = [f"[[{key}]]", *key_lines(random, row, [name for name in row if name not in later])]
    if "hm" in later:
        lines += [f"[{key}.hm]", *key_lines(random, row["hm"], ERRORS)]
    if "port" in later:
        for port in row["port"]:
            lines += [f"[[{key}.port]]", *key_lines(random, port, port)]
    return lines


def key_lines(random, table, keys):
    return [f"{key} = {value_text(random, it)}" for key, it in shuffled(random, table) if key in keys]


def shuffled(random, table):
    items = list(table.items())
    if random.random() < 0.3:
        random.shuffle(items)
    return items
