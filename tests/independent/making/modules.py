"""Random modules: a table, its sources, a device text and the ticks of a run."""

import re
from dataclasses import dataclass, replace
from random import Random

from making.sources import SourceMaker
from making.tables import HEALTH, PORTS, STAGES, TableMaker, small, table_text


@dataclass
class MadeModule:
    table: bytes
    sources: list
    devices: bytes
    ticks: int
    stage: int


def make_module(seed, number, stage=None, size=None):
    """The module of this seed and number. Without a stage they take turns, the later ones more often."""
    random = Random(f"{seed}/{number}")
    if stage is None:
        stage = number % 10 if random.random() < 0.5 else random.randint(PORTS, len(STAGES) - 1)
    size = size or small(random, stage)
    document = TableMaker(random, stage, size).document()
    rows = document["partition"]
    sources = [SourceMaker(random, stage, size, it["period"], it.get("port", [])).source() for it in rows]
    ticks = run_length(random, document, sources)
    devices = device_text(random, stage, document, ticks)
    return MadeModule(table_text(random, document).encode(), [it.encode() for it in sources], devices, ticks, stage)


def run_length(random, document, sources):
    """Ticks in which most partitions can come to NORMAL, or sometimes fewer."""
    if random.random() < 0.05:
        return random.choice((0, 1, 2, 100))
    most = max(it.count("CREATE_") for it in sources)
    share = document["frame"] / sum(it["length"] for it in document["window"])
    ticks = (random.choice((500, 1500, 3000)) + 20 * most) * min(len(sources), 12) * share
    if "cost" in document:
        ticks *= min(10, 1 + max(document["cost"].values()) / 50)
    return min(int(ticks), 30_000)


def words_of(document, channel):
    partition, port = channel["destinations"][0].split(".")
    row = next(it for it in document["partition"] if it["name"] == partition)
    return next(it["words"] for it in row["port"] if it["name"] == port)


def device_text(random, stage, document, ticks):
    channels = [it for it in document.get("channel", []) if it["source"] == "DEVICE"]
    forms = [lambda: message(random, document, channels)] * 6 if channels else []
    if stage >= HEALTH:
        names = [it["name"] for it in document["partition"]]
        forms += [lambda: f"FAULT {random.choice(names)}"] + ([lambda: "FAULT"] if random.random() < 0.4 else [])
    if not forms:
        return b""
    times = sorted(random.randrange(ticks + 5) for _ in range(random.choice((0, 1, 5, 20))))
    if random.random() < 0.3:
        times = sorted(random.choice(times) for _ in times)
    return "".join(f"{tick} {random.choice(forms)()}\n" for tick in times).encode()


def message(random, document, channels):
    channel = random.choice(channels)
    count = random.randint(1, words_of(document, channel))
    return f"MSG {channel['name']} " + " ".join(str(random.choice((0, -1, 5, 77, 2**63 - 1, -(2**63)))) for _ in range(count))


# ---- long quiet stretches

TIMED = (
    "TIMED_WAIT|SUSPEND_SELF|REPLENISH|DELAYED_START|WAIT_SEMAPHORE|WAIT_EVENT|SEND_BUFFER|RECEIVE_BUFFER|READ_BLACKBOARD"
    "|SEND_QUEUING_MESSAGE|RECEIVE_QUEUING_MESSAGE"
)


def stretched(random, made):
    """The module with other times: windows, periods, waits, work, the gaps between device lines and the run are some times as long."""
    factor = random.choice((7, 60, 500))

    def longer(found):
        more = random.choice((0, random.randrange(factor)))
        return f"{found[1]}{min(2**40, int(found[2]) * factor + more) if random.random() < 0.8 else found[2]}{found[3]}"

    def exactly(found):
        return f"{found[1]}{int(found[2]) * factor}"

    table = re.sub(r"\b((?:frame|period|duration|offset|length) = )(\d+)", exactly, made.table.decode())
    sources = [re.sub(r"\b(period )(\d+)", exactly, it.decode()) for it in made.sources]
    sources = [re.sub(rf"\b((?:(?:{TIMED})\((?:[^();]*, )?|capacity ))(\d+)(\)| )", longer, it) for it in sources]
    sources = [re.sub(r"\b(work )(\d+)(;)", lambda found: longer(found) if factor < 500 else found[0], it) for it in sources]
    devices = re.sub(r"(?m)^()(\d+)", exactly, made.devices.decode())
    ticks = min(made.ticks * factor, 300_000)
    return replace(made, table=table.encode(), sources=[it.encode() for it in sources], devices=devices.encode(), ticks=ticks)
