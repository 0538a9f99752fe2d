"""The modules of which `shares` and `drawn` compare what is shown with what the kernel did."""

import sys
from dataclasses import dataclass
from pathlib import Path

sys.dont_write_bytecode = True
ROOT = Path(__file__).resolve().parent.parent.parent
sys.path.insert(0, str(ROOT / "tests/independent"))
from commands import MachineRoad, MeaningRoad, build_image  # noqa: E402
from image import load_image, write_image  # noqa: E402
from making.modules import make_module  # noqa: E402
from model import ERRORS, MODULE_ACTIONS, PARTITION_ACTIONS  # noqa: E402
from processor import OPCODES  # noqa: E402
from refusal import Refusal  # noqa: E402

# A folder, its table, its sources in the order of their partitions, its device text or the text itself, and for how many ticks the module runs.
STARTS = "tests/views/starts"
RUNS = [
    ("examples/air_data", "table.toml", "left right standby voter", "devices.txt", 1500),
    ("examples/fault_contained", "table.toml", "flight fuel cabin", "devices.txt", 1800),
    ("examples/fault_contained", "table.toml", "flight fuel_without_fault cabin", "devices.txt", 1800),
    ("examples/isolation", "table.toml", "sensor monitor", "devices.txt", 2900),
    ("examples/modes", "table.toml", "logbook neighbour", "devices.txt", 950),
    ("examples/rate_groups", "table.toml", "control", "devices.txt", 5000),
    ("examples/shared_resource", "table.toml", "control", "devices.txt", 500),
    ("examples/shared_resource", "table.toml", "control_with_lock", "devices.txt", 500),
    ("examples/telemetry", "table.toml", "sensors radio", "devices.txt", 2400),
    ("examples/two_processors", "table.toml", "control", "devices.txt", 1200),
    ("examples/two_processors", "table_slow.toml", "control", "devices.txt", 1200),
    ("tests/views/trial", "table.toml", "control display monitor", "devices.txt", 5930),
    (STARTS, "idle.toml", "late", "", 80),
    (STARTS, "cold.toml", "late", "", 52),
    (STARTS, "idle.toml", "late", "40 FAULT a\n", 80),
    (STARTS, "idle.toml", "late", "40 FAULT\n", 41),
    (STARTS, "cold.toml", "divides", "", 100),
    (STARTS, "idle.toml", "again", "", 100),
    (STARTS, "idle.toml", "yields", "", 100),
]

# The modules of `errors`: each error of a process or a partition with each action, and a fault of the module with each. The first fault comes where
# `p` is RUNNING and another partition has the window, the last one where it works, if what was done before let it begin again.
ERROR_TICKS = 500
FAULTS = "50 FAULT{0}\n150 FAULT{0}\n224 FAULT{0}\n"


@dataclass
class Run:
    """A module with the inputs of its run, and a piece of a line that its trace must have."""

    name: str
    road: object
    table: bytes
    devices: bytes
    ticks: int
    line: str = ""


def runs(seed, modules):
    """The modules that are written, those of the errors, and so many random ones that are accepted and run for a tick at least."""
    yield from written_runs()
    yield from error_runs()
    for number in range(modules):
        made = make_module(seed, number)
        if not made.ticks:
            continue
        try:
            road = MeaningRoad(made.table, *made.sources)
        except Refusal:
            continue
        yield Run(f"random module {number}", road, made.table, made.devices, made.ticks)


def written_runs():
    for folder, table, sources, devices, ticks in RUNS:
        read = lambda name: (ROOT / folder / name).read_bytes()  # noqa: E731
        text = read(devices) if devices.endswith(".txt") else devices.encode()
        rows = read(table)
        road = MeaningRoad(rows, *(read(f"{it}.pal") for it in sources.split()))
        yield Run(f"{folder} {table} {sources} {devices.strip()}", road, rows, text, ticks)


def error_runs():
    for error in ERRORS:
        devices = FAULTS.format(" a") if error == "HARDWARE_FAULT" else ""
        for action in PARTITION_ACTIONS:
            yield error_run(error, f'{error} = "', action, devices, f" a HM {error} ")
    for action in MODULE_ACTIONS:
        yield error_run("HARDWARE_FAULT", 'fault = "', action, FAULTS.format(""), " - HM HARDWARE_FAULT - MODULE ")


def error_run(source, key, action, devices, line):
    """The module of a source, with this action in the first row of the table that begins so."""
    folder = ROOT / "tests/views/errors"
    table = (folder / "table.toml").read_text().replace(f'{key}IGNORE"', f'{key}{action}"', 1).encode()
    sources = [(folder / f"{it}.pal").read_bytes() for it in (source, "b")]
    road = without_work(table, sources) if source == "ILLEGAL_REQUEST" else MeaningRoad(table, *sources)
    return Run(f"{line.strip()} {action}", road, table, devices.encode(), ERROR_TICKS, line)


def without_work(table, sources):
    """Runs the image of these sources, with an instruction that there is not in the place of each `WORK 15`."""
    image = load_image(build_image(table, sources))
    for section in image.sections:
        section.code = [(len(OPCODES) + 1, 0, 0) if it == (OPCODES["WORK"], 0, 15) else it for it in section.code]
    return MachineRoad(write_image(image))
