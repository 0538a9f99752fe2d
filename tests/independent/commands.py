"""The commands, as `mb` has them, over the files of a folder (COMMANDS.md)."""

import functools
import sys
from pathlib import Path

import limits
from compiler import Compiler, build
from device_text import read_devices, read_inputs
from image import NEWEST, load_image, write_image
from kernel.partition import Partition
from meaning import SourceEngine
from module import LonePartition, Module, Trace
from named import NamedState
from pal.grammar import number_of
from pal.judge import objects_of, process_rows, read_source
from processor import INSTRUCTIONS, Machine, ticks_of
from refusal import Refusal
from state import State, json_row, text_row
from table import read_table

# An expression of 64 levels is read by some thousand calls within each other.
sys.setrecursionlimit(20_000)


@functools.lru_cache(maxsize=1)
def accept(table, *sources):
    """The table and the programs, judged in their order. The last ones are kept, since most are asked for more than once."""
    table = read_table(table)
    if len(sources) != len(table.partitions):
        raise Refusal("sources")
    return table, [read_source(data, row) for data, row in zip(sources, table.partitions)]


def build_image(table, sources):
    return write_image(build(*accept(table, *sources)))


class MeaningRoad:
    """Runs a module by the meaning of its sources."""

    def __init__(self, table, *sources):
        self.table, self.programs = accept(table, *sources)
        build(self.table, self.programs)  # only for its refusal

    def make(self, number, schedule, trace):
        program, row = self.programs[number - 1], self.table.partitions[number - 1]
        engine = SourceEngine(program, row.ports, self.table.costs)
        return Partition(number, row, objects_of(program), process_rows(program), program.handler is not None, engine, schedule, trace)


class MachineRoad:
    """Runs an image."""

    def __init__(self, image):
        self.image = load_image(image)
        self.table = self.image.table

    def make(self, number, schedule, trace):
        section, row = self.image.sections[number - 1], self.table.partitions[number - 1]
        processes, engine = [it for it, _ in section.processes], Machine(section, self.table.costs)
        return Partition(number, row, section.objects, processes, section.handler is not None, engine, schedule, trace)


# What the comparison shows of a command that has found nothing: the status 3, and no output.
NOTHING_FOUND = b"status 3: b'' b''"


def begins_with(words, asked):
    """Whether these words of a row begin with those that are asked for."""
    if not asked:
        return True
    if asked[0] == "..":
        return any(begins_with(words[n:], asked[1:]) for n in range(len(words) + 1))
    return bool(words) and asked[0] in ("_", words[0]) and begins_with(words[1:], asked[1:])


def has_row(rows, asked):
    """Whether a row of a partition begins with these words."""
    return any(begins_with(row.split(), asked) for row in rows if not row.startswith("- "))


@functools.lru_cache(maxsize=2)
def road_of(*files):
    """That of an image, or that of a table and its sources."""
    return MachineRoad(*files) if len(files) == 1 else MeaningRoad(*files)


class Folder:
    """The commands over the files of a folder. In place of an image there may be a table and its sources, with commas between them."""

    def __init__(self, path="."):
        self.path, self.kept = Path(path), None

    def read(self, name):
        try:
            return (self.path / name).read_bytes()
        except OSError:
            raise Refusal(f"file {name}") from None

    def write(self, name, data):
        (self.path / name).write_bytes(data)
        return len(data)

    def answer(self, words):
        """What the command prints, or the line of its refusal."""
        command, *words = words
        try:
            return COMMANDS[command](self, *words)
        except Refusal as why:
            return f"mb: {why.words}\n".encode("ascii")

    def check(self, table, *sources):
        build_image(self.read(table), [self.read(it) for it in sources])
        return b"accepted\n"

    def build(self, table, image, *sources):
        return b"built %d bytes\n" % self.write(image, build_image(self.read(table), [self.read(it) for it in sources]))

    def upgrade(self, old, new):
        image = load_image(self.read(old))
        image.version = NEWEST
        return b"upgraded %d bytes\n" % self.write(new, write_image(image))

    # ---- runs

    def begin(self, image, text, ticks):
        """The files are read first; then the ticks are judged, and then the image."""
        *files, text = [self.read(it) for it in [*image.split(","), text]]
        if number_of(ticks) > limits.LONGEST_TIME:
            raise Refusal("ticks")
        return road_of(*files), text, number_of(ticks)

    def run(self, image, devices, ticks):
        road, devices, ticks = self.begin(image, devices, ticks)
        trace = Trace()
        Module(road.table, road.make, read_devices(devices, road.table), trace).run(ticks)
        return trace.text()

    def inputs(self, image, partition, devices, ticks):
        road, devices, ticks = self.begin(image, devices, ticks)
        number = number_of_partition(road.table, partition)
        module = Module(road.table, road.make, read_devices(devices, road.table), Trace(), watched=number)
        module.run(ticks)
        if len(module.inputs) > limits.LINES:
            raise Refusal("inputs")
        return "".join(module.inputs).encode("ascii")

    def state(self, *words):
        form, only, every, is_named, until, files = text_row, None, None, False, [], []
        words = iter(words)
        for word in words:
            if word == "--json":
                form = json_row
            elif word == "--partition":
                only = next(words)
            elif word == "--every":
                every = number_of(next(words))
            elif word.startswith("--until="):
                until.append(word.removeprefix("--until="))
            elif word == "--sources":
                is_named = True
            else:
                files.append(word)
        if is_named or len(files) > 3:
            return self.named_state(form, only, *files)
        road, devices, tick = self.begin(*files)
        number = None if only is None else number_of_partition(road.table, only)
        read_devices(devices, road.table)
        if until:
            found = (n for n in range(tick + 1) if has_row(State(self.module_before(road, devices, n), n, number).rows, until))
            ticks = [next(found, None)]
        else:
            ticks = [tick] if every is None else range(0, tick + 1, every)
        if ticks == [None]:
            return NOTHING_FOUND
        return b"".join(State(self.module_before(road, devices, n), n, number, form).text() for n in ticks)

    def named_state(self, form, only, table, devices, tick, *sources):
        """The table and the sources are read and built first; then the device text is read, and then the tick is judged."""
        table, sources = self.read(table), [self.read(it) for it in sources]
        road = road_of(build_image(table, sources))
        devices, tick = self.read(devices), number_of(tick)
        if tick > limits.LONGEST_TIME:
            raise Refusal("ticks")
        number = None if only is None else number_of_partition(road.table, only)
        return NamedState(self.module_before(road, devices, tick), tick, sources, number, form).text()

    def module_before(self, road, devices, tick):
        """The module after so many ticks: that of the command before, if it is not past this tick."""
        if self.kept is None or self.kept[:2] != (road, devices) or self.kept[2].now > tick:
            self.kept = road, devices, Module(road.table, road.make, read_devices(devices, road.table), Trace())
        self.kept[2].run(tick)
        return self.kept[2]

    def replay(self, image, partition, text, ticks):
        road, text, ticks = self.begin(image, text, ticks)
        number, trace = number_of_partition(road.table, partition), Trace()
        lines = read_inputs(text, road.table.partitions[number - 1])
        LonePartition(road.table, number, road.make, lines, trace).run(ticks)
        return trace.text()

    # ---- listings

    def dis(self, image):
        image, lines = load_image(self.read(image)), []
        for row, section in zip(image.table.partitions, image.sections):
            lines.append(f"partition {row.name}\n")
            lines += [f"{n:05d} {name_of(opcode)} {x} {v}\n" for n, (opcode, x, v) in enumerate(section.code)]
        return "".join(lines).encode("ascii")

    def cost(self, table, *sources):
        table, programs = accept(*map(self.read, [table, *sources]))
        lines = [line for row, program in zip(table.partitions, programs) for line in cost_lines(row, program, table.costs)]
        return "".join(lines).encode("ascii")


COMMANDS = {
    "check": Folder.check, "build": Folder.build, "upgrade": Folder.upgrade, "run": Folder.run, "inputs": Folder.inputs,
    "state": Folder.state, "replay": Folder.replay, "dis": Folder.dis, "cost": Folder.cost,
}


def number_of_partition(table, name):
    number = table.number_of(name)
    if number is None:
        raise Refusal("partition")
    return number


def name_of(opcode):
    return INSTRUCTIONS[opcode].name if opcode in INSTRUCTIONS else f"?{opcode}"


def cost_lines(row, program, costs):
    section = Compiler(program, row.ports).section()
    names = [it.name.text if it.name else "HANDLER" for it in [*program.runners(), *program.of_kind("proc")]]
    bodies = [*section.bodies(), *section.routines]
    ends = [*(it.entry for it in bodies[1:]), len(section.code)]
    for name, body, end in zip(["INIT", *names[1:]], bodies, ends):
        code = section.code[body.entry : end]
        total = sum(ticks_of(it, costs) for it in code)
        yield f"{row.name} {name} instructions {len(code)} frame {body.frame} cost {total}\n"
