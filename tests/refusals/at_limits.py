"""Inputs at half of each limit and at the limit, through every command that takes memory: none of them may lack it.

`LIMITS` names the limits. Those with rows in `tests/rows` take their modules from there, and the others are made here.
`name_limits` sees that each constant of `crates/apex_types/src/limits.rt` is named.
"""

import re
import tempfile
from dataclasses import dataclass
from pathlib import Path

import calls
import images
import trial
from trial import Answer, Told

ROOT = calls.ROOT
FILE_ROWS = ROOT / "tests/rows"
TABLE = (calls.ROWS / "smallest/table").read_text()
SMALLEST = (calls.ROWS / "smallest/source").read_text()
SMALLEST_TRACE = (calls.ROWS / "smallest/trace").read_text()
# The image that is kept is of version 1. What is built has costs, of two bytes each.
SMALLEST_BYTES = (calls.ROWS / "smallest/image").stat().st_size + 2 * images.COSTS
PORT = 'name = "p"\nkind = "SAMPLING"\ndirection = "DESTINATION"\nwords = 1\nrefresh = 0\n'
PORT_TABLE = TABLE.replace("[[window]]", f"[[partition.port]]\n{PORT}\n[[window]]")
PORT_TABLE += '\n[[channel]]\nname = "c"\nsource = "DEVICE"\ndestinations = ["a.p"]\n'
STARTING = "init stack 64 { local r; local i; CREATE_PROCESS(p) -> r, i; START(i) -> r; SET_PARTITION_MODE(3) -> r; }\n"
HANDLER = (FILE_ROWS / "handler/11/source").read_text()


@dataclass(frozen=True)
class Input:
    """A module, what comes to it, for how many ticks it is run, and its trace; or what the trace has to show, and how often."""

    name: str
    table: str
    sources: tuple
    devices: str
    ticks: int
    trace: str | None = None
    shown: tuple = ()
    image_bytes: int | None = None
    # The refusals, by command, of what is beyond the limit.
    refused: tuple = ()


def instructions(number):
    """INIT does nothing for all of its time but for its last four instructions, of which the service ends in this tick."""
    source = "init stack 16 { local r;\n" + "work 1;\n" * (number - 4) + "SET_PARTITION_MODE(3) -> r; }\n"
    trace = SMALLEST_TRACE.replace(f"{4:013}", f"{number:013}")
    return {"table": TABLE, "source": source, "ticks": number + 1, "trace": trace}


def array_words(number):
    """The array is not used, and so nothing shows it but the length of the image."""
    longer = SMALLEST_BYTES + 8 * number
    return {"table": TABLE, "source": f"array d[{number}];\n{SMALLEST}", "ticks": 128, "trace": SMALLEST_TRACE, "image_bytes": longer}


def source_bytes(number):
    source = f"{SMALLEST}\n#"
    return {"table": TABLE, "source": source + "." * (number - len(source)), "ticks": 128, "trace": SMALLEST_TRACE}


def device_lines(number):
    """The messages come before the first choice."""
    first, second, third = SMALLEST_TRACE.splitlines(keepends=True)[:3]
    trace = first + second + "0000000000000 a ARRIVE p 1\n" * number + third
    return {"table": PORT_TABLE, "source": SMALLEST, "devices": "0 MSG c 1\n" * number, "ticks": 1, "trace": trace}


def fault_lines(number):
    return {"table": TABLE, "source": SMALLEST, "devices": "0 FAULT\n" * number, "ticks": 0, "trace": ""}


def lock_levels(number):
    lock = f"while n < {number} {{ LOCK_PREEMPTION() -> r, k; n := n + 1; }}"
    body = f"{{ local r; local k; local n; {lock} m[0] := k; REPORT_APPLICATION_MESSAGE(m, 1) -> r; }}"
    source = f"array m[1];\n{STARTING}process p priority 5 period -1 capacity -1 stack 64 {body}\n"
    return {"table": TABLE, "source": source, "ticks": 1000, "shown": (f"REPORT p {number}\n", 1)}


def waiting_errors(number):
    """The error that starts the handler waits, and all but one of the others; one of the last two finds no room at the limit."""
    source = HANDLER.replace("i < 65", f"i < {number - 1}")
    return {"table": TABLE, "source": source, "ticks": 8000, "shown": ("HM DEADLINE_MISSED q PARTITION IGNORE\n", int(number == 64))}


@dataclass(frozen=True)
class Limit:
    """A limit as the pages name it, its constant, and the rows at it; or how an input is made, the limit, and what refuses one more."""

    name: str
    constant: str | None
    rows: str | None = None
    make: object = None
    number: int = 0
    refused: tuple = ()


TOO_LONG = (("check", "compile a 1"), ("build", "compile a 1"))
TOO_MANY_WORDS = tuple((it, "pal a 5 line 1") for it in ("check", "build", "cost"))
NO_SOURCE = tuple((it, "pal a 1 line 2") for it in ("check", "build", "cost"))
TOO_MANY_LINES = tuple((it, "device 4") for it in ("run", "inputs", "state", "state of one", "states", "first state"))
LIMITS = [
    Limit("bytes of a name", "MOST_NAME_BYTES", "name"),
    Limit("bytes of a partition's name", "MOST_NAME_BYTES", "name_of_a_partition"),
    Limit("bytes of a process's name", "MOST_NAME_BYTES", "name_of_a_process"),
    Limit("partitions", "MOST_PARTITIONS", "partitions"),
    Limit("windows", "MOST_WINDOWS", "windows"),
    Limit("channels", "MOST_CHANNELS", "channels"),
    Limit("destinations of a channel", "MOST_DESTINATIONS", "destinations"),
    Limit("ports of a partition", "MOST_PORTS", "ports"),
    Limit("ports that a source declares", "MOST_PORTS", "declared_ports"),
    Limit("processes", "MOST_PROCESSES", "processes"),
    Limit("semaphores", "MOST_OBJECTS", "semaphores"),
    Limit("events", "MOST_OBJECTS", "events"),
    Limit("buffers", "MOST_OBJECTS", "buffers"),
    Limit("blackboards", "MOST_OBJECTS", "blackboards"),
    Limit("priority", "GREATEST_PRIORITY", "priority"),
    Limit("level of the preemption lock", "MOST_LOCK_LEVEL", make=lock_levels, number=16),
    Limit("waiting errors", "MOST_ERRORS", make=waiting_errors, number=64),
    Limit("words of a port's message", "MOST_WORDS", "port_words"),
    Limit("words of a buffer's message", "MOST_WORDS", "buffer_words"),
    Limit("words of a blackboard's message", "MOST_WORDS", "blackboard_words"),
    Limit("words of a report", "MOST_REPORT_WORDS", "message"),
    Limit("messages of a port", "MOST_DEPTH", "depth"),
    Limit("messages of a buffer", "MOST_DEPTH", "buffer_depth"),
    Limit("maximum of a semaphore", "MOST_SEMAPHORE_VALUE", "semaphore_maximum"),
    Limit("first value of a semaphore", "MOST_SEMAPHORE_VALUE", "semaphore_first"),
    Limit("words of a stack", "MOST_STACK_WORDS", "stack"),
    Limit("parameters", "MOST_PARAMETERS", "parameters"),
    Limit("locals", "MOST_LOCALS", "locals"),
    Limit("locals and parameters", "MOST_SLOTS", "locals_and_parameters"),
    Limit("procedures", "MOST_PROCEDURES", "procedures"),
    Limit("instructions", "MOST_INSTRUCTIONS", make=instructions, number=65_536, refused=TOO_LONG),
    Limit("words of an array", "MOST_DATA_WORDS", "array"),
    Limit("words of an array that is not used", "MOST_DATA_WORDS", make=array_words, number=65_536, refused=TOO_MANY_WORDS),
    Limit("words of data", "MOST_DATA_WORDS", "arrays_and_variables"),
    Limit("first values of an array", None, "first_values"),
    Limit("many first values of an array", None, "many_first_values"),
    Limit("bytes of a source", "MOST_SOURCE_BYTES", make=source_bytes, number=1_048_576, refused=NO_SOURCE),
    Limit("parentheses in one another", "MOST_LEVELS", "parentheses"),
    Limit("unary operators in one another", "MOST_LEVELS", "signs"),
    Limit("blocks in one another", "MOST_LEVELS", "blocks"),
    Limit("loops in one another", "MOST_LEVELS", "loops"),
    Limit("indices in one another", "MOST_LEVELS", "indices"),
    Limit("calls in one another", "MOST_LEVELS", "calls_in_calls"),
    Limit("a number of a source", None, "number"),
    Limit("lines of messages, and of a replay text", "MOST_DEVICE_LINES", make=device_lines, number=65_536, refused=TOO_MANY_LINES),
    Limit("lines of faults", "MOST_DEVICE_LINES", make=fault_lines, number=65_536, refused=TOO_MANY_LINES),
]

# Constants that are no count or size of an input.
APART = {
    "FIRST_MOST_PARTITIONS": "the limit of older versions",
    "FIRST_MOST_PROCESSES": "the limit of older versions",
    "FIRST_MOST_WORDS": "the limit of older versions",
    "MOST_TICKS": "a duration",
    "LATEST_RELEASE_POINT": "a duration",
    "MOST_FRAME_TICKS": "a duration",
    "MOST_WORK_TICKS": "a duration",
    "MOST_COST": "a duration",
    "LEAST_STACK_WORDS": "a least number",
    "MOST_RUNNERS": "follows from the processes",
    "MOST_ARGUMENT_WORDS": "follows from the rows of the services",
    "PRIORITY_LEVELS": "follows from the priorities",
    "MARK_BITS": "the bits of a word",
    "INSTRUCTION_BYTES": "the bytes of an instruction",
    "MOST_EVENTS": "what a phase of a tick may show",
    "MOST_ACTIONS": "what a phase of a tick may ask",
    "MOST_OUT_WORDS": "follows from the events, the actions and the words",
    "MOST_KIND_BYTES": "the bytes of an event",
    "MOST_WORD_BYTES": "follows from the numbers",
    "MOST_HEAD_BYTES": "follows from the names",
    "MOST_LINE_BYTES": "follows from the names and the words",
    "MOST_STEP_BYTES": "follows from the lines",
}


def rows_at_limits():
    """The rows `limits/..` of the list: their sources, and for how many ticks they run."""
    rows = {}
    for line in (FILE_ROWS / "rows").read_text().splitlines():
        found = re.fullmatch(r"(run|check) limits/(\w+) (?:(\d+) )?(.*)", line)
        if found:
            _, name, ticks, sources = found.groups()
            rows[name] = (sources.split(), int(ticks or 128))
    return rows


ROWS = rows_at_limits()


def input_of_row(limit, which):
    """The module of a row."""
    folder = FILE_ROWS / "limits" / f"{limit.rows}_{which}"
    names, ticks = ROWS[folder.name]
    sources = tuple((folder / it).read_text() for it in names)
    devices = folder / "devices"
    trace = folder / "trace"
    return Input(
        f"{limit.name}, {which}",
        (folder / "table").read_text(),
        sources,
        devices.read_text() if devices.is_file() else "",
        ticks,
        trace.read_text() if trace.is_file() else None,
    )


def made_input(limit, which, number, refused=()):
    made = {"devices": "", **limit.make(number)}
    return Input(f"{limit.name}, {which}", sources=(made.pop("source"),), refused=refused, **made)


def inputs_of(limit):
    """The inputs at half of a limit and at it, and, where it is told what refuses it, one beyond."""
    if limit.rows is not None:
        return [lambda: input_of_row(limit, "half"), lambda: input_of_row(limit, "full")]
    made = [lambda: made_input(limit, "half", limit.number // 2), lambda: made_input(limit, "full", limit.number)]
    return made + [lambda: made_input(limit, "beyond", limit.number + 1, limit.refused)] * bool(limit.refused)


INPUTS = [it for limit in LIMITS for it in inputs_of(limit)]


def name_limits():
    """Expects that each constant is named."""
    told = Told()
    text = (ROOT / "crates/apex_types/src/limits.rt").read_text()
    constants = set(re.findall(r"^pub const (\w+)", text, re.M))
    named = {it.constant for it in LIMITS if it.constant} | set(APART)
    for it in sorted(constants ^ named):
        told.wrong.append(f"{it}: {'no row' if it in constants else 'no such constant'}")
    told.count("limits", len(LIMITS))
    return told


def lay(module, folder):
    """Lays the files of a module into a folder; returns the names of its sources."""
    sources = [f"source{number}" for number in range(len(module.sources))]
    for name, text in zip(["table", "devices", "inputs", *sources], [module.table, module.devices, "", *module.sources]):
        (folder / name).write_text(text)
    return sources


def ask_all(mb, module, partition, folder):
    """Gives every command a module, and what its partition is brought to the replay; returns the answers by command, without those that have no image.
    A run that waits for a line is a run, and is not tried."""
    answers = {}
    for name, words in trial.commands(lay(module, folder), partition, module.ticks).items():
        if name in ("check", "cost", "build") or (folder / "image").is_file() and name != "until":
            answers[name] = trial.run([mb, *words], folder)
        if name == "build" and (folder / "image").is_file():
            images.lay_old(folder)
        if name == "inputs" and name in answers:
            (folder / "inputs").write_bytes(answers[name].out)
    return answers


def try_input(mb, number):
    """Gives every command a module at a limit. Each is done, or refused because it is beyond the limit and for no other reason."""
    told, module = Told(), INPUTS[number]()
    told.count("inputs")
    partition = re.search(r'name *= *"(\w+)"', module.table).group(1)
    with tempfile.TemporaryDirectory() as room:
        answers = ask_all(mb, module, partition, Path(room))
    told.count("commands", len(answers))
    refused = dict(module.refused)
    for name, answer in answers.items():
        done = Answer(0, answer.out, b"")
        wanted = Answer(1, b"", f"mb: {refused[name]}\n".encode()) if name in refused else done
        if answer != wanted:
            told.wrong.append(f"{module.name}, {name}: {answer}")
    if not refused:
        judge(told, module, partition, {name: answer.out.decode() for name, answer in answers.items()})
    return told


def judge(told, module, partition, outputs):
    """Expects the trace of a module, or what is to be seen of it, the same of the partition's replay, and the length of the image."""
    trace = outputs.get("run", "")
    if module.trace is not None and trace != module.trace:
        told.wrong.append(f"{module.name}: the trace differs")
    if module.shown and trace.count(module.shown[0]) != module.shown[1]:
        told.wrong.append(f"{module.name}: the trace does not show '{module.shown[0].strip()}' {module.shown[1]} times")
    if outputs.get("replay", "") != part_of(trace, partition):
        told.wrong.append(f"{module.name}: the replay differs")
    if module.image_bytes and outputs["build"] != f"built {module.image_bytes} bytes\n":
        told.wrong.append(f"{module.name}: {outputs['build']}")
    if outputs["upgrade"] != outputs["build"].replace("built", "upgraded"):
        told.wrong.append(f"{module.name}: {outputs['upgrade']}")


def part_of(trace, partition):
    """The lines of a trace with the name of a partition."""
    return "".join(it for it in trace.splitlines(keepends=True) if it.split(" ", 2)[1] == partition)
