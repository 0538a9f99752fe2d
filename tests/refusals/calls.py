"""Refuses each request for memory of the library's calls, and of the commands of `mb`, in turn."""

import shutil
import tempfile
from dataclasses import dataclass
from pathlib import Path

import images
import trial
from trial import Answer, Told

ROOT = Path(__file__).resolve().parent.parent.parent
ROWS = ROOT / "crates/library_tests/data"
# The modules on which the calls are made, and for how many ticks they run.
CALLED = {"first": 128, "messages": 160}
# What a refused call answers.
REFUSED = {
    "read_table": ["end 11"],
    "parse": ["end 7"],
    "check": ["end 7"],
    "build": ["end memory"],
    "upgrade": ["end 6"],
    "load_image": ["end 6", "end memory, 0 bytes"],
    "Machine::load": ["end 1", "end memory, 0 bytes"],
    "Machine::devices": ["end memory", "end memory, 0 bytes"],
    "run": ["end memory, 0 bytes"],
    "replay": ["end memory, 0 bytes"],
}
# An empty device text is read without a request.
WITHOUT_REQUEST = [("first", "Machine::devices")]
# What is called again where the call is refused, if it is not the call alone.
AGAIN = {"check": "parse", "Machine::load": "load_image", "Machine::devices": "load_image"}
# A value that is handed over is gone after a refusal, so what is held then is what was held before that value was made.
HANDED_OVER = {"check": "parse", "Machine::load": "load_image"}


def call_on(library, library_tests, row, refused=None):
    """Makes the calls on a module, one request refused; returns the lines, and what was held at each of them."""
    line = f"calls {row} {CALLED[row]}\n".encode()
    watched = trial.watch(library, [library_tests], ROWS, line, refused)
    return watched.answer, watched.answer.out.decode().splitlines(), watched.lines, watched.end


def after_refusal(lines, call):
    """The lines of a run in which one request of the call is refused."""
    begin = lines.index(f"begin {call}")
    again = lines.index(f"begin {AGAIN.get(call, call)}")
    return lines[: begin + 1] + REFUSED[call] + lines[again:]


def refuse_call(library, library_tests, row, call):
    """Refuses each request of a call on a module."""
    told = Told()
    _, lines, held, _ = call_on(library, library_tests, row)
    begin = lines.index(f"begin {call}")
    wanted = after_refusal(lines, call)
    before = held[lines.index(f"begin {HANDED_OVER.get(call, call)}")]
    told.count("calls")
    requests = range(held[begin].requests + 1, held[begin + 1].requests + 1)
    if not requests and (row, call) not in WITHOUT_REQUEST:
        told.wrong.append(f"{row} {call}: there is no request to refuse")
    for refused in requests:
        answer, found, marks, end = call_on(library, library_tests, row, refused)
        told.count("requests")
        name = f"{row} {call}, request {refused}"
        if answer.status != 0 or answer.err or found != wanted:
            told.wrong.append(f"{name}: {answer}, {' | '.join(found[begin : begin + 3])}")
        elif (marks[begin + 1].blocks, marks[begin + 1].bytes) != (before.blocks, before.bytes):
            told.wrong.append(f"{name}: held {before} before and {marks[begin + 1]} after")
        elif end is None or end.blocks != 0:
            told.wrong.append(f"{name}: held {end} at the end")
    return told


def count_calls(library, library_tests, row):
    """Sees that all is right where no request is refused, and that the ticks make no request."""
    told = Told()
    answer, lines, held, end = call_on(library, library_tests, row)
    requests = {
        line.removeprefix("begin "): after.requests - before.requests
        for line, before, after in zip(lines, held, held[1:])
        if line.startswith("begin ")
    }
    if answer.status != 0 or set(requests) != {*REFUSED, "Machine::tick"} or lines.count("end the trace") != 3:
        told.wrong.append(f"{row}: {answer}, {lines[-3:]}")
        return told
    loading = sum(requests[it] for it in ("load_image", "Machine::load", "Machine::devices"))
    if requests["Machine::tick"] != 0 or requests["run"] != loading:
        told.wrong.append(f"{row}: {requests['Machine::tick']} requests of ticks, {requests['run']} of run, {loading} of loading")
    if end is None or end.blocks != 0:
        told.wrong.append(f"{row}: held {end} at the end")
    told.count("ticks without a request", 2 * CALLED[row])
    return told


@dataclass(frozen=True)
class Module:
    """A module on which the commands are tried: the files that lie in the folder, its sources, and how it is run."""

    name: str
    files: dict
    sources: tuple
    partition: str
    ticks: int

    def lay(self, mb, folder):
        """Lays the files into a folder, with the image and the inputs of the partition."""
        for name, path in self.files.items():
            shutil.copy(path, folder / name)
        self.expect_done(mb, folder, "build", "table", "image", *self.sources)
        images.lay_old(folder)
        inputs = self.expect_done(mb, folder, "inputs", "image", self.partition, "devices", str(self.ticks))
        (folder / "inputs").write_bytes(inputs)

    def expect_done(self, mb, folder, *words):
        answer = trial.run([mb, *words], folder)
        if answer.status != 0 or answer.err:
            raise trial.Wrong(f"{self.name} {words[0]}: {answer}")
        return answer.out

    def commands(self):
        """The words of each command, by its name."""
        return trial.commands(self.sources, self.partition, self.ticks)


def module_of_rows(name, ticks):
    """One of the modules with one partition `a`."""
    files = {it: ROWS / name / it for it in ("table", "source", "devices")}
    return Module(name, files, ("source",), "a", ticks)


def module_of_example(name, partitions, ticks):
    """An example, with the names of its partitions in their order; the last one is replayed."""
    folder = ROOT / "examples" / name
    files = {"table": folder / "table.toml", "devices": folder / "devices.txt"}
    files |= {it: folder / f"{it}.pal" for it in partitions}
    return Module(name, files, tuple(partitions), partitions[-1], ticks)


MODULES = [module_of_rows("smallest", 128), module_of_example("telemetry", ["sensors", "radio"], 2400)]


# The two answers that a command may give.
RIGHT, LACKING = "right answers", "mb: memory"


class Command:
    """A command of `mb` on a module, in a folder of its own, with its right answer."""

    def __init__(self, mb, module, name, folder):
        self.folder = folder
        module.lay(mb, folder)
        self.name = f"{module.name} {name}"
        self.words = [mb, *module.commands()[name]]
        self.image = (folder / "image").read_bytes()
        self.before = b"before" if name in trial.WRITING else self.image
        self.may_begin = name in trial.BEGINNING
        self.right = trial.run(self.words, folder)

    def ask(self, library, **how):
        """Gives the command under the library, with IMAGE as it is before the command."""
        (self.folder / "image").write_bytes(self.before)
        return trial.watch(library, self.words, self.folder, **how)

    def begun(self, out):
        """What may be written where memory is lacking."""
        return out if self.may_begin and self.right.out.startswith(out) else b""

    def judge(self, told, case, watched):
        """The answer has to be the right one, or that memory is lacking, with nothing done, or with a beginning written; and nothing is held at
        the end."""
        answer, image = watched.answer, (self.folder / "image").read_bytes()
        if watched.end is None or watched.end.blocks != 0:
            told.wrong.append(f"{self.name}, {case}: {answer}, held {watched.end} at the end")
        elif answer == self.right and image == self.image:
            told.count(RIGHT)
        elif answer == Answer(1, self.begun(answer.out), b"mb: memory\n") and image == self.before:
            told.count(LACKING)
        else:
            told.wrong.append(f"{self.name}, {case}: {answer}{'' if image == self.before else ', IMAGE is changed'}")


def refuse_command(library, mb, number, name):
    """Refuses each request of a command on the module of that number."""
    told = Told()
    with tempfile.TemporaryDirectory() as room:
        command = Command(mb, MODULES[number], name, Path(room))
        watched = command.ask(library)
        if watched.answer != command.right or watched.end is None:
            told.wrong.append(f"{command.name}: {watched.answer}, held {watched.end} at the end")
            return told
        told.count("commands")
        for refused in range(1, watched.end.requests + 1):
            told.count("requests")
            command.judge(told, f"request {refused}", command.ask(library, refused=refused))
        expect_both(told, command)
    return told


def expect_both(told, command):
    """A sweep in which memory never lacks, or always does, has tried nothing."""
    for it in (RIGHT, LACKING):
        if it not in told.counts:
            told.wrong.append(f"{command.name}: never '{it}'")


STEP = 16 << 10
# 128 MiB, with which every command is done.
MOST_STEPS = 1 << 13
# A sweep begins so many steps above what suffices.
MARGIN = 16


def least(suffices):
    """A number of steps that suffices, where one step less does not."""
    low, high = 0, MOST_STEPS
    while high - low > 1:
        middle = (low + high) // 2
        if suffices(middle):
            high = middle
        else:
            low = middle
    return high


def limit_command(library, mb, number, name):
    """Gives a command on the module of that number ever less address space, from what suffices down to what it cannot begin with."""
    told = Told()
    with tempfile.TemporaryDirectory() as room:
        command = Command(mb, MODULES[number], name, Path(room))
        told.count("commands")
        first = least(lambda steps: command.ask(library, limit=steps * STEP).answer == command.right) + MARGIN
        last = least(lambda steps: command.ask(library, limit=steps * STEP).has_begun)
        for steps in range(first, last - 1, -1):
            watched = command.ask(library, limit=steps * STEP)
            # The host does not always place a program alike, so it may not begin with the last ones.
            if watched.has_begun:
                told.count("budgets")
                command.judge(told, f"{steps * STEP} bytes", watched)
        expect_both(told, command)
    return told
