"""A module at the limits of its version: as many partitions, windows, processes and words of a message as there may be, all in use."""

import re
import tempfile
from pathlib import Path

import calls
import trial
from at_limits import part_of
from trial import Answer, Told

CONSTANTS = dict(re.findall(r"^pub const (MOST_\w+): \w+ = (\d+);", (calls.ROOT / "crates/apex_types/src/limits.rt").read_text(), re.M))
PARTITIONS, WINDOWS, PROCESSES, WORDS = (int(CONSTANTS[f"MOST_{it}"]) for it in ("PARTITIONS", "WINDOWS", "PROCESSES", "WORDS"))
WINDOW = 20
FRAME = WINDOWS * WINDOW
ERRORS = ("DEADLINE_MISSED", "APPLICATION_ERROR", "NUMERIC_ERROR", "ILLEGAL_REQUEST", "STACK_OVERFLOW", "MEMORY_VIOLATION", "HARDWARE_FAULT")
# The sender's messages have all words. The others wait for their periods.
SENDER = """while 1 {
  m[0] := m[0] + 1;
  m[LAST] := m[0] * m[0];
  WRITE_SAMPLING_MESSAGE(1, m, WORDS) -> r;
  SEND_BUFFER(1, m, WORDS, 0) -> r;
  PERIODIC_WAIT() -> r;
}"""
RECEIVER = """while 1 {
  RECEIVE_BUFFER(1, k, -1) -> r, n;
  REPORT_APPLICATION_MESSAGE(k, 16) -> r;
  READ_SAMPLING_MESSAGE(2, k) -> r, n, v;
}"""
OTHER = "while 1 { work 3; PERIODIC_WAIT() -> r; }"


def table():
    """Each partition has two windows of a frame, and sends to the next one; the last one sends to the first."""
    text = [f"frame = {FRAME}", 'fault = "IGNORE"']
    for number in range(PARTITIONS):
        text += ["[[partition]]", f'name = "p{number}"', f"period = {FRAME}", f"duration = {WINDOWS // PARTITIONS * WINDOW}"]
        text += ["[partition.hm]", *(f'{it} = "IGNORE"' for it in ERRORS)]
        for name, direction in (("out", "SOURCE"), ("in", "DESTINATION")):
            text += ["[[partition.port]]", f'name = "{name}"', 'kind = "SAMPLING"', f'direction = "{direction}"', f"words = {WORDS}", "refresh = 0"]
    for number in range(WINDOWS):
        release = "true" if number < PARTITIONS else "false"
        owner, offset = f"p{number % PARTITIONS}", number * WINDOW
        text += ["[[window]]", f'partition = "{owner}"', f"offset = {offset}", f"length = {WINDOW}", f"release = {release}"]
    for number in range(PARTITIONS):
        ends = f'source = "p{number}.out"', f'destinations = ["p{(number + 1) % PARTITIONS}.in"]'
        text += ["[[channel]]", f'name = "c{number}"', *ends]
    return "\n".join(text) + "\n"


def source():
    """One source does for all partitions."""
    made = ["CREATE_SAMPLING_PORT(out) -> r, i;", "CREATE_SAMPLING_PORT(in) -> r, i;", "CREATE_BUFFER(b) -> r, i;"]
    made += [f"CREATE_PROCESS(w{number}) -> r, i; START(i) -> r;" for number in range(PROCESSES)]
    lines = ["port out;", "port in;", f"buffer b {WORDS} 2 fifo;", f"array m[{WORDS}];", f"array k[{WORDS}];"]
    lines += ["init stack 32 { local r; local i;", *made, "SET_PARTITION_MODE(3) -> r; }"]
    for number in range(PROCESSES):
        body, period = (SENDER, 4 * FRAME) if number == 0 else (RECEIVER, -1) if number == 1 else (OTHER, 32 * FRAME)
        head = f"process w{number} priority {PROCESSES - number} period {period} capacity -1 stack 32"
        lines.append(f"{head} {{ local r; local n; local v; {body.replace('WORDS', str(WORDS)).replace('LAST', str(WORDS - 1))} }}")
    return "\n".join(lines) + "\n"


def try_largest(mb, ticks, replayed):
    """The module is built and run; in fewer ticks each partition shows alone what it shows in the module, and messages of all words arrive."""
    told = Told()
    with tempfile.TemporaryDirectory() as room:
        folder = Path(room)
        for name, text in (("table", table()), ("source", source()), ("devices", "")):
            (folder / name).write_text(text)

        def done(*words):
            answer = trial.run([mb, *words], folder)
            if answer.status != 0 or answer.err:
                told.wrong.append(f"the largest module, {words[0]}: {answer}")
            return answer.out.decode()

        done("build", "table", "image", *["source"] * PARTITIONS)
        long_run = done("run", "image", "devices", str(ticks))
        trace = done("run", "image", "devices", str(replayed))
        if not long_run.startswith(trace):
            told.wrong.append("the largest module: a shorter run has another trace")
        if not any(it.split()[2] == "ARRIVE" and len(it.split()) == 4 + WORDS for it in trace.splitlines()):
            told.wrong.append(f"the largest module: no message of {WORDS} words arrives")
        for name in (f"p{number}" for number in range(PARTITIONS)):
            (folder / "inputs").write_text(done("inputs", "image", name, "devices", str(replayed)))
            if done("replay", "image", name, "inputs", str(replayed)) != part_of(trace, name):
                told.wrong.append(f"the largest module: the replay of {name} differs")
            told.count("replays of the largest module")
    return told
