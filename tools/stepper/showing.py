"""How a state is shown."""

from collections.abc import Iterator

from .module import Source
from .rows import Row, State

# Rows that are shown in another way than as a change, or of which only `changes` speaks.
HIDDEN = ("owner", "mode", "process", "waits", "ready", "runner", "stack", "frame", "local", "data")
# Rows of what a program has written.
DATA = ("variable", "array")
NEAR = 2


def header_of(state: State) -> str:
    tick = f"before tick {state.tick}: "
    if state.origin is None:
        return tick + "the module is shut down"
    if state.owner["owner"] is None:
        return tick + "no partition has this tick"
    return tick + "{owner} has this tick, in its window from {begin} to {end}".format_map(state.owner | {"end": state.owner["end"] - 1})


def of_partition(state: State, mode: Row) -> list[str]:
    """The mode of a partition, and its processes, without those that are not created."""
    partition = mode["partition"]
    processes = [it for it in state.of("process", partition) if it["created"] or it["state"] != "DORMANT"]
    name, word, priority = (max((len(str(it[key])) for it in processes), default=0) for key in ("process", "state", "priority"))
    mark = mode["running"] if state.owner["owner"] == partition else None
    shown = [f"{partition} {mode['mode']}" + (f", locked by {mode['holder']}" if mode["holder"] else "")]
    for it in processes:
        row = f"{it['process']:{name}}  {it['state']:{word}}  {it['priority']:{priority}}  {', '.join(of_process(state, it))}"
        shown.append(f"{'>' if it['process'] == mark else ' ':>3} {row}".rstrip())
    return shown


def of_process(state: State, row: Row) -> Iterator[str]:
    """What else there is to say of a process."""
    partition, name = row["partition"], row["process"]
    if waits := state.one("waits", partition, name):
        yield "in " + waits["for"] + (f" until {waits['at']}" if waits["at"] is not None else "")
    elif row["suspended"]:
        yield "suspended"
    elif runner := state.one("runner", partition, name):
        yield f"at {of_instruction(runner)}" + (f", spent {runner['spent']}" if runner["spent"] else "")
    if row["deadline"] is not None:
        yield f"deadline {row['deadline']}"


def of_instruction(runner: Row) -> str:
    return " ".join(str(it) for it in (f"{runner['pc']}:", runner["opcode"], runner.get("x"), runner.get("v")) if it is not None)


def of_source(state: State, source: Source, partition: str, name: str) -> list[str]:
    """The lines of the source around the one where a process is, from where it was called, and the values of its parameters and locals there."""
    frames = [it for it in state.of("frame", partition) if it["process"] == name]
    if not frames:
        return [f"{partition} {name} has nothing left to do"]
    at = frames[0]["line"]
    near = range(max(at - NEAR, 1), min(at + NEAR, len(source.lines)) + 1)
    chain = ", called by ".join([frames[0]["body"], *(f"{it['body']} in line {it['line']}" for it in frames[1:])])
    known = [f"{it['local']} {it['value']}" for it in state.of("local", partition) if it["process"] == name and it["frame"] == 0]
    shown = [f"{source.name}, line {at}, {partition} {name}{f', in {chain}' if chain != name else ''}:"]
    shown += [f"{'>' if it == at else ' ':>3} {it:5} {source.lines[it - 1]}".rstrip() for it in near]
    return [*shown, f"    {', '.join(known)}"] if known else shown
