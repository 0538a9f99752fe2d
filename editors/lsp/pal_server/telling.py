"""What an editor shows of the word at a place: a service, a name, a key or a word of a table."""

from .finding import Place
from .knowledge import CODES, KEYS, SERVICES, VALUES
from .module import Module
from .source import number_of, read_source
from .table import Row, row_at

# The kinds of names that mean a number.
NUMBERED = ("process", "semaphore", "event", "buffer", "blackboard")


def of_service(name: str, module: Module) -> str | None:
    """How a service is called, what it costs in this module, its codes, and what its page says of it."""
    service = SERVICES.get(name)
    if not service:
        return None
    codes = ", ".join(f"{CODES[it]} {it}" for it in service["codes"]) or "none"
    lines = [f"```pal\n{service['call']}\n```", f"{cost_of(service, module)} Codes: {codes}.", service["text"], f"Service {service['number']}, {service['page']}"]
    return "\n\n".join(lines)


def cost_of(service: dict, module: Module) -> str:
    """The ticks of a service, by the costs that the table writes if it does."""
    written = next((it.number(service["key"]) for it in module.top.rows("cost")), None)
    if written is None:
        return f"{service['ticks']} ticks."
    return f"{written} ticks, as `{service['key']}` of the table says."


def of_name(place: Place) -> str | None:
    """What a name in a source names: its declaration, with its number, or the row of a port."""
    source = read_source(place.content)
    part = source.part_at(place.offset)
    word = next((it for it in (part.words if part else []) if it.start <= place.offset <= it.end and it.kind == "name"), None)
    name = source.names(part).get(word.text) if word else None
    if not name:
        return None
    lines = [f"```pal\n{name.said}\n```"]
    if name.kind == "port":
        row = port_of(place.module, place.partition, name.word.text)
        lines.append(of_port(row, place.module) if row else "The table has no such port: the name means 0.")
    elif name.kind in NUMBERED:
        lines.append(f"{name.kind} {number_of(source, name)} of the source")
    return "\n\n".join(lines)


def port_of(module: Module, partition: str | None, port: str) -> Row | None:
    row = module.row_of(partition)
    return next((it for it in row.rows("port") if it.text("name") == port), None) if row else None


def of_port(row: Row, module: Module) -> str:
    """What a table says of a port, and the channel of which it is an end."""
    number = row.above.rows("port").index(row) + 1
    said = ", ".join(f"{it.key} {it.values[0].text}" for it in row.entries if it.values and it.key != "name")
    end = f"{row.above.text('name')}.{row.text('name')}"
    channels = [it.text("name") for it in module.top.rows("channel") for entry in it.entries if end in (value.text for value in entry.values)]
    return f"port {number} of {row.above.text('name')}: {said}" + "".join(f"; channel {it}" for it in channels)


def of_table(place: Place) -> str | None:
    """What a key of a table means, and what a value of it names."""
    row = row_at(place.module.top, place.offset)
    entry = next((it for it in row.entries if it.start <= place.offset <= it.end), None)
    if entry:
        known = KEYS.get(row.kind, {}).get(entry.key)
        return f"`{entry.key}`: {known['type']}\n\n{known['text']}" if known else None
    value = next((value for it in row.entries for value in it.values if value.start <= place.offset <= value.end), None)
    if value and row.kind == "hm" and value.text in VALUES["hm"]:
        return f"`{value.text}`: {VALUES['hm'][value.text]}"
    kind, *names = place.here.symbol if place.here else [""]
    if kind == "port":
        port = port_of(place.module, *names)
        return of_port(port, place.module) if port else None
    return of_partition(place.module, *names) if kind == "partition" else None


def of_partition(module: Module, name: str) -> str | None:
    row = module.row_of(name)
    if not row:
        return None
    source = module.sources.get(name)
    said = f"partition {module.top.rows('partition').index(row) + 1} {name}: period {row.text('period')}, duration {row.text('duration')}"
    return said + (f"; its source is {source.name}" if source else "; it has no source")


def hover(place: Place) -> str | None:
    """What is shown of a place."""
    if place.is_table:
        return of_table(place)
    if place.here and place.here.symbol[0] == "service":
        return of_service(place.here.symbol[1], place.module)
    return of_name(place)
