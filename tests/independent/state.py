"""The state of a module before a tick, row by row (STATE.md)."""

import json

from kernel.records import A_DELAY, A_LIST, A_RELEASE, A_RESUME, DORMANT, NOTHING, THE_START
from model import ERRORS
from processor import INSTRUCTIONS

DUE = {A_RELEASE: "RELEASE", A_DELAY: "DELAY", A_RESUME: "TIME_OUT", A_LIST: "TIME_OUT"}


def text_row(partition, fields):
    words = ["-" if partition is None else partition]
    for key, value in fields.items():
        words += [key, *map(str, value)] if isinstance(value, list) else [key, "-" if value is None else str(value)]
    return " ".join(words) + "\n"


def json_row(partition, fields):
    return json.dumps({"partition": partition, **fields}, separators=(",", ":")) + "\n"


def or_none(time):
    return None if time == -1 else time


class State:
    """The rows of a module, of which so many ticks are made."""

    def __init__(self, module, now, only=None, form=text_row):
        self.module, self.form, self.rows = module, form, []
        self.module_rows(now)
        for number, it in module.partitions.items():
            if only in (None, number):
                self.name = it.row.name
                self.partition_rows(it)

    def text(self):
        return "".join(self.rows).encode("ascii")

    def put(self, partition, fields):
        self.rows.append(self.form(partition, fields))

    def row(self, **fields):
        self.put(self.name, fields)

    # ---- the module

    def module_rows(self, now):
        module, schedule = self.module, self.module.schedule
        self.put(None, {"tick": now, "origin": None if module.is_shut else schedule.origin})
        if not module.is_shut:
            place = schedule.place(now)
            window = next((it for it in schedule.windows if it.offset <= place < it.end), None)
            begin = None if window is None else now - place + window.offset
            end = None if window is None else begin + window.length
            owner = None if window is None else window.partition
            self.put(None, {"owner": self.name_of(owner), "begin": begin, "end": end, "ended": self.name_of(schedule.ended(now))})

    def name_of(self, number):
        return None if number is None else self.module.table.partitions[number - 1].name

    # ---- a partition

    def partition_rows(self, it):
        runners = [it.init, it.handler, *it.processes]
        holder, running = (None if who is None else who.name for who in (it.holder, it.running))
        self.row(mode=it.mode, start=it.condition, lock=it.lock_level, holder=holder, running=running, handler=int(it.has_handler))
        for who in runners:
            self.runner(who)
        for place, who in enumerate(it.order, 1):
            self.row(ready=place, process=who.name, priority=who.priority)
        self.objects(it.objects)
        for number, port in enumerate(it.ports, 1):
            self.port(number, port)
        for place, (error, number, words) in enumerate(it.errors, 1):
            self.row(error=place, kind=ERRORS[error], process=it.processes[number - 1].name, message=words)
        for place in range(0, len(it.engine.data), 8):
            self.row(data=place, values=it.engine.data[place : place + 8])
        for who in runners:
            if who.control is not None:
                self.control(who.name, who.control)

    def runner(self, who):
        number = who.number if who.is_process else None
        self.row(
            process=who.name, number=number, created=int(who.created), state=who.state, priority=who.priority, base=who.base,
            suspended=int(who.suspended), period=or_none(who.period), capacity=or_none(who.capacity), release=who.last_release,
            deadline=who.deadline,
        )
        if who.waits_for != NOTHING and who.state != DORMANT:
            due = None if who.due is None else DUE[who.waits_for]
            self.put(self.name, {"waits": who.name, "due": due, "at": who.due, **waits_for(who)})

    # ---- objects and ports

    def objects(self, held):
        for number, it in enumerate(held["semaphore"], 1):
            row = {"value": it.value, "maximum": it.row.maximum, "discipline": it.row.discipline}
            self.object("semaphore", number, it, row)
        for number, it in enumerate(held["event"], 1):
            self.object("event", number, it, {"up": it.value})
        for number, it in enumerate(held["buffer"], 1):
            row = {"words": it.row.words, "depth": it.row.depth, "discipline": it.row.discipline, "messages": len(it.messages)}
            self.object("buffer", number, it, row)
        for number, it in enumerate(held["blackboard"], 1):
            self.object("blackboard", number, it, {"words": it.row.words, "messages": len(it.messages)})

    def object(self, kind, number, it, fields):
        self.put(self.name, {kind: number, "created": int(it.created), **fields})
        self.held(kind, number, it)

    def port(self, number, it):
        row, kind = it.row, it.row.kind.lower()
        fields = {kind: number, "port": row.name, "direction": row.direction, "created": int(it.created), "words": row.words}
        if kind == "sampling":
            fields |= {"refresh": row.refresh, "arrival": it.arrival, "valid": int(it.was_valid)}
        else:
            fields |= {"depth": row.depth, "discipline": row.discipline, "overflowed": int(it.has_lost)}
        self.put(self.name, {**fields, "messages": len(it.messages)})
        self.held(kind, number, it)

    def held(self, kind, number, it):
        for place, words in enumerate(it.messages, 1):
            self.put(self.name, {"message": place, kind: number, "values": words})
        for place, waiter in enumerate(it.waiting.waiters, 1):
            self.put(self.name, {"waiter": place, kind: number, "process": waiter.runner.name, "priority": waiter.priority})

    # ---- places in the code

    def control(self, who, it):
        self.put(self.name, {"runner": who, "pc": it.pc, "fp": it.fp, "sp": it.sp, "spent": it.spent, "awaits": it.awaits, **instruction(it)})
        for place in range(0, it.sp, 8):
            self.row(stack=place, process=who, values=it.stack[place : min(place + 8, it.sp)])


def waits_for(who):
    """What it waits for, and what it has handed in."""
    if who.waits_for == THE_START:
        return {"for": "NORMAL_START", "delay": who.delay}
    if who.waits_in is None:
        return {"for": "FIRST_RELEASE"}
    fields = {"for": who.waits_in.name}
    if who.waits_for == A_LIST:
        waiter = next(it for it in who.waiting_list.waiters if it.runner is who)
        if waiter.array is not None:
            fields["array"] = list(waiter.array)
        if waiter.message is not None:
            fields["gives"] = waiter.message
    return fields


def instruction(control):
    code = control.machine.code
    if control.pc >= len(code):
        return {"opcode": None}
    opcode, x, v = code[control.pc]
    return {"opcode": INSTRUCTIONS[opcode].name if opcode in INSTRUCTIONS else opcode, "x": x, "v": v}
