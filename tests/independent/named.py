"""The rows of a state that have the names of the sources (STATE.md)."""

import limits
from compiler import Compiler
from pal.grammar import STATEMENTS, Reader
from pal.judge import initial_data, numbers_by_name
from state import State

OBJECTS = ("semaphore", "event", "buffer", "blackboard", "port")


class PlacedReader(Reader):
    """Reads a program, and keeps for each list of statements where these begin, and where the brace is that closes them."""

    def __init__(self, text):
        super().__init__(text)
        self.marks = {}

    def statements(self):
        starts, found = [], []
        while self.sees(*STATEMENTS):
            starts.append(self.word.place)
            found.append(STATEMENTS[self.word.kind](self))
        self.marks[id(found)] = starts, self.word.place
        self.close("}")
        return found


class PlacedCompiler(Compiler):
    """Keeps for each instruction where its statement begins in the text or, at the end of a body, where the brace is that closes it."""

    def __init__(self, program, ports, marks):
        super().__init__(program, ports)
        self.marks, self.place, self.origins = marks, None, []

    def emit(self, name, x=0, v=0):
        self.origins.append(self.place)
        return super().emit(name, x, v)

    def statements(self, statements):
        outer = self.place
        for self.place, it in zip(self.marks[id(statements)][0], statements):
            self.statement(it)
        self.place = outer

    def body(self, body):
        entry = super().body(body)
        self.place = self.marks[id(body.statements)][1]
        return entry


class NamedState(State):
    """The rows of a state and, after them, those with the names of these sources."""

    def __init__(self, module, now, texts, only=None, form=None):
        super().__init__(module, now, only, form)
        for number, it in module.partitions.items():
            if only in (None, number):
                self.name, self.source = it.row.name, texts[number - 1].decode("ascii")
                reader = PlacedReader(self.source)
                program = reader.program()
                compiler = PlacedCompiler(program, it.row.ports, reader.marks)
                compiler.section()
                self.origins = compiler.origins
                self.names(it, program)

    def position(self, pc):
        """The line and the column of the instruction's statement."""
        before = self.source[: self.origins[pc]]
        return {"line": before.count("\n") + 1, "column": len(before) - before.rfind("\n")}

    def names(self, it, program):
        places, numbers = initial_data(program)[1], numbers_by_name(program, it.row.ports)
        for made in program.declarations:
            self.declared(it, made, places, numbers)
        for who, body in self.bodies(it, program):
            if who.control is not None:
                self.frames(who, body, who.control, program.of_kind("proc"))

    def declared(self, it, made, places, numbers):
        name = made.name.text
        if made.kind == "var":
            self.row(variable=name, value=it.engine.data[places[name][0]])
        elif made.kind == "array":
            place, size = places[name]
            for first in range(0, size, 8):
                self.row(array=first, name=name, values=it.engine.data[place + first : place + min(first + 8, size)])
        elif made.kind in OBJECTS:
            self.row(**{"object": name, made.kind: numbers[name]})

    @staticmethod
    def bodies(it, program):
        yield it.init, program.init.body
        if program.handler is not None:
            yield it.handler, program.handler.body
        yield from zip(it.processes, [made.body for made in program.processes])

    def frames(self, who, own, control, procedures):
        """The frame of the runner's next instruction, and those of its callers."""
        routines, stack, pc, fp = control.machine.routines, control.stack, control.pc, control.fp
        for place in range(len(stack)):
            number = max((n for n, it in enumerate(routines) if it.entry <= pc), default=None)
            name, body = (who.name, own) if number is None else (procedures[number].name.text, procedures[number].body)
            self.row(frame=place, process=who.name, body=name, pc=pc, **self.position(pc))
            for slot, local in enumerate([*body.parameters, *body.local_names]):
                value = stack[fp + slot] if fp + slot < len(stack) else None
                self.row(local=local.text, frame=place, process=who.name, value=value)
            if number is None:
                return
            saved = fp + routines[number].slots
            if saved + 1 >= len(stack) or not 1 <= stack[saved] <= limits.INSTRUCTIONS or not 0 <= stack[saved + 1] <= fp:
                return
            pc, fp = stack[saved] - 1, stack[saved + 1]
