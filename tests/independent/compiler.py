"""The second road begins here: a source becomes a section of the image (section 7 of PAL.md, PROCESSOR.md, IMAGE.md)."""

import limits
from image import Code, Image, Routine, Section
from pal.frames import frame_of
from pal.judge import initial_data, numbers_by_name, objects_of, process_rows
from pal.nodes import Assign, AssignElement, Ask, Call, Chain, Element, If, Name, Number, Return, Unary, While, Work
from processor import OPCODES
from refusal import Refusal
from services import BY_NAME

BINARY = dict(zip("or and = <> < <= > >= + - * / %".split(), "OR AND EQ NE LT LE GT GE ADD SUB MUL DIV REM".split()))
UNARY = {"-": "NEG", "not": "NOT"}


class Compiler:
    def __init__(self, program, ports):
        self.program, self.code, self.slots = program, [], {}
        self.data, self.places = initial_data(program)
        self.numbers = numbers_by_name(program, ports)
        self.routines = {it.name.text: n for n, it in enumerate(program.of_kind("proc"))}

    def emit(self, name, x=0, v=0):
        self.code.append((OPCODES[name], x, v))
        return len(self.code) - 1

    def point(self, place):
        """The jump at this place leads to the next instruction."""
        opcode, _, v = self.code[place]
        self.code[place] = (opcode, len(self.code), v)

    def section(self):
        program = self.program
        init = self.runner(program.init)
        handler = self.runner(program.handler) if program.handler else None
        processes = list(zip(process_rows(program), map(self.runner, program.processes)))
        routines = [self.routine(it.body) for it in program.of_kind("proc")]
        return Section(self.data, objects_of(program), routines, processes, init, handler, self.code)

    def runner(self, runner):
        entry = self.body(runner.body)
        self.emit("END")
        return Code(runner.stack.value, entry, len(self.slots), frame_of(runner.body))

    def routine(self, body):
        entry = self.body(body)
        self.emit("PUSH", v=0)
        self.emit("RET", len(self.slots))
        return Routine(entry, len(body.parameters), len(self.slots), frame_of(body))

    def body(self, body):
        """Its entry."""
        self.slots = {it.text: n for n, it in enumerate([*body.parameters, *body.local_names])}
        entry = len(self.code)
        self.statements(body.statements)
        return entry

    # ---- statements

    def statements(self, statements):
        for it in statements:
            self.statement(it)

    def statement(self, node):
        match node:
            case Assign(name, value):
                self.expression(value)
                self.scalar("ST", name.text)
            case AssignElement(array, index, value):
                self.expression(index)
                self.expression(value)
                self.emit("STA", *self.places[array.text])
            case If():
                self.conditional(node)
            case While(test, body):
                begin = len(self.code)
                self.expression(test)
                leave = self.emit("JZ")
                self.statements(body)
                self.emit("JMP", begin)
                self.point(leave)
            case Work(ticks, _):
                self.emit("WORK", v=ticks.value)
            case Return(value, _):
                self.expression(value)
                self.emit("RET", len(self.slots))
            case Ask():
                self.service(node)

    def conditional(self, node):
        self.expression(node.test)
        skip = self.emit("JZ")
        self.statements(node.then)
        if node.otherwise is not None:
            leave = self.emit("JMP")
            self.point(skip)
            self.statements(node.otherwise)
            skip = leave
        self.point(skip)

    def service(self, node):
        row = BY_NAME[node.service]
        for kind, argument in zip(row.kinds, node.arguments):
            if kind == "value":
                self.expression(argument)
            else:
                for it in self.places[argument.text] if kind == "array" else [self.numbers[argument.text]]:
                    self.emit("PUSH", v=it)
        self.emit("SVC", row.number)
        for it in node.targets:
            self.scalar("ST", it.text)

    def scalar(self, way, name):
        """Loads or stores a parameter, a local or a variable."""
        if name in self.slots:
            self.emit(way + "L", self.slots[name])
        else:
            self.emit(way + "G", self.places[name][0])

    # ---- expressions

    def expression(self, node):
        match node:
            case Number(value, _):
                self.emit("PUSH", v=value)
            case Name(text, _):
                self.scalar("LD", text)
            case Element(array, index):
                self.expression(index)
                self.emit("LDA", *self.places[array.text])
            case Unary(sign, operand):
                self.expression(operand)
                self.emit(UNARY[sign])
            case Chain(first, rest):
                self.expression(first)
                for sign, it in rest:
                    self.expression(it)
                    self.emit(BINARY[sign])
            case Call(procedure, arguments):
                for it in arguments:
                    self.expression(it)
                self.emit("CALL", self.routines[procedure.text])


def build(table, programs):
    """The image of an accepted table and accepted sources."""
    image = Image(table)
    for row, program in zip(table.partitions, programs):
        image.sections.append(Compiler(program, row.ports).section())
        if len(image.sections[-1].code) > limits.INSTRUCTIONS:
            raise Refusal(f"compile {row.name} 1")
    return image
