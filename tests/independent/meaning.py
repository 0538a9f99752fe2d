"""The first road: a partition's source runs by what its constructs mean, each at its written cost (sections 5 to 8 of PAL.md).

Of each open body there is a list of tasks, the next one last. A task is either a construct that is still to be taken apart, or a *priced* one: its
ticks, and what it does in the last of them.
"""

import limits
from pal.frames import frame_of
from pal.judge import initial_data, numbers_by_name
from pal.nodes import Assign, AssignElement, Ask, Call, Chain, Element, If, Name, Number, Return, Unary, While, Work
from services import BY_NAME


class Fault(Exception):
    """The construct has an error."""


class Opened:
    """An open body: its values by name, its operands, its tasks, and how many words of the stack lie below it."""

    def __init__(self, body, given, below):
        self.values = dict.fromkeys((it.text for it in [*body.parameters, *body.local_names]), 0)
        self.values |= zip((it.text for it in body.parameters), given)
        self.below, self.is_procedure = below, body.is_procedure
        self.operands = []
        self.tasks = [("close",), ("all", body.statements, 0)]

    def kept(self):
        """The words that it keeps, with those below it, while it runs."""
        return self.below + len(self.values) + 2 + len(self.operands)

    def pop(self, count):
        """The last operands, which are taken away."""
        place = len(self.operands) - count
        found = self.operands[place:]
        del self.operands[place:]
        return found


class Control:
    """What a body that was started has still to do."""

    def __init__(self, source, runner):
        self.source, self.stack = source, runner.stack.value
        self.opened = [Opened(runner.body, [], 0)]
        self.spent, self.reply, self.pending = 0, None, None
        self.settle()

    @property
    def top(self):
        return self.opened[-1]

    # ---- tasks

    def settle(self):
        """Takes constructs apart until a priced one comes next."""
        while True:
            kind, *rest = self.top.tasks.pop()
            if kind == "price":
                self.pending = rest
                return
            getattr(self, "open_" + kind)(*rest)

    def add(self, *tasks):
        """Tasks that come next, in this order."""
        self.top.tasks.extend(reversed(tasks))

    def price(self, key, effect):
        return ("price", self.source.costs[key], effect)

    def left(self):
        """The ticks up to the last one of the construct that comes next, this one too."""
        return self.pending[0] - self.spent

    def answer(self, words):
        self.reply = list(words)

    def act(self):
        """The last tick of the construct that comes next."""
        try:
            request = self.pending[1]()
        except Fault as why:
            return ("fault", *why.args)
        if request != ("end",):
            self.spent = 0
            self.settle()
        return request

    # ---- statements

    def open_all(self, statements, place):
        if place < len(statements):
            self.add(("statement", statements[place]), ("all", statements, place + 1))

    def open_statement(self, node):
        match node:
            case Assign(name, value):
                self.add(("value", value), self.price("scalar", lambda: self.put(name.text, self.pop())))
            case AssignElement(array, index, value):
                self.add(("value", index), ("value", value), self.price("array", lambda: self.put_element(array.text)))
            case If():
                self.add(("value", node.test), self.price("branch", lambda: self.branch(node)))
            case While():
                self.add(("value", node.test), self.price("branch", lambda: self.round(node)))
            case Work(ticks, _):
                self.add(("price", ticks.value, lambda: None))
            case Return(value, _):
                self.add(("value", value), self.price("return", self.give_back))
            case Ask():
                self.open_service(node)

    def branch(self, node):
        if self.pop() == 0:
            self.add(("all", node.otherwise or [], 0))
        elif node.otherwise is None:
            self.add(("all", node.then, 0))
        else:
            self.add(("all", node.then, 0), self.price("jump", lambda: None))

    def round(self, node):
        if self.pop() != 0:
            self.add(("all", node.body, 0), self.price("jump", lambda: self.add(("statement", node))))

    def open_close(self):
        """The end of the body."""
        if self.top.is_procedure:
            self.open_statement(Return(Number(0, 0), 0))
        else:
            self.add(self.price("end", lambda: ("end",)))

    def give_back(self):
        value = self.pop()
        self.opened.pop()
        self.push(value)

    # ---- services

    def open_service(self, node):
        row = BY_NAME[node.service]
        arguments = [task for kind, it in zip(row.kinds, node.arguments) for task in self.argument(kind, it)]
        targets = [self.price("scalar", lambda name=it.text: self.put(name, self.reply.pop(0))) for it in node.targets]
        self.add(*arguments, self.price(row.cost_key, lambda: ("call", row.number, self.top.pop(row.argument_words))), *targets)

    def argument(self, kind, node):
        if kind == "value":
            return [("value", node)]
        words = self.source.places[node.text] if kind == "array" else [self.source.numbers[node.text]]
        return [self.price("literal", lambda it=it: self.push(it)) for it in words]

    # ---- values

    def push(self, value):
        self.top.operands.append(value)

    def pop(self):
        return self.top.operands.pop()

    def get(self, name):
        if name in self.top.values:
            return self.top.values[name]
        return self.source.data[self.source.places[name][0]]

    def put(self, name, value):
        if name in self.top.values:
            self.top.values[name] = value
        else:
            self.source.data[self.source.places[name][0]] = value

    def address(self, name, index):
        place, size = self.source.places[name]
        if not 0 <= index < size:
            raise Fault("MEMORY_VIOLATION")
        return place + index

    def put_element(self, name):
        index, value = self.top.pop(2)
        self.source.data[self.address(name, index)] = value

    # ---- expressions

    def open_value(self, node):
        match node:
            case Number(value, _):
                self.add(self.price("literal", lambda: self.push(value)))
            case Name(text, _):
                self.add(self.price("scalar", lambda: self.push(self.get(text))))
            case Element(array, index):
                element = self.price("array", lambda: self.push(self.source.data[self.address(array.text, self.pop())]))
                self.add(("value", index), element)
            case Unary(sign, operand):
                self.add(("value", operand), self.price("logic", lambda: self.push(UNARY[sign](self.pop()))))
            case Chain(first, rest):
                self.add(("value", first), ("chain", rest, 0))
            case Call(procedure, arguments):
                self.add(*(("value", it) for it in arguments), self.price("call", lambda: self.enter(procedure.text)))

    def open_chain(self, rest, place):
        if place < len(rest):
            sign, operand = rest[place]
            combined = self.price(SIGN_KEYS.get(sign, "logic"), lambda: self.push(BINARY[sign](*self.top.pop(2))))
            self.add(("value", operand), combined, ("chain", rest, place + 1))

    def enter(self, name):
        body = self.source.procedures[name]
        below = self.top.kept() - len(body.parameters)
        if below + self.source.frames[name] > self.stack:
            raise Fault("STACK_OVERFLOW")
        self.opened.append(Opened(body, self.top.pop(len(body.parameters)), below))


def fitting(value):
    if not limits.is_word(value):
        raise Fault("NUMERIC_ERROR")
    return value


def divided(left, right):
    """The quotient, rounded toward zero."""
    if right == 0:
        raise Fault("NUMERIC_ERROR")
    quotient = abs(left) // abs(right)
    return quotient if (left < 0) == (right < 0) else -quotient


SIGN_KEYS = {"+": "add", "-": "add", "*": "mul", "/": "div", "%": "div"}
UNARY = {"-": lambda a: fitting(-a), "not": lambda a: int(a == 0)}
BINARY = {
    "or": lambda a, b: int(a != 0 or b != 0),
    "and": lambda a, b: int(a != 0 and b != 0),
    "=": lambda a, b: int(a == b),
    "<>": lambda a, b: int(a != b),
    "<": lambda a, b: int(a < b),
    "<=": lambda a, b: int(a <= b),
    ">": lambda a, b: int(a > b),
    ">=": lambda a, b: int(a >= b),
    "+": lambda a, b: fitting(a + b),
    "-": lambda a, b: fitting(a - b),
    "*": lambda a, b: fitting(a * b),
    "/": lambda a, b: fitting(divided(a, b)),
    "%": lambda a, b: a - b * divided(a, b),
}


class SourceEngine:
    """What the bodies of one source share. INIT is 0, a process has its number, and the handler is one more than the last of them."""

    def __init__(self, program, ports, costs):
        self.initial, self.places = initial_data(program)
        self.data, self.numbers, self.costs = list(self.initial), numbers_by_name(program, ports), costs
        self.procedures = {it.name.text: it.body for it in program.of_kind("proc")}
        self.frames = {name: frame_of(it) for name, it in self.procedures.items()}
        self.runners = [program.init, *program.processes, program.handler]

    def control(self, index):
        return Control(self, self.runners[index])
