"""Reads words as a program (section 2 of PAL.md). It refuses the first word with which no program can continue."""

import limits
from pal.nodes import Assign, AssignElement, Ask, Body, Call, Chain, Declaration, Element, If, Name, Number, Program, Return, Runner, Unary, While
from pal.nodes import Work
from pal.words import Wrong, words_of

# The operators, the weakest first. Comparisons cannot be chained.
COMPARISONS = ("=", "<>", "<", "<=", ">", ">=")
STRENGTHS = (("or",), ("and",), COMPARISONS, ("+", "-"), ("*", "/", "%"))


class Reader:
    def __init__(self, text):
        self.words = words_of(text)
        self.word = next(self.words, None)
        self.levels = 0

    # ---- words and levels

    def refuse(self):
        raise Wrong(2, self.word.line)

    def sees(self, *kinds):
        return self.word.kind in kinds

    def take(self, *kinds):
        """Takes the word, which has to be of one of these kinds."""
        word = self.word
        if word.kind not in kinds:
            self.refuse()
        self.word = next(self.words, None)
        return word

    def takes(self, kind):
        """Takes the word if it is of this kind."""
        return self.sees(kind) and self.take(kind) is not None

    def need_level(self):
        """The word will open a level, itself or by a word after it."""
        if self.levels == limits.LEVELS:
            self.refuse()

    def open(self, kind):
        self.need_level()
        self.levels += 1
        return self.take(kind)

    def close(self, kind):
        self.take(kind)
        self.levels -= 1

    def name(self):
        word = self.take("name")
        return Name(word.text, word.line)

    def number(self):
        word = self.take("nat")
        return Number(number_of(word.text), word.line)

    def integer(self):
        """An int, as its sign and its number."""
        sign = -1 if self.takes("-") else 1
        return sign, self.number()

    def after(self, word, read):
        self.take(word)
        return read()

    def many(self, first, read):
        """All that begin with such a word."""
        found = []
        while self.sees(*first):
            found.append(read())
        return found

    def separated(self, read):
        found = [read()]
        while self.takes(","):
            found.append(read())
        return found

    # ---- the program

    def program(self):
        declarations = self.many(DECLARED, self.declaration)
        init = self.runner("init")
        handler = self.runner("handler") if self.sees("handler") else None
        processes = self.many(("process",), lambda: self.runner("process"))
        self.take("end")
        return Program(declarations, init, handler, processes)

    def runner(self, kind):
        line, head = self.take(kind).line, [None] * 4
        if kind == "process":
            head = [self.name(), self.after("priority", self.number), self.after("period", self.integer), self.after("capacity", self.integer)]
        name, *rest = head
        return Runner(kind, name, line, self.after("stack", self.number), self.body([], False), *rest)

    def declaration(self):
        word, name = self.take(*DECLARED), self.name()
        made = Declaration(word.kind, name, word.line, [], [], None, None)
        made = made._replace(**DECLARED[word.kind](self))
        if word.kind != "proc":
            self.take(";")
        return made

    def rest_of_variable(self):
        return {"values": [self.integer()] if self.takes("=") else []}

    def rest_of_array(self):
        self.take("[")
        size = self.number()
        self.take("]")
        values = [self.integer(), *self.many(("-", "nat"), self.integer)] if self.takes("=") else []
        return {"numbers": [size], "values": values}

    def rest_of_pair(self):
        return {"numbers": [self.number(), self.number()], "discipline": self.take("fifo", "priority").text.upper()}

    def rest_of_name(self):
        return {}

    def rest_of_blackboard(self):
        return {"numbers": [self.number()]}

    def rest_of_procedure(self):
        self.take("(")
        parameters = self.separated(self.name) if self.sees("name") else []
        self.take(")")
        return {"body": self.body(parameters, True)}

    # ---- bodies and statements

    def body(self, parameters, is_procedure):
        line = self.open("{").line
        local_names = self.many(("local",), self.local_name)
        return Body(parameters, local_names, self.statements(), line, is_procedure)

    def local_name(self):
        name = self.after("local", self.name)
        self.take(";")
        return name

    def block(self):
        self.open("{")
        return self.statements()

    def statements(self):
        """The statements up to the brace that closes them."""
        found = self.many(STATEMENTS, lambda: STATEMENTS[self.word.kind](self))
        self.close("}")
        return found

    def assignment(self):
        word = self.take("name")
        index = self.index() if self.sees("[") else None
        value = self.after(":=", self.expression)
        self.take(";")
        return Assign(Name(word.text, word.line), value) if index is None else AssignElement(word, index, value)

    def conditional(self):
        self.need_level()
        self.take("if")
        test, then = self.expression(), self.block()
        return If(test, then, self.block() if self.takes("else") else None)

    def loop(self):
        self.need_level()
        self.take("while")
        return While(self.expression(), self.block())

    def work(self):
        line, ticks = self.take("work").line, self.number()
        self.take(";")
        return Work(ticks, line)

    def give_back(self):
        line, value = self.take("return").line, self.expression()
        self.take(";")
        return Return(value, line)

    def ask(self):
        self.need_level()
        word, arguments = self.take("SERVICE"), self.arguments()
        targets = self.separated(self.name) if self.takes("->") else []
        self.take(";")
        return Ask(word.text, arguments, targets, word.line)

    # ---- expressions

    def arguments(self):
        self.open("(")
        found = [] if self.sees(")") else self.separated(self.expression)
        self.close(")")
        return found

    def index(self):
        self.open("[")
        found = self.expression()
        self.close("]")
        return found

    def expression(self, strength=0):
        if strength == len(STRENGTHS):
            return self.operand()
        first, rest = self.expression(strength + 1), []
        while self.sees(*STRENGTHS[strength]) and not (rest and STRENGTHS[strength] is COMPARISONS):
            rest.append((self.take(*STRENGTHS[strength]).text, self.expression(strength + 1)))
        return Chain(first, rest) if rest else first

    def operand(self):
        if self.sees("-", "not"):
            found = Unary(self.open(self.word.kind).text, self.operand())
            self.levels -= 1
            return found
        if self.sees("nat"):
            return self.number()
        if self.sees("("):
            self.open("(")
            found = Chain(self.expression(), [])
            self.close(")")
            return found
        word = self.take("name")
        if self.sees("["):
            return Element(word, self.index())
        return Call(word, self.arguments()) if self.sees("(") else Name(word.text, word.line)


DECLARED = {
    "var": Reader.rest_of_variable,
    "array": Reader.rest_of_array,
    "semaphore": Reader.rest_of_pair,
    "event": Reader.rest_of_name,
    "buffer": Reader.rest_of_pair,
    "blackboard": Reader.rest_of_blackboard,
    "port": Reader.rest_of_name,
    "proc": Reader.rest_of_procedure,
}
STATEMENTS = {
    "name": Reader.assignment,
    "if": Reader.conditional,
    "while": Reader.loop,
    "work": Reader.work,
    "return": Reader.give_back,
    "SERVICE": Reader.ask,
}


def number_of(text):
    """The value of the digits; of very many digits a number that is too great all the same."""
    digits = text.lstrip("0") or "0"
    return int(digits) if len(digits) <= 30 else 10**30


def read_program(text):
    return Reader(text).program()
