"""Random code that no compiler writes, in place of some of an image's."""

from processor import INSTRUCTIONS, OPCODES
from services import SERVICES

EDGES = (0, 1, 2, 15, 16, 17, 39, 40, 72, 4096, 65_535, 65_536, 2**32, 2**40, 2**40 + 1)


def make_wild(random, image):
    """Writes over instructions of some partitions, and of one at least."""
    for section in random.sample(image.sections, random.randint(1, len(image.sections))):
        wild = Wild(random, section)
        for _ in range(random.choice((1, 3, 6, 20))):
            piece = wild.piece()[: len(section.code)]
            first = random.randint(0, len(section.code) - len(piece))
            section.code[first : first + len(piece)] = [(OPCODES.get(name, name), x, v) for name, x, v in piece]


class Wild:
    """Pieces of code, as lists of a name, or an opcode that has none, and the fields x and v."""

    def __init__(self, random, section):
        self.random, self.section = random, section

    def piece(self):
        pieces = (
            self.any_instruction, self.any_instruction, self.no_instruction, self.store, self.store, self.load, self.sweep,
            self.forged_return, self.service, self.service, self.service, self.endless,
        )
        return self.random.choice(pieces)()

    # ---- numbers

    def number(self):
        """A word, mostly one near an edge that something has to keep."""
        data, pick = len(self.section.data), self.random.random()
        if pick < 0.5:
            return self.random.choice((*EDGES, data - 1, data, data + 1, len(self.section.code)))
        if pick < 0.8:
            return self.random.randint(-8, 60)
        return self.random.choice((-(2**63), 1 - 2**63, 2**63 - 1, 2**63 - 2, -1, self.random.randint(-(2**63), 2**63 - 1)))

    def place(self):
        """An instruction of the partition, or the one that would follow the last."""
        return self.random.randint(0, len(self.section.code))

    def field(self):
        if self.random.random() < 0.7:
            return self.random.randint(0, 20)
        return self.random.choice((len(self.section.data), self.place(), len(self.section.routines), 65_536, 2**31, 2**32 - 1))

    def region(self):
        return self.random.choice((0, 1, 1, 1, 2, 2, 2, 3, 2**32 - 1))

    # ---- pieces of code

    def pushes(self, *words):
        return [("PUSH", 0, it) for it in words]

    def any_instruction(self):
        row = self.random.choice(list(INSTRUCTIONS.values()))
        if row.name in ("JMP", "JZ"):
            return [(row.name, self.place(), 0)]
        v = self.random.choice((-1, 0, 1, 5, 60, 10**6, 10**6 + 1)) if row.name == "WORK" else self.number()
        return [(row.name, self.field() if "x" in row.fields else 0, v if "v" in row.fields else 0)]

    def no_instruction(self):
        return [(self.random.choice((0, 32, 99, 2**32 - 1, self.random.randint(1, 31))), self.field(), self.number())]

    def store(self):
        return [*self.pushes(self.number(), self.number()), ("STR", self.region(), 0)]

    def load(self):
        return [*self.pushes(self.number()), ("LDR", self.region(), 0)]

    def sweep(self):
        """Stores in its memory from word 0 on, until an address is refused; its own first word counts."""
        count = [("LDG", 0, 0), *self.pushes(1), ("ADD", 0, 0), ("STG", 0, 0)]
        return [("LDG", 0, 0), *self.pushes(666), ("STR", self.random.choice((1, 2)), 0), *count, ("JMP", self.place(), 0)]

    def forged_return(self):
        """Another place and another frame in the words that RET reads."""
        slot = self.random.randint(0, 8)
        forged = [(slot, self.place()), (slot + 1, self.random.choice((0, 0, 3, self.number())))]
        stores = [it for pair in forged for it in [*self.pushes(*pair), ("STR", 2, 0)]]
        return [*stores, *self.pushes(self.number()), ("RET", slot, 0)]

    def service(self):
        row = self.random.choice(SERVICES)
        count = row.argument_words if self.random.random() < 0.8 else self.random.randint(0, row.argument_words + 1)
        makes = self.number if self.random.random() < 0.3 else lambda: self.random.randint(0, 4)
        number = row.number if self.random.random() < 0.95 else self.random.choice((0, len(SERVICES) + 1))
        return [*self.pushes(*(makes() for _ in range(count))), ("SVC", number, 0)]

    def endless(self):
        """Pushes until the stack is full."""
        return [*self.pushes(1), ("JMP", self.place(), 0)]
