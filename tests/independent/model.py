"""What a module table says, and what a partition's source declares. Both roads use these values."""

from dataclasses import dataclass, field

ERRORS = ("DEADLINE_MISSED", "APPLICATION_ERROR", "NUMERIC_ERROR", "ILLEGAL_REQUEST", "STACK_OVERFLOW", "MEMORY_VIOLATION", "HARDWARE_FAULT")
MODULE_ACTIONS = ("IGNORE", "SHUTDOWN", "RESET")
PARTITION_ACTIONS = ("IGNORE", "IDLE", "WARM_START", "COLD_START")
KINDS = ("SAMPLING", "QUEUING")
DIRECTIONS = ("SOURCE", "DESTINATION")
DISCIPLINES = ("FIFO", "PRIORITY")
# The kinds of objects, and what numbers a declaration gives.
OBJECT_KINDS = {"semaphore": ("first", "maximum"), "event": (), "buffer": ("words", "depth"), "blackboard": ("words",)}

COST_KEYS = (
    "literal", "scalar", "array", "add", "mul", "div", "logic", "branch", "jump", "call", "return", "create", "message", "service", "end",
)
WRITTEN_COSTS = dict(zip(COST_KEYS, (1, 1, 2, 1, 2, 4, 1, 1, 1, 3, 2, 8, 6, 4, 4)))

# The end of a channel that is everything outside the module.
DEVICE = (0, 0)


@dataclass
class Port:
    name: str = ""
    kind: str = "SAMPLING"
    direction: str = "SOURCE"
    words: int = 0
    refresh: int = 0
    depth: int = 0
    discipline: str = "FIFO"


@dataclass
class PartitionRow:
    name: str = ""
    period: int = 0
    duration: int = 0
    actions: dict = field(default_factory=lambda: dict.fromkeys(ERRORS))  # from an error to its action
    ports: list = field(default_factory=list)


@dataclass
class Window:
    partition: int = 0  # from 1
    offset: int = 0
    length: int = 0
    release: bool = False

    @property
    def end(self):
        return self.offset + self.length


@dataclass
class Channel:
    name: str = ""
    source: tuple = DEVICE  # (partition, port), from 1, or DEVICE
    destinations: list = field(default_factory=list)

    @property
    def ends(self):
        return [self.source, *self.destinations]


@dataclass
class Table:
    frame: int = 0
    action: str = "IGNORE"  # on a fault of the module
    costs: dict = field(default_factory=lambda: dict(WRITTEN_COSTS))
    partitions: list = field(default_factory=list)
    windows: list = field(default_factory=list)
    channels: list = field(default_factory=list)

    def number_of(self, name):
        """The number of the partition of this name, or None."""
        return next((n for n, row in enumerate(self.partitions, 1) if row.name == name), None)

    def windows_of(self, number):
        return [it for it in self.windows if it.partition == number]

    def port(self, end):
        """The port at the end of a channel, or None."""
        partition, port = end
        if 1 <= partition <= len(self.partitions) and 1 <= port <= len(self.partitions[partition - 1].ports):
            return self.partitions[partition - 1].ports[port - 1]
        return None


@dataclass
class ObjectRow:
    """What is declared of a semaphore, an event, a buffer or a blackboard."""

    discipline: str = "FIFO"
    first: int = 0
    maximum: int = 0
    words: int = 0
    depth: int = 0


@dataclass
class ProcessRow:
    name: str = ""
    priority: int = 0
    period: int = -1  # -1 is infinite
    capacity: int = -1
