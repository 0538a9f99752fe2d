"""The services, as section 6 of PAL.md lists them: their numbers count from 1."""

import re
from dataclasses import dataclass

TEXT = """
GET_PARTITION_STATUS() -> code, id, period, duration, lock_level, mode, start_condition;
SET_PARTITION_MODE(mode) -> code;
GET_PROCESS_ID(process) -> code, id;
GET_PROCESS_STATUS(id) -> code, state, priority, deadline;
CREATE_PROCESS(process) -> code, id;
SET_PRIORITY(id, priority) -> code;
SUSPEND_SELF(time_out) -> code;
SUSPEND(id) -> code;
RESUME(id) -> code;
STOP_SELF();
STOP(id) -> code;
START(id) -> code;
DELAYED_START(id, delay) -> code;
LOCK_PREEMPTION() -> code, level;
UNLOCK_PREEMPTION() -> code, level;
GET_MY_ID() -> code, id;
TIMED_WAIT(delay) -> code;
PERIODIC_WAIT() -> code;
GET_TIME() -> code, time;
REPLENISH(budget) -> code;
CREATE_BUFFER(buffer) -> code, id;
SEND_BUFFER(id, array, length, time_out) -> code;
RECEIVE_BUFFER(id, array, time_out) -> code, length;
GET_BUFFER_ID(buffer) -> code, id;
GET_BUFFER_STATUS(id) -> code, messages, depth, words, waiting;
CREATE_BLACKBOARD(blackboard) -> code, id;
DISPLAY_BLACKBOARD(id, array, length) -> code;
READ_BLACKBOARD(id, array, time_out) -> code, length;
CLEAR_BLACKBOARD(id) -> code;
GET_BLACKBOARD_ID(blackboard) -> code, id;
GET_BLACKBOARD_STATUS(id) -> code, indicator, words, waiting;
CREATE_SEMAPHORE(semaphore) -> code, id;
WAIT_SEMAPHORE(id, time_out) -> code;
SIGNAL_SEMAPHORE(id) -> code;
GET_SEMAPHORE_ID(semaphore) -> code, id;
GET_SEMAPHORE_STATUS(id) -> code, value, maximum, waiting;
CREATE_EVENT(event) -> code, id;
SET_EVENT(id) -> code;
RESET_EVENT(id) -> code;
WAIT_EVENT(id, time_out) -> code;
GET_EVENT_ID(event) -> code, id;
GET_EVENT_STATUS(id) -> code, state, waiting;
CREATE_SAMPLING_PORT(port) -> code, id;
WRITE_SAMPLING_MESSAGE(id, array, length) -> code;
READ_SAMPLING_MESSAGE(id, array) -> code, length, validity;
GET_SAMPLING_PORT_ID(port) -> code, id;
GET_SAMPLING_PORT_STATUS(id) -> code, words, direction, refresh, validity;
CREATE_QUEUING_PORT(port) -> code, id;
SEND_QUEUING_MESSAGE(id, array, length, time_out) -> code;
RECEIVE_QUEUING_MESSAGE(id, array, time_out) -> code, length;
GET_QUEUING_PORT_ID(port) -> code, id;
GET_QUEUING_PORT_STATUS(id) -> code, messages, depth, words, direction, waiting;
CLEAR_QUEUING_PORT(id) -> code;
REPORT_APPLICATION_MESSAGE(array, length) -> code;
CREATE_ERROR_HANDLER() -> code;
GET_ERROR_STATUS(array) -> code, error, id, length;
RAISE_APPLICATION_ERROR(error, array, length) -> code;
"""
# An argument of this name is the name of one that is declared, and `array` is an array; every other one is an expression.
DECLARED = ("process", "semaphore", "event", "buffer", "blackboard", "port")
FORM = re.compile(r"([A-Z_]+)\((.*)\)(?: -> (.*))?;")


@dataclass(frozen=True)
class Service:
    number: int
    name: str
    arguments: tuple
    answer_words: int  # the code and the outputs

    @property
    def kinds(self):
        """Of each argument: "array", the kind of a declared name, or "value"."""
        return tuple(it if it == "array" or it in DECLARED else "value" for it in self.arguments)

    @property
    def outputs(self):
        return self.answer_words - 1

    @property
    def argument_words(self):
        return len(self.arguments) + self.arguments.count("array")

    @property
    def cost_key(self):
        if self.name.startswith("CREATE_"):
            return "create"
        return "message" if "array" in self.arguments else "service"


def row_of(number, line):
    name, arguments, targets = FORM.fullmatch(line).groups()
    return Service(number, name, tuple(filter(None, arguments.split(", "))), len(targets.split(", ")) if targets else 0)


SERVICES = tuple(row_of(n, line) for n, line in enumerate(TEXT.strip().splitlines(), 1))
BY_NAME = {it.name: it for it in SERVICES}


def service(number):
    """The service of this number, or None."""
    return SERVICES[number - 1] if 1 <= number <= len(SERVICES) else None
