"""What each service checks and does (SERVICES.md and its six pages)."""

import re

import limits
from kernel.records import A_DELAY, A_RELEASE, A_RESUME, COLD_START, DORMANT, INVALID_CONFIG, INVALID_MODE, INVALID_PARAM, MODES, NO_ACTION
from kernel.records import NO_ERROR, NORMAL, NOTHING, PARTITION_RESTART, READY, RUNNING, STATES, WARM_START, refuse
from model import DIRECTIONS

# What is created, found and described in the same way: the outputs of its status.
STATUS = {
    "PROCESS": lambda it: (STATES.index(it.state), it.priority, -1 if it.deadline is None else it.deadline),
    "BUFFER": lambda it: (len(it.messages), it.row.depth, it.row.words, len(it.waiting)),
    "BLACKBOARD": lambda it: (len(it.messages), it.row.words, len(it.waiting)),
    "SEMAPHORE": lambda it: (it.value, it.row.maximum, len(it.waiting)),
    "EVENT": lambda it: (it.value, len(it.waiting)),
    "SAMPLING_PORT": lambda it: (it.row.words, DIRECTIONS.index(it.row.direction), it.row.refresh, it.was_valid),
    "QUEUING_PORT": lambda it: (len(it.messages), it.row.depth, it.row.words, DIRECTIONS.index(it.row.direction), len(it.waiting)),
}
COMMON = re.compile(rf"(CREATE|GET)_({'|'.join(STATUS)})(_ID|_STATUS)?")


class Call:
    """A service that a runner asks for. Each service is the method of its name, but for those that all kinds have."""

    def __init__(self, kernel, caller, row):
        self.kernel, self.caller, self.row = kernel, caller, row

    def serve(self, words):
        common = COMMON.fullmatch(self.row.name)
        if common:
            does = {None: self.create, "_ID": self.get_id, "_STATUS": self.get_status}[common[3]]
            does(common[2], *words)
        else:
            getattr(self, self.row.name.lower())(*words)

    def answer(self, *outputs, code=NO_ERROR):
        self.kernel.returns(self.caller, self.row, code, outputs)

    # ---- what all kinds have

    def rows(self, kind):
        """All of this kind, by number; None in place of a port of the other kind."""
        what, _, is_port = kind.partition("_")
        if is_port:
            return [it if it.row.kind == what else None for it in self.kernel.ports]
        return self.kernel.processes if kind == "PROCESS" else self.kernel.objects[kind.lower()]

    def found(self, kind, number, code=INVALID_PARAM):
        """The one of this number, which has to be created."""
        rows = self.rows(kind)
        found = rows[number - 1] if 1 <= number <= len(rows) else None
        refuse(found is None or not found.created, code)
        return found

    def create(self, kind, number):
        rows = self.rows(kind)
        refuse(self.kernel.mode == NORMAL, INVALID_MODE)
        refuse(not 1 <= number <= len(rows) or rows[number - 1] is None, INVALID_CONFIG)
        refuse(rows[number - 1].created, NO_ACTION)
        rows[number - 1].created = True
        self.answer(number)

    def get_id(self, kind, number):
        self.found(kind, number, INVALID_CONFIG)
        self.answer(number)

    def get_status(self, kind, number):
        self.answer(*map(int, STATUS[kind](self.found(kind, number))))

    # ---- the partition

    def get_partition_status(self):
        kernel, row = self.kernel, self.kernel.row
        self.answer(kernel.number, row.period, row.duration, kernel.lock_level, MODES.index(kernel.mode), kernel.condition)

    def set_partition_mode(self, number):
        refuse(not 0 <= number <= 3, INVALID_PARAM)
        mode, now = MODES[number], self.kernel.mode
        refuse(mode == NORMAL and now == NORMAL, NO_ACTION)
        refuse(mode == WARM_START and now == COLD_START, INVALID_MODE)
        self.answer()
        if mode == NORMAL:
            self.kernel.normal_start()
        else:
            self.kernel.clear(mode, PARTITION_RESTART)

    # ---- processes

    def other(self, number):
        """The created process of this number, which is not the caller."""
        found = self.found("PROCESS", number)
        refuse(found is self.caller, INVALID_PARAM)
        return found

    def set_priority(self, number, priority):
        found = self.found("PROCESS", number)
        refuse(not 1 <= priority <= limits.GREATEST_PRIORITY, INVALID_PARAM)
        refuse(found.state == DORMANT, INVALID_MODE)
        self.answer()
        found.priority = priority
        self.kernel.go_last(found)

    def suspend_self(self, time_out):
        refuse(self.kernel.is_busy(self.caller), INVALID_MODE)
        refuse(not limits.is_time_out(time_out), INVALID_PARAM)
        refuse(self.caller.is_periodic, INVALID_MODE)
        if time_out == 0:
            self.answer()
        else:
            self.caller.suspended = True
            self.kernel.waits(self.caller, A_RESUME, self.kernel.time_of(time_out), self.row)

    def suspend(self, number):
        found = self.other(number)
        refuse(found.state == DORMANT or found.is_periodic or found is self.kernel.holder, INVALID_MODE)
        refuse(found.suspended, NO_ACTION)
        self.answer()
        found.suspended = True
        if found.state in (READY, RUNNING):
            self.kernel.waits(found, NOTHING)

    def resume(self, number):
        found = self.other(number)
        refuse(found.state == DORMANT or found.is_periodic, INVALID_MODE)
        refuse(not found.suspended, NO_ACTION)
        self.answer()
        self.kernel.resume(found)

    def stop_self(self):
        self.kernel.end(self.caller)

    def stop(self, number):
        found = self.other(number)
        refuse(found.state == DORMANT, NO_ACTION)
        self.answer()
        self.kernel.become_dormant(found)

    def start(self, number):
        found = self.found("PROCESS", number)
        refuse(found.state != DORMANT, NO_ACTION)
        self.answer()
        self.kernel.start(found, 0)

    def delayed_start(self, number, delay):
        found = self.found("PROCESS", number)
        refuse(not limits.is_delay(delay), INVALID_PARAM)
        refuse(found.is_periodic and delay >= found.period, INVALID_PARAM)
        refuse(found.state != DORMANT, NO_ACTION)
        self.answer()
        self.kernel.start(found, delay)

    def lock_preemption(self):
        kernel = self.kernel
        refuse(self.caller is kernel.handler or kernel.mode != NORMAL, NO_ACTION)
        refuse(kernel.lock_level == limits.LOCK_LEVEL, INVALID_CONFIG)
        kernel.lock_level, kernel.holder = kernel.lock_level + 1, self.caller
        self.answer(kernel.lock_level)

    def unlock_preemption(self):
        kernel = self.kernel
        refuse(self.caller is kernel.handler or kernel.mode != NORMAL or kernel.lock_level == 0, NO_ACTION)
        kernel.lock_level -= 1
        if kernel.lock_level == 0:
            kernel.holder = None
        self.answer(kernel.lock_level)

    def get_my_id(self):
        refuse(not self.caller.is_process, INVALID_MODE)
        self.answer(self.caller.number)

    # ---- time

    def timed_wait(self, delay):
        refuse(self.kernel.is_busy(self.caller), INVALID_MODE)
        refuse(not limits.is_delay(delay), INVALID_PARAM)
        if delay == 0:
            self.answer()
            self.kernel.go_last(self.caller)
        else:
            self.kernel.waits(self.caller, A_DELAY, self.kernel.now + delay, self.row)

    def periodic_wait(self):
        refuse(self.kernel.is_busy(self.caller) or not self.caller.is_periodic, INVALID_MODE)
        self.caller.deadline = None
        self.kernel.waits(self.caller, A_RELEASE, self.caller.last_release + self.caller.period, self.row)

    def get_time(self):
        self.answer(self.kernel.now)

    def replenish(self, budget):
        kernel, caller = self.kernel, self.caller
        refuse(caller is kernel.handler or kernel.mode != NORMAL, NO_ACTION)
        refuse(not limits.is_time_out(budget), INVALID_PARAM)
        refuse(caller.capacity == -1, NO_ACTION)
        next_release = caller.last_release + caller.period
        refuse(caller.is_periodic and (budget == -1 or kernel.now + budget > next_release), INVALID_MODE)
        caller.deadline = kernel.time_of(budget)
        self.answer()

    # ---- messages and waiting

    def words_in(self, place, length):
        return self.kernel.engine.data[place : place + length]

    def refuse_length(self, length, *mosts):
        refuse(not 1 <= length <= min(mosts), INVALID_PARAM)

    def waits(self, found, time_out, message=None, array=None):
        self.kernel.wait_in_list(self.caller, self.row, found.waiting, time_out, message, array)

    def hand_over(self, found, place, size, time_out):
        """The first message goes into the caller's array; the caller waits if there is none. Whether there was one."""
        if not found.messages:
            self.waits(found, time_out, array=(place, size))
            return False
        self.kernel.store(place, found.messages[0])
        self.answer(len(found.messages[0]), code=INVALID_CONFIG if found.has_lost else NO_ERROR)
        return True

    # ---- objects

    def send_buffer(self, number, place, size, length, time_out):
        found = self.found("BUFFER", number)
        self.refuse_length(length, found.row.words, size)
        refuse(not limits.is_time_out(time_out), INVALID_PARAM)
        message = self.words_in(place, length)
        if found.is_full:
            self.waits(found, time_out, message=message)
            return
        self.answer()
        if found.waiting:
            self.kernel.release_first(found.waiting, message)
        else:
            found.messages.append(message)

    def receive_buffer(self, number, place, size, time_out):
        found = self.found("BUFFER", number)
        refuse(size < found.row.words or not limits.is_time_out(time_out), INVALID_PARAM)
        if self.hand_over(found, place, size, time_out):
            found.messages.pop(0)
            if found.waiting:
                self.kernel.let_in(found)

    def display_blackboard(self, number, place, size, length):
        found = self.found("BLACKBOARD", number)
        self.refuse_length(length, found.row.words, size)
        found.messages = [self.words_in(place, length)]
        self.answer()
        while found.waiting:
            self.kernel.release_first(found.waiting, found.messages[0])

    def read_blackboard(self, number, place, size, time_out):
        found = self.found("BLACKBOARD", number)
        refuse(size < found.row.words or not limits.is_time_out(time_out), INVALID_PARAM)
        self.hand_over(found, place, size, time_out)

    def clear_blackboard(self, number):
        self.found("BLACKBOARD", number).messages = []
        self.answer()

    def wait_semaphore(self, number, time_out):
        found = self.found("SEMAPHORE", number)
        refuse(not limits.is_time_out(time_out), INVALID_PARAM)
        if found.value == 0:
            self.waits(found, time_out)
        else:
            found.value -= 1
            self.answer()

    def signal_semaphore(self, number):
        found = self.found("SEMAPHORE", number)
        refuse(found.value == found.row.maximum, NO_ACTION)
        self.answer()
        if found.waiting:
            self.kernel.release_first(found.waiting)
        else:
            found.value += 1

    def set_event(self, number):
        found = self.found("EVENT", number)
        found.value = 1
        self.answer()
        while found.waiting:
            self.kernel.release_first(found.waiting)

    def reset_event(self, number):
        self.found("EVENT", number).value = 0
        self.answer()

    def wait_event(self, number, time_out):
        found = self.found("EVENT", number)
        refuse(not limits.is_time_out(time_out), INVALID_PARAM)
        if found.value:
            self.answer()
        else:
            self.waits(found, time_out)

    # ---- ports

    def write_sampling_message(self, number, place, size, length):
        found = self.found("SAMPLING_PORT", number)
        refuse(not found.is_source, INVALID_MODE)
        self.refuse_length(length, found.row.words, size)
        found.messages = [self.words_in(place, length)]
        self.answer()

    def read_sampling_message(self, number, place, size):
        found = self.found("SAMPLING_PORT", number)
        refuse(found.is_source, INVALID_MODE)
        refuse(size < found.row.words, INVALID_PARAM)
        refuse(not found.messages, NO_ACTION)
        found.was_valid = self.kernel.now <= found.arrival + found.row.refresh
        self.kernel.store(place, found.messages[0])
        self.answer(len(found.messages[0]), int(found.was_valid))

    def send_queuing_message(self, number, place, size, length, time_out):
        found = self.found("QUEUING_PORT", number)
        refuse(not limits.is_time_out(time_out), INVALID_PARAM)
        refuse(not found.is_source, INVALID_MODE)
        self.refuse_length(length, found.row.words, size)
        message = self.words_in(place, length)
        if found.is_full:
            self.waits(found, time_out, message=message)
        else:
            found.messages.append(message)
            self.answer()

    def receive_queuing_message(self, number, place, size, time_out):
        found = self.found("QUEUING_PORT", number)
        refuse(not limits.is_time_out(time_out), INVALID_PARAM)
        refuse(found.is_source, INVALID_MODE)
        refuse(size < found.row.words, INVALID_PARAM)
        if self.hand_over(found, place, size, time_out):
            found.messages.pop(0)
            found.has_lost = False

    def clear_queuing_port(self, number):
        found = self.found("QUEUING_PORT", number)
        refuse(found.is_source, INVALID_MODE)
        found.messages, found.has_lost = [], False
        self.answer()

    # ---- reports and errors

    def report_application_message(self, place, size, length):
        self.refuse_length(length, limits.REPORT_WORDS, size)
        self.answer()
        self.kernel.tell(f"REPORT {self.caller.name} {' '.join(map(str, self.words_in(place, length)))}")

    def create_error_handler(self):
        kernel = self.kernel
        refuse(kernel.mode == NORMAL, INVALID_MODE)
        refuse(not kernel.has_handler, INVALID_CONFIG)
        refuse(kernel.handler.created, NO_ACTION)
        kernel.handler.created = True
        self.answer()

    def get_error_status(self, place, size):
        kernel = self.kernel
        refuse(self.caller is not kernel.handler, INVALID_CONFIG)
        refuse(size < limits.REPORT_WORDS, INVALID_PARAM)
        refuse(not kernel.errors, NO_ACTION)
        error, number, words = kernel.errors.pop(0)
        kernel.store(place, words)
        self.answer(error, number, len(words))

    def raise_application_error(self, error, place, size, length):
        refuse(error != 1, INVALID_PARAM)
        self.refuse_length(length, limits.REPORT_WORDS, size)
        self.answer()
        self.kernel.handle_error(self.caller, error, self.words_in(place, length))
