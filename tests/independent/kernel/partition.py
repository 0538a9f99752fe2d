"""A partition's kernel: what is kept, a tick, and the steps that several services share (KERNEL.md)."""

import limits
from kernel.asked import Call
from kernel.records import A_DELAY, A_LIST, A_RELEASE, A_RESUME, COLD_START, DORMANT, HM_PARTITION_RESTART, IDLE, INVALID_MODE, NO_ERROR, NORMAL
from kernel.records import NORMAL_START, NOT_AVAILABLE, NOTHING, PARTITION_RESTART, READY, RUNNING, THE_START, TIMED_OUT, WAITING
from kernel.records import Held, Refused, Runner, Waiter, line_up, refuse
from model import ERRORS
from services import service

FOREVER = float("inf")


class Partition:
    """The kernel of one partition over an engine.

    The engine has the data, and makes the control of a body: how many ticks its next construct has left, its last tick, and what it is answered.
    """

    def __init__(self, number, row, objects, processes, has_handler, engine, schedule, tell):
        self.number, self.row, self.engine, self.schedule, self.write = number, row, engine, schedule, tell
        self.init = Runner("INIT", 0)
        self.processes = [Runner(it.name, n, n, it.priority, it.period, it.capacity) for n, it in enumerate(processes, 1)]
        self.handler, self.has_handler = Runner("HANDLER", len(processes) + 1), has_handler
        self.objects = {kind: [Held(it) for it in rows] for kind, rows in objects.items()}
        self.ports = [Held(it, n) for n, it in enumerate(row.ports, 1)]
        self.sources = [it for it in self.ports if it.is_source]
        self.mode, self.condition = IDLE, NORMAL_START
        self.order, self.running, self.holder, self.lock_level = [], None, None, 0
        self.errors = []  # (error, process number, words)
        self.now = 0
        self.earliest = None  # the next due time or deadline; None where it has to be looked for

    def tell(self, words):
        self.write(self.now, self.row.name, words)

    # ---- ticks

    def run(self, now, stop):
        """Its ticks from this one up to another. Those in which the running one only counts are made at once."""
        while now < stop:
            self.tick(now)
            quiet = min(stop - now - 1, self.quiet_ticks(now + 1))
            if self.running is not None:
                self.running.control.spent += quiet
            now += 1 + quiet

    def tick(self, now):
        self.now = now
        self.treat_due()
        self.start_handler()
        self.choose()
        if self.running is not None:
            self.spend_tick()

    def spend_tick(self):
        runner = self.running
        if runner.control.left() > 1:
            runner.control.spent += 1
            return
        request = runner.control.act()
        if request is not None:
            self.earliest = None
            getattr(self, request[0])(runner, *request[1:])

    def quiet_ticks(self, now):
        """How many ticks from this one on are only counted, if the partition has them all."""
        left = self.next_due() - now
        if left <= 0 or self.handler_is_wanted() or self.choice() is not self.running:
            return 0
        return left if self.running is None else min(left, self.running.control.left() - 1)

    def next_due(self):
        if self.earliest is None:
            times = [it for runner in self.processes for it in (runner.due, runner.deadline) if it is not None]
            self.earliest = min(times, default=FOREVER)
        return self.earliest

    def sleeps(self):
        """Whether nothing can happen before something is due or comes from outside."""
        return not self.handler_is_wanted() and self.choice() is None and not any(it.messages for it in self.sources)

    # ---- what is due

    def treat_due(self):
        if self.next_due() > self.now:
            return
        self.earliest = None
        for it in self.processes:
            if it.due is not None and it.due <= self.now:
                self.treat_due_time(it)
            if it.deadline is not None and it.deadline <= self.now and self.miss_deadline(it):
                return

    def treat_due_time(self, runner):
        if runner.waits_for == A_RELEASE:
            self.release(runner, runner.due)
            return
        code = NO_ERROR if runner.waits_for == A_DELAY else TIMED_OUT
        if runner.waits_for == A_RESUME:
            runner.suspended = False
        if runner.waits_for == A_LIST:
            runner.waiting_list.leave(runner)
        self.end_wait(runner, code)

    def miss_deadline(self, runner):
        """Whether the partition was cleared."""
        runner.deadline = None
        return self.handle_error(runner, 0)

    # ---- the choice

    def handler_is_wanted(self):
        return self.mode == NORMAL and self.errors and self.handler.created and self.handler.state == DORMANT

    def start_handler(self):
        if self.handler_is_wanted():
            self.begin(self.handler)
            self.enter(self.handler, READY)

    def choice(self):
        if self.mode == IDLE:
            return None
        if self.mode != NORMAL:
            return self.init
        if self.handler.state in (READY, RUNNING):
            return self.handler
        if self.holder is not None:
            return self.holder
        return self.order[0] if self.order else None

    def choose(self):
        chosen = self.choice()
        if chosen is self.running:
            return
        if self.running is not None:
            self.enter(self.running, READY)
        self.running = chosen
        if chosen is not None:
            self.enter(chosen, RUNNING)

    # ---- what the chosen one asks for

    def call(self, runner, number, arguments):
        row = service(number)
        try:
            Call(self, runner, row).serve(arguments)
        except Refused as why:
            self.returns(runner, row, *why.args)

    def fault(self, runner, error):
        self.become_dormant(runner)
        self.handle_error(runner, ERRORS.index(error))

    def end(self, runner):
        if runner is self.init:
            self.clear(IDLE, PARTITION_RESTART)
        else:
            self.become_dormant(runner)

    def returns(self, runner, row, code, outputs=()):
        """A service ends: its line, and its answer to the caller."""
        self.tell(f"RET {runner.name} {row.name} {code}")
        if runner.control is not None:
            runner.control.answer([code, *(outputs or [0] * row.outputs)])

    # ---- states

    def begin(self, runner):
        runner.control = self.engine.control(runner.index)

    def enter(self, runner, state):
        runner.state = state
        self.tell(f"STATE {runner.name} {state}")

    def become_ready(self, runner):
        """It is the last of its priority. One that is suspended waits on."""
        runner.forget_wait()
        if not runner.suspended:
            line_up(self.order, runner)
            self.enter(runner, READY)

    def go_last(self, runner):
        """A ready or running process goes after all of its priority."""
        if runner in self.order:
            self.order.remove(runner)
            line_up(self.order, runner)

    def leave_order(self, runner):
        if runner in self.order:
            self.order.remove(runner)
        if self.running is runner:
            self.running = None

    def begin_to_wait(self, runner, what, due=None, asked=None):
        """The runner leaves the processor and the order, and is WAITING. There is no line."""
        self.leave_order(runner)
        runner.waits_for, runner.due, runner.waits_in = what, due, asked
        runner.state = WAITING

    def waits(self, runner, what, due=None, asked=None):
        self.begin_to_wait(runner, what, due, asked)
        self.tell(f"STATE {runner.name} WAITING")

    def time_of(self, time_out):
        return None if time_out == -1 else self.now + time_out

    def end_wait(self, runner, code, outputs=()):
        """The service that it waits in ends, and it is ready."""
        if runner.waits_in is not None:
            self.returns(runner, runner.waits_in, code, outputs)
        self.become_ready(runner)

    def become_dormant(self, runner):
        self.leave_order(runner)
        if runner.waiting_list is not None:
            runner.waiting_list.leave(runner)
        if self.holder is runner:
            self.holder, self.lock_level = None, 0
        runner.forget_wait()
        runner.deadline, runner.suspended, runner.control = None, False, None
        self.enter(runner, DORMANT)

    def release(self, runner, tick):
        runner.last_release = tick
        runner.deadline = None if runner.capacity == -1 else tick + runner.capacity
        self.end_wait(runner, NO_ERROR)

    def resume(self, runner):
        """It is not suspended any more; what it waits for besides goes on."""
        runner.suspended = False
        if runner.waits_for == A_RESUME:
            self.end_wait(runner, NO_ERROR)
        elif runner.waits_for == NOTHING:
            self.become_ready(runner)

    def is_busy(self, runner):
        return not runner.is_process or self.lock_level > 0

    # ---- waiting lists and messages

    def wait_in_list(self, runner, row, waiting, time_out, message, array):
        """The two checks of a caller that has to wait, and the wait."""
        refuse(time_out == 0, NOT_AVAILABLE)
        refuse(self.is_busy(runner), INVALID_MODE)
        self.waits(runner, A_LIST, self.time_of(time_out), row)
        runner.waiting_list = waiting
        waiting.join(Waiter(runner, runner.priority, message, array))

    def release_first(self, waiting, message=None):
        """The first in the list is released; a message goes into its array."""
        waiter = waiting.waiters.pop(0)
        self.earliest = None
        if message is not None:
            self.store(waiter.array[0], message)
        self.end_wait(waiter.runner, NO_ERROR, [] if message is None else [len(message)])

    def let_in(self, held):
        """The message of the first sender that waits comes in, and the sender is released."""
        held.messages.append(held.waiting.waiters[0].message)
        self.release_first(held.waiting)

    def store(self, place, words):
        self.engine.data[place : place + len(words)] = words

    def arrive(self, now, number, words):
        """A message comes to a destination."""
        self.now = now
        port, told = self.ports[number - 1], "ARRIVE"
        if port.row.kind == "QUEUING" and not port.waiting and port.is_full:
            port.has_lost, told = True, "LOST"
        self.tell(f"{told} {port.row.name} {' '.join(map(str, words))}")
        if port.row.kind == "SAMPLING":
            port.messages, port.arrival = [words], now
        elif port.waiting:
            self.release_first(port.waiting, words)
        elif told == "ARRIVE":
            port.messages.append(words)

    def move(self, now, send):
        """The window has ended: the source ports move. `send` hands a message to its channel."""
        self.now = now
        for port in self.sources:
            messages, port.messages = port.messages, []
            for it in messages:
                self.tell(f"MOVE {port.row.name} {' '.join(map(str, it))}")
                send(port.number, it)
            while port.waiting and not port.is_full:
                self.let_in(port)

    # ---- starts

    def clear(self, mode, condition):
        self.earliest = None
        for it in [self.init, *self.processes, self.handler, *self.ports, *(it for rows in self.objects.values() for it in rows)]:
            it.clear()
        self.order, self.running, self.holder, self.lock_level = [], None, None, 0
        self.errors = []
        self.mode, self.condition = mode, condition
        if mode == COLD_START:
            self.engine.data[:] = self.engine.initial
        self.tell(f"MODE {mode}")
        if mode != IDLE:
            self.begin(self.init)
            self.enter(self.init, READY)

    def start(self, runner, delay):
        self.begin(runner)
        runner.priority, runner.delay = runner.base, delay
        if self.mode != NORMAL:
            self.waits(runner, THE_START)
        elif not self.starts_now(runner):
            self.tell(f"STATE {runner.name} WAITING")

    def starts_now(self, runner):
        """The row of the table of starts: whether it is released in this tick; else it waits for its release."""
        if not runner.is_periodic and runner.delay == 0:
            runner.state = WAITING
            self.release(runner, self.now)
            return True
        since = self.schedule.next_release(self.number, self.now) if runner.is_periodic else self.now
        self.begin_to_wait(runner, A_RELEASE, since + runner.delay)
        return False

    def normal_start(self):
        self.init.control = self.running = None
        self.enter(self.init, DORMANT)
        self.mode = NORMAL
        self.tell("MODE NORMAL")
        for it in self.processes:
            if it.waits_for == THE_START:
                self.starts_now(it)

    # ---- errors

    def handle_error(self, runner, error, words=()):
        """The line of the error, and what is done. Whether the partition was cleared."""
        if runner.is_process and self.mode == NORMAL and self.handler.created and len(self.errors) < limits.ERRORS:
            self.tell(f"HM {ERRORS[error]} {runner.name} PROCESS HANDLER")
            self.errors.append((error, runner.number, list(words)))
            return False
        action = self.row.actions[ERRORS[error]]
        self.tell(f"HM {ERRORS[error]} {runner.name} PARTITION {action}")
        if action == "IGNORE" and runner is self.init and error != 1:
            action = IDLE
        return self.take_action(action)

    def take_action(self, action):
        if action != "IGNORE":
            self.clear(action, HM_PARTITION_RESTART)
        return action != "IGNORE"

    def hardware_fault(self, now):
        self.now = now
        action = self.row.actions["HARDWARE_FAULT"]
        self.tell(f"HM HARDWARE_FAULT - PARTITION {action}")
        self.take_action(action)
