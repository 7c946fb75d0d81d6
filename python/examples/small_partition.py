"""A small implementation of a partition, as a test bench has one: one core, processes, semaphores.

It knows WAIT_SEMAPHORE, SIGNAL_SEMAPHORE, TIMED_WAIT and STOP_SELF, and is written without a look at
apex: each process has a queue position, and the ready process of the highest priority that came first
runs. `defect` plants one of two mistakes.
"""

import itertools
from dataclasses import dataclass, field
from typing import Optional

FOREVER = "infinite"

# A process whose wait ended goes to the place among its equals that it had before it waited.
KEEPS_ITS_PLACE = "keeps_its_place"
# A process whose wait timed out stays in the queue of the semaphore, and a later signal is lost on it.
STAYS_IN_THE_QUEUE = "stays_in_the_queue"
DEFECTS = (KEEPS_ITS_PLACE, STAYS_IN_THE_QUEUE)


@dataclass
class Task:
    name: str
    priority: int
    script: list[str]
    step: int = 0
    place: int = 0
    state: str = "ready"
    due: Optional[int] = None
    semaphore: Optional[str] = None


@dataclass
class Counter:
    maximum: int
    value: int
    queue: list[Task] = field(default_factory=list)


class SmallPartition:
    """One core and its tasks after the start: a call by each turn, and time by ticks."""

    def __init__(self, tasks: list[Task], counters: dict[str, Counter], defect: Optional[str] = None):
        self.tasks, self.counters, self.defect = tasks, counters, defect
        self.now = 0
        self.places = itertools.count()
        for task in tasks:
            task.place = next(self.places)

    def turn(self) -> tuple[Optional[str], str, str]:
        """The running task calls its next service: its name, the call, and the return code; an idle
        turn has no name."""
        ready = [task for task in self.tasks if task.state == "ready"]
        if not ready:
            return None, "idle", "IDLE"
        task = min(ready, key=lambda task: (-task.priority, task.place))
        call = task.script[task.step] if task.step < len(task.script) else "STOP_SELF"
        task.step += 1
        service, *arguments = call.split(" ")
        return task.name, call, getattr(self, service.lower())(task, *arguments)

    def tick(self, ticks: int) -> int:
        """Time goes on, up to the next timeout at most; by how much it went on."""
        dues = [task.due for task in self.tasks if task.due is not None]
        advanced = min([self.now + ticks, *dues]) - self.now
        self.now += advanced
        for task in self.tasks:
            if task.due == self.now:
                self.time_out(task)
        return advanced

    def time_out(self, task: Task) -> None:
        if task.semaphore is not None and self.defect != STAYS_IN_THE_QUEUE:
            self.counters[task.semaphore].queue.remove(task)
        self.wake(task)

    def wake(self, task: Task) -> None:
        task.state, task.due, task.semaphore = "ready", None, None
        if self.defect != KEEPS_ITS_PLACE:
            task.place = next(self.places)

    def wait(self, task: Task, timeout: str) -> str:
        task.state = "waiting"
        task.due = None if timeout == FOREVER else self.now + int(timeout)
        return "BLOCKED"

    def wait_semaphore(self, task: Task, name: str, timeout: str) -> str:
        counter = self.counters[name]
        if counter.value > 0:
            counter.value -= 1
            return "NO_ERROR"
        if timeout == "0":
            return "NOT_AVAILABLE"
        task.semaphore = name
        counter.queue.append(task)
        return self.wait(task, timeout)

    def signal_semaphore(self, _: Task, name: str) -> str:
        counter = self.counters[name]
        if counter.queue:
            self.wake(counter.queue.pop(0))
        elif counter.value == counter.maximum:
            return "NO_ACTION"
        else:
            counter.value += 1
        return "NO_ERROR"

    def timed_wait(self, task: Task, timeout: str) -> str:
        if timeout == FOREVER:
            return "INVALID_PARAM"
        if timeout == "0":
            task.place = next(self.places)
            return "NO_ERROR"
        return self.wait(task, timeout)

    def stop_self(self, task: Task) -> str:
        task.state = "stopped"
        return "GONE"
