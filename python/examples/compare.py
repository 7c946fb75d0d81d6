#!/usr/bin/env python3
"""Compares an implementation of a partition with the machine, event by event, by random schedules.

For each planted defect it prints the shortest schedule that it found on which the two differ, with what
each of them did at the last event, and why the machine does so. The implementation as it is has to
agree on all schedules. The status is 1 if it does not, or if a defect is not found.
"""

import random
import sys
from pathlib import Path
from typing import Optional, Union

sys.path.insert(0, str(Path(__file__).parents[1]))

import apex  # noqa: E402
from small_partition import DEFECTS, Counter, SmallPartition, Task  # noqa: E402

SCRIPTS = {
    "PRODUCER": (20, ["TIMED_WAIT 3", "SIGNAL_SEMAPHORE S", "TIMED_WAIT 0", "SIGNAL_SEMAPHORE S",
                      "SIGNAL_SEMAPHORE S", "SIGNAL_SEMAPHORE S"]),
    "EAGER": (20, ["WAIT_SEMAPHORE S 2", "WAIT_SEMAPHORE S 0", "TIMED_WAIT 2", "WAIT_SEMAPHORE S 9"]),
    "PATIENT": (20, ["WAIT_SEMAPHORE S infinite", "TIMED_WAIT infinite", "WAIT_SEMAPHORE S infinite"]),
    "URGENT": (30, ["WAIT_SEMAPHORE S 4", "SIGNAL_SEMAPHORE S", "TIMED_WAIT 1", "SIGNAL_SEMAPHORE S"]),
}
MAXIMUM = 2
INITIAL = 0
ENTRIES = 40
SCHEDULES = 200

# An event: a turn of the one core, or a tick of some ticks.
TURN = "0"
Event = str
Schedule = list[Event]
Seen = tuple[Optional[str], str, str]


def table() -> str:
    """The table of the scripts."""
    lines = ["cores = 1"]
    for name, (priority, script) in SCRIPTS.items():
        steps = ", ".join(f'"{step}"' for step in script)
        lines += ["[[process]]", f'name = "{name}"', f"priority = {priority}", "start = true",
                  f"script = [{steps}]"]
    lines += ["[[semaphore]]", 'name = "S"', f"maximum = {MAXIMUM}", f"initial = {INITIAL}",
              'discipline = "FIFO"']
    return "\n".join(lines)


def implementation(defect: Optional[str]) -> SmallPartition:
    """The implementation under test, at the entry into NORMAL."""
    tasks = [Task(name, priority, script) for name, (priority, script) in SCRIPTS.items()]
    return SmallPartition(tasks, {"S": Counter(MAXIMUM, INITIAL)}, defect)


def seen_in(tested: SmallPartition, event: Event) -> Seen:
    """What the implementation does at an event: the caller, the call and the return code."""
    if event == TURN:
        return tested.turn()
    ticks = int(event[1:])
    return None, f"tick {ticks}", f"ADVANCED {tested.tick(ticks)}"


def seen_by(entry: apex.Entry) -> Seen:
    """The same of the machine's entry."""
    return (entry.caller.name if entry.caller else None), entry.call, entry.reply


def first_difference(session: apex.Session, schedule: Schedule, defect: Optional[str]) -> int:
    """The number of the first event at which the two differ, counted from 1, or 0."""
    session.back("begun")
    tested = implementation(defect)
    for number, event in enumerate(schedule, 1):
        (entry,) = session.run(event)
        if seen_by(entry) != seen_in(tested, event):
            return number
    return 0


def shortened(session: apex.Session, schedule: Schedule, defect: str) -> Schedule:
    """The schedule without the events that can be left out, so that the two still differ."""
    schedule = schedule[:first_difference(session, schedule, defect)]
    place = 0
    while place < len(schedule):
        shorter = schedule[:place] + schedule[place + 1:]
        number = first_difference(session, shorter, defect)
        if number:
            schedule = shorter[:number]
        else:
            place += 1
    return schedule


def random_schedule(source: random.Random) -> Schedule:
    """Turns, with a tick now and then."""
    return [TURN if source.random() < 0.7 else f"t{source.randint(1, 4)}" for _ in range(ENTRIES)]


def found(session: apex.Session, defect: Optional[str]) -> Optional[Schedule]:
    """A short schedule on which the two differ, or None."""
    source = random.Random(0)
    for _ in range(SCHEDULES):
        schedule = random_schedule(source)
        if first_difference(session, schedule, defect):
            return shortened(session, schedule, defect)
    return None


def show(session: apex.Session, schedule: Schedule, defect: Optional[str]) -> None:
    """Prints the schedule, and what the two do at its last event."""
    session.back("begun")
    tested = implementation(defect)
    for event in schedule[:-1]:
        session.run(event)
        seen_in(tested, event)
    (entry,) = session.run(schedule[-1])
    begun = entry.number - len(schedule)
    print(f"  schedule: {' '.join(schedule)}")
    print(f"  machine:        {seen_by(entry)}")
    print(f"  implementation: {seen_in(tested, schedule[-1])}")
    print(f"  why: {apex.why(table(), ' '.join([f'{TURN}*{begun}', *schedule]), entry.number)}")


def main() -> int:
    """Compares the implementation as it is, and with each defect."""
    with apex.Session(table()) as session:
        while session.state().mode != "NORMAL":
            session.turn(0)
        session.mark("begun")
        missed: list[Union[str, None]] = []
        for defect in (None, *DEFECTS):
            schedule = found(session, defect)
            if (schedule is None) != (defect is None):
                missed.append(defect)
            print(f"{defect or 'as it is'}: {'differs' if schedule else 'agrees'}")
            if schedule:
                show(session, schedule, defect)
    return 1 if missed else 0


if __name__ == "__main__":
    sys.exit(main())
