"""Drives a partition of apex event by event, from Python.

A `Session` starts `apex_lab step --json` with a table, and asks it one command after the other::

    with apex.Session(table) as session:
        entry = session.turn(0)              # core 0 takes a turn
        print(entry.call, entry.reply)       # CREATE_SEMAPHORE S NO_ERROR
        session.run("0*8 1 t5")              # a schedule, as `apex replay --schedule` takes it
        print(session.state().process("A").state)

The module needs nothing but the standard library and the program. Instants and times are in ticks.
docs/FORMATS.md describes commands, calls, replies and states; this module only gives them types.
"""

import json
import os
import re
import shutil
import subprocess
from dataclasses import dataclass
from pathlib import Path
from typing import Any, Iterator, Optional, Union

__all__ = [
    "ApexError", "Blackboard", "Buffer", "CommandRefused", "Entry", "EventFlag", "Front",
    "HistoryFull", "Mutex", "Named", "Next", "Notice", "Process", "ProgramEnded", "Semaphore",
    "Session", "State", "why",
]

PROGRAM_VARIABLE = "APEX_LAB"
SEPARATOR = b"%%\n"
SCHEDULE = re.compile(r"[0-9t()* ]+")


class ApexError(Exception):
    """What a session cannot do, in the program's words."""


class ProgramEnded(ApexError):
    """The program ended before it answered; it had this exit status and wrote this on standard error.

    A table that is refused has the status 3.
    """

    def __init__(self, status: int, message: str):
        super().__init__(message or f"the program ended with status {status}")
        self.status = status


class CommandRefused(ApexError):
    """A command was not carried out, and nothing changed. The message has the reason: `no command`,
    `no such core`, `no such mark`, `line too long`, or `a command is one line`."""


class HistoryFull(ApexError):
    """The history has no room for all events; `entries` are those that were made."""

    def __init__(self, entries: list["Entry"], count: int):
        super().__init__(f"history full after {count} entries")
        self.entries = entries
        self.count = count


@dataclass(frozen=True)
class Named:
    """A process or an object: its id, counted from 1 in its section of the table, and its name."""

    id: int
    name: str


@dataclass(frozen=True)
class Notice:
    """What an event did to a process besides the caller: `woken` with a code, `released`, or `missed`
    a `hard` or `soft` deadline."""

    word: str
    process: Named
    code: Optional[str] = None
    deadline: Optional[str] = None


@dataclass(frozen=True)
class Entry:
    """One event of the history.

    `number` counts from 1; `now` is the time after the event. `core` is None at a tick. `caller` is
    None at a tick, at an idle turn and at a step of the init list, for which `is_init` is True.
    `call` and `reply` are the texts of the history's line, such as ``WAIT_SEMAPHORE S infinite`` and
    ``BLOCKED``.
    """

    number: int
    now: int
    core: Optional[int]
    caller: Optional[Named]
    is_init: bool
    call: str
    reply: str
    notices: tuple[Notice, ...]

    @property
    def service(self) -> str:
        """The first word of the call: the service, `work`, `idle` or `tick`."""
        return self.call.split(" ", 1)[0]

    @property
    def code(self) -> str:
        """The first word of the reply: a return code, or `VALUE`, `STATUS`, `MESSAGE`, `BLOCKED` .."""
        return self.reply.split(" ", 1)[0]


@dataclass(frozen=True)
class Next:
    """The next instant at which a wait ends by itself or a deadline expires, None if there is none, and
    the cores that have something to do."""

    instant: Optional[int]
    cores: tuple[int, ...]


@dataclass(frozen=True)
class Front:
    """The number of entries, the time, and the process that each core runs."""

    entries: int
    now: int
    running: tuple[Optional[Named], ...]


@dataclass(frozen=True)
class Process:
    """A created process. `wait` is None, `normal`, `start`, `time`, `period` or a kind of object, which
    is `waits_for` then. `suspended` is None, `self` or `other`."""

    id: int
    name: str
    state: str
    base: int
    current: int
    core: int
    wait: Optional[str]
    waits_for: Optional[Named]
    due: Optional[int]
    deadline: Optional[int]
    suspended: Optional[str]
    owns: tuple[Named, ...]
    inbox: Optional[bytes]


@dataclass(frozen=True)
class Semaphore:
    """A created semaphore, and its waiters, the first one first."""

    id: int
    name: str
    value: int
    waiting: tuple[Named, ...]


@dataclass(frozen=True)
class Buffer:
    """A created buffer, its messages and its waiters, the first ones first."""

    id: int
    name: str
    messages: tuple[bytes, ...]
    waiting: tuple[Named, ...]


@dataclass(frozen=True)
class Blackboard:
    """A created blackboard, its message if it holds one, and its waiters, the first one first."""

    id: int
    name: str
    message: Optional[bytes]
    waiting: tuple[Named, ...]


@dataclass(frozen=True)
class EventFlag:
    """A created event flag, and its waiters, the first one first."""

    id: int
    name: str
    is_up: bool
    waiting: tuple[Named, ...]


@dataclass(frozen=True)
class Mutex:
    """A created mutex, its owner with the depth, or None and 0, and its waiters, the first one first."""

    id: int
    name: str
    owner: Optional[Named]
    depth: int
    waiting: tuple[Named, ...]


@dataclass(frozen=True)
class State:
    """The state of the partition: what `apex status` lists."""

    now: int
    mode: str
    entries: int
    running: tuple[Optional[Named], ...]
    processes: tuple[Process, ...]
    semaphores: tuple[Semaphore, ...]
    buffers: tuple[Buffer, ...]
    blackboards: tuple[Blackboard, ...]
    events: tuple[EventFlag, ...]
    mutexes: tuple[Mutex, ...]

    def process(self, name: str) -> Process:
        """The process of this name; KeyError if none of this name was created."""
        return _of_name(self.processes, name)

    def semaphore(self, name: str) -> Semaphore:
        """The semaphore of this name; KeyError as for `process`."""
        return _of_name(self.semaphores, name)

    def buffer(self, name: str) -> Buffer:
        """The buffer of this name; KeyError as for `process`."""
        return _of_name(self.buffers, name)

    def blackboard(self, name: str) -> Blackboard:
        """The blackboard of this name; KeyError as for `process`."""
        return _of_name(self.blackboards, name)

    def event(self, name: str) -> EventFlag:
        """The event flag of this name; KeyError as for `process`."""
        return _of_name(self.events, name)

    def mutex(self, name: str) -> Mutex:
        """The mutex of this name; KeyError as for `process`."""
        return _of_name(self.mutexes, name)


class Session:
    """A running `apex_lab step --json` over one table.

    `table` is the text of a table, or the path of a file that has one. `program` is the path of
    apex_lab; without it that of the variable APEX_LAB counts, then the one on the search path.

    A session is a context manager; at its end the program ends. A table that is refused raises
    `ProgramEnded` with the program's words.
    """

    def __init__(self, table: Union[str, bytes, Path], program: Optional[str] = None):
        text = _before_the_rest(table)
        self._process = subprocess.Popen(
            [program or _program(), "step", "--json"],
            stdin=subprocess.PIPE, stdout=subprocess.PIPE, stderr=subprocess.PIPE)
        try:
            self._send(text)
            self.front()
        except BaseException:
            self.close()
            raise

    def __enter__(self) -> "Session":
        return self

    def __exit__(self, *_: object) -> None:
        self.close()

    def turn(self, core: int) -> Entry:
        """Makes one turn of the core."""
        return self.run(str(core))[0]

    def turns(self, core: int, count: int) -> list[Entry]:
        """Makes `count` turns of the core, from 1 to 65,536."""
        return self.run(f"{core}*{count}")

    def tick(self, ticks: int = 1) -> Entry:
        """Makes one tick, which goes to the next instant at most."""
        return self.run(f"t{ticks}")[0]

    def run(self, schedule: str) -> list[Entry]:
        """Makes the events of a schedule, such as ``0*5 1 t10``; `HistoryFull` if not all fit."""
        if not SCHEDULE.fullmatch(schedule):
            raise CommandRefused("no command")
        return [_entry(line) for line in self._ask(schedule)]

    def state(self) -> State:
        """The state of the partition."""
        return _state(self._ask("state"))

    def next(self) -> Next:
        """What comes next."""
        (line,) = self._ask("next")
        return Next(line["next"], tuple(line["cores"]))

    def front(self) -> Front:
        """The number of entries, the time, and the process that each core runs."""
        (line,) = self._ask("front")
        return Front(line["front"], line["now"], tuple(map(_process_named, line["running"])))

    def mark(self, name: str) -> None:
        """Marks the present state with a name, which has no space."""
        self._ask(f"mark {name}")

    def back(self, name: str) -> None:
        """Goes back to the latest mark of this name; all events and marks since are forgotten."""
        self._ask(f"back {name}")

    def close(self) -> None:
        """Ends the program. A session that is closed answers nothing more."""
        for stream in (self._process.stdin, self._process.stdout, self._process.stderr):
            try:
                stream.close()
            except BrokenPipeError:
                pass
        self._process.wait()

    def _send(self, data: bytes) -> None:
        try:
            self._process.stdin.write(data)
            self._process.stdin.flush()
        except (BrokenPipeError, ValueError):
            raise self._ended() from None

    def _ask(self, command: str) -> list[dict[str, Any]]:
        """The lines of the answer but the last one, which closes it."""
        if "\n" in command:
            raise CommandRefused("a command is one line")
        self._send(command.encode(errors="surrogateescape") + b"\n")
        lines = []
        for line in self._lines():
            if "fault" in line:
                raise CommandRefused(line["fault"])
            if "full" in line:
                raise HistoryFull([_entry(line) for line in lines], line["full"])
            if "ok" in line:
                return lines
            lines.append(line)
        raise self._ended()

    def _lines(self) -> Iterator[dict[str, Any]]:
        for line in self._process.stdout:
            yield json.loads(line)

    def _ended(self) -> ApexError:
        if self._process.stderr.closed:
            return ApexError("the session is closed")
        message = self._process.stderr.read().decode(errors="replace").strip()
        return ProgramEnded(self._process.wait(), message)


def why(table: Union[str, bytes, Path], schedule: str, entry: int,
        program: Optional[str] = None) -> str:
    """Why the machine makes this entry, by its number, in the run of the schedule: who acts, by which
    step, and the first guard of the service that holds, or what the caller waits for.

    `ProgramEnded` if the table or the schedule is refused, or the run has no such entry.
    """
    ended = subprocess.run(
        [program or _program(), "why", "--entry", str(entry), "--schedule", "-"],
        input=_before_the_rest(table) + schedule.encode() + b"\n", stdout=subprocess.PIPE, stderr=subprocess.PIPE, check=False)
    if ended.returncode != 0:
        raise ProgramEnded(ended.returncode, ended.stderr.decode(errors="replace").strip())
    return ended.stdout.decode().rstrip("\n")


def _program() -> str:
    program = os.environ.get(PROGRAM_VARIABLE) or shutil.which("apex_lab")
    if program is None:
        raise ApexError(f"there is no apex_lab on the search path, and {PROGRAM_VARIABLE} is not set")
    return program


def _text_of(table: Union[str, bytes, Path]) -> bytes:
    if isinstance(table, Path):
        return table.read_bytes()
    return table.encode() if isinstance(table, str) else table


def _before_the_rest(table: Union[str, bytes, Path]) -> bytes:
    """The table with the separator; `ApexError` if a line of the table is the separator."""
    text = _text_of(table) + b"\n"
    if b"\n" + SEPARATOR in b"\n" + text:
        raise ApexError("a line of the table is %%")
    return text + SEPARATOR


def _of_name(things: tuple[Any, ...], name: str) -> Any:
    for thing in things:
        if thing.name == name:
            return thing
    raise KeyError(name)


def _process_named(value: Optional[dict[str, Any]]) -> Optional[Named]:
    return None if value is None else Named(value["process"], value["name"])


def _waiting(line: dict[str, Any]) -> tuple[Named, ...]:
    return tuple(map(_process_named, line["waiting"]))


def _message(digits: Optional[str]) -> Optional[bytes]:
    if digits is None:
        return None
    return b"" if digits == "-" else bytes.fromhex(digits)


def _named_or_none(number: Optional[int], name: Optional[str]) -> Optional[Named]:
    return None if number is None else Named(number, name)


def _notice(value: dict[str, Any]) -> Notice:
    return Notice(value["notice"], _process_named(value), value.get("code"), value.get("deadline"))


def _entry(line: dict[str, Any]) -> Entry:
    who, process = line["who"], line["process"]
    is_init = process == "init"
    return Entry(
        number=line["number"],
        now=line["now"],
        core=None if who == "ticker" else int(who.removeprefix("core")),
        caller=None if is_init else _named_or_none(process, line["name"]),
        is_init=is_init,
        call=line["call"],
        reply=line["reply"],
        notices=tuple(map(_notice, line["notices"])),
    )


def _process(line: dict[str, Any]) -> Process:
    return Process(
        id=line["process"], name=line["name"], state=line["state"], base=line["base"],
        current=line["current"], core=line["core"], wait=line["wait"],
        waits_for=_named_or_none(line["object"], line["of"]), due=line["due"],
        deadline=line["deadline"], suspended=line["suspended"],
        owns=tuple(Named(mutex["mutex"], mutex["name"]) for mutex in line["owns"]),
        inbox=_message(line["inbox"]),
    )


def _semaphore(line: dict[str, Any]) -> Semaphore:
    return Semaphore(line["semaphore"], line["name"], line["value"], _waiting(line))


def _buffer(line: dict[str, Any]) -> Buffer:
    return Buffer(line["buffer"], line["name"], tuple(map(_message, line["messages"])), _waiting(line))


def _blackboard(line: dict[str, Any]) -> Blackboard:
    return Blackboard(line["blackboard"], line["name"], _message(line["message"]), _waiting(line))


def _event(line: dict[str, Any]) -> EventFlag:
    return EventFlag(line["event"], line["name"], line["state"] == "UP", _waiting(line))


def _mutex(line: dict[str, Any]) -> Mutex:
    owner = _named_or_none(line["owner"], line["of"])
    return Mutex(line["mutex"], line["name"], owner, line["depth"], _waiting(line))


# The rows of a listing by their first member.
_ROWS = {
    "process": _process, "semaphore": _semaphore, "buffer": _buffer, "blackboard": _blackboard,
    "event": _event, "mutex": _mutex,
}


def _state(lines: list[dict[str, Any]]) -> State:
    time, mode, history, *rows = lines
    of_kind: dict[str, list[Any]] = {kind: [] for kind in _ROWS}
    running = []
    for row in rows:
        kind = next(iter(row))
        if kind == "core":
            running.append(_named_or_none(row["running"], row["name"]))
        else:
            of_kind[kind].append(_ROWS[kind](row))
    return State(
        now=time["time"], mode=mode["mode"], entries=history["history"], running=tuple(running),
        processes=tuple(of_kind["process"]), semaphores=tuple(of_kind["semaphore"]),
        buffers=tuple(of_kind["buffer"]), blackboards=tuple(of_kind["blackboard"]),
        events=tuple(of_kind["event"]), mutexes=tuple(of_kind["mutex"]),
    )
