"""What the scripts of this folder share: the tables that they measure, runs of a program, and their report."""
import os
import pathlib
import subprocess
import sys
import tempfile
import time

HOME = pathlib.Path(__file__).resolve().parent.parent
RUNS = 9
PAGE = 64 * 1024
LONGEST = 65_536
MOST_BYTES = 12 * 1024 * 1024


def built(name):
    """The path at which the gate leaves a program."""
    return f"{HOME}/crates/{name}/out/{name}"


def programs(*names):
    """The programs that the arguments name, in this order; in place of one that is absent, that of the gate."""
    given = sys.argv[1:]
    if len(given) > len(names):
        sys.exit(f"{script()}: usage: {script()} {' '.join(f'[{it.upper()}]' for it in names)}")
    found = [os.path.abspath(it) for it in given[: len(names)]]
    found += [built(name) for name in names[len(found) :]]
    for it in found:
        if not os.access(it, os.X_OK):
            sys.exit(f"{script()}: there is no program {it}; tools/program NAME builds one and prints its path")
    return found


def script():
    return f"bench/{pathlib.Path(sys.argv[0]).name}"


def ended(faults):
    """Prints the faults, each once, and gives the status of the script."""
    for it in dict.fromkeys(faults):
        print(f"{script()}: {it}", file=sys.stderr)
    return 1 if faults else 0


class Run:
    """A run of a program over a file: seconds until the first bytes and after them, processor seconds, waits, output."""

    def __init__(self, words, given, errors=None):
        with open(given, "rb") as source:
            begun = time.perf_counter()
            started = subprocess.Popen(words, stdin=source, stdout=subprocess.PIPE, stderr=errors, bufsize=0)
        wrote = [started.stdout.read(PAGE)]
        first = time.perf_counter()
        while wrote[-1]:
            wrote.append(started.stdout.read(PAGE))
        _, status, used = os.wait4(started.pid, 0)
        started.stdout.close()
        # The program makes all events before it writes its first line.
        self.events, self.lines = first - begun, time.perf_counter() - first
        self.busy = used.ru_utime + used.ru_stime
        self.waits = used.ru_nvcsw
        self.status = started.returncode = os.waitstatus_to_exitcode(status)
        self.wrote = b"".join(wrote)


def folder():
    return tempfile.TemporaryDirectory()


def write(path, text):
    """Writes a file, of text or of bytes, and gives its path."""
    pathlib.Path(path).write_bytes(text if isinstance(text, bytes) else text.encode())
    return path


def state_of(process):
    """The letter of a process's state: S if it waits, Z if it has ended."""
    with open(f"/proc/{process}/stat", encoding="ascii") as said:
        return said.read().rsplit(")", 1)[1].split()[0]


def peak_of(process):
    """The most memory that a process has had so far, in bytes; 0 if it has ended."""
    with open(f"/proc/{process}/status", encoding="ascii") as said:
        return next((1024 * int(line.split()[1]) for line in said if line.startswith("VmHWM:")), 0)


def process(name, priority, core, starts, script, loops=False):
    steps = ", ".join(f'"{step}"' for step in script)
    return f'''
[[process]]
name = "{name}"
priority = {priority}
core = {core}
start = {"true" if starts else "false"}
loop = {"true" if loops else "false"}
script = [{steps}]
'''


def semaphore(name, maximum):
    return f'''
[[semaphore]]
name = "{name}"
maximum = {maximum}
initial = 0
discipline = "FIFO"
'''


def buffer(name):
    return f'''
[[buffer]]
name = "{name}"
length = 8
capacity = 4
discipline = "FIFO"
'''


def of_length(items, length):
    """The items' turns over and over, as many as there are events."""
    return " ".join((items * (length // len(items) + 1))[:length])


def idle(length):
    """Two processes with empty scripts: after their ends every turn is idle."""
    table = f"cores = 2\nhistory = {length}\n"
    table += process("left", 10, 0, True, []) + process("right", 10, 1, True, [])
    return table, f"0*{length}"


def to_and_fro(length):
    """Two processes on two cores hand two semaphores to and fro, and start each other again at the end."""
    left = ["WAIT_SEMAPHORE pong 0", "START right"] + ["SIGNAL_SEMAPHORE ping", "WAIT_SEMAPHORE pong infinite"] * 31
    right = ["WAIT_SEMAPHORE ping infinite", "SIGNAL_SEMAPHORE pong"] * 31 + ["WAIT_SEMAPHORE pong 0", "START left"]
    table = f"cores = 2\nhistory = {length}\n"
    table += process("left", 10, 0, True, left) + process("right", 10, 1, False, right)
    table += semaphore("ping", 1) + semaphore("pong", 1)
    init = 2 + 2 * 2 + 1 + 1
    return table, f"0*{init} " + of_length(["0", "1"], length - init)


def pair(length, waiters=0):
    """A signaller and a waiter on two cores hand a semaphore to and fro; on a third one others wait for ever for another."""
    table = f"cores = 3\nhistory = {length}\n"
    table += process("taker", 10, 0, True, ["WAIT_SEMAPHORE ball infinite"], loops=True)
    table += process("giver", 10, 1, True, ["SIGNAL_SEMAPHORE ball"], loops=True)
    for number in range(waiters):
        table += process(f"waiter{number}", 10, 2, True, ["WAIT_SEMAPHORE never infinite"])
    table += semaphore("ball", 1) + semaphore("never", 1)
    init = 2 + 3 * (2 + waiters) + 1
    first = f"0*{init}" + (f" 2*{waiters}" if waiters else "")
    return table, f"{first} " + of_length(["0", "1"], length - init - waiters)


def pair_beside_waiters(length):
    return pair(length, 30)


def rings(length):
    """Eight cores with four processes each: three run in turn, start the next one and signal a fourth, more urgent one, which waits."""
    table = f"cores = 8\nhistory = {length}\n"
    for core in range(8):
        table += semaphore(f"bell{core}", 1)
        table += process(f"urgent{core}", 20, core, True, [f"WAIT_SEMAPHORE bell{core} infinite"] * 64)
        for place in range(3):
            script = ([f"SIGNAL_SEMAPHORE bell{core}"] * 8 + [f"START urgent{core}"]) * 7 + [f"START ring{core}.{(place + 1) % 3}"]
            table += process(f"ring{core}.{place}", 10, core, place == 0, script)
    init = 8 + 2 * 32 + 16 + 1
    return table, f"0*{init} " + of_length([str(core) for core in range(8)], length - init)


def timers(length):
    """Eight cores with four processes each: three wait for a tick, time and again, and each starts the fourth one after a tick when its script ends."""
    table = f"cores = 8\nhistory = {length}\n"
    for core in range(8):
        table += semaphore(f"never{core}", 1)
        names = [f"timer{core}.{place}" for place in range(4)]
        for place, name in enumerate(names):
            # Of the three others only one is dormant; the other two starts are refused.
            starts = [f"DELAYED_START {other} 1" for other in names if other != name]
            script = [f"WAIT_SEMAPHORE never{core} 1", "TIMED_WAIT 1"] * 30 + starts
            table += process(name, 10, core, place < 3, script)
    init = 8 + 2 * 32 + 24 + 1
    # Three turns of each core and a tick, with as few words as the system's limit on an argument asks for.
    rounds, rest = divmod(length - init, 8 * 3 + 1)
    return table, f"0*{init + rest}" + " 0*3 1*3 2*3 3*3 4*3 5*3 6*3 7*3 t1" * rounds


def handed_on(length, section, give, take):
    """Eight cores with a producer and a more urgent consumer each, which waits for all that is produced."""
    table = f"cores = 8\nhistory = {length}\n"
    for core in range(8):
        table += section(f"line{core}")
        table += process(f"consumer{core}", 20, core, True, [take.format(core)], loops=True)
        table += process(f"producer{core}", 10, core, True, [give.format(core)], loops=True)
    init = 8 + 2 * 16 + 16 + 1
    return table, f"0*{init} " + of_length([str(core) for core in range(8)], length - init)


def by_semaphores(length):
    return handed_on(length, lambda name: semaphore(name, 1), "SIGNAL_SEMAPHORE line{}", "WAIT_SEMAPHORE line{} infinite")


def by_buffers(length):
    return handed_on(length, buffer, "SEND_BUFFER line{} 0123456789abcdef 0", "RECEIVE_BUFFER line{} infinite")


TABLES = (
    ("2 processes, idle", idle),
    ("2 processes, busy", to_and_fro),
    ("32 processes, busy", rings),
    ("32 processes, timed", timers),
    ("16, semaphores", by_semaphores),
    ("16, buffers", by_buffers),
    ("2, a pair", pair),
    ("32, pair, 30 wait", pair_beside_waiters),
)
