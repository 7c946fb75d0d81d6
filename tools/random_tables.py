"""Random tables of a few processes and objects, for searches: the same ones for the same seed."""
import random

TIMEOUTS = ["0", "1", "3", "7", "infinite"]
STEPS = {
    "": ["work 1", "work 2", "work 4", "TIMED_WAIT 0", "TIMED_WAIT 2", "TIMED_WAIT 5", "GET_TIME", "SUSPEND_SELF 3", "STOP_SELF"],
    "period": ["PERIODIC_WAIT", "PERIODIC_WAIT", "work 1", "work 3", "REPLENISH 4", "REPLENISH 20"],
    "process": ["START {}", "STOP {}", "SUSPEND {}", "RESUME {}", "DELAYED_START {} 2", "SET_PRIORITY {} 5", "SET_PRIORITY {} 60", "GET_PROCESS_STATUS {}"],
    "semaphore": ["WAIT_SEMAPHORE {} T", "WAIT_SEMAPHORE {} T", "SIGNAL_SEMAPHORE {}"],
    "buffer": ["SEND_BUFFER {} 01 T", "SEND_BUFFER {} 0203 T", "RECEIVE_BUFFER {} T"],
    "blackboard": ["DISPLAY_BLACKBOARD {} 07", "READ_BLACKBOARD {} T", "CLEAR_BLACKBOARD {}"],
    "event": ["WAIT_EVENT {} T", "SET_EVENT {}", "RESET_EVENT {}"],
    "mutex": ["ACQUIRE_MUTEX {} T", "RELEASE_MUTEX {}", "RELEASE_MUTEX {}"],
}
KEYS = {
    "semaphore": lambda chance: {"maximum": chance.randint(1, 2), "initial": chance.randint(0, 1), "discipline": queue(chance)},
    "buffer": lambda chance: {"length": 2, "capacity": chance.randint(1, 2), "discipline": queue(chance)},
    "blackboard": lambda chance: {"length": 2},
    "event": lambda chance: {},
    "mutex": lambda chance: {"ceiling": chance.choice([30, 60]), "discipline": queue(chance)},
}


def queue(chance):
    return chance.choice(["FIFO", "PRIORITY"])


def entry(kind, keys):
    """The text of an entry of a table."""
    lines = [f"{key} = {'true' if value is True else repr(value)}" for key, value in keys.items()]
    return "\n".join([f"[[{kind}]]", *lines]).replace("'", '"') + "\n"


def script(chance, names, is_periodic):
    """Some steps, each of a kind of which the table has an entry."""
    kinds = ["", "", *(["period"] * 2 if is_periodic else []), *(it for it in names if names[it])]
    steps = []
    for _ in range(chance.randint(1, 5)):
        kind = chance.choice(kinds)
        step = chance.choice(STEPS[kind]).replace(" T", f" {chance.choice(TIMEOUTS)}")
        steps.append(step.format(chance.choice(names[kind])) if "{}" in step else step)
    return steps


def process(chance, name, cores, names):
    keys = {"name": name, "priority": chance.choice([10, 20, 20, 50]), "core": chance.randrange(cores)}
    is_periodic = chance.random() < 0.5
    if is_periodic:
        keys["period"] = chance.choice([5, 10, 20])
    if is_periodic or chance.random() < 0.3:
        keys["capacity"] = keys.get("period", chance.choice([4, 10]))
        keys["deadline"] = chance.choice(["HARD", "SOFT"])
    if chance.random() < 0.8:
        keys["start"] = True
    steps = script(chance, names, is_periodic)
    if is_periodic:
        steps.append("PERIODIC_WAIT")
    if is_periodic or chance.random() < 0.4:
        keys["loop"] = True
    return entry("process", keys | {"script": steps})


def table(seed):
    """The random table of this seed."""
    chance = random.Random(seed)
    cores = chance.randint(1, 3)
    has_mutexes = chance.random() < 0.25
    names = {"process": [f"p{number}" for number in range(chance.randint(2, 5))]}
    for kind in KEYS:
        many = 0 if kind == "mutex" and not has_mutexes else chance.choice([0, 0, 1, 1, 2])
        names[kind] = [f"{kind}{number}" for number in range(many)]
    text = f"cores = {cores}\nhistory = 4096\n" + ("profile = 2\n" if has_mutexes else "")
    for name in names["process"]:
        text += process(chance, name, cores, names)
    for kind, make in KEYS.items():
        for name in names[kind]:
            text += entry(kind, {"name": name} | make(chance))
    return text
