"""Compares the rows of the services with docs/FORMATS.md and with the cases of the services.

A row of crates/apex_calls/src/catalogue.rt has the word of a service, the shapes of its arguments, and
whether an init list may have it. The tables of the services have the same words and arguments, each in
the section of its kind, and the section of steps the ranges of the numbers; the section of the init
list names the same services; and each service has a row of cases in a file `.rows` of crates/apex_cases/data,
with a line of its word, so that exchanged services are seen.
"""
import re

from common import DATA, HOME, limits

CATALOGUE = "crates/apex_calls/src/catalogue.rt"
FORMATS = "docs/FORMATS.md"
ROW = re.compile(r'    \w+ "(\w+)" \[(.*)\] (true|false);')
SHAPE = re.compile(r"(\w+)(?:\(([^)]*)\))?")
LETTERS = {"Entry": "N", "Named": "A", "Timeout": "T", "Message": "X", "Mode": "M"}


def number(text):
    """The number that a row writes, by its digits or by the name of a limit."""
    named = limits()
    return named[text] if text in named else int(text)


def rows():
    """The shapes of each service, by its word, and the services that an init list may have."""
    shapes, init = {}, set()
    for line in (HOME / CATALOGUE).read_text().splitlines():
        row = ROW.fullmatch(line)
        if row:
            shapes[row[1]] = [(name, args.split(", ")) for name, args in SHAPE.findall(row[2])]
            if row[3] == "true":
                init.add(row[1])
    return shapes, init


def section(title):
    """The text of a section of FORMATS.md, without its subsections."""
    return re.search(rf"\n##+ {title}\n(.*?)\n##", (HOME / FORMATS).read_text(), re.DOTALL)[1]


def written(word, shapes, letters):
    """The step as the tables of the services write it, where the numbers have these letters."""
    numbers = iter(letters)
    return " ".join([word] + [LETTERS.get(name) or next(numbers, "?") for name, _ in shapes])


def in_words(name):
    """The words of a name in CamelCase."""
    return re.sub(r"(?<=[a-z])(?=[A-Z])", " ", name).lower()


def steps_by_kind():
    """The steps of the tables of the services, each with the title of its table."""
    for title, table in re.findall(r"^([A-Z][\w ]+):\n\n\| Step .*\n\|[-|]+\n((?:\|.*\n)+)", section("Services"), re.MULTILINE):
        for step in re.findall(r"^\| `([^`]*)` \|", table, re.MULTILINE):
            yield title.lower(), step


def faults_of_steps(shapes):
    """The faults of the tables of the services, and of the ranges in the section of steps."""
    ranges, faults, seen = section("Steps"), [], set()
    for title, step in steps_by_kind():
        word, *arguments = step.split(" ")
        letters = [argument for argument in arguments if argument.islower()]
        seen.add(word)
        # The modes have rows of their own.
        given = "SET_PARTITION_MODE M" if word == "SET_PARTITION_MODE" else step
        if word not in shapes or given != written(word, shapes[word], letters):
            faults.append(f"{FORMATS}: no row of {CATALOGUE} has the step {step}")
            continue
        for name, args in shapes[word]:
            if name in ("Entry", "Named") and not title.startswith(in_words(args[0])):
                faults.append(f"{FORMATS}: {step}, of the kind {args[0]}, is in the table of {title}")
            if name == "Number":
                low, high = (f"{number(arg):,}" for arg in args)
                if not re.search(rf"`{letters[0]}`,? (?:[\w ]*, )?(?:is )?a number from {low} to {high}\b", ranges):
                    faults.append(f"{FORMATS}: {step} has no number from {low} to {high}")
    return faults + [f"{FORMATS}: no table of the services has {word}" for word in shapes if word not in seen]


def faults_of_init_list(shapes, init):
    """The faults of the list of what an init list may have."""
    may = section("The init list").split("Any other step is BadInitStep there.")[0]
    words = set(re.findall(r"`([A-Za-z_]+)`", may)) & set(shapes)
    for before, after in re.findall(r"`([A-Z_]+)\.\.([A-Z_]+)`", may):
        words |= {word for word in shapes if word.startswith(before) and word.endswith(after) and word not in ("GET_MY_ID", "GET_MY_PROCESSOR_CORE_ID")}
    faults = [f"{FORMATS}: an init list may have {word}, as its row says" for word in sorted(init - words)]
    return faults + [f"{FORMATS}: the row of {word} is not one of an init list" for word in sorted(words - init)]


def faults_of_cases(shapes):
    """The services without a row of cases, or without a line of their word in it."""
    text = "\n".join(file.read_text() for file in sorted((HOME / DATA).glob("*.rows")))
    parts = {}
    for word, part in re.findall(r"^row (\S+)(.*?)(?=^row |\Z)", text, re.DOTALL | re.MULTILINE):
        parts[word] = parts.get(word, "") + part
    return [
        f"{DATA}: no row of {word} with a line of it"
        for word in shapes
        if not re.search(rf"^\d+ \d+ core\d \S+ {word}\b.* -> ", parts.get(word, ""), re.MULTILINE)
    ]


def report():
    """What was compared, and the faults."""
    shapes, init = rows()
    faults = [] if shapes else [f"{CATALOGUE}: no rows"]
    faults += faults_of_steps(shapes) + faults_of_init_list(shapes, init) + faults_of_cases(shapes)
    return [f"{CATALOGUE}: {len(shapes)} services, {len(init)} of them for init lists"], faults
