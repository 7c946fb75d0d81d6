"""Compares what the pages and the heads of the tables show with the cases of the examples, and runs no program."""
import re

from common import DATA, HOME, cases

PAGES = ["README.md", "docs/TOUR.md"]
COMMAND = re.compile(rf"\./apex (replay|status) --schedule '([^']*)'(?: < {DATA}/(\w+)\.toml)?$")
SED = re.compile(rf"sed (.*) {DATA}/(\w+)\.toml \| ")
LINE = re.compile(r"(\d+ \d+ (core\d|ticker) |apex: )")


def asked(line):
    """The example, the edits, and the command with the schedule of a line, or nothing."""
    found, edits, example = COMMAND.search(line), (), None
    if not found:
        return None
    piped = SED.match(line)
    if piped:
        example = piped[2]
        edits = tuple((old, new.replace("&", old)) for old, new in re.findall(r"'s/([^/]*)/([^/]*)/'", piped[1]))
    return found[3] or example, edits, (found[1], found[2])


def is_part_of(block, lines):
    """Whether the block's lines are consecutive lines of these."""
    return any(lines[at : at + len(block)] == block for at in range(len(lines)))


def faults_of_page(name, expected):
    """The faults of a page, and how many commands, blocks and quoted lines it has."""
    faults, counts = [], [0, 0, 0]
    key, block, example, skips = None, None, None, False
    for number, line in enumerate((HOME / name).read_text().splitlines(), 1):
        where = f"{name}:{number}"
        if line.startswith("```"):
            if block and (LINE.match(block[0]) or block[0].startswith("time ")) and not skips:
                counts[1] += 1
                if not is_part_of(block, expected.get(key, [])):
                    faults.append(f"{where}: the block that ends here is not what the command prints")
            block = [] if block is None else None
        elif block is not None:
            block.append(line)
        elif line.startswith("    ./apex") or line.startswith("    sed"):
            # Only a replay and a listing have cases. What another command prints is not looked at.
            key, skips = asked(line.strip()), not re.search(r"apex (replay|status) ", line)
            example = key and key[0]
            counts[0] += not skips
            if not skips and key not in expected:
                faults.append(f"{where}: no case has this table, these edits and this schedule")
        else:
            for quoted in filter(LINE.match, re.findall(r"`([^`]*)`", line)):
                counts[2] += 1
                if not any(quoted in lines for (name_of, *_), lines in expected.items() if name_of == example):
                    faults.append(f"{where}: no case of {example} has the line {quoted}")
    return faults, counts


def faults_of_heads(expected):
    """The commands at the heads of the tables that no case has, and how many commands there are."""
    faults, commands = [], 0
    for file in sorted((HOME / DATA).glob("*.toml")):
        for line in file.read_text().splitlines():
            key = asked(line[1:].strip()) if line.startswith("#") else None
            commands += key is not None
            if key and (key not in expected or key[0] != file.stem):
                faults.append(f"{DATA}/{file.name}: no case has the command {line[1:].strip()}")
    return faults, commands


def report():
    """What was compared, and the faults."""
    expected, said, faults = cases(), [], []
    for name in PAGES:
        found, (commands, blocks, quoted) = faults_of_page(name, expected)
        faults += found
        said.append(f"{name}: {commands} commands, {blocks} blocks of output, {quoted} quoted lines")
    found, commands = faults_of_heads(expected)
    return [*said, f"{DATA}: {commands} commands, {len(expected)} replays and listings with their outputs"], faults + found
