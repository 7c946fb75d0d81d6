"""Runs the commands of the pages, and compares what they print with what is shown.

An indented block whose first word is a command is run with bash, the blocks of a page one after the
other in one shell, in a new folder that has links to the files at the top. The blocks without a language
that follow it, up to the next command, are lines of what it prints, in that order; standard error counts
too. The commands in NOT_RUN are not run, and are counted.
It is a fault if a block differs, if a block of output has no command, or if a page shows none.
"""
import os
import re
import shutil
import subprocess
import tempfile
from dataclasses import dataclass, field

from common import HOME

PAGES = ["README.md", "docs/TOUR.md", "docs/SEARCH.md"]
# What takes too long, or needs what a machine may lack: a command that begins so is not run.
NOT_RUN = ["rt ci", "./apex prove"]
BUILTINS = {"for", "while", "if", "export", "cd", "test", "time"}
MARK = "== tools/commands: end of block"


@dataclass
class Command:
    """An indented block, and the blocks of output that follow it, each with its line in the page."""

    line: int
    text: str
    shows: list[tuple[int, list[str]]] = field(default_factory=list)

    def is_run(self) -> bool:
        return not self.text.startswith(tuple(NOT_RUN))


def is_command(text: str) -> bool:
    word = text.lstrip("({ ").split()[0] if text.lstrip("({ ") else ""
    known = word in BUILTINS or word.startswith("./") or re.match(r"[A-Za-z_]+=", word) is not None
    return known or (HOME / word).is_file() or shutil.which(word) is not None


def commands_of(text: str) -> tuple[list[Command], list[str]]:
    """The commands of a page, and what is wrong with its form."""
    found: list[Command] = []
    faults: list[str] = []
    lines = [*text.splitlines(), ""]
    at = 0
    while at < len(lines):
        begin = at
        if lines[at].startswith("```"):
            if "```" not in lines[at + 1 :]:
                return found, [*faults, f"{begin + 1}: the block has no end"]
            at = lines.index("```", at + 1) + 1
            if lines[begin] == "```" and not found:
                faults.append(f"{begin + 1}: a block of output has no command")
            elif lines[begin] == "```":
                found[-1].shows.append((begin + 1, lines[begin + 1 : at - 1]))
        elif lines[at].startswith("    ") and (at == 0 or not lines[at - 1]):
            while lines[at].startswith("    ") or (not lines[at] and lines[at + 1 : at + 2] and lines[at + 1].startswith("    ")):
                at += 1
            block = "\n".join(it[4:] for it in lines[begin:at])
            if is_command(block):
                found.append(Command(begin + 1, block))
        else:
            at += 1
    return found, faults


def printed_by(commands: list[Command]) -> list[list[str]]:
    """What each of these commands prints, in one shell."""
    script = "".join(f"{it.text}\necho; echo '{MARK}'\n" for it in commands)
    with tempfile.TemporaryDirectory() as folder:
        for file in HOME.iterdir():
            os.symlink(file, f"{folder}/{file.name}")
        quiet = {**os.environ, "APEX_QUIET": "1"}
        words = ["bash", "-c", f"exec 2>&1\n{script}"]
        done = subprocess.run(words, cwd=folder, env=quiet, stdin=subprocess.DEVNULL, stdout=subprocess.PIPE, text=True, check=False)
    return [part.splitlines() for part in done.stdout.split(f"{MARK}\n")[:-1]]


def place_in(lines: list[str], block: list[str], begin: int) -> int:
    """Where the block ends in the lines, from one line on, or -1."""
    ends = (at + len(block) for at in range(begin, len(lines)) if lines[at : at + len(block)] == block)
    return next(ends, -1)


def check_page(name: str) -> list[str]:
    commands, faults = commands_of((HOME / name).read_text())
    run = [it for it in commands if it.is_run()]
    faults = [f"{name}:{it}" for it in faults]
    printed = printed_by(run)
    if len(printed) != len(run):
        return [*faults, f"{name}: the shell ended before the command in line {run[len(printed)].line}"]
    shown = 0
    for command, lines in zip(run, printed):
        at = 0
        for line, block in command.shows:
            end = place_in(lines, block, at) if block else -1
            if end < 0:
                faults.append(f"{name}:{line}: the command in line {command.line} prints something else:")
                faults += [f"    {it}" for it in lines[:12]]
            at = max(end, at)
            shown += end >= 0
    not_run = [it.text.splitlines()[0] for it in commands if not it.is_run()]
    print(f"{name}: {len(run)} commands run, {shown} blocks of output as shown; not run: {len(not_run)}")
    print(*(f"    {it}" for it in not_run), sep="\n", end="\n" if not_run else "")
    return faults if shown else [*faults, f"{name}: no block of output was compared"]


def faults() -> list[str]:
    return [it for name in PAGES for it in check_page(name)]
