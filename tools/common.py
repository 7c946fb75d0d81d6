"""What the scripts of this folder share: the repository's places, its crates, limits and cases, schedules, and runs of a program."""
import pathlib
import re
import subprocess

HOME = pathlib.Path(__file__).resolve().parent.parent
DATA = "crates/apex_cases/data"
SECOND = "apex_lab"
COMMANDS = {"schedule": "replay", "listing": "status"}
SILENT = "status given return cut unfetched gives room mute reads writes cuts changes verdict lines contains".split()


def crates() -> dict[str, list[str]]:
    """The crates with those of the repository that each one uses, in the order of crates.txt."""
    listed = re.findall(r"^(\w+)(?: \w+=\S+)*:(.*)$", (HOME / "crates.txt").read_text(), re.M)
    names = {name for name, _ in listed}
    return {name: [it for it in uses.split() if it in names] for name, uses in listed}


def root_of(crate: str) -> pathlib.Path:
    """The root file of a crate, a library's or a program's."""
    folder = HOME / "crates" / crate / "src"
    return next(folder / name for name in ("lib.rt", "main.rt") if (folder / name).exists())


def program_of(name: str) -> str:
    """The path of the program of this name that `./apex` would run, which is built if there is none."""
    return subprocess.run([HOME / "tools/program", name], stdout=subprocess.PIPE, text=True, check=True).stdout.strip()


def limits() -> dict[str, int]:
    """The limits that are plain numbers, by their names."""
    text = (HOME / "crates/apex_types/src/limits.rt").read_text()
    found = re.findall(r"pub const (\w+): \w+ = (u32::MAX|[\d_]+);", text)
    return {name: 2**32 - 1 if digits == "u32::MAX" else int(digits) for name, digits in found}


def events(schedule: str) -> list[str]:
    """The events of a schedule without groups, one item each."""
    found = []
    for item in schedule.split():
        event, star, times = item.partition("*")
        found += [event] * int(times) if star else [item]
    return found


def outcome(words: list, given: bytes) -> tuple[int, str]:
    """The status of a program over this input, and what it wrote."""
    done = subprocess.run(words, input=given, capture_output=True, check=False)
    return done.returncode, done.stdout.decode(errors="replace")


def cases() -> dict[tuple[str, tuple, tuple], list[str]]:
    """The lines that each case of a replay or a listing expects, by its example, its edits, and its command with the schedule."""
    expected = {}
    for file in sorted((HOME / DATA).glob("*.cases")):
        for part in file.read_text().split("\ncase ")[1:]:
            edits, schedule, lines, is_wrong = [], None, [], False
            for line in part.splitlines()[1:]:
                word, _, rest = line.partition(" ")
                if word == "edit":
                    edits.append(tuple(rest.split(" -> ", 1)))
                elif word in COMMANDS:
                    schedule = COMMANDS[word], rest
                elif line == "differs":
                    is_wrong = True
                elif word not in SILENT and line and not line.startswith("#"):
                    lines.append(line)
            if schedule and not is_wrong:
                expected[file.stem, tuple(edits), schedule] = lines
    return expected
