"""The links, paths, names and wrong bodies that the pages name and that do not exist; `tools/pages` prints them."""
import re

from common import HOME

PAGES = ["README.md", "CONTRIBUTING.md", "CHANGELOG.md", "tools/README.md", "crates/apex_cases/README.md"]


def pages() -> list[str]:
    return PAGES + sorted(f"docs/{file.name}" for file in (HOME / "docs").glob("*.md"))


def anchor(heading: str) -> str:
    """The name by which a heading is linked to."""
    return re.sub(r"[^\w -]", "", heading.lower()).replace(" ", "-")


def faults_of_links(name: str, page: str) -> list[str]:
    faults, folder = [], (HOME / name).parent
    for target in re.findall(r"\]\((?!https?:)([^)\s]+)\)", page):
        path, _, heading = target.partition("#")
        file = folder / path if path else HOME / name
        if not file.exists():
            faults.append(f"{name}: the link {target} leads nowhere")
        elif heading and heading not in map(anchor, re.findall(r"^#+ (.+)$", file.read_text(), re.M)):
            faults.append(f"{name}: the link {target} leads to no heading")
    return faults


def faults_of_paths(name: str, page: str) -> list[str]:
    """Paths in a crate, and files of tools/, bench/ and docs/, that do not exist."""
    faults = []
    crate_paths = re.findall(r"\b(?:crates/)?(apex\w*/(?:src|specs|proofs|data)/[\w/.]*\w)", page)
    for path in crate_paths:
        if not any((HOME / "crates" / (path + end)).exists() for end in ("", ".rt", ".antt")):
            faults.append(f"{name}: there is no {path}")
    for path in re.findall(r"`(?:\./)?((?:tools|bench|docs|man)/[\w/.-]*\w)", page):
        faults += [] if (HOME / path).exists() else [f"{name}: there is no {path}"]
    return faults


def words_of_sources() -> set[str]:
    """All words of the code, the definitions and the data, and the names of their files and of the crates."""
    words = {folder.name for folder in HOME.glob("crates/*")}
    crates = [f"crates/*/{inside}" for inside in ("src/**/*", "specs/**/*", "proofs/**/*", "must-fail/*", "data/*", "std*")]
    for files in (*crates, "python/**/*.py"):
        for file in HOME.glob(files):
            if file.is_file():
                words |= {file.stem} | set(re.findall(r"\w+", file.read_text(errors="replace")))
    return words | wrong_bodies()


def wrong_bodies() -> set[str]:
    """The names of the wrong bodies, those that the gate tries and those that it does not try."""
    return {file.stem for inside in ("crates/*/must-fail", "tools/plants/*") for file in HOME.glob(f"{inside}/*.edit")}


def faults_of_names(name: str, page: str, words: set[str]) -> list[str]:
    """The names of a page, as of functions and types, that no source has."""
    spans = re.findall(r"`((?:\w+::)*\w*(?:_|[a-z][A-Z])\w*)`", page)
    parts = {part for span in spans for part in span.split("::")}
    return [f"{name}: no source has {part}" for part in sorted(parts - words - {"APEX_QUIET"})]


def faults_of_bodies(name: str, page: str) -> list[str]:
    """The wrong bodies in the column of a table that is headed so, and that do not exist."""
    bodies, faults, is_column = wrong_bodies(), [], False
    for line in page.splitlines():
        cells = line.strip("|").split("|")
        is_column = line.startswith("|") and (is_column or "wrong body" in cells[-1].lower())
        named = re.findall(r"(?<! in )`(\w+)`", cells[-1]) if is_column else []
        faults += [f"{name}: there is no wrong body {it}" for it in named if it not in bodies]
    return faults


def faults() -> list[str]:
    found, words = [], words_of_sources()
    for name in pages():
        page = (HOME / name).read_text()
        # Blocks of commands and of output are not looked at for names.
        prose = re.sub(r"^```.*?^```", "", page, flags=re.S | re.M)
        found += faults_of_links(name, page) + faults_of_paths(name, page)
        found += faults_of_bodies(name, page) + faults_of_names(name, prose, words)
    return found


def counts() -> list[str]:
    """How many words each page has, as `wc -w` counts them."""
    sizes = {name: len((HOME / name).read_text().split()) for name in pages()}
    total = sum(size for name, size in sizes.items() if name == "README.md" or name.startswith("docs/"))
    return [f"{name}: {size} words" for name, size in sizes.items()] + [f"README.md and docs: {total} words"]
