"""The figure of the crates, as SVG, drawn from crates.txt: a row for each level, and lines to the crates that use a crate directly."""
from common import crates

FILE = "docs/pictures/crates.svg"
BOX, WIDTH, GAP, STEP, EDGE = 26, 132, 18, 74, 20


def levels(uses: dict[str, list[str]]) -> dict[str, int]:
    """The row of each crate, from below: right below the lowest crate that uses it, and above all that it uses."""
    lowest: dict[str, int] = {}
    for crate, below in uses.items():
        lowest[crate] = 1 + max((lowest[it] for it in below), default=-1)
    found = dict(lowest)
    for crate in reversed(uses):
        found[crate] = min((found[it] - 1 for it, below in uses.items() if crate in below), default=lowest[crate])
    return found


def direct(uses: dict[str, list[str]]) -> dict[str, list[str]]:
    """What each crate uses directly: the crates below it that no other one below it uses."""
    return {crate: [it for it in below if not any(it in uses[other] for other in below)] for crate, below in uses.items()}


def crossed(x: float, row: int, to: float, under: int, between: int) -> float:
    """Where a line from one place to another one crosses a row between them."""
    part = (row - between) / (row - under)
    return x + (to - x) * (3 * part**2 - 2 * part**3)


def cost(crate: str, slot: dict[str, float], row: dict[str, int], ends: dict[str, list[str]]) -> float:
    """How bad the lines of a crate are: their breadth, and far more the boxes that they pass behind."""
    found = 0.0
    for other in ends[crate]:
        high, low = sorted((crate, other), key=lambda it: -row[it])
        found += abs(slot[high] - slot[low])
        for it, between in row.items():
            if row[low] < between < row[high]:
                gap = abs(crossed(slot[high], row[high], slot[low], row[low], between) - slot[it])
                found += 9 if gap < 0.5 else 0
    return found


def places(uses: dict[str, list[str]]) -> dict[str, tuple[float, int]]:
    """The middle of each crate's box, and its row: crates change their slots as long as that makes the lines better."""
    row, lines = levels(uses), direct(uses)
    ends = {it: lines[it] + [other for other in uses if it in lines[other]] for it in uses}
    rows = {it: [other for other in uses if row[other] == it] for it in set(row.values())}
    widest = max(map(len, rows.values()))
    slot = {it: place + (widest - len(crates_of)) // 2 for crates_of in rows.values() for place, it in enumerate(crates_of)}

    def total() -> float:
        return sum(cost(it, slot, row, ends) for it in uses)

    least, is_better = total(), True
    while is_better:
        is_better = False
        for crate in uses:
            for to in range(widest):
                came, other = slot[crate], next((it for it in rows[row[crate]] if slot[it] == to), None)
                slot[crate] = to
                if other:
                    slot[other] = came
                now = total()
                if now < least - 0.01:
                    least, is_better = now, True
                    continue
                if other:
                    slot[other] = to
                slot[crate] = came
    return {it: (EDGE + slot[it] * (WIDTH + GAP) + WIDTH / 2, row[it]) for it in uses}


def svg() -> str:
    uses = crates()
    place, lines = places(uses), direct(uses)
    top = max(row for _, row in place.values())
    width = max(x for x, _ in place.values()) + WIDTH / 2 + EDGE
    height = (top + 1) * STEP - STEP + BOX + 2 * EDGE

    def y(row: int) -> float:
        return EDGE + (top - row) * STEP

    out = [
        f'<svg xmlns="http://www.w3.org/2000/svg" viewBox="0 0 {width:.0f} {height:.0f}" font-family="monospace" font-size="12">',
        "<title>The crates, and what each one stands on</title>",
        f'<rect width="{width:.0f}" height="{height:.0f}" fill="white"/>',
    ]
    for crate, below in lines.items():
        x, row = place[crate]
        for it in below:
            to, under = place[it]
            half = (y(under) - y(row) - BOX) / 2
            begin, end = y(row) + BOX, y(under)
            out.append(f'<path d="M{x:.0f} {begin:.0f}C{x:.0f} {begin + half:.0f} {to:.0f} {end - half:.0f} {to:.0f} {end:.0f}" fill="none" stroke="#888"/>')
    for crate, (x, row) in place.items():
        out.append(f'<rect x="{x - WIDTH / 2:.0f}" y="{y(row):.0f}" width="{WIDTH}" height="{BOX}" rx="4" fill="#eef" stroke="#446"/>')
        out.append(f'<text x="{x:.0f}" y="{y(row) + 17:.0f}" text-anchor="middle">{crate.removeprefix("apex_")}</text>')
    return "\n".join([*out, "</svg>", ""])
