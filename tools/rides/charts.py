"""Charts as SVG."""

from __future__ import annotations

from rides.figures import LOADS, Occupancy, Spread
from rides.texts import clock

WIDTH, HEIGHT = 380, 170
LEFT, TOP, RIGHT, BOTTOM = 40, 24, 8, 26
BARS = 30


def waits_chart(waits: Spread) -> str:
    """How many of the served waited how long, in bars of one length of time."""
    if not waits.count():
        return chart("Waits of the served", [], [], 0, [])
    longest = max(waits.counts)
    step = nice_step(longest + 1)
    bars = [0] * (longest // step + 1)
    for wait, count in waits.counts.items():
        bars[wait // step] += count
    labels = [(at, str(at * step)) for at in range(0, len(bars), max(1, len(bars) // 6))]
    return chart("Waits of the served, by seconds", [[bar] for bar in bars], ["wait"], max(bars), labels)


def nice_step(longest: int) -> int:
    """The least of 1, 2, 5, 10, 15, 30, 60.. seconds by which a time is at most 30 bars long."""
    steps = [1, 2, 5, 10, 15, 30, 60]
    while longest > BARS * steps[-1]:
        steps.append(2 * steps[-1])
    return next(step for step in steps if longest <= BARS * step)


def occupancy_chart(occupancy: Occupancy) -> str:
    """Vehicles driving over the day, by load."""
    rows = occupancy.rows()
    bars = [means[: len(LOADS)] for _, means in rows]
    labels = [(at, clock(rows[at][0])) for at in range(0, len(rows), max(1, -(-len(rows) // 5)))]
    most = max((sum(bar) for bar in bars), default=0)
    return chart("Vehicles driving, by load", bars, [load.replace(" ", "-") for load in LOADS], most, labels)


def chart(title: str, bars: list[list[float]], kinds: list[str], most: float, labels: list[tuple[int, str]]) -> str:
    """Stacked bars from left to right, with labels at the left sides of some. `most` is the height of the highest."""
    width, height = WIDTH - LEFT - RIGHT, HEIGHT - TOP - BOTTOM
    step = width / max(1, len(bars))
    found = [
        f'<svg class="chart" viewBox="0 0 {WIDTH} {HEIGHT}" role="img" aria-label="{title}">',
        f'<text class="title" x="{LEFT}" y="15">{title}</text>',
    ]
    for at, bar in enumerate(bars):
        top = float(TOP + height)
        for kind, value in zip(kinds, bar):
            size = height * value / most if most else 0
            top -= size
            if size:
                found.append(
                    f'<rect class="{kind}" x="{LEFT + at * step:.2f}" y="{top:.2f}" '
                    f'width="{max(0.5, step - 0.5):.2f}" height="{size:.2f}"/>'
                )
    found.append(f'<path class="axis" d="M{LEFT} {TOP}V{TOP + height}H{LEFT + width}"/>')
    for at, label in labels:
        found.append(f'<text class="label" x="{LEFT + at * step:.2f}" y="{HEIGHT - 10}">{label}</text>')
    found.append(f'<text class="value" x="{LEFT - 4}" y="{TOP + 8}">{most:.4g}</text>')
    found.append(f'<text class="value" x="{LEFT - 4}" y="{TOP + height}">0</text></svg>')
    return "\n".join(found)
