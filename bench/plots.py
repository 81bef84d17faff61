"""Draws what `all.py` and `scale.py` measure: for each workload a panel with costs over the size, both logarithmic."""

import math
from typing import Any, Mapping, Sequence

ACROSS, WIDTH, HEIGHT, LEFT, TOP = 4, 210, 150, 46, 30
COLOURS = {"sfq": "#1f5fbf", "floor": "#2a8a4a", "peer": "#c26a1a"}
STYLE = (
    "text{font:11px sans-serif;fill:#333}.title{font-weight:bold}.line{fill:none;stroke-width:2}"
    ".grid{stroke:#ccc;stroke-width:1}rect.paper{fill:#fff}"
)


def costs(panels: Sequence[tuple[str, dict[str, list[tuple[int, float]]]]], unit: str) -> str:
    """The picture of panels: each a title, and the sizes and costs of each program."""
    rows = math.ceil(len(panels) / ACROSS)
    width, height = ACROSS * (WIDTH + LEFT) + 20, rows * (HEIGHT + 2 * TOP) + 30
    parts = [f'<svg xmlns="http://www.w3.org/2000/svg" width="{width}" height="{height}" role="img">']
    parts.append(f"<title>{unit} of a row over the number of rows</title><style>{STYLE}</style>")
    parts.append(f'<rect class="paper" width="{width}" height="{height}"/>')
    for place, (title, found) in enumerate(panels):
        x, y = LEFT + place % ACROSS * (WIDTH + LEFT), TOP + place // ACROSS * (HEIGHT + 2 * TOP)
        parts += panel(x, y, title, found)
    parts += legend(LEFT, height - 12, unit)
    return "\n".join([*parts, "</svg>", ""])


def times(panels: Sequence[tuple[str, dict[str, list[Any]]]]) -> str:
    """The picture of panels of seconds: one run of sfq as far as it goes, and sfq-scale, whose last size may be an estimate."""
    width, height = len(panels) * (WIDTH + LEFT) + 20, HEIGHT + 2 * TOP + 50
    parts = [f'<svg xmlns="http://www.w3.org/2000/svg" width="{width}" height="{height}" role="img">']
    parts.append(f"<title>seconds of processor time over the number of rows</title><style>{STYLE}.guess{{stroke-dasharray:4 4}}</style>")
    parts.append(f'<rect class="paper" width="{width}" height="{height}"/>')
    for place, (title, found) in enumerate(panels):
        drawn = {"peer": found["peer"] + found["estimate"], "sfq": [it for it in found["sfq"] if it[1] is not None]}
        parts += panel(LEFT + place * (WIDTH + LEFT), TOP, title, drawn, "peer", ("peer",) if found["estimate"] else ())
    parts.append(f'<text x="{LEFT}" y="{height - 36}">seconds of processor time over the number of rows</text>')
    scaled = "sfq-scale; dashes: an estimate" if any(found["estimate"] for _, found in panels) else "sfq-scale"
    for at, (who, name) in enumerate((("sfq", "one run of sfq"), ("peer", scaled))):
        x = LEFT + 160 * at
        parts.append(f'<path class="line" stroke="{COLOURS[who]}" d="M{x} {height - 16}h24"/><text x="{x + 30}" y="{height - 12}">{name}</text>')
    return "\n".join([*parts, "</svg>", ""])


def panel(
    left: int, top: int, title: str, found: Mapping[str, Sequence[tuple[float, float]]], widest: str = "sfq", estimated: Sequence[str] = ()
) -> list[str]:
    """The lines of one panel. `widest` is the line with all sizes; the last size of those that are estimated is dashed."""
    sizes = [math.log10(size) for size, _ in found[widest]]
    values = [math.log10(cost) for line in found.values() for _, cost in line]
    low, high = math.floor(min(values)), math.ceil(max(values))
    span = max(sizes[-1] - sizes[0], 1e-9)

    def at(size: float, cost: float) -> tuple[float, float]:
        x = left + (math.log10(size) - sizes[0]) / span * (WIDTH - 20)
        return x, top + (high - math.log10(cost)) / max(high - low, 1) * (HEIGHT - 20)

    parts = [f'<text class="title" x="{left}" y="{top - 10}">{title}</text>']
    for power in range(low, high + 1):
        y = at(found[widest][0][0], 10**power)[1]
        parts.append(f'<path class="grid" d="M{left} {y:.1f}H{left + WIDTH - 20}"/>')
        parts.append(f'<text x="{left - 6}" y="{y + 4:.1f}" text-anchor="end">{power_text(power)}</text>')
    for size, _ in found[widest]:
        x = at(size, 10**low)[0]
        parts.append(f'<text x="{x:.1f}" y="{top + HEIGHT - 4}" text-anchor="middle">{size:,}</text>')
    for who, line in found.items():
        points = [f"{x:.1f},{y:.1f}" for x, y in (at(*it) for it in line)]
        known = points[:-1] if who in estimated else points
        parts.append(f'<polyline class="line" stroke="{COLOURS[who]}" points="{" ".join(known)}"/>')
        if who in estimated:
            parts.append(f'<polyline class="line guess" stroke="{COLOURS[who]}" points="{" ".join(points[-2:])}"/>')
        parts += [f'<circle cx="{it.split(",")[0]}" cy="{it.split(",")[1]}" r="3" fill="{COLOURS[who]}"/>' for it in known]
    return parts


def power_text(power: int) -> str:
    """A power of ten, in short."""
    return {-3: "0.001", -2: "0.01", -1: "0.1", 0: "1", 1: "10", 2: "100", 3: "1k", 4: "10k", 5: "100k", 6: "1M", 7: "10M"}.get(power, f"1e{power}")


def legend(left: int, y: int, unit: str) -> list[str]:
    """Which colour is which, and what the panels show."""
    parts = [f'<text x="{left}" y="{y}">{unit} for each row, over the number of rows:</text>']
    x = left + 310
    for who, colour in COLOURS.items():
        name = {"sfq": "sfq", "floor": "the floor, a C program for this alone", "peer": "the best peer (GEOS, sqlite3)"}[who]
        parts.append(f'<path class="line" stroke="{colour}" d="M{x} {y - 4}h24"/><text x="{x + 30}" y="{y}">{name}</text>')
        x += 60 + 6 * len(name)
    return parts
