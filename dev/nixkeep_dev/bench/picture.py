"""A picture of bench/nix.py for docs/PERFORMANCE.md: the time of an action over the size of the store, both by powers
of ten, for each way in which it is done."""
import math
from xml.sax.saxutils import escape

from nixkeep_dev.bench import chosen
from nixkeep_dev.bench.figures import shown

PANELS = ["query", "why"]
COLOURS = {"command": "#b3421b", "remote": "#1b6fb3", "server": "#2b8a3e", "Nix": "#666666"}
NAMES = {"command": "nixkeep, a command", "remote": "nixkeep-remote, a server", "server": "curl, a server",
         "Nix": "Nix"}
WIDTH, HEIGHT, PANEL, LEFT, TOP = 800, 330, 300, 60, 40
LEAST, GREATEST = 0.001, 10


def across(size):
    return PANEL * (math.log10(size) - 2) / 3


def down(time):
    return 220 * math.log10(GREATEST / time) / math.log10(GREATEST / LEAST)


def text(x, y, said, anchor="middle", more=""):
    return f'<text x="{x:.0f}" y="{y:.0f}" text-anchor="{anchor}"{more}>{escape(said)}</text>'


def axes(left, action):
    yield text(left + PANEL / 2, TOP - 14, f"{action}: time by the number of objects", more=' font-weight="bold"')
    for power in range(-3, 2):
        y = TOP + down(10 ** power)
        yield f'<path d="M{left} {y:.0f}h{PANEL}" stroke="#ddd"/>'
        yield text(left - 6, y + 4, shown(10 ** power, "s"), "end")
    for size in chosen.SIZES:
        yield text(left + across(size), TOP + 238, f"{size:,}")


def line(measured, left, action, way):
    """A way's line, with a dot for each size that was measured."""
    points = [(left + across(size), TOP + down(time)) for size in chosen.SIZES
              if (time := chosen.seconds(measured, way, action, size))]
    drawn = " ".join(f"{x:.0f},{y:.0f}" for x, y in points)
    yield f'<polyline points="{drawn}" fill="none" stroke="{COLOURS[way]}" stroke-width="2"/>'
    yield from (f'<circle cx="{x:.0f}" cy="{y:.0f}" r="3" fill="{COLOURS[way]}"/>' for x, y in points)


def key():
    for at, (way, name) in enumerate(NAMES.items()):
        x = LEFT + at * 190
        yield f'<path d="M{x} {HEIGHT - 14}h20" stroke="{COLOURS[way]}" stroke-width="3"/>'
        yield text(x + 26, HEIGHT - 10, name, "start")


def svg(measured: dict) -> str:
    """The picture, as a text."""
    lines = [f'<svg xmlns="http://www.w3.org/2000/svg" viewBox="0 0 {WIDTH} {HEIGHT}" font-family="sans-serif" '
             'font-size="12">', f'<rect width="{WIDTH}" height="{HEIGHT}" fill="white"/>']
    for at, action in enumerate(PANELS):
        left = LEFT + at * (PANEL + 80)
        lines += axes(left, action)
        for way in NAMES:
            lines += line(measured, left, action, way)
    return "\n".join([*lines, *key(), "</svg>"]) + "\n"
