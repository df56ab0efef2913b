"""Small plots as SVG text: bars side by side, and points over time, with axes of round steps. No library is needed."""
from dataclasses import dataclass
from typing import Callable, List, Sequence, Tuple
from xml.sax.saxutils import escape

COLOURS = ("#2e6ca4", "#e0a030", "#4a9a5b", "#8e5aa8")
WIDTH, HEIGHT = 520, 240
LEFT, RIGHT, TOP, BOTTOM = 58, 12, 30, 44
DAY = 2 * 86_400  # larger times are not taken for seconds of a day

Point = Tuple[float, float]
Placing = Callable[[Point], Point]  # from values to pixels


@dataclass
class Series:
    """Points of one log, in order of x."""
    name: str
    points: List[Point]


@dataclass
class Plot:
    """A plot: its title, what its axes say, its series, and whether they are bars. `label` writes a value of x."""
    title: str
    below: str
    beside: str
    series: List[Series]
    bars: bool = False
    label: Callable[[float], str] = "{:.0f}".format


def time_label(moment: float) -> str:
    """Returns a second of the day as HH:MM, or plain."""
    return f"{int(moment) // 3600:02}:{int(moment) % 3600 // 60:02}" if 0 <= moment < DAY else f"{moment:.0f}"


def second_label(moment: int) -> str:
    """Returns a second of the day as HH:MM:SS, or plain."""
    return f"{time_label(moment)}:{moment % 60:02}" if 0 <= moment < DAY else str(moment)


def steps(low: float, high: float, most: int, units: Sequence[float] = (1, 2, 5, 10)) -> List[float]:
    """Returns round values from low to high, at most so many."""
    scale = 1.0
    while True:
        for unit in units[:-1]:
            size = unit * scale
            first = -(-low // size) * size
            values = [first + size * number for number in range(most + 1) if first + size * number <= high]
            if len(values) <= most:
                return values
        scale *= units[-1] / units[0]


def plot_svg(plot: Plot, x: float = 0, y: float = 0) -> str:
    """Returns the plot as a group at a place of a page."""
    points = [point for series in plot.series for point in series.points]
    low, high = (min(p[0] for p in points), max(p[0] for p in points)) if points else (0, 1)
    top = max([p[1] for p in points] + [0]) or 1
    gap = spacing(plot)
    low, high = (low - gap / 2, high + gap / 2) if plot.bars else (low, max(high, low + 1))
    scale_x = (WIDTH - LEFT - RIGHT) / (high - low)
    scale_y = (HEIGHT - TOP - BOTTOM) / (top * 1.05)

    def place(point: Point) -> Point:
        return LEFT + (point[0] - low) * scale_x, HEIGHT - BOTTOM - point[1] * scale_y

    parts = [f'<g transform="translate({x},{y})">', text(LEFT, 16, plot.title, "bold")]
    parts += grid(plot, low, high, top, place)
    for number, series in enumerate(plot.series):
        colour = COLOURS[number % len(COLOURS)]
        parts += bar_marks(plot, number, gap * scale_x, colour, place) if plot.bars else [line_mark(series, colour, place)]
    return "\n".join(parts + ["</g>"])


def spacing(plot: Plot) -> float:
    """Returns the least distance of two values of x."""
    values = sorted({point[0] for series in plot.series for point in series.points})
    return min((b - a for a, b in zip(values, values[1:])), default=1)


def text(x: float, y: float, words: str, weight: str = "normal", anchor: str = "start", size: int = 12, colour: str = "#222") -> str:
    """Returns a line of text."""
    return (f'<text x="{x:.1f}" y="{y:.1f}" font-family="sans-serif" font-size="{size}" font-weight="{weight}" '
            f'text-anchor="{anchor}" fill="{colour}">{escape(words)}</text>')


def grid(plot: Plot, low: float, high: float, top: float, place: Placing) -> List[str]:
    """Returns axes with their steps and words."""
    parts = []
    units = (60, 300, 600, 900, 1800, 3600, 7200, 14400, 36000) if plot.label is time_label else (1, 2, 5, 10)
    for value in steps(low, high, 8, units):
        x, y = place((value, 0))
        parts.append(f'<line x1="{x:.1f}" y1="{TOP}" x2="{x:.1f}" y2="{y:.1f}" stroke="#e6e6e6"/>')
        parts.append(text(x, y + 15, plot.label(value), anchor="middle", size=10))
    for value in steps(0, top, 5):
        x, y = place((low, value))
        parts.append(f'<line x1="{x:.1f}" y1="{y:.1f}" x2="{WIDTH - RIGHT}" y2="{y:.1f}" stroke="#e6e6e6"/>')
        parts.append(text(x - 5, y + 4, f"{value:,.0f}", anchor="end", size=10))
    parts.append(text(WIDTH - RIGHT, HEIGHT - 12, plot.below, anchor="end", size=11))
    parts.append(text(WIDTH - RIGHT, 16, plot.beside, anchor="end", size=11, colour="#666"))
    return parts


def bar_marks(plot: Plot, number: int, room: float, colour: str, place: Placing) -> List[str]:
    """Returns the bars of one series, beside those of the others."""
    width = max(room * 0.8 / len(plot.series), 0.8)
    parts = []
    for point in plot.series[number].points:
        x, y = place(point)
        left = x - width * len(plot.series) / 2 + width * number
        parts.append(f'<rect x="{left:.1f}" y="{y:.1f}" width="{width:.1f}" height="{HEIGHT - BOTTOM - y:.1f}" fill="{colour}"/>')
    return parts


def line_mark(series: Series, colour: str, place: Placing) -> str:
    """Returns the points of a series, joined."""
    dots = " ".join(f"{x:.1f},{y:.1f}" for x, y in map(place, series.points))
    return f'<polyline points="{dots}" fill="none" stroke="{colour}" stroke-width="1.5" stroke-linejoin="round"/>'
