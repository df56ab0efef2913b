"""The lanes of a day's picture: a row for each vehicle with its rides, late reports and times off duty. It takes matplotlib."""
from dataclasses import dataclass
from typing import Dict, List, Sequence, Tuple

from matplotlib.axes import Axes
from matplotlib.collections import PolyCollection
from matplotlib.colors import to_hex, to_rgb
from matplotlib.lines import Line2D
from matplotlib.patches import Patch

from day_reading import Bar, Day

EXPECTED = "#b7cfe6"
RIDING = "#2e6ca4"
BROKEN = "#c0392b"
CANCELLED = "#bdbdbd"
OFF = "#9a8f80"
LATEST = "#1d1d1d"
SHADE = "#f4f4f4"
MOST_LABELS = 60  # more rides than this are drawn without their numbers and limits
MOST_LATE_LABELS = 12
MOST_IDLE_LANES = 60  # of larger fleets only vehicles that had a ride are drawn
MOST_SHADES = 150  # more lanes than this are not told apart by their shade
BAR = 0.8  # of a row
OVER_ROWS = 0.7  # of a row, above the rides of a lane
SHORT = 0.025  # of the page's width, in which a number does not fit
SHARED = 0.4  # opacity of rides in a row that they share

Box = List[Tuple[float, float]]
Span = Tuple[float, float]


@dataclass
class Lane:
    """A vehicle's lane: where it begins from the top, in rows, the row of each bar, and how tall it is."""
    vehicle: int
    top: float
    rows: List[int]
    tall: float


def rows_of(bars: Sequence[Bar], last: float) -> Tuple[List[int], int]:
    """Returns a row within the lane for each bar, so that rides that share the vehicle stand below each other, and how many there are."""
    free_from: List[float] = []
    rows = []
    for bar in bars:
        row = next((r for r, free in enumerate(free_from) if free <= bar.confirmed), len(free_from))
        if row == len(free_from):
            free_from.append(0)
        free_from[row] = last + 1 if bar.end is None else bar.end
        rows.append(row)
    return rows, max(len(free_from), 1)


def shown_vehicles(day: Day) -> List[int]:
    """Returns all vehicles, or of a large fleet those that had a ride, came late or were off duty."""
    if len(day.log.vehicles) <= MOST_IDLE_LANES:
        return sorted(day.log.vehicles)
    return sorted(set(day.bars) | {vehicle for vehicle, _, _ in day.late} | set(day.off))


def lanes_of(day: Day, last: float, shared: bool = False) -> Tuple[List[Lane], float]:
    """Returns the lanes of the vehicles, each as tall as its rides need, or of one row that they share, and how tall all are together."""
    lanes, top = [], 0.0
    for vehicle in shown_vehicles(day):
        bars = day.bars.get(vehicle, [])
        rows, most = ([0] * len(bars), 1) if shared else rows_of(bars, last)
        lanes.append(Lane(vehicle, top, rows, most + OVER_ROWS))
        top += most + OVER_ROWS
    return lanes, top


def draw_lanes(axes: Axes, day: Day, lanes: Sequence[Lane], span: Span, shared: bool) -> None:
    """Draws all lanes with their legend."""
    boxes: Dict[str, List[Box]] = {EXPECTED: [], RIDING: [], CANCELLED: [], BROKEN: []}
    with_labels = sum(len(bars) for bars in day.bars.values()) <= MOST_LABELS
    for number, lane in enumerate(lanes):
        if number % 2 and len(lanes) <= MOST_SHADES:
            axes.axhspan(lane.top, lane.top + lane.tall, color=SHADE, zorder=0)
        draw_off(axes, day, lane, span)
        for bar, row in zip(day.bars.get(lane.vehicle, []), lane.rows):
            middle = lane.top + OVER_ROWS * 0.75 + row + 0.5
            put_bar(boxes, bar, middle, span[1])
            if with_labels:
                label_bar(axes, bar, middle, span)
    draw_boxes(axes, boxes, SHARED if shared else 1)
    if with_labels:
        draw_limits(axes, day, lanes, span)
    draw_late(axes, day, {lane.vehicle: lane.top + OVER_ROWS * 0.45 for lane in lanes})
    draw_frame(axes, day, lanes, shared)
    axes.legend(handles=legend_of(shared, with_labels), ncols=9, fontsize=7.5, loc="lower right", bbox_to_anchor=(1, 1), frameon=False,
                borderaxespad=0.2, handlelength=1.2, columnspacing=1.1)


def draw_frame(axes: Axes, day: Day, lanes: Sequence[Lane], shared: bool) -> None:
    """Sets the axes' numbers and title."""
    step = max(1, len(lanes) // 40)
    axes.set_yticks([lane.top + lane.tall / 2 for lane in lanes[::step]], [str(lane.vehicle) for lane in lanes[::step]])
    axes.set_ylim(lanes[-1].top + lanes[-1].tall if lanes else 1, 0)
    axes.set_ylabel("vehicle")
    axes.tick_params(axis="y", length=0)
    idle = len(day.log.vehicles) - len(lanes)
    notes = ["rides share a row"] * shared + [f"{idle} idle vehicles left out"] * (idle > 0)
    axes.set_title("Rides" + (f" ({'; '.join(notes)})" if notes else ""), loc="left", fontsize=10)


def legend_of(shared: bool, with_limits: bool) -> List[object]:
    """Returns a mark for each colour and sign of the lanes. Where rides share a row two at once have colours of their own."""
    opacity = SHARED if shared else 1
    marks: List[object] = [Patch(color=over(EXPECTED, opacity), label="to be picked up"), Patch(color=over(RIDING, opacity), label="aboard")]
    if shared:
        marks += [Patch(color=over(EXPECTED, opacity, over(EXPECTED, opacity)), label="two to be picked up"),
                  Patch(color=over(RIDING, opacity, over(EXPECTED, opacity)), label="one aboard, one to be"),
                  Patch(color=over(RIDING, opacity, over(RIDING, opacity)), label="two aboard, darker more")]
    marks.append(Patch(color=over(CANCELLED, opacity), label="cancelled"))
    if with_limits:
        marks.append(Line2D([], [], marker="|", color=LATEST, linestyle="", markersize=7, label="LATEST pickup"))
    return marks + [Patch(facecolor="white", edgecolor=BROKEN, label="promise broken"),
                    Line2D([], [], marker="v", color=BROKEN, linestyle="", label="late report"),
                    Patch(facecolor="white", edgecolor=OFF, hatch="////", linewidth=0, label="off duty")]


def over(colour: str, opacity: float, ground: str = "#ffffff") -> str:
    """Returns the colour that comes of one over another."""
    return to_hex([opacity * above + (1 - opacity) * below for above, below in zip(to_rgb(colour), to_rgb(ground))])


def draw_off(axes: Axes, day: Day, lane: Lane, span: Span) -> None:
    """Draws when a vehicle was off duty."""
    for begin, end in day.off.get(lane.vehicle, []):
        axes.fill_between([max(begin, span[0]), span[1] if end is None else end], lane.top + 0.06, lane.top + lane.tall - 0.06,
                          facecolor="none", edgecolor=OFF, hatch="////", linewidth=0, zorder=1)


def draw_limits(axes: Axes, day: Day, lanes: Sequence[Lane], span: Span) -> None:
    """Draws each ride's LATEST in the ride's row, where it is on the page."""
    marks = [(bar.latest, lane.top + OVER_ROWS * 0.75 + row + 0.5) for lane in lanes
             for bar, row in zip(day.bars.get(lane.vehicle, []), lane.rows) if span[0] <= bar.latest <= span[1] and not bar.cancelled]
    for colour, width in (("white", 4), (LATEST, 1.4)):
        axes.plot([moment for moment, _ in marks], [middle for _, middle in marks], "|", color=colour, markersize=9, markeredgewidth=width,
                  zorder=5)


def draw_late(axes: Axes, day: Day, tops: Dict[int, float]) -> None:
    """Draws late reports; few of them say how late."""
    few = len(day.late) <= MOST_LATE_LABELS
    axes.plot([moment for _, moment, _ in day.late], [tops[vehicle] for vehicle, _, _ in day.late], "v", color=BROKEN,
              markersize=5 if few else 3.5, markeredgewidth=0, zorder=5)
    for vehicle, moment, seconds in day.late if few else ():
        axes.annotate(f"{seconds} s late", (moment, tops[vehicle]), xytext=(5, 0), textcoords="offset points", fontsize=6.5,
                      color=BROKEN, va="center", zorder=6)


def put_bar(boxes: Dict[str, List[Box]], bar: Bar, middle: float, end: float) -> None:
    """Adds the parts of a ride to the boxes of their colours."""
    def put(colour: str, left: float, right: float) -> None:
        low, high = middle - BAR / 2, middle + BAR / 2
        boxes[colour].append([(left, low), (right, low), (right, high), (left, high)])

    last = end if bar.end is None else bar.end
    picked = last if bar.picked is None else bar.picked
    if bar.cancelled:
        put(CANCELLED, bar.confirmed, last)
    else:
        put(EXPECTED, bar.confirmed, picked)
        put(RIDING, picked, last)
    if bar.broken:
        put(BROKEN, bar.confirmed, last)


def draw_boxes(axes: Axes, boxes: Dict[str, List[Box]], opacity: float) -> None:
    """Draws the boxes of all colours."""
    for colour in (EXPECTED, RIDING, CANCELLED):
        axes.add_collection(PolyCollection(boxes[colour], facecolors=colour, linewidths=0, alpha=opacity, zorder=2))
    axes.add_collection(PolyCollection(boxes[BROKEN], facecolors="none", edgecolors=BROKEN, linewidths=1.2, zorder=3))
    ends = [(box[1][0], (box[1][1] + box[2][1]) / 2) for box in boxes[CANCELLED]]
    axes.plot([x for x, _ in ends], [y for _, y in ends], "x", color="#666666", markersize=4, zorder=4)


def label_bar(axes: Axes, bar: Bar, middle: float, span: Span) -> None:
    """Writes the number of a ride: within its bar, or behind it where the bar is short."""
    begin, end = span
    last = end if bar.end is None else bar.end
    light = (last if bar.picked is None else bar.picked) - bar.confirmed
    if last - bar.confirmed < (end - begin) * SHORT:
        axes.annotate(str(bar.request), (last, middle), xytext=(4, 0), textcoords="offset points", fontsize=6.5, va="center", zorder=6)
        return
    on_dark = light < (end - begin) * SHORT and not bar.cancelled
    axes.annotate(str(bar.request), (bar.picked if on_dark else bar.confirmed, middle), xytext=(2.5, 0), textcoords="offset points",
                  fontsize=6.5, va="center", color="white" if on_dark else "black", zorder=6)
