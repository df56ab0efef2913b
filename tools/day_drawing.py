"""The page of a day: lanes, who waits, batches and prices, with the day's figures above. It takes matplotlib."""
import os
from typing import List, Optional

import matplotlib

matplotlib.use("Agg")
from matplotlib import pyplot  # noqa: E402
from matplotlib.axes import Axes  # noqa: E402
from matplotlib.figure import Figure  # noqa: E402
from matplotlib.ticker import FuncFormatter, MaxNLocator  # noqa: E402

from day_lanes import CANCELLED, EXPECTED, RIDING, draw_lanes, lanes_of  # noqa: E402
from day_reading import Day, figures_text  # noqa: E402

AWAY = "#e0a030"
STALE = "#8e5aa8"
MOST_GAPS = 200  # bars of more batches stand without gaps
TALLEST = 14  # inches of all lanes together
ROW = 0.21  # inches of a row of a lane
MOST_ROWS = 160  # with more, the rides of a vehicle share one row
SECONDS_OF_DAYS = 2 * 86_400  # larger times are not taken for seconds of a day
STEPS = (30, 60, 120, 300, 600, 900, 1800, 3600, 7200, 14400)  # seconds of a time axis


def time_text(moment: float, _place: Optional[int] = None) -> str:
    """Returns a second of the day as HH:MM or HH:MM:SS, another one plain."""
    if not 0 <= moment < SECONDS_OF_DAYS:
        return f"{moment:.0f} s"
    moment = int(moment)
    return f"{moment // 3600:02}:{moment % 3600 // 60:02}" + (f":{moment % 60:02}" if moment % 60 else "")


def time_steps(begin: float, end: float) -> List[float]:
    """Returns the steps of a time axis, whole minutes or hours."""
    step = next((s for s in STEPS if (end - begin) / s <= 12), (end - begin) / 8)
    return [step * k for k in range(int(begin // step), int(end // step) + 2) if begin <= step * k <= end]


def draw_waiting(axes: Axes, day: Day, begin: float, end: float) -> None:
    """Draws how many requests wait, over time."""
    times = [begin] + [moment for moment, _ in day.waiting] + [end]
    counts = [0] + [count for _, count in day.waiting] + [day.wait_now]
    axes.step(times, counts, where="post", color=RIDING, linewidth=1)
    axes.fill_between(times, counts, step="post", color=EXPECTED, label="requests without an answer yet")
    axes.legend(fontsize=7.5, loc="upper right", frameon=False, handlelength=1.2)
    axes.set_ylim(0, max(counts) * 1.15 + 0.2)
    axes.yaxis.set_major_locator(MaxNLocator(integer=True, nbins=5))
    axes.set_ylabel("requests")
    axes.set_title("Requests that wait for a seat", loc="left", fontsize=10)


def draw_costs(axes: Axes, day: Day) -> None:
    """Draws each batch's cost."""
    axes.vlines([batch.number for batch in day.batches], 0, [batch.cost for batch in day.batches], color=EXPECTED, linewidth=1)
    axes.plot([batch.number for batch in day.batches], [batch.cost for batch in day.batches], "o", color=RIDING,
              markersize=4 if len(day.batches) < 100 else 2, label="cost of a batch")
    axes.legend(fontsize=7.5, loc="upper right", frameon=False, handlelength=1.2)
    axes.set_ylim(0, max((batch.cost for batch in day.batches), default=0) * 1.25 + 1)
    axes.set_ylabel("cost")
    axes.tick_params(labelbottom=False)
    axes.set_title("Each batch: its cost, and what became of its requests", loc="left", fontsize=10)


def draw_outcomes(axes: Axes, day: Day) -> None:
    """Draws what became of each batch's requests."""
    numbers = [batch.number for batch in day.batches]
    below = [0] * len(numbers)
    stale = [batch.moved + batch.behind for batch in day.batches]
    for word, counts, colour in (("seated", [b.confirmed for b in day.batches], RIDING), ("away", [b.away for b in day.batches], AWAY),
                                 ("stale", stale, STALE), ("gone", [b.gone for b in day.batches], CANCELLED)):
        axes.bar(numbers, counts, bottom=below, width=0.8 if len(numbers) < MOST_GAPS else 1, color=colour, label=f"{word} {sum(counts)}")
        below = [a + b for a, b in zip(below, counts)]
    axes.set_ylim(0, max(below, default=0) * 1.4 + 0.5)
    axes.yaxis.set_major_locator(MaxNLocator(integer=True, nbins=4))
    axes.xaxis.set_major_locator(MaxNLocator(integer=True, nbins=12))
    axes.set_xlim(min(numbers, default=1) - 0.7, max(numbers, default=1) + 0.7)
    axes.set_xlabel("batch")
    axes.set_ylabel("requests")
    axes.legend(ncols=4, fontsize=7.5, loc="upper left", frameon=False, handlelength=1, columnspacing=1.2)


def draw_prices(axes: Axes, day: Day) -> None:
    """Draws the spread of prices."""
    both = [day.seated_prices, day.other_prices]
    if any(both):
        axes.hist(both, bins=min(40, max(8, len(both[0] + both[1]) // 8)), stacked=True, color=[RIDING, AWAY],
                  label=[f"with a seat {len(both[0])}", f"without {len(both[1])}"])
        axes.legend(fontsize=7.5, frameon=False, handlelength=1)
    axes.yaxis.set_major_locator(MaxNLocator(integer=True, nbins=5))
    axes.set_ylim(top=axes.get_ylim()[1] * 1.1)
    axes.set_xlabel("price")
    axes.set_ylabel("requests")
    axes.set_title("Prices of requests in their batches", loc="left", fontsize=10)


def draw(day: Day, name: str) -> Figure:
    """Returns the page of a day."""
    begin, end = day.span()
    margin = (end - begin) * 0.02
    span = (begin - margin, end + margin)
    rows, tall = lanes_of(day, span[1])
    shared = tall > MOST_ROWS
    if shared:
        rows, tall = lanes_of(day, span[1], shared)
    lanes_tall = min(TALLEST, max(2.0, ROW * tall))
    figure = pyplot.figure(figsize=(12.5, lanes_tall + 6.9), layout="constrained")
    grid = figure.add_gridspec(4, 2, height_ratios=[lanes_tall, 1.3, 1.5, 1.5], width_ratios=[1.7, 1])
    lanes = figure.add_subplot(grid[0, :])
    waiting = figure.add_subplot(grid[1, :], sharex=lanes)
    draw_lanes(lanes, day, rows, span, shared)
    draw_waiting(waiting, day, *span)
    lanes.set_xlim(*span)
    lanes.set_xticks(time_steps(*span))
    lanes.xaxis.set_major_formatter(FuncFormatter(time_text))
    for axes in (lanes, waiting):
        axes.grid(axis="x", color="#e2e2e2", linewidth=0.6)
        axes.set_axisbelow(True)
    costs = figure.add_subplot(grid[2, 0])
    draw_costs(costs, day)
    outcomes = figure.add_subplot(grid[3, 0], sharex=costs)
    draw_outcomes(outcomes, day)
    figure.align_ylabels([costs, outcomes])
    draw_prices(figure.add_subplot(grid[2:, 1]), day)
    for axes in figure.axes:
        axes.spines[["top", "right"]].set_visible(False)
    figure.suptitle(f"{name}: {day.log.totals()}\n{figures_text(day.figures)}", fontsize=10, x=0.01, ha="left")
    return figure


def save(day: Day, path: str, out: str) -> None:
    """Writes the page of a log's day as OUT.svg and OUT.png."""
    pyplot.rcParams["svg.hashsalt"] = "day_picture"
    pyplot.rcParams["svg.fonttype"] = "none"
    figure = draw(day, os.path.basename(path))
    figure.savefig(f"{out}.svg", metadata={"Date": None})
    figure.savefig(f"{out}.png", dpi=110)
    pyplot.close(figure)
