"""The figures of logs side by side: as a table of text, and as a page with plots that needs nothing else."""
import argparse
from html import escape
from typing import Dict, List, Optional, Sequence, Tuple, Union

from player.figures import Figures, ratio
from player.plots import COLOURS, HEIGHT, WIDTH, Plot, Series, plot_svg, second_label, text, time_label

Columns = Sequence[Tuple[str, Figures]]

NAME_ROOM = 34  # characters of a figure's name in a table of text
WAIT_STEP = 60  # seconds of a bar of waits
MOST_BARS = 30
ROW = 15  # pixels of a line of text in an SVG page


def number_text(value: Optional[float]) -> str:
    """Returns a figure as text: whole numbers with commas, '-' for none."""
    return "-" if value is None else f"{value:,}"


def table_text(columns: Columns) -> str:
    """Returns the figures as a table of text, a column for each log."""
    values = [figures.values() for _, figures in columns]
    rooms = [max(len(name), *(len(number_text(value)) for value in column.values())) + 2
             for (name, _), column in zip(columns, values)]
    lines = [" " * NAME_ROOM + "".join(f"{name:>{room}}" for (name, _), room in zip(columns, rooms))] if len(columns) > 1 else []
    for name in values[0]:
        lines.append(f"{name:{NAME_ROOM}}" + "".join(f"{number_text(column[name]):>{room}}" for column, room in zip(values, rooms)))
    return "\n".join(lines)


def batch_text(columns: Columns) -> str:
    """Returns a line for each batch of each log: its time, cost, requests and what became of them, and the mean of their prices."""
    blocks = []
    for name, figures in columns:
        heads = ("batch", "time", "cost", "requests", "seated", "away", "stale", "price, mean")
        rows = [(note.number, second_label(note.time), note.cost, note.requests, note.seated, note.away, note.stale,
                 ratio(note.prices, note.requests, 1)) for note in figures.batches]
        blocks.append("\n".join([name] * (len(columns) > 1) + columns_of([heads, *rows])))
    return "\n\n".join(blocks)


def columns_of(rows: Sequence[Sequence[Union[str, float, None]]]) -> List[str]:
    """Returns the lines of a table whose columns are as wide as they have to be."""
    cells = [[cell if isinstance(cell, str) else number_text(cell) for cell in row] for row in rows]
    rooms = [max(map(len, column)) for column in zip(*cells)]
    return ["  ".join(f"{cell:>{room}}" for cell, room in zip(row, rooms)) for row in cells]


def page_path(path: str) -> str:
    """Returns the path of a page that an option names."""
    if not path.endswith((".html", ".svg")):
        raise argparse.ArgumentTypeError(f"{path}: a page is an .html or an .svg file")
    return path


def write_page(path: str, columns: Columns, notes: Sequence[str]) -> None:
    """Writes a page, .html or .svg."""
    page = html_page(columns, notes) if path.endswith(".html") else svg_page(columns, notes)
    with open(path, "w", encoding="utf-8") as file:
        file.write(page)


# Plots.

def plots(columns: Columns) -> List[Plot]:
    """Returns the plots of a page."""
    return [
        Plot("How long riders wait", "minutes from asking to pickup", "riders",
             [Series(name, wait_bars(figures)) for name, figures in columns], bars=True),
        Plot("Waiting through the day", "time of pickup", "mean s",
             [Series(name, means_of(figures.waits, span_of(columns))) for name, figures in columns], label=time_label),
        Plot("Cost of batches", "time of the batch", "cost, mean",
             [Series(name, means_of([(b.time, b.cost) for b in figures.batches], span_of(columns))) for name, figures in columns],
             label=time_label),
        Plot("Prices of requests", "time of the batch", "price, mean",
             [Series(name, means_of([(b.time, b.prices / b.requests) for b in figures.batches if b.requests], span_of(columns)))
              for name, figures in columns], label=time_label),
        Plot("Turned away", "time of the batch", "requests",
             [Series(name, sums_of([(b.time, b.away) for b in figures.batches], span_of(columns))) for name, figures in columns],
             label=time_label),
    ]


def wait_bars(figures: Figures) -> List[Tuple[float, float]]:
    """Returns how many riders wait so many whole minutes; those who wait longest stand in the last bar."""
    counts: Dict[int, int] = {}
    for _, wait in figures.waits:
        place = min(wait // WAIT_STEP, MOST_BARS)
        counts[place] = counts.get(place, 0) + 1
    return [(place, counts.get(place, 0)) for place in range(max(counts, default=0) + 1)]


def span_of(columns: Columns) -> int:
    """Returns the seconds of a point of a line: a fortieth of the day, in whole minutes."""
    moments = [moment for _, figures in columns for moment, _ in figures.waits]
    return max((max(moments) - min(moments)) // 40 // 60 * 60, 60) if moments else 60


def sums_of(pairs: Sequence[Tuple[int, float]], span: int) -> List[Tuple[float, float]]:
    """Returns the sum of the values of each span of time."""
    sums: Dict[int, float] = {}
    for moment, value in pairs:
        sums[moment // span] = sums.get(moment // span, 0) + value
    return [(place * span, value) for place, value in sorted(sums.items())]


def means_of(pairs: Sequence[Tuple[int, float]], span: int) -> List[Tuple[float, float]]:
    """Returns the mean of the values of each span of time."""
    counts = dict(sums_of([(moment, 1) for moment, _ in pairs], span))
    return [(place, value / counts[place]) for place, value in sums_of(pairs, span)]


# Pages.

def html_page(columns: Columns, notes: Sequence[str]) -> str:
    """Returns a page with a table and plots."""
    values = [figures.values() for _, figures in columns]
    heads = "".join(f'<th style="color:{COLOURS[number % len(COLOURS)]}">{escape(name)}</th>' for number, (name, _) in enumerate(columns))
    rows = "\n".join(f"<tr><td>{escape(name)}</td>" + "".join(f"<td>{number_text(column[name])}</td>" for column in values) + "</tr>"
                     for name in values[0])
    drawn = "\n".join(f'<svg xmlns="http://www.w3.org/2000/svg" width="{WIDTH}" height="{HEIGHT}" role="img" '
                      f'aria-label="{escape(plot.title)}">{plot_svg(plot)}</svg>' for plot in plots(columns))
    said = "".join(f"<p>{escape(note)}</p>" for note in notes)
    title = escape(", ".join(name for name, _ in columns))
    return f"""<!DOCTYPE html>
<html lang="en"><head><meta charset="utf-8"><title>Figures of {title}</title>
<style>body {{ font: 14px sans-serif; margin: 2em }} td, th {{ padding: 1px 10px; text-align: right }}
td:first-child {{ text-align: left }} tr:nth-child(even) {{ background: #f4f4f4 }} table {{ border-collapse: collapse }}
.page {{ display: flex; gap: 2em }} .page svg {{ display: block }}</style></head><body><h1>Figures of {title}</h1>{said}
<div class="page"><div><table><tr><th></th>{heads}</tr>
{rows}
</table></div>
<div>{drawn}</div></div></body></html>
"""


def svg_page(columns: Columns, notes: Sequence[str]) -> str:
    """Returns the table and the plots as one drawing."""
    lines = list(notes) + [""] + table_text(columns).splitlines()
    tall = max(ROW * (len(lines) + 2), HEIGHT * 5)
    room = 8 * max(len(line) for line in lines) + 30
    parts = [f'<svg xmlns="http://www.w3.org/2000/svg" width="{room + WIDTH}" height="{tall}">',
             f'<rect width="{room + WIDTH}" height="{tall}" fill="white"/>']
    for number, line in enumerate(lines):
        parts.append(text(12, ROW * (number + 2), line).replace("sans-serif", "monospace").replace("<text ", '<text xml:space="preserve" '))
    parts += [plot_svg(plot, room, HEIGHT * number) for number, plot in enumerate(plots(columns))]
    return "\n".join(parts + ["</svg>", ""])
