"""The chart and the table of bench.py, as text. Equal results give equal text."""
from html import escape

WIDTH = 720
LABELS = 190
RIGHT = 60
ROW = 20
HEAD = 46
COLOURS = {True: "#2f6f4f", False: "#b5523b"}


def text(x, y, words, anchor="start", colour="#24292f", size=12):
    return f'<text x="{x:g}" y="{y:g}" text-anchor="{anchor}" font-size="{size}" fill="{colour}">{escape(words)}</text>'


def scale(ratios):
    """The ratio at the right end of the axis: a multiple of a half, and more than 1."""
    return max(1.5, (int(2 * max(ratios, default=1)) + 1) / 2)


def svg(rows):
    """A bar for each job on each input: capvet's time over that of the faster library. A row is (input, job, ratio)."""
    most = scale([ratio for _, _, ratio in rows])
    span = WIDTH - LABELS - RIGHT
    height = HEAD + ROW * len(rows) + 30
    bottom = HEAD + ROW * len(rows)
    lines = [f'<svg xmlns="http://www.w3.org/2000/svg" width="{WIDTH}" height="{height}" viewBox="0 0 {WIDTH} {height}"'
             ' font-family="sans-serif" role="img" aria-label="Time of capvet over that of the faster library">',
             f'<rect width="{WIDTH}" height="{height}" fill="#ffffff"/>',
             text(12, 22, "Time of capvet over that of the faster of libcapnp and the crate capnp", size=14)]
    for half in range(int(2 * most) + 1):
        x = LABELS + span * half / 2 / most
        lines.append(f'<line x1="{x:g}" y1="{HEAD - 8}" x2="{x:g}" y2="{bottom}" stroke="#d0d7de"/>')
        lines.append(text(x, bottom + 16, f"{half / 2:g}", "middle", "#57606a"))
    for i, (name, job, ratio) in enumerate(rows):
        y = HEAD + ROW * i
        long = span * ratio / most
        lines.append(text(LABELS - 10, y + 11, f"{name}, {job}", "end"))
        lines.append(f'<rect x="{LABELS}" y="{y}" width="{long:.1f}" height="{ROW - 6}" fill="{COLOURS[ratio <= 1]}"/>')
        lines.append(text(LABELS + round(long, 1) + 6, y + 11, f"{ratio:.2f}"))
    one = LABELS + span / most
    lines.append(f'<line x1="{one:g}" y1="{HEAD - 8}" x2="{one:g}" y2="{bottom}" stroke="#24292f" stroke-dasharray="4 3"/>')
    return "\n".join(lines + ["</svg>", ""])


def table(rows):
    """The rows as a Markdown table. The first row is the heads. A `|` in a cell is escaped, as Markdown needs it."""
    heads, *rest = [[cell.replace("|", "\\|") for cell in row] for row in rows]
    parts = [heads, ["---" if i < 2 else "---:" for i in range(len(heads))], *rest]
    return "".join("| " + " | ".join(row) + " |\n" for row in parts)


def between(page, name, text):
    """The page with this text between its marks `<!-- NAME -->` and `<!-- end of NAME -->`."""
    begin, end = f"<!-- {name} -->\n", f"<!-- end of {name} -->"
    before, found, rest = page.partition(begin)
    _, closed, after = rest.partition(end)
    if not found or not closed:
        raise ValueError(f"the page has no marks of {name}")
    return before + begin + "\n" + text + "\n" + end + after
