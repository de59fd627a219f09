"""Draws pictures."""

WIDTH, LEFT, BAR, STEP = 720, 180, 480, 22


def document(width, height, parts):
    """Returns a picture with a white background."""
    start = f'<svg xmlns="http://www.w3.org/2000/svg" viewBox="0 0 {width} {height}" font-family="sans-serif" font-size="12">'
    return "\n".join([start, f'<rect width="{width}" height="{height}" fill="#ffffff"/>', *parts, "</svg>", ""])


def text(x, y, words, more=""):
    return f'<text x="{x}" y="{y}"{more}>{words}</text>'


def legend(x, y, step, colours, more=""):
    """Returns a square of each colour, by its meaning, with the meaning after it."""
    found = []
    for at, (what, colour) in enumerate(colours.items()):
        found.append(f'<rect x="{x + step * at}" y="{y}" width="14" height="14" fill="{colour}"{more}/>')
        found.append(text(x + step * at + 20, y + 11, what))
    return found


def bars(y, rows, colours):
    """Returns bars below y, and where they end. A row has a name, values of the colours, which follow each other, and their text."""
    most, out = max(sum(values) for _, values, _ in rows) or 1, []
    for name, values, shown in rows:
        out.append(text(LEFT - 8, y + 12, name, ' text-anchor="end"'))
        x = LEFT
        for value, colour in ((value, colour) for value, colour in zip(values, colours.values()) if value):
            out.append(f'<rect x="{x:.1f}" y="{y}" width="{BAR * value / most:.1f}" height="16" fill="{colour}"/>')
            x += BAR * value / most
        out.append(text(f"{x + 6:.1f}", y + 12, shown))
        y += STEP
    return out, y
