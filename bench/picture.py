"""A picture of lines over two axes, as SVG. The lower axis goes by doublings, and the upright one
begins at 0."""

import math
from html import escape

WIDTH, HEIGHT = 720, 400
LEFT, RIGHT, TOP, BOTTOM = 64, 220, 68, 56
# Colours that are told apart by colour-blind readers too.
COLOURS = ("#0072b2", "#d55e00", "#009e73", "#cc79a7", "#6a3d9a")
# How far apart the names of two lines are at least.
NAME_STEP = 16


def steps_to(most):
    """Round marks from 0 to what is just above the greatest value."""
    rough = most / 5
    power = 10 ** math.floor(math.log10(rough))
    step = next(power * times for times in (1, 2, 5, 10) if power * times >= rough)
    return [step * count for count in range(math.ceil(most / step) + 1)]


def text(x, y, words, extra=""):
    return f'<text x="{x:.1f}" y="{y:.1f}" {extra}>{escape(words)}</text>'


class Picture:
    def __init__(self, title, lower, upright):
        self.title, self.lower, self.upright = title, lower, upright
        self.lines = []

    def add(self, name, points):
        """A line, with its name at its end."""
        if not points:
            raise SystemExit(f"bench: there are no figures for {name}")
        self.lines.append((name, sorted(points)))

    def write(self, path):
        xs = sorted({x for _, points in self.lines for x, _ in points})
        marks = steps_to(max(y for _, points in self.lines for _, y in points))
        low, high = math.log2(xs[0]), math.log2(xs[-1])

        def across(x):
            return LEFT + (math.log2(x) - low) / (high - low) * (WIDTH - LEFT - RIGHT)

        def up(y):
            return HEIGHT - BOTTOM - y / marks[-1] * (HEIGHT - TOP - BOTTOM)

        path.write_text("\n".join(self.drawn(xs, marks, across, up)) + "\n")

    def drawn(self, xs, marks, across, up):
        """The lines of the file."""
        yield (
            f'<svg xmlns="http://www.w3.org/2000/svg" viewBox="0 0 {WIDTH} {HEIGHT}" '
            f'width="{WIDTH}" height="{HEIGHT}" font-family="sans-serif" font-size="12">'
        )
        yield f'<rect width="{WIDTH}" height="{HEIGHT}" fill="white"/>'
        yield text(LEFT, 24, self.title, 'font-size="15" font-weight="bold"')
        for mark in marks:
            y = up(mark)
            yield f'<path d="M{LEFT} {y:.1f}H{WIDTH - RIGHT}" stroke="#dddddd"/>'
            yield text(LEFT - 8, y + 4, f"{mark:g}", 'text-anchor="end"')
        shown = -math.inf
        for x in xs:
            # A mark that would cover the one before has no number.
            if across(x) - shown < 44:
                continue
            shown = across(x)
            yield text(shown, HEIGHT - BOTTOM + 18, f"{x:,.0f}", 'text-anchor="middle"')
        yield text((LEFT + WIDTH - RIGHT) / 2, HEIGHT - 14, self.lower, 'text-anchor="middle"')
        yield text(LEFT - 48, TOP - 18, self.upright)
        yield from self.curves(across, up)
        yield "</svg>"

    def curves(self, across, up):
        """Each line with its points, and the names beside the ends, from the lowest up."""
        below = math.inf
        ordered = sorted(enumerate(self.lines), key=lambda line: line[1][1][-1][1])
        for place, (name, points) in ordered:
            colour = COLOURS[place % len(COLOURS)]
            way = " ".join(f"{across(x):.1f},{up(y):.1f}" for x, y in points)
            yield f'<polyline points="{way}" fill="none" stroke="{colour}" stroke-width="2"/>'
            for x, y in points:
                yield f'<circle cx="{across(x):.1f}" cy="{up(y):.1f}" r="3.5" fill="{colour}"/>'
            x, y = points[-1]
            below = min(up(y) + 4, below - NAME_STEP)
            yield text(WIDTH - RIGHT + 12, below, name, f'fill="{colour}"')
