"""Draws the growth of the time with n, with d and with the number of steps, as plain SVG with logarithmic axes."""
from math import floor, log10

PANEL, GAP, TOP, HEIGHT = 260, 70, 60, 260
COLOURS = {"reduction": "#1f6fb4", "R alone": "#7d4fa8", "Popov form": "#c8501e", "determinant": "#2f8f4e"}
PROGRAMS = {"proved": "", "C": ' stroke-dasharray="5 4"'}  # plain C is drawn in dashes


def text(x, y, said, anchor="middle"):
    return f'<text x="{x:.1f}" y="{y:.1f}" text-anchor="{anchor}">{said}</text>'


class Panel:
    """Axes that hold all given points, the left of the picture being its x."""

    def __init__(self, x, title, points, marks):
        self.x = x
        xs, ys = zip(*points)
        self.low_x, self.high_x = log10(min(xs)), log10(max(xs))
        self.low_y, self.high_y = floor(log10(min(ys))), -floor(-log10(max(ys)))
        self.drawn = [
            f'<rect x="{x}" y="{TOP}" width="{PANEL}" height="{HEIGHT}" fill="none" stroke="#999"/>',
            text(x + PANEL / 2, TOP + HEIGHT + 36, title),
        ]
        for mark in marks:
            self.drawn.append(text(self.place(mark, 1)[0], TOP + HEIGHT + 16, mark))
        for power in range(self.low_y, self.high_y + 1):
            y = self.place(min(xs), 10**power)[1]
            self.drawn.append(f'<path d="M{x},{y:.1f}h{PANEL}" stroke="#ddd"/>')
            self.drawn.append(text(x - 6, y + 4, f"{10**power:,}" if power >= 0 else f"{10.0**power:g}", "end"))

    def place(self, x, y):
        right = (log10(x) - self.low_x) / (self.high_x - self.low_x or 1)
        up = (log10(y) - self.low_y) / (self.high_y - self.low_y or 1)
        return self.x + 8 + right * (PANEL - 16), TOP + HEIGHT - up * HEIGHT

    def line(self, points, colour, dashes):
        path = " ".join("{:.1f},{:.1f}".format(*self.place(*point)) for point in points)
        self.drawn.append(f'<polyline points="{path}" fill="none" stroke="{colour}" stroke-width="2"{dashes}/>')

    def dots(self, points, colour, filled):
        for x, y in (self.place(*point) for point in points):
            fill = colour if filled else "none"
            self.drawn.append(f'<circle cx="{x:.1f}" cy="{y:.1f}" r="2.5" fill="{fill}" stroke="{colour}"/>')


def picture(figures):
    """The picture of the figures of one run: one record for each input and service."""

    def points(series, service, program, key):
        return [(f[key], f[program]) for f in figures if f["series"] in series and f["service"] == service and f[key] > 0]

    panels = []
    kinds = [("n", ["n"]), ("d", ["d"]), ("steps", ["table", "n", "d"])]
    for number, (key, series) in enumerate(kinds):
        every = {(s, c): points(series, s, c, key) for s in COLOURS for c in PROGRAMS}
        all_points = [point for some in every.values() for point in some]
        marks = (1, 10, 100, 1000) if key == "steps" else sorted({x for x, _ in all_points})
        panel = Panel(GAP + number * (PANEL + GAP), key, all_points, marks)
        for (service, program), some in every.items():
            if key == "steps":
                panel.dots(some, COLOURS[service], program == "proved")
            else:
                panel.line(some, COLOURS[service], PROGRAMS[program])
        panels += panel.drawn
    legend = [text(GAP, 20, "microseconds per call, both axes logarithmic; plain C by dashes and rings", "start")]
    for place, (service, colour) in enumerate(COLOURS.items()):
        legend.append(f'<g fill="{colour}">{text(GAP + 100 * place, 42, service, "start")}</g>')
    width = GAP + len(kinds) * (PANEL + GAP)
    head = f'<svg xmlns="http://www.w3.org/2000/svg" width="{width}" height="{TOP + HEIGHT + 50}" font-family="sans-serif" font-size="12">'
    return "\n".join([head, '<rect width="100%" height="100%" fill="white"/>', *legend, *panels, "</svg>"]) + "\n"
