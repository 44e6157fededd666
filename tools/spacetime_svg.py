"""The marks of a space-time picture, as SVG."""

from html import escape

LEFT, TOP, COLUMN, ROW, BOTTOM = 92, 92, 112, 118, 70
COLOURS = ("#1f6fb2", "#b2541f", "#2e8b57", "#8a3fa0", "#a08a1f", "#b21f5e", "#1f9aa0", "#5a5f66")
INK, PALE, RED = "#222222", "#9a9a9a", "#c02020"
MARK = 7  # the radius of a mark: arrows end at its edge


class Picture:
    def __init__(self, sites, steps, retires):
        self.width = LEFT + COLUMN * max(steps, 1)
        self.height = TOP + ROW * (sites - 1) + BOTTOM + 34
        self.below, self.above = [], []
        for site in range(sites):
            y = self.y(site)
            self.line(LEFT - 20, y, self.width - 12, y, COLOURS[site], 1)
            self.text(14, y + 5, f"site {site}", COLOURS[site], anchor="start", weight="bold")
        self.legend(TOP + ROW * (sites - 1) + BOTTOM + 12, retires)

    @staticmethod
    def x(column):
        return LEFT + COLUMN * column + COLUMN // 2 - 20

    @staticmethod
    def y(site):
        return TOP + ROW * site

    def line(self, x1, y1, x2, y2, colour, width, dashes=""):
        self.below.append(
            f'<line x1="{x1}" y1="{y1}" x2="{x2:.1f}" y2="{y2:.1f}" stroke="{colour}" stroke-width="{width}"{dashes}/>'
        )

    def text(self, x, y, words, colour=INK, anchor="middle", weight="normal", size=13):
        # A white edge keeps words readable where an arrow passes behind them.
        self.above.append(
            f'<text x="{x}" y="{y}" text-anchor="{anchor}" font-weight="{weight}" font-size="{size}" fill="{colour}"'
            f' stroke="white" stroke-width="4" paint-order="stroke">{escape(words)}</text>'
        )

    def labels(self, site, column, over, under, colour=INK):
        x, y = self.x(column), self.y(site)
        self.text(x, y - 14, over, colour)
        self.text(x, y + 25, under, colour)

    def labels_aside(self, site, column, words, origins, colour=INK):
        """On the side from which no arrow comes, or else below."""
        over = bool(origins) and min(origins) > site
        first = self.y(site) - 14 - 16 * (len(words) - 1) if over else self.y(site) + 25
        for at, line in enumerate(words):
            self.text(self.x(column), first + 16 * at, line, colour)

    def circle(self, site, column, fill):
        x, y, colour = self.x(column), self.y(site), COLOURS[site]
        self.above.append(
            f'<circle cx="{x}" cy="{y}" r="{MARK}" fill="{fill or colour}" stroke="{colour}" stroke-width="2"/>'
        )

    def cross(self, site, column, colour):
        x, y = self.x(column), self.y(site)
        self.above.append(
            f'<path d="M{x - 6} {y - 6}L{x + 6} {y + 6}M{x - 6} {y + 6}L{x + 6} {y - 6}"'
            f' stroke="{colour}" stroke-width="3"/>'
        )

    def step_number(self, column, number):
        self.text(self.x(column), 18, str(number), PALE, size=11)

    def put(self, site, column, what, name):
        self.circle(site, column, None)
        self.labels(site, column, what, name)

    def get(self, site, column, what, read):
        self.circle(site, column, "white")
        self.labels(site, column, what, read)

    def delivery(self, site, column, words, origin):
        x, y = self.x(column), self.y(site)
        self.above.append(f'<rect x="{x - 4}" y="{y - 4}" width="8" height="8" fill="{COLOURS[site]}"/>')
        self.labels_aside(site, column, words, [origin])

    def drain(self, site, column, words, origins):
        x, y, r = self.x(column), self.y(site), MARK + 2
        self.above.append(f'<path d="M{x} {y - r}L{x + r} {y}L{x} {y + r}L{x - r} {y}Z" fill="{COLOURS[site]}"/>')
        self.labels_aside(site, column, words, origins)

    def retirement(self, site, column):
        """A bar, behind which the site's line is dotted."""
        x, y = self.x(column), self.y(site)
        self.line(x, y, self.width - 12, y, "white", 3)
        self.line(x, y, self.width - 12, y, COLOURS[site], 1, ' stroke-dasharray="1 5"')
        self.above.append(f'<rect x="{x - 2}" y="{y - 11}" width="4" height="22" fill="{COLOURS[site]}"/>')
        self.text(x, y - 18, "retired")

    def refusal(self, site, column, what, why):
        self.cross(site, column, PALE)
        self.labels(site, column, what, why, PALE)

    def nowhere(self, column, what, why):
        """A step that names a site that has no line: beside its number."""
        self.text(self.x(column), 34, what, PALE)
        self.text(self.x(column), 50, why, PALE)

    def arrow(self, origin, begun, site, column, colour=None):
        """From the put's mark to the edge of the mark where it arrives."""
        x1, y1, x2, y2 = self.x(begun), self.y(origin), self.x(column), self.y(site)
        length = ((x2 - x1) ** 2 + (y2 - y1) ** 2) ** 0.5
        along = [(x2 - x1) / length, (y2 - y1) / length]
        tip = [x2 - along[0] * (MARK + 3), y2 - along[1] * (MARK + 3)]
        back = [tip[0] - along[0] * 10, tip[1] - along[1] * 10]
        wings = [(back[0] + side * along[1] * 4, back[1] - side * along[0] * 4) for side in (1, -1)]
        colour = colour or COLOURS[origin]
        self.line(x1, y1, *back, colour, 1.6)
        points = " ".join(f"{x:.1f},{y:.1f}" for x, y in [tip, *wings])
        self.below.append(f'<polygon points="{points}" fill="{colour}"/>')

    def refused_arrow(self, origin, begun, site, column, causes, why):
        """The delivery, and a dashed line from each missing put, in its site's colour."""
        self.arrow(origin, begun, site, column, RED)
        for cause, put in causes:
            ends = (self.x(put), self.y(cause), self.x(column), self.y(site))
            self.line(*ends, COLOURS[cause], 1.6, ' stroke-dasharray="6 4"')
        self.cross(site, column, RED)
        self.labels_aside(site, column, why, [origin, *(cause for cause, _ in causes)], RED)

    def legend(self, y, retires):
        marks = ("● put key = value, named site:clock", "○ get", "■ delivery", "◆ drain", "✕ refused")
        words = "\u2003".join((*marks, "- - a put that it waits for", *["┃ retired"] * retires))
        self.text(14, y, words, "#555555", anchor="start", size=12)

    def svg(self):
        head = (
            f'<svg xmlns="http://www.w3.org/2000/svg" width="{self.width}" height="{self.height}"'
            f' viewBox="0 0 {self.width} {self.height}" font-family="sans-serif">'
        )
        paper = f'<rect width="{self.width}" height="{self.height}" fill="white"/>'
        return "\n".join([head, paper, *self.below, *self.above, "</svg>"]) + "\n"
