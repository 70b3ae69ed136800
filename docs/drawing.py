"""Boxes of text and arrows between them, as SVG: what docs/pictures.py draws with.

All texts have one font with letters of one width, so a text that is too wide for its box is noticed here. A picture has a
white ground and names each colour, so it looks the same on a light page and on a dark one.
"""
import html
import sys

FONT = "ui-monospace, SFMono-Regular, Menlo, Consolas, 'DejaVu Sans Mono', monospace"
SIZE, LETTER, LINE, PAD = 12, 7.3, 16, 10
GROUND, EDGE, INK, QUIET, NEW = "#ffffff", "#c9d1d9", "#1f2933", "#5b6770", "#8250b0"

# Each kind of box: how it is filled, and its edge.
KINDS = {
    "state": ("#e8f1fb", "#3b78b8"),
    "rule": ("#e8f5ec", "#3f8f5b"),
    "choice": ("#fdf3e1", "#b9811f"),
    "learning": ("#f4ecfa", NEW),
    "plain": ("#f3f5f7", "#7b8794"),
    "blank": (GROUND, "#7b8794"),
    "frame": ("#fafbfc", EDGE),
}


class Box:
    """A rectangle, and the points of its sides at which arrows begin and end."""

    def __init__(self, x, y, width, height):
        self.x, self.y, self.width, self.height = x, y, width, height

    def left(self):
        return self.x, self.y + self.height / 2

    def right(self):
        return self.x + self.width, self.y + self.height / 2

    def top(self, part=0.5):
        return self.x + self.width * part, self.y

    def bottom(self, part=0.5):
        return self.x + self.width * part, self.y + self.height

    def line(self, number):
        """The middle of a line of its text, from 0."""
        return self.y + PAD + LINE * number + LINE / 2


def height_of(count):
    """The height of a box with `count` lines."""
    return 2 * PAD + LINE * count


class Picture:
    """A picture: its size, what it shows in a sentence, and its shapes from the back to the front."""

    def __init__(self, width, height, sentence):
        self.width, self.height, self.sentence, self.shapes = width, height, sentence, []

    def text(self, x, y, words, colour=QUIET, anchor="start", bold=False):
        """Words whose middle is at the height `y`."""
        weight = ' font-weight="bold"' if bold else ""
        place = f'x="{x:g}" y="{y + SIZE / 3:g}" fill="{colour}" text-anchor="{anchor}"{weight}'
        self.shapes.append(f"<text {place}>{html.escape(words, quote=False)}</text>")

    def box(self, x, y, width, kind, lines, title=None, height=None, centred=False):
        """A box of lines, before which a title stands in bold."""
        every = ([title] if title else []) + lines
        box = Box(x, y, width, height or height_of(len(every)))
        fill, edge = KINDS[kind]
        place = f'x="{x:g}" y="{y:g}" width="{width:g}" height="{box.height:g}"'
        self.shapes.append(f'<rect {place} rx="6" fill="{fill}" stroke="{edge}"/>')
        for number, words in enumerate(every):
            if len(words) * LETTER > width - PAD:
                sys.exit(f"too wide for its box: {words}")
            start, anchor = (x + width / 2, "middle") if centred else (x + PAD, "start")
            self.text(start, box.line(number), words, INK, anchor, bold=bool(title) and number == 0)
        return box

    def arrow(self, points, colour=QUIET, dashed=False, tip=True):
        """An arrow along these points, with round corners; a line where it has no tip."""
        path = f"M{points[0][0]:g} {points[0][1]:g}"
        for before, corner, after in zip(points, points[1:], points[2:]):
            (x, y), (end_x, end_y) = towards(corner, before), towards(corner, after)
            path += f" L{x:g} {y:g} Q{corner[0]:g} {corner[1]:g} {end_x:g} {end_y:g}"
        path += f" L{points[-1][0]:g} {points[-1][1]:g}"
        dashes = ' stroke-dasharray="4 3"' if dashed else ""
        head = f' marker-end="url(#tip{colour[1:]})"' if tip else ""
        self.shapes.append(f'<path d="{path}" fill="none" stroke="{colour}" stroke-width="1.5"{dashes}{head}/>')

    def across(self, box, other, colour=QUIET):
        """An arrow from the left side of a box to the right side of another, straight if their heights allow it."""
        end = other.right()
        height = min(max(end[1], box.y + 8), box.y + box.height - 8)
        middle = (box.x + end[0]) / 2
        bends = [] if height == end[1] else [(middle, height), (middle, end[1])]
        self.arrow([(box.x, height), *bends, end], colour)

    def svg(self):
        """The text of the file."""
        size = f'viewBox="0 0 {self.width} {self.height}" width="{self.width}" height="{self.height}"'
        tips = [
            f'<marker id="tip{colour[1:]}" viewBox="0 0 8 8" refX="7" refY="4" markerWidth="6" markerHeight="6" orient="auto">'
            f'<path d="M0 0L8 4L0 8z" fill="{colour}"/></marker>' for colour in (QUIET, NEW)]
        return "\n".join([
            f'<svg xmlns="http://www.w3.org/2000/svg" {size} role="img" font-family="{FONT}" font-size="{SIZE}">',
            f"<title>{html.escape(self.sentence, quote=False)}</title>",
            "<defs>", *tips, "</defs>",
            f'<rect x="0.5" y="0.5" width="{self.width - 1}" height="{self.height - 1}" rx="10" fill="{GROUND}" stroke="{EDGE}"/>',
            *self.shapes, "</svg>", ""])


def towards(start, end):
    """The point eight units from `start` on the way to `end`, or in the middle of a short way."""
    across, down = end[0] - start[0], end[1] - start[1]
    part = min(8 / max(abs(across) + abs(down), 1), 0.5)
    return start[0] + across * part, start[1] + down * part
