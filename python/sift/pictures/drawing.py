"""A self-contained SVG as it grows, for the tools that draw."""
from xml.sax.saxutils import escape

INK = "#222222"
FONT = "DejaVu Sans, Verdana, sans-serif"
LONGEST = 110  # letters of a name


def ticks(low, high, most=5):
    """The numbers from one to another at which an axis has its ticks: both ends, and between them round ones."""
    step = next(step for power in range(6) for step in (10**power, 2 * 10**power, 5 * 10**power) if step * most >= high - low)
    between = [number for number in range(-(-low // step) * step, high, step) if min(number - low, high - number) * 2 >= step]
    return sorted({low, *between, high})


class Drawing:
    """The elements of a drawing, and how far down it goes by now."""

    def __init__(self, bottom=0):
        self.elements = []
        self.bottom = bottom

    def add(self, element):
        self.elements.append(element)

    def words(self, x, y, words, size=13, more=""):
        self.add(f'<text x="{x:g}" y="{y:g}" font-size="{size}"{more}>{escape(str(words))}</text>')

    def name(self, name):
        """What is drawn, in a line at the top, where it has a name."""
        if name:
            self.bottom += 22
            self.words(24, self.bottom, name if len(name) <= LONGEST else name[: LONGEST - 1] + "…", 12, ' fill="#555555"')
        self.bottom += 8

    def bar(self, x, y, width, height, fill, told="", more=""):
        title = f"<title>{escape(told)}</title>" if told else ""
        self.add(f'<rect x="{x:g}" y="{y:g}" width="{width:g}" height="{height:g}" fill="{fill}"{more}>{title}</rect>')

    def line(self, x, y, to_x, to_y, more):
        self.add(f'<line x1="{x:g}" y1="{y:g}" x2="{to_x:g}" y2="{to_y:g}" {more}/>')

    def svg(self, title, width, height, patterns=()):
        """The whole text, over white, with patterns that fills name."""
        head = [
            f'<svg xmlns="http://www.w3.org/2000/svg" width="{width:g}" height="{height:g}" viewBox="0 0 {width:g} {height:g}"'
            f' font-family="{FONT}" fill="{INK}">',
            f"<title>{escape(title)}</title>",
        ]
        defined = ["<defs>", *patterns, "</defs>"] if patterns else []
        white = [f'<rect width="{width:g}" height="{height:g}" fill="white"/>']
        return "\n".join(head + defined + white + self.elements + ["</svg>"]) + "\n"
