"""SVG for tools/timeline: shapes and text as elements, the symbols, and how wide a text will be."""
from xml.sax.saxutils import escape, quoteattr

INK, SOFT, FAINT, WHITE = "#222222", "#666666", "#d0d0d0", "#ffffff"
BLUE, ORANGE, RED, YELLOW = "#0072b2", "#e69f00", "#d55e00", "#f7e968"
SANS, MONO = "sans-serif", "monospace"


def wide(text, size, family=SANS):
    """About how wide a text is; a little more than in the widest usual font."""
    return len(text) * size * (0.61 if family == MONO else 0.58)


def number(value):
    return f"{value:.1f}".rstrip("0").rstrip(".") if isinstance(value, float) else str(value)


class Paper:
    def __init__(self):
        self.parts = []

    def put(self, tag, inside=None, **attributes):
        words = " ".join(f"{name.replace('_', '-')}={quoteattr(number(value))}" for name, value in attributes.items() if value is not None)
        self.parts.append(f"<{tag} {words}/>" if inside is None else f"<{tag} {words}>{inside}</{tag}>")

    def text(self, x, y, words, size=12, fill=INK, anchor=None, weight=None, family=None, turn=None):
        turned = f"rotate({turn} {number(x)} {number(y)})" if turn else None
        font = dict(font_size=size, font_weight=weight, font_family=family)
        self.put("text", escape(words), x=x, y=y, **font, fill=fill, text_anchor=anchor, transform=turned)

    def rect(self, x, y, w, h, fill, stroke=None, dash=None, inside=None, **more):
        self.put("rect", inside, x=x, y=y, width=w, height=h, fill=fill, stroke=stroke, stroke_dasharray=dash, **more)

    def line(self, x1, y1, x2, y2, stroke=INK, width=1, dash=None):
        self.put("line", x1=x1, y1=y1, x2=x2, y2=y2, stroke=stroke, stroke_width=width, stroke_dasharray=dash)

    def path(self, d, fill="none", stroke=None, width=1, dash=None):
        self.put("path", d=d, fill=fill, stroke=stroke, stroke_width=width, stroke_dasharray=dash)

    def whole(self, width, height, title, about):
        hatch = (
            f'<pattern id="hatch" width="6" height="6" patternUnits="userSpaceOnUse" patternTransform="rotate(45)">'
            f'<rect width="6" height="6" fill="{WHITE}"/><rect width="3" height="6" fill="{ORANGE}"/></pattern>'
        )
        w, h = number(width), number(height)
        head = f'<svg xmlns="http://www.w3.org/2000/svg" width="{w}" height="{h}" viewBox="0 0 {w} {h}" font-family="{SANS}" role="img">'
        names = f"<title>{escape(title)}</title>\n<desc>{escape(about)}</desc>\n<defs>{hatch}</defs>"
        page = f'<rect width="{w}" height="{h}" fill="{WHITE}"/>'
        return "\n".join([head, names, page] + self.parts + ["</svg>", ""])


def polygon(points):
    return "M" + "L".join(f"{number(float(x))} {number(float(y))}" for x, y in points) + "Z"


def mark(paper, kind, x, y):
    """A symbol with its middle at x, y; 10 wide."""
    if kind == "ring":
        paper.path(polygon([(x, y - 6), (x + 5.5, y + 4), (x - 5.5, y + 4)]), fill=INK, stroke=INK)
    elif kind in ("advance", "acknowledge"):
        paper.put("circle", cx=x, cy=y, r=4.5, fill=BLUE if kind == "advance" else WHITE, stroke=BLUE, stroke_width=1.5)
    elif kind in ("counts", "drain"):
        paper.path(polygon([(x, y - 6), (x + 6, y), (x, y + 6), (x - 6, y)]), fill=RED if kind == "counts" else WHITE, stroke=RED, width=1.5)
    elif kind == "submit":
        paper.path(polygon([(x - 4, y - 6.5), (x + 5, y), (x - 4, y + 6.5)]), fill=INK, stroke=WHITE)
    elif kind == "collected":
        paper.rect(x - 4.5, y - 6, 9, 12, fill=INK, stroke=WHITE)
    elif kind == "early":
        paper.path(polygon([(x, y - 10), (x + 10, y + 8), (x - 10, y + 8)]), fill=YELLOW, stroke=INK, width=1.5)
        paper.text(x, y + 6, "!", size=14, anchor="middle", weight="bold")
    elif kind in ("pending", "refused"):
        paper.put("circle", cx=x, cy=y, r=3.5, fill=WHITE, stroke=INK) if kind == "pending" else cross(paper, x, y)


def cross(paper, x, y):
    paper.line(x - 3.5, y - 3.5, x + 3.5, y + 3.5, width=1.8)
    paper.line(x - 3.5, y + 3.5, x + 3.5, y - 3.5, width=1.8)
