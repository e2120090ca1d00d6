"""The picture of tools/timeline: title, legend, strips of calls, and how the first block that differs differs."""
from timeline_paper import INK, MONO, SOFT, YELLOW, Paper, mark, wide
from timeline_read import STATE, short
from timeline_story import differences
from timeline_strip import LABEL, LEFT, PHASES, STROKES, Strip, called, wrapped

RIGHT, LEAST, MOST = 20, 22, 84
LEGEND = [
    ("open", "slot open"), ("submit", "submitted"), ("linked", "linked"), ("unlinking", "unlinking"), ("collected", "collected"),
    ("early", "collected while the controller may still read its descriptors"), ("pending", "collect: pending"),
    ("refused", "refused"), ("ring", "ring"), ("advance", "acknowledgment that reads the advance bit"),
    ("acknowledge", "other acknowledgment"), ("counts", "drain that counts an advance"), ("drain", "drain that counts none"),
]  # fmt: skip
TWO_SIDES = [("A", "free, A"), ("B", "free, B"), ("first", "first call that differs"), ("further", "further ones")]


class Picture:
    """records, the stories of one or two sides, their letters and names, the window of calls."""

    def __init__(self, log, records, sides, names, first, last, width, notes):
        self.log, self.records, self.sides, self.names, self.notes = log, records, sides, names, notes
        self.first, self.last, self.paper = first, last, Paper()
        count = last - first + 1
        room = width - LEFT - RIGHT
        self.column = max(LEAST, min(MOST, room // count))
        self.across = min(count, room // self.column)
        self.width = max(min(width, 720), LEFT + self.across * self.column + RIGHT)
        self.letters = "AB"[: len(sides)] if len(sides) > 1 else [""]
        self.apart = differences(*sides) if len(sides) > 1 else []
        words = [word for record in records[first : last + 1] for word in called(record).split()]
        self.level = max(wide(word, LABEL) for word in words) <= self.column  # else the names are turned

    def drawn(self):
        y = self.legend(self.title(26))
        for start in range(self.first, self.last + 1, self.across):
            y = Strip(self, start, min(self.last, start + self.across - 1)).draw(y + 30)
        y = self.parting(y + 16)
        return self.paper.whole(self.width, y + 8, f"What happened in {short(self.log)}", self.told())

    # ---- above and below the strips

    def title(self, y):
        paper = self.paper
        span = f"calls {self.first} to {self.last} of {len(self.sides[0].blocks)}"
        paper.text(14, y, short(self.log), size=17, weight="bold")
        paper.text(14 + wide(short(self.log), 17) + 24, y, span, fill=SOFT)
        y = y + 3
        for letter, name in zip(self.letters, self.names):
            paper.text(14, y + 17, letter, weight="bold", size=13)
            y = self.paragraph(32 if letter else 14, y, name, INK)
        for note in self.notes:
            y = self.paragraph(14, y + 2, note, SOFT)
        return y

    def paragraph(self, x, y, words, fill):
        """Words in as many rows as they need; the last row's y."""
        for row in wrapped(words, self.width - x - RIGHT, 12):
            y += 17
            self.paper.text(x, y, row, fill=fill)
        return y

    def legend(self, y):
        x, y = 14, y + 22
        for kind, words in LEGEND + (TWO_SIDES if len(self.sides) > 1 else []):
            space = 30 + wide(words, LABEL) + 14
            if x + space > self.width - 10 and x > 14:
                x, y = 14, y + 21
            self.sample(kind, x, y)
            self.paper.text(x + 28, y + 4, words, size=LABEL)
            x += space
        return y

    def sample(self, kind, x, y):
        if kind in ("linked", "unlinking"):
            self.paper.rect(x, y - 6, 23, 12, **PHASES[kind])
        elif kind in "AB":
            self.paper.path(f"M{x} {y}H{x + 23}", **STROKES["AB".index(kind)])
        elif kind == "open":
            self.paper.line(x, y, x + 23, y, stroke=SOFT)
        elif kind in ("first", "further"):
            self.band(kind, x + 4, y - 7, 16, 14)
        else:
            mark(self.paper, kind, x + 12, y)

    def band(self, kind, x, y, w, h):
        """Behind a call that differs."""
        first = kind == "first"
        self.paper.rect(x, y, w, h, fill=YELLOW, opacity=0.6 if first else 0.22)
        if first:
            self.paper.rect(x, y, w, h, fill="none", stroke=INK, dash="5 3", stroke_width=1.5)
        else:
            self.paper.line(x, y, x + w, y, stroke=SOFT, width=2)

    def told(self):
        where = f"The outputs part first at call {self.apart[0]}." if self.apart else "The outputs are the same." if len(self.sides) > 1 else ""
        return f"Calls {self.first} to {self.last}: requests by slot, the doorbell and the free descriptors. {where}".strip()

    def parting(self, y):
        """The lines of the first block that differs, and how many more do."""
        if len(self.sides) == 1:
            return y - 16
        if not self.apart:
            self.paper.text(14, y, "A and B are the same in every call.", weight="bold")
            return y
        at = self.apart[0]
        more = f"; {len(self.apart)} calls differ in all" if len(self.apart) > 1 else ""
        self.paper.text(14, y, f"They part first at call {at} ({called(self.records[at])}){more}:", weight="bold")
        for letter, words in first_lines(*(side.blocks[at] for side in self.sides)):
            y += 17
            self.paper.text(14, y, letter, weight="bold", size=13)
            self.paper.text(32, y, words, size=LABEL, family=MONO)
        return y


def first_lines(left, right):
    """The lines that only one of two blocks has, with their sides' letters; of the state, what differs."""
    told = [("A", line) for line in left.lines if line not in right.lines] + [("B", line) for line in right.lines if line not in left.lines]
    shown = told if len(told) <= 12 else told[:11] + [("", f".. and {len(told) - 11} lines more")]
    if left.state and right.state:
        for name in STATE:
            if left.state[name] != right.state[name]:
                shown.append(("", f"{name}: A {left.state[name]}, B {right.state[name]}"))
    return shown
