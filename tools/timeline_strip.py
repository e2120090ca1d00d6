"""A strip of tools/timeline's picture: some calls side by side, with their names and answers, a lane for every slot, the
doorbell and the free descriptors."""
from timeline_paper import BLUE, FAINT, INK, ORANGE, RED, SOFT, WHITE, mark, wide
from timeline_read import ACKNOWLEDGE, CALLS, ON_SLOT, OPEN, WRITEBACK

LEFT, LANE, LABEL, CHART = 136, 20, 11, 54
KINDS = {0: "control", 2: "bulk", 3: "interrupt"}
PHASES = {"linked": dict(fill=BLUE, stroke=BLUE), "unlinking": dict(fill="url(#hatch)", stroke=ORANGE)}
STROKES = [dict(stroke=BLUE, width=3.5), dict(stroke=RED, width=1.8, dash="5 3")]


class Strip:
    """Some calls side by side, from `first` to `last`."""

    def __init__(self, picture, first, last):
        self.picture, self.paper = picture, picture.paper
        self.first, self.last, self.column = first, last, picture.column
        self.end = LEFT + (last - first + 1) * self.column

    def left(self, at):
        return LEFT + (at - self.first) * self.column

    def middle(self, at):
        return self.left(at) + self.column / 2

    def calls(self):
        return range(self.first, self.last + 1)

    def draw(self, y):
        under = len(self.paper.parts)
        top, y = y, self.header(y)
        lanes, y = y + 6, self.doorbell(self.lanes(y + 6) + 4)
        self.openings(lanes, y)
        y = self.chart(self.waits(y + 5) + 16)
        above, self.paper.parts = self.paper.parts[under:], self.paper.parts[:under]
        self.bands(top, y)
        self.paper.parts += above
        self.hovers(top, y)
        return y

    # ---- behind and over everything

    def bands(self, top, bottom):
        """Where the sides part: the first call strongly, the others lightly."""
        apart = self.picture.apart
        for at in self.calls():
            if at in apart:
                self.picture.band("first" if at == apart[0] else "further", self.left(at), top, self.column, bottom - top)
        for at in apart[:1]:
            if at in self.calls():
                self.flag(at, top)

    def openings(self, top, bottom):
        """A line where a controller is opened anew."""
        for at in self.calls():
            if at and self.picture.records[at].call == OPEN:
                self.paper.line(self.middle(at), top, self.middle(at), bottom, stroke=SOFT, width=1.5)

    def flag(self, at, top):
        words, x = f"A and B part at call {at}", self.middle(at)
        half = wide(words, LABEL) / 2
        self.paper.text(min(max(x, LEFT + half), self.end - half), top - 5, words, size=LABEL, anchor="middle", weight="bold")

    def hovers(self, top, bottom):
        """What was printed of a call, where the mouse rests."""
        for at in self.calls():
            told = "\n".join(self.printed(at))
            self.paper.rect(self.left(at), top, self.column, bottom - top, "none", inside=f"<title>{told}</title>", pointer_events="all")

    def printed(self, at):
        """A call's lines, at most forty of each side, under the side's letter."""
        sides = list(zip(self.picture.letters, self.picture.sides))
        if len(sides) > 1 and at not in self.picture.apart:
            sides = [("A and B", self.picture.sides[0])]
        return [line for letter, side in sides for line in [letter] * bool(letter) + side.blocks[at].lines[:40]]

    # ---- the calls

    def header(self, y):
        """Numbers, names and answers."""
        self.paper.text(LEFT - 10, y + 14, "call", size=LABEL, anchor="end", fill=SOFT)
        for at in self.calls():
            if self.numbered(at):
                self.paper.text(self.middle(at), y + 14, str(at), size=LABEL, anchor="middle", weight="bold")
        names = [called(self.picture.records[at]) for at in self.calls()]
        y = self.level_names(y + 18, names) if self.picture.level else self.turned_names(y + 18, names)
        for letter, side in zip(self.picture.letters, self.picture.sides):
            y += 15
            self.paper.text(LEFT - 10, y, f"answer {letter}".strip(), size=LABEL, anchor="end", fill=SOFT)
            for at in self.calls():
                self.paper.text(self.middle(at), y, str(side.blocks[at].answer), size=LABEL, anchor="middle")
        return y

    def numbered(self, at):
        """Every call's number; in narrow columns the first and every fifth, but none where the flag says it."""
        if wide(str(self.last), LABEL) + 3 <= self.column:
            return True
        if any(abs(at - other) < 2 for other in self.picture.apart[:1]):
            return False
        return at == self.first or at % 5 == 0 and at > self.first + 1

    def level_names(self, y, names):
        rows = [wrapped(name, self.column - 4) for name in names]
        for at, words in zip(self.calls(), rows):
            for i, word in enumerate(words):
                self.paper.text(self.middle(at), y + 12 + 13 * i, word, size=LABEL, anchor="middle")
        return y + 13 * max(map(len, rows)) + 2

    def turned_names(self, y, names):
        deep = max(wide(name, LABEL) for name in names)
        for at, name in zip(self.calls(), names):
            self.paper.text(self.middle(at) + 4, y + deep, name, size=LABEL, turn=-90)
        return y + deep + 4

    # ---- the lanes

    def slots(self):
        """The slots that are open here, and that are opened here, have a call or hold a request."""
        found = set()
        for side in self.picture.sides:
            met = {side.touched[at][0] for at in self.calls() if side.touched[at]}
            found |= {slot for slot, first, last, _ in side.opened if self.shows(first, last) and (slot in met or first >= self.first)}
            found |= {r.slot for r in side.requests if self.shows(r.begun, r.ended)}
        return sorted(found)

    def shows(self, first, last):
        """Whether something of these calls is in this strip; `last` None is without end."""
        return first <= self.last and (last is None or last >= self.first)

    def lanes(self, y):
        for slot in self.slots():
            self.paper.line(14, y, self.end, y, stroke=FAINT)
            self.named(slot, y + 15)
            for letter, side in zip(self.picture.letters, self.picture.sides):
                self.rail(y + 3, letter)
                self.lane(side, slot, y + 3 + LANE / 2)
                y += LANE
            y += 6
        return y

    def rail(self, y, letter):
        if letter == "B":
            self.paper.rect(LEFT - 22, y, self.end - LEFT + 22, LANE, fill=FAINT, opacity=0.45)
        self.paper.text(LEFT - 16, y + 14, letter, weight="bold")

    def named(self, slot, y):
        """A slot's number, and its endpoint below it or, in a lane of one row, beside it."""
        words, x = self.endpoint(slot), 20 + wide("slot 00", 12)
        self.paper.text(14, y, f"slot {slot}", weight="bold")
        if len(self.picture.sides) > 1:
            self.paper.text(14, y + 14, words, size=LABEL, fill=SOFT)
        elif x + wide(words, LABEL) < LEFT:
            self.paper.text(x, y, words, size=LABEL, fill=SOFT)

    def endpoint(self, slot):
        """Kind, device address and number of a slot's endpoint, where it is one in this strip."""
        found = {s[3] for side in self.picture.sides for s in side.opened if s[0] == slot and self.shows(s[1], s[2])}
        if len(found) != 1:
            return ""
        kind, address, number = found.pop()
        return f"{KINDS.get(kind, 'kind ' + str(kind))} {address}.{number}"

    def lane(self, side, slot, y):
        for _, first, last, _ in (span for span in side.opened if span[0] == slot):
            self.stretch(first, last, lambda x, w: self.paper.line(x, y, x + w, y, stroke=SOFT))
        requests = [r for r in side.requests if r.slot == slot]
        touched = [at for at in self.calls() if side.touched[at] and side.touched[at][0] == slot]
        for r in requests:
            self.bar(r.begun, r.unlinked if r.unlinked is not None else r.ended, y, "linked", f"request {r.id}", touched)
            if r.unlinked is not None:
                self.bar(r.unlinked, r.ended, y, "unlinking", "unlinking", touched)
        for at in touched:
            self.touch(side, at, y)

    def touch(self, side, at, y):
        """The mark of a call on a slot."""
        how = side.touched[at][1]
        begun = any(r.begun == at for r in side.requests)
        ended = [r for r in side.requests if r.ended == at and r.answer is not None]
        kind = "submit" if begun else ("early" if ended[0].early else "collected") if ended else how
        if kind != "done":
            mark(self.paper, kind, self.middle(at), y)

    def stretch(self, first, last, paint):
        """From a call's middle to another's, as far as this strip goes."""
        if not self.shows(first, last):
            return
        x = self.middle(first) if first >= self.first else LEFT
        end = self.middle(last) if last is not None and last <= self.last else self.end
        paint(x, end - x)

    def bar(self, first, last, y, phase, words, touched):
        """A phase of a request, with its name in the widest gap between marks if it fits there."""

        def paint(x, w):
            self.paper.rect(x, y - 7, w, 14, **PHASES[phase])
            stops = [x] + [self.middle(at) for at in touched if x < self.middle(at) < x + w] + [x + w]
            gap, start = max((b - a, a) for a, b in zip(stops, stops[1:]))
            room, middle = wide(words, LABEL) + 6, start + gap / 2
            if gap - 16 > room:
                if phase == "unlinking":
                    self.paper.rect(middle - room / 2, y - 6, room, 12, fill=WHITE)
                self.paper.text(middle, y + 4, words, size=LABEL, anchor="middle", fill=WHITE if phase == "linked" else INK)

        self.stretch(first, last, paint)

    # ---- the doorbell and the descriptors

    def doorbell(self, y):
        self.paper.line(14, y, self.end, y, stroke=FAINT)
        self.paper.text(14, y + 15, "doorbell", weight="bold")
        for letter, side in zip(self.picture.letters, self.picture.sides):
            self.rail(y + 3, letter)
            for at in self.calls():
                kinds = side.marks[at]
                for i, kind in enumerate(kinds):
                    mark(self.paper, kind, self.middle(at) + 13 * i - 6.5 * (len(kinds) - 1), y + 3 + LANE / 2)
            y += LANE
        return y + 3

    def waits(self, y):
        """How many advances are waited for, where that changes on any side."""
        sides = self.picture.sides
        for row, words in enumerate(["advances", "waited for"] if len(sides) > 1 else ["advances waited for"]):
            self.paper.text(14, y + 14 + 14 * row, words, size=LABEL, fill=SOFT)
        for letter, side in zip(self.picture.letters, sides):
            y += 14
            self.paper.text(LEFT - 16, y, letter, weight="bold", size=LABEL)
            for at in self.calls():
                changed = at == self.first or any(other.waits[at] != other.waits[at - 1] for other in sides)
                if changed and side.waits[at] is not None:
                    self.paper.text(self.middle(at), y, str(side.waits[at]), size=LABEL, anchor="middle")
        return y

    def chart(self, y):
        """The free descriptors as steps; a number where they change."""
        self.paper.line(14, y - 8, self.end, y - 8, stroke=FAINT)
        self.paper.text(14, y + 12, "free", weight="bold")
        self.paper.text(14, y + 27, "descriptors", weight="bold")
        foot = y + 10 + CHART
        most = max([n for side in self.picture.sides for n in side.free[max(0, self.first - 1) : self.last + 1] if n is not None] or [0])
        height = lambda n: foot - CHART * n / max(1, most)
        for n in sorted({0, most}):
            self.paper.line(LEFT, height(n), self.end, height(n), stroke=FAINT)
            self.paper.text(LEFT - 10, height(n) + 4, str(n), size=LABEL, anchor="end", fill=SOFT)
        for i, side in enumerate(self.picture.sides):
            self.steps(side, height, STROKES[i])
        for at in self.calls():
            self.counts(at, height)
        return foot + 16

    def steps(self, side, height, stroke):
        """A change is drawn at the middle of its call."""
        d, before = "", side.free[self.first - 1] if self.first else None
        for at in self.calls():
            now = side.free[at]
            if now is not None:
                y, x = height(now), self.middle(at)
                d += f"M{self.left(at)} {height(before):.1f}H{x:.1f}V{y:.1f}" if before is not None else f"M{x:.1f} {y:.1f}"
                d += f"H{self.left(at) + self.column}"
            before = now
        if d:
            self.paper.path(d, **stroke)

    def counts(self, at, height):
        """The number beside a step: one where the sides are equal, else the higher above and the lower below."""
        now = [side.free[at] for side in self.picture.sides]
        before = [side.free[at - 1] for side in self.picture.sides] if at else []
        if None in now or now == before and at != self.first:
            return
        x = self.middle(at) + 6
        self.paper.text(x, height(max(now)) - 5, str(max(now)), size=LABEL)
        if min(now) < max(now):
            self.paper.text(x, height(min(now)) + 14, str(min(now)), size=LABEL)


def called(record):
    """A call's name, with what it is on."""
    name = CALLS[record.call]
    if record.call == ACKNOWLEDGE:
        return f"{name} 0x{record.numbers[0]:02x}"
    if record.call == WRITEBACK:
        return f"{name} {record.numbers[0]}" if record.numbers[0] < 1000 else f"{name} .."
    return f"{name} {record.small[0]}" if record.call in ON_SLOT else name


def wrapped(words, room, size=LABEL):
    """The words in rows that fit."""
    rows = [""]
    for word in words.split():
        longer = (rows[-1] + " " + word).strip()
        rows = rows[:-1] + [longer] if wide(longer, size) <= room else rows + [word]
    return [row for row in rows if row]
